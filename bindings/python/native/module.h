/* What the files of the module share: how keys become bytes, and a map. */
#ifndef MODULE_H
#define MODULE_H

/* One binary for Python 3.10 and all later versions. */
#define Py_LIMITED_API 0x030A0000
#define PY_SSIZE_T_CLEAN
#include <Python.h>

#ifdef Py_GIL_DISABLED
#error "hot: this Python runs threads without a lock, which the module relies on"
#endif

#include "store.h"

/* A slot or a method that is a function, as tables have it. */
#define SLOT(function) ((void *)(uintptr_t)(function))
#define METHOD(function) ((PyCFunction)(uintptr_t)(function))

/* What each module of an interpreter has of its own, which no Python code can replace. */
typedef struct module_state {
    PyObject *pairs; /* the type of iterators */
} module_state;

/* ---- Keys as bytes: codes.c ---- */

/* Which keys a map has. A Codec has two functions; those of Codec.of are its kinds'. */
typedef struct codec {
    enum { OF_STR, OF_BYTES, OF_INT, OF_KINDS, OF_CALLS } kind;
    PyObject *kinds, *encode, *decode;
} codec;

/* A key's bytes: in `room`, or those of `owner`, a bytes object or a str. */
typedef struct code {
    const uint8_t *bytes;
    size_t length;
    PyObject *owner;
    uint8_t room[HOT_MAX_KEY];
} code;

/* -1 with TypeError unless `keys` is str, bytes, int or a pair of functions. */
int codec_init(codec *it, PyObject *keys);

/* What there is no key for, with an exception that says why: another object than a key, or a number that is out of range. */
enum { NO_KEY = -2 };

/* The bytes of a str or of bytes: NO_KEY with TypeError, which says what is wanted, for what is neither; or -1. */
int code_str(PyObject *key, code *to, const char *wanted);
int code_bytes(PyObject *key, code *to, const char *wanted);

/* Takes the bytes of a bytes object, whose own length they have, whatever a subclass says. The reference is taken over. */
int code_own(code *to, PyObject *owner);

/* TypeError for an object that is of another type than is wanted: NO_KEY, or -1 if there is no such exception. */
int raise_type(const char *wanted, PyObject *object);

/* What an exception of a number's conversion means: NO_KEY if the number is out of range. */
int raised_by_number(void);

/* An unsigned number of so many bytes, the greatest byte first. */
void put_word(uint8_t *to, uint64_t word, size_t size);
uint64_t word_at(const uint8_t *bytes, size_t size);

/* The number whose bits, as of two's complement, are these. */
PyObject *signed_of(uint64_t word);

/* Writes a key's bytes: NO_KEY or -1 with an exception if it is no key. What a Codec's own function raises is -1. It may run any Python code. */
int code_of(const codec *it, PyObject *key, code *to);
void code_end(code *it);

/* The same for a key that may be of any type: 1; or 0 for NO_KEY, where no key of a map is equal to it, and then there is nothing to end. */
int code_if_known(const codec *it, PyObject *key, code *to);

/* A key of these bytes. It may run any Python code. */
PyObject *key_of(const codec *it, const uint8_t *bytes, size_t length);

/* The value of an object: -1 with an exception if it is none. It may run any Python code. */
int value_of(PyObject *object, uint64_t *value);

/* An error of the package by its name: NULL with an exception. */
PyObject *own_error(const char *name);

/* Raises it. */
void raise_own(const char *name, const char *text);

/* Raises what a refusal becomes. */
void raise_status(hot_status status);

/* ---- Keys from values of several kinds: kinds.c ---- */

extern PyType_Spec kinds_spec;

/* The kinds whose functions these are, or NULL. */
PyObject *kinds_of(PyObject *encode, PyObject *decode);

/* As code_of and key_of. */
int code_kinds(PyObject *kinds, PyObject *key, code *to);
PyObject *key_of_kinds(PyObject *kinds, const uint8_t *bytes, size_t length);

/* key_of(*values), a function of the module. */
PyObject *code_of_values(PyObject *module, PyObject *values);

/* ---- Maps: map.c ---- */

typedef struct map {
    PyObject_HEAD
    store *store; /* NULL before __init__ */
    codec codec;
    int is_begun; /* whether an __init__ has got as far as to make it */
    int forks;    /* how often the process had forked with threads */
} map;

extern PyType_Spec map_spec;

/* The map's store: NULL with an exception if it can't be used. */
store *usable(map *it);

/* The type Map of an object that is a map, of a subclass too, or else NULL. It asks types alone: `__class__` and a module's names say what
 * Python code lets them say. */
PyTypeObject *map_type(PyObject *it);

/* After a fork, in the child of a process with threads: the maps that there are can't be used. */
void map_forked(void);

/* Its methods: one_key.c, many_keys.c, ranges.c, loads.c. */
PyObject *map_subscript(PyObject *self, PyObject *key);
int map_contains(PyObject *self, PyObject *key);
int map_ass_subscript(PyObject *self, PyObject *key, PyObject *value);
PyObject *map_get(PyObject *self, PyObject *const *words, Py_ssize_t count, PyObject *names);
PyObject *map_setdefault(PyObject *self, PyObject *const *words, Py_ssize_t count, PyObject *names);
PyObject *map_pop(PyObject *self, PyObject *const *words, Py_ssize_t count, PyObject *names);
PyObject *map_exchange(PyObject *self, PyObject *const *words, Py_ssize_t count, PyObject *names);
PyObject *map_remove_if(PyObject *self, PyObject *const *words, Py_ssize_t count, PyObject *names);
PyObject *map_add(PyObject *self, PyObject *const *words, Py_ssize_t count, PyObject *names);
PyObject *map_fetch_add(PyObject *self, PyObject *const *words, Py_ssize_t count, PyObject *names);
PyObject *map_get_many(PyObject *self, PyObject *keys);
PyObject *map_pairs(PyObject *self, PyObject *words);
PyObject *map_count(PyObject *self, PyObject *words);
PyObject *map_values(PyObject *self, PyObject *words);
PyObject *map_clear_range(PyObject *self, PyObject *words);
PyObject *map_pop_range(PyObject *self, PyObject *words);
PyObject *map_load(PyObject *self, PyObject *pairs);
PyObject *map_load_map(PyObject *self, PyObject *other);

/* ---- Iterators: pairs.c ---- */

extern PyType_Spec pairs_spec;

/* What an iterator lists: CODES are the bytes of keys. */
enum { KEYS, VALUES, ITEMS, CODES };

/* A pair, or NULL with an exception if either is NULL. The references are taken over. */
PyObject *pair_of(PyObject *key, PyObject *value);

/* The iterator of a map from one key's bytes to another's. */
PyObject *pairs_new(map *of, const code *from, const code *upto, int falls, int what);

#endif
