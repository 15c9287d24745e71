/* Calls of a map for one key. No Python code runs between taking a handle and giving it back, so nothing can come in between. */
#include "module.h"

typedef struct key_call {
    enum { GET, INSERT, UPSERT, REMOVE, EXCHANGE, REMOVE_IF } kind;
    code key;
    uint64_t value, expected, had;
} key_call;

static hot_status look_up(hot_handle *handle, void *what) {
    key_call *it = what;
    return hot_get(handle, it->key.bytes, it->key.length, &it->had);
}

static hot_status attempt(hot_handle *handle, void *what) {
    key_call *it = what;
    const uint8_t *key = it->key.bytes;
    size_t length = it->key.length;
    switch (it->kind) {
    case INSERT: return hot_try_insert(handle, key, length, it->value, &it->had);
    case UPSERT: return hot_try_upsert(handle, key, length, it->value, &it->had);
    case REMOVE: return hot_try_remove(handle, key, length, &it->had);
    case EXCHANGE: return hot_try_exchange(handle, key, length, it->expected, it->value, &it->had);
    default: return hot_try_remove_if(handle, key, length, it->expected, &it->had);
    }
}

/* The same, but it waits. */
static hot_status change(hot_handle *handle, void *what) {
    key_call *it = what;
    const uint8_t *key = it->key.bytes;
    size_t length = it->key.length;
    switch (it->kind) {
    case INSERT: return hot_insert(handle, key, length, it->value, &it->had);
    case UPSERT: return hot_upsert(handle, key, length, it->value, &it->had);
    case REMOVE: return hot_remove(handle, key, length, &it->had);
    case EXCHANGE: return hot_exchange(handle, key, length, it->expected, it->value, &it->had);
    default: return hot_remove_if(handle, key, length, it->expected, &it->had);
    }
}

/* Makes a call: its status, or -1 with an exception. */
static int call(map *it, key_call *what) {
    store *in = usable(it);
    if (!in)
        return -1;
    hot_status status = what->kind == GET ? store_read(in, look_up, what) : store_change(in, attempt, change, what);
    if (status < HOT_BUSY || status == HOT_EXCHANGED || status == HOT_DIFFERS)
        return (int)status;
    raise_status(status);
    return -1;
}

/* Makes a call for a key that may be of any type: HOT_ABSENT where no key of the map is equal to it. */
static int call_if_known(map *it, PyObject *key, key_call *what) {
    int is_known = code_if_known(&it->codec, key, &what->key);
    int status = is_known > 0 ? call(it, what) : is_known < 0 ? -1 : HOT_ABSENT;
    if (is_known > 0)
        code_end(&what->key);
    return status;
}

static int call_for(map *it, PyObject *key, key_call *what) {
    if (code_of(&it->codec, key, &what->key) < 0)
        return -1;
    int status = call(it, what);
    code_end(&what->key);
    return status;
}

/* Sets a key. The value is looked at behind the key. */
static int set(map *it, PyObject *key, PyObject *value, key_call *what) {
    if (code_of(&it->codec, key, &what->key) < 0)
        return -1;
    int status = value_of(value, &what->value) < 0 ? -1 : call(it, what);
    code_end(&what->key);
    return status;
}

static PyObject *raise_absent(PyObject *key) {
    /* A key that is a tuple is one argument. */
    PyObject *words = PyTuple_Pack(1, key);
    if (words)
        PyErr_SetObject(PyExc_KeyError, words);
    Py_XDECREF(words);
    return NULL;
}

static PyObject *value_or(int status, const key_call *what, PyObject *other) {
    if (status < 0)
        return NULL;
    if (status != HOT_ABSENT)
        return PyLong_FromUnsignedLongLong(what->had);
    Py_INCREF(other);
    return other;
}

/* ---- Methods for one key ---- */

/* A call and the names of its words: how many there are at most, and how many must be given. */
typedef struct call_words {
    const char *call, *names[3];
    int most, least;
} call_words;

/* Puts a word that was named in its place: -1 with TypeError. */
static int put_named(const call_words *of, PyObject *name, PyObject *word, PyObject **to) {
    for (int at = 0; at < of->most; at++) {
        if (PyUnicode_CompareWithASCIIString(name, of->names[at]) != 0)
            continue;
        if (to[at]) {
            PyErr_Format(PyExc_TypeError, "%s() got multiple values for argument '%U'", of->call, name);
            return -1;
        }
        to[at] = word;
        return 0;
    }
    PyErr_Format(PyExc_TypeError, "%s() got an unexpected keyword argument '%U'", of->call, name);
    return -1;
}

/* Takes the words of a call, of which the last ones may have names: -1 with TypeError. A word that is left out is NULL. */
static int take_words(const call_words *of, PyObject *const *words, Py_ssize_t count, PyObject *names, PyObject **to) {
    Py_ssize_t named = names ? PyTuple_Size(names) : 0;
    if (count + named > of->most || count + named < of->least) {
        PyErr_Format(PyExc_TypeError, "%s() takes from %d to %d arguments (%zd given)", of->call, of->least, of->most, count + named);
        return -1;
    }
    for (int at = 0; at < of->most; at++)
        to[at] = at < count ? words[at] : NULL;
    for (Py_ssize_t at = 0; at < named; at++)
        if (put_named(of, PyTuple_GetItem(names, at), words[count + at], to) < 0)
            return -1;
    for (int at = 0; at < of->least; at++)
        if (!to[at]) {
            PyErr_Format(PyExc_TypeError, "%s() missing required argument '%s'", of->call, of->names[at]);
            return -1;
        }
    return 0;
}

PyObject *map_subscript(PyObject *self, PyObject *key) {
    key_call what;
    what.kind = GET;
    int status = call_if_known((map *)self, key, &what);
    return status == HOT_ABSENT ? raise_absent(key) : value_or(status, &what, NULL);
}

int map_contains(PyObject *self, PyObject *key) {
    key_call what;
    what.kind = GET;
    int status = call_if_known((map *)self, key, &what);
    return status < 0 ? -1 : status == HOT_FOUND;
}

int map_ass_subscript(PyObject *self, PyObject *key, PyObject *value) {
    key_call what;
    what.kind = value ? UPSERT : REMOVE;
    if (value)
        return set((map *)self, key, value, &what) < 0 ? -1 : 0;
    int status = call_if_known((map *)self, key, &what);
    if (status == HOT_ABSENT)
        raise_absent(key);
    return status == HOT_REMOVED ? 0 : -1;
}

PyObject *map_get(PyObject *self, PyObject *const *words, Py_ssize_t count, PyObject *names) {
    static const call_words of = {"get", {"key", "default"}, 2, 1};
    PyObject *to[2];
    key_call what;
    what.kind = GET;
    if (take_words(&of, words, count, names, to) < 0)
        return NULL;
    return value_or(call_if_known((map *)self, to[0], &what), &what, to[1] ? to[1] : Py_None);
}

PyObject *map_setdefault(PyObject *self, PyObject *const *words, Py_ssize_t count, PyObject *names) {
    static const call_words of = {"setdefault", {"key", "default"}, 2, 1};
    PyObject *to[2];
    key_call what;
    what.kind = GET;
    if (take_words(&of, words, count, names, to) < 0)
        return NULL;
    PyObject *other = to[1] ? to[1] : Py_None;
    int status = call_if_known((map *)self, to[0], &what);
    if (status == HOT_ABSENT) {
        what.kind = INSERT;
        status = set((map *)self, to[0], other, &what);
        if (status == HOT_INSERTED)
            status = HOT_ABSENT;
    }
    return value_or(status, &what, other);
}

PyObject *map_pop(PyObject *self, PyObject *const *words, Py_ssize_t count, PyObject *names) {
    static const call_words of = {"pop", {"key", "default"}, 2, 1};
    PyObject *to[2];
    key_call what;
    what.kind = REMOVE;
    if (take_words(&of, words, count, names, to) < 0)
        return NULL;
    int status = call_if_known((map *)self, to[0], &what);
    return status == HOT_ABSENT && !to[1] ? raise_absent(to[0]) : value_or(status, &what, to[1]);
}

PyObject *map_exchange(PyObject *self, PyObject *const *words, Py_ssize_t count, PyObject *names) {
    static const call_words of = {"exchange", {"key", "expected", "value"}, 3, 3};
    PyObject *to[3];
    key_call what;
    what.kind = EXCHANGE;
    if (take_words(&of, words, count, names, to) < 0 || value_of(to[1], &what.expected) < 0)
        return NULL;
    int status = set((map *)self, to[0], to[2], &what);
    return status < 0 ? NULL : PyBool_FromLong(status == HOT_EXCHANGED);
}

PyObject *map_remove_if(PyObject *self, PyObject *const *words, Py_ssize_t count, PyObject *names) {
    static const call_words of = {"remove_if", {"key", "expected"}, 2, 2};
    PyObject *to[2];
    key_call what;
    what.kind = REMOVE_IF;
    if (take_words(&of, words, count, names, to) < 0 || value_of(to[1], &what.expected) < 0)
        return NULL;
    int status = call_for((map *)self, to[0], &what);
    return status < 0 ? NULL : PyBool_FromLong(status == HOT_REMOVED);
}

/* ---- Additions ---- */

/* A number that is added: its distance from 0, which may be beyond all values, and on which side it lies. */
typedef struct addend {
    uint64_t distance;
    int is_down, is_beyond;
} addend;

/* The magnitude of an int, if it is that of a value: 0, or -1 without an exception. */
static int magnitude_of(PyObject *number, uint64_t *distance) {
    *distance = PyLong_AsUnsignedLongLong(number);
    if (!PyErr_Occurred())
        return 0;
    PyErr_Clear();
    return -1;
}

static int addend_of(PyObject *object, addend *to) {
    PyObject *number = PyNumber_Index(object), *negative = NULL;
    if (!number)
        return -1;
    to->is_down = to->is_beyond = 0;
    if (magnitude_of(number, &to->distance) < 0) {
        to->is_down = 1;
        negative = PyNumber_Negative(number);
        to->is_beyond = negative && magnitude_of(negative, &to->distance) < 0;
    }
    Py_DECREF(number);
    int status = to->is_down && !negative ? -1 : 0;
    Py_XDECREF(negative);
    return status;
}

/* The sum, if it is a value: else -1 with an exception. */
static int sum(uint64_t had, const addend *by, uint64_t *to) {
    *to = by->is_down ? had - by->distance : had + by->distance;
    if (!by->is_beyond && (by->is_down ? by->distance <= had : *to >= had))
        return 0;
    PyErr_SetString(PyExc_OverflowError, "a value must be from 0 to 2**64 - 1");
    return -1;
}

/* Adds to a key's value, which is then `had`; an absent key gets the number if `puts`. HOT_ABSENT if it stays absent, HOT_INSERTED
 * if it was; else HOT_EXCHANGED. */
static int add(map *it, key_call *what, const addend *by, int puts) {
    what->kind = GET;
    int status = call(it, what);
    for (;;) {
        if (status == HOT_ABSENT && !puts)
            return status;
        if (status < 0)
            return -1;
        what->expected = status == HOT_ABSENT ? 0 : what->had;
        if (sum(what->expected, by, &what->value) < 0)
            return -1;
        what->kind = status == HOT_ABSENT ? INSERT : EXCHANGE;
        status = call(it, what);
        if (status == HOT_EXCHANGED || status == HOT_INSERTED)
            return status;
    }
}

/* Adds the second word, or 1 if it is left out. */
static PyObject *added(PyObject *self, PyObject **words, int puts) {
    map *it = (map *)self;
    addend by = {.distance = 1};
    key_call what;
    if (code_of(&it->codec, words[0], &what.key) < 0)
        return NULL;
    int status = -1;
    if (!words[1] || addend_of(words[1], &by) == 0)
        status = !puts && what.key.length > HOT_MAX_KEY ? HOT_ABSENT : add(it, &what, &by, puts);
    code_end(&what.key);
    if (status == HOT_ABSENT)
        return raise_absent(words[0]);
    return status < 0 ? NULL : PyLong_FromUnsignedLongLong(status == HOT_INSERTED ? 0 : what.had);
}

PyObject *map_add(PyObject *self, PyObject *const *words, Py_ssize_t count, PyObject *names) {
    static const call_words of = {"add", {"key", "number"}, 2, 1};
    PyObject *to[2];
    return take_words(&of, words, count, names, to) < 0 ? NULL : added(self, to, 0);
}

PyObject *map_fetch_add(PyObject *self, PyObject *const *words, Py_ssize_t count, PyObject *names) {
    static const call_words of = {"fetch_add", {"key", "number"}, 2, 1};
    PyObject *to[2];
    return take_words(&of, words, count, names, to) < 0 ? NULL : added(self, to, 1);
}
