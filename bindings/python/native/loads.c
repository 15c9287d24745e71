/* Taking all pairs at once into a map that is new. */
#include "module.h"
#include <string.h>

/* How many pairs are taken until signals are heard: it may be no Python code that gives them. */
enum { BETWEEN_SIGNALS = 4096 };

/* Pairs in the order in which they came, one behind another. */
typedef struct packed {
    uint8_t *bytes;
    hot_head *heads;
    size_t count, heads_room, size, room;
} packed;

static void packed_end(packed *it) {
    PyMem_Free(it->bytes);
    PyMem_Free(it->heads);
}

/* Raises what the refusal of a pair becomes, with the pair's number. */
static void raise_pair(const char *name, hot_status status, size_t number) {
    PyObject *kind = own_error(name);
    PyObject *text = kind ? PyUnicode_FromFormat("pair %zu: %s", number, hot_status_text(status)) : NULL;
    PyObject *error = text ? PyObject_CallFunctionObjArgs(kind, text, NULL) : NULL;
    PyObject *at = error ? PyLong_FromSize_t(number) : NULL;
    if (at && PyObject_SetAttrString(error, "number", at) == 0)
        PyErr_SetObject(kind, error);
    Py_XDECREF(at);
    Py_XDECREF(error);
    Py_XDECREF(text);
    Py_XDECREF(kind);
}

/* The same for a load, which may have been refused as a whole. */
static void raise_load(hot_status status, size_t number) {
    switch (status) {
    case HOT_NOT_RISING:
    case HOT_KEY_TOO_LONG: raise_pair("LoadError", status, number); break;
    case HOT_FULL_NODES:
    case HOT_FULL_LEAVES: raise_pair("FullError", status, number); break;
    default: raise_status(status); break;
    }
}

/* Makes room for one more, with a key of this length: -1 with an exception. */
static int packed_make_room(packed *it, size_t length) {
    if (it->count == it->heads_room) {
        size_t room = it->heads_room ? 2 * it->heads_room : 64;
        hot_head *more = PyMem_Realloc(it->heads, room * sizeof *more);
        if (!more)
            return -1;
        it->heads = more;
        it->heads_room = room;
    }
    if (it->room - it->size < length || !it->bytes) {
        size_t room = it->room ? 2 * it->room : 4096;
        uint8_t *more = PyMem_Realloc(it->bytes, room);
        if (!more)
            return -1;
        it->bytes = more;
        it->room = room;
    }
    return 0;
}

/* Puts a pair behind the others: -1 with an exception. */
static int packed_put(packed *it, const code *key, uint64_t value) {
    if (key->length > HOT_MAX_KEY) {
        raise_load(HOT_KEY_TOO_LONG, it->count);
        return -1;
    }
    if (packed_make_room(it, key->length) < 0) {
        PyErr_NoMemory();
        return -1;
    }
    memcpy(it->bytes + it->size, key->bytes, key->length);
    it->size += key->length;
    it->heads[it->count].length = (uint8_t)key->length;
    it->heads[it->count++].value = value;
    return 0;
}

/* The same with a pair of Python. */
static int packed_take(packed *it, const codec *in, PyObject *pair) {
    PyObject *both = PySequence_Tuple(pair);
    code key;
    uint64_t value;
    int status = -1;
    if (both && PyTuple_Size(both) != 2)
        PyErr_SetString(PyExc_ValueError, "a pair has a key and a value");
    else if (both && code_of(in, PyTuple_GetItem(both, 0), &key) == 0) {
        if (value_of(PyTuple_GetItem(both, 1), &value) == 0)
            status = packed_put(it, &key, value);
        code_end(&key);
    }
    Py_XDECREF(both);
    return status;
}

static int packed_take_all(packed *it, const codec *in, PyObject *pairs) {
    PyObject *each = PyObject_GetIter(pairs), *pair;
    int status = each ? 0 : -1;
    while (status == 0 && (pair = PyIter_Next(each))) {
        status = packed_take(it, in, pair);
        Py_DECREF(pair);
        if (status == 0 && it->count % BETWEEN_SIGNALS == 0)
            status = PyErr_CheckSignals();
    }
    Py_XDECREF(each);
    return PyErr_Occurred() ? -1 : status;
}

static PyObject *load_pairs(map *it, PyObject *pairs) {
    packed all = {NULL, NULL, 0, 0, 0, 0};
    hot_status status = HOT_NO_MEMORY;
    size_t number = 0;
    int is_taken = packed_take_all(&all, &it->codec, pairs) == 0;
    store *in = is_taken ? usable(it) : NULL;
    if (in) {
        sorted_pairs sorted = {all.bytes, all.heads, all.count};
        status = store_load(in, &sorted, &number);
        if (status != HOT_DONE)
            raise_load(status, number);
    }
    packed_end(&all);
    if (!in || status != HOT_DONE)
        return NULL;
    Py_RETURN_NONE;
}

PyObject *map_load(PyObject *self, PyObject *pairs) {
    map *it = (map *)self;
    return usable(it) ? load_pairs(it, pairs) : NULL;
}

PyObject *map_load_map(PyObject *self, PyObject *other) {
    if (!map_type(other)) {
        PyErr_SetString(PyExc_TypeError, "it is no map");
        return NULL;
    }
    store *in = usable((map *)self), *from = in ? usable((map *)other) : NULL;
    if (!from)
        return NULL;
    hot_status copied = store_copy(in, from);
    if (copied == HOT_DONE)
        Py_RETURN_NONE;
    raise_status(copied);
    return NULL;
}
