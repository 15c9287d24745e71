/* Looking up many keys of a map. */
#include "module.h"
#include <string.h>

/* How many keys are looked up by one call at most; where there are more than QUICK other threads of Python run meanwhile. */
enum { QUICK = 64, BATCH = 256 };

/* Keys to look up, one behind another, and what was found. Absent ones are empty. */
typedef struct lookups {
    uint8_t *bytes;
    size_t *lengths;
    uint64_t *values;
    hot_status *statuses;
    char *known;
    size_t count, size, room;
    /* The part that a call looks up: */
    size_t first, place, part;
} lookups;

static hot_status look_up(hot_handle *handle, void *what) {
    lookups *it = what;
    return hot_get_packed(handle, it->bytes + it->place, it->lengths + it->first, it->part, it->values + it->first,
                          it->statuses + it->first);
}

static void lookups_end(lookups *it) {
    PyMem_Free(it->bytes);
    PyMem_Free(it->lengths);
    PyMem_Free(it->values);
    PyMem_Free(it->statuses);
    PyMem_Free(it->known);
}

static int lookups_init(lookups *it, size_t count) {
    memset(it, 0, sizeof *it);
    it->count = count;
    it->room = count * 16 + HOT_MAX_KEY;
    it->bytes = PyMem_Malloc(it->room);
    it->lengths = PyMem_Calloc(count, sizeof *it->lengths);
    it->values = PyMem_Calloc(count, sizeof *it->values);
    it->statuses = PyMem_Calloc(count, sizeof *it->statuses);
    it->known = PyMem_Calloc(count, 1);
    if (it->bytes && it->lengths && it->values && it->statuses && it->known)
        return 0;
    lookups_end(it);
    PyErr_NoMemory();
    return -1;
}

static int lookups_make_room(lookups *it, size_t length) {
    if (it->room - it->size >= length)
        return 0;
    uint8_t *more = PyMem_Realloc(it->bytes, 2 * it->room);
    if (!more) {
        PyErr_NoMemory();
        return -1;
    }
    it->bytes = more;
    it->room *= 2;
    return 0;
}

/* Puts a key behind the others, if it may be there. */
static int lookups_put(lookups *it, const codec *in, PyObject *key, size_t at) {
    code to;
    int status = code_if_known(in, key, &to);
    if (status <= 0)
        return status;
    status = lookups_make_room(it, to.length);
    if (status == 0) {
        memcpy(it->bytes + it->size, to.bytes, to.length);
        it->size += it->lengths[at] = to.length;
        it->known[at] = 1;
    }
    code_end(&to);
    return status;
}

/* Looks up all of them, part by part, between which the store may be held: without the program's lock. */
static hot_status look_up_all(lookups *it, store *in) {
    hot_status status = HOT_DONE;
    while (status == HOT_DONE && it->first < it->count) {
        it->part = it->count - it->first < BATCH ? it->count - it->first : BATCH;
        status = store_long(in, look_up, it);
        for (size_t end = it->first + it->part; it->first < end; it->first++)
            it->place += it->lengths[it->first];
    }
    return status;
}

/* Looks up all of them: -1 with an exception. */
static int lookups_make(lookups *it, map *of) {
    store *in = usable(of);
    hot_status status;
    if (!in)
        return -1;
    if (it->count <= QUICK) {
        it->part = it->count;
        status = store_read(in, look_up, it);
    } else {
        Py_BEGIN_ALLOW_THREADS status = look_up_all(it, in);
        Py_END_ALLOW_THREADS
    }
    if (status == HOT_DONE)
        return 0;
    raise_status(status);
    return -1;
}

static PyObject *lookups_list(const lookups *it) {
    PyObject *found = PyList_New((Py_ssize_t)it->count);
    for (size_t i = 0; found && i < it->count; i++) {
        PyObject *value = Py_None;
        if (it->known[i] && it->statuses[i] == HOT_FOUND)
            value = PyLong_FromUnsignedLongLong(it->values[i]);
        else
            Py_INCREF(value);
        if (!value)
            Py_CLEAR(found);
        else
            PyList_SetItem(found, (Py_ssize_t)i, value);
    }
    return found;
}

PyObject *map_get_many(PyObject *self, PyObject *keys) {
    map *it = (map *)self;
    lookups what;
    PyObject *list = PySequence_Tuple(keys), *found = NULL;
    if (!list || lookups_init(&what, (size_t)PyTuple_Size(list)) < 0) {
        Py_XDECREF(list);
        return NULL;
    }
    int status = 0;
    for (size_t i = 0; status == 0 && i < what.count; i++)
        status = lookups_put(&what, &it->codec, PyTuple_GetItem(list, (Py_ssize_t)i), i);
    if (status == 0 && lookups_make(&what, it) == 0)
        found = lookups_list(&what);
    lookups_end(&what);
    Py_DECREF(list);
    return found;
}
