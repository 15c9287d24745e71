/* Calls of a map for the keys from one key's bytes to another's. */
#include "module.h"
#include <stdlib.h>

/* The keys from one to another, and what a call finds there. */
typedef struct span {
    code from, upto;
    int falls;
    size_t count;
    uint64_t *values;
    hot_pair pair;
} span;

/* Takes the ends: -1 with an exception. */
static int span_init(span *it, PyObject *from, PyObject *upto) {
    if (code_bytes(from, &it->from, "an end must be bytes") < 0 || code_bytes(upto, &it->upto, "an end must be bytes") < 0)
        return -1;
    if (it->from.length <= HOT_MAX_KEY && it->upto.length <= HOT_MAX_KEY)
        return 0;
    raise_status(HOT_KEY_TOO_LONG);
    return -1;
}

static void span_end(span *it) {
    code_end(&it->from);
    code_end(&it->upto);
    free(it->values);
}

PyObject *map_pairs(PyObject *self, PyObject *words) {
    map *it = (map *)self;
    PyObject *from, *upto, *made = NULL;
    span what = {.falls = 0};
    int lists;
    if (!usable(it) || !PyArg_ParseTuple(words, "OOpi:_pairs", &from, &upto, &what.falls, &lists))
        return NULL;
    if (span_init(&what, from, upto) == 0)
        made = pairs_new(it, &what.from, &what.upto, what.falls, lists);
    span_end(&what);
    return made;
}

/* ---- Long calls ---- */

static hot_status count_keys(hot_handle *handle, void *what) {
    span *it = what;
    return hot_count(handle, it->from.bytes, it->from.length, it->upto.bytes, it->upto.length, &it->count);
}

/* Lists the values by a scan with room for some more keys than there were, and for twice as many as long as that has more. */
static hot_status list_values(hot_handle *handle, void *what) {
    enum { MORE = 64 };
    span *it = what;
    uint32_t more = 1;
    hot_status status = count_keys(handle, what);
    for (size_t room = it->count + MORE; status == HOT_DONE && more; room *= 2) {
        uint64_t *values = realloc(it->values, room * sizeof *values);
        if (!values)
            return HOT_NO_MEMORY;
        it->values = values;
        status = hot_scan_values(handle, it->from.bytes, it->from.length, it->upto.bytes, it->upto.length, values, room, &it->count,
                                 &more);
    }
    return status;
}

static hot_status clear_keys(hot_handle *handle, void *what) {
    span *it = what;
    return hot_clear_range(handle, it->from.bytes, it->from.length, it->upto.bytes, it->upto.length);
}

/* Makes a long call, while other threads of Python run: -1 with an exception. */
static int call_span(PyObject *self, PyObject *words, store_call *call, span *what) {
    PyObject *from, *upto;
    store *in = usable((map *)self);
    hot_status status;
    if (!in || !PyArg_ParseTuple(words, "OO:span", &from, &upto) || span_init(what, from, upto) < 0)
        return -1;
    status = store_long_in_turn(in, call, what);
    if (status == HOT_DONE)
        return 0;
    raise_status(status);
    return -1;
}

PyObject *map_count(PyObject *self, PyObject *words) {
    span what = {.falls = 0};
    PyObject *count = call_span(self, words, count_keys, &what) < 0 ? NULL : PyLong_FromSize_t(what.count);
    span_end(&what);
    return count;
}

PyObject *map_values(PyObject *self, PyObject *words) {
    span what = {.falls = 0};
    PyObject *list = call_span(self, words, list_values, &what) < 0 ? NULL : PyList_New((Py_ssize_t)what.count);
    for (size_t at = 0; list && at < what.count; at++) {
        PyObject *value = PyLong_FromUnsignedLongLong(what.values[at]);
        if (!value || PyList_SetItem(list, (Py_ssize_t)at, value) < 0)
            Py_CLEAR(list);
    }
    span_end(&what);
    return list;
}

PyObject *map_clear_range(PyObject *self, PyObject *words) {
    span what = {.falls = 0};
    int status = call_span(self, words, clear_keys, &what);
    span_end(&what);
    if (status < 0)
        return NULL;
    Py_RETURN_NONE;
}

/* ---- The pair at an end ---- */

static hot_status list_end(hot_handle *handle, void *what) {
    span *it = what;
    uint32_t more;
    return (it->falls ? hot_scan_reverse : hot_scan)(handle, it->from.bytes, it->from.length, it->upto.bytes, it->upto.length,
                                                     &it->pair, 1, &it->count, &more);
}

static hot_status try_remove_listed(hot_handle *handle, void *what) {
    span *it = what;
    return hot_try_remove_if(handle, it->pair.key, it->pair.length, it->pair.value, NULL);
}

static hot_status remove_listed(hot_handle *handle, void *what) {
    span *it = what;
    return hot_remove_if(handle, it->pair.key, it->pair.length, it->pair.value, NULL);
}

/* Removes the pair at the end, as hot_pop_first does, but only once Python has it: so none is lost if that raises. Returns it or
 * None; or NULL with an exception. */
static PyObject *pop(map *it, span *what) {
    hot_status status;
    do {
        store *in = usable(it);
        if (!in)
            return NULL;
        status = store_read(in, list_end, what);
        if (status != HOT_DONE)
            break;
        if (what->count == 0)
            Py_RETURN_NONE;
        PyObject *pair =
            pair_of(key_of(&it->codec, what->pair.key, what->pair.length), PyLong_FromUnsignedLongLong(what->pair.value));
        if (!pair)
            return NULL;
        status = usable(it) ? store_change(in, try_remove_listed, remove_listed, what) : HOT_CLOSED;
        if (status == HOT_REMOVED)
            return pair;
        Py_DECREF(pair);
    } while (status == HOT_ABSENT || status == HOT_DIFFERS);
    if (!PyErr_Occurred())
        raise_status(status);
    return NULL;
}

PyObject *map_pop_range(PyObject *self, PyObject *words) {
    PyObject *from, *upto, *pair = NULL;
    span what = {.falls = 0};
    if (!PyArg_ParseTuple(words, "OOp:_pop", &from, &upto, &what.falls))
        return NULL;
    if (span_init(&what, from, upto) == 0)
        pair = pop((map *)self, &what);
    span_end(&what);
    return pair;
}
