/* Iterators, which ask a map for a page of pairs at a time. */
#include "module.h"
#include <string.h>

/* How many pairs an iterator asks for first and at most: few enough for a quick call. */
enum { FIRST_PAGE = 16, PAGE = 256 };

typedef struct bound {
    size_t length;
    uint8_t key[HOT_MAX_KEY];
} bound;

typedef struct pairs {
    PyObject_HEAD
    map *of; /* NULL at the end */
    int falls, what, is_asking;
    bound from, upto; /* what has not been asked for */
    uint8_t *bytes;   /* the keys of a page, packed; and before them their heads */
    hot_head *heads;
    PyObject *text; /* the keys of the page as one str, or NULL */
    size_t limit, found, count, at, place;
    uint32_t more;
} pairs;

/* ---- A page ---- */

/* hot_scan_packed of what an iterator has not asked for. */
static hot_status ask(hot_handle *handle, void *what) {
    pairs *it = what;
    return (it->falls ? hot_scan_packed_reverse : hot_scan_packed)(handle, it->from.key, it->from.length, it->upto.key,
                                                                   it->upto.length, it->bytes, it->limit * HOT_MAX_KEY, it->heads,
                                                                   it->limit, &it->found, &it->more);
}

/* Room for a larger page than the last one. */
static int make_room(pairs *it) {
    size_t limit = it->limit ? it->limit * 4 : FIRST_PAGE;
    if (limit > PAGE)
        return 0;
    uint8_t *room = PyMem_Malloc(limit * (sizeof *it->heads + HOT_MAX_KEY));
    if (!room) {
        PyErr_NoMemory();
        return -1;
    }
    PyMem_Free(it->heads);
    it->heads = (hot_head *)room;
    it->bytes = room + limit * sizeof *it->heads;
    it->limit = limit;
    return 0;
}

/* How many bytes the keys of the page have. */
static size_t length_of_keys(const pairs *it) {
    size_t length = 0;
    for (size_t i = 0; i < it->found; i++)
        length += it->heads[i].length;
    return length;
}

/* Goes on beyond the last pair of the page, whose keys have so many bytes. */
static void go_on(pairs *it, size_t length) {
    if (!it->found || !it->more)
        return;
    size_t last = it->heads[it->found - 1].length;
    const uint8_t *key = it->bytes + length - last;
    if (it->falls)
        it->more = hot_before(key, last, it->upto.key, &it->upto.length) == HOT_DONE;
    else
        it->more = hot_after(key, last, it->from.key, &it->from.length) == HOT_DONE;
}

static int is_ascii(const uint8_t *bytes, size_t length) {
    uint64_t all = 0, word;
    size_t at = 0;
    for (; at + sizeof word <= length; at += sizeof word) {
        memcpy(&word, bytes + at, sizeof word);
        all |= word;
    }
    for (; at < length; at++)
        all |= bytes[at];
    return !(all & UINT64_C(0x8080808080808080));
}

/* Makes one str of the keys of the page, if they are ASCII: to take a part of it costs less than to decode a key. Of the first page often no
 * more than one key is taken. -1 with an exception. */
static int make_text(pairs *it, size_t length) {
    int is_wanted = it->what == KEYS || it->what == ITEMS;
    Py_CLEAR(it->text);
    if (!is_wanted || it->of->codec.kind != OF_STR || it->limit == FIRST_PAGE || !is_ascii(it->bytes, length))
        return 0;
    it->text = PyUnicode_DecodeASCII((const char *)it->bytes, (Py_ssize_t)length, NULL);
    return it->text ? 0 : -1;
}

/* Asks for a page: -1 with an exception. */
static int next_page(pairs *it) {
    store *in = usable(it->of);
    if (!in || make_room(it) < 0)
        return -1;
    it->count = it->at = it->place = 0;
    it->is_asking = 1;
    hot_status status = store_read(in, ask, it);
    it->is_asking = 0;
    if (status != HOT_DONE) {
        raise_status(status);
        return -1;
    }
    size_t length = length_of_keys(it);
    if (make_text(it, length) < 0)
        return -1;
    go_on(it, length);
    it->count = it->found;
    return 0;
}

/* ---- The iterator ---- */

PyObject *pairs_new(map *of, const code *from, const code *upto, int falls, int what) {
    module_state *state = PyType_GetModuleState(map_type((PyObject *)of));
    PyTypeObject *type = state ? (PyTypeObject *)state->pairs : NULL;
    allocfunc make = type ? (allocfunc)(uintptr_t)PyType_GetSlot(type, Py_tp_alloc) : NULL;
    pairs *it = make ? (pairs *)make(type, 0) : NULL;
    if (!make && !PyErr_Occurred())
        PyErr_SetString(PyExc_RuntimeError, "the module has ended");
    if (!it)
        return NULL;
    Py_INCREF(of);
    it->of = of;
    it->falls = falls;
    it->what = what;
    it->more = 1;
    it->from.length = from->length;
    memcpy(it->from.key, from->bytes, from->length);
    it->upto.length = upto->length;
    memcpy(it->upto.key, upto->bytes, upto->length);
    return (PyObject *)it;
}

PyObject *pair_of(PyObject *key, PyObject *value) {
    PyObject *pair = key && value ? PyTuple_Pack(2, key, value) : NULL;
    Py_XDECREF(key);
    Py_XDECREF(value);
    return pair;
}

/* A key that lies there. Python code, which may use the iterator, runs on a copy of it. */
static PyObject *decoded(const pairs *it, const uint8_t *bytes, size_t length) {
    uint8_t key[HOT_MAX_KEY];
    map *of = it->of;
    memcpy(key, bytes, length);
    Py_INCREF(of);
    PyObject *made = key_of(&of->codec, key, length);
    Py_DECREF(of);
    return made;
}

/* The key that comes next of the str of keys. */
static PyObject *part_of_text(pairs *it) {
    size_t place = it->place;
    it->place = place + it->heads[it->at++].length;
    return PyUnicode_Substring(it->text, (Py_ssize_t)place, (Py_ssize_t)it->place);
}

/* The pair that comes next of the page. The iterator has gone on before any Python code runs. */
static PyObject *shown(pairs *it) {
    size_t length = it->heads[it->at].length;
    uint64_t value = it->heads[it->at].value;
    const uint8_t *bytes = it->bytes + it->place;
    int what = it->what;
    PyObject *key;
    if (it->text) {
        key = part_of_text(it);
    } else {
        it->at++;
        it->place += length;
        if (what == VALUES)
            return PyLong_FromUnsignedLongLong(value);
        if (what == CODES)
            return PyBytes_FromStringAndSize((const char *)bytes, (Py_ssize_t)length);
        key = decoded(it, bytes, length);
    }
    return what == KEYS ? key : pair_of(key, PyLong_FromUnsignedLongLong(value));
}

static void end(pairs *it) {
    Py_CLEAR(it->text);
    PyMem_Free(it->heads);
    it->heads = NULL;
    it->count = it->at = 0;
    it->more = 0;
    Py_CLEAR(it->of);
}

/* Asks for a page that has a pair: 0 if there is none, or with an exception. */
static int find_page(pairs *it) {
    if (it->is_asking) {
        PyErr_SetString(PyExc_ValueError, "another thread is in this iterator");
        return 0;
    }
    while (it->of && it->at == it->count) {
        if (!it->more)
            end(it);
        else if (next_page(it) < 0)
            return 0;
    }
    return it->of != NULL;
}

/* Apart from what calls it, which so saves no registers for most keys. */
__attribute__((noinline)) static PyObject *next_of_any(pairs *it) {
    return it->at < it->count || find_page(it) ? shown(it) : NULL;
}

static PyObject *pairs_next(PyObject *self) {
    pairs *it = (pairs *)self;
    return it->text && it->what == KEYS && it->at < it->count ? part_of_text(it) : next_of_any(it);
}

static int pairs_traverse(PyObject *self, visitproc visit, void *arg) {
    pairs *it = (pairs *)self;
    Py_VISIT(Py_TYPE(self));
    Py_VISIT(it->of);
    return 0;
}

static int pairs_clear(PyObject *self) {
    end((pairs *)self);
    return 0;
}

static void pairs_dealloc(PyObject *self) {
    PyTypeObject *type = Py_TYPE(self);
    PyObject_GC_UnTrack(self);
    end((pairs *)self);
    ((freefunc)(uintptr_t)PyType_GetSlot(type, Py_tp_free))(self);
    Py_DECREF(type);
}

static PyType_Slot pairs_slots[] = {
    {Py_tp_doc, (void *)(uintptr_t) "An iterator of a map."},
    {Py_tp_dealloc, SLOT(pairs_dealloc)},
    {Py_tp_traverse, SLOT(pairs_traverse)},
    {Py_tp_clear, SLOT(pairs_clear)},
    {Py_tp_iter, SLOT(PyObject_SelfIter)},
    {Py_tp_iternext, SLOT(pairs_next)},
    {0, NULL},
};

PyType_Spec pairs_spec = {
    .name = "hot._hot.Pairs",
    .basicsize = sizeof(pairs),
    .flags = Py_TPFLAGS_DEFAULT | Py_TPFLAGS_HAVE_GC,
    .slots = pairs_slots,
};
