/* Map: a mapping over a store. */
#include "module.h"

static atomic_int forks;

void map_forked(void) {
    atomic_fetch_add(&forks, 1);
}

store *usable(map *it) {
    if (it->store && it->forks == atomic_load_explicit(&forks, memory_order_relaxed))
        return it->store;
    if (!it->store) {
        PyErr_SetString(PyExc_TypeError, "the map's __init__ was not called");
        return NULL;
    }
    raise_own("HotError", "the process forked while it had other threads: this map is its parent's");
    return NULL;
}

/* ---- The whole map ---- */

static hot_status count_keys(hot_handle *handle, void *what) {
    return hot_len(handle, what);
}

static Py_ssize_t map_length(PyObject *self) {
    size_t count = 0;
    store *in = usable((map *)self);
    if (!in)
        return -1;
    hot_status status = store_read(in, count_keys, &count);
    if (status == HOT_DONE)
        return (Py_ssize_t)count;
    raise_status(status);
    return -1;
}

static PyObject *map_clear_all(PyObject *self, PyObject *unused) {
    (void)unused;
    store *in = usable((map *)self);
    if (!in)
        return NULL;
    hot_status status = store_clear(in);
    if (status == HOT_DONE)
        Py_RETURN_NONE;
    raise_status(status);
    return NULL;
}

static PyObject *map_trim(PyObject *self, PyObject *unused) {
    (void)unused;
    store *in = usable((map *)self);
    if (!in)
        return NULL;
    hot_status status = store_trim(in);
    if (status == HOT_DONE)
        Py_RETURN_NONE;
    raise_status(status);
    return NULL;
}

static PyObject *map_encode(PyObject *self, PyObject *key) {
    code to;
    if (code_of(&((map *)self)->codec, key, &to) < 0)
        return NULL;
    PyObject *bytes = PyBytes_FromStringAndSize((const char *)to.bytes, (Py_ssize_t)to.length);
    code_end(&to);
    return bytes;
}

static PyObject *map_stats(PyObject *self, PyObject *unused) {
    hot_refusals told;
    store *in = usable((map *)self);
    (void)unused;
    if (!in)
        return NULL;
    Py_BEGIN_ALLOW_THREADS store_stats(in, &told);
    Py_END_ALLOW_THREADS return Py_BuildValue("KKK", (unsigned long long)told.busy, (unsigned long long)told.held_back,
                                              (unsigned long long)told.full);
}

/* ---- The type ---- */

static void *end_turn(void) {
    return PyEval_SaveThread();
}

static void begin_turn(void *ended) {
    PyEval_RestoreThread(ended);
}

/* What a new map is to have room for, if it says so: -1 with an exception. Where several threads may change it, that is for as many keys at
 * least as hot.h says. */
static int stock_for(PyObject *capacity, Py_ssize_t longest, Py_ssize_t threads, hot_stock *stock) {
    if (capacity == Py_None)
        return 0;
    long long count = PyLong_AsLongLong(capacity);
    if (count == -1 && PyErr_Occurred() && !PyErr_ExceptionMatches(PyExc_OverflowError))
        return -1;
    if (count < 0 || count > UINT32_MAX) {
        PyErr_SetString(PyExc_ValueError, "capacity is from 0 to 2**32 - 1");
        return -1;
    }
    if (longest < 0 || longest > HOT_MAX_KEY) {
        PyErr_Format(PyExc_ValueError, "longest is from 0 to %d", HOT_MAX_KEY);
        return -1;
    }
    const long long least = threads > 1 ? 256 * (threads < 8 ? threads : 8) : 0;
    hot_stock_for_keys((uint32_t)(count > least ? count : least), (size_t)longest, stock);
    return 0;
}

static int map_open(map *it, const wanted_store *wanted) {
    static const turns of_python = {end_turn, begin_turn};
    store *made = NULL;
    hot_status status;
    Py_BEGIN_ALLOW_THREADS status = store_open(wanted, &of_python, &made);
    Py_END_ALLOW_THREADS if (status != HOT_DONE) {
        raise_status(status);
        return -1;
    }
    it->forks = atomic_load(&forks);
    it->store = made;
    return 0;
}

static int map_init(PyObject *self, PyObject *words, PyObject *named) {
    static char *names[] = {"keys", "capacity", "longest", "threads", "grow", NULL};
    map *it = (map *)self;
    PyObject *keys, *capacity;
    Py_ssize_t longest, threads;
    wanted_store wanted = {.threads = 0};
    if (!PyArg_ParseTupleAndKeywords(words, named, "OOnnp:Map", names, &keys, &capacity, &longest, &threads, &wanted.grows))
        return -1;
    if (threads < 1 || threads > MOST_THREADS) {
        PyErr_Format(PyExc_ValueError, "threads are from 1 to %d", MOST_THREADS);
        return -1;
    }
    wanted.threads = (size_t)threads;
    if (stock_for(capacity, longest, threads, &wanted.stock) < 0)
        return -1;
    /* Python code that ran up to here may have called it, too. */
    if (it->is_begun) {
        PyErr_SetString(PyExc_TypeError, "the map's __init__ was called before");
        return -1;
    }
    if (codec_init(&it->codec, keys) < 0)
        return -1;
    it->is_begun = 1;
    return map_open(it, &wanted);
}

static int map_traverse(PyObject *self, visitproc visit, void *arg) {
    map *it = (map *)self;
    Py_VISIT(Py_TYPE(self));
    Py_VISIT(it->codec.encode);
    Py_VISIT(it->codec.decode);
    return 0;
}

static int map_clear(PyObject *self) {
    map *it = (map *)self;
    Py_CLEAR(it->codec.encode);
    Py_CLEAR(it->codec.decode);
    return 0;
}

/* After a fork the index may be in the middle of a call of a thread that is gone. So it is left as it is. */
static void map_dealloc(PyObject *self) {
    map *it = (map *)self;
    PyTypeObject *type = Py_TYPE(self);
    store *in = it->forks == atomic_load(&forks) ? it->store : NULL;
    PyObject_GC_UnTrack(self);
    map_clear(self);
    Py_CLEAR(it->codec.kinds); /* in no cycle, and so there up to the end */
    if (in) {
        Py_BEGIN_ALLOW_THREADS store_close(in);
        Py_END_ALLOW_THREADS
    }
    ((freefunc)(uintptr_t)PyType_GetSlot(type, Py_tp_free))(self);
    Py_DECREF(type);
}

PyTypeObject *map_type(PyObject *it) {
    PyTypeObject *type = Py_TYPE(it);
    while (type && PyType_GetFlags(type) & Py_TPFLAGS_HEAPTYPE) {
        if (PyType_GetSlot(type, Py_tp_dealloc) == SLOT(map_dealloc))
            return type;
        type = PyType_GetSlot(type, Py_tp_base);
    }
    return NULL;
}

static PyMethodDef methods[] = {
    {"get", METHOD(map_get), METH_FASTCALL | METH_KEYWORDS, "get($self, key, default=None)\n--\n\nThe key's value, or the default."},
    {"setdefault", METHOD(map_setdefault), METH_FASTCALL | METH_KEYWORDS,
     "setdefault($self, key, default=None)\n--\n\nThe key's value, after it was set to the default if it was absent."},
    {"pop", METHOD(map_pop), METH_FASTCALL | METH_KEYWORDS,
     "pop($self, key, *default)\n--\n\nDeletes a key: its value, or the default if it was absent."},
    {"exchange", METHOD(map_exchange), METH_FASTCALL | METH_KEYWORDS,
     "exchange($self, key, expected, value)\n--\n\nSets a key if it has the expected value: whether it had."},
    {"remove_if", METHOD(map_remove_if), METH_FASTCALL | METH_KEYWORDS,
     "remove_if($self, key, expected)\n--\n\nDeletes a key if it has the expected value: whether it had."},
    {"add", METHOD(map_add), METH_FASTCALL | METH_KEYWORDS,
     "add($self, key, number=1)\n--\n\nAdds to the value of a key that is there, and returns the one before. It raises KeyError\n"
     "if the key is absent. No other thread's addition is lost."},
    {"fetch_add", METHOD(map_fetch_add), METH_FASTCALL | METH_KEYWORDS,
     "fetch_add($self, key, number=1)\n--\n\nAdds to the key's value, or to 0 if it is absent, and returns the one before. No "
     "other\n"
     "thread's addition is lost."},
    {"get_many", METHOD(map_get_many), METH_O,
     "get_many($self, keys, /)\n--\n\nThe values of keys, in turn, with None for those that are absent. It looks up hundreds of\n"
     "keys in one call, in which other threads run."},
    {"__class_getitem__", Py_GenericAlias, METH_O | METH_CLASS, NULL},
    {"clear", METHOD(map_clear_all), METH_NOARGS, "clear($self)\n--\n\nDeletes all keys at once."},
    {"trim", METHOD(map_trim), METH_NOARGS,
     "trim($self)\n--\n\nGives memory back that the keys of a map that grows don't need. Other calls wait."},
    {"_load", METHOD(map_load), METH_O, "_load($self, pairs, /)\n--\n\nTakes pairs whose keys rise in the place of what there is."},
    {"_load_map", METHOD(map_load_map), METH_O,
     "_load_map($self, other, /)\n--\n\nTakes the pairs of a map, whose keys have the same bytes, in the place of what there is."},
    {"_encode", METHOD(map_encode), METH_O, "_encode($self, key, /)\n--\n\nThe key's bytes."},
    {"_count", METHOD(map_count), METH_VARARGS, "_count($self, start, end, /)\n--\n\nHow many keys there are from one key's bytes to another's."},
    {"_clear", METHOD(map_clear_range), METH_VARARGS, "_clear($self, start, end, /)\n--\n\nDeletes the keys from one key's bytes to another's."},
    {"_pop", METHOD(map_pop_range), METH_VARARGS,
     "_pop($self, start, end, reverse, /)\n--\n\nDeletes the first or last pair from one key's bytes to another's: the pair, or None."},
    {"_values", METHOD(map_values), METH_VARARGS, "_values($self, start, end, /)\n--\n\nThe values from one key's bytes to another's."},
    {"_stats", METHOD(map_stats), METH_NOARGS, "_stats($self)\n--\n\nHow often tries were busy, held back and full."},
    {"_pairs", METHOD(map_pairs), METH_VARARGS,
     "_pairs($self, start, end, reverse, what, /)\n--\n\nIterates over keys, values or pairs from one key's bytes to another's."},
    {NULL, NULL, 0, NULL},
};

static PyType_Slot map_slots[] = {
    {Py_tp_doc, (void *)(uintptr_t) "A mapping over an index of libhot, whose order SortedMap adds."},
    {Py_tp_init, SLOT(map_init)},
    {Py_tp_dealloc, SLOT(map_dealloc)},
    {Py_tp_traverse, SLOT(map_traverse)},
    {Py_tp_clear, SLOT(map_clear)},
    {Py_tp_methods, methods},
    {Py_mp_length, SLOT(map_length)},
    {Py_mp_subscript, SLOT(map_subscript)},
    {Py_mp_ass_subscript, SLOT(map_ass_subscript)},
    {Py_sq_contains, SLOT(map_contains)},
    {0, NULL},
};

PyType_Spec map_spec = {
    .name = "hot._hot.Map",
    .basicsize = sizeof(map),
    .flags = Py_TPFLAGS_DEFAULT | Py_TPFLAGS_HAVE_GC | Py_TPFLAGS_BASETYPE,
    .slots = map_slots,
};
