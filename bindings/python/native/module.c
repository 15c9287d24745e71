/* The module hot._hot: its types, and what it does about forks. Beside its types it keeps nothing but how often the process forked with
 * threads. */
#include "module.h"

static PyObject *forked(PyObject *self, PyObject *unused) {
    (void)self, (void)unused;
    map_forked();
    Py_RETURN_NONE;
}

static PyObject *library_version(PyObject *self, PyObject *unused) {
    uint32_t version = hot_version();
    (void)self, (void)unused;
    return PyUnicode_FromFormat("%u.%u.%u", version >> 16, version >> 8 & 0xff, version & 0xff);
}

/* Makes a type of the module, and has the module show it: a reference, or NULL. */
static PyObject *add_type(PyObject *module, const char *name, PyType_Spec *spec) {
    PyObject *type = PyType_FromModuleAndSpec(module, spec, NULL);
    Py_XINCREF(type);
    if (type && PyModule_AddObject(module, name, type) < 0) {
        Py_DECREF(type);
        Py_CLEAR(type);
    }
    return type;
}

static int add_all(PyObject *module) {
    module_state *state = PyModule_GetState(module);
    PyObject *map = add_type(module, "Map", &map_spec), *kinds = add_type(module, "Kinds", &kinds_spec);
    Py_XDECREF(map);
    Py_XDECREF(kinds);
    state->pairs = PyType_FromModuleAndSpec(module, &pairs_spec, NULL);
    if (!map || !kinds || !state->pairs)
        return -1;
    return PyModule_AddIntConstant(module, "MAX_KEY", HOT_MAX_KEY) < 0 || PyModule_AddIntConstant(module, "KEYS", KEYS) < 0 ||
                   PyModule_AddIntConstant(module, "VALUES", VALUES) < 0 || PyModule_AddIntConstant(module, "ITEMS", ITEMS) < 0 ||
                   PyModule_AddIntConstant(module, "CODES", CODES) < 0
               ? -1
               : 0;
}

static int state_traverse(PyObject *module, visitproc visit, void *arg) {
    module_state *state = PyModule_GetState(module);
    if (state)
        Py_VISIT(state->pairs);
    return 0;
}

static int state_clear(PyObject *module) {
    module_state *state = PyModule_GetState(module);
    if (state)
        Py_CLEAR(state->pairs);
    return 0;
}

static void state_free(void *module) {
    state_clear(module);
}

static PyMethodDef functions[] = {
    {"forked", forked, METH_NOARGS, "forked()\n--\n\nLets no map be used that there is. A child calls it after a fork of threads."},
    {"key_of", code_of_values, METH_VARARGS, "key_of(*values)\n--\n\nThe bytes of values of the types bool, int, float, str and bytes."},
    {"library_version", library_version, METH_NOARGS, "library_version()\n--\n\nThe version of libhot."},
    {NULL, NULL, 0, NULL},
};

static PyModuleDef_Slot slots[] = {{Py_mod_exec, SLOT(add_all)}, {0, NULL}};

static PyModuleDef definition = {
    PyModuleDef_HEAD_INIT,
    .m_name = "hot._hot",
    .m_doc = "SortedMap's part in C.",
    .m_size = sizeof(module_state),
    .m_methods = functions,
    .m_slots = slots,
    .m_traverse = state_traverse,
    .m_clear = state_clear,
    .m_free = state_free,
};

PyMODINIT_FUNC PyInit__hot(void) {
    return PyModuleDef_Init(&definition);
}
