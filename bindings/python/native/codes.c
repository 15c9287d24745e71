/* How keys and values become what the index has, and back again; and what its refusals become. */
#include "module.h"
#include <string.h>

enum { INT_BYTES = 8 };
static const uint64_t INT_ZERO = (uint64_t)1 << 63;

int codec_init(codec *it, PyObject *keys) {
    if (keys == (PyObject *)&PyUnicode_Type) {
        it->kind = OF_STR;
    } else if (keys == (PyObject *)&PyBytes_Type) {
        it->kind = OF_BYTES;
    } else if (keys == (PyObject *)&PyLong_Type) {
        it->kind = OF_INT;
    } else if (PyTuple_Check(keys) && PyTuple_Size(keys) == 2) {
        it->encode = PyTuple_GetItem(keys, 0);
        it->decode = PyTuple_GetItem(keys, 1);
        it->kinds = kinds_of(it->encode, it->decode);
        it->kind = it->kinds ? OF_KINDS : OF_CALLS;
        Py_INCREF(it->encode);
        Py_INCREF(it->decode);
        Py_XINCREF(it->kinds);
    } else {
        PyErr_SetString(PyExc_TypeError, "keys is str, bytes, int or a Codec");
        return -1;
    }
    return 0;
}

int raise_type(const char *wanted, PyObject *object) {
    PyObject *name = PyObject_GetAttrString((PyObject *)Py_TYPE(object), "__name__");
    if (!name)
        return -1;
    PyErr_Format(PyExc_TypeError, "%s, not %S", wanted, name);
    Py_DECREF(name);
    return NO_KEY;
}

int raised_by_number(void) {
    return PyErr_ExceptionMatches(PyExc_OverflowError) ? NO_KEY : -1;
}

int code_own(code *to, PyObject *owner) {
    char *bytes;
    Py_ssize_t length;
    if (!owner || PyBytes_AsStringAndSize(owner, &bytes, &length) < 0) {
        Py_XDECREF(owner);
        return -1;
    }
    to->owner = owner;
    to->bytes = (const uint8_t *)bytes;
    to->length = (size_t)length;
    return 0;
}

/* The order of these bytes is that of the code points, as of str. Those of a str with surrogates, which UTF-8 lacks, are made for each call. */
int code_str(PyObject *key, code *to, const char *wanted) {
    Py_ssize_t length;
    to->owner = NULL;
    if (!PyUnicode_Check(key))
        return raise_type(wanted, key);
    to->bytes = (const uint8_t *)PyUnicode_AsUTF8AndSize(key, &length);
    if (to->bytes) {
        to->length = (size_t)length;
        Py_INCREF(key);
        to->owner = key;
        return 0;
    }
    if (!PyErr_ExceptionMatches(PyExc_UnicodeEncodeError))
        return -1;
    PyErr_Clear();
    return code_own(to, PyUnicode_AsEncodedString(key, "utf-8", "surrogatepass"));
}

int code_bytes(PyObject *key, code *to, const char *wanted) {
    to->owner = NULL;
    if (PyBytes_Check(key)) {
        Py_INCREF(key);
        return code_own(to, key);
    }
    if (PyByteArray_Check(key) || PyMemoryView_Check(key))
        return code_own(to, PyBytes_FromObject(key));
    return raise_type(wanted, key);
}

void put_word(uint8_t *to, uint64_t word, size_t size) {
    for (size_t i = size; i > 0; word >>= 8)
        to[--i] = (uint8_t)word;
}

uint64_t word_at(const uint8_t *bytes, size_t size) {
    uint64_t word = 0;
    for (size_t i = 0; i < size; i++)
        word = word << 8 | bytes[i];
    return word;
}

PyObject *signed_of(uint64_t word) {
    long long number;
    memcpy(&number, &word, sizeof number);
    return PyLong_FromLongLong(number);
}

static int code_int(PyObject *key, code *to) {
    if (!PyLong_Check(key))
        return raise_type("a key must be int", key);
    long long number = PyLong_AsLongLong(key);
    if (number == -1 && PyErr_Occurred())
        return raised_by_number();
    put_word(to->room, (uint64_t)number + INT_ZERO, INT_BYTES);
    to->bytes = to->room;
    to->length = INT_BYTES;
    return 0;
}

static int code_called(PyObject *encode, PyObject *key, code *to) {
    PyObject *made = PyObject_CallFunctionObjArgs(encode, key, NULL);
    if (made && !PyBytes_Check(made)) {
        raise_type("encode must return bytes", made);
        Py_CLEAR(made);
    }
    return code_own(to, made);
}

int code_of(const codec *it, PyObject *key, code *to) {
    to->owner = NULL;
    switch (it->kind) {
    case OF_STR: return code_str(key, to, "a key must be str");
    case OF_BYTES: return code_bytes(key, to, "a key must be bytes");
    case OF_INT: return code_int(key, to);
    case OF_KINDS: return code_kinds(it->kinds, key, to);
    default: return code_called(it->encode, key, to);
    }
}

int code_if_known(const codec *it, PyObject *key, code *to) {
    int status = code_of(it, key, to);
    if (status == NO_KEY) {
        PyErr_Clear();
        return PyObject_Hash(key) == -1 && PyErr_Occurred() ? -1 : 0;
    }
    if (status < 0)
        return -1;
    if (to->length <= HOT_MAX_KEY)
        return 1;
    code_end(to);
    return 0;
}

void code_end(code *it) {
    Py_CLEAR(it->owner);
}

PyObject *key_of(const codec *it, const uint8_t *bytes, size_t length) {
    const char *text = (const char *)bytes;
    switch (it->kind) {
    case OF_STR: return PyUnicode_DecodeUTF8(text, (Py_ssize_t)length, "surrogatepass");
    case OF_BYTES: return PyBytes_FromStringAndSize(text, (Py_ssize_t)length);
    case OF_INT: return signed_of(word_at(bytes, length) - INT_ZERO);
    case OF_KINDS: return key_of_kinds(it->kinds, bytes, length);
    default: break;
    }
    PyObject *given = PyBytes_FromStringAndSize(text, (Py_ssize_t)length);
    PyObject *key = given ? PyObject_CallFunctionObjArgs(it->decode, given, NULL) : NULL;
    Py_XDECREF(given);
    return key;
}

int value_of(PyObject *object, uint64_t *value) {
    PyObject *number = PyNumber_Index(object);
    if (!number)
        return -1;
    *value = PyLong_AsUnsignedLongLong(number);
    Py_DECREF(number);
    if (!PyErr_Occurred())
        return 0;
    if (PyErr_ExceptionMatches(PyExc_OverflowError))
        PyErr_SetString(PyExc_OverflowError, "a value must be from 0 to 2**64 - 1");
    return -1;
}

PyObject *own_error(const char *name) {
    PyObject *from = PyImport_ImportModule("hot._errors");
    PyObject *kind = from ? PyObject_GetAttrString(from, name) : NULL;
    Py_XDECREF(from);
    return kind;
}

void raise_own(const char *name, const char *text) {
    PyObject *kind = own_error(name);
    if (kind)
        PyErr_SetString(kind, text);
    Py_XDECREF(kind);
}

void raise_status(hot_status status) {
    const char *text = hot_status_text(status);
    switch (status) {
    case HOT_FULL_NODES:
    case HOT_FULL_LEAVES: raise_own("FullError", text); break;
    case HOT_NO_MEMORY: PyErr_SetString(PyExc_MemoryError, text); break;
    case HOT_KEY_TOO_LONG:
    case HOT_OUT_OF_RANGE: PyErr_SetString(PyExc_ValueError, text); break;
    default: raise_own("HotError", text); break;
    }
}
