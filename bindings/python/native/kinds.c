/* Keys from values of several kinds, by the bytes of bindings/keys.txt. */
#include "module.h"
#include <math.h>
#include <string.h>

/* A kind of values: its name, and its type in Python, if it has them; and how many bytes a value takes, if that is the same for all. */
typedef struct kind {
    const char *name;
    PyTypeObject *type;
    enum { BOOL, UNSIGNED, SIGNED, FLOAT, TEXT, BYTES } form;
    uint8_t size;
} kind;

static const kind all_kinds[] = {
    {"bool", &PyBool_Type, BOOL, 1}, {"i64", &PyLong_Type, SIGNED, 8}, {"f64", &PyFloat_Type, FLOAT, 8}, {"text", &PyUnicode_Type, TEXT, 0},
    {NULL, &PyBytes_Type, BYTES, 0}, {"u8", NULL, UNSIGNED, 1},        {"u16", NULL, UNSIGNED, 2},       {"u32", NULL, UNSIGNED, 4},
    {"u64", NULL, UNSIGNED, 8},      {"i8", NULL, SIGNED, 1},          {"i16", NULL, SIGNED, 2},         {"i32", NULL, SIGNED, 4},
    {"f32", NULL, FLOAT, 4},
};
enum { TYPES = 5, KINDS = sizeof all_kinds / sizeof *all_kinds };

/* The kinds of a key's values, as places in all_kinds. A key of one kind is a value, and else a tuple. */
typedef struct kinds {
    PyObject_VAR_HEAD
    uint8_t of[];
} kinds;

static const kind *kind_at(const kinds *it, Py_ssize_t at) {
    return &all_kinds[it->of[at]];
}

/* ---- Writing ---- */

/* The bytes of a key so far: in a code's room, or in memory of their own, once they are more than a map's key has. */
typedef struct writer {
    uint8_t *bytes, *more;
    size_t length, room;
} writer;

/* Where so many bytes more are to be written: NULL with MemoryError. */
static uint8_t *next_bytes(writer *to, size_t count) {
    size_t length = to->length + count;
    if (length > to->room) {
        uint8_t *more = PyMem_Realloc(to->more, 2 * length);
        if (!more) {
            PyErr_NoMemory();
            return NULL;
        }
        if (!to->more)
            memcpy(more, to->bytes, to->length);
        to->bytes = to->more = more;
        to->room = 2 * length;
    }
    uint8_t *at = to->bytes + to->length;
    to->length = length;
    return at;
}

static uint64_t sign_of(const kind *of) {
    return (uint64_t)1 << (8 * of->size - 1);
}

/* The int as an unsigned number, whose order is that of the kind: NO_KEY or -1 with an exception. */
static int word_of_int(const kind *of, PyObject *value, uint64_t *word) {
    if (!PyIndex_Check(value))
        return raise_type("an int is wanted", value);
    PyObject *number = PyNumber_Index(value);
    if (!number)
        return -1;
    if (of->form == UNSIGNED && of->size == sizeof *word)
        *word = PyLong_AsUnsignedLongLong(number);
    else
        *word = (uint64_t)PyLong_AsLongLong(number) + (of->form == SIGNED ? sign_of(of) : 0);
    Py_DECREF(number);
    if (PyErr_Occurred())
        return raised_by_number();
    if (of->size == sizeof *word || *word >> 8 * of->size == 0)
        return 0;
    PyErr_Format(PyExc_OverflowError, "the int is out of the range of %s", of->name);
    return NO_KEY;
}

/* The float in the same way: positive ones have the other sign bit, and negative ones have all bits turned. All zeros are one, and so is each
 * NaN, which comes last. */
static uint64_t word_of_double(const kind *of, double number) {
    uint64_t sign = sign_of(of), bits = 0, nan;
    if (of->size == sizeof number) {
        memcpy(&bits, &number, sizeof number);
        nan = (uint64_t)0x7ff8 << 48;
    } else {
        float less = (float)number;
        uint32_t half;
        memcpy(&half, &less, sizeof half);
        bits = half;
        nan = (uint64_t)0x7fc0 << 16;
    }
    if (isnan(number))
        bits = nan;
    else if (bits == sign)
        bits = 0;
    return bits & sign ? ~bits & (sign | (sign - 1)) : bits | sign;
}

/* Whether a number of another type is equal to the float that it becomes: 0, or NO_KEY or -1 with an exception. */
static int is_same(PyObject *value, double number) {
    PyObject *made = PyFloat_FromDouble(number);
    int is_equal = made ? PyObject_RichCompareBool(value, made, Py_EQ) : -1;
    Py_XDECREF(made);
    if (is_equal)
        return is_equal < 0 ? -1 : 0;
    PyErr_SetString(PyExc_ValueError, "the number is equal to no float");
    return NO_KEY;
}

static int word_of_float(const kind *of, PyObject *value, uint64_t *word) {
    int is_own = PyFloat_Check(value) || PyLong_Check(value);
    if (!is_own && !PyIndex_Check(value) && !PyObject_HasAttrString((PyObject *)Py_TYPE(value), "__float__"))
        return raise_type("a float is wanted", value);
    double number = PyFloat_AsDouble(value);
    if (number == -1 && PyErr_Occurred())
        return raised_by_number();
    int status = is_own ? 0 : is_same(value, number);
    if (status < 0)
        return status;
    if (of->size == sizeof(float) && isinf((float)number) && !isinf(number)) {
        PyErr_SetString(PyExc_OverflowError, "the float is out of the range of f32");
        return NO_KEY;
    }
    *word = word_of_double(of, number);
    return 0;
}

static int word_of_bool(PyObject *value, uint64_t *word) {
    *word = value == Py_True;
    return value == Py_True || value == Py_False ? 0 : raise_type("a bool is wanted", value);
}

/* Bytes with 01 after each 00, and 00 00 at the end. */
static int put_bytes(writer *to, const code *from) {
    const uint8_t *end = from->bytes + from->length;
    size_t zeros = 0;
    for (const uint8_t *at = from->bytes; at < end; at++)
        zeros += !*at;
    uint8_t *next = next_bytes(to, from->length + zeros + 2);
    if (!next)
        return -1;
    for (const uint8_t *at = from->bytes; at < end; at++) {
        *next++ = *at;
        if (!*at)
            *next++ = 1;
    }
    next[0] = next[1] = 0;
    return 0;
}

/* Puts a value behind the others: NO_KEY with an exception if it is none of the kind, or -1. It may run any Python code. */
static int put_value(writer *to, const kind *of, PyObject *value) {
    uint64_t word = 0;
    code bytes;
    uint8_t *next;
    int status;
    switch (of->form) {
    case BOOL: status = word_of_bool(value, &word); break;
    case FLOAT: status = word_of_float(of, value, &word); break;
    case TEXT:
    case BYTES:
        status = of->form == TEXT ? code_str(value, &bytes, "a str is wanted") : code_bytes(value, &bytes, "bytes are wanted");
        if (status == 0)
            status = put_bytes(to, &bytes);
        code_end(&bytes);
        return status;
    default: status = word_of_int(of, value, &word); break;
    }
    if (status < 0)
        return status;
    if (!(next = next_bytes(to, of->size)))
        return -1;
    put_word(next, word, of->size);
    return 0;
}

static int put_tuple(writer *to, const kinds *of, PyObject *key) {
    Py_ssize_t count = PyTuple_Check(key) ? PyTuple_Size(key) : -1;
    if (count < 0 || count > Py_SIZE(of)) {
        PyErr_Format(PyExc_TypeError, "a key must be a tuple of at most %zd values", Py_SIZE(of));
        return NO_KEY;
    }
    int status = 0;
    for (Py_ssize_t at = 0; status == 0 && at < count; at++)
        status = put_value(to, kind_at(of, at), PyTuple_GetItem(key, at));
    return status;
}

static writer begin(code *to) {
    writer it = {to->room, NULL, 0, sizeof to->room};
    to->owner = NULL;
    return it;
}

/* Has the code have what was written, if it was. */
static int end(writer *it, int status, code *to) {
    to->bytes = to->room;
    to->length = it->length;
    if (status == 0 && it->more)
        status = code_own(to, PyBytes_FromStringAndSize((const char *)it->bytes, (Py_ssize_t)it->length));
    PyMem_Free(it->more);
    return status;
}

int code_kinds(PyObject *self, PyObject *key, code *to) {
    const kinds *it = (kinds *)self;
    writer all = begin(to);
    return end(&all, Py_SIZE(it) == 1 ? put_value(&all, kind_at(it, 0), key) : put_tuple(&all, it, key), to);
}

/* The kind of a value's type: NULL with TypeError. */
static const kind *kind_of(PyObject *value) {
    for (int at = 0; at < TYPES; at++)
        if (PyObject_TypeCheck(value, all_kinds[at].type))
            return &all_kinds[at];
    raise_type("a part of a key is bool, int, float, str or bytes", value);
    return NULL;
}

static PyObject *bytes_of(int status, code *made) {
    PyObject *bytes = status < 0 ? NULL : PyBytes_FromStringAndSize((const char *)made->bytes, (Py_ssize_t)made->length);
    code_end(made);
    return bytes;
}

PyObject *code_of_values(PyObject *module, PyObject *values) {
    code to;
    writer all = begin(&to);
    int status = 0;
    (void)module;
    for (Py_ssize_t at = 0; status == 0 && at < PyTuple_Size(values); at++) {
        PyObject *value = PyTuple_GetItem(values, at);
        const kind *of = kind_of(value);
        status = of ? put_value(&all, of, value) : -1;
    }
    return bytes_of(end(&all, status, &to), &to);
}

/* ---- Reading ---- */

/* What of a key has not been read. */
typedef struct reader {
    const uint8_t *at, *end;
} reader;

static PyObject *raise_key(const char *why) {
    PyErr_SetString(PyExc_ValueError, why);
    return NULL;
}

static PyObject *bool_of(uint64_t word) {
    return word > 1 ? raise_key("the key has no bool there") : PyBool_FromLong((long)word);
}

static PyObject *float_of(const kind *of, uint64_t word) {
    uint64_t sign = sign_of(of), bits = word & sign ? word ^ sign : ~word & (sign | (sign - 1));
    double number;
    if (of->size == sizeof number) {
        memcpy(&number, &bits, sizeof number);
    } else {
        uint32_t half = (uint32_t)bits;
        float less;
        memcpy(&less, &half, sizeof less);
        number = less;
    }
    if (word_of_double(of, number) != word)
        return raise_key("the key has another NaN or zero than is written");
    return PyFloat_FromDouble(number);
}

static PyObject *read_number(reader *from, const kind *of) {
    if ((size_t)(from->end - from->at) < of->size)
        return raise_key("the key ends within a value");
    uint64_t word = word_at(from->at, of->size);
    from->at += of->size;
    switch (of->form) {
    case BOOL: return bool_of(word);
    case FLOAT: return float_of(of, word);
    case SIGNED: return signed_of(word - sign_of(of));
    default: return PyLong_FromUnsignedLongLong(word);
    }
}

/* Where the bytes end that the key has there, and how many 00 are among them: NULL with ValueError. */
static const uint8_t *end_of_bytes(const reader *from, size_t *zeros) {
    const uint8_t *at = from->at;
    *zeros = 0;
    while (at < from->end && (at = memchr(at, 0, (size_t)(from->end - at))) != NULL && at + 1 < from->end && at[1] <= 1) {
        if (at[1] == 0)
            return at;
        ++*zeros;
        at += 2;
    }
    raise_key("the key has no end of bytes or text");
    return NULL;
}

/* Bytes without the 01 after each 00. */
static PyObject *bytes_without(const uint8_t *from, const uint8_t *end, size_t zeros) {
    PyObject *made = PyBytes_FromStringAndSize(NULL, end - from - (Py_ssize_t)zeros);
    char *to = made ? PyBytes_AsString(made) : NULL;
    while (made && from < end) {
        *to++ = (char)*from;
        from += *from ? 1 : 2;
    }
    return made;
}

static PyObject *read_bytes(reader *from, const kind *of) {
    const uint8_t *begin = from->at;
    size_t zeros;
    const uint8_t *end = end_of_bytes(from, &zeros);
    if (!end)
        return NULL;
    from->at = end + 2;
    if (of->form == TEXT && !zeros)
        return PyUnicode_DecodeUTF8((const char *)begin, end - begin, "surrogatepass");
    PyObject *bytes = bytes_without(begin, end, zeros);
    if (of->form == BYTES || !bytes)
        return bytes;
    PyObject *text = PyUnicode_FromEncodedObject(bytes, "utf-8", "surrogatepass");
    Py_DECREF(bytes);
    return text;
}

/* The values of a key, of which there are so many at least: NULL with ValueError, if it is no such key. */
static PyObject *read_all(const kinds *it, const uint8_t *bytes, size_t length, Py_ssize_t least) {
    reader from = {bytes, bytes + length};
    PyObject *all = PyTuple_New(Py_SIZE(it));
    Py_ssize_t at = 0;
    for (; all && at < Py_SIZE(it) && (from.at < from.end || at < least); at++) {
        const kind *of = kind_at(it, at);
        PyObject *value = of->size ? read_number(&from, of) : read_bytes(&from, of);
        if (!value || PyTuple_SetItem(all, at, value) < 0)
            Py_CLEAR(all);
    }
    if (all && from.at < from.end) {
        raise_key("the key goes on behind its values");
        Py_CLEAR(all);
    }
    if (!all || at == Py_SIZE(it))
        return all;
    PyObject *some = PyTuple_GetSlice(all, 0, at);
    Py_DECREF(all);
    return some;
}

PyObject *key_of_kinds(PyObject *self, const uint8_t *bytes, size_t length) {
    const kinds *it = (kinds *)self;
    int is_value = Py_SIZE(it) == 1;
    PyObject *all = read_all(it, bytes, length, is_value);
    if (!is_value || !all)
        return all;
    PyObject *value = PyTuple_GetItem(all, 0);
    Py_INCREF(value);
    Py_DECREF(all);
    return value;
}

/* ---- The type ---- */

static PyObject *encode(PyObject *self, PyObject *key) {
    code to;
    return bytes_of(code_kinds(self, key, &to), &to);
}

static PyObject *decode(PyObject *self, PyObject *key) {
    code of;
    PyObject *found = code_bytes(key, &of, "a key's bytes are wanted") < 0 ? NULL : key_of_kinds(self, of.bytes, of.length);
    code_end(&of);
    return found;
}

static PyObject *values(PyObject *self, PyObject *key) {
    const kinds *it = (kinds *)self;
    code of;
    PyObject *all = code_bytes(key, &of, "a key's bytes are wanted") < 0 ? NULL : read_all(it, of.bytes, of.length, Py_SIZE(it));
    code_end(&of);
    return all;
}

PyObject *kinds_of(PyObject *encoder, PyObject *decoder) {
    if (!PyCFunction_Check(encoder) || !PyCFunction_Check(decoder) || PyCFunction_GetFunction(encoder) != encode ||
        PyCFunction_GetFunction(decoder) != decode || PyCFunction_GetSelf(encoder) != PyCFunction_GetSelf(decoder))
        return NULL;
    return PyCFunction_GetSelf(encoder);
}

/* The place of a kind in all_kinds: -1 with TypeError. */
static int place_of(PyObject *named) {
    for (int at = 0; at < KINDS; at++) {
        const kind *it = &all_kinds[at];
        if (named == (PyObject *)it->type || (it->name && PyUnicode_Check(named) && PyUnicode_CompareWithASCIIString(named, it->name) == 0))
            return at;
    }
    PyErr_Format(PyExc_TypeError, "%R is no kind of value that a key is made from", named);
    return -1;
}

static PyObject *kinds_new(PyTypeObject *type, PyObject *words, PyObject *named) {
    PyObject *given;
    if (named || !PyArg_ParseTuple(words, "O!:Kinds", &PyTuple_Type, &given))
        return named ? raise_key("Kinds() takes no names") : NULL;
    Py_ssize_t count = PyTuple_Size(given);
    allocfunc make = (allocfunc)(uintptr_t)PyType_GetSlot(type, Py_tp_alloc);
    kinds *it = (kinds *)make(type, count);
    for (Py_ssize_t at = 0; it && at < count; at++) {
        int place = place_of(PyTuple_GetItem(given, at));
        if (place < 0)
            Py_CLEAR(it);
        else
            it->of[at] = (uint8_t)place;
    }
    return (PyObject *)it;
}

static void kinds_dealloc(PyObject *self) {
    PyTypeObject *type = Py_TYPE(self);
    ((freefunc)(uintptr_t)PyType_GetSlot(type, Py_tp_free))(self);
    Py_DECREF(type);
}

static PyMethodDef methods[] = {
    {"encode", encode, METH_O, "encode($self, key, /)\n--\n\nThe bytes of a value or tuple."},
    {"decode", decode, METH_O, "decode($self, key, /)\n--\n\nThe value or tuple of these bytes."},
    {"values", values, METH_O, "values($self, key, /)\n--\n\nThe values of these bytes, of each kind one."},
    {NULL, NULL, 0, NULL},
};

static PyType_Slot kinds_slots[] = {
    {Py_tp_doc, (void *)(uintptr_t) "The kinds of the values that keys are made from."},
    {Py_tp_new, SLOT(kinds_new)},
    {Py_tp_dealloc, SLOT(kinds_dealloc)},
    {Py_tp_methods, methods},
    {0, NULL},
};

PyType_Spec kinds_spec = {
    .name = "hot._hot.Kinds",
    .basicsize = sizeof(kinds),
    .itemsize = 1,
    .flags = Py_TPFLAGS_DEFAULT,
    .slots = kinds_slots,
};
