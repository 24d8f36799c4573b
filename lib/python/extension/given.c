/* What is given is checked, and what is handed back is made. */
#include "extension.h"

/* The stable ABI has these two calls for good, and the headers of 3.13 have them no more. They give a pointer alone: what holds
 * the bytes is a memoryview, since the limited API of 3.8 has no other way to a buffer. (Formats with # are no way: with the
 * headers of 3.13 they mean something else before 3.13.) */
#pragma GCC diagnostic ignored "-Wdeprecated-declarations"
PyAPI_FUNC(int) PyObject_AsReadBuffer(PyObject *, const void **, Py_ssize_t *);
PyAPI_FUNC(int) PyObject_AsWriteBuffer(PyObject *, void **, Py_ssize_t *);

/* Where pointers to no values lead, which are not null, and differ. */
static uint64_t nothing[2];

PyObject *tuple_of(PyTypeObject *class, Py_ssize_t count, PyObject **items) {
    PyObject *tuple = PyType_GenericAlloc(class, count);
    bool whole = tuple != NULL;
    for (Py_ssize_t i = 0; i < count; i++) {
        if (!items[i]) whole = false;
        if (tuple) PyTuple_SetItem(tuple, i, items[i]);
        else Py_XDECREF(items[i]);
    }
    if (whole) return tuple;
    Py_XDECREF(tuple);
    return NULL;
}

PyObject *none(void) {
    Py_INCREF(Py_None);
    return Py_None;
}

PyObject *number_if(bool is, uint32_t number) { return is ? PyLong_FromUnsignedLong(number) : none(); }

PyObject *text_if(bool is, smap_text text) {
    return is ? PyUnicode_DecodeUTF8((const char *)text.bytes, (Py_ssize_t)text.length, NULL) : none();
}

PyObject *text_or_none(smap_text text) {
    PyObject *value = text_if(true, text);
    if (value || !PyErr_ExceptionMatches(PyExc_UnicodeDecodeError)) return value;
    PyErr_Clear();
    return none();
}

PyObject *taken(smap_bytes *bytes) {
    smap_text text = SMAP_TEXT;
    smap_bytes_text(bytes, &text);
    PyObject *result = PyBytes_FromStringAndSize((const char *)text.bytes, (Py_ssize_t)text.length);
    smap_bytes_free(bytes);
    return result;
}

PyObject *taken_or_refused(uint32_t status, smap_bytes *bytes, smap_code refusal) {
    if (status == SMAP_DONE) return taken(bytes);
    return status == SMAP_REFUSED ? PyLong_FromUnsignedLong(refusal) : PyErr_NoMemory();
}

/* Says of what type a value is that is no whole number. */
static bool refuse_number(PyObject *value, const char *what) {
    if (!PyErr_ExceptionMatches(PyExc_TypeError)) return false;
    PyErr_Clear();
    PyObject *name = PyObject_GetAttrString((PyObject *)Py_TYPE(value), "__name__");
    if (name) PyErr_Format(PyExc_TypeError, "%s is a whole number, not %S", what, name);
    Py_XDECREF(name);
    return false;
}

/* A whole number. One past the ends is at the end. A truth value is none. */
static bool whole_of(PyObject *value, const char *what, long long *number) {
    int past = 0;
    if (PyLong_CheckExact(value)) {
        *number = PyLong_AsLongLongAndOverflow(value, &past);
    } else if (PyBool_Check(value)) {
        PyErr_Format(PyExc_TypeError, "%s is a whole number, not a bool", what);
        return false;
    } else {
        PyObject *index = PyNumber_Index(value);
        if (!index) return refuse_number(value, what);
        *number = PyLong_AsLongLongAndOverflow(index, &past);
        Py_DECREF(index);
    }
    if (past) *number = past < 0 ? LLONG_MIN : LLONG_MAX;
    return true;
}

bool place_of(PyObject *value, const char *what, uint32_t *place) {
    long long number;
    if (!whole_of(value, what, &number)) return false;
    if (number < 0) {
        PyErr_Format(PyExc_ValueError, "%s is %S: lines and columns count from 0", what, value);
        return false;
    }
    *place = number > UINT32_MAX ? UINT32_MAX : (uint32_t)number;
    return true;
}

bool index_of(PyObject *value, const char *what, uint32_t *index) {
    long long number;
    if (!whole_of(value, what, &number)) return false;
    *index = number < 0 || number > UINT32_MAX ? UINT32_MAX : (uint32_t)number;
    return true;
}

/* The bytes of a memoryview, which are steady where they are those of `bytes`. */
static bool bytes_viewed(PyObject *view, const void **bytes, Py_ssize_t *length, bool *steady) {
    PyObject *viewed = PyObject_GetAttrString(view, "obj");
    if (!viewed) return false;
    *steady = PyBytes_CheckExact(viewed);
    Py_DECREF(viewed);
    return PyObject_AsReadBuffer(view, bytes, length) == 0;
}

bool bytes_of(PyObject *value, struct given *given) {
    const void *bytes = NULL;
    Py_ssize_t length = 0;
    if (PyBytes_Check(value)) {
        bytes = PyBytes_AsString(value);
        length = PyBytes_Size(value);
        given->steady = true;
    } else if (!PyMemoryView_Check(value)) {
        PyErr_SetString(PyExc_TypeError, "no bytes and no memoryview");
        return false;
    } else if (!bytes_viewed(value, &bytes, &length, &given->steady)) {
        return false;
    }
    given->bytes = length && bytes ? bytes : (const void *)nothing;
    given->length = (size_t)length;
    return true;
}

void *room_of(PyObject *value, size_t *length) {
    void *room = NULL;
    Py_ssize_t given = 0;
    if (PyObject_AsWriteBuffer(value, &room, &given) < 0) return NULL;
    *length = (size_t)given;
    return given && room ? room : nothing + 1;
}

/* The same where not all are given at their places, or one is missing or too many. */
static bool words_by_name(PyObject *const *given, Py_ssize_t count, PyObject *named, const char *format, char **names, PyObject **words) {
    PyObject *by_name = named ? PyDict_New() : NULL, *at_places = PyTuple_New(count);
    bool is = at_places && (by_name || !named);
    for (Py_ssize_t i = 0; is && i < count; i++) {
        Py_INCREF(given[i]);
        PyTuple_SetItem(at_places, i, given[i]);
    }
    for (Py_ssize_t i = 0; is && named && i < PyTuple_Size(named); i++)
        is = PyDict_SetItem(by_name, PyTuple_GetItem(named, i), given[count + i]) == 0;
    is = is && PyArg_ParseTupleAndKeywords(at_places, by_name, format, names, words, words + 1);
    Py_XDECREF(at_places);
    Py_XDECREF(by_name);
    return is;
}

bool words_of(PyObject *const *given, Py_ssize_t count, PyObject *named, const char *format, char **names, PyObject **words) {
    Py_ssize_t wanted = names[1] ? 2 : 1;
    if (named || count != wanted) return words_by_name(given, count, named, format, names, words);
    words[0] = given[0];
    if (wanted == 2) words[1] = given[1];
    return true;
}
