/* Why something is refused, in numbers and words. */
#include "extension.h"

PyObject *refusal_of(const smap_refusal *refusal) {
    PyObject *items[] = {
        PyLong_FromUnsignedLong(refusal->code), PyLong_FromUnsignedLong(refusal->cause),
        PyLong_FromUnsignedLong(refusal->line), PyLong_FromUnsignedLong(refusal->has_section),
        PyLong_FromUnsignedLongLong(refusal->section), PyLong_FromUnsignedLongLong(refusal->byte),
    };
    return tuple_of(refusal_class, 6, items);
}

static bool refusal_from(PyObject *words, smap_refusal *refusal, PyObject **data) {
    unsigned int code, cause, line, has_section;
    unsigned long long section, byte;
    if (!PyArg_ParseTuple(words, "(IIIIKK)O", &code, &cause, &line, &has_section, &section, &byte, data)) return false;
    *refusal = (smap_refusal){code, cause, line, has_section, section, byte};
    return true;
}

static PyObject *text_of(smap_bytes *bytes) {
    PyObject *result = taken(bytes), *text = NULL;
    if (result) text = PyUnicode_FromEncodedObject(result, "utf-8", "strict");
    Py_XDECREF(result);
    return text;
}

static PyObject *signed_if(bool is, int64_t number) { return is ? PyLong_FromLongLong(number) : none(); }

PyObject *explained(PyObject *module, PyObject *words) {
    (void)module;
    smap_refusal refusal;
    PyObject *data;
    struct given given;
    if (!refusal_from(words, &refusal, &data) || !bytes_of(data, &given)) return NULL;
    smap_bytes bytes = {0};
    smap_reason reason = {0};
    PyThreadState *state = let_go(given.steady);
    uint32_t status = smap_refusal_explain(given.bytes, given.length, &refusal, &reason, &bytes);
    come_back(state);
    if (status == SMAP_REFUSED) return none();
    if (status != SMAP_DONE) return PyErr_NoMemory();
    PyObject *items[] = {
        signed_if(reason.has_value, reason.value), signed_if(reason.has_least, reason.least), signed_if(reason.has_most, reason.most),
        reason.has_column ? PyLong_FromUnsignedLongLong(reason.generated_column) : none(), text_of(&bytes),
    };
    return tuple_of(reason_class, 5, items);
}

PyObject *code_text(uint32_t code) {
    smap_text text = SMAP_TEXT;
    bool is = smap_code_text(code, &text) == SMAP_DONE;
    return text_if(is, text);
}
