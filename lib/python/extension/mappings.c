/* All mappings of a map, and the text of mappings. */
#include "extension.h"
#include <stdlib.h>
#include <string.h>

/* The mappings of a map, one after another. They are a copy: the map may be closed meanwhile. */
struct mappings {
    PyObject_HEAD
    smap_bytes bytes;
    smap_text text;
    bool full;
    size_t at;
};

PyObject *map_mappings(PyObject *self, PyObject *unused) {
    (void)unused;
    struct held *held = (struct held *)self;
    struct mappings *mappings = (struct mappings *)PyType_GenericAlloc(mappings_type, 0);
    if (!mappings || !ready(&held, 1)) {
        Py_XDECREF(mappings);
        return NULL;
    }
    begin(held);
    PyThreadState *state = let_go(true);
    mappings->full = smap_map_mappings(&held->map, &mappings->bytes) == SMAP_DONE;
    come_back(state);
    end(held);
    if (!mappings->full) {
        Py_DECREF(mappings);
        return PyErr_NoMemory();
    }
    mappings->text = (smap_text)SMAP_TEXT;
    smap_bytes_text(&mappings->bytes, &mappings->text);
    return (PyObject *)mappings;
}

static PyObject *mappings_next(PyObject *self) {
    struct mappings *mappings = (struct mappings *)self;
    if (!mappings->full) return NULL;
    smap_mapping mapping;
    if (mappings->text.length - mappings->at < sizeof mapping) {
        mappings->full = false;
        smap_bytes_free(&mappings->bytes);
        return NULL;
    }
    memcpy(&mapping, mappings->text.bytes + mappings->at, sizeof mapping);
    mappings->at += sizeof mapping;
    bool is = mapping.kind == 2;
    PyObject *items[] = {
        PyLong_FromUnsignedLong(mapping.line), PyLong_FromUnsignedLong(mapping.column), number_if(is, mapping.source),
        number_if(is, mapping.original_line), number_if(is, mapping.original_column), number_if(is && mapping.named, mapping.name),
    };
    return tuple_of(mapping_class, 6, items);
}

/* How many are left. */
static PyObject *mappings_left(PyObject *self, PyObject *unused) {
    (void)unused;
    struct mappings *mappings = (struct mappings *)self;
    return PyLong_FromSize_t(mappings->full ? (mappings->text.length - mappings->at) / sizeof(smap_mapping) : 0);
}

static PyObject *itself(PyObject *self) {
    Py_INCREF(self);
    return self;
}

static void mappings_free(PyObject *self) {
    PyTypeObject *type = Py_TYPE(self);
    struct mappings *mappings = (struct mappings *)self;
    if (mappings->full) smap_bytes_free(&mappings->bytes);
    ((freefunc)PyType_GetSlot(type, Py_tp_free))(self);
    Py_DECREF(type);
}

static PyMethodDef mappings_methods[] = {
    {"__length_hint__", mappings_left, METH_NOARGS, NULL},
    {NULL, NULL, 0, NULL},
};

static PyType_Slot mappings_slots[] = {
    {Py_tp_doc, "The mappings of a map, one after another."},
    {Py_tp_dealloc, mappings_free},
    {Py_tp_iter, itself},
    {Py_tp_iternext, mappings_next},
    {Py_tp_methods, mappings_methods},
    {0, NULL},
};

PyType_Spec mappings_spec = {"smap._smap.Mappings", sizeof(struct mappings), 0, Py_TPFLAGS_DEFAULT, mappings_slots};

/* The text of mappings, whose numbers are given as smap_mapping has them; or the code of the refusal and the number of the mapping. */
PyObject *encode(struct given given) {
    void *copy = NULL;
    if (!given.steady || (uintptr_t)given.bytes % sizeof(uint32_t)) {
        copy = malloc(given.length + 1);
        if (!copy) return PyErr_NoMemory();
        given.bytes = memcpy(copy, given.bytes, given.length);
    }
    smap_bytes bytes = {0};
    smap_encode_refusal refusal = {0};
    PyThreadState *state = let_go(true);
    uint32_t status =
        smap_encode((const smap_mapping *)(const void *)given.bytes, given.length / sizeof(smap_mapping), &bytes, &refusal);
    come_back(state);
    free(copy);
    if (status != SMAP_REFUSED) return taken_or_refused(status, &bytes, 0);
    return Py_BuildValue("IK", (unsigned int)refusal.code, (unsigned long long)refusal.mapping);
}
