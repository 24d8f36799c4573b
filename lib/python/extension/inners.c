/* The inner maps of a map, with which it is composed. */
#include "extension.h"

static PyObject *inners_new(PyTypeObject *type, PyObject *words, PyObject *named) {
    PyObject *given;
    if (!PyArg_ParseTuple(words, "O!", map_type, &given)) return NULL;
    struct held *held = (struct held *)held_new(type, words, named), *outer = (struct held *)given;
    if (!held) return NULL;
    if (ready(&outer, 1)) {
        held->full = smap_inners_new(&outer->map, &held->inners) == SMAP_DONE;
        if (held->full) return (PyObject *)held;
        PyErr_NoMemory();
    }
    Py_DECREF(held);
    return NULL;
}

static void inners_free(PyObject *self) {
    struct held *held = (struct held *)self;
    if (held->full) {
        smap_inners_free(&held->inners);
        give_back(held);
    }
    held_free(self);
}

static PyObject *inners_close(PyObject *self, PyObject *unused) {
    (void)unused;
    struct held *held = (struct held *)self;
    if (!idle(held)) return NULL;
    if (!held->full) return none();
    held->full = false;
    begin(held);
    PyThreadState *state = let_go(true);
    smap_inners_free(&held->inners);
    come_back(state);
    end(held);
    give_back(held);
    return none();
}

/* Puts a map into the place of a source, where that is free; the map is closed then. Gives whether it was. */
PyObject *inners_put(struct held *inners, uint32_t source, struct held *map) {
    bool put = smap_inners_put(&inners->inners, source, &map->map) == SMAP_DONE;
    if (put) hand_over(map, inners);
    return PyBool_FromLong(put);
}

/* Begins and ends with the inner maps and the outer one, which may be long at work. */
static PyThreadState *begun(struct held *inners, struct held *outer) {
    begin(inners);
    begin(outer);
    return let_go(true);
}

static void ended(struct held *inners, struct held *outer, PyThreadState *state) {
    come_back(state);
    end(outer);
    end(inners);
}

/* The source of which a map is wanted next, or None; or the code of the refusal, below 0. */
PyObject *inners_next(struct held *inners, struct held *outer) {
    uint32_t source = 0;
    smap_code refusal = 0;
    PyThreadState *state = begun(inners, outer);
    uint32_t status = smap_inners_next(&outer->map, &inners->inners, &source, &refusal);
    ended(inners, outer, state);
    if (status == SMAP_DONE) return PyLong_FromUnsignedLong(source);
    if (status != SMAP_REFUSED) return PyErr_NoMemory();
    return refusal ? PyLong_FromLongLong(-(long long)refusal) : none();
}

/* The name of a source, or None. */
PyObject *inners_name(struct held *inners, struct held *outer, uint32_t source) {
    smap_text text = SMAP_TEXT;
    bool is = smap_inners_name(&outer->map, &inners->inners, source, &text) == SMAP_DONE;
    return text_if(is, text);
}

/* The text of what the maps come to, or the code of the refusal. */
PyObject *inners_composed(struct held *inners, struct held *outer, bool prune, bool no_content, bool has_id, struct given id) {
    const smap_compose_options options = {prune, no_content};
    smap_bytes bytes = {0};
    smap_code refusal = 0;
    PyThreadState *state = begun(inners, outer);
    uint32_t status = with_id(smap_compose_all(&outer->map, &inners->inners, &options, &bytes, &refusal), &bytes, has_id, id);
    ended(inners, outer, state);
    return taken_or_refused(status, &bytes, refusal);
}

static PyMethodDef inners_methods[] = {
    {"close", inners_close, METH_NOARGS, "close($self)\n--\n\nFrees the maps."},
    CHECKED_inners_put, CHECKED_inners_next, CHECKED_inners_name, CHECKED_inners_composed,
    {NULL, NULL, 0, NULL},
};

static PyType_Slot inners_slots[] = {
    {Py_tp_doc, "The inner maps of a map."},
    {Py_tp_new, inners_new},
    {Py_tp_dealloc, inners_free},
    {Py_tp_methods, inners_methods},
    {0, NULL},
};

PyType_Spec inners_spec = {"smap._smap.Inners", sizeof(struct held), 0, Py_TPFLAGS_DEFAULT, inners_slots};
