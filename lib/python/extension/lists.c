/* Lists of what a map lends: lines of a source, and generated places. All of it is copied before the first list or tuple is made. */
#include "extension.h"
#include <stdlib.h>
#include <string.h>

/* Makes the index from original to generated, if there is none. */
static bool indexed(struct held *held) {
    if (held->originals.at) return true;
    begin(held);
    PyThreadState *state = let_go(true);
    uint32_t status = smap_originals_new(&held->map, &held->originals);
    come_back(state);
    end(held);
    if (status != SMAP_DONE) PyErr_NoMemory();
    return status == SMAP_DONE;
}

/* Generated places that were copied. */
struct places { smap_generated_place *at; size_t count; };

/* Copies the generated places of an original one or, where there is no column, of a whole line. */
static bool copy_places(const struct held *held, uint32_t source, uint32_t line, const uint32_t *column, bool after, struct places *places) {
    smap_generated_places lent = SMAP_PLACES;
    if (column) smap_generated(&held->originals, source, line, *column, after ? SMAP_AT_OR_AFTER : SMAP_AT_OR_BEFORE, &lent);
    else smap_generated_on_line(&held->originals, source, line, &lent);
    *places = (struct places){malloc(lent.count * sizeof *lent.places + 1), lent.count};
    if (places->at) memcpy(places->at, lent.places, lent.count * sizeof *lent.places);
    else PyErr_NoMemory();
    return places->at;
}

/* The code that a tuple may run finds no list with places that are not filled yet. */
static PyObject *list_of_places(const struct places *places) {
    PyObject *list = PyList_New(0);
    for (size_t i = 0; list && i < places->count; i++) {
        const smap_generated_place *place = &places->at[i];
        PyObject *items[] = {
            PyLong_FromUnsignedLong(place->line), PyLong_FromUnsignedLong(place->column), PyLong_FromUnsignedLong(place->original_column),
        };
        PyObject *one = tuple_of(generated_class, 3, items);
        if (!one || PyList_Append(list, one) < 0) Py_CLEAR(list);
        Py_XDECREF(one);
    }
    return list;
}

PyObject *map_generated(PyObject *self, PyObject *words) {
    struct held *held = (struct held *)self;
    PyObject *given_source, *given_line, *given_column;
    int after;
    uint32_t source, line, column = 0;
    if (!PyArg_ParseTuple(words, "OOOp", &given_source, &given_line, &given_column, &after)) return NULL;
    bool whole = given_column == Py_None;
    if (!index_of(given_source, "a source", &source) || !place_of(given_line, "line", &line)) return NULL;
    if ((!whole && !place_of(given_column, "column", &column)) || !ready(&held, 1)) return NULL;
    smap_source_text text = SMAP_SOURCE;
    if (!has_source(held, source, given_source, &text) || !indexed(held)) return NULL;
    struct places places = {NULL, 0};
    PyObject *list = copy_places(held, source, line, whole ? NULL : &column, after, &places) ? list_of_places(&places) : NULL;
    free(places.at);
    return list;
}

/* Makes texts of lines of a content, which runs no code. */
static bool copy_lines(smap_text content, const smap_line_bytes *lines, size_t count, PyObject **texts) {
    for (size_t i = 0; i < count; i++) {
        texts[i] = text_if(true, (smap_text){content.bytes + lines[i].start, lines[i].length});
        if (!texts[i]) return false;
    }
    return true;
}

/* A list of lines of a content. */
static PyObject *list_of_lines(smap_text content, const smap_line_bytes *lines, size_t count) {
    PyObject **texts = calloc(count + 1, sizeof *texts);
    if (!texts) return PyErr_NoMemory();
    PyObject *list = copy_lines(content, lines, count, texts) ? PyList_New((Py_ssize_t)count) : NULL;
    for (size_t i = 0; i < count; i++) {
        if (list) PyList_SetItem(list, (Py_ssize_t)i, texts[i]);
        else Py_XDECREF(texts[i]);
    }
    free(texts);
    return list;
}

PyObject *map_lines(struct held *held, PyObject *value, uint32_t source, uint32_t line, uint32_t before, uint32_t after) {
    smap_source_text text = SMAP_SOURCE;
    if (!has_source(held, source, value, &text)) return NULL;
    size_t places = (size_t)before + 1 + after;
    smap_line_bytes *lines = calloc(places, sizeof *lines);
    if (!lines) return PyErr_NoMemory();
    smap_line_range range = {0};
    bool is = smap_source_lines(&held->map, source, line, before, after, lines, places, &range) == SMAP_DONE;
    PyObject *list = is ? list_of_lines(text.content, lines, range.count) : NULL;
    free(lines);
    if (!is) return none();
    return list ? Py_BuildValue("NI", list, line - range.first) : NULL;
}
