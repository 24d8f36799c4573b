/* Texts that are rewritten piece by piece, and the URLs of a text. */
#include "extension.h"
#include <stdlib.h>

/* Of a piece of a text with more bytes than this the first run lets other threads go on. */
#define LONG_PIECE 4096

static PyObject *rewriting_new(PyTypeObject *type, PyObject *words, PyObject *named) {
    int hide_ignored, anywhere, strip_ansi, asks;
    unsigned long long most;
    if (!PyArg_ParseTuple(words, "ppppK", &hide_ignored, &anywhere, &strip_ansi, &asks, &most)) return NULL;
    struct held *held = (struct held *)held_new(type, words, named);
    if (!held) return NULL;
    const smap_rewriting_options options = {hide_ignored, anywhere, strip_ansi, asks, INT64_MAX, most};
    held->full = smap_rewriting_new(&options, &held->rewriting) == SMAP_DONE;
    if (held->full) return (PyObject *)held;
    Py_DECREF(held);
    return PyErr_NoMemory();
}

static void rewriting_free(PyObject *self) {
    struct held *held = (struct held *)self;
    if (held->full) smap_rewriting_free(&held->rewriting);
    held_free(self);
}

/* Gives it the next bytes of the text, which are copied; or tells it that the text ends. */
static PyObject *rewriting_give(PyObject *self, PyObject *data) {
    struct held *held = (struct held *)self;
    struct given given;
    uint32_t status;
    if (data == Py_None) {
        if (!ready(&held, 1)) return NULL;
        status = smap_rewriting_end(&held->rewriting);
    } else {
        if (!bytes_of(data, &given) || !ready(&held, 1)) return NULL;
        held->size = given.length;
        status = smap_rewriting_give(&held->rewriting, given.bytes, given.length);
    }
    return status == SMAP_DONE ? none() : PyErr_NoMemory();
}

/* Goes on over maps: gives None where all that was given is done, or the URL that is wanted, or the refusal. What is wanted and is no
 * text has no map until this is done. */
PyObject *rewriting_run(struct held *held, struct held *store, uint64_t now) {
    PyObject *key = NULL;
    while (!key) {
        smap_rewrite_refusal refusal = {0};
        smap_text url = SMAP_TEXT, lent = SMAP_TEXT;
        if (!ready((struct held *[]){held, store}, 2)) return NULL;
        bool is_long = held->size > LONG_PIECE;
        held->size = 0;
        if (is_long) begin(held), begin(store);
        PyThreadState *state = let_go(is_long);
        uint32_t status = smap_rewriting_run(&held->rewriting, &store->table, &store->store, now, &refusal);
        come_back(state);
        if (is_long) end(held), end(store);
        if (status == SMAP_DONE) return none();
        if (status == SMAP_REFUSED) {
            PyObject *items[] = {PyLong_FromUnsignedLong(refusal.code), PyLong_FromUnsignedLongLong(refusal.lines)};
            return tuple_of(text_refusal_class, 2, items);
        }
        if (status != SMAP_WANTED) return PyErr_NoMemory();
        smap_rewriting_url(&held->rewriting, &url);
        smap_store_key(&store->store, url.bytes, url.length, &lent);
        key = text_or_none(lent);
        if (key != Py_None) continue;
        Py_CLEAR(key);
        if (smap_store_put_none(&store->store, lent.bytes, lent.length, SMAP_MISSING, true, now + 1) != SMAP_DONE) return PyErr_NoMemory();
    }
    return key;
}

/* What is written, which goes out of it. */
PyObject *rewriting_take(struct held *held) {
    smap_text text = SMAP_TEXT;
    smap_rewriting_text(&held->rewriting, &text);
    PyObject *bytes = PyBytes_FromStringAndSize((const char *)text.bytes, (Py_ssize_t)text.length);
    if (bytes) smap_rewriting_clear(&held->rewriting);
    return bytes;
}

/* How many lines, frames or places, mapped and hidden ones there were. */
PyObject *rewriting_counts(struct held *held) {
    smap_trace_count count = {0};
    smap_rewriting_count(&held->rewriting, &count);
    return Py_BuildValue("(KKKK)", (unsigned long long)count.lines, (unsigned long long)count.frames, (unsigned long long)count.mapped,
                         (unsigned long long)count.hidden);
}

/* Puts a URL into the dict without its query and its fragment, where a loader is asked for it. Of each two backslashes of one that is
 * halved one is left out. */
static bool put_url(PyObject *urls, const uint8_t *bytes, size_t length, bool is_halved) {
    uint8_t *whole = NULL;
    size_t left = 0;
    if (is_halved) {
        whole = malloc(length + 1);
        if (!whole) return PyErr_NoMemory() != NULL;
        for (size_t i = 0; i < length; i++) {
            whole[left++] = bytes[i];
            if (bytes[i] == '\\' && i + 1 < length && bytes[i + 1] == '\\') i++;
        }
        bytes = whole, length = left;
    }
    smap_text cut = SMAP_TEXT;
    smap_cut_url(bytes, length, &cut);
    PyObject *url = smap_is_location(cut.bytes, cut.length) == SMAP_DONE ? text_or_none(cut) : none();
    bool put = url == Py_None || (url && PyDict_SetItem(urls, url, Py_None) == 0);
    Py_XDECREF(url);
    free(whole);
    return put;
}

/* The URLs for whose maps a loader is asked where the frames of a text are rewritten, or its places anywhere, each once, in their
 * order. */
PyObject *frame_urls(struct given given, bool anywhere) {
    PyObject *urls = PyDict_New();
    smap_url_finder finder = {0};
    smap_frame_url frame = {0};
    smap_place_url place = {0};
    if (urls && anywhere && smap_url_finder_new(&finder) != SMAP_DONE) {
        Py_CLEAR(urls);
        PyErr_NoMemory();
    }
    while (urls && !anywhere && smap_next_frame_url(given.bytes, given.length, frame.next, &frame) == SMAP_DONE)
        if (!put_url(urls, given.bytes + frame.start, frame.length, false)) Py_CLEAR(urls);
    while (urls && anywhere && smap_next_place_url(&finder, given.bytes, given.length, place.next, &place) == SMAP_DONE)
        if (!put_url(urls, given.bytes + place.start, place.length, place.halved)) Py_CLEAR(urls);
    if (finder.at) smap_url_finder_free(&finder);
    PyObject *list = urls ? PyDict_Keys(urls) : NULL;
    Py_XDECREF(urls);
    return list;
}

static PyMethodDef rewriting_methods[] = {
    {"give", rewriting_give, METH_O, NULL},
    CHECKED_rewriting_run, CHECKED_rewriting_take, CHECKED_rewriting_counts,
    {NULL, NULL, 0, NULL},
};

static PyType_Slot rewriting_slots[] = {
    {Py_tp_doc, "A text that is rewritten piece by piece."},
    {Py_tp_new, rewriting_new},
    {Py_tp_dealloc, rewriting_free},
    {Py_tp_methods, rewriting_methods},
    {0, NULL},
};

PyType_Spec rewriting_spec = {"smap._smap.Rewriting", sizeof(struct held), 0, Py_TPFLAGS_DEFAULT, rewriting_slots};
