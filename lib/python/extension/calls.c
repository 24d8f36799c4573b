/* The arguments of each call are checked, as lib/calls has them: lib/declare has written this. */
#include "extension.h"

PyObject *checked_inners_put(PyObject *self, PyObject *words) {
    struct held *inners = (struct held *)self;
    PyObject *words0;
    uint32_t source;
    PyObject *words1;
    if (!PyArg_ParseTuple(words, "OO!", &words0, map_type, &words1) ||
        !index_of(words0, "source", &source) ||
        !ready((struct held *[]){inners, (struct held *)words1}, 2))
        return NULL;
    return inners_put(inners, source, (struct held *)words1);
}

PyObject *checked_inners_next(PyObject *self, PyObject *words) {
    struct held *inners = (struct held *)self;
    PyObject *words0;
    if (!PyArg_ParseTuple(words, "O!", map_type, &words0) ||
        !ready((struct held *[]){inners, (struct held *)words0}, 2))
        return NULL;
    return inners_next(inners, (struct held *)words0);
}

PyObject *checked_inners_name(PyObject *self, PyObject *words) {
    struct held *inners = (struct held *)self;
    PyObject *words0;
    PyObject *words1;
    uint32_t source;
    if (!PyArg_ParseTuple(words, "O!O", map_type, &words0, &words1) ||
        !index_of(words1, "source", &source) ||
        !ready((struct held *[]){inners, (struct held *)words0}, 2))
        return NULL;
    return inners_name(inners, (struct held *)words0, source);
}

PyObject *checked_inners_composed(PyObject *self, PyObject *words) {
    struct held *inners = (struct held *)self;
    PyObject *words0;
    int prune;
    int no_content;
    int has_id;
    PyObject *words4;
    struct given id;
    if (!PyArg_ParseTuple(words, "O!pppO", map_type, &words0, &prune, &no_content, &has_id, &words4) ||
        !bytes_of(words4, &id) ||
        !ready((struct held *[]){inners, (struct held *)words0}, 2))
        return NULL;
    return inners_composed(inners, (struct held *)words0, prune, no_content, has_id, id);
}

PyObject *checked_map_lines(PyObject *self, PyObject *words) {
    struct held *held = (struct held *)self;
    PyObject *words0;
    uint32_t source;
    PyObject *words1;
    uint32_t line;
    unsigned int before;
    unsigned int after;
    if (!PyArg_ParseTuple(words, "OOII", &words0, &words1, &before, &after) ||
        !index_of(words0, "a source", &source) ||
        !place_of(words1, "line", &line) ||
        !ready((struct held *[]){held}, 1))
        return NULL;
    return map_lines(held, words0, source, line, before, after);
}

PyObject *checked_map_written(PyObject *self, PyObject *words) {
    struct held *held = (struct held *)self;
    int has_id;
    PyObject *words1;
    struct given id;
    if (!PyArg_ParseTuple(words, "pO", &has_id, &words1) ||
        !bytes_of(words1, &id) ||
        !ready((struct held *[]){held}, 1))
        return NULL;
    return map_written(held, has_id, id);
}

PyObject *checked_map_bytes_by_source(PyObject *self, PyObject *words) {
    struct held *held = (struct held *)self;
    struct given generated;
    if (!bytes_of(words, &generated) ||
        !ready((struct held *[]){held}, 1))
        return NULL;
    return map_bytes_by_source(held, generated);
}

PyObject *checked_map_fit(PyObject *self, PyObject *words) {
    struct held *held = (struct held *)self;
    struct given generated;
    if (!bytes_of(words, &generated) ||
        !ready((struct held *[]){held}, 1))
        return NULL;
    return map_fit(held, generated);
}

PyObject *checked_map_with_generated(PyObject *self, PyObject *words) {
    struct held *held = (struct held *)self;
    struct given generated;
    if (!bytes_of(words, &generated) ||
        !ready((struct held *[]){held}, 1))
        return NULL;
    return map_with_generated(held, generated);
}

PyObject *checked_map_function_name(PyObject *self, PyObject *words) {
    struct held *held = (struct held *)self;
    PyObject *words0;
    uint32_t line;
    PyObject *words1;
    uint32_t column;
    PyObject *words2;
    struct given function;
    if (!PyArg_ParseTuple(words, "OOO", &words0, &words1, &words2) ||
        !place_of(words0, "line", &line) ||
        !place_of(words1, "column", &column) ||
        !bytes_of(words2, &function) ||
        !ready((struct held *[]){held}, 1))
        return NULL;
    return map_function_name(held, line, column, function);
}

PyObject *checked_map_use_paths(PyObject *self, PyObject *words) {
    struct held *held = (struct held *)self;
    struct given url;
    if (!bytes_of(words, &url) ||
        !ready((struct held *[]){held}, 1))
        return NULL;
    return map_use_paths(held, url);
}

PyObject *checked_map_stand_at(PyObject *self, PyObject *words) {
    struct held *held = (struct held *)self;
    PyObject *words0;
    struct given path;
    unsigned long long most_names;
    if (!PyArg_ParseTuple(words, "OK", &words0, &most_names) ||
        !bytes_of(words0, &path) ||
        !ready((struct held *[]){held}, 1))
        return NULL;
    return map_stand_at(held, path, most_names);
}

PyObject *checked_store_key(PyObject *self, PyObject *words) {
    struct held *held = (struct held *)self;
    struct given url;
    PyObject *url_bytes = NULL;
    PyObject *result = NULL;
    if ((url_bytes = url_of(words, &url)) && ready((struct held *[]){held}, 1)) result = store_key(held, url);
    Py_XDECREF(url_bytes);
    return result;
}

PyObject *checked_store_put(PyObject *self, PyObject *words) {
    struct held *held = (struct held *)self;
    PyObject *words0;
    struct given url;
    PyObject *url_bytes = NULL;
    PyObject *words1;
    int is_named;
    PyObject *result = NULL;
    if (!PyArg_ParseTuple(words, "OO!p", &words0, map_type, &words1, &is_named)) return NULL;
    if ((url_bytes = url_of(words0, &url)) && ready((struct held *[]){held, (struct held *)words1}, 2)) result = store_put(held, words0, url, (struct held *)words1, is_named);
    Py_XDECREF(url_bytes);
    return result;
}

PyObject *checked_store_put_none(PyObject *self, PyObject *words) {
    struct held *held = (struct held *)self;
    PyObject *words0;
    struct given url;
    PyObject *url_bytes = NULL;
    int has_failed;
    unsigned long long until;
    PyObject *result = NULL;
    if (!PyArg_ParseTuple(words, "OpK", &words0, &has_failed, &until)) return NULL;
    if ((url_bytes = url_of(words0, &url)) && ready((struct held *[]){held}, 1)) result = store_put_none(held, url, has_failed, until);
    Py_XDECREF(url_bytes);
    return result;
}

PyObject *checked_store_forget(PyObject *self, PyObject *words) {
    struct held *held = (struct held *)self;
    struct given url;
    PyObject *url_bytes = NULL;
    PyObject *result = NULL;
    if ((url_bytes = url_of(words, &url)) && ready((struct held *[]){held}, 1)) result = store_forget(held, url);
    Py_XDECREF(url_bytes);
    return result;
}

PyObject *checked_store_counted(PyObject *self, PyObject *words) {
    struct held *held = (struct held *)self;
    (void)words;
    if (!ready((struct held *[]){held}, 1))
        return NULL;
    return store_counted(held);
}

PyObject *checked_rewriting_run(PyObject *self, PyObject *words) {
    struct held *held = (struct held *)self;
    PyObject *words0;
    unsigned long long now;
    if (!PyArg_ParseTuple(words, "O!K", store_type, &words0, &now) ||
        !ready((struct held *[]){held, (struct held *)words0}, 2))
        return NULL;
    return rewriting_run(held, (struct held *)words0, now);
}

PyObject *checked_rewriting_take(PyObject *self, PyObject *words) {
    struct held *held = (struct held *)self;
    (void)words;
    if (!ready((struct held *[]){held}, 1))
        return NULL;
    return rewriting_take(held);
}

PyObject *checked_rewriting_counts(PyObject *self, PyObject *words) {
    struct held *held = (struct held *)self;
    (void)words;
    if (!ready((struct held *[]){held}, 1))
        return NULL;
    return rewriting_counts(held);
}

PyObject *checked_frame_urls(PyObject *self, PyObject *words) {
    (void)self;
    PyObject *words0;
    struct given trace;
    int anywhere;
    if (!PyArg_ParseTuple(words, "Op", &words0, &anywhere) ||
        !bytes_of(words0, &trace))
        return NULL;
    return frame_urls(trace, anywhere);
}

PyObject *checked_folder_path(PyObject *self, PyObject *words) {
    (void)self;
    PyObject *words0;
    struct given prefix;
    PyObject *prefix_bytes = NULL;
    PyObject *words1;
    struct given url;
    PyObject *url_bytes = NULL;
    PyObject *result = NULL;
    if (!PyArg_ParseTuple(words, "OO", &words0, &words1)) return NULL;
    if ((prefix_bytes = url_of(words0, &prefix)) && (url_bytes = url_of(words1, &url))) result = folder_path(prefix, url);
    Py_XDECREF(prefix_bytes);
    Py_XDECREF(url_bytes);
    return result;
}

PyObject *checked_is_path(PyObject *self, PyObject *words) {
    (void)self;
    struct given url;
    PyObject *url_bytes = NULL;
    PyObject *result = NULL;
    if ((url_bytes = url_of(words, &url))) result = is_path(url);
    Py_XDECREF(url_bytes);
    return result;
}

PyObject *checked_url_refusal(PyObject *self, PyObject *words) {
    (void)self;
    PyObject *words0;
    struct given url;
    PyObject *url_bytes = NULL;
    PyObject *words1;
    PyObject *result = NULL;
    if (!PyArg_ParseTuple(words, "OO!", &words0, map_type, &words1)) return NULL;
    if ((url_bytes = url_of(words0, &url)) && ready((struct held *[]){(struct held *)words1}, 1)) result = url_refusal(url, (struct held *)words1);
    Py_XDECREF(url_bytes);
    return result;
}

PyObject *checked_compose(PyObject *self, PyObject *words) {
    (void)self;
    PyObject *words0;
    unsigned int source;
    PyObject *words2;
    int has_id;
    PyObject *words4;
    struct given id;
    if (!PyArg_ParseTuple(words, "O!IO!pO", map_type, &words0, &source, map_type, &words2, &has_id, &words4) ||
        !bytes_of(words4, &id) ||
        !ready((struct held *[]){(struct held *)words0, (struct held *)words2}, 2))
        return NULL;
    return compose((struct held *)words0, source, (struct held *)words2, has_id, id);
}

PyObject *checked_encode(PyObject *self, PyObject *words) {
    (void)self;
    struct given mappings;
    if (!bytes_of(words, &mappings))
        return NULL;
    return encode(mappings);
}

PyObject *checked_code_text(PyObject *self, PyObject *words) {
    (void)self;
    uint32_t code;
    if (!index_of(words, "a code", &code))
        return NULL;
    return code_text(code);
}
