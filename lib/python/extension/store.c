/* What Maps and Rewriter are made of: maps that are named by a URL or a pattern, in a table, and beside it a store of those that are
 * asked for.
 *
 * Where it is not known what map a URL has, a call gives the URL, as a str, under which that is to be put. */
#include "extension.h"

static void store_free(PyObject *self) {
    struct held *held = (struct held *)self;
    if (held->full) {
        smap_table_free(&held->table);
        smap_store_free(&held->store);
        give_back(held);
    }
    held_free(self);
}

static PyObject *store_close(PyObject *self, PyObject *unused) {
    (void)unused;
    struct held *held = (struct held *)self;
    if (!idle(held)) return NULL;
    if (!held->full) return none();
    held->full = false;
    begin(held);
    PyThreadState *state = let_go(true);
    smap_table_free(&held->table);
    smap_store_free(&held->store);
    come_back(state);
    end(held);
    give_back(held);
    return none();
}

/* Makes it, for maps of at most so many bytes beside those that are named. */
static PyObject *store_bound(PyObject *self, PyObject *value) {
    struct held *held = (struct held *)self;
    unsigned long long most = PyLong_AsUnsignedLongLong(value);
    if (PyErr_Occurred() || !idle(held)) return NULL;
    if (held->full) return PyErr_Format(PyExc_ValueError, "the store is made already");
    if (smap_table_new(&held->table) != SMAP_DONE) return PyErr_NoMemory();
    held->full = smap_store_new(most, &held->store) == SMAP_DONE;
    if (held->full) return none();
    smap_table_free(&held->table);
    return PyErr_NoMemory();
}

PyObject *url_of(PyObject *value, struct given *url) {
    if (!PyUnicode_Check(value)) {
        PyObject *name = PyObject_GetAttrString((PyObject *)Py_TYPE(value), "__name__");
        if (name) PyErr_Format(PyExc_TypeError, "a URL is a str, not %S", name);
        Py_XDECREF(name);
        return NULL;
    }
    PyObject *bytes = PyUnicode_AsEncodedString(value, "utf-8", "surrogatepass");
    if (bytes && !bytes_of(bytes, url)) Py_CLEAR(bytes);
    return bytes;
}

/* The URL under which the map of this one is to be put, if a loader is asked for it; or None. */
static PyObject *wanted(struct held *held, struct given url) {
    smap_text key = SMAP_TEXT, cut = SMAP_TEXT;
    smap_cut_url(url.bytes, url.length, &cut);
    if (smap_is_location(cut.bytes, cut.length) != SMAP_DONE) return none();
    smap_store_key(&held->store, url.bytes, url.length, &key);
    return text_or_none(key);
}

/* The time in nanoseconds, of a clock that only goes on. */
static bool time_now(uint64_t *now) {
    PyObject *value = PyObject_CallObject(monotonic_ns, NULL);
    *now = value ? PyLong_AsUnsignedLongLong(value) : 0;
    Py_XDECREF(value);
    return !PyErr_Occurred();
}

/* Asks the store of a URL. Only what has no map has it for a time, so the clock is read for such a one alone. Returns false after an
 * error. */
static bool asked(struct held *held, struct given url, uint64_t *now, uint32_t *status) {
    uint32_t why = 0;
    *now = 0;
    *status = smap_store_ask(&held->store, url.bytes, url.length, 0, &why);
    if (*status != SMAP_REFUSED) return true;
    if (!time_now(now) || !ready(&held, 1)) return false;
    *status = smap_store_ask(&held->store, url.bytes, url.length, *now, &why);
    return true;
}

/* URLs are looked up in the table with or without query and fragment. */
static const smap_table_options in_table = {false, true};

/* What a look-up found. Its texts are lent. */
struct answer { smap_found found; smap_source_text source; smap_text name; };

/* What the map of a URL answers, in the table or else in the store. Returns false after an error. */
static bool answer_of(struct held *held, struct given url, uint32_t line, uint32_t column, struct answer *answer, uint32_t *status) {
    uint64_t now;
    uint32_t why = 0;
    if (held->is_named) {
        *status = smap_table_look_up(&held->table, url.bytes, url.length, line, column, &in_table, &answer->found, &answer->source, &answer->name);
        if (*status == SMAP_DONE) return true;
    }
    if (!asked(held, url, &now, status)) return false;
    if (*status == SMAP_DONE)
        *status = smap_store_look_up(&held->store, url.bytes, url.length, now, line, column, false, &answer->found, &answer->source,
                                     &answer->name, &why);
    return true;
}

/* Where a place in the file of a URL comes from, or None; or the URL that is wanted. */
static PyObject *store_look_up(PyObject *self, PyObject *const *words, Py_ssize_t count) {
    struct held *held = (struct held *)self;
    PyObject *result = NULL;
    struct given url;
    struct answer answer = {{0}, SMAP_SOURCE, SMAP_TEXT};
    uint32_t line, column, status;
    if (count != 3) return PyErr_Format(PyExc_TypeError, "a URL, a line and a column");
    PyObject *bytes = url_of(words[0], &url);
    if (bytes && place_of(words[1], "line", &line) && place_of(words[2], "column", &column) && ready(&held, 1) &&
        answer_of(held, url, line, column, &answer, &status)) {
        if (status == SMAP_WANTED) result = wanted(held, url);
        else result = answer.found.kind == 2 ? place_found(&answer.found, &answer.source, answer.name) : none();
    }
    Py_XDECREF(bytes);
    return result;
}

/* The map of a URL in the store, as a new one of a class, which shares it, with the names that came with it; or None; or the URL that is
 * wanted. */
static PyObject *store_map(PyObject *self, PyObject *words) {
    struct held *held = (struct held *)self, *made = NULL;
    PyObject *class, *value, *bytes, *result = NULL;
    struct given url;
    smap_map map = {0};
    smap_names names = {0};
    uint64_t now;
    uint32_t status = SMAP_REFUSED, why = 0;
    if (!PyArg_ParseTuple(words, "OO", &class, &value) || !(bytes = url_of(value, &url))) return NULL;
    if (ready(&held, 1)) status = smap_store_map(&held->store, url.bytes, url.length, 0, &map, &why);
    /* As in `asked`. */
    if (status == SMAP_REFUSED && !PyErr_Occurred() && time_now(&now) && ready(&held, 1))
        status = smap_store_map(&held->store, url.bytes, url.length, now, &map, &why);
    if (status == SMAP_DONE && !PyErr_Occurred() && smap_store_names(&held->store, url.bytes, url.length, 0, &names) == SMAP_NO_MEMORY) {
        smap_map_free(&map);
        status = SMAP_NO_MEMORY;
    }
    if (PyErr_Occurred()) status = SMAP_REFUSED;
    else if (status == SMAP_DONE) made = (struct held *)held_new((PyTypeObject *)class, NULL, NULL);
    else if (status == SMAP_NO_MEMORY) PyErr_NoMemory();
    else result = status == SMAP_WANTED ? wanted(held, url) : none();
    if (made) {
        made->map = map;
        made->names = names;
        made->full = true;
        result = (PyObject *)made;
    } else if (status == SMAP_DONE) {
        smap_map_free(&map);
        if (names.at) smap_names_free(&names);
    }
    Py_DECREF(bytes);
    return result;
}

/* Whether the store knows what map a URL has, or that it has none. Nothing is counted. */
static PyObject *store_knows(PyObject *self, PyObject *value) {
    struct held *held = (struct held *)self;
    struct given url;
    uint64_t now;
    uint32_t why = 0;
    PyObject *bytes = url_of(value, &url), *result = NULL;
    if (bytes && time_now(&now) && ready(&held, 1)) {
        struct answer no = {{0}, SMAP_SOURCE, SMAP_TEXT};
        result = PyBool_FromLong(smap_store_look_up(&held->store, url.bytes, url.length, now, 0, 0, false, &no.found, &no.source, &no.name,
                                                    &why) != SMAP_WANTED);
    }
    Py_XDECREF(bytes);
    return result;
}

/* The URL under which stands what the store knows of a URL. */
PyObject *store_key(struct held *held, struct given url) {
    smap_text key = SMAP_TEXT;
    smap_store_key(&held->store, url.bytes, url.length, &key);
    return PyUnicode_Decode((const char *)key.bytes, (Py_ssize_t)key.length, "utf-8", "surrogatepass");
}

/* How much a store holds. What was dropped from it may go back to the system. */
static PyObject *put_in(struct held *held, uint32_t status) {
    smap_store_counts counts = {0};
    if (status != SMAP_DONE) return PyErr_NoMemory();
    smap_store_count(&held->store, &counts);
    size_t kept = (size_t)counts.bytes;
    if (held->size > kept) {
        held->size -= kept;
        give_back(held);
        held->size = kept;
    }
    return none();
}

/* Why no map stands under a URL or a pattern, as a code; or None. */
PyObject *url_refusal(struct given url, struct held *map) {
    smap_table table = {0};
    smap_code refusal = 0;
    uint32_t status = smap_table_new(&table);
    if (status == SMAP_DONE) {
        status = smap_table_add_shared(&table, url.bytes, url.length, &map->map, &refusal);
        smap_table_free(&table);
    }
    return status == SMAP_NO_MEMORY ? PyErr_NoMemory() : number_if(status == SMAP_REFUSED, refusal);
}

/* Puts a map, which stays open, with the names of its generated file, if that was read, into the store under this very URL; or with
 * `is_named` into the table, under a URL or a pattern. */
PyObject *store_put(struct held *held, PyObject *url_value, struct given url, struct held *map, bool is_named) {
    smap_code refusal = 0;
    const uint64_t size = size_of_map(map);
    held->size += (size_t)size;
    map->size = 0;
    if (!is_named)
        return put_in(held, map->names.at ? smap_store_put_named(&held->store, url.bytes, url.length, &map->names, size)
                                          : smap_store_put(&held->store, url.bytes, url.length, &map->map, size));
    uint32_t status = smap_table_add_shared(&held->table, url.bytes, url.length, &map->map, &refusal);
    held->is_named |= status == SMAP_DONE;
    if (status == SMAP_DONE && map->names.at) status = smap_table_add_names(&held->table, url.bytes, url.length, &map->names);
    if (status == SMAP_REFUSED) return PyErr_Format(PyExc_ValueError, "the table takes no map under %R", url_value);
    return status == SMAP_DONE ? none() : PyErr_NoMemory();
}

/* Puts into the store that this very URL has no map, which is missing or failed, before a time, or where that is 0 for ever. */
PyObject *store_put_none(struct held *held, struct given url, bool has_failed, uint64_t until) {
    const uint32_t why = has_failed ? SMAP_FAILED : SMAP_MISSING;
    return put_in(held, smap_store_put_none(&held->store, url.bytes, url.length, why, until != 0, until));
}

PyObject *store_forget(struct held *held, struct given url) {
    return put_in(held, smap_store_forget(&held->store, url.bytes, url.length));
}

/* How many maps the store has, and for how many bytes it counts. */
PyObject *store_counted(struct held *held) {
    smap_store_counts counts = {0};
    smap_store_count(&held->store, &counts);
    return Py_BuildValue("KK", (unsigned long long)counts.count, (unsigned long long)(counts.bytes + counts.none_bytes));
}

/* Whether a URL is a path from a root. */
PyObject *is_path(struct given url) {
    return PyBool_FromLong(smap_is_path(url.bytes, url.length) == SMAP_DONE);
}

/* The path in a folder of the map of a URL that begins with a prefix, or None. */
PyObject *folder_path(struct given prefix, struct given url) {
    smap_bytes path = {0};
    smap_text text = SMAP_TEXT;
    uint32_t status = smap_folder_path(prefix.bytes, prefix.length, url.bytes + url.length, 0, url.bytes, url.length, &path);
    if (status != SMAP_DONE) return status == SMAP_REFUSED ? none() : PyErr_NoMemory();
    smap_bytes_text(&path, &text);
    PyObject *result = text_if(true, text);
    smap_bytes_free(&path);
    return result;
}

static PyMethodDef store_methods[] = {
    {"_close", store_close, METH_NOARGS, NULL},
    {"_bound", store_bound, METH_O, NULL},
    {"_look_up", (PyCFunction)(void (*)(void))store_look_up, METH_FASTCALL, NULL},
    {"_map", store_map, METH_VARARGS, NULL},
    {"_knows", store_knows, METH_O, NULL},
    CHECKED_store_key, CHECKED_store_put, CHECKED_store_put_none, CHECKED_store_forget, CHECKED_store_counted,
    {NULL, NULL, 0, NULL},
};

static PyGetSetDef store_properties[] = {
    {"_closed", held_closed, NULL, NULL, NULL},
    {NULL, NULL, NULL, NULL, NULL},
};

static PyType_Slot store_slots[] = {
    {Py_tp_doc, "A table of the library and a store, which are closed until they are bound."},
    {Py_tp_new, held_new},
    {Py_tp_dealloc, store_free},
    {Py_tp_methods, store_methods},
    {Py_tp_getset, store_properties},
    {0, NULL},
};

PyType_Spec store_spec = {"smap._smap.Store", sizeof(struct held), 0, Py_TPFLAGS_DEFAULT | Py_TPFLAGS_BASETYPE, store_slots};
