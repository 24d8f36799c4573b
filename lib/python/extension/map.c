/* A map of the library, which SourceMap is made of. */
#include "extension.h"
#include <stdlib.h>
#include <string.h>

/* Frees what was made of a map. */
static void free_made(struct held *held) {
    if (held->originals.at) smap_originals_free(&held->originals);
    if (held->names.at) smap_names_free(&held->names);
    held->originals.at = held->names.at = NULL;
}

static void map_free(PyObject *self) {
    struct held *held = (struct held *)self;
    free_made(held);
    if (held->full) {
        smap_map_free(&held->map);
        give_back(held);
    }
    held_free(self);
}

static PyObject *map_close(PyObject *self, PyObject *unused) {
    (void)unused;
    struct held *held = (struct held *)self;
    if (!idle(held)) return NULL;
    if (!held->full) return none();
    held->full = false;
    begin(held);
    PyThreadState *state = let_go(true);
    smap_map_free(&held->map);
    free_made(held);
    come_back(state);
    end(held);
    give_back(held);
    return none();
}

/* A map of more bytes, which others could change, is copied, so that other threads go on while it is read. */
#define LARGE (1 << 20)

/* Bytes that were handed out as a text, which are freed. */
static PyObject *text_taken(smap_bytes *bytes) {
    smap_text text = SMAP_TEXT;
    smap_bytes_text(bytes, &text);
    PyObject *value = text_if(true, text);
    smap_bytes_free(bytes);
    return value;
}

/* Gives the debug id of what was read, or None, or why it is refused. */
static PyObject *map_read(PyObject *self, PyObject *words) {
    struct held *held = (struct held *)self;
    PyObject *data, *base_data;
    unsigned int interval;
    unsigned long long most_names;
    struct given given, base;
    if (!PyArg_ParseTuple(words, "OOIK", &data, &base_data, &interval, &most_names)) return NULL;
    if (!bytes_of(data, &given) || !bytes_of(base_data, &base) || !idle(held)) return NULL;
    if (held->full) return PyErr_Format(PyExc_ValueError, "the map is read already");
    uint8_t *copy = !given.steady && given.length > LARGE ? malloc(given.length) : NULL;
    if (copy) given.bytes = memcpy(copy, given.bytes, given.length);
    smap_refusal refusal = {0};
    smap_bytes id = {0};
    uint32_t has_id = 0;
    begin(held);
    PyThreadState *state = let_go((given.steady || copy) && base.steady);
    uint32_t status = smap_map_read_with_id(given.bytes, given.length, base.bytes, base.length, interval, most_names, &held->map, &id, &has_id, &refusal);
    free(copy);
    come_back(state);
    held->full = status == SMAP_DONE;
    held->size = given.length;
    end(held);
    if (status == SMAP_REFUSED) return refusal_of(&refusal);
    if (status != SMAP_DONE) return PyErr_NoMemory();
    return has_id ? text_taken(&id) : none();
}

typedef uint32_t look_up_call(const smap_map *, uint32_t, uint32_t, smap_found *);

/* What a call answers at the line and the column that are given. */
static bool found_of(PyObject *self, PyObject *const *given, Py_ssize_t count, PyObject *named, const char *format, look_up_call *call,
                     smap_found *found) {
    static char *names[] = {"line", "column", NULL};
    struct held *held = (struct held *)self;
    PyObject *words[2];
    uint32_t line, column;
    if (!words_of(given, count, named, format, names, words)) return false;
    if (!place_of(words[0], "line", &line) || !place_of(words[1], "column", &column) || !ready(&held, 1)) return false;
    return call(&held->map, line, column, found) == SMAP_DONE;
}

static PyObject *looked_up(PyObject *self, PyObject *const *given, Py_ssize_t count, PyObject *named, const char *format, look_up_call *call) {
    smap_found found = {0};
    if (!found_of(self, given, count, named, format, call, &found)) return NULL;
    if (found.kind == 0) return none();
    bool is = found.kind == 2;
    PyObject *items[] = {
        PyLong_FromUnsignedLong(found.generated_column), number_if(is, found.source), number_if(is, found.line),
        number_if(is, found.column), number_if(is && found.named, found.name),
    };
    return tuple_of(answer_class, 5, items);
}

static PyObject *map_look_up(PyObject *self, PyObject *const *given, Py_ssize_t count, PyObject *named) {
    return looked_up(self, given, count, named, "OO:look_up", smap_look_up);
}

static PyObject *map_look_up_from(PyObject *self, PyObject *const *given, Py_ssize_t count, PyObject *named) {
    return looked_up(self, given, count, named, "OO:look_up_from", smap_look_up_from);
}

PyObject *place_found(const smap_found *found, const smap_source_text *source, smap_text name) {
    PyObject *source_name = text_if(source->named, source->name);
    PyObject *items[] = {
        source_name, PyLong_FromUnsignedLong(found->line), PyLong_FromUnsignedLong(found->column),
        source_name ? text_if(found->named, name) : NULL, PyBool_FromLong(source->ignored), PyLong_FromUnsignedLong(found->source),
    };
    return tuple_of(place_class, 6, items);
}

static PyObject *map_next_column(PyObject *self, PyObject *const *given, Py_ssize_t count, PyObject *named) {
    static char *names[] = {"line", "column", NULL};
    struct held *held = (struct held *)self;
    PyObject *words[2];
    uint32_t line, column, next = 0;
    if (!words_of(given, count, named, "OO:next_column", names, words)) return NULL;
    if (!place_of(words[0], "line", &line) || !place_of(words[1], "column", &column) || !ready(&held, 1)) return NULL;
    bool is = smap_next_column(&held->map, line, column, &next) == SMAP_DONE;
    return number_if(is, next);
}

static PyObject *map_place(PyObject *self, PyObject *const *given, Py_ssize_t count, PyObject *named) {
    struct held *held = (struct held *)self;
    smap_found found = {0};
    if (!found_of(self, given, count, named, "OO:place", smap_look_up, &found)) return NULL;
    if (found.kind != 2) return none();
    smap_source_text source = SMAP_SOURCE;
    smap_text name = SMAP_TEXT;
    smap_source(&held->map, found.source, &source);
    if (found.named) smap_name(&held->map, found.name, &name);
    return place_found(&found, &source, name);
}

/* Looks positions up, whose bytes are given, and writes the answers into a buffer that nobody else has. Positions that could be
 * changed meanwhile, or do not stand as numbers do, are copied. */
static PyObject *map_look_up_many(PyObject *self, PyObject *words) {
    struct held *held = (struct held *)self;
    PyObject *data, *answers;
    struct given given;
    void *found, *copy = NULL;
    size_t room = 0;
    if (!PyArg_ParseTuple(words, "OO", &data, &answers) || !bytes_of(data, &given)) return NULL;
    found = room_of(answers, &room);
    if (!found) return NULL;
    size_t count = given.length / sizeof(smap_position);
    if (room / sizeof(smap_found) != count) return PyErr_Format(PyExc_ValueError, "no room for %zu answers", count);
    if (!given.steady || (uintptr_t)given.bytes % sizeof(uint32_t)) {
        copy = malloc(given.length + 1);
        if (!copy) return PyErr_NoMemory();
        given.bytes = memcpy(copy, given.bytes, given.length);
    }
    if (!ready(&held, 1)) {
        free(copy);
        return NULL;
    }
    begin(held);
    PyThreadState *state = let_go(true);
    smap_look_up_many(&held->map, (const smap_position *)(const void *)given.bytes, count, found, count);
    free(copy);
    come_back(state);
    end(held);
    return none();
}

static PyObject *map_counts(PyObject *self, void *unused) {
    (void)unused;
    struct held *held = (struct held *)self;
    if (!ready(&held, 1)) return NULL;
    smap_count count = {0};
    smap_counts(&held->map, &count);
    PyObject *items[] = {
        PyLong_FromUnsignedLongLong(count.sections), PyLong_FromUnsignedLongLong(count.sources),
        PyLong_FromUnsignedLongLong(count.names), PyLong_FromUnsignedLongLong(count.segments),
        PyLong_FromUnsignedLongLong(count.lines), PyLong_FromUnsignedLongLong(count.checkpoints),
    };
    return tuple_of(counts_class, 6, items);
}

bool has_source(const struct held *held, uint32_t index, PyObject *value, smap_source_text *source) {
    if (smap_source(&held->map, index, source) == SMAP_DONE) return true;
    PyErr_Format(PyExc_IndexError, "no source %S", value);
    return false;
}

/* The source of a number, whose texts are lent until code runs. */
static bool source_of(PyObject *self, PyObject *const *given, Py_ssize_t count, PyObject *named, const char *format, smap_source_text *source) {
    static char *names[] = {"index", NULL};
    struct held *held = (struct held *)self;
    PyObject *value;
    uint32_t index;
    if (!words_of(given, count, named, format, names, &value) || !index_of(value, "a source", &index)) return false;
    return ready(&held, 1) && has_source(held, index, value, source);
}

static PyObject *map_source(PyObject *self, PyObject *const *given, Py_ssize_t count, PyObject *named) {
    smap_source_text source = SMAP_SOURCE;
    PyObject *items[3] = {NULL};
    if (!source_of(self, given, count, named, "O:source", &source)) return NULL;
    items[0] = text_if(source.named, source.name);
    items[1] = items[0] ? text_if(source.held, source.content) : NULL;
    items[2] = PyBool_FromLong(source.ignored);
    return tuple_of(source_class, 3, items);
}

static PyObject *map_source_name(PyObject *self, PyObject *const *given, Py_ssize_t count, PyObject *named) {
    smap_source_text source = SMAP_SOURCE;
    return source_of(self, given, count, named, "O:source_name", &source) ? text_if(source.named, source.name) : NULL;
}

static PyObject *map_source_content(PyObject *self, PyObject *const *given, Py_ssize_t count, PyObject *named) {
    smap_source_text source = SMAP_SOURCE;
    return source_of(self, given, count, named, "O:source_content", &source) ? text_if(source.held, source.content) : NULL;
}

static PyObject *map_is_ignored(PyObject *self, PyObject *const *given, Py_ssize_t count, PyObject *named) {
    smap_source_text source = SMAP_SOURCE;
    return source_of(self, given, count, named, "O:is_ignored", &source) ? PyBool_FromLong(source.ignored) : NULL;
}

static PyObject *map_name(PyObject *self, PyObject *const *given, Py_ssize_t count, PyObject *named) {
    static char *names[] = {"index", NULL};
    struct held *held = (struct held *)self;
    PyObject *value;
    uint32_t index;
    if (!words_of(given, count, named, "O:name", names, &value)) return NULL;
    if (value == Py_None) return none();
    if (!index_of(value, "a name", &index) || !ready(&held, 1)) return NULL;
    smap_text text = SMAP_TEXT;
    if (smap_name(&held->map, index, &text) == SMAP_DONE) return text_if(true, text);
    return PyErr_Format(PyExc_IndexError, "no name %S", value);
}

static PyObject *map_file(PyObject *self, void *unused) {
    (void)unused;
    struct held *held = (struct held *)self;
    if (!ready(&held, 1)) return NULL;
    smap_text text = SMAP_TEXT;
    bool is = smap_file(&held->map, &text) == SMAP_DONE;
    return text_if(is, text);
}

uint64_t size_of_map(const struct held *held) {
    uint64_t size = 0, declared = 0;
    smap_count count = {0};
    smap_map_size(&held->map, &size);
    if (held->names.at) smap_names_size(&held->names, &declared);
    size += declared;
    if (!held->originals.at) return size;
    smap_counts(&held->map, &count);
    return size + 16 * count.segments + 24 * count.sources;
}

static PyObject *map_nbytes(PyObject *self, void *unused) {
    (void)unused;
    struct held *held = (struct held *)self;
    return ready(&held, 1) ? PyLong_FromUnsignedLongLong(size_of_map(held)) : NULL;
}

PyObject *map_written(struct held *held, bool has_id, struct given id) {
    smap_bytes bytes = {0};
    begin(held);
    PyThreadState *state = let_go(true);
    uint32_t status = with_id(smap_map_write(&held->map, &bytes), &bytes, has_id, id);
    come_back(state);
    end(held);
    return taken_or_refused(status, &bytes, SMAP_CODE_O1);
}

PyObject *map_bytes_by_source(struct held *held, struct given given) {
    smap_count count = {0};
    smap_counts(&held->map, &count);
    size_t places = (size_t)count.sources;
    uint64_t *sources = calloc(places + 1, sizeof *sources), unmapped = 0;
    uint32_t status = SMAP_NO_MEMORY;
    smap_code refusal = 0;
    begin(held);
    if (sources) {
        PyThreadState *state = let_go(given.steady);
        status = smap_bytes_by_source(&held->map, given.bytes, given.length, sources, places, &unmapped, &refusal);
        come_back(state);
    }
    end(held);
    PyObject *list = status == SMAP_DONE ? PyList_New((Py_ssize_t)places) : NULL;
    for (size_t i = 0; list && i < places; i++) {
        PyObject *number = PyLong_FromUnsignedLongLong(sources[i]);
        if (number) PyList_SetItem(list, (Py_ssize_t)i, number);
        else Py_CLEAR(list);
    }
    free(sources);
    if (list) return Py_BuildValue("NK", list, (unsigned long long)unmapped);
    if (status == SMAP_REFUSED) return PyLong_FromUnsignedLong(refusal);
    return PyErr_Occurred() ? NULL : PyErr_NoMemory();
}

PyObject *map_fit(struct held *held, struct given given) {
    smap_fit_count fit = {0};
    smap_code refusal = 0;
    begin(held);
    PyThreadState *state = let_go(given.steady);
    uint32_t status = smap_fit(&held->map, given.bytes, given.length, &fit, &refusal);
    come_back(state);
    end(held);
    if (status == SMAP_NO_MEMORY) return PyErr_NoMemory();
    if (status == SMAP_REFUSED) return PyLong_FromUnsignedLong(refusal);
    return Py_BuildValue("NKKKKKK", PyBool_FromLong(fit.fits), (unsigned long long)fit.mappings, (unsigned long long)fit.past,
                         (unsigned long long)fit.inside, (unsigned long long)fit.compared, (unsigned long long)fit.outside,
                         (unsigned long long)fit.same);
}

/* Reads what the generated file declares, in place of what was read before, or gives the code of why not. */
PyObject *map_with_generated(struct held *held, struct given given) {
    smap_names names = {0};
    smap_code refusal = 0;
    begin(held);
    PyThreadState *state = let_go(given.steady);
    uint32_t status = smap_names_new(&held->map, given.bytes, given.length, &names, &refusal);
    if (status == SMAP_DONE && held->names.at) smap_names_free(&held->names);
    if (status == SMAP_DONE) held->names = names;
    come_back(state);
    end(held);
    if (status == SMAP_REFUSED) return PyLong_FromUnsignedLong(refusal);
    return status == SMAP_DONE ? none() : PyErr_NoMemory();
}

/* The name of a function, or None. */
PyObject *map_function_name(struct held *held, uint32_t line, uint32_t column, struct given function) {
    smap_text name = SMAP_TEXT;
    if (!held->names.at) return PyErr_Format(PyExc_ValueError, "no generated file was given");
    bool is = smap_name_of(&held->names, function.bytes, function.length, line, column, &name) == SMAP_DONE;
    return text_if(is, name);
}

/* A method whose arguments may be given by their names. */
#define WITH_NAMES(call) (PyCFunction)(void (*)(void))(call), METH_FASTCALL | METH_KEYWORDS

/* Another one of the same map, and of what its generated file declares. */
static PyObject *map_shared(PyObject *self, PyObject *unused) {
    (void)unused;
    struct held *held = (struct held *)self, *other = (struct held *)held_new(Py_TYPE(self), NULL, NULL);
    if (!other || !ready(&held, 1)) {
        Py_XDECREF((PyObject *)other);
        return NULL;
    }
    other->full = smap_map_share(&held->map, &other->map) == SMAP_DONE;
    if (other->full && (!held->names.at || smap_names_share(&held->names, &other->names) == SMAP_DONE)) return (PyObject *)other;
    other->names.at = NULL;
    Py_DECREF((PyObject *)other);
    return PyErr_NoMemory();
}

/* Names the sources by the URL, where that is a path with a folder. Nothing else holds the map. */
PyObject *map_use_paths(struct held *held, struct given url) {
    return smap_map_use_paths(&held->map, url.bytes, url.length) == SMAP_DONE ? none() : PyErr_NoMemory();
}

/* Names the sources by the path at which the map stands, or gives why not. Nothing else holds the map. */
PyObject *map_stand_at(struct held *held, struct given path, uint64_t most_names) {
    smap_refusal refusal = {0};
    uint32_t status = smap_map_stand_at(&held->map, path.bytes, path.length, most_names, &refusal);
    if (status == SMAP_REFUSED) return refusal_of(&refusal);
    return status == SMAP_DONE ? none() : PyErr_NoMemory();
}

static PyMethodDef map_methods[] = {
    {"close", map_close, METH_NOARGS, "close($self)\n--\n\nFrees the map. It answers nothing any more."},
    {"look_up", WITH_NAMES(map_look_up),
     "look_up($self, line, column)\n--\n\nThe last mapping on the line at the position or before it, or None."},
    {"look_up_from", WITH_NAMES(map_look_up_from),
     "look_up_from($self, line, column)\n--\n\nThe first mapping on the line at the position or after it, or None."},
    {"place", WITH_NAMES(map_place),
     "place($self, line, column)\n--\n\nWhere a generated position comes from, or None where no mapping answers that has an original."},
    {"next_column", WITH_NAMES(map_next_column),
     "next_column($self, line, column)\n--\n\nThe column of the first mapping on the line behind this one, up to which `look_up` answers "
     "the same, or None."},
    {"mappings", map_mappings, METH_NOARGS,
     "mappings($self)\n--\n\nAn iterator over all mappings, in their order. It holds 32 bytes of memory for each."},
    {"source", WITH_NAMES(map_source),
     "source($self, index)\n--\n\nThis source, from 0. Raises `IndexError` where there is none."},
    {"source_name", WITH_NAMES(map_source_name),
     "source_name($self, index)\n--\n\nThe name of this source, or None."},
    {"source_content", WITH_NAMES(map_source_content),
     "source_content($self, index)\n--\n\nThe content of this source, where the map has it, or None."},
    {"is_ignored", WITH_NAMES(map_is_ignored),
     "is_ignored($self, index)\n--\n\nWhether the map says that a debugger should pass over this source."},
    {"name", WITH_NAMES(map_name),
     "name($self, index)\n--\n\nThis name, from 0, and None for None, as an answer without a name has it. Raises `IndexError` "
     "where there is none."},
    {"_read", map_read, METH_VARARGS, NULL},
    {"_look_up_many", map_look_up_many, METH_VARARGS, NULL},
    {"_generated", map_generated, METH_VARARGS, NULL},
    CHECKED_map_lines, CHECKED_map_written, CHECKED_map_bytes_by_source, CHECKED_map_fit, CHECKED_map_use_paths, CHECKED_map_stand_at,
    CHECKED_map_with_generated, CHECKED_map_function_name,
    {"_shared", map_shared, METH_NOARGS, NULL},
    {NULL, NULL, 0, NULL},
};

static PyGetSetDef map_properties[] = {
    {"counts", map_counts, NULL, "How much the map holds.", NULL},
    {"closed", held_closed, NULL, "Whether the map is closed.", NULL},
    {"nbytes", map_nbytes, NULL, "About how many bytes of memory the map takes, with its index of originals once that is made.", NULL},
    {"file", map_file, NULL, "The name of the generated file, where the map has one, or None.", NULL},
    {NULL, NULL, NULL, NULL, NULL},
};

static PyType_Slot map_slots[] = {
    {Py_tp_doc, "A map of the library, which is closed until it is read."},
    {Py_tp_new, held_new},
    {Py_tp_dealloc, map_free},
    {Py_tp_methods, map_methods},
    {Py_tp_getset, map_properties},
    {0, NULL},
};

PyType_Spec map_spec = {"smap._smap.Map", sizeof(struct held), 0, Py_TPFLAGS_DEFAULT | Py_TPFLAGS_BASETYPE, map_slots};
