/* Calls of the extension, as lib/calls has them: lib/declare has written this. Each says beside its body what it gives. */
#ifndef CALLS_H
#define CALLS_H

PyObject *inners_put(struct held *inners, uint32_t source, struct held *source_map);
PyObject *inners_next(struct held *inners, struct held *outer);
PyObject *inners_name(struct held *inners, struct held *outer, uint32_t source);
PyObject *inners_composed(struct held *inners, struct held *outer, bool prune, bool no_content, bool has_id, struct given id);
PyObject *map_lines(struct held *held, PyObject *value, uint32_t source, uint32_t line, uint32_t before, uint32_t after);
PyObject *map_written(struct held *held, bool has_id, struct given id);
PyObject *map_bytes_by_source(struct held *held, struct given generated);
PyObject *map_fit(struct held *held, struct given generated);
PyObject *map_with_generated(struct held *held, struct given generated);
PyObject *map_function_name(struct held *held, uint32_t line, uint32_t column, struct given function);
PyObject *map_use_paths(struct held *held, struct given url);
PyObject *map_stand_at(struct held *held, struct given path, uint64_t most_names);
PyObject *store_key(struct held *held, struct given url);
PyObject *store_put(struct held *held, PyObject *url_value, struct given url, struct held *source_map, bool is_named);
PyObject *store_put_none(struct held *held, struct given url, bool has_failed, uint64_t until);
PyObject *store_forget(struct held *held, struct given url);
PyObject *store_counted(struct held *held);
PyObject *rewriting_run(struct held *held, struct held *store, uint64_t now);
PyObject *rewriting_take(struct held *held);
PyObject *rewriting_counts(struct held *held);
PyObject *frame_urls(struct given trace, bool anywhere);
PyObject *folder_path(struct given prefix, struct given url);
PyObject *is_path(struct given url);
PyObject *url_refusal(struct given url, struct held *source_map);
PyObject *compose(struct held *outer, uint32_t source, struct held *inner, bool has_id, struct given id);
PyObject *encode(struct given mappings);
PyObject *code_text(uint32_t code);

/* What checks their arguments, and what Python calls them. */
PyObject *checked_inners_put(PyObject *self, PyObject *words);
#define CHECKED_inners_put {"put", checked_inners_put, METH_VARARGS, NULL}
PyObject *checked_inners_next(PyObject *self, PyObject *words);
#define CHECKED_inners_next {"next", checked_inners_next, METH_VARARGS, NULL}
PyObject *checked_inners_name(PyObject *self, PyObject *words);
#define CHECKED_inners_name {"name", checked_inners_name, METH_VARARGS, NULL}
PyObject *checked_inners_composed(PyObject *self, PyObject *words);
#define CHECKED_inners_composed {"composed", checked_inners_composed, METH_VARARGS, NULL}
PyObject *checked_map_lines(PyObject *self, PyObject *words);
#define CHECKED_map_lines {"_lines", checked_map_lines, METH_VARARGS, NULL}
PyObject *checked_map_written(PyObject *self, PyObject *words);
#define CHECKED_map_written {"_written", checked_map_written, METH_VARARGS, NULL}
PyObject *checked_map_bytes_by_source(PyObject *self, PyObject *words);
#define CHECKED_map_bytes_by_source {"_bytes_by_source", checked_map_bytes_by_source, METH_O, NULL}
PyObject *checked_map_fit(PyObject *self, PyObject *words);
#define CHECKED_map_fit {"_fit", checked_map_fit, METH_O, NULL}
PyObject *checked_map_with_generated(PyObject *self, PyObject *words);
#define CHECKED_map_with_generated {"_with_generated", checked_map_with_generated, METH_O, NULL}
PyObject *checked_map_function_name(PyObject *self, PyObject *words);
#define CHECKED_map_function_name {"_function_name", checked_map_function_name, METH_VARARGS, NULL}
PyObject *checked_map_use_paths(PyObject *self, PyObject *words);
#define CHECKED_map_use_paths {"_use_paths", checked_map_use_paths, METH_O, NULL}
PyObject *checked_map_stand_at(PyObject *self, PyObject *words);
#define CHECKED_map_stand_at {"_stand_at", checked_map_stand_at, METH_VARARGS, NULL}
PyObject *checked_store_key(PyObject *self, PyObject *words);
#define CHECKED_store_key {"_key", checked_store_key, METH_O, NULL}
PyObject *checked_store_put(PyObject *self, PyObject *words);
#define CHECKED_store_put {"_put", checked_store_put, METH_VARARGS, NULL}
PyObject *checked_store_put_none(PyObject *self, PyObject *words);
#define CHECKED_store_put_none {"_put_none", checked_store_put_none, METH_VARARGS, NULL}
PyObject *checked_store_forget(PyObject *self, PyObject *words);
#define CHECKED_store_forget {"_forget", checked_store_forget, METH_O, NULL}
PyObject *checked_store_counted(PyObject *self, PyObject *words);
#define CHECKED_store_counted {"_counted", checked_store_counted, METH_NOARGS, NULL}
PyObject *checked_rewriting_run(PyObject *self, PyObject *words);
#define CHECKED_rewriting_run {"run", checked_rewriting_run, METH_VARARGS, NULL}
PyObject *checked_rewriting_take(PyObject *self, PyObject *words);
#define CHECKED_rewriting_take {"take", checked_rewriting_take, METH_NOARGS, NULL}
PyObject *checked_rewriting_counts(PyObject *self, PyObject *words);
#define CHECKED_rewriting_counts {"counts", checked_rewriting_counts, METH_NOARGS, NULL}
PyObject *checked_frame_urls(PyObject *self, PyObject *words);
#define CHECKED_frame_urls {"frame_urls", checked_frame_urls, METH_VARARGS, NULL}
PyObject *checked_folder_path(PyObject *self, PyObject *words);
#define CHECKED_folder_path {"folder_path", checked_folder_path, METH_VARARGS, NULL}
PyObject *checked_is_path(PyObject *self, PyObject *words);
#define CHECKED_is_path {"is_path", checked_is_path, METH_O, NULL}
PyObject *checked_url_refusal(PyObject *self, PyObject *words);
#define CHECKED_url_refusal {"url_refusal", checked_url_refusal, METH_VARARGS, NULL}
PyObject *checked_compose(PyObject *self, PyObject *words);
#define CHECKED_compose {"compose", checked_compose, METH_VARARGS, NULL}
PyObject *checked_encode(PyObject *self, PyObject *words);
#define CHECKED_encode {"encode", checked_encode, METH_O, NULL}
PyObject *checked_code_text(PyObject *self, PyObject *words);
#define CHECKED_code_text {"code_text", checked_code_text, METH_O, NULL}

/* The functions of the module. */
#define CHECKED_FUNCTIONS CHECKED_frame_urls, \
    CHECKED_folder_path, \
    CHECKED_is_path, \
    CHECKED_url_refusal, \
    CHECKED_compose, \
    CHECKED_encode, \
    CHECKED_code_text

#endif
