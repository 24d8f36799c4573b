/* The module: its types, its functions and its version. */
#include "extension.h"
#include <string.h>

PyTypeObject *answer_class, *counts_class, *generated_class, *mapping_class, *place_class, *reason_class, *refusal_class, *source_class,
    *text_refusal_class;
PyTypeObject *map_type, *store_type, *rewriting_type, *inners_type, *mappings_type;
PyObject *monotonic_ns;

static PyMethodDef functions[] = {
    CHECKED_FUNCTIONS,
    {"explained", explained, METH_VARARGS, NULL},
    {NULL, NULL, 0, NULL},
};

static struct PyModuleDef definition = {
    PyModuleDef_HEAD_INIT, "_smap", "The library libsmap.", -1, functions, NULL, NULL, NULL, NULL,
};

/* The classes of _answers.py, the clock, the types of this module, the codes that its callers ask for, and the version of the library. */
static bool filled(PyObject *module) {
    static const struct { const char *name; PyTypeObject **class; } classes[] = {
        {"Answer", &answer_class}, {"Counts", &counts_class}, {"Generated", &generated_class}, {"Mapping", &mapping_class},
        {"Place", &place_class}, {"Reason", &reason_class}, {"Refusal", &refusal_class}, {"Source", &source_class},
        {"TextRefusal", &text_refusal_class},
    };
    static const struct { PyType_Spec *spec; PyTypeObject **type; } types[] = {
        {&map_spec, &map_type}, {&store_spec, &store_type}, {&rewriting_spec, &rewriting_type}, {&inners_spec, &inners_type},
        {&mappings_spec, &mappings_type},
    };
    static const struct { const char *name; smap_code code; } codes[] = {
        {"C1", SMAP_CODE_C1}, {"C4", SMAP_CODE_C4}, {"E3", SMAP_CODE_E3}, {"M2", SMAP_CODE_M2}, {"M14", SMAP_CODE_M14},
        {"U1", SMAP_CODE_U1}, {"USAGE", SMAP_CODE_USAGE}, {"X5", SMAP_CODE_X5},
    };
    PyObject *answers = PyImport_ImportModule("smap._answers"), *time = PyImport_ImportModule("time");
    monotonic_ns = time ? PyObject_GetAttrString(time, "monotonic_ns") : NULL;
    Py_XDECREF(time);
    for (size_t i = 0; answers && i < sizeof classes / sizeof *classes; i++) {
        *classes[i].class = (PyTypeObject *)PyObject_GetAttrString(answers, classes[i].name);
        if (!*classes[i].class) return false;
    }
    if (!answers || !monotonic_ns) return false;
    Py_DECREF(answers);
    for (size_t i = 0; i < sizeof types / sizeof *types; i++) {
        PyObject *type = PyType_FromSpec(types[i].spec);
        *types[i].type = (PyTypeObject *)type;
        if (!type) return false;
        Py_INCREF(type);
        if (PyModule_AddObject(module, strrchr(types[i].spec->name, '.') + 1, type) < 0) return false;
    }
    for (size_t i = 0; i < sizeof codes / sizeof *codes; i++)
        if (PyModule_AddIntConstant(module, codes[i].name, codes[i].code) < 0) return false;
    smap_text version = SMAP_TEXT;
    smap_version(&version);
    return PyModule_AddObject(module, "version", text_if(true, version)) == 0;
}

/* What alone can be linked. The headers of 3.8 do not say so. */
__attribute__((visibility("default"))) PyMODINIT_FUNC PyInit__smap(void) {
    PyObject *module = PyModule_Create(&definition);
    if (!module || filled(module)) return module;
    Py_DECREF(module);
    return NULL;
}
