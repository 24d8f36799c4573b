/* Two maps composed. */
#include "extension.h"

uint32_t with_id(uint32_t status, smap_bytes *bytes, bool has_id, struct given id) {
    if (status != SMAP_DONE || !has_id) return status;
    if (smap_bytes_put_debug_id(bytes, id.bytes, id.length) == SMAP_DONE) return SMAP_DONE;
    smap_bytes_free(bytes);
    return SMAP_NO_MEMORY;
}

PyObject *compose(struct held *outer, uint32_t source, struct held *inner, bool has_id, struct given id) {
    if (outer == inner) return PyErr_Format(PyExc_ValueError, "a map is given twice");
    smap_bytes bytes = {0};
    smap_code refusal = 0;
    begin(outer);
    begin(inner);
    PyThreadState *state = let_go(true);
    uint32_t status = with_id(smap_compose(&outer->map, source, &inner->map, &bytes, &refusal), &bytes, has_id, id);
    come_back(state);
    end(outer);
    end(inner);
    return taken_or_refused(status, &bytes, refusal);
}
