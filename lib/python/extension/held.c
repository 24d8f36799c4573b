/* A map, a table with a store, a rewriting or inner maps, used by one call at a time. */
#include "extension.h"

/* The GNU C library keeps what is freed between what is not. After so many bytes it gives back the pages of it. Another has not this
 * call, which then is null. */
#define TRIM (32 << 20)
int malloc_trim(size_t kept) __attribute__((weak));

void give_back(struct held *held) {
    static size_t freed;
    freed += held->size;
    held->size = 0;
    if (!malloc_trim || freed < TRIM) return;
    freed = 0;
    PyThreadState *state = let_go(true);
    malloc_trim(0);
    come_back(state);
}

void hand_over(struct held *map, struct held *taker) {
    map->full = false;
    if (map->originals.at) smap_originals_free(&map->originals);
    map->originals.at = NULL;
    taker->size += map->size;
    map->size = 0;
}

PyObject *held_new(PyTypeObject *type, PyObject *words, PyObject *named) {
    (void)words, (void)named;
    struct held *held = (struct held *)((allocfunc)PyType_GetSlot(type, Py_tp_alloc))(type, 0);
    if (!held) return NULL;
    held->lock = PyThread_allocate_lock();
    if (held->lock) return (PyObject *)held;
    Py_DECREF(held);
    return PyErr_NoMemory();
}

void held_free(PyObject *self) {
    PyTypeObject *type = Py_TYPE(self);
    struct held *held = (struct held *)self;
    if (held->lock) PyThread_free_lock(held->lock);
    ((freefunc)PyType_GetSlot(type, Py_tp_free))(self);
    Py_DECREF(type);
}

PyObject *held_closed(PyObject *self, void *unused) {
    (void)unused;
    return PyBool_FromLong(!((struct held *)self)->full);
}

bool idle(struct held *held) {
    while (held->busy) {
        PyLockStatus status;
        Py_BEGIN_ALLOW_THREADS
        status = PyThread_acquire_lock_timed(held->lock, -1, 1);
        if (status == PY_LOCK_ACQUIRED) PyThread_release_lock(held->lock);
        Py_END_ALLOW_THREADS
        if (status != PY_LOCK_ACQUIRED && PyErr_CheckSignals() < 0) return false;
    }
    return true;
}

bool ready(struct held *const *held, size_t count) {
    size_t i = 0;
    while (i < count) {
        if (held[i]->busy) {
            if (!idle(held[i])) return false;
            i = 0;
        } else if (held[i]->full) {
            i++;
        } else {
            bool is_map = PyObject_TypeCheck((PyObject *)held[i], map_type), is_store = PyObject_TypeCheck((PyObject *)held[i], store_type);
            PyErr_SetString(PyExc_ValueError, is_map ? "the map is closed" : is_store ? "the rewriter is closed" : "the inner maps are closed");
            return false;
        }
    }
    return true;
}

void begin(struct held *held) {
    held->busy = true;
    PyThread_acquire_lock(held->lock, WAIT_LOCK);
}

void end(struct held *held) {
    held->busy = false;
    PyThread_release_lock(held->lock);
}

PyThreadState *let_go(bool steady) { return steady ? PyEval_SaveThread() : NULL; }

void come_back(PyThreadState *state) {
    if (state) PyEval_RestoreThread(state);
}
