/* The library libsmap inside Python, for the limited API of Python 3.8: one file serves it and all later versions. The
 * modules in smap/ are what people call.
 *
 * A call that may take long lets other threads of Python go on. It does not where it reads bytes that they could change
 * meanwhile. A call with a handle that such a call is at work with waits for it.
 *
 * To make or free a list, a tuple or an error may run the collector, and with it any code, which may close what is held. So what a
 * handle lends is read to the end before, and no handle is used behind it without `ready`. Numbers, bytes and texts run no code. */
#ifndef EXTENSION_H
#define EXTENSION_H

#define Py_LIMITED_API 0x03080000
#include <Python.h>
#include <pythread.h>
#include <smap.h>

/* The classes of _answers.py. Their tuples are made here, since the way through Python takes longer than a look-up. */
extern PyTypeObject *answer_class, *counts_class, *generated_class, *mapping_class, *place_class, *reason_class, *refusal_class, *source_class, *text_refusal_class;

/* The types of the extension, and what they are made of. */
extern PyTypeObject *map_type, *store_type, *rewriting_type, *inners_type, *mappings_type;
extern PyType_Spec map_spec, store_spec, rewriting_spec, inners_spec, mappings_spec;

/* `time.monotonic_ns`. */
extern PyObject *monotonic_ns;

/* given.c: what is given is checked, and what is handed back is made. */

/* Bytes that are given, as `bytes` or as a memoryview, which holds them where they are. They are steady where no other thread
 * of Python can change them: those of `bytes` are, and no others, since a view that is read-only may be of what is written to. */
struct given { const uint8_t *bytes; size_t length; bool steady; };
bool bytes_of(PyObject *value, struct given *given);

/* Where a buffer is written to. Nothing else can have it. */
void *room_of(PyObject *value, size_t *length);

/* How a method is called whose arguments may be given by their names, without a tuple or a dict of them. Every version from 3.8
 * on calls so; for the limited API of 3.8 its headers do not name it. */
#ifndef METH_FASTCALL
#define METH_FASTCALL 0x0080
#endif

/* The arguments of such a call: `count` are given at their places, and those of the tuple `named` behind them. As many are wanted
 * as there are names, at most two, and the format is that of PyArg_ParseTupleAndKeywords. */
bool words_of(PyObject *const *given, Py_ssize_t count, PyObject *named, const char *format, char **names, PyObject **words);

/* A line or a column. Past the greatest number there is as much as at it: nothing. */
bool place_of(PyObject *value, const char *what, uint32_t *place);

/* The bytes of a URL, which is a text, and may have half of a surrogate pair. What is given back holds them. */
PyObject *url_of(PyObject *value, struct given *url);

/* The number of a source or a name. One that none can have is the greatest, which none has. */
bool index_of(PyObject *value, const char *what, uint32_t *index);

PyObject *none(void);
PyObject *number_if(bool is, uint32_t number);
PyObject *text_if(bool is, smap_text text);

/* A text, or None for bytes that are no UTF-8. */
PyObject *text_or_none(smap_text text);

/* A tuple of a class, with items that it takes over. Where one of them is NULL, which is an error, so is the tuple. */
PyObject *tuple_of(PyTypeObject *class, Py_ssize_t count, PyObject **items);

/* Bytes that were handed out, which are freed. */
PyObject *taken(smap_bytes *bytes);

/* What a call gives that hands bytes out: the bytes, or the code of a refusal. */
PyObject *taken_or_refused(uint32_t status, smap_bytes *bytes, smap_code refusal);

/* compose.c: writes a debug id, if there is one, into the text of a map that was handed out, and gives the status. Where there is no memory
 * the text is freed. An id that a map has is UTF-8. */
uint32_t with_id(uint32_t status, smap_bytes *bytes, bool has_id, struct given id);

/* held.c: a map, a table with a store, a rewriting or inner maps, used by one call at a time. It is full where it is open. A call that lets other threads go on is at
 * work with it while it is busy, and has its lock. A short call needs none, since it is alone until it returns. */
struct held {
    PyObject_HEAD
    PyThread_type_lock lock;
    bool busy, full, is_named;
    size_t size; /* about how many bytes it has */
    union {
        smap_map map;
        smap_inners inners;
        smap_rewriting rewriting;
        struct { smap_table table; smap_store store; }; /* the table has maps where `is_named` */
    };
    smap_originals originals; /* of a map, as soon as it was asked for generated places */
    smap_names names;         /* of a map, as soon as its generated file was given */
};

/* Waits until no call is at work with it. Returns false where a signal raised an error. */
bool idle(struct held *held);

/* The same for several, which have to be open. So they are all until this thread lets others go on, or runs code. */
bool ready(struct held *const *held, size_t count);

/* Begins and ends a call that may let other threads go on, with what is idle. */
void begin(struct held *held);
void end(struct held *held);

/* Lets other threads go on, if what is read is steady, until `come_back` with what this gives. */
PyThreadState *let_go(bool steady);
void come_back(PyThreadState *state);

/* What was held is freed, and the process need not keep its memory. */
void give_back(struct held *held);

/* The map went over to what takes it. */
void hand_over(struct held *map, struct held *taker);

PyObject *held_new(PyTypeObject *type, PyObject *words, PyObject *named);
void held_free(PyObject *self);
PyObject *held_closed(PyObject *self, void *unused);

/* A place that a look-up found, with its texts. */
PyObject *place_found(const smap_found *found, const smap_source_text *source, smap_text name);

/* Whether there is such a source, which was asked for by this value. Its texts are lent. */
bool has_source(const struct held *held, uint32_t index, PyObject *value, smap_source_text *source);

/* About how many bytes of memory an open map takes, with its index of originals where that is made. */
uint64_t size_of_map(const struct held *map);

/* Methods of the map: all mappings (mappings.c), and lists (lists.c): the generated places of an original one, or of a whole line where no
 * column is given, and the lines around a line of a source with at which of them it stands, or None. */
PyObject *map_mappings(PyObject *self, PyObject *unused);
PyObject *map_generated(PyObject *self, PyObject *words);

/* Functions of the module, and those that lib/calls has. */
PyObject *refusal_of(const smap_refusal *refusal);
PyObject *explained(PyObject *module, PyObject *words);

#include "calls.h"

#endif
