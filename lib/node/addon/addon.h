/* The library libsmap inside node, over Node-API. ../index.js and what it requires are what people call. */
#ifndef ADDON_H
#define ADDON_H

#include <node_api.h>
#include <smap.h>

/* given.c: what is given is checked, and what is handed back is made. */

/* Throws an error, or one of a type. */
napi_value refuse(napi_env env, const char *why);
napi_value refuse_range(napi_env env, const char *why);
napi_value refuse_type(napi_env env, const char *why);

/* The arguments of a call, at least so many. No call has more than WORDS. */
#define WORDS 8
bool words_of(napi_env env, napi_callback_info info, size_t wanted, napi_value *words);

/* Where an array of no length is. */
extern uint64_t nothing[1];

/* The bytes of a Uint8Array and the numbers of a Uint32Array, which stay what and where they are during a call: no other
 * thread has them. */
struct numbers { uint32_t *at; size_t count; napi_value array; };
bool bytes_of(napi_env env, napi_value value, smap_text *bytes);
bool numbers_of(napi_env env, napi_value value, struct numbers *numbers);

/* The numbers of a Uint32Array in shared memory that has so many. They stay where they are as long as the array is there:
 * such memory is neither detached nor transferred. But other threads may write to it. */
uint32_t *shared_of(napi_env env, napi_value value, size_t wanted);

/* A whole number of 32 bits, or one up to 2^53 - 1. Another is refused, and never wrapped. */
bool number_of(napi_env env, napi_value value, uint32_t *number);
bool count_of(napi_env env, napi_value value, uint64_t *count);

bool flag_of(napi_env env, napi_value value, bool *flag);

/* The places of a Float64Array that has so many, for numbers past 32 bits. */
double *doubles_of(napi_env env, napi_value value, size_t wanted);

napi_value number(napi_env env, double value);
napi_value string(napi_env env, smap_text text);
napi_value null(napi_env env);

/* Bytes that were handed out, as a Buffer. */
napi_value buffer(napi_env env, smap_bytes *bytes);

/* Gives an object a member, which may not be NULL, and makes an Array of values. They are defined and not set: a setter of a
 * prototype, which may close what was lent, is not called. No call of an addon runs the user's code, but what tableLookUp is
 * given, when all is made. */
bool define(napi_env env, napi_value object, const char *name, napi_value value);
napi_value list_of(napi_env env, const napi_value *values, size_t count);

/* held.c: what the objects of the addon hold of the library: a map, a table with its store, inner maps or a rewriting each. V8 knows of the memory, which is
 * not its own. */
enum kind { MAP, TABLE, INNERS, REWRITING };
struct held;

/* What stands at a place: something that is held, or nothing, and then the next place is free too. */
struct place { struct held *held; uint32_t next; };

/* The addon in one environment of node. The room is what one look-up is asked and answers, in a Uint32Array of thirteen in
 * shared memory: the line, the column, 1 for the other direction, the seven numbers of the answer, the place of the map, and
 * whether the source is ignored and the last column for which the answer holds, or TO_THE_END, which are said where WHOLE_PLACE
 * stands in place of the 1. There is one room, so that a
 * look-up hands over no argument and makes no value, and is one function for all maps. Where OF_ORIGINAL and a direction stand
 * there, an original place is asked for, whose source stands behind; and the answer is whether it has generated places, their
 * original column, and the first and the last of them. */
#define OF_ORIGINAL 2
#define WHOLE_PLACE 4
#define TO_THE_END UINT32_MAX
#define ROOM_MAP 10
#define ROOM_IGNORED 11
#define ROOM_LAST 12
#define ROOM (ROOM_LAST + 1)
struct addon {
    uint32_t *room;
    napi_ref texts; /* an Array for the name of what a look-up by URL finds, and for the debug id of a map that is read into a table */
    struct place *places;
    uint32_t count, free;    /* how many places there are, and the first that is free, or as many */
    int64_t reported, swept; /* the bytes that V8 knows of, and the fewest since the last sweep */
    int64_t freed;           /* the bytes that glibc may keep */
    smap_bytes listed;       /* mappings that are handed out piece by piece, */
    size_t handed;           /* and how many bytes were */
};

struct held {
    struct addon *addon;
    uint32_t place;  /* where it stands in the addon */
    napi_ref itself; /* the object, as long as it was not collected */
    int64_t size;    /* the bytes that V8 knows of */
    bool full;
    enum kind kind;
    union {
        smap_map map;
        smap_inners inners;
        struct { smap_table table; smap_store store; int64_t given; }; /* the bytes that the maps of the table count for */
        /* When bytes were given, and whether the last; and how many whole lines came out before. */
        struct { smap_rewriting rewriting; uint64_t time, lines; bool is_last; };
    };
    smap_originals originals; /* of a map, as soon as it was asked for generated places */
    smap_names names;         /* of a map, as soon as its generated file was given; */
    int64_t named;            /* and about how many bytes they have */
};

struct addon *addon_of(napi_env env);

/* What an object holds that is open and of this kind; or nothing, which is an error. */
struct held *held_of(napi_env env, napi_value value, enum kind kind);

/* Makes an object that holds what is full, of so many bytes that V8 is to know of. The object names its place. Where that fails,
 * what is held is freed. */
napi_value object_of(napi_env env, struct held *held, int64_t size);

/* Frees what is held, if there is something. */
void let_go(napi_env env, struct held *held);

/* The map went over to what takes it. */
void hand_over(napi_env env, struct held *map, struct held *taker);

/* Says to V8 how many bytes this holds now. */
void report_size(napi_env env, struct held *held, int64_t size);

/* Frees what is held by objects that were collected. Node itself says so only once the script waits, which a loop over many
 * maps does not. */
void sweep(napi_env env, struct addon *addon);

/* The object was collected, or the environment ends. */
void drop(napi_env env, void *data, void *hint);

/* The environment ends: what is still held stands alone. */
void drop_addon(napi_env env, void *data, void *hint);

/* members.c: where the parts of an object or a list of a JSON text stand, two numbers each, a key and its value in turn. */
struct parts { uint32_t *numbers; size_t count, room; };
bool find_parts(const uint8_t *text, size_t length, size_t at, struct parts *parts);
napi_value array_of_parts(napi_env env, const struct parts *parts);

/* What a TraceMap has of the text of a regular map beside the library's, as JSON, with how many bytes of the text: nothing where that is
 * not found so, and false where there is no memory. */
bool outline_of(const uint8_t *text, size_t length, char **outline, size_t *bytes);

/* map.c: the map that was read of so many bytes, as an object, which has its debug id, if there is one. */
napi_value object_of_map(napi_env env, struct held *held, size_t length, smap_bytes *id);

/* A map that is read at this base or, with `or_at_none`, at none where that is no URL. Its debug id is handed out, if it has one. */
uint32_t read_so(smap_text bytes, smap_text base, bool or_at_none, uint32_t interval, uint64_t most, smap_map *map, smap_bytes *id,
                 smap_refusal *refusal);

/* Bytes that were handed out as a text, if there are such, which are freed. */
napi_value text_taken(napi_env env, smap_bytes *bytes);

/* Writes a debug id, if there is one, into the text of a map that was handed out, and gives the status. Where there is no memory the text is
 * freed. An id that a map has is UTF-8. */
uint32_t with_id(uint32_t status, smap_bytes *bytes, bool has_id, smap_text id);

/* mappings.c: nothing is handed out piece by piece any more. */
void end_list(struct addon *addon);

/* refusals.c: the six numbers of a refusal, and an object with the codes that the callers ask for. */
void put_refusal(const smap_refusal *refusal, double *numbers);
napi_value codes_of(napi_env env);

/* store.c: the table that a call is asked of, whose place stands in the room, and the URL that is its only argument. One without bytes has
 * no map, and is not asked for: `none` is null then, and else no value. */
struct url;
struct held *asked(napi_env env, napi_callback_info info, napi_value *text, struct url *url, napi_value *none);

/* rewriting.c: the time in milliseconds, from some point on. */
uint64_t time_now(void);

/* The bytes of a URL that is given as a text, which most have room for, and whether it has some; the text of a URL, or null where that is
 * not UTF-8; and the bytes of one that has to have some. */
struct url { uint8_t *bytes; size_t length; uint8_t room[512]; };
bool url_of(napi_env env, napi_value text, struct url *url, bool *has_bytes);
bool is_ascii(smap_text text);
bool text_of_url(napi_env env, smap_text url, napi_value *text);
bool whole_url_of(napi_env env, napi_value text, struct url *url);
void free_url(struct url *url);

#include "calls.h"

#endif
