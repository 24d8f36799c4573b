/* Look-ups in a map, singly and many at once, the bytes of a file by source, and how a map fits a file. */
#include "addon.h"
#include <stdlib.h>
#include <string.h>

/* The generated places of an original one or, where the direction is OF_LINE, of all of its line, once the map has the index for them; or
 * false, which is an error. */
#define OF_LINE 2
static bool places_of(napi_env env, struct held *held, uint32_t source, uint32_t line, uint32_t column, uint32_t direction,
                      smap_generated_places *places) {
    if (!held->originals.at) {
        smap_count count = {0};
        smap_counts(&held->map, &count);
        if (smap_originals_new(&held->map, &held->originals) != SMAP_DONE) return refuse(env, "out of memory"), false;
        report_size(env, held, held->size + (int64_t)(16 * count.segments + 24 * count.sources));
    }
    if (direction == OF_LINE) smap_generated_on_line(&held->originals, source, line, places);
    else smap_generated(&held->originals, source, line, column, direction, places);
    return true;
}

/* Answers what the room asks for, of the generated places of an original one. */
static void look_up_original(napi_env env, struct held *held, uint32_t *room) {
    const uint32_t line = room[0], column = room[1], direction = room[2] - OF_ORIGINAL, source = room[3];
    napi_value object = NULL;
    /* The call has no argument: it is this that keeps the collector from the map. */
    if (napi_get_reference_value(env, held->itself, &object) != napi_ok || !object) {
        refuse(env, "the map is closed");
        return;
    }
    smap_generated_places places = SMAP_PLACES;
    if (!places_of(env, held, source, line, column, direction, &places)) return;
    room[3] = places.count > 0;
    if (places.count) {
        const smap_generated_place *first = places.places, *last = first + places.count - 1;
        const uint32_t answer[] = {first->original_column, first->line, first->column, last->line, last->column};
        memcpy(room + 4, answer, sizeof answer);
    }
}

/* The last column of its line for which holds what answers at this place: that before the next mapping, of which there may be none. */
static uint32_t last_column(const struct held *held, uint32_t line, uint32_t column) {
    uint32_t next = 0;
    return smap_next_column(&held->map, line, column, &next) == SMAP_DONE ? next - 1 : TO_THE_END;
}

/* lookUp(): what the room asks for, of the map whose place stands in it. */
napi_value look_up(napi_env env, napi_callback_info info) {
    (void)info;
    const struct addon *addon = addon_of(env);
    /* Another thread may have the room, so what decides is read once. */
    const volatile uint32_t *asked = addon->room;
    const uint32_t how = asked[2], place = asked[ROOM_MAP];
    uint32_t *room = addon->room;
    struct held *held = place < addon->count ? addon->places[place].held : NULL;
    if (!held || held->kind != MAP || !held->full) return refuse(env, "the map is closed");
    if (how < OF_ORIGINAL || how == WHOLE_PLACE) {
        const uint32_t line = room[0], column = room[1];
        smap_source_text source = SMAP_SOURCE;
        (how == 1 ? smap_look_up_from : smap_look_up)(&held->map, line, column, (smap_found *)(room + 3));
        if (how == WHOLE_PLACE && room[3] == 2) {
            smap_source(&held->map, room[5], &source);
            room[ROOM_IGNORED] = source.ignored;
            room[ROOM_LAST] = last_column(held, line, column);
        }
        return NULL;
    }
    look_up_original(env, held, room);
    return NULL;
}

/* How many positions are looked up at once. */
#define AT_ONCE 512

/* lookUpMany(map, positions, found): the answers to a Uint32Array of lines, from 1, and columns; seven numbers each, and the
 * lines in them from 1 too. */
napi_value look_up_many(napi_env env, struct held *held, struct numbers positions, struct numbers numbers) {
    const size_t length = positions.count;
    if (length % 2 || numbers.count != length / 2 * 7) return refuse_type(env, "the lengths do not fit");
    smap_position asked[AT_ONCE];
    for (size_t done = 0, count; done < length / 2; done += count) {
        count = length / 2 - done < AT_ONCE ? length / 2 - done : AT_ONCE;
        smap_found *found = (smap_found *)numbers.at + done;
        for (size_t i = 0; i < count; i++) {
            const uint32_t *at = positions.at + 2 * (done + i);
            if (!at[0]) return refuse(env, "`line` must be greater than 0 (lines start at line 1)");
            asked[i] = (smap_position){at[0] - 1, at[1]};
        }
        smap_look_up_many(&held->map, asked, count, found, count);
        for (size_t i = 0; i < count; i++) found[i].line += found[i].kind == 2;
    }
    return numbers.array;
}

/* generated(map, source, line, column, direction): the generated places of an original one, as a Uint32Array of a line, a column, and
 * the line and the column of the original each. All count from 0. */
napi_value generated(napi_env env, struct held *held, uint32_t source, uint32_t line, uint32_t column, uint32_t direction) {
    napi_value array, buffer;
    void *place;
    smap_generated_places places = SMAP_PLACES;
    if (!places_of(env, held, source, line, column, direction, &places)) return NULL;
    size_t bytes = places.count * sizeof *places.places;
    if (napi_create_arraybuffer(env, bytes, &place, &buffer) != napi_ok ||
        napi_create_typedarray(env, napi_uint32_array, bytes / sizeof(uint32_t), buffer, 0, &array) != napi_ok)
        return refuse(env, "out of memory");
    if (bytes) memcpy(place, places.places, bytes);
    return array;
}

/* generatedSpans(map, source, line, column, direction): the same places or, where the direction is OF_LINE, those of all of its line, by their
 * original columns, as a Uint32Array of four numbers each: the line, the column, the last column for which the mapping there holds, or
 * TO_THE_END, and the column of the original. */
napi_value generated_spans(napi_env env, struct held *held, uint32_t source, uint32_t line, uint32_t column, uint32_t direction) {
    napi_value array, buffer;
    void *room;
    smap_source_text text = SMAP_SOURCE;
    smap_generated_places places = SMAP_PLACES;
    if (smap_source(&held->map, source, &text) != SMAP_DONE) return refuse_range(env, "no such source");
    if (!places_of(env, held, source, line, column, direction, &places)) return NULL;
    if (napi_create_arraybuffer(env, places.count * 4 * sizeof(uint32_t), &room, &buffer) != napi_ok ||
        napi_create_typedarray(env, napi_uint32_array, places.count * 4, buffer, 0, &array) != napi_ok)
        return refuse(env, "out of memory");
    for (size_t i = 0; i < places.count; i++) {
        const smap_generated_place *at = places.places + i;
        const uint32_t span[] = {at->line, at->column, last_column(held, at->line, at->column), at->original_column};
        memcpy((uint32_t *)room + 4 * i, span, sizeof span);
    }
    return array;
}

/* bytesBySource(map, generated, refusal): a Float64Array of the bytes of each source and, at its end, those that are
 * unmapped; or the code of the refusal. */
napi_value bytes_by_source(napi_env env, struct held *held, smap_text file) {
    napi_value array = NULL, room;
    smap_code why = 0;
    void *place;
    smap_count count = {0};
    smap_counts(&held->map, &count);
    uint64_t *reported = calloc(count.sources + 1, sizeof *reported);
    if (!reported) return refuse(env, "out of memory");
    uint32_t status = smap_bytes_by_source(&held->map, file.bytes, file.length, reported, count.sources, reported + count.sources, &why);
    if (status == SMAP_DONE && napi_create_arraybuffer(env, (count.sources + 1) * sizeof(double), &place, &room) == napi_ok &&
        napi_create_typedarray(env, napi_float64_array, count.sources + 1, room, 0, &array) == napi_ok)
        for (size_t i = 0; i <= count.sources; i++) ((double *)place)[i] = (double)reported[i];
    free(reported);
    if (status == SMAP_REFUSED) return number(env, why);
    return array ? array : refuse(env, "out of memory");
}

/* fit(map, generated, counts): into a Float64Array of seven places the counts, in their order, and 1 where the map fits; or the
 * code of the refusal. */
napi_value fit(napi_env env, struct held *held, smap_text file, double *counts) {
    smap_code why = 0;
    smap_fit_count fit = {0};
    uint32_t status = smap_fit(&held->map, file.bytes, file.length, &fit, &why);
    if (status == SMAP_NO_MEMORY) return refuse(env, "out of memory");
    if (status == SMAP_REFUSED) return number(env, why);
    const uint64_t all[] = {fit.mappings, fit.past, fit.inside, fit.compared, fit.outside, fit.same, fit.fits};
    for (size_t i = 0; i < 7; i++) counts[i] = (double)all[i];
    return NULL;
}
