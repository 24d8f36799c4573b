/* Maps by URL: a table of those that are given, of URLs and patterns, and a store of those that are asked for. A call that is given no handle
 * has the place of the table in the room of a look-up. */
#include "addon.h"
#include <stdlib.h>
#include <string.h>

struct held *asked(napi_env env, napi_callback_info info, napi_value *text, struct url *url, napi_value *none) {
    napi_value words[WORDS];
    bool has_bytes = false;
    *none = NULL;
    const struct addon *addon = addon_of(env);
    volatile uint32_t *room = addon->room;
    const uint32_t place = room[ROOM_MAP];
    struct held *held = place < addon->count ? addon->places[place].held : NULL;
    if (!held || held->kind != TABLE || !held->full) return refuse(env, "the table is closed"), NULL;
    if (!words_of(env, info, 1, words) || !url_of(env, words[0], url, &has_bytes)) return NULL;
    *text = words[0];
    if (has_bytes) return held;
    free_url(url);
    room[3] = SMAP_REFUSED;
    *none = null(env);
    return NULL;
}

static napi_value undefined(napi_env env) {
    napi_value value = NULL;
    napi_get_undefined(env, &value);
    return value;
}

static void report_store(napi_env env, struct held *held) {
    smap_store_counts counts = {0};
    smap_store_count(&held->store, &counts);
    report_size(env, held, held->given + (int64_t)(counts.bytes + counts.none_bytes));
}

/* newTable(most): a table without maps, and a store of so many bytes beside it. */
napi_value new_table(napi_env env, uint64_t most) {
    struct held *held = calloc(1, sizeof *held);
    if (held && smap_table_new(&held->table) == SMAP_DONE) {
        held->kind = TABLE;
        if (smap_store_new(most, &held->store) == SMAP_DONE) return object_of(env, held, 0);
        smap_table_free(&held->table);
    }
    free(held);
    return refuse(env, "out of memory");
}

/* add(table, url, map): nothing, and the map is closed then, and the table has what its generated file declares, too; or the code of the
 * refusal. */
napi_value add(napi_env env, struct held *table, smap_text url, struct held *held) {
    smap_code why = 0;
    uint32_t status = smap_table_add(&table->table, url.bytes, url.length, &held->map, &why);
    if (status == SMAP_REFUSED) return number(env, why);
    if (status == SMAP_DONE) {
        const bool is_named = !held->names.at || smap_table_add_names(&table->table, url.bytes, url.length, &held->names) == SMAP_DONE;
        table->given += held->size;
        hand_over(env, held, table);
        return is_named ? NULL : refuse(env, "out of memory");
    }
    held->full = false;
    report_size(env, held, 0);
    return refuse(env, "out of memory");
}

/* isBadUrl(url, map): why no frame can name this URL, as a code; or nothing. */
napi_value is_bad_url(napi_env env, const struct url *url, struct held *held) {
    smap_table table = {0};
    uint32_t status = SMAP_NO_MEMORY;
    smap_code why = 0;
    if (smap_table_new(&table) == SMAP_DONE) {
        status = smap_table_add_shared(&table, url->bytes, url->length, &held->map, &why);
        smap_table_free(&table);
    }
    if (status == SMAP_NO_MEMORY) return refuse(env, "out of memory");
    return status == SMAP_REFUSED ? number(env, why) : NULL;
}

/* put(table, url, map, bytes): the store has the map, too, with what its generated file declares, and it counts for so many bytes. */
napi_value put(napi_env env, struct held *table, const struct url *url, struct held *held, uint64_t bytes) {
    uint32_t status = held->names.at ? smap_store_put_named(&table->store, url->bytes, url->length, &held->names, bytes)
                                     : smap_store_put(&table->store, url->bytes, url->length, &held->map, bytes);
    report_store(env, table);
    return status == SMAP_DONE ? NULL : refuse(env, "out of memory");
}

/* readInto(table, url, bytes, base, orAtNone, interval, mostNames, numbers): a map is read, and the store has it. What else its text has, as
 * JSON, or null where that is not found so, with how many bytes that are in the first of seven numbers, in the second whether its debug id
 * stands in the texts, and in the last for how much the map counts; or nothing, and those of the refusal. */
napi_value read_into(napi_env env, struct held *table, const struct url *url, smap_text bytes, smap_text base,
                     bool or_at_none, uint32_t interval, uint64_t most, double *numbers) {
    napi_value result = NULL, texts;
    size_t kept = 0;
    uint64_t size = 0;
    sweep(env, addon_of(env));
    smap_map map = {0};
    smap_bytes id = {0};
    smap_refusal refusal = {0};
    char *outline = NULL;
    uint32_t status = read_so(bytes, base, or_at_none, interval, most, &map, &id, &refusal);
    const bool has_id = id.at;
    napi_value text = text_taken(env, &id);
    if (status == SMAP_DONE) {
        smap_map_size(&map, &size);
        bool whole = outline_of(bytes.bytes, bytes.length, &outline, &kept);
        status = whole ? smap_store_put(&table->store, url->bytes, url->length, &map, size += kept) : SMAP_NO_MEMORY;
        smap_map_free(&map);
        report_store(env, table);
    }
    if (status == SMAP_DONE) {
        numbers[0] = (double)kept, numbers[1] = has_id, numbers[6] = (double)size;
        bool is = !has_id || (text && napi_get_reference_value(env, table->addon->texts, &texts) == napi_ok && napi_set_element(env, texts, 0, text) == napi_ok);
        if (is) result = outline ? string(env, (smap_text){(const uint8_t *)outline, strlen(outline)}) : null(env);
    } else if (status == SMAP_REFUSED) {
        put_refusal(&refusal, numbers);
    } else {
        refuse(env, "out of memory");
    }
    free(outline);
    return result;
}

/* putNone(table, url, why, time): that the URL has no map, for so many milliseconds, one at least, or for ever where that is null. */
napi_value put_none(napi_env env, struct held *table, const struct url *url, uint32_t why, napi_value until) {
    napi_valuetype type;
    uint64_t time = 0;
    if (napi_typeof(env, until, &type) != napi_ok || (type != napi_null && !count_of(env, until, &time))) return NULL;
    uint32_t status = smap_store_put_none(&table->store, url->bytes, url->length, why, type != napi_null, time_now() + time + !time);
    report_store(env, table);
    if (status == SMAP_REFUSED) return refuse_range(env, "no such reason");
    return status == SMAP_DONE ? NULL : refuse(env, "out of memory");
}

/* The key of a URL in the store, as a text: itself or a shorter one. */
static napi_value key_of(napi_env env, struct held *table, napi_value text, const struct url *url) {
    smap_text key = SMAP_TEXT;
    smap_store_key(&table->store, url->bytes, url->length, &key);
    return key.length == url->length ? text : string(env, key);
}

/* forget(url): the store forgets what it knows of it. Gives its key. */
napi_value forget(napi_env env, struct held *table, napi_value text, const struct url *url) {
    napi_value key = key_of(env, table, text, url);
    smap_text bytes = SMAP_TEXT;
    smap_store_key(&table->store, url->bytes, url->length, &bytes);
    smap_store_forget(&table->store, bytes.bytes, bytes.length);
    report_store(env, table);
    return key;
}

/* tableCounts(table, counts): the seven of smap_store_counts in a Float64Array. */
napi_value table_counts(napi_env env, struct held *table, napi_value array, double *numbers) {
    (void)env;
    smap_store_counts counts = {0};
    smap_store_count(&table->store, &counts);
    const uint64_t all[] = {counts.bytes, counts.count, counts.none_bytes, counts.none_count, counts.asked, counts.hits, counts.dropped};
    for (size_t i = 0; i < 7; i++) numbers[i] = (double)all[i];
    return array;
}

/* What a look-up is answered: what was found, its source and its name. */
struct answer { smap_found found; smap_source_text source; smap_text name; };

/* Looks a place up in the table, with or without query and fragment, or else in the store, where that is a use of its map or not. */
static uint32_t answer_of(struct held *table, const struct url *url, uint32_t line, uint32_t column, bool after, bool is_use, struct answer *answer) {
    const smap_table_options how = {.after = after, .cut = true};
    uint32_t why = 0;
    *answer = (struct answer){{0}, SMAP_SOURCE, SMAP_TEXT};
    if (table->given && smap_table_look_up(&table->table, url->bytes, url->length, line, column, &how, &answer->found, &answer->source, &answer->name) == SMAP_DONE)
        return SMAP_DONE;
    const uint64_t time = time_now();
    if (is_use && smap_store_ask(&table->store, url->bytes, url->length, time, &why) != SMAP_DONE) why = 0;
    return smap_store_look_up(&table->store, url->bytes, url->length, time, line, column, after, &answer->found, &answer->source, &answer->name, &why);
}

/* The last column of its line for which holds what answers at this place, or TO_THE_END. */
static uint32_t last_column_of(struct held *table, const struct url *url, uint32_t line, uint32_t column) {
    struct answer next = {0};
    const bool is = column < UINT32_MAX && answer_of(table, url, line, column + 1, true, false, &next) == SMAP_DONE;
    return is && next.found.kind ? next.found.generated_column - 1 : TO_THE_END;
}

/* Whether a map may be asked for under this URL without its query and its fragment. */
static bool is_location(const struct url *url) {
    smap_text cut = SMAP_TEXT;
    smap_cut_url(url->bytes, url->length, &cut);
    return smap_is_location(cut.bytes, cut.length) == SMAP_DONE;
}

/* findPlace(url): where a place of this file comes from, which is asked for in the room as of a map: the name of the source, or null,
 * with the numbers in the room and the name in the texts; undefined where it is not known what map the URL has, and it is a location. */
napi_value find_place(napi_env env, struct held *table, napi_value text, const struct url *url) {
    (void)text;
    napi_value texts, name;
    struct answer answer;
    struct addon *addon = table->addon;
    uint32_t *room = addon->room, line = room[0], column = room[1], status = answer_of(table, url, line, column, false, true, &answer);
    if (status == SMAP_WANTED && is_location(url)) return undefined(env);
    if (status != SMAP_DONE) answer.found.kind = 0;
    memcpy(room + 3, &answer.found, sizeof answer.found);
    room[ROOM_IGNORED] = answer.source.ignored;
    if (answer.found.kind != 2) return null(env);
    room[ROOM_LAST] = last_column_of(table, url, line, column);
    if (answer.found.named && (!(name = string(env, answer.name)) || napi_get_reference_value(env, addon->texts, &texts) != napi_ok ||
                               napi_set_element(env, texts, 0, name) != napi_ok))
        return NULL;
    return answer.source.named ? string(env, answer.source.name) : null(env);
}

/* wanted(url): the key under which a map is to be put, if one may be asked for; or null. Whether one is known, or that there is none,
 * stands in the room: 0, 1, or 2 where that is not known. */
napi_value wanted(napi_env env, struct held *table, napi_value text, const struct url *url) {
    struct answer answer;
    uint32_t status = table->addon->room[3] = answer_of(table, url, 0, 0, false, false, &answer);
    return status == SMAP_WANTED && is_location(url) ? key_of(env, table, text, url) : null(env);
}

/* keyOfMap(url): the key of the map that the store has for a URL, which is a use of it; or null. */
napi_value key_of_map(napi_env env, struct held *table, napi_value text, const struct url *url) {
    uint32_t why = 0;
    bool has = smap_store_ask(&table->store, url->bytes, url->length, time_now(), &why) == SMAP_DONE;
    return has ? key_of(env, table, text, url) : null(env);
}

/* mapAt(url): the map that the store has for a URL, with the names that came with it, held by itself; or null. */
napi_value map_at(napi_env env, struct held *table, napi_value text, const struct url *url) {
    (void)text;
    uint32_t why = 0;
    uint64_t bytes = 0;
    struct held *held = calloc(1, sizeof *held);
    const uint64_t time = time_now();
    uint32_t status = held ? smap_store_map(&table->store, url->bytes, url->length, time, &held->map, &why) : SMAP_NO_MEMORY;
    if (status == SMAP_DONE && smap_store_names(&table->store, url->bytes, url->length, time, &held->names) == SMAP_NO_MEMORY) {
        smap_map_free(&held->map);
        status = SMAP_NO_MEMORY;
    }
    if (status == SMAP_DONE) {
        smap_map_size(&held->map, &bytes);
        return object_of(env, held, (int64_t)bytes);
    }
    free(held);
    return status == SMAP_NO_MEMORY ? refuse(env, "out of memory") : null(env);
}
