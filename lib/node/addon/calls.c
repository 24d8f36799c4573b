/* The arguments of each call are checked, as lib/calls has them: lib/declare has written this. */
#include "addon.h"

static napi_value checked_read(napi_env env, napi_callback_info info) {
    napi_value words[WORDS];
    smap_text bytes;
    smap_text base;
    bool or_at_none;
    uint32_t interval;
    uint64_t most;
    double *refusal;
    if (!words_of(env, info, 6, words) ||
        !bytes_of(env, words[0], &bytes) ||
        !bytes_of(env, words[1], &base) ||
        !flag_of(env, words[2], &or_at_none) ||
        !number_of(env, words[3], &interval) ||
        !count_of(env, words[4], &most) ||
        !(refusal = doubles_of(env, words[5], 6)))
        return NULL;
    return read_map(env, bytes, base, or_at_none, interval, most, refusal);
}

static napi_value checked_readLater(napi_env env, napi_callback_info info) {
    napi_value words[WORDS];
    smap_text bytes;
    smap_text base;
    bool or_at_none;
    uint32_t interval;
    uint64_t most;
    if (!words_of(env, info, 5, words) ||
        !bytes_of(env, words[0], &bytes) ||
        !bytes_of(env, words[1], &base) ||
        !flag_of(env, words[2], &or_at_none) ||
        !number_of(env, words[3], &interval) ||
        !count_of(env, words[4], &most))
        return NULL;
    return read_later(env, bytes, words[0], base, or_at_none, interval, most);
}

static napi_value checked_readInto(napi_env env, napi_callback_info info) {
    napi_value words[WORDS];
    struct held *table;
    struct url url;
    smap_text bytes;
    smap_text base;
    bool or_at_none;
    uint32_t interval;
    uint64_t most;
    double *numbers;
    if (!words_of(env, info, 8, words) ||
        !(table = held_of(env, words[0], TABLE)) ||
        !bytes_of(env, words[2], &bytes) ||
        !bytes_of(env, words[3], &base) ||
        !flag_of(env, words[4], &or_at_none) ||
        !number_of(env, words[5], &interval) ||
        !count_of(env, words[6], &most) ||
        !(numbers = doubles_of(env, words[7], 7)) ||
        !whole_url_of(env, words[1], &url))
        return NULL;
    napi_value result = read_into(env, table, &url, bytes, base, or_at_none, interval, most, numbers);
    free_url(&url);
    return result;
}

static napi_value checked_codeText(napi_env env, napi_callback_info info) {
    napi_value words[WORDS];
    uint32_t code;
    if (!words_of(env, info, 1, words) ||
        !number_of(env, words[0], &code))
        return NULL;
    return code_text(env, code);
}

static napi_value checked_refusalExplain(napi_env env, napi_callback_info info) {
    napi_value words[WORDS];
    smap_text bytes;
    double *refusal;
    double *reason;
    if (!words_of(env, info, 3, words) ||
        !bytes_of(env, words[0], &bytes) ||
        !(refusal = doubles_of(env, words[1], 6)) ||
        !(reason = doubles_of(env, words[2], 4)))
        return NULL;
    return refusal_explain(env, bytes, refusal, reason);
}

static napi_value checked_closeMap(napi_env env, napi_callback_info info) {
    napi_value words[WORDS];
    struct held *map;
    if (!words_of(env, info, 1, words) ||
        !(map = held_of(env, words[0], MAP)))
        return NULL;
    return close_held(env, map);
}

static napi_value checked_closeTable(napi_env env, napi_callback_info info) {
    napi_value words[WORDS];
    struct held *table;
    if (!words_of(env, info, 1, words) ||
        !(table = held_of(env, words[0], TABLE)))
        return NULL;
    return close_held(env, table);
}

static napi_value checked_closeInners(napi_env env, napi_callback_info info) {
    napi_value words[WORDS];
    struct held *inners;
    if (!words_of(env, info, 1, words) ||
        !(inners = held_of(env, words[0], INNERS)))
        return NULL;
    return close_held(env, inners);
}

static napi_value checked_lookUpMany(napi_env env, napi_callback_info info) {
    napi_value words[WORDS];
    struct held *map;
    struct numbers positions;
    struct numbers found;
    if (!words_of(env, info, 3, words) ||
        !(map = held_of(env, words[0], MAP)) ||
        !numbers_of(env, words[1], &positions) ||
        !numbers_of(env, words[2], &found))
        return NULL;
    return look_up_many(env, map, positions, found);
}

static napi_value checked_generated(napi_env env, napi_callback_info info) {
    napi_value words[WORDS];
    struct held *map;
    uint32_t source;
    uint32_t line;
    uint32_t column;
    uint32_t direction;
    if (!words_of(env, info, 5, words) ||
        !(map = held_of(env, words[0], MAP)) ||
        !number_of(env, words[1], &source) ||
        !number_of(env, words[2], &line) ||
        !number_of(env, words[3], &column) ||
        !number_of(env, words[4], &direction))
        return NULL;
    return generated(env, map, source, line, column, direction);
}

static napi_value checked_generatedSpans(napi_env env, napi_callback_info info) {
    napi_value words[WORDS];
    struct held *map;
    uint32_t source;
    uint32_t line;
    uint32_t column;
    uint32_t direction;
    if (!words_of(env, info, 5, words) ||
        !(map = held_of(env, words[0], MAP)) ||
        !number_of(env, words[1], &source) ||
        !number_of(env, words[2], &line) ||
        !number_of(env, words[3], &column) ||
        !number_of(env, words[4], &direction))
        return NULL;
    return generated_spans(env, map, source, line, column, direction);
}

static napi_value checked_mappings(napi_env env, napi_callback_info info) {
    napi_value words[WORDS];
    struct held *map;
    if (!words_of(env, info, 1, words) ||
        !(map = held_of(env, words[0], MAP)))
        return NULL;
    return mappings(env, map);
}

static napi_value checked_listMappings(napi_env env, napi_callback_info info) {
    napi_value words[WORDS];
    struct held *map;
    struct numbers given;
    double *last;
    if (!words_of(env, info, 3, words) ||
        !(map = held_of(env, words[0], MAP)) ||
        !numbers_of(env, words[1], &given) ||
        !(last = doubles_of(env, words[2], 1)))
        return NULL;
    return list_mappings(env, map, given, last);
}

static napi_value checked_nextMappings(napi_env env, napi_callback_info info) {
    napi_value words[WORDS];
    struct numbers given;
    if (!words_of(env, info, 1, words) ||
        !numbers_of(env, words[0], &given))
        return NULL;
    return next_mappings(env, given);
}

static napi_value checked_encode(napi_env env, napi_callback_info info) {
    napi_value words[WORDS];
    struct numbers mappings;
    double *refusal;
    if (!words_of(env, info, 2, words) ||
        !numbers_of(env, words[0], &mappings) ||
        !(refusal = doubles_of(env, words[1], 2)))
        return NULL;
    return encode(env, mappings, refusal);
}

static napi_value checked_bytesBySource(napi_env env, napi_callback_info info) {
    napi_value words[WORDS];
    struct held *map;
    smap_text generated;
    if (!words_of(env, info, 2, words) ||
        !(map = held_of(env, words[0], MAP)) ||
        !bytes_of(env, words[1], &generated))
        return NULL;
    return bytes_by_source(env, map, generated);
}

static napi_value checked_fit(napi_env env, napi_callback_info info) {
    napi_value words[WORDS];
    struct held *map;
    smap_text generated;
    double *counts;
    if (!words_of(env, info, 3, words) ||
        !(map = held_of(env, words[0], MAP)) ||
        !bytes_of(env, words[1], &generated) ||
        !(counts = doubles_of(env, words[2], 7)))
        return NULL;
    return fit(env, map, generated, counts);
}

static napi_value checked_members(napi_env env, napi_callback_info info) {
    napi_value words[WORDS];
    smap_text text;
    uint32_t at;
    if (!words_of(env, info, 2, words) ||
        !bytes_of(env, words[0], &text) ||
        !number_of(env, words[1], &at))
        return NULL;
    return members(env, text, at);
}

static napi_value checked_outline(napi_env env, napi_callback_info info) {
    napi_value words[WORDS];
    smap_text text;
    double *kept;
    if (!words_of(env, info, 2, words) ||
        !bytes_of(env, words[0], &text) ||
        !(kept = doubles_of(env, words[1], 1)))
        return NULL;
    return outline(env, text, kept);
}

static napi_value checked_withGenerated(napi_env env, napi_callback_info info) {
    napi_value words[WORDS];
    struct held *map;
    smap_text generated;
    if (!words_of(env, info, 2, words) ||
        !(map = held_of(env, words[0], MAP)) ||
        !bytes_of(env, words[1], &generated))
        return NULL;
    return with_generated(env, map, generated);
}

static napi_value checked_functionName(napi_env env, napi_callback_info info) {
    napi_value words[WORDS];
    struct held *map;
    uint32_t line;
    uint32_t column;
    smap_text function;
    if (!words_of(env, info, 4, words) ||
        !(map = held_of(env, words[0], MAP)) ||
        !number_of(env, words[1], &line) ||
        !number_of(env, words[2], &column) ||
        !bytes_of(env, words[3], &function))
        return NULL;
    return function_name(env, map, line, column, function);
}

static napi_value checked_counts(napi_env env, napi_callback_info info) {
    napi_value words[WORDS];
    struct held *map;
    if (!words_of(env, info, 1, words) ||
        !(map = held_of(env, words[0], MAP)))
        return NULL;
    return counts(env, map);
}

static napi_value checked_size(napi_env env, napi_callback_info info) {
    napi_value words[WORDS];
    struct held *map;
    if (!words_of(env, info, 1, words) ||
        !(map = held_of(env, words[0], MAP)))
        return NULL;
    return size(env, map);
}

static napi_value checked_usePaths(napi_env env, napi_callback_info info) {
    napi_value words[WORDS];
    struct held *map;
    smap_text url;
    if (!words_of(env, info, 2, words) ||
        !(map = held_of(env, words[0], MAP)) ||
        !bytes_of(env, words[1], &url))
        return NULL;
    return use_paths(env, map, url);
}

static napi_value checked_standAt(napi_env env, napi_callback_info info) {
    napi_value words[WORDS];
    struct held *map;
    smap_text path;
    uint64_t most_names;
    double *refusal;
    if (!words_of(env, info, 4, words) ||
        !(map = held_of(env, words[0], MAP)) ||
        !bytes_of(env, words[1], &path) ||
        !count_of(env, words[2], &most_names) ||
        !(refusal = doubles_of(env, words[3], 6)))
        return NULL;
    return stand_at(env, map, path, most_names, refusal);
}

static napi_value checked_sourceName(napi_env env, napi_callback_info info) {
    napi_value words[WORDS];
    struct held *map;
    uint32_t index;
    if (!words_of(env, info, 2, words) ||
        !(map = held_of(env, words[0], MAP)) ||
        !number_of(env, words[1], &index))
        return NULL;
    return source_name(env, map, index);
}

static napi_value checked_sourceContent(napi_env env, napi_callback_info info) {
    napi_value words[WORDS];
    struct held *map;
    uint32_t index;
    if (!words_of(env, info, 2, words) ||
        !(map = held_of(env, words[0], MAP)) ||
        !number_of(env, words[1], &index))
        return NULL;
    return source_content(env, map, index);
}

static napi_value checked_isIgnored(napi_env env, napi_callback_info info) {
    napi_value words[WORDS];
    struct held *map;
    uint32_t index;
    if (!words_of(env, info, 2, words) ||
        !(map = held_of(env, words[0], MAP)) ||
        !number_of(env, words[1], &index))
        return NULL;
    return is_ignored(env, map, index);
}

static napi_value checked_sourceLines(napi_env env, napi_callback_info info) {
    napi_value words[WORDS];
    struct held *map;
    uint32_t index;
    uint32_t line;
    uint32_t before;
    uint32_t after;
    if (!words_of(env, info, 5, words) ||
        !(map = held_of(env, words[0], MAP)) ||
        !number_of(env, words[1], &index) ||
        !number_of(env, words[2], &line) ||
        !number_of(env, words[3], &before) ||
        !number_of(env, words[4], &after))
        return NULL;
    return source_lines(env, map, index, line, before, after);
}

static napi_value checked_name(napi_env env, napi_callback_info info) {
    napi_value words[WORDS];
    struct held *map;
    uint32_t index;
    if (!words_of(env, info, 2, words) ||
        !(map = held_of(env, words[0], MAP)) ||
        !number_of(env, words[1], &index))
        return NULL;
    return name(env, map, index);
}

static napi_value checked_file(napi_env env, napi_callback_info info) {
    napi_value words[WORDS];
    struct held *map;
    if (!words_of(env, info, 1, words) ||
        !(map = held_of(env, words[0], MAP)))
        return NULL;
    return file(env, map);
}

static napi_value checked_write(napi_env env, napi_callback_info info) {
    napi_value words[WORDS];
    struct held *map;
    bool has_id;
    smap_text id;
    if (!words_of(env, info, 3, words) ||
        !(map = held_of(env, words[0], MAP)) ||
        !flag_of(env, words[1], &has_id) ||
        !bytes_of(env, words[2], &id))
        return NULL;
    return write_map(env, map, has_id, id);
}

static napi_value checked_compose(napi_env env, napi_callback_info info) {
    napi_value words[WORDS];
    struct held *outer;
    uint32_t source;
    struct held *inner;
    bool has_id;
    smap_text id;
    if (!words_of(env, info, 5, words) ||
        !(outer = held_of(env, words[0], MAP)) ||
        !number_of(env, words[1], &source) ||
        !(inner = held_of(env, words[2], MAP)) ||
        !flag_of(env, words[3], &has_id) ||
        !bytes_of(env, words[4], &id))
        return NULL;
    return compose(env, outer, source, inner, has_id, id);
}

static napi_value checked_newInners(napi_env env, napi_callback_info info) {
    napi_value words[WORDS];
    struct held *outer;
    if (!words_of(env, info, 1, words) ||
        !(outer = held_of(env, words[0], MAP)))
        return NULL;
    return new_inners(env, outer);
}

static napi_value checked_putInner(napi_env env, napi_callback_info info) {
    napi_value words[WORDS];
    struct held *inners;
    uint32_t source;
    struct held *map;
    if (!words_of(env, info, 3, words) ||
        !(inners = held_of(env, words[0], INNERS)) ||
        !number_of(env, words[1], &source) ||
        !(map = held_of(env, words[2], MAP)))
        return NULL;
    return put_inner(env, inners, source, map);
}

static napi_value checked_nextInner(napi_env env, napi_callback_info info) {
    napi_value words[WORDS];
    struct held *outer;
    struct held *inners;
    if (!words_of(env, info, 2, words) ||
        !(outer = held_of(env, words[0], MAP)) ||
        !(inners = held_of(env, words[1], INNERS)))
        return NULL;
    return next_inner(env, outer, inners);
}

static napi_value checked_innerName(napi_env env, napi_callback_info info) {
    napi_value words[WORDS];
    struct held *outer;
    struct held *inners;
    uint32_t source;
    if (!words_of(env, info, 3, words) ||
        !(outer = held_of(env, words[0], MAP)) ||
        !(inners = held_of(env, words[1], INNERS)) ||
        !number_of(env, words[2], &source))
        return NULL;
    return inner_name(env, outer, inners, source);
}

static napi_value checked_composeAll(napi_env env, napi_callback_info info) {
    napi_value words[WORDS];
    struct held *outer;
    struct held *inners;
    bool prune;
    bool no_content;
    bool has_id;
    smap_text id;
    if (!words_of(env, info, 6, words) ||
        !(outer = held_of(env, words[0], MAP)) ||
        !(inners = held_of(env, words[1], INNERS)) ||
        !flag_of(env, words[2], &prune) ||
        !flag_of(env, words[3], &no_content) ||
        !flag_of(env, words[4], &has_id) ||
        !bytes_of(env, words[5], &id))
        return NULL;
    return compose_all(env, outer, inners, prune, no_content, has_id, id);
}

static napi_value checked_newTable(napi_env env, napi_callback_info info) {
    napi_value words[WORDS];
    uint64_t most;
    if (!words_of(env, info, 1, words) ||
        !count_of(env, words[0], &most))
        return NULL;
    return new_table(env, most);
}

static napi_value checked_add(napi_env env, napi_callback_info info) {
    napi_value words[WORDS];
    struct held *table;
    smap_text url;
    struct held *map;
    if (!words_of(env, info, 3, words) ||
        !(table = held_of(env, words[0], TABLE)) ||
        !bytes_of(env, words[1], &url) ||
        !(map = held_of(env, words[2], MAP)))
        return NULL;
    return add(env, table, url, map);
}

static napi_value checked_isBadUrl(napi_env env, napi_callback_info info) {
    napi_value words[WORDS];
    struct url url;
    struct held *map;
    if (!words_of(env, info, 2, words) ||
        !(map = held_of(env, words[1], MAP)) ||
        !whole_url_of(env, words[0], &url))
        return NULL;
    napi_value result = is_bad_url(env, &url, map);
    free_url(&url);
    return result;
}

static napi_value checked_put(napi_env env, napi_callback_info info) {
    napi_value words[WORDS];
    struct held *table;
    struct url url;
    struct held *map;
    uint64_t bytes;
    if (!words_of(env, info, 4, words) ||
        !(table = held_of(env, words[0], TABLE)) ||
        !(map = held_of(env, words[2], MAP)) ||
        !count_of(env, words[3], &bytes) ||
        !whole_url_of(env, words[1], &url))
        return NULL;
    napi_value result = put(env, table, &url, map, bytes);
    free_url(&url);
    return result;
}

static napi_value checked_putNone(napi_env env, napi_callback_info info) {
    napi_value words[WORDS];
    struct held *table;
    struct url url;
    uint32_t why;
    if (!words_of(env, info, 4, words) ||
        !(table = held_of(env, words[0], TABLE)) ||
        !number_of(env, words[2], &why) ||
        !whole_url_of(env, words[1], &url))
        return NULL;
    napi_value result = put_none(env, table, &url, why, words[3]);
    free_url(&url);
    return result;
}

static napi_value checked_forget(napi_env env, napi_callback_info info) {
    napi_value text, none;
    struct url url;
    struct held *table = asked(env, info, &text, &url, &none);
    if (!table) return none;
    napi_value result = forget(env, table, text, &url);
    free_url(&url);
    return result;
}

static napi_value checked_tableCounts(napi_env env, napi_callback_info info) {
    napi_value words[WORDS];
    struct held *table;
    double *counts;
    if (!words_of(env, info, 2, words) ||
        !(table = held_of(env, words[0], TABLE)) ||
        !(counts = doubles_of(env, words[1], 7)))
        return NULL;
    return table_counts(env, table, words[1], counts);
}

static napi_value checked_findPlace(napi_env env, napi_callback_info info) {
    napi_value text, none;
    struct url url;
    struct held *table = asked(env, info, &text, &url, &none);
    if (!table) return none;
    napi_value result = find_place(env, table, text, &url);
    free_url(&url);
    return result;
}

static napi_value checked_wanted(napi_env env, napi_callback_info info) {
    napi_value text, none;
    struct url url;
    struct held *table = asked(env, info, &text, &url, &none);
    if (!table) return none;
    napi_value result = wanted(env, table, text, &url);
    free_url(&url);
    return result;
}

static napi_value checked_keyOfMap(napi_env env, napi_callback_info info) {
    napi_value text, none;
    struct url url;
    struct held *table = asked(env, info, &text, &url, &none);
    if (!table) return none;
    napi_value result = key_of_map(env, table, text, &url);
    free_url(&url);
    return result;
}

static napi_value checked_mapAt(napi_env env, napi_callback_info info) {
    napi_value text, none;
    struct url url;
    struct held *table = asked(env, info, &text, &url, &none);
    if (!table) return none;
    napi_value result = map_at(env, table, text, &url);
    free_url(&url);
    return result;
}

static napi_value checked_newRewriting(napi_env env, napi_callback_info info) {
    napi_value words[WORDS];
    bool anywhere;
    bool hide_ignored;
    bool strip_ansi;
    bool asks;
    uint64_t most;
    if (!words_of(env, info, 5, words) ||
        !flag_of(env, words[0], &anywhere) ||
        !flag_of(env, words[1], &hide_ignored) ||
        !flag_of(env, words[2], &strip_ansi) ||
        !flag_of(env, words[3], &asks) ||
        !count_of(env, words[4], &most))
        return NULL;
    return new_rewriting(env, anywhere, hide_ignored, strip_ansi, asks, most);
}

static napi_value checked_give(napi_env env, napi_callback_info info) {
    napi_value words[WORDS];
    struct held *rewriting;
    smap_text bytes;
    uint64_t most;
    bool is_last;
    if (!words_of(env, info, 4, words) ||
        !(rewriting = held_of(env, words[0], REWRITING)) ||
        !bytes_of(env, words[1], &bytes) ||
        !count_of(env, words[2], &most) ||
        !flag_of(env, words[3], &is_last))
        return NULL;
    return give(env, rewriting, bytes, most, is_last);
}

static napi_value checked_run(napi_env env, napi_callback_info info) {
    napi_value words[WORDS];
    struct held *rewriting;
    struct held *table;
    double *numbers;
    if (!words_of(env, info, 3, words) ||
        !(rewriting = held_of(env, words[0], REWRITING)) ||
        !(table = held_of(env, words[1], TABLE)) ||
        !(numbers = doubles_of(env, words[2], 4)))
        return NULL;
    return run(env, rewriting, table, numbers);
}

static napi_value checked_takeText(napi_env env, napi_callback_info info) {
    napi_value words[WORDS];
    struct held *rewriting;
    if (!words_of(env, info, 1, words) ||
        !(rewriting = held_of(env, words[0], REWRITING)))
        return NULL;
    return take_text(env, rewriting);
}

static napi_value checked_stripped(napi_env env, napi_callback_info info) {
    napi_value words[WORDS];
    smap_text text;
    if (!words_of(env, info, 1, words) ||
        !bytes_of(env, words[0], &text))
        return NULL;
    return stripped(env, text);
}

static napi_value checked_locations(napi_env env, napi_callback_info info) {
    napi_value words[WORDS];
    smap_text text;
    bool anywhere;
    if (!words_of(env, info, 2, words) ||
        !bytes_of(env, words[0], &text) ||
        !flag_of(env, words[1], &anywhere))
        return NULL;
    return locations(env, text, anywhere);
}

static napi_value checked_folderPath(napi_env env, napi_callback_info info) {
    napi_value words[WORDS];
    smap_text prefix;
    smap_text folder;
    smap_text url;
    if (!words_of(env, info, 3, words) ||
        !bytes_of(env, words[0], &prefix) ||
        !bytes_of(env, words[1], &folder) ||
        !bytes_of(env, words[2], &url))
        return NULL;
    return folder_path(env, prefix, folder, url);
}

static napi_value checked_isPath(napi_env env, napi_callback_info info) {
    napi_value words[WORDS];
    smap_text url;
    if (!words_of(env, info, 1, words) ||
        !bytes_of(env, words[0], &url))
        return NULL;
    return is_path(env, url);
}

const struct call calls[CALLS] = {
    {"read", checked_read},
    {"readLater", checked_readLater},
    {"readInto", checked_readInto},
    {"codeText", checked_codeText},
    {"refusalExplain", checked_refusalExplain},
    {"closeMap", checked_closeMap},
    {"closeTable", checked_closeTable},
    {"closeInners", checked_closeInners},
    {"lookUp", look_up},
    {"lookUpMany", checked_lookUpMany},
    {"generated", checked_generated},
    {"generatedSpans", checked_generatedSpans},
    {"mappings", checked_mappings},
    {"listMappings", checked_listMappings},
    {"nextMappings", checked_nextMappings},
    {"encode", checked_encode},
    {"bytesBySource", checked_bytesBySource},
    {"fit", checked_fit},
    {"members", checked_members},
    {"outline", checked_outline},
    {"withGenerated", checked_withGenerated},
    {"functionName", checked_functionName},
    {"counts", checked_counts},
    {"size", checked_size},
    {"usePaths", checked_usePaths},
    {"standAt", checked_standAt},
    {"sourceName", checked_sourceName},
    {"sourceContent", checked_sourceContent},
    {"isIgnored", checked_isIgnored},
    {"sourceLines", checked_sourceLines},
    {"name", checked_name},
    {"file", checked_file},
    {"write", checked_write},
    {"compose", checked_compose},
    {"newInners", checked_newInners},
    {"putInner", checked_putInner},
    {"nextInner", checked_nextInner},
    {"innerName", checked_innerName},
    {"composeAll", checked_composeAll},
    {"newTable", checked_newTable},
    {"add", checked_add},
    {"isBadUrl", checked_isBadUrl},
    {"put", checked_put},
    {"putNone", checked_putNone},
    {"forget", checked_forget},
    {"tableCounts", checked_tableCounts},
    {"findPlace", checked_findPlace},
    {"wanted", checked_wanted},
    {"keyOfMap", checked_keyOfMap},
    {"mapAt", checked_mapAt},
    {"newRewriting", checked_newRewriting},
    {"give", checked_give},
    {"run", checked_run},
    {"takeText", checked_takeText},
    {"stripped", checked_stripped},
    {"locations", checked_locations},
    {"folderPath", checked_folderPath},
    {"isPath", checked_isPath},
};
