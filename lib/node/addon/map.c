/* A map of the library: it is read, and what it holds is handed out. */
#include "addon.h"
#include <stdlib.h>

/* About how many bytes the map of a file of this length has. */
static int64_t size_of(size_t length, const smap_count *count) {
    return (int64_t)(length + 32 * (count->checkpoints + count->sources + count->names) + 8 * count->lines);
}

napi_value text_taken(napi_env env, smap_bytes *bytes) {
    smap_text text = SMAP_TEXT;
    if (!bytes->at) return NULL;
    smap_bytes_text(bytes, &text);
    napi_value value = string(env, text);
    smap_bytes_free(bytes);
    bytes->at = NULL;
    return value;
}

napi_value object_of_map(napi_env env, struct held *held, size_t length, smap_bytes *id) {
    smap_count count = {0};
    smap_counts(&held->map, &count);
    const bool has_id = id->at;
    napi_value object = object_of(env, held, size_of(length, &count)), text = text_taken(env, id);
    return object && (!has_id || define(env, object, "debugId", text)) ? object : NULL;
}

uint32_t read_so(smap_text bytes, smap_text base, bool or_at_none, uint32_t interval, uint64_t most, smap_map *map, smap_bytes *id,
                 smap_refusal *refusal) {
    uint32_t has_id = 0;
    uint32_t status = smap_map_read_with_id(bytes.bytes, bytes.length, base.bytes, base.length, interval, most, map, id, &has_id, refusal);
    if (status != SMAP_REFUSED || refusal->code != SMAP_CODE_USAGE || !or_at_none) return status;
    return smap_map_read_with_id(bytes.bytes, bytes.length, (const uint8_t *)nothing, 0, interval, most, map, id, &has_id, refusal);
}

/* read(bytes, base, orAtNone, interval, mostNames, refusal): a map, the names of whose sources may have so many bytes together, with its
 * `debugId`, if it has one; or null, with the numbers of the refusal in a Float64Array of 6. */
napi_value read_map(napi_env env, smap_text bytes, smap_text base, bool or_at_none, uint32_t interval, uint64_t most,
                    double *numbers) {
    sweep(env, addon_of(env));
    struct held *held = calloc(1, sizeof *held);
    if (!held) return refuse(env, "out of memory");
    smap_refusal refusal = {0};
    smap_bytes id = {0};
    uint32_t status = read_so(bytes, base, or_at_none, interval, most, &held->map, &id, &refusal);
    if (status != SMAP_DONE) {
        free(held);
        if (status != SMAP_REFUSED) return refuse(env, "out of memory");
        put_refusal(&refusal, numbers);
        return null(env);
    }
    return object_of_map(env, held, bytes.length, &id);
}

napi_value counts(napi_env env, struct held *held) {
    napi_value result;
    smap_count count = {0};
    smap_counts(&held->map, &count);
    const char *names[] = {"sections", "sources", "names", "segments", "lines", "checkpoints"};
    const uint64_t values[] = {count.sections, count.sources, count.names, count.segments, count.lines, count.checkpoints};
    if (napi_create_object(env, &result) != napi_ok) return refuse(env, "out of memory");
    for (int i = 0; i < 6; i++)
        if (!define(env, result, names[i], number(env, (double)values[i]))) return NULL;
    return result;
}

/* size(map): about how many bytes of memory it takes, with what its generated file declares if that was read, and its index of originals if
 * that was made. */
napi_value size(napi_env env, struct held *held) {
    uint64_t bytes = 0, declared = 0;
    smap_map_size(&held->map, &bytes);
    if (held->names.at) smap_names_size(&held->names, &declared);
    bytes += declared;
    if (held->originals.at) {
        smap_count count = {0};
        smap_counts(&held->map, &count);
        bytes += 16 * count.segments + 24 * count.sources;
    }
    return number(env, (double)bytes);
}

/* withGenerated(map, generated): reads what the generated file declares, in place of what was read before; or the code of why not. */
napi_value with_generated(napi_env env, struct held *held, smap_text generated) {
    smap_names names = {0};
    smap_code why = 0;
    uint32_t status = smap_names_new(&held->map, generated.bytes, generated.length, &names, &why);
    if (status == SMAP_REFUSED) return number(env, why);
    if (status != SMAP_DONE) return refuse(env, "out of memory");
    if (held->names.at) smap_names_free(&held->names);
    held->names = names;
    /* A name is declared in each 64 bytes or so of a minified file. */
    const int64_t named = (int64_t)(generated.length / 2), size = held->size + named - held->named;
    held->named = named;
    report_size(env, held, size);
    return NULL;
}

/* functionName(map, line, column, function): the name of a function, or null. */
napi_value function_name(napi_env env, struct held *held, uint32_t line, uint32_t column, smap_text function) {
    smap_text name = SMAP_TEXT;
    if (!held->names.at) return refuse(env, "no generated file was given");
    return smap_name_of(&held->names, function.bytes, function.length, line, column, &name) == SMAP_DONE ? string(env, name) : null(env);
}

/* usePaths(map, url): names the sources by the URL, where that is a path with a folder; whether no other holds the map. */
napi_value use_paths(napi_env env, struct held *held, smap_text url) {
    napi_value alone;
    uint32_t status = smap_map_use_paths(&held->map, url.bytes, url.length);
    if (status == SMAP_NO_MEMORY) return refuse(env, "out of memory");
    return napi_get_boolean(env, status == SMAP_DONE, &alone) == napi_ok ? alone : NULL;
}

/* standAt(map, path, mostNames, refusal): names the sources by the path at which the map stands; or false, with the numbers of the
 * refusal. No other holds the map. */
napi_value stand_at(napi_env env, struct held *held, smap_text path, uint64_t most, double *numbers) {
    napi_value done;
    smap_refusal refusal = {0};
    uint32_t status = smap_map_stand_at(&held->map, path.bytes, path.length, most, &refusal);
    if (status == SMAP_NO_MEMORY) return refuse(env, "out of memory");
    if (status == SMAP_REFUSED) put_refusal(&refusal, numbers);
    return napi_get_boolean(env, status == SMAP_DONE, &done) == napi_ok ? done : NULL;
}

/* The source of this number. */
static bool source_of(napi_env env, struct held *held, uint32_t index, smap_source_text *source) {
    if (smap_source(&held->map, index, source) == SMAP_DONE) return true;
    refuse_range(env, "no such source");
    return false;
}

/* sourceName(map, index), sourceContent(map, index): a text, or null; isIgnored(map, index): whether it is. */
napi_value source_name(napi_env env, struct held *held, uint32_t index) {
    smap_source_text source = SMAP_SOURCE;
    if (!source_of(env, held, index, &source)) return NULL;
    return source.named ? string(env, source.name) : null(env);
}

napi_value source_content(napi_env env, struct held *held, uint32_t index) {
    smap_source_text source = SMAP_SOURCE;
    if (!source_of(env, held, index, &source)) return NULL;
    return source.held ? string(env, source.content) : null(env);
}

napi_value is_ignored(napi_env env, struct held *held, uint32_t index) {
    smap_source_text source = SMAP_SOURCE;
    napi_value ignored;
    if (!source_of(env, held, index, &source) || napi_get_boolean(env, source.ignored != 0, &ignored) != napi_ok) return NULL;
    return ignored;
}

/* The lines of a content that stand in this range as texts, behind the number of those before this line. */
static napi_value lines_of(napi_env env, smap_text content, const smap_line_bytes *lines, smap_line_range range, uint32_t line) {
    napi_value *values = calloc(range.count + 1, sizeof *values);
    if (!values) return refuse(env, "out of memory");
    values[0] = number(env, line - range.first);
    for (size_t i = 0; i < range.count; i++)
        values[i + 1] = string(env, (smap_text){content.bytes + lines[i].start, lines[i].length});
    napi_value list = list_of(env, values, range.count + 1);
    free(values);
    return list;
}

/* sourceLines(map, index, line, before, after): the lines around this line of a source, with before them the place of it among them; or
 * null. */
napi_value source_lines(napi_env env, struct held *held, uint32_t index, uint32_t line, uint32_t before, uint32_t after) {
    smap_source_text source = SMAP_SOURCE;
    if (!source_of(env, held, index, &source)) return NULL;
    size_t places = (size_t)before + 1 + after;
    smap_line_bytes *lines = calloc(places, sizeof *lines);
    smap_line_range range = {0};
    if (!lines) return refuse(env, "out of memory");
    bool is = smap_source_lines(&held->map, index, line, before, after, lines, places, &range) == SMAP_DONE;
    napi_value list = is ? lines_of(env, source.content, lines, range, line) : null(env);
    free(lines);
    return list;
}

napi_value name(napi_env env, struct held *held, uint32_t index) {
    smap_text text = SMAP_TEXT;
    return smap_name(&held->map, index, &text) == SMAP_DONE ? string(env, text) : null(env);
}

napi_value file(napi_env env, struct held *held) {
    smap_text text = SMAP_TEXT;
    return smap_file(&held->map, &text) == SMAP_DONE ? string(env, text) : null(env);
}

uint32_t with_id(uint32_t status, smap_bytes *bytes, bool has_id, smap_text id) {
    if (status != SMAP_DONE || !has_id) return status;
    if (smap_bytes_put_debug_id(bytes, id.bytes, id.length) == SMAP_DONE) return SMAP_DONE;
    smap_bytes_free(bytes);
    return SMAP_NO_MEMORY;
}

/* write(map, hasId, id): its text, with this debug id, if there is one; or null where it is refused. */
napi_value write_map(napi_env env, struct held *held, bool has_id, smap_text id) {
    smap_bytes bytes = {0};
    uint32_t status = with_id(smap_map_write(&held->map, &bytes), &bytes, has_id, id);
    if (status == SMAP_DONE) return buffer(env, &bytes);
    return status == SMAP_REFUSED ? null(env) : refuse(env, "out of memory");
}
