/* Where the parts of a JSON text stand that was read, without a copy of it. */
#include "addon.h"
#include <stdio.h>
#include <stdlib.h>
#include <string.h>

/* A text, and where this is in it. A text that was read is in order; of another one no byte past its end is looked at. */
struct cursor { const uint8_t *text; size_t length, at; };

static void pass(struct cursor *cursor, const char *bytes) {
    while (cursor->at < cursor->length && cursor->text[cursor->at] && strchr(bytes, cursor->text[cursor->at])) cursor->at++;
}

/* A string ends at the first quote with no backslash before it, or an even number of them. */
static void pass_string(struct cursor *cursor) {
    size_t begin = cursor->at + 1, from = begin;
    cursor->at = cursor->length;
    while (from < cursor->length) {
        const uint8_t *quote = memchr(cursor->text + from, '"', cursor->length - from);
        if (!quote) return;
        size_t end = (size_t)(quote - cursor->text), back = end;
        while (back > begin && cursor->text[back - 1] == '\\') back--;
        from = end + 1;
        if ((end - back) % 2) continue;
        cursor->at = from;
        return;
    }
}

/* A value ends with its string or its last bracket, or before what stands behind a word. */
static void pass_value(struct cursor *cursor) {
    for (size_t depth = 0; cursor->at < cursor->length;) {
        uint8_t byte = cursor->text[cursor->at];
        bool opens = byte == '{' || byte == '[', closes = byte == '}' || byte == ']';
        if (!depth && (closes || byte == ',' || byte <= ' ')) return;
        if (byte == '"') pass_string(cursor);
        else cursor->at++;
        depth += opens, depth -= closes;
        if (!depth && (closes || byte == '"')) return;
    }
}

#define EACH 4

/* Puts where a part begins and ends at the end of the parts. */
static bool put_part(struct parts *parts, size_t begin, size_t end) {
    if (parts->count == parts->room) {
        uint32_t *larger = realloc(parts->numbers, (parts->room = parts->room * 2 + 16 * EACH) * sizeof *larger);
        if (!larger) return false;
        parts->numbers = larger;
    }
    parts->numbers[parts->count++] = (uint32_t)begin;
    parts->numbers[parts->count++] = (uint32_t)end;
    return true;
}

bool find_parts(const uint8_t *text, size_t length, size_t at, struct parts *parts) {
    struct cursor cursor = {text, length, at};
    pass(&cursor, " \t\r\n");
    bool is_object = cursor.at < cursor.length && cursor.text[cursor.at] == '{', whole = true;
    for (cursor.at++; whole;) {
        pass(&cursor, " \t\r\n,");
        if (cursor.at >= cursor.length || strchr("}]", cursor.text[cursor.at])) break;
        size_t key = cursor.at;
        if (is_object) pass_string(&cursor);
        whole = put_part(parts, key, cursor.at);
        if (is_object) pass(&cursor, " \t\r\n:");
        size_t value = cursor.at;
        pass_value(&cursor);
        if (cursor.at == value) break;
        whole = whole && put_part(parts, value, cursor.at);
    }
    return whole;
}

napi_value array_of_parts(napi_env env, const struct parts *parts) {
    napi_value array = NULL, buffer;
    void *place;
    size_t bytes = parts->count * sizeof *parts->numbers;
    if (napi_create_arraybuffer(env, bytes, &place, &buffer) != napi_ok ||
        napi_create_typedarray(env, napi_uint32_array, parts->count, buffer, 0, &array) != napi_ok)
        return refuse(env, "out of memory");
    if (bytes) memcpy(place, parts->numbers, bytes);
    return array;
}

/* What else is kept of a map's text: its values that a TraceMap has. */
enum { SOURCES, SOURCE_ROOT, IGNORED, IGNORED_BY_OTHERS, CONTENTS, MAPPINGS, SECTIONS, KEYS };
static const char *const keys[KEYS] = {"\"sources\"", "\"sourceRoot\"", "\"ignoreList\"", "\"x_google_ignoreList\"", "\"sourcesContent\"", "\"mappings\"", "\"sections\""};

/* Where the values of a map's keys stand; a null is as not there. Whether they are found so: no key is escaped. */
static bool find_values(const uint8_t *text, const struct parts *parts, smap_text *values) {
    const uint32_t *part = parts->numbers;
    for (size_t i = 0; i + 3 < parts->count; i += 4, part += 4) {
        size_t length = part[1] - part[0];
        if (memchr(text + part[0], '\\', length)) return false;
        for (int key = 0; key < KEYS; key++) {
            if (length != strlen(keys[key]) || memcmp(text + part[0], keys[key], length)) continue;
            bool is_null = part[3] - part[2] == 4 && !memcmp(text + part[2], "null", 4);
            values[key] = (smap_text){text + part[2], is_null ? 0 : part[3] - part[2]};
        }
    }
    return true;
}

/* How many lines begin in a quoted text of mappings behind its last segment. */
static size_t lines_behind(smap_text quoted) {
    size_t lines = 0;
    for (size_t at = quoted.length - 1; at > 1 && strchr(";,", quoted.bytes[at - 1]); at--) lines += quoted.bytes[at - 1] == ';';
    return lines;
}

bool outline_of(const uint8_t *text, size_t length, char **outline, size_t *bytes) {
    struct parts members = {0}, contents = {0};
    smap_text values[KEYS] = {{0}};
    const uint8_t *end;
    *outline = NULL;
    size_t at = text[0] == 0xef ? 3 : 0;
    if (text[at] == ')' && (end = memchr(text + at, '\n', length - at))) at = (size_t)(end - text);
    bool whole = find_parts(text, length, at, &members);
    bool is_found = whole && find_values(text, &members, values) && !values[SECTIONS].length && values[MAPPINGS].length > 1 &&
                    !memchr(values[MAPPINGS].bytes, '\\', values[MAPPINGS].length);
    free(members.numbers);
    if (!is_found) return whole;
    if (!values[IGNORED].length) values[IGNORED] = values[IGNORED_BY_OTHERS];
    if (values[CONTENTS].length) whole = find_parts(values[CONTENTS].bytes, values[CONTENTS].length, 0, &contents);
    free(contents.numbers);
    *bytes = 0;
    for (int key = SOURCES; key <= IGNORED; key++) *bytes += values[key].length;
    const size_t room = *bytes + 160;
    char *out = whole ? malloc(room) : NULL;
    if (!out) return false;
    size_t used = (size_t)snprintf(out, room, "{\"behind\":%zu", lines_behind(values[MAPPINGS]));
    if (values[CONTENTS].length) used += (size_t)snprintf(out + used, room - used, ",\"contents\":%zu", contents.count / EACH);
    for (int key = SOURCES; key <= IGNORED; key++)
        if (values[key].length)
            used += (size_t)snprintf(out + used, room - used, ",%s:%.*s", keys[key], (int)values[key].length, (const char *)values[key].bytes);
    snprintf(out + used, room - used, "}");
    *outline = out;
    return true;
}

/* outline(bytes, numbers): what a TraceMap has of the text of a regular map beside the library's, as JSON, and how many bytes of the text
 * that is, in a Float64Array; or null where that is not found so. */
napi_value outline(napi_env env, smap_text text, double *numbers) {
    size_t kept = 0;
    char *found = NULL;
    /* No map has less. */
    if (text.length < 4) return null(env);
    if (!outline_of(text.bytes, text.length, &found, &kept)) return refuse(env, "out of memory");
    numbers[0] = (double)kept;
    napi_value result = found ? string(env, (smap_text){(const uint8_t *)found, strlen(found)}) : null(env);
    free(found);
    return result;
}

/* members(bytes, at): of the object or the list that begins at this byte, or behind blanks, where each key and its value begin
 * and end; in a list the keys have no byte. Four numbers each, as a Uint32Array. */
napi_value members(napi_env env, smap_text text, uint32_t at) {
    struct parts parts = {0};
    bool whole = find_parts(text.bytes, text.length, at, &parts);
    napi_value array = whole ? array_of_parts(env, &parts) : refuse(env, "out of memory");
    free(parts.numbers);
    return array;
}
