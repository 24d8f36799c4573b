/* The library in C at the ends of what its numbers hold: limits. It needs some 3 GiB of memory. */
#include <smap.h>
#include <stdio.h>
#include <stdlib.h>
#include <string.h>
#include <sys/mman.h>

/* Line 0 has a mapping at column 0 and one at 10 with a name, line 1 none, and line 2 one at 5 without an original. */
static const char small[] = "{\"version\":3,\"sources\":[\"a.js\"],\"names\":[\"n\"],\"mappings\":\"AAAA,UACIA;;K\"}";
static const size_t most_trace_bytes = 1073741824, most_generated_bytes = 67108864;

static int reported;

static void insist(bool holds, const char *what) {
    if (!holds) {
        fprintf(stderr, "limits: %s\n", what);
        exit(9);
    }
    reported++;
}

static uint32_t read_small(const char *base, size_t base_length, uint32_t interval, smap_map *map, smap_refusal *refusal) {
    return smap_map_read((const uint8_t *)small, strlen(small), (const uint8_t *)base, base_length, interval, map, refusal);
}

static smap_map opened(void) {
    smap_map map = {0};
    smap_refusal refusal = {0};
    insist(read_small("", 0, 64, &map, &refusal) == SMAP_DONE, "a map");
    return map;
}

static bool is(const smap_found *found, uint32_t kind, uint32_t generated_column, uint32_t line, uint32_t column, uint32_t named) {
    return found->kind == kind && found->generated_column == generated_column && found->source == 0 && found->line == line &&
           found->column == column && found->named == named && found->name == 0;
}

static void look_ups(void) {
    smap_map map = opened();
    const smap_position positions[] = {{0, 12}, {0, UINT32_MAX}, {1, UINT32_MAX}, {2, UINT32_MAX}, {UINT32_MAX, 0}, {UINT32_MAX, UINT32_MAX}};
    smap_found many[6] = {{0}};
    insist(smap_look_up_many(&map, positions, 6, many, 6) == SMAP_DONE, "many");
    for (int i = 0; i < 6; i++) {
        smap_found found = {9, 9, 9, 9, 9, 9, 9}, from = {9, 9, 9, 9, 9, 9, 9};
        insist(smap_look_up(&map, positions[i].line, positions[i].column, &found) == SMAP_DONE, "a look-up");
        insist(is(&found, i < 2 ? 2 : i == 3 ? 1 : 0, i < 2 ? 10 : i == 3 ? 5 : 0, i < 2, i < 2 ? 4 : 0, i < 2), "its answer");
        insist(!memcmp(&found, &many[i], sizeof found), "the answer of many");
        insist(smap_look_up_from(&map, positions[i].line, positions[i].column, &from) == SMAP_DONE, "a look-up from");
        insist(is(&from, 0, 0, 0, 0, 0), "its answer from");
    }
    insist(smap_look_up_many(&map, positions, 0, many, 0) == SMAP_DONE, "none");
    smap_map_free(&map);
}

static void texts(void) {
    smap_map map = opened();
    for (uint32_t index = 0; index < 4; index++) {
        const uint32_t past[] = {1, 2147483647, 2147483648, UINT32_MAX};
        smap_source_text source = SMAP_SOURCE;
        smap_text text = SMAP_TEXT;
        insist(smap_source(&map, past[index], &source) == SMAP_REFUSED && source.name.length == 0, "a source past the last");
        insist(smap_name(&map, past[index], &text) == SMAP_REFUSED && text.length == 0, "a name past the last");
    }
    smap_map other = opened();
    smap_bytes bytes = {0};
    smap_code why = 0;
    insist(smap_compose(&map, UINT32_MAX, &other, &bytes, &why) == SMAP_REFUSED && why == SMAP_CODE_C1 && !bytes.at, "C1");
    smap_map_free(&map);
    smap_map_free(&other);
}

static void reading(void) {
    const uint32_t intervals[] = {0, 1, 4096, 4097, 2147483648, UINT32_MAX};
    for (int i = 0; i < 6; i++) {
        smap_map map = {0};
        smap_refusal refusal = {0};
        uint32_t status = read_small("", 0, intervals[i], &map, &refusal);
        if (i == 1 || i == 2) {
            insist(status == SMAP_DONE, "an interval");
            smap_map_free(&map);
        } else {
            insist(status == SMAP_REFUSED && refusal.code == SMAP_CODE_M15 && refusal.cause == SMAP_CODE_B1 && !map.at, "no interval");
        }
    }
    const size_t length = 1 << 20;
    char *base = malloc(length);
    memset(base, 'x', length);
    smap_map map = {0};
    smap_refusal refusal = {9, 9, 9, 9, 9, 9};
    insist(read_small(base, length, 64, &map, &refusal) == SMAP_REFUSED && refusal.code == SMAP_CODE_USAGE && !map.at, "a long base that is no URL");
    memcpy(base, "https://e.test/", 15);
    insist(read_small(base, length, 64, &map, &refusal) == SMAP_DONE, "a long base");
    smap_source_text source = SMAP_SOURCE;
    insist(smap_source(&map, 0, &source) == SMAP_DONE && source.name.length == 19, "a source at a long base");
    insist(!memcmp(source.name.bytes, "https://e.test/a.js", 19), "its name");
    smap_map_free(&map);
    free(base);
    const smap_code others[] = {0, SMAP_CODE_M17, SMAP_CODE_F1, SMAP_CODE_U1, SMAP_CODE_USAGE, SMAP_CODE_REFUSED + 1, UINT32_MAX};
    for (size_t i = 0; i < sizeof others / sizeof *others; i++) {
        smap_refusal other = {.code = others[i]};
        smap_bytes bytes = {0};
        smap_reason reason = {9, 9, 9, 9, 9, 9, 9, 9};
        insist(smap_refusal_explain((const uint8_t *)"", 0, &other, &reason, &bytes) == SMAP_REFUSED && !bytes.at, "why no refusal");
        insist(reason.value == 9 && reason.generated_column == 9 && reason.has_column == 9, "nothing is written");
    }
}

/* A map whose first segment is at fault: the value, its limits and the column. */
static void is_reason(const char *mappings, smap_code fault, int64_t value, int64_t least, int64_t most, uint64_t column, uint32_t has_column) {
    char file[200];
    const int length = snprintf(file, sizeof file, "{\"version\":3,\"sources\":[\"a.js\"],\"names\":[],\"mappings\":\"%s\"}", mappings);
    smap_map map = {0};
    smap_refusal refusal = {0};
    smap_reason reason = {0};
    smap_bytes text = {0};
    insist(smap_map_read((const uint8_t *)file, (size_t)length, (const uint8_t *)"", 0, 64, &map, &refusal) == SMAP_REFUSED, "a refused map");
    insist(refusal.cause == fault, "its fault");
    insist(smap_refusal_explain((const uint8_t *)file, (size_t)length, &refusal, &reason, &text) == SMAP_DONE, "why it is refused");
    smap_bytes_free(&text);
    insist(reason.has_value == 1 && reason.has_least == 1 && reason.has_most == 1 && reason.has_column == has_column, "what is known");
    insist(reason.value == value && reason.least == least && reason.most == most && reason.generated_column == column, "the numbers");
}

static void reasons(void) {
    is_reason("D", SMAP_CODE_F7, -1, 0, 2147483647, 0, 0);
    is_reason("+/////D,C", SMAP_CODE_F8, 2147483648, 0, 2147483647, 2147483648, 1);
    is_reason("C,D", SMAP_CODE_F9, 0, 1, 2147483647, 0, 1);
    is_reason("ECAA", SMAP_CODE_F10, 1, 0, 0, 2, 1);
    is_reason("EAAAA", SMAP_CODE_F11, 0, 0, -1, 2, 1);
}

/* A place stands behind so many bytes of its line. */
static void long_line(smap_table *table, size_t before) {
    static const char place[] = " a.js:1:11", original[] = " a.js:2:5";
    const size_t length = before + strlen(place);
    uint8_t *line = malloc(length);
    memset(line, 'x', before);
    memcpy(line + before, place, strlen(place));
    smap_bytes bytes = {0};
    smap_trace_count count = {9, 9, 9, 9};
    smap_text text = SMAP_TEXT;
    insist(smap_rewrite_anywhere(table, line, length, &bytes, &count) == SMAP_DONE, "a place in a long line");
    insist(count.lines == 1 && count.frames == 1 && count.mapped == 1 && count.hidden == 0, "its count");
    insist(smap_bytes_text(&bytes, &text) == SMAP_DONE && text.length == before + strlen(original), "the original's length");
    insist(!memcmp(text.bytes, line, before) && !memcmp(text.bytes + before, original, strlen(original)), "the original");
    smap_bytes_free(&bytes);
    free(line);
}

static void traces(void) {
    smap_table table = {0};
    smap_map map = opened();
    uint32_t why = 0;
    insist(smap_table_new(&table) == SMAP_DONE, "a table");
    insist(smap_table_add(&table, (const uint8_t *)"a.js", 4, &map, &why) == SMAP_DONE, "a map in it");
    /* A page that is only read takes no memory. */
    const uint8_t *zeros = mmap(NULL, most_trace_bytes + 1, PROT_READ, MAP_PRIVATE | MAP_ANONYMOUS | MAP_NORESERVE, -1, 0);
    insist(zeros != MAP_FAILED, "a long trace");
    smap_bytes bytes = {0};
    smap_trace_count count = {9, 9, 9, 9};
    insist(smap_rewrite(&table, zeros, most_trace_bytes + 1, false, &bytes, &count) == SMAP_REFUSED, "X3");
    insist(!bytes.at, "no bytes");
    insist(smap_rewrite(&table, zeros, most_trace_bytes, false, &bytes, &count) == SMAP_DONE, "the longest trace");
    insist(count.lines == 1 && count.frames == 0 && count.mapped == 0 && count.hidden == 0, "its counts");
    smap_text text = SMAP_TEXT;
    insist(smap_bytes_text(&bytes, &text) == SMAP_DONE && text.length == most_trace_bytes, "its length");
    insist(!memcmp(text.bytes, zeros, most_trace_bytes), "its bytes");
    smap_bytes_free(&bytes);
    insist(smap_rewrite(&table, zeros, 0, false, &bytes, &count) == SMAP_DONE && count.lines == 0, "no trace");
    smap_bytes_free(&bytes);
    insist(smap_rewrite_anywhere(&table, zeros, most_trace_bytes + 1, &bytes, &count) == SMAP_REFUSED, "X3 of a text");
    insist(smap_rewrite_anywhere(&table, zeros, most_trace_bytes, &bytes, &count) == SMAP_DONE, "the longest text");
    insist(count.lines == 1 && count.frames == 0 && count.mapped == 0 && count.hidden == 0, "the counts of the longest text");
    insist(smap_bytes_text(&bytes, &text) == SMAP_DONE && text.length == most_trace_bytes, "the length of the longest text");
    insist(!memcmp(text.bytes, zeros, most_trace_bytes), "the bytes of the longest text");
    smap_bytes_free(&bytes);
    insist(smap_rewrite_anywhere(&table, zeros, 0, &bytes, &count) == SMAP_DONE && count.lines == 0, "no text");
    smap_bytes_free(&bytes);
    for (size_t before = 65500; before < 65600; before++) long_line(&table, before);
    long_line(&table, 1 << 24);
    smap_frame_url found = {9, 9, 9};
    insist(smap_next_frame_url(zeros, most_trace_bytes, 0, &found) == SMAP_REFUSED, "no frame");
    insist(smap_next_frame_url(zeros, 0, 0, &found) == SMAP_REFUSED, "no frame in no trace");
    insist(smap_next_frame_url(zeros, 5, SIZE_MAX, &found) == SMAP_REFUSED, "no frame past the end");
    insist(found.start == 9 && found.length == 9 && found.next == 9, "nothing found");
    smap_url_finder finder = {0};
    smap_place_url place = {9, 9, 9, 9};
    insist(smap_url_finder_new(&finder) == SMAP_DONE, "a finder");
    insist(smap_next_place_url(&finder, zeros, most_trace_bytes, 0, &place) == SMAP_REFUSED, "no place");
    insist(smap_next_place_url(&finder, zeros, 0, 0, &place) == SMAP_REFUSED, "no place in no text");
    insist(smap_next_place_url(&finder, zeros, 5, SIZE_MAX, &place) == SMAP_REFUSED, "no place past the end");
    insist(place.start == 9 && place.length == 9 && place.next == 9 && place.halved == 9, "no place found");
    smap_url_finder_free(&finder);
    smap_table_free(&table);
}

static void generated_files(void) {
    smap_map map = opened();
    const uint8_t *zeros = mmap(NULL, most_generated_bytes + 1, PROT_READ, MAP_PRIVATE | MAP_ANONYMOUS | MAP_NORESERVE, -1, 0);
    insist(zeros != MAP_FAILED, "a long file");
    uint64_t source = 9, unmapped = 9;
    smap_code why = 9;
    insist(smap_bytes_by_source(&map, zeros, most_generated_bytes + 1, &source, 1, &unmapped, &why) == SMAP_REFUSED, "a file that is too long");
    insist(why == SMAP_CODE_M1 && source == 9 && unmapped == 9, "why it is");
    insist(smap_bytes_by_source(&map, (const uint8_t *)"\xff", 1, &source, 1, &unmapped, &why) == SMAP_REFUSED, "a file that is no text");
    insist(why == SMAP_CODE_NOT_UTF8 && source == 9 && unmapped == 9, "why it is none");
    insist(smap_bytes_by_source(&map, zeros, most_generated_bytes, &source, 1, &unmapped, &why) == SMAP_DONE, "the longest file");
    insist(why == SMAP_CODE_NOT_UTF8 && source == most_generated_bytes && unmapped == 0, "its bytes");
    insist(smap_bytes_by_source(&map, zeros, 0, &source, 1, &unmapped, &why) == SMAP_DONE && source == 0 && unmapped == 0, "no file");
    smap_fit_count fit = {.mappings = 9};
    insist(smap_fit(&map, zeros, most_generated_bytes + 1, &fit, &why) == SMAP_REFUSED && why == SMAP_CODE_M1, "a file that is too long for a fit");
    insist(smap_fit(&map, (const uint8_t *)"\xff", 1, &fit, &why) == SMAP_REFUSED && why == SMAP_CODE_NOT_UTF8, "a file that is no text for a fit");
    insist(fit.mappings == 9, "no counts");
    insist(smap_fit(&map, zeros, most_generated_bytes, &fit, &why) == SMAP_DONE && fit.past == 1 && fit.inside == 0, "a fit of the longest file");
    smap_map_free(&map);
}

/* `fe` was written as `main`, and `b` as it is; `c` is a property. The map is free before its names are. */
static void names(void) {
    static const char file[] = "function fe(){throw x}function b(){}o.c=()=>{}";
    static const char text[] = "{\"version\":3,\"sources\":[\"a.ts\"],\"names\":[\"main\"],\"mappings\":\"SAAAA,sBAAA\"}";
    static const struct { const char *function; uint32_t column; const char *name; } asked[] = {
        {"fe", 14, "main"}, {"async fe", 14, "main"}, {"new fe", 9, "main"}, {"b", 35, "b"}, {"fe", 8, NULL}, {"fe", 30, NULL}, {"c", 45, NULL},
        {"Object.fe", 14, NULL}, {"<anonymous>", 14, NULL}, {"\xff", 14, NULL}, {"", 14, NULL}, {"b", UINT32_MAX, NULL},
    };
    smap_map map = {0};
    smap_refusal refusal = {0};
    insist(smap_map_read((const uint8_t *)text, sizeof text - 1, (const uint8_t *)"", 0, 64, &map, &refusal) == SMAP_DONE, "a map with a name");
    smap_names names = {0};
    smap_code why = 9;
    insist(smap_names_new(&map, (const uint8_t *)"\xff", 1, &names, &why) == SMAP_REFUSED && why == SMAP_CODE_NOT_UTF8, "a file that is no text for names");
    insist(smap_names_new(&map, (const uint8_t *)file, 30, &names, &why) == SMAP_REFUSED && why == SMAP_CODE_A4, "the file of another map");
    insist(smap_names_new(&map, (const uint8_t *)file, sizeof file - 1, &names, &why) == SMAP_DONE && why == SMAP_CODE_A4, "names");
    smap_map_free(&map);
    for (size_t i = 0; i < sizeof asked / sizeof *asked; i++) {
        smap_text name = SMAP_TEXT;
        uint32_t status = smap_name_of(&names, (const uint8_t *)asked[i].function, strlen(asked[i].function), 0, asked[i].column, &name);
        insist(status == (asked[i].name ? SMAP_DONE : SMAP_REFUSED), asked[i].function);
        insist(name.length == (asked[i].name ? strlen(asked[i].name) : 0), asked[i].function);
        insist(!name.length || !memcmp(name.bytes, asked[i].name, name.length), asked[i].function);
    }
    smap_names_free(&names);
}

/* An id that is no text, or that would go into no text. */
static void debug_ids(void) {
    smap_map map = opened();
    smap_table table = {0};
    smap_bytes bytes = {0}, none = {0};
    smap_text before = SMAP_TEXT, after = SMAP_TEXT;
    smap_trace_count count = {9, 9, 9, 9};
    insist(smap_map_write(&map, &bytes) == SMAP_DONE && smap_bytes_text(&bytes, &before) == SMAP_DONE, "a written map");
    insist(smap_bytes_put_debug_id(&bytes, (const uint8_t *)"a\xff", 2) == SMAP_REFUSED, "an id that is no text");
    insist(smap_bytes_text(&bytes, &after) == SMAP_DONE && after.length == before.length && after.bytes[after.length - 1] == '}', "the map stays");
    insist(smap_table_new(&table) == SMAP_DONE, "a table");
    insist(smap_rewrite(&table, (const uint8_t *)"", 0, false, &none, &count) == SMAP_DONE, "an empty text");
    insist(smap_bytes_put_debug_id(&none, (const uint8_t *)"a", 1) == SMAP_REFUSED, "an id for an empty text");
    insist(smap_bytes_text(&none, &after) == SMAP_DONE && after.length == 0, "it stays empty");
    insist(smap_bytes_put_debug_id(&bytes, (const uint8_t *)"", 0) == SMAP_DONE, "an empty id");
    insist(smap_bytes_text(&bytes, &after) == SMAP_DONE && !memcmp(after.bytes + after.length - 14, ",\"debugId\":\"\"}", 14), "it is written");
    smap_bytes_free(&bytes);
    smap_bytes_free(&none);
    smap_table_free(&table);
    smap_map_free(&map);
}

int main(void) {
    look_ups();
    debug_ids();
    generated_files();
    names();
    texts();
    reading();
    reasons();
    traces();
    printf("limits %d\n", reported);
    return 0;
}
