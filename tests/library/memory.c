/* Refuses each growth of each call of the library in turn: memory OUTER INNER, where OUTER is a map with an original of line
 * 65, column 80. A call then returns 3, and handles and all else
 * that it writes to are as they were; or it returns 0, with the answer that it has with ample memory. Nothing leaks. It is
 * linked with --wrap for the calls of the allocator below.
 */
#include <smap.h>
#include <stdio.h>
#include <stdlib.h>
#include <string.h>

void *__real_malloc(size_t size);
void *__real_realloc(void *at, size_t size);
void __real_free(void *at);
void *__wrap_malloc(size_t size);
void *__wrap_realloc(void *at, size_t size);
void *__wrap_calloc(size_t count, size_t size);
void *__wrap_aligned_alloc(size_t alignment, size_t size);
int __wrap_posix_memalign(void **at, size_t alignment, size_t size);
void __wrap_free(void *at);

static long live;             /* how many pieces of memory are held */
static long asked;            /* how many growths were asked for since `refuse_from` */
static long refused = -1;     /* which of them is refused, from 0, or -1 for none */
static bool refuses_all;

static bool is_refused(void) {
    long number = asked++;
    return refuses_all || number == refused;
}

void *__wrap_malloc(size_t size) {
    if (is_refused()) return NULL;
    void *at = __real_malloc(size);
    live += at != NULL;
    return at;
}

void *__wrap_realloc(void *at, size_t size) {
    if (is_refused()) return NULL;
    void *moved = __real_realloc(at, size);
    live += !at && moved;
    return moved;
}

void __wrap_free(void *at) {
    live -= at != NULL;
    __real_free(at);
}

static void fail(const char *call, const char *what) {
    fprintf(stderr, "memory: %s: %s, growth %ld\n", call, what, refused);
    exit(9);
}

/* The library asks for memory by malloc and realloc alone. */
void *__wrap_calloc(size_t count, size_t size) { (void)count, (void)size, fail("calloc", "is called"); return NULL; }
void *__wrap_aligned_alloc(size_t alignment, size_t size) { (void)alignment, (void)size, fail("aligned_alloc", "is called"); return NULL; }
int __wrap_posix_memalign(void **at, size_t alignment, size_t size) {
    (void)at, (void)alignment, (void)size, fail("posix_memalign", "is called");
    return 0;
}

struct text { uint8_t bytes[1 << 20]; size_t length; };

static struct text outer_file, inner_file, ample, now;

static void load(const char *path, struct text *text) {
    FILE *file = fopen(path, "rb");
    if (!file) fail(path, "is not there");
    text->length = fread(text->bytes, 1, sizeof text->bytes, file);
    fclose(file);
    if (text->length == sizeof text->bytes) fail(path, "is too long");
}

static const uint8_t base[] = "https://e.test/x/a.min.js";
static const uint8_t url[] = "https://e.test/a.min.js";
static const uint8_t trace[] = "Error: x\n    at f (https://e.test/a.min.js:65:80)\n    at g (https://e.test/none.js:1:1)\nlast";

/* What a call may write to, and what it is given. */
static smap_map outer, inner, made;
static smap_table table, made_table;
static smap_inners inners, made_inners;
static smap_names made_names;
static smap_url_finder made_finder;
static smap_bytes bytes;
static smap_refusal refusal;
static smap_reason reason;
static smap_trace_count count;
static uint64_t by_source[8], unmapped;
static smap_fit_count fit;
static smap_encode_refusal encode_refusal;
static smap_code why;
static uint32_t next_source;

static uint32_t read_map(smap_map *map, const struct text *file) {
    return smap_map_read(file->bytes, file->length, base, sizeof base - 1, 64, map, &refusal);
}

static uint32_t read_call(void) { return read_map(&made, &outer_file); }
static uint32_t refuse_call(void) { return smap_map_read((const uint8_t *)"{}", 2, base, sizeof base - 1, 64, &made, &refusal); }
static uint32_t explain_call(void) {
    static const char file[] = "{\"version\":3,\"sources\":[],\"mappings\":\"EACA\"}";
    const smap_refusal fault = {SMAP_CODE_M14, SMAP_CODE_F10, 0, 1, 0, 0};
    return smap_refusal_explain((const uint8_t *)file, sizeof file - 1, &fault, &reason, &bytes);
}
static uint32_t share_call(void) { return smap_map_share(&outer, &made); }
static uint32_t write_call(void) { return smap_map_write(&outer, &bytes); }
static uint32_t mappings_call(void) { return smap_map_mappings(&outer, &bytes); }
static uint32_t encode_call(void) {
    const smap_mapping mappings[] = {{0, 3, 1, 0, 0, 0, 0, 0}, {1, 0, 2, 1, 2, 3, 1, 4}};
    return smap_encode(mappings, 2, &bytes, &encode_refusal);
}
static uint32_t bytes_call(void) {
    smap_count held = {0};
    smap_counts(&outer, &held);
    if (held.sources > 8) fail("a map", "has too many sources");
    return smap_bytes_by_source(&outer, trace, sizeof trace - 1, by_source, held.sources, &unmapped, &why);
}
static uint32_t fit_call(void) { return smap_fit(&outer, trace, sizeof trace - 1, &fit, &why); }
/* A generated file whose function is called `main` in the source of the map that is named. */
static const char named_file[] = "function f(){g()}";
static smap_map named;
static uint32_t read_named(void) {
    static const char text[] = "{\"version\":3,\"sources\":[\"a.ts\"],\"names\":[\"main\"],\"mappings\":\"SAAAA\"}";
    return smap_map_read((const uint8_t *)text, sizeof text - 1, base, sizeof base - 1, 64, &named, &refusal);
}
static uint32_t names_call(void) { return smap_names_new(&named, (const uint8_t *)named_file, sizeof named_file - 1, &made_names, &why); }
static uint32_t compose_call(void) { return smap_compose(&outer, 0, &inner, &bytes, &why); }
static uint32_t inners_call(void) { return smap_inners_new(&outer, &made_inners); }
/* The places of all sources have maps: these are composed, and the first source behind them is asked for. */
static uint32_t next_call(void) { return smap_inners_next(&outer, &inners, &next_source, &why); }
static uint32_t all_call(void) {
    const smap_compose_options options = {.prune = true, .no_content = true};
    return smap_compose_all(&outer, &inners, &options, &bytes, &why);
}
static uint32_t new_call(void) { return smap_table_new(&made_table); }
static uint32_t finder_call(void) { return smap_url_finder_new(&made_finder); }
static uint32_t add_call(void) { return smap_table_add(&table, url, sizeof url - 1, &made, &why); }
static uint32_t add_shared_call(void) { return smap_table_add_shared(&table, url, sizeof url - 1, &outer, &why); }
static uint32_t pattern_call(void) { return smap_table_add(&table, (const uint8_t *)"*a.min.js", 9, &made, &why); }
static uint32_t twice_call(void) { return smap_table_add(&table, base, sizeof base - 1, &made, &why); }
static uint32_t rewrite_call(void) { return smap_rewrite(&table, trace, sizeof trace - 1, false, &bytes, &count); }
static uint32_t anywhere_call(void) { return smap_rewrite_anywhere(&table, trace, sizeof trace - 1, &bytes, &count); }
static uint32_t with_call(void) {
    const smap_rewrite_options options = {.strip_ansi = true, .cut = true};
    return smap_rewrite_with(&table, trace, sizeof trace - 1, &options, &bytes, &count);
}

/* Which handle a call fills, if it fills one; or it takes the map from `made`, and gives it back where it refuses. */
enum handle { FILLS_MAP, FILLS_TABLE, FILLS_INNERS, FILLS_FINDER, FILLS_NAMES, FILLS_BYTES, FILLS_NONE, TAKES_MAP };

static const struct call {
    const char *name;
    uint32_t (*make)(void);
    uint32_t wanted;   /* the status with ample memory */
    enum handle handle;
} calls[] = {
    {"smap_map_read", read_call, SMAP_DONE, FILLS_MAP},
    {"smap_map_read of what is refused", refuse_call, SMAP_REFUSED, FILLS_MAP},
    {"smap_map_share", share_call, SMAP_DONE, FILLS_MAP},
    {"smap_refusal_explain", explain_call, SMAP_DONE, FILLS_BYTES},
    {"smap_map_write", write_call, SMAP_DONE, FILLS_BYTES},
    {"smap_map_mappings", mappings_call, SMAP_DONE, FILLS_BYTES},
    {"smap_encode", encode_call, SMAP_DONE, FILLS_BYTES},
    {"smap_bytes_by_source", bytes_call, SMAP_DONE, FILLS_NONE},
    {"smap_fit", fit_call, SMAP_DONE, FILLS_NONE},
    {"smap_names_new", names_call, SMAP_DONE, FILLS_NAMES},
    {"smap_compose", compose_call, SMAP_DONE, FILLS_BYTES},
    {"smap_inners_new", inners_call, SMAP_DONE, FILLS_INNERS},
    {"smap_inners_next", next_call, SMAP_DONE, FILLS_NONE},
    {"smap_compose_all", all_call, SMAP_DONE, FILLS_BYTES},
    {"smap_table_new", new_call, SMAP_DONE, FILLS_TABLE},
    {"smap_url_finder_new", finder_call, SMAP_DONE, FILLS_FINDER},
    {"smap_table_add", add_call, SMAP_DONE, TAKES_MAP},
    {"smap_table_add of a pattern", pattern_call, SMAP_DONE, TAKES_MAP},
    {"smap_table_add of what is refused", twice_call, SMAP_REFUSED, TAKES_MAP},
    {"smap_table_add_shared", add_shared_call, SMAP_DONE, FILLS_NONE},
    {"smap_rewrite", rewrite_call, SMAP_DONE, FILLS_BYTES},
    {"smap_rewrite_anywhere", anywhere_call, SMAP_DONE, FILLS_BYTES},
    {"smap_rewrite_with", with_call, SMAP_DONE, FILLS_BYTES},
};

/* What handed-out bytes say, which are freed. */
static void report(smap_bytes *from, struct text *into) {
    smap_text text = SMAP_TEXT;
    smap_bytes_text(from, &text);
    if (text.length > sizeof into->bytes) fail("a text", "is too long");
    into->length = text.length;
    memcpy(into->bytes, text.bytes, text.length);
    smap_bytes_free(from);
}

/* What a map says, which is freed. */
static void report_map(smap_map *map, struct text *into) {
    smap_bytes written = {0};
    if (smap_map_write(map, &written) != SMAP_DONE) fail("a map", "is not written");
    report(&written, into);
    smap_map_free(map);
}

/* What a table says of a trace. */
static void report_table(smap_table *from, struct text *into) {
    smap_bytes rewritten = {0};
    smap_trace_count counted = {0};
    if (smap_rewrite(from, trace, sizeof trace - 1, false, &rewritten, &counted) != SMAP_DONE) fail("a table", "rewrites nothing");
    report(&rewritten, into);
}

/* What the outer map says with these inner ones, which are none. */
static void report_inners(smap_inners *from, struct text *into) {
    smap_bytes written = {0};
    const smap_compose_options options = {0};
    if (smap_compose_all(&outer, from, &options, &written, &why) != SMAP_DONE) fail("inner maps", "are not composed");
    report(&written, into);
}

/* The URLs that a finder finds in a trace. */
static void report_finder(smap_url_finder *from, struct text *into) {
    smap_place_url found = {0};
    while (smap_next_place_url(from, trace, sizeof trace - 1, found.next, &found) == SMAP_DONE) {
        memcpy(into->bytes + into->length, trace + found.start, found.length);
        into->length += found.length;
    }
    if (into->length != 45) fail("a finder", "finds other URLs");
}

/* The name of the function. */
static void report_names(const smap_names *from, struct text *into) {
    smap_text name = SMAP_TEXT;
    if (smap_name_of(from, (const uint8_t *)"f", 1, 0, 13, &name) != SMAP_DONE || name.length != 4) fail("names", "name no function");
    memcpy(into->bytes, name.bytes, into->length = name.length);
}

/* What the call has given, which is freed. A map that was refused is one that was given back. */
static void report_answer(const struct call *call, struct text *into) {
    into->length = 0;
    if (call->handle == FILLS_BYTES) {
        report(&bytes, into);
    } else if (call->handle == FILLS_TABLE) {
        report_table(&made_table, into);
        smap_table_free(&made_table);
    } else if (call->handle == FILLS_INNERS) {
        report_inners(&made_inners, into);
        smap_inners_free(&made_inners);
    } else if (call->handle == FILLS_NAMES) {
        report_names(&made_names, into);
        smap_names_free(&made_names);
    } else if (call->handle == FILLS_FINDER) {
        report_finder(&made_finder, into);
        smap_url_finder_free(&made_finder);
    } else if ((call->handle == FILLS_MAP) == (call->wanted == SMAP_DONE)) {
        report_map(&made, into);
    }
}

static bool alike(const struct text *a, const struct text *b) {
    return a->length == b->length && !memcmp(a->bytes, b->bytes, a->length);
}

/* The call while this growth is refused, or none of it; whether it asked for as many. */
static bool made_without(const struct call *call, long number) {
    if (read_map(&outer, &outer_file) || read_map(&inner, &inner_file) || smap_table_new(&table)) fail(call->name, "is not prepared");
    if (read_named()) fail(call->name, "has no map with a name");
    smap_map mapped = {0};
    if (read_map(&mapped, &inner_file) || smap_table_add(&table, base, sizeof base - 1, &mapped, &why)) fail(call->name, "has no table");
    bool adds = call->make == add_call || call->make == add_shared_call || call->make == pattern_call;
    bool rewrites = call->make == rewrite_call || call->make == anywhere_call;
    if (rewrites && (read_map(&mapped, &outer_file) || smap_table_add(&table, url, sizeof url - 1, &mapped, &why)))
        fail(call->name, "has no map");
    if (smap_inners_new(&outer, &inners) || read_map(&mapped, &inner_file) || smap_inners_put(&inners, 0, &mapped)) fail(call->name, "has no inner maps");
    smap_count held = {0};
    if (smap_counts(&outer, &held)) fail(call->name, "has no counts");
    for (uint32_t i = 1; call->make == next_call && i < held.sources; i++)
        if (read_map(&mapped, &inner_file) || smap_inners_put(&inners, i, &mapped)) fail(call->name, "has no further maps");
    made = (smap_map){0};
    made_table = (smap_table){0};
    made_inners = (smap_inners){0};
    made_finder = (smap_url_finder){0};
    made_names = (smap_names){0};
    bytes = (smap_bytes){0};
    if (call->handle == TAKES_MAP && read_map(&made, &outer_file)) fail(call->name, "has no map");
    static struct text before, after;
    report_table(&table, &before);
    why = next_source = 77;
    encode_refusal = (smap_encode_refusal){77, 77};
    refusal = (smap_refusal){77, 77, 77, 77, 77, 77};
    reason = (smap_reason){77, 77, 77, 77, 77, 77, 77, 77};
    count = (smap_trace_count){77, 77, 77, 77};
    for (int i = 0; i < 8; i++) by_source[i] = 77;
    unmapped = 77;
    refused = number;
    asked = 0;
    uint32_t status = call->make();
    refused = -1;
    bool was_refused = number >= 0 && asked > number;
    report_table(&table, &after);
    if (status == SMAP_NO_MEMORY) {
        if (!was_refused) fail(call->name, "is out of memory where none was refused");
        if ((call->handle != TAKES_MAP && made.at) || made_table.at || made_inners.at || made_finder.at || made_names.at || bytes.at) fail(call->name, "has filled a handle");
        if (why != 77 || refusal.code != 77 || encode_refusal.code != 77 || reason.value != 77 || reason.has_column != 77) fail(call->name, "reports a refusal");
        if (by_source[0] != 77 || unmapped != 77) fail(call->name, "counts bytes");
        if (!alike(&before, &after)) fail(call->name, "has changed the table");
        if (next_source != 77) fail(call->name, "asks for a source");
        if (call->make == next_call && (next_call() != SMAP_DONE || next_source != held.sources)) fail(call->name, "has changed the places");
    } else if (status != call->wanted) {
        fail(call->name, "has another status");
    } else {
        struct text *into = number < 0 ? &ample : &now;
        report_answer(call, into);
        if (number >= 0 && !alike(&ample, &now)) fail(call->name, "has another answer");
        if (alike(&before, &after) == adds) fail(call->name, "has another table");
        if (call->make == refuse_call && refusal.code != SMAP_CODE_M4) fail(call->name, "has another refusal");
        if (call->make == explain_call && (reason.most != -1 || reason.generated_column != 2)) fail(call->name, "has other numbers");
        uint64_t frames = call->make == rewrite_call ? 2 : 1; /* of a URL in the table, where places are counted */
        if (rewrites && (count.lines != 4 || count.frames != frames || count.mapped != 1)) fail(call->name, "has other counts");
        uint64_t bytes_reported = unmapped;
        for (int i = 0; i < 8 && by_source[i] != 77; i++) bytes_reported += by_source[i];
        if (call->make == bytes_call && bytes_reported != sizeof trace - 1) fail(call->name, "counts other bytes");
        if (call->make == twice_call && why != SMAP_CODE_A2) fail(call->name, "has another refusal");
        if (call->make == next_call && (why != 77 || next_source != held.sources)) fail(call->name, "asks for another source");
    }
    smap_map_free(&outer);
    smap_map_free(&inner);
    smap_map_free(&named);
    smap_table_free(&table);
    smap_inners_free(&inners);
    if (live != 0) fail(call->name, "leaks");
    return was_refused;
}

/* The calls that take no memory, while every growth is refused. */
static void free_calls(void) {
    if (read_map(&outer, &outer_file) || smap_map_write(&outer, &bytes) || smap_table_new(&table) || smap_inners_new(&outer, &inners) || read_map(&inner, &inner_file) || smap_url_finder_new(&made_finder)) fail("free calls", "not prepared");
    if (read_named() || names_call()) fail("free calls", "no names are prepared");
    const smap_position position = {0, 0};
    smap_found found = {0};
    smap_count counts = {0};
    smap_source_text source = SMAP_SOURCE;
    smap_text text = SMAP_TEXT;
    uint64_t size = 0;
    smap_line_bytes line = {0};
    smap_line_range range = {0};
    const smap_table_options options = {.cut = true};
    asked = 0;
    refuses_all = true;
    uint32_t statuses = smap_look_up(&outer, 0, 0, &found) | smap_look_up_from(&outer, 0, 0, &found) |
                        smap_look_up_many(&outer, &position, 1, &found, 1) | smap_counts(&outer, &counts) |
                        smap_source(&outer, 0, &source) | smap_name(&outer, 0, &text) | smap_bytes_text(&bytes, &text) |
                        smap_version(&text) | smap_map_size(&outer, &size) | smap_cut_url(url, sizeof url - 1, &text);
    uint32_t lines = smap_source_lines(&outer, 0, 0, 0, 0, &line, 1, &range);
    uint32_t place = smap_table_look_up(&table, url, sizeof url - 1, 0, 0, &options, &found, &source, &text);
    uint32_t file = smap_file(&outer, &text);
    smap_place_url found_url = {0};
    statuses |= smap_name_of(&made_names, (const uint8_t *)"f", 1, 0, 13, &text) | smap_names_size(&made_names, &size);
    smap_names_free(&made_names);
    smap_map_free(&named);
    statuses |= smap_next_place_url(&made_finder, trace, sizeof trace - 1, 0, &found_url);
    smap_url_finder_free(&made_finder);
    uint32_t source_asked = 77;
    statuses |= smap_inners_next(&outer, &inners, &source_asked, &why) | smap_inners_name(&outer, &inners, source_asked, &text);
    statuses |= smap_inners_put(&inners, 0, &inner) | smap_inners_take(&inners, 0, &inner) | smap_inners_put(&inners, 0, &inner);
    smap_inners_free(&inners);
    smap_map_free(&outer);
    smap_table_free(&table);
    smap_bytes_free(&bytes);
    refuses_all = false;
    if (statuses != SMAP_DONE || file == SMAP_NO_MEMORY || lines == SMAP_NO_MEMORY || place != SMAP_REFUSED) fail("free calls", "another status");
    if (asked != 0) fail("free calls", "memory is asked for");
    if (live != 0) fail("free calls", "leaks");
}

/* ---- a store, and a text rewritten over it */

static smap_store store, made_store;
static smap_rewriting rewriting, made_rewriting;
static const smap_rewriting_options of_any_text = {.asks = true, .most = UINT64_MAX, .most_output = UINT64_MAX};
static const uint8_t other_url[] = "https://e.test/b.js";

static uint32_t store_new_call(void) { return smap_store_new(1000000, &made_store); }
static uint32_t put_call(void) { return smap_store_put(&store, other_url, sizeof other_url - 1, &inner, 5); }
static uint32_t put_again_call(void) { return smap_store_put(&store, url, sizeof url - 1, &inner, 5); }
static uint32_t none_call(void) { return smap_store_put_none(&store, other_url, sizeof other_url - 1, SMAP_FAILED, true, 9); }
static uint32_t none_again_call(void) { return smap_store_put_none(&store, url, sizeof url - 1, SMAP_MISSING, false, 0); }
static uint32_t own_call(void) { return smap_store_put(&store, (const uint8_t *)"a.js?v", 6, &inner, 5); }
static uint32_t map_call(void) { return smap_store_map(&store, url, sizeof url - 1, 0, &made, &why); }
/* Names that the store has with the map of one more URL, and a table that has their map. */
static const uint8_t names_url[] = "https://e.test/n.js";
static smap_names put_names;
static uint32_t put_named_call(void) { return smap_store_put_named(&store, other_url, sizeof other_url - 1, &put_names, 5); }
static uint32_t store_names_call(void) { return smap_store_names(&store, names_url, sizeof names_url - 1, 0, &made_names); }
static uint32_t share_names_call(void) { return smap_names_share(&put_names, &made_names); }
static uint32_t add_names_call(void) { return smap_table_add_names(&table, base, sizeof base - 1, &put_names); }
static uint32_t rewriting_new_call(void) { return smap_rewriting_new(&of_any_text, &made_rewriting); }
static uint32_t give_call(void) { return smap_rewriting_give(&rewriting, trace, sizeof trace - 1); }
static uint32_t run_call(void) {
    smap_rewrite_refusal unread = {0};
    return smap_rewriting_run(&rewriting, &table, &store, 0, &unread);
}

static const struct store_call { const char *name; uint32_t (*make)(void); } store_calls[] = {
    {"smap_store_new", store_new_call},
    {"smap_store_put", put_call},
    {"smap_store_put in the place of a map", put_again_call},
    {"smap_store_put_none", none_call},
    {"smap_store_put_none in the place of a map", none_again_call},
    {"smap_store_put under a URL with a query", own_call},
    {"smap_store_map", map_call},
    {"smap_store_put_named", put_named_call},
    {"smap_store_names", store_names_call},
    {"smap_names_share", share_names_call},
    {"smap_table_add_names", add_names_call},
    {"smap_rewriting_new", rewriting_new_call},
    {"smap_rewriting_give", give_call},
    {"smap_rewriting_run", run_call},
};

/* What a store holds, and what is written of the text. */
static void report_store(struct text *into) {
    smap_store_counts counts = {0};
    smap_text text = SMAP_TEXT;
    smap_store_count(&store, &counts);
    smap_rewriting_text(&rewriting, &text);
    memcpy(into->bytes, &counts, offsetof(smap_store_counts, asked));
    memcpy(into->bytes + offsetof(smap_store_counts, asked), text.bytes, text.length);
    into->length = offsetof(smap_store_counts, asked) + text.length;
}

/* The call while this growth is refused, and then once more; whether it asked for as many. */
static bool stored_without(const struct store_call *call, long number) {
    static const uint8_t missing[] = "https://e.test/none.js";
    static struct text before, after;
    if (read_map(&outer, &outer_file) || read_map(&inner, &inner_file)) fail(call->name, "has no maps");
    if (smap_store_new(1000000, &store) || smap_store_put(&store, url, sizeof url - 1, &outer, 7)) fail(call->name, "has no store");
    if (smap_store_put_none(&store, missing, sizeof missing - 1, SMAP_MISSING, false, 0)) fail(call->name, "has no none");
    if (smap_rewriting_new(&of_any_text, &rewriting) || smap_table_new(&table)) fail(call->name, "has no text");
    if (read_named() || smap_names_new(&named, (const uint8_t *)named_file, sizeof named_file - 1, &put_names, &why) ||
        smap_table_add_shared(&table, base, sizeof base - 1, &named, &why) ||
        smap_store_put_named(&store, names_url, sizeof names_url - 1, &put_names, 3))
        fail(call->name, "has no names");
    if (call->make == run_call && (give_call() || smap_rewriting_end(&rewriting))) fail(call->name, "is given nothing");
    made = (smap_map){0};
    made_names = (smap_names){0};
    made_store = (smap_store){0};
    made_rewriting = (smap_rewriting){0};
    report_store(&before);
    refused = number;
    asked = 0;
    uint32_t status = call->make();
    refused = -1;
    bool was_refused = number >= 0 && asked > number;
    if (status == SMAP_NO_MEMORY) {
        if (!was_refused) fail(call->name, "is out of memory where none was refused");
        if (made.at || made_names.at || made_store.at || made_rewriting.at) fail(call->name, "has filled a handle");
        report_store(&after);
        if (call->make != run_call && !alike(&before, &after)) fail(call->name, "has changed the store");
        status = call->make();
    }
    if (status != SMAP_DONE) fail(call->name, "has another status");
    if (call->make == give_call && (smap_rewriting_end(&rewriting) || run_call())) fail(call->name, "does not go on");
    report_store(number < 0 ? &ample : &now);
    if (number >= 0 && !alike(&ample, &now)) fail(call->name, "has another answer");
    if (made.at) smap_map_free(&made);
    if (made_names.at) smap_names_free(&made_names);
    if (made_store.at) smap_store_free(&made_store);
    if (made_rewriting.at) smap_rewriting_free(&made_rewriting);
    smap_store_free(&store);
    smap_rewriting_free(&rewriting);
    smap_table_free(&table);
    smap_names_free(&put_names);
    smap_map_free(&named);
    smap_map_free(&outer);
    smap_map_free(&inner);
    if (live != 0) fail(call->name, "leaks");
    return was_refused;
}

/* The calls over a store that take no memory, while every growth is refused. */
static void free_store_calls(void) {
    if (read_map(&outer, &outer_file) || smap_store_new(1000000, &store) || smap_store_put(&store, url, sizeof url - 1, &outer, 7) ||
        smap_rewriting_new(&of_any_text, &rewriting) || smap_table_new(&table) || give_call() || run_call() != SMAP_WANTED)
        fail("calls over a store", "not prepared");
    smap_store_counts counts = {0};
    smap_trace_count counted = {0};
    smap_text text = SMAP_TEXT, name = SMAP_TEXT;
    smap_found found = {0};
    smap_source_text source = SMAP_SOURCE;
    asked = 0;
    refuses_all = true;
    uint32_t statuses = smap_store_key(&store, url, sizeof url - 1, &text) | smap_store_ask(&store, url, sizeof url - 1, 0, &why) |
                        smap_store_look_up(&store, url, sizeof url - 1, 0, 64, 79, false, &found, &source, &name, &why) |
                        smap_store_count(&store, &counts) | smap_rewriting_url(&rewriting, &text) | smap_rewriting_text(&rewriting, &text) |
                        smap_rewriting_count(&rewriting, &counted) | smap_rewriting_clear(&rewriting) | smap_rewriting_end(&rewriting) |
                        smap_store_forget_none(&store) | smap_store_forget(&store, url, sizeof url - 1);
    smap_store_free(&store);
    smap_rewriting_free(&rewriting);
    smap_table_free(&table);
    smap_map_free(&outer);
    refuses_all = false;
    if (statuses != SMAP_DONE || asked != 0 || live != 0) fail("calls over a store", "have another status, ask for memory or leak");
}

static long stores(void) {
    long growths = 0;
    for (size_t i = 0; i < sizeof store_calls / sizeof *store_calls; i++) {
        long number = 0;
        stored_without(&store_calls[i], -1);
        while (stored_without(&store_calls[i], number)) number++;
        if (number == 0) fail(store_calls[i].name, "takes no memory");
        growths += number;
        printf("%s: %ld growths\n", store_calls[i].name, number);
    }
    free_store_calls();
    return growths;
}

int main(int argc, char **argv) {
    if (argc < 3) fail("memory", "OUTER INNER");
    load(argv[1], &outer_file);
    load(argv[2], &inner_file);
    long growths = 0;
    for (size_t i = 0; i < sizeof calls / sizeof *calls; i++) {
        long number = 0;
        made_without(&calls[i], -1);
        while (made_without(&calls[i], number)) number++;
        if (number == 0 && calls[i].make != twice_call) fail(calls[i].name, "takes no memory");
        growths += number;
        printf("%s: %ld growths\n", calls[i].name, number);
    }
    free_calls();
    growths += stores();
    printf("memory %ld\n", growths);
    return 0;
}
