/* A store of maps, and texts rewritten over it piece by piece, in C: store [RUNS]. First each thing that caches around the library
 * had wrong; then eight threads with one store; then RUNS random runs, 100,000 if it is not given, beside a model of the store, a
 * list of what was put.
 */
#include <pthread.h>
#include <smap.h>
#include <stdio.h>
#include <stdlib.h>
#include <string.h>

static long reported;

static void insist(bool holds, const char *what) {
    if (!holds) {
        fprintf(stderr, "store: %s\n", what);
        exit(9);
    }
    reported++;
}

#define BYTES(text) (const uint8_t *)(text), strlen(text)

static bool is(smap_text text, const char *wanted) { return text.length == strlen(wanted) && !memcmp(text.bytes, wanted, text.length); }

/* Map `number` has one mapping, to the beginning of source NUMBER.ts. */
static smap_map map_of(int number) {
    char file[128];
    int length = snprintf(file, sizeof file, "{\"version\":3,\"sources\":[\"%d.ts\"],\"names\":[\"n%d\"],\"mappings\":\"AAAAA\"}", number, number);
    smap_map map = {0};
    smap_refusal refusal = {0};
    insist(smap_map_read((const uint8_t *)file, (size_t)length, BYTES(""), 64, &map, &refusal) == SMAP_DONE, "a map");
    return map;
}

static smap_store store_of(uint64_t most) {
    smap_store store = {0};
    insist(smap_store_new(most, &store) == SMAP_DONE, "a store");
    return store;
}

static void put(smap_store *store, const char *url, int number, uint64_t bytes) {
    smap_map map = map_of(number);
    insist(smap_store_put(store, BYTES(url), &map, bytes) == SMAP_DONE, "a map is put");
    smap_map_free(&map);
}

/* Which map a URL has: its number, -1 - WHY for none, or -9 where that is not known. */
enum { UNKNOWN = -9 };

static int looked_up(smap_store *store, const char *url, uint64_t now) {
    smap_found found = {0};
    smap_source_text source = SMAP_SOURCE;
    smap_text name = SMAP_TEXT;
    uint32_t why = 77;
    uint32_t status = smap_store_look_up(store, BYTES(url), now, 0, 5, false, &found, &source, &name, &why);
    if (status == SMAP_WANTED) return insist(why == 77 && !source.named, "nothing is said of what is not known"), UNKNOWN;
    if (status == SMAP_REFUSED) return insist(why < 2 && !source.named, "why there is none"), -1 - (int)why;
    insist(status == SMAP_DONE && found.kind == 2 && source.named && name.length > 1, "an answer");
    return atoi((const char *)source.name.bytes);
}

static int asked(smap_store *store, const char *url, uint64_t now) {
    uint32_t why = 77, status = smap_store_ask(store, BYTES(url), now, &why);
    int found = looked_up(store, url, now);
    insist(status == (found >= 0 ? SMAP_DONE : found == UNKNOWN ? SMAP_WANTED : SMAP_REFUSED), "a look-up answers as the store does");
    insist(why == (found >= 0 || found == UNKNOWN ? 77 : (uint32_t)(-1 - found)), "and says why");
    return found;
}

static smap_store_counts counts_of(smap_store *store) {
    smap_store_counts counts = {0};
    insist(smap_store_count(store, &counts) == SMAP_DONE, "counts");
    return counts;
}

static smap_rewriting rewriting_with(smap_rewriting_options options) {
    smap_rewriting rewriting = {0};
    insist(smap_rewriting_new(&options, &rewriting) == SMAP_DONE, "a rewriting");
    return rewriting;
}

static smap_rewriting rewriting_of(bool hide_ignored, uint64_t most) {
    return rewriting_with((smap_rewriting_options){.hide_ignored = hide_ignored, .asks = true, .most = most, .most_output = UINT64_MAX});
}

/* A run over this table, or the one without maps, and the store; what it says where it is refused is in `refusal`. */
static smap_table none;
static smap_rewrite_refusal refusal;

static uint32_t run_over(smap_rewriting *rewriting, smap_table *table, smap_store *store, uint64_t now) {
    refusal = (smap_rewrite_refusal){77, 77};
    uint32_t status = smap_rewriting_run(rewriting, table, store, now, &refusal);
    insist(status == SMAP_REFUSED || (refusal.code == 77 && refusal.lines == 77), "a refusal alone says why");
    return status;
}

static uint32_t run(smap_rewriting *rewriting, smap_store *store, uint64_t now) { return run_over(rewriting, &none, store, now); }

static void give(smap_rewriting *rewriting, const char *text) { insist(smap_rewriting_give(rewriting, BYTES(text)) == SMAP_DONE, "bytes are given"); }

static bool has_written(smap_rewriting *rewriting, const char *wanted) {
    smap_text text = SMAP_TEXT;
    return smap_rewriting_text(rewriting, &text) == SMAP_DONE && is(text, wanted);
}

static bool wants(smap_rewriting *rewriting, const char *wanted) {
    smap_text url = SMAP_TEXT;
    return smap_rewriting_url(rewriting, &url) == SMAP_DONE && is(url, wanted);
}

/* ---- what caches had wrong */

/* What was looked up before it came is not remembered as none, and is found once it is there. */
static void late(void) {
    smap_store store = store_of(10000);
    smap_rewriting rewriting = rewriting_of(false, 1000);
    insist(asked(&store, "a.js", 0) == UNKNOWN && counts_of(&store).none_count == 0, "a URL of which nothing is known");
    give(&rewriting, "    at f (a.js:1:1)\n");
    insist(run(&rewriting, &store, 0) == SMAP_WANTED && wants(&rewriting, "a.js"), "a frame of which nothing is known");
    put(&store, "a.js", 1, 1);
    insist(asked(&store, "a.js", 0) == 1, "a map that came");
    insist(run(&rewriting, &store, 0) == SMAP_DONE && has_written(&rewriting, "    at f (1.ts:1:1)\n"), "and its frame");
    smap_rewriting_free(&rewriting);
    smap_store_free(&store);
}

/* A map that takes the place of another one answers in look-ups and in rewriting. */
static void replaced(void) {
    smap_store store = store_of(10000);
    smap_rewriting rewriting = rewriting_of(false, 1000);
    put(&store, "a.js", 1, 1);
    give(&rewriting, "@a.js:1:1\n");
    insist(run(&rewriting, &store, 0) == SMAP_DONE, "a frame");
    put(&store, "a.js", 2, 1);
    give(&rewriting, "@a.js:1:1\n");
    insist(run(&rewriting, &store, 0) == SMAP_DONE, "another one");
    insist(has_written(&rewriting, "@1.ts:1:1\n@2.ts:1:1\n") && asked(&store, "a.js", 0) == 2, "the map that was put last");
    smap_rewriting_free(&rewriting);
    smap_store_free(&store);
}

/* Frames with a query have their map, and what is missing or failed leaves its own frames alone. */
static void queries(void) {
    smap_store store = store_of(10000);
    smap_rewriting rewriting = rewriting_of(false, 1000);
    put(&store, "a.js", 1, 1);
    insist(smap_store_put_none(&store, BYTES("b.js"), SMAP_MISSING, false, 0) == SMAP_DONE, "none");
    insist(smap_store_put_none(&store, BYTES("c.js"), SMAP_FAILED, true, 9) == SMAP_DONE, "one that failed");
    insist(smap_store_put_none(&store, BYTES("d.js"), 2, false, 0) == SMAP_REFUSED, "another reason");
    give(&rewriting, "@a.js?v=1:1:1\n@b.js?v=1:1:1\n@c.js#x:1:1\n@a.js#y:1:1");
    insist(smap_rewriting_end(&rewriting) == SMAP_DONE && smap_rewriting_give(&rewriting, BYTES("x")) == SMAP_REFUSED, "the end");
    insist(run(&rewriting, &store, 0) == SMAP_DONE, "all frames");
    insist(has_written(&rewriting, "@1.ts:1:1\n@b.js?v=1:1:1\n@c.js#x:1:1\n@1.ts:1:1"), "each of its own");
    smap_trace_count count = {0};
    insist(smap_rewriting_count(&rewriting, &count) == SMAP_DONE && count.lines == 4 && count.frames == 4 && count.mapped == 2, "what was counted");
    smap_rewriting_free(&rewriting);
    smap_store_free(&store);
}

/* What failed is asked for again after its time, and forgetting which have none forgets no map. */
static void failed(void) {
    smap_store store = store_of(10000);
    put(&store, "a.js", 1, 1);
    insist(smap_store_put_none(&store, BYTES("b.js"), SMAP_FAILED, true, 30) == SMAP_DONE, "one that failed");
    insist(asked(&store, "b.js", 29) == -1 - SMAP_FAILED && asked(&store, "b.js", 30) == UNKNOWN, "until its time");
    insist(smap_store_put_none(&store, BYTES("c.js"), SMAP_MISSING, false, 0) == SMAP_DONE, "none");
    insist(asked(&store, "c.js", UINT64_MAX) == -1 - SMAP_MISSING, "for ever");
    insist(smap_store_forget_none(&store) == SMAP_DONE && asked(&store, "c.js", 0) == UNKNOWN && asked(&store, "a.js", 0) == 1, "a map stays");
    smap_store_free(&store);
}

/* Each map is given once, and a text is passed over once, however small the bound is. */
static void given_once(void) {
    enum { LINES = 16000 };
    for (int bound = 0; bound < 2; bound++) {
        smap_store store = store_of(bound ? 100000 : 0);
        smap_rewriting rewriting = rewriting_of(false, UINT64_MAX);
        long given = 0;
        for (int i = 0; i < LINES; i++) give(&rewriting, i & 1 ? "@a.js:1:1\n" : "@b.js:1:1\n");
        while (run(&rewriting, &store, 0) == SMAP_WANTED) {
            put(&store, wants(&rewriting, "a.js") ? "a.js" : "b.js", 1 + (int)wants(&rewriting, "b.js"), 1);
            given++;
        }
        insist(given == (bound ? 2 : LINES), "how often a map is wanted");
        smap_text text = SMAP_TEXT;
        insist(smap_rewriting_text(&rewriting, &text) == SMAP_DONE && text.length == 10 * LINES, "what is written");
        for (int i = 0; i < LINES; i++) insist(!memcmp(text.bytes + 10 * i, i & 1 ? "@1.ts:1:1\n" : "@2.ts:1:1\n", 10), "a line");
        smap_rewriting_free(&rewriting);
        smap_store_free(&store);
    }
}

/* A map that is dropped stays with who holds it, and what rewriting uses is counted and kept. */
static void dropped(void) {
    smap_store store = store_of(300);
    smap_map first = map_of(1), share = {0};
    uint32_t why = 77;
    insist(smap_store_put(&store, BYTES("a.js"), &first, 10) == SMAP_DONE, "a map");
    insist(smap_store_map(&store, BYTES("a.js?x"), 0, &share, &why) == SMAP_DONE, "a handle of it");
    put(&store, "b.js", 2, 10);
    smap_rewriting rewriting = rewriting_of(false, 1000);
    give(&rewriting, "@a.js:1:1\n");
    insist(run(&rewriting, &store, 0) == SMAP_DONE && counts_of(&store).count == 2, "the first is used again");
    put(&store, "c.js", 3, 10);
    insist(counts_of(&store).dropped == 1 && asked(&store, "b.js", 0) == UNKNOWN && asked(&store, "a.js", 0) == 1, "the longest unused is dropped");
    put(&store, "d.js", 4, 1000);
    insist(counts_of(&store).count == 1 && asked(&store, "a.js", 0) == UNKNOWN && asked(&store, "d.js", 0) == 4, "one alone");
    smap_found found = {0};
    smap_source_text source = SMAP_SOURCE;
    for (int i = 0; i < 2; i++) {
        smap_map *map = i ? &share : &first;
        insist(smap_look_up(map, 0, 3, &found) == SMAP_DONE && smap_source(map, found.source, &source) == SMAP_DONE && is(source.name, "1.ts"), "its holders");
    }
    smap_store_free(&store);
    insist(smap_source(&share, 0, &source) == SMAP_DONE && is(source.name, "1.ts"), "without the store");
    smap_map_free(&share);
    smap_map_free(&first);
    smap_rewriting_free(&rewriting);
}

/* A text has no more bytes than it may, whatever pieces it comes in. */
static void bounds(void) {
    smap_rewriting rewriting = rewriting_of(true, 5);
    give(&rewriting, "abc");
    insist(smap_rewriting_give(&rewriting, BYTES("def")) == SMAP_REFUSED && smap_rewriting_give(&rewriting, BYTES("de")) == SMAP_DONE, "five bytes");
    insist(smap_rewriting_give(&rewriting, BYTES("f")) == SMAP_REFUSED && smap_rewriting_give(&rewriting, BYTES("")) == SMAP_DONE, "and no more");
    smap_rewriting_free(&rewriting);
}

/* No more comes out than may, nothing is lost, and the whole lines are counted that came out. */
static void outputs(void) {
    smap_store store = store_of(10000);
    put(&store, "a.js", 1, 1);
    for (int anywhere = 0; anywhere < 2; anywhere++) {
        smap_rewriting rewriting = rewriting_with((smap_rewriting_options){.anywhere = anywhere, .asks = true, .most = 100, .most_output = 15});
        give(&rewriting, "Error\n@a.js:1:1\n@a.js:1:1\nx\n");
        insist(run(&rewriting, &store, 0) == SMAP_REFUSED && refusal.code == SMAP_CODE_X5 && refusal.lines == 1, "what would be too much");
        insist(has_written(&rewriting, anywhere ? "Error\n@1.ts:1:1" : "Error\n"), "what fits");
        insist(smap_rewriting_clear(&rewriting) == SMAP_DONE && run(&rewriting, &store, 0) == SMAP_REFUSED, "what was let go of counts");
        insist(refusal.lines == 1 && smap_rewriting_allow(&rewriting, 100) == SMAP_DONE && run(&rewriting, &store, 0) == SMAP_DONE, "more may come out");
        insist(has_written(&rewriting, anywhere ? "\n@1.ts:1:1\nx\n" : "@1.ts:1:1\n@1.ts:1:1\nx\n"), "nothing is lost");
        smap_rewriting_free(&rewriting);
    }
    smap_store_free(&store);
}

/* A map that has a name, or a pattern, comes first; what nobody asks for has none, and no `*` alone goes with places. */
static void tables(void) {
    smap_store store = store_of(10000);
    smap_table table = {0};
    uint32_t why = 77;
    insist(smap_table_new(&table) == SMAP_DONE, "a table");
    for (int i = 0; i < 2; i++) {
        smap_map map = map_of(7 + i);
        insist(smap_table_add(&table, BYTES(i ? "*x.js" : "a name"), &map, &why) == SMAP_DONE, "a map of a table");
    }
    put(&store, "a name", 1, 1);
    put(&store, "b.js", 2, 1);
    for (int asks = 0; asks < 2; asks++) {
        smap_rewriting rewriting = rewriting_with((smap_rewriting_options){.asks = asks, .most = 200, .most_output = 200});
        give(&rewriting, "@a name?v:1:1\n@h://x.js:1:1\n@b.js:1:1\n@node:fs:1:1\n@../c.js:1:1\n@c.js:1:1\n@*c.js:1:1\n");
        insist(run_over(&rewriting, &table, &store, 0) == (asks ? SMAP_WANTED : SMAP_DONE), "what is asked for");
        if (asks) {
            insist(wants(&rewriting, "c.js"), "a location");
            insist(smap_store_put_none(&store, BYTES("c.js"), SMAP_MISSING, false, 0) == SMAP_DONE, "none");
            insist(run_over(&rewriting, &table, &store, 0) == SMAP_DONE, "all frames");
        }
        insist(has_written(&rewriting, "@7.ts:1:1\n@8.ts:1:1\n@2.ts:1:1\n@node:fs:1:1\n@../c.js:1:1\n@c.js:1:1\n@*c.js:1:1\n"), "by the table first");
        smap_rewriting_free(&rewriting);
    }
    smap_map all = map_of(9);
    insist(smap_table_add(&table, BYTES("*"), &all, &why) == SMAP_DONE, "a map of all");
    smap_rewriting rewriting = rewriting_with((smap_rewriting_options){.anywhere = true, .most = 200, .most_output = 200});
    give(&rewriting, "a.js:1:1\n");
    insist(run_over(&rewriting, &table, &store, 0) == SMAP_REFUSED && refusal.code == SMAP_CODE_USAGE && has_written(&rewriting, ""), "no places over it");
    smap_rewriting_free(&rewriting);
    smap_table_free(&table);
    smap_store_free(&store);
}

/* For which URLs maps are asked for, and where a folder has them. */
static void locations(void) {
    static const char *const some[] = {"https://h/../a", "/srv/a", "C:\\a\\..\\b", "a.js", "./a.js", "x\\y.cjs", "a:b.js"};
    static const char *const others[] = {"", "native", "node:fs", "../a.js", "x/../a.js", "x//a.js", "a.ts", "*a.js", "C:a"};
    for (size_t i = 0; i < sizeof some / sizeof *some; i++) insist(smap_is_location(BYTES(some[i])) == SMAP_DONE, some[i]);
    for (size_t i = 0; i < sizeof others / sizeof *others; i++) insist(smap_is_location(BYTES(others[i])) == SMAP_REFUSED, others[i]);
    smap_bytes path = {0};
    smap_text text = SMAP_TEXT;
    insist(smap_folder_path(BYTES("h://p/"), BYTES("d/"), BYTES("h://p/x/a.js?v"), &path) == SMAP_DONE, "the path of a map");
    insist(smap_bytes_text(&path, &text) == SMAP_DONE && is(text, "d/x/a.js.map"), "in its folder");
    smap_bytes_free(&path);
    static const char *const refused[][3] = {{"h://p/", "d/", "h://q/a.js"}, {"h://p/", "d/", "h://p/../a.js"}, {"h://p", "d/", "h://p/a.js"}, {"h://p/", "\xff", "h://p/a.js"}};
    for (size_t i = 0; i < sizeof refused / sizeof *refused; i++)
        insist(smap_folder_path(BYTES(refused[i][0]), BYTES(refused[i][1]), BYTES(refused[i][2]), &path) == SMAP_REFUSED, "no path");
}

/* ---- threads: one store behind a lock, which gives each a handle of a map, or wants it */

enum { THREADS = 8, SHARED_URLS = 5 };

static struct { smap_store store; pthread_mutex_t lock; long rounds; } shared;

static smap_map unchecked_map(int number) {
    char file[96];
    int length = snprintf(file, sizeof file, "{\"version\":3,\"sources\":[\"%d.ts\"],\"mappings\":\"AAAA\"}", number);
    smap_map map = {0};
    smap_refusal refusal = {0};
    smap_map_read((const uint8_t *)file, (size_t)length, BYTES(""), 64, &map, &refusal);
    return map;
}

/* The handle of the map of a URL, which is put where it is wanted. */
static smap_map held_map(const char *url, int number) {
    smap_map map = {0};
    uint32_t why = 77;
    pthread_mutex_lock(&shared.lock);
    uint32_t status = smap_store_map(&shared.store, BYTES(url), 0, &map, &why);
    pthread_mutex_unlock(&shared.lock);
    if (status != SMAP_WANTED) return map;
    map = unchecked_map(number);
    pthread_mutex_lock(&shared.lock);
    smap_store_put(&shared.store, BYTES(url), &map, 100);
    pthread_mutex_unlock(&shared.lock);
    return map;
}

static void *look_up(void *right) {
    for (long i = 0; i < shared.rounds; i++) {
        int number = (int)(i % SHARED_URLS);
        char url[16];
        snprintf(url, sizeof url, "%d.js", number);
        smap_map map = held_map(url, number);
        smap_found found = {0};
        smap_source_text source = SMAP_SOURCE;
        bool is_right = smap_look_up(&map, 0, 3, &found) == SMAP_DONE && smap_source(&map, found.source, &source) == SMAP_DONE;
        *(bool *)right = *(bool *)right && is_right && atoi((const char *)source.name.bytes) == number;
        smap_map_free(&map);
    }
    return NULL;
}

static void threads(long rounds) {
    pthread_t thread[THREADS];
    bool right[THREADS];
    shared.store = store_of(600); /* two maps of the five */
    shared.rounds = rounds;
    pthread_mutex_init(&shared.lock, NULL);
    for (int i = 0; i < THREADS; i++) {
        right[i] = true;
        insist(pthread_create(&thread[i], NULL, look_up, &right[i]) == 0, "a thread");
    }
    for (int i = 0; i < THREADS; i++) {
        pthread_join(thread[i], NULL);
        insist(right[i], "what each of eight threads finds");
    }
    pthread_mutex_destroy(&shared.lock);
    smap_store_free(&shared.store);
}

/* ---- the model: what was put under each URL, and in which order it was used */

static const char *const urls[] = {"a.js", "a.js?1", "a.js?2", "a.js#x", "b.js", "b.js?1#y", "c.js", "/d/e.js", "/d/e.js?v=2"};
enum { URLS = sizeof urls / sizeof *urls, VALUES = 0, NONES = 1 };

struct known { int found; bool has_until; uint64_t until, bytes; };

static struct model {
    struct known known[2][URLS];
    int order[2][URLS], count[2]; /* by the last use */
    bool is_own[URLS], are_all_own;
    uint64_t most[2], own_bytes, asked, hits, dropped;
} model;

static int place_of(int kind, int url) {
    for (int i = 0; i < model.count[kind]; i++)
        if (model.order[kind][i] == url) return i;
    return -1;
}

static void take_out(int kind, int url) {
    int at = place_of(kind, url);
    if (at < 0) return;
    memmove(&model.order[kind][at], &model.order[kind][at + 1], (size_t)(--model.count[kind] - at) * sizeof(int));
}

static void put_first(int kind, int url) {
    take_out(kind, url);
    memmove(&model.order[kind][1], &model.order[kind][0], (size_t)model.count[kind]++ * sizeof(int));
    model.order[kind][0] = url;
}

static uint64_t bytes_of(int kind) {
    uint64_t sum = 0;
    for (int i = 0; i < model.count[kind]; i++) sum += model.known[kind][model.order[kind][i]].bytes;
    return sum;
}

static int cut(int url) {
    size_t length = strcspn(urls[url], "?#");
    for (int i = 0; i < URLS; i++)
        if (strlen(urls[i]) == length && !memcmp(urls[i], urls[url], length)) return i;
    return -1;
}

/* The URL under which is what is known of a URL: itself, where something was put under it. */
static int key_of(int url) { return model.are_all_own || model.is_own[url] ? url : cut(url); }

static void model_put(int kind, int url, struct known known) {
    uint64_t size = strlen(urls[url]) + 128;
    if (key_of(url) != url) {
        model.is_own[url] = model.own_bytes + size <= model.most[NONES];
        model.are_all_own = !model.is_own[url];
        model.own_bytes += model.is_own[url] ? size : 0;
    }
    known.bytes += size;
    take_out(!kind, url);
    put_first(kind, url);
    model.known[kind][url] = known;
    for (; bytes_of(kind) > model.most[kind] && model.count[kind] > 1; model.dropped++) model.count[kind]--;
}

static void model_forget(int url) { take_out(VALUES, url), take_out(NONES, url); }

static int model_peek(int url, uint64_t now, int *key, int *kind) {
    struct known *absence = &model.known[NONES][*key = key_of(url)];
    bool has_none = place_of(NONES, *key) >= 0 && (!absence->has_until || now < absence->until);
    *kind = place_of(VALUES, *key) >= 0 ? VALUES : NONES;
    return *kind == VALUES || has_none ? model.known[*kind][*key].found : UNKNOWN;
}

static int model_ask(int url, uint64_t now) {
    int key, kind, found = model_peek(url, now, &key, &kind);
    model.asked++;
    if (found == UNKNOWN) return found;
    model.hits++;
    put_first(kind, key);
    return found;
}

/* ---- random runs */

static uint64_t seed = 7;

static uint32_t random_below(uint32_t limit) {
    seed = seed * 6364136223846793005 + 1442695040888963407;
    return (uint32_t)((seed >> 33) % limit);
}

enum { MAPS = 12 };
static smap_map maps[MAPS];

static void counts_alike(smap_store *store) {
    smap_store_counts counts = counts_of(store);
    insist(counts.bytes == bytes_of(VALUES) && counts.count == (uint64_t)model.count[VALUES], "the maps");
    insist(counts.none_bytes == bytes_of(NONES) && counts.none_count == (uint64_t)model.count[NONES], "those that have none");
    insist(counts.own_bytes == model.own_bytes, "the URLs that stand for themselves");
    insist(counts.asked == model.asked && counts.hits == model.hits && counts.dropped == model.dropped, "the statistics");
}

static void random_put(smap_store *store, int url) {
    int number = (int)random_below(MAPS);
    uint64_t bytes = random_below(4) ? random_below(200) : random_below(3000);
    insist(smap_store_put(store, BYTES(urls[url]), &maps[number], bytes) == SMAP_DONE, "a map is put");
    model_put(VALUES, url, (struct known){.found = number, .bytes = bytes});
}

static void random_none(smap_store *store, int url, uint64_t now) {
    uint32_t why = random_below(2);
    bool has_until = random_below(2);
    insist(smap_store_put_none(store, BYTES(urls[url]), why, has_until, now) == SMAP_DONE, "none is put");
    model_put(NONES, url, (struct known){.found = -1 - (int)why, .has_until = has_until, .until = now});
}

/* One change of the store, or one look-up. */
static void random_step(smap_store *store) {
    int url = (int)random_below(URLS), key, kind;
    uint64_t now = random_below(8);
    uint32_t deed = random_below(10);
    smap_map map = {0};
    uint32_t why = 77;
    if (deed < 3) random_put(store, url);
    else if (deed < 5) random_none(store, url, random_below(8));
    else if (deed == 5) insist(smap_store_forget(store, BYTES(urls[url])) == SMAP_DONE, "forgotten"), model_forget(url);
    else if (deed == 6 && !random_below(4)) insist(smap_store_forget_none(store) == SMAP_DONE, "forgotten"), model.count[NONES] = 0;
    else if (deed < 8) insist(looked_up(store, urls[url], now) == model_peek(url, now, &key, &kind), "a look-up");
    else if (deed == 8) insist(asked(store, urls[url], now) == model_ask(url, now), "what is asked for");
    else {
        int found = model_ask(url, now);
        uint32_t status = smap_store_map(store, BYTES(urls[url]), now, &map, &why);
        insist(status == (found >= 0 ? SMAP_DONE : found == UNKNOWN ? SMAP_WANTED : SMAP_REFUSED), "a handle");
        if (found < 0) insist(!map.at, "no handle");
        smap_source_text source = SMAP_SOURCE;
        if (found >= 0) insist(smap_source(&map, 0, &source) == SMAP_DONE && atoi((const char *)source.name.bytes) == found, "its map"), smap_map_free(&map);
    }
}

/* A text of frames and other lines, given in pieces of any length, while the store changes. */
static void random_text(smap_store *store) {
    enum { LINES = 8 };
    static char text[1024], wanted[1024];
    int line_urls[LINES], lines = (int)random_below(LINES);
    size_t ends[LINES], length = 0, written = 0, given = 0, frames = 0, mapped = 0;
    for (int i = 0; i < lines; i++) {
        line_urls[i] = random_below(4) ? (int)random_below(URLS) : -1;
        length += (size_t)(line_urls[i] < 0 ? sprintf(text + length, "no frame\n") : sprintf(text + length, "    at f (%s:1:%u)\n", urls[line_urls[i]], 1 + random_below(9)));
        ends[i] = length;
    }
    if (lines && random_below(2)) ends[lines - 1] = --length;
    smap_rewriting rewriting = rewriting_of(false, length);
    smap_text url = SMAP_TEXT, got = SMAP_TEXT;
    bool is_ended = false;
    for (int done = 0; !is_ended || done < lines;) {
        size_t piece = random_below(64);
        if (piece > length - given) piece = length - given;
        if (!is_ended) insist(smap_rewriting_give(&rewriting, (const uint8_t *)text + given, piece) == SMAP_DONE, "a piece");
        given += piece;
        if (!is_ended && given == length && random_below(2)) is_ended = smap_rewriting_end(&rewriting) == SMAP_DONE;
        uint64_t now = random_below(8);
        int unknown = -1;
        for (; done < lines && unknown < 0; done++) {
            size_t from = done ? ends[done - 1] : 0, size = ends[done] - from;
            if (given < ends[done] || (text[ends[done] - 1] != '\n' && !is_ended)) break;
            int found = line_urls[done] < 0 ? -1 : model_ask(line_urls[done], now);
            if (found == UNKNOWN) { unknown = line_urls[done]; break; }
            frames += line_urls[done] >= 0;
            mapped += found >= 0;
            if (found < 0) memcpy(wanted + written, text + from, size), written += size;
            else written += (size_t)sprintf(wanted + written, "    at f (%d.ts:1:1)%s", found, text[ends[done] - 1] == '\n' ? "\n" : "");
        }
        insist(run(&rewriting, store, now) == (unknown < 0 ? SMAP_DONE : SMAP_WANTED), "how a rewriting stops");
        if (unknown >= 0) {
            insist(smap_rewriting_url(&rewriting, &url) == SMAP_DONE && is(url, urls[unknown]), "at which URL");
            insist(smap_store_key(store, BYTES(urls[unknown]), &url) == SMAP_DONE && is(url, urls[key_of(unknown)]), "under which it is put");
            if (random_below(2)) random_put(store, key_of(unknown));
            else random_none(store, key_of(unknown), now + 1 + random_below(3));
        }
        insist(smap_rewriting_text(&rewriting, &got) == SMAP_DONE && got.length == written && !memcmp(got.bytes, wanted, written), "what is written");
        if (!random_below(3)) insist(smap_rewriting_clear(&rewriting) == SMAP_DONE, "it is let go of"), written = 0;
        if (!random_below(4)) random_step(store);
        counts_alike(store);
    }
    smap_trace_count count = {0};
    insist(smap_rewriting_count(&rewriting, &count) == SMAP_DONE, "counts");
    insist(count.lines == (uint64_t)lines - (lines && !length) && count.frames == frames && count.mapped == mapped && !count.hidden, "what was counted");
    smap_rewriting_free(&rewriting);
}

/* Goes on to the end of what was given; the maps of those of `urls` come when they are wanted, and others are none. */
static void run_on(smap_rewriting *rewriting, smap_store *store) {
    smap_text url = SMAP_TEXT;
    while (run(rewriting, store, 0) == SMAP_WANTED) {
        insist(smap_rewriting_url(rewriting, &url) == SMAP_DONE && smap_store_key(store, url.bytes, url.length, &url) == SMAP_DONE, "which is wanted");
        int number = 0;
        while (number < URLS && !is(url, urls[number])) number++;
        if (number < URLS) insist(smap_store_put(store, url.bytes, url.length, &maps[cut(number) % MAPS], 1) == SMAP_DONE, "a map comes");
        else insist(smap_store_put_none(store, url.bytes, url.length, SMAP_MISSING, false, 0) == SMAP_DONE, "none comes");
    }
}

/* The places of a text, given in pieces of any length and with colours, while their maps come in the middle of a line: it comes to what
 * it does where all maps are at hand, and the text is given at once. */
static void random_places(void) {
    static const char *const parts[] = {"see a.js:1:1, ", "\"b.js:1:2\" ", "(/d/e.js?v=2:1:1)", "\n", "h://k/c.js:3:1", "12:30:01 ", "x", "\\\\", " at f (a.js:1:1)\n"};
    char plain[512], coloured[4096];
    size_t length = 0, size = 0, given = 0;
    for (uint32_t i = random_below(14); i > 0; i--) {
        const char *part = parts[random_below(sizeof parts / sizeof *parts)];
        length += (size_t)sprintf(plain + length, "%s", part);
        for (; *part; part++) size += (size_t)(random_below(6) ? sprintf(coloured + size, "%c", *part) : sprintf(coloured + size, "\x1b[3%um%c", random_below(8), *part));
    }
    smap_text at_once = SMAP_TEXT, got = SMAP_TEXT;
    smap_trace_count counts[2] = {{0}, {0}};
    smap_rewriting_options options = {.anywhere = true, .asks = true, .most = UINT64_MAX, .most_output = UINT64_MAX};
    smap_rewriting whole = rewriting_with(options);
    options.strip_ansi = true;
    smap_rewriting pieces = rewriting_with(options);
    smap_store all = store_of(UINT64_MAX), some = store_of(random_below(2) ? 0 : 10000);
    for (int i = 0; i < URLS; i++)
        if (cut(i) == i) insist(smap_store_put(&all, BYTES(urls[i]), &maps[i % MAPS], 1) == SMAP_DONE, "all maps");
    insist(smap_rewriting_give(&whole, (const uint8_t *)plain, length) == SMAP_DONE && smap_rewriting_end(&whole) == SMAP_DONE, "a text");
    run_on(&whole, &all);
    insist(smap_rewriting_text(&whole, &at_once) == SMAP_DONE, "what it comes to");
    for (bool is_ended = false; !is_ended;) {
        size_t piece = random_below(40);
        if (piece > size - given) piece = size - given;
        insist(smap_rewriting_give(&pieces, (const uint8_t *)coloured + given, piece) == SMAP_DONE, "a piece");
        given += piece;
        is_ended = given == size && smap_rewriting_end(&pieces) == SMAP_DONE;
        run_on(&pieces, &some);
    }
    insist(smap_rewriting_text(&pieces, &got) == SMAP_DONE && got.length == at_once.length && !memcmp(got.bytes, at_once.bytes, got.length), "the same text");
    insist(smap_rewriting_count(&whole, &counts[0]) == SMAP_DONE && smap_rewriting_count(&pieces, &counts[1]) == SMAP_DONE, "counts");
    insist(!memcmp(&counts[0], &counts[1], sizeof counts[0]), "and the same counts");
    smap_rewriting_free(&whole);
    smap_rewriting_free(&pieces);
    smap_store_free(&all);
    smap_store_free(&some);
}

static void random_run(void) {
    static const uint64_t bounds[] = {0, 1, 200, 500, 1000, 3000, 20000, UINT64_MAX};
    uint64_t most = bounds[random_below(sizeof bounds / sizeof *bounds)];
    smap_store store = store_of(most);
    model = (struct model){.most = {most, most / 16}};
    for (uint32_t i = random_below(12); i > 0; i--) {
        random_step(&store);
        counts_alike(&store);
    }
    random_text(&store);
    smap_store_free(&store);
    if (!random_below(20)) random_places();
}

int main(int argc, char **argv) {
    insist(smap_table_new(&none) == SMAP_DONE, "a table without maps");
    late();
    replaced();
    queries();
    failed();
    given_once();
    dropped();
    bounds();
    outputs();
    tables();
    locations();
    long runs = argc > 1 ? atol(argv[1]) : 100000;
    threads(runs / 50);
    for (int i = 0; i < MAPS; i++) maps[i] = map_of(i);
    for (; runs > 0; runs--) random_run();
    for (int i = 0; i < MAPS; i++) smap_map_free(&maps[i]);
    smap_table_free(&none);
    printf("store %ld\n", reported);
    return 0;
}
