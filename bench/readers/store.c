/* Times a store of maps in C: store MAP POSITIONS SMALL prints milliseconds.
 *   map, url, look      look-ups of all POSITIONS in MAP with the source and the name, by its map; by one of 100 URLs of it that is asked
 *                       for before; and without that
 *   lines               16,000 lines over two maps of which the store holds one
 *   all, bound          20,000 traces of 20 frames over as many maps as SMALL makes 38 MB of, each trace over one, where the store may
 *                       hold all, or 36 MB; and how many were read then
 */
#define _POSIX_C_SOURCE 199309L
#include <smap.h>
#include <stdio.h>
#include <stdlib.h>
#include <string.h>
#include <time.h>

enum { URLS = 100, LINES = 16000, TRACES = 20000, FRAMES = 20 };

static uint8_t *whole(const char *path, size_t *length) {
    FILE *file = fopen(path, "rb");
    if (!file) exit(9);
    fseek(file, 0, SEEK_END);
    *length = (size_t)ftell(file);
    rewind(file);
    uint8_t *bytes = malloc(*length + 1);
    if (fread(bytes, 1, *length, file) != *length) exit(9);
    fclose(file);
    return bytes;
}

static double now(void) {
    struct timespec time;
    clock_gettime(CLOCK_PROCESS_CPUTIME_ID, &time);
    return (double)time.tv_sec * 1e3 + (double)time.tv_nsec / 1e6;
}

static void insist(bool holds) {
    if (!holds) exit(1);
}

static smap_map read_map(const uint8_t *bytes, size_t length) {
    smap_map map = {0};
    smap_refusal refusal = {0};
    insist(smap_map_read(bytes, length, bytes, 0, 64, &map, &refusal) == SMAP_DONE);
    return map;
}

static int url_of(char *url, unsigned number) { return sprintf(url, "https://example.test/static/js/chunk-%u.min.js", number); }

static uint64_t seed = 7;

static uint32_t random_below(uint32_t limit) {
    seed = seed * 6364136223846793005 + 1442695040888963407;
    return (uint32_t)((seed >> 33) % limit);
}

static uint64_t sum_of(const smap_found *found, const smap_source_text *source, const smap_text *name) {
    return found->kind == 2 ? found->line + found->column + source->name.length + (found->named ? name->length : 0) : 0;
}

static uint64_t by_map(const smap_map *map, const smap_position *positions, size_t places) {
    uint64_t sum = 0;
    for (size_t i = 0; i < places; i++) {
        smap_found found = {0};
        smap_source_text source = SMAP_SOURCE;
        smap_text name = SMAP_TEXT;
        smap_look_up(map, positions[i].line, positions[i].column, &found);
        if (found.kind == 2) smap_source(map, found.source, &source);
        if (found.named) smap_name(map, found.name, &name);
        sum += sum_of(&found, &source, &name);
    }
    return sum;
}

static uint64_t by_url(smap_store *store, const smap_position *positions, size_t places, bool asks) {
    static char urls[URLS][64];
    static int lengths[URLS];
    uint64_t sum = 0;
    uint32_t why = 0;
    for (unsigned i = 0; i < URLS; i++) lengths[i] = url_of(urls[i], i);
    for (size_t i = 0; i < places; i++) {
        const uint8_t *url = (const uint8_t *)urls[i % URLS];
        size_t length = (size_t)lengths[i % URLS];
        smap_found found = {0};
        smap_source_text source = SMAP_SOURCE;
        smap_text name = SMAP_TEXT;
        if (asks) smap_store_ask(store, url, length, 0, &why);
        smap_store_look_up(store, url, length, 0, positions[i].line, positions[i].column, false, &found, &source, &name, &why);
        sum += sum_of(&found, &source, &name);
    }
    return sum;
}

static void look_ups(smap_map *map, const smap_position *positions, size_t places) {
    smap_store store = {0};
    insist(smap_store_new(UINT64_MAX, &store) == SMAP_DONE);
    for (unsigned i = 0; i < URLS; i++) {
        char url[64];
        int length = url_of(url, i);
        insist(smap_store_put(&store, (const uint8_t *)url, (size_t)length, map, 1) == SMAP_DONE);
    }
    double begin = now();
    uint64_t sum = by_map(map, positions, places);
    double first = now();
    insist(by_url(&store, positions, places, true) == sum);
    double second = now();
    insist(by_url(&store, positions, places, false) == sum);
    printf("map %.1f url %.1f look %.1f\n", first - begin, second - first, now() - second);
    smap_store_free(&store);
}

static smap_rewriting rewriting_of(void) {
    const smap_rewriting_options options = {.asks = true, .most = UINT64_MAX, .most_output = UINT64_MAX};
    smap_rewriting rewriting = {0};
    insist(smap_rewriting_new(&options, &rewriting) == SMAP_DONE);
    return rewriting;
}

/* A table without maps. */
static smap_table none;

static uint32_t run(smap_rewriting *rewriting, smap_store *store) {
    smap_rewrite_refusal refusal = {0};
    return smap_rewriting_run(rewriting, &none, store, 0, &refusal);
}

static void lines_of_two(const uint8_t *bytes, size_t length) {
    smap_map maps[2] = {read_map(bytes, length), read_map(bytes, length)};
    smap_store store = {0};
    insist(smap_store_new(0, &store) == SMAP_DONE);
    smap_rewriting rewriting = rewriting_of();
    for (unsigned i = 0; i < LINES; i++) {
        char line[128], url[64];
        url_of(url, i & 1);
        int size = sprintf(line, "    at f (%s:1:%u)\n", url, 1 + i % 2000);
        insist(smap_rewriting_give(&rewriting, (const uint8_t *)line, (size_t)size) == SMAP_DONE);
    }
    smap_rewriting_end(&rewriting);
    double begin = now();
    long given = 0;
    while (run(&rewriting, &store) == SMAP_WANTED) {
        smap_text url = SMAP_TEXT, key = SMAP_TEXT;
        insist(smap_rewriting_url(&rewriting, &url) == SMAP_DONE && smap_store_key(&store, url.bytes, url.length, &key) == SMAP_DONE);
        insist(smap_store_put(&store, key.bytes, key.length, &maps[given++ & 1], 1) == SMAP_DONE);
    }
    printf("lines %.1f given %ld\n", now() - begin, given);
    smap_rewriting_free(&rewriting);
    smap_store_free(&store);
    smap_map_free(&maps[0]);
    smap_map_free(&maps[1]);
}

static void traces(const uint8_t *bytes, size_t length, bool is_bound) {
    smap_map one = read_map(bytes, length);
    uint64_t size = 0;
    smap_map_size(&one, &size);
    smap_map_free(&one);
    unsigned maps = (unsigned)(38000000 / size);
    smap_store store = {0};
    insist(smap_store_new(is_bound ? 36000000 : UINT64_MAX, &store) == SMAP_DONE);
    seed = 7;
    long read = 0;
    double begin = 0;
    for (int i = -TRACES; i < TRACES; i++) {
        if (i == 0) begin = now(), read = 0;
        smap_rewriting rewriting = rewriting_of();
        char url[64], line[128];
        url_of(url, random_below(maps));
        for (int frame = 0; frame < FRAMES; frame++) {
            int count = sprintf(line, "    at f (%s:%u:%u)\n", url, 1 + random_below(300), 1 + random_below(80));
            insist(smap_rewriting_give(&rewriting, (const uint8_t *)line, (size_t)count) == SMAP_DONE);
        }
        smap_rewriting_end(&rewriting);
        while (run(&rewriting, &store) == SMAP_WANTED) {
            smap_map map = read_map(bytes, length);
            insist(smap_store_put(&store, (const uint8_t *)url, strlen(url), &map, size) == SMAP_DONE);
            smap_map_free(&map);
            read++;
        }
        smap_rewriting_free(&rewriting);
    }
    printf("%s %.1f maps %u of %lu bytes, read %ld\n", is_bound ? "bound" : "all", now() - begin, maps, (unsigned long)size, read);
    smap_store_free(&store);
}

int main(int count, char **words) {
    if (count < 4) return 9;
    size_t length, size, small_length;
    uint8_t *bytes = whole(words[1], &length), *small = whole(words[3], &small_length);
    smap_position *positions = (smap_position *)whole(words[2], &size);
    smap_map map = read_map(bytes, length);
    insist(smap_table_new(&none) == SMAP_DONE);
    look_ups(&map, positions, size / sizeof *positions);
    smap_map_free(&map);
    lines_of_two(small, small_length);
    traces(small, small_length, false);
    traces(small, small_length, true);
    smap_table_free(&none);
    return 0;
}
