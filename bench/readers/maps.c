/* What maps.py and maps.js do, in C over the store, so that what the languages add is seen: seconds of processors, a line each. */
#include <smap.h>
#include <stdio.h>
#include <stdlib.h>
#include <string.h>
#include <time.h>

static const char map[] = "{\"version\":3,\"sources\":[\"https://e.test/x.ts\"],\"names\":[\"n\"],\"mappings\":\"AAAAA\"}";

static double spent(void) {
    struct timespec now;
    clock_gettime(CLOCK_PROCESS_CPUTIME_ID, &now);
    return (double)now.tv_sec + (double)now.tv_nsec * 1e-9;
}

static void need(bool is) {
    if (!is) abort();
}

/* Rewrites a frame of each of so many URLs in turn, over maps within a bound; each is read where it is wanted, or there is none. */
static double rewritten(unsigned lines, unsigned urls, uint64_t bound, bool has_maps) {
    char *text = malloc(lines * 64);
    size_t length = 0;
    need(text != NULL);
    for (unsigned i = 0; i < lines; i++) length += (size_t)sprintf(text + length, "f@https://e.test/%u.js:1:1\n", i % urls);
    const double begin = spent();
    const smap_rewriting_options options = {false, false, false, true, INT64_MAX, INT64_MAX};
    smap_table table = {0};
    smap_store store = {0};
    smap_rewriting rewriting = {0};
    need(!smap_table_new(&table) && !smap_store_new(bound, &store) && !smap_rewriting_new(&options, &rewriting));
    need(!smap_rewriting_give(&rewriting, (const uint8_t *)text, length) && !smap_rewriting_end(&rewriting));
    for (;;) {
        smap_rewrite_refusal refusal = {0};
        smap_refusal why = {0};
        smap_text url = SMAP_TEXT, key = SMAP_TEXT;
        smap_map read = {0};
        uint64_t size = 0;
        if (smap_rewriting_run(&rewriting, &table, &store, 1, &refusal) == SMAP_DONE) break;
        smap_rewriting_url(&rewriting, &url);
        smap_store_key(&store, url.bytes, url.length, &key);
        if (!has_maps) {
            need(!smap_store_put_none(&store, key.bytes, key.length, SMAP_MISSING, false, 0));
            continue;
        }
        need(!smap_map_read_within((const uint8_t *)map, sizeof map - 1, key.bytes, key.length, 64, 1 << 28, &read, &why));
        smap_map_size(&read, &size);
        need(!smap_store_put(&store, key.bytes, key.length, &read, size));
        smap_map_free(&read);
    }
    smap_rewriting_free(&rewriting);
    smap_store_free(&store);
    smap_table_free(&table);
    free(text);
    return spent() - begin;
}

int main(void) {
    printf("%.3f\n", rewritten(16000, 2, 0, true));
    printf("%.3f\n", rewritten(40000, 40000, 1 << 20, false));
    printf("%.3f\n", rewritten(40000, 40000, 1 << 30, true));
    return 0;
}
