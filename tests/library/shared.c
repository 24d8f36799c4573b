/* Maps that several hold, in threads too, and look-ups over a table, lines around one, sizes, cut URLs and control sequences in C: shared. */
#include <pthread.h>
#include <smap.h>
#include <stdio.h>
#include <stdlib.h>
#include <string.h>

static int reported;

static void insist(bool holds, const char *what) {
    if (!holds) {
        fprintf(stderr, "shared: %s\n", what);
        exit(9);
    }
    reported++;
}

#define BYTES(text) (const uint8_t *)(text), sizeof(text) - 1

static smap_map read_map(const char *text, size_t length) {
    smap_map map = {0};
    smap_refusal refusal = {0};
    insist(smap_map_read((const uint8_t *)text, length, BYTES(""), 64, &map, &refusal) == SMAP_DONE, "a map");
    return map;
}

static bool is(smap_text text, const char *wanted) { return text.length == strlen(wanted) && !memcmp(text.bytes, wanted, text.length); }

/* Lines that end in CR LF, LF, CR, U+2028 and U+2029, and a last one that is empty. */
#define CONTENT "zero\\r\\none\\ntw\\u00f6\\rthree\\u2028four\\u2029"
static const char small[] = "{\"version\":3,\"file\":\"o.js\",\"sources\":[\"a.js\",null,\"b.js\"],\"names\":[\"n\",\"long\"],\"sourcesContent\":[\"" CONTENT
                            "\",null,\"\"],\"mappings\":\"AAAA,EACEA;IEAAC\",\"ignoreList\":[2]}";

static void sizes(void) {
    smap_map map = read_map(small, sizeof small - 1);
    uint64_t size = 0;
    insist(smap_map_size(&map, &size) == SMAP_DONE, "a size");
    /* o.js, a.js, b.js, the content with two letters and signs of 2 and 3 bytes, and the names; then a section and three sources, two
     * names, two checkpoints and three mappings. */
    const uint64_t texts = 4 + 4 + 4 + (4 + 2 + 3 + 1 + 4 + 1 + 5 + 3 + 4 + 3) + 1 + 4;
    insist(size == texts + 160 * 4 + 40 * 2 + 32 * 2 + 8 * 3, "how large a map is");
    smap_map_free(&map);
}

static void line_is(const smap_map *map, const smap_line_bytes *line, const char *wanted) {
    smap_source_text source = SMAP_SOURCE;
    insist(smap_source(map, 0, &source) == SMAP_DONE, "a source");
    insist(is((smap_text){source.content.bytes + line->start, line->length}, wanted) && !line->cut, wanted);
}

static void lines(void) {
    static const char *const wanted[] = {"zero", "one", "tw\303\266", "three", "four", ""};
    smap_map map = read_map(small, sizeof small - 1);
    for (uint32_t line = 0; line < 6; line++)
        for (uint32_t before = 0; before < 8; before++)
            for (uint32_t after = 0; after < 8; after++) {
                smap_line_bytes found[15];
                memset(found, 7, sizeof found);
                smap_line_range range = {99, 99};
                size_t places = before + 1 + after;
                insist(smap_source_lines(&map, 0, line, before, after, found, places, &range) == SMAP_DONE, "lines");
                uint32_t first = line < before ? 0 : line - before, last = line + after > 5 ? 5 : line + after;
                insist(range.first == first && range.count == last - first + 1, "which lines");
                for (uint32_t i = 0; i < range.count; i++) line_is(&map, &found[i], wanted[first + i]);
                for (size_t i = range.count; i < places; i++) insist(found[i].cut == 0x07070707, "a place that stays");
            }
    smap_line_bytes none[1] = {{7, 7, 7}};
    smap_line_range range = {99, 99};
    const uint32_t asked[][2] = {{0, 6}, {0, UINT32_MAX}, {1, 0}, {2, 1}, {3, 0}, {UINT32_MAX, 0}};
    for (size_t i = 0; i < sizeof asked / sizeof *asked; i++)
        insist(smap_source_lines(&map, asked[i][0], asked[i][1], 0, 0, none, 1, &range) == SMAP_REFUSED, "no line");
    insist(range.first == 99 && none[0].start == 7, "what stays");
    insist(smap_source_lines(&map, 2, 0, 0, 0, none, 1, &range) == SMAP_DONE && range.count == 1 && none[0].length == 0, "the line of no text");
    smap_map_free(&map);
}

/* A line of so many bytes of letters and then signs of three bytes. */
static void long_line(size_t letters, size_t signs, size_t kept, uint32_t cut) {
    const char head[] = "{\"version\":3,\"sources\":[\"a\"],\"mappings\":\"\",\"sourcesContent\":[\"", tail[] = "\"]}";
    size_t length = sizeof head - 1 + letters + 3 * signs + sizeof tail - 1;
    char *text = malloc(length + 1);
    insist(text != NULL, "memory");
    char *at = text + sprintf(text, "%s", head);
    memset(at, 'x', letters);
    at += letters;
    for (size_t i = 0; i < signs; i++, at += 3) memcpy(at, "\342\202\254", 3);
    memcpy(at, tail, sizeof tail - 1);
    smap_map map = read_map(text, length);
    smap_line_bytes line = {0};
    smap_line_range range = {0};
    insist(smap_source_lines(&map, 0, 0, 0, 0, &line, 1, &range) == SMAP_DONE, "a long line");
    insist(line.start == 0 && line.length == kept && line.cut == cut, "where it is cut");
    smap_map_free(&map);
    free(text);
}

static smap_table table_of(void) {
    smap_table table = {0};
    smap_map map = read_map(small, sizeof small - 1);
    smap_code refusal = 0;
    insist(smap_table_new(&table) == SMAP_DONE, "a table");
    insist(smap_table_add(&table, BYTES("https://e.test/o.js"), &map, &refusal) == SMAP_DONE, "a map in it");
    return table;
}

static void tables(void) {
    smap_table table = table_of();
    const smap_table_options plain = {0}, cut = {.cut = true}, after = {.after = true};
    smap_found found = {0};
    smap_source_text source = SMAP_SOURCE;
    smap_text name = SMAP_TEXT;
    insist(smap_table_look_up(&table, BYTES("https://e.test/o.js"), 0, 9, &plain, &found, &source, &name) == SMAP_DONE, "a place");
    insist(found.kind == 2 && found.line == 1 && found.column == 2 && is(source.name, "a.js") && source.held && is(name, "n"), "its answer");
    insist(smap_table_look_up(&table, BYTES("https://e.test/o.js?v=3#x"), 1, 9, &cut, &found, &source, &name) == SMAP_DONE, "a cut URL");
    insist(found.kind == 2 && source.ignored && is(source.name, "b.js") && is(name, "long") && source.held && source.content.length == 0, "its answer");
    insist(smap_table_look_up(&table, BYTES("https://e.test/o.js"), 0, 1, &after, &found, &source, &name) == SMAP_DONE, "the place behind");
    insist(found.kind == 2 && found.generated_column == 2 && is(name, "n"), "its answer");
    insist(smap_table_look_up(&table, BYTES("https://e.test/o.js"), 5, 0, &plain, &found, &source, &name) == SMAP_DONE, "no mapping");
    insist(found.kind == 0 && !source.named && !source.name.length && !source.content.length && !name.length, "its answer");
    insist(smap_table_look_up(&table, BYTES("https://e.test/o.js?v=3"), 0, 0, &plain, &found, &source, &name) == SMAP_REFUSED, "a whole URL");
    insist(smap_table_look_up(&table, BYTES("o.js"), 0, 0, &cut, &found, &source, &name) == SMAP_REFUSED, "no map");
    insist(found.kind == 0, "what stays");
    smap_table_free(&table);
}

static void cut_urls(void) {
    static const char *const urls[][2] = {{"a.js", "a.js"}, {"a.js?v", "a.js"}, {"a.js#x?y", "a.js"}, {"a?b#c", "a"}, {"?", ""}, {"", ""}};
    for (size_t i = 0; i < sizeof urls / sizeof *urls; i++) {
        smap_text cut = SMAP_TEXT;
        insist(smap_cut_url((const uint8_t *)urls[i][0], strlen(urls[i][0]), &cut) == SMAP_DONE && is(cut, urls[i][1]), "a cut URL");
    }
}

static void sequences(void) {
    smap_table table = table_of();
    const char text[] = "\33[31m  at f (https://e.test/\33[1mo.js\33[0m:1:1)\33[0m\n\33[";
    const char wanted[] = "  at f (a.js:1:1)\n\33[";
    for (int anywhere = 0; anywhere < 2; anywhere++) {
        const smap_rewrite_options options = {.anywhere = anywhere, .strip_ansi = true};
        smap_bytes bytes = {0};
        smap_trace_count count = {0};
        smap_text got = SMAP_TEXT;
        insist(smap_rewrite_with(&table, BYTES(text), &options, &bytes, &count) == SMAP_DONE, "a coloured text");
        smap_bytes_text(&bytes, &got);
        insist(is(got, wanted) && count.lines == 2 && count.frames == 1 && count.mapped == 1, "what becomes of it");
        smap_bytes_free(&bytes);
        const smap_rewrite_options as_it_is = {.anywhere = anywhere};
        insist(smap_rewrite_with(&table, BYTES(text), &as_it_is, &bytes, &count) == SMAP_DONE, "the same as it is");
        smap_bytes_text(&bytes, &got);
        insist(got.length == sizeof text - 1 && !memcmp(got.bytes, text, got.length) && count.mapped == 0, "what becomes of it");
        smap_bytes_free(&bytes);
    }
    smap_table_free(&table);
}

/* A map that a handle, another one, a table and a place hold: who is left has it, in whatever order they are freed. */
enum holder { HANDLE, OTHER, TABLE, PLACE, HOLDERS };

struct holders { smap_map handle, other, outer; smap_table table; smap_inners inners; };

static struct holders held_by_all(void) {
    struct holders by = {.handle = read_map(small, sizeof small - 1), .outer = read_map(small, sizeof small - 1)};
    smap_map place = {0};
    smap_code refusal = 0;
    insist(smap_map_share(&by.handle, &by.other) == SMAP_DONE && smap_map_share(&by.other, &place) == SMAP_DONE, "shares");
    insist(smap_table_new(&by.table) == SMAP_DONE, "a table");
    insist(smap_table_add_shared(&by.table, BYTES("*o.js"), &by.handle, &refusal) == SMAP_DONE, "a share in it");
    insist(smap_table_add_shared(&by.table, BYTES("*o.js"), &by.handle, &refusal) == SMAP_REFUSED && refusal == SMAP_CODE_A2, "a share that is refused");
    insist(smap_inners_new(&by.outer, &by.inners) == SMAP_DONE && smap_inners_put(&by.inners, 0, &place) == SMAP_DONE, "a share in its place");
    return by;
}

static bool has(struct holders *by, enum holder holder) {
    smap_found found = {0};
    smap_source_text source = SMAP_SOURCE;
    smap_text name = SMAP_TEXT;
    const smap_table_options options = {0};
    smap_map taken = {0};
    smap_map *map = holder == OTHER ? &by->other : &by->handle;
    if (holder == TABLE)
        return smap_table_look_up(&by->table, BYTES("https://e.test/o.js"), 0, 9, &options, &found, &source, &name) == SMAP_DONE && found.kind == 2 &&
               is(source.name, "a.js") && is(name, "n");
    if (holder == PLACE && smap_inners_take(&by->inners, 0, &taken) != SMAP_DONE) return false;
    if (holder == PLACE) map = &taken;
    bool right = smap_look_up(map, 0, 9, &found) == SMAP_DONE && found.kind == 2 && smap_source(map, found.source, &source) == SMAP_DONE && is(source.name, "a.js");
    return right && (holder != PLACE || smap_inners_put(&by->inners, 0, &taken) == SMAP_DONE);
}

static void give_up(struct holders *by, enum holder holder) {
    if (holder == HANDLE) smap_map_free(&by->handle);
    if (holder == OTHER) smap_map_free(&by->other);
    if (holder == TABLE) smap_table_free(&by->table);
    if (holder == PLACE) smap_inners_free(&by->inners);
}

static void in_any_order(void) {
    for (int order = 0; order < HOLDERS * HOLDERS * HOLDERS * HOLDERS; order++) {
        int asked = 0, digits[HOLDERS], rest = order;
        for (int i = 0; i < HOLDERS; i++, rest /= HOLDERS) asked |= 1 << (digits[i] = rest % HOLDERS);
        if (asked != (1 << HOLDERS) - 1) continue;
        struct holders by = held_by_all();
        for (int i = 0; i < HOLDERS; i++) {
            for (int j = i; j < HOLDERS; j++) insist(has(&by, (enum holder)digits[j]), "who is left has the map");
            give_up(&by, (enum holder)digits[i]);
        }
        smap_map_free(&by.outer);
    }
}

/* The sources of a map get no other names while something else holds it. */
static void renamed_alone(void) {
    static const char path[] = "{\"version\":3,\"sources\":[\"../a.js\"],\"names\":[],\"mappings\":\"AAAA\"}";
    for (int holder = 0; holder < 2; holder++) {
        smap_map map = read_map(path, sizeof path - 1), other = {0};
        smap_table table = {0};
        smap_source_text source = SMAP_SOURCE;
        smap_code refusal = 0;
        if (holder == 0) insist(smap_map_share(&map, &other) == SMAP_DONE, "a share");
        else insist(smap_table_new(&table) == SMAP_DONE && smap_table_add_shared(&table, BYTES("o.js"), &map, &refusal) == SMAP_DONE, "a share in a table");
        insist(smap_map_use_paths(&map, BYTES("/x/out/o.js")) == SMAP_REFUSED, "a map that is held twice is not renamed");
        insist(smap_source(&map, 0, &source) == SMAP_DONE && is(source.name, "../a.js"), "its source");
        if (holder == 0) smap_map_free(&other);
        else smap_table_free(&table);
        insist(smap_map_use_paths(&map, BYTES("/x/out/o.js")) == SMAP_DONE, "it is renamed where it is held once");
        insist(smap_source(&map, 0, &source) == SMAP_DONE && is(source.name, "/x/a.js"), "its source then");
        smap_map_free(&map);
    }
}

#define THREADS 8

/* What a thread has: a handle of the map, and a table that holds it. It frees them when it has done its rounds. */
struct shared { smap_map map; smap_table table; uint32_t seed; long rounds; bool same; };

static void *look_up(void *given) {
    struct shared *shared = given;
    shared->same = true;
    uint32_t seed = shared->seed;
    for (long i = 0; i < shared->rounds; i++) {
        seed = seed * 1664525 + 1013904223;
        uint32_t line = seed >> 30, column = seed >> 20 & 15;
        smap_found found = {0}, over = {0};
        smap_source_text source = SMAP_SOURCE;
        smap_text name = SMAP_TEXT;
        const smap_table_options options = {0};
        smap_map another = {0};
        bool right = smap_map_share(&shared->map, &another) == SMAP_DONE;
        smap_look_up(&another, line, column, &found);
        uint32_t status = smap_table_look_up(&shared->table, BYTES("https://e.test/o.js"), line, column, &options, &over, &source, &name);
        uint32_t kind = line < 1 || (line == 1 && column >= 4) ? 2 : 0, wanted = line == 1 ? 1 : column >= 2;
        right = right && status == SMAP_DONE && !memcmp(&found, &over, sizeof found) && found.kind == kind;
        if (kind == 2) right = right && found.line == wanted && is(source.name, line ? "b.js" : "a.js");
        smap_line_bytes at = {0};
        smap_line_range range = {0};
        right = right && smap_source_lines(&another, 0, line, 0, 0, &at, 1, &range) == SMAP_DONE && range.first == line;
        smap_map_free(&another);
        shared->same = shared->same && right;
    }
    smap_map_free(&shared->map);
    smap_table_free(&shared->table);
    return NULL;
}

static void threads(long rounds) {
    smap_map map = read_map(small, sizeof small - 1);
    pthread_t thread[THREADS];
    static struct shared shared[THREADS];
    for (uint32_t i = 0; i < THREADS; i++) {
        smap_code refusal = 0;
        shared[i] = (struct shared){.seed = i, .rounds = rounds / (1 + i % 3)};
        insist(smap_map_share(&map, &shared[i].map) == SMAP_DONE && smap_table_new(&shared[i].table) == SMAP_DONE, "a thread's own");
        insist(smap_table_add_shared(&shared[i].table, BYTES("https://e.test/o.js"), &map, &refusal) == SMAP_DONE, "the map in its table");
        insist(pthread_create(&thread[i], NULL, look_up, &shared[i]) == 0, "a thread");
    }
    smap_map_free(&map);
    for (uint32_t i = 0; i < THREADS; i++) {
        pthread_join(thread[i], NULL);
        insist(shared[i].same, "what each of eight threads finds in one map");
    }
}

/* The rounds of a thread may be given. */
int main(int argc, char **argv) {
    sizes();
    lines();
    long_line(65536, 0, 65536, 0);
    long_line(65537, 0, 65536, 1);
    long_line(65535, 1, 65535, 1);
    long_line(65533, 1, 65536, 0);
    long_line(0, 30000, 65535, 1);
    tables();
    cut_urls();
    sequences();
    in_any_order();
    renamed_alone();
    threads(argc > 1 ? atol(argv[1]) : 100000);
    printf("shared %d\n", reported);
    return 0;
}
