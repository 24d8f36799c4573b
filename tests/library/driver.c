/* What tests/try-library asks of the library in C: driver COMMAND ARGUMENT.., in the program's words where it has some.
 *   look MAP, from MAP, many MAP   the first line of `smap lookup` for each LINE COLUMN of standard input, from 0
 *   refuse FILE..                  what `smap check --explain` prints on each file
 *   why FILE                       why the file is refused: the value, its limit and the column, or -, and the sentences
 *   counts MAP                     the line of `smap check`
 *   mappings MAP                   what `smap mappings` prints
 *   bytes MAP GENERATED            how many bytes of the generated file each source makes, and at last none
 *   version -                      the version, without an LF
 *   show MAP                       what `smap show` writes, without its LF
 *   compose OUTER SOURCE INNER     what `smap compose` writes, without its LF
 *   all OUTER LESS SOURCE INNER..  the map composed with all these inner ones, where LESS is prune, bare, both or none
 *   chain FOLDER OUTER LESS        the map composed with those NAME.map of the folder; on standard error the names that are asked for
 *   rewrite URL MAP                the trace on standard input, rewritten
 *   load URL MAP                   the same, where the map is read once a frame names it
 *   anywhere URL MAP               the text on standard input, with its places rewritten
 *   urls -                         where what looks like a URL stands in the text on standard input, as tests/vectors/place_urls.py has it
 *   again MAP COUNT                reads and frees the map so often, and prints how much memory is held more at the end
 *   threads MAP MAP                two threads with a map each
 *   mistakes MAP                   each refusal that no file has
 */
#include <malloc.h>
#include <pthread.h>
#include <smap.h>
#include <stdio.h>
#include <stdlib.h>
#include <string.h>

static void fail(const char *what) {
    fprintf(stderr, "driver: %s\n", what);
    exit(9);
}

static uint8_t *whole(FILE *file, size_t *length) {
    size_t room = 1 << 16, taken = 0, count;
    uint8_t *bytes = malloc(room);
    while ((count = fread(bytes + taken, 1, room - taken, file)) > 0) {
        taken += count;
        if (taken == room) bytes = realloc(bytes, room *= 2);
    }
    *length = taken;
    return bytes;
}

static uint8_t *bytes_in(const char *path, size_t *length) {
    FILE *file = fopen(path, "rb");
    if (!file) fail(path);
    uint8_t *bytes = whole(file, length);
    fclose(file);
    return bytes;
}

static uint32_t read_file(const char *path, const char *base, uint32_t interval, smap_map *map, smap_refusal *refusal) {
    size_t length;
    uint8_t *bytes = bytes_in(path, &length);
    uint32_t status = smap_map_read(bytes, length, (const uint8_t *)base, strlen(base), interval, map, refusal);
    free(bytes);
    return status;
}

static smap_map opened(const char *path) {
    smap_map map = {0};
    smap_refusal refusal = {0};
    if (read_file(path, "", 64, &map, &refusal) != SMAP_DONE) fail("a map is refused");
    return map;
}

static void put(smap_text text) { fwrite(text.bytes, 1, text.length, stdout); }

static void put_bytes(smap_bytes *bytes) {
    smap_text text = SMAP_TEXT;
    smap_bytes_text(bytes, &text);
    put(text);
    smap_bytes_free(bytes);
}

static void report(smap_map *map, const smap_found *found) {
    if (found->kind == 0) {
        puts("none");
    } else if (found->kind == 1) {
        puts("unmapped");
    } else {
        smap_source_text source = SMAP_SOURCE;
        if (smap_source(map, found->source, &source) != SMAP_DONE) fail("no such source");
        if (source.named)
            put(source.name);
        else
            printf("(no name)");
        uint32_t ignored = source.ignored;
        printf(":%u:%u", found->line + 1, found->column + 1);
        if (found->named) {
            smap_text name = SMAP_TEXT;
            if (smap_name(map, found->name, &name) != SMAP_DONE) fail("no such name");
            printf(" name ");
            put(name);
        }
        puts(ignored ? " ignored" : "");
    }
}

static void look(smap_map *map, uint32_t (*call)(const smap_map *, uint32_t, uint32_t, smap_found *)) {
    smap_position position;
    while (scanf("%u %u", &position.line, &position.column) == 2) {
        smap_found found = {0};
        if (call(map, position.line, position.column, &found) != SMAP_DONE) fail("look-up");
        report(map, &found);
    }
}

static void many(smap_map *map) {
    size_t count = 0, room = 1024;
    smap_position *positions = malloc(room * sizeof *positions);
    while (scanf("%u %u", &positions[count].line, &positions[count].column) == 2)
        if (++count == room) positions = realloc(positions, (room *= 2) * sizeof *positions);
    smap_found *found = calloc(count + 1, sizeof *found);
    if (smap_look_up_many(map, positions, count, found, count) != SMAP_DONE) fail("look-ups");
    for (size_t i = 0; i < count; i++) report(map, &found[i]);
    free(found);
    free(positions);
}

/* Reads a file that is refused, and asks why. */
static smap_reason refused(const char *path, smap_refusal *refusal, smap_bytes *text) {
    size_t length;
    uint8_t *bytes = bytes_in(path, &length);
    smap_map map = {0};
    smap_reason reason = {0};
    if (smap_map_read(bytes, length, bytes, 0, 64, &map, refusal) != SMAP_REFUSED) fail("a map is not refused");
    if (smap_refusal_explain(bytes, length, refusal, &reason, text) != SMAP_DONE) fail("not explained");
    free(bytes);
    return reason;
}

static void refuse(const char *path) {
    smap_refusal refusal = {0};
    smap_bytes text = {0};
    refused(path, &refusal, &text);
    printf("refused: %s: ", path);
    put_bytes(&text);
}

static void put_number(uint32_t has, int64_t number, char end) {
    if (has)
        printf("%lld%c", (long long)number, end);
    else
        printf("-%c", end);
}

static void why(const char *path) {
    smap_refusal refusal = {0};
    smap_bytes text = {0};
    smap_reason reason = refused(path, &refusal, &text);
    bool below = reason.has_value && reason.has_least && reason.value < reason.least;
    put_number(reason.has_value, reason.value, ' ');
    put_number(below ? reason.has_least : reason.has_most, below ? reason.least : reason.most, ' ');
    put_number(reason.has_column, (int64_t)reason.generated_column, '\n');
    smap_text lines = SMAP_TEXT;
    smap_bytes_text(&text, &lines);
    const uint8_t *end = memchr(lines.bytes, '\n', lines.length);
    put((smap_text){end + 1, (size_t)(lines.bytes + lines.length - end - 1)});
    smap_bytes_free(&text);
}

static void counts(const char *path) {
    smap_map map = opened(path);
    smap_count count = {0};
    smap_counts(&map, &count);
    printf("ok sections %lu sources %lu names %lu segments %lu lines %lu checkpoints %lu\n", (unsigned long)count.sections,
           (unsigned long)count.sources, (unsigned long)count.names, (unsigned long)count.segments,
           (unsigned long)count.lines, (unsigned long)count.checkpoints);
    smap_map_free(&map);
}

static void mappings(const char *path) {
    smap_map map = opened(path);
    smap_bytes bytes = {0};
    smap_text text = SMAP_TEXT;
    if (smap_map_mappings(&map, &bytes) != SMAP_DONE || smap_bytes_text(&bytes, &text) != SMAP_DONE) fail("no mappings");
    const smap_mapping *all = (const smap_mapping *)text.bytes;
    for (size_t i = 0; i < text.length / sizeof *all; i++) {
        const smap_mapping *one = &all[i];
        const smap_found found = {one->kind, one->column, one->source, one->original_line, one->original_column, one->named, one->name};
        printf("%u:%u ", one->line + 1, one->column + 1);
        report(&map, &found);
    }
    smap_bytes_free(&bytes);
    smap_map_free(&map);
}

static void bytes_by_source(const char *path, const char *generated) {
    smap_map map = opened(path);
    smap_count count = {0};
    smap_counts(&map, &count);
    size_t length;
    uint8_t *text = bytes_in(generated, &length);
    uint64_t *sources = calloc(count.sources + 1, sizeof *sources), unmapped = 0;
    uint32_t why = 0;
    if (smap_bytes_by_source(&map, text, length, sources, count.sources, &unmapped, &why) != SMAP_DONE) fail("not counted");
    for (uint64_t i = 0; i < count.sources; i++) printf("%llu ", (unsigned long long)sources[i]);
    printf("%llu\n", (unsigned long long)unmapped);
    free(sources);
    free(text);
    smap_map_free(&map);
}

static void fitted(const char *path, const char *generated) {
    smap_map map = opened(path);
    size_t length;
    uint8_t *text = bytes_in(generated, &length);
    smap_fit_count fit = {0};
    uint32_t why = 0;
    if (smap_fit(&map, text, length, &fit, &why) != SMAP_DONE) fail("not counted");
    const uint64_t counts[] = {fit.fits, fit.mappings, fit.past, fit.inside, fit.compared, fit.outside, fit.same};
    for (size_t i = 0; i < 7; i++) printf("%llu%c", (unsigned long long)counts[i], i < 6 ? ' ' : '\n');
    free(text);
    smap_map_free(&map);
}

static void version(void) {
    smap_text text = SMAP_TEXT;
    if (smap_version(&text) != SMAP_DONE) fail("no version");
    put(text);
}

static void show(const char *path) {
    smap_map map = opened(path);
    smap_bytes bytes = {0};
    if (smap_map_write(&map, &bytes) != SMAP_DONE) fail("not written");
    put_bytes(&bytes);
    smap_map_free(&map);
}

/* `refused` and the letter and the number of a code. */
static void put_refused(smap_code code) {
    smap_text text = SMAP_TEXT;
    if (smap_code_text(code, &text) != SMAP_DONE) fail("no code");
    printf("refused %.*s\n", (int)strcspn((const char *)text.bytes, " "), (const char *)text.bytes);
}

static void composed(const char *outer, const char *source, const char *inner) {
    smap_map a = opened(outer), b = opened(inner);
    smap_bytes bytes = {0};
    smap_code refusal = 0;
    uint32_t status = smap_compose(&a, (uint32_t)atol(source), &b, &bytes, &refusal);
    if (status == SMAP_REFUSED)
        put_refused(refusal);
    else if (status == SMAP_DONE)
        put_bytes(&bytes);
    smap_map_free(&a);
    smap_map_free(&b);
}

static void composed_with_all(int count, char **words) {
    smap_map outer = opened(words[0]), back = {0};
    smap_inners inners = {0};
    smap_bytes bytes = {0};
    smap_code refusal = 0;
    bool both = !strcmp(words[1], "both");
    smap_compose_options options = {.prune = both || !strcmp(words[1], "prune"), .no_content = both || !strcmp(words[1], "bare")};
    if (smap_inners_new(&outer, &inners) != SMAP_DONE) fail("no places");
    for (int i = 2; i < count; i += 2) {
        smap_map inner = opened(words[i + 1]);
        if (smap_inners_put(&inners, (uint32_t)atol(words[i]), &inner) != SMAP_DONE) fail("no place");
    }
    uint32_t status = smap_compose_all(&outer, &inners, &options, &bytes, &refusal);
    if (status == SMAP_REFUSED)
        put_refused(refusal);
    else if (status == SMAP_DONE)
        put_bytes(&bytes);
    if (smap_inners_take(&inners, (uint32_t)atol(words[2]), &back) != SMAP_DONE) fail("no map is back");
    smap_map_free(&back);
    smap_inners_free(&inners);
    smap_map_free(&outer);
}

/* Whether there is a map of this name in the folder, which is read then. */
static bool found_in(const char *folder, smap_text name, smap_map *map) {
    char path[4096];
    snprintf(path, sizeof path, "%s/%.*s.map", folder, (int)name.length, (const char *)name.bytes);
    FILE *file = fopen(path, "rb");
    if (!file) return false;
    fclose(file);
    *map = opened(path);
    return true;
}

static void composed_in_steps(const char *folder, const char *path, const char *less) {
    smap_map outer = opened(path);
    smap_inners inners = {0};
    smap_bytes bytes = {0};
    uint32_t source = 0, asked = 0;
    smap_code refusal = 0;
    const smap_compose_options options = {.prune = !strcmp(less, "prune")};
    if (smap_inners_new(&outer, &inners) != SMAP_DONE) fail("no places");
    for (; smap_inners_next(&outer, &inners, &source, &refusal) == SMAP_DONE; asked++) {
        smap_text name = SMAP_TEXT;
        smap_map map = {0};
        if (smap_inners_name(&outer, &inners, source, &name) != SMAP_DONE) fail("a source without a name is asked for");
        fprintf(stderr, "%s%.*s", asked ? " " : "", (int)name.length, (const char *)name.bytes);
        if (found_in(folder, name, &map) && smap_inners_put(&inners, source, &map) != SMAP_DONE) fail("no place");
    }
    if (refusal || smap_compose_all(&outer, &inners, &options, &bytes, &refusal) != SMAP_DONE) fail("not composed");
    put_bytes(&bytes);
    smap_inners_free(&inners);
    smap_map_free(&outer);
}

static void add(smap_table *table, const char *url, const char *path) {
    smap_map map = {0};
    smap_refusal refusal = {0};
    if (read_file(path, strstr(url, "://") ? url : "", 64, &map, &refusal) != SMAP_DONE) fail("a map is refused");
    uint32_t why = 0;
    if (smap_table_add(table, (const uint8_t *)url, strlen(url), &map, &why) != SMAP_DONE) fail("not added");
}

/* Adds the map once a frame names its URL. */
static void add_named(smap_table *table, const uint8_t *trace, size_t length, const char *url, const char *path) {
    smap_frame_url found = {0};
    while (smap_next_frame_url(trace, length, found.next, &found) == SMAP_DONE) {
        if (found.length != strlen(url) || memcmp(trace + found.start, url, found.length)) continue;
        add(table, url, path);
        return;
    }
}

static void urls(void) {
    size_t length;
    uint8_t *text = whole(stdin, &length);
    smap_url_finder finder = {0};
    smap_place_url found = {0};
    if (smap_url_finder_new(&finder) != SMAP_DONE) fail("no finder");
    while (smap_next_place_url(&finder, text, length, found.next, &found) == SMAP_DONE)
        printf("%zu %zu %zu %u\n", found.start, found.length, found.next, (unsigned)found.halved);
    smap_url_finder_free(&finder);
    free(text);
}

static void rewritten(const char *command, const char *url, const char *path) {
    size_t length;
    uint8_t *trace = whole(stdin, &length);
    smap_table table = {0};
    if (smap_table_new(&table) != SMAP_DONE) fail("no table");
    if (!strcmp(command, "load"))
        add_named(&table, trace, length, url, path);
    else
        add(&table, url, path);
    smap_bytes bytes = {0};
    smap_trace_count count = {0};
    uint32_t status = strcmp(command, "anywhere") ? smap_rewrite(&table, trace, length, false, &bytes, &count)
                                                  : smap_rewrite_anywhere(&table, trace, length, &bytes, &count);
    if (status != SMAP_DONE) fail("not rewritten");
    put_bytes(&bytes);
    fprintf(stderr, "lines %lu frames %lu mapped %lu hidden %lu\n", (unsigned long)count.lines, (unsigned long)count.frames,
            (unsigned long)count.mapped, (unsigned long)count.hidden);
    smap_table_free(&table);
    free(trace);
}

static void again(const char *path, long count) {
    size_t length;
    uint8_t *bytes = bytes_in(path, &length);
    size_t before = 0;
    for (long i = 0; i < count; i++) {
        smap_map map = {0};
        smap_refusal refusal = {0};
        if (smap_map_read(bytes, length, bytes, 0, 64, &map, &refusal) != SMAP_DONE) fail("a map is refused");
        smap_map_free(&map);
        if (i == 0) before = mallinfo2().uordblks;
    }
    printf("%ld\n", (long)(mallinfo2().uordblks - before));
    free(bytes);
}

struct work {
    smap_map map;
    uint64_t sum;
};

static void *sweep(void *given) {
    struct work *work = given;
    for (uint32_t line = 0; line < 200; line++)
        for (uint32_t column = 0; column < 500; column++) {
            smap_found found = {0};
            smap_look_up(&work->map, line, column, &found);
            work->sum = work->sum * 31 + found.kind + found.line * 7 + found.column;
        }
    return NULL;
}

static void threads(const char *first, const char *second) {
    const char *paths[2] = {first, second};
    uint64_t alone[2];
    for (int i = 0; i < 2; i++) {
        struct work work = {opened(paths[i]), 0};
        sweep(&work);
        alone[i] = work.sum;
        smap_map_free(&work.map);
    }
    struct work works[2] = {{opened(first), 0}, {opened(second), 0}};
    pthread_t ids[2];
    for (int i = 0; i < 2; i++) pthread_create(&ids[i], NULL, sweep, &works[i]);
    for (int i = 0; i < 2; i++) pthread_join(ids[i], NULL);
    for (int i = 0; i < 2; i++) {
        puts(works[i].sum == alone[i] ? "same" : "other");
        smap_map_free(&works[i].map);
    }
}

static void lends(smap_code code, const char *wanted) {
    smap_text text = SMAP_TEXT;
    if (smap_code_text(code, &text) != SMAP_DONE || text.length != strlen(wanted) || memcmp(text.bytes, wanted, text.length)) fail(wanted);
}

/* The texts of mappings, and why they have none. */
static void encodes(void) {
    static const smap_mapping mappings[] = {
        {0, 0, 2, 0, 0, 0, 1, 0}, {2, 5, 1, 9, 9, 9, 1, 9}, {2, 4, 1, 0, 0, 0, 0, 0}, {2147483648, 0, 1, 0, 0, 0, 0, 0}, {2147483647, 0, 1, 0, 0, 0, 0, 0},
    };
    static const struct { size_t from, count; const char *text; smap_encode_refusal refusal; } rows[] = {
        {0, 0, "", {0}}, {0, 2, "AAAAA;;K", {0}}, {0, 3, NULL, {SMAP_CODE_E1, 2}},
        {3, 1, NULL, {SMAP_CODE_E2, 0}}, {4, 1, NULL, {SMAP_CODE_E3, 0}},
    };
    for (size_t i = 0; i < sizeof rows / sizeof *rows; i++) {
        smap_bytes bytes = {0};
        smap_encode_refusal refusal = {0};
        smap_text text = SMAP_TEXT;
        uint32_t status = smap_encode(mappings + rows[i].from, rows[i].count, &bytes, &refusal);
        if (refusal.code != rows[i].refusal.code || refusal.mapping != rows[i].refusal.mapping) fail("another refusal of mappings");
        if (status != (rows[i].text ? SMAP_DONE : SMAP_REFUSED)) fail("mappings with another status");
        if (!rows[i].text) continue;
        smap_bytes_text(&bytes, &text);
        if (text.length != strlen(rows[i].text) || memcmp(text.bytes, rows[i].text, text.length)) fail(rows[i].text);
        smap_bytes_free(&bytes);
    }
}

static void mistakes(const char *path) {
    smap_text none_reported = SMAP_TEXT;
    lends(SMAP_CODE_C1, "C1 SourceIndex");
    lends(SMAP_CODE_C2, "C2 TooLarge");
    lends(SMAP_CODE_C4, "C4 NoSource");
    lends(SMAP_CODE_X3, "X3 TooMuch");
    lends(SMAP_CODE_O1, "O1 TextTooLong");
    lends(SMAP_CODE_NOT_UTF8, "NotUtf8");
    lends(SMAP_CODE_M1, "M1 TooLarge");
    lends(SMAP_CODE_A1, "A1 BadUrl");
    lends(SMAP_CODE_A2, "A2 Twice");
    lends(SMAP_CODE_E1, "E1 NotSorted");
    lends(SMAP_CODE_E2, "E2 OutOfRange");
    lends(SMAP_CODE_E3, "E3 TooLong");
    lends(SMAP_CODE_REFUSED, "refused");
    if (smap_code_text(0, &none_reported) != SMAP_REFUSED || smap_code_text(SMAP_CODE_REFUSED + 1, &none_reported) != SMAP_REFUSED ||
        smap_code_text(UINT32_MAX, &none_reported) != SMAP_REFUSED)
        fail("a text of no code");
    encodes();
    smap_map map = {0};
    smap_refusal refusal = {0};
    if (read_file(path, "no URL", 64, &map, &refusal) != SMAP_REFUSED || refusal.code != SMAP_CODE_USAGE) fail("a base");
    if (read_file(path, "\xff", 64, &map, &refusal) != SMAP_REFUSED || refusal.code != SMAP_CODE_USAGE) fail("a base that is no text");
    if (read_file(path, "", 0, &map, &refusal) != SMAP_REFUSED) fail("interval 0");
    if (refusal.code != SMAP_CODE_M15 || refusal.cause != SMAP_CODE_B1 || refusal.has_section) fail("B1");
    if (read_file(path, "", 4097, &map, &refusal) != SMAP_REFUSED) fail("interval 4097");
    if (refusal.code != SMAP_CODE_M15 || refusal.cause != SMAP_CODE_B1 || refusal.has_section) fail("B1");
    smap_refusal none = {0};
    smap_bytes bytes = {0};
    smap_reason reason = {.value = 77};
    if (smap_refusal_explain((const uint8_t *)"{}", 2, &none, &reason, &bytes) != SMAP_REFUSED || reason.value != 77) fail("a reason of no refusal");
    map = opened(path);
    smap_source_text source = SMAP_SOURCE;
    smap_text text = SMAP_TEXT;
    if (smap_source(&map, 1000000, &source) != SMAP_REFUSED) fail("a source past the last");
    if (smap_name(&map, 1000000, &text) != SMAP_REFUSED) fail("a name past the last");
    smap_map other = opened(path);
    smap_code why = 9;
    if (smap_compose(&map, 1000000, &other, &bytes, &why) != SMAP_REFUSED || why != SMAP_CODE_C1) fail("C1");
    smap_inners inners = {0}, more = {0};
    smap_count held = {0};
    const smap_compose_options options = {0};
    smap_counts(&map, &held);
    if (smap_inners_new(&map, &inners) != SMAP_DONE || smap_inners_new(&map, &more) != SMAP_DONE) fail("no places");
    if (smap_inners_put(&inners, (uint32_t)held.sources, &other) != SMAP_REFUSED) fail("a place past the last");
    if (smap_inners_put(&inners, UINT32_MAX, &other) != SMAP_REFUSED) fail("the last of all places");
    if (smap_inners_take(&inners, UINT32_MAX, &map) != SMAP_REFUSED || smap_inners_take(&inners, 0, &map) != SMAP_REFUSED) fail("a map of no source");
    if (smap_inners_put(&inners, 0, &other) != SMAP_DONE) fail("not put");
    other = opened(path);
    if (smap_inners_put(&inners, 0, &other) != SMAP_REFUSED) fail("a place with a map");
    const char one[] = "{\"version\":3,\"sources\":[],\"names\":[],\"mappings\":\"\"}";
    smap_map sourceless = {0};
    if (smap_map_read((const uint8_t *)one, sizeof one - 1, (const uint8_t *)"", 0, 64, &sourceless, &refusal) != SMAP_DONE) fail("not read");
    if (smap_compose_all(&sourceless, &more, &options, &bytes, &why) != SMAP_REFUSED || why != SMAP_CODE_C1) fail("C1 of all");
    smap_map_free(&sourceless);
    smap_inners_free(&more);
    smap_inners_free(&inners);
    smap_table table = {0};
    if (smap_table_new(&table) != SMAP_DONE) fail("no table");
    if (smap_table_add(&table, (const uint8_t *)"a\nb", 3, &map, &why) != SMAP_REFUSED || why != SMAP_CODE_A1) fail("A1");
    if (smap_table_add(&table, (const uint8_t *)"\xff", 1, &map, &why) != SMAP_REFUSED || why != SMAP_CODE_NOT_UTF8) fail("a URL that is no text");
    if (smap_table_add(&table, (const uint8_t *)"a.js", 4, &map, &why) != SMAP_DONE) fail("not added");
    if (smap_table_add(&table, (const uint8_t *)"a.js", 4, &other, &why) != SMAP_REFUSED || why != SMAP_CODE_A2) fail("A2");
    if (smap_table_add(&table, (const uint8_t *)"*a\r", 3, &other, &why) != SMAP_REFUSED || why != SMAP_CODE_A1) fail("A1 of a pattern");
    smap_found found = {0};
    if (smap_look_up(&other, 0, 0, &found) != SMAP_DONE) fail("a map that came back");
    if (smap_table_add(&table, (const uint8_t *)"*", 1, &other, &why) != SMAP_DONE) fail("a map of all URLs");
    smap_bytes placed = {0};
    smap_trace_count places = {0};
    if (smap_rewrite_anywhere(&table, (const uint8_t *)"12:30:45", 8, &placed, &places) != SMAP_REFUSED || placed.at) fail("a time of day");
    smap_table_free(&table);
    puts("mistakes 20");
}

int main(int count, char **words) {
    if (count < 3) fail("driver COMMAND ARGUMENT..");
    const char *command = words[1];
    if (!strcmp(command, "look") || !strcmp(command, "from") || !strcmp(command, "many")) {
        smap_map map = opened(words[2]);
        if (!strcmp(command, "many"))
            many(&map);
        else
            look(&map, strcmp(command, "look") ? smap_look_up_from : smap_look_up);
        smap_map_free(&map);
    } else if (!strcmp(command, "refuse")) {
        for (int i = 2; i < count; i++) refuse(words[i]);
    } else if (!strcmp(command, "why")) {
        why(words[2]);
    } else if (!strcmp(command, "counts")) {
        counts(words[2]);
    } else if (!strcmp(command, "mappings")) {
        mappings(words[2]);
    } else if (!strcmp(command, "bytes") && count > 3) {
        bytes_by_source(words[2], words[3]);
    } else if (!strcmp(command, "fit") && count > 3) {
        fitted(words[2], words[3]);
    } else if (!strcmp(command, "version")) {
        version();
    } else if (!strcmp(command, "show")) {
        show(words[2]);
    } else if (!strcmp(command, "compose")) {
        composed(words[2], words[3], words[4]);
    } else if (!strcmp(command, "all")) {
        composed_with_all(count - 2, words + 2);
    } else if (!strcmp(command, "chain") && count > 4) {
        composed_in_steps(words[2], words[3], words[4]);
    } else if (!strcmp(command, "rewrite") || !strcmp(command, "load") || !strcmp(command, "anywhere")) {
        rewritten(command, words[2], words[3]);
    } else if (!strcmp(command, "urls")) {
        urls();
    } else if (!strcmp(command, "again")) {
        again(words[2], atol(words[3]));
    } else if (!strcmp(command, "threads")) {
        threads(words[2], words[3]);
    } else if (!strcmp(command, "mistakes")) {
        mistakes(words[2]);
    } else {
        fail(command);
    }
    return 0;
}
