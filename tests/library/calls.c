/* Each call of the library where it does what it is asked, and the refusals beside it: calls. What comes is worked out by hand. */
#include <smap.h>
#include <stdio.h>
#include <stdlib.h>
#include <string.h>

static long reported;

static void insist(bool holds, const char *what) {
    if (!holds) {
        fprintf(stderr, "calls: %s\n", what);
        exit(9);
    }
    reported++;
}

#define BYTES(text) (const uint8_t *)(text), strlen(text)

static void done(uint32_t status, const char *what) { insist(status == SMAP_DONE, what); }

static void refused(uint32_t status, const char *what) { insist(status == SMAP_REFUSED, what); }

static bool is(smap_text text, const char *wanted) { return text.length == strlen(wanted) && !memcmp(text.bytes, wanted, text.length); }

/* These bytes were handed out; they are freed. */
static void handed_out(smap_bytes *bytes, const char *wanted) {
    smap_text text = SMAP_TEXT;
    done(smap_bytes_text(bytes, &text), "bytes are lent");
    insist(is(text, wanted), wanted);
    smap_bytes_free(bytes);
}

static void is_called(smap_code code, const char *wanted) {
    smap_text text = SMAP_TEXT;
    done(smap_code_text(code, &text), wanted);
    insist(is(text, wanted), wanted);
}

/* Mappings at 0:0, with a name, 0:1 and 1:0, of lines 0, 1 and 3 of the only source. */
static const char lines_map[] = "{\"version\":3,\"file\":\"out.js\",\"sources\":[\"a.js\"],\"sourcesContent\":[\"x\"],\"names\":[\"f\"],"
                                "\"mappings\":\"AAAAA,CACC;AAEA\"}";

static smap_map read_at(const char *text, const char *base) {
    smap_map map = {0};
    smap_refusal refusal = {0};
    done(smap_map_read(BYTES(text), BYTES(base), 2, &map, &refusal), text);
    return map;
}

static smap_map read_map(const char *text) { return read_at(text, ""); }

static void positions(void) {
    smap_map map = read_map(lines_map);
    smap_found found = {9, 9, 9, 9, 9, 9, 9};
    done(smap_look_up(&map, 0, 5, &found), "a look-up");
    insist(found.kind == 2 && found.generated_column == 1 && found.source == 0, "which mapping answers");
    insist(found.line == 1 && found.column == 1 && found.named == 0 && found.name == 0, "its original");
    done(smap_look_up_from(&map, 1, 0, &found), "a look-up in the other direction");
    insist(found.kind == 2 && found.line == 3 && found.column == 1, "its answer");
    const smap_position asked[] = {{0, 0}, {2, 0}, {1, 7}};
    smap_found many[] = {found, found, found};
    done(smap_look_up_many(&map, asked, 3, many, 3), "look-ups");
    insist(many[0].kind == 2 && many[0].named == 1 && many[0].line == 0, "the first answer");
    insist(many[1].kind == 0 && many[2].kind == 2 && many[2].line == 3, "the other two");
    smap_count count = {9, 9, 9, 9, 9, 9};
    done(smap_counts(&map, &count), "counts");
    insist(count.sections == 1 && count.sources == 1 && count.names == 1, "what is listed");
    insist(count.segments == 3 && count.lines == 2 && count.checkpoints == 2, "what is indexed");
    smap_map_free(&map);
}

static void next_columns(void) {
    smap_map map = read_map("{\"version\":3,\"sources\":[\"a\"],\"mappings\":\"AAAA,I;C\"}");
    uint32_t next = 9;
    done(smap_next_column(&map, 0, 2, &next), "a mapping behind a column");
    insist(next == 4, "its column");
    refused(smap_next_column(&map, 0, 4, &next), "none behind the last");
    refused(smap_next_column(&map, 1, UINT32_MAX, &next), "none behind the last column");
    insist(next == 4, "the column stays");
    smap_map_free(&map);
}

static void texts(void) {
    smap_map map = read_at(lines_map, "https://h.test/m/out.js.map");
    smap_source_text source = {SMAP_TEXT, SMAP_TEXT, 0, 0, 9};
    done(smap_source(&map, 0, &source), "a source");
    insist(is(source.name, "https://h.test/m/a.js") && is(source.content, "x"), "its name and its content");
    insist(source.named == 1 && source.held == 1 && source.ignored == 0, "what it has");
    smap_text text = SMAP_TEXT;
    done(smap_name(&map, 0, &text), "a name");
    insist(is(text, "f"), "its text");
    done(smap_file(&map, &text), "the file");
    insist(is(text, "out.js"), "its name");
    smap_map_free(&map);
}

static void written(void) {
    smap_map outer = read_map(lines_map), inner = read_map("{\"version\":3,\"sources\":[\"b.ts\"],\"mappings\":\"AAEE\"}");
    smap_bytes bytes = {0}, composed = {0};
    done(smap_map_write(&outer, &bytes), "a map is written");
    handed_out(&bytes, "{\"file\":\"out.js\",\"mappings\":\"AAAAA,CACC;AAEA\",\"names\":[\"f\"],\"sources\":[\"a.js\"],\"sourcesContent\":[\"x\"],"
                       "\"version\":3}");
    smap_code refusal = 9;
    done(smap_compose(&outer, 0, &inner, &composed, &refusal), "two maps are composed");
    insist(refusal == 9, "no refusal is written");
    handed_out(&composed, "{\"file\":\"out.js\",\"mappings\":\"ACEEA,C;A\",\"names\":[\"f\"],\"sources\":[\"a.js\",\"b.ts\"],"
                          "\"sourcesContent\":[\"x\",null],\"version\":3}");
    smap_map_free(&inner);
    smap_map_free(&outer);
}

static bool counted(const smap_trace_count *count, uint64_t lines, uint64_t frames, uint64_t mapped) {
    return count->lines == lines && count->frames == frames && count->mapped == mapped && count->hidden == 0;
}

static void traces(void) {
    static const char trace[] = "Error: x\n    at g (https://h.test/out.js:1:2)\n";
    static const char places[] = "[https://h.test/out.js:1:2] {https://h.test/out.js:9:9}";
    smap_table table = {0};
    smap_map map = read_map(lines_map);
    smap_code refusal = 9;
    done(smap_table_new(&table), "a table");
    done(smap_table_add(&table, BYTES("https://h.test/out.js"), &map, &refusal), "a map in it");
    insist(refusal == 9, "no refusal is written");
    smap_bytes bytes = {0};
    smap_trace_count count = {9, 9, 9, 9};
    done(smap_rewrite(&table, BYTES(trace), false, &bytes, &count), "a trace");
    insist(counted(&count, 2, 1, 1), "its counts");
    handed_out(&bytes, "Error: x\n    at g (a.js:2:2)\n");
    done(smap_rewrite_anywhere(&table, BYTES(places), &bytes, &count), "places");
    insist(counted(&count, 1, 2, 1), "their counts");
    handed_out(&bytes, "[a.js:2:2] {https://h.test/out.js:9:9}");
    smap_table_free(&table);
}

static void frame_urls(void) {
    static const char trace[] = "Error\n    at g (u.js:1:2)\r\n\nf@v/w.js:3:4\nf@x\n@y:1:1";
    smap_frame_url found = {9, 9, 9};
    done(smap_next_frame_url(BYTES(trace), 0, &found), "a frame");
    insist(found.start == 16 && found.length == 4 && found.next == 27, "its URL");
    done(smap_next_frame_url(BYTES(trace), 27, &found), "a second frame");
    insist(found.start == 30 && found.length == 6 && found.next == 41, "its URL");
    done(smap_next_frame_url(BYTES(trace), 41, &found), "a third frame");
    insist(found.start == 46 && found.length == 1 && found.next == 51, "its URL");
    refused(smap_next_frame_url(BYTES(trace), 51, &found), "no fourth one");
    refused(smap_next_frame_url(BYTES(trace), 99, &found), "none past the end");
    insist(found.start == 46 && found.length == 1 && found.next == 51, "what was found stays");
}

static bool at(const smap_place_url *found, size_t start, size_t length, size_t next, uint32_t halved) {
    return found->start == start && found->length == length && found->next == next && found->halved == halved;
}

static void place_urls(void) {
    static const char text[] = "a at f (https://h/a.js?x=1:2:3)\n    at g (https://h.test/a.js:1:5)\n"
                               "see {\"s\":\"e:\\n    at C:\\\\Program Files\\\\a\\\\app.js:10:2\\n\"} and /srv/b.js:3:4, no.css:1:2 x.mjs:7:8";
    smap_url_finder finder = {0};
    smap_place_url found = {9, 9, 9, 9};
    done(smap_url_finder_new(&finder), "a finder");
    const smap_place_url wanted[] = {{8, 18, 30, 0}, {42, 19, 65, 0}, {88, 28, 121, 1}, {130, 9, 143, 0}, {156, 5, 165, 0}};
    size_t from = 0;
    for (int i = 0; i < 5; i++) {
        done(smap_next_place_url(&finder, BYTES(text), from, &found), "a place");
        insist(at(&found, wanted[i].start, wanted[i].length, wanted[i].next, wanted[i].halved), "its URL");
        from = found.next;
    }
    refused(smap_next_place_url(&finder, BYTES(text), 165, &found), "no sixth place");
    insist(at(&found, 156, 5, 165, 0), "what was found stays");
    /* From a line that begins within a text, from the beginning again, and in another text, shorter than what was read. */
    done(smap_next_place_url(&finder, BYTES(text), 67, &found), "a place from a later line on");
    insist(at(&found, 88, 28, 121, 1), "its URL");
    done(smap_next_place_url(&finder, BYTES(text), 0, &found), "the first place again");
    insist(found.start == 8 && found.next == 30, "its URL");
    done(smap_next_place_url(&finder, BYTES("/a:1:2 b.js:3:4"), 0, &found), "a place of another text");
    insist(found.start == 0 && found.length == 2 && found.next == 6, "its URL");
    refused(smap_next_place_url(&finder, BYTES("/a:1:2"), 6, &found), "none at the end of a shorter text");
    refused(smap_next_place_url(&finder, BYTES(""), 0, &found), "none in no text");
    refused(smap_next_place_url(&finder, BYTES(text), SIZE_MAX, &found), "none past the end");
    insist(found.start == 0 && found.length == 2 && found.next == 6, "what was found stays");
    /* A line without blanks of twice 65,536 bytes and more is broken off, and goes on behind the next blank. */
    static char line[140011];
    memset(line, 'x', 140000);
    memcpy(line + 140000, " /b.js:3:4", 11);
    done(smap_next_place_url(&finder, BYTES(line), 0, &found), "a place in a long line");
    insist(found.start == 140001 && found.length == 5 && found.next == 140010, "its URL");
    refused(smap_next_place_url(&finder, BYTES(line), found.next, &found), "no second one");
    smap_url_finder_free(&finder);
}

/* How many pages of memory this process has now. */
static long pages(void) {
    FILE *sizes = fopen("/proc/self/statm", "r");
    long all = 0, resident = 0;
    insist(sizes && fscanf(sizes, "%ld %ld", &all, &resident) == 2, "the pages of this process");
    fclose(sizes);
    return resident;
}

/* Each round reads 100,000 bytes twice, and has them handed out. In 300 rounds a call that frees nothing would keep 30 million bytes
 * and more. */
static void freed(void) {
    static char text[100200];
    int length = sprintf(text, "{\"version\":3,\"sources\":[\"a.js\"],\"sourcesContent\":[\"");
    for (int i = 0; i < 10000; i++) length += sprintf(text + length, "0123456789");
    sprintf(text + length, "\"],\"mappings\":\"AAAA\"}");
    long before = 0;
    for (int round = 0; round < 330; round++) {
        if (round == 30) before = pages();
        smap_bytes bytes = {0};
        smap_table table = {0};
        smap_code refusal = 0;
        smap_map map = read_map(text);
        done(smap_map_write(&map, &bytes), "a long map is written");
        smap_bytes_free(&bytes);
        smap_map_free(&map);
        map = read_map(text);
        done(smap_table_new(&table), "a table");
        done(smap_table_add(&table, BYTES("out.js"), &map, &refusal), "a long map in it");
        smap_table_free(&table);
    }
    insist(pages() < before + 2000, "what is freed is had again");
}

static smap_mapping mapped(uint32_t line, uint32_t column, uint32_t named) {
    return (smap_mapping){line, column, 2, 1, 3, 21, named, 1};
}

static void encoding(void) {
    const smap_mapping list[] = {{0, 300, 1, 1, 3, 21, 1, 1}, mapped(2, 2, 1), mapped(2, 3, 0)};
    const smap_mapping falling[] = {mapped(2, 2, 0), mapped(2, 1, 0)}, large[] = {mapped(2147483648, 0, 0)};
    smap_bytes bytes = {0}, none = {0};
    smap_encode_refusal refusal = {9, 9};
    done(smap_encode(list, 3, &bytes, &refusal), "mappings are encoded");
    insist(refusal.code == 9 && refusal.mapping == 9, "no refusal is written");
    handed_out(&bytes, "4S;;ECGqBC,CAAA");
    refused(smap_encode(falling, 2, &none, &refusal), "mappings that fall");
    is_called(refusal.code, "E1 NotSorted");
    insist(refusal.mapping == 1, "which one falls");
    refused(smap_encode(large, 1, &none, &refusal), "a large line");
    is_called(refusal.code, "E2 OutOfRange");
    insist(refusal.mapping == 0 && !none.at, "which one is too large");
}

/* At 0:0 of source 0 at 0:0 with name 0; at 0:300 of none; at 2:2 of source 1 at 3:21 with name 1; and at 2:3 of source 2 at 2:20. */
static void mappings(void) {
    static const uint8_t wanted[] = {
        0, 0, 0, 0, 0, 0, 0, 0, 2, 0, 0, 0, 0, 0, 0, 0, 0, 0, 0, 0, 0, 0, 0, 0, 1, 0, 0, 0, 0, 0, 0, 0,
        0, 0, 0, 0, 44, 1, 0, 0, 1, 0, 0, 0, 0, 0, 0, 0, 0, 0, 0, 0, 0, 0, 0, 0, 0, 0, 0, 0, 0, 0, 0, 0,
        2, 0, 0, 0, 2, 0, 0, 0, 2, 0, 0, 0, 1, 0, 0, 0, 3, 0, 0, 0, 21, 0, 0, 0, 1, 0, 0, 0, 1, 0, 0, 0,
        2, 0, 0, 0, 3, 0, 0, 0, 2, 0, 0, 0, 2, 0, 0, 0, 2, 0, 0, 0, 20, 0, 0, 0, 0, 0, 0, 0, 0, 0, 0, 0,
    };
    smap_map map = read_map("{\"version\":3,\"sources\":[\"a.js\",\"b.js\",\"c.js\"],\"names\":[\"f\",\"g\"],\"mappings\":\"AAAAA,4S;;ECGqBC,CCDD\"}");
    smap_bytes bytes = {0};
    smap_text text = SMAP_TEXT;
    done(smap_map_mappings(&map, &bytes), "mappings are handed out");
    done(smap_bytes_text(&bytes, &text), "they are lent");
    insist(text.length == sizeof wanted && !memcmp(text.bytes, wanted, sizeof wanted), "their bytes");
    smap_bytes_free(&bytes);
    smap_map_free(&map);
}

static void only_source_is(smap_map *map, const char *wanted) {
    smap_source_text source = SMAP_SOURCE;
    done(smap_source(map, 0, &source), "a source");
    insist(is(source.name, wanted), wanted);
}

static const char shared_map[] = "{\"version\":3,\"sources\":[\"../src/x.ts\"],\"names\":[\"f\"],\"mappings\":\"AAAAA\"}";

static void sharing(void) {
    smap_map map = read_map(shared_map), other = {0}, last = {0};
    done(smap_map_share(&map, &other), "another handle");
    done(smap_map_share(&other, &last), "another of that");
    smap_map_free(&map);
    refused(smap_map_use_paths(&other, BYTES("/app/out/x.js")), "a map that is shared keeps its names");
    only_source_is(&other, "../src/x.ts");
    only_source_is(&last, "../src/x.ts");
    smap_map_free(&other);
    smap_text name = SMAP_TEXT;
    done(smap_name(&last, 0, &name), "a name");
    insist(is(name, "f"), "the last handle has the map");
    done(smap_map_use_paths(&last, BYTES("/app/out/x.js")), "the only handle names by paths again");
    only_source_is(&last, "/app/src/x.ts");
    smap_map_free(&last);
}

static void sharing_with_a_table(void) {
    smap_map map = read_map(shared_map);
    smap_table table = {0};
    smap_code refusal = 9;
    done(smap_table_new(&table), "a table");
    done(smap_table_add_shared(&table, BYTES("o.js"), &map, &refusal), "a map in it and in a handle");
    insist(refusal == 9, "no refusal is written");
    refused(smap_map_use_paths(&map, BYTES("/app/out/x.js")), "a map that a table holds keeps its names");
    smap_table_free(&table);
    done(smap_map_use_paths(&map, BYTES("/app/out/x.js")), "it names by paths again");
    only_source_is(&map, "/app/src/x.ts");
    smap_map_free(&map);
}

static void paths(void) {
    static const char text[] = "{\"version\":3,\"sources\":[\"../../src/x.ts\",\"/y.ts\"],\"mappings\":\"AAAA,CCAA\"}";
    smap_map map = read_map(text), stands = read_map(text);
    done(smap_map_use_paths(&map, BYTES("/srv/app/dist/util/x.js?v=1")), "sources are named by paths");
    only_source_is(&map, "/srv/app/src/x.ts");
    smap_refusal refusal = {0};
    done(smap_map_stand_at(&stands, BYTES("./dist/a/x.js.map"), 53, &refusal), "sources go on from the folder of their map");
    only_source_is(&stands, "./src/x.ts");
    done(smap_is_path(BYTES("C:\\app.js")), "a path");
    refused(smap_is_path(BYTES("app.js")), "no path");
    smap_map_free(&map);
    smap_map_free(&stands);
}

/* The first mapping is of source 0, with a name, and the second one of source 1. */
static const char outer_map[] = "{\"version\":3,\"file\":\"o.js\",\"sources\":[\"a.js\",\"out/b.js\"],\"sourcesContent\":[\"x\",\"y\"],\"names\":[\"f\"],"
                                "\"mappings\":\"AAAAA,CCAA\"}";
static const char inner_map[] = "{\"version\":3,\"sources\":[\"../src/c.ts\"],\"sourcesContent\":[\"z\"],\"mappings\":\"AAEE\"}";
/* Its one mapping stands where that one leads, and its source has the name of the one that leads there. */
static const char innermost_map[] = "{\"version\":3,\"sources\":[\"../out/b.js\"],\"mappings\":\";;EAAA\"}";

/* Composes these maps, which stay. */
static void composed(smap_map *outer, smap_inners *inners, bool less, const char *wanted) {
    const smap_compose_options options = {less, less};
    smap_bytes bytes = {0};
    smap_code refusal = 9;
    done(smap_compose_all(outer, inners, &options, &bytes, &refusal), "maps are composed");
    insist(refusal == 9, "no refusal is written");
    handed_out(&bytes, wanted);
}

static void composing(void) {
    smap_map outer = read_map(outer_map), inner = read_map(inner_map), back = {0};
    smap_inners inners = {0};
    done(smap_inners_new(&outer, &inners), "places");
    refused(smap_inners_put(&inners, 2, &inner), "no third place");
    done(smap_inners_put(&inners, 1, &inner), "a map in its place");
    composed(&outer, &inners, false, "{\"file\":\"o.js\",\"mappings\":\"AAAAA,CEEE\",\"names\":[\"f\"],\"sources\":[\"a.js\",\"out/b.js\",\"src/c.ts\"],"
                                     "\"sourcesContent\":[\"x\",\"y\",\"z\"],\"version\":3}");
    composed(&outer, &inners, true, "{\"file\":\"o.js\",\"mappings\":\"AAAAA,CCEE\",\"names\":[\"f\"],\"sources\":[\"a.js\",\"src/c.ts\"],\"version\":3}");
    refused(smap_inners_take(&inners, 0, &back), "no map in the first place");
    done(smap_inners_take(&inners, 1, &back), "a map out of its place");
    smap_map again = {0};
    refused(smap_inners_take(&inners, 1, &again), "no map twice");
    insist(!again.at, "an empty handle");
    smap_map_free(&back);
    smap_inners_free(&inners);
    smap_map_free(&outer);
}

static void composing_step_by_step(void) {
    smap_map outer = read_map(outer_map), inner = read_map(inner_map), innermost = read_map(innermost_map);
    smap_inners inners = {0};
    uint32_t source = 9;
    smap_code refusal = 9;
    done(smap_inners_new(&outer, &inners), "places");
    done(smap_inners_next(&outer, &inners, &source, &refusal), "the first source is asked for");
    insist(source == 0 && refusal == 9, "which");
    done(smap_inners_next(&outer, &inners, &source, &refusal), "the second source is asked for");
    insist(source == 1, "which");
    done(smap_inners_put(&inners, 1, &inner), "its map");
    done(smap_inners_next(&outer, &inners, &source, &refusal), "the source of its map is asked for");
    insist(source == 2 && refusal == 9, "which");
    done(smap_inners_put(&inners, 2, &innermost), "its map");
    refused(smap_inners_next(&outer, &inners, &source, &refusal), "no more");
    insist(source == 2 && refusal == 0, "no source");
    composed(&outer, &inners, false, "{\"file\":\"o.js\",\"mappings\":\"AAAAA,CGAA\",\"names\":[\"f\"],\"sources\":[\"a.js\",\"out/b.js\",\"src/c.ts\",\"out/b.js\"],"
                                     "\"sourcesContent\":[\"x\",\"y\",\"z\",null],\"version\":3}");
    smap_text name = SMAP_TEXT;
    done(smap_inners_name(&outer, &inners, 3, &name), "the name of a source with a place");
    insist(is(name, "out/b.js"), "which");
    smap_inners_free(&inners);
    smap_map_free(&outer);
}

static void debug_ids(void) {
    static const char named[] = "{\"debug_id\":\"b\",\"debugId\":\"a\\u00e9\",\"version\":3,\"sources\":[],\"names\":[],\"mappings\":\"\"}";
    static const char unnamed[] = "{\"debugId\":7,\"version\":3,\"sources\":[],\"names\":[],\"mappings\":\"\"}";
    smap_map map = {0}, other = {0};
    smap_bytes id = {0}, text = {0}, none = {0};
    uint32_t has_id = 9;
    smap_refusal refusal = {99, 99, 99, 99, 99, 99};
    done(smap_map_read_with_id(BYTES(named), BYTES(""), 2, 9, &map, &id, &has_id, &refusal), "a map with a debug id");
    insist(has_id == 1, "it has one");
    handed_out(&id, "a\xc3\xa9");
    done(smap_map_write(&map, &text), "it is written without");
    refused(smap_bytes_put_debug_id(&text, (const uint8_t *)"q\xff", 2), "an id that is no text");
    done(smap_bytes_put_debug_id(&text, BYTES("q\"")), "a debug id is put");
    handed_out(&text, "{\"mappings\":\"\",\"names\":[],\"sources\":[],\"version\":3,\"debugId\":\"q\\\"\"}");
    has_id = 9;
    refused(smap_map_read_with_id(BYTES("[]"), BYTES(""), 2, 9, &other, &none, &has_id, &refusal), "no map");
    is_called(refusal.code, "M3 NotObject");
    insist(has_id == 9, "nothing is said of an id");
    done(smap_map_read_with_id(BYTES(unnamed), BYTES(""), 2, 9, &other, &none, &has_id, &refusal), "a map without a debug id");
    insist(has_id == 0 && !none.at, "it has none");
    smap_map_free(&map);
    smap_map_free(&other);
}

/* The segment stands at column 2 and leads to line 1 of source 0, which there is not. */
static void reasons(void) {
    static const char text[] = "{\"version\":3,\"sources\":[],\"mappings\":\"EACA\"}";
    smap_map map = {0};
    smap_refusal refusal = {99, 99, 99, 99, 99, 99};
    refused(smap_map_read(BYTES(text), BYTES(""), 2, &map, &refusal), "a map without sources");
    insist(refusal.has_section == 1 && refusal.section == 0 && refusal.line == 0 && refusal.byte == 0, "where");
    is_called(refusal.code, "M14 Text");
    is_called(refusal.cause, "F10 SourceIndex");
    smap_reason reason = {9, 9, 9, 9, 9, 9, 9, 9};
    smap_bytes bytes = {0};
    done(smap_refusal_explain(BYTES(text), &refusal, &reason, &bytes), "why it is refused");
    insist(reason.has_value == 1 && reason.value == 0 && reason.has_least == 1 && reason.least == 0, "the value and the least");
    insist(reason.has_most == 1 && reason.most == -1 && reason.has_column == 1 && reason.generated_column == 2, "the most and the column");
    handed_out(&bytes, "M14 Text 0 F10 SourceIndex line 1 byte 0\n  segment \"EACA\" at line 1, column 3, numbers 2, 0, 1, 0\n"
                       "  source index 0, and the map has 0 sources\n");
    refused(smap_map_read(BYTES("[]"), BYTES(""), 2, &map, &refusal), "no map");
    insist(refusal.cause == 0 && refusal.has_section == 0, "nothing is known of a section");
    is_called(refusal.code, "M3 NotObject");
    refused(smap_map_read(BYTES(lines_map), BYTES("h.test"), 2, &map, &refusal), "a base that is no URL");
    is_called(refusal.code, "usage");
    insist(!map.at, "the handle stays empty");
}

/* What files that are no maps begin as. */
static void beginnings(void) {
    static const char nothing[] = "the file holds nothing", html[] = "the file is HTML or XML", json[] = "the file begins as JSON";
    static const char utf16[] = "the file is UTF-16, and JSON is UTF-8", other[] = "the file is no JSON text, and of no kind that is often taken for a map";
    static const struct { const char *bytes; size_t length; const char *said; } rows[] = {
        {"", 0, nothing}, {" \r\n\t", 4, nothing}, {"\xef\xbb\xbf", 3, nothing},
        {"\x1f\x8b\x08", 4, "the file is packed with gzip"}, {"PK\x03\x04\x14", 5, "the file is a zip archive"},
        {"\xfd" "7zXZ\0", 7, "the file is packed with xz"}, {"\x28\xb5\x2f\xfd", 4, "the file is packed with zstd"}, {"\xfd" "7zXZ", 5, other},
        {"\xff\xfe{", 4, utf16}, {"{\0\"", 4, utf16}, {"\0{\0\"", 4, utf16}, {"{", 2, utf16},
        {"\xef\xbb\xbf \n<!DOCTYPE html>", 20, html}, {"<?xml version=\"1.0\"?><svg/>", 27, html},
        {"DATA:application/json,%7B", 25, "the file is a data: URL, not the map that it holds"},
        {"f();\n//# sourceMappingURL=f.js.map", 34, "the file is JavaScript with a sourceMappingURL: the map is the file that this names"},
        {")]}'\n{\"version\":", 16, json}, {"{\"sourcesContent\":[\"//# sourceMappingURL=", 41, json},
        {"map", 3, other}, {"\0asm\1\0\0", 8, other}, {"\0\1\0", 4, other},
    };
    for (size_t i = 0; i < sizeof rows / sizeof *rows; i++) {
        smap_map map = {0};
        smap_refusal refusal = {0};
        smap_reason reason = {0};
        smap_bytes bytes = {0};
        smap_text text = SMAP_TEXT;
        const uint8_t *file = (const uint8_t *)rows[i].bytes;
        refused(smap_map_read(file, rows[i].length, BYTES(""), 64, &map, &refusal), "no map");
        is_called(refusal.code, "M2 NotJson");
        done(smap_refusal_explain(file, rows[i].length, &refusal, &reason, &bytes), "why it is none");
        done(smap_bytes_text(&bytes, &text), "it is lent");
        char wanted[200];
        const size_t length = (size_t)sprintf(wanted, "M2 NotJson\n  %s\n", rows[i].said);
        insist(text.length > length && !memcmp(text.bytes, wanted, length), rows[i].said);
        smap_bytes_free(&bytes);
    }
}

/* The first and the last of each family: what a number is of stays so. */
static void codes(void) {
    static const struct { smap_code code; const char *text; } rows[] = {
        {1, "M1 TooLarge"}, {18, "M18 LongNames"}, {19, "F1 BadDigit"}, {29, "F11 NameIndex"}, {30, "B1 Interval"}, {35, "O1 TextTooLong"},
        {37, "C1 SourceIndex"}, {41, "E1 NotSorted"}, {45, "U1 UrlTooLong"}, {47, "A1 BadUrl"}, {51, "P1 BadPosition"}, {58, "X6 FewMapped"},
        {60, "NotUtf8"}, {64, "refused"},
    };
    for (size_t i = 0; i < sizeof rows / sizeof *rows; i++) is_called(rows[i].code, rows[i].text);
    smap_text text = {BYTES("as it was")};
    refused(smap_code_text(0, &text), "no code 0");
    refused(smap_code_text(65, &text), "no code 65");
    insist(is(text, "as it was"), "no text is written");
}

/* At 0:0 and 0:4 mappings of the same places of `let ab`. */
static void fits(void) {
    smap_map map = read_map("{\"version\":3,\"sources\":[\"a\"],\"sourcesContent\":[\"let ab\"],\"mappings\":\"AAAA,IAAI\"}");
    smap_fit_count count = {9, 9, 9, 9, 9, 9, 9};
    smap_code refusal = 9;
    done(smap_fit(&map, BYTES("var ab"), &count, &refusal), "a map is put to its texts");
    insist(refusal == 9 && count.mappings == 2 && count.past == 0 && count.inside == 0, "where its mappings stand");
    insist(count.compared == 2 && count.outside == 0 && count.same == 1 && count.fits == 1, "how they compare");
    refused(smap_fit(&map, (const uint8_t *)"\xff", 1, &count, &refusal), "no text");
    insist(count.mappings == 2, "the counts stay");
    is_called(refusal, "NotUtf8");
    smap_map_free(&map);
}

/* At 0:0 and 0:4 line 0, column 2 of `a`; at 1:0 line 0, column 6 of it. */
static void originals(void) {
    smap_map map = read_map("{\"version\":3,\"sources\":[\"a\"],\"mappings\":\"AAAE,IAAA;AAAI\"}");
    smap_originals originals = {0};
    smap_generated_places found = SMAP_PLACES;
    done(smap_originals_new(&map, &originals), "originals");
    smap_map_free(&map);
    done(smap_generated(&originals, 0, 0, 5, SMAP_AT_OR_BEFORE, &found), "places at the column before");
    insist(found.count == 2 && found.places[0].line == 0 && found.places[0].column == 0, "the first");
    insist(found.places[1].column == 4 && found.places[1].original_column == 2, "the second");
    done(smap_generated(&originals, 0, 0, 5, SMAP_AT_OR_AFTER, &found), "places at the column behind");
    insist(found.count == 1 && found.places[0].line == 1 && found.places[0].original_column == 6, "the only one");
    done(smap_generated_on_line(&originals, 0, 0, &found), "places of a whole line");
    insist(found.count == 3 && found.places[1].column == 4 && found.places[1].original_column == 2, "the second");
    insist(found.places[2].line == 1 && found.places[2].original_column == 6, "the third");
    smap_generated_places none = SMAP_PLACES;
    refused(smap_generated(&originals, 0, 0, 5, 2, &none), "no third direction");
    insist(none.count == 0, "no places");
    smap_originals_free(&originals);
}

static const char content_map[] = "{\"version\":3,\"sources\":[\"a.js\"],\"sourcesContent\":[\"one\\r\\ntwo\\nthree\"],\"names\":[\"f\"],"
                                  "\"mappings\":\"AAAAA,CACC\"}";

static smap_table table_of(const char *url) {
    smap_table table = {0};
    smap_map map = read_map(content_map);
    smap_code refusal = 0;
    done(smap_table_new(&table), "a table");
    done(smap_table_add(&table, BYTES(url), &map, &refusal), "a map in it");
    return table;
}

static void tables(void) {
    smap_table table = table_of("https://h.test/out.js");
    smap_found found = {9, 9, 9, 9, 9, 9, 9};
    smap_source_text source = {SMAP_TEXT, SMAP_TEXT, 9, 9, 9};
    smap_text name = SMAP_TEXT;
    smap_table_options options = {false, false};
    const char *url = "https://h.test/out.js?v=3";
    refused(smap_table_look_up(&table, BYTES(url), 0, 0, &options, &found, &source, &name), "a URL that has no map");
    insist(found.kind == 9 && source.named == 9, "nothing is answered");
    options.cut = true;
    done(smap_table_look_up(&table, BYTES(url), 0, 0, &options, &found, &source, &name), "a URL that is cut");
    insist(found.kind == 2 && found.line == 0 && found.named == 1 && found.name == 0, "the mapping");
    insist(is(source.name, "a.js") && is(source.content, "one\r\ntwo\nthree") && is(name, "f"), "the texts");
    insist(source.named == 1 && source.held == 1 && source.ignored == 0, "what the source has");
    smap_text cut = SMAP_TEXT;
    done(smap_cut_url(BYTES("https://h.test/a.js?v=3#x"), &cut), "a URL is cut");
    insist(is(cut, "https://h.test/a.js"), "what is left");
    smap_table_free(&table);
}

static void source_lines(void) {
    smap_map map = read_map(content_map);
    const smap_line_bytes none = {9, 9, 9};
    smap_line_bytes lines[] = {none, none, none, none};
    smap_line_range range = {9, 9};
    done(smap_source_lines(&map, 0, 1, 1, 2, lines, 4, &range), "lines");
    insist(range.first == 0 && range.count == 3, "how many");
    insist(lines[0].start == 0 && lines[0].length == 3 && lines[0].cut == 0 && lines[1].start == 5 && lines[1].length == 3, "the first two");
    insist(lines[2].start == 9 && lines[2].length == 5 && lines[3].start == 9, "the third, and no more");
    refused(smap_source_lines(&map, 0, 3, 1, 2, lines, 4, &range), "no fourth line");
    insist(range.first == 0 && range.count == 3, "the range stays");
    uint64_t size = 0;
    done(smap_map_size(&map, &size), "the size of a map");
    insist(size == 4 + 14 + 1 + 160 * 2 + 40 + 32 + 8 * 2, "how many bytes");
    smap_map_free(&map);
}

static void rewriting_otherwise(void) {
    smap_table table = table_of("https://h.test/out.js");
    const smap_rewrite_options coloured = {false, false, true, true}, plain = {false, false, false, false};
    smap_bytes bytes = {0};
    smap_trace_count count = {9, 9, 9, 9};
    done(smap_rewrite_with(&table, BYTES("\x1b[31m    at g (https://h.test/\x1b[1mout.js?v=3:1:2)\x1b[0m\n"), &coloured, &bytes, &count), "colours");
    insist(counted(&count, 1, 1, 1), "the counts");
    handed_out(&bytes, "    at g (a.js:2:2)\n");
    /* It becomes 29 bytes, of which the first line has 9. */
    const char *trace = "Error: x\n    at g (https://h.test/out.js:1:2)\n";
    smap_rewrite_refusal refusal = {9, 9};
    count = (smap_trace_count){9, 9, 9, 9};
    refused(smap_rewrite_within(&table, BYTES(trace), &plain, 28, &bytes, &count, &refusal), "more would come out than may");
    is_called(refusal.code, "X5 LongOutput");
    insist(refusal.lines == 1 && count.lines == 9, "how far it came");
    done(smap_rewrite_within(&table, BYTES(trace), &plain, 29, &bytes, &count, &refusal), "as much comes out as may");
    insist(counted(&count, 2, 1, 1), "the counts");
    handed_out(&bytes, "Error: x\n    at g (a.js:2:2)\n");
    smap_table_free(&table);
}

static void patterns(void) {
    const char *trace = "    at g (https://h.test/js/out.js?v=3:1:2)\n    at out.js:1:2\n", *wanted = "    at g (a.js:2:2)\n    at out.js:1:2\n";
    smap_table table = table_of("*js/out.js");
    smap_map map = read_map(content_map);
    smap_code refusal = 9;
    refused(smap_table_add(&table, BYTES("*js/out.js"), &map, &refusal), "a pattern twice");
    is_called(refusal, "A2 Twice");
    smap_bytes bytes = {0};
    smap_trace_count count = {9, 9, 9, 9};
    done(smap_rewrite(&table, BYTES(trace), false, &bytes, &count), "a trace over a pattern");
    insist(count.frames == 2 && count.mapped == 1, "the counts");
    handed_out(&bytes, wanted);
    done(smap_rewrite_anywhere(&table, BYTES(trace), &bytes, &count), "places over a pattern");
    handed_out(&bytes, wanted);
    done(smap_table_add(&table, BYTES("*"), &map, &refusal), "a map for all");
    refused(smap_rewrite_anywhere(&table, BYTES(trace), &bytes, &count), "places over a map for all");
    smap_table_free(&table);
}

/* Each of two names is made of the base, `src/` and `a.ts`: 15, 4 and 4 bytes. */
static void long_names(void) {
    const char *text = "{\"version\":3,\"sourceRoot\":\"src\",\"sources\":[\"a.ts\",null,\"b.ts\"],\"mappings\":\"\"}", *base = "https://h.test/";
    smap_map map = {0};
    smap_refusal refusal = {99, 99, 99, 99, 99, 99};
    refused(smap_map_read_within(BYTES(text), BYTES(base), 64, 45, &map, &refusal), "names that are too long");
    is_called(refusal.code, "M18 LongNames");
    insist(refusal.section == 0, "the section");
    done(smap_map_read_within(BYTES(text), BYTES(base), 64, 46, &map, &refusal), "names that are as long as they may be");
    smap_map_free(&map);
}

/* A store with a map under `a.js`. */
static smap_store store_of_one(void) {
    smap_store store = {0};
    smap_map map = read_map("{\"version\":3,\"sources\":[\"a.ts\"],\"names\":[\"f\"],\"mappings\":\"AAAAA\"}");
    done(smap_store_new(1000, &store), "a store");
    done(smap_store_put(&store, BYTES("a.js"), &map, 7), "a map in it");
    smap_map_free(&map);
    return store;
}

static void wanted(uint32_t status, const char *what) { insist(status == SMAP_WANTED, what); }

static void stores(void) {
    smap_store store = store_of_one();
    uint32_t why = 9;
    done(smap_store_ask(&store, BYTES("a.js?v=2"), 0, &why), "a map under a cut URL");
    wanted(smap_store_ask(&store, BYTES("b.js?v"), 0, &why), "a map that is not known");
    smap_text key = SMAP_TEXT;
    done(smap_store_key(&store, BYTES("b.js?v"), &key), "where it is to be put");
    insist(is(key, "b.js"), "under the cut URL");
    done(smap_store_put_none(&store, BYTES("b.js"), SMAP_FAILED, true, 5), "none is put");
    insist(why == 9, "nothing is said of why");
    refused(smap_store_ask(&store, BYTES("b.js"), 4, &why), "none before its time");
    insist(why == SMAP_FAILED, "why");
    wanted(smap_store_ask(&store, BYTES("b.js"), 5, &why), "not known at its time");
    smap_map map = {0};
    done(smap_store_map(&store, BYTES("a.js"), 0, &map, &why), "a map of the store");
    smap_store_counts counts = {9, 9, 9, 9, 9, 9, 9, 9};
    done(smap_store_count(&store, &counts), "counts");
    insist(counts.bytes == 139 && counts.count == 1 && counts.dropped == 0, "of maps");
    insist(counts.none_bytes == 132 && counts.none_count == 1, "of none");
    insist(counts.asked == 5 && counts.hits == 3 && counts.own_bytes == 0, "of what was asked");
    smap_found found = {9, 9, 9, 9, 9, 9, 9};
    smap_source_text source = SMAP_SOURCE;
    smap_text name = SMAP_TEXT;
    why = 9;
    done(smap_store_look_up(&store, BYTES("a.js#x"), 0, 0, 3, false, &found, &source, &name, &why), "a look-up over the store");
    insist(found.kind == 2 && why == 9 && is(source.name, "a.ts") && is(name, "f"), "what it lends");
    done(smap_store_forget_none(&store), "none are forgotten");
    done(smap_store_forget(&store, BYTES("a.js")), "a URL is forgotten");
    wanted(smap_store_ask(&store, BYTES("a.js"), 0, &why), "its map is not known");
    smap_store_free(&store);
    done(smap_name(&map, 0, &name), "a name of the map, which outlives the store");
    insist(is(name, "f"), "its text");
    smap_map_free(&map);
}

/* How a text of at most so many bytes is rewritten: its frames. */
static smap_rewriting_options frames_within(uint64_t most) { return (smap_rewriting_options){false, false, false, true, most, 99}; }

static smap_rewriting given(smap_rewriting_options options, const char *bytes) {
    smap_rewriting rewriting = {0};
    done(smap_rewriting_new(&options, &rewriting), "a rewriting");
    done(smap_rewriting_give(&rewriting, BYTES(bytes)), "its first bytes");
    return rewriting;
}

/* What a run over an empty table returns, whose refusal has this number of lines, or 9. */
static uint32_t run(smap_rewriting *rewriting, smap_store *store, uint64_t lines) {
    smap_table table = {0};
    smap_rewrite_refusal refusal = {9, 9};
    done(smap_table_new(&table), "a table");
    const uint32_t status = smap_rewriting_run(rewriting, &table, store, 0, &refusal);
    insist(refusal.lines == lines, "the lines of the refusal");
    smap_table_free(&table);
    return status;
}

static void rewriting_has_counted(const smap_rewriting *rewriting, uint64_t lines, uint64_t frames, uint64_t mapped) {
    smap_trace_count count = {9, 9, 9, 9};
    done(smap_rewriting_count(rewriting, &count), "counts");
    insist(counted(&count, lines, frames, mapped), "what was counted");
}

static void rewriting_stops(void) {
    smap_store store = store_of_one();
    smap_rewriting rewriting = given(frames_within(21), "@a.js?x:1:1\n@b.js");
    done(run(&rewriting, &store, 9), "the first line");
    rewriting_has_counted(&rewriting, 1, 1, 1);
    refused(smap_rewriting_give(&rewriting, BYTES(":1:1:")), "more bytes than it may have");
    done(smap_rewriting_give(&rewriting, BYTES(":1:1")), "as many as it may have");
    done(smap_rewriting_clear(&rewriting), "what was written goes");
    done(smap_rewriting_end(&rewriting), "the end");
    wanted(run(&rewriting, &store, 9), "a map that is not known");
    smap_text url = SMAP_TEXT;
    done(smap_rewriting_url(&rewriting, &url), "its URL");
    insist(is(url, "b.js"), "which");
    smap_rewriting_free(&rewriting);
    smap_store_free(&store);
}

static void rewriting_is_full(void) {
    smap_store store = store_of_one();
    smap_rewriting rewriting = given(frames_within(99), "Error\n@a.js:1:1\n");
    done(smap_rewriting_allow(&rewriting, 15), "less may come out");
    refused(run(&rewriting, &store, 1), "no more comes out than may");
    done(smap_rewriting_clear(&rewriting), "what was written goes");
    done(smap_rewriting_allow(&rewriting, 10), "more may come out");
    done(run(&rewriting, &store, 9), "it goes on");
    rewriting_has_counted(&rewriting, 2, 1, 1);
    smap_rewriting_free(&rewriting);
    smap_store_free(&store);
}

static void rewriting_lends(smap_rewriting *rewriting, const char *text) {
    smap_text lent = SMAP_TEXT;
    done(smap_rewriting_text(rewriting, &lent), "what is written is lent");
    insist(is(lent, text), text);
}

static void rewriting_writes(void) {
    smap_store store = store_of_one();
    smap_rewriting frames = given(frames_within(99), "Error\n  at f (a.js:1:1)\n@b");
    done(run(&frames, &store, 9), "two lines and a piece of one");
    rewriting_lends(&frames, "Error\n  at f (a.ts:1:1)\n");
    smap_rewriting_free(&frames);
    smap_rewriting_options options = frames_within(99);
    options.anywhere = options.strip_ansi = true;
    smap_rewriting places = given(options, "see a.j\x1b[3");
    done(smap_rewriting_give(&places, BYTES("1ms:1:1.\n")), "the rest of a sequence");
    done(run(&places, &store, 9), "a place without its colours");
    rewriting_has_counted(&places, 1, 1, 1);
    rewriting_lends(&places, "see a.ts:1:1.\n");
    smap_rewriting_free(&places);
    smap_store_free(&store);
}

/* Gives a text byte by byte, of which the map of the only URL comes late. */
static void byte_by_byte(smap_rewriting_options options, const char *text, const char *becomes, uint64_t lines) {
    smap_store store = {0};
    smap_map map = read_map("{\"version\":3,\"sources\":[\"a.ts\"],\"mappings\":\"AAAA,CAAC\"}");
    smap_rewriting rewriting = {0};
    smap_text url = SMAP_TEXT;
    int times = 0;
    done(smap_store_new(1000, &store), "a store");
    done(smap_rewriting_new(&options, &rewriting), "a rewriting");
    for (const char *byte = text; *byte; byte++) {
        done(smap_rewriting_give(&rewriting, (const uint8_t *)byte, 1), "a byte");
        if (run(&rewriting, &store, 9) == SMAP_WANTED) {
            times++;
            done(smap_rewriting_url(&rewriting, &url), "the URL whose map is wanted");
            insist(is(url, "/u"), "which");
            done(smap_store_put(&store, BYTES("/u"), &map, 7), "its map");
        }
    }
    insist(times == 1, "it is wanted once");
    done(smap_rewriting_end(&rewriting), "the end");
    refused(smap_rewriting_give(&rewriting, BYTES("x")), "no byte behind the end");
    done(run(&rewriting, &store, 9), "the rest");
    rewriting_lends(&rewriting, becomes);
    rewriting_has_counted(&rewriting, lines, 1, 1);
    smap_rewriting_free(&rewriting);
    smap_store_free(&store);
    smap_map_free(&map);
}

/* A frame, and a line that is none; and a place with a colour in its URL, and behind it the beginning of a line. */
static void pieces(void) {
    static const char trace[] = "Error\n    at f (/u:1:2)\n/u:1:2, too";
    smap_rewriting_options options = frames_within(100);
    options.strip_ansi = true;
    byte_by_byte(options, trace, "Error\n    at f (a.ts:1:2)\n/u:1:2, too", 3);
    options.anywhere = true;
    byte_by_byte(options, "see /\x1b[31mu:1:2.\nand \x1b[", "see a.ts:1:2.\nand \x1b[", 2);
    /* It stops before what is too much, and goes on once that may come out. */
    smap_store store = {0};
    smap_map map = read_map("{\"version\":3,\"sources\":[\"a.ts\"],\"mappings\":\"AAAA,CAAC\"}");
    done(smap_store_new(1000, &store), "a store");
    done(smap_store_put(&store, BYTES("/u"), &map, 7), "a map in it");
    options = frames_within(100);
    options.most_output = 24;
    smap_rewriting rewriting = given(options, trace);
    done(smap_rewriting_end(&rewriting), "the end");
    refused(run(&rewriting, &store, 1), "more would come out than may");
    rewriting_lends(&rewriting, "Error\n");
    done(smap_rewriting_clear(&rewriting), "what was written goes");
    done(smap_rewriting_allow(&rewriting, 99), "more may come out");
    done(run(&rewriting, &store, 9), "the rest");
    rewriting_lends(&rewriting, "    at f (a.ts:1:2)\n/u:1:2, too");
    rewriting_has_counted(&rewriting, 3, 1, 1);
    smap_rewriting_free(&rewriting);
    smap_store_free(&store);
    smap_map_free(&map);
}

/* The generated file of this map calls `main` `f`, at column 9. */
static const char main_map[] = "{\"version\":3,\"sources\":[\"a.ts\"],\"names\":[\"main\"],\"mappings\":\"SAAAA\"}";
static const char main_file[] = "function f(){g()}";

static void named_frames(void) {
    static const char trace[] = "    at async f (/u?q:1:14)\nf@/js/v.js:1:14\n    at Object.f (/u:1:14)\n    at f (/w:1:14)\n";
    smap_map map = read_map(main_map);
    smap_names names = {0}, other = {0};
    smap_code why = 9;
    uint64_t size = 9;
    done(smap_names_new(&map, BYTES(main_file), &names, &why), "names");
    done(smap_names_share(&names, &other), "the same names");
    smap_names_free(&names);
    done(smap_names_size(&other, &size), "their size");
    insist(size == 48, "that of one declaration");
    smap_table table = {0};
    done(smap_table_new(&table), "a table");
    refused(smap_table_add_names(&table, BYTES("/u"), &other), "names where no map is");
    done(smap_table_add_shared(&table, BYTES("/u"), &map, &why), "a map under a URL");
    done(smap_table_add_shared(&table, BYTES("*v.js"), &map, &why), "a map under a pattern");
    done(smap_table_add_shared(&table, BYTES("/w"), &map, &why), "a map without names");
    refused(smap_table_add_names(&table, BYTES("*w.js"), &other), "names where no pattern is");
    done(smap_table_add_names(&table, BYTES("/u"), &other), "names beside a map");
    done(smap_table_add_names(&table, BYTES("*v.js"), &other), "names beside the map of a pattern");
    refused(smap_table_add_names(&table, BYTES("/u"), &other), "names twice");
    refused(smap_table_add_names(&table, BYTES("*v.js"), &other), "names of a pattern twice");
    smap_bytes bytes = {0};
    smap_trace_count count = {9, 9, 9, 9};
    const smap_rewrite_options cut = {.cut = true};
    done(smap_rewrite_with(&table, BYTES(trace), &cut, &bytes, &count), "a trace with names");
    insist(counted(&count, 4, 4, 4), "the counts");
    handed_out(&bytes, "    at async main (a.ts:1:1)\nmain@a.ts:1:1\n    at Object.f (a.ts:1:1)\n    at f (a.ts:1:1)\n");
    done(smap_rewrite(&table, BYTES(trace), false, &bytes, &count), "a trace whose URLs are not cut");
    handed_out(&bytes, "    at async f (/u?q:1:14)\nmain@a.ts:1:1\n    at Object.f (a.ts:1:1)\n    at f (a.ts:1:1)\n");
    /* The first URL is that of the table up to its query: its place is not that of the frame. */
    done(smap_rewrite_anywhere(&table, BYTES(trace), &bytes, &count), "places with names");
    insist(counted(&count, 4, 4, 4), "what places count");
    handed_out(&bytes, "    at async f (a.ts:1:1)\nmain@a.ts:1:1\n    at Object.f (a.ts:1:1)\n    at f (a.ts:1:1)\n");
    /* Piece by piece the store is asked for what the table has not. */
    smap_store store = {0};
    done(smap_store_new(1000, &store), "a store");
    done(smap_store_put_named(&store, BYTES("/x"), &other, 7), "a map and its names in it");
    smap_names_free(&other);
    smap_map_free(&map);
    smap_rewriting_options options = frames_within(200);
    smap_rewriting rewriting = given(options, "    at new f (/x:1:14)\n    at f (/u#a:1:14)\n");
    smap_rewrite_refusal refusal = {9, 9};
    done(smap_rewriting_end(&rewriting), "the end");
    done(smap_rewriting_run(&rewriting, &table, &store, 0, &refusal), "all of it");
    rewriting_lends(&rewriting, "    at new main (a.ts:1:1)\n    at main (a.ts:1:1)\n");
    smap_rewriting_free(&rewriting);
    smap_table_free(&table);
    /* A map that is put alone has none. */
    uint32_t no = 9;
    done(smap_store_names(&store, BYTES("/x?v"), 0, &names), "the names of a map of the store");
    done(smap_store_map(&store, BYTES("/x"), 0, &map, &no), "the map");
    refused(smap_store_names(&store, BYTES("/y"), 0, &other), "no names where no map is");
    done(smap_store_put(&store, BYTES("/x"), &map, 7), "a map alone");
    refused(smap_store_names(&store, BYTES("/x"), 0, &other), "no names with it");
    smap_text name = SMAP_TEXT;
    done(smap_name_of(&names, BYTES("f"), 0, 13, &name), "they name as before");
    insist(is(name, "main"), "a function");
    rewriting = given(options, "    at f (/x:1:14)\n");
    done(smap_rewriting_end(&rewriting), "the end");
    done(run(&rewriting, &store, 9), "all of it");
    rewriting_lends(&rewriting, "    at f (a.ts:1:1)\n");
    smap_rewriting_free(&rewriting);
    smap_names_free(&names);
    smap_map_free(&map);
    smap_store_free(&store);
}

/* Another map has the same generated file, whose function it calls `start`. */
static const char start_map[] = "{\"version\":3,\"sources\":[\"b.ts\"],\"names\":[\"start\"],\"mappings\":\"SAAAA\"}";

static void named_map(const char *text, smap_map *map, smap_names *names) {
    smap_code why = 9;
    *map = read_map(text);
    done(smap_names_new(map, BYTES(main_file), names, &why), "names of a map");
}

/* Gives a text of places byte by byte; the store has the map of /x, and the names, once that is wanted, and nothing is put for its
 * function before. */
static void named_byte_by_byte(smap_table *table, smap_names *names, const char *text, const char *before, const char *becomes) {
    smap_store store = {0};
    smap_rewriting_options options = frames_within(200);
    smap_rewrite_refusal refusal = {9, 9};
    smap_rewriting rewriting = {0};
    int times = 0;
    options.anywhere = true;
    done(smap_store_new(1000, &store), "a store");
    done(smap_rewriting_new(&options, &rewriting), "a rewriting");
    for (const char *byte = text; *byte; byte++) {
        done(smap_rewriting_give(&rewriting, (const uint8_t *)byte, 1), "a byte");
        while (smap_rewriting_run(&rewriting, table, &store, 0, &refusal) == SMAP_WANTED) {
            times++;
            rewriting_lends(&rewriting, before);
            done(smap_store_put_named(&store, BYTES("/x"), names, 7), "the map of /x and its names");
        }
    }
    insist(times == 1, "it is wanted once");
    done(smap_rewriting_end(&rewriting), "the end");
    done(smap_rewriting_run(&rewriting, table, &store, 0, &refusal), "the rest");
    rewriting_lends(&rewriting, becomes);
    smap_rewriting_free(&rewriting);
    smap_store_free(&store);
}

/* A frame's place takes its function's name with it, that of its own map, also in a string; a place that is no frame's, or that has no
 * original, does not. */
static void named_places(void) {
    static const char text[] = "    at new f (/u:1:14)\n[\"    at f (/v:1:14)\\n\"]\nin f (/u:1:14)\n    at f (/u:1:2)\n";
    static const char named[] = "    at new main (a.ts:1:1)\n[\"    at start (b.ts:1:1)\\n\"]\nin f (a.ts:1:1)\n    at f (/u:1:2)\n";
    smap_map map = {0}, other = {0};
    smap_names names = {0}, others = {0};
    smap_table table = {0};
    smap_code why = 9;
    named_map(main_map, &map, &names);
    named_map(start_map, &other, &others);
    done(smap_table_new(&table), "a table");
    done(smap_table_add(&table, BYTES("/u"), &map, &why), "a map under a URL");
    done(smap_table_add(&table, BYTES("/v"), &other, &why), "another map");
    done(smap_table_add_names(&table, BYTES("/u"), &names), "names beside it");
    done(smap_table_add_names(&table, BYTES("/v"), &others), "names beside the other");
    smap_bytes bytes = {0};
    smap_trace_count count = {9, 9, 9, 9};
    done(smap_rewrite_anywhere(&table, BYTES(text), &bytes, &count), "places at once");
    insist(counted(&count, 4, 4, 3), "their counts");
    handed_out(&bytes, named);
    named_byte_by_byte(&table, &others, "    at async f (/x:1:14)\nf@/u:1:14\n", "    at async ", "    at async start (b.ts:1:1)\nmain@a.ts:1:1\n");
    named_byte_by_byte(&table, &names, "x\n[\"f@/x:1:14\\n\", \"f@/v:1:14\"]\n", "x\n[\"", "x\n[\"main@a.ts:1:1\\n\", \"start@b.ts:1:1\"]\n");
    smap_names_free(&names);
    smap_names_free(&others);
    smap_table_free(&table);
}

static void locations(void) {
    smap_bytes path = {0};
    done(smap_is_location(BYTES("js/a.js")), "a location");
    refused(smap_is_location(BYTES("../a.js")), "no location");
    done(smap_folder_path(BYTES("https://h/js/"), BYTES("maps/"), BYTES("https://h/js/x/a.js?v"), &path), "the path of a map in a folder");
    handed_out(&path, "maps/x/a.js.map");
}

int main(void) {
    beginnings();
    codes();
    composing();
    composing_step_by_step();
    debug_ids();
    encoding();
    fits();
    frame_urls();
    freed();
    locations();
    long_names();
    named_frames();
    named_places();
    mappings();
    next_columns();
    originals();
    paths();
    patterns();
    pieces();
    place_urls();
    positions();
    reasons();
    rewriting_is_full();
    rewriting_otherwise();
    rewriting_stops();
    rewriting_writes();
    sharing();
    sharing_with_a_table();
    source_lines();
    stores();
    tables();
    texts();
    traces();
    written();
    printf("calls %ld\n", reported);
    return 0;
}
