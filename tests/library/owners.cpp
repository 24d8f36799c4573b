// The owners of smap.hpp: owners MAP, where MAP is examples/preset-react.js.map. It prints `owners` and how many checks there were.
#include <smap.hpp>

#include <cstdio>
#include <cstdlib>
#include <fstream>
#include <iterator>
#include <string>
#include <thread>
#include <type_traits>
#include <vector>

static int checks = 0;

static void insist(bool is, const char *what) {
    checks++;
    if (is) return;
    std::fprintf(stderr, "owners: %s\n", what);
    std::exit(1);
}

static smap::map read(const std::string &text) {
    smap::map map;
    smap_refusal why{};
    map.fill([&](smap_map *to) { return smap_map_read(smap::bytes(text), text.size(), smap::bytes(""), 0, 64, to, &why); }, why.code);
    return map;
}

static smap_found found_in(smap::map &map, uint32_t line, uint32_t column) {
    smap_found found{};
    smap_look_up(map.get(), line, column, &found);
    return found;
}

static const std::string SMALL = R"({"version":3,"sources":["a.ts"],"names":["f"],"mappings":"AAAA,IAECA"})";

static_assert(!std::is_copy_constructible<smap::map>::value, "an owner is copied");
static_assert(std::is_nothrow_move_constructible<smap::map>::value, "an owner can not be kept in a vector");

static void maps(const std::string &path) {
    std::ifstream file(path, std::ios::binary);
    const std::string text{std::istreambuf_iterator<char>(file), std::istreambuf_iterator<char>()};
    smap::map map = read(text);
    smap_source_text source = SMAP_SOURCE;
    const smap_found found = found_in(map, 64, 79);
    smap_source(map.get(), found.source, &source);
    insist(found.kind == 2 && !smap::view(source.name).empty(), "a look-up");

    // A moved owner is empty, and one that is given another map frees its own.
    smap::map other = std::move(map);
    insist(!map && other, "a move");
    other = read(SMALL);
    insist(found_in(other, 0, 5).line == 2, "the map that was moved in");
    std::vector<smap::map> many;
    for (int i = 0; i < 40; i++) many.push_back(read(SMALL));
    insist(many.front() && many.back() && found_in(many[7], 0, 0).kind == 2, "owners in a vector");
    map = std::move(other);
    other.reset();
    insist(map && !other, "a move back");

    // Two threads, a handle each of the same map.
    smap::map share;
    share.fill([&](smap_map *to) { return smap_map_share(map.get(), to); });
    uint32_t line = 0;
    std::thread thread([&line, mine = std::move(share)]() mutable { line = found_in(mine, 0, 5).line; });
    insist(found_in(map, 0, 0).line == 0, "the first handle");
    thread.join();
    insist(line == 2, "the second handle");
}

static void refusals() {
    try {
        read("no JSON");
        insist(false, "a refusal");
    } catch (const smap::refused &refused) {
        insist(refused.code() == SMAP_CODE_M2 && std::string(refused.what()) == "M2 NotJson", "what is refused");
    }
    smap::map map = read(SMALL);
    smap_refusal why{};
    const uint32_t status =
        map.fill([&](smap_map *to) { return smap_map_read(smap::bytes("{"), 1, smap::bytes(""), 0, 64, to, &why); });
    insist(status == SMAP_REFUSED && !map && why.code == SMAP_CODE_M2, "an owner after a refusal");
    smap::byte_text bytes;
    try {
        smap::with_memory(SMAP_NO_MEMORY);
        insist(false, "want of memory");
    } catch (const std::bad_alloc &) {
        insist(!bytes, "an owner that was never filled");
    }
}

static void texts() {
    smap::table table;
    table.fill([](smap_table *to) { return smap_table_new(to); });
    smap::map map = read(SMALL);
    smap_code why = 0;
    const std::string url = "a.js", bad = "a\nb", trace = "f@a.js:1:5\n";
    auto under = [&](const std::string &name) {
        return map.hand_over([&](smap_map *from) { return smap_table_add(table.get(), smap::bytes(name), name.size(), from, &why); });
    };
    insist(under(bad) == SMAP_REFUSED && map && why == SMAP_CODE_A1, "a map that is not taken over");
    insist(under(url) == SMAP_DONE && !map, "a map that is taken over");
    smap::byte_text out;
    smap_trace_count counts{};
    out.fill([&](smap_bytes *to) { return smap_rewrite(table.get(), smap::bytes(trace), trace.size(), false, to, &counts); });
    insist(smap::view(out) == "f@a.ts:3:2\n" && counts.mapped == 1, "a trace");
    smap::map inner = read(SMALL), outer = read(SMALL);
    smap::inners places;
    places.fill([&](smap_inners *to) { return smap_inners_new(outer.get(), to); });
    insist(inner.hand_over([&](smap_map *from) { return smap_inners_put(places.get(), 7, from); }) == SMAP_REFUSED && inner, "no such place");
    insist(inner.hand_over([&](smap_map *from) { return smap_inners_put(places.get(), 0, from); }) == SMAP_DONE && !inner, "a place");
}

static void ids() {
    const std::string small = SMALL, with_id = small.substr(0, small.size() - 1) + R"(,"debugId":"7f"})";
    smap::map map;
    smap::byte_text id, text;
    smap_refusal why{};
    insist(smap::read_with_id(with_id, "", 64, 1 << 20, map, id, why) == SMAP_DONE && map && smap::view(id) == "7f", "a debug id");
    text.fill([&](smap_bytes *to) { return smap_map_write(map.get(), to); });
    const std::string before(smap::view(text)), other = "q\"";
    insist(smap_bytes_put_debug_id(text.get(), smap::bytes(other), other.size()) == SMAP_DONE, "a debug id is written");
    insist(smap::view(text) == before.substr(0, before.size() - 1) + R"(,"debugId":"q\""})", "what is written");
    insist(smap_bytes_put_debug_id(text.get(), smap::bytes("\xff"), 1) == SMAP_REFUSED, "no UTF-8");
    insist(smap::read_with_id(small, "", 64, 1 << 20, map, id, why) == SMAP_DONE && map && !id, "no debug id");
    insist(smap::read_with_id("[]", "", 64, 1 << 20, map, id, why) == SMAP_REFUSED && !map && !id && why.code == SMAP_CODE_M3, "no map");
}

static void names() {
    const std::string file = "function f(){g()}", function = "async f";
    smap::map map = read(R"({"version":3,"sources":["a.ts"],"names":["main"],"mappings":"SAAAA"})");
    smap::names names;
    smap_code why = 0;
    names.fill([&](smap_names *to) { return smap_names_new(map.get(), smap::bytes(file), file.size(), to, &why); }, why);
    map.reset();
    smap_text name = SMAP_TEXT;
    const uint32_t status = smap_name_of(names.get(), smap::bytes(function), function.size(), 0, 13, &name);
    insist(status == SMAP_DONE && smap::view(name) == "main", "the name of a function");
}

int main(int count, char **words) {
    if (count != 2) return 2;
    maps(words[1]);
    refusals();
    texts();
    ids();
    names();
    std::printf("owners %d\n", checks);
}
