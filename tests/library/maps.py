"""Maps by URL, context, and control sequences in Python: maps.py FOLDER, where FOLDER is empty and may be written to."""

import asyncio
import json
import sys
import threading
from pathlib import Path

from smap import Context, Generated, Maps, Place, Refused, Rewriter, SourceMap, frame_urls

reported = 0


def insist(what, given, wanted):
    global reported
    if given != wanted:
        sys.exit(f"maps: {what}: {given!r:.300} in place of {wanted!r:.300}")
    reported += 1


def raises(what, error, call, *words, **named):
    try:
        call(*words, **named)
    except error as raised:
        insist(what, type(raised) is error or isinstance(raised, error), True)
    else:
        sys.exit(f"maps: {what}: nothing is raised")


def text_of(name, content="one\r\ntwo\nthree\rfour\u2028five", more=""):
    return json.dumps({"version": 3, "sources": [name, None], "sourcesContent": [content, None], "names": ["n"],
                       "mappings": "AAAA,IACCA,E;AAEA" + more, "ignoreList": [0]})


def contexts():
    with SourceMap(text_of("a.ts")) as source_map:
        insist("a line", source_map.context(0, 1), Context(["one"], "two", ["three", "four"]))
        insist("the first", source_map.context(0, 0, 5, 1), Context([], "one", ["two"]))
        insist("the last", source_map.context(0, 4, 1, 9), Context(["four"], "five", []))
        insist("one alone", source_map.context(0, 2, 0, 0), Context([], "three", []))
        insist("all", source_map.context(0, 2, 65535, 65535), Context(["one", "two"], "three", ["four", "five"]))
        insist("no line", source_map.context(0, 5), None)
        insist("no content", source_map.context(1, 0), None)
        insist("a line past all", source_map.context(0, 2**40), None)
        raises("no source", IndexError, source_map.context, 2, 0)
        raises("a line below 0", ValueError, source_map.context, 0, -1)
        raises("too many", ValueError, source_map.context, 0, 1, 65536)
        raises("less than none", ValueError, source_map.context, 0, 1, 0, -1)
        raises("a text for a number", TypeError, source_map.context, 0, 1, "2")
        insist("a place", source_map.place(0, 4), Place("a.ts", 1, 1, "n", True, 0))
        insist("a place without a name", source_map.place(0, 0), Place("a.ts", 0, 0, None, True, 0))
        insist("a place without an original", source_map.place(0, 6), None)
        insist("no place", source_map.place(7, 0), None)
    with SourceMap(text_of("a.ts", "x" * 65535 + "\u20ac")) as source_map:
        insist("a long line", source_map.context(0, 0), Context([], "x" * 65535, []))
    large, small = SourceMap(text_of("a.ts", "x" * 100000)), SourceMap(text_of("a.ts", ""))
    insist("how large a map is", large.nbytes - small.nbytes, 100000)
    large.close()
    raises("a closed one", ValueError, lambda: large.nbytes)


def paths():
    text = '{"version":3,"sources":["../../src/x.ts"],"mappings":"AAAA"}'
    for url, wanted in [("/srv/app/dist/util/x.js", "/srv/app/src/x.ts"), ("C:\\app\\dist\\util\\x.js", "C:\\app\\src\\x.ts"),
                        ("https://e.test/dist/util/x.js", "https://e.test/src/x.ts"), ("dist/x.js", "../src/x.ts")]:
        with Rewriter({url: text}, paths=True) as rewriter:
            insist(f"paths at {url}", rewriter.rewrite(f"    at f ({url}:1:1)\n").decode(), f"    at f ({wanted}:1:1)\n")
        with Rewriter({}, load=lambda _: text, paths=True) as rewriter:
            insist(f"paths that are loaded at {url}", rewriter.rewrite(f"    at f ({url}?v=1:1:1)\n").decode(), f"    at f ({wanted}:1:1)\n")
    with Rewriter({"/srv/dist/x.js": text}) as rewriter:
        insist("no paths", rewriter.rewrite("    at f (/srv/dist/x.js:1:1)\n"), b"    at f (../../src/x.ts:1:1)\n")
def paths_of_maps(folder):
    (folder / "dist/util").mkdir(parents=True)
    text = '{"version":3,"sources":["../../src/x.ts"],"mappings":"AAAA"}'
    (folder / "dist/util/x.js.map").write_text(text)
    for root, wanted in (("/srv/app/dist/", "/srv/app/src/x.ts"), ("https://e.test/dist/", "https://e.test/src/x.ts")):
        maps = Maps.folder(root, folder / "dist", max_bytes=1 << 20, paths=True)
        url = f"{root}util/x.js"
        for _ in range(2):
            insist(f"a map below {root}", maps.look_up(url, 0, 0).source, wanted)
            insist(f"a trace below {root}", maps.rewrite(f"    at f ({url}?v=1:1:1)\n").decode(), f"    at f ({wanted}:1:1)\n")
    maps = Maps(lambda _: SourceMap(text), max_bytes=1 << 20, paths=True)
    insist("a map that was read", maps.rewrite("f@/srv/app/dist/util/x.js:1:1"), b"f@/srv/app/src/x.ts:1:1")
    one = SourceMap(text)
    for root in ("/a", "/b"):
        maps.add(f"{root}/dist/util/x.js", one)
        insist("one map under two", maps.get(f"{root}/dist/util/x.js").source_name(0), f"{root}/src/x.ts")
    insist("whose names stay", one.source_name(0), "../../src/x.ts")
    maps.add("/srv/dist/y.js", text)
    insist("one that was added", maps.get("/srv/dist/y.js").source_name(0), "/src/x.ts")
    maps = Maps(lambda _: text, max_bytes=1 << 20)
    insist("without paths", maps.look_up("/srv/app/dist/util/x.js", 0, 0).source, "../../src/x.ts")
    raises("a pattern that is added", ValueError, maps.add, "*x.js", text)
    raises("a pattern as a prefix", ValueError, Maps.folder, "*dist/", folder, max_bytes=1)


def patterns():
    given = {"*app.js": text_of("any.ts"), "*js/app.js": text_of("js.ts"), "*app.js?v=2": text_of("query.ts"), "*.mjs": text_of("none.ts"),
             "https://e.test/x/app.js": text_of("own.ts")}
    named = {
        "https://one.test/app.js": "any.ts", "app.js": "any.ts", "https://one.test/app.js?v=3#x": "any.ts", "C:\\dist\\app.js": "any.ts",
        "https://one.test/js/app.js": "js.ts", "https://one.test/js/app.js#a?b": "js.ts", "https://one.test/xjs/app.js": "any.ts",
        "https://one.test/app.js?v=2": "query.ts", "https://e.test/x/app.js": "https://e.test/x/own.ts",
        "https://e.test/x/app.js?v=2": "https://e.test/x/own.ts", "https://one.test/xapp.js": None, "https://one.test/app.js/b.js": None,
        "https://one.test/x.mjs": None, "node:internal/app.js": None, "https://one.test/": None,
    }
    asked = []
    for load in (None, asked.append):
        with Rewriter(given, load=load) as rewriter:
            for url, source in named.items():
                trace, wanted = f"    at f ({url}:1:5)\n", f"    at f ({source}:2:2)\n"
                insist(f"a frame of {url}", rewriter.rewrite(trace).decode(), wanted if source else trace)
                place = rewriter.look_up(url, 0, 4)
                insist(f"a place in {url}", place and place.source, source)
                if url.startswith(("https", "app")):
                    text, wanted = f'{{"at":"{url}:1:5"}} 12:30:45', f'{{"at":"{source}:2:2"}} 12:30:45'
                    insist(f"{url} anywhere", rewriter.rewrite(text, anywhere=True).decode(), wanted if source else text)
    insist("what is asked for", asked, [url for url, source in named.items() if source is None])
    asked.clear()
    with Rewriter({"*": text_of("all.ts")}, load=asked.append) as rewriter:
        insist("each URL", rewriter.rewrite("f@x:1:5\ng@https://e.test/y?z:1:5\n"), b"f@all.ts:2:2\ng@all.ts:2:2\n")
        insist("of none it is asked", asked, [])
        raises("each place", ValueError, rewriter.rewrite, "x:1:5", anywhere=True)
        insist("what is no URL", rewriter.rewrite("f@*/x.js:1:5"), b"f@all.ts:2:2")
    with Rewriter({}, load=asked.append) as rewriter:
        insist("what reads as a pattern", (rewriter.rewrite("f@*/x.js:1:5"), asked), (b"f@*/x.js:1:5", []))
    for url in ("*a\nb", "*\r"):
        raises(f"{url!r}", Refused, Rewriter, {url: text_of("a.ts")})


def generated(files):
    text = '{"version":3,"sources":["a","b"],"mappings":"AAAA,EAAE,EAAF,EAAI;A,ECAA"}'
    with SourceMap(text) as source_map:
        first, second, third = [Generated(0, 0, 0), Generated(0, 4, 0)], [Generated(0, 2, 2)], [Generated(0, 6, 4)]
        insist("a line", source_map.generated(0, 0), first + second + third)
        insist("up to", [source_map.generated(0, 0, column) for column in (0, 1, 2, 3, 9)], [first, first, second, second, third])
        insist("from", [source_map.generated(0, 0, column, True) for column in (0, 1, 2, 3, 9)], [first, second, second, third, []])
        insist("another source", source_map.generated(1, 0, 4), [Generated(1, 2, 4)])
        insist("none", [source_map.generated(0, 1), source_map.generated(0, 2**40, 2**40)], [[], []])
        for source in (2, -1, 2**32 - 1, 2**40):
            for words in ((0,), (0, 0), (0, 0, True)):
                raises(f"no source {source}", IndexError, source_map.generated, source, *words)
            raises(f"no lines of source {source}", IndexError, source_map.context, source, 0)
        raises("a line below 0", ValueError, source_map.generated, 0, -1)
        raises("a text for a number", TypeError, source_map.generated, 0, 0, "1")
    raises("a closed one", ValueError, source_map.generated, 0, 0)
    taken = SourceMap(text)
    insist("before a table has it", taken.generated(1, 0, 4), [Generated(1, 2, 4)])
    Rewriter({"x.js": taken}).close()
    insist("after it was freed", taken.generated(1, 0, 4), [Generated(1, 2, 4)])
    taken.close()
    raises("what is closed", ValueError, taken.generated, 1, 0)
    taken.__init__('{"version":3,"sources":["a"],"mappings":";;IAAA"}')
    insist("another map in its place", taken.generated(0, 0), [Generated(2, 4, 0)])
    for path in files:
        with SourceMap(path) as source_map:
            wanted = {}
            for at, one in enumerate(source_map.mappings()):
                if one.source is not None:
                    place = (one.column, at, Generated(one.generated_line, one.generated_column, one.column))
                    wanted.setdefault((one.source, one.line), []).append(place)
            for (source, line), places in wanted.items():
                insist(f"{path}, {source}:{line}", source_map.generated(source, line), [place for *_, place in sorted(places)])
            ends(path, source_map)


# Where what answers at each mapping ends, and just before and behind it.
def ends(path, source_map):
    columns = {}
    for one in source_map.mappings():
        columns.setdefault(one.generated_line, []).append(one.generated_column)
    for line, on_line in columns.items():
        for at in {place + step for place in on_line for step in (-1, 0, 1) if place + step >= 0}:
            wanted = min((column for column in on_line if column > at), default=None)
            insist(f"{path}, behind {line}:{at}", source_map.next_column(line, at), wanted)
    for line, column in ((max(columns, default=0) + 1, 0), (2**40, 0), (0, 2**32 - 1), (0, 2**40)):
        insist(f"{path}, behind {line}:{column}", source_map.next_column(line, column), None)
    raises("a column below 0", ValueError, source_map.next_column, 0, -1)
    raises("a closed map", ValueError, SourceMap.next_column, closed(), 0, 0)


def closed():
    taken = SourceMap(text_of("a.ts"))
    taken.close()
    return taken


def bounded():
    asked = []

    def load(url):
        asked.append(url)
        return text_of(f"{url[-4]}.ts") if url.endswith(".js") else None

    one = SourceMap._under("https://e.test/a.js", text_of("a.ts")).nbytes + len("https://e.test/a.js") + 128
    maps = Maps(load, max_bytes=3 * one + one // 2)
    for name in "abcabca":
        place = maps.look_up(f"https://e.test/{name}.js?v={len(asked)}#x", 0, 4)
        insist("a place", place, Place(f"https://e.test/{name}.ts", 1, 1, "n", True, 0))
    insist("what was asked for", asked, [f"https://e.test/{name}.js" for name in "abc"])
    insist("what is kept", (len(maps), maps.nbytes <= maps.max_bytes), (3, True))
    maps.look_up("https://e.test/d.js", 0, 0)
    maps.look_up("https://e.test/a.js", 0, 0)
    maps.look_up("https://e.test/c.js", 0, 0)
    insist("what goes first", asked[3:], ["https://e.test/d.js"])
    maps.look_up("https://e.test/b.js", 0, 0)
    insist("what went", asked[4:], ["https://e.test/b.js"])
    insist("what has none", [maps.get(url) for url in ("https://e.test/x.css", "[native code]", "../../x.js", "")], [None] * 4)
    insist("what is asked for", asked[5:], ["https://e.test/x.css"])
    insist("what is known", ["https://e.test/x.css?1" in maps, "https://e.test/y.js" in maps], [True, False])
    maps.get("https://e.test/x.css")
    insist("once", len(asked), 6)
    maps.discard("https://e.test/x.css?2")
    maps.get("https://e.test/x.css")
    insist("again", len(asked), 7)
    # One that was given out stays open.
    kept = maps.get("https://e.test/b.js")
    for name in "efghi":
        maps.get(f"https://e.test/{name}.js")
    insist("one that was given out", (kept.closed, kept.place(0, 0).line), (False, 0))
    maps.add("https://e.test/b.js?7", text_of("own.ts"))
    insist("one that was added", maps.look_up("https://e.test/b.js?7", 0, 0).source, "https://e.test/own.ts")
    insist("beside it", maps.look_up("https://e.test/b.js?8", 0, 0).source, "https://e.test/b.ts")
    alone = Maps(load, max_bytes=0)
    for name in "abab":
        insist("one by itself", (alone.look_up(f"https://e.test/{name}.js", 0, 0).source, len(alone)), (f"https://e.test/{name}.ts", 1))
    raises("no function", TypeError, Maps, 7, max_bytes=1)
    raises("no bound", TypeError, Maps, load, max_bytes="7")
    raises("a bound below 0", ValueError, Maps, load, max_bytes=-1)
    raises("a refused map", Refused, maps.add, "https://e.test/z.js", "{}")


def refusals():
    def load(url):
        if "raises" in url:
            raise OSError("no")
        return '{"version":3,"sources":[],"mappings":"AAAA"}'

    maps = Maps(load, max_bytes=10000)
    insist("what is wrong", [maps.get("https://e.test/raises.js"), maps.get("https://e.test/bad.js")], [None, None])
    insist("what is kept of it", [(url, type(error)) for url, error in maps.refusals], [("https://e.test/raises.js", OSError), ("https://e.test/bad.js", Refused)])
    told = []
    maps = Maps(load, max_bytes=10000, refused=lambda url, error: told.append(url))
    maps.get("https://e.test/bad.js")
    maps.get("https://e.test/bad.js")
    insist("what is told", (told, maps.refusals), (["https://e.test/bad.js"], []))


# A loader that rewrites over the maps that ask it, or what is told of a refusal, each for three URLs, twice each time.
def rewriting_within():
    trace = "".join(f"f@https://e.test/{name}.js:1:1\n" for name in "abc")
    for bad in (None, "{}"):
        for make in (lambda *both: Maps(both[0], max_bytes=1 << 20, refused=both[1]), lambda *both: Rewriter({}, *both)):
            asked, errors, told = [], [], []

            def rewrites(url):
                for _ in range(2):
                    try:
                        made.rewrite(trace)
                    except RuntimeError as error:
                        errors.append(str(error))

            def load(url):
                asked.append(url)
                if bad is None:
                    rewrites(url)
                return text_of("a.ts") if bad is None else bad

            def refused(url, error):
                told.append(url)
                rewrites(url)

            made = make(load, refused)
            insist("what is rewritten", made.rewrite(trace).decode(), trace if bad else trace.replace(".js", ".ts").replace("/b.", "/a.").replace("/c.", "/a."))
            insist("how often is asked", (len(asked), len(told)), (3, 3 if bad else 0))
            insist("what is raised", errors, ["rewrite is called from within load or refused of the same maps"] * 6)
            insist("again", made.rewrite("f@https://e.test/d.js:1:1"), b"f@https://e.test/d.js:1:1" if bad else b"f@https://e.test/a.ts:1:1")
    # What is not caught is what the loader raises.
    for make in (lambda load: Maps(load, max_bytes=1 << 20), lambda load: Rewriter({}, load)):
        made = make(lambda url: made.rewrite(trace))
        insist("nothing", made.rewrite(trace).decode(), trace)
        insist("why", [type(error) for _, error in made.refusals], [RuntimeError] * 3)
    # It may look places up, and other maps may be rewritten over.
    other = Rewriter({"https://e.test/c.js": text_of("c.ts")})
    made = Maps(lambda url: text_of(other.rewrite("f@https://e.test/c.js:1:1")[-8:-4].decode()) if "a.js" in url else
                text_of(made.look_up("https://e.test/a.js", 0, 0).source), max_bytes=1 << 20)
    insist("what may be", made.rewrite("f@https://e.test/b.js:1:1"), b"f@https://e.test/c.ts:1:1")
    # It may ask for other maps and put some in, with room for them or without: the text keeps those that it has.
    one = SourceMap(text_of("a.ts")).nbytes + 200
    for what in (lambda: made.get("https://e.test/z.js"), lambda: made.add("https://e.test/a.js", text_of("z.ts")),
                 lambda: made.add("https://e.test/z.js", text_of("z.ts")), lambda: made.discard("https://e.test/a.js")):
        for room in (1000, 4, 3, 2, 1):
            made = Maps(lambda url: (what() if "b.js" in url else None, text_of(f"{url[-4]}.ts"))[1], max_bytes=room * one)
            insist(f"room for {room}", made.rewrite(trace).decode(), trace.replace(".js", ".ts"))
            insist("the bound", made.nbytes <= room * one, True)


def folders(folder):
    (folder / "maps/js").mkdir(parents=True)
    (folder / "maps/js/a.js.map").write_text(text_of("a.ts"))
    (folder / "out.map").write_text(text_of("out.ts"))
    (folder / "maps/bad.js.map").write_text("{")
    (folder / "maps/dir.js.map").mkdir()
    maps = Maps.folder("https://e.test/", folder / "maps", max_bytes=1 << 20)
    insist("a file", maps.look_up("https://e.test/js/a.js?x", 0, 0).source, "https://e.test/js/a.ts")
    for url in ("../out", "js/../../out", "/js/a.js", "js//a.js", "./js/a.js", "js\\a.js", "c:/a.js", "js/%2e%2e/out", "", "js/", "js/a\x00.js", "a\x7f"):
        insist(f"no file for {url!r}", maps.get(f"https://e.test/{url}"), None)
    insist("nothing went wrong", maps.refusals, [])
    insist("another prefix", maps.get("https://other.test/js/a.js"), None)
    insist("wrong ones", [maps.get(f"https://e.test/{name}.js") for name in ("bad", "dir")], [None, None])
    insist("what is kept of them", [url for url, _ in maps.refusals], ["https://e.test/bad.js", "https://e.test/dir.js"])
    raises("no prefix", ValueError, Maps.folder, "https://e.test", folder, max_bytes=1)
    # A folder that is not there is told once, and no file that one has not.
    trace = "f@https://e.test/x.js:1:1\nf@https://e.test/y.js:1:1\n"
    for name, errors in (("none", [FileNotFoundError]), ("out.map", [NotADirectoryError]), ("maps", [])):
        for fresh_for in (None, 0):
            told = []
            for refused in (None, lambda *both: told.append(both)):
                maps = Maps.folder("https://e.test/", folder / name, max_bytes=1 << 20, refused=refused, fresh_for=fresh_for)
                for _ in range(2):
                    insist(f"a trace over {name}", maps.rewrite(trace).decode(), trace)
                insist("another prefix", maps.get("https://other.test/js/a.js"), None)
                known = told if refused else maps.refusals
                insist(f"what is told of {name}", [(url, type(error)) for url, error in known], [("https://e.test/x.js", error) for error in errors])
                insist("what is named", all(str(folder / name) in str(error) for _, error in known), True)


TRACE = "Error: x\n    at f (https://e.test/a.js:1:5)\n    at https://e.test/b.js?v=1:1:1\n    at g (https://e.test/none.css:1:1)\n" \
    "    at eval ([native code]:1:1)\n    at h (https://e.test/a.js#x:1:5)\n"
WANTED = "Error: x\n    at f (https://e.test/a.ts:2:2)\n    at https://e.test/b.ts:1:1\n    at g (https://e.test/none.css:1:1)\n" \
    "    at eval ([native code]:1:1)\n    at h (https://e.test/a.ts:2:2)\n"


def rewriting():
    insist("the URLs of frames", frame_urls(TRACE), ["https://e.test/a.js", "https://e.test/b.js", "https://e.test/none.css"])
    insist("the URLs of places", frame_urls("{https://e.test/a.js?x:1:2} at https://e.test/a.js:1:3", anywhere=True), ["https://e.test/a.js"])
    insist("of nothing", frame_urls(b""), [])
    asked = []

    def load(url):
        asked.append(url)
        return text_of(f"{url[-4]}.ts") if url.endswith(".js") else None

    for bound in (1 << 20, 0, 600):
        maps = Maps(load, max_bytes=bound)
        insist("a trace", maps.rewrite(TRACE).decode(), WANTED)
        insist("its counts", maps.counts, {"lines": 6, "frames": 5, "mapped": 3, "hidden": 0})
        insist("hidden", maps.rewrite(TRACE, hide_ignored=True).decode().count("\n"), 3)
        insist("places", maps.rewrite(TRACE, anywhere=True).decode(), WANTED)
        insist("coloured", maps.rewrite(TRACE.replace("https", "\x1b[1mhttps").replace("js", "js\x1b[0m"), strip_ansi=True).decode(), WANTED)
        insist("no trace", (maps.rewrite(b""), maps.counts["lines"]), (b"", 0))
        many = "".join(f"    at f (https://e.test/{name}.js:1:5)\n" for name in "abcdefgh" * 3)
        insist("many maps", maps.rewrite(many).decode(), many.replace("js:1:5", "ts:2:2"))
        insist("the bound", maps.nbytes <= max(bound, 1000), True)
    maps = Maps(load, max_bytes=1 << 20)
    maps.add("https://e.test/a.js", text_of("own.ts"))
    insist("what was added", maps.rewrite("    at f (https://e.test/a.js:1:5)\n"), b"    at f (https://e.test/own.ts:2:2)\n")
    maps.add("https://e.test/a.js", text_of("newer.ts"))
    insist("what was added later", maps.rewrite("    at f (https://e.test/a.js:1:5)\n"), b"    at f (https://e.test/newer.ts:2:2)\n")
    rewriter = Rewriter({"https://e.test/a.js": text_of("a.ts")})
    insist("one place", rewriter.look_up("https://e.test/a.js?v=1", 0, 4), Place("https://e.test/a.ts", 1, 1, "n", True, 0))
    insist("no map", rewriter.look_up("https://e.test/b.js", 0, 4), None)
    insist("no mapping", rewriter.look_up("https://e.test/a.js", 9, 4), None)
    insist("coloured", rewriter.rewrite(b"\x1b[31m    at f (https://e.test/\x1b[1ma.js:1:5)\x1b[0m", strip_ansi=True), b"    at f (https://e.test/a.ts:2:2)")
    raises("a line below 0", ValueError, rewriter.look_up, "https://e.test/a.js", -1, 0)
    asked.clear()
    loading = Rewriter({}, load=load)
    insist("one that is loaded", [loading.look_up("https://e.test/c.js?1", 0, 0).source for _ in range(2)], ["https://e.test/c.ts"] * 2)
    insist("what is asked for", asked, ["https://e.test/c.js"])


async def fetched():
    async def fetch(url):
        await asyncio.sleep(0)
        return text_of(f"{url[-4]}.ts") if url.endswith(".js") else None

    urls = frame_urls(TRACE)
    found = dict(zip(urls, await asyncio.gather(*map(fetch, urls))))
    with Rewriter({}, load=found.get) as rewriter:
        insist("maps that are waited for", rewriter.rewrite(TRACE).decode(), WANTED)


def threads():
    maps = Maps(lambda url: text_of(f"{url[-4]}.ts") if url.endswith(".js") else None, max_bytes=3000)
    wrong = []

    def work(seed):
        for i in range(2000):
            name = "abcdefgh"[(seed + i * 7) % 8]
            place = maps.look_up(f"https://e.test/{name}.js", 0, 4)
            if place != Place(f"https://e.test/{name}.ts", 1, 1, "n", True, 0):
                wrong.append(place)
            if i % 500 == 0 and maps.rewrite(TRACE).decode() != WANTED:
                wrong.append("a trace")

    several = [threading.Thread(target=work, args=(seed,)) for seed in range(4)]
    for thread in several:
        thread.start()
    for thread in several:
        thread.join()
    insist("four threads", wrong, [])
    insist("the bound", maps.nbytes <= 3000, True)
    # Four threads, one map.
    source_map = SourceMap(text_of("a.ts"))
    found = [0] * 4

    def look(seed):
        found[seed] = sum(source_map.place(0, column % 6).line for column in range(20000))

    several = [threading.Thread(target=look, args=(seed,)) for seed in range(4)]
    for thread in several:
        thread.start()
    for thread in several:
        thread.join()
    insist("four threads in one map", found, [found[0]] * 4)


contexts()
paths()
generated(sorted((Path(__file__).resolve().parents[2] / "examples").glob("*.map")))
bounded()
refusals()
rewriting_within()
folders(Path(sys.argv[1]))
paths_of_maps(Path(sys.argv[1]))
patterns()
rewriting()
asyncio.run(fetched())
threads()
print("maps", reported)
