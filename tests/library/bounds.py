"""The bounds that a caller gives in Python: on what comes out of a rewriting, and on the names of a map's sources."""

import json
import resource
import tempfile
from pathlib import Path

from smap import Maps, Refused, Rewriter, SourceMap, compose, compose_all

# Each of two names is made of `src/` and `a.ts`: 4 and 4 bytes.
NAMED = '{"version":3,"sourceRoot":"src","sources":["a.ts",null,"b.ts"],"names":[],"mappings":"AAAA"}'
URL = "https://e.test/a.js"
MOST = 2**63 - 1

reported = 0


def same(got, wanted, what):
    global reported
    assert got == wanted, f"{what}: {got!r:.300} in place of {wanted!r:.300}"
    reported += 1


def raised(error, call):
    try:
        got = call()
    except error as raised:
        return raised
    raise AssertionError(f"{got!r:.300} in place of {error.__name__}")


def numbers(folder):
    (folder / "a.js.map").write_text(NAMED)
    rewriter, maps = Rewriter({URL: NAMED}), Maps(lambda url: NAMED, max_bytes=1 << 20)
    takes = {
        "max_output": (lambda most: rewriter.rewrite("", max_output=most), lambda most: maps.rewrite("", max_output=most)),
        "max_names": (lambda most: SourceMap('{"version":3,"sources":[],"mappings":""}', max_names=most),
                      lambda most: SourceMap.from_file(folder / "none.map", max_names=most), lambda most: Rewriter({}, max_names=most),
                      lambda most: Maps(lambda url: None, max_bytes=1, max_names=most),
                      lambda most: Maps.folder("https://e.test/", folder, max_bytes=1, max_names=most)),
    }
    (folder / "none.map").write_text('{"version":3,"sources":[],"mappings":""}')
    for what, calls in takes.items():
        for call in calls:
            for number in (-1, 2**63, -(2**64), 2**64):
                same(f"{what} is {number}" in str(raised(ValueError, lambda: call(number))), True, what)
            for number in (True, 1.0, "1", None):
                same(f"{what} is a whole number" in str(raised(TypeError, lambda: call(number))), True, what)
            for number in (0, MOST):
                call(number)


def names(folder):
    path = folder / "named.map"
    path.write_text(NAMED)
    reads = {
        "a text": lambda most: SourceMap(NAMED, max_names=most), "a file": lambda most: SourceMap.from_file(path, max_names=most),
        "a rewriter": lambda most: Rewriter({"/x.js": NAMED}, paths=True, max_names=most),
        "what is added": lambda most: Maps(lambda url: None, max_bytes=1 << 20, paths=True, max_names=most).add("/x.js", NAMED),
    }
    for what, read in reads.items():
        read(16)
        refused = raised(Refused, lambda: read(15))
        same((refused.code, "M18 LongNames" in str(refused)), ("M18", True), what)
    for most, is_read in ((16, True), (15, False)):
        maps = Maps(lambda url: NAMED, max_bytes=1 << 20, paths=True, max_names=most)
        same((maps.get("/x.js") is not None, [error.code for _, error in maps.refusals]), (is_read, [] if is_read else ["M18"]), "a loader's")
        rewriter = Rewriter({}, load=lambda url: NAMED, paths=True, max_names=most)
        same(rewriter.rewrite("f@/x.js:1:1"), b"f@/src/a.ts:1:1" if is_read else b"f@/x.js:1:1", "a loader's frame")
    # 2^16 bytes of `sourceRoot` before 4,100 sources are more than 2^28 bytes.
    long = json.dumps({"version": 3, "sourceRoot": "r" * 2**16, "sources": ["a"] * 4100, "names": [], "mappings": "AAAA"})
    same(raised(Refused, lambda: SourceMap(long)).code, "M18", "more than is taken by itself")


# About 64 KiB of a map whose names would be made of 256 MiB, and a trace of 1 MiB that would come to 5 GB.
def memory():
    count = 8000
    hostile = json.dumps({"version": 3, "sourceRoot": "r" * (4 * count), "sources": ["s"] * count, "mappings": ""}, separators=(",", ":"))
    name = "n" * 65500
    map_text = json.dumps({"version": 3, "sources": [name], "names": [], "mappings": "AAAA"})
    frame, place = "f@a.js:1:1\n", "/a.js?v:1:1\n"
    before = resource.getrusage(resource.RUSAGE_SELF).ru_maxrss
    same(raised(Refused, lambda: SourceMap(hostile, max_names=1 << 20)).code, "M18", "names")
    # Each line is 65,507 or 65,505 bytes long then: sixteen of both are within 1 MiB.
    for rewriter in (Rewriter({"a.js": map_text}), Rewriter({}, load=lambda url: map_text), Maps(lambda url: map_text, max_bytes=1 << 20)):
        for text, how in ((frame * 80000, {}), (frame * 80000, {"anywhere": True}), (place * 80000, {"anywhere": True})):
            if text.startswith("/a.js?") and isinstance(rewriter, Rewriter) and rewriter._load is None:
                continue
            rewriter.rewrite("\n\n")
            counts = rewriter.counts
            refused = raised(Refused, lambda: rewriter.rewrite(text, max_output=1 << 20, **how))
            same((refused.code, refused.lines, str(refused)), ("X5", 16, "refused: X5 LongOutput: 16 whole lines fit"), f"{rewriter} {how}")
            same(rewriter.counts, counts, "the counts before")
    grown = resource.getrusage(resource.RUSAGE_SELF).ru_maxrss - before
    same(grown < 100000, True, f"{grown} KiB")


def outputs():
    text_of = lambda name: json.dumps({"version": 3, "sources": [f"{name}.ts"], "names": [], "mappings": "AAAA"})
    load = lambda url: text_of(url[-4] * 9) if url.endswith(".js") else None
    # The three lines become 34, 19 and 34 bytes.
    frames = "f@https://e.test/a.js:1:1\nf@https://no.t:1:1\nf@https://e.test/b.js?vvvvvvvvvvvvvvvvvvvv:1:1\n"
    wanted = "f@https://e.test/aaaaaaaaa.ts:1:1\nf@https://no.t:1:1\nf@https://e.test/bbbbbbbbb.ts:1:1\n".encode()
    makes = {
        "a rewriter": lambda: Rewriter({f"https://e.test/{name}.js{more}": load(f"{name}.js") for name, more in (("a", ""), ("b", "?" + "v" * 20))}),
        "a rewriter that loads": lambda: Rewriter({}, load=load), "maps": lambda: Maps(load, max_bytes=1 << 20),
        "maps in parts": lambda: Maps(load, max_bytes=0),
    }
    ends = [place for place, byte in enumerate(wanted, 1) if byte == 10]
    for what, make in makes.items():
        for how in ({}, {"anywhere": True}, {"strip_ansi": True}):
            for most in range(len(wanted) + 2):
                made = make()
                if most >= len(wanted):
                    same(made.rewrite(frames, max_output=most, **how), wanted, f"{what} {most}")
                    same(made.counts["lines"], 3, f"{what} {most}")
                    continue
                refused = raised(Refused, lambda: made.rewrite(frames, max_output=most, **how))
                lines = sum(end <= most for end in ends)
                same((refused.code, refused.lines, made.counts), ("X5", lines, {}), f"{what} {how} {most}")
    # Colours go, and the query of a place that is replaced: what is made on the way may be longer.
    text = "\x1b[31m" * 9 + f"{URL}?{'v' * 99}:1:1\n" + f"{URL}?{'w' * 9}:9:9\n"
    wanted = f"https://e.test/aaaaaaaaa.ts:1:1\n{URL}?{'w' * 9}:9:9\n".encode()
    for make in (lambda: Rewriter({}, load=load), lambda: Maps(load, max_bytes=1 << 20)):
        same(make().rewrite(text, anywhere=True, strip_ansi=True, max_output=len(wanted)), wanted, "what is shorter in the end")
        same(raised(Refused, lambda: make().rewrite(text, anywhere=True, strip_ansi=True, max_output=len(wanted) - 1)).lines, 1, "one byte less")
        same(raised(Refused, lambda: make().rewrite(f"{URL}?w:9:9", anywhere=True, max_output=len(URL) + 5)).lines, 0, "nothing replaced")


# A map with more names than are taken by itself is copied where it is composed, and where a trace is rewritten over it.
def copies():
    long = json.dumps({"version": 3, "sources": ["a" * 40], "names": [], "mappings": "AAAA"})
    maps = Maps(lambda url: SourceMap(long), max_bytes=1 << 20, max_names=8)
    same(maps.get(URL).source_name(0), "a" * 40, "one that was read")
    same(maps.rewrite(f"f@{URL}:1:1"), b"f@" + b"a" * 40 + b":1:1", "its copy")
    with SourceMap(long, max_names=40) as made, SourceMap(long) as other:
        same(compose(made, 0, made), compose(made, 0, other), "with itself")
        same(compose_all(made, {0: made}), compose_all(made, {0: other}), "with itself, all")


if __name__ == "__main__":
    memory()
    with tempfile.TemporaryDirectory() as made:
        numbers(Path(made))
        names(Path(made))
    outputs()
    copies()
    print("bounds", reported)
