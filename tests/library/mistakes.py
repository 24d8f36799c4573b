"""What the library answers in Python where it is called wrongly, and at the ends of what numbers hold: mistakes.py MAP."""

import copy
import ctypes
import json
import mmap
import os
import pickle
import random
import sys
import tempfile
from array import array
from pathlib import Path

from smap import Answer, Fit, Mapping, Maps, Place, Refused, Rewriter, SourceMap, _smap, compose, compose_all, encode
from smap._answers import Refusal
from smap._reported import refused_map

# Line 0 has a mapping at column 0 and one at 10 with a name, line 1 none, and line 2 one at 5 without an original.
SMALL = b'{"version":3,"sources":["a.js"],"names":["n"],"mappings":"AAAA,UACIA;;K"}'
FIRST, LAST = Answer(0, 0, 0, 0, None), Answer(10, 0, 1, 4, 0)
FAR = 2**32

reported = 0


def same(got, wanted):
    global reported
    assert got == wanted, f"{got!r} in place of {wanted!r}"
    reported += 1


def refuses(error, call, *texts, **members):
    global reported
    try:
        got = call()
    except BaseException as raised:
        assert type(raised) is error, f"{raised!r} in place of {error.__name__}"
        for text in texts:
            assert text in str(raised), f"{raised} has no {text}"
        for name, wanted in members.items():
            assert getattr(raised, name) == wanted, f"{name} of {raised!r}"
        reported += 1
        return
    raise AssertionError(f"{got!r} in place of {error.__name__}")


class Whole:
    """What has a whole number, or raises an error of its own."""

    def __init__(self, number):
        self.number = number

    def __index__(self):
        if self.number is None:
            raise KeyError("no number")
        return self.number


class Misnamed(type):
    """The type of types whose name is no text."""

    __name__ = property(lambda cls: (1, 2))


def places():
    with SourceMap(SMALL) as small:
        refuses(TypeError, lambda: small.look_up(Misnamed("A", (), {})(), 0), "line is a whole number, not (1, 2)")
        for column in (10, 203, FAR - 1, FAR, FAR + 3, FAR + 203, 2**64, 2**64 + 3):
            same(small.look_up(0, column), LAST)
            same(small.look_up(1, column), None)
            same(small.look_up_from(0, column), LAST if column == 10 else None)
        for line in (3, FAR - 1, FAR, FAR + 2, 2**64):
            same(small.look_up(line, 9), None)
            same(small.look_up_from(line, 0), None)
        same(small.look_up(0, 3), FIRST)
        same(small.look_up_from(0, 3), LAST)
        same(small.look_up(2, FAR), Answer(5, None, None, None, None))
        for look_up, last in ((small.look_up, LAST), (small.look_up_from, LAST), (small.place, Place("a.js", 1, 4, "n", False, 0))):
            for number in (-1, -FAR, -FAR + 3):
                refuses(ValueError, lambda: look_up(number, 0), "line", str(number))
                refuses(ValueError, lambda: look_up(0, number), "column", str(number))
            for number in (True, False, 0.0, 1.5, float("inf"), float("nan"), "0", b"0", None, (0,)):
                refuses(TypeError, lambda: look_up(number, 0), "line", type(number).__name__)
                refuses(TypeError, lambda: look_up(0, number), "column", type(number).__name__)
            same(look_up(line=0, column=10), last)
            same(look_up(0, column=10), last)
            same(look_up(Whole(0), Whole(10)), last)
            refuses(KeyError, lambda: look_up(0, Whole(None)), "no number")
            for words in ((), (0,), (0, 10, 0)):
                refuses(TypeError, lambda: look_up(*words), f"{look_up.__name__}() ")
            refuses(TypeError, lambda: look_up(0, row=10))
            for named in ({}, {"column": 10}, {"line": 0, "column": 10, "row": 0}):
                refuses(TypeError, lambda: look_up(**named), f"{look_up.__name__}() ")
            refuses(TypeError, lambda: look_up(0, 10, column=10), f"{look_up.__name__}() ")


def many():
    with SourceMap(SMALL) as small:
        last, none = [2, 10, 0, 1, 4, 1, 0], [0] * 7
        ask = lambda positions: small.look_up_many(positions).tolist()
        same(ask(array("I", [0, 12, 3, 0, 0, FAR - 1, FAR - 1, 0])), last + none + last + none)
        same(ask(array("I")), [])
        same(ask(memoryview(array("I", [0, 12]))), last)
        same(ask(memoryview(array("I", [0, 9, 12, 9]))[::2]), last)
        same(ask((ctypes.c_uint32 * 2)(0, 12)), last)
        same(ask(memoryview(array("I", [0, 12, 3, 0])).cast("B").cast("I", [2, 2])), last + none)
        # Positions that can't be written, and such that stand at an odd byte.
        same(ask(memoryview(array("I", [0, 12]).tobytes()).cast("I")), last)
        same(ask(memoryview(b"\0" + array("I", [0, 12]).tobytes())[1:].cast("I")), last)
        for typecode in "bBhHiqQfd":
            refuses(TypeError, lambda: ask(array(typecode, [0, 12])), "32 bits")
        if array("L").itemsize == 8:
            refuses(TypeError, lambda: ask(array("L", [0, 12])), "64 bits")
        for other in (b"\0" * 8, bytearray(8)):
            refuses(TypeError, lambda: ask(other), "32 bits")
        for other in ([0, 12], "0 12", None, 7):
            refuses(TypeError, lambda: ask(other), "array")
        refuses(ValueError, lambda: ask(array("I", [0, 12, 0])), "a line without a column")


def texts():
    with SourceMap(SMALL) as small:
        same((small.source(0).name, small.name(0), small.name(None)), ("a.js", "n", None))
        for get in (small.source, small.name):
            for index in (1, -1, FAR - 1, FAR, -FAR, 2**64):
                refuses(IndexError, lambda: get(index), str(index))
            for index in (False, 0.0, "0"):
                refuses(TypeError, lambda: get(index), type(index).__name__)
        refuses(TypeError, lambda: small.source(None), "NoneType")


def maps(folder):
    path, other = folder / "small.map", folder / "other ä.map"
    path.write_bytes(SMALL)
    other.write_bytes(b"no JSON")
    apart = memoryview(bytes(2 * len(SMALL)))[::2]
    with path.open("r+b") as file, mmap.mmap(file.fileno(), 0) as writable, mmap.mmap(file.fileno(), 0, access=mmap.ACCESS_READ) as mapped:
        for data in (SMALL, SMALL.decode(), bytearray(SMALL), memoryview(SMALL), memoryview(bytearray(SMALL)), array("B", SMALL),
                     memoryview(b"".join(bytes((byte, 0)) for byte in SMALL))[::2], writable, mapped, path):
            with SourceMap(data) as small:
                same(small.look_up(0, 12), LAST)
    refuses(Refused, lambda: SourceMap(apart), "refused: M2 NotJson")
    for given in (path, str(path)):
        with SourceMap.from_file(given, base="https://e.test/x.js", interval=1) as small:
            same((small.look_up(0, 12), small.source(0).name), (LAST, "https://e.test/a.js"))
    refuses(Refused, lambda: SourceMap.from_file(str(other)), f"refused: {other}: M2 NotJson", code="M2")
    refuses(FileNotFoundError, lambda: SourceMap.from_file(str(folder / "none.map")), "none.map")
    refuses(FileNotFoundError, lambda: SourceMap.from_file(""), "No such file or directory: ''")
    for given in (7, b"x.map", None, [path]):
        refuses(TypeError, lambda: SourceMap.from_file(given))
    with SourceMap('{"version":3,"sources":["ä.js"],"names":[],"mappings":"AAAA"}') as source_map:
        same(source_map.source(0).name, "ä.js")
    for data in (7, 7.5, True, None, [123, 125], {"version": 3}, object()):
        refuses(TypeError, lambda: SourceMap(data), "bytes, a str or a Path", type(data).__name__)
    refuses(TypeError, lambda: SourceMap(array("I", [0])), "32 bits")
    refuses(FileNotFoundError, lambda: SourceMap(folder / "none.map"))
    refuses(Refused, lambda: SourceMap(other), f"refused: {other}: M2 NotJson", code="M2", url=None)
    refuses(Refused, lambda: SourceMap(other, "https://e.test/"), f"refused: {other}: M2 NotJson", url="https://e.test/")
    refuses(Refused, lambda: SourceMap(str(path)), "refused: M2 NotJson", code="M2")
    unnamed = Path(os.fsdecode(os.fsencode(folder) + b"/\xff.map"))
    unnamed.write_bytes(b"[]")
    refuses(Refused, lambda: SourceMap(unnamed), "\ufffd.map: M3 NotObject", code="M3")
    for held in (bytearray(SMALL), mmap.mmap(-1, 9), "x", None):
        refuses(TypeError, lambda: _smap.frame_urls(held, False), "no bytes and no memoryview")


def reasons(folder):
    def refusing(mappings, sources, lines, **members):
        text = f'{{"version":3,"sources":{sources},"mappings":"{mappings}"}}'
        refuses(Refused, lambda: SourceMap(text), args=(f"refused: M14 Text 0 {lines}",),
                explanation=lines.split("\n", 1)[1] + "\n", **members)
    refusing("AACA,ECAA", '["a.js"]', """F10 SourceIndex line 1 byte 5
  segment "ECAA" at line 1, column 3, numbers 2, 1, 0, 0
  source index 1, and the map has 1 source""", cause="F10", line=0, value=1, limit=0, column=2)
    refusing("AACA", "[]", """F10 SourceIndex line 1 byte 0
  segment "AACA" at line 1, column 1, numbers 0, 0, 1, 0
  source index 0, and the map has 0 sources""", cause="F10", line=0, value=0, limit=-1, column=0)
    refusing(";D", "[]", """F7 Negative line 2 byte 1
  segment "D" at line 2, numbers -1
  column 0, and the least is 1""", cause="F7", line=1, value=-1, limit=0, column=None)
    known = {"value": None, "limit": None, "column": None}
    why = "  `sources` is the number 7, and the key must hold a list of texts and nulls, at most 33,554,432 in the file"
    refuses(Refused, lambda: SourceMap('{"version":3,"sources":7,"mappings":""}'), args=(f"refused: M8 Sources\n{why}",),
            explanation=f"{why}\n", **known)
    packed = folder / "packed.map"
    packed.write_bytes(b"\x1f\x8b\x08")
    refuses(Refused, lambda: SourceMap(packed), f"refused: {packed}: M2 NotJson\n  the file is packed with gzip", **known)
    refuses(Refused, lambda: SourceMap(SMALL, max_names=3), args=("refused: M18 LongNames",), explanation="", **known)
    refuses(Refused, lambda: SourceMap(SMALL, base="a.js"), args=("the base is no URL: 'a.js'",), explanation="", **known)
    with SourceMap(SMALL) as small:
        refuses(Refused, lambda: compose(small, 1, small), args=("refused: C1 SourceIndex",), explanation="", **known)


def bases():
    with SourceMap(SMALL, base="https://e.test/x/b.js") as small:
        same(small.source(0).name, "https://e.test/x/a.js")
    with SourceMap(SMALL, base="https://e.test/" + "x" * 100000 + "/b.js") as small:
        same(len(small.source(0).name), 100020)
    for base in ("", "no URL", "a.js", "/a.js", "\udc80"):
        refuses(Refused, lambda: SourceMap(SMALL, base=base), "the base is no URL", repr(base), code="usage")
    refuses(Refused, lambda: SourceMap(SMALL, base="x" * 100000), "the base is no URL", "99800 characters more", code="usage")
    url = "https://e.test/a.map"
    refuses(Refused, lambda: SourceMap(b"{}", base=url), f"refused: {url}: M4 Version\n", code="M4", url=url)
    for base in (7, b"https://e.test/", ["a"]):
        refuses(TypeError, lambda: SourceMap(SMALL, base=base), "base is a str", type(base).__name__)
    # No base of a test is so long.
    long = refused_map(b"", Refusal(_smap.U1, 0, 0, 0, 0, 0), None, "https://e.test/")
    same((long.code, str(long)), ("U1", "the base is too long: 'https://e.test/'"))
    same(str(refused_map(b"", Refusal(99, 0, 0, 0, 0, 0), None, "")), "refused: 99")


def intervals():
    for interval in (1, 64, 4096):
        with SourceMap(SMALL, interval=interval) as small:
            same(small.look_up(0, 12), LAST)
    for interval in (0, -1, -FAR + 64, 4097, FAR - 1, FAR, FAR + 64, 2**64 + 64):
        refuses(ValueError, lambda: SourceMap(SMALL, interval=interval), f"interval is {interval}: it is 1 to 4096")
        refuses(ValueError, lambda: SourceMap("no JSON", interval=interval), "interval")
    for interval in (True, 64.0, "64", None):
        refuses(TypeError, lambda: SourceMap(SMALL, interval=interval), "interval", type(interval).__name__)
    # The library takes the same ones.
    for interval in (1, 4096):
        same(_smap.Map()._read(SMALL, b"", interval, 100), None)
    for interval in (0, 4097):
        same(_smap.code_text(_smap.Map()._read(SMALL, b"", interval, 100).cause), "B1 Interval")


def compositions(path):
    with SourceMap(SMALL) as small, SourceMap(SMALL) as other:
        for source in (1, -1, -FAR, FAR - 1, FAR, 2**64):
            refuses(Refused, lambda: compose(small, source, other), "refused: C1 SourceIndex", code="C1")
            refuses(Refused, lambda: compose(small, source, small), "refused: C1 SourceIndex", code="C1")
        for source in (False, 0.0, "0", None):
            refuses(TypeError, lambda: compose(small, source, other), "source", type(source).__name__)
        for given in (7, SMALL, None):
            refuses(TypeError, lambda: compose(small, 0, given), "SourceMap", type(given).__name__)
            refuses(TypeError, lambda: compose(given, 0, small), "SourceMap", type(given).__name__)
        same(compose(small, 0, small), compose(small, 0, other))
    with SourceMap(path) as source_map, SourceMap(path) as other:
        for source in range(source_map.counts.sources):
            same(compose(source_map, source, source_map), compose(source_map, source, other))
    # So many lines that it is not written.
    far = (b'{"version":3,"sections":[{"offset":{"line":67108864,"column":0},'
           b'"map":{"version":3,"sources":["a.js"],"names":[],"mappings":"A"}}]}')
    with SourceMap(far) as source_map, SourceMap(far) as other:
        refuses(Refused, source_map.write, "refused: O1 TextTooLong")
        for inner in (source_map, other):
            refuses(Refused, lambda: compose(source_map, 0, inner), "refused: C2 TooLarge", code="C2")
            refuses(Refused, lambda: compose(source_map, 1, inner), "refused: C1 SourceIndex", code="C1")


def encoding():
    mappings = [Mapping(0, 0, 0, 0, 0, None), Mapping(0, 10, 0, 1, 4, 0), Mapping(2, 5, None, None, None, None)]
    same([encode(mappings), encode(iter(mappings[:1])), encode([])], ["AAAA,UACIA;;K", "AAAA", ""])
    with SourceMap(SMALL) as source_map:
        same(encode(source_map.mappings()), "AAAA,UACIA;;K")
    refuses(Refused, lambda: encode(reversed(mappings)), "refused: E1 NotSorted 1", code="E1")
    for number in (2**31, FAR, 2**64):
        refuses(Refused, lambda: encode([*mappings, Mapping(9, number, None, None, None, None)]), "refused: E2 OutOfRange 3", code="E2")
    refuses(Refused, lambda: encode([Mapping(2**31 - 1, 0, None, None, None, None)]), "refused: E3 TooLong", code="E3")
    refuses(ValueError, lambda: encode([Mapping(0, -1, None, None, None, None)]), "-1")
    for number in (0.0, "0", True):
        refuses(TypeError, lambda: encode([Mapping(0, number, None, None, None, None)]), "whole number")
    for given in (7, [7]):
        refuses(TypeError, lambda: encode(given))
    for given in ((), (1, 2), (0, 0, 0, 0, 0, None, 0)):
        refuses(ValueError, lambda: encode([given]), f"a mapping has 6 members, not {len(given)}")


def composing_all():
    # Its lines 0 and 1 come from two sources of one name, and line 2 from a third one.
    outer = b'{"version":3,"sources":["x/a.js","x/a.js","https://e.test/y/b.js"],"names":[],"mappings":"AAAA;ACAA;ACAA"}'
    inner = b'{"version":3,"sources":["../s.ts"],"names":[],"mappings":"AAAA"}'
    all_of = lambda *names: [*["x/a.js", "x/a.js", "https://e.test/y/b.js"], *names]

    def sources(text):
        with SourceMap(text) as made:
            return [source.name for source in made.sources]

    with SourceMap(outer) as first, SourceMap(inner) as second:
        same(sources(compose_all(first)), all_of())
        same(sources(compose_all(first, {"x/a.js": inner, 2: inner})), all_of("s.ts", "s.ts", "https://e.test/s.ts"))
        # One map for two sources, which stays open, and a map that is its own inner one.
        same(sources(compose_all(first, {"x/a.js": second})), all_of("s.ts", "s.ts"))
        same(sources(compose_all(first, {0: first})), all_of("x/x/a.js", "x/x/a.js", "https://e.test/y/b.js"))
        same(second.look_up(0, 0), Answer(0, 0, 0, 0, None))
        # A map that was read before has the names of then.
        same(sources(compose_all(first, {2: second})), all_of("../s.ts"))
        same(sources(compose_all(first, {"x/a.js": SourceMap(inner, "https://f.test/y/b.js")})), all_of(*["https://f.test/s.ts"] * 2))
        same(sources(compose_all(first, {2: inner}, prune=True)), ["x/a.js", "https://e.test/s.ts"])
        for source in (3, -1, -FAR, FAR - 1, FAR, 2**64):
            for load in (None, lambda name: None):
                refuses(Refused, lambda: compose_all(first, {source: inner}, load), "refused: C1 SourceIndex", code="C1")
                refuses(Refused, lambda: compose_all(first, {0: second, source: inner}, load), "refused: C1 SourceIndex", code="C1")
        same(second.look_up(0, 0), Answer(0, 0, 0, 0, None))
        refuses(Refused, lambda: compose_all(first, {"a.js": inner}), "refused: C4 NoSource a.js", code="C4")
        refuses(Refused, lambda: compose_all(first, {"x/a.js": b"{}"}), "refused: x/a.js: M4 Version", code="M4", url="x/a.js")
        refuses(ValueError, lambda: compose_all(first, {"x/a.js": inner, 1: inner}), "source 1 has two maps")
        for source in (False, 0.0, None, b"x/a.js"):
            refuses(TypeError, lambda: compose_all(first, {source: inner}), "source", type(source).__name__)
        # The places of inner maps, which take maps over.
        places, taken = _smap.Inners(first), SourceMap(inner)
        for given in (7, None, places):
            refuses(TypeError, lambda: _smap.Inners(given), "Map")
            refuses(TypeError, lambda: places.put(0, given), "Map")
            refuses(TypeError, lambda: places.next(given), "Map")
        for source in (False, 0.5, "0"):
            refuses(TypeError, lambda: places.put(source, taken), "source")
        same([places.put(source, taken) for source in (3, -1, FAR, 1)], [False, False, False, True])
        refuses(ValueError, lambda: places.put(0, taken), "the map is closed")
        same([places.put(1, second), places.next(first), places.next(first), places.name(first, 2)], [False, 0, 2, "https://e.test/y/b.js"])
        same([places.name(first, 3), places.next(first), places.name(first, 3), places.next(first)], [None, 3, "s.ts", None])
        places.close()
        refuses(ValueError, lambda: places.next(first), "the inner maps are closed")
        same(sources(compose_all(first, {Whole(0): second})), all_of("s.ts"))
        for given in (7, None, []):
            refuses(TypeError, lambda: compose_all(first, {0: given}), "bytes, a str or a Path", type(given).__name__)
        for given in (7, SMALL, None):
            refuses(TypeError, lambda: compose_all(given), "SourceMap", type(given).__name__)
        for given in (7, "x/a.js", [inner]):
            refuses(TypeError, lambda: compose_all(first, given), "dict", type(given).__name__)
            refuses(TypeError, lambda: compose_all(first, {}, given), "function", type(given).__name__)
        # Each name is asked for once, and no source for the map of one that leads to it.
        asked = []
        maps = {"x/a.js": inner, "s.ts": b'{"version":3,"sources":["x/a.js"],"names":[],"mappings":"AAAA"}', "https://e.test/y/b.js": None}
        load = lambda name: asked.append(name) or maps[name]
        same(sources(compose_all(first, load=load)), all_of("s.ts", "s.ts", "x/a.js", "x/a.js"))
        same(asked, ["x/a.js", "https://e.test/y/b.js", "s.ts"])
        same(sources(compose_all(first, load=lambda name: second if name == "x/a.js" else None)), all_of("s.ts", "s.ts"))
        same(sources(compose_all(first, {"x/a.js": inner}, load=lambda name: inner if name == "s.ts" else None)), all_of("s.ts", "s.ts", "../s.ts", "../s.ts"))
        refuses(Refused, lambda: compose_all(first, load=lambda name: b"[]"), "refused: x/a.js: M3 NotObject", code="M3", url="x/a.js")
        refuses(KeyError, lambda: compose_all(first, load=lambda name: maps["none"]), "none")
        refuses(TypeError, lambda: compose_all(first, load=lambda name: 7), "bytes, a str or a Path", "int")
        same(second.look_up(0, 0), Answer(0, 0, 0, 0, None))
        second.close()
        refuses(ValueError, lambda: compose_all(first, {0: second}), "closed")
        same(sources(compose_all(first)), all_of())
    refuses(ValueError, lambda: compose_all(first), "closed")


def tables():
    url, second = "https://e.test/a.min.js", "https://e.test/b.min.js"
    for data, text in ((b"{}", "M4 Version"), (b"no JSON", "M2 NotJson"), ("[]", "M3 NotObject")):
        refuses(Refused, lambda: Rewriter({url: SMALL, second: data}), f"refused: {second}: {text}", code=text[:2], url=second)
        refuses(Refused, lambda: Rewriter({"b.js": data, url: SMALL}), f"refused: b.js: {text}", code=text[:2], url="b.js")
    fault = SMALL.replace(b"AAAA", b"AA!A")
    refuses(Refused, lambda: Rewriter({second: fault}), second, code="M14", cause="F1", line=0, byte=0, section=0, url=second)
    for bad in ("", "a\nb", "async a", "eval at a"):
        refuses(Refused, lambda: Rewriter({url: SMALL, bad: SMALL}), "usage: A1 BadUrl: " + repr(bad), code="A1", url=bad)
    refuses(Refused, lambda: Rewriter({"\udc80": SMALL}), "usage: NotUtf8: ", code="NotUtf8", url="\udc80")
    for bad in (7, b"a.js", None):
        refuses(TypeError, lambda: Rewriter({bad: SMALL}), "URL", type(bad).__name__)
    for bad in (7, [("a.js", SMALL)], "a.js", None):
        refuses(TypeError, lambda: Rewriter(bad), "dict", type(bad).__name__)
    for bad in (7, False, []):
        refuses(TypeError, lambda: Rewriter({"a.js": bad}), "bytes, a str or a Path", type(bad).__name__)
    with Rewriter({"a.js": None, url: SMALL}) as rewriter:
        same(repr(rewriter), "<Rewriter maps=1>")
    trace, wanted = "    at ä (https://e.test/a.min.js:1:11)\n", "    at ä (https://e.test/a.js:2:5)\n".encode()
    with Rewriter({url: SMALL}) as rewriter:
        same(rewriter.counts, {})
        for given in (trace, trace.encode(), bytearray(trace.encode()), memoryview(trace.encode())):
            same(rewriter.rewrite(given), wanted)
            same(rewriter.counts, {"lines": 1, "frames": 1, "mapped": 1, "hidden": 0})
        for bad in (7, None, [trace], Path("trace")):
            refuses(TypeError, lambda: rewriter.rewrite(bad), "bytes or a str", type(bad).__name__)
    refuses(ValueError, lambda: rewriter.rewrite(trace), "closed")
    with SourceMap(SMALL) as given:
        refuses(Refused, lambda: Rewriter({"a\nb": given}), "A1 BadUrl")
        same(given.look_up(0, 12), LAST)
        Rewriter({"a.js": given}).close()
        same(given.look_up(0, 12), LAST)
    refuses(ValueError, lambda: Rewriter({"a.js": given}), "closed")
    # What Python says of wrong arguments names what was called.
    for call in (lambda: Rewriter({}).rewrite(trace, other=1), lambda: Rewriter({}).look_up(url), lambda: Maps(len)):
        try:
            call()
        except TypeError as error:
            same(str(error).startswith(("rewrite() ", "look_up() ", "Maps.__init__() ", "__init__() ")), True)


def paths():
    # The path of the map, its root, a source, and what that is called.
    rows = [
        ("dist/a.js.map", None, "../src/a.ts", "src/a.ts"),
        ("a.js.map", "src", "./a.ts", "src/a.ts"),
        ("./dist/a.js.map", "", "b.ts", "dist/b.ts"),
        ("../dist/a.js.map", None, "../../b.ts", "../../b.ts"),
        ("/srv/dist/a.js.map", None, "../../../b.ts", "/b.ts"),
        ("no URL", None, "x/../b.ts", "b.ts"),
        ("dist/a.js.map", None, "https://e.test/x/../b.ts", "https://e.test/b.ts"),
        ("dist/a.js.map", "https://e.test/s", "b.ts", "https://e.test/s/b.ts"),
        ("dist/a.js.map", "/root", "../b.ts", "/b.ts"),
        ("dist/a.js.map", None, "//e.test/../b.ts", "//e.test/../b.ts"),
        ("dist/a.js.map", None, "b.vue?x=../y#z/..", "dist/b.vue?x=../y#z/.."),
        ("dist/a.js.map", "src", None, None),
        ("dist/ä.js.map", None, "ö.ts", "dist/ö.ts"),
        ("dist/a.js.map", None, "/x/./y//z.ts", "/x/y/z.ts"),
    ]
    for path, root, source, name in rows:
        regular = {"version": 3, "sourceRoot": root, "sources": ["c.ts", source], "names": [], "mappings": "ACAA"}
        index = {"version": 3, "sections": [{"offset": {"line": 0, "column": 0}, "map": regular}]}
        for given in (json.dumps(regular), b")]}'\n" + json.dumps(regular).encode(), "\ufeff" + json.dumps(index)):
            with SourceMap(given, Path(path)) as made:
                same((made.source_name(1), made.look_up(0, 0).source), (name, 1))
                same(json.loads(made.write())["sources"][1], name)
    # The names count for their own bytes, 12 here, and the 13 of the path before each of the three.
    bound = '{"version":3,"sources":["../a.ts","b.ts",null,"/"],"names":[],"mappings":""}'
    for most in (51, 52, 2**40):
        with SourceMap(bound, Path("dist/a.js.map"), max_names=most) as made:
            same([source.name for source in made.sources], ["a.ts", "dist/b.ts", None, "/"])
    for most in (50, 12, 11):
        refuses(Refused, lambda: SourceMap(bound, Path("dist/a.js.map"), max_names=most), "M18 LongNames", code="M18", url=None)
    refuses(Refused, lambda: SourceMap("no JSON", Path("a.js")), "refused: a.js: M2 NotJson\n", code="M2", url=None)
    hint = "`SourceMap.from_file` reads the file at a path"
    refuses(Refused, lambda: SourceMap("dist/a.js.map"), hint, code="M2")
    refuses(Refused, lambda: Rewriter({"a.js": "dist/a.js.map"}), hint, code="M2", url="a.js")
    with Rewriter({}, load=lambda name: "dist/a.js.map") as rewriter, SourceMap(SMALL) as small:
        rewriter.rewrite("f@a.js:1:1")
        same(hint in str(rewriter.refusals[0][1]), True)
        refuses(Refused, lambda: compose_all(small, {"a.js": "dist/a.js.map"}), hint, code="M2", url="a.js")
    for given in (b"dist/a.js.map", "{dist/a.js.map", "a\nb", ""):
        try:
            SourceMap(given)
        except Refused as refused:
            same("from_file" in str(refused), False)
        try:
            Rewriter({"a.js": given})
        except Refused as refused:
            same("from_file" in str(refused), False)


def loading():
    url, asked = "https://e.test/a.min.js", []
    frame, mapped = b"    at f (https://e.test/a.min.js:1:11)\n", b"    at f (https://e.test/a.js:2:5)\n"

    def load(name):
        asked.append(name)
        return SMALL if name in (url, "eval at x://y") else None

    with Rewriter({"b.js": SMALL}, load=load) as rewriter:
        for _ in range(2):
            same(rewriter.rewrite(frame + b"f@b.js:1:11\nf@c.js:1:1\nat d.js\n" + frame), mapped + b"f@a.js:2:5\nf@c.js:1:1\nat d.js\n" + mapped)
            same(asked, [url, "c.js"])
        same(rewriter.counts, {"lines": 5, "frames": 4, "mapped": 3, "hidden": 0})
        # Texts that are no URL and no path, one that is no text, and a URL that no table takes.
        odd = (b"f@async x:1:11\nf@[native code]:1:11\nf@../../../etc/passwd:1:11\nf@x/../y.js:1:11\nf@x//y.js:1:11\nf@\xff.js:1:11\n"
               b"f@eval at x://y:1:11\n")
        same(rewriter.rewrite(odd), odd)
        same(asked, [url, "c.js", "eval at x://y"])
        same([(name, str(error)) for name, error in rewriter.refusals], [("eval at x://y", "usage: A1 BadUrl: 'eval at x://y'")])
        paths = ["/srv/x", "C:\\app\\x", "c:/app/x", "x/y.mjs", "./y.cjs", "index.android.bundle", "app:///x"]
        rewriter.rewrite("".join(f"f@{path}:1:1\n" for path in paths))
        same(asked[3:], paths)
    refuses(ValueError, lambda: rewriter.rewrite("f@e.js:1:1"), "closed")
    with SourceMap(SMALL) as given, Rewriter({}, load=lambda name: given) as rewriter:
        same(rewriter.rewrite("f@g.js:1:11"), b"f@a.js:2:5")
        same((rewriter.rewrite("f@h.js:1:11"), rewriter.refusals), (b"f@a.js:2:5", []))
        given.close()
        same((rewriter.rewrite("f@i.js:1:11"), str(rewriter.refusals[0][1])), (b"f@i.js:1:11", "the map is closed"))
        same(rewriter.rewrite("f@h.js:1:11"), b"f@a.js:2:5")
    for bad in (7, "a.js", {}):
        refuses(TypeError, lambda: Rewriter({}, load=bad), "load is a function", type(bad).__name__)
        refuses(TypeError, lambda: Rewriter({}, refused=bad), "refused is a function", type(bad).__name__)


def refusing():
    # What a loader raises, and why its map is refused: the frames stay, and it is told once.
    asked, told = [], []

    def load(name):
        asked.append(name)
        if name == "stop.js":
            raise KeyError(name)
        return {"odd.js": b"{}", "seven.js": 7, "a.min.js": SMALL}[name]

    names = ["odd.js", "stop.js", "seven.js"]
    trace = "".join(f"f@{name}:1:1\n" for name in names)
    for refused in (None, lambda *both: told.append(both)):
        with Rewriter({}, load=load, refused=refused) as rewriter:
            for _ in range(2):
                same(rewriter.rewrite(trace + "f@a.min.js:1:11"), trace.encode() + b"f@a.js:2:5")
            reported = told if refused else rewriter.refusals
        same([(url, type(error)) for url, error in reported], list(zip(names, (Refused, KeyError, TypeError))))
        same(str(reported[0][1]).splitlines()[0], "refused: odd.js: M4 Version")
        same((reported[0][1].code, reported[0][1].url), ("M4", "odd.js"))
        same(asked, names + ["a.min.js"])
        asked.clear()

    # Not all are kept, what the one that is told raises is raised, and what is no error ends the call.
    with Rewriter({}, load=lambda name: b"{}") as rewriter:
        rewriter.rewrite("".join(f"f@{i}.js:1:1\n" for i in range(200)))
        same((len(rewriter.refusals), rewriter.refusals[99][0]), (100, "99.js"))

    def fail(*_):
        raise KeyError("told")

    def interrupted(name):
        raise KeyboardInterrupt

    refuses(KeyError, lambda: Rewriter({}, load=load, refused=fail).rewrite(trace), "told")
    refuses(KeyboardInterrupt, lambda: Rewriter({}, load=interrupted).rewrite(trace))


def cut_urls():
    # URLs with a query or a fragment have one map together, and keep both where they have no original. 1:11 has one, 2:11 none.
    asked, url = [], "https://e.test/x.min.js"

    def load(name):
        asked.append(name)
        return SMALL if name.endswith("x.min.js") else None

    pairs = [("?v=3", 1), ("?v=4", 1), ("#y?z", 1), ("?v=3", 2), ("", 1), ("?", 2)]
    places = [f"{url}{more}:{line}:11" for more, line in pairs]
    wanted = ["https://e.test/a.js:2:5" if line == 1 else place for place, (_, line) in zip(places, pairs)]
    for count in (1, 2, 4, 8, 16, 32, 64):
        rows = [i * 7 % len(pairs) for i in range(count)]
        mapped = sum(pairs[row][1] == 1 for row in rows)
        texts = lambda given, before, behind: "".join(before + given[row] + behind for row in rows)
        with Rewriter({}, load=load) as rewriter:
            before, behind = "x\n    at f (", ")\n"
            same(rewriter.rewrite(texts(places, before, behind)).decode(), texts(wanted, before, behind))
            same(rewriter.counts, {"lines": 2 * count, "frames": count, "mapped": mapped, "hidden": 0})
            for before, behind in (("[", "] "), ("", "\n"), ('"', '"'), ("\x1b[36m", "\x1b[0m"), ("at=", ",")):
                same(rewriter.rewrite(texts(places, before, behind), anywhere=True).decode(), texts(wanted, before, behind))
                same((rewriter.counts["places"], rewriter.counts["mapped"]), (count, mapped))
        same(asked, [url])
        asked.clear()
    # A map that is given for the whole URL comes first, and one for the cut URL serves all.
    text = f"f@{url}?v=3:1:11\nf@{url}?v=4:1:11\n"
    with Rewriter({f"{url}?v=3": SMALL.replace(b"a.js", b"o.js"), url: SMALL}, load=load) as both:
        for anywhere in (False, True):
            for given in (text, memoryview(bytearray(text.encode()))):
                same(both.rewrite(given, anywhere=anywhere), b"f@https://e.test/o.js:2:5\nf@https://e.test/a.js:2:5\n")
    same(asked, [])
    # Without a loader, too.
    with Rewriter({url: SMALL}) as plain:
        same(plain.rewrite(text), b"f@https://e.test/a.js:2:5\n" * 2)
    with Rewriter({}, load=lambda name: SMALL.replace(b'"names"', b'"ignoreList":[0],"names"')) as hiding:
        same(hiding.rewrite(text, hide_ignored=True), b"")
        same(hiding.counts, {"lines": 2, "frames": 2, "mapped": 0, "hidden": 2})


def cut_by_chance():
    # Texts by chance over a loader, beside a table in which each map stands under each whole URL. One map leads to its own URL.
    chance = random.Random(7)
    own = b'{"version":3,"sources":["own.js"],"names":[],"ignoreList":[0],"mappings":"AAAA,UAAU;AACA"}'
    maps = {"https://e.test/x.js": SMALL, "https://e.test/own.js": own, "/srv/y.js": SMALL, "z.js": SMALL.replace(b"a.js", b'b\\"c')}
    urls = [url + more for url in maps for more in ("", "?v=1", "?v=2#z", "#", "?a=,b")]
    # In the midst of a text a comma ends a URL, and what begins like none has to end like a script.
    seen = {True: [url for url in urls if "," not in url and (url == "z.js" or not url.startswith("z.js"))], False: urls}
    around = [("    at f (", ")"), ("f@", ""), ("at ", ""), ("", ""), ("x", ""), ("[", "] "), ("\x1b[31m", "\x1b[0m"), ('"', '",'),
              ("", "7 "), ("_", " "), (",", ";")]
    with Rewriter({url: maps[url.split("?")[0].split("#")[0]] for url in urls}) as exact:
        for _ in range(400):
            options = chance.choice([{}, {"hide_ignored": True}, {"anywhere": True}])
            text = ""
            for _ in range(chance.randrange(chance.choice([3, 20, 200]))):
                before, behind = chance.choice(around)
                if "anywhere" in options and before + behind in ("x", "7 ", "_ "):
                    # A name is told from such a sign before it or behind, and what looks like a URL has it.
                    before, behind = "", "\n"
                url = chance.choice(seen["anywhere" in options] + ["https://e.test/no.js?v=1", "q"])
                # A line that is a frame, whose URL is named as it stands, has no other place: so it stands alone.
                is_frame = before.endswith("@") or "at " in before
                if is_frame and text and not text.endswith("\n"):
                    text += "\n"
                end = "" if "anywhere" in options and not is_frame and behind in ("] ", '",') and chance.random() < 0.4 else "\n"
                text += f"{before}{url}:{chance.randint(1, 3)}:{chance.choice([1, 5, 11, 12])}{behind}{end}"
            with Rewriter({}, load=maps.get) as rewriter:
                same(rewriter.rewrite(text, **options), exact.rewrite(text, **options))
                # With a loader what looks like a URL is a place, though none has its map.
                gone = max(0, rewriter.counts.get("places", 0) - exact.counts.get("places", 0))
                same(rewriter.counts, {**exact.counts, **({"places": exact.counts["places"] + gone} if "anywhere" in options else {})})


def anywhere():
    text = "{g.js:1:11} [h.js:1:11] {g.js:9:9}\n    at g.js:1:11\n"
    with Rewriter({"g.js": SMALL}) as rewriter:
        same(rewriter.rewrite(text, anywhere=True), b"{a.js:2:5} [h.js:1:11] {g.js:9:9}\n    at a.js:2:5\n")
        same(rewriter.counts, {"lines": 2, "places": 3, "mapped": 2})
        refuses(ValueError, lambda: rewriter.rewrite(text, hide_ignored=True, anywhere=True), "hide_ignored with anywhere")
    # The URLs of places are asked for, and no other text before what could be one.
    asked = []
    with Rewriter({}, load=lambda name: asked.append(name) or (SMALL if name == "g.js" else None)) as rewriter:
        same(rewriter.rewrite(text, anywhere=True), b"{a.js:2:5} [h.js:1:11] {g.js:9:9}\n    at a.js:2:5\n")
        same(rewriter.counts, {"lines": 2, "places": 4, "mapped": 2})
        line = ('12:30:45 x:1:2 y=/srv/b.js:1:2 {"stack":"f@app:///c.js?d=1:1:1\\n"} \x1b[1;36mhttps://e.test/e.js:1:1\x1b[0m a:7:8, '
                '(d/f.js:1:2)[native code:1:1]:3:12345678901')
        same(rewriter.rewrite(line, anywhere=True), line.encode())
    same(asked, ["g.js", "h.js", "/srv/b.js", "app:///c.js", "https://e.test/e.js", "d/f.js"])


def lists():
    with SourceMap(SMALL) as small:
        wanted = [Mapping(0, 0, 0, 0, 0, None), Mapping(0, 10, 0, 1, 4, 0), Mapping(2, 5, None, None, None, None)]
        same(list(small.mappings()), wanted)
        same([type(mapping) for mapping in small.mappings()], [Mapping] * 3)
        mappings = small.mappings()
        same((next(mappings), mappings.__length_hint__()), (wanted[0], 2))
        same((small.sources, small.names), ([("a.js", None, False)], ["n"]))
        same((small.source_name(0), small.source_content(index=0), small.is_ignored(0), small.ignore_list), ("a.js", None, False, []))
        same((small.closed, repr(small)), (False, "<SourceMap file=None sources=1 segments=3>"))
        for call in (small.source, small.source_name, small.source_content, small.is_ignored):
            for number in (1, -1, FAR, 2**64):
                refuses(IndexError, lambda: call(number), f"no source {number}")
            for other in (0.0, "0", None, True):
                refuses(TypeError, lambda: call(other), "a source is a whole number")
            for words, named in (((), {}), ((0, 0), {}), ((0,), {"index": 0}), ((), {"index": 0, "other": 0})):
                refuses(TypeError, lambda: call(*words, **named), f"{call.__name__}() ")
            refuses(TypeError, lambda: call(number=0))
    same((small.closed, repr(small)), (True, "<SourceMap closed>"))
    marked = '{"version":3,"file":"f.js","sources":["a.js",null,"b.js"],"sourcesContent":["x",null,"ä"],"ignoreList":[2,0],"mappings":""}'
    with SourceMap(marked) as made:
        same([made.source_name(index) for index in range(3)], ["a.js", None, "b.js"])
        same([made.source_content(index) for index in range(3)], ["x", None, "ä"])
        same([made.is_ignored(index) for index in range(3)], [True, False, True])
        same((made.ignore_list, repr(made)), ([0, 2], "<SourceMap file='f.js' sources=3 segments=0>"))
    for call in (made.source_name, made.source_content, made.is_ignored):
        refuses(ValueError, lambda: call(0), "the map is closed")
    with Rewriter({"a.js": SMALL}, load=lambda name: None) as rewriter:
        rewriter.rewrite("f@b.js:1:1")
        same((rewriter.closed, repr(rewriter)), (False, "<Rewriter maps=1>"))
    same((rewriter.closed, repr(rewriter)), (True, "<Rewriter closed>"))
    # They stay when the map is closed.
    same((list(mappings), list(mappings), mappings.__length_hint__()), (wanted[1:], [], 0))
    with SourceMap('{"version":3,"sources":[],"mappings":""}') as empty:
        same((list(empty.mappings()), empty.sources, empty.names), ([], [], []))
    refuses(ValueError, empty.mappings, "the map is closed")


def generated(folder):
    # Columns count units: the third line begins with a pair of them, and the mapping within it begins behind it. The last mapping
    # stands past the end of its line.
    text = "abcäefg\nxyz\n😀z\nq"
    path = folder / "generated.js"
    with SourceMap('{"version":3,"sources":["a","b","c"],"mappings":"AAAA,GCAA,E;;CAAA;mGDAA"}') as made:
        for given in (text, text.encode(), bytearray(text.encode()), memoryview(text.encode())):
            same(made.bytes_by_source(given), ([3, 4, 0], 13))
        path.write_text(text, encoding="utf-8")
        same(made.bytes_by_source(path), ([3, 4, 0], 13))
        same(made.bytes_by_source(""), ([0, 0, 0], 0))
        path.write_bytes(b"a\xff")
        refuses(Refused, lambda: made.bytes_by_source(b"\xff"), args=("refused: NotUtf8",), code="NotUtf8")
        refuses(Refused, lambda: made.bytes_by_source(path), args=(f"refused: {path}: NotUtf8",), code="NotUtf8")
        same(made.bytes_by_source(b"a" * 2**26), ([3, 2, 0], 2**26 - 5))
        refuses(Refused, lambda: made.bytes_by_source(b"a" * (2**26 + 1)), args=("refused: M1 TooLarge",), code="M1")
        for given in (7, None, ["a"]):
            refuses(TypeError, lambda: made.bytes_by_source(given), "a generated file is bytes, a str or a Path")
    with SourceMap('{"version":3,"sources":[],"mappings":""}') as empty:
        same(empty.bytes_by_source("ä"), ([], 2))
    refuses(ValueError, lambda: empty.bytes_by_source("ä"), "the map is closed")
    refuses(ValueError, lambda: empty.fit("ä"), "the map is closed")


def fits(folder):
    # `let` is not `var`, the place of the second line's first mapping is past the content, and the second source has none.
    text = "var ab\n ;x"
    path = folder / "fit.js"
    path.write_text(text, encoding="utf-8")
    with SourceMap('{"version":3,"sources":["a","b"],"sourcesContent":["let ab"],"mappings":"AAAA,IAAI;AACJ,ECDA"}') as made:
        for given in (text, text.encode(), path):
            same(made.fit(given), (True, 4, 0, 0, 3, 1, 1))
        same(made.fit("var ab\nabc"), Fit(fits=False, mappings=4, past=0, inside=1, compared=3, outside=1, same=1))
        same(made.fit(""), (False, 4, 2, 0, 3, 1, 0))
        refuses(Refused, lambda: made.fit(b"\xff"), args=("refused: NotUtf8",), code="NotUtf8")
        refuses(Refused, lambda: made.fit(b"a" * (2**26 + 1)), args=("refused: M1 TooLarge",), code="M1")
        for given in (7, None, ["a"]):
            refuses(TypeError, lambda: made.fit(given), "a generated file is bytes, a str or a Path")


def kinds():
    # A tuple with names, as it was when Python made it.
    with SourceMap(SMALL) as small:
        answer = small.look_up(0, 12)
        same(type(answer), Answer)
        same(repr(answer), "Answer(generated_column=10, source=0, line=1, column=4, name=0)")
        same(answer._asdict(), {"generated_column": 10, "source": 0, "line": 1, "column": 4, "name": 0})
        same((answer._replace(name=None), hash(answer)), (Answer(10, 0, 1, 4, None), hash((10, 0, 1, 4, 0))))
        same((pickle.loads(pickle.dumps(answer)), copy.copy(answer)), (answer, answer))
        same(repr(next(small.mappings())), "Mapping(generated_line=0, generated_column=0, source=0, line=0, column=0, name=None)")
        for broken in (pickle.dumps, copy.copy):
            refuses(TypeError, lambda: broken(small), "pickle")

    class Named(SourceMap):
        """A map of someone's own."""

        def __init__(self, name, data):
            super().__init__(data)
            self.name_of_it = name

    with Named("its name", SMALL) as named:
        same((named.name_of_it, named.look_up(0, 12)), ("its name", LAST))
        same(compose(named, 0, named), compose(named, 0, SourceMap(SMALL)))
        refuses(ValueError, lambda: SourceMap.__init__(named, SMALL), "read already")
    refuses(ValueError, lambda: SourceMap.__new__(SourceMap).look_up(0, 0), "closed")
    same(type(Named.__new__(Named)), Named)


def closed():
    small = SourceMap(SMALL)
    small.close()
    small.close()
    for call in (lambda: small.look_up(0, 0), lambda: small.look_up_many(array("I")), lambda: small.counts, small.write,
                 lambda: small.source(0), lambda: small.name(0), lambda: small.file, lambda: compose(small, 0, small)):
        refuses(ValueError, call, "the map is closed")


if __name__ == "__main__":
    places()
    many()
    texts()
    with tempfile.TemporaryDirectory() as made:
        maps(Path(made))
        reasons(Path(made))
        generated(Path(made))
        fits(Path(made))
    bases()
    intervals()
    compositions(Path(sys.argv[1]))
    encoding()
    composing_all()
    tables()
    paths()
    loading()
    refusing()
    cut_urls()
    cut_by_chance()
    anywhere()
    closed()
    lists()
    kinds()
    print("mistakes", reported)
