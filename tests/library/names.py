"""Names of functions in Python: a map is given its generated file. What is expected is worked out by hand."""

import asyncio
import pathlib
import tempfile

from smap import AsyncMaps, Maps, Refused, Rewriter, SourceMap

# Line 0: `fe` was written as `main`, and `b` as it is; `c` is a property. Line 1: `fe` again, of which the map says nothing.
TEXT = "function fe(){throw x}function b(){}o.c=()=>{}\nfe=()=>{}"
MAP = '{"version":3,"sources":["a.ts"],"names":["main"],"mappings":"SAAAA,sBAAA"}'

reported = 0


def same(got, wanted):
    global reported
    assert got == wanted, f"{got!r} in place of {wanted!r}"
    reported += 1


def refuses(kind, call, message, code=None):
    global reported
    try:
        call()
    except kind as error:
        assert message in str(error) and getattr(error, "code", None) == code, repr(error)
        reported += 1
        return
    raise AssertionError(f"no {kind.__name__}")


def named(source_map):
    return [source_map.function_name(*asked) for asked in [
        (0, 14, "fe"), (0, 14, "async fe"), (0, 9, "new fe"), (0, 35, "b")]]


def unnamed(source_map):
    return [source_map.function_name(*asked) for asked in [
        (0, 8, "fe"), (0, 30, "fe"), (1, 8, "fe"), (0, 45, "c"), (0, 14, "Object.fe"), (0, 14, "<anonymous>"), (0, 14, "f"), (0, 14, ""),
        (0, 14, "fe "), (0, 14, "\udc00"), (2 ** 40, 2 ** 40, "fe"), (0, 14, "async async fe")]]


with tempfile.TemporaryDirectory() as folder:
    path = pathlib.Path(folder, "a.js")
    path.write_text(TEXT)
    for generated in (TEXT, TEXT.encode(), bytearray(TEXT.encode()), "\ufeff" + TEXT, path):
        source_map = SourceMap(MAP)
        same(source_map.with_generated(generated) is source_map, True)
        same(named(source_map), ["main", "main", "main", "b"])
        same(unnamed(source_map), [None] * 12)
        source_map.close()
        refuses(ValueError, lambda: source_map.function_name(0, 14, "fe"), "closed")
        refuses(ValueError, lambda: source_map.with_generated(TEXT), "closed")

# Another file takes the place of the first, and one that is refused does not.
source_map = SourceMap(MAP)
refuses(ValueError, lambda: source_map.function_name(0, 14, "fe"), "no generated file")
refuses(Refused, lambda: source_map.with_generated("function fe"), "A4 Misfit", "A4")
refuses(ValueError, lambda: source_map.function_name(0, 14, "fe"), "no generated file")
source_map.with_generated(TEXT)
for generated, code in ((b"\xff", "NotUtf8"), (bytes(67108865), "M1"), (TEXT[:30], "A4")):
    refuses(Refused, lambda: source_map.with_generated(generated), code, code)
    same(named(source_map), ["main", "main", "main", "b"])
source_map.with_generated(TEXT.replace("fe", "gi"))
same(source_map.function_name(0, 14, "fe"), None)
same(source_map.function_name(0, 14, "gi"), "main")

# A name that is none, as one that would not be one in JSON, is not handed out.
for name in ('","admin":true,"', "", "a b"):
    other = SourceMap(MAP.replace('"main"', f'"{name}"' if name != '","admin":true,"' else '"\\",\\"admin\\":true,\\""'))
    same(other.with_generated(TEXT).function_name(0, 14, "fe"), None)
same(SourceMap(MAP.replace("main", "é")).with_generated(TEXT).function_name(0, 14, "fe"), "é")

for asked in ((0, 14, b"fe"), (0, 14, None), ("0", 14, "fe"), (0, 1.5, "fe")):
    refuses(TypeError, lambda: source_map.function_name(*asked), "")
for asked in ((-1, 14, "fe"), (0, -1, "fe")):
    refuses(ValueError, lambda: source_map.function_name(*asked), "")
for generated in (None, 7, ["a"]):
    refuses(TypeError, lambda: source_map.with_generated(generated), "generated file")

# Frames get the names of their functions, from a rewriter and from maps: V8's, Firefox's, one of several names, one of which the map says
# nothing, and one that was written as it is.
TRACE = (b"x\n    at async fe (/js/u.js:1:15)\nfe@/js/u.js?v:1:15\n    at Object.fe (/js/u.js:1:15)\n    at fe (/js/u.js:2:9)\n"
         b"    at b (/js/u.js:1:36)\n")
NAMED = (b"x\n    at async main (a.ts:1:1)\nmain@a.ts:1:1\n    at Object.fe (a.ts:1:1)\n    at fe (/js/u.js:2:9)\n"
         b"    at b (a.ts:1:1)\n")
BARE = NAMED.replace(b"main", b"fe")
# With `anywhere` a frame's place names its function, too: but one whose URL is that of a table only up to its query is not the frame's.
CUT = NAMED.replace(b"main@", b"fe@")

for url, placed in (("/js/u.js", CUT), ("*u.js", NAMED)):
    for given, wanted in (((MAP, TEXT), NAMED), ((SourceMap(MAP), TEXT.encode()), NAMED), (SourceMap(MAP).with_generated(TEXT), NAMED), (MAP, BARE)):
        with Rewriter({url: given}) as rewriter:
            same(rewriter.rewrite(TRACE), wanted)
            same(rewriter.rewrite(TRACE, anywhere=True), BARE if wanted is BARE else placed)
            same(rewriter.counts, {"lines": 6, "places": 5, "mapped": 4})
alone = SourceMap(MAP)
for load in (lambda url: (MAP, TEXT), lambda url: (alone, TEXT), lambda url: SourceMap(MAP).with_generated(TEXT)):
    maps = Maps(load, max_bytes=1 << 20)
    same(maps.rewrite(TRACE), NAMED)
    same(maps.rewrite(TRACE, anywhere=True), NAMED)
    same(maps.rewrite(b'["    at fe (/js/u.js:1:15)\\n"] fe (/js/u.js:1:15)\n', anywhere=True),
         b'["    at main (a.ts:1:1)\\n"] fe (a.ts:1:1)\n')
    same(named(maps.get("/js/u.js")), ["main", "main", "main", "b"])
    whole = maps.nbytes
    maps.get("/js/u.js").generated(0, 0, 0)
    same(maps.nbytes > whole, True)
    same(maps.rewrite(TRACE), NAMED)
    maps.add("/js/u.js", MAP)
    same(maps.rewrite(TRACE), BARE)
    same(maps.rewrite(TRACE, anywhere=True), BARE)
    bare = maps.nbytes
    maps.add("/js/u.js", MAP, generated=TEXT)
    same(maps.nbytes > bare, True)
    same(maps.rewrite(TRACE), NAMED)
    refuses(Refused, lambda: maps.add("/js/u.js", MAP, generated="function fe"), "A4 Misfit", "A4")
    same(maps.rewrite(TRACE), NAMED)
refuses(ValueError, lambda: alone.function_name(0, 14, "fe"), "no generated file")


async def rewrites():
    async def load(url):
        return MAP, TEXT

    return await AsyncMaps(load, max_bytes=1 << 20).rewrite(TRACE)

same(asyncio.run(rewrites()), NAMED)

print("names", reported)
