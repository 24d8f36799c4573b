"""The files that the page is tried with."""

import json
from pathlib import Path
from typing import Any, Dict, List, Tuple

import maps

ENDING = "</script><script>window.hostile = 1</script><!-- <script> ]]> --> \"'`${1}\\ \x00\x01\x7f\x85"
# Pairs, wide characters, joined ones, tabs, and marks that turn the direction.
STRANGE = "a\t\u6f22\u5b57 e\u0301 \U0001f600\U0001f469\u200d\U0001f4bb \u202e txet \u200f\u05d0\u05d1 \ufeff \u00e9\u0130 end"

Pair = Tuple[Path, Path]


def write(folder: Path, name: str, map_file: Dict[str, Any], text: str) -> Pair:
    paths = folder / f"{name}.map", folder / name
    paths[0].write_text(json.dumps(map_file))
    paths[1].write_bytes(text.encode())
    return paths


def hostile(folder: Path) -> Pair:
    """Names and contents that would be markup, or run, and mappings at every place that is hard to draw."""
    sources = [
        "</script><script>window.hostile = 2</script>",
        "javascript:window.hostile=3",
        "src/\"><img src=x onerror='window.hostile = 4'>",
        "src/a\u202egpj.js",
        "<!--/\u2028/__proto__",
        "constructor",
        None,
        "\x00\x07",
        "deep/" * 200 + "file.js",
        "data:text/html,<script>window.hostile = 5</script>",
        "x" * 5000,
        "__proto__/toString",
        "/srv/app.js",
    ]
    contents: List[Any] = [ENDING + "\n" + STRANGE + "\r\nx\r\u2028y\u2029z"] * len(sources)
    contents[3] = None
    contents[5] = ""
    names = ["</script>", "<img src=x onerror='window.hostile = 6'>", "toString", "", "\u202ename\u2028", "__proto__"]
    lines = [ENDING, STRANGE, "\U0001f600" * 4, "", "last"]
    text = f"{lines[0]}\n{lines[1]}\r\n{lines[2]}\r{lines[3]}\u2028{lines[4]}\u2029"
    mappings: List[List[maps.Mapping]] = []
    for number, line in enumerate(lines):
        units = len(line.encode("utf-16-le")) // 2
        # At each third unit, some inside a pair, two at one column, one without an origin, and two past the end.
        columns = [*range(0, units, 3), units, units + 7]
        on_line: List[maps.Mapping] = []
        for i, column in enumerate(columns):
            source = (i + number) % len(sources)
            if i % 7 == 5:
                on_line.append((column,))
            elif i % 2:
                on_line.append((column, source, i % 3, i * 2))
            else:
                on_line.append((column, source, 1, i * 3, i % len(names)))
            if i % 5 == 1:
                on_line.append((column, (source + 1) % len(sources), 0, i))
        mappings.append(on_line)
    mappings += [[], [(0, 0, 0, 0)], [(3, 1, 2147483647, 2147483647)]]
    map_file = {"version": 3, "file": ENDING, "sources": sources, "sourcesContent": contents, "names": names}
    return write(folder, "hostile <b>&amp;.js", {**map_file, "ignoreList": [0, 4], "mappings": maps.encode(mappings)}, text)


def marked(folder: Path) -> Pair:
    """One source that is to be passed over, and one without a text."""
    map_file = {
        "version": 3,
        "sources": ["src/own.js", "vendor/ignored.js", "src/gone.js"],
        "sourcesContent": ["first();\nsecond();\n", "library();\n", None],
        "names": ["first", "library"],
        "ignoreList": [1],
    }
    mappings: List[List[maps.Mapping]] = [[(0, 0, 0, 0, 0), (4, 1, 0, 0, 1), (8, 2, 41, 6), (12,)], [], [(2, 0, 1, 0)]]
    return write(folder, "marked.js", {**map_file, "mappings": maps.encode(mappings)}, "a();b();c();d();\n\n  e();\n")


def placed(folder: Path) -> Pair:
    """A source with a long path, one in each kind of folder, and a place far past the end of its line."""
    long = "webpack://project/./packages/application/src/components/checkout/receipt/formatting/currencies/european/" * 2
    sources = [
        f"{long}ReceiptTotalsFormatter.tsx", "file:///srv/www/a.js", "webpack:///./src/b.js", "//host/c.js", "/opt/d.js",
        "https://example.test/js/lib/e.js", "own/src/f.js", "g.js",
    ]
    mappings: List[maps.Mapping] = [(4 * i, i, 0, 0, 0) for i in range(len(sources))]
    mappings.append((4 * len(sources), 0, 0, 100000))
    map_file = {
        "version": 3,
        "sources": sources,
        "sourcesContent": ["first();\nsecond();\n"] * len(sources),
        "names": ["first"],
        "ignoreList": [0],
    }
    text = "".join(f"{letter}();" for letter in "abcdefghi") + "\n"
    return write(folder, "placed.js", {**map_file, "mappings": maps.encode([mappings])}, text)


def bundle(folder: Path, examples: Path, size: int) -> Pair:
    """A line of so many bytes."""
    map_file, text = maps.repeated(examples / "receipt.min.js.map", examples / "receipt.min.js", size)
    return write(folder, "bundle.min.js", map_file, text)


def empty(folder: Path) -> Pair:
    return write(folder, "empty.js", {"version": 3, "sources": [], "names": [], "mappings": ""}, "")
