#!/usr/bin/env python3
"""Tries the model of places anywhere, places.py: try_places.py [--short | --rows]

- each case of places_cases.py comes out as is written there, and each text in a longer one, before and behind others;
- each clause of the rule that tells two texts apart has a case that goes wrong without it;
- over random texts of the pieces of these lines, 200,000 with each kind of map, 5,000 with --short: nothing but places moves;
  JSON stays JSON; the lines that `rewrite` rewrites are rewritten alike; and a place is, whole, one that was put in;
- long texts of few pieces, again and again, take about twice the time where they are twice as long.

With --rows it writes the rows of crates/smap_rows of the cases, by the model, in the place of those that are there.
"""

from __future__ import annotations

import json
import random
import re
import sys
import time
from pathlib import Path
from typing import Callable, Dict, Iterator, List, Optional, Set, Tuple

import places
import places_line
from places import Before, Place, places_of, rewrite_anywhere, rewrite_frames
from places_cases import CASES, Case
from places_line import Line, VirtualLine
from places_maps import LookUp, Maps, Original

ROWS = Path(__file__).resolve().parents[2] / "crates" / "smap_rows"

# ---------------------------------------------------------------------------------------------
# The maps.
# ---------------------------------------------------------------------------------------------

# Line by line, from each of the first eight columns to the same one.
MAPPINGS = ";".join(["AAAA" + ",CAAC" * 7] + ["AACP" + ",CAAC" * 7] * 7)
SOURCES = {
    "w": "webpack:///a.ts", "f": "file:///f.ts", "t": "turbopack:///t.ts", "quote": 'a"b.ts', "backslash": "a\\b.ts", "control": "a\tb.ts",
}
BASE64 = "ABCDEFGHIJKLMNOPQRSTUVWXYZabcdefghijklmnopqrstuvwxyz0123456789+/"


def map_text(path: bytes) -> str:
    """The map in a file: that of its name, and in a folder that of the folder's."""
    name = path.decode(errors="replace")
    source = SOURCES["f" if name.startswith("f/") else "w" if "/" in name else name.removesuffix(".map")]
    return json.dumps({"version": 3, "sources": [source], "mappings": MAPPINGS}, separators=(",", ":"))


def numbers_of(segment: str) -> List[int]:
    """The numbers of a segment, in Base64 VLQ."""
    numbers, value, shift = [], 0, 0
    for sign in segment:
        digit = BASE64.index(sign)
        value += (digit & 31) << shift
        shift += 5
        if digit < 32:
            numbers.append(-(value >> 1) if value & 1 else value >> 1)
            value = shift = 0
    return numbers


def decoded(text: str) -> LookUp:
    """How a map answers whose sources are URLs or texts that stay."""
    whole = json.loads(text)
    lines: List[List[Tuple[int, Original]]] = []
    source = line = column = 0
    for part in whole["mappings"].split(";"):
        at = 0
        found: List[Tuple[int, Original]] = []
        for segment in part.split(","):
            if not segment:
                continue
            moves = numbers_of(segment)
            at, source, line, column = at + moves[0], source + moves[1], line + moves[2], column + moves[3]
            found.append((at, (whole["sources"][source].encode(), line + 1, column + 1)))
        lines.append(found)

    def look_up(_url: bytes, line: int, column: int) -> Optional[Original]:
        if line > len(lines):
            return None
        return next((original for at, original in reversed(lines[line - 1]) if at < column), None)

    return look_up


class Files:
    """The files of maps, each read once. In folders stand those of scripts."""

    def __init__(self) -> None:
        self.read: Dict[bytes, LookUp] = {}
        self.by_text: Dict[str, LookUp] = {}

    def __call__(self, path: bytes) -> Optional[LookUp]:
        if b"/" in path and not path.endswith((b".js.map", b".bundle.map")):
            return None
        if path not in self.read:
            text = map_text(path)
            self.read[path] = self.by_text.setdefault(text, decoded(text))
        return self.read[path]


def words_of(given: str) -> Tuple[List[str], List[str]]:
    """The words of a command line, and those of a list."""
    words = given.split("  ")
    return [word for word in words if not word.startswith("list ")], [word[5:] for word in words if word.startswith("list ")]


def maps_of(given: str, files: Files) -> Maps:
    """The maps that words name."""
    words, listed = words_of(given)
    return Maps(files, (word.encode() for word in words), (word.encode() for word in listed))


# ---------------------------------------------------------------------------------------------
# The cases.
# ---------------------------------------------------------------------------------------------


def outcomes() -> Iterator[Tuple[Case, str, str]]:
    """Each case, with each of its words, and what the model makes of it."""
    files = Files()
    for one in CASES:
        for given in one.given:
            yield one, given, rewrite_anywhere(one.text.encode(), maps_of(given, files)).decode()


def short(text: str) -> str:
    """A text that is printed."""
    return repr(text if len(text) <= 200 else text[:90] + " .. " + text[-90:])


def try_cases() -> Optional[str]:
    """What is wrong with the cases, each alone, and all with the same words as one text."""
    files = Files()
    wrong = []
    for one, given, became in outcomes():
        if became != one.becomes:
            said = f"{one.why}: {given}\n  of      {short(one.text)}\n  wanted  {short(one.becomes)}"
            wrong.append(f"{said}\n  became  {short(became)}")
    for given in sorted({given for one in CASES for given in one.given}):
        those = [one for one in CASES if given in one.given]
        text, wanted = ("\n".join(getattr(one, part) for one in those).encode() for part in ("text", "becomes"))
        if rewrite_anywhere(text, maps_of(given, files)) != wanted:
            wrong.append(f"{given}: all cases as one text become another")
    print(f"{len(CASES)} cases, {sum(len(one.given) for one in CASES)} with each of their words")
    return "\n".join(wrong) or None


# ---------------------------------------------------------------------------------------------
# The clauses: each with another that tells nothing apart.
# ---------------------------------------------------------------------------------------------

CLAUSES: List[Tuple[str, object, str, object]] = [
    ("of a chain of numbers the last two count", places_line, "PAIR", re.compile(rb":([1-9][0-9]{0,9}):([1-9][0-9]{0,9})(?![0-9]|-[0-9])")),
    ("a range is no column", places_line, "PAIR", re.compile(rb":([1-9][0-9]{0,9}):([1-9][0-9]{0,9})(?![0-9]|:[0-9])")),
    ("no pair stands in the brackets of an address", places_line, "_IN_BRACKETS", re.compile(rb"(?!)")),
    ("a backslash may be written as an escape", places_line, "is_written_backslash", lambda means: False),
    ("an escape of a letter is no edge", places_line, "is_edge_behind", lambda means: True),
    ("an apostrophe is no quotation mark", places_line, "is_apostrophe", lambda text, start, end: False),
    ("`:` before a single `/` is an edge", places_line, "_PATH_BEHIND_COLON", re.compile(rb"(?!)")),
    ("but behind a letter alone or file", Line, "_stands_alone", lambda self, end, length, letters: False),
    ("and a drive behind a sign begins a path", Line, "_is_behind_sign", lambda self, end: False),
    ("but behind a letter it does not", places_line, "is_of_letter", lambda first: False),
    ("nor behind an escape of one", places_line, "counts_as", lambda means: means if means < 0x80 else places_line.SIGN),
    ("a frame comes first", places, "frame_span", lambda text: None),
    ("a frame's URL in a string has a backslash for each two", places, "urls_of_frame", lambda url, is_quoted: [url]),
    ("or is named as it stands there", places, "urls_of_frame", lambda url, is_quoted: [url.replace(b"\\\\", b"\\") if is_quoted else url]),
    ("a pattern has the URL of a frame that is one", places, "is_for_pattern", lambda line, virtual, start, pair: True),
    ("its brackets stand in pairs", places, "has_paired_brackets", lambda text: True),
    ("it is no sentence", places, "is_sentence", lambda url: False),
    ("another scheme makes one", places, "has_scheme_behind_edge", lambda url: False),
    ("a blank in its query does", places, "has_blank_in_query", lambda url: False),
    ("and a function of Firefox", places, "has_function", lambda url: False),
    ("a folder has the URL of a frame that is one", places, "is_for_folder", lambda line, start, pair: True),
    ("of which no byte of the query is barred", places, "has_barred_query", lambda line, start, end: False),
    ("a frame may have a tail", places, "frame_span_before_tail", places.frame_span),
    ("a function stands before the @", places, "is_function", lambda head: True),
    ("an escape of a barred byte ends a query", places, "is_barred", lambda line, at: bool(places.BARRED[line.text[at]])),
    ("behind a name brackets stand in pairs", places, "_PAIRED", {}),
    ("a URL without a scheme begins at an edge", places, "is_free", lambda line, start: True),
    ("it is a path", places, "is_path", lambda url, strange: True),
    ("in a path no other begins behind a sign", places, "_NO_PATH", re.compile(rb"(?!)")),
    ("no sign of a list stands before it", places, "_FIRST_PIECE", re.compile(rb".*[A-Za-z0-9.~\x80-\xff].*|", re.DOTALL)),
    ("no URL with a scheme stands before it", Before, "has_scheme", lambda self: False),
    ("it does not stand behind a blank in brackets", Before, "is_in_call", lambda self: False),
    ("but in an evaluated text", places, "_BEHIND_EVAL", re.compile(rb"(?!)")),
    ("no path stands before it that may have blanks", Before, "has_path", lambda self: False),
    ("nor one that goes on", Before, "has_separator", lambda self: False),
    ("but for a function of Firefox", places, "_BEHIND_FUNCTION", re.compile(rb"(?!)")),
    ("nor one with colours", Before, "is_behind_colour", lambda self: False),
    ("a long line is cut before an escape of a line's end", places, "last_line_end", lambda text: 0),
    ("a URL has at most 2,048 bytes", places, "MOST_RUN", 4096),
]


def try_clauses(is_shown: bool) -> Optional[str]:
    """Which clause no case needs."""
    unneeded = []
    for clause, owner, name, other in CLAUSES:
        own = getattr(owner, name)
        owners = [one for one in (owner, places) if getattr(one, name, None) is own]
        for one in owners:
            setattr(one, name, other)
        wrong = [found for found in outcomes() if found[2] != found[0].becomes]
        for one in owners:
            setattr(one, name, own)
        if not wrong:
            unneeded.append(clause)
        elif is_shown:
            case, given, became = min(wrong, key=lambda found: len(found[0].text))
            print(f"{clause}: {len(wrong)} go wrong without it\n  {given}\n  of      {short(case.text)}")
            print(f"  becomes {short(became)}")
    print(f"{len(CLAUSES)} clauses, {len(unneeded)} unneeded")
    return "\n".join(unneeded) or None


# ---------------------------------------------------------------------------------------------
# The laws, over random texts.
# ---------------------------------------------------------------------------------------------

KINDS = [
    "*app.js=w.map  *x.js=f.map",
    "https://h/app.js=w.map  /srv/app.js=w.map  app.js=f.map  /srv/My App/app.js=w.map  C:\\dist\\app.js=w.map  https://h/it's/app.js=w.map  a\"b.js=w.map",
    "list https://h/app.js=w.map  list /srv/app.js=w.map  list x.js=t.map  list a'b.js=w.map",
    "https://h/=n/  /srv/=n/  C:/=n/  http://[::1]:80/=n/  webpack-internal:///=f/",
    "*app.js=quote.map  https://h/=n/  list /srv/app.js=backslash.map  x.js=f.map  *\\dist\\=n/  *(shop)/=f/",
]
PIECES = [
    "app.js", "x.js", "https://h/", "/srv/", "dist/", "C:\\", "C:\\\\", "C:/", "http://[::1]:80/", "webpack-internal:///",
    "(shop)/", "[id]", "My App/",
    "it's/", "a,b/", "a'b.js", "a\"b.js", "@", "?v=1", "#a", "&", "\\u0026", "=", "caller=", "ERROR:", "file:", "://",
    "/", "\\", "\\\\", ":", ".", "..",
    ":1:1", ":1:2", ":3:4", ":1:2", ":1:2", ":9:1", ":0:1", "1", "-2", ":5", "\\n", "\\r\\n", "\\\\n", "\\t", "\\\"",
    "\\\\\\\"", "\\'", "\\u000a", "\\u00e9",
    "\\x22", "\\x0A", "\\x5Cn", "\\x5C", "#012", "#033[1m", "\x1b[36m", "\x1b[", "\\u001b[1m", "\"", "\"", "'", "`", "(",
    ")", "[", "]", "{", "}", "<", ">", ",", ";",
    "|", " ", " ", "  ", "\t", "\r", "\n", "at ", "    at f (", "    at ", "async ", "f@", "é", "“", "n", "u00", "**",
    "failed", "2024/01/01 ", "N/<@", "<@", "(eval at f (", "(eval at new A (", "../x/", "./", "~/", "+", "“C:/", "ß", "ỗ", "\\u1ed7",
    "\\u201c", "file:/",
]
FRONTS = ["", "https://h/", "/srv/", "C:\\dist\\", "C:\\\\dist\\\\", "http://[::1]:80/", "/srv/My App/", "https://h/(shop)/", "https://h/it's/", "a,b/", "webpack-internal:///"]
NAMES = ["app.js", "app.js", "x.js", "app.js?v=1", "a'b.js", "a\"b.js"]
NUMBERS = [":1:1", ":1:2", ":8:8", ":1:2:3", ":9:1"]
STRING = re.compile(rb'"(?:[^"\\\x00-\x1f]|\\(?:["\\/bfnrt]|u[0-9A-Fa-f]{4}))*"')


def random_text(chance: random.Random) -> bytes:
    """A text of these pieces and of places, every third one as JSON, and some of them in JSON once more."""
    text = ""
    for _ in range(chance.randrange(1, 10)):
        text += chance.choice(PIECES)
        if chance.randrange(3) == 0:
            text += chance.choice(FRONTS) + chance.choice(PIECES + [""] * len(PIECES)) + chance.choice(NAMES) + chance.choice(NUMBERS)
    while chance.randrange(3) == 0:
        text = json.dumps({"s": text}, ensure_ascii=chance.random() < 0.5)
    return text.encode()


def is_urls(url: bytes, text: bytes) -> bool:
    """Whether a text is that of a URL: as it stands, with two backslashes for each, or with a query."""
    is_queried = text.startswith(url) and text[len(url):][:1] in (b"?", b"#")
    return text in (url, url.replace(b"\\", b"\\\\")) or text.replace(b"\\\\", b"\\") == url or is_queried


def broken_law(line: bytes, found: List[Place], maps: Maps) -> Optional[str]:
    """Which law is broken for a line, in which these places are found."""
    became = places.rewrite_line(line, maps)
    at, rest, moved = 0, [], []
    for place in found:
        if not at <= place.start < place.end <= len(line):
            return "a place stands in another"
        text, numbers = line[place.start:place.end], b":%d:%d" % (place.line, place.column)
        url = text[:-len(numbers)]
        if not text.endswith(numbers) or not is_urls(place.url, url) or maps.path_for(place.url) != place.path:
            return "a place is not its URL and its numbers"
        original = (maps.look_up_in(place.path) or (lambda *_: None))(place.url, place.line, place.column)
        if original and original[0] and not re.search(rb'["\\\x00-\x1f\x7f]', original[0]):
            text = b"%s:%d:%d" % original
        rest += [line[at:place.start], text]
        moved.append((place.end, sum(map(len, rest)) - place.end))
        at = place.end
    if b"".join([*rest, line[at:]]) != became:
        return "something else moves"
    framed = places.frame_span(line)
    if any(b'"' in line[place.start:place.end] for place in found) and (not framed or [place.start for place in found] != [framed[0]]):
        return "a place has a quotation mark"
    for string in strings_in(line, found):
        shift, behind = ([0] + [by for end, by in moved if end <= at][-1:] for at in string.span())
        new = became[string.start() + shift[-1]:string.end() + behind[-1]]
        if not STRING.fullmatch(new):
            return f"a string of JSON is none: {string[0]!r} {new!r}"
    return broken_frame(line, maps, became)


def strings_in(line: bytes, found: List[Place]) -> Iterator["re.Match[bytes]"]:
    """What may be strings of JSON: between any two quotation marks of a line that are in no place."""
    taken = {at for place in found for at in range(place.start, place.end)}
    for mark in re.finditer(b'"', line):
        string = STRING.match(line, mark.start())
        if string and not taken & {string.start(), string.end() - 1}:
            yield string


def broken_frame(line: bytes, maps: Maps, became: bytes) -> Optional[str]:
    """Whether a frame that `rewrite` rewrites becomes something else."""
    plain = rewrite_frames(line, maps)
    span = places.frame_span(line)
    if plain == line or not span:
        return None
    whole = Line(line)
    url = line[span[0]:span[1]]
    path = maps.path_for(url) or b""
    original = (maps.look_up_in(path) or (lambda *_: None))(url, whole.pairs[-1].line, whole.pairs[-1].column)
    virtual = VirtualLine(0, len(line), 0)
    pair = whole.pairs[-1]
    is_own = maps.path_of_name(url) or (maps.path_as_named(url) and places.is_for_folder(whole, span[0], pair))
    is_taken = is_own or (maps.path_by_pattern(url) and places.is_for_pattern(whole, virtual, span[0], pair))
    if not original or not places.is_printed_anywhere(original[0]) or not is_taken:
        return None
    return None if became == plain else f"a frame becomes {plain!r}"


def try_laws(count: int) -> Optional[str]:
    """Which law is broken over so many random texts with each kind of map."""
    chance, taken = random.Random(77), [0] * len(KINDS)
    files = Files()
    kinds = [maps_of(kind, files) for kind in KINDS]
    for _ in range(count):
        text = random_text(chance)
        for line in text.split(b"\n"):
            for number, maps in enumerate(kinds):
                found = places_of(line, maps)
                taken[number] += len(found)
                broken = broken_law(line, found, maps)
                if broken:
                    return f"{broken}: {line!r} {KINDS[number]}"
    print(f"{count} random texts with each of {len(KINDS)} kinds of maps, places: {taken}")
    return None


# ---------------------------------------------------------------------------------------------
# Nothing is glued: places that were put into texts.
# ---------------------------------------------------------------------------------------------

URLS = [
    "https://h/app.js", "/srv/app.js", "dist/app.js", "app.js", "/srv/My App/app.js", "/Applications/My App.app/app.js",
    "/srv/(shop)/app.js", "/srv/[id]/app.js",
    "/a,b/app.js", "https://h/a,b/app.js", "https://h/npm/a@1/app.js", "C:\\Program Files\\app.js", "src\\routes\\app.js",
    "C:\\new\\app.js", "/srv/it's/app.js",
    "/srv/é/app.js", "é/app.js", "https://h/app.js?v=a,b", "https://h/app.js?a=1:2", "http://[::1]:80/app.js",
    "http://[fd00:1:2:3::5]:80/app.js",
    "/srv/\x1b[4mpkg\x1b[24m/app.js", "webpack-internal:///(rsc)/./app.js", "file:///srv/app.js", "./app.js",
    "../x/app.js", "/srv/My App (1)/app.js",
    "C:/dist/app.js", "https://h/(shop)/app.js", "/srv/@me/app.js", "dist/a b/app.js", "https://u@h/app.js?x=/y",
    "node_modules/a,b/app.js", "\\\\server\\share\\app.js",
]
BEFORE = [
    "Error: bad", "at ff", "xx", "/login failed", "GET /x 200", "[INFO]", "web-1 |", "12:30:45", "can't load",
    "bob@ex.com", "ERROR", "f()", "**", "key", "a.b",
    "https://h/login failed", "C:\\logs\\x.log", "100%", "~", "#1", "(in", "(", "{", "\"", "<b>", "at", "async",
    "app.log:12", "worker1", "é", "“", "-", "+", "a,bb", "x;yy", "N/<", "eval", "(eval at ff", "größe", "lỗi", "加载",
]
BETWEEN = [
    " ", "  ", "\t", "(", "[", "{", "<", "\"", "'", "`", "=", ",", ";", "|", ": ", " at ", "\n    at ", "\n    at f (",
    "@", "\x1b[36m", "**", ") ", "] ", "):", ":", "]", ")",
    "> ", "&", "!", "*", "“", "·", "：", "<@", " (", "(eval at f (", " +", " -",
]
BEHIND = ["", ")", "]", "}", ">", "\"", "'", "`", ",", " xx", ";", "\x1b[39m", " {", "|", "**", ": bad", "."]
PUT = [
    "*app.js=w.map",
    "https://h/=n/  /srv/=n/  dist/=n/",
    "https://h/app.js=w.map  /srv/app.js=w.map  app.js=w.map  dist/app.js=w.map  /srv/My App/app.js=w.map  C:\\Program Files\\app.js=w.map  /srv/it's/app.js=w.map",
    "list https://h/app.js=w.map  *app.js=w.map  https://h/=n/",
]


def text_with_places(chance: random.Random) -> Tuple[bytes, Dict[Tuple[int, int], bytes]]:
    """A text, and the URLs that were put into it by their lines and columns, as they stand there: in JSON, too."""
    numbers = [(line, column) for line in range(1, 9) for column in range(1, 9)]
    chance.shuffle(numbers)
    parts: List[str] = []
    put: Dict[Tuple[int, int], str] = {}
    for _ in range(chance.randrange(1, 4)):
        for _ in range(chance.randrange(3)):
            parts += [chance.choice(BEFORE), " "]
        if parts and chance.random() < 0.5:
            parts.pop()
        url, place = chance.choice(URLS), numbers.pop()
        parts += [chance.choice(BETWEEN) if parts else "", url, ":%d:%d" % place, chance.choice(BEHIND), chance.choice(" \n")]
        put[place] = url
    text = "".join(parts)
    for _ in range(chance.choice((0, 0, 1, 1, 2))):
        is_ascii = chance.random() < 0.5
        text = json.dumps({"s": text}, ensure_ascii=is_ascii)
        put = {place: json.dumps(url, ensure_ascii=is_ascii)[1:-1] for place, url in put.items()}
    return text.encode(), {place: url.encode() for place, url in put.items()}


def glued(line: bytes, found: List[Place], put: Dict[Tuple[int, int], bytes], maps: Maps) -> Optional[str]:
    """Which of the places is not, whole, one that was put in, and not that of a frame, whose URL may be a sentence."""
    for place in found:
        wanted = b"%s:%d:%d" % (put.get((place.line, place.column), b""), place.line, place.column)
        if line[place.start:place.end] != wanted and place.start not in starts_in_frames(line):
            return f"{line[place.start:place.end]!r} is not {wanted!r}"
    return None


def starts_in_frames(line: bytes) -> Set[int]:
    """Where the URLs of the frames begin that a line is, or a line of a string in it, or a virtual line."""
    whole = Line(line)
    levels = [VirtualLine(0, len(line), 0), *whole.lines_of_strings, *whole.virtual_lines]
    spans = [(virtual.start, places.frame_span_before_tail(line[virtual.start:virtual.end])) for virtual in levels]
    return {start + span[0] for start, span in spans if span}


def try_glue(count: int) -> Optional[str]:
    """Which place is glued of so many texts."""
    chance, files, taken, all_put = random.Random(78), Files(), [0] * len(PUT), 0
    kinds = [maps_of(kind, files) for kind in PUT]
    for _ in range(count):
        text, put = text_with_places(chance)
        all_put += len(put)
        for line in text.split(b"\n"):
            for number, maps in enumerate(kinds):
                found = places_of(line, maps)
                taken[number] += len(found)
                wrong = glued(line, found, put, maps)
                if wrong:
                    return f"{wrong}: {line!r} {PUT[number]}"
    print(f"{count} texts with {all_put} places that were put in, taken with each of {len(PUT)} kinds of maps: {taken}")
    return None


# ---------------------------------------------------------------------------------------------
# Time.
# ---------------------------------------------------------------------------------------------

SHAPES = {
    "pairs": ":1:2", "places": "app.js:1:2 ", "brackets": "(", "closed brackets": "()", "backslashes": "\\",
    "written backslashes": "\\x5C", "addresses": "://[",
    "strings": '":1:2"', "line ends": "\\n", "line ends in octal": "#012", "drives": "“C:/", "quotation marks": "'a", "frames": "at f (@", "queries": "?", "slashes": "/",
    "prefixes": "https://h/", "paths behind colons": ":/",
    "colours": "\x1b[36m", "half colours": "\\u001b[", "words": "a", "lists": "a,b/", "lines": "at :1:2\\n",
    "schemes": "a://", "blanks": "/ ",
}


def seconds_of(shape: str, size: int, maps: Maps) -> float:
    """How long a text takes that is so large, with a place at its end."""
    text = (shape * (size // len(shape)) + "https://h/app.js:1:2").encode()
    begun = time.process_time()
    rewrite_anywhere(text, maps)
    return time.process_time() - begun


def try_time(size: int) -> Optional[str]:
    """Which shape takes more than thrice the time where it is twice as long, also when it is tried again."""
    maps = maps_of("*app.js=w.map  https://h/=n/  list https://h/a=w.map  app.js=w.map", Files())
    slow, times = [], {}
    for name, shape in SHAPES.items():
        for _ in range(3):
            once, twice = seconds_of(shape, size, maps), seconds_of(shape, 2 * size, maps)
            times[name] = twice
            if twice <= 3 * once or twice <= 0.2:
                break
        else:
            slow.append(f"{name}: {once:.2f} s, and {twice:.2f} s where it is twice as long")
    worst = max(times, key=lambda name: times[name])
    print(f"{len(SHAPES)} shapes of {2 * size} bytes, at most {times[worst]:.2f} s: {worst}; pairs {times['pairs']:.2f} s")
    return "\n".join(slow) or None


# ---------------------------------------------------------------------------------------------
# Rows.
# ---------------------------------------------------------------------------------------------

NAMED = {"\t": "\\t", "\n": "\\n", "\r": "\\r", "\\": "\\\\"}
MANY = 100


def field(text: str) -> str:
    """A field of a row; README.md says how."""
    def one(sign: str) -> str:
        return NAMED.get(sign) or (sign if sign >= " " and sign != "\x7f" else f"\\x{ord(sign):02X}")

    def run(found: "re.Match[str]") -> str:
        sign, times = found[1], len(found[0])
        return f"\\{{{times}}}{one(sign)}" if times >= MANY and sign < "\x80" else one(sign) * times

    escaped = re.sub(r"(.)\1*", run, text, flags=re.S)
    return "\\" + escaped if escaped.startswith("@") else escaped


def row_of(one: Case, given: str) -> Tuple[str, str]:
    """What is asked of the program, and what it answers: status, standard output, standard error."""
    opened: Dict[bytes, None] = {}
    files = Files()

    def look_up_in(path: bytes) -> Optional[LookUp]:
        opened[path] = None
        return files(path)

    words, listed = words_of(given)
    maps = Maps(look_up_in, (word.encode() for word in words), (word.encode() for word in listed))
    became = rewrite_anywhere(one.text.encode(), maps).decode()
    # What an argument names is read before the text.
    paths = dict.fromkeys([*(path for path in maps.arguments.values()), *(path for path in maps.listed.values()), *opened])
    paths.update({one.path: None for one in maps.patterns if not one.is_folder()})
    fixed = [(path.decode(), map_text(path)) for path in paths]
    command = ["smap", "rewrite", "--anywhere", *(["--maps", "l"] if listed else []), *words]
    if listed:
        fixed.append(("l", "".join("\t".join(word.rsplit("=", 1)) + "\n" for word in listed)))
    asked = ["run", " ".join(field(word).replace(" ", "\\x20") for word in command), field(one.text)]
    return "\t".join([*asked, *(field(part) for pair in fixed for part in pair)]), "\t".join(["0", field(became), ""])


def rows() -> List[Tuple[str, str]]:
    """The rows of the cases, each with the first of its words, but for those of which a map is missing."""
    return [row_of(one, one.given[0]) for one in CASES if all_maps_are_there(one)]


def all_maps_are_there(one: Case) -> bool:
    """Whether each place of a case names a map that is there."""
    files = Files()
    maps = maps_of(one.given[0], files)
    return all(files(place.path) for line in one.text.encode().split(b"\n") for place in places_of(line, maps))


HEADING = "# Places anywhere, made by tests/vectors/try_places.py"


def try_rows(is_written: bool) -> Optional[str]:
    """Writes the rows, or says whether they are as they were written."""
    made = rows()
    wrong = []
    for name, part in (("stdin", 0), ("stdout", 1)):
        file = ROWS / name
        lines = file.read_text().split("\n")
        begin = lines.index(HEADING)
        end = next(at for at in range(begin + 1, len(lines)) if lines[at][:2] in ("# ", ""))
        section = [HEADING, *(row[part] for row in made)]
        if is_written:
            file.write_text("\n".join([*lines[:begin], *section, *lines[end:]]))
        elif lines[begin:end] != section:
            wrong.append(f"{file.name} has other rows")
    print(f"{len(made)} rows")
    return "\n".join(wrong) or None


def main(arguments: List[str]) -> int:
    """Tries all, and says what is wrong."""
    is_short = "--short" in arguments
    tries: List[Callable[[], Optional[str]]] = [
        try_cases,
        lambda: try_clauses("--clauses" in arguments),
        lambda: try_rows("--rows" in arguments),
    ]
    if not {"--rows", "--clauses"} & set(arguments):
        many, few, size = (5000, 5000, 50000) if is_short else (200000, 50000, 500000)
        tries += [lambda: try_laws(many), lambda: try_glue(few), lambda: try_time(size)]
    wrong = [said for said in (one() for one in tries) if said]
    print(*wrong, "all as it should be" if not wrong else "something is wrong", sep="\n")
    return bool(wrong)


if __name__ == "__main__":
    sys.exit(main(sys.argv[1:]))
