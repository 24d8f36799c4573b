"""Why one program takes a place otherwise than the other: a cause for each place in which they differ.

A cause is found by what the line holds, with the terms of the model: its virtual lines, edges, escapes and pairs.
"""

from __future__ import annotations

import re
from typing import List, NamedTuple, Optional

import places
from places import Before
from places_line import EDGE, NOTHING, Line, Pair, VirtualLine
from places_maps import Maps

# What a part of a URL may have that told the older program that it ends.
SIGNS = [(name, re.compile(sign)) for name, sign in (
    ("a scheme within", rb".://"), ("a place within", rb":[0-9]+:[0-9]+[^:0-9]"), ("a blank", rb"[\x00-\x20]"), ("a backslash", rb"\\"),
    ("an address in brackets", rb"//\["), ("brackets", rb"[()\[\]{}]"), ("a quotation mark", rb"[\"'`]"), ("a comma or such", rb"[,;|<>]"),
    ("a colour", rb"\x1b"), ("an @", rb"@"), ("a query", rb"[?#]"), ("a sign", rb"[=&!*^]"), ("a colon", rb":(?![0-9])"),
)]


class Difference(NamedTuple):
    """The end of a place in a line, and where it begins: as the older program took it, as this one does, as it was put in."""

    line: bytes
    end: int
    old: Optional[int]
    new: Optional[int]
    truth: Optional[int]


def verdict(start: Optional[int], truth: Optional[int]) -> str:
    """What a program did with a place."""
    if start is None:
        return "stays"
    return "is taken" if truth is None else "is right" if start == truth else "is glued"


def pair_at(line: Line, end: int) -> Optional[Pair]:
    return next((pair for pair in line.pairs if pair.end == end), None)


def virtual_line_of(lines: List[VirtualLine], pair: Pair) -> VirtualLine:
    return next(one for one in lines if pair.start < one.end)


def frame_of(line: Line, maps: Maps) -> Optional[places.Place]:
    """The frame that a whole line is, and that has a map."""
    if not line.pairs:
        return None
    return places.place_of_frame(line, VirtualLine(0, len(line.text), 0), line.pairs[-1], maps)


def cause_of(one: Difference, maps: Maps) -> str:
    """Why the two programs differ in a place."""
    line = Line(one.line)
    pair = pair_at(line, one.end)
    if pair is None:
        return "numbers: of a chain the last two count, and a range or an address has no column"
    frame = frame_of(line, maps)
    if frame and frame.end != one.end and one.new is None:
        return "frame: a line that is a frame has no other place"
    if frame and frame.end == one.end and one.new is not None:
        return "frame: " + of_frame(one, line)
    for level in (line.lines_of_strings, line.virtual_lines):
        virtual = virtual_line_of(level, pair)
        last = [other for other in line.pairs if virtual.start <= other.start < virtual.end][-1]
        place = places.place_of_frame(line, virtual, last, maps)
        if place and place.end != one.end and one.new is None:
            return "frame: a line of a string that is a frame has no other place"
        if place and place.end == one.end and one.new is not None:
            return "frame: in a string, " + of_frame(one, line)
    if one.new is None:
        return "stays: " + why_it_stays(one, line, pair, maps)
    if one.old is None:
        return "is found: " + why_old_stayed(one, line, pair)
    return "begins elsewhere: " + between(one, line)


def of_frame(one: Difference, line: Line) -> str:
    """What the older program did not take of a frame's URL."""
    if one.old is None:
        return "its URL was not found: " + what_it_has(line.text[one.new:one.end])
    if one.old > one.new:
        return "its URL is whole: " + what_it_has(line.text[one.new:one.old])
    return "its URL begins later: " + what_it_has(line.text[one.old:one.new])


def what_it_has(part: bytes) -> str:
    """What a part of a URL has that told the older program that it ends."""
    for name, sign in SIGNS:
        if sign.search(part):
            return name
    return "a plain URL"


def between(one: Difference, line: Line) -> str:
    """What stands between the two beginnings."""
    assert one.old is not None and one.new is not None
    if one.old < one.new:
        part = line.text[one.old:one.new]
        counts = bytes(line.counts[one.old:one.new])
        if NOTHING in counts or one.new in line.starts:
            return "an escape or a colour was taken as a part of the URL"
        return "it was too long, from before " + what_it_has(part)
    return "it was too short, without " + what_it_has(line.text[one.new:one.old])


def why_it_stays(one: Difference, line: Line, pair: Pair, maps: Maps) -> str:
    """Why this program does not take a place that the older one took."""
    if not maps.patterns:
        return why_name_stays(one, line, pair, maps)
    if one.old is not None and one.old < pair.piece:
        return "the URL stood across another place"
    virtual = virtual_line_of(line.virtual_lines, pair)
    start = places.word_start(line, pair, max(pair.piece, pair.start - places.MOST_RUN))
    if start > pair.piece and line.text[start - 1] == ord("\\"):
        return "a backslash ends the word"
    scheme = places.scheme_start(line, start, pair.start)
    if scheme >= start:
        return "the URL from its scheme on is for no pattern"
    begin = places.path_start(line, start, pair.start)
    url = bytes(line.counts[begin:pair.start]).replace(bytes([NOTHING]), b"")
    before = Before(line, virtual, pair, begin)
    if b"://" in line.text[start:pair.start] or before.has_scheme():
        return "a scheme stands before the word, and no blank"
    if not places.is_free(line, begin):
        return "its beginning is no edge"
    if not places.is_path(url, places.STRANGE):
        return "its beginning is no path's"
    if places.may_go_on(before, url):
        if before.is_behind_colour():
            return "a colour stands within a path"
        if before.has_separator():
            return "a path goes on before a sign that ends the word"
        return "a path with blanks may stand before the word"
    if before.is_in_call():
        return "it stands behind a blank in brackets, and is relative"
    return "another URL was taken"


def why_name_stays(one: Difference, line: Line, pair: Pair, maps: Maps) -> str:
    assert one.old is not None
    if one.old < pair.piece:
        return "the URL stood across another place"
    if not places.may_begin_name(line, one.old):
        return "its beginning is no edge"
    behind = places.Behind(line, pair)
    url = line.text[one.old:pair.start]
    short = re.split(rb"[?#]", url)[0]
    if not behind.fits_at(one.old + len(short)):
        return "brackets behind the name are in no pairs, or an escape ends it"
    return "as named: " + what_it_has(url)


def why_old_stayed(one: Difference, line: Line, pair: Pair) -> str:
    """Why the older program did not take a place that this one takes."""
    assert one.new is not None
    head = line.text[:one.new]
    url = line.text[one.new:pair.start]
    if one.new in line.starts:
        return "behind " + ("a colour" if line.text[one.new - 1:one.new] == b"m" and NOTHING == line.counts[one.new - 1] else "an escape")
    if head[-1:] == b":" and url[:1] == b"/":
        return "behind a colon"
    kind = what_it_has(url)
    if kind != "a plain URL":
        return "it has " + kind
    if head[-1:] and not EDGE[head[-1]]:
        return "behind " + repr(head[-1:])[1:]
    return "behind " + (repr(head[-1:])[1:] if head else "nothing")
