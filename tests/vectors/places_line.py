"""What stands in a line, for the model of places anywhere: places.py has the rule.

- A **pair** is the `:`, the line, the `:` and the column of a place. Its **piece** is what stands on its line between the pair
  before and this one: each byte is in one piece.
- An **escape** is what stands for another byte in JSON, in a string of a program, of nginx or of syslog. It counts as what
  it means. A **colour** is a control sequence of a terminal.
- A **virtual line** is a string in a line, or a line in that string.
- An **edge** is a place at which a URL may begin.
"""

from __future__ import annotations

import re
from typing import Callable, Dict, Iterator, List, NamedTuple, Optional, Tuple

MOST_NUMBER = 2147483648


def table(test: Callable[[int], bool]) -> bytes:
    """For each byte 1 where a test says so, and 0."""
    return bytes(test(byte) for byte in range(256))


LETTERS = b"ABCDEFGHIJKLMNOPQRSTUVWXYZabcdefghijklmnopqrstuvwxyz"
DIGITS = b"0123456789"
WORD = table(lambda byte: byte >= 0x80 or byte in LETTERS + DIGITS)
# A byte behind which a URL may begin.
EDGE = table(lambda byte: not WORD[byte] and byte not in rb"_-./\%~+$:")
CONTROL = table(lambda byte: byte <= 0x20 or byte == 0x7F)

# ---------------------------------------------------------------------------------------------
# Escapes and colours.
# ---------------------------------------------------------------------------------------------


class Escape(NamedTuple):
    """From which byte to which it stands, and the character that it means."""

    start: int
    end: int
    means: int


_ESCAPES = re.compile(rb"\\+|#0[0-3][0-7]")
_ENDING = re.compile(rb"[nrtbf\"']|u[0-9A-Fa-f]{4}|x[0-9A-Fa-f]{2}")
_BACKSLASHES = re.compile(rb"\\*")
_MEANT = dict(zip(b"nrtbf\"'", b"\n\r\t\b\f\"'"))
_PARAMETERS = re.compile(rb"\[[0-9;]{0,32}m")


def is_written_backslash(means: int) -> bool:
    """Whether a run of backslashes goes on behind an escape of this character: `\\x5Cn` is `\\n` that was escaped."""
    return means == 0x5C


def escape_at(text: bytes, start: int, end: int) -> Optional[Escape]:
    """The escape whose first run of backslashes is this."""
    found = None
    while ending := _ENDING.match(text, end):
        what = ending[0]
        found = Escape(start, ending.end(), _MEANT[what[0]] if len(what) == 1 else int(what[1:], 16))
        if not is_written_backslash(found.means):
            break
        end = _BACKSLASHES.match(text, found.end).end()  # type: ignore[union-attr]
    return found


def escapes_in(text: bytes) -> Iterator[Escape]:
    """The escapes of a line."""
    at = 0
    while run := _ESCAPES.search(text, at):
        start, at = run.span()
        found = Escape(start, at, int(run[0][1:], 8)) if run[0].startswith(b"#") else escape_at(text, start, at)
        if found:
            yield found
            at = found.end


def colours_in(text: bytes, escapes: List[Escape]) -> Iterator[Tuple[int, int]]:
    """The colours of a line, each from its ESC on, which may be an escape."""
    signs = [(at, at + 1) for at in range(len(text)) if text[at] == 0x1B] if b"\x1b" in text else []
    for start, end in signs + [(one.start, one.end) for one in escapes if one.means == 0x1B]:
        parameters = _PARAMETERS.match(text, end)
        if parameters:
            yield start, parameters.end()


# ---------------------------------------------------------------------------------------------
# A line.
# ---------------------------------------------------------------------------------------------


class Pair(NamedTuple):
    """From which byte to which it stands, and where its piece begins."""

    start: int
    end: int
    line: int
    column: int
    piece: int


class VirtualLine(NamedTuple):
    """From which byte to which it stands; and how many backslashes mean one in it: 0 where neither an escape nor a quotation
    mark begins it."""

    start: int
    end: int
    unit: int


class Mark(NamedTuple):
    """A quotation mark or a line's end: from which byte to which it stands, and how many backslashes it has."""

    start: int
    end: int
    backslashes: int
    is_line_end: bool

    def unit(self) -> int:
        """How many backslashes mean one behind it: in `".."` it is two, in `\\".."` four."""
        return max(2, 2 * self.backslashes) if self.is_line_end else 2 * self.backslashes + 2


# The `:`, the line, the `:` and the column of a place.
PAIR = re.compile(rb":([1-9][0-9]{0,9}):([1-9][0-9]{0,9})(?![0-9]|[:-][0-9])")
_IN_BRACKETS = re.compile(rb"://\[[0-9A-Za-z:.%_~-]{0,64}\]")
_PATH_BEHIND_COLON = re.compile(rb":/(?!/)")
_QUOTES = re.compile(rb"[\"'\n\r]")

# What a byte of a line counts as that only looks so: one within an escape or a colour.
NOTHING = 0xFF
# What an escape of a letter up to U+07FF counts as, one of a character up to U+1FFF, and one of another, and an apostrophe.
LETTER = 0xC3
SCRIPT = 0xE1
SIGN = 0xE2


def is_edge_behind(means: int) -> bool:
    """Whether a URL may begin behind an escape of this character."""
    return means < 0x80 and bool(EDGE[means])


def counts_as(means: int) -> int:
    """What an escape of this character counts as: beyond ASCII as the first byte of one such in UTF-8."""
    return means if means < 0x80 else LETTER if 0xC0 <= means < 0x800 else SCRIPT if 0x800 <= means < 0x2000 else SIGN


def is_of_letter(first: int) -> bool:
    """Whether characters that begin with this byte are letters, of scripts with blanks: from U+00C0 to U+1FFF."""
    return 0xC3 <= first <= 0xE1


def is_apostrophe(text: bytes, start: int, end: int) -> bool:
    """Whether a `'` here stands within a word, which a letter alone is not: `b'..'`."""
    if start < 2 or end >= len(text) or not WORD[text[start - 1]] or not WORD[text[end]]:
        return False
    return not EDGE[text[start - 2]]


class Line:
    """A line, with what counts in it. `counts` has for each byte what it counts as."""

    def __init__(self, text: bytes) -> None:
        self.text = text
        self.escapes = list(escapes_in(text))
        self.colours = list(colours_in(text, self.escapes))
        self.counts = bytearray(text)
        self.edges = bytearray(b"\1" + text.translate(EDGE))
        # Where escapes and colours end, and where those begin that end there.
        self.starts: Dict[int, int] = {}
        for start, end, means in self.escapes:
            self._put(start, end, is_edge_behind(means))
            self.counts[end - 1] = counts_as(means)
        for start, end in self.colours:
            self._put(start, end, True)
        self._find_paths()
        self.marks = list(self._marks())
        self.virtual_lines = list(virtual_lines(text, self.marks, lambda mark, unit: True))
        self.lines_of_strings = list(virtual_lines(text, self.marks, ends_line_of_string))
        self.pairs = list(self._pairs())

    def _put(self, start: int, end: int, is_edge: bool) -> None:
        self.counts[start:end] = bytes([NOTHING]) * (end - start)
        self.edges[start + 1:end] = bytes(end - start - 1)
        self.edges[end] = is_edge
        self.starts[end] = start

    # Each `:` before a single `/` is an edge, but behind `file` or one letter alone; these are at one behind a sign.
    def _find_paths(self) -> None:
        for colon in _PATH_BEHIND_COLON.finditer(self.text):
            at = colon.start()
            self.edges[at + 1] = not (self._stands_alone(at, 1, LETTERS) or self._stands_alone(at, 4, b"file"))

    # Whether a character beyond ASCII ends before a byte that is no letter, or an escape of one.
    def _is_behind_sign(self, end: int) -> bool:
        if end in self.starts:
            return self.counts[end - 1] == SIGN
        first = end - 1
        while first >= 0 and 0x80 <= self.text[first] < 0xC0:
            first -= 1
        return first < end - 1 and not (first >= 0 and is_of_letter(self.text[first]))

    def _stands_alone(self, end: int, length: int, letters: bytes) -> bool:
        start = end - length
        if start < 0 or not (self.text[start:end] == letters if length > 1 else self.text[start] in letters):
            return False
        self.edges[start] |= self._is_behind_sign(start)
        return bool(self.edges[start]) or not WORD[self.text[start - 1]]

    # Quotation marks, but for apostrophes, and escapes of those and of line ends.
    def _marks(self) -> Iterator[Mark]:
        for found in _QUOTES.finditer(bytes(self.counts)):
            end = found.end()
            start = self.starts.get(end, found.start())
            if found[0] in b"\n\r" and start == found.start():
                continue
            if found[0] == b"'" and is_apostrophe(self.text, start, end):
                self.counts[end - 1], self.edges[end] = SIGN, 0
                continue
            yield Mark(start, end, len(_BACKSLASHES.match(self.text, start)[0]), found[0] in b"\n\r")  # type: ignore[index]

    def _pairs(self) -> Iterator[Pair]:
        inside = [found.span() for found in _IN_BRACKETS.finditer(self.text)]
        piece, past = 0, 0
        for found in PAIR.finditer(self.text):
            while past < len(inside) and inside[past][1] <= found.start():
                past += 1
            is_inside = past < len(inside) and inside[past][0] < found.start()
            line, column = int(found[1]), int(found[2])
            if not is_inside and line <= MOST_NUMBER and column <= MOST_NUMBER:
                yield Pair(found.start(), found.end(), line, column, piece)
                piece = found.end()


def ends_line_of_string(mark: Mark, unit: int) -> bool:
    """Whether a mark ends a line in which so many backslashes mean one: `\\\\n` is a backslash and an n where `\\n` is a line's
    end."""
    return not mark.is_line_end or 2 * mark.backslashes <= max(unit, 2)


def virtual_lines(text: bytes, marks: List[Mark], ends: Callable[[Mark, int], bool]) -> Iterator[VirtualLine]:
    """The parts of a line between marks, but for those that do not end one."""
    begin, unit = 0, 0
    for mark in marks:
        if ends(mark, unit):
            yield VirtualLine(begin, mark.start, unit)
            begin, unit = mark.end, mark.unit()
    yield VirtualLine(begin, len(text), unit)
