"""The places of a text, wherever they stand, as a model that computes: `rewrite_anywhere(text, maps)`.

It says what `rewrite --anywhere` is to write. Nothing here is made from smap's own code. A place is read backwards from its
numbers; places_line.py has what stands in a line. The URL of a pair is found in the first of four **ways** that has a map:

0. the frame that a line or a virtual line is;
1. as named: the longest URL that begins at an edge and is named, or has its map by a folder or the cut URL of a list;
2. by a pattern, in the word before the pair;
3. a URL that an argument names, with a query or a fragment behind it.

What can't be told apart stays.

Each loop goes through bytes once: through those of a line, or of a piece, at most 2,048 and the longest name.
"""

from __future__ import annotations

import re
from typing import Callable, Iterator, List, NamedTuple, Optional, Tuple

from places_line import CONTROL, DIGITS, EDGE, LETTERS, MOST_NUMBER, NOTHING, PAIR, Line, Pair, VirtualLine, escapes_in, table
from places_maps import Maps, Tree, without_query

# Bytes of a line that may be a frame, and bytes before a pair that may decide its URL.
MOST_LINE = 65536
# Bytes of a URL outside of frames, or of what stands behind a name.
MOST_RUN = 2048

# A byte that ends the word before a pair.
ENDS_WORD = table(lambda byte: bool(CONTROL[byte]) or byte in b"\"'`,;|<>()[]{}\\")
# A byte that does not stand behind a name.
BARRED = table(lambda byte: bool(CONTROL[byte]) or byte in b"\"'`<>")
SCHEME = table(lambda byte: byte in LETTERS + DIGITS + b"+.-")
# Bytes with which characters begin that are signs, such as quotation marks, or belong to scripts without blanks; and apostrophes.
STRANGE = bytes([0xC0, 0xC1, 0xC2, *range(0xE0, 0x100)])
EDGES = bytes(byte for byte in range(0x80) if EDGE[byte])

_PATH = re.compile(rb"[/?]")
# What stands between the pieces of a path, and of no date.
_SEPARATOR = re.compile(rb"(?<![0-9])[/\\]|[/\\](?![0-9])")
_PAIRED = {ord(")"): 0, ord("]"): 1, ord("}"): 2, ord("("): 3, ord("["): 4, ord("{"): 5}

# ---------------------------------------------------------------------------------------------
# A path.
# ---------------------------------------------------------------------------------------------

# A drive, `file:`, or a host and its port.
_ROOT = re.compile(rb"(?:[A-Za-z]:|file:|[0-9A-Za-z-]*[A-Za-z.][0-9A-Za-z.-]*:[0-9]+)(?=/)")
# A name, dots or `~` alone, or nothing.
_FIRST_PIECE = re.compile(rb"(?![+-]).*[A-Za-z0-9\x80-\xff].*|\.*|~", re.DOTALL)
_EDGE_BEFORE_PATH = re.compile(rb"[\x00-\x20!-#&-*,;-@\[\]^`{-}\x7f]/")
# What no path has: an angle bracket, or `./`, `../` or `~/` behind such a sign.
_NO_PATH = re.compile(rb"[<>]|[\x00-\x20!-#&-*,;-@\[\]^`{-}\x7f][.~]+/")


def is_path(url: bytes, strange: bytes) -> bool:
    """Whether a URL without a scheme is a path: before its first `?` no `/` stands behind a sign that is an edge, nor a `:` in
    it, but that of a drive, of `file:` or of a port; and its first piece has a letter or a digit, does not begin with `+` or `-`, and
    has no strange bytes, or is dots or `~` alone.

    So it does not begin with a file and a line, as grep prints them, or with a sign of a list or of a difference; and behind a
    sign no other path begins in it, as behind a function: `N/<@../app.js`.
    """
    root = _ROOT.match(url)
    path = url[root.end() if root else 0:].partition(b"?")[0]
    if b"/" not in path:
        return True
    first = path[:path.index(b"/")]
    return b":" not in path and not _EDGE_BEFORE_PATH.search(path) and not _NO_PATH.search(path, len(first)) and (
        bool(_FIRST_PIECE.fullmatch(first)) and not set(first) & set(strange)
    )

# ---------------------------------------------------------------------------------------------
# 0. The frame.
# ---------------------------------------------------------------------------------------------

class Place(NamedTuple):
    """From which byte of its line to which it stands, its URL, the file that is named for that, its line and column."""

    start: int
    end: int
    url: bytes
    path: bytes
    line: int
    column: int


_AT = re.compile(rb"[ \t]*at ")


def place_span(text: bytes, start: int, end: int) -> Optional[Tuple[int, int]]:
    """Where the URL of a place stands that is the whole of a text from one byte to another."""
    column = text.rfind(b":", start, end)
    line = text.rfind(b":", start, max(column, start))
    found = PAIR.match(text[line:end]) if line > start else None
    if not found or found.end() != end - line or max(int(found[1]), int(found[2])) > MOST_NUMBER:
        return None
    return start, line


def frame_span(text: bytes) -> Optional[Tuple[int, int]]:
    """Where the URL of a frame stands, if a line is a frame."""
    if len(text) > MOST_LINE or b"\r" in text[:-1]:
        return None
    end = len(text) - text.endswith(b"\r")
    at = _AT.match(text)
    if not at:
        sign = text.find(b"@", 0, end)
        return place_span(text, sign + 1, end) if sign >= 0 else None
    start = at.end()
    if text.endswith(b")", start, end):
        call = text.find(b" (", start, end)
        return place_span(text, call + 2, end - 1) if call > start else None
    start += len(b"async ") if text.startswith(b"async ", start) else 0
    return None if text.startswith(b"async ", start) else place_span(text, start, end)


# What node prints behind a frame, before the fields of an error or the next text of a list.
_TAIL = re.compile(rb"(?: \{|,)\r?\Z")


def frame_span_before_tail(text: bytes) -> Optional[Tuple[int, int]]:
    """Where the URL of a frame stands, if a line is one, or begins with a blank and is one but for ` {` or `,` at its end. In
    that it has no quotation mark."""
    span, tail = frame_span(text), _TAIL.search(text)
    if span or not tail or text[:1] not in (b" ", b"\t"):
        return span
    span = frame_span(text[:tail.start()])
    return span if span and b'"' not in text[span[0]:span[1]] else None


# A scheme, `/`, `\\` or a drive.
_BEGINNING = rb"(?:[A-Za-z][A-Za-z0-9+.-]*://|[A-Za-z][A-Za-z0-9+-]*:/|/|\\|[A-Za-z]:\\)"
_BEGINS = re.compile(_BEGINNING)
_BEGINS_AGAIN = re.compile(rb"[\x00-\x20\x7f][\x00-\x20!-#&-*,;-@\[\]^`{-}\x7f]*" + _BEGINNING)
_EDGE = re.compile(rb"[\x00-\x20!-#&-*,;-@\[\]^`{-}\x7f]")
_BRACKETS = re.compile(rb"[()\[\]{}]")
_BLANK_OR_QUOTE = re.compile(rb"[\x00-\x20\"'\x7f]")


def has_paired_brackets(text: bytes) -> bool:
    """Whether each bracket of a text is closed by one of its kind behind it."""
    open_ones = [0, 0, 0]
    for byte in text:
        kind = _PAIRED.get(byte, -1)
        if kind >= 0:
            open_ones[kind % 3] += -1 if kind < 3 else 1
            if open_ones[kind % 3] < 0:
                return False
    return not any(open_ones)


def has_scheme_behind_edge(url: bytes) -> bool:
    """Whether `://` stands behind a blank or another sign."""
    edge = _EDGE.search(url)
    return bool(edge) and url.find(b"://", edge.end()) >= 0  # type: ignore[union-attr]


def has_blank_in_query(url: bytes) -> bool:
    """Whether a blank stands behind a `?`."""
    query = url.find(b"?")
    return query >= 0 and any(CONTROL[byte] for byte in url[query:])


def has_function(url: bytes) -> bool:
    """Whether a function of Firefox without a name of its own stands in it."""
    return b"<@" in url


def is_sentence(url: bytes) -> bool:
    """Whether a frame's URL that begins as one does is a sentence: it has a function in it; or a blank, which stands in its
    query, or behind which, or a sign, another one begins."""
    if has_function(url):
        return True
    if not _BLANK_OR_QUOTE.search(url):
        return False
    if has_blank_in_query(url):
        return True
    return bool(_BEGINS_AGAIN.search(url) or _EDGE_BEFORE_PATH.search(_BRACKETS.sub(b"x", url))) or has_scheme_behind_edge(url)


def has_barred_query(line: Line, start: int, end: int) -> bool:
    """Whether the query of a URL, which begins with its first `?` or `#`, has a byte that does not stand behind a name."""
    query = start + len(without_query(line.text[start:end]))
    return any(is_barred(line, at) for at in range(query, end))


def is_for_folder(line: Line, start: int, pair: Pair) -> bool:
    """Whether a folder may have the URL of a frame, or a list without its query: it holds no pair, is no sentence, and has no
    query with bytes that do not stand behind a name."""
    counts = bytes(line.counts[start:pair.start]).replace(bytes([NOTHING]), b"")
    return pair.piece <= start and not is_sentence(counts) and not has_barred_query(line, start, pair.start)


def is_function(head: bytes) -> bool:
    """Whether what stands before a frame's URL ends with no `@`, or is a function: with a separator it may be the beginning
    of a URL, `https://h/npm/a@1/app.js`, and the `@` stands in it."""
    return not head.endswith(b"@") or not _SEPARATOR.search(head)


def is_for_pattern(line: Line, virtual: VirtualLine, start: int, pair: Pair) -> bool:
    """Whether a pattern may have the URL of a frame, since it is one and no more: its brackets stand in pairs, it holds no
    pair, no escape begins it, and it begins as a URL and is no sentence, or is a relative path."""
    url = line.text[start:pair.start]
    counts = bytes(line.counts[start:pair.start])
    if not has_paired_brackets(url) or pair.piece > start or counts[0] == NOTHING:
        return False
    if _BEGINS.match(url):
        return not is_sentence(counts.replace(bytes([NOTHING]), b""))
    if NOTHING in counts or _BLANK_OR_QUOTE.search(counts) or not is_function(line.text[virtual.start:start]):
        return False
    return is_path(_BRACKETS.sub(b"x", url).replace(b"\\", b"/"), EDGES)


def urls_of_frame(url: bytes, is_quoted: bool) -> List[bytes]:
    """What a frame's URL may be: in a string each backslash is two; or it is named as it stands there."""
    return [url.replace(b"\\\\", b"\\"), url] if is_quoted and b"\\\\" in url else [url]


def place_of_frame(line: Line, virtual: VirtualLine, pair: Pair, maps: Maps) -> Optional[Place]:
    """The place of the frame that a virtual line is, whose last pair is this."""
    span = frame_span_before_tail(line.text[virtual.start:virtual.end])
    if not span or virtual.start + span[1] != pair.start:
        return None
    start, end = virtual.start + span[0], pair.start
    as_named = maps.path_as_named if is_for_folder(line, start, pair) else maps.path_of_name
    by_pattern = maps.path_by_pattern if maps.patterns and is_for_pattern(line, virtual, start, pair) else lambda _: None
    for url in urls_of_frame(line.text[start:end], virtual.unit > 0):
        if as_named(url) or by_pattern(url):
            return Place(start, pair.end, url, maps.path_for(url) or b"", pair.line, pair.column)
    return None

# ---------------------------------------------------------------------------------------------
# 1. As named. 3. With a query.
# ---------------------------------------------------------------------------------------------

def beginnings(tree: Tree, text: bytes, low: int, end: int) -> Iterator[int]:
    """Where names begin that end before a byte, from the shortest on."""
    node = tree
    for at in range(end - 1, low - 1, -1):
        found = node.get(text[at])
        if found is None:
            return
        node = found
        if -1 in node:
            yield at


def longest_end(tree: Tree, text: bytes, start: int, end: int) -> int:
    """Where the longest of the texts ends that begins at a byte, or that byte."""
    node, longest = tree, start
    for at in range(start, end):
        found = node.get(text[at])
        if found is None:
            break
        node = found
        if -1 in node:
            longest = at + 1
    return longest


def is_barred(line: Line, at: int) -> bool:
    """Whether a byte, or the escape that ends with it, does not stand behind a name."""
    return bool(BARRED[line.text[at]] or (at + 1 in line.starts and BARRED[line.counts[at]]))


_NO_UTF8 = re.compile("[\udc80-\udcff]")


def bytes_of_no_character(text: bytes, start: int, end: int) -> List[int]:
    """Where the bytes stand that are not UTF-8."""
    part = text[start:end]
    if part.isascii():
        return []
    places, at = [], start
    for character in part.decode(errors="surrogateescape"):
        if _NO_UTF8.match(character):
            places.append(at)
        at += len(character.encode(errors="surrogateescape"))
    return places


class Behind:
    """What stands behind a name and before a pair, from each of the last 2,048 bytes of a piece on: whether it `fits` there,
    so that it has no barred byte, no backslash before a `?` or `#`, and brackets in pairs; and whether what stands before
    its first `?` or `#` is a `plain` path."""

    def __init__(self, line: Line, pair: Pair) -> None:
        self.low = max(pair.piece, pair.start - MOST_RUN)
        self.fits = bytearray(pair.start - self.low + 1)
        self.plain = bytearray(pair.start - self.low + 1)
        self.queries: List[int] = []
        text = line.text
        wrong = set(bytes_of_no_character(text, self.low, pair.start))
        open_ones = [0, 0, 0]
        has_backslash = is_wrong = False
        piece_end = pair.start
        for at in range(pair.start - 1, self.low - 1, -1):
            byte = text[at]
            if is_barred(line, at):
                break
            kind = _PAIRED.get(byte)
            if kind is not None:
                open_ones[kind % 3] += 1 if kind < 3 else -1
                if open_ones[kind % 3] < 0:
                    break
            if byte in b"?#":
                has_backslash = is_wrong = False
                piece_end = at
                self.queries.append(at)
            elif byte == ord("/"):
                is_wrong = is_wrong or text[at + 1:min(at + 4, piece_end)] in (b"", b".", b"..")
                piece_end = at
            elif byte in b"\\:" or at in wrong:
                has_backslash = has_backslash or byte == ord("\\")
                is_wrong = True
            self.fits[at - self.low] = not has_backslash and not any(open_ones)
            self.plain[at - self.low] = not is_wrong and text[at:min(at + 3, piece_end)] not in (b"", b".", b"..")

    def fits_at(self, at: int) -> bool:
        """Whether what stands from a byte on may stand behind a name."""
        return at >= self.low and bool(self.fits[at - self.low])

    def is_in_folder(self, at: int) -> bool:
        """Whether it may stand behind a prefix, and a folder has a file for it."""
        return self.fits_at(at) and bool(self.plain[at - self.low])


def may_begin_name(line: Line, at: int) -> bool:
    """Whether a URL may begin that is named: at an edge, or behind any `'`."""
    return bool(line.edges[at]) or line.text[at - 1:at] == b"'"


def begin_as_named(line: Line, pair: Pair, behind: Behind, maps: Maps) -> int:
    """Where the longest URL begins that is named, or that a list or a folder has without its query; its end where none does."""
    text, best = line.text, pair.start
    for at in beginnings(maps.back_by_name, text, pair.piece, pair.start):
        best = at if may_begin_name(line, at) else best
    for query in behind.queries:
        if behind.fits_at(query):
            for at in beginnings(maps.back_by_listed, text, pair.piece, query):
                best = at if may_begin_name(line, at) and at < best else best
    if maps.by_prefix:
        for at in range(max(pair.piece, behind.low - maps.longest_prefix), best):
            if may_begin_name(line, at) and text[at] in maps.by_prefix:
                end = longest_end(maps.by_prefix, text, at, pair.start)
                if end > at and behind.is_in_folder(end):
                    return at
    return best


def begin_with_query(line: Line, pair: Pair, behind: Behind, maps: Maps) -> Tuple[int, int]:
    """Where the longest URL of an argument begins and ends that has a query or a fragment behind it."""
    best = pair.start, pair.start
    for query in behind.queries:
        if behind.fits_at(query):
            for at in beginnings(maps.back_by_argument, line.text, pair.piece, query):
                best = (at, query) if may_begin_name(line, at) and at < best[0] else best
    return best

# ---------------------------------------------------------------------------------------------
# 2. By a pattern.
# ---------------------------------------------------------------------------------------------

_LETTER = re.compile(rb"[A-Za-z]")
_ABSOLUTE = re.compile(rb"/|\.\.?/|~/|[A-Za-z][A-Za-z0-9+.-]*:/")
_BEHIND_AT = re.compile(rb"(?<![0-9A-Za-z\x80-\xff])at[ \t]+\Z")
# In V8's text of a place in an evaluated text: `(eval at f (dist/app.js:1:2), <anonymous>:1:1)`.
_BEHIND_EVAL = re.compile(rb"\(eval at [^()]*\(\Z")
# Firefox's sign of a function without a name, and the one behind each function.
_BEHIND_FUNCTION = re.compile(rb"<@\Z")
_OPENING = {ord("("): 1, ord(")"): -1}


def word_start(line: Line, pair: Pair, low: int) -> int:
    """Where the word before a pair begins, not before a byte. An escape stands in it where what it means does."""
    at = pair.start
    while at > low and not ends_word(line, at):
        at = line.starts.get(at, at - 1)
    return max(at, low)


def ends_word(line: Line, at: int) -> bool:
    """Whether a byte, an escape or a colour ends a word that stands behind it."""
    return line.counts[at - 1] == NOTHING or bool(ENDS_WORD[line.counts[at - 1]])


def scheme_start(line: Line, start: int, end: int) -> int:
    """Where the scheme before the last `://` of a word begins, -1 where there is none. No escape stands in it."""
    mark = line.text.rfind(b"://", start, end)
    at = mark
    while at > start and at not in line.starts and SCHEME[line.text[at - 1]]:
        at -= 1
    first = _LETTER.search(line.text, at, mark) if mark >= 0 else None
    return first.start() if first else -1


class Before:
    """What stands before the URL of a pattern that begins without a scheme, in its piece and its virtual line: whether it may
    be the end of a longer one."""

    def __init__(self, line: Line, virtual: VirtualLine, pair: Pair, start: int) -> None:
        self.line = line
        self.start = start
        self.low = max(virtual.start, pair.piece, pair.end - MOST_LINE)
        self.counts = bytes(line.counts[self.low:start])
        # Back to a blank, a control byte or a quotation mark, through colours and other escapes.
        end = max((at for at, byte in enumerate(self.counts) if CONTROL[byte] or byte in b"\"'"), default=-1)
        self.stretch = self.counts[end + 1:].replace(bytes([NOTHING]), b"")
        # The byte before it, but for colours.
        self.last = self.counts.replace(bytes([NOTHING]), b"")[-1:]

    def has_scheme(self) -> bool:
        """A URL with a scheme begins before it, and nothing ends it."""
        return b"://" in self.stretch

    def is_in_call(self) -> bool:
        """It stands behind a blank within a `(` that is open, and not right behind `at`: `(address at app.js:1:2)`, nor in a
        `(` of its own behind `eval at`."""
        closed, has_blank = 0, False
        for byte in reversed(self.counts):
            has_blank = has_blank or byte in b" \t"
            closed -= _OPENING.get(byte, 0)
            if closed < 0 and has_blank:
                return not (_BEHIND_AT.search(self.counts) or _BEHIND_EVAL.search(self.counts))
            closed = max(0, closed)
        return False

    def has_path(self) -> bool:
        """A path stands before it, as it may with blanks in it."""
        return bool(_SEPARATOR.search(self.counts))

    def has_separator(self) -> bool:
        """A path goes on before it, and neither a blank ends it nor a function of Firefox: `N/<@app.js:1:2`."""
        return bool(_SEPARATOR.search(self.stretch)) and not _BEHIND_FUNCTION.search(self.stretch)

    def is_behind_colour(self) -> bool:
        """A colour ends before it, which does not begin at an edge."""
        return self.counts[-1:] == bytes([NOTHING]) and self.last != b"" and not EDGE[self.last[0]]


def is_free(line: Line, start: int) -> bool:
    """Whether a URL without a scheme may begin with a word: at an edge."""
    return bool(line.edges[start])


def may_go_on(before: Before, url: bytes) -> bool:
    """Whether a URL without a scheme may be the end of a path with blanks, commas, brackets or colours in it."""
    if _ABSOLUTE.match(url):
        return (before.last in (b")", b"]", b"}") or before.is_behind_colour()) and before.has_path()
    return before.has_separator() or (before.last in (b" ", b"\t") and before.has_path())


def path_start(line: Line, start: int, end: int) -> int:
    """Where a URL without a scheme begins in a word: behind the last `:` before a single `/`, or else behind the last edge
    before the first `/`, in both before the first `?`."""
    query = line.text.find(b"?", start, end)
    end = query if query >= 0 else end
    path = line.text.find(b"/", start, end)
    for at in range(end - 1, start, -1):
        if line.edges[at] and line.text[at - 1:at + 1] == b":/":
            return at
    return next((at for at in range(path if path >= 0 else end, start, -1) if line.edges[at]), start)


def begin_by_pattern(line: Line, virtual: VirtualLine, pair: Pair) -> int:
    """Where the URL begins that a pattern may have; its end where none does."""
    start = word_start(line, pair, max(pair.piece, pair.start - MOST_RUN))
    word = line.text[start:pair.start]
    if start > pair.piece and line.text[start - 1] == ord("\\"):
        return pair.start
    # A word that goes on has a scheme in its last bytes, or there is no place.
    goes_on = start > pair.piece and not ends_word(line, start)
    scheme = scheme_start(line, start, pair.start)
    if scheme >= start + goes_on:
        return scheme
    begin = path_start(line, start, pair.start)
    url = bytes(line.counts[begin:pair.start]).replace(bytes([NOTHING]), b"")
    before = Before(line, virtual, pair, begin)
    if goes_on or not is_free(line, begin) or b"://" in word or before.has_scheme() or not is_path(url, STRANGE):
        return pair.start
    return pair.start if may_go_on(before, url) or not _ABSOLUTE.match(url) and before.is_in_call() else begin

# ---------------------------------------------------------------------------------------------
# The places.
# ---------------------------------------------------------------------------------------------

def place_before(line: Line, virtual: VirtualLine, pair: Pair, maps: Maps) -> Optional[Place]:
    """The place of a pair that is in no frame."""
    behind = Behind(line, pair)
    start = begin_as_named(line, pair, behind, maps)
    if start < pair.start:
        return _place(line, start, pair.start, pair, maps.path_as_named)
    start = begin_by_pattern(line, virtual, pair) if maps.patterns else pair.start
    if start < pair.start and maps.path_by_pattern(line.text[start:pair.start]):
        return _place(line, start, pair.start, pair, maps.path_for)
    start, end = begin_with_query(line, pair, behind, maps)
    return _place(line, start, end, pair, maps.path_as_named) if start < end else None


def _place(line: Line, start: int, end: int, pair: Pair, path_of: Callable[[bytes], Optional[bytes]]) -> Place:
    url = line.text[start:end]
    path = path_of(url)
    assert path, url
    return Place(start, pair.end, url, path, pair.line, pair.column)


def places_of(text: bytes, maps: Maps) -> List[Place]:
    """The places of a line."""
    if not PAIR.search(text):
        return []
    line = Line(text)
    if not line.pairs:
        return []
    places, pairs = [], line.pairs
    tried = set()
    # Frames have no other place: first the whole line, then lines of strings, then virtual lines.
    for level in ([VirtualLine(0, len(text), 0)], line.lines_of_strings, line.virtual_lines):
        others = []
        for virtual, within in shared(level, pairs):
            frame = place_of_frame(line, virtual, within[-1], maps) if virtual[:2] not in tried else None
            tried.add(virtual[:2])
            if frame:
                places.append(frame)
            else:
                others += within
        pairs = others
    for virtual, within in shared(line.virtual_lines, pairs):
        places += [place for pair in within if (place := place_before(line, virtual, pair, maps))]
    return sorted(places)


def shared(level: List[VirtualLine], pairs: List[Pair]) -> Iterator[Tuple[VirtualLine, List[Pair]]]:
    """The virtual lines that have some of the pairs, and those that they have."""
    at = 0
    for virtual in level:
        first = at
        while at < len(pairs) and pairs[at].start < virtual.end:
            at += 1
        if at > first:
            yield virtual, pairs[first:at]


def printed(place: Place, maps: Maps, is_printed: Callable[[bytes], bool]) -> Optional[bytes]:
    """What stands in a place's stead, where its map has an original, in a source whose name is printed."""
    look_up = maps.look_up_in(place.path)
    original = look_up(place.url, place.line, place.column) if look_up else None
    if original is None or not is_printed(original[0]):
        return None
    return b"%s:%d:%d" % original


def is_printed_in_frames(name: bytes) -> bool:
    """Whether a name is printed in a frame: it is not empty, and has no control byte."""
    return name != b"" and not any(byte < 0x20 or byte == 0x7F for byte in name)


def is_printed_anywhere(name: bytes) -> bool:
    """Whether a name is printed anywhere in a text: it has no quotation mark and no backslash either."""
    return is_printed_in_frames(name) and not set(b'"\\') & set(name)


def last_line_end(text: bytes) -> int:
    """Where the last escape of a line's end begins, 0 where there is none."""
    return max((escape.start for escape in escapes_in(text) if escape.means in tuple(b"\n\r")), default=0)


def chunks(line: bytes) -> Iterator[Tuple[bytes, bool]]:
    """The parts of a line, and whether their places are found: those of one of more than 65,536 bytes end before the last `"` among
    so many and its backslashes, or else the last escape of a line's end, or else the last blank; without these, what follows stays
    up to the next `"` or blank."""
    at = 0
    while len(line) - at > MOST_LINE:
        front = line[at:at + MOST_LINE]
        end = len(front[:max(front.rfind(b'"'), 0)].rstrip(b"\\")) or last_line_end(front) or front.rfind(b" ")
        is_broken = end <= 0
        if is_broken:
            end = len(front.rstrip(DIGITS + b":-")) or 1
        yield front[:end], True
        at += end
        if is_broken:
            fresh = re.compile(rb'[" ]').search(line, at)
            end = fresh.start() if fresh else len(line)
            yield line[at:end], False
            at = end
    yield line[at:], True


def rewrite_line(text: bytes, maps: Maps) -> bytes:
    """What a line becomes."""
    return b"".join(rewrite_chunk(chunk, maps) if is_found else chunk for chunk, is_found in chunks(text))


def rewrite_chunk(text: bytes, maps: Maps) -> bytes:
    """What a part of it becomes whose places are found."""
    out, at = [], 0
    for place in places_of(text, maps):
        new = printed(place, maps, is_printed_anywhere)
        if new is not None:
            out += [text[at:place.start], new]
            at = place.end
    return b"".join([*out, text[at:]])


def rewrite_anywhere(text: bytes, maps: Maps) -> bytes:
    """What a text becomes whose places are rewritten, each line by itself."""
    return b"\n".join(rewrite_line(line, maps) for line in text.split(b"\n"))


def rewrite_frames(text: bytes, maps: Maps) -> bytes:
    """What a trace becomes whose frames are rewritten, as `rewrite` does without `--anywhere`."""
    lines = []
    for line in text.split(b"\n"):
        span = frame_span(line)
        pair = PAIR.match(line, span[1]) if span else None
        path = maps.path_for(line[span[0]:span[1]]) if span else None
        if span and pair and path:
            place = Place(span[0], pair.end(), line[span[0]:span[1]], path, int(pair[1]), int(pair[2]))
            new = printed(place, maps, is_printed_in_frames)
            line = line if new is None else line[:place.start] + new + line[place.end:]
        lines.append(line)
    return b"\n".join(lines)
