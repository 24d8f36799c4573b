#!/usr/bin/env python3
"""What looks like a URL at the places of a text, by the model of places.py: place_urls.py prints a line for each in the text on
standard input: where it begins, how many bytes it has, where its place ends, and 1 where each two backslashes of it are one. With
--cases it prints a text instead: those of places_cases.py, and long lines of them.
"""

from __future__ import annotations

import re
import sys
from typing import Iterator, NamedTuple, Optional

from places import MOST_LINE, chunks, places_of
from places_cases import CASES
from places_maps import Maps, Pattern

_WHOLE_PATH = re.compile(rb"[/\\]|[A-Za-z]:[/\\]")
_SCRIPT = re.compile(rb"\.(?:[cm]?js|bundle)\Z")
_NUMBERS = re.compile(rb":[0-9]+:[0-9]+\Z")


class Seeming(Maps):
    """No URL is named, and what looks like one is as that of a pattern."""

    def __init__(self) -> None:
        """Without maps."""
        super().__init__(lambda path: None, [])
        self.patterns = [Pattern(b"", b"")]

    def path_by_pattern(self, url: bytes) -> Optional[bytes]:
        """A path for what looks like a URL."""
        return b"?" if b"://" in url or _SCRIPT.search(url) or _WHOLE_PATH.match(url) else None


class PlaceUrl(NamedTuple):
    """Where a URL stands in a text."""

    start: int
    length: int
    next: int
    halved: int


def place_urls(text: bytes) -> Iterator[PlaceUrl]:
    """Those of a text."""
    maps, begin = Seeming(), 0
    for line in text.split(b"\n"):
        for chunk, is_found in chunks(line):
            for place in places_of(chunk, maps) if is_found else []:
                url = _NUMBERS.sub(b"", chunk[place.start:place.end])
                yield PlaceUrl(begin + place.start, len(url), begin + place.end, int(url != place.url))
            begin += len(chunk)
        begin += 1


def case_text() -> bytes:
    """The texts of the cases, line by line; in long lines, of more than one chunk; and one that is broken off, without blanks."""
    texts = [one.text.encode() for one in CASES]
    flat = [text.replace(b"\n", b"\\n") for text in texts]
    bare = b"".join(re.sub(rb'[" ]', b"", text) for text in flat)
    broken = bare * (2 * MOST_LINE // len(bare) + 1) + b" at https://h/last.js:1:2"
    return b"\n".join([*texts, b" ".join(flat * 3), b'"'.join(flat * 3), broken, b"at f (https://h/end.js:3:4)"])


def main() -> None:
    """Prints what is asked for."""
    if sys.argv[1:] == ["--cases"]:
        sys.stdout.buffer.write(case_text())
        return
    for found in place_urls(sys.stdin.buffer.read()):
        print(*found)


if __name__ == "__main__":
    main()
