"""Which map a URL has, for the model of places anywhere: places.py has the rule."""

from __future__ import annotations

import re
from typing import Callable, Dict, Iterable, List, NamedTuple, Optional, Tuple

# What a map answers to a URL, a line and a column: a name, a line and a column, all but the URL from 1.
Original = Tuple[bytes, int, int]
LookUp = Callable[[bytes, int, int], Optional[Original]]

_QUERY = re.compile(rb"[?#]")


def without_query(url: bytes) -> bytes:
    """What stands before the first `?` or `#`."""
    return _QUERY.split(url, maxsplit=1)[0]


def is_utf8(text: bytes) -> bool:
    """Whether a text is UTF-8."""
    try:
        text.decode()
    except UnicodeDecodeError:
        return False
    return True


def path_in(folder: bytes, rest: bytes) -> Optional[bytes]:
    """The path of the map of a URL that has this behind the folder's prefix."""
    if any(byte < 0x20 or byte in b"\x7f\\:" for byte in rest) or {b"", b".", b".."} & set(rest.split(b"/")):
        return None
    if not is_utf8(rest):
        return None
    return folder + rest + b".map"


class Pattern(NamedTuple):
    """What stands behind a `*`, and a file or a folder."""

    text: bytes
    path: bytes

    def is_folder(self) -> bool:
        """Whether it is for the URLs in which its text stands."""
        return self.path.endswith(b"/")

    def path_for(self, url: bytes) -> Optional[bytes]:
        """The path that it has for a URL; None where it is not for it, and empty where its folder has none."""
        short = without_query(url)
        if not self.is_folder():
            return self.path if self._ends(url) or self._ends(short) else None
        at = self._first_in(short)
        if at < 0:
            return None
        rest = short[at + len(self.text):]
        return path_in(self.path, rest.replace(b"\\", b"/") if self.text.endswith(b"\\") else rest) or b""

    def _begins_piece(self, url: bytes, at: int) -> bool:
        return at == 0 or url[at - 1] in b"/\\" or self.text[:1] in (b"/", b"\\")

    def _ends(self, url: bytes) -> bool:
        return url.endswith(self.text) and self._begins_piece(url, len(url) - len(self.text))

    def _first_in(self, url: bytes) -> int:
        at = url.find(self.text)
        while at >= 0 and not self._begins_piece(url, at):
            at = url.find(self.text, at + 1)
        return at


# The texts of a tree byte by byte; -1 where one ends.
Tree = Dict[int, "Tree"]


def tree_of(texts: Iterable[bytes]) -> Tree:
    """The tree of texts."""
    tree: Tree = {}
    for text in texts:
        node = tree
        for byte in text:
            node = node.setdefault(byte, {})
        node[-1] = {}
    return tree


class Maps:
    """Named URLs, lists, folders and patterns; and `look_up_in`, which has the map of a path."""

    def __init__(
        self, look_up_in: Callable[[bytes], Optional[LookUp]], words: Iterable[bytes], listed: Iterable[bytes] = (),
    ) -> None:
        """Words are those of the command line, `URL=PATH`; those of a list are written alike."""
        self.look_up_in = look_up_in
        self.arguments: Dict[bytes, bytes] = {}
        self.listed: Dict[bytes, bytes] = {}
        self.folders: Dict[bytes, bytes] = {}
        self.patterns: List[Pattern] = []
        for named, word in [*((self.arguments, word) for word in words), *((self.listed, word) for word in listed)]:
            url, _, path = word.rpartition(b"=")
            if url.startswith(b"*"):
                self.patterns.append(Pattern(url[1:], path))
            else:
                (self.folders if path.endswith(b"/") else named)[url] = path
        # No text with a quotation mark is found outside of frames: so JSON stays JSON.
        names = [name for name in (*self.arguments, *self.listed) if b'"' not in name]
        self.back_by_name = tree_of(name[::-1] for name in names)
        self.back_by_argument = tree_of(name[::-1] for name in names if name in self.arguments)
        self.back_by_listed = tree_of(name[::-1] for name in names if name in self.listed and name == without_query(name))
        prefixes = [prefix for prefix in self.folders if b'"' not in prefix and prefix == without_query(prefix)]
        self.by_prefix = tree_of(prefixes)
        self.longest_prefix = max(map(len, prefixes), default=0)

    def path_of_name(self, url: bytes) -> Optional[bytes]:
        """The file that an argument or a list names for a URL."""
        return self.arguments.get(url) or self.listed.get(url)

    def path_as_named(self, url: bytes) -> Optional[bytes]:
        """The file that is named for a URL, but for patterns."""
        short = without_query(url)
        path = self.path_of_name(url) or self.listed.get(short)
        if path:
            return path
        prefix = max((prefix for prefix in self.folders if short.startswith(prefix)), key=len, default=None)
        return None if prefix is None else path_in(self.folders[prefix], short[len(prefix):])

    def path_by_pattern(self, url: bytes) -> Optional[bytes]:
        """The file that the pattern that decides has for a URL."""
        having = [one for one in self.patterns if one.text and one.path_for(url) is not None]
        return max(having, key=lambda one: (len(one.text), not one.is_folder())).path_for(url) or None if having else None

    def path_for(self, url: bytes) -> Optional[bytes]:
        """The file that is named for a URL."""
        return self.path_as_named(url) or self.path_by_pattern(url)
