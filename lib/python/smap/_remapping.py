"""The call of @ampproject/remapping: a map whose mappings lead on through the maps of its sources, which a loader gives."""

import json
import re
from contextlib import closing
from typing import Any, Callable, Dict, List, Optional, Sequence, Union

from . import _given, _smap
from ._composing import Given
from ._maps import SourceMap
from ._reported import Refused, refused_as, refused_map

# How a URL with a host begins, which is no path.
_HOST = re.compile(r"[a-z][a-z0-9+.-]*://", re.IGNORECASE)
# More lines of mappings are none of a map with so many bytes that anybody writes.
_MOST_LINES, _MOST_LINES_OF_BYTE = 1000000, 16


class LoaderContext:
    """What a loader is told of a source: the name of the map's that has it, and how many maps lead to it. What is put into `source` is
    the name of an original, or where its map stands; `content` and `ignore` are those of an original, and None leaves them as they are."""

    def __init__(self, importer: str, depth: int, source: str) -> None:
        self.importer, self.depth, self.source = importer, depth, source
        self.content: Optional[str] = None
        self.ignore: Optional[bool] = None


Loader = Callable[[str, LoaderContext], Optional[Given]]


class Remapped:
    """What `remapping` gives: as a text it is JSON. `mappings` are a text, or lines of segments where that was asked."""

    version = 3

    def __init__(self, text: bytes, exclude_content: bool, decoded_mappings: bool) -> None:
        of = json.loads(text)
        self.file: Optional[str] = of.get("file")
        self.names: List[str] = of["names"]
        self.sources: List[Optional[str]] = of["sources"]
        contents = None if exclude_content else of.get("sourcesContent", [None] * len(self.sources))
        self.sources_content: Optional[List[Optional[str]]] = contents
        self.ignore_list: Optional[List[int]] = of.get("ignoreList")
        self.mappings: Union[str, List[List[List[int]]]] = _lines_in(text) if decoded_mappings else of["mappings"]

    def __str__(self) -> str:
        members: Dict[str, Any] = {"version": 3, "file": self.file, "mappings": self.mappings, "names": self.names, "sources": self.sources,
                                   "sourcesContent": self.sources_content, "ignoreList": self.ignore_list}
        return json.dumps({key: value for key, value in members.items() if value is not None}, ensure_ascii=False, separators=(",", ":"))


class _Traced:
    """A map with what its sources lead to: by their numbers the maps of sources, and what the loader says of others."""

    def __init__(self, given: Given, url: str = "") -> None:
        self.source_map = _read_at(given, url)
        self.inners: Dict[int, SourceMap] = {}
        self.others: Dict[int, LoaderContext] = {}

    def text(self, prune: bool, no_content: bool) -> bytes:
        """The text of the one map that they come to."""
        if self.inners or self.others:
            self.source_map = _read(self._with_sources())
        with closing(_smap.Inners(self.source_map)) as places:
            for number, inner in self.inners.items():
                if not places.put(number, inner):
                    raise refused_as(_smap.C1)
            text = places.composed(self.source_map, prune, no_content, False, b"")
        if isinstance(text, int):
            raise refused_as(text)
        return text

    def whole(self) -> SourceMap:
        """That map."""
        return _read(self.text(False, False)) if self.inners or self.others else self.source_map

    # The text of the map with what the loader says of its sources. One that has a map has no name, so that the names stay which that leads to.
    def _with_sources(self) -> bytes:
        of = json.loads(self.source_map.write())
        sources, ignored = of["sources"], set(of.get("ignoreList", []))
        contents = of.setdefault("sourcesContent", [None] * len(sources))
        for number in self.inners:
            sources[number] = None
        for number, context in self.others.items():
            sources[number] = context.source
            contents[number] = contents[number] if context.content is None else context.content
            if context.ignore is not None:
                (ignored.add if context.ignore else ignored.discard)(number)
        return json.dumps({**of, "ignoreList": sorted(ignored)}).encode()


def remapping(source_map: Union[Given, Sequence[Given]], loader: Loader, *, exclude_content: bool = False,
              decoded_mappings: bool = False) -> Remapped:
    """A map, or the first of a list, of which each is of the only source of the one before it, and the last is followed: `loader` is asked
    for the map of each of its sources, by its name and a `LoaderContext`, and so on for the sources of that; it gives None for an
    original. Sources and names that no mapping has are left out. Raises `Refused`, or what the loader raises."""
    if not callable(loader):
        raise TypeError(f"loader is a function, not {type(loader).__name__}")
    maps = list(source_map) if isinstance(source_map, (list, tuple)) else [source_map]
    if not maps:
        raise ValueError("a map is wanted, or a list of one or more")
    steps = [_step_of(given, number) for number, given in enumerate(maps[:-1])]
    last = _follow(_Traced(maps[-1]), loader, "", 1)
    for step in reversed(steps):
        if step.source_map.counts.sources:
            step.inners[0] = last.whole()
        last = step
    return Remapped(last.text(True, bool(exclude_content)), bool(exclude_content), bool(decoded_mappings))


# Asks for the map of each source, and then for those of the sources of that, before the next one.
def _follow(traced: _Traced, loader: Loader, importer: str, depth: int) -> _Traced:
    for number in range(traced.source_map.counts.sources):
        name = traced.source_map.source_name(number) or ""
        context = LoaderContext(importer, depth, name)
        given = loader(name, context)
        left = _given.text(context.source, "source")
        if context.content is not None:
            _given.text(context.content, "content")
        if given is not None:
            traced.inners[number] = _follow(_Traced(given, left), loader, left, depth + 1).whole()
        elif left != name or context.content is not None or context.ignore is not None:
            traced.others[number] = context
    return traced


# A map of the last step before others, which are of its only source, each of the one before it.
def _step_of(given: Given, number: int) -> _Traced:
    traced = _Traced(given)
    if traced.source_map.counts.sources > 1:
        raise ValueError(f"map {number} of the list has more than one source: the map of the last step comes first")
    return traced


# A map that was made here, whose names were within a bound already.
def _read(text: bytes) -> SourceMap:
    return SourceMap(text, max_names=_given.MOST_BYTES)


# The map that is given, at a URL or a path, or at none.
def _read_at(given: Given, url: str) -> SourceMap:
    if isinstance(given, SourceMap):
        return _read(given.write())
    try:
        return SourceMap(given, url or None)
    except Refused as refused:
        if refused.code != "usage" or _HOST.match(url):
            raise
    source_map = SourceMap(given)
    refusal = source_map._stand_at(url.encode(errors="surrogatepass"), _given.NAME_BYTES)
    if refusal is not None:
        raise refused_map(_given.file_bytes(given, "a map"), refusal, url, "")
    return source_map


# The mappings of a map's text as lines of segments.
def _lines_in(text: bytes) -> List[List[List[int]]]:
    lines: List[List[List[int]]] = []
    for mapping in SourceMap(text, max_names=_given.MOST_BYTES).mappings():
        if mapping.generated_line >= max(_MOST_LINES, _MOST_LINES_OF_BYTE * len(text)):
            raise ValueError(f"the mappings have more than {mapping.generated_line} lines")
        while len(lines) <= mapping.generated_line:
            lines.append([])
        numbers = (mapping.generated_column, mapping.source, mapping.line, mapping.column, mapping.name)
        lines[-1].append([number for number in numbers if number is not None])
    return lines
