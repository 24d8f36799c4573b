"""Maps: read, looked up, written and composed."""

import errno
import os
from array import array
from pathlib import Path
from threading import Lock
from typing import Callable, Iterable, List, Optional, Tuple, Type, TypeVar, Union

from . import _given, _smap
from ._answers import Context, Fit, Generated, Mapping, Refusal, Source
from ._reported import Refused, refused_as, refused_base, refused_encoding, refused_map

# Of the answers of a look-up among many: seven numbers of 32 bits each.
_ANSWER_BYTES = 7 * 4

_Map = TypeVar("_Map", bound="SourceMap")
Base = Union[str, "os.PathLike[str]"]


class Originals:
    """The index of originals that all have which are handed out of one map of `Maps`: that of a map that is asked in their place."""

    source_map: "Optional[SourceMap]" = None
    _is_told = False

    def __init__(self, made: "Callable[[Originals], object]") -> None:
        self._made, self._lock = made, Lock()

    def generated(self, given: "SourceMap", source: int, line: int, column: Optional[int], after: bool) -> List[Generated]:
        """What a map that was handed out answers. It is told when the index is made."""
        with self._lock:
            self.source_map = self.source_map or given._shared()
        found = self.source_map._generated(source, line, column, after)
        if not self._is_told:
            self._is_told = True
            self._made(self)
        return found


class SourceMap(_smap.Map):
    """A source map that was read. It is freed by `close`, at the end of a `with`, or when nothing names it any more."""

    _originals: Optional[Originals] = None
    _debug_id: Optional[str] = None

    def __init__(self, data: _given.FileData, base: Optional[Base] = None, interval: int = 64, *,
                 max_names: int = _given.NAME_BYTES) -> None:
        """Reads a map file: its bytes, its text as a `str`, or the file at a `Path`. `base` is the URL at which it
        stands, or the `Path`, from whose folder relative sources go on. The index has a checkpoint at every `interval`-th
        segment of a line, 1 to 4096. The names of all sources together are made of at most `max_names` bytes. Raises `Refused`,
        `ValueError` for a number out of range, or `MemoryError`."""
        most_names = _given.count(max_names, "max_names", _given.MOST_BYTES)
        held, path, number = _given.file_bytes(data, "a map"), _given.file_name(base), _given.interval(interval)
        url = None if isinstance(base, os.PathLike) else base
        name, hint = _given.file_name(data) or path or url, _given.path_hint(data)
        self._take(held, url, number, most_names, name, url, hint)
        refusal = None if path is None else self._stand_at(path.encode(), most_names)
        if refusal is not None:
            self.close()
            raise refused_map(held, refusal, name, "")

    @classmethod
    def from_file(cls: Type[_Map], path: Union[str, "os.PathLike[str]"], base: Optional[Base] = None,
                  interval: int = 64, *, max_names: int = _given.NAME_BYTES) -> _Map:
        """The map of the file at a path, which may be a `str` here."""
        if path == "":
            raise FileNotFoundError(errno.ENOENT, os.strerror(errno.ENOENT), path)
        return cls(Path(path), base, interval, max_names=max_names)

    @classmethod
    def _under(cls, url: str, given: "Union[_given.FileData, SourceMap]", paths: bool = False,
               most_names: int = _given.NAME_BYTES) -> "SourceMap":
        # The map that is given, or that of these bytes, which stands at the URL, or at none where that is no URL. With `paths` one
        # whose URL is a path with a folder stands at none, and has its sources named by that.
        by_path = paths and _smap.is_path(url)
        if not isinstance(given, SourceMap):
            source_map, held = cls.__new__(cls), _given.file_bytes(given, "a map")
            source_map._take(held, None if by_path else url, 64, most_names, url, url, _given.path_hint(given), or_at_none=True)
        else:
            # Who gave the map has its names as they are. They were within a bound already.
            source_map = SourceMap(given.write(), max_names=_given.MOST_BYTES) if by_path else given
        if by_path:
            source_map._use_paths(url.encode(errors="surrogatepass"))
        return source_map

    # Reads a map, which stands at the base; or at none where that is no URL, if that may be.
    def _take(self, held: _given.Held, base: Optional[str], interval: int, most_names: int, name: Optional[str],
              url: Optional[str], hint: str = "", or_at_none: bool = False) -> None:
        base_bytes = b""
        if base is not None:
            try:
                base_bytes = _given.text(base, "base").encode()
            except UnicodeEncodeError:
                pass
            if not base_bytes and not or_at_none:
                raise refused_base(_smap.USAGE, base, url)
        read = self._read(held, base_bytes, interval, most_names)
        if isinstance(read, Refusal) and read.code == _smap.USAGE and or_at_none:
            read = self._read(held, b"", interval, most_names)
        if isinstance(read, Refusal):
            raise refused_map(held, read, name, base or "", url, hint)
        self._debug_id = read

    def __enter__(self: _Map) -> _Map:
        return self

    def __exit__(self, *_: object) -> None:
        self.close()

    def look_up_many(self, positions: "Union[array[int], memoryview]") -> "array[int]":
        """Looks many positions up. `positions` is an array('I'), or any buffer of unsigned 32-bit numbers: a line and a
        column each. The answers come as such an array, seven numbers each: the kind (0 nothing, 1 without an original, 2
        with one), the generated column, source, line, column, whether there is a name (1 or 0), and the name."""
        given, count = _given.positions(positions)
        found = array("I", bytes(_ANSWER_BYTES * count))
        self._look_up_many(given, memoryview(found))
        return found

    def __repr__(self) -> str:
        if self.closed:
            return "<SourceMap closed>"
        return f"<SourceMap file={self.file!r} sources={self.counts.sources} segments={self.counts.segments}>"

    def generated(self, source: int, line: int, column: Optional[int] = None, after: bool = False) -> List[Generated]:
        """The places of the generated file whose original stands on this line of this source: those at the greatest original
        column at or before `column`, or with `after` at the least at or after it, in the order of the file; and without a
        column all of the line, by original columns. The first call makes an index of 16 bytes a mapping. Raises `IndexError` where
        there is no such source."""
        if self._originals is None or self.closed:
            return self._generated(source, line, column, after)
        return self._originals.generated(self, source, line, column, after)

    @property
    def nbytes(self) -> int:
        """About how many bytes of memory the map takes, with its index of originals once that is made."""
        size, originals = super().nbytes, self._originals
        return size if originals is None or originals.source_map is None else originals.source_map.nbytes

    def context(self, source: int, line: int, before: int = 2, after: int = 2) -> Optional[Context]:
        """A line of this source with up to so many lines before and after it, at most 65,535 each, or None where its content has no
        such line. Of a line those characters are given that stand in its first 65,536 bytes. Raises `IndexError` where there is no
        such source."""
        given = self._lines(source, line, _given.count(before, "before"), _given.count(after, "after"))
        if given is None:
            return None
        lines, at = given
        return Context(lines[:at], lines[at], lines[at + 1:])

    @property
    def ignore_list(self) -> List[int]:
        """The numbers of the sources that a debugger should pass over."""
        return [index for index in range(self.counts.sources) if self.is_ignored(index)]

    @property
    def sources(self) -> List[Source]:
        """All sources."""
        return [self.source(index) for index in range(self.counts.sources)]

    @property
    def names(self) -> List[str]:
        """All names."""
        names = (self.name(index) for index in range(self.counts.names))
        return [name for name in names if name is not None]

    def bytes_by_source(self, generated: _given.FileData) -> Tuple[List[int], int]:
        """How many bytes of the generated file come from each source, in the order of the sources, and how many from none.
        The file is given as a map is: a `str` is its text, and never its path. Raises `Refused` where it is not UTF-8 or too large."""
        reported = self._bytes_by_source(_given.file_bytes(generated, "a generated file"))
        if isinstance(reported, int):
            raise refused_as(reported, name=_given.file_name(generated))
        return reported

    def fit(self, generated: _given.FileData) -> Fit:
        """Whether the map can be that of the generated file, which is given as a map is, a `str` being its text, and never its path: then
        no mapping stands past the text or inside a word of it. Raises `Refused` where the file is not UTF-8 or too large."""
        reported = self._fit(_given.file_bytes(generated, "a generated file"))
        if isinstance(reported, int):
            raise refused_as(reported, name=_given.file_name(generated))
        return Fit(*reported)

    def with_generated(self: _Map, generated: _given.FileData) -> _Map:
        """The map itself, which has read what its generated file declares, for `function_name`. The file is given as a map is. Raises
        `Refused` where it is not UTF-8 or too large, or the map can't be that of it, as `fit` says."""
        refusal = self._with_generated(_given.file_bytes(generated, "a generated file"))
        if refusal is not None:
            raise refused_as(refusal, name=_given.file_name(generated))
        return self

    def function_name(self, line: int, column: int, name: str) -> Optional[str]:
        """The name that a function has in its source, or None: it is called `name` in a frame at this generated position. A name is one
        word, which may stand behind `async ` and `new `. Raises `ValueError` where `with_generated` was given no file."""
        return self._function_name(line, column, _given.text(name, "name").encode(errors="surrogatepass"))

    @property
    def debug_id(self) -> Optional[str]:
        """The debug id, which the generated file names too: the text at `debugId`, or at `debug_id` where that is none; or None."""
        return self._debug_id

    # Whether a debug id is written, and which.
    def _id_if(self, kept: bool) -> Tuple[bool, bytes]:
        return (False, b"") if not kept or self._debug_id is None else (True, self._debug_id.encode())

    def write(self, *, debug_id: bool = False) -> bytes:
        """The map as the text of one regular map; with `debug_id` with its debug id, if it has one, as the last member."""
        text = self._written(*self._id_if(debug_id))
        if isinstance(text, int):
            raise refused_as(text)
        return text


def encode(mappings: Iterable[Mapping]) -> str:
    """The text that a map has of these mappings, which come by line and then by column. Raises `Refused` where one stands
    before the one in front of it, or has a number past 2,147,483,647, or the text would have more than 67,108,864 bytes."""
    numbers = array("I")
    for mapping in mappings:
        numbers.extend(_given.mapping(mapping))
    text = _smap.encode(memoryview(numbers))
    if isinstance(text, tuple):
        raise refused_encoding(*text)
    return text.decode()


def compose(outer: SourceMap, source: int, inner: SourceMap, *, debug_id: bool = False) -> bytes:
    """The text of the map that two maps come to, the inner one being of this source of the outer one, from 0. With `debug_id` it has
    that of the outer one, if there is one."""
    for given in (outer, inner):
        if not isinstance(given, SourceMap):
            raise TypeError(f"a SourceMap is composed, not {type(given).__name__}")
    number = _given.index(source, "source")
    text = _smap.compose(outer, number, inner._shared() if outer is inner else inner, *outer._id_if(debug_id))
    if isinstance(text, int):
        raise refused_as(text)
    return text
