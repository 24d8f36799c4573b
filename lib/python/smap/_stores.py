"""Maps by URL, within a bound of memory."""

import asyncio
import os
import time
import weakref
from typing import Dict, Optional, Tuple, Union, cast

from . import _given, _smap
from ._answers import Place
from ._loading import AsyncLoad, Flight, Given, Load, Loading, Seconds, Told, driven, until_over
from ._maps import Originals, SourceMap
from ._traces import Blocking

# A map file with more bytes is refused, and read no further.
_MOST_FILE = 67108864
# What has more bytes takes long to read.
_LARGE = 1 << 20
# Of so many URLs those that have their maps share what is made of one.
_MOST_SHARED = 1000


class _Kept(Loading):
    def __init__(self, load: Union[Load, AsyncLoad], *, max_bytes: int, refused: Told = None, paths: bool = False,
                 max_names: int = _given.NAME_BYTES, retry_after: Seconds = 30.0, none_for: Seconds = None) -> None:
        if not callable(load):
            raise TypeError(f"load is a function, not {type(load).__name__}")
        if _given.whole(max_bytes, "max_bytes") < 0:
            raise ValueError(f"max_bytes is {max_bytes}")
        super().__init__(load, min(max_bytes, _given.MOST_BYTES), refused, paths, max_names, retry_after, none_for)
        self._max_bytes = max_bytes
        # Until when the file of a URL is taken to be what it was, and the stamp that it had when it was read.
        self._seen: Dict[str, Tuple[int, object]] = {}
        # What those share that were handed out of what is kept, and where it has its index already.
        self._shared: Dict[str, Originals] = {}
        self._indexed: Dict[str, Originals] = {}
        # The debug ids of those that have one.
        self._ids: Dict[str, str] = {}

    @property
    def max_bytes(self) -> int:
        """For how many bytes maps count at most."""
        return self._max_bytes

    @property
    def nbytes(self) -> int:
        """For how many bytes of memory what is kept counts."""
        return self._counted()[1]

    def __len__(self) -> int:
        return self._counted()[0]

    def __contains__(self, url: object) -> bool:
        """Whether it is known what map this URL has, or that it has none."""
        return isinstance(url, str) and self._knows(url)

    def __repr__(self) -> str:
        return f"<{type(self).__name__} maps={len(self)} nbytes={self.nbytes} max_bytes={self.max_bytes}>"

    def add(self, url: str, given: Given, generated: Optional[_given.FileData] = None) -> None:
        """Puts a map under this very URL, in place of what is kept of it. With its generated file, which is given as a map is, functions
        of frames get the names of their sources, and the map counts for what that declares. Raises `Refused`. A pattern is no URL
        here."""
        with_file = given if generated is None or isinstance(given, tuple) else (given, generated)
        source_map = self._read(_given.whole_url(url, "a URL"), with_file)
        with self._changing:
            self._outdate(url)
            self._seen.pop(url, None)
            self._learned(url, source_map, None)

    def discard(self, url: str) -> None:
        """Drops what is kept of a URL, so that its map is asked for anew."""
        with self._changing:
            key = self._key(url)
            self._outdate(key)
            self._failures.pop(key, None)
            self._forget(key)
            self._part(key)

    # The map of a URL, or the URL that is wanted. Nothing is put meanwhile, so what it shares is of this very map.
    def _got(self, url: str) -> Union[SourceMap, str, None]:
        with self._changing:
            found = self._map(SourceMap, url)
            if isinstance(found, SourceMap):
                key, this = self._key(url), weakref.ref(self)
                originals = self._shared.pop(key, None) or Originals(lambda made: _index_made(this(), key, made))
                found._originals = self._shared[key] = originals
                found._debug_id = self._ids.get(key)
                if len(self._shared) > _MOST_SHARED:
                    del self._shared[next(iter(self._shared))]
            return found

    def _learned(self, key: str, found: Optional[SourceMap], error: Optional[Exception]) -> bool:
        has_new = super()._learned(key, found, error)
        if found is not None and found.debug_id is not None:
            self._ids[key] = found.debug_id
        elif found is not None:
            self._ids.pop(key, None)
        if len(self._ids) > 2 * len(self) + _MOST_SHARED:
            self._ids = {key: id for key, id in self._ids.items() if self._knows(key)}
        return has_new

    # What is handed out under a URL from now on shares nothing with what was. An index goes where its map was dropped, too.
    def _part(self, *keys: str) -> None:
        if self._shared or self._indexed:
            for key in (*keys, *[key for key in self._indexed if not self._knows(key)]):
                self._shared.pop(key, None)
                self._indexed.pop(key, None)


# As in `Blocking`; the other class has one of its own.
_Kept.__init__.__qualname__ = "Maps.__init__"


class Maps(Blocking, _Kept):
    """Maps by URL. `load` is asked for the map of a URL when it is first wanted, and gives it, or None where there is none, as for
    a `Rewriter`, as are `paths`, `max_names`, `retry_after` and `none_for`. Threads that want the same map wait for one load, and for
    that alone. Maps are kept while they count for at most `max_bytes` bytes of memory, or one by itself: what was longest not asked
    for goes first. What `load` raises, and why a map is refused, is told to `refused`, or else kept in `refusals`, of which there are
    100 at most. Where `load` or `refused` calls `rewrite` of the same maps, that raises `RuntimeError`."""

    @classmethod
    def folder(cls, prefix: str, root: Union[str, "os.PathLike[str]"], *, max_bytes: int, refused: Told = None, paths: bool = False,
               max_names: int = _given.NAME_BYTES, retry_after: Seconds = 30.0, none_for: Seconds = None,
               fresh_for: Seconds = None) -> "Maps":
        """The maps of the URLs that begin with this prefix, which ends in `/`, in a folder, as the program has them of `PREFIX=FOLDER/`:
        that of PREFIXjs/app.js is js/app.js.map. No URL leads out of the folder. A file that is not there is no map; that the folder is
        not there is told once. With `fresh_for` a file is looked at again when its map is wanted so many seconds later, and read anew
        where it changed; where that is refused, the map stays as it was."""
        if not _given.whole_url(prefix, "prefix").endswith("/"):
            raise ValueError("a prefix ends in /")
        seen: Dict[str, Tuple[int, object]] = {}
        root_path, wait = os.fspath(root), _given.seconds(fresh_for, "fresh_for")
        is_told = False

        def load(url: str) -> Optional[Given]:
            nonlocal is_told
            path = _smap.folder_path(prefix, url)
            if path is None:
                return None
            try:
                with open(os.path.join(root_path, path), "rb") as file:
                    seen[url] = until_over(wait), _stamp(os.fstat(file.fileno()))
                    return file.read(_MOST_FILE + 1)
            except (FileNotFoundError, NotADirectoryError):
                seen.pop(url, None)
                if not is_told:
                    # It stays so where there is no folder: then this raises.
                    is_told = True
                    os.stat(os.path.join(root_path or os.curdir, ""))
                    is_told = False
                return None

        def is_fresh(url: str) -> bool:
            until, stamp = seen.get(url, (0, None))
            if stamp is None or time.monotonic_ns() < until:
                return True
            seen[url] = until_over(wait), stamp
            try:
                return stamp == _stamp(os.stat(os.path.join(root_path, cast(str, _smap.folder_path(prefix, url)))))
            except OSError:
                return False

        maps = cls(load, max_bytes=max_bytes, refused=refused, paths=paths, max_names=max_names, retry_after=retry_after, none_for=none_for)
        if wait is not None:
            maps._is_fresh, maps._seen = is_fresh, seen
        return maps

    def get(self, url: str) -> Optional[SourceMap]:
        """The map of a URL or, where none was added under it, of that without its query and its fragment; or None. It stays open where it
        is dropped here."""
        found = self._got(url) if self._is_fresh is None else ""
        return driven(self._found(url, lambda: self._got(url))) if isinstance(found, str) else found


class _AsyncFlight(Flight):
    def __init__(self, owner: Loading) -> None:
        super().__init__(owner)
        self._event = asyncio.Event()

    def land(self) -> None:
        self._event.set()

    async def landed(self) -> None:
        await self._event.wait()


class AsyncMaps(_Kept):
    """`Maps` for the tasks of one event loop of asyncio: `aload` is awaited, and so are `get`, `look_up` and `rewrite`."""

    _flight, _awaits = _AsyncFlight, True

    def __init__(self, aload: AsyncLoad, *, max_bytes: int, refused: Told = None, paths: bool = False,
                 max_names: int = _given.NAME_BYTES, retry_after: Seconds = 30.0, none_for: Seconds = None) -> None:
        super().__init__(aload, max_bytes=max_bytes, refused=refused, paths=paths, max_names=max_names, retry_after=retry_after, none_for=none_for)

    # A large map, one of a file, and one with its generated file is read by another thread.
    async def _made(self, url: str, given: Given) -> SourceMap:
        if isinstance(given, SourceMap) or (not isinstance(given, (os.PathLike, tuple)) and len(given) <= _LARGE):
            return self._read(url, given)
        return await asyncio.get_running_loop().run_in_executor(None, self._read, url, given)

    async def _rest(self) -> None:
        await asyncio.sleep(0)

    async def get(self, url: str) -> Optional[SourceMap]:
        """As that of `Maps`."""
        return await self._found(url, lambda: self._got(url))

    async def look_up(self, url: str, line: int, column: int) -> Optional[Place]:
        """As that of `Maps`."""
        return await self._found(url, lambda: self._look_up(url, line, column))

    async def rewrite(self, trace: _given.Trace, hide_ignored: bool = False, anywhere: bool = False, strip_ansi: bool = False, *,
                      max_output: int = _given.OUTPUT_BYTES) -> bytes:
        """As that of `Maps`."""
        return await self._rewritten(trace, hide_ignored, anywhere, strip_ansi, max_output)


# An index was made, for which what is kept counts from now on.
def _index_made(maps: Optional[_Kept], key: str, originals: Originals) -> None:
    if maps is None or originals.source_map is None:
        return
    with maps._changing:
        if maps._shared.get(key) is originals and maps._knows(key):
            maps._indexed[key] = originals
            maps._put(key, originals.source_map, False)
            maps._part()


# By what a file is known to be the same.
def _stamp(status: os.stat_result) -> Tuple[int, int, int]:
    return status.st_ino, status.st_size, status.st_mtime_ns
