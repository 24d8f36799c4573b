"""Stack traces, rewritten over maps."""

from collections.abc import Mapping as AnyMapping
from typing import List, Mapping, Optional

from . import _given, _smap
from ._answers import Place
from ._loading import Given, Load, Loading, Seconds, Told, driven
from ._reported import Refused


class Blocking(Loading):
    """What threads call."""

    def look_up(self, url: str, line: int, column: int) -> Optional[Place]:
        """Where a place in the file of a URL comes from, by the map under it, or else under it without query and fragment, or else of a
        pattern; or None where there is no such map, or that has no original. The loader is asked as for a frame."""
        place = self._look_up(url, line, column) if self._is_fresh is None else ""
        return driven(self._found(url, lambda: self._look_up(url, line, column))) if isinstance(place, str) else place

    def rewrite(self, trace: _given.Trace, hide_ignored: bool = False, anywhere: bool = False, strip_ansi: bool = False, *,
                max_output: int = _given.OUTPUT_BYTES) -> bytes:
        """The trace with each frame that has an original in its place; `counts` then has its lines, its frames, and how
        many were mapped and hidden. With `anywhere` each place URL:line:column is replaced, wherever it stands, and
        `counts` has lines, places and mapped. With `strip_ansi` the text is read without the control sequences that colour a
        terminal. Raises `Refused` where more than `max_output` bytes would come out; `counts` stay then."""
        return driven(self._rewritten(trace, hide_ignored, anywhere, strip_ansi, max_output))


# What Python says of wrong arguments names a call by this: the class is none that callers know.
for _call in (Blocking.look_up, Blocking.rewrite):
    _call.__qualname__ = _call.__name__


class Rewriter(Blocking):
    """Rewrites stack traces over maps, each under the URL that frames name. It is freed as a `SourceMap` is."""

    def __init__(self, maps: Mapping[str, Optional[Given]], load: Optional[Load] = None, refused: Told = None, paths: bool = False, *,
                 max_names: int = _given.NAME_BYTES, retry_after: Seconds = 30.0, none_for: Seconds = None) -> None:
        """Takes maps, or what a `SourceMap` reads, which stands at its URL where that is one; or None, where a URL has no map. A
        `SourceMap` that is given stays open. Where one is refused, that is told to `refused`, or, without that function, raised as
        `Refused`, whose `url` is that of the map. Raises `MemoryError`.

        `load` is asked for the map of each URL or path that is not among them, without query and fragment, when a frame or a
        place first names it: it gives the map, or None where there is none. What it raises, and why its map is refused, is told
        to `refused` with the URL, or else kept in `refusals`, of which there are 100 at most; the frames stay. Where it failed it
        is asked again `retry_after` seconds later, and after each failure in a row in twice the time, up to ten minutes; where
        there is none after `none_for` seconds. None is never. Where `load` or `refused` calls `rewrite` of the same rewriter,
        that raises `RuntimeError`.

        A URL that begins with `*` is a pattern: its map is that of each URL that ends with the text behind it, where a piece of
        the URL begins, with or without query and fragment, if no map is under the URL; of several the longest text decides. So `*app.js`
        serves all of that name, and `*.js` only what is called `.js`.

        With `paths` relative sources go on from the folder of a URL that is a path with a folder, as node prints them. Of each map the
        names of all sources together are made of at most `max_names` bytes."""
        if not isinstance(maps, AnyMapping):
            raise TypeError(f"maps are a dict of URLs and maps, not {type(maps).__name__}")
        super().__init__(load, _given.MOST_BYTES, refused, paths, max_names, retry_after, none_for)
        self._named = 0
        try:
            for url, given in maps.items():
                self._named += self._takes(_given.text(url, "a URL"), given)
        except BaseException:
            self.close()
            raise

    def _takes(self, url: str, given: Optional[Given]) -> bool:
        try:
            if given is not None:
                self._put(url, self._read(url, given), True)
            return given is not None
        except Refused as error:
            if self._refused is None:
                raise
            self._refused(url, error)
            return False

    def close(self) -> None:
        """Frees the maps."""
        self._close()

    @property
    def closed(self) -> bool:
        """Whether it is closed."""
        return self._closed

    def __repr__(self) -> str:
        return f"<Rewriter {'closed' if self.closed else f'maps={self._named + self._counted()[0]}'}>"

    def __enter__(self) -> "Rewriter":
        return self

    def __exit__(self, *_: object) -> None:
        self.close()


def frame_urls(trace: _given.Trace, anywhere: bool = False) -> List[str]:
    """The URLs and paths for whose maps a loader would be asked, without query and fragment: those of the frames or, with `anywhere`, of
    the places of a text, each once, in their order."""
    return _smap.frame_urls(_given.trace_bytes(trace), bool(anywhere))
