"""The loop over a store: it is asked, and where it does not know what map a URL has, that is loaded and put, and it goes on."""

import time
from contextlib import contextmanager, nullcontext
from contextvars import ContextVar
from inspect import isawaitable
from threading import Lock, RLock
from typing import Any, Awaitable, Callable, Coroutine, Dict, Iterable, Iterator, List, Optional, Tuple, TypeVar, Union, cast

from . import _given, _smap
from ._answers import TextRefusal
from ._maps import SourceMap
from ._reported import refused_text, refused_url

# What a loader gives, and what takes a map under a URL: a map, or with its generated file a pair of both.
_OneMap = Union[_given.FileData, SourceMap]
Given = Union[_OneMap, Tuple[_OneMap, _given.FileData]]
Load = Callable[[str], Optional[Given]]
AsyncLoad = Callable[[str], Awaitable[Optional[Given]]]
Told = Optional[Callable[[str, Exception], object]]
Seconds = Optional[float]
_Found = TypeVar("_Found")

# So many of the maps that were refused are remembered, and so many URLs whose maps failed.
_MOST_REFUSALS, _MOST_FAILURES = 100, 10000
# What fails again and again is asked for once in so many seconds.
_LONGEST = 600.0
# A text is rewritten in pieces of so many bytes, between which others have the store.
_PIECE = 1 << 18
# What is counted in it.
_OF_FRAMES, _OF_PLACES = ("lines", "frames", "mapped", "hidden"), ("lines", "places", "mapped")


class Flight:
    """A load that is under way, for which threads wait. It waits for others that its loader asks for."""

    def __init__(self, owner: "Loading") -> None:
        self.owner, self.holds, self.may_be_there, self._lock = owner, True, True, Lock()
        self.waits: List[Flight] = []
        self._lock.acquire()

    def land(self) -> None:
        self._lock.release()

    async def landed(self) -> None:
        with self._lock:
            pass

    def leads_to(self, others: "Tuple[Flight, ...]") -> bool:
        return self in others or any(flight.leads_to(others) for flight in self.waits)


# The loads within which this thread or task is, the innermost last. What waits for what is asked and changed behind the lock.
_within: "ContextVar[Tuple[Flight, ...]]" = ContextVar("_within", default=())
_tying, _UNTIED = RLock(), nullcontext()


@contextmanager
def _tied(flight: Flight, around: "Tuple[Flight, ...]") -> Iterator[None]:
    """What is within others waits for a flight. Raises where that waits for them."""
    with _tying:
        if flight.leads_to(around):
            raise RuntimeError("what a loader asks for waits for itself")
        around[-1].waits.append(flight)
    try:
        yield
    finally:
        with _tying:
            around[-1].waits.remove(flight)


def driven(steps: "Coroutine[Any, Any, _Found]") -> _Found:
    """What steps come to that wait for no event loop."""
    try:
        steps.send(None)
    except StopIteration as done:
        return cast(_Found, done.value)
    raise RuntimeError("what threads call awaits")


class Loading(_smap.Store):
    """Maps that are named, and a store of those that are loaded."""

    _flight, _awaits = Flight, False
    # Whether what is known of a URL holds still, where that may change.
    _is_fresh: Optional[Callable[[str], bool]] = None

    def __init__(self, load: Optional[Callable[[str], Any]], most: int, refused: Told, paths: bool, max_names: int,
                 retry_after: Seconds, none_for: Seconds) -> None:
        for what, call in (("load", load), ("refused", refused)):
            if call is not None and not callable(call):
                raise TypeError(f"{what} is a function, not {type(call).__name__}")
        self._most_names = _given.count(max_names, "max_names", _given.MOST_BYTES)
        self._retry_after, self._none_for = _given.seconds(retry_after, "retry_after"), _given.seconds(none_for, "none_for")
        self._load, self._refused, self._paths = load, refused, bool(paths)
        self._flights: Dict[str, Flight] = {}
        self._failures: Dict[str, int] = {}
        self._changing = RLock()
        self.refusals: List[Tuple[str, Exception]] = []
        self.counts: Dict[str, int] = {}
        self._bound(most)

    def _read(self, url: str, given: Given) -> SourceMap:
        one, generated = given if isinstance(given, tuple) else (given, None)
        source_map = SourceMap._under(url, one, self._paths, self._most_names)
        why = _smap.url_refusal(url, source_map)
        if why is not None:
            raise refused_url(why, url)
        if generated is None:
            return source_map
        if source_map is one:
            # What another has stays as it is.
            source_map, id = source_map._shared(), source_map.debug_id
            source_map._debug_id = id
        return source_map.with_generated(generated)

    async def _made(self, url: str, given: Given) -> SourceMap:
        return self._read(url, given)

    async def _rest(self) -> None:
        """Between the pieces of a text."""

    # What a call answers that gives a URL instead where the map of that is wanted.
    async def _found(self, url: str, call: "Callable[[], Union[_Found, str, None]]") -> Optional[_Found]:
        if self._is_fresh is not None:
            await self._renew([url])
        while isinstance(found := call(), str):
            if not await self._loaded(found):
                return None
        return found

    async def _rewritten(self, trace: _given.Trace, hide_ignored: bool, anywhere: bool, strip_ansi: bool, max_output: int) -> bytes:
        most, text = _given.count(max_output, "max_output", _given.MOST_BYTES), memoryview(_given.trace_bytes(trace))
        if hide_ignored and anywhere:
            raise ValueError("hide_ignored with anywhere")
        if any(flight.owner is self for flight in _within.get()):
            raise RuntimeError("rewrite is called from within load or refused of the same maps")
        if self._is_fresh is not None:
            await self._renew(_smap.frame_urls(_stripped(text) if strip_ansi else text, bool(anywhere)))
        text = text if text.ndim == 1 else text.cast("B")
        rewriting = _smap.Rewriting(bool(hide_ignored), bool(anywhere), bool(strip_ansi), self._load is not None, most)
        now, done = time.monotonic_ns(), cast(List[bytes], [])
        for begin in range(0, len(text) + 1, _PIECE):
            rewriting.give(text[begin:begin + _PIECE])
            if begin + _PIECE > len(text):
                rewriting.give(None)
            while isinstance(wanted := rewriting.run(self, now), str):
                await self._loaded(wanted)
            if isinstance(wanted, TextRefusal):
                raise ValueError("* with anywhere") if wanted.code == _smap.USAGE else refused_text(*wanted)
            done.append(rewriting.take())
            await self._rest()
        self.counts = dict(zip(_OF_PLACES if anywhere else _OF_FRAMES, rewriting.counts()))
        return b"".join(done)

    # Has the map loaded that is to be put under a URL, or waits for whom has. Gives whether there may be one then.
    async def _loaded(self, key: str) -> bool:
        if self._load is None:
            return False
        url, mine, around = _cut(key), self._flight(self), _within.get()
        flight = self._flights.setdefault(url, mine)
        with _tied(flight, around) if around else _UNTIED:
            await (self._fly(key, url, mine, False) if flight is mine else flight.landed())
        return flight.may_be_there

    # Has those maps loaded again that are not what they were.
    async def _renew(self, urls: Iterable[str]) -> None:
        for key in map(self._key, urls):
            url, mine = _cut(key), self._flight(self)
            if self._is_fresh is not None and not self._is_fresh(url) and self._flights.setdefault(url, mine) is mine:
                await self._fly(key, url, mine, True)

    # Asks the loader, outside of any lock: for what is known already only where it is to be loaded anew. What comes is put, if nothing
    # else was put or discarded under the URL meanwhile.
    async def _fly(self, key: str, url: str, mine: Flight, anew: bool) -> None:
        is_over, found = False, cast(Optional[SourceMap], None)
        error: Optional[Exception] = None
        token = _within.set((*_within.get(), mine))
        try:
            try:
                if self._load is not None and (anew or not self._knows(key)):
                    given = self._load(url)
                    if self._awaits and given is not None:
                        if not isawaitable(given):
                            raise TypeError(f"the loader of AsyncMaps gives an awaitable, not {type(given).__name__}")
                        given = await given
                    if given is not None:
                        found = await self._made(url, given) if self._awaits else self._read(url, given)
                    is_over = True
            except Exception as raised:
                error, is_over = raised, True
            finally:
                try:
                    with self._changing:
                        del self._flights[url]
                        mine.may_be_there = not is_over or not mine.holds or self._learned(key, found, error)
                finally:
                    mine.land()
            if error is not None:
                self._tell(url, error)
        finally:
            _within.reset(token)

    # What is loaded under a URL now does not hold any more.
    def _outdate(self, key: str) -> None:
        flight = self._flights.get(_cut(key))
        if flight is not None:
            flight.holds = False

    # Puts a map, or that there is none: for a time, which after each failure in a row is twice as long. Gives whether there is one:
    # where a new one failed, the old one stays.
    def _learned(self, key: str, found: Optional[SourceMap], error: Optional[Exception]) -> bool:
        failures, rest = self._failures.pop(key, 0), self._none_for
        if error is not None:
            if self._knows(key):
                return True
            if len(self._failures) >= _MOST_FAILURES:
                del self._failures[next(iter(self._failures))]
            self._failures[key], rest = failures + 1, self._retry_after
            rest = rest and max(rest, min(rest * 2.0 ** min(failures, 64), _LONGEST))
        if found is not None:
            self._put(key, found, False)
        else:
            self._put_none(key, error is not None, until_over(rest))
        self._part(key)
        return found is not None

    def _part(self, *keys: str) -> None:
        """What is known under these keys changed."""

    def _tell(self, url: str, error: Exception) -> None:
        if self._refused is not None:
            self._refused(url, error)
        elif len(self.refusals) < _MOST_REFUSALS:
            # Tracebacks would hold the text.
            held: Optional[BaseException] = error
            while held is not None:
                held.__traceback__, held = None, held.__context__
            self.refusals.append((url, error))


# A text without its control sequences.
def _stripped(text: _given.Held) -> bytes:
    bare, rewriting = _smap.Store(), _smap.Rewriting(False, False, True, False, _given.MOST_BYTES)
    bare._bound(0)
    rewriting.give(text)
    rewriting.give(None)
    rewriting.run(bare, 0)
    return rewriting.take()


def _cut(url: str) -> str:
    return url.partition("?")[0].partition("#")[0]


def until_over(seconds: Seconds) -> int:
    """When so many seconds are over, in nanoseconds; or 0, which is never."""
    return 0 if seconds is None else time.monotonic_ns() + max(1, int(seconds * 1e9))
