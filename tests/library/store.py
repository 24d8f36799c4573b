"""Maps by URL and their loaders in Python: store.py [RUNS]. First each thing that caches around the library had wrong; then RUNS random
runs of ten steps, 100,000 if it is not given, beside the model of the store, tests/vectors/store.py, with loaders that fail, are slow, are replaced
and are late; and loaders of threads and of tasks, of which each answer has to be one that was right during the call."""

import asyncio
import gc
import json
import random
import sys
import tempfile
import threading
import time
import weakref
from pathlib import Path

# The clock of random runs stands, and goes on where the run says so.
real_clock, moved = time.monotonic_ns, 0
time.monotonic_ns = lambda: real_clock() if moved == 0 else moved

import smap
from smap import Maps, Refused, Rewriter, SourceMap, frame_urls

sys.path.insert(0, str(Path(__file__).resolve().parents[1] / "vectors"))
import store as model

A, B, C = (f"https://e.test/{name}.js" for name in "abc")
SECOND = 10**9
reported = 0


def same(got, wanted, what=""):
    global reported
    assert got == wanted, f"{what}: {got!r:.300} in place of {wanted!r:.300}"
    reported += 1


def text_of(name, more=""):
    return json.dumps({"version": 3, "sources": [f"https://e.test/{name}"], "names": ["n"], "mappings": "AAAAA" + more})


def source_of(place):
    return place and place.source[15:]


def frame(url):
    return f"f@{url}:1:1\n"


def rewritten(maps, *urls):
    return maps.rewrite("".join(map(frame, urls))).decode().replace("f@https://e.test/", "").replace(":1:1", "").split()


# ---- what was wrong

# What a task asks for before it came is waited for, and is not remembered as none.
def late():
    async def run():
        came = asyncio.Event()

        async def aload(url):
            await came.wait()
            return text_of("a.ts")

        maps = smap.AsyncMaps(aload, max_bytes=1 << 20)
        asked = [asyncio.ensure_future(maps.look_up(A, 0, 0)), asyncio.ensure_future(maps.rewrite(frame(A)))]
        await asyncio.sleep(0.01)
        same((A in maps, len(maps)), (False, 0), "nothing is known")
        came.set()
        place, trace = await asyncio.gather(*asked)
        same((source_of(place), trace), ("a.ts", b"f@https://e.test/a.ts:1:1\n"), "what is late")

    asyncio.run(run())


# What is given at once, where it is to be awaited, is told; and None is no map.
def at_once():
    async def run():
        given = {A: text_of("a.ts"), B: SourceMap(text_of("b.ts")), C: None}
        maps = smap.AsyncMaps(given.get, max_bytes=1 << 20)
        trace = "".join(map(frame, given))
        same(await maps.rewrite(trace), trace.encode(), "what is not awaited")
        told = [(url, type(error), str(error)) for url, error in maps.refusals]
        text = "the loader of AsyncMaps gives an awaitable, not"
        same(told, [(A, TypeError, f"{text} str"), (B, TypeError, f"{text} SourceMap")], "what is told")
        # A future is awaited as a coroutine is.
        maps = smap.AsyncMaps(lambda url: asyncio.ensure_future(asyncio.sleep(0, given[url])), max_bytes=1 << 20)
        same((source_of(await maps.look_up(A, 0, 0)), await maps.get(C), maps.refusals), ("a.ts", None, []), "a future")

    asyncio.run(run())


# A map that is added answers look-ups and rewriting from then on, whatever its URL had before.
def uploads():
    for more in ("", "?v=1"):
        for before in (None, "old.ts"):
            maps = Maps(lambda url: before and text_of(before), max_bytes=1 << 20)
            named, known = A + more, before or "a.js" + more
            same((rewritten(maps, named), source_of(maps.look_up(named, 0, 0))), ([known], before), "before")
            for name in ("one.ts", "two.ts"):
                maps.add(named, text_of(name))
                same((rewritten(maps, named), source_of(maps.look_up(named, 0, 0))), ([name], name), f"{name} after {before}")
            maps.discard(named)
            same((rewritten(maps, named), source_of(maps.look_up(named, 0, 0))), ([known], before), "after all")
    # One that comes while its URL is loaded is newer than what is loaded; and what is discarded meanwhile is loaded again.
    asked = []

    def load(url):
        asked.append(url)
        if len(asked) == 1:
            deed()
        return text_of(f"{len(asked)}.ts")

    maps = Maps(load, max_bytes=1 << 20)
    deed = lambda: maps.add(A, text_of("new.ts"))
    same((source_of(maps.look_up(A, 0, 0)), rewritten(maps, A), asked), ("new.ts", ["new.ts"], [A]), "added within the load")
    asked.clear()
    maps = Maps(load, max_bytes=1 << 20)
    deed = lambda: maps.discard(A)
    same((source_of(maps.look_up(A, 0, 0)), rewritten(maps, A), asked), ("2.ts", ["2.ts"], [A, A]), "discarded within the load")


# What frame_urls says, as a dict for a Rewriter: frames with a query have their map, and what is missing or refused fails nothing.
def recipes():
    urls = [f"{A}?v=1", f"{B}#x", f"{C}?y"]
    trace, told = "".join(map(frame, urls)), []
    found = {A: text_of("a.ts"), B: None, C: "{}"}
    same(frame_urls(trace), [A, B, C], "what is asked for")
    wanted = trace.replace(urls[0], "https://e.test/a.ts").encode()
    with Rewriter({url: found[url] for url in frame_urls(trace)}, refused=lambda *both: told.append(both)) as rewriter:
        same(rewriter.rewrite(trace), wanted, "a dict")
    same([(url, type(error)) for url, error in told], [(C, Refused)], "what is told")
    for maps in (Maps(found.get, max_bytes=1 << 20), Rewriter({}, load=found.get)):
        same(maps.rewrite(trace), wanted, f"{maps}")
        same([(url, type(error)) for url, error in maps.refusals], [(C, Refused)], "what is kept of it")

    async def run():
        async def aload(url):
            await asyncio.sleep(0)
            return found[url]

        maps = smap.AsyncMaps(aload, max_bytes=1 << 20)
        same((await maps.rewrite(trace), [url for url, _ in maps.refusals]), (wanted, [C]), "tasks")

    asyncio.run(run())


# What failed is asked for again after its time, which is doubled while it fails; what is missing where it is said so; and to discard
# one map asks for no other.
def failures():
    asked, found = [], {}
    pass_by(0)

    def load(url):
        asked.append(url)
        if url not in found:
            raise OSError("not now")
        return found[url]

    for more, rests in (({}, (30, 60, 120, 240, 480, 600, 600)), ({"retry_after": 1000}, (1000, 1000))):
        maps = Maps(load, max_bytes=1 << 20, **more)
        asked.clear()
        for count, rest in enumerate(rests, 1):
            for part in (rest - 1, 1):
                same((maps.look_up(A, 0, 0), rewritten(maps, A), len(asked)), (None, ["a.js"], count), f"not for {rest} seconds")
                pass_by(part)
        found[A] = text_of("a.ts")
        same((source_of(maps.look_up(A, 0, 0)), rewritten(maps, A)), ("a.ts", ["a.ts"]), "what is there in the end")
        same([type(error) for _, error in maps.refusals], [OSError] * len(rests), "what is told")
        maps.discard(found and A)
        found.clear()
        same((maps.look_up(A, 0, 0), pass_by(30 if not more else 1000), maps.look_up(A, 0, 0), len(asked)),
             (None, None, None, len(rests) + 3), "the first failure in a row")
    missing = Maps(lambda url: asked.append(url), max_bytes=1 << 20, none_for=2)
    asked.clear()
    for count, rest in ((1, 1), (1, 1), (2, 0)):
        same((missing.look_up(A, 0, 0), len(asked)), (None, count), "what is missing")
        pass_by(rest)
    never = Maps(lambda url: asked.append(url), max_bytes=1 << 20)
    same((never.look_up(A, 0, 0), pass_by(10**8), never.look_up(A, 0, 0), len(asked)), (None, None, None, 3), "what is missing for ever")
    found.update({url: text_of("x.ts") for url in (A, B, C)})
    maps = Maps(load, max_bytes=1 << 20)
    for more in ([A, B, C], [A]):
        asked.clear()
        rewritten(maps, A, B, C)
        same(asked, more, "what is asked for after discard")
        maps.discard(A)
    for bad in (-1, 2**40, float("nan")):
        for what in ("retry_after", "none_for"):
            raises(ValueError, lambda: Maps(load, max_bytes=1, **{what: bad}), what)
            raises(ValueError, lambda: Rewriter({}, load, **{what: bad}), what)
    raises(TypeError, lambda: Maps(load, max_bytes=1, retry_after="1"), "retry_after")
    pass_by(None)


# From the first time on the clock stands, until it is let go.
def pass_by(seconds):
    global moved
    moved = 0 if seconds is None else (moved or real_clock()) + round(seconds * SECOND)


def raises(error, call, text):
    try:
        got = call()
    except error as raised:
        return same(text in str(raised), True, str(raised))
    raise AssertionError(f"{got!r} in place of {error.__name__}")


# A text is passed over once, and each map read once, however small the bound is.
def passes(most_seconds):
    lines = "".join(map(frame, [A, B] * 8000))
    given = {A: SourceMap(text_of("a.ts")), B: SourceMap(text_of("b.ts"))}
    for bound, count in ((0, 16000), (1 << 20, 2)):
        asked = []
        maps = Maps(lambda url: (asked.append(url), given[url])[1], max_bytes=bound)
        begin = time.process_time()
        got = maps.rewrite(lines)
        took = time.process_time() - begin
        same((got == lines.replace(".js", ".ts").encode(), len(asked)), (True, count), "two maps")
        same(took < most_seconds, True, f"16,000 lines in {took} s")
    many = "".join(map(frame, (f"https://e.test/{i}.js" for i in range(40000))))
    for what, call in (("frame_urls", lambda: len(frame_urls(many))), ("places", lambda: len(frame_urls(many, anywhere=True))),
                       ("rewrite", lambda: Maps(lambda url: None, max_bytes=1 << 20).rewrite(many).count(b"\n"))):
        begin = time.process_time()
        same(call(), 40000, what)
        took = time.process_time() - begin
        same(took < 2.5 * most_seconds, True, f"{what} of 40,000 URLs in {took} s")


# One load for all that want a map at a time, for which nobody waits who wants another; and nothing is closed that is somebody's.
def loads():
    asked, release = [], threading.Event()

    def load(url):
        asked.append(url)
        if url == A:
            release.wait(5)
        return text_of(f"{url[-4]}.ts")

    maps, got = Maps(load, max_bytes=1 << 20), []
    maps.look_up(B, 0, 0)
    waiting = [threading.Thread(target=lambda: got.append(rewritten(maps, A)), daemon=True) for _ in range(50)]
    for thread in waiting:
        thread.start()
    while A not in asked:
        time.sleep(0.001)
    begin = time.perf_counter()
    same((source_of(maps.look_up(B, 0, 0)), rewritten(maps, B), rewritten(maps, C)), ("b.ts", ["b.ts"], ["c.ts"]), "others")
    same(time.perf_counter() - begin < 1, True, "they wait for nothing")
    release.set()
    for thread in waiting:
        thread.join()
    same((got, asked.count(A)), ([["a.ts"]] * 50, 1), "fifty threads")
    same((len(maps), maps.nbytes > 300), (3, True), "what is kept after rewrite")

    # What was put under a URL with a query has a place of its own, for which the same URL is loaded, and not at the same time.
    asked.clear()
    apart, busy = Maps(lambda url: one_at_a_time(url), max_bytes=1 << 20), threading.Lock()

    def one_at_a_time(url):
        asked.append((url, busy.acquire(blocking=False)))
        time.sleep(0.05)
        busy.release()
        return text_of("a.ts")

    apart.add(f"{A}?1", text_of("own.ts"))
    apart.discard(f"{A}?1")
    both = [threading.Thread(target=lambda url=url: got.append(rewritten(apart, url)), daemon=True) for url in (A, f"{A}?1")]
    got.clear()
    for thread in both:
        thread.start()
    for thread in both:
        thread.join(5)
    same((got, asked), ([["a.ts"]] * 2, [(A, True)] * 2), "one URL under two keys")

    async def run():
        asked.clear()

        async def aload(url):
            asked.append(url)
            await asyncio.sleep(0.01)
            return text_of("a.ts")

        maps = smap.AsyncMaps(aload, max_bytes=1 << 20)
        got = await asyncio.gather(*(maps.rewrite(frame(A)) for _ in range(50)), *(maps.get(A) for _ in range(50)))
        same((set(got[:50]), asked), ({b"f@https://e.test/a.ts:1:1\n"}, [A]), "fifty tasks")
        same([made.source_name(0) for made in got[50:]], ["https://e.test/a.ts"] * 50, "the same map")

    asyncio.run(run())
    mine = SourceMap(text_of("a.ts"))
    maps = Maps({A: mine}.get, max_bytes=0)
    given = maps.get(A)
    maps.add(B, text_of("b.ts"))
    maps.add(C, mine)
    del maps
    gc.collect()
    same([(one.closed, source_of(one.place(0, 0))) for one in (mine, given)], [(False, "a.ts")] * 2, "what is dropped")
    Rewriter({A: mine, B: mine}).close()
    same(mine.closed, False, "what a rewriter had")
    large = SourceMap(text_of("a.ts", ",CAAC" * 10000))
    before = large.nbytes
    large.generated(0, 0)
    same(large.nbytes - before, 16 * 10001 + 24, "an index of originals")
    index(16 * 10001 + 24)


# All that are handed out of one map have one index of originals, for which it counts, and which goes where it is dropped or replaced.
def index(size):
    long = text_of("a.ts", ",CAAC" * 10000)
    maps = Maps(lambda url: long, max_bytes=SourceMap(long).nbytes + size + 2000)
    first, second = maps.get(A), maps.get(A)
    before, alone = maps.nbytes, first.nbytes
    found = first.generated(0, 0)
    same((maps.nbytes - before, [one.nbytes - alone for one in (first, second, maps.get(A))]), (size, [size] * 3), "what counts for it")
    first.close()
    same((second.generated(0, 0), maps.get(A).generated(0, 0)), (found, found), "the same index")
    try:
        first.generated(0, 0)
    except ValueError as error:
        same(str(error), "the map is closed", "one that is closed")
    kept = weakref.ref(second._originals.source_map)
    del first, second
    maps.add(A, text_of("b.ts", ";AACA"))
    same((kept(), len(maps.get(A).generated(0, 1)), maps.get(A).nbytes < alone), (None, 1, True), "another map")
    maps.add(A, long)
    maps.get(A).generated(0, 0)
    kept = weakref.ref(maps.get(A)._originals.source_map)
    same((kept() is None, maps.get(B) is None, kept(), len(maps)), (False, False, None, 1), "a map that is dropped")
    maps.get(B).generated(0, 0)
    maps.discard(B)
    gone = weakref.ref(maps)
    del maps
    same(gone(), None, "maps that nothing names")


# A large map is read beside the tasks, and a long text gives way to them.
def beside():
    large = text_of("a.ts", ",CAAC" * 4000000).encode()

    async def run():
        async def aload(url):
            return large

        async def tick():
            while True:
                times.append(time.perf_counter())
                await asyncio.sleep(0)

        times, maps = [], smap.AsyncMaps(aload, max_bytes=1 << 30)
        task = asyncio.ensure_future(tick())
        for what, call in (("reading", maps.get(A)), ("rewriting", maps.rewrite(frame(A) * 200000))):
            begin, count = time.perf_counter(), len(times)
            await call
            took = time.perf_counter() - begin
            gaps = [after - before for before, after in zip([begin] + times[count:], times[count:])]
            same(len(gaps) > 5 and max(gaps) < took / 2, True, f"{what} in {took} s: {len(gaps)} ticks")
        task.cancel()

    asyncio.run(run())


# A loader that asks for what waits for it is refused, in one thread and in two; it may ask for all else.
def circles():
    def load(url):
        if url == C:
            return text_of("c.ts")
        both.wait(1)
        maps.get({A: B, B: A}[url])
        return text_of("late.ts")

    for parties, urls in ((1, [A]), (2, [A, B])):
        both, got = threading.Barrier(parties), []
        maps = Maps(load, max_bytes=1 << 20)
        if parties == 1:
            both = threading.Event()
            both.set()
        several = [threading.Thread(target=lambda url=url: got.append(maps.get(url)), daemon=True) for url in urls]
        for thread in several:
            thread.start()
        for thread in several:
            thread.join(10)
        same([thread.is_alive() for thread in several], [False] * len(several), "nobody waits for ever")
        same([type(error) for _, error in maps.refusals], [RuntimeError], "what is told")

    async def run():
        async def aload(url):
            found = await asyncio.gather(maps.get(C), maps.get({A: B, B: A}[url])) if url != C else None
            return text_of("late.ts") if found is None or found[0] else None

        maps = smap.AsyncMaps(aload, max_bytes=1 << 20)
        await asyncio.wait_for(asyncio.gather(maps.get(A), maps.get(B)), 10)
        same([type(error) for _, error in maps.refusals], [RuntimeError], "tasks")

    asyncio.run(run())


# A task that is cancelled while it loads leaves the load to those that wait.
def cancelled():
    async def run():
        asked = []

        async def aload(url):
            asked.append(url)
            await asyncio.sleep(0.02)
            return text_of("a.ts")

        maps = smap.AsyncMaps(aload, max_bytes=1 << 20)
        first, *others = [asyncio.ensure_future(maps.look_up(A, 0, 0)) for _ in range(5)]
        await asyncio.sleep(0.01)
        first.cancel()
        others[0].cancel()
        got = await asyncio.gather(first, *others, return_exceptions=True)
        same([type(one) is asyncio.CancelledError for one in got], [True, True, False, False, False], "who is cancelled")
        same(([source_of(one) for one in got[2:]], asked), (["a.ts"] * 3, [A, A]), "who waits")

    asyncio.run(run())


# A file is looked at again after its time: one that changed is read anew, one that is refused changes nothing, and one that went is none.
def folders(folder):
    told = []
    maps = Maps.folder("https://e.test/", folder, max_bytes=1 << 20, none_for=2, retry_after=2, fresh_for=2,
                       refused=lambda *both: told.append(both))
    pass_by(0)
    path = folder / "a.js.map"

    def now(*wanted):
        pass_by(2)
        same((source_of(maps.look_up(f"{A}?v=1", 0, 0)), rewritten(maps, A)), wanted, "what a folder has")

    now(None, ["a.js"])
    path.write_text(text_of("one.ts"))
    now("one.ts", ["one.ts"])
    path.write_text(text_of("second.ts"))
    same(source_of(maps.look_up(A, 0, 0)), "one.ts", "what is still taken for fresh")
    now("second.ts", ["second.ts"])
    path.write_text("{")
    now("second.ts", ["second.ts"])
    now("second.ts", ["second.ts"])
    same([url for url, _ in told], [A], "the new one is refused")
    path.write_text(text_of("third.ts"))
    pass_by(2)
    same(rewritten(maps, f"{A}#x"), ["third.ts"], "rewriting first")
    path.write_text(text_of("colours.ts"))
    pass_by(2)
    coloured = f"f@https://e.test/\x1b[1ma.js:1:1"
    same(maps.rewrite(coloured, strip_ansi=True), b"f@https://e.test/colours.ts:1:1", "coloured first")
    path.unlink()
    now(None, ["a.js"])
    path.write_text(text_of("again.ts"))
    now("again.ts", ["again.ts"])
    maps.add(A, text_of("mine.ts"))
    path.write_text(text_of("other.ts"))
    now("mine.ts", ["mine.ts"])
    kept = Maps.folder("https://e.test/", folder, max_bytes=1 << 20)
    same(source_of(kept.look_up(A, 0, 0)), "other.ts", "without a time")
    path.write_text(text_of("newest.ts"))
    pass_by(10**8)
    same(source_of(kept.look_up(A, 0, 0)), "other.ts", "it stays")
    pass_by(None)


# ---- random runs, beside the model

URLS = [A, f"{A}?1", f"{A}?2", f"{A}#x", B, f"{B}?1#y", C, "https://e.test/d", "https://e.test/d?v=2"]
KINDS = ["map", "map", "map", "none", "fails", "refused"]
MAPS = [SourceMap(text_of(f"{number}.ts", ",CAAC" * (number % 5 * 7))) for number in range(12)]

class Run:
    """Maps and their model, over a loader that does as it is told."""

    def __init__(self, chance):
        most = chance.choice([0, 300, 700, 1500, 4000, 1 << 20])
        self.chance, self.asked, self.failures = chance, [], {}
        self.told = {model.cut(url.encode()).decode(): ("map", 0) for url in URLS}
        self.model, self.maps = model.Store(most), Maps(self.load, max_bytes=most, retry_after=3, none_for=2)

    def load(self, url):
        self.asked.append(url)
        kind, number = self.told[url]
        if kind == "fails":
            raise KeyError(url)
        return {"map": MAPS[number], "none": None, "refused": "{"}[kind]

    # What a URL has by the model, and for what that asks.
    def found(self, url, asked):
        kind, what = self.model.ask(url, moved)
        if kind == "wanted":
            key = self.model.key(url)
            asked.append(model.cut(key).decode())
            self.learn(key, *self.told[asked[-1]])
            kind, what = self.model.ask(url, moved)
        return what if kind == "value" else None

    def learn(self, key, kind, number):
        failures = self.failures.pop(key, 0)
        if kind == "map":
            self.model.put(key, "value", number, MAPS[number].nbytes)
        else:
            seconds = 2 if kind == "none" else min(3 * 2**failures, 600)
            self.model.put(key, "none", None, 0, moved + seconds * SECOND)
            if kind != "none":
                self.failures[key] = failures + 1

    def step(self):
        global moved
        chance, url, asked = self.chance, self.chance.choice(URLS), []
        key, deed = url.encode(), chance.randrange(12)
        self.asked.clear()
        self.told[chance.choice(list(self.told))] = chance.choice(KINDS), chance.randrange(len(MAPS))
        if deed < 3:
            number = self.found(key, asked)
            same(source_of(self.maps.look_up(url, 0, 0)), None if number is None else f"{number}.ts", url)
        elif deed < 5:
            number, got = self.found(key, asked), self.maps.get(url)
            same(got and got.source_name(0)[15:], None if number is None else f"{number}.ts", url)
        elif deed < 9:
            urls = [chance.choice(URLS) for _ in range(chance.randrange(9))]
            numbers = [self.found(one.encode(), asked) for one in urls]
            wanted = [frame(one) if number is None else frame(f"https://e.test/{number}.ts") for one, number in zip(urls, numbers)]
            same(self.maps.rewrite("".join(map(frame, urls))).decode(), "".join(wanted), f"{urls}")
        elif deed == 9:
            number = chance.randrange(len(MAPS))
            self.learn(key, "map", number)
            self.maps.add(url, MAPS[number])
        elif deed == 10:
            self.failures.pop(self.model.key(key), None)
            self.model.forget(self.model.key(key))
            self.maps.discard(url)
        else:
            moved += chance.choice([1, SECOND, 3 * SECOND, 20 * SECOND])
        same(self.asked, asked, f"what is asked for {url}")
        same(url in self.maps, self.model.peek(key, moved)[0] != "wanted", url)
        counted = self.model.counted("value") + self.model.counted("none")
        same((len(self.maps), self.maps.nbytes), (len(self.model.order["value"]), counted), "how much it is")


def runs(count):
    global moved
    chance, moved = random.Random(44), real_clock()
    for _ in range(count):
        run = Run(chance)
        for _ in range(10):
            run.step()
    moved = 0


# ---- loaders of threads and of tasks

class Shared:
    """Maps whose versions go on. An answer is right that is of a version which a URL had during the call, or none where a load may fail."""

    def __init__(self, chance, most, make):
        self.chance, self.versions, self.loading, self.wrong = chance, dict.fromkeys((A, B, C), 0), dict.fromkeys((A, B, C), 0), []
        self.maps = make(self, max_bytes=most, retry_after=0.001, none_for=0.001, refused=lambda *_: None)

    def begin(self, url):
        self.loading[url] += 1
        if self.loading[url] > 1:
            self.wrong.append(f"{url} is loaded twice at a time")
        return self.chance.choice([0, 0, 0, 0.0001, 0.002]), self.chance.random() < 0.1

    def end(self, url, fails):
        version = self.versions[url]
        self.loading[url] -= 1
        if fails:
            raise OSError(url)
        return text_of(f"{version}.ts")

    def load(self, url):
        slow, fails = self.begin(url)
        time.sleep(slow)
        return self.end(url, fails)

    async def aload(self, url):
        slow, fails = self.begin(url)
        try:
            await asyncio.sleep(slow)
        except BaseException:
            self.loading[url] -= 1
            raise
        return self.end(url, fails)

    # A new version: what is kept is discarded, or it is added. Each URL has one thread or task that does so.
    def renew(self, url):
        version = self.versions[url] + 1
        if self.chance.random() < 0.5:
            self.maps.add(url, text_of(f"{version}.ts"))
            self.versions[url] = version
        else:
            self.versions[url] = version
            self.maps.discard(url)

    def check(self, url, before, got):
        """`got` is the number of a version, or None."""
        if got is not None and not before <= got <= self.versions[url] + 1:
            self.wrong.append(f"version {got} of {url} between {before} and {self.versions[url]}")

    def numbers(self, urls, text):
        for url, line in zip(urls, text.decode().split()):
            yield url, None if line == frame(url).strip() else int(line[17:].partition(".")[0])


def threads(count):
    chance = random.Random(45)

    def work(shared, own, seed):
        draw = random.Random(seed)
        for _ in range(count):
            url, deed = draw.choice((A, B, C)), draw.randrange(8)
            before = dict(shared.versions)
            if deed == 0 and own:
                shared.renew(own)
            elif deed < 5:
                place = shared.maps.look_up(f"{url}?1", 0, 0)
                shared.check(url, before[url], place and int(source_of(place)[:-3]))
            else:
                urls = [draw.choice((A, B, C)) for _ in range(5)]
                for one, number in shared.numbers(urls, shared.maps.rewrite("".join(map(frame, urls)))):
                    shared.check(one, before[one], number)

    for most in (0, 600, 1 << 20):
        shared = Shared(chance, most, lambda shared, **how: Maps(shared.load, **how))
        several = [threading.Thread(target=work, args=(shared, own, seed)) for seed, own in enumerate((A, B, C, None, None, None))]
        for thread in several:
            thread.start()
        for thread in several:
            thread.join(120)
        same(([thread.is_alive() for thread in several], shared.wrong[:3]), ([False] * 6, []), f"threads with {most} bytes")
        same(set(shared.loading.values()), {0}, "loads")


def tasks(count):
    chance = random.Random(46)

    async def work(shared, own, seed):
        draw = random.Random(seed)
        for _ in range(count):
            url, deed = draw.choice((A, B, C)), draw.randrange(8)
            before = dict(shared.versions)
            if deed == 0 and own:
                shared.renew(own)
            elif deed == 1:
                task = asyncio.ensure_future(shared.maps.get(url))
                await asyncio.sleep(0.00005)
                task.cancel()
            elif deed < 5:
                place = await shared.maps.look_up(f"{url}?1", 0, 0)
                shared.check(url, before[url], place and int(source_of(place)[:-3]))
            else:
                urls = [draw.choice((A, B, C)) for _ in range(5)]
                for one, number in shared.numbers(urls, await shared.maps.rewrite("".join(map(frame, urls)))):
                    shared.check(one, before[one], number)

    async def run(most):
        shared = Shared(chance, most, lambda shared, **how: smap.AsyncMaps(shared.aload, **how))
        await asyncio.wait_for(asyncio.gather(*(work(shared, own, seed) for seed, own in enumerate((A, B, C, None, None, None)))), 120)
        await asyncio.sleep(0.05)
        same((shared.wrong[:3], set(shared.loading.values())), ([], {0}), f"tasks with {most} bytes")

    for most in (0, 600, 1 << 20):
        asyncio.run(run(most))


if __name__ == "__main__":
    uploads()
    recipes()
    failures()
    late()
    # Where other work takes most of the processors all takes longer, but not many times so.
    passes(1.0)
    loads()
    beside()
    circles()
    cancelled()
    with tempfile.TemporaryDirectory() as made:
        folders(Path(made))
    wanted = int(sys.argv[1]) if len(sys.argv) > 1 else 100000
    runs(wanted)
    threads(max(50, wanted // 100))
    tasks(max(50, wanted // 100))
    print("store", reported)
