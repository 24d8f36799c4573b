"""Maps that are closed while a call makes its answer, in Python: by code that the collector runs, and by another thread.

It is for an extension that tells where memory is used after it was freed, as tests/try-library builds it. From 3.12 on the collector
runs between instructions alone, and so closes nothing within a call."""

import gc
import json
import sys
import threading
import time
import weakref
from array import array

from smap import Answer, Context, Counts, Fit, Generated, Mapping, Place, Rewriter, Source, SourceMap, compose, compose_all

LINES = [f"line {number}" for number in range(60)]
CONTENT = "\n".join(LINES)
# Twelve mappings of line 0, columns 0 to 11: all from line 3 of the source, two by two from its columns 0 to 5, each with the name.
TEXT = json.dumps({"version": 3, "file": "f.js", "sources": ["a.ts"], "sourcesContent": [CONTENT], "names": ["n"],
                   "mappings": "AAGAA" + ",CAAAA" + ",CAACA,CAAAA" * 5})
PLACES = [Generated(0, column, column // 2) for column in range(12)]
CLOSED = ("the map is closed", "the rewriter is closed", "the inner maps are closed")
WRITTEN = {"version": 3, "file": "f.js", "sources": ["a.ts"], "sourcesContent": [CONTENT], "names": ["n"],
           "mappings": "AAGAA,CAAAA" + ",CAACA,CAAAA" * 5}
# A map of its source, with a mapping on line 3.
INNER = '{"version":3,"sources":["b.ts"],"names":[],"mappings":";;;AAAA"}'

reported = 0


def same(got, wanted, what):
    global reported
    assert got == wanted, f"{what}: {got!r:.300} in place of {wanted!r:.300}"
    reported += 1


# What is asked of a map, and the answer.
CALLS = {
    "context": (lambda made: made.context(0, 30, 9, 5), Context(LINES[21:30], LINES[30], LINES[31:36])),
    "generated": (lambda made: made.generated(0, 3), PLACES),
    "generated of a column": (lambda made: made.generated(0, 3, 2), PLACES[4:6]),
    "look_up": (lambda made: made.look_up(0, 5), Answer(5, 0, 3, 2, 0)),
    "look_up_from": (lambda made: made.look_up_from(line=0, column=5), Answer(5, 0, 3, 2, 0)),
    "look_up_many": (lambda made: list(made.look_up_many(array("I", [0, 5]))), [2, 5, 0, 3, 2, 1, 0]),
    "place": (lambda made: made.place(0, 5), Place("a.ts", 3, 2, "n", False, 0)),
    "source": (lambda made: made.source(0), Source("a.ts", CONTENT, False)),
    "texts": (lambda made: (made.source_name(0), made.source_content(index=0), made.name(0), made.file), ("a.ts", CONTENT, "n", "f.js")),
    "counts": (lambda made: made.counts, Counts(1, 1, 1, 12, 1, 1)),
    "mappings": (lambda made: list(made.mappings())[5], Mapping(0, 5, 0, 3, 2, 0)),
    "bytes_by_source": (lambda made: made.bytes_by_source("x" * 12), ([12], 0)),
    "fit": (lambda made: made.fit("," * 12)[:2], (True, 12)),
    "write": (lambda made: json.loads(made.write()), WRITTEN),
    "compose": (lambda made: json.loads(compose(made, 0, SourceMap(INNER)))["sources"], ["a.ts", "b.ts"]),
    "compose_all": (lambda made: json.loads(compose_all(made, load=lambda name: INNER if name == "a.ts" else None))["sources"], ["a.ts", "b.ts"]),
    "no source": (lambda made: raised(lambda: made.source(7)), "no source 7"),
}
# The same of a table.
TABLE_CALLS = {
    "rewriter.look_up": (lambda made: made.look_up("x.js", 0, 5), Place("a.ts", 3, 2, "n", False, 0)),
    "rewriter.rewrite": (lambda made: made.rewrite("f@x.js:1:6\nf@x.js:1:12"), b"f@a.ts:4:3\nf@a.ts:4:6"),
    "rewriter.rewrite anywhere": (lambda made: made.rewrite("x.js?v=1:1:6", anywhere=True), b"a.ts:4:3"),
}


def raised(call):
    try:
        return call()
    except IndexError as error:
        return str(error)


def map_of():
    made = SourceMap(TEXT)
    made.generated(0, 0)
    return made


def table_of():
    return Rewriter({"x.js": TEXT}, load=lambda url: None)


# What closes a map when the collector runs. Each gives what takes it away, and holds it until then.

def by_callback(made):
    def close(phase, info):
        made.close()

    gc.callbacks.append(close)
    return lambda: gc.callbacks.remove(close)


class Cycle:
    """What the collector alone frees."""

    def __init__(self, made):
        self.itself, self.made = self, made


class Closing(Cycle):
    """The same, which closes a map then."""

    def __del__(self):
        self.made.close()


def by_finalizer(made):
    Closing(made)
    return lambda: None


def by_weak_reference(made):
    kept = weakref.ref(Cycle(None), lambda _: made.close())
    return lambda: kept


WAYS = (by_callback, by_finalizer, by_weak_reference)


# Whether a map was closed while it answered, as it does when the collector runs at the allocation of this number.
def is_closed_within(what, call, wanted, make, way, allocation):
    made = make()
    # Lists that were freed are used again before new ones are made, at which the collector runs.
    lists = [[] for _ in range(100)]
    gc.collect(0)
    take_away = way(made)
    gc.set_threshold(allocation, 1, 1)
    gc.enable()
    try:
        got = call(made)
    except ValueError as error:
        got = wanted if str(error) in CLOSED else error
        made.close()
        return same(got, wanted, f"{what} {way.__name__} at {allocation}")
    finally:
        gc.disable()
        take_away()
    closed = made.closed
    del lists
    same(got, wanted, f"{what} {way.__name__} at {allocation}")
    made.close()
    return closed


def collector(last):
    for calls, make in ((CALLS, map_of), (TABLE_CALLS, table_of)):
        for what, (call, wanted) in calls.items():
            same(call(make()), wanted, what)
            for way in WAYS:
                within = [is_closed_within(what, call, wanted, make, way, allocation) for allocation in range(1, last)]
                if what in ("context", "generated", "place") and sys.version_info < (3, 12):
                    same(True in within, True, f"closed within {what} {way.__name__}")


# Two threads, one of which closes what the other asks. The collector lets them take turns within a call.
def threads(rounds):
    def rest(phase, info):
        time.sleep(0)

    sys.setswitchinterval(1e-6)
    gc.callbacks.append(rest)
    gc.set_threshold(1, 1, 1)
    gc.enable()
    for number in range(rounds):
        for calls, make in ((CALLS, map_of), (TABLE_CALLS, table_of)):
            made, ready = make(), threading.Event()

            def close():
                ready.wait()
                time.sleep(number % 5 / 10000)
                made.close()

            other = threading.Thread(target=close)
            other.start()
            ready.set()
            try:
                while True:
                    for what, (call, wanted) in calls.items():
                        same(call(made), wanted, what)
            except ValueError as error:
                same(str(error) in CLOSED, True, f"{error} in a thread")
            other.join()
    gc.disable()
    gc.callbacks.remove(rest)


if __name__ == "__main__":
    gc.disable()
    gc.freeze()
    collector(40)
    # All that lives is looked through.
    gc.unfreeze()
    collector(6)
    threads(40)
    print("closing", reported)
