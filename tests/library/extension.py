"""What the extension for Python does beside answering: lists of real maps, buffers, threads and memory.

    extension.py MAP.. MAP GENERATED      the last map is the one of the generated file
"""

import json
import sys
import threading
import time
import tracemalloc
from array import array
from pathlib import Path

from smap import Mapping, Refused, Rewriter, SourceMap, compose, compose_all

SMALL = b'{"version":3,"sources":["a.js"],"names":["n"],"mappings":"AAAA,UACIA;;K"}'
DIGITS = "ABCDEFGHIJKLMNOPQRSTUVWXYZabcdefghijklmnopqrstuvwxyz0123456789+/"

reported = 0


def same(got, wanted, what=""):
    global reported
    assert got == wanted, f"{what} {got!r:.300} in place of {wanted!r:.300}"
    reported += 1


# Readers of their own, of the mappings of a map without sections, and of the bytes of a text whose lines end with LF.

def numbers(segment):
    value = shift = 0
    for digit in map(DIGITS.index, segment):
        value, shift = value | (digit & 31) << shift, shift + 5
        if digit < 32:
            yield -(value >> 1) if value & 1 else value >> 1
            value = shift = 0


def decoded(text):
    source = line = column = name = 0
    for generated_line, segments in enumerate(json.loads(text)["mappings"].split(";")):
        generated_column = 0
        for segment in filter(None, segments.split(",")):
            given = list(numbers(segment))
            generated_column += given[0]
            if len(given) == 1:
                yield Mapping(generated_line, generated_column, None, None, None, None)
                continue
            source, line, column = source + given[1], line + given[2], column + given[3]
            name += given[4] if len(given) > 4 else 0
            yield Mapping(generated_line, generated_column, source, line, column, name if len(given) > 4 else None)


def counted(mappings, sources, text):
    counts, unmapped = [0] * sources, 0
    lines = text.split("\n")
    by_line = [[] for _ in lines]
    for mapping in mappings:
        by_line[mapping.generated_line].append(mapping)
    for line, found in zip(lines, by_line):
        # A unit is a whole character, or the second of a pair, which makes nothing.
        units = [unit for letter in line for unit in ([len(letter.encode())] + [0] * (letter > "\uffff"))]
        ends = [mapping.generated_column for mapping in found[1:]] + [len(units)]
        for mapping, end in zip(found, ends):
            if mapping.source is not None:
                counts[mapping.source] += sum(units[mapping.generated_column:end])
    return counts, len(text.encode()) - sum(counts)


def lists(paths, generated):
    for path in paths:
        with SourceMap.from_file(path) as source_map:
            wanted = list(decoded(Path(path).read_bytes()))
            same(list(source_map.mappings()), wanted, path)
            same(source_map.mappings().__length_hint__(), len(wanted), path)
            for mapping in wanted[::101]:
                if (mapping.generated_line, mapping.generated_column) != (0, 0):
                    answer = source_map.look_up(mapping.generated_line, mapping.generated_column)
                    same(answer.generated_column, mapping.generated_column, path)
    text = Path(generated).read_bytes()
    with SourceMap.from_file(paths[-1]) as source_map:
        wanted = counted(decoded(Path(paths[-1]).read_bytes()), source_map.counts.sources, text.decode())
        for given in (Path(generated), text, text.decode()):
            same(source_map.bytes_by_source(given), wanted)
        assert sum(wanted[0]) > 0 and wanted[1] > 0


# A map with so many mappings that reading it takes a while.
def large(segments):
    return b'{"version":3,"sources":["a.js"],"names":["n"],"mappings":"' + b"AAAA,CAAC;" * segments + b'"}'


# A trace that rewriting takes a while.
TRACE = b"    at f (a.js:1:1)\n"


def buffers():
    data = large(100000)
    for given in (bytearray(data), memoryview(data), array("B", data)):
        tracemalloc.start()
        SourceMap(given).close()
        peak = tracemalloc.get_traced_memory()[1]
        tracemalloc.stop()
        same(peak < len(data) // 10, True, f"{peak} bytes for {type(given).__name__}")
    # What is given is let go, and held while it is read.
    for data in (SMALL, b"no map"):
        given = bytearray(data)
        try:
            SourceMap(given).close()
        except Refused:
            pass
        given.append(10)
        same(len(given), len(data) + 1)
    positions = array("I", [0, 12])
    with SourceMap(SMALL) as small:
        small.look_up_many(positions)
    positions.append(1)
    trace = bytearray(b"f@a.js:1:11")
    with Rewriter({}, load=lambda url: trace.append(10)) as rewriter:
        rewriter.rewrite(trace)
        same([type(error) for _, error in rewriter.refusals], [BufferError])
    trace.append(10)
    same(len(trace), 12)


# How often this thread went on while another one made a call, and for which part of it this one stood still.
def steps_beside(call):
    times, steps = [], []

    def run():
        times.append(time.perf_counter())
        call()
        times.append(time.perf_counter())

    thread = threading.Thread(target=run)
    thread.start()
    while thread.is_alive():
        steps.append(time.perf_counter())
    thread.join()
    begin, end = times
    during = [begin, *(step for step in steps if begin < step < end), end]
    return len(during), max(after - before for before, after in zip(during, during[1:])) / (end - begin)


def threads():
    sys.setswitchinterval(1e-4)
    data, trace = large(300000), TRACE * 100000
    writable, writable_trace = bytearray(data), bytearray(trace)
    source_map, inner = SourceMap(data), SourceMap(data)
    positions = array("I", [5, 1]) * 1000000
    with Rewriter({"a.js": SMALL}) as rewriter:
        for what, call in {
            "reading": lambda: SourceMap(data), "reading a view": lambda: SourceMap(memoryview(data)),
            "writing": source_map.write, "composing": lambda: compose(source_map, 0, inner),
            "composing all": lambda: compose_all(source_map, {0: inner}), "rewriting": lambda: rewriter.rewrite(trace),
            "looking many up": lambda: source_map.look_up_many(positions), "listing": source_map.mappings,
            "counting bytes": lambda: source_map.bytes_by_source(b"\n" * 20000000),
            "fitting": lambda: source_map.fit(b"\n" * 20000000),
            # What another thread could change is copied.
            "reading what is written to": lambda: SourceMap(writable),
            "reading a view of it": lambda: SourceMap(memoryview(writable).toreadonly()),
            "rewriting what is written to": lambda: rewriter.rewrite(writable_trace),
            "rewriting a view of it": lambda: rewriter.rewrite(memoryview(writable_trace).toreadonly()),
        }.items():
            steps, still = steps_beside(call)
            same(steps > 50 and still < 0.9, True, f"{steps} steps beside {what}, and none for {still} of the time")
        # What is no map of more than a million bytes is read by one thread alone.
        text = bytearray(b"\n" * 20000000)
        for what, call in {"counting": lambda: source_map.bytes_by_source(text), "fitting": lambda: source_map.fit(text)}.items():
            still = max(steps_beside(call)[1] for _ in range(3))
            same(still > 0.5, True, f"no steps beside {what} for {still} of the time alone")
    # A call waits for the one before.
    written, answers = [], []
    first = threading.Thread(target=lambda: written.append(source_map.write()))
    first.start()
    answers.append(source_map.look_up(5, 1))
    while first.is_alive():
        answers.append(source_map.look_up(5, 1))
    first.join()
    same(set(answers), {source_map.look_up(5, 1)})
    # Whoever composes two maps takes them in one order, and one that is closed meanwhile is closed for all.
    one, other, made = SourceMap(SMALL), SourceMap(SMALL), []

    def work(outer, inner):
        try:
            while True:
                made.append(compose(outer, 0, inner))
                made.append(compose_all(inner, {0: outer}))
                outer.look_up(0, 12)
                list(inner.mappings())
        except ValueError as error:
            made.append(str(error))

    workers = [threading.Thread(target=work, args=pair) for pair in [(one, other), (other, one)] * 3]
    for worker in workers:
        worker.start()
    time.sleep(0.2)
    one.close()
    for worker in workers:
        worker.join(60)
    same([worker.is_alive() for worker in workers], [False] * 6)
    same([text for text in made if isinstance(text, str)], ["the map is closed"] * 6)
    same(len(set(text for text in made if isinstance(text, bytes))), 1)


def resident():
    with open("/proc/self/statm") as statm:
        return int(statm.read().split()[1]) * 4096


# What is held after many rounds of each call, beside what is held after a few.
def memory():
    source_map, other, rewriter = SourceMap(SMALL), SourceMap(SMALL), Rewriter({"a.js": SMALL})
    positions, data = array("I", [0, 12] * 50), bytearray(SMALL)

    def refused(call):
        try:
            call()
        except (Refused, ValueError, TypeError, IndexError):
            return
        sys.exit("nothing is refused")

    for what, call in {
        "a map": lambda: SourceMap(data).close(), "a map that is not closed": lambda: SourceMap(SMALL),
        "a refused map": lambda: refused(lambda: SourceMap(b'{"version":3,"sources":[],"mappings":"AACA"}')),
        "a look-up": lambda: source_map.look_up(0, 12), "a look-up that finds nothing": lambda: source_map.look_up(7, 7),
        "a place": lambda: source_map.place(0, 12), "no place": lambda: source_map.place(7, 7),
        "a look-up by names": lambda: source_map.look_up(line=0, column=12), "a misnamed one": lambda: refused(lambda: source_map.look_up(0, row=12)),
        "a refused look-up": lambda: refused(lambda: source_map.look_up(-1, 0)),
        "look-ups": lambda: source_map.look_up_many(positions), "counts": lambda: source_map.counts,
        "a source": lambda: source_map.source(0), "no source": lambda: refused(lambda: source_map.source(1)),
        "a source's texts": lambda: (source_map.source_name(0), source_map.source_content(0), source_map.is_ignored(0), source_map.closed),
        "no source's name": lambda: refused(lambda: source_map.source_name(1)),
        "a name": lambda: source_map.name(0), "a file": lambda: source_map.file, "lists": lambda: (source_map.sources, source_map.names),
        "mappings": lambda: list(source_map.mappings()), "mappings that are left": lambda: next(source_map.mappings()),
        "bytes": lambda: source_map.bytes_by_source("abc"), "refused bytes": lambda: refused(lambda: source_map.bytes_by_source(b"\xff")),
        "generated places": lambda: SourceMap(SMALL).generated(0, 0), "more of them": lambda: source_map.generated(0, 0, 9),
        "a fit": lambda: source_map.fit("abc"), "a refused fit": lambda: refused(lambda: source_map.fit(b"\xff")),
        "writing": source_map.write, "composing": lambda: compose(source_map, 0, other),
        "a refused composition": lambda: refused(lambda: compose(source_map, 1, other)),
        "composing all": lambda: compose_all(source_map, {0: other}),
        "all, refused": lambda: refused(lambda: compose_all(source_map, {1: other})),
        "rewriting": lambda: rewriter.rewrite(TRACE), "places": lambda: rewriter.rewrite(TRACE, anywhere=True),
        "a rewriter": lambda: Rewriter({"a.js": SMALL}, load=lambda url: None).rewrite(TRACE),
        "a rewriter that cuts URLs": lambda: Rewriter({}, load=lambda url: SMALL).rewrite("f@a.js?v=1:1:1\nf@a.js?v=2:2:1\n"),
        "a rewriter whose maps are refused": lambda: Rewriter({}, load=lambda url: b"{}").rewrite(TRACE),
        "a refused rewriter": lambda: refused(lambda: Rewriter({"a.js": SMALL, "": SMALL})),
    }.items():
        for _ in range(300):
            call()
        before = resident()
        for _ in range(5000):
            call()
        same(max(resident() - before, 0) // 2**20, 0, what)


if __name__ == "__main__":
    lists(sys.argv[1:-1], sys.argv[-1])
    buffers()
    threads()
    memory()
    print("extension", reported)
