"""What tests/try-library asks of the library in Python. driver.c says of each command what it prints. And

    chain FOLDER OUTER LESS    the map composed with those NAME.map of the folder, by a loader; on standard error what that is asked
    mappings MAP               what `smap mappings` prints
    freed MAP COUNT            by how much memory grew, in KiB, after the map was read so often, and all were closed but one between them
"""

import re
import sys
from array import array
from pathlib import Path

from smap import Answer, Refused, Rewriter, SourceMap, compose, compose_all


def opened(path, **words):
    with open(path, "rb") as file:
        return SourceMap(file.read(), **words)


def positions():
    return [tuple(map(int, line.split())) for line in sys.stdin]


def report(source_map, answer, texts={}):
    if answer is None:
        return "none"
    if answer.source is None:
        return "unmapped"
    for kind, index in (("source", answer.source), ("name", answer.name)):
        if index is not None and (kind, index) not in texts:
            texts[kind, index] = getattr(source_map, kind)(index)
    source = texts["source", answer.source]
    name = "" if answer.name is None else " name " + texts["name", answer.name]
    shown = "(no name)" if source.name is None else source.name
    return f"{shown}:{answer.line + 1}:{answer.column + 1}{name}{' ignored' if source.ignored else ''}"


def look(path):
    with opened(path) as source_map:
        for line, column in positions():
            print(report(source_map, source_map.look_up(line, column)))


def from_(path):
    with opened(path) as source_map:
        for line, column in positions():
            print(report(source_map, source_map.look_up_from(line, column)))


def many(path):
    with opened(path) as source_map:
        found = source_map.look_up_many(array("I", [number for pair in positions() for number in pair]))
        for i in range(0, len(found), 7):
            kind, generated, source, line, column, named, name = found[i:i + 7]
            answer = (None if kind == 0 else Answer(generated, None, None, None, None) if kind == 1
                      else Answer(generated, source, line, column, name if named else None))
            print(report(source_map, answer))


def refuse(*paths):
    for path in paths:
        try:
            opened(path)
            sys.exit("a map is not refused")
        except Refused as refused:
            assert (refused.code == "M14") == (refused.line is not None) and (refused.code in ("M14", "M15")) == (refused.cause is not None)
            print(re.sub("^refused:", "refused: " + path + ":", str(refused)))


def why(path):
    try:
        opened(path)
    except Refused as refused:
        print(*("-" if number is None else number for number in (refused.value, refused.limit, refused.column)))
        print(refused.explanation, end="")


def counts(path):
    with opened(path) as source_map:
        print("ok " + " ".join(f"{name} {value}" for name, value in source_map.counts._asdict().items()))


def mappings(path):
    with opened(path) as source_map:
        for mapping in source_map.mappings():
            answer = Answer(*mapping[1:])
            print(f"{mapping.generated_line + 1}:{mapping.generated_column + 1} {report(source_map, answer)}")


def show(path):
    with opened(path) as source_map:
        sys.stdout.buffer.write(source_map.write())


def composed(outer, source, inner):
    with opened(outer) as first, first if inner == outer else opened(inner) as second:
        sys.stdout.buffer.write(compose(first, int(source), second))


def options(less):
    return {"prune": less in ("prune", "both"), "no_content": less in ("bare", "both")}


def composed_with_all(outer, less, *words):
    with opened(outer) as first:
        inners = {int(source): Path(path) for source, path in zip(words[::2], words[1::2])}
        sys.stdout.buffer.write(compose_all(first, inners, **options(less)))


def chain(folder, outer, less):
    asked = []

    def load(name):
        asked.append(name)
        path = Path(folder, name + ".map")
        return path if path.exists() else None

    with opened(outer) as first:
        sys.stdout.buffer.write(compose_all(first, load=load, **options(less)))
    print(*asked, file=sys.stderr)


def rewrite(url, path):
    with open(path, "rb") as file, Rewriter({url: file.read()}) as rewriter:
        sys.stdout.buffer.write(rewriter.rewrite(sys.stdin.buffer.read()))


def load(url, path):
    with Rewriter({}, load=lambda named: Path(path) if named == url else None) as rewriter:
        sys.stdout.buffer.write(rewriter.rewrite(sys.stdin.buffer.read()))


def anywhere(url, path):
    with Rewriter({url: Path(path)}) as rewriter:
        sys.stdout.buffer.write(rewriter.rewrite(sys.stdin.buffer.read(), anywhere=True))


def again(path, count):
    with open("/proc/self/statm") as statm, open(path, "rb") as file:
        data, before = file.read(), 0
        for i in range(int(count)):
            SourceMap(data).close()
            if i == 100:
                before = resident()
        print((resident() - before) // 1024)


def freed(path, count):
    data = Path(path).read_bytes()
    before = resident()
    maps = [SourceMap(data) for _ in range(int(count))]
    # One that stays open lies between those that are closed.
    for i, source_map in enumerate(maps):
        if i != int(count) // 2:
            source_map.close()
    print((resident() - before) // 1024)


def resident():
    with open("/proc/self/statm") as statm:
        return int(statm.read().split()[1]) * 4096


if __name__ == "__main__":
    commands = {"look": look, "from": from_, "many": many, "refuse": refuse, "why": why, "counts": counts, "show": show,
                "compose": composed, "all": composed_with_all, "chain": chain, "mappings": mappings, "rewrite": rewrite, "load": load, "anywhere": anywhere, "again": again,
                "freed": freed}
    commands[sys.argv[1]](*sys.argv[2:])
