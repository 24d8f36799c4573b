#!/usr/bin/env python3
"""Says which functions of a crate take a check its time: functions.py CRATE [COUNT]

In the crate's folder first remove `out/incremental`, and then have `rt check --jobs 1` (of tests: `--test`) prove the crate
from nothing, on a machine with a free processor. A check writes a file for each module that it has gone through, so the time
between two files is that of the second. This sums these seconds by function and by kind of module, and prints COUNT functions,
or 25, the dearest first. `Lts` and `Tie` are what is made of a function's body: they grow faster than the body, so two
functions of half the size cost less.
"""
import collections
import pathlib
import re
import sys

CRATES = pathlib.Path(__file__).resolve().parents[2] / "crates"


def seconds_of(crate):
    """Yields each module that the crate's last check from nothing went through, and the seconds that it took."""
    files = [path for path in (CRATES / crate / "out" / "incremental").rglob("*") if path.is_file()]
    before = None
    for time, path in sorted((path.stat().st_mtime_ns, path) for path in files):
        if before is not None:
            yield path.name, (time - before) / 1e9
        before = time


def main():
    if len(sys.argv) not in (2, 3) or not (CRATES / sys.argv[1]).is_dir():
        print(__doc__, file=sys.stderr)
        return 2
    crate, count = sys.argv[1], int(sys.argv[2]) if len(sys.argv) == 3 else 25
    functions, kinds, all_seconds = collections.Counter(), collections.Counter(), 0
    for name, seconds in seconds_of(crate):
        all_seconds += seconds
        name = name.removesuffix(".oantt").removesuffix(".decls")
        module = re.match(rf"Rattle-{crate}-proofs\.(.+)\.([^.]+)$", name)
        kinds[module[2] if module else "other"] += seconds
        functions[module[1] if module else "(no function)"] += seconds
    print(f"{crate}: {all_seconds:.0f} s")
    print("by kind: " + ", ".join(f"{kind} {seconds:.0f}" for kind, seconds in kinds.most_common(8)))
    for function, seconds in functions.most_common(count):
        print(f"{seconds:8.1f}  {function}")
    return 0


if __name__ == "__main__":
    sys.exit(main())
