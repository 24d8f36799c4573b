#!/usr/bin/env python3
"""Runs the samples of pages in the current folder, page after page: samples.py PAGE...

A sample is an indented line `$ COMMAND` with what it prints below it, on both streams, as indented; a command goes on below a
line that ends in a backslash, `|` or `&&`. One shell runs all samples of a page. `./smap` is taken for `smap`. A block behind a line
`<!-- not run: REASON -->` is not run. A fenced block in C, Python or JavaScript is left to tests/try-pages, one in Rust to
tests/try-rust, and one in another language needs such a line. The status is 1 where a sample printed something else.
"""

from __future__ import annotations

import re
import shlex
import subprocess
import sys
from dataclasses import dataclass
from pathlib import Path

MARK = re.compile(r"<!-- not run: (.*) -->")
BETWEEN = "behind the sample of this number: "


@dataclass
class Sample:
    command: str
    wanted: str
    reason: str | None


def samples(page: str) -> list[Sample]:
    """The samples of a page, each with why it is not run, if it isn't."""
    lines = page.split("\n")
    found, reason, i = [], None, 0
    while i < len(lines):
        line = lines[i]
        begin = re.match(r"( {4,})\$ (.*)", line)
        fence = re.match(r"```(\w+)", line)
        i += 1
        if fence and fence[1] not in ("c", "python", "js", "rs"):
            found.append(Sample(f"a block in {fence[1]}", "a reason why it is not run", reason))
        if not begin:
            mark = MARK.fullmatch(line.strip())
            if mark:
                reason = mark[1]
            elif line and not line.startswith("    "):
                reason = None
            continue
        indent, command = begin.groups()
        while command.endswith(("\\", "|", "&&")):
            command += "\n" + lines[i].removeprefix(indent)
            i += 1
        printed = []
        while i < len(lines) and (not lines[i] or lines[i].startswith(indent) and not lines[i].startswith(f"{indent}$ ")):
            printed.append(lines[i][len(indent):])
            i += 1
        found.append(Sample(command.replace("./smap", "smap"), "\n".join(printed).rstrip("\n"), reason))
    return found


def printed_by(commands: list[str]) -> list[str]:
    """What each command prints, all in one shell."""
    script = "".join(f"eval {shlex.quote(command)}\nprintf '\\n{BETWEEN}%s\\n' {i}\n" for i, command in enumerate(commands))
    run = subprocess.run(
        ["bash", "-c", script], stdin=subprocess.DEVNULL, stdout=subprocess.PIPE, stderr=subprocess.STDOUT, check=False
    )
    parts = re.split(rf"\n{BETWEEN}\d+\n", run.stdout.decode(errors="replace"))
    return [part.rstrip("\n") for part in parts]


def main() -> int:
    count = wrong = not_run = 0
    for path in sys.argv[1:]:
        every = samples(Path(path).read_text(encoding="utf-8"))
        there = [sample for sample in every if sample.reason is None]
        for sample in every:
            if sample.reason is not None:
                not_run += 1
                print(f"{path}: not run, {sample.reason}: {sample.command}")
        given = printed_by([sample.command for sample in there])
        given += ["nothing: the shell ended before"] * (len(there) - len(given))
        for sample, text in zip(there, given):
            count += 1
            if text != sample.wanted:
                wrong += 1
                print(f"{path}: {sample.command}\n  prints {text!r}\n  in place of {sample.wanted!r}", file=sys.stderr)
    print(f"{count} samples, {wrong} wrong, {not_run} not run")
    return 1 if wrong else 0


if __name__ == "__main__":
    sys.exit(main())
