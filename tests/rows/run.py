#!/usr/bin/env python3
"""Runs a program over the rows of crates/smap_rows that are command lines: run.py COMMAND..

COMMAND is the program, with words before its arguments where it has some. Each row `run` is run in a folder with its files, and
its status, standard output and standard error are compared with the row's answer. tests/vectors/README.md says how rows are
written. It says how many rows there were and how many came out otherwise, and the status is 1 where one did.
"""

from __future__ import annotations

import os
import shutil
import subprocess
import sys
import tempfile
from concurrent.futures import ThreadPoolExecutor
from pathlib import Path

ROWS = Path(__file__).resolve().parents[2] / "crates" / "smap_rows"
INTERVALS = ("1", "2", "3", "64", "4096")
NAMED = {b"t": b"\t", b"n": b"\n", b"r": b"\r"}


def unescaped(field: bytes) -> bytes:
    """The bytes that a field stands for."""
    out, at, times = bytearray(), 0, 1
    while at < len(field):
        if field[at:at + 2] == b"\\{":
            end = field.index(b"}", at)
            times, at = int(field[at + 2:end]), end + 1
            continue
        if field[at:at + 1] != b"\\":
            byte, at = field[at:at + 1], at + 1
        elif field[at + 1:at + 2] == b"x":
            byte, at = bytes([int(field[at + 2:at + 4], 16)]), at + 4
        else:
            byte, at = NAMED.get(field[at + 1:at + 2], field[at + 1:at + 2]), at + 2
        out += byte * times
        times = 1
    return bytes(out)


def content(field: bytes) -> bytes:
    """The same, or the bytes of the file that is named behind an `@`."""
    if field.startswith(b"@"):
        return (ROWS / "data" / os.fsdecode(field[1:])).read_bytes()
    return unescaped(field)


def answer(command: list[str], fields: list[bytes], folder: Path) -> list[bytes]:
    """What the program answers to a row in this folder, which is as before afterwards."""
    words = [unescaped(word) for word in fields[1].split(b" ")[1:]]
    before: dict[Path, bytes | None] = {}
    for path, text in zip(fields[3::2], fields[4::2]):
        file = folder / os.fsdecode(unescaped(path))
        file.parent.mkdir(parents=True, exist_ok=True)
        before[file] = file.read_bytes() if file.exists() else None
        file.write_bytes(content(text))
    run = subprocess.run(
        [os.fsencode(word) for word in command] + words, input=content(fields[2]) if len(fields) > 2 else b"",
        capture_output=True, cwd=folder, check=False,
    )
    for file, data in before.items():
        if data is None:
            file.unlink()
        else:
            file.write_bytes(data)
    return [str(run.returncode).encode(), run.stdout, run.stderr]


def wrong_among(command: list[str], rows: list[tuple[int, bytes, bytes]]) -> list[str]:
    """What is said of each of these rows that comes out otherwise. All are run in one folder."""
    wrong = []
    with tempfile.TemporaryDirectory() as name:
        if (ROWS / "data").is_dir():
            shutil.copytree(ROWS / "data", name, dirs_exist_ok=True)
        for number, row, wanted in rows:
            intervals = INTERVALS if b"%K" in row else ("64",)
            given = [answer(command, row.replace(b"%K", k.encode()).split(b"\t"), Path(name)) for k in intervals]
            if all(one == given[0] for one in given):
                given = given[:1]
            if [part for one in given for part in one] != [unescaped(field) for field in wanted.split(b"\t")]:
                wrong.append(f"row {number}: {row[:200]!r} gives {given!r}"[:600])
    return wrong


def main() -> int:
    command = [shutil.which(sys.argv[1]) or sys.argv[1], *sys.argv[2:]]
    command = [os.path.abspath(word) if os.path.exists(word) else word for word in command]
    asked = (ROWS / "stdin").read_bytes().split(b"\n")
    answers = (ROWS / "stdout").read_bytes().split(b"\n")
    rows = [it for it in zip(range(1, len(asked) + 1), asked, answers) if it[1].startswith(b"run\t")]
    workers = len(os.sched_getaffinity(0))
    with ThreadPoolExecutor(workers) as pool:
        wrong = [line for lines in pool.map(lambda at: wrong_among(command, rows[at::workers]), range(workers)) for line in lines]
    print(*wrong, f"{len(rows)} rows, {len(wrong)} wrong", sep="\n")
    return bool(wrong) or not rows


if __name__ == "__main__":
    sys.exit(main())
