#!/usr/bin/python3
"""Rewrites stack traces with smap on all processors of one machine, or of many, by Dask. docs/SCALE.md is its page.

A trace is cut behind line ends into blocks. Each block is one task: a worker reads it from the trace, runs the program
on it and writes what becomes of it to a part, a file in the output folder. The parts of a trace are joined in order.
"""

from __future__ import annotations

import argparse
import json
import logging
import os
import shutil
import signal
import subprocess
import sys
import tempfile
import time
import uuid
from collections.abc import Iterator
from contextlib import contextmanager
from dataclasses import dataclass, field
from pathlib import Path
from typing import NoReturn

try:
    from dask.system import CPU_COUNT
    from dask.utils import parse_bytes
    from distributed import CancelledError, Client, Future, LocalCluster, Nanny, Status, as_completed
    from distributed.scheduler import KilledWorker
except ImportError:
    print("smap_dask: it needs Debian's packages python3-dask and python3-distributed", file=sys.stderr)
    sys.exit(127)

ROOT = Path(__file__).resolve().parent.parent
# Where ./smap found the program, as a path from the top.
FOUND = ROOT / ".smap" / "program"

# What the program says, and its status, where a trace can't be read and where what becomes of it can't be written.
READ_FAILED = (3, "device: X1 Read")
WRITE_FAILED = (3, "device: X2 Write")

# Half of what the program takes as one trace, so that a block stays below that with the rest of its last line too.
MOST_BLOCK_BYTES = 536_870_912

# How often a block is begun anew whose program was killed, or whose files could not be opened. (A worker that dies is
# none of these: Dask gives its blocks to others by itself.)
RETRIES = 2

# What the program prints of a trace that it rewrote to its end, before its counts.
SUMMARY = "ok "

# So many lines about maps are reported, as by the program.
MOST_REPORTED = 100

# The options of `smap rewrite` that have no value. What excludes another is refused by the program.
FLAGS = ["--paths", "--hide-ignored", "--anywhere", "--names", "--strip-ansi"]

# A free port that only this machine reaches.
LOOPBACK = "127.0.0.1:0"

USAGE = """%(prog)s rewrite [--maps LIST] [--base URL | --paths] [--interval K] [--hide-ignored] [--hide TEXT].. [--anywhere | --names]
                   [--strip-ansi] [--cache BYTES] [--summary] [--block SIZE] [--scheduler ADDRESS] [--program PROGRAM]
                   --output DIR [URL=FILE | PREFIX=FOLDER/ | *END=FILE | *MIDDLE=FOLDER/].. -- TRACE.."""

HELP = """
Rewrites each TRACE as `smap rewrite` does, on many processors, to a file of the same name in DIR.

A file stands in DIR under that name only when it is whole. A trace whose file stands there is finished, and is passed
over: so a run that ended early is given once more, and does what is missing. To have a trace rewritten anew, remove
its file.

The maps of words URL=FILE are read for each block. Those of folders, patterns and lists are read only for blocks that name
them; one that can't be had is reported once, and ends nothing.
"""

END = """
Statuses: those of the program (0 done, 1 refused, 2 usage, 3 I/O error, or out of memory, or a cluster that failed);
125 and 127 where the program could not be built or a package is missing. docs/SCALE.md says more.
"""


class Stop(Exception):
    """The run ends with this status, and these lines on standard error."""

    def __init__(self, status: int, said: str) -> None:
        super().__init__(said)
        self.status = status
        self.said = said


# What runs on a worker


def counts_in(line: str) -> dict[str, int]:
    """The counts in the line that the program prints at the end."""
    words = line.removeprefix(SUMMARY).split(" ")
    return dict(zip(words[0::2], map(int, words[1::2])))


def rewrite_block(folder: str, trace: str, start: int, length: int) -> tuple[int, str, str, dict[str, int]]:
    """Rewrites the block of so many bytes that starts there, with the job of this folder of parts. The result is a
    status and what the program said, and, where the block was rewritten to its end, the path of the part and the counts
    of the program. The status may then be that of maps which could not be had.

    Each try writes a part of its own, since a program may outlive its worker for a while.
    """
    job = json.loads(Path(folder, "job").read_text())
    with open(trace, "rb") as file:
        file.seek(start)
        block = file.read(length)
    if len(block) < length:
        return *READ_FAILED, "", {}
    part = os.path.join(folder, uuid.uuid4().hex)
    with open(part, "xb") as output, tempfile.TemporaryFile() as errors:
        command = [job["program"], "rewrite", "--summary", *job["options"], *job["words"]]
        done = subprocess.run(command, input=block, stdout=output, stderr=errors, cwd=job["from"])
        errors.seek(0)
        said = errors.read().decode(errors="replace").rstrip("\n")
    if done.returncode < 0:
        raise ChildProcessError(f"{job['program']} was killed by signal {-done.returncode}")
    before, _, last = said.rpartition("\n")
    if not last.startswith(SUMMARY):
        return done.returncode, said, "", {}
    # With more memory the block may become another text.
    if any(line.startswith("memory") for line in before.splitlines()):
        return done.returncode, before, "", {}
    return done.returncode, before, part, counts_in(last)


# What runs where the command is given


def cut(trace: Path, size: int) -> Iterator[tuple[int, int]]:
    """The blocks of a trace, each as where it starts and its length: it ends behind the first line end from its byte
    number `size` on. So a longer line stays whole, and an empty trace has no block."""
    with open(trace, "rb") as file:
        total = os.fstat(file.fileno()).st_size
        start = 0
        while start < total:
            end = start + size - 1
            file.seek(end)
            while (piece := file.read(1 << 16)) and b"\n" not in piece:
                end += len(piece)
            end = min(end + piece.find(b"\n") + 1, total)
            yield start, end - start
            start = end


@dataclass
class Trace:
    """A trace, the file that is to stand in the output folder, and how far its parts are joined."""

    path: Path
    final: Path
    whole: Path
    blocks: list[tuple[int, int]] = field(default_factory=list)
    joined: int = 0
    waiting: dict[int, Path] = field(default_factory=dict)

    def add(self, number: int, part: Path) -> None:
        """Takes the part of a block, and joins those whose turn it is. The first becomes the file of the whole, which
        gets its name behind the last."""
        self.waiting[number] = part
        while self.joined in self.waiting:
            following = self.waiting.pop(self.joined)
            if self.joined == 0:
                following.rename(self.whole)
            else:
                with open(following, "rb") as source, open(self.whole, "ab") as target:
                    shutil.copyfileobj(source, target, 1 << 20)
                following.unlink()
            self.joined += 1
        if self.joined == len(self.blocks):
            self.finish()

    def finish(self) -> None:
        """Gives the whole its name, once its bytes are on the disk: the name says that the trace is finished."""
        with open(self.whole, "ab") as file:
            os.fsync(file.fileno())
        self.whole.rename(self.final)


@contextmanager
def folder_of_parts(output: Path) -> Iterator[Path]:
    """A new folder in the output folder, which is removed at the end whatever happens."""
    output.mkdir(parents=True, exist_ok=True)
    folder = Path(tempfile.mkdtemp(prefix=".smap-parts-", dir=output))
    try:
        yield folder
    finally:
        # Under another name first: what still runs on a worker then can't begin a part in it.
        shutil.rmtree(folder.rename(f"{folder}-ended"), ignore_errors=True)


class Keeper(Nanny):
    """Begins a worker, and anew where it dies, but not while the cluster starts: there Dask would then wait without end."""

    begun = runs = False

    async def instantiate(self) -> Status:
        if self.begun and self.status == Status.init:
            return Status.failed
        self.begun = True
        status = await super().instantiate()
        self.runs = status == Status.running
        return status


@contextmanager
def cluster_of(scheduler: str | None) -> Iterator[Client]:
    """A client of the scheduler that is given, or of a cluster of this machine, with a worker for each processor."""
    if scheduler is not None:
        with Client(scheduler) as client:
            yield client
    else:
        # An interrupt from the keyboard is for this process alone, which then ends the workers: they pass over it.
        handler = signal.signal(signal.SIGINT, signal.SIG_IGN)
        with LocalCluster(
            n_workers=CPU_COUNT,
            threads_per_worker=1,
            # Without these their pages would be there for other machines too.
            dashboard_address=LOOPBACK,
            worker_dashboard_address=LOOPBACK,
            silence_logs=logging.CRITICAL,
            worker_class=Keeper,
        ) as cluster:
            signal.signal(signal.SIGINT, handler)
            if not all(keeper.runs for keeper in cluster.workers.values()):
                raise Stop(3, "smap_dask: a worker died while the cluster started")
            with Client(cluster) as client:
                yield client


def program_of(given: str | None) -> str:
    """The path of the program: that which is given, or the one of this repository, which ./smap finds."""
    if given is not None:
        return os.path.abspath(given)
    status = subprocess.run([ROOT / "smap", "--version"], stdout=subprocess.DEVNULL).returncode
    if status != 0:
        raise Stop(status, "smap_dask: there is no program")
    return str(ROOT / FOUND.read_text().strip())


def try_options(program: str, options: list[str], words: list[str]) -> None:
    """Has the program read the options, the list and the words over an empty trace, before any block is begun."""
    command = [program, "rewrite", *options, *words]
    tried = subprocess.run(command, stdin=subprocess.DEVNULL, capture_output=True, text=True)
    if tried.returncode != 0:
        raise Stop(tried.returncode, tried.stderr.rstrip("\n"))


def traces_to_do(paths: list[str], output: Path) -> list[tuple[Path, Path]]:
    """The traces that have no file in the output folder yet, each with that file."""
    finals: dict[Path, Path] = {}
    for path in map(Path, paths):
        final = output / path.name
        if not path.is_file() or not os.access(path, os.R_OK):
            raise Stop(3, f"device: read {path}")
        if final in finals:
            raise Stop(2, f"usage: two traces are to be {final}")
        if final.exists() and final.samefile(path):
            raise Stop(2, f"usage: the trace itself is {final}")
        finals[final] = path.absolute()
    return [(path, final) for final, path in finals.items() if not final.exists()]


def show(bar: str) -> None:
    """Writes this in place of the line, where standard error is a terminal."""
    if sys.stderr.isatty():
        print(f"\r\33[2K{bar}", end="", file=sys.stderr, flush=True)


@dataclass
class Reported:
    """What the programs reported of all blocks: the greatest status, the lines about maps, and the sums of the counts."""

    status: int = 0
    lines: set[str] = field(default_factory=set)
    counts: dict[str, int] = field(default_factory=dict)

    def add(self, status: int, said: str, counts: dict[str, int]) -> None:
        """Takes what was reported of a block. A line that no block had before is reported, up to so many."""
        self.status = max(self.status, status)
        for line in said.splitlines():
            if line not in self.lines and len(self.lines) < MOST_REPORTED:
                self.lines.add(line)
                show("")
                print(line, file=sys.stderr)
        for name, count in counts.items():
            self.counts[name] = self.counts.get(name, 0) + count

    def summary(self) -> str:
        return SUMMARY + " ".join(f"{name} {count}" for name, count in self.counts.items())


def rewrite_all(client: Client, traces: list[Trace], folder: Path, reported: Reported) -> None:
    """Has all blocks rewritten, and joins what becomes of them."""
    tasks = [(trace, number) for trace in traces for number in range(len(trace.blocks))]
    futures: list[Future] = client.map(
        rewrite_block,
        [str(folder)] * len(tasks),
        [str(trace.path) for trace, _ in tasks],
        [trace.blocks[number][0] for trace, number in tasks],
        [trace.blocks[number][1] for trace, number in tasks],
        pure=False,
        retries=RETRIES,
    )
    tasks_of = {future.key: task for future, task in zip(futures, tasks)}
    completed = as_completed(futures)
    # A future that is let go once its result is here is not done again where its worker dies.
    del futures
    try:
        done = 0
        for batch in completed.batches():
            for future, (status, said, part, counts) in zip(batch, client.gather(batch)):
                if not part:
                    raise Stop(status, said)
                trace, number = tasks_of.pop(future.key)
                reported.add(status, said, counts)
                try:
                    trace.add(number, Path(part))
                except OSError:
                    raise Stop(*WRITE_FAILED) from None
                done += 1
            # Dask's own bar needs the results of all blocks to be kept on their workers. Of a worker that dies all
            # would then be done again, those that are joined too.
            show(f"[{'#' * (40 * done // len(tasks)):<40}] {done} of {len(tasks)} blocks")
    finally:
        show("")
        client.cancel(list(completed.futures))


def block_bytes(text: str) -> int:
    try:
        size: int = parse_bytes(text)
    except ValueError:
        size = 0
    if not 1 <= size <= MOST_BLOCK_BYTES:
        raise argparse.ArgumentTypeError(f"{text} is not 1 to 512MiB")
    return size


def arguments(words: list[str]) -> argparse.Namespace:
    """The arguments, of which those behind the first `--` are the traces."""
    split = words.index("--") if "--" in words else len(words)
    parser = argparse.ArgumentParser(description="Runs smap on many processors, by Dask.", allow_abbrev=False)
    commands = parser.add_subparsers(metavar="COMMAND", required=True)
    rewrite = commands.add_parser(
        "rewrite",
        usage=USAGE % {"prog": parser.prog},
        description=HELP,
        epilog=END,
        formatter_class=argparse.RawDescriptionHelpFormatter,
        help="rewrite stack traces to the sources",
        allow_abbrev=False,
    )
    same = "as of `smap rewrite`"
    rewrite.add_argument("--maps", metavar="LIST", help=same)
    rewrite.add_argument("--base", metavar="URL", help=same)
    for flag in FLAGS:
        rewrite.add_argument(flag, action="store_true", help=same)
    rewrite.add_argument("--interval", metavar="K", help=same)
    rewrite.add_argument("--hide", metavar="TEXT", action="append", default=[], help=same)
    rewrite.add_argument("--cache", metavar="BYTES", help=f"{same}, for each block")
    rewrite.add_argument("--summary", action="store_true", help="report the sums of the counts of all blocks at the end")
    rewrite.add_argument(
        "--block",
        metavar="SIZE",
        type=block_bytes,
        default="64MiB",
        help="bytes of a block, to which the rest of a line comes: 1 to 512MiB, as 64MiB or 1e6; "
        "%(default)s where not given",
    )
    rewrite.add_argument(
        "--scheduler",
        metavar="ADDRESS",
        help="a scheduler whose workers see all these files under the same paths, as tcp://10.0.0.1:8786; "
        "where not given, a cluster of this machine is started, with a worker for each processor",
    )
    rewrite.add_argument(
        "--program", metavar="PROGRAM", help="smap itself; where not given, that which ./smap of this repository runs"
    )
    rewrite.add_argument("--output", metavar="DIR", type=Path, required=True, help="made where it is missing")
    rewrite.add_argument(
        "words",
        metavar="URL=FILE",
        nargs="*",
        help="the URL of frames, and the path of its map; or a prefix of URLs, and a folder of maps; or a pattern of URLs",
    )
    given = parser.parse_args(words[:split])
    given.traces = words[split + 1 :]
    if not given.traces:
        rewrite.error("there is no `--` with a TRACE behind it")
    if not given.words and given.maps is None:
        rewrite.error("there is no map: neither URL=FILE, nor PREFIX=FOLDER/, nor --maps")
    return given


def absolute(path: str) -> str:
    """The whole path, which still ends in `/` where that of a folder does."""
    whole = os.path.abspath(path)
    return os.path.join(whole, "") if path.endswith("/") else whole


def run(given: argparse.Namespace) -> int:
    """Does what is missing, and says what was done. The answer is the greatest status of all blocks."""
    begun = time.monotonic()
    words = []
    for word in given.words:
        url, sign, file = word.rpartition("=")
        if not sign:
            raise Stop(2, f"usage: no URL=FILE: {word}")
        words.append(f"{url}={absolute(file)}")
    options = [flag for flag in FLAGS if getattr(given, flag[2:].replace("-", "_"))]
    options += [f"--hide={text}" for text in given.hide]
    for name, value in (
        ("--maps", given.maps and absolute(given.maps)),
        ("--base", given.base),
        ("--interval", given.interval),
        ("--cache", given.cache),
    ):
        options += [] if value is None else [f"{name}={value}"]
    # The paths in a list are taken from where this command is given.
    job = {"options": options, "words": words, "from": None if given.maps is None else os.getcwd()}
    output = given.output.absolute()
    to_do = traces_to_do(given.traces, output)
    program = program_of(given.program)
    reported = Reported()
    with folder_of_parts(output) as folder:
        try_options(program, options, words)
        (folder / "job").write_text(json.dumps({"program": program, **job}))
        traces = [Trace(path, final, folder / f"whole-{number}") for number, (path, final) in enumerate(to_do)]
        for trace in traces:
            trace.blocks = list(cut(trace.path, given.block))
            if not trace.blocks:
                trace.finish()
        blocks = sum(len(trace.blocks) for trace in traces)
        if blocks > 0:
            with cluster_of(given.scheduler) as client:
                rewrite_all(client, traces, folder, reported)
    if given.summary and blocks > 0:
        print(reported.summary(), file=sys.stderr)
    print(
        f"ok traces {len(traces)} finished before {len(given.traces) - len(traces)} blocks {blocks} "
        f"lines {reported.counts.get('lines', 0)} seconds {time.monotonic() - begun:.1f}"
    )
    return reported.status


def fail(status: int, said: str) -> NoReturn:
    print(said, file=sys.stderr)
    sys.exit(status)


def main() -> None:
    # Ends as an error does, so that the parts are removed.
    signal.signal(signal.SIGTERM, lambda *_: sys.exit(128 + signal.SIGTERM))
    try:
        sys.exit(run(arguments(sys.argv[1:])))
    except Stop as stop:
        fail(stop.status, stop.said)
    except KeyboardInterrupt:
        fail(128 + signal.SIGINT, "smap_dask: interrupted")
    except (OSError, KilledWorker, CancelledError) as error:
        fail(3, f"smap_dask: {error}")


if __name__ == "__main__":
    main()
