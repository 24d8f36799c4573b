#!/usr/bin/env python3
"""Runs smap for this processor and smap for another one over the same, and compares what they leave, byte for byte:

    beside.py HERE THERE TRACE URL=MAP.. -- MAP..

HERE and THERE are folders with a program `smap` each, the second one a script that runs it in an emulator. TRACE is a trace whose
frames these URLs and maps have; of each MAP each position of five lines is looked up. Of a run its status, its standard output and
its standard error are compared, and where they differ the run is printed. It is to be run in a copy of the pages and of examples/.
A line says how many runs of each kind there were, and the last how many in all. The status is 1 where one differs.
"""

from __future__ import annotations

import os
import pty
import re
import subprocess
import sys
import tempfile
from collections.abc import Callable
from dataclasses import dataclass
from pathlib import Path

sys.path.insert(0, str(Path(__file__).resolve().parent.parent / "pages"))
import samples as pages  # noqa: E402

PAGES = ["README.md", "docs/CLI.md", "docs/GUIDE.md", "docs/FORMAT.md", "examples/README.md"]
# What some runs are given in place of the writing end of a pipe, or the reading one.
FULL = "/dev/full"


@dataclass
class Left:
    """What a run leaves."""

    status: int
    output: bytes
    errors: bytes


class Beside:
    """The two programs, and how many runs there were."""

    def __init__(self, here: Path, there: Path) -> None:
        self.programs = [here / "smap", there / "smap"]
        self.count = self.unlike = self.before = 0

    def compare(self, what: object, left: list[object]) -> None:
        self.count += 1
        if left[0] != left[1]:
            self.unlike += 1
            print(f"differs: {what}\n  here  {str(left[0])[:400]}\n  there {str(left[1])[:400]}")

    def each(self, what: object, run: Callable[[Path], object]) -> object:
        """Compares what `run` gives for each program, and gives the first."""
        left = [run(program) for program in self.programs]
        self.compare(what, left)
        return left[0]

    def run(self, words: list[str | bytes], given: bytes = b"") -> Left:
        def leave(program: Path) -> Left:
            ran = subprocess.run(["smap", *words], executable=program, input=given, capture_output=True, check=False)
            return Left(ran.returncode, ran.stdout, ran.stderr)

        found = self.each(words, leave)
        assert isinstance(found, Left)
        return found

    def report(self, what: str) -> None:
        print(f"{what}: {self.count - self.before} runs", flush=True)
        self.before = self.count


# Files that some runs name.
FILES = {
    "app.map": '{"version":3,"sources":["a.ts"],"mappings":"AAAA,CAAC"}',
    "b.map": '{"version":3,"sections":[{"offset":{"line":0,"column":0},"map":{"version":3,"sources":["a.js"],"mappings":"AAAA"}},'
    '{"offset":{"line":0,"column":10},"map":{"version":3,"sources":["b.js"],"mappings":"AAAA"}}]}',
    "o.map": '{"version":3,"sources":["mid.js"],"mappings":"AAAA,KAAK"}',
    "i.map": '{"version":3,"sources":["a.ts"],"mappings":"AAAA,GACI"}',
    "m.map": "[]",
}


def positions_of(path: str, mappings: list[tuple[int, int]]) -> bytes:
    """Each position of five lines that have mappings, from the first to the last, and one past the line's last mapping."""
    last: dict[int, int] = {}
    for line, column in mappings:
        last[line] = column
    lines = sorted(last)
    chosen = sorted({lines[i * (len(lines) - 1) // 4] for i in range(5)}) if lines else [1]
    return "".join(f"{line}:{column}\n" for line in chosen for column in range(1, last.get(line, 1) + 2)).encode()


def real_maps(beside: Beside, maps: list[str]) -> None:
    asked = 0
    for path in maps:
        listed = beside.run(["mappings", path]).output.decode()
        places = [(int(line), int(column)) for line, column in re.findall(r"^(\d+):(\d+) ", listed, re.MULTILINE)]
        positions = positions_of(path, places)
        asked += positions.count(b"\n")
        for words in ([], ["--after"], ["--json"], ["--interval", "1"]):
            beside.run(["positions", *words, path], positions)
        for words in (["check", path], ["check", "--explain", "--json", path], ["show", path], ["show", "--prune", "--no-content", path]):
            beside.run(words)
        beside.run(["compose", path, "0", path])
        beside.run(["sources", path])
        generated = path.removesuffix(".map")
        if os.path.isfile(generated):
            beside.run(["sources", "--json", "--sort", "bytes", path, generated])
        for line, column in (places[:1] + places[len(places) // 2 :][:1] + places[-1:]):
            beside.run(["lookup", "--explain", path, str(line), str(column)])
            beside.run(["lookup", "--json", path, str(line), str(column + 1)])
    print(f"real maps: {len(maps)}, positions {asked} four times over")


def page_samples(beside: Beside) -> None:
    """Every sample of these pages, as in a shell, with its status; and the files that they leave."""
    for page in PAGES:
        every = [sample for sample in pages.samples(Path(page).read_text(encoding="utf-8")) if sample.reason is None]
        left: list[tuple[list[str], dict[str, bytes]]] = []
        for program in beside.programs:
            with tempfile.TemporaryDirectory() as folder:
                for name in ("examples", "docs"):
                    subprocess.run(["cp", "-R", name, folder], check=True)
                place = os.getcwd()
                path = os.environ["PATH"]
                os.environ["PATH"] = f"{program.parent}:{path}"
                os.chdir(folder)
                given = pages.printed_by([f"{sample.command}\nprintf '\\nstatus %s' $?" for sample in every])
                os.chdir(place)
                os.environ["PATH"] = path
                files = {str(file.relative_to(folder)): file.read_bytes() for file in sorted(Path(folder).rglob("*")) if file.is_file()}
                left.append((given, files))
        for number, sample in enumerate(every):
            beside.compare(f"{page}: {sample.command}", [given[number] for given, _ in left])
            printed = left[1][0][number].rpartition("\nstatus ")[0].rstrip("\n")
            if printed != sample.wanted:
                beside.unlike += 1
                print(f"differs from {page}: {sample.command}\n  {printed}\n  {sample.wanted}")
        beside.compare(f"the files that the samples of {page} leave", [files for _, files in left])


def helps(beside: Beside) -> None:
    """All texts of help, all codes, and words that are no command."""
    text = beside.run(["--help"]).output.decode()
    commands = re.findall(r"^  ([a-z]+) ", text.partition("Commands:")[2].partition("\n\n")[0], re.MULTILINE)
    for command in commands:
        beside.run([command, "--help"])
        beside.run(["help", command])
        beside.run([command])
        beside.run([command, "--nothing"])
    for code in re.findall(r"^(\S+)", beside.run(["explain"]).output.decode(), re.MULTILINE):
        beside.run(["explain", code])
    for words in ([], ["-h"], ["--version"], ["none"], ["raw", "0", "1"], ["raw", "1", "2147483649"], ["raw", "+2", "007"], ["lookup", "--interval", "0", "b.map", "1", "1"]):
        beside.run(words)
    assert len(commands) >= 10


def long_trace(beside: Beside, trace: str, pairs: list[str]) -> None:
    given = Path(trace).read_bytes()
    for words in ([], ["--summary"], ["--hide-ignored"], ["--anywhere", "--summary"], ["--interval", "1"]):
        beside.run(["rewrite", *words, *pairs], given)
    print(f"the trace: {given.count(10)} lines")


def devices(beside: Beside) -> None:
    """Files that are none, arguments that are no text, and devices that end early, fail or are full."""
    Path("folder").mkdir()
    commands = [["lookup", "none.map", "1", "1"], ["check", "b.map", "none.map"], ["show", "none.map"], ["positions", "none.map"]]
    commands += [["mappings", "none.map"], ["sources", "none.map"], ["compose", "b.map", "0", "none.map"], ["rewrite", "u=none.map"]]
    commands += [["rewrite", "u/=none/"], ["rewrite", "--maps", "none", "u=b.map"], ["sources", "b.map", "none"]]
    for words in commands:
        beside.run(words, b"    at f (u:1:1)\n    at f (u/a.js:1:1)\n")
        beside.run([word.replace("none.map", "folder").replace("none", "folder") for word in words], b"    at f (u:1:1)\n")
        beside.run([word.replace("none", "b.map/none") for word in words])
    beside.run(["check", "/proc/self/mem"])
    beside.run(["check", ""])
    for words in ([b"check", b"\xff.map"], [b"\xff"], [b"lookup", b"b.map", b"1", b"\xc3"], [b"rewrite", b"u\x80=b.map"]):
        beside.run(words)
    beside.run(["check", "ö.map", "a" * 5000, "x" * 300])

    def to(target: str) -> Callable[[list[str], bytes], None]:
        def run(words: list[str], given: bytes) -> None:
            def leave(program: Path) -> object:
                reader, writer = os.pipe() if target == "closed" else (None, os.open(target, os.O_WRONLY))
                if reader is not None:
                    os.close(reader)
                ran = subprocess.run(["smap", *words], executable=program, input=given, stdout=writer, stderr=subprocess.PIPE, check=False)
                os.close(writer)
                return ran.returncode, ran.stderr

            beside.each(f"{words} to {target}", leave)

        return run

    url = "https://ex.test/app.js"
    frames = f"    at f ({url}:1:6)\n".encode() * 5000
    writers = [(["lookup", "b.map", "1", "10"], b""), (["--help"], b""), (["--version"], b""), (["check", "b.map"], b""), (["show", "b.map"], b"")]
    writers += [(["rewrite", f"{url}=app.map"], frames), (["rewrite", "--summary", f"{url}=app.map"], frames), (["positions", "b.map"], b"1 1\n" * 20000)]
    writers += [(["mappings", "examples/receipt.min.js.map"], b""), (["sources", "b.map"], b""), (["explain", "M4"], b""), (["raw", "1", "1"], b"AAAA")]
    writers += [(["compose", "o.map", "0", "i.map"], b"")]
    for words, given in writers:
        to("closed")(words, given)
        to(FULL)(words, given)

    # The front of what is asked for, a standard input that is a folder or is closed, standard errors that can't be written, a terminal.
    def shell(command: str) -> None:
        def leave(program: Path) -> object:
            words = ["bash", "-c", f"set -o pipefail; smap() {{ '{program}' \"$@\"; }}; {command}; echo \"status ${{PIPESTATUS[*]}}\""]
            ran = subprocess.run(words, capture_output=True, check=False)
            return ran.stdout, ran.stderr

        beside.each(command, leave)

    for command in ("smap mappings examples/receipt.min.js.map | head -n 3", "smap rewrite u=b.map < folder", "smap raw 1 1 < folder", "smap raw 1 1 <&-",
                    "smap positions b.map < folder", "smap raw 1 1 < /dev/null >&-", "smap check none.map 2>&-", f"smap check none.map 2>{FULL}",
                    "smap lookup /dev/stdin 1 10 < b.map", "cat b.map | smap lookup /dev/stdin 1 10"):
        shell(command)

    def terminal(words: list[str]) -> None:
        def leave(program: Path) -> object:
            main, other = pty.openpty()
            ran = subprocess.run(["smap", *words], executable=program, stdin=subprocess.DEVNULL, stdout=subprocess.PIPE, stderr=other, check=False)
            os.close(other)
            said = b""
            try:
                while part := os.read(main, 65536):
                    said += part
            except OSError:  # all is read, and the other end is closed
                pass
            os.close(main)
            return ran.returncode, ran.stdout, said

        beside.each(f"{words} at a terminal", leave)

    for words in (["check", "m.map"], ["check", "none.map"], ["raw", "0", "1"]):
        terminal(words)


def main() -> int:
    here, there, trace, *rest = sys.argv[1:]
    cut = rest.index("--")
    beside = Beside(Path(here), Path(there))
    for name, text in FILES.items():
        Path(name).write_text(text, encoding="utf-8")
    real_maps(beside, rest[cut + 1 :])
    beside.report("real maps")
    page_samples(beside)
    beside.report("samples of pages")
    helps(beside)
    beside.report("helps, codes and misuse")
    long_trace(beside, trace, rest[:cut])
    beside.report("the trace")
    devices(beside)
    beside.report("files and devices")
    print(f"{beside.count} runs of each program, {beside.unlike} unlike")
    return 1 if beside.unlike else 0


if __name__ == "__main__":
    sys.exit(main())
