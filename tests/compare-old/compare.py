#!/usr/bin/env python3
"""Compares `rewrite --anywhere` of an older program with that of this one: compare.py [COUNT]

The older program is that of dist/ at a commit of the history, which found places by another rule. Both are put to COUNT
random lines, 100,000 if none is given, once with each kind of maps. What this program writes has to be what the model of the
rule says, tests/vectors/places.py. Each place that one of the two takes otherwise than the other is put to a cause, and the
causes are printed, each with its number and its shortest line. OLD and PROGRAM may name the programs. By hand, and not by
the gate.
"""

from __future__ import annotations

import io
import os
import re
import subprocess
import sys
import tarfile
import tempfile
from multiprocessing import Pool
from pathlib import Path
from typing import Iterator, List, NamedTuple, Optional, Tuple

ROOT = Path(__file__).resolve().parents[2]
sys.path.insert(0, str(ROOT / "tests" / "vectors"))

import places
import try_places
from causes import Difference, cause_of, verdict
from lines import Given, random_lines
from places_maps import Maps

# The last packages of the older rule.
OLD = "9ce02bf2"
NAMED = [url for url in try_places.URLS if "\x1b" not in url]
KINDS = {
    "pattern": ["*app.js=w.map"],
    "name": [f"{url}=w.map" for url in NAMED],
    "list": [f"list {url}=w.map" for url in NAMED],
    "folder": [f"{prefix}=n/" for prefix in (
        "https://h/", "/srv/", "dist/", "/Applications/", "/a,b/", "http://[::1]:80/", "file:///srv/", "webpack-internal:///", "C:/dist/",
        "./", "é/", "node_modules/",
    )],
}
SOURCE = re.compile(rb"webpack:///a\.ts:([1-8]):([1-8])(?![0-9])")


def programs(folder: Path) -> Tuple[str, str]:
    """The paths of the older program and of this one."""
    old, new = os.environ.get("OLD"), os.environ.get("PROGRAM")
    if not old:
        # The program of an x86-64; another machine names one in OLD.
        names = subprocess.run(
            ["git", "-C", ROOT, "ls-tree", "--name-only", OLD, "dist/"], capture_output=True, check=True, text=True
        ).stdout.split()
        archive = next(name for name in names if name.endswith("-linux-x86_64.tar.gz"))
        packed = subprocess.run(["git", "-C", ROOT, "show", f"{OLD}:{archive}"], capture_output=True, check=True).stdout
        with tarfile.open(fileobj=io.BytesIO(packed)) as tar:
            tar.extractall(folder / "old")
        old = str(next((folder / "old").glob("smap-*/bin/smap")))
    if not new:
        subprocess.run([ROOT / "smap", "--version"], check=True, stdout=subprocess.DEVNULL)
        new = str(ROOT / (ROOT / ".smap" / "program").read_text().strip())
    return old, new


class Files(try_places.Files):
    """The maps, also as files in a folder."""

    def __init__(self, folder: Path) -> None:
        super().__init__()
        self.folder = folder
        self.written: set = set()

    def write(self, path: bytes) -> bool:
        """Writes the map of a path, where the model has one; says whether it is new."""
        if path in self.written or self(path) is None:
            return False
        self.written.add(path)
        file = os.path.join(os.fsencode(self.folder), path)
        os.makedirs(os.path.dirname(file), exist_ok=True)
        with open(file, "w") as out:
            out.write(try_places.map_text(path))
        return True


MISSING = re.compile(rb"^device: read (.*)$", re.M)


def run(program: str, words: List[str], listed: List[str], text: bytes, files: Files) -> List[bytes]:
    """What a program makes of a text. Maps that it misses and the model has are written, and it runs again."""
    options = []
    if listed:
        (files.folder / "list").write_text("".join("\t".join(word.rsplit("=", 1)) + "\n" for word in listed))
        options = ["--maps", "list"]
    for path in {word.rsplit("=", 1)[1] for word in words + listed}:
        if not path.endswith("/"):
            files.write(path.encode())
    while True:
        ran = subprocess.run([program, "rewrite", "--anywhere", *options, *words], input=text, capture_output=True, cwd=files.folder)
        if ran.returncode not in (0, 3):
            raise SystemExit(f"{program}: status {ran.returncode}: {ran.stderr[:500]!r}")
        if not any([files.write(path) for path in MISSING.findall(ran.stderr)]):
            return ran.stdout.split(b"\n")


# ---------------------------------------------------------------------------------------------
# Which places were taken.
# ---------------------------------------------------------------------------------------------

class Taken(NamedTuple):
    """From which byte of a line to which a place stood that was taken."""

    start: int
    end: int


def taken_in(line: bytes, became: bytes) -> Optional[List[Taken]]:
    """Which places of a line were taken: each ends with the numbers that stand there now."""
    parts = SOURCE.split(became)
    rests, numbers = parts[0::3], list(zip(parts[1::3], parts[2::3]))

    def fit(number: int, at: int) -> Optional[List[Taken]]:
        if not line.startswith(rests[number], at):
            return None
        start = at + len(rests[number])
        if number == len(numbers):
            return [] if start == len(line) else None
        # Column 8 answers for all behind it.
        column = rb"(?:8|[1-9][0-9]+)" if numbers[number][1] == b"8" else numbers[number][1]
        for pair in re.finditer(b"(?=(:%s:%s)(?![0-9]))" % (numbers[number][0], column), line[start:]):
            behind = fit(number + 1, start + pair.end(1))
            if behind is not None:
                return [Taken(start, start + pair.end(1)), *behind]
        return None

    return fit(0, 0)


# ---------------------------------------------------------------------------------------------
# The comparison.
# ---------------------------------------------------------------------------------------------

def words_of(kind: str) -> Tuple[List[str], List[str]]:
    """The words of a kind of maps, and those of its list."""
    words = KINDS[kind]
    return [word for word in words if not word.startswith("list ")], [word[5:] for word in words if word.startswith("list ")]


def maps_of(kind: str) -> Maps:
    """The maps of a kind, for the model."""
    words, listed = words_of(kind)
    return Maps(try_places.Files(), [word.encode() for word in words], [word.encode() for word in listed])


def by_model(part: Tuple[str, List[bytes]]) -> List[bytes]:
    """What the model makes of lines with a kind of maps."""
    maps = maps_of(part[0])
    return [places.rewrite_line(line, maps) for line in part[1]]


def differences(given: Given, old: bytes, new: bytes) -> Iterator[Difference]:
    """The places of a line in which the two programs differ."""
    before, after = ({one.end: one.start for one in taken_in(given.text, became) or []} for became in (old, new))
    for end in sorted(set(before) | set(after)):
        if before.get(end) == after.get(end):
            continue
        numbers = re.search(rb":([0-9]+):([0-9]+)$", given.text[:end])
        assert numbers, given.text
        url = given.put.get((int(numbers[1]), int(numbers[2])))
        is_put = url is not None and given.text[:numbers.start()].endswith(url)
        yield Difference(given.text, end, before.get(end), after.get(end), numbers.start() - len(url) if url and is_put else None)


def shown(one: Difference) -> str:
    """The line of a difference, with the place between signs."""
    start = min(start for start in (one.old, one.new, one.truth) if start is not None)
    front, place, back = one.line[:start][-60:], one.line[start:one.end], one.line[one.end:][:30]
    return " ".join(part.decode(errors="replace").translate(CONTROLS) for part in (front, b"\xc2\xab" + place + b"\xc2\xbb", back))


CONTROLS = {byte: f"\\x{byte:02X}" for byte in [*range(0x20), 0x7F]}


def compare(kind: str, given: List[Given], old: str, new: str, folder: Path) -> Optional[str]:
    """Prints the causes for a kind of maps; says what is wrong."""
    words, listed = words_of(kind)
    lines = [one.text for one in given]
    files, text = Files(folder), b"\n".join(lines)
    run(old, words, listed, text, files)
    after = run(new, words, listed, text, files)
    # Once more, over all the files that the other one named.
    before = run(old, words, listed, text, files)
    with Pool(2) as pool:
        parts = [(kind, lines[at:at + 2000]) for at in range(0, len(lines), 2000)]
        wanted = [became for part in pool.map(by_model, parts) for became in part]
    wrong = [f"{line!r} becomes {became!r}, and by the model {want!r}" for line, became, want in zip(lines, after, wanted) if became != want]
    maps, found = maps_of(kind), {}
    for one, was, became in zip(given, before, after):
        for difference in differences(one, was, became) if was != became else ():
            said = f"{verdict(difference.old, difference.truth)} -> {verdict(difference.new, difference.truth)}"
            found.setdefault((said, cause_of(difference, maps)), []).append(difference)
    changed = sum(was != became for was, became in zip(before, after))
    print(f"\n{kind}: {changed} of {len(lines)} lines differ; {sum(map(len, found.values()))} places")
    for (said, cause), those in sorted(found.items()):
        print(f"{len(those):7} {said}: {cause}\n        {shown(min(those, key=lambda one: len(one.line)))}")
    return "\n".join(wrong[:3]) or None


def main(count: int) -> int:
    """Compares with each kind of maps."""
    with tempfile.TemporaryDirectory() as name:
        folder = Path(name)
        old, new = programs(folder)
        given = random_lines(count)
        wrong = [said for said in (compare(kind, given, old, new, folder) for kind in KINDS) if said]
    print(*wrong, f"{count} lines with each of {len(KINDS)} kinds of maps; " + ("not as the model says" if wrong else "all as the model says"), sep="\n")
    return bool(wrong)


if __name__ == "__main__":
    sys.exit(main(int(sys.argv[1]) if len(sys.argv) > 1 else 100000))
