"""A page of a map in a browser, what is asked of it there, and what smap says of the map."""

import json
import random
import subprocess
import sys
import time
from pathlib import Path
from typing import Any, List, Tuple

import browsers
import files
import maps

ASK = """
    const place = document.getElementById('place');
    return arguments[0].map((text) => {
        place.value = text;
        document.getElementById('go').requestSubmit();
        return ['asked', 'answer', 'note'].map((id) => document.getElementById(id).textContent);
    });
"""
# The colour in the pane of a cell, a little above its bottom, where no letter is.
COLOUR = """
    const [pane, line, column] = arguments;
    const at = smapPage.pointOf(pane, line, column);
    if (!at) return null;
    const canvas = document.querySelector(`#${pane} canvas`);
    const box = canvas.getBoundingClientRect();
    const scale = canvas.width / box.width;
    return [...canvas.getContext('2d').getImageData((at.x - box.x) * scale, (at.y - box.y + 7.5) * scale, 1, 1).data].join();
"""


class Checks:
    def __init__(self) -> None:
        self.count = self.failed = 0
        self.about = ""

    def insist(self, what: str, given: Any, wanted: Any) -> None:
        self.count += 1
        if given != wanted:
            self.failed += 1
            print(f"FAILED: {self.about}: {what}: {str(given)[:300]!r} in place of {str(wanted)[:300]!r}", file=sys.stderr)


class Page:
    """A page of a map and the text that it is of, and what other programs say of the two."""

    def __init__(self, program: Path, pair: files.Pair, to: Path, *options: str) -> None:
        self.map_path, self.text_path = pair
        self.smap = program / "smap"
        self.path = to / f"{pair[1].name}.html"
        with self.path.open("wb") as out:
            subprocess.run([program / "smap-page", *options, *pair], stdout=out, check=True)
        self.shown = json.loads(subprocess.run([self.smap, "show", pair[0]], stdout=subprocess.PIPE, check=True).stdout)
        self.text = self.text_path.read_bytes().decode()
        self.mapped = mapped(self)

    def sources(self) -> Tuple[List[int], int]:
        """How many bytes smap says of each source, and of none."""
        run = subprocess.run([self.smap, "sources", "--json", self.map_path, self.text_path], stdout=subprocess.PIPE, check=True)
        *said, all_of_them = map(json.loads, run.stdout.decode().rstrip("\n").split("\n"))
        owned = {source["sourceIndex"]: source["bytes"] for source in said}
        return [owned.get(i, 0) for i in range(len(self.shown["sources"]))], all_of_them["unmapped"]

    def answers(self, places: List[Tuple[int, int]]) -> List[str]:
        """What smap says of positions."""
        asked = "".join(f"{line}:{column}\n" for line, column in places)
        run = subprocess.run([self.smap, "positions", self.map_path], input=asked.encode(), stdout=subprocess.PIPE, check=True)
        return run.stdout.decode().rstrip("\n").split("\n")

    def places(self, count: int, seed: int) -> List[Tuple[int, int]]:
        """Random positions: most in the text by its bytes, some past the ends of lines and of the file."""
        chance = random.Random(seed)
        lines = [line for line, _ in maps.split_lines(self.text)]
        lengths = [len(line.encode("utf-16-le")) // 2 for line in lines]
        weights = [length + 1 for length in lengths]
        chosen = chance.choices(range(len(lines)), weights, k=count)
        places = [(line + 1, chance.randint(1, lengths[line] + 1)) for line in chosen]
        past = [(len(lines) + 3, 1), (1, lengths[0] + 50), (chance.randint(1, len(lines)), 2147483648)]
        return [*places[: count - len(past)], *past]


def mapped(page: Page) -> List[Tuple[int, int, int, int, int]]:
    """The mappings that own text and lead into a text: line, column, source, original line and column. Lines and columns from 1."""
    contents = page.shown.get("sourcesContent", [])
    own = [len(line.encode("utf-16-le")) // 2 for line, _ in maps.split_lines(page.text)]
    lengths = [[len(line) for line, _ in maps.split_lines(content)] if content else [] for content in contents]
    found = []
    for number, line in enumerate(maps.decode(page.shown["mappings"])):
        for i, mapping in enumerate(line):
            is_last = i + 1 == len(line) or line[i + 1][0] > mapping[0]
            if len(mapping) == 1 or not is_last or number >= len(own) or mapping[0] >= own[number]:
                continue
            text = lengths[mapping[1]]
            if mapping[2] < len(text) and mapping[3] < text[mapping[2]]:
                found.append((number + 1, mapping[0] + 1, mapping[1], mapping[2] + 1, mapping[3] + 1))
    return found


def opened(browser: browsers.Browser, page: Page, place: str = "") -> float:
    """Opens a page, and gives the milliseconds from the start to the end of its script's work, all drawn once."""
    browser.open(page.path, place)
    for _ in range(600):
        ready = browser.run("return document.documentElement.dataset.ready")
        if ready:
            browser.settle()
            return float(ready)
        time.sleep(0.05)
    raise RuntimeError(f"{page.path} does not become ready")


def asked(browser: browsers.Browser, *texts: str) -> List[List[str]]:
    return browser.run(ASK, list(texts))


def said(browser: browsers.Browser, selector: str) -> str:
    return browser.run("return document.querySelector(arguments[0]).textContent", selector)


def press_button(browser: browsers.Browser, selector: str) -> None:
    browser.run("document.querySelector(arguments[0]).click()", selector)
    browser.settle()


def focus(browser: browsers.Browser, selector: str) -> None:
    browser.run("document.querySelector(arguments[0]).focus()", selector)


def let_go(browser: browsers.Browser) -> None:
    """What is chosen stays where it is, and is chosen no longer."""
    browser.run("document.activeElement.blur()")
    browser.press("Escape")


def open_source(browser: browsers.Browser) -> int:
    return browser.run("return smapPage.open()")


def point_of(browser: browsers.Browser, pane: str, line: int, column: int) -> Any:
    """The point of the page at a place of a pane, or None where it isn't seen."""
    return browser.run("return smapPage.pointOf(arguments[0], arguments[1], arguments[2])", pane, line, column)


def is_seen(browser: browsers.Browser, pane: str, line: int, column: int) -> bool:
    return bool(point_of(browser, pane, line, column))


def colour(browser: browsers.Browser, pane: str, line: int, column: int) -> Any:
    return browser.run(COLOUR, pane, line, column)
