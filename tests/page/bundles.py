"""What is tried of a page with several bundles, of the places of one original, and of the names that a base makes."""

import shutil
import subprocess
from pathlib import Path
from typing import Dict, List, Tuple

import browsers
import maps
from pages import Checks, Page, asked, focus, opened, press_button, said
from texts import FRAMES, PASTE

URL = "https://example.test"
CHOICE = "const [one] = arguments; const choice = document.getElementById('bundles'); choice.value = one; choice.dispatchEvent(new Event('change'))"
SHOWN = """
    const counted = ({ bytes, lines, mappings, sources }) => [bytes, lines, mappings, sources];
    return [smapPage.bundle(), document.title, document.getElementById('bundles').value, ...counted(smapPage.counts)];
"""


class Bundles:
    """A page of several bundles: two real ones, one of them in two folders under one name, and one that its map does not fit."""

    def __init__(self, program: Path, examples: Path, to: Path) -> None:
        receipt, preset = examples / "receipt.min.js", examples / "preset-react.min.js"
        texts = [receipt, preset, to / "a" / "app.js", to / "b" / "app.js", to / "swapped.js"]
        for path, text in zip(texts[2:], (receipt, preset, preset)):
            path.parent.mkdir(exist_ok=True)
            shutil.copyfile(text, path)
        pairs = list(zip([Path(f"{name}.map") for name in (receipt, preset, receipt, preset, receipt)], texts))
        self.names = ["receipt.min.js", "preset-react.min.js", "a/app.js", "b/app.js", "swapped.js"]
        (to / "each").mkdir()
        self.each = [Page(program, pair, to / "each") for pair in pairs]
        self.path = to / "bundles.html"
        with self.path.open("wb") as out:
            subprocess.run([program / "smap-page", *(path for pair in pairs for path in pair)], stdout=out, check=True)

    def shown(self, index: int) -> List[object]:
        """What SHOWN is to say of a bundle."""
        page = self.each[index]
        decoded = maps.decode(page.shown["mappings"])
        counts = [len(page.text.encode()), len(maps.split_lines(page.text)), sum(map(len, decoded)), len(page.shown["sources"])]
        return [index, f"{self.names[index]} · smap", str(index), *counts]


def try_bundles(browser: browsers.Browser, bundles: Bundles, alone: Page, checks: Checks) -> None:
    opened(browser, alone)
    checks.insist("whether one bundle has a choice", browser.run("return document.getElementById('bundles').hidden"), True)
    opened(browser, bundles)
    choices = browser.run("return [...document.querySelectorAll('#bundles option')].map(({ textContent }) => textContent)")
    checks.insist("the choice", choices, bundles.names)
    checks.insist("the bundle at first", browser.run(SHOWN), bundles.shown(0))
    for index, page in enumerate(bundles.each):
        browser.run(CHOICE, str(index))
        browser.settle()
        checks.insist(f"bundle {index}", browser.run(SHOWN), bundles.shown(index))
        places = page.places(40, index)
        answers = [browser.run("return smapPage.lookUp(...arguments)", line, column) for line, column in places]
        checks.insist(f"answers in bundle {index}", answers, page.answers(places))
        owned, unmapped = page.sources()
        checks.insist(f"bytes in bundle {index}", browser.run("return smapPage.bytes()"), {"sources": owned, "unmapped": unmapped})
        hidden = browser.run("return document.getElementById('misfits').hidden")
        checks.insist(f"whether bundle {index} is said to fit", hidden, index != 4)
        first = browser.run("return smapPage.chosen()")
        checks.insist(f"the first place of bundle {index}", said(browser, "#asked"), f"{first['line']}:{first['column']}")
        rows = browser.run("return document.querySelectorAll('#list .row').length")
        checks.insist(f"the sources of bundle {index}", rows, len(page.shown["sources"]))
    browser.run("document.activeElement.blur()")
    order = []
    for _ in range(6):
        browser.press("b")
        order.append(browser.run("return smapPage.bundle()"))
    checks.insist("bundles by b", order, [0, 1, 2, 3, 4, 0])

    # What is written chooses, by the longest name that its URL ends with.
    for text, index in [
        (f"at f ({URL}/receipt.min.js:2:4472)", 0),
        (f"at f ({URL}/x/preset-react.min.js?v=1:1:1030)", 1),
        (f"f@{URL}/a/app.js:2:1896", 2),
        (f"f@{URL}/x/b/app.js#y:1:1030", 3),
        ("at f (C:\\dist\\a\\app.js:2:4472)", 2),
        ("1:1", 2),
        (f"at f ({URL}/c/app.js:1:1)", 2),
        (f"at f ({URL}/ba/app.js:1:1)", 2),
        ("swapped.js:1:1", 4),
    ]:
        asked(browser, text)
        browser.settle()
        checks.insist(f"the bundle of {text}", browser.run("return smapPage.bundle()"), index)
    opened(browser, bundles, "#b/app.js:1:1030")
    checks.insist("the bundle behind #", [browser.run("return smapPage.bundle()"), said(browser, "#asked")], [3, "1:1030"])

    # The frames of a trace over all of them.
    frames = [("receipt.min.js", 2, 4472, 0), ("b/app.js", 1, 1030, 3), ("other.js", 1, 1, None), ("a/app.js", 2, 1896, 2), ("preset-react.min.js", 1, 9, 1)]
    trace = "".join(f"    at f ({URL}/{name}:{line}:{column})\n" for name, line, column, _ in frames)
    browser.run(PASTE, f"Error\n{trace}")
    browser.settle()
    wanted = ["another file" if index is None else bundles.each[index].answers([(line, column)])[0] for _, line, column, index in frames]
    checks.insist("the origins of frames", [row[1] for row in browser.run(FRAMES)], wanted)
    for i, (_, line, column, index) in enumerate(frames):
        before = browser.run("return smapPage.bundle()")
        press_button(browser, f"#frames-list li:nth-child({i + 1}) button")
        checks.insist(f"the bundle of frame {i}", browser.run("return smapPage.bundle()"), before if index is None else index)
        checks.insist(f"the place of frame {i}", said(browser, "#asked"), f"{line}:{column}")
    checks.insist("frames that are still there", len(browser.run(FRAMES)), len(frames))
    press_button(browser, "#frames-close")


def originals(page: Page) -> Dict[Tuple[int, ...], List[Tuple[int, int]]]:
    """The places of each original, from 1, in the order of the generated text."""
    found: Dict[Tuple[int, ...], List[Tuple[int, int]]] = {}
    for number, line in enumerate(maps.decode(page.shown["mappings"])):
        for mapping in line:
            if len(mapping) > 1:
                found.setdefault(mapping[1:4], []).append((number + 1, mapping[0] + 1))
    return found


def try_alike(browser: browsers.Browser, page: Page, checks: Checks) -> None:
    """From an original to each of its places, there and back."""
    chosen = "const now = smapPage.chosen(); return [now.line, now.column]"
    found = originals(page)
    many = sorted((places for places in found.values() if len(set(places)) == len(places) > 1), key=len)
    sole = next(places[0] for places in found.values() if len(places) == 1)
    checks.insist("whether an original has several places", len(many) > 0, True)
    asked(browser, "{}:{}".format(*sole))
    checks.insist("whether one place alone is counted", browser.run("return document.getElementById('alike').hidden"), True)
    for places in (many[0], many[-1]):
        count = len(places)
        asked(browser, "{}:{}".format(*places[0]))
        focus(browser, "#generated .scroller")
        for step, (line, column) in enumerate([*places, places[0]]):
            checks.insist(f"place {step} of {count}", browser.run(chosen), [line, column])
            checks.insist(f"what is said of place {step}", said(browser, "#alike-count"), f"place {step % count + 1} of {count}")
            browser.press("o")
        browser.press("O")
        checks.insist("the place before", browser.run(chosen), list(places[0]))
        press_button(browser, "#alike-before")
        checks.insist("the last place", browser.run(chosen), list(places[-1]))
        press_button(browser, "#alike-after")
        checks.insist("the first place again", browser.run(chosen), list(places[0]))


def try_names(browser: browsers.Browser, page: Page, base: Page, checks: Checks) -> None:
    """Sources have the names of the map, and as a hint those that a base makes. The second page has the base URL/js/app.js."""
    opened(browser, base)
    rows = browser.run("return [...document.querySelectorAll('#list .row')].map((row) => [Number(row.dataset.source), row.querySelector('b').textContent, row.title])")
    names = page.shown["sources"]
    wanted = [[index, names[index].rsplit("/", 1)[-1], f"{URL}/js/{names[index]}"] for index, _, _ in rows]
    checks.insist("the names and hints of the list", rows, wanted)
    source = browser.run("return smapPage.open()")
    title = browser.run("return document.querySelector('#original .name').title")
    checks.insist("the name of the open source", [said(browser, "#original .name"), title], [names[source], f"{URL}/js/{names[source]}"])
    answer = asked(browser, "2:4472")[0][1]
    checks.insist("the answer with a base", answer, f"{URL}/js/{page.answers([(2, 4472)])[0]}")
