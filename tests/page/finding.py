"""What is tried of the page: the search in both texts."""

import time
from typing import List, Tuple

import browsers
import maps
from pages import Checks, Page, asked, focus, is_seen, press_button, said

FOUND = "return document.querySelector(`#${arguments[0]} .find output`).textContent"
FIND = """
    const field = document.querySelector(`#${arguments[0]} .find input`);
    field.value = arguments[1];
    field.dispatchEvent(new Event('input'));
"""
CLOSED = "return [...document.querySelectorAll(`#${arguments[0]} .find button`)].map(({ disabled }) => disabled)"
FOCUS = "return document.activeElement.closest('.pane')?.id + ' ' + document.activeElement.tagName"


def places_of(text: str, words: str) -> List[Tuple[int, int]]:
    """Where words stand in a text, whatever their case: lines and columns from 1."""
    places = []
    for number, (line, _) in enumerate(maps.split_lines(text)):
        folded, wanted, column, last = line.lower(), words.lower(), 0, 0
        at = folded.find(wanted)
        while at >= 0:
            column += len(line[last:at].encode("utf-16-le")) // 2
            places.append((number + 1, column + 1))
            last, at = at, folded.find(wanted, at + len(words))
    return places


def try_find(browser: browsers.Browser, page: Page, checks: Checks) -> None:
    """Words in both texts. The page is that of examples/receipt.min.js."""
    asked(browser, "2:4472")
    source = browser.run("return smapPage.open()")
    texts = {"generated": page.text, "original": page.shown["sourcesContent"][source]}
    for pane, text in texts.items():
        for words in ("cents", "CENTS", "}", "(", ".", "\\n", "^", "nowhere in it", "a"):
            browser.run(FIND, pane, words)
            count = len(places_of(text, words))
            checks.insist(f"how often {words!r} stands in the {pane} text", browser.run(FOUND, pane), f"0 of {count}")
            checks.insist(f"whether there is a way to {words!r}", browser.run(CLOSED, pane), [count == 0] * 2)
    for pane, text in texts.items():
        asked(browser, "2:4472")
        places = places_of(text, "e")
        # The caret of the original text is at 11:47.
        caret = (2, 4472) if pane == "generated" else (11, 47)
        at = next(i for i, place in enumerate(places) if place >= caret)
        focus(browser, f"#{pane} .scroller")
        browser.press("/", "e")
        checks.insist(f"where / leads from the {pane} text", browser.run(FOCUS), f"{pane} INPUT")
        for step in (0, 1, 2):
            browser.press("Enter")
            line, column = places[(at + step) % len(places)]
            checks.insist("the number after Enter", browser.run(FOUND, pane), f"{(at + step) % len(places) + 1} of {len(places)}")
            checks.insist(f"whether {line}:{column} is in view", is_seen(browser, pane, line, column), True)
            if pane == "generated":
                checks.insist("the place that is asked for", said(browser, "#asked"), f"{line}:{column}")
                checks.insist("its answer", said(browser, "#answer"), page.answers([(line, column)])[0])
        for step in (1, 0, -1):
            press_button(browser, f"#{pane} .find button")
            checks.insist("the number before it", browser.run(FOUND, pane), f"{(at + step) % len(places) + 1} of {len(places)}")
        # Round both ends.
        for button, wanted in (("[aria-label=Next]", at), ("[aria-label=Previous]", at - 1)):
            press_button(browser, f"#{pane} .find {button}")
            checks.insist("the number at the end", browser.run(FOUND, pane), f"{wanted % len(places) + 1} of {len(places)}")
        focus(browser, f"#{pane} .find input")
        browser.press("Escape")
        checks.insist("what Escape leaves", [browser.run(FOUND, pane), browser.run(FOCUS)], ["", f"{pane} DIV"])
    # Another source is searched for the same words.
    browser.run(FIND, "original", "function")
    for other, content in enumerate(page.shown["sourcesContent"]):
        browser.run("document.querySelector(`#list [data-source='${arguments[0]}']`).click()", other)
        browser.settle()
        wanted = f"0 of {len(places_of(content, 'function'))}"
        checks.insist(f"how often it stands in source {other}", browser.run(FOUND, "original"), wanted)
    for pane in texts:
        browser.run(FIND, pane, "")


def try_find_strange(browser: browsers.Browser, page: Page, checks: Checks) -> None:
    """Words of pairs, joined and wide characters."""
    for words in ("\U0001f600", "\u6f22", "e\u0301", "\u05d0", "</script>", "\ufeff", "${1}"):
        browser.run(FIND, "generated", words)
        count = len(places_of(page.text, words))
        checks.insist(f"whether there is {words!a}", count > 0, True)
        checks.insist(f"how often {words!a} stands in the text", browser.run(FOUND, "generated"), f"0 of {count}")
    browser.run(FIND, "generated", "")


def try_find_large(browser: browsers.Browser, page: Page, checks: Checks) -> None:
    """Many places in a long line."""
    asked(browser, "1:1")
    begin = time.monotonic()
    browser.run(FIND, "generated", "e")
    press_button(browser, "#generated .find [aria-label=Previous]")
    seconds = time.monotonic() - begin
    places = places_of(page.text, "e")
    checks.insist("how many there are", browser.run(FOUND, "generated"), f"{len(places)} of {len(places)}")
    checks.insist("whether the last is in view", is_seen(browser, "generated", *places[-1]), True)
    checks.insist(f"whether it is found within 2 seconds, in {seconds:.2f}", seconds < 2, True)
    browser.run(FIND, "generated", "")
