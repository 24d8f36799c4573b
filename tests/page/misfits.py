"""What the page says of a map that does not fit its text."""

import json
import subprocess

import browsers
from pages import Checks, Page, opened, press_button, said

HIDDEN = "return document.getElementById('misfits').hidden"


def try_misfits(browser: browsers.Browser, swapped: Page, fitting: Page, checks: Checks) -> None:
    """The first page has the map of examples/receipt.min.js with the text examples/preset-react.js."""
    opened(browser, fitting)
    checks.insist("whether a map that fits is complained of", browser.run(HIDDEN), True)
    opened(browser, swapped)
    checks.insist("whether a map that does not is", browser.run(HIDDEN), False)
    checks.insist("the misfits", said(browser, "#misfits-count").split(": ")[1],
                  "of 1,638 mappings 1,247 stand past the text, and 7 stand inside a word.")
    run = subprocess.run([swapped.smap, "fit", "--json", swapped.map_path, swapped.text_path], stdout=subprocess.PIPE)
    fit = json.loads(run.stdout)
    line, column = min((first["line"], first["column"]) for first in (fit["firstPast"], fit["firstInside"]) if first)
    checks.insist("the first of them", said(browser, "#misfits-first"), f"First at {line}:{column}")
    press_button(browser, "#misfits-first")
    checks.insist("where a click leads", said(browser, "#asked"), f"{line}:{column}")
