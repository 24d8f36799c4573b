"""What is tried of a page that was made with a trace."""

import subprocess
from pathlib import Path

import browsers
from pages import Checks, focus, opened, said
from texts import FRAMES

URL = "https://example.test"
# The names of functions are those that examples/receipt/ has, where the minifier made N and fe of them.
TRACE = f"""TypeError: <img src=x onerror='window.hostile = 9'>
    at Object.total ({URL}/receipt.min.js:2:4472)
    at other ({URL}/other.js:9:9)
    at N ({URL}/receipt.min.js:2:4412)
    at async fe ({URL}/receipt.min.js:3:37)
    at N ({URL}/receipt.min.js:2:4412) {{
"""
SEEN = [
    [f"at Object.total ({URL}/receipt.min.js:2:4472)", f"at Object.total ({URL}/src/receipt.ts:11:47)", True],
    [f"at other ({URL}/other.js:9:9)", "another file", False],
    [f"at N ({URL}/receipt.min.js:2:4412)", f"at receipt ({URL}/src/receipt.ts:8:29)", False],
    [f"at async fe ({URL}/receipt.min.js:3:37)", f"at async main ({URL}/src/main.ts:4:15)", False],
    # It is no frame, as of what stands behind it, and the page answers for the place alone.
    [f"at N ({URL}/receipt.min.js:2:4412) {{", "src/receipt.ts:8:29", False],
]


class Given:
    """A page of two bundles and a trace, of which one bundle is that of examples/receipt.min.js."""

    def __init__(self, program: Path, examples: Path, to: Path) -> None:
        receipt, preset = examples / "receipt.min.js", examples / "preset-react.min.js"
        trace = to / "given.trace"
        trace.write_text(TRACE)
        pairs = [Path(f"{preset}.map"), preset, Path(f"{receipt}.map"), receipt]
        self.path = to / "given.html"
        with self.path.open("wb") as out:
            subprocess.run([program / "smap-page", "--trace", trace, *pairs], stdout=out, check=True)


def try_given(browser: browsers.Browser, page: Given, checks: Checks) -> None:
    opened(browser, page)
    checks.insist("the frames of the trace", browser.run(FRAMES), SEEN)
    checks.insist("how many", said(browser, "#frames-count"), f"{len(SEEN)} frames")
    checks.insist("the bundle of the first frame", browser.run("return smapPage.bundle()"), 1)
    checks.insist("the place of the first frame", said(browser, "#asked"), "2:4472")
    checks.insist("what ran", browser.run("return window.hostile ?? null"), None)
    # The frames are one stop of Tab.
    stops = "return document.querySelectorAll('#frames-list [tabindex=\"0\"]').length"
    focus(browser, "#frames-list button")
    for keys, place in ((("Down", "Down", "Enter"), "2:4412"), (("Home", "Enter"), "2:4472"), (("Up", "Down", "Down", "Down", "Enter"), "3:37")):
        browser.press(*keys)
        checks.insist(f"the place after {keys}", said(browser, "#asked"), place)
        checks.insist(f"stops of Tab after {keys}", browser.run(stops), 1)
    browser.run("document.querySelector('#frames-close').click()")
    checks.insist("where the focus is once they are closed", browser.run("return document.activeElement.id"), "place")
    opened(browser, page, "#receipt.min.js:2:1896")
    checks.insist("the place of the address", said(browser, "#asked"), "2:1896")
    checks.insist("the frames there, of which none is marked", browser.run(FRAMES), [[*row[:2], False] for row in SEEN])
