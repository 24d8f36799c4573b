"""What is tried of the page: hostile files, a line of 5 MB, and whether it can be read."""

import time
from typing import Any

import browsers
import maps
from pages import Checks, Page, asked, colour, focus, is_seen, let_go, opened, press_button
from texts import try_positions

MOST_SECONDS = 3
GROUNDS = ["paper", "ground", "gutter", "hover", "chosen", "warning"]


def try_hostile(browser: browsers.Browser, page: Page, checks: Checks) -> None:
    """Nothing of the files runs or is markup, and all of it is there."""
    checks.insist("the generated text", browser.run("return smapPage.text(-1)"), page.text)
    for i, content in enumerate(page.shown["sourcesContent"]):
        checks.insist(f"the text of source {i}", browser.run("return smapPage.text(arguments[0])", i), content)
    for view in ("#see-areas", "#see-text"):
        press_button(browser, view)
    count = len(page.shown["sources"])
    for i in range(count):
        focus(browser, "#list")
        browser.press("Home", *["Down"] * i, "Enter")
    lines = [line for line, _ in maps.split_lines(page.text)]
    lengths = [len(line.encode("utf-16-le")) // 2 for line in lines]
    places = [(number + 1, column) for number, length in enumerate(lengths) for column in range(1, length + 3)]
    wanted = page.answers(places)
    given = asked(browser, *(f"{line}:{column}" for line, column in places))
    # smap prints a control character as `?`, and the page what shows nothing as its number. Where neither is, all is the same.
    plain = [(a, b) for a, (_, b, _) in zip(wanted, given) if "?" not in a and "\\u" not in b]
    checks.insist("answers without what shows nothing", len(plain) > 50, True)
    checks.insist("answers that differ", [pair for pair in plain if pair[0] != pair[1]], [])
    column = lambda answer: answer.split(" name ")[0].rsplit(":", 1)[-1].split(" ")[0]
    checks.insist("answers with another column", [a for a, (_, b, _) in zip(wanted, given) if column(a) != column(b)], [])
    hidden = [text for _, text, _ in given if any(ord(c) < 32 or c in "\x7f\x85\u2028\u2029\u202e\u200f\ufeff" for c in text)]
    checks.insist("answers with what shows nothing", hidden, [])
    checks.insist("what ran", browser.run("return window.hostile ?? null"), None)
    elements = browser.run("""
        const others = document.querySelectorAll('img, iframe, a, object, embed, link, base');
        return [document.scripts.length, others.length, document.title];
    """)
    checks.insist("scripts, other elements, and the title", elements, [1, 0, "hostile <b>&amp;.js · smap"])

    # The policy: no other script, style, picture or address.
    tried = browser.run("""
        const put = (name, key, value) => {
            const one = document.createElement(name);
            if (key) one.setAttribute(key, value);
            else one.textContent = value;
            document.body.append(one);
            one.click();
        };
        const tries = [
            () => put('script', '', 'window.ran = 1'),
            () => document.body.insertAdjacentHTML('beforeend', '<img src="x:" onerror="window.ran = 2">'),
            () => put('p', 'onclick', 'window.ran = 3'),
            () => put('iframe', 'src', 'javascript:parent.ran = 4'),
            () => put('style', '', 'body { border: 9px solid }'),
            () => document.body.setAttribute('style', 'border: 8px solid'),
        ];
        for (const one of tries) { try { one(); } catch { /* refused at once */ } }
        return getComputedStyle(document.body).borderTopWidth;
    """)
    time.sleep(0.3)
    checks.insist("a style that the policy lets through", tried, "0px")
    checks.insist("a script that the policy lets through", browser.run("return window.ran ?? null"), None)
    browser.run("fetch('data:,x').then(() => { window.asked = 'came'; }, () => { window.asked = 'refused'; })")
    time.sleep(0.3)
    checks.insist("what the network is asked", browser.run("return window.asked"), "refused")


def frame_time(browser: browsers.Browser, steps: int = 60) -> float:
    """The milliseconds of drawing a step of scrolling, the median of many."""
    browser.run("""
        const [steps] = arguments;
        const pane = document.querySelector('#generated .scroller');
        const times = [];
        window.frames_drawn = null;
        const next = () => {
            const wheel = new WheelEvent('wheel', { deltaX: 90, deltaY: 60, bubbles: true, cancelable: true });
            if (pane.dispatchEvent(wheel)) { pane.scrollLeft += 90; pane.scrollTop += 60; }
            requestAnimationFrame(() => {
                const begin = performance.now();
                requestAnimationFrame(() => {
                    times.push(performance.now() - begin);
                    if (times.length < steps) next();
                    else window.frames_drawn = times.sort((a, b) => a - b)[steps >> 1];
                });
            });
        };
        next();
    """, steps)
    for _ in range(400):
        taken = browser.run("return window.frames_drawn")
        if taken is not None:
            return float(taken)
        time.sleep(0.05)
    return float("inf")


def try_large(browser: browsers.Browser, page: Page, short: Page, checks: Checks) -> str:
    opened(browser, short)
    small = frame_time(browser)
    opened(browser, page)
    seconds = opened(browser, page) / 1000
    checks.insist(f"opened within {MOST_SECONDS} seconds, in {seconds}", seconds <= MOST_SECONDS, True)
    reported = browser.run("return smapPage.counts")
    checks.insist("the bytes that it has", reported["bytes"], page.text_path.stat().st_size)
    owned = browser.run("return smapPage.bytes()")
    checks.insist("all bytes", sum(owned["sources"]) + owned["unmapped"], page.text_path.stat().st_size)
    wrapped = frame_time(browser)
    try_positions(browser, page, checks, 60)
    press_button(browser, "#generated .wrap")
    asked(browser, "1:1")
    long = frame_time(browser)
    line = len(page.text)
    for column in (1, 77, 40000, line // 2, line - 3, line):
        answer = page.answers([(1, column)])[0]
        checks.insist(f"the answer at 1:{column}", asked(browser, f"1:{column}")[0][1], answer)
        browser.settle()
        checks.insist(f"1:{column} is in view", is_seen(browser, "generated", 1, column), True)
        # By the wheel each pixel counts, wherever in the line.
        before = browser.run("return smapPage.scrolled('generated').left")
        wheel = "new WheelEvent('wheel', { deltaX: -40, cancelable: true })"
        browser.run(f"document.querySelector('#generated .scroller').dispatchEvent({wheel})")
        browser.settle()
        after = browser.run("return smapPage.scrolled('generated').left")
        checks.insist(f"pixels that the wheel scrolls at 1:{column}", round(before - after), 40 if before >= 40 else 0)
    steps = f"a step of scrolling {long:.1f} ms, wrapped {wrapped:.1f}, a short text {small:.1f}"
    # One frame more at most.
    checks.insist(steps, max(wrapped, long) < 2 * small + 17, True)
    return f"{seconds:.2f} s to open {page.path.stat().st_size:,} bytes; {steps}"


def contrast(first: Any, second: Any) -> float:
    """The contrast of two colours, as WCAG has it."""
    lights = []
    for colour_of in (first, second):
        parts = [int(part) / 255 for part in colour_of]
        linear = [part / 12.92 if part <= 0.04045 else ((part + 0.055) / 1.055) ** 2.4 for part in parts]
        lights.append(0.2126 * linear[0] + 0.7152 * linear[1] + 0.0722 * linear[2])
    return (max(lights) + 0.05) / (min(lights) + 0.05)


def try_contrast(browser: browsers.Browser, page: Page, checks: Checks) -> None:
    """Texts can be read on each colour that is behind them. The page has sources of many colours."""
    shown = browser.run("""
        const style = getComputedStyle(document.documentElement);
        const parts = (name) => [1, 3, 5].map((at) => parseInt(style.getPropertyValue(`--${name}`).trim().slice(at, at + 2), 16));
        return Object.fromEntries(arguments[0].map((name) => [name, parts(name)]));
    """, ["text", "quiet", "accent", *GROUNDS, "row"])
    pairs = [(above, below) for above in ("text", "quiet") for below in GROUNDS]
    for above, below in [*pairs, ("text", "row"), ("accent", "paper")]:
        checks.insist(f"whether {above} can be read on {below}", contrast(shown[above], shown[below]) >= 4.5, True)
    least = 21.0
    for at in range(1, 24):
        line, column, *_ = page.mapped[at * 700]
        for is_chosen in (True, False):
            asked(browser, f"{line}:{column}")
            if not is_chosen:
                let_go(browser)
            browser.settle()
            behind = colour(browser, "generated", line, column)
            least = min(least, contrast(shown["text"], behind.split(",")[:3]) if behind else 0.0)
    checks.insist(f"whether texts can be read on the colours of sources, the least contrast being {least:.1f}", least >= 4.5, True)
