"""What is tried of the page: views that were hidden, what has no counterpart, and what fits where."""

import browsers
from pages import Checks, Page, asked, focus, is_seen, let_go, opened, point_of, press_button, said
from texts import hidden_views

NARROW = (560, 800)
# Whether a pane's canvas is as large as what is seen of it, and not of one colour.
DRAWN = """
    return ['generated', 'original'].map((name) => {
        const canvas = document.querySelector(`#${name} canvas`);
        const { clientWidth, clientHeight } = document.querySelector(`#${name} .scroller`);
        if (!clientWidth || canvas.style.width !== `${clientWidth}px` || canvas.style.height !== `${clientHeight}px`) return false;
        const { data } = canvas.getContext('2d').getImageData(0, 0, canvas.width, canvas.height);
        return new Set(new Uint32Array(data.buffer)).size > 9;
    });
"""
ORIGINAL = "return document.querySelector('#original canvas').toDataURL()"
ROOM = "return document.querySelector('#original .spacer').offsetWidth"
WAY = "return [...document.querySelectorAll('#way button')].map(({ textContent }) => textContent)"
FOLDERS = "return [...document.querySelectorAll('#areas .folder')].map((one) => one.getAttribute('aria-label').split(',')[0])"
# Shares that are cut, and names that are cut to a few letters.
CUT = """
    const cut = ({ scrollWidth, clientWidth }) => scrollWidth > clientWidth;
    const all = (selector) => [...document.querySelectorAll(selector)];
    const few = all('#areas .label b').filter((one) => cut(one) && one.clientWidth < 40);
    return [...all('#areas .label i').filter(cut), ...few].map(({ textContent }) => textContent);
"""
LINE = """
    const cut = ({ scrollWidth, clientWidth }) => scrollWidth > clientWidth;
    const parts = [...document.querySelectorAll('#answer span')];
    const isOut = (one) => one.getBoundingClientRect().right > innerWidth;
    return [parts, parts.filter((one) => cut(one) || isOut(one))].map((all) => all.map(({ className }) => className));
"""
FILTER = """
    const filter = document.getElementById('filter');
    filter.value = arguments[0];
    filter.dispatchEvent(new Event('input'));
"""


def try_hidden(browser: browsers.Browser, page: Page, checks: Checks) -> None:
    """What changes while the areas are seen is drawn in the texts. The page is that of examples/receipt.min.js."""
    def insist_drawn(after: str) -> None:
        browser.settle()
        checks.insist(f"panes that are drawn after {after}", browser.run(DRAWN), [True, True])

    asked(browser, "2:4472")
    insist_drawn("the start")
    press_button(browser, "#see-areas")
    browser.resize((1100, 700))
    browser.settle()
    press_button(browser, "#see-text")
    insist_drawn("another size")
    checks.insist("whether the chosen place is in view at another size", is_seen(browser, "generated", 2, 4472), True)
    for size in ((1000, 900), browsers.SIZE):
        browser.resize(size)
        insist_drawn(f"the size {size}")
        checks.insist(f"whether the chosen place is in view at {size}", is_seen(browser, "generated", 2, 4472), True)
    light = browser.run(ORIGINAL)
    press_button(browser, "#see-areas")
    browser.prefer(True)
    browser.settle()
    press_button(browser, "#see-text")
    insist_drawn("dark")
    checks.insist("whether dark is another picture", browser.run(ORIGINAL) != light, True)
    browser.prefer(False)
    insist_drawn("light again")
    checks.insist("whether light is the same picture", browser.run(ORIGINAL) == light, True)
    first = browser.run("return smapPage.open()")
    for key in "nnp":
        press_button(browser, "#see-areas")
        # The first place of the generated text is in another source.
        browser.press("Escape")
        browser.press(key)
        checks.insist(f"the view after {key}", hidden_views(browser), [False, True])
        press_button(browser, "#see-text")
        insist_drawn(key)
    checks.insist("whether another source is open", browser.run("return smapPage.open()") != first, True)
    asked(browser, "2:4472")
    press_button(browser, "#see-areas")
    for _ in range(2):
        browser.press("w")
        insist_drawn("w")
        checks.insist("the place in view after w", is_seen(browser, "generated", 2, 4472), True)


def try_none(browser: browsers.Browser, page: Page, checks: Checks) -> None:
    """Of a place without a counterpart none is shown. The page is that of examples/receipt.min.js."""
    asked(browser, "2:4472")
    browser.move(5, 5)
    chosen = browser.run(ORIGINAL)
    let_go(browser)
    plain = browser.run(ORIGINAL)
    checks.insist("whether what is chosen is seen", chosen != plain, True)
    asked(browser, "2:4472")
    answer = asked(browser, "8:3")[0][1]
    browser.settle()
    checks.insist("the answer at 8:3", answer, page.answers([(8, 3)])[0])
    checks.insist("whether a counterpart is seen of 8:3", browser.run(ORIGINAL) != plain, False)
    # By a click on such a place too.
    asked(browser, "2:4472")
    point = point_of(browser, "generated", 5, 1) or point_of(browser, "generated", 4, 3)
    browser.click(point["x"], point["y"])
    browser.move(5, 5)
    checks.insist("the answer of unmapped text", said(browser, "#answer"), "none")
    checks.insist("whether a counterpart is seen of unmapped text", browser.run(ORIGINAL) != plain, False)
    # What is chosen is marked as before when another source was looked at.
    asked(browser, "2:4472")
    point = point_of(browser, "generated", 3, 20)
    browser.move(point["x"], point["y"])
    browser.move(5, 5)
    checks.insist("whether what is chosen is marked again", browser.run(ORIGINAL) == chosen, True)


def try_hash(browser: browsers.Browser, page: Page, checks: Checks) -> None:
    """A wrong escape in the address. The page is that of examples/receipt.min.js."""
    opened(browser, page, "#%zz")
    checks.insist("the note of a wrong escape", said(browser, "#note").startswith("That names no place"), True)
    checks.insist("an answer on that page", browser.run("return smapPage.lookUp(2, 4472)"), page.answers([(2, 4472)])[0])
    for written, place in [("#2%3A4472", "2:4472"), ("#%", ""), ("#2:1896", "2:1896")]:
        browser.run("location.hash = arguments[0]", written)
        browser.settle()
        checks.insist(f"the place of {written}", said(browser, "#asked"), place)


def try_folders(browser: browsers.Browser, page: Page, checks: Checks) -> None:
    """The names of folders. The page is that of files.placed."""
    press_button(browser, "#see-areas")
    wanted = [source.rsplit("/", 1)[0] for source in page.shown["sources"] if "/" in source]
    checks.insist("the folders", sorted(browser.run(FOLDERS)), sorted(wanted))
    browser.run("document.querySelector('#areas .folder[aria-label^=\"file:\"]').click()")
    checks.insist("the way to a folder", browser.run(WAY), ["All", "file:///srv/www"])
    press_button(browser, "#see-text")


def try_room(browser: browsers.Browser, page: Page, checks: Checks) -> None:
    """A place far past the end of its line makes room only while it is seen. The page is that of files.placed."""
    asked(browser, "1:1")
    room = browser.run(ROOM)
    for leave in (lambda: asked(browser, "1:1"), lambda: let_go(browser), lambda: asked(browser, "2:1")):
        asked(browser, "1:33")
        checks.insist("whether the far place is in view", is_seen(browser, "original", 1, 100001), True)
        leave()
        checks.insist("the room after it", browser.run(ROOM), room)
    point = point_of(browser, "generated", 1, 33)
    asked(browser, "1:1")
    browser.move(point["x"], point["y"])
    checks.insist("whether a far place that is pointed at is in view", is_seen(browser, "original", 1, 100001), True)
    browser.move(5, 5)
    checks.insist("the room after it was pointed at", browser.run(ROOM), room)
    checks.insist("whether the chosen place is in view again", is_seen(browser, "original", 1, 1), True)


def try_line(browser: browsers.Browser, page: Page, checks: Checks) -> None:
    """The line at the bottom. The page is that of files.placed."""
    for size in (NARROW, browsers.SIZE):
        browser.resize(size)
        asked(browser, "1:1")
        checks.insist(f"the line at the bottom at {size}", said(browser, "#answer"), page.answers([(1, 1)])[0])
        parts = ["path", "place", "name", "mark"]
        checks.insist(f"its parts, and those that are cut, at {size}", browser.run(LINE), [parts, ["path"]])
    press_button(browser, "#see-areas")
    checks.insist("the line below the areas", said(browser, "#status"), "Click an area or a folder to open it. ? shows the keys.")
    press_button(browser, "#see-text")
    checks.insist("the line below the texts again", said(browser, "#answer"), page.answers([(1, 1)])[0])


def try_filter(browser: browsers.Browser, page: Page, checks: Checks) -> None:
    """The filter. The page is that of files.placed."""
    rows = "return [...document.querySelector('#list .rows').children].map(({ textContent }) => textContent)"
    browser.run(FILTER, "nowhere")
    checks.insist("the list of no source", browser.run(rows), ["No source has this in its name."])
    focus(browser, "#list")
    browser.press("Down", "Enter")
    browser.run(FILTER, "SRV")
    checks.insist("the list of one source", browser.run(rows), ["a.js10.8 %file:///srv/www/4 bytes"])
    browser.run(FILTER, "")
    checks.insist("the list of all sources", len(browser.run(rows)), len(page.shown["sources"]))


def try_help(browser: browsers.Browser, page: Page, checks: Checks) -> None:
    """The keys where they don't fit: their beginning is seen first. The line of a chosen place is there for who listens."""
    browser.resize(NARROW)
    press_button(browser, "#help")
    checks.insist("where the keys begin", browser.run("return document.getElementById('keys').scrollTop"), 0)
    browser.press("Escape")
    browser.resize(browsers.SIZE)
    asked(browser, "2:4472")
    checks.insist("the line that is read", said(browser, "#line"), "total: () => ((line.count * line.price!.cents) / 100).toFixed(2),")
    asked(browser, "8:3")
    checks.insist("the line of a place without an original", said(browser, "#line"), "")


def try_labels(browser: browsers.Browser, page: Page, checks: Checks) -> None:
    """Labels of areas. The page has areas of many sizes."""
    for size in (NARROW, browsers.SIZE):
        browser.resize(size)
        press_button(browser, "#see-areas")
        browser.settle()
        checks.insist(f"labels that are cut at {size}", browser.run(CUT), [])
        labels = "return document.querySelectorAll('#areas .label').length > 5"
        checks.insist(f"whether there are labels at {size}", browser.run(labels), True)
        title = "return document.getElementById('title').offsetWidth > 0"
        checks.insist(f"whether there is a title at {size}", browser.run(title), size != NARROW)
    press_button(browser, "#see-text")
