"""What is tried of the page: bytes and areas, counterparts, the field, the keys and the marks."""

import random
from typing import List

import browsers
import maps
from pages import Checks, Page, asked, colour, focus, is_seen, let_go, open_source, opened, point_of, press_button, said

POSITIONS = 200
AREAS = """
    const view = document.getElementById('areas');
    return [view.clientWidth * view.clientHeight, Number(view.dataset.unseen), Number(view.dataset.bytes),
        [...view.querySelectorAll('[data-bytes]')].map(({ dataset, offsetWidth, offsetHeight }) =>
            [Number(dataset.source), Number(dataset.bytes), offsetWidth * offsetHeight])];
"""


def hidden_views(browser: browsers.Browser) -> List[bool]:
    return browser.run("return ['texts', 'areas-view'].map((id) => document.getElementById(id).hidden)")


def try_bytes(browser: browsers.Browser, page: Page, checks: Checks) -> None:
    owned, unmapped = maps.bytes_by_source(page.shown, page.text)
    reported = browser.run("return smapPage.bytes()")
    checks.insist("the bytes by smap", (reported["sources"], reported["unmapped"]), page.sources())
    checks.insist("the bytes of the sources", reported["sources"], owned)
    checks.insist("the unmapped bytes", reported["unmapped"], unmapped)
    checks.insist("all bytes", sum(reported["sources"]) + reported["unmapped"], page.text_path.stat().st_size)
    press_button(browser, "#see-areas")
    room, unseen, total, drawn = browser.run(AREAS)
    checks.insist("the bytes of the areas", sum(area[1] for area in drawn) + unseen, page.text_path.stat().st_size)
    checks.insist("the bytes of all folders", total, page.text_path.stat().st_size)
    other = [area for area in drawn if area[0] >= 0 and owned[area[0]] != area[1]]
    checks.insist("areas of other bytes than their sources", other, [])
    if browser.run("return Boolean(document.querySelector('#areas .folder'))"):
        inside = "return document.querySelector('#areas .folder').getAttribute('aria-label')"
        label = browser.run(inside)
        press_button(browser, "#areas .folder")
        _, hidden, within, areas = browser.run(AREAS)
        checks.insist("the bytes of a folder's areas", sum(area[1] for area in areas) + hidden, within)
        checks.insist("the bytes of a folder", f" {within:,} bytes" in label, True)
        checks.insist("the way to a folder", browser.run("return document.querySelectorAll('#way button').length"), 2)
        press_button(browser, "#way button")
        checks.insist("the folder from above again", browser.run(inside), label)
    for source in [area[0] for area in drawn if area[0] >= 0][:3]:
        press_button(browser, "#see-areas")
        browser.run("document.querySelector(`#areas [data-source='${arguments[0]}']`).click()", source)
        shown = browser.run("return [smapPage.open(), document.getElementById('texts').hidden]")
        checks.insist("what an area opens", shown, [source, False])
    if total and len(drawn) < 20:
        # Edges and heads take some of the room.
        wrong = [area for area in drawn if abs(area[2] / room - area[1] / total) > 0.05]
        checks.insist("areas that are too large or too small", wrong, [])
    press_button(browser, "#see-text")


def try_positions(browser: browsers.Browser, page: Page, checks: Checks, count: int = POSITIONS) -> None:
    places = page.places(count, 27)
    wanted = page.answers(places)
    given = asked(browser, *(f"{line}:{column}" for line, column in places))
    for place, answer, (reported, shown, _) in zip(places, wanted, given):
        checks.insist(f"the answer at {place}", shown, answer)
        checks.insist("the place that is reported", reported, f"{place[0]}:{place[1]}")


def try_pointing(browser: browsers.Browser, page: Page, checks: Checks, count: int) -> None:
    """Points at a mapping in the one text and looks at the other, clicks, and back."""
    for line, column, source, down, across in random.Random(3).sample(page.mapped, min(count, len(page.mapped))):
        here = f"at {line}:{column}"
        answer = page.answers([(line, column)])[0]
        asked(browser, f"{line}:{column}")
        let_go(browser)
        browser.move(5, 5)
        point = point_of(browser, "generated", line, column)
        checks.insist(f"{here} is in view", bool(point), True)
        if not point:
            continue
        browser.move(point["x"], point["y"])
        checks.insist(f"what is pointed at {here}", browser.run("return smapPage.pointed()?.answer"), answer)
        checks.insist(f"the line at the bottom {here}", said(browser, "#answer"), answer)
        checks.insist(f"the source beside {here}", open_source(browser), source)
        checks.insist(f"the counterpart of {here} is in view", is_seen(browser, "original", down, across), True)
        lit = colour(browser, "original", down, across), colour(browser, "generated", line, column)
        browser.click(point["x"], point["y"])
        browser.move(5, 5)
        checks.insist(f"what stays chosen {here}", browser.run("return smapPage.chosen()?.answer"), answer)
        chosen = colour(browser, "original", down, across), colour(browser, "generated", line, column)
        let_go(browser)
        plain = colour(browser, "original", down, across), colour(browser, "generated", line, column)
        checks.insist(f"texts that light up {here}", [a != b for a, b in zip(lit, plain)], [True, True])
        checks.insist(f"texts that stay lit {here}", [a != b for a, b in zip(chosen, plain)], [True, True])

        # From the original: the generated text is elsewhere, and a click brings it back.
        scroll = "const pane = document.querySelector('#generated .scroller'); pane.scrollTop = arguments[0]; pane.scrollLeft = 0"
        browser.run(scroll, 0 if line > 5 else 1000000000)
        browser.settle()
        point = point_of(browser, "original", down, across)
        checks.insist(f"the original of {here} is in view", bool(point), True)
        if not point:
            continue
        browser.move(point["x"], point["y"])
        reported = browser.run("return smapPage.pointed()")
        place = answer.split(" ")[0]
        checks.insist(f"the original that is pointed at, of {here}", reported and reported["answer"].split(" ")[0], place)
        browser.click(point["x"], point["y"])
        reported = browser.run("return smapPage.chosen()")
        checks.insist(f"the original that is chosen, of {here}", reported and reported["answer"].split(" ")[0], place)
        is_back = bool(reported) and is_seen(browser, "generated", reported["line"], reported["column"])
        checks.insist(f"its counterpart, of {here}, is in view", is_back, True)
        browser.move(5, 5)


def try_opened(browser: browsers.Browser, page: Page, checks: Checks) -> None:
    """What a page shows first: the first place of the largest source, in both texts."""
    opened(browser, page)
    owned, _ = page.sources()
    largest = owned.index(max(owned))
    line, column, first = next(
        (number + 1, mapping[0] + 1, mapping)
        for number, line in enumerate(maps.decode(page.shown["mappings"]))
        for mapping in line
        if len(mapping) > 1 and mapping[1] == largest
    )
    checks.insist("the source that is open at first", open_source(browser), largest)
    checks.insist("the place at first", said(browser, "#asked"), f"{line}:{column}")
    checks.insist("the answer at first", said(browser, "#answer"), page.answers([(line, column)])[0])
    checks.insist("the note at first", said(browser, "#note"), "Point at either text. ? shows the keys.")
    checks.insist("whether it is in view", is_seen(browser, "generated", line, column), True)
    checks.insist("whether its original is in view", is_seen(browser, "original", first[2] + 1, first[3] + 1), True)
    let_go(browser)
    checks.insist("the place after Escape", said(browser, "#asked"), "")


def try_preview(browser: browsers.Browser, page: Page, checks: Checks) -> None:
    """What is pointed at shows for as long as it is. The page is that of examples/receipt.min.js."""
    asked(browser, "2:4472")
    browser.move(5, 5)
    before = browser.run("return [smapPage.open(), smapPage.scrolled('original')]")
    point = point_of(browser, "generated", 3, 20)
    browser.move(point["x"], point["y"])
    source = page.shown["sources"].index(page.answers([(3, 20)])[0].rsplit(":", 2)[0])
    checks.insist("the source of what is pointed at is another", source == before[0], False)
    checks.insist("the source of what is pointed at", open_source(browser), source)
    browser.move(5, 5)
    checks.insist("what is shown afterwards", browser.run("return [smapPage.open(), smapPage.scrolled('original')]"), before)
    checks.insist("what is chosen still", said(browser, "#asked"), "2:4472")


def try_field(browser: browsers.Browser, page: Page, checks: Checks) -> None:
    """What may be written into the field. The page is that of examples/receipt.min.js."""
    url = "https://example.test/receipt.min.js"
    total, lookup = "2:4472", "2:1896"
    trace = (page.map_path.parent / "receipt.trace").read_text()
    for text, place in [
        ("2:4472", total),
        ("  2 : 4472 ", total),
        ("2 4472", total),
        ("(2:4472)", total),
        ("2,4472", total),
        (f"    at Object.total ({url}:2:4472)", total),
        (f"at async fe ({url}:2:4472)", total),
        (f"at {url}:2:4472", total),
        (f"at async {url}:2:4472", total),
        (f"    at new Writer ({url}?v=1:2#x:2:4472)", total),
        (f"total@{url}:2:4472", total),
        (f"@{url}:2:4472", total),
        (f"async*fe@{url}:2:4472", total),
        (f"global code@{url}:2:4472", total),
        (f"{url}:2:4472", total),
        ("receipt.min.js:2:4472", total),
        (f"at eval (eval at lookup ({url}:2:1896), <anonymous>:1:1)", lookup),
        (f"at eval (eval at lookup ({url}:2:1896), <anonymous>:1:1), <anonymous>:3:9", lookup),
        (f"lookup@{url} line 2 > eval:1:1 and {url}:2:1896", lookup),
        (" ".join(trace.split("\n")), total),
        (" ".join(trace.split("\n")[2:]), lookup),
    ]:
        line, column = map(int, place.split(":"))
        reported, answer, note = asked(browser, text)[0]
        checks.insist(f"the place of {text[:60]!r}", reported, place)
        checks.insist(f"the answer of {text[:60]!r}", answer, page.answers([(line, column)])[0])
        checks.insist(f"the note of {text[:60]!r}", note, "")
        checks.insist(f"the place of {text[:60]!r} is in view", is_seen(browser, "generated", line, column), True)
    note = asked(browser, "at f (https://example.test/other.js:2:4472)")[0][2]
    checks.insist("another file's frame", note, "the frame names other.js, and this is receipt.min.js")
    for text in ["", "x", "0:1", "1:0", "1:99999999999", "at f (native)", ":", "2147483649:1"]:
        reported, answer, note = asked(browser, text)[0]
        checks.insist(f"the place of {text!r}", reported + answer, "")
        checks.insist(f"the note of {text!r}", note.startswith("That names no place"), True)
    checks.insist("a line alone", asked(browser, "2")[0][0], "2:1")
    checks.insist("a line past the file", asked(browser, "99:1")[0][1:], ["none", "the file has 13 lines"])

    # By the keyboard, from anywhere.
    asked(browser, "1:1")
    browser.run("document.activeElement.blur()")
    browser.press("g", "    at S.lookup (https://example.test/receipt.min.js:2:1896)", "Enter")
    checks.insist("what the keyboard asked for", said(browser, "#asked"), lookup)
    opened(browser, page, "#2:4472")
    checks.insist("the place behind #", said(browser, "#asked"), total)


PASTE = """
    const [data, dataType] = [arguments[0], 'text/plain'];
    const clipboardData = new DataTransfer();
    clipboardData.setData(dataType, data);
    // Firefox takes the text by itself.
    const paste = new ClipboardEvent('paste', { clipboardData, data, dataType, bubbles: true, cancelable: true });
    return document.getElementById('place').dispatchEvent(paste);
"""
FRAMES = """
    return [...document.querySelectorAll('#frames-list button')].map((one) =>
        [...one.children].map(({ textContent }) => textContent).concat(one.getAttribute('aria-current') === 'true'));
"""


def try_frames(browser: browsers.Browser, page: Page, checks: Checks) -> None:
    """A trace that is pasted. The page is that of examples/receipt.min.js."""
    trace = (page.map_path.parent / "receipt.trace").read_text()
    lines = [line.strip() for line in trace.split("\n") if ".js:" in line]
    places = [tuple(map(int, line.rstrip(")").rsplit(":", 2)[1:])) for line in lines]
    checks.insist("whether one line is pasted as any text", browser.run(PASTE, lines[0] + "\n"), True)
    checks.insist("whether frames are shown of one line", browser.run(FRAMES), [])
    before = browser.run("return smapPage.pointOf('generated', 1, 1)")
    browser.run(PASTE, "Error\n    at other (https://example.test/other.js:9:9)\n" + trace)
    browser.settle()
    rows = browser.run(FRAMES)
    wanted = [["at other (https://example.test/other.js:9:9)", "another file", False]]
    wanted += [[line, answer, i == 0] for i, (line, answer) in enumerate(zip(lines, page.answers(places)))]
    checks.insist("the frames", rows, wanted)
    checks.insist("how many", said(browser, "#frames-count"), f"{len(lines) + 1} frames")
    checks.insist("the place of the first of this file", said(browser, "#asked"), f"{places[0][0]}:{places[0][1]}")
    for i, (line, column) in enumerate(places):
        press_button(browser, f"#frames-list li:nth-child({i + 2}) button")
        checks.insist(f"the place of frame {i}", said(browser, "#asked"), f"{line}:{column}")
        checks.insist(f"the frame in the field {i}", browser.run("return document.getElementById('place').value"), lines[i])
        checks.insist(f"whether frame {i} is in view", is_seen(browser, "generated", line, column), True)
        checks.insist(f"the frame that is marked {i}", [row[2] for row in browser.run(FRAMES)].index(True), i + 1)
    browser.run(PASTE, "".join(f"at f{i} (https://example.test/receipt.min.js:1:{i + 1})\n" for i in range(1500)))
    checks.insist("how many of many", said(browser, "#frames-count"), "the first 1,000 frames")
    checks.insist("frames of many", len(browser.run(FRAMES)), 1000)
    browser.run(PASTE, "at <img src=x onerror='window.hostile = 9'> (x.js:1:1)\nat \u202eb (x.js:1:1)\n")
    checks.insist("a hostile trace", [row[0] for row in browser.run(FRAMES)], [
        "at <img src=x onerror='window.hostile = 9'> (x.js:1:1)", "at \\u202eb (x.js:1:1)"])
    press_button(browser, "#frames-close")
    checks.insist("whether frames are hidden", browser.run("return document.getElementById('frames').hidden"), True)
    asked(browser, "1:1")
    browser.settle()
    checks.insist("where the texts stand again", browser.run("return smapPage.pointOf('generated', 1, 1)"), before)


def try_keys(browser: browsers.Browser, page: Page, checks: Checks) -> None:
    """The keys. The page is that of examples/receipt.min.js."""
    lines = maps.decode(page.shown["mappings"])
    flat = [(number + 1, mapping[0] + 1, mapping) for number, line in enumerate(lines) for mapping in line]
    at = next(i for i, (line, column, _) in enumerate(flat) if (line, column) == (2, 4472))
    asked(browser, "2:4472")
    focus(browser, "#generated .scroller")
    place = "const now = smapPage.chosen(); return now && [now.line, now.column]"
    for key, step in [("n", 1), ("n", 2), ("n", 3), ("p", 2), ("p", 1), ("p", 0), ("p", -1)]:
        browser.press(key)
        checks.insist(f"the mapping after {key}", browser.run(place), list(flat[at + step][:2]))
    source = flat[at][2][1]
    order = sorted((i for i, one in enumerate(flat) if len(one[2]) > 1 and one[2][1] == source), key=lambda i: (flat[i][2][2:4], i))
    asked(browser, "2:4472")
    focus(browser, "#original .scroller")
    for key, step in [("n", 1), ("n", 2), ("p", 1), ("p", 0), ("p", -1)]:
        browser.press(key)
        wanted = flat[order[order.index(at) + step]]
        checks.insist(f"the mapping after {key} in the original", browser.run(place), list(wanted[:2]))
    browser.press("a")
    checks.insist("the view after a", hidden_views(browser), [True, False])
    browser.press("t")
    checks.insist("the view after t", hidden_views(browser), [False, True])
    browser.press("?")
    checks.insist("the keys are shown", browser.run("return document.getElementById('keys').open"), True)
    browser.press("Escape")
    checks.insist("the keys are hidden", browser.run("return document.getElementById('keys').open"), False)
    asked(browser, "2:4472")
    focus(browser, "#generated .scroller")
    wraps = "return document.querySelector('#generated .wrap').getAttribute('aria-pressed')"
    browser.press("w")
    checks.insist("lines are not wrapped", browser.run(wraps), "false")
    checks.insist("the place in a long line is in view", is_seen(browser, "generated", 2, 4472), True)
    browser.press("w")
    checks.insist("lines are wrapped", browser.run(wraps), "true")
    checks.insist("the place in wrapped lines is in view", is_seen(browser, "generated", 2, 4472), True)
    browser.press("Escape")
    checks.insist("what is chosen after Escape", browser.run("return smapPage.chosen()"), None)

    # What is copied.
    asked(browser, "2:1896")
    focus(browser, "#generated .scroller")
    browser.run("window.addEventListener('copy', (event) => { window.copied = event.clipboardData.getData('text/plain'); })")
    browser.chord("Control", "c")
    place = f"2:1896 {page.answers([(2, 1896)])[0]}"
    checks.insist("what is copied", browser.run("return window.copied"), place)
    source = open_source(browser)
    line = int(place.rsplit(":", 2)[1])
    lines = {
        "generated": maps.split_lines(page.text)[1][0],
        "original": maps.split_lines(page.shown["sourcesContent"][source])[line - 1][0],
    }
    ways = [("c", "", place, "copied the place"), ("", "#copy-place", place, "copied the place")]
    for pane, number in (("generated", 2), ("original", line)):
        ways += [("l", pane, lines[pane], f"copied line {number}"), ("", f"#{pane} .copy", lines[pane], f"copied line {number}")]
    for key, at, wanted, note in ways:
        asked(browser, "2:1896")
        browser.run("window.copied = null")
        if key:
            focus(browser, f"#{at or 'generated'} .scroller")
            browser.press(key)
        else:
            x, y = browser.middle(at)
            browser.click(x, y)
        checks.insist(f"what {key or at} copies", browser.run("return window.copied"), wanted)
        checks.insist(f"what is said of {key or at}", said(browser, "#note"), note)
    browser.run("window.copied = null")
    browser.run("document.activeElement.blur()")
    for key in ("a", "c", "l", "t", "Escape", "c", "l"):
        browser.press(key)
    checks.insist("what is copied where nothing is chosen", browser.run("return window.copied"), None)
    checks.insist("whether there is a button for it", browser.run("return document.getElementById('copy-place').hidden"), True)

    # The list, and each thing that Tab leads to has a name.
    focus(browser, "#list")
    browser.press("Home", "Down", "Enter")
    rows = "return [...document.querySelectorAll(arguments[0])].map(({ dataset }) => Number(dataset.source))"
    second = browser.run(rows, "#list [data-source]")[1]
    checks.insist("the second source of the list", open_source(browser), second)
    checks.insist("the row that is marked", browser.run(rows, "#list [aria-selected=true]"), [second])
    reached = []
    browser.run("document.activeElement.blur()")
    for _ in range(24):
        browser.press("Tab")
        reached.append(browser.run("""
            const one = document.activeElement;
            return [one.id || one.className || one.tagName, one.getAttribute('aria-label') || one.textContent.trim()];
        """))
    wanted = {"place", "see-text", "see-areas", "help", "filter", "list", "scroller", "wrap"}
    checks.insist("what Tab reaches", wanted - {name for name, _ in reached}, set())
    checks.insist("what Tab reaches without a label", [name for name, label in reached if not label and name != "BODY"], [])


def try_marks(browser: browsers.Browser, page: Page, checks: Checks) -> None:
    """Names, ignored sources, and sources without a text."""
    given = asked(browser, "1:1", "1:5", "1:9", "1:13", "2:1", "3:1", "3:3")
    checks.insist("names and ignored marks", [answer for _, answer, _ in given], [
        "src/own.js:1:1 name first",
        "vendor/ignored.js:1:1 name library ignored",
        "src/gone.js:42:7",
        "unmapped",
        "none",
        "none",
        "src/own.js:2:1",
    ])
    rows = browser.run("return [...document.querySelectorAll('#list .row')].map((row) => row.textContent)")
    checks.insist("the list", rows, [
        "own.js32.0 %src/8 bytes", "ignored.jsignored16.0 %vendor/4 bytes", "gone.jsno content16.0 %src/4 bytes",
    ])
    asked(browser, "1:9")
    reported = said(browser, "#original .empty")
    checks.insist("a source without a text", reported.split(".")[0], "The map holds no text of this source")
    asked(browser, "1:5")
    checks.insist("the mark of an ignored source", said(browser, "#original .name"), "vendor/ignored.js ignored")
