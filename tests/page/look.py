#!/usr/bin/python3
"""Tries the page in browsers: look.py BIN EXAMPLES PICTURES [--picture FILE] [BROWSER..]

BIN has smap and smap-page. PICTURES is a folder for a picture of each view. With --picture nothing is tried but one picture is
written, which README shows.
"""

import sys
import tempfile
import time
from pathlib import Path
from typing import Dict, Tuple

import browsers
import files
from bundles import URL, Bundles, try_alike, try_bundles, try_names
from eyes import try_neighbours
from finding import try_find, try_find_large, try_find_strange
from given import Given, try_given
from guards import try_contrast, try_hostile, try_large
from misfits import try_misfits
from pages import Checks, Page, asked, opened, press_button
from texts import PASTE, try_bytes, try_field, try_frames, try_keys, try_marks, try_opened, try_pointing, try_positions, try_preview
from views import NARROW, try_filter, try_folders, try_hash, try_help, try_hidden, try_labels, try_line, try_none, try_room

SIZE = 5000000


def size_of(picture: bytes) -> Tuple[int, int]:
    return int.from_bytes(picture[16:20], "big"), int.from_bytes(picture[20:24], "big")


def keep(browser: browsers.Browser, to: Path, name: str, checks: Checks, size: Tuple[int, int] = browsers.SIZE) -> None:
    browser.settle()
    picture = browser.picture()
    (to / name).write_bytes(picture)
    checks.insist(f"the size of {name}", size_of(picture), size)


def keep_narrow(browser: browsers.Browser, page: Page, to: Path, start: str, checks: Checks) -> None:
    browser.resize(NARROW)
    opened(browser, page, "#1:1")
    keep(browser, to, f"{start}-narrow.png", checks, NARROW)
    press_button(browser, "#see-areas")
    keep(browser, to, f"{start}-narrow-areas.png", checks, NARROW)
    browser.resize(browsers.SIZE)


def keep_views(browser: browsers.Browser, pages: Dict[str, Page], to: Path, scheme: str, checks: Checks) -> None:
    start = f"{browser.name.lower()}-{scheme}"
    opened(browser, pages["receipt"])
    keep(browser, to, f"{start}-opened.png", checks)
    asked(browser, "2:4472")
    keep(browser, to, f"{start}-text.png", checks)
    browser.run(PASTE, (pages["receipt"].map_path.parent / "receipt.trace").read_text())
    keep(browser, to, f"{start}-frames.png", checks)
    press_button(browser, "#frames-close")
    press_button(browser, "#see-areas")
    keep(browser, to, f"{start}-areas.png", checks)
    press_button(browser, "#help")
    keep(browser, to, f"{start}-keys.png", checks)
    opened(browser, pages["hostile"], "#2:9")
    keep(browser, to, f"{start}-hostile.png", checks)
    press_button(browser, "#see-areas")
    keep(browser, to, f"{start}-hostile-areas.png", checks)
    opened(browser, pages["marked"], "#1:9")
    keep(browser, to, f"{start}-marks.png", checks)
    keep_narrow(browser, pages["placed"], to, start, checks)
    opened(browser, pages["placed"], "#1:1")
    keep(browser, to, f"{start}-placed.png", checks)
    press_button(browser, "#see-areas")
    keep(browser, to, f"{start}-placed-areas.png", checks)
    opened(browser, pages["bundle"], "#1:2500000")
    keep(browser, to, f"{start}-bundle.png", checks)
    press_button(browser, "#generated .wrap")
    keep(browser, to, f"{start}-bundle-unwrapped.png", checks)
    press_button(browser, "#see-areas")
    keep(browser, to, f"{start}-bundle-areas.png", checks)
    opened(browser, pages["swapped"])
    press_button(browser, "#misfits-first")
    keep(browser, to, f"{start}-swapped.png", checks)
    opened(browser, pages["bundle"])
    try_contrast(browser, pages["bundle"], checks)
    try_neighbours(browser, pages["bundle"], checks)
    opened(browser, pages["receipt"])
    try_neighbours(browser, pages["receipt"], checks)
    opened(browser, pages["empty"])
    keep(browser, to, f"{start}-empty.png", checks)


def write_picture(program: Path, examples: Path, to: Path) -> None:
    """The picture for README: the page that it makes, which opens at the first frame of its trace."""
    with tempfile.TemporaryDirectory() as folder:
        trace = str(examples / "receipt.trace")
        page = Page(program, (examples / "receipt.min.js.map", examples / "receipt.min.js"), Path(folder), "--trace", trace)
        browser = browsers.Chromium(size=(1140, 626))
        try:
            opened(browser, page)
            browser.settle()
            to.write_bytes(browser.picture())
        finally:
            browser.close()
    print(f"{to}: {to.stat().st_size} bytes")


def main() -> int:
    words = sys.argv[1:]
    program, examples, pictures = map(Path, words[:3])
    if words[3:4] == ["--picture"]:
        write_picture(program, examples, Path(words[4]))
        return 0
    checks = Checks()
    with tempfile.TemporaryDirectory() as made:
        folder = Path(made)
        pages = {
            "receipt": Page(program, (examples / "receipt.min.js.map", examples / "receipt.min.js"), folder),
            "index": Page(program, (examples / "bundle.js.map", examples / "bundle.js"), folder),
            "hostile": Page(program, files.hostile(folder), folder),
            "marked": Page(program, files.marked(folder), folder),
            "placed": Page(program, files.placed(folder), folder),
            "empty": Page(program, files.empty(folder), folder),
            "bundle": Page(program, files.bundle(folder, examples, SIZE), folder),
            "swapped": Page(program, (examples / "receipt.min.js.map", examples / "preset-react.js"), folder),
        }
        (folder / "based").mkdir()
        based = Page(program, (examples / "receipt.min.js.map", examples / "receipt.min.js"), folder / "based", "--base", f"{URL}/js/app.js")
        bundles = Bundles(program, examples, folder)
        given = Given(program, examples, folder)
        pictures.mkdir(parents=True, exist_ok=True)
        for kind in [one for one in (browsers.Chromium, browsers.Firefox) if not words[3:] or one.name in words[3:]]:
            begin = time.monotonic()
            browser = kind()
            try:
                for name in ("receipt", "index", "hostile", "marked", "placed", "empty"):
                    checks.about = f"{kind.name}, {name}"
                    took = opened(browser, pages[name])
                    if name == "receipt":
                        took = min(took, opened(browser, pages[name]))
                        print(f"{kind.name}: {took / 1000:.2f} s to open {pages[name].path.stat().st_size:,} bytes")
                        try_opened(browser, pages[name], checks)
                        opened(browser, pages[name])
                    try_bytes(browser, pages[name], checks)
                    if name in ("receipt", "index"):
                        try_positions(browser, pages[name], checks)
                        try_pointing(browser, pages[name], checks, 20)
                checks.about = f"{kind.name}, receipt"
                opened(browser, pages["receipt"])
                try_hidden(browser, pages["receipt"], checks)
                try_none(browser, pages["receipt"], checks)
                try_preview(browser, pages["receipt"], checks)
                try_field(browser, pages["receipt"], checks)
                opened(browser, pages["receipt"])
                try_frames(browser, pages["receipt"], checks)
                try_find(browser, pages["receipt"], checks)
                try_keys(browser, pages["receipt"], checks)
                try_hash(browser, pages["receipt"], checks)
                opened(browser, pages["receipt"])
                try_help(browser, pages["receipt"], checks)
                try_alike(browser, pages["receipt"], checks)
                try_names(browser, pages["receipt"], based, checks)
                checks.about = f"{kind.name}, bundles"
                try_bundles(browser, bundles, pages["receipt"], checks)
                checks.about = f"{kind.name}, given"
                try_given(browser, given, checks)
                checks.about = f"{kind.name}, marked"
                opened(browser, pages["marked"])
                try_marks(browser, pages["marked"], checks)
                checks.about = f"{kind.name}, placed"
                opened(browser, pages["placed"])
                for tried in (try_folders, try_room, try_line, try_filter):
                    tried(browser, pages["placed"], checks)
                checks.about = f"{kind.name}, swapped"
                try_misfits(browser, pages["swapped"], pages["receipt"], checks)
                checks.insist("what the browser complains of", browser.complaints(), [])
                checks.about = f"{kind.name}, hostile"
                opened(browser, pages["hostile"])
                checks.insist("what the browser complains of", browser.complaints(), [])
                try_find_strange(browser, pages["hostile"], checks)
                try_hostile(browser, pages["hostile"], checks)
                checks.about = f"{kind.name}, bundle"
                print(f"{kind.name}: {try_large(browser, pages['bundle'], pages['receipt'], checks)}")
                try_find_large(browser, pages["bundle"], checks)
                try_labels(browser, pages["bundle"], checks)
                checks.about = f"{kind.name}, pictures"
                keep_views(browser, pages, pictures, "light", checks)
            finally:
                browser.close()
            browser = kind(is_dark=True)
            try:
                keep_views(browser, pages, pictures, "dark", checks)
            finally:
                browser.close()
            print(f"{kind.name}: {checks.count} checks so far, {time.monotonic() - begin:.0f} s")
    print(f"{checks.count} checks in browsers, {checks.failed} failed")
    return 1 if checks.failed else 0


if __name__ == "__main__":
    sys.exit(main())
