#!/usr/bin/env python3
"""Follows the links of pages: links.py PAGE...

A link leads to a file that is there and, behind a `#`, to one of its headings. A page that is named between backticks is there
too, in the folder of the page or in the current one, which is the top. Links to the web are not followed.
"""

from __future__ import annotations

import re
import sys
from pathlib import Path


def without_blocks(page: str) -> str:
    """The page without its code, whose brackets are no links and whose `#` begins no heading."""
    page = re.sub(r"^(```).*?^```$", "", page, flags=re.MULTILINE | re.DOTALL)
    return "\n".join(line for line in page.split("\n") if not line.startswith("    "))


def anchors(page: str) -> set[str]:
    """What a link may name behind its `#`, as the sites that show pages make it of headings."""
    headings = re.findall(r"^#+ (.*)$", without_blocks(page), flags=re.MULTILINE)
    return {re.sub(r"[^\w\- ]", "", heading).strip().lower().replace(" ", "-") for heading in headings}


def main() -> int:
    links = broken = 0
    for path in map(Path, sys.argv[1:]):
        text = without_blocks(path.read_text(encoding="utf-8"))
        for target in re.findall(r"\]\(([^)\s]+)\)", re.sub(r"`[^`]*`", "", text)):
            if re.match(r"https?:", target):
                continue
            links += 1
            name, _, anchor = target.partition("#")
            file = path.parent / name if name else path
            if not file.exists() or anchor and anchor not in anchors(file.read_text(encoding="utf-8")):
                broken += 1
                print(f"{path}: the link {target} leads nowhere", file=sys.stderr)
        for name in re.findall(r"`([A-Za-z0-9_./-]+\.md)`", text):
            links += 1
            if not (path.parent / name).exists() and not Path(name).exists():
                broken += 1
                print(f"{path}: there is no page {name}", file=sys.stderr)
    print(f"{links} links, {broken} broken")
    return 1 if broken else 0


if __name__ == "__main__":
    sys.exit(main())
