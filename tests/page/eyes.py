"""What is tried of the page: whether the colours of sources that stand side by side differ for each kind of eye."""

import math
from typing import List

import browsers
from pages import Checks, Page, asked, colour, let_go

# What an eye without one kind of cones sees of light (Machado, Oliveira and Fernandes, 2009).
EYES = {
    "all cones": [[1, 0, 0], [0, 1, 0], [0, 0, 1]],
    "protanopia": [[0.152286, 1.052583, -0.204868], [0.114503, 0.786281, 0.099216], [-0.003882, -0.048116, 1.051998]],
    "deuteranopia": [[0.367322, 0.860646, -0.227968], [0.280085, 0.672501, 0.047413], [-0.011820, 0.042940, 0.968881]],
    "tritanopia": [[1.255528, -0.076749, -0.178779], [-0.078411, 0.930809, 0.147602], [0.004733, 0.691367, 0.303900]],
}
TO_XYZ = [[0.4124564, 0.3575761, 0.1804375], [0.2126729, 0.7151522, 0.0721750], [0.0193339, 0.1191920, 0.9503041]]
WHITE = [0.95047, 1.0, 1.08883]
# In CIELAB, where 2.3 can just be seen.
LEAST = 7.0
MOST_PAIRS = 24


def product(matrix: List[List[float]], vector: List[float]) -> List[float]:
    return [sum(a * b for a, b in zip(row, vector)) for row in matrix]


def in_lab(shown: str, eye: str) -> List[float]:
    """A colour, as red, green and blue up to 255, as an eye sees it."""
    parts = [int(part) / 255 for part in shown.split(",")[:3]]
    linear = [part / 12.92 if part <= 0.04045 else ((part + 0.055) / 1.055) ** 2.4 for part in parts]
    seen = [min(1.0, max(0.0, part)) for part in product(EYES[eye], linear)]
    cube = lambda part: part ** (1 / 3) if part > 0.008856 else 7.787 * part + 16 / 116
    x, y, z = (cube(part / white) for part, white in zip(product(TO_XYZ, seen), WHITE))
    return [116 * y - 16, 500 * (x - y), 200 * (y - z)]


def try_neighbours(browser: browsers.Browser, page: Page, checks: Checks) -> None:
    pairs = {}
    for first, second in zip(page.mapped, page.mapped[1:]):
        if first[0] == second[0] and first[2] != second[2]:
            pairs.setdefault((first[2], second[2]), (first, second))
    checks.insist("whether sources stand side by side", len(pairs) > 0, True)
    least, count = math.inf, 0
    for first, second in list(pairs.values())[:: max(1, len(pairs) // MOST_PAIRS)]:
        asked(browser, f"{first[0]}:{first[1]}")
        let_go(browser)
        shown = [colour(browser, "generated", *place[:2]) for place in (first, second)]
        if all(shown):
            count += 1
            least = min(least, *(math.dist(*(in_lab(one, eye) for one in shown)) for eye in EYES))
    checks.insist(f"whether {count} pairs of neighbours differ, by {least:.1f} at least", count > 0 and least >= LEAST, True)
