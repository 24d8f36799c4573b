#!/usr/bin/env python3
"""make-kept.py FILE: writes random runs over what is kept of URLs, with what store.py, a model, answers: kept_rows.rt of
smap_call_tests."""

import random
import sys
from pathlib import Path

from store import Store

URLS = ["a", "a?1", "a?2", "a#x", "b", "b?1#y", "c", "d/e.js", "d/e.js?v=2", "?", ""]


def answered(found):
    kind, what = found
    return {"value": f"v{what}", "none": f"n{what}", "wanted": "w"}[kind]


def run(chance, most, steps):
    store, rows, value = Store(most), [f"new {most}"], 0
    for _ in range(steps):
        url, now, deed = chance.choice(URLS), chance.randrange(8), chance.random()
        key = url.encode()
        if deed < 0.25:
            value += 1
            size = chance.choice([0, 1, 72, 500, 2 ** 64 - 1 - chance.randrange(200)]) if chance.random() < 0.5 else chance.randrange(300)
            store.put(key, "value", value, size)
            rows.append(f"put {url}|{value} {size}")
        elif deed < 0.4:
            why, until = chance.choice("mf"), chance.choice([None, 0, 2, 4, 6])
            store.put(key, "none", why, 0, until)
            rows.append(f"none {url}|{why} {'-' if until is None else until}")
        elif deed < 0.46:
            store.forget(key)
            rows.append(f"forget {url}|")
        elif deed < 0.48:
            store.forget_none()
            rows.append("forget_none")
        elif deed < 0.8:
            rows.append(f"ask {url}|{now} {answered(store.ask(key, now))}")
        elif deed < 0.84:
            rows.append(f"key {url}|{store.key(key).decode()}")
        elif deed < 0.93:
            rows.append(f"peek {url}|{now} {answered(store.peek(key, now))}")
        else:
            order = store.order
            rows.append(f"state {store.counted('value')} {store.counted('none')} {store.own_counted(store.own)} "
                        f"{len(order['value'])} {len(order['none'])} {store.asked} {store.hits} {store.dropped}")
    return rows


def main(steps=40):
    chance = random.Random(7)
    mosts = [0, 1, 129, 300, 700, 2_100, 6_000, 1_000_000, 2 ** 64 - 1]
    rows = [row for most in mosts for row in run(chance, most, steps)]
    text = "".join(f"    {row}\\n\\\n" for row in rows)
    Path(sys.argv[1]).write_text("//! Random runs over what is kept of URLs, with what a model answers: tests/vectors/make-kept.py writes them.\n\n"
                    f'/// A step a line.\npub const ROWS: &str = "\\\n{text}";\n')


if __name__ == "__main__":
    main()
