"""Rewrites 16,000 lines over two maps past the bound, and 40,000 URLs without maps and with one each: seconds of processors, a line each."""

import time

from smap import Maps

MAP = '{"version":3,"sources":["https://e.test/x.ts"],"names":["n"],"mappings":"AAAAA"}'


def rewritten(lines, urls, bound, given):
    text = "".join(f"f@https://e.test/{i % urls}.js:1:1\n" for i in range(lines))
    begin = time.process_time()
    maps = Maps(lambda url: given, max_bytes=bound)
    assert maps.rewrite(text).count(b"\n") == lines
    maps._close()
    print(f"{time.process_time() - begin:.3f}")


rewritten(16000, 2, 0, MAP)
rewritten(40000, 40000, 1 << 20, None)
rewritten(40000, 40000, 1 << 30, MAP)
