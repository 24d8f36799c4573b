"""The lines that the old program and the new one are put to: random ones from a fixed seed, in which the places are known.

A text is made of pieces of logs and of the URLs of the model's tries. In it each place has numbers of its own, so the
numbers tell which URL was put in before them, as it stands there.
"""

from __future__ import annotations

import json
import random
from typing import Callable, Dict, Iterator, List, NamedTuple, Tuple

import try_places
from places_cases import CASES

# What loggers, servers and tools write around a message, which stands for `{}`; and how they write it.
FRAMES = [
    "    at f ({})", "    at {}", "    at async {}", "    at async f ({})", "    at new X ({})", "    at X.f [as g] ({})", "f@{}", "@{}",
    "N/<@{}", "    at f ({}) {{", "    at eval (eval at f ({}), <anonymous>:7:9)", "  at f ({}),",
]
AROUND = [
    "{}", "Error: bad\n{}", "TypeError: x is not a function\n{}\n    at g (node:internal/a:9:7)", "see {}", "({})", "[{}]", "<{}>",
    "`{}`", "'{}'", '"{}"', "{}, {}", "[INFO] {}", "[INFO]{}", "ERROR:{}", "caller={}", 'level=error err="{}" pid=7', "url={}&a=b",
    "2026-11-28T10:44:13.123Z {}", "12:30:45 {}", "10:44 {}", "web-1  | {}", "web-1 |{}", "<13>Nov 28 10:44:13 web app[71]: {}",
    "app[web.1]: {}", "worker1:{}", "app.log:12:{}", "./src/a.log:{}", "+{}", "- {}", "* {}", "> {}", "| {} | x |", "**{}**",
    "[x]({})", "<a href=\"{}\">x</a>", "<li>{}</li>", "a,\"{}\",b", "a;{};b", "“{}”", "→ {}", "GET /orders/1 200 {}",
    "/login failed at {}", "/var/log/x.log: {}", "mail bob@ex.com failed: {}", "can't load {}", "100% {}", "f() {}", "f():{}",
    "ID 00000000-0000 {}", "\x1b[36m{}\x1b[39m", "\x1b[31mError\x1b[39m: {}", "Error: bad ({})", "{}: bad", "{} - - x", "[{}:1]",
    "(a, b) {}", "{{ a: {} }}", "at {}", "{}.", "{}?", "{}!", "{};", "{}\r", "x {} y {}", "C:\\logs\\a.log {}", "https://h/ {}",
    "({}) https://h/x", "{}@{}", "a=1,{}", "a|{}|b", "#7 {}", "~{}", "::error file={}", "##[error]{}", "$ {}",
]


def as_json(text: str) -> str:
    return json.dumps({"level": 50, "err": {"stack": text}, "pid": 7}, ensure_ascii=False)


def as_ascii_json(text: str) -> str:
    return json.dumps({"msg": text})


def as_syslog(text: str) -> str:
    return text.replace("\t", "#011").replace("\n", "#012").replace("\r", "#015").replace("\x1b", "#033")


def as_nginx(text: str) -> str:
    return "".join(f"\\x{ord(one):02X}" if one < " " or one in '"\\\x7f' else one for one in text)


def as_nginx_json(text: str) -> str:
    return '{"body":"' + json.dumps(text)[1:-1] + '"}'


def as_docker(text: str) -> str:
    return json.dumps({"log": text + "\n", "stream": "stderr"}).replace("<", "\\u003c").replace(">", "\\u003e").replace("&", "\\u0026")


def as_csv(text: str) -> str:
    return '7,"' + text.replace('"', '""').replace("\n", "\\n") + '",x'


def as_php(text: str) -> str:
    return json.dumps({"s": text}).replace("/", "\\/")


def as_logfmt(text: str) -> str:
    return 'level=error msg="' + text.replace("\\", "\\\\").replace('"', '\\"').replace("\n", "\\n") + '" pid=7'


def as_python(text: str) -> str:
    return repr(text)


def as_bytes(text: str) -> str:
    return repr(text.encode())


def as_html(text: str) -> str:
    return text.replace("&", "&amp;").replace("<", "&lt;").replace(">", "&gt;").replace('"', "&quot;").replace("'", "&#39;")


def as_percent(text: str) -> str:
    return text.replace(":", "%3A").replace("/", "%2F")


def on_one_line(text: str) -> str:
    return text.replace("\n", " ")


WAYS = [
    as_json, as_ascii_json, as_syslog, as_nginx, as_nginx_json, as_docker, as_csv, as_php, as_logfmt, as_python, as_bytes, as_html,
    as_percent, on_one_line,
]
# How often each is taken.
OFTEN = [8, 6, 4, 3, 2, 5, 2, 1, 4, 2, 1, 2, 1, 2]


class Given(NamedTuple):
    """A line, and the URLs that were put into it by the line and column behind them: as they stand there."""

    text: bytes
    put: Dict[Tuple[int, int], bytes]
    made_of: str


def log_text(chance: random.Random) -> Tuple[str, Dict[Tuple[int, int], str]]:
    """A text as tools write it, with places, and what was put in."""
    numbers = [(line, column) for line in range(1, 9) for column in range(1, 9)]
    chance.shuffle(numbers)
    put: Dict[Tuple[int, int], str] = {}

    def place() -> str:
        at = numbers.pop()
        put[at] = chance.choice(try_places.URLS)
        return put[at] + ":%d:%d" % at

    def lines() -> str:
        made = [chance.choice(FRAMES).format(place()) for _ in range(chance.randrange(1, 4))]
        return "\n".join(made) if chance.random() < 0.7 else place()

    shape = chance.choice(AROUND)
    text = shape.format(*(lines() for _ in range(shape.count("{}"))))
    for _ in range(chance.choice((0, 0, 1, 1, 1, 2))):
        way = chance.choices(WAYS, OFTEN)[0]
        text = way(text)
        put = {at: inside(way, url) for at, url in put.items()}
        if chance.random() < 0.3:
            shape = chance.choice([one for one in AROUND if one.count("{}") == 1])
            text = shape.format(text)
    return text, put


def inside(way: Callable[[str], str], url: str) -> str:
    """A URL as it stands in a text that was written in a way."""
    return way("{begin}" + url + "{end}").split("{begin}")[1].split("{end}")[0]


def texts(chance: random.Random) -> Iterator[Tuple[str, bytes, Dict[Tuple[int, int], bytes]]]:
    """Texts without end: what each is made of, and the URLs that were put in."""
    while True:
        kind = chance.randrange(10)
        if kind < 4:
            text, put = log_text(chance)
            yield "log", text.encode(), {at: url.encode() for at, url in put.items()}
        elif kind < 7:
            made, known = try_places.text_with_places(chance)
            yield "pieces", made, known
        elif kind < 9:
            yield "garbage", try_places.random_text(chance), {}
        else:
            text = chance.choice(CASES).text
            if len(text) > 5000:
                continue
            for _ in range(chance.randrange(3)):
                text = chance.choices(WAYS, OFTEN)[0](text)
            yield "model line", text.encode(), {}


def random_lines(count: int) -> List[Given]:
    """So many lines, each of which has numbers as a place has."""
    chance, made = random.Random(77), []
    for text in CASES:
        for line in text.text.encode().split(b"\n"):
            if len(line) < 5000:
                made.append(Given(line, {}, "model line"))
    for made_of, text, put in texts(chance):
        for line in text.split(b"\n"):
            if len(made) == count:
                return made
            if try_places.places.PAIR.search(line):
                made.append(Given(line, put, made_of))
    return made
