"""Tries the two services of examples/service/ on loopback, beside a reader of maps that is written apart:

    try.py FOLDER LANGUAGE PROGRAM..

where FOLDER is for the releases, LANGUAGE is what the service is written in, and PROGRAM is how it is started, with the script. EVENTS is how
many events are sent, 10,000 if it is not given. Then the clients of unkind.py ask, and those of late.py. It prints `service N`, how many
frames were the same, and how many events were answered in a second."""

import bisect
import http.client
import itertools
import json
import os
import random
import shutil
import signal
import socket
import subprocess
import sys
import threading
import time
from pathlib import Path
from urllib.parse import urljoin

import unkind
from late import late
from unkind import insist

PREFIX = "https://example.test/releases/"
EXAMPLES = Path(__file__).resolve().parent.parent.parent / "examples"
RELEASES, CLIENTS, FRAMES, MEGABYTES = 200, 8, 10, 1
DIGITS = "ABCDEFGHIJKLMNOPQRSTUVWXYZabcdefghijklmnopqrstuvwxyz0123456789+/"


def numbers(segment):
    """The numbers of a segment, read as the standard says."""
    value = shift = 0
    for sign in segment:
        digit = DIGITS.index(sign)
        value += (digit & 31) << shift
        shift += 5
        if not digit & 32:
            yield -(value >> 1) if value & 1 else value >> 1
            value = shift = 0


def beginning(line):
    """The characters that begin a line and have together at most 500 bytes."""
    ends = itertools.accumulate(len(sign.encode()) for sign in line)
    return "".join(sign for sign, end in zip(line, ends) if end <= 500)


class Reader:
    """A map, read apart."""

    def __init__(self, url, text):
        self.url, self.map = url, json.loads(text)
        self.lines = []
        state = [0] * 5
        for line in self.map["mappings"].split(";"):
            state[0] = 0
            places = []
            for segment in filter(None, line.split(",")):
                for i, number in enumerate(numbers(segment)):
                    state[i] += number
                    last = i
                places.append((state[0], tuple(state[1:last + 1])))
            self.lines.append(places)

    def original(self, line, column):
        """What the service is to answer for a place, from 1."""
        places = self.lines[line - 1] if line <= len(self.lines) else []
        at = bisect.bisect_right([place[0] for place in places], column - 1) - 1
        if at < 0 or not places[at][1]:
            return None
        source, original_line, original_column, *name = places[at][1]
        contents = self.map.get("sourcesContent") or []
        content = contents[source] if source < len(contents) else None
        lines = content.replace("\r\n", "\n").replace("\r", "\n").replace("\u2028", "\n").replace("\u2029", "\n").split("\n") if content is not None else []
        context = None
        if original_line < len(lines):
            begin = max(0, original_line - 2)
            near = lines[begin:original_line + 3]
            short = [beginning(line) for line in near]
            at = original_line - begin
            context = {"before": short[:at], "line": short[at], "after": short[at + 1:], "cut": short != near}
        return {
            "source": urljoin(self.url, self.map["sources"][source]), "lineno": original_line + 1, "colno": original_column + 1,
            "name": self.map["names"][name[0]] if name else None,
            "ignored": source in (self.map.get("ignoreList") or self.map.get("x_google_ignoreList") or []), "context": context,
        }


def releases(folder):
    """A folder of releases, each with some of the examples, whose sources have a text of their own; by URL the reader of each."""
    readers = {}
    maps = [path for path in sorted(EXAMPLES.glob("*.map")) if '"sections"' not in path.read_text()]
    for number in range(RELEASES):
        path = maps[number % len(maps)]
        source_map = json.loads(path.read_text())
        # So that each is its own: a line more stands before each source, and a root is left out.
        source_map.pop("sourceRoot", None)
        source_map["sources"] = [f"r{number}/s{i}.ts" for i, _ in enumerate(source_map["sources"])]
        text = json.dumps(source_map)
        name = f"r{number}/{path.name}"
        (folder / f"r{number}").mkdir()
        (folder / name).write_text(text)
        url = PREFIX + name[:-len(".map")]
        readers[url] = Reader(url, text)
    return readers


def resident(process):
    """How many bytes of memory a process has."""
    pages = Path(f"/proc/{process.pid}/statm").read_text().split()[1]
    return int(pages) * os.sysconf("SC_PAGE_SIZE")


def ask(port, method, path, body=None, headers={}):
    connection = http.client.HTTPConnection("127.0.0.1", port, timeout=60)
    try:
        connection.request(method, path, body, headers)
        response = connection.getresponse()
        return response.status, json.loads(response.read())
    finally:
        connection.close()


def event_of(readers, urls, dice):
    frames = []
    for _ in range(FRAMES):
        url = dice.choice(urls)
        line = dice.randrange(1, len(readers[url].lines) + 3)
        query = dice.choice(["", "", "?v=3", "#top"])
        frames.append({"filename": url + query, "lineno": line, "colno": dice.randrange(1, 300)})
    return {"frames": frames}


def client(port, readers, seed, count, same, failures):
    """Sends events over one connection, and compares what is answered."""
    dice = random.Random(seed)
    urls = sorted(readers)
    connection = http.client.HTTPConnection("127.0.0.1", port, timeout=60)
    try:
        for _ in range(count):
            event = event_of(readers, urls, dice)
            connection.request("POST", "/symbolicate", json.dumps(event))
            response = connection.getresponse()
            answer = json.loads(response.read())
            insist("the status", response.status, 200)
            for frame, given in zip(event["frames"], answer["frames"]):
                url = frame["filename"].partition("?")[0].partition("#")[0]
                wanted = {**frame, "original": readers[url].original(frame["lineno"], frame["colno"])}
                insist(f"the frame {frame}", given, wanted)
                same[seed] += 1
    except (Exception, SystemExit) as error:
        failures.append(error)
    finally:
        connection.close()


def go_away(port):
    """A client that is killed in the middle of an event."""
    with socket.create_connection(("127.0.0.1", port)) as other:
        other.sendall(b"POST /symbolicate HTTP/1.1\r\nHost: x\r\nContent-Length: 1000\r\n\r\n" + b'{"frames": [')
        other.setsockopt(socket.SOL_SOCKET, socket.SO_LINGER, b"\1\0\0\0\0\0\0\0")


def too_large(port, sends):
    """An event of 100 MB: what is answered before the body is sent, or while it is."""
    with socket.create_connection(("127.0.0.1", port), timeout=60) as other:
        other.sendall(b"POST /symbolicate HTTP/1.1\r\nHost: x\r\nContent-Length: 100000000\r\n\r\n")
        try:
            for _ in range(100 if sends else 0):
                other.sendall(b" " * 1_000_000)
        except OSError:
            return None
        response = http.client.HTTPResponse(other)
        try:
            response.begin()
            return response.status, json.loads(response.read())
        except OSError:
            return None


def mistakes(port):
    many = [{"filename": "x", "lineno": 1, "colno": 1}] * 1001
    for body, reason in [
        ('{"frames": [', "the event is no JSON"), ("[" * 100000, "the event is no JSON"), ("[]", "the event has no list `frames`"),
        ("7", "the event has no list `frames`"), ('{"frames": 7}', "the event has no list `frames`"), ("null", "the event has no list `frames`"),
        (json.dumps({"frames": many}), "the event has more than 1000 frames"),
        ('{"frames": [7]}', "frame 0 has no text `filename`"), ('{"frames": [null]}', "frame 0 has no text `filename`"),
        ('{"frames": [{"filename": "x", "lineno": 0, "colno": 1}]}', "frame 0 has no `lineno` and `colno` from 1 to 2147483648"),
        ('{"frames": [{"filename": "x", "lineno": 1, "colno": 1.5}]}', "frame 0 has no `lineno` and `colno` from 1 to 2147483648"),
        ('{"frames": [{"filename": "x", "lineno": true, "colno": 1}]}', "frame 0 has no `lineno` and `colno` from 1 to 2147483648"),
        ('{"frames": [{"filename": "x", "lineno": 1e300, "colno": 1}]}', "frame 0 has no `lineno` and `colno` from 1 to 2147483648"),
    ]:
        insist(f"the answer to {body[:60]}", ask(port, "POST", "/symbolicate", body), (400, {"reason": reason}))
    insist("the answer for another path", ask(port, "POST", "/other", "{}")[0], 404)
    insist("the answer to a GET", ask(port, "GET", "/symbolicate")[0], 404)
    large = (413, {"reason": "the event has more than 1048576 bytes"})
    insist("the answer to 100 MB", too_large(port, False), large)
    insist("the answer while 100 MB are sent", too_large(port, True) in (None, large), True)
    for url in [PREFIX + "../../../etc/passwd", PREFIX + "r0//x.js", "../../../etc/passwd", "[native code]", PREFIX, "", "\ud800", PREFIX + "a\x00b.js"]:
        frame = {"filename": url, "lineno": 1, "colno": 1}
        insist(f"the answer for {url!r}", ask(port, "POST", "/symbolicate", json.dumps({"frames": [frame]})), (200, {"frames": [{**frame, "original": None}]}))


def damaged(port, folder):
    """A map that is damaged, and one that is not there any more: their frames stay, and the service goes on."""
    health = ask(port, "GET", "/health")[1]
    (folder / "bad").mkdir()
    (folder / "bad/app.js.map").write_text('{"version":3,"sources":["a"],"mappings":"AA%A"}')
    frames = [{"filename": f"{PREFIX}bad/{name}", "lineno": 1, "colno": 1} for name in ("app.js", "gone.js")]
    for _ in range(2):
        insist("damaged maps", ask(port, "POST", "/symbolicate", json.dumps({"frames": frames})),
               (200, {"frames": [{**frame, "original": None} for frame in frames]}))
    insist("what is told of them", ask(port, "GET", "/health")[1]["refused"], health["refused"] + 1)


def main(folder, language, *program):
    folder = Path(folder)
    shutil.rmtree(folder, ignore_errors=True)
    folder.mkdir()
    readers = releases(folder)
    events = int(os.environ.get("EVENTS", "10000"))
    process = subprocess.Popen([*program, PREFIX, str(folder), "0", str(MEGABYTES)], stdout=subprocess.PIPE, stderr=subprocess.PIPE, text=True)
    try:
        port = int(process.stdout.readline().rsplit(":", 1)[1])
        ask(port, "POST", "/symbolicate", json.dumps(event_of(readers, sorted(readers), random.Random(0))))
        at_first = resident(process)
        same, failures = [0] * CLIENTS, []
        threads = [threading.Thread(target=client, args=(port, readers, i, events // CLIENTS, same, failures)) for i in range(CLIENTS)]
        begun = time.monotonic()
        for thread in threads:
            thread.start()
        for _ in range(10):
            go_away(port)
        # A map that was read is removed while it runs.
        (folder / "removed.js.map").write_text('{"version":3,"sources":["a"],"mappings":"AAAA"}')
        removed = json.dumps({"frames": [{"filename": f"{PREFIX}removed.js", "lineno": 1, "colno": 1}]})
        insist("a map that is there", ask(port, "POST", "/symbolicate", removed)[1]["frames"][0]["original"]["lineno"], 1)
        (folder / "removed.js.map").unlink()
        insist("a map that was there", ask(port, "POST", "/symbolicate", removed)[0], 200)
        for thread in threads:
            thread.join()
        seconds = time.monotonic() - begun
        insist("failures", [str(failure) for failure in failures], [])
        health = ask(port, "GET", "/health")[1]
        insist("the bound", health["bytes"] <= MEGABYTES << 20, True)
        insist("maps that went", health["maps"] < RELEASES, True)
        mistakes(port)
        damaged(port, folder)
        grown = resident(process) - at_first
        insist("memory", grown < (MEGABYTES + 60) << 20, True)
        unkind.bodies(port)
        unkind.in_one_piece(port)
        unkind.large(port, folder, PREFIX)
        unkind.names(port, folder, PREFIX)
        unkind.slow(port, PREFIX)
        unkind.many(port, process)
        insist("that it runs", process.poll(), None)
        answers = late(folder, PREFIX, program[:-1], program[-1])
        print(f"service {sum(same)} in {language}: {events // CLIENTS * CLIENTS / seconds:.0f} events in a second, {grown / 2**20:.0f} MiB more, "
              f"{answers} answers beside a release that changes")
    finally:
        process.send_signal(signal.SIGTERM)
        process.communicate()


if __name__ == "__main__":
    main(*sys.argv[1:])
