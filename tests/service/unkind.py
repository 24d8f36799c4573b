"""Clients that ask the services of examples/service/ for what they are not to give: requests in bodies, much at once, and time."""

import json
import re
import socket
import sys
import threading
import time
from pathlib import Path

SECONDS = 10
CLIENTS = 64
INNER = b"GET /health HTTP/1.1\r\nHost: x\r\n\r\n"
LAST = b"GET /last HTTP/1.1\r\nHost: x\r\nConnection: close\r\n\r\n"


def insist(what, given, wanted):
    if given != wanted:
        sys.exit(f"service: {what}: {given!r:.300} in place of {wanted!r:.300}")


def connected(port, seconds=60):
    return socket.create_connection(("127.0.0.1", port), timeout=seconds)


def until_end(client):
    """What comes until the connection is closed."""
    parts = []
    try:
        while True:
            parts.append(client.recv(1 << 16))
            if not parts[-1]:
                break
    except ConnectionError:
        pass
    return b"".join(parts)


def statuses(port, sent):
    """The statuses of all answers to what is sent at once, until the service closes the connection."""
    with connected(port) as client:
        client.sendall(sent)
        return [int(status) for status in re.findall(rb"HTTP/1\.1 ([0-9]{3})", until_end(client))]


def bodies(port):
    """Bodies are no requests. Behind what the service answers and reads on, it answers the last request."""
    one, size = b"Content-Length: %d\r\n" % len(INNER), b"Content-Length: "
    for what, lines, wanted in [
        ("a body for another path", b"POST /other HTTP/1.1\r\n" + one, [404, 404]),
        ("a GET with a body", b"GET /health HTTP/1.1\r\n" + one, [200, 404]),
        ("a GET with a body for another path", b"GET /other HTTP/1.1\r\n" + one, [404, 404]),
        ("an event that is a request", b"POST /symbolicate HTTP/1.1\r\n" + one, [400, 404]),
        ("two lengths", b"POST /symbolicate HTTP/1.1\r\n" + size + b"0\r\n" + one, [400]),
        ("the same length twice", b"POST /symbolicate HTTP/1.1\r\n" + one + one, [400]),
        ("two lengths of a GET", b"GET /health HTTP/1.1\r\n" + size + b"0\r\n" + one, [400]),
        ("5,000 digits", b"POST /symbolicate HTTP/1.1\r\n" + size + b"9" * 5000 + b"\r\n", [400]),
        ("16 digits", b"POST /symbolicate HTTP/1.1\r\n" + size + b"0" * 14 + b"34\r\n", [400]),
        ("5,000 digits of a GET", b"GET /health HTTP/1.1\r\n" + size + b"9" * 5000 + b"\r\n", [400]),
        ("no length", b"POST /symbolicate HTTP/1.1\r\n", [400]),
        ("a large body of a GET", b"GET /health HTTP/1.1\r\n" + size + b"1048577\r\n", [413]),
        ("chunks", b"POST /symbolicate HTTP/1.1\r\nTransfer-Encoding: chunked\r\n", [411]),
        ("chunks of a GET", b"GET /health HTTP/1.1\r\nTransfer-Encoding: chunked\r\n", [411]),
        ("a header that is none", b"POST /symbolicate HTTP/1.1\r\nx y\r\n" + one, [400]),
        ("a blank before the colon", b"POST /symbolicate HTTP/1.1\r\nContent-Length : 34\r\n", [400]),
        ("another method", b"PUT /health HTTP/1.1\r\n" + one, [501]),
        *((f"the length {text}", b"POST /symbolicate HTTP/1.1\r\n" + size + text + b"\r\n", [400])
          for text in (b"+34", b"-1", b"3 4", b"34, 34", b"0x22", b"")),
    ]:
        body = b"22\r\n" + INNER + b"\r\n0\r\n\r\n" if b"chunked" in lines else INNER
        insist(what, statuses(port, lines + b"Host: x\r\n\r\n" + body + LAST), wanted)
    insist("no HTTP", statuses(port, b"no HTTP\r\n\r\n"), [400])


def asked(body):
    text = json.dumps(body).encode()
    return b"POST /symbolicate HTTP/1.1\r\nHost: x\r\nContent-Length: %d\r\n\r\n" % len(text) + text


def in_one_piece(port):
    """Each answer comes whole, so that none waits for a client's word of its head."""
    event = {"frames": [{"filename": "x", "lineno": 1, "colno": 1}]}
    with connected(port) as client:
        client.setsockopt(socket.IPPROTO_TCP, socket.TCP_NODELAY, 1)
        for _ in range(20):
            client.sendall(asked(event))
            head, _, body = client.recv(1 << 16).partition(b"\r\n\r\n")
            length = int(re.search(rb"(?i)content-length: ([0-9]+)", head)[1])
            insist("the body that comes with its head", len(body), length)


def map_of(folder, name, source, content):
    (folder / f"{name}.js.map").write_text(json.dumps({"version": 3, "sources": [source], "sourcesContent": [content], "mappings": "AAEA"}))


def answer_to(port, url, count):
    """What is answered to an event of so many frames: its status, and its text."""
    with connected(port) as client:
        client.sendall(asked({"frames": [{"filename": url, "lineno": 1, "colno": 1}] * count}))
        # Answers that are too large may be so by far.
        head, _, begin = client.recv(1 << 16).partition(b"\r\n\r\n")
        length = int(re.search(rb"(?i)content-length: ([0-9]+)", head)[1])
        insist("an answer of at most 16 MiB", length <= 16 << 20, True)
        body = bytearray(begin)
        while len(body) < length:
            body += client.recv(1 << 20)
        return int(head.split()[1]), json.loads(body)


def large(port, folder, prefix):
    """Lines are cut, where a character begins, and an answer has a bound."""
    lines = ["a" * 500, "b" * 501, "c" * 499 + "\u00e9", "d" * 498 + "\U0001f600", "e" * 60_000]
    map_of(folder, "lines", "a.ts", "\n".join(lines))
    status, answer = answer_to(port, f"{prefix}lines.js", 1)
    insist("lines that are cut", (status, answer["frames"][0]["original"]["context"]), (200, {
        "before": ["a" * 500, "b" * 500], "line": "c" * 499, "after": ["d" * 498, "e" * 500], "cut": True}))
    # A sign that JSON writes with six.
    map_of(folder, "signs", "a.ts", "\n".join(["\x01" * 2000] * 5))
    status, answer = answer_to(port, f"{prefix}signs.js", 1000)
    insist("many large lines", (status, len(answer["frames"])), (200, 1000))
    insist("a line of signs", answer["frames"][999]["original"]["context"]["line"], "\x01" * 500)
    map_of(folder, "names", "n" * 100_000, "")
    wanted = (413, {"reason": "the answer has more than 16777216 bytes"})
    insist("an answer that is too large", answer_to(port, f"{prefix}names.js", 1000), wanted)
    insist("one that is not", answer_to(port, f"{prefix}names.js", 100)[0], 200)


def names(port, folder, prefix):
    """A map of 1 MB is refused where its names are made of more than 64 MiB."""
    for count, is_read in [(70, False), (60, True)]:
        source_map = {"version": 3, "sourceRoot": "n" * 1_000_000, "sources": ["a.ts"] * count, "mappings": "AAEA"}
        (folder / f"root{count}.js.map").write_text(json.dumps(source_map))
        status, answer = answer_to(port, f"{prefix}root{count}.js", 1)
        insist(f"a map with {count} long names", (status, answer["frames"][0]["original"] is not None), (200, is_read))


def left(what, client, pieces, failures):
    """The client sends a piece every half second, the last of them again and again, and is left after the time for a request."""
    begun = time.monotonic()
    client.settimeout(0.5)
    pieces = list(pieces)
    try:
        while time.monotonic() - begun < SECONDS + 5:
            client.sendall(pieces.pop(0) if len(pieces) > 1 else pieces[0])
            try:
                if not client.recv(1 << 16):
                    break
            except socket.timeout:
                pass
    except ConnectionError:
        pass
    seconds = time.monotonic() - begun
    if not SECONDS - 2 < seconds < SECONDS + 4:
        failures.append(f"{what} is left after {seconds:.1f} seconds")


def not_reading(port, url, failures):
    """A client that does not read its answer of 15 MB, which is left, too."""
    with socket.socket() as client:
        client.setsockopt(socket.SOL_SOCKET, socket.SO_RCVBUF, 4096)
        client.connect(("127.0.0.1", port))
        client.sendall(asked({"frames": [{"filename": url, "lineno": 1, "colno": 1}] * 1000}))
        client.recv(1)
        time.sleep(SECONDS + 3)
        if len(until_end(client)) > 14_000_000:
            failures.append("the answer waits for a client that does not read")


def slow(port, prefix):
    """Clients that take their time, with a request or its answer."""
    failures = []
    head = b"POST /symbolicate HTTP/1.1\r\nHost: x\r\n"
    clients = [
        ("a slow head", [head + b"X: ", b"x"]), ("a slow body", [head + b"Content-Length: 1000\r\n\r\n", b" "]),
        ("an idle head", [head, b""]), ("an idle body", [head + b"Content-Length: 1000\r\n\r\n{", b""]), ("an idle client", [b""]),
        ("a client between two requests", [b"GET /health HTTP/1.1\r\nHost: x\r\n\r\n", b""]),
    ]
    threads = [threading.Thread(target=left, args=(what, connected(port), pieces, failures)) for what, pieces in clients]
    threads.append(threading.Thread(target=not_reading, args=(port, f"{prefix}signs.js", failures)))
    for thread in threads:
        thread.start()
    for thread in threads:
        thread.join()
    insist("slow clients", failures, [])


def is_open(client):
    client.setblocking(False)
    try:
        return client.recv(1) != b""
    except BlockingIOError:
        return True
    except ConnectionError:
        return False


def many(port, process):
    """400 slow clients have few connections and threads, and when they go, others are served."""
    clients = []
    try:
        for _ in range(400):
            clients.append(connected(port))
            try:
                clients[-1].sendall(b"POST /symbolicate HTTP/1.1\r\n")
            except ConnectionError:
                pass
        time.sleep(1)
        threads = int(re.search(r"Threads:\s+([0-9]+)", Path(f"/proc/{process.pid}/status").read_text())[1])
        insist("the threads", threads <= CLIENTS + 16, True)
        insist("clients at once", sum(map(is_open, clients)), CLIENTS)
    finally:
        for client in clients:
            client.close()
    for _ in range(100):
        if statuses(port, LAST) == [404]:
            return
        time.sleep(0.1)
    sys.exit("service: it does not answer after many clients")
