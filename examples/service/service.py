"""Symbolicates events over HTTP, by the maps in a folder of releases:

    service.py PREFIX FOLDER [PORT [MEGABYTES]]

PREFIX ends in `/`: a frame of PREFIXr1/app.js has the map FOLDER/r1/app.js.map. It needs smap's package for Python.
`POST /symbolicate` takes

    {"frames": [{"filename": "https://example.test/r1/app.js", "lineno": 1, "colno": 1031}, ..]}

lines and columns from 1, and answers with the frames, each with its `original`, or null: `source`, `lineno`, `colno`, `name`,
`ignored`, and where the map has the source's content, its line and up to two before and after it in `context`: `before`, `line`,
`after`, each cut to the whole characters among its first 500 bytes, and `cut`, which is true where one had more. `GET /health`
says what is kept. Maps are kept while they count for at most so many megabytes, 200 if not given; one whose names are made of
more than 64 MiB is refused. PORT 0 is any that is free; the address is printed.

What is wrong is answered with a reason: with 400 what is wrong with an event or a request, with 404 another path, with 411 a body
in chunks, with 413 an event of more than 1 MiB or an answer of more than 16 MiB, and with 500 what is wrong here. A body is read
whole, or the connection closed. A client has 10 seconds for a request, and as many for its answer. 64 clients are served at once,
and more are closed."""

import io
import json
import re
import socket
import sys
import threading
import time
from http import HTTPStatus
from http.server import BaseHTTPRequestHandler, ThreadingHTTPServer

from smap import Maps

MOST_BYTES = 1 << 20
MOST_ANSWER = 16 << 20
MOST_NAMES = 64 << 20
MOST_FRAMES = 1000
MOST_LINE = 500
MOST_NUMBER = 2**31
MOST_CLIENTS = 64
LENGTH = re.compile("[0-9]{1,15}")
# What is not there, or has failed, is looked for again after so many seconds, and a file for what is new in it.
LATE = 30
# A client that takes longer for a whole request, or for an answer, is left.
SECONDS = 10


class Wrong(Exception):
    """What is answered in place of frames: a status and a reason."""

    def __init__(self, status, reason):
        super().__init__(reason)
        self.status = status


def frames_of(body):
    """The frames of an event: URL, line and column, from 1, each."""
    try:
        event = json.loads(body)
    except (ValueError, RecursionError):
        raise Wrong(400, "the event is no JSON") from None
    frames = event.get("frames") if isinstance(event, dict) else None
    if not isinstance(frames, list):
        raise Wrong(400, "the event has no list `frames`")
    if len(frames) > MOST_FRAMES:
        raise Wrong(400, f"the event has more than {MOST_FRAMES} frames")
    return [frame_of(frame, number) for number, frame in enumerate(frames)]


def frame_of(frame, number):
    place = [frame.get(key) for key in ("filename", "lineno", "colno")] if isinstance(frame, dict) else [None] * 3
    url, *numbers = place
    if not isinstance(url, str):
        raise Wrong(400, f"frame {number} has no text `filename`")
    if any(type(value) is not int or not 1 <= value <= MOST_NUMBER for value in numbers):
        raise Wrong(400, f"frame {number} has no `lineno` and `colno` from 1 to {MOST_NUMBER}")
    return place


def symbolicated(maps, url, line, column):
    """A frame with its original."""
    frame = {"filename": url, "lineno": line, "colno": column, "original": None}
    source_map = maps.get(url)
    place = source_map.place(line - 1, column - 1) if source_map is not None else None
    if place is not None:
        context = source_map.context(place.index, place.line)
        frame["original"] = {
            "source": place.source, "lineno": place.line + 1, "colno": place.column + 1, "name": place.name,
            "ignored": place.ignored, "context": context and shortened(context),
        }
    return frame


def shortened(context):
    """Lines of which none has too many bytes, and whether one had."""
    before, (line,), after = map(begins_of, [context.before, [context.line], context.after])
    return {"before": before, "line": line, "after": after, "cut": (before, line, after) != context}


def begins_of(lines):
    # A character that does not fit is left out whole.
    return [line.encode()[:MOST_LINE].decode(errors="ignore") for line in lines]


def answer_to(maps, frames):
    """The text of the frames with their originals, which is made no longer than it may be."""
    parts, size = [], 0
    for frame in frames:
        parts.append(json.dumps(symbolicated(maps, *frame)))
        size += len(parts[-1])
        if size > MOST_ANSWER:
            raise Wrong(413, f"the answer has more than {MOST_ANSWER} bytes")
    return '{"frames": [' + ", ".join(parts) + "]}"


class Sent(io.RawIOBase):
    """What a client sends, until a time that is set for each request."""

    def __init__(self, connection):
        self.connection, self.until = connection, 0

    def readable(self):
        return True

    def readinto(self, buffer):
        left = self.until - time.monotonic()
        if left <= 0:
            raise socket.timeout
        self.connection.settimeout(left)
        return self.connection.recv_into(buffer)


class Handler(BaseHTTPRequestHandler):
    protocol_version = "HTTP/1.1"

    def setup(self):
        super().setup()
        self.sent = Sent(self.connection)
        self.rfile = io.BufferedReader(self.sent)

    def handle_one_request(self):
        self.sent.until = time.monotonic() + SECONDS
        super().handle_one_request()

    def do_GET(self):
        # Until its body is read, what is left of the request would be taken for the next one.
        closes, self.close_connection = self.close_connection, True
        try:
            body = self.body()
            self.close_connection = closes
            self.answer(200, self.text(body))
        except Wrong as wrong:
            self.refuse(wrong.status, str(wrong))
        except OSError:
            # The client is gone, or does not send what it said.
            self.close_connection = True
        except Exception as error:
            self.refuse(500, f"{type(error).__name__} in the service")

    do_POST = do_GET

    def body(self):
        lengths = self.headers.get_all("Content-Length", ["0"] if self.command == "GET" else [])
        if self.headers.defects:
            raise Wrong(400, "the request is no HTTP")
        if "Transfer-Encoding" in self.headers:
            raise Wrong(411, "the request is in chunks")
        if len(lengths) != 1 or not LENGTH.fullmatch(lengths[0]):
            raise Wrong(400, "the request has not one length")
        if int(lengths[0]) > MOST_BYTES:
            raise Wrong(413, f"the event has more than {MOST_BYTES} bytes")
        body = self.rfile.read(int(lengths[0]))
        if len(body) < int(lengths[0]):
            raise ConnectionError
        return body

    def text(self, body):
        maps = self.server.maps
        if (self.command, self.path) == ("GET", "/health"):
            return json.dumps({"maps": len(maps), "bytes": maps.nbytes, "refused": self.server.refused})
        if (self.command, self.path) == ("POST", "/symbolicate"):
            return answer_to(maps, frames_of(body))
        raise Wrong(404, "there is no such path")

    def send_error(self, code, message=None, explain=None):
        """What is refused before the headers are read."""
        self.close_connection = True
        self.refuse(*((501, "there is no such method") if code == 501 else (400, "the request is no HTTP")))

    def refuse(self, status, reason):
        self.answer(status, json.dumps({"reason": reason}))

    def answer(self, status, text):
        close = "Connection: close\r\n" if self.close_connection else ""
        head = (f"HTTP/1.1 {status} {HTTPStatus(status).phrase}\r\nDate: {self.date_time_string()}\r\n"
                f"Content-Type: application/json\r\nContent-Length: {len(text)}\r\n{close}\r\n")
        self.connection.settimeout(SECONDS)
        # A second write would wait for the client's word of the first.
        self.wfile.write((head + text).encode())

    def log_message(self, *_):
        pass


class Server(ThreadingHTTPServer):
    daemon_threads = True
    request_queue_size = 128
    refused = 0

    def verify_request(self, request, client_address):
        # Each client has a thread, beside that which takes them.
        return threading.active_count() <= MOST_CLIENTS

    def tell(self, url, error):
        self.refused += 1
        print(f"refused: {url}: {str(error).splitlines()[0]}", file=sys.stderr, flush=True)

    def handle_error(self, request, client_address):
        """A client that went away is none."""


def main(prefix, folder, port="8000", megabytes="200"):
    with Server(("127.0.0.1", int(port)), Handler) as server:
        server.maps = Maps.folder(prefix, folder, max_bytes=int(megabytes) << 20, max_names=MOST_NAMES, refused=server.tell,
                                  none_for=LATE, fresh_for=LATE)
        print(f"http://127.0.0.1:{server.server_port}", flush=True)
        server.serve_forever()


if __name__ == "__main__":
    if not 3 <= len(sys.argv) <= 5:
        sys.exit(__doc__)
    main(*sys.argv[1:])
