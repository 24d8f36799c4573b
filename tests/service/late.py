"""A release that comes late, is replaced, is replaced by what is no map, and is removed, while clients ask a service for it. The service is a
copy, for which a file holds a short time and not half a minute."""

import http.client
import json
import re
import subprocess
import threading
import time
from pathlib import Path

from unkind import insist

# For how long a file holds, how much later than that all that is new has been seen, and how long each stays.
HOLDS, SLACK, STAYS = 0.5, 1.0, 2.0
CLIENTS = 4


def text_of(version):
    return json.dumps({"version": 3, "sources": [f"v{version}.ts"], "mappings": "AAAA"})


def source_of(port, url, connection=None):
    """The version that the service answers from, or None where it knows no map."""
    connection = connection or http.client.HTTPConnection("127.0.0.1", port, timeout=60)
    connection.request("POST", "/symbolicate", json.dumps({"frames": [{"filename": url, "lineno": 1, "colno": 1}]}))
    response = connection.getresponse()
    original = json.loads(response.read())["frames"][0]["original"]
    insist("the status of what is late", response.status, 200)
    return original and int(re.fullmatch(r".*/v([0-9]+)\.ts", original["source"])[1])


class Release:
    """One map, and what it was from when on. A version that is negative is no map, and leaves the one before it."""

    def __init__(self, path):
        self.path, self.states, self.answers, self.failures = path, [(time.monotonic(), None)], [], []

    def becomes(self, version):
        when = time.monotonic()
        if version is None:
            self.path.unlink()
        else:
            new = self.path.with_name("new")
            new.write_text(text_of(version) if version > 0 else '{"version":3}')
            new.replace(self.path)
        if version is None or version > 0:
            self.states.append((when, version))

    def ask(self, port, url, until):
        try:
            connection = http.client.HTTPConnection("127.0.0.1", port, timeout=60)
            while time.monotonic() < until:
                begin = time.monotonic()
                self.answers.append((begin, source_of(port, url, connection), time.monotonic()))
        except (Exception, SystemExit) as error:
            self.failures.append(str(error))

    def may_be(self, begin, end):
        """What may be answered between two times: what the map was since what was seen before ceased to hold."""
        ends = [after for after, _ in self.states[1:]] + [end + 1]
        return [version for (when, version), over in zip(self.states, ends) if when <= end and over + HOLDS + SLACK >= begin]


def late(folder, prefix, program, script):
    """Tries the service of this script, which a program runs."""
    text, count = re.subn(r"LATE = 30\b", f"LATE = {HOLDS}", Path(script).read_text())
    insist("how often the service says how long a file holds", count, 1)
    copy = folder / f"late{Path(script).suffix}"
    copy.write_text(text)
    releases = folder / "late"
    (releases / "new").mkdir(parents=True)
    url, versions = f"{prefix}new/app.js?v=1", [1, 2, 3, -1, 4, None, 5, 6]
    process = subprocess.Popen([*program, str(copy), prefix, str(releases), "0", "1"], stdout=subprocess.PIPE, stderr=subprocess.DEVNULL, text=True)
    try:
        port = int(process.stdout.readline().rsplit(":", 1)[1])
        release, until = Release(releases / "new/app.js.map"), time.monotonic() + STAYS * (len(versions) + 1)
        threads = [threading.Thread(target=release.ask, args=(port, url, until)) for _ in range(CLIENTS)]
        for thread in threads:
            thread.start()
        for version in versions:
            time.sleep(STAYS)
            release.becomes(version)
        for thread in threads:
            thread.join()
        insist("clients of what is late", release.failures, [])
        wrong = [(version, release.may_be(begin, end)) for begin, version, end in release.answers if version not in release.may_be(begin, end)]
        insist("answers that were never so", wrong[:3], [])
        insist("what was seen", {version for _, version, _ in release.answers}, {None, 1, 2, 3, 4, 5, 6})
        # What is no map was told, and told once.
        connection = http.client.HTTPConnection("127.0.0.1", port, timeout=60)
        connection.request("GET", "/health")
        insist("what is told of what is no map", json.loads(connection.getresponse().read())["refused"], 1)
    finally:
        process.terminate()
        process.communicate()
    return len(release.answers)
