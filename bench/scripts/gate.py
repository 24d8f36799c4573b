#!/usr/bin/env python3
"""Runs a command, puts the minutes since its start in front of each line that it prints, and sums the processor minutes of
the checks that it runs by crate. gate.sh beside this file runs it in a fresh clone.

Once a second it looks at the processes that the command has started. One with the words `--crate-name NAME` is a
check of that crate: of a must-fail edit where it runs in a folder `rt-edit-..`, of the tests where it has the word
`--test`, and of the crate itself otherwise.
"""
import os
import subprocess
import sys
import threading
import time

KINDS = ("proof", "tests", "edits")
TICKS = os.sysconf("SC_CLK_TCK")


def processes():
    """Returns each process's parent, the time at which it began, and the processor seconds that it has taken."""
    found = {}
    for name in os.listdir("/proc"):
        if name.isdigit():
            try:
                with open(f"/proc/{name}/stat", encoding="utf-8", errors="replace") as it:
                    fields = it.read().rpartition(")")[2].split()
            except OSError:
                continue
            found[int(name)] = int(fields[1]), fields[19], (int(fields[11]) + int(fields[12])) / TICKS
    return found


def check_of(process):
    """Returns the crate and the kind of a process that is a check."""
    try:
        with open(f"/proc/{process}/cmdline", "rb") as it:
            words = it.read().decode(errors="replace").split("\0")
        folder = os.readlink(f"/proc/{process}/cwd")
    except OSError:
        return None
    if "--crate-name" not in words:
        return None
    crate = words[words.index("--crate-name") + 1]
    if "/rt-edit-" in folder:
        return crate, "edits"
    return crate, "tests" if "--test" in words else "proof"


def is_below(process, top, found):
    while process in found and process != top:
        process = found[process][0]
    return process == top


class Watch(threading.Thread):
    """Keeps of each process that is a check which check it is and the processor seconds that it has taken."""

    def __init__(self, top):
        super().__init__(daemon=True)
        self.top, self.ended = top, threading.Event()
        self.taken = {}

    def run(self):
        while not self.ended.wait(1):
            found = processes()
            for process, (_, begun, taken) in found.items():
                check = is_below(process, self.top, found) and check_of(process)
                if check:
                    self.taken[process, begun] = check, taken

    def minutes(self):
        """Returns the processor minutes of each crate, by kind, in the order in which they began."""
        minutes = {}
        for (crate, kind), taken in self.taken.values():
            of_crate = minutes.setdefault(crate, dict.fromkeys(KINDS, 0))
            of_crate[kind] += taken / 60
        return minutes


def main():
    began = time.monotonic()
    command = subprocess.Popen(
        sys.argv[1:], stdin=subprocess.DEVNULL, stdout=subprocess.PIPE, stderr=subprocess.STDOUT
    )
    watch = Watch(command.pid)
    watch.start()
    for line in command.stdout:
        minutes = (time.monotonic() - began) / 60
        print(f"{minutes:7.2f} {line.decode(errors='replace')}", end="", flush=True)
    status = command.wait()
    minutes = (time.monotonic() - began) / 60
    watch.ended.set()
    watch.join()

    print(f"\n{' '.join(sys.argv[1:])}: {minutes:.1f} minutes, status {status}")
    print(f"processors: {len(os.sched_getaffinity(0))}\n\nProcessor minutes:\n")
    print("| Crate | Proof | Tests | Edits | All |\n|---|---|---|---|---|")
    by_crate = watch.minutes()
    sums = {kind: sum(of_crate[kind] for of_crate in by_crate.values()) for kind in KINDS}
    for crate, of_crate in [*by_crate.items(), ("all", sums)]:
        row = [*(of_crate[kind] for kind in KINDS), sum(of_crate.values())]
        print(f"| {crate} | {' | '.join(f'{minutes:.1f}' for minutes in row)} |")
    return status if status >= 0 else 128 - status


if __name__ == "__main__":
    sys.exit(main())
