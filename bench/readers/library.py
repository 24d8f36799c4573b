"""Reads MAP and looks POSITIONS up in Python, by `smap` or by `ctypes`: library.py WAY MAP POSITIONS. It prints what library.c
does."""

import os
import sys
from array import array
from time import perf_counter, process_time

if sys.argv[1] == "ctypes":
    from by_ctypes import SourceMap
else:
    from smap import SourceMap

positions = array("I")
with open(sys.argv[3], "rb") as file:
    positions.frombytes(file.read())
now = process_time if os.environ.get("CLOCK") == "processor" else perf_counter
begin = now()
with open(sys.argv[2], "rb") as file:
    source_map = SourceMap(file.read())
read = now()


def one_by_one(look_up):
    total = 0
    for line, column in zip(positions[0::2], positions[1::2]):
        answer = look_up(line, column)
        if answer is not None and answer.source is not None:
            total += answer.line + answer.column
    return total


total = one_by_one(source_map.look_up)
one = now()
found = source_map.look_up_many(positions)
many = now()
if total != sum(line + column for kind, line, column in zip(found[0::7], found[3::7], found[4::7]) if kind == 2):
    sys.exit("the look-ups differ")
print(f"{(read - begin) * 1e6:.0f} {(one - read) * 1e6:.0f} {(many - one) * 1e6:.0f} {total}")
