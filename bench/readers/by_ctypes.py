"""A map of the library, called by way of ctypes, as Python's package did before it had an extension. LIBSMAP names libsmap.so.1.
It answers as the package does."""

import ctypes
import operator
import os
import threading
from array import array
from typing import NamedTuple, Optional


class Handle(ctypes.Structure):
    _fields_ = [("at", ctypes.c_void_p)]


class Refusal(ctypes.Structure):
    _fields_ = [("numbers", ctypes.c_uint32 * 4), ("places", ctypes.c_uint64 * 2)]


class Found(ctypes.Structure):
    _fields_ = [(name, ctypes.c_uint32) for name in
                ("kind", "generated_column", "source", "line", "column", "named", "name")]


class Answer(NamedTuple):
    generated_column: int
    source: Optional[int]
    line: Optional[int]
    column: Optional[int]
    name: Optional[int]


library = ctypes.CDLL(os.environ["LIBSMAP"])
_number, _size, _bytes, _handle = ctypes.c_uint32, ctypes.c_size_t, ctypes.c_char_p, ctypes.POINTER(Handle)
for _name, _words in {"smap_map_read": [_bytes, _size, _bytes, _size, _number, _handle, ctypes.POINTER(Refusal)],
                      "smap_look_up": [_handle, _number, _number, ctypes.POINTER(Found)],
                      "smap_look_up_many": [_handle, ctypes.c_void_p, _size, ctypes.c_void_p, _size]}.items():
    getattr(library, _name).restype, getattr(library, _name).argtypes = _number, _words


def place(value, what):
    if isinstance(value, bool):
        raise TypeError(f"{what} is a whole number, not a bool")
    number = operator.index(value)
    if number < 0:
        raise ValueError(f"{what} is {number}: lines and columns count from 0")
    return min(number, 2**32 - 1)


def reported(found):
    if found.kind == 0:
        return None
    if found.kind == 1:
        return Answer(found.generated_column, None, None, None, None)
    return Answer(found.generated_column, found.source, found.line, found.column, found.name if found.named else None)


class SourceMap:
    def __init__(self, data):
        self._lock, self._handle = threading.Lock(), Handle()
        if library.smap_map_read(data, len(data), b"", 0, 64, self._handle, Refusal()):
            raise ValueError("the map is refused")

    def look_up(self, line, column):
        line, column, found = place(line, "line"), place(column, "column"), Found()
        with self._lock:
            library.smap_look_up(self._handle, line, column, found)
        return reported(found)

    def look_up_many(self, positions):
        given = array("I", positions.tobytes())
        count = len(given) // 2
        found = array("I", bytes(28 * count))
        with self._lock:
            library.smap_look_up_many(self._handle, given.buffer_info()[0], count, found.buffer_info()[0], count)
        return found
