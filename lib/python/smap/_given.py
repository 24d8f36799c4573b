"""Checks what was given: what no call of the library may get is refused here, and never read as something else."""

import operator
import os
import sys
from typing import TYPE_CHECKING, Any, List, Optional, Tuple, Union, cast

if TYPE_CHECKING:
    from array import array
    from mmap import mmap

# The greatest number of 32 bits. No map has a line, a column, a source or a name of this number or a greater one.
MOST = 2**32 - 1

# The greatest bound that a caller gives, in bytes, and the bounds where none is given: on what comes out, and on the names of sources.
MOST_BYTES = 2**63 - 1
OUTPUT_BYTES, NAME_BYTES = 2**30, 2**28

# So many lines may be asked for before one and after it, and so many segments may stand between checkpoints.
MOST_LINES, MOST_INTERVAL = 65535, 4096

# What a buffer of numbers says of its bytes' order where it is this machine's.
_NATIVE = "@=" + ("<" if sys.byteorder == "little" else ">")

Data = Union[bytes, bytearray, memoryview, "mmap", "array[int]"]
Trace = Union[Data, str]
FileData = Union[Data, str, "os.PathLike[str]"]
Held = Union[bytes, memoryview]


def whole(value: Any, what: str) -> int:
    """A whole number. A truth value, a float and a text are none."""
    if isinstance(value, bool):
        raise TypeError(f"{what} is a whole number, not a bool")
    try:
        return operator.index(value)
    except TypeError:
        raise TypeError(f"{what} is a whole number, not {_kind(value)}") from None


def index(value: Any, what: str) -> int:
    """The number of a source. One that none can have is the greatest, which none has."""
    number = whole(value, what)
    return number if 0 <= number < MOST else MOST


def mapping(value: Any) -> List[int]:
    """The eight numbers of a mapping, as the library has them."""
    members = tuple(value)
    if len(members) != 6:
        raise ValueError(f"a mapping has 6 members, not {len(members)}")
    line, column, source, original_line, original_column, name = members
    given = [line, column, 1 if source is None else 2, source, original_line, original_column, int(name is not None), name]
    numbers = [0 if number is None else whole(number, "a number of a mapping") for number in given]
    if min(numbers) < 0:
        raise ValueError(f"a number of a mapping is {min(numbers)}: they count from 0")
    return [min(number, MOST) for number in numbers]


def interval(value: Any) -> int:
    """How many segments stand between checkpoints."""
    return count(value, "interval", MOST_INTERVAL, 1)


def count(value: Any, what: str, most: int = MOST_LINES, least: int = 0) -> int:
    """How many lines are wanted, or bytes may be."""
    number = whole(value, what)
    if not least <= number <= most:
        raise ValueError(f"{what} is {number}: it is {least} to {most}")
    return number


def seconds(value: Any, what: str) -> Optional[float]:
    """How many seconds something holds, or None for ever."""
    if value is None:
        return None
    if isinstance(value, bool) or not isinstance(value, (int, float)):
        raise TypeError(f"{what} is a number of seconds, not {_kind(value)}")
    if not 0 <= value <= MOST:
        raise ValueError(f"{what} is {value}: it is 0 to {MOST}")
    return float(value)


def file_bytes(data: Any, what: str) -> Held:
    """The bytes of a file: those that are given, which are not copied, a text in UTF-8, or those of the file at a path."""
    if isinstance(data, (bytes, str)):
        return data if isinstance(data, bytes) else data.encode()
    if isinstance(data, os.PathLike):
        with open(data, "rb") as file:
            return file.read()
    return _viewed(data, f"{what} is bytes, a str or a Path")


def file_name(data: Any) -> Optional[str]:
    """The path of a file, where one is given."""
    return os.fsencode(data).decode(errors="replace") if isinstance(data, os.PathLike) else None


def path_hint(data: Any) -> str:
    """What is said of a text that is no JSON, where it looks like a path."""
    is_path = isinstance(data, str) and 0 < len(data) <= 4096 and "\n" not in data and "{" not in data
    return "  a str is the text of a map: `SourceMap.from_file` reads the file at a path\n" if is_path else ""


def trace_bytes(data: Any) -> Held:
    """The bytes of a trace."""
    return data.encode() if isinstance(data, str) else _viewed(data, "a trace is bytes or a str")


def positions(data: Any) -> Tuple[Held, int]:
    """Lines and columns in turn, as unsigned numbers of 32 bits, and how many of both there are."""
    try:
        view = memoryview(data)
    except TypeError:
        raise TypeError(f"positions are an array('I'), not {_kind(data)}") from None
    if view.format.lstrip(_NATIVE) not in ("I", "L") or view.itemsize != 4:
        raise TypeError(f"positions are unsigned numbers of 32 bits, as in array('I'), not '{view.format}' of "
                        f"{8 * view.itemsize} bits")
    if view.nbytes % 8:
        raise ValueError("positions: a line without a column")
    return _together(view), view.nbytes // 8


def text(value: Any, what: str) -> str:
    """A text."""
    if not isinstance(value, str):
        raise TypeError(f"{what} is a str, not {_kind(value)}")
    return value


def whole_url(value: Any, what: str) -> str:
    """A URL or a prefix, which is no pattern."""
    if text(value, what).startswith("*"):
        raise ValueError(f"{what} that is a pattern")
    return cast(str, value)


def _viewed(data: Any, what: str) -> Held:
    if isinstance(data, bytes):
        return data
    try:
        view = memoryview(data)
    except TypeError:
        raise TypeError(f"{what}, not {_kind(data)}") from None
    if view.itemsize != 1:
        raise TypeError(f"{what}, not items of {8 * view.itemsize} bits")
    return _together(view)


# What stands apart is copied.
def _together(view: memoryview) -> Held:
    return view if view.c_contiguous else view.tobytes()


def _kind(value: Any) -> str:
    return type(value).__name__
