"""`python -m smap` is the program `smap`, where the package was installed with it. Else it prints the version of the library, and where
it lies."""

import os
import sys
from importlib.metadata import PackageNotFoundError, files
from typing import List

from . import __version__, _smap


def programs() -> List[str]:
    """The programs that are in the package that this module is of."""
    try:
        found = [path.locate() for path in files("smap") or [] if path.name == "smap" and path.parent.name == "bin"]
    except PackageNotFoundError:
        return []
    return [str(path) for path in found if os.access(path, os.X_OK)]


if __name__ == "__main__":
    for program in programs():
        os.execv(program, [program, *sys.argv[1:]])
    print(f"smap {__version__}\n{_smap.__file__}")
