#!/usr/bin/env python3
"""Makes a wheel of a package that is ready in a folder, with its extension: pack/wheel.py FOLDER PYPROJECT README TO TAGS. TAGS are
the three of a wheel, of which the last may be several, with a dot between them.

All times are SOURCE_DATE_EPOCH, and files stand in the order of their names, so the same files give the same bytes.
"""

import base64
import hashlib
import os
import re
import sys
import time
import zipfile
from pathlib import Path
from typing import Dict, List


def project(pyproject: Path) -> Dict[str, str]:
    """The texts of the table `project`."""
    table = pyproject.read_text().partition("[project]\n")[2].partition("\n[")[0]
    return dict(re.findall(r'^([a-z-]+) = "(.*)"$', table, re.MULTILINE))


def listed(pyproject: Path, key: str) -> List[str]:
    """The texts of a list in it."""
    found = re.search(rf"^{key} = \[(.*?)\]$", pyproject.read_text(), re.MULTILINE | re.DOTALL)
    return re.findall(r'"(.*?)"', found[1]) if found else []


def record(path: str, data: bytes) -> str:
    digest = base64.urlsafe_b64encode(hashlib.sha256(data).digest()).rstrip(b"=").decode()
    return f"{path},sha256={digest},{len(data)}\n"


def main(folder: Path, pyproject: Path, readme: Path, to: Path, tags: str) -> None:
    reported = project(pyproject)
    name = f"{reported['name']}-{reported['version']}"
    metadata = (
        f"Metadata-Version: 2.1\nName: {reported['name']}\nVersion: {reported['version']}\nSummary: {reported['description']}\n"
        f"Keywords: {','.join(listed(pyproject, 'keywords'))}\n"
        + "".join(f"Classifier: {each}\n" for each in listed(pyproject, "classifiers")) +
        f"Requires-Python: {reported['requires-python']}\nDescription-Content-Type: text/markdown\n\n{readme.read_text()}"
    )
    interpreter, abi, platforms = tags.split("-")
    wheel = "Wheel-Version: 1.0\nGenerator: smap\nRoot-Is-Purelib: false\n" + "".join(
        f"Tag: {interpreter}-{abi}-{platform}\n" for platform in platforms.split("."))
    files = {str(path.relative_to(folder)): path.read_bytes() for path in sorted(folder.rglob("*")) if path.is_file()}
    files[f"{name}.dist-info/METADATA"] = metadata.encode()
    files[f"{name}.dist-info/WHEEL"] = wheel.encode()
    own = f"{name}.dist-info/RECORD"
    files[own] = ("".join(record(path, data) for path, data in files.items()) + f"{own},,\n").encode()
    date = time.gmtime(int(os.environ["SOURCE_DATE_EPOCH"]))[:6]
    with zipfile.ZipFile(to / f"{name}-{tags}.whl", "w") as archive:
        for path, data in files.items():
            entry = zipfile.ZipInfo(path, date)
            entry.compress_type = zipfile.ZIP_DEFLATED
            entry.create_system = 3
            entry.external_attr = (0o100755 if ".data/scripts/" in path else 0o100644) << 16
            archive.writestr(entry, data, compresslevel=9)


if __name__ == "__main__":
    main(*map(Path, sys.argv[1:5]), sys.argv[5])
