"""SHA-256 of files and folders, in the form of `sha256sum`, so that anyone can compare them."""

from __future__ import annotations

import hashlib
import os
import stat
from functools import lru_cache
from typing import Dict, List, NamedTuple, Optional

PIECE = 1 << 20
ESCAPES = str.maketrans({"\\": "\\\\", "\n": "\\n", "\r": "\\r"})


class Sum(NamedTuple):
    """The size of a file in bytes, or of all files of a folder, and the SHA-256."""

    size: int
    sha256: str


def sum_of(path: str) -> Optional[Sum]:
    """Return the sum of a file or a folder; None for a pipe, and for what cannot be read."""
    try:
        known = os.stat(path)
        if stat.S_ISDIR(known.st_mode):
            return sum_of_folder(path)
        if not stat.S_ISREG(known.st_mode):
            return None
        place = (known.st_dev, known.st_ino, known.st_size, known.st_mtime_ns)
        return Sum(known.st_size, sum_of_file(path, place))
    except (OSError, ValueError):
        return None


@lru_cache(maxsize=4096)
def sum_of_file(path: str, place: object) -> str:
    """Return the SHA-256 of a file. It is read again only if its `place` is another."""
    made = hashlib.sha256()
    with open(path, "rb") as file:
        for piece in iter(lambda: file.read(PIECE), b""):
            made.update(piece)
    return made.hexdigest()


def sum_of_folder(folder: str) -> Sum:
    """Return the SHA-256 of a folder: that of what `sha256sum` prints of its files.

    The files are in the order of the bytes of their names. The same by other tools:
    find . -type f -print0 | LC_ALL=C sort -z | xargs -0 sha256sum | sha256sum
    """
    found: Dict[bytes, Sum] = {}
    for at, _, names in os.walk(folder):
        for name in names:
            path = os.path.join(at, name)
            known = os.lstat(path)
            if stat.S_ISREG(known.st_mode):
                place = (known.st_dev, known.st_ino, known.st_size, known.st_mtime_ns)
                shown = os.fsencode(os.path.join(".", os.path.relpath(path, folder)))
                found[shown] = Sum(known.st_size, sum_of_file(path, place))
    lines: List[bytes] = [line(name, found[name].sha256) for name in sorted(found)]
    size = sum(file.size for file in found.values())
    return Sum(size, hashlib.sha256(b"".join(lines)).hexdigest())


def line(name: bytes, sha256: str) -> bytes:
    """Return the line of a file as `sha256sum` prints it."""
    text = os.fsdecode(name)
    escaped = text.translate(ESCAPES)
    mark = "\\" if escaped != text else ""
    return os.fsencode(f"{mark}{sha256}  {escaped}\n")
