"""Files that are written whole or not at all."""

from __future__ import annotations

import os
import re
import stat
from contextlib import suppress
from typing import Dict, Iterable, List, Optional

ASIDE = re.compile(r"(.+)\.[0-9a-f]{16}", re.DOTALL)


def aside_of(path: str) -> str:
    """Return a new path next to a file, at which it is written before it gets its name."""
    return f"{path}.{os.urandom(8).hex()}"


def asides_in(folder: str) -> Dict[str, List[str]]:
    """Return what programs that were ended by force have left aside in a folder, by the file."""
    found: Dict[str, List[str]] = {}
    with suppress(OSError):
        for name in os.listdir(folder):
            match = ASIDE.fullmatch(name)
            if match:
                path = os.path.join(folder, match[1])
                found.setdefault(path, []).append(os.path.join(folder, name))
    return found


def write_whole(path: str, pieces: Iterable[bytes]) -> None:
    """Write a file aside and rename it; write straight to what is not a regular file.

    Raise OSError if it cannot be written. A file that was there keeps its mode.
    """
    known: Optional[os.stat_result] = os.stat(path) if os.path.exists(path) else None
    if known is not None and not stat.S_ISREG(known.st_mode):
        with open(path, "wb") as file:  # a shell's pipe has no other path that can be opened
            file.writelines(pieces)
        return
    place = os.path.realpath(path)
    aside = aside_of(place)
    try:
        with open(aside, "xb") as file:
            file.writelines(pieces)
            file.flush()
            os.fsync(file.fileno())
        if known is not None:
            os.chmod(aside, stat.S_IMODE(known.st_mode))
        os.replace(aside, place)
    finally:
        if os.path.lexists(aside):
            os.unlink(aside)
