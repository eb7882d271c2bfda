"""Locks between runs, and files that get their name once they are whole."""

from __future__ import annotations

import fcntl
import os
from contextlib import ExitStack, suppress
from typing import Iterable


def locked(file: int) -> bool:
    """Lock an open file or folder, and return whether no other run holds it.

    The lock ends with the last process that has the file open. A file system without locks has no
    such check.
    """
    try:
        fcntl.flock(file, fcntl.LOCK_EX | fcntl.LOCK_NB)
    except BlockingIOError:
        return False
    except OSError:
        return True
    return True


def unlock(file: int) -> None:
    """Unlock an open file, and close it. Other processes may have it open still."""
    with suppress(OSError):
        fcntl.flock(file, fcntl.LOCK_UN)
    os.close(file)


def lock_by_name(path: str, opened: ExitStack) -> bool:
    """Lock a file that is there only meanwhile, and return whether no other run holds it.

    It is removed when `opened` is closed. Where none can be made, there is no such check.
    """
    while True:
        try:
            file = os.open(path, os.O_RDWR | os.O_CREAT | os.O_NOFOLLOW, 0o600)
        except OSError:
            return True
        if not locked(file):
            os.close(file)
            return False
        if is_at(file, path):
            opened.callback(os.close, file)
            opened.callback(remove, path)  # before it is closed, so that no other run has it
            os.set_inheritable(file, True)  # xbrl-json holds it if this program ends by force
            return True
        os.close(file)  # another run has removed it meanwhile


def is_at(file: int, path: str) -> bool:
    """Return whether an open file is the one that a path leads to."""
    try:
        return os.path.samestat(os.fstat(file), os.stat(path))
    except OSError:
        return False


def remove(path: str) -> None:
    """Remove a file, if that is possible."""
    with suppress(OSError):
        os.unlink(path)


def write_aside(path: str, aside: str, pieces: Iterable[bytes]) -> None:
    """Write a new file at `aside` that gets the name `path` at once, so that no run reads a part.

    Raise OSError if it cannot be written. Then nothing is left.
    """
    try:
        with open(aside, "xb") as file:
            file.writelines(pieces)
        os.replace(aside, path)
    finally:
        if os.path.lexists(aside):
            os.unlink(aside)
