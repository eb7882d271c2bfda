"""The folder of a cache: its size has a bound, and only one run makes an entry."""

from __future__ import annotations

import os
import re
import time
from contextlib import contextmanager, suppress
from typing import Iterator, List, Tuple

from .locks import locked, write_aside
from .refusals import cannot_write

LIMIT = 2 << 30  # bytes; a large module takes 70 MB
LONGEST_WAIT = 600.0  # seconds for another run to make an entry, many of them on a loaded machine
LOOKS_EVERY = 0.05
OLD = 86400.0  # seconds after which a file that never became an entry is removed
ENTRY = re.compile(r"[0-9a-f]{64}\.(?:kinds|module)")
ASIDE = re.compile(r"[0-9a-f]{64}\.(?:kinds|module)\.[0-9a-f]{16}")


def used(path: str) -> None:
    """Note that an entry was used: those that were not used for longest are removed first."""
    with suppress(OSError):
        os.utime(path)


def store(path: str, pieces: List[bytes]) -> None:
    """Write an entry to a new file that gets the name at once, then keep the folder's bound.

    Refuse with status 3 if the folder cannot be written.
    """
    folder = os.path.dirname(path)
    aside = f"{path}.{os.urandom(8).hex()}"
    try:
        os.makedirs(folder, exist_ok=True)
        write_aside(path, aside, pieces)
    except FileExistsError:
        raise cannot_write(folder, "it is not a folder") from None
    except OSError as error:
        raise cannot_write(folder, error) from None
    trim(folder, os.path.basename(path))


def trim(folder: str, newest: str) -> None:
    """Remove entries until all have at most LIMIT bytes, but never the newest.

    A run that reads an entry goes on, because it holds the file open. Files of other names are
    left.
    """
    found: List[Tuple[float, int, str]] = []
    with suppress(OSError), os.scandir(folder) as entries:
        for entry in entries:
            with suppress(OSError):
                known = entry.stat(follow_symlinks=False)
                if ENTRY.fullmatch(entry.name) and entry.name != newest:
                    found.append((known.st_mtime, known.st_size, entry.path))
                elif ASIDE.fullmatch(entry.name) and known.st_mtime < time.time() - OLD:
                    os.unlink(entry.path)
    with suppress(OSError):
        room = LIMIT - os.path.getsize(os.path.join(folder, newest))
        for _, size, path in sorted(found, reverse=True):
            room -= size
            if room < 0:
                os.unlink(path)


@contextmanager
def claimed(folder: str, entry: str) -> Iterator[None]:
    """Make an entry while no other run makes some in this folder, if the file system has locks.

    Wait only a while for another run: it may hang. Once the entry at this path exists, do not wait:
    all runs that need it then go on at once.
    """
    lock = -1
    with suppress(OSError):
        lock = os.open(folder, os.O_RDONLY | os.O_CLOEXEC)
    try:
        until = time.monotonic() + LONGEST_WAIT
        while lock >= 0 and not os.path.exists(entry) and not locked(lock):
            if time.monotonic() > until:
                break
            time.sleep(LOOKS_EVERY)
        yield
    finally:
        if lock >= 0:
            os.close(lock)
