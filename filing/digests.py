"""Digests of contents, by which the cache knows files.

They are BLAKE2b, block by block, on several threads.
"""

from __future__ import annotations

import hashlib
import mmap
import os
import resource
import time
from contextlib import suppress
from itertools import count
from threading import Thread
from typing import Callable, Dict, List, NamedTuple, Optional, Sequence, Tuple, Union

from .refusals import cannot_read

BLOCK = 1 << 20
MOST_THREADS = 8
STEADY = 10.0  # seconds since the last change, after which the next one has another time
Identity = Tuple[int, ...]

# The digests of files that this run, or the one that started it, has read.
known_digests: Dict[Identity, bytes] = {}


class Contents(NamedTuple):
    """A file to digest: what opens it, its size when it was looked at, and its name in lines.

    Its identity tells it from all other content; a file that was changed of late has none.
    """

    opened: Callable[[], int]
    size: int
    label: str
    identity: Optional[Identity] = None


def digest_of(text: Union[bytes, memoryview]) -> bytes:
    """Return the digest of bytes that are in memory."""
    return hashlib.blake2b(text, digest_size=32).digest()


def contents_of_disk(
    path: str, size: int, label: str, identity: Optional[Identity] = None
) -> Contents:
    return Contents(lambda: os.open(path, os.O_RDONLY | os.O_CLOEXEC), size, label, identity)


def identity_of(known: os.stat_result) -> Optional[Identity]:
    """Return what a file's content is known by; None if it was changed a moment ago.

    The system sets the time of a change itself, but two changes within a moment have one time.
    """
    if not max(known.st_mtime, known.st_ctime) < time.time() - STEADY:
        return None
    return known.st_dev, known.st_ino, known.st_size, known.st_mtime_ns, known.st_ctime_ns


def digests_of(files: Sequence[Contents]) -> List[bytes]:
    """Return the digest of each file: that of the digests of its blocks.

    A file that was digested before is not read again. Refuse the first one that cannot be read.
    """
    new = [file for file in files if file.identity not in known_digests]
    made = iter(new_digests(new))
    found: List[bytes] = []
    for file in files:
        kept = known_digests.get(file.identity) if file.identity is not None else None
        found.append(next(made) if kept is None else kept)
    known_digests.update((file.identity, digest) for file, digest in zip(files, found) if file.identity is not None)
    return found


def new_digests(files: Sequence[Contents]) -> List[bytes]:
    """Return the digest of each file, which is read for it."""
    blocks = Blocks(files)
    blocks.work_on_threads()
    digests: List[List[bytes]] = [[] for _ in files]
    for (number, _), found in zip(blocks.places, blocks.found):
        if isinstance(found, OSError):
            raise cannot_read(files[number].label, found)
        if not isinstance(found, bytes):
            raise found or MemoryError
        digests[number].append(found)
    return [digest_of(b"".join(blocks)) for blocks in digests]


class Blocks:
    """The blocks of some files.

    A thread that is free reads and digests the next block. hashlib lets other threads run
    meanwhile.
    """

    def __init__(self, files: Sequence[Contents]) -> None:
        self.files = files
        self.places = [(number, at) for number, file in enumerate(files) for at in range(0, file.size or 1, BLOCK)]
        self.found: List[Union[bytes, Exception, None]] = [None] * len(self.places)
        self.turns = count()
        self.stopped = False

    def work_on_threads(self) -> None:
        """Work through all blocks, on this thread and on others.

        There is a thread for each processor, up to `MOST_THREADS`, or as many as the system gives.
        With a limit of memory there is only this one: Python waits for ever for a thread that has
        no memory to begin.
        """
        threads: List[Thread] = []
        most = 1 if has_memory_limit() else MOST_THREADS
        try:
            with suppress(RuntimeError):  # the system gives no more threads
                for _ in range(min(most, processors(), len(self.places)) - 1):
                    thread = Thread(target=self.help)
                    thread.start()
                    threads.append(thread)
            self.work()
        except BaseException:  # a signal: the others must not go on
            self.stopped = True
            raise
        finally:
            for thread in threads:
                thread.join()

    def help(self) -> None:
        """Do the work of another thread. If it runs out of memory, leave the rest to the others."""
        with suppress(MemoryError):
            self.work()

    def work(self) -> None:
        """Digest one block after the other, until no more are left."""
        room = room_of_block()
        for turn in self.turns:
            if self.stopped or turn >= len(self.places):
                return
            try:
                self.found[turn] = self.digest(*self.places[turn], room)
            except Exception as error:  # it is told in the order of the files
                self.found[turn] = error

    def digest(self, number: int, at: int, room: memoryview) -> bytes:
        """Return the digest of the block that begins at byte `at` of a file."""
        file = self.files[number].opened()
        try:
            filled = 0
            while filled < BLOCK:
                more = os.preadv(file, [room[filled:]], at + filled)
                if not more:
                    break
                filled += more
            return digest_of(room[:filled])
        finally:
            os.close(file)


def room_of_block() -> memoryview:
    """Return room for a block, of which only what is filled takes memory."""
    try:
        return memoryview(mmap.mmap(-1, BLOCK))
    except OSError:
        raise MemoryError from None


def has_memory_limit() -> bool:
    """Return whether the system refuses this run memory above a limit."""
    limits = (resource.getrlimit(kind) for kind in (resource.RLIMIT_AS, resource.RLIMIT_DATA))
    return any(soft != resource.RLIM_INFINITY for soft, _ in limits)


def processors() -> int:
    """Return how many processors this run may use."""
    return len(os.sched_getaffinity(0)) if hasattr(os, "sched_getaffinity") else os.cpu_count() or 1
