"""How far a run is, on one line of standard error, if that is a terminal."""

from __future__ import annotations

import sys
import time
from contextlib import suppress
from typing import Iterator

EVERY = 0.1


class Progress:
    """Counts the files of the taxonomy and their bytes. The line is gone at the end."""

    def __init__(self) -> None:
        self.shown = False
        self.on = bool(sys.stderr and sys.stderr.isatty())
        self.files = self.bytes = 0
        self.next = time.monotonic() + EVERY

    def counted(self, pieces: Iterator[bytes]) -> Iterator[bytes]:
        """Yield the pieces of a file, and count them."""
        self.files += 1
        for piece in pieces:
            self.bytes += len(piece)
            if self.on and time.monotonic() >= self.next:
                self.say(f"reading the taxonomy: {self.files} files, {self.bytes / 1e6:.0f} MB")
            yield piece

    def say(self, text: str) -> None:
        if self.on:
            self.shown = True
            self.next = time.monotonic() + EVERY
            self.put(f"\r\x1b[Kxbrl-filing: {text}")

    def clear(self) -> None:
        if self.shown:
            self.shown = False
            self.put("\r\x1b[K")

    @staticmethod
    def put(text: str) -> None:
        with suppress(OSError):
            sys.stderr.write(text)
            sys.stderr.flush()
