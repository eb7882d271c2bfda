"""What the files of packages may take to read: it grows with the size of the packages as packed.

A ZIP may unpack to 200 times its size, and each element or value of it takes time and memory. What
is not packed has no bound here: its size is its own.
"""

from __future__ import annotations

from typing import Dict, Optional

from .refusals import Refusal, wrong

# One unit of work is an element of XML, or what takes as long: about a microsecond.
FREE_WORK = 200_000
WORK_OF_BYTE = 2  # of a ZIP; a taxonomy of 200 MB in 13 MB has 0.6
# Bytes of memory that JSON takes as text and as values.
FREE_MEMORY = 48 << 20
MEMORY_OF_BYTE = 130  # of a ZIP; a module of 28 MB, which alone packs to 2 MB, has 110
MEGABYTE = 1 << 20
LATER = 3  # as many bytes each one after the first megabyte counts for: large packages pack well


def counted(packed: int) -> int:
    """Return as how many bytes the size of packages counts."""
    return packed + (LATER - 1) * max(0, packed - MEGABYTE)


class Allowance:
    """Counts what the files of packages take, and refuses more than the packages' size allows."""

    def __init__(self, packed: Optional[int]) -> None:
        """Take the size of all packages together. None means that they are not packed."""
        self.packed = packed
        self.work = 0
        self.memory: Dict[str, int] = {}  # of each file

    def add_work(self, more: int, label: str) -> None:
        """Add the work that a part of an XML file takes."""
        self.work += more
        if self.packed is not None and self.work > FREE_WORK + WORK_OF_BYTE * counted(self.packed):
            raise self.too_much("XML", label)

    def memory_left(self, label: str) -> Optional[int]:
        """Return how many bytes of memory a JSON file may take; None if it has no bound."""
        if self.packed is None:
            return None
        taken = sum(self.memory.values()) - self.memory.get(label, 0)
        return FREE_MEMORY + MEMORY_OF_BYTE * counted(self.packed) - taken

    def add_memory(self, memory: int, label: str) -> None:
        """Add the memory that a JSON file takes. One that is read again takes the same memory."""
        self.memory[label] = memory

    def too_much(self, what: str, label: str) -> Refusal:
        """Return the refusal of a file with which there is too much."""
        most = f"than packages of {self.packed} bytes may have"
        return wrong(label, f"has more {what}, with that read before it, {most}")
