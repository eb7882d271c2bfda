"""Modules that a run over many reports holds in memory for the processes of later reports."""

from __future__ import annotations

import gc
import os
from contextlib import contextmanager, suppress
from typing import Callable, Dict, Iterator, List, Mapping, NamedTuple, Optional, Set

from .held_types import HeldTypes
from .module_entry import Block, Module, read_block, read_index


class Entry(NamedTuple):
    """An entry that is open or in memory."""

    module: Module
    text_of: Callable[[Block], bytes]
    types_file: Optional[str]  # which has the types table, if it is in memory
    types: Optional[HeldTypes]  # if many reports are to look at it


# By their paths: the entries that the run which started this process has read for all reports.
held: Dict[str, Entry] = {}
MOST_HELD = 64 << 20  # bytes of all these entries
MANY = 50  # reports of a run, from which on it is worth while to look at all templates


# What an entry that is not whole, or too little memory, leads to.
UNUSABLE = (OSError, ValueError, LookupError, TypeError, RecursionError, MemoryError)


class Holding:
    """Reads entries into memory for later processes, as many as there is room for."""

    def __init__(self, reports: int) -> None:
        """Hold nothing so far. Take how many reports the run has."""
        self.has_many = reports >= MANY
        self.tried: Set[str] = set()
        self.room = MOST_HELD
        self.looking: List[Iterator[None]] = []  # at types tables, one after the other

    def hold(self, path: str) -> None:
        """Read an entry, unless it was tried before, is not whole, or is larger than the room."""
        if path in self.tried:
            return
        self.tried.add(path)
        with suppress(*UNUSABLE):
            with open(path, "rb") as file:
                size = os.fstat(file.fileno()).st_size
                if size > self.room:
                    return
                module = read_index(file.readline())
                start = file.tell()
                blocks = [module.types, *module.templates.values()]
                texts = {block: read_block(file, start, block) for block in blocks}
            self.room -= size
            types_file = file_of(texts[module.types])
            held[path] = Entry(module, texts.__getitem__, types_file, None)
            if self.has_many:
                self.looking.append(look_at_types(path, texts))
            gc.freeze()  # as the run does at its begin

    def go_on(self) -> bool:
        """Do a little of what makes later reports faster. Return whether more is left to do."""
        if not self.looking:
            return False
        with suppress(StopIteration, *UNUSABLE):
            next(self.looking[0])
            return True
        del self.looking[0]
        return bool(self.looking)


def look_at_types(path: str, texts: Mapping[Block, bytes]) -> Iterator[None]:
    """Find the records of an entry's types table that each of its templates names.

    Yield after every few hundredths of a second. Reports that begin before the end get the whole
    table.
    """
    module = held[path].module
    templates = {name: texts[block] for name, block in module.templates.items()}
    namespaces = module.rest["documentInfo"].get("namespaces", {})
    types = HeldTypes(texts[module.types], templates, namespaces)
    yield
    yield from types.look()
    held[path] = held[path]._replace(types=types)
    gc.freeze()


def file_of(text: bytes) -> Optional[str]:
    """Return the path of a file with this text, which this process and those that it starts see.

    It is in memory, so it ends with them. None if the system has no such files.
    """
    with suppress(OSError, AttributeError):
        number = os.memfd_create("types.csv", 0)
        with open(number, "wb", closefd=False) as file:
            file.write(text)
        path = f"/proc/self/fd/{number}"
        if os.path.isfile(path):
            return path
        os.close(number)
    return None


@contextmanager
def entry_at(path: str) -> Iterator[Entry]:
    """Open an entry, unless it is in memory."""
    if path in held:
        yield held[path]
        return
    with open(path, "rb") as file:
        module = read_index(file.readline())
        start = file.tell()
        yield Entry(module, lambda block: read_block(file, start, block), None, None)
