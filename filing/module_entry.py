"""The entry of a module in the cache, as it is on the disk.

The first line is the index, with its digest. After it come the types table and the templates, which
are read only if they are needed.
"""

from __future__ import annotations

import json
from dataclasses import dataclass
from typing import Any, Dict, List, NamedTuple

from .dates import DateColumn, DatePlaces, DateTemplate
from .digests import digest_of
from .members import MemberPlaces
from .strict_json import Object


class Block(NamedTuple):
    """Where a part of the entry is, and its digest."""

    offset: int
    length: int
    digest: str


class Source(NamedTuple):
    """A part of the metadata, and the file that gives it: a package's number and a name there."""

    path: List[str]
    package: int
    name: str


class Blocks:
    """The parts of an entry after its index, in order."""

    def __init__(self) -> None:
        self.parts: List[bytes] = []
        self.length = 0

    def add(self, part: bytes) -> Block:
        """Add a part, and return where it is."""
        block = Block(self.length, len(part), digest_of(part).hex())
        self.parts.append(part)
        self.length += len(part)
        return block


@dataclass(frozen=True)
class Module:
    """The index of an entry."""

    rest: Object  # the merged metadata, with sketches instead of the templates
    final: List[str]  # the parts to which a report may add nothing
    faulty: List[str]  # templates that name what the taxonomy does not have
    lost: Dict[str, str]  # the prefixes that are replaced
    members: MemberPlaces
    dates: DatePlaces
    types: Block
    templates: Dict[str, Block]
    sources: List[Source]  # of the module's parameters


def entry_pieces(index: Object, blocks: Blocks) -> List[bytes]:
    """Return the bytes of an entry, piece by piece: its index, by the names of `Module`."""
    head = json.dumps(index).encode()
    return [digest_of(head).hex().encode(), b" ", head, b"\n", *blocks.parts]


def read_index(line: bytes) -> Module:
    """Read the first line of an entry. Raises ValueError if it is not whole."""
    digest, _, head = line.rstrip(b"\n").partition(b" ")
    if digest_of(head).hex() != digest.decode():
        raise ValueError("the index is not whole")
    index: Dict[str, Any] = json.loads(head)
    index["members"] = MemberPlaces(*index["members"])
    index["dates"] = {
        name: DateTemplate({column: DateColumn(*place) for column, place in columns.items()}, groups)
        for name, (columns, groups) in index["dates"].items()
    }
    index["types"] = Block(*index["types"])
    index["templates"] = {name: Block(*block) for name, block in index["templates"].items()}
    index["sources"] = [Source(*source) for source in index["sources"]]
    return Module(**index)


def read_block(file: Any, start: int, block: Block) -> bytes:
    """Read a part of an entry. Raises ValueError if it is not whole."""
    file.seek(start + block.offset)
    data: bytes = file.read(block.length)
    if digest_of(data).hex() != block.digest:
        raise ValueError("a part is not whole")
    return data
