"""The members of a types table that a filing names.

A dictionary may have 200,000 members, and xbrl-json reads a record for each of them. A conversion
looks up only those that the metadata, the parameters and the tables name. So the other records may
be left out of a large table, if the filing is small.
"""

from __future__ import annotations

import re
from itertools import islice
from typing import Dict, Iterable, Iterator, Optional, Set

from .kinds import MEMBER
from .prepared import Files
from .strict_json import Object
from .table_cells import is_pipe, pieces_of
from .types_table import quoted

MEMBER_END = f",{MEMBER}\n".encode()
LARGE = 8 << 20  # bytes of a types table: xbrl-json reads a smaller one as fast as this is done
MOST = 2 << 20  # bytes that are searched: in less time than xbrl-json takes for a large dictionary
TEXT = re.compile(rb'"((?:[^"\\]|\\.)*)"')  # of JSON
WORD = re.compile(rb"[^\s,:]+:[^\s,]+")  # of a CSV file without quotes


def with_named_members(types: bytes, files: Files) -> bytes:
    """Return a types table without members that nothing in a filing names, if that is worth while.

    One member stays in any case: without one, xbrl-json would look none up.
    """
    if len(types) < LARGE:
        return types
    metadata = b"".join(files.merged.pieces())
    names = names_of_files(files, MOST - len(metadata))
    if names is None:
        return types
    names.update(TEXT.findall(metadata))
    info: Object = files.merged.value["documentInfo"]
    records = set(records_of(names, info.get("namespaces", {})))
    lines = types.splitlines(keepends=True)
    records.update(islice((line for line in lines if line.endswith(MEMBER_END)), 1))
    return b"".join([line for line in lines if not line.endswith(MEMBER_END) or line in records])


def names_of_files(files: Files, most: int) -> Optional[Set[bytes]]:
    """Return all words of the tables and parameters that may be a QName.

    None if they have more bytes than `most`, or if one is a pipe.
    """
    names: Set[bytes] = set()
    if most < 0:
        return None
    for url in files.all():
        if is_pipe(files, url):
            return None
        text = b"".join(limited(pieces_of(files, url), most))
        most -= len(text)
        if most < 0:
            return None
        names.update(WORD.findall(text.replace(b'"', b"")))
    return names


def limited(pieces: Iterable[bytes], most: int) -> Iterator[bytes]:
    """Yield pieces until they have more bytes than `most`."""
    for piece in pieces:
        yield piece
        most -= len(piece)
        if most < 0:
            return


def records_of(names: Iterable[bytes], namespaces: Object) -> Iterator[bytes]:
    """Yield the records that members of these names would have."""
    cells = cells_of_namespaces(namespaces)
    fronts = (front_of(name, cells) for name in names)
    return (front + MEMBER_END for front in fronts if front is not None)


def cells_of_namespaces(namespaces: Object) -> Dict[bytes, bytes]:
    """Return the first cell of the records of each prefix, with the comma after it."""
    return {
        prefix.encode(errors="replace"): f"{quoted(uri)},".encode(errors="replace")
        for prefix, uri in namespaces.items()
        if isinstance(uri, str)
    }


def front_of(name: bytes, cells: Dict[bytes, bytes]) -> Optional[bytes]:
    """Return the first two cells that the record of a name would have; None if it has none."""
    prefix, _, local = name.partition(b":")
    cell = cells.get(prefix)
    return None if cell is None else cell + local
