"""The types table: records of the concepts, dimensions and members of the metadata's namespaces."""

from __future__ import annotations

from typing import Iterable, List

from .kinds import MEMBER, Kinds, cells_of_kind

HEADER = "namespace,name,type3,period,values\n"
MOST_RECORDS = 1 << 20  # that xbrl-json takes


def types_table(kinds: Kinds, namespaces: Iterable[str], with_members: bool) -> bytes:
    """Return the table's bytes, in byte order of namespace and then name.

    Names that no fact can have are left out, and so is every member without `with_members` or if
    there are too many: xbrl-json then does not look members up.
    """
    lines = lines_of(kinds, namespaces, with_members)
    if with_members and len(lines) > MOST_RECORDS + 1:
        lines = lines_of(kinds, namespaces, False)
    return "".join(lines).encode()


def lines_of(kinds: Kinds, namespaces: Iterable[str], with_members: bool) -> List[str]:
    """Return the table's lines."""
    lines: List[str] = [HEADER]
    for namespace in sorted(set(namespaces)):
        front = quoted(namespace)
        cells = {name: cells_of_kind(kind) for name, kind in kinds.get(namespace, {}).items()}
        if not with_members:
            cells = {name: kind for name, kind in cells.items() if kind != MEMBER}
        lines += [f"{front},{name},{cells[name]}\n" for name in sorted(cells) if cells[name]]
    return lines


def quoted(cell: str) -> str:
    """Return a cell of a CSV file (RFC 4180, section 2)."""
    return '"' + cell.replace('"', '""') + '"' if any(mark in cell for mark in ',"\r\n') else cell
