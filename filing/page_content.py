"""What a page shows of a report: its faults, the rows round them, and its tables."""

from __future__ import annotations

import os
from itertools import groupby
from typing import Dict, List, Mapping, NamedTuple, Optional, Sequence, Tuple

from .counts import Numbers
from .faults import Fault
from .filed import Filed
from .metadata import objects
from .page_rows import Budget, Near, read_table
from .prepared import is_plain
from .strict_json import Object

MOST = 10_000  # faults of a page


class Item(NamedTuple):
    """A fault, its table's file, the lines of `--explain` below it, and the rows round it."""

    fault: Fault
    file: str
    said: Sequence[str]
    near: Optional[Near]


class TableLine(NamedTuple):
    """A table of the report. What is not known is None."""

    table: str
    file: str
    size: Optional[int]
    rows: Optional[int]
    numbers: Optional[Numbers] = None


class Content(NamedTuple):
    """What a page shows of a run over one report."""

    word: str  # the outcome
    report: str
    document: str
    notes: Sequence[str]
    found: int  # how many faults the run has found: the page may have only the first
    items: Sequence[Item] = ()
    tables: Sequence[TableLine] = ()
    filed: Optional[Filed] = None


class TableFile(NamedTuple):
    """A table, what the filing calls its file, and the path at which that can be read again."""

    table: str
    label: str
    path: str


def tables_of(value: Object, folder: str, names: Mapping[str, str]) -> List[TableFile]:
    """Return the tables of a metadata file in a folder, in the order of the document.

    `names` has what the filing calls a file; without a name it is its path.
    """
    found = []
    for table, member in objects(value, "tables"):
        url = member.get("url")
        if isinstance(url, str) and is_plain(url):
            path = os.path.join(folder, *url.split("/"))
            found.append(TableFile(table, names.get(url, path), path))
    return sorted(found, key=lambda table: table.table.encode("utf-8", "surrogatepass"))


def filled(
    content: Content,
    tables: Sequence[TableFile],
    faults: Sequence[Fault],
    said: Mapping[Fault, Sequence[str]],
) -> Content:
    """Return the content with faults, the rows round them, and the tables.

    Tables with faults are read first. `said` has the lines of `--explain`.
    """
    budget, files = Budget(), {table.table: table for table in tables}
    lines: Dict[str, TableLine] = {}
    items: List[Item] = []
    for table, group in groupby(faults, lambda fault: fault.table):
        own = list(group)
        near: List[Optional[Near]] = [None] * len(own)
        if table in files:
            lines[table], near = looked_at(files[table], own, budget)
        file = files[table].label if table in files else ""
        items += [Item(one, file, said.get(one, ()), rows) for one, rows in zip(own, near)]
    for table, of_table in files.items():
        if table not in lines:
            lines[table], _ = looked_at(of_table, [], budget)
    numbers = {table.table: table.numbers for table in content.filed.tables} if content.filed else {}
    shown = [with_numbers(lines[table], numbers.get(table)) for table in files]
    return content._replace(tables=shown, items=items)


def with_numbers(line: TableLine, numbers: Optional[Numbers]) -> TableLine:
    """Return a table's line with what the run has counted of it, if it has."""
    return line if numbers is None else line._replace(rows=numbers.rows, numbers=numbers)


def looked_at(
    table: TableFile, faults: Sequence[Fault], budget: Budget
) -> Tuple[TableLine, List[Optional[Near]]]:
    """Return a table's line, and the rows round each of its faults."""
    read = read_table(table.path, faults, budget)
    return TableLine(table.table, table.label, read.size, read.rows), read.near
