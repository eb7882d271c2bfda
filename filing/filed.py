"""What a filing has, as its filer wants to see it: tables, what is not filed, parameters."""

from __future__ import annotations

from dataclasses import dataclass
from functools import reduce
from typing import Dict, List, NamedTuple, Optional, Sequence, Tuple

from .counts import Counted, Numbers
from .indicators import Indicator, indicators_of
from .metadata import objects
from .parameters import parameters_of_file, parameters_of_metadata
from .prepared import Files, Written


class Table(NamedTuple):
    """A table, its file and its template. The numbers are None if the run was refused."""

    table: str
    file: str
    template: str
    numbers: Optional[Numbers]


class Absent(NamedTuple):
    """An optional table that has no file, and the file that it would have."""

    table: str
    file: str


class Parameter(NamedTuple):
    """A parameter, its value, and the file that gives it."""

    name: str
    value: str
    file: str


@dataclass(frozen=True)
class Filed:
    """What a filing has. Indicators are known only with the counts."""

    tables: Tuple[Table, ...]
    absent: Tuple[Absent, ...]
    indicators: Tuple[Indicator, ...]
    parameters: Tuple[Parameter, ...]

    def total(self) -> Optional[Numbers]:
        """Return the numbers of all tables together; None if they are not known."""
        known = [table.numbers for table in self.tables if table.numbers is not None]
        if len(known) < len(self.tables):
            return None
        return reduce(Numbers.plus, known, Numbers())

    def without_facts(self) -> List[str]:
        """Return the templates that are said to be filed, and have no fact."""
        return [indicator.template for indicator in self.indicators if indicator.is_contradicted() and indicator.is_filed]

    def not_announced(self) -> List[str]:
        """Return the templates that are said not to be filed, and have facts."""
        return [indicator.template for indicator in self.indicators if indicator.is_contradicted() and not indicator.is_filed]


def filed_of(files: Files, written: Written, counts: Optional[Sequence[Counted]]) -> Filed:
    """Return what a filing has. `counts` are those of the run, if it has ended well."""
    numbers = {counted.table: counted for counted in counts or ()}
    tables: List[Table] = []
    absent = [Absent(table, label_of(files, url)) for table, url in files.left_out]
    for name, table in objects(written.merged.value, "tables"):
        url, template = str(table.get("url")), str(table.get("template", name))
        file = written.names.get(url, url)
        if name in numbers and not numbers[name].is_read:
            absent.append(Absent(name, file))
        else:
            known = numbers[name].numbers if name in numbers else None
            tables.append(Table(name, file, template, known))
    facts = {counted.table: counted.numbers.facts for counted in counts or ()}
    return Filed(
        tables=tuple(sorted(tables, key=lambda table: in_order(table.table))),
        absent=tuple(sorted(absent, key=lambda table: in_order(table.table))),
        indicators=() if counts is None else tuple(indicators_of(files, facts)),
        parameters=tuple(sorted(parameters_of(files))),
    )


def in_order(identifier: str) -> bytes:
    """Return by what tables are in the order of the document: the bytes of their identifiers."""
    return identifier.encode("utf-8", "surrogatepass")


def label_of(files: Files, url: str) -> str:
    """Return how lines name the file of a table."""
    return files.package.shown(files.name(url))


def parameters_of(files: Files) -> List[Parameter]:
    """Return the parameters of a report, each value with the file that gives it."""
    given = (*parameters_of_metadata(files.merged), *parameters_of_file(files))
    found: Dict[Parameter, None] = {}
    for name, value, label in given:
        found[Parameter(name, value, label)] = None
    return list(found)
