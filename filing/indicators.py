"""Filing indicators: the templates that a filer says are filed, and the facts that are there.

Supervisors have them in a table `FilingIndicators.csv`, with a column of templates and one of true
or false. xBRL-CSV does not know them, so nothing is refused for them.
"""

from __future__ import annotations

from bisect import bisect_left
from itertools import islice
from typing import Dict, Iterator, List, Mapping, NamedTuple, Optional, Set, Tuple

from .metadata import objects
from .named import reference
from .prepared import Files
from .strict_json import Object
from .table_cells import cells_of

FILE = "filingindicators.csv"
FILED = {"true": True, "1": True, "false": False, "0": False}  # the lexical forms of a boolean
MOST_CELLS = 100_000  # of the table that are looked at


class Indicator(NamedTuple):
    """A template, whether it is said to be filed, and the tables and facts that it has."""

    template: str
    is_filed: bool
    tables: Tuple[str, ...]
    facts: int

    def is_contradicted(self) -> bool:
        """Return whether it is filed without facts, or has facts and is not filed."""
        return self.is_filed != (self.facts > 0)


def indicators_of(files: Files, facts: Mapping[str, int]) -> List[Indicator]:
    """Return the indicators of a report. `facts` has the number of facts of each table."""
    names: Dict[str, Set[str]] = {}
    given: List[Tuple[str, bool]] = []
    templates = dict(objects(files.merged.value, "tableTemplates"))
    for table, member in objects(files.merged.value, "tables"):
        url, template = member.get("url"), member.get("template", table)
        if not isinstance(url, str) or url not in files.tables:
            continue
        if file_of(url).lower() == FILE and isinstance(template, str):
            given += told(files, url, templates.get(template, {}))
        else:
            names[table] = names_of(table, url, template)
    for table, url in files.left_out:
        names[table] = names_of(table, url, table)
    tables_of = Tables(names)
    found = []
    for template, is_filed in given:
        tables = tables_of.of(spelt(template))
        found.append(Indicator(template, is_filed, tables, sum(facts.get(table, 0) for table in tables)))
    return found


class Tables:
    """Tables by what an indicator may call them."""

    def __init__(self, names: Mapping[str, Set[str]]) -> None:
        """Take the names of each table."""
        self.tables = list(names)
        # Each name ends with a dot, so that all that begin with it are its own.
        self.names = sorted((f"{name}.", at) for at, known in enumerate(names.values()) for name in known)
        self.found: Dict[str, Tuple[str, ...]] = {}

    def of(self, template: str) -> Tuple[str, ...]:
        """Return the tables of a template, in order: `s.01.01.02` is one of `s.01.01`."""
        if template not in self.found:
            self.found[template] = tuple(self.tables[at] for at in sorted(set(self.numbers(f"{template}."))))
        return self.found[template]

    def numbers(self, start: str) -> Iterator[int]:
        """Yield the numbers of the tables that have a name which begins so."""
        for at in range(bisect_left(self.names, (start, 0)), len(self.names)):
            name, number = self.names[at]
            if not name.startswith(start):
                return
            yield number


def file_of(url: str) -> str:
    """Return the last part of a URL."""
    return url.rpartition("/")[2]


def names_of(table: str, url: str, template: object) -> Set[str]:
    """Return what an indicator may call a table: its identifier, its template or its file."""
    return {spelt(table), spelt(str(template)), spelt(file_of(url)).removesuffix(".csv")}


def spelt(name: str) -> str:
    """Return a name in small letters, with a dot for each low line: such names have either."""
    return name.lower().replace("_", ".")


def told(files: Files, url: str, template: Object) -> Iterator[Tuple[str, bool]]:
    """Yield the templates that a table of indicators has, and whether each is filed."""
    columns = columns_of(template)
    if columns is None:
        return
    rows: Dict[int, Dict[str, str]] = {}
    for row, column, text in islice(cells_of(files, url, columns), MOST_CELLS):
        rows.setdefault(row, {})[column] = text.strip()
    for cells in rows.values():
        name, filed = (cells.get(column, "") for column in columns)
        if name and filed in FILED:
            yield name, FILED[filed]


def columns_of(template: Object) -> Optional[Tuple[str, str]]:
    """Return the column of templates and that of true or false; None for another table.

    The second is the only one with facts, and a dimension of it takes its value from the first.
    """
    columns = dict(objects(template, "columns"))
    filed = [name for name, column in columns.items() if "dimensions" in column]
    if len(filed) != 1:
        return None
    for owner in (columns[filed[0]], template):
        for key, text in objects_of(owner):
            name = reference(key, text)
            if name in columns and name != filed[0]:
                return str(name), filed[0]
    return None


def objects_of(owner: Object) -> Iterator[Tuple[str, object]]:
    """Yield the dimensions of a column or a template."""
    dimensions = owner.get("dimensions")
    yield from dimensions.items() if isinstance(dimensions, dict) else ()
