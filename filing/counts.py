"""The counts of a run: what xbrl-json has read and written of each table."""

from __future__ import annotations

import json
from typing import Any, List, NamedTuple


class Numbers(NamedTuple):
    """How many rows and facts, and how many of these facts have no unit and so on."""

    rows: int = 0
    facts: int = 0
    without_unit: int = 0
    without_decimals: int = 0
    without_entity: int = 0
    without_period: int = 0

    def plus(self, other: Numbers) -> Numbers:
        """Return the sums."""
        return Numbers(*(one + more for one, more in zip(self, other)))


# The members of the file of `--counts`, and of a summary.
MEMBERS = ("rows", "facts", "withoutUnit", "withoutDecimals", "withoutEntity", "withoutPeriod")


class Counted(NamedTuple):
    """The counts of a table. One that was not read is optional and has no file."""

    table: str
    url: str
    is_read: bool
    numbers: Numbers


def read_counts(path: str) -> List[Counted]:
    """Return the counts of a run by the file of `--counts`, in the order of the document.

    Raise OSError if the file cannot be read, and ValueError if it is not one of counts.
    """
    with open(path, "rb") as file:
        value = json.loads(file.read())
    tables = value.get("tables") if isinstance(value, dict) else None
    if not isinstance(tables, list):
        raise ValueError("it has no 'tables'")
    return [counted(table) for table in tables]


def counted(table: Any) -> Counted:
    """Return the counts of a table by its object in that file."""
    shape = {"table": str, "url": str, "read": bool, **dict.fromkeys(MEMBERS, int)}
    for name, kind in shape.items():
        if not isinstance(table, dict) or type(table.get(name)) is not kind:
            raise ValueError(f"a table has no '{name}'")
    numbers = Numbers(*(table[name] for name in MEMBERS))
    return Counted(table["table"], table["url"], table["read"], numbers)
