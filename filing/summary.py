"""A summary of a run over one report: what it has read, what it has made, and with what."""

from __future__ import annotations

import json
import os
import platform
import sys
from contextlib import suppress
from dataclasses import dataclass
from typing import Any, Dict, Iterator, List, Optional, Sequence
from unicodedata import bidirectional, category, east_asian_width

from .converter_program import version_of
from .counts import MEMBERS, Numbers
from .filed import Filed, Table
from .marked_output import SUMMARY, write_marked
from .outputs import input_files
from .packages import FolderPackage
from .prepared import Files
from .refusals import WRONG, Refusal, escaped, printable
from .sums import Sum, sum_of
from .words import Settings

CONVERTED, REFUSED = "converted", "refused"
HEADS = ("rows", "facts", "no unit", "no decimals", "no entity", "no period")
MOST_LINES = 40  # tables that are shown on a terminal
WIDEST = 40  # columns that a table's identifier takes there at most
NARROWEST = 16  # and at least: `all 9,999 tables` has as many
COLUMNS = 80  # of a terminal that does not say how many it has
LEFT_TO_RIGHT = "\u200e"
NO_WIDTH = ("Mn", "Me", "Cf")  # categories of letters that print on the one before, or not at all
NOTHING = Filed((), (), (), ())


@dataclass(frozen=True)
class Summary:
    """What is known of a run that has ended with status 0 or 1."""

    settings: Settings
    outcome: str
    version: str  # of xbrl-json
    seconds: float
    converting: float = 0.0  # seconds of these in xbrl-json
    faults: int = 0
    line: str = ""  # why xbrl-filing itself has refused the filing
    filed: Filed = NOTHING
    files: Optional[Files] = None  # None if the filing was refused before they were known

    def write(self) -> None:
        """Write the summary to its file."""
        if self.settings.summary is not None:
            text = json.dumps(self.value(), indent=2) + "\n"
            write_marked(self.settings.summary, SUMMARY, text)

    def value(self) -> Dict[str, Any]:
        """Return the summary as the value that its file has."""
        filed, total = self.filed, self.filed.total()
        is_counted = self.outcome == CONVERTED
        return {
            "kind": "xbrl-filing summary",
            "outcome": self.outcome,
            "report": self.settings.report,
            "line": self.line,
            "faults": self.faults,
            "document": self.document(),
            "inputs": list(self.inputs()),
            "versions": {"xbrl-json": self.version, "python": platform.python_version()},
            "seconds": {"all": round(self.seconds, 3), "xbrl-json": round(self.converting, 3)},
            "total": members(total if is_counted else None),
            "tables": [table_value(table) for table in filed.tables],
            "optionalWithoutFile": [absent._asdict() for absent in filed.absent],
            "indicators": [
                {
                    "template": indicator.template,
                    "filed": indicator.is_filed,
                    "facts": indicator.facts,
                    "tables": list(indicator.tables),
                }
                for indicator in filed.indicators
            ],
            "trueWithoutFacts": filed.without_facts(),
            "falseWithFacts": filed.not_announced(),
            "parameters": [parameter._asdict() for parameter in filed.parameters],
        }

    def document(self) -> Optional[Dict[str, Any]]:
        """Return the document's file, size and digest; None if there is none."""
        if self.outcome != CONVERTED:
            return None
        out = next(self.settings.outputs(["--out"]), None)
        if out is None:
            return {"file": "standard output", "bytes": None, "sha256": None}
        return file_value(out, "file")

    def inputs(self) -> Iterator[Dict[str, Any]]:
        """Yield the packages of the run, and the other files that it has read."""
        given = [self.settings.report, *self.settings.taxonomy]
        for path in dict.fromkeys(given):
            yield file_value(path, "folder" if os.path.isdir(path) else "file")
        if self.files is not None and not isinstance(self.files.package, FolderPackage):
            read = dict.fromkeys(input_files(self.settings, self.files))
            known = {os.path.realpath(path) for path in given}
            for path in read:
                if os.path.realpath(path) not in known and os.path.exists(path):
                    yield file_value(path, "file")


def write_refusal_summary(
    settings: Settings, refusal: Refusal, program: str, seconds: float
) -> None:
    """Write the summary of a report that xbrl-filing itself refuses."""
    if settings.summary is not None and refusal.status == WRONG:
        line = printable(refusal.line)
        Summary(settings, REFUSED, version_of(program), seconds, faults=1, line=line).write()


def file_value(path: str, kind: str) -> Dict[str, Any]:
    """Return a file or a folder with its size and its digest, as far as it can be read again."""
    known: Optional[Sum] = sum_of(path)
    size, digest = (None, None) if known is None else known
    return {kind: path, "bytes": size, "sha256": digest}


def members(numbers: Optional[Numbers]) -> Dict[str, Optional[int]]:
    """Return numbers by their names; None for each if they are not known."""
    return dict(zip(MEMBERS, numbers)) if numbers is not None else dict.fromkeys(MEMBERS)


def table_value(table: Table) -> Dict[str, Any]:
    """Return what the summary has of a table."""
    front = {"table": table.table, "file": table.file, "template": table.template}
    return {**front, **members(table.numbers)}


def table_lines(filed: Filed, columns: int = 0) -> List[str]:
    """Return the lines of a summary for a terminal of a width; without one, for standard error."""
    total = filed.total() or Numbers()
    shown = [(table.table, table.numbers or Numbers()) for table in filed.tables[:MOST_LINES]]
    more = len(filed.tables) - len(shown)
    rows = [(name, *map(grouped, numbers)) for name, numbers in shown]
    rows += [(f".. {more:,} more", *[""] * len(HEADS))] if more else []
    rows.append((f"all {len(filed.tables):,} tables", *map(grouped, total)))
    lines = aligned([("table", *HEADS), *rows], columns or columns_of_terminal())
    for what, names in (
        ("optional tables without a file", [absent.table for absent in filed.absent]),
        ("filing indicators that are true without facts", filed.without_facts()),
        ("filing indicators that are false with facts", filed.not_announced()),
    ):
        if names:
            lines.append(f"{what}: {listed(names)}")
    return lines


def aligned(rows: Sequence[Sequence[str]], columns: int) -> List[str]:
    """Return rows as lines with columns below each other, the first one to the left.

    Cut the first one so that a line has as many columns as the terminal, if that leaves some.
    """
    widths = [max(map(len, column)) for column in zip(*(row[1:] for row in rows))]
    numbers = ["".join(f"  {c:>{w}}" for c, w in zip(row[1:], widths)) for row in rows]
    most = max(NARROWEST, min(WIDEST, columns - len(numbers[0])))
    names = [short(row[0], most) for row in rows]
    widest = max(map(width_of, names))
    return [f"{name}{' ' * (widest - width_of(name))}{rest}" for name, rest in zip(names, numbers)]


def columns_of_terminal() -> int:
    """Return how many columns standard error has; 80 if it does not say so."""
    with suppress(OSError, ValueError, AttributeError):
        return os.get_terminal_size(sys.stderr.fileno()).columns or COLUMNS
    return COLUMNS


def grouped(number: int) -> str:
    """Return a number as people read it."""
    return f"{number:,}"


def short(name: str, most: int = WIDEST) -> str:
    """Return an identifier as a terminal shows it, in at most `most` of its columns.

    A mark keeps the numbers after an identifier of Arabic or Hebrew in their order.
    """
    shown = escaped(name[: 4 * most])
    if width_of(shown) > most:
        while width_of(shown) > most - 2:
            shown = shown[:-1]
        shown += ".."
    return shown + LEFT_TO_RIGHT if any(bidirectional(letter) in ("R", "AL") for letter in shown) else shown


def width_of(text: str) -> int:
    """Return how many columns of a terminal a text takes."""
    return sum(map(width_of_letter, text))


def width_of_letter(letter: str) -> int:
    """Return how many columns of a terminal a letter takes."""
    if category(letter) in NO_WIDTH:
        return 0
    return 2 if east_asian_width(letter) in "WF" else 1


def listed(names: Sequence[str]) -> str:
    """Return the first of some names, and how many more there are."""
    more = len(names) - MOST_LINES
    first = ", ".join(map(short, names[:MOST_LINES]))
    return f"{first} and {more:,} more" if more > 0 else first


def is_shown() -> bool:
    """Return whether standard error is a terminal, which gets a table of the summary."""
    return bool(sys.stderr and sys.stderr.isatty())
