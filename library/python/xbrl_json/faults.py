"""The faults of a report, and the errors that hold them."""
from __future__ import annotations

import re
from dataclasses import dataclass
from typing import Iterator, List, Optional

# A field, quoted or not, and what ends it. The module csv refuses a field of more than 128 KiB,
# and in Python 3.9 and 3.10 one with a NUL.
FIELD = re.compile('(?:"([^"]*(?:""[^"]*)*)"|([^",\n]*))([,\n])')


@dataclass(frozen=True)
class Fault:
    """A fault, with the fields of `xbrl-json --faults`.

    `table` is the table's identifier; it is empty for a fault of the metadata, the types table or
    the parameters file. `row` and `column` count from 1; row 0 is the header or the whole file, and
    column 0 the whole record. `number` and `name` are the fault's, as 40 and `BadNumber`.

    `line` is the line of the table's file where the record begins, `header` the column's header
    cell, and `cell` the row's cell. For another file `cell` is the text at the place, and `place`
    says where it is. `line` is None, and a text empty, if it does not apply.

    `cause_file`, `cause_line`, `cause_cell` and `cause_text` are the place that causes the fault
    and the text there: a parameter, another cell, a property of the metadata. `cause_line` is None,
    and the others are empty, if that is the fault's own place.
    """

    table: str
    row: int
    column: int
    number: int
    name: str
    line: Optional[int]
    header: str
    cell: str
    place: str
    cause_file: str = ""
    cause_line: Optional[int] = None
    cause_cell: str = ""
    cause_text: str = ""


class ConversionError(Exception):
    """A report was not converted.

    `status` is the exit status of xbrl-json: 1 if the report has a fault, 3 if memory ran out or a
    file does not exist. `lines` is what xbrl-json prints with `--explain`. `faults` has all
    faults of each refused table, or that of another file; it is empty if memory runs out.
    """

    def __init__(self, status: int, lines: str, faults: List[Fault]) -> None:
        super().__init__(status, lines, faults)
        self.status = status
        self.lines = lines
        self.faults = faults

    def __str__(self) -> str:
        """Returns the lines, or the status if memory ran out for them."""
        return self.lines.rstrip("\n") or f"status {self.status}"


class Refused(ConversionError):
    """The report has a fault, or the system refused memory for one of its tables (Memory)."""


def records_of(text: str) -> Iterator[List[str]]:
    """Yields the records of a file of faults. LF ends each."""
    record: List[str] = []
    for quoted, plain, end in FIELD.findall(text):
        record.append(quoted.replace('""', '"') if quoted else plain)
        if end == "\n":
            yield record
            record = []


def faults_in(records: str) -> List[Fault]:
    """Returns the faults of a file of faults, which has a header, or of an empty text."""
    rows = records_of(records)
    next(rows, None)
    return [fault_of(*row) for row in rows]


def fault_of(table: str, row: str, column: str, number: str, name: str, line: str, header: str,
             cell: str, place: str, *cause: str) -> Fault:
    """Returns the fault of a record."""
    file, cause_line, cause_cell, text = cause
    return Fault(table, int(row), int(column), int(number), name, number_in(line), header, cell,
                 place, file, number_in(cause_line), cause_cell, text)


def number_in(text: str) -> Optional[int]:
    """Returns a number, or None if the field is empty."""
    return int(text) if text else None


def error_of(status: int, lines: str, records: str) -> ConversionError:
    """Returns the error for a status above 0."""
    kind = Refused if status == 1 else ConversionError
    return kind(status, lines, faults_in(records))
