"""Records of CSV files: those that this program writes and reads, and those of reports.

Its own are of RFC 4180, each with an LF. Python's own writer leaves CR without quotes, and its
reader refuses NUL, up to 3.10.
"""

from __future__ import annotations

import csv
import re
from contextlib import contextmanager
from io import TextIOWrapper
from threading import RLock
from typing import BinaryIO, Iterable, Iterator, List, Tuple

from .packages import LARGEST_TEXT

QUOTED = re.compile(r'[",\r\n]')
FIELD = re.compile(r'(?:"((?:[^"]+|"")*)"|([^,\n]*))([,\n])')


def record(fields: Iterable[object]) -> str:
    """Return a record with its line end."""
    return ",".join(map(field, fields)) + "\n"


def field(value: object) -> str:
    """Return a field, in quotes if it needs them."""
    text = str(value)
    return '"' + text.replace('"', '""') + '"' if QUOTED.search(text) else text


def records(text: str) -> Iterator[List[str]]:
    """Yield the records of a text that is such a file."""
    fields: List[str] = []
    for found in FIELD.finditer(text):
        fields.append(found[2] if found[1] is None else found[1].replace('""', '"'))
        if found[3] == "\n":
            yield fields
            fields = []


class FieldLimit:
    """The length that Python's CSV reader allows for a field: one for the whole process.

    So it is raised only while a file of a report is read, and then has its old value again. Several
    threads may read at once.
    """

    def __init__(self) -> None:
        """Leave the limit as it is."""
        self.lock = RLock()  # a reader that nobody needs any more may end while another begins
        self.readers = self.before = 0

    @contextmanager
    def raised(self) -> Iterator[None]:
        """Raise the limit until all readers have ended."""
        with self.lock:
            if not self.readers:
                self.before = csv.field_size_limit(max(csv.field_size_limit(), LARGEST_TEXT))
            self.readers += 1
        try:
            yield
        finally:
            with self.lock:
                self.readers -= 1
                if not self.readers:
                    csv.field_size_limit(self.before)


FIELD_LIMIT = FieldLimit()


def numbered_records(file: BinaryIO) -> Iterator[Tuple[int, List[str]]]:
    """Yield the records of a CSV file of a report that are not empty. Raise csv.Error at a fault.

    Each has the line at which it begins, from 1.
    """
    with FIELD_LIMIT.raised():
        found = csv.reader(TextIOWrapper(file, "utf-8-sig", "replace", newline=""))
        line = 1
        for fields in found:
            if fields:
                yield line, fields
            line = found.line_num + 1


def records_of_report(file: BinaryIO) -> Iterator[List[str]]:
    """Yield the same without the lines."""
    with FIELD_LIMIT.raised():
        yield from filter(None, csv.reader(TextIOWrapper(file, "utf-8-sig", "replace", newline="")))
