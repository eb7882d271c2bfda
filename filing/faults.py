"""The file of `--faults`: its fields, its records, and how many there are."""

from __future__ import annotations

import mmap
import re
from contextlib import contextmanager
from typing import FrozenSet, Iterable, Iterator, List, NamedTuple, Set, Tuple

from .csv_spans import Span, all_spans, cells_of
from .csv_text import record

# The fields of a record (docs/MANUAL.md).
FIELDS = (
    "table_id", "table_row", "table_column", "fault_number", "fault_name",
    "line", "header_cell", "row_cell", "place",
    "cause_file", "cause_line", "cause_cell", "cause_text",
)  # fmt: skip
HEADER = record(FIELDS).encode()
FIRST = ",".join(FIELDS[:9]).encode()  # the fields of version 0.22.0
OLD_HEADER = b"table,row,column,number,name,line,header,cell,place\n"  # up to version 0.20.0
MORE = "MoreFaults"  # the name in the last record of a table that has more faults
LONGEST = 2_000  # characters of a field that are kept
START = re.compile(rb'(?:"(?:[^"]|"")*"|[^",\n]*),[0-9]+,[0-9]+,([0-9]+),([A-Za-z0-9]*),')


class Fault(NamedTuple):
    """A record of the file of `--faults`."""

    table: str
    row: int
    column: int
    number: int
    name: str
    line: str
    header: str
    cell: str
    place: str
    # The place that causes it, and the text there, if that is elsewhere.
    cause_file: str = ""
    cause_line: str = ""
    cause_cell: str = ""
    cause_text: str = ""


class Found(NamedTuple):
    """The first faults of a file, how many it has, and the tables that have still more."""

    faults: List[Fault]
    total: int
    cut: List[str]


def is_header(start: bytes) -> bool:
    """Return whether a file that begins so is one of faults. More fields may follow."""
    return start.startswith((FIRST + b"\n", FIRST + b",", OLD_HEADER))


def fault_list(faults: Iterable[Fault]) -> str:
    """Return a file of these faults."""
    return HEADER.decode() + "".join(map(record, faults))


def faults_of(path: str, most: int) -> Found:
    """Return the first faults of a file of `--faults`.

    Each field is cut, so a cell of a gigabyte takes no memory. Raise OSError or ValueError if the
    file cannot be read, or is not one of faults.
    """
    found = Found([], 0, [])
    count = 0
    with mapped(path) as data:
        for span, _, name in faults_in(data):
            if name == MORE:
                found.cut.extend(cells_of(data, span, 1, LONGEST))
            else:
                count += 1
                if count <= most:
                    table, row, column, number, _, *texts = fields_of(data, span)
                    known = Fault(table, int(row), int(column), int(number), name, *texts)
                    found.faults.append(known)
    return found._replace(total=count)


def count_faults(path: str) -> Tuple[int, FrozenSet[int]]:
    """Return how many faults a file of `--faults` has, and their numbers. No file has none."""
    numbers: Set[int] = set()
    count = 0
    try:
        with mapped(path) as data:
            for _, number, name in faults_in(data):
                if name != MORE:
                    count += 1
                    numbers.add(number)
    except (OSError, ValueError):
        return 0, frozenset()
    return count, frozenset(numbers)


def faults_in(data: mmap.mmap) -> Iterator[Tuple[Span, int, str]]:
    """Yield where each record after the header is, and the number and name of its fault.

    Raise ValueError for a record of another file.
    """
    spans = all_spans(data)
    next(spans, None)
    for start, end in spans:
        found = START.match(data, start, end)
        if not found:
            raise ValueError(f"byte {start} begins no record of faults")
        yield (start, end), int(found[1]), found[2].decode()


def fields_of(data: mmap.mmap, span: Span) -> List[str]:
    """Return the fields of a record, each cut."""
    return list(cells_of(data, span, len(FIELDS), LONGEST))


@contextmanager
def mapped(path: str) -> Iterator[mmap.mmap]:
    """Open a file to read it. Raise OSError or, for an empty one, ValueError."""
    with open(path, "rb") as file:
        with mmap.mmap(file.fileno(), 0, access=mmap.ACCESS_READ) as data:
            yield data
