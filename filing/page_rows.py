"""The rows of a table round its faults, from the table's CSV file, which is read once."""

from __future__ import annotations

import mmap
import os
import stat
from contextlib import suppress
from typing import BinaryIO, Dict, Iterable, List, NamedTuple, Optional, Sequence

from .csv_spans import ONE_LINE_END, Span, all_spans, cells_of
from .faults import Fault

BEFORE, AFTER = 2, 1  # rows that are shown before and after the one with the fault
WIDEST = 12  # columns that are shown; of a wider table, the first and those round the fault
MORE = 8  # columns past the header that are shown of a row with more cells than it has
LONGEST = 60  # characters of a cell
MOST_COLUMNS = 4096  # as many as a template may have
FAR = 1 << 20  # bytes between two rows, past which lines are not counted

Cells = List[Optional[str]]  # None past the end of a record


class Row(NamedTuple):
    """A row as a page shows it, with the line at which it begins, if that is known."""

    number: int
    line: Optional[int]
    cells: Cells


class Near(NamedTuple):
    """A fault's row with those round it. `columns` are the numbers of the columns shown."""

    columns: List[int]
    header: Cells
    rows: List[Row]


class Budget:
    """How much more of all tables is gone through and shown.

    It is some seconds of work. A browser opens the page in a second, though it has 10,000 faults.
    """

    def __init__(self) -> None:
        self.bytes = 256 << 20
        self.rows = 2_000_000  # to the last fault of each table
        self.counted = 200_000  # rows after it, which only the count needs
        self.parsed = 1_000_000  # cells that are looked at
        self.shown = 20_000  # cells

    def take_row(self, is_counted: bool) -> bool:
        """Take a row. Return whether there was one left."""
        if is_counted:
            self.counted -= 1
            return self.counted >= 0
        self.rows -= 1
        return self.rows >= 0


class Reading(NamedTuple):
    """What a page has of a table's file. What could not be read again is None."""

    size: Optional[int]
    rows: Optional[int]
    near: List[Optional[Near]]  # for each fault


def read_table(path: str, faults: Sequence[Fault], budget: Budget) -> Reading:
    """Return a table's size, its number of rows, and the rows round each of its faults."""
    size: Optional[int] = None
    with suppress(OSError, ValueError), open_again(path) as file:
        size = os.fstat(file.fileno()).st_size
        budget.bytes -= size
        if size and budget.bytes >= 0:
            with mmap.mmap(file.fileno(), 0, access=mmap.ACCESS_READ) as data:
                table = Table(data, faults, budget)
                return Reading(size, table.rows, [table.near(fault) for fault in faults])
        budget.bytes += size
    return Reading(size, 0 if size == 0 else None, [None] * len(faults))


def open_again(path: str) -> BinaryIO:
    """Open a regular file. Raise OSError for any other: a pipe would be waited for."""
    if not stat.S_ISREG(os.stat(path).st_mode):
        raise OSError
    return open(path, "rb")


class Table:
    """A table's file, and where the records are that are shown."""

    def __init__(self, data: mmap.mmap, faults: Sequence[Fault], budget: Budget) -> None:
        """Go through the records to the last fault, and on to the end if it is not far."""
        self.data, self.budget = data, budget
        self.rows: Optional[int] = None
        self.spans: Dict[int, Span] = {}
        numbers = numbers_shown(faults)
        last, number = max(numbers), -1
        for number, span in enumerate(all_spans(data)):
            if not budget.take_row(number > last):
                break
            if number in numbers:
                self.spans[number] = span
        else:
            self.rows = max(number, 0)
        self.header = self.cells(0, MOST_COLUMNS)

    def cells(self, number: int, most: int) -> List[str]:
        """Return the first cells of a record, each cut; none if they are too many to look at."""
        if number not in self.spans or self.budget.parsed < 0:
            return []
        cells = list(cells_of(self.data, self.spans[number], most, LONGEST))
        self.budget.parsed -= len(cells)
        return cells

    def near(self, fault: Fault) -> Optional[Near]:
        """Return the rows round a fault; None if there is no such row, or the page has enough."""
        if fault.row not in self.spans or self.budget.shown < 0 or not self.header:
            return None
        width = max(len(self.header), len(self.cells(fault.row, len(self.header) + MORE)))
        columns = columns_near(fault.column or width, width)
        numbers = range(max(fault.row - BEFORE, 1), fault.row + AFTER + 1)
        rows = [self.row(shown, columns, fault) for shown in numbers if shown in self.spans]
        self.budget.shown -= len(columns) * (len(rows) + 1)
        return Near(columns, chosen(self.header, columns), rows)

    def row(self, number: int, columns: List[int], fault: Fault) -> Row:
        """Return a row as it is shown for a fault."""
        cells = chosen(self.cells(number, max(columns, default=0)), columns)
        return Row(number, self.line(number, fault), cells)

    def line(self, number: int, fault: Fault) -> Optional[int]:
        """Return the line at which a row begins, counted from the row with the fault.

        For a fault of the header, count from the start of the file. It is None if that is far.
        """
        known = int(fault.line) if fault.row and fault.line else 1
        here = self.spans[fault.row][0] if fault.row and fault.line else 0
        start = self.spans[number][0]
        first, last = min(start, here), max(start, here)
        if last - first > FAR:
            return None
        between = len(ONE_LINE_END.findall(self.data[first:last]))
        return known + (between if start > here else -between)


def numbers_shown(faults: Iterable[Fault]) -> Dict[int, None]:
    """Return the numbers of the records that are shown for some faults."""
    numbers = {0: None}
    for fault in faults:
        numbers.update(dict.fromkeys(range(max(fault.row - BEFORE, 0), fault.row + AFTER + 1)))
    return numbers


def columns_near(column: int, width: int) -> List[int]:
    """Return the numbers of the columns that are shown: the first, and those round a fault."""
    if width <= WIDEST:
        return list(range(1, width + 1))
    first = min(max(column - WIDEST // 2, 2), width - WIDEST + 2)
    return [1, *range(first, first + WIDEST - 1)]


def chosen(cells: Sequence[str], columns: Iterable[int]) -> Cells:
    """Return the cells of some columns, None for those past the record's end."""
    return [cells[column - 1] if column <= len(cells) else None for column in columns]
