"""Tests large worked reports: many rows, columns and tables, long cells, and cut tables."""
from __future__ import annotations

import json
import re
from collections.abc import Iterator

from tests.harness import for_each
from tests.worked_reports import (
    METADATA,
    TABLE,
    TYPES,
    WAYS,
    ReportTest,
    Ways,
    cash,
    edited,
    lines,
)


class TestRows(ReportTest):
    """Converts tables of many rows over rings of several sizes. A full block has 256 facts."""

    def setUp(self) -> None:
        """Writes the other files."""
        super().setUp()
        self.write({"t.csv": TYPES, "m.json": METADATA})

    def rows(self, number: int, ways: Ways, rest: str = "", faults: str = "") -> None:
        """Converts a table of this many rows, and then its further content."""
        with self.subTest(rows=number, rest=rest):
            file = "cash\n" + "".join(f"{i}\n" for i in range(1, number + 1)) + rest
            self.write({"t1.csv": file})
            facts = [cash(f"t1.r_{i}", i) for i in range(1, number + 1)]
            self.converts(facts, lines(faults), ways)

    def test_a_thousand_rows(self) -> None:
        """Converts them over the smallest, default and largest ring."""
        rings = (1, 2, 999, None, 65_536)
        self.rows(1_000, [(workers, ring) for workers in (1, 2, 8) for ring in rings])

    def test_a_hundred_thousand_rows(self) -> None:
        """Converts 391 blocks, so that the threads wait for one another again and again."""
        self.rows(100_000, [(2, 1), (2, 4), (8, 1)])

    def test_ends_of_blocks(self) -> None:
        """Converts tables that end near the end of a block."""
        for number in (1, 255, 256, 257, 512, 600):
            self.rows(number, WAYS)

    def test_faults_near_ends_of_blocks(self) -> None:
        """Refuses tables with a fault near the end of a block."""
        for number in (3, 255, 256, 257):
            self.rows(number, WAYS, "x\n1\n", f"t1, row {number + 1}, column 1: BadNumber (40)")

    def test_half_a_row(self) -> None:
        """Leaves out the first fact of a row whose second cell has a fault."""
        for number in (0, 1, 127, 128, 129):
            with self.subTest(rows=number):
                rows = "".join(f"{i},n\n" for i in range(1, number + 1))
                self.write({"t1.csv": f"cash,note\n{rows}1,#foo\n1,n\n"})
                facts = [
                    it
                    for i in range(1, number + 1)
                    for it in (cash(f"t1.r_{i}", i), f"t1.r_{i}.note - Note - n")
                ]
                faults = f"t1, row {number + 1}, column 2: UnknownSpecial (31)"
                self.converts(facts, lines(faults))


def beginnings(file: bytes) -> Iterator[tuple[bytes, list[str], str]]:
    """Yields each beginning of a table of one row, whose second cell is quoted.

    Each comes with its facts and its faults.
    """
    start = b'cash,note\n1,"'
    for length in range(len(file) + 1):
        head, quoted = file[: min(length, len(start))], file[len(start) : length]
        # Two quotes mean one, and a single one ends the cell.
        note = re.sub(rb'"("?)\n?', rb"\1", quoted)
        if note.endswith(b"\xc3"):
            yield file[:length], [], "t1, row 1, column 2: NotUtf8 (27)"
        elif note:
            value = json.dumps(note.decode(), ensure_ascii=False)[1:-1]
            yield file[:length], [cash("t1.r_1", 1), f"t1.r_1.note - Note - {value}"], ""
        elif head == b"":
            yield head, [], "t1, row 0, column 0: NoHeader (22)"
        elif head in (b"cash", b"cash,", b"cash,note", b"cash,note\n"):
            yield head, [], ""
        elif len(head) < len(b"cash,note"):
            yield head, [], f"t1, row 0, column {head.count(b',') + 1}: UnknownHeader (23)"
        elif head.endswith(b"1"):
            yield head, [], "t1, row 1, column 0: Ragged (26)"
        else:
            yield head, [cash("t1.r_1", 1)], ""


class TestCutTables(ReportTest):
    """Converts a table that is cut short at any byte."""

    def test_each_beginning(self) -> None:
        """Converts the facts that the table still has."""
        self.write({"t.csv": TYPES, "m.json": METADATA})
        file = 'cash,note\n1,"say ""hi"" \\\n\u00e9\u0001"\n'.encode()
        for table, facts, faults in beginnings(file):
            with self.subTest(table=table):
                self.write({"t1.csv": table})
                self.converts(facts, lines(faults), [(1, 1), (2, 1)])


@for_each((f"{it} bytes", (it,)) for it in (4_096, 4_097, 100_000, 300_000))
class TestLongCells(ReportTest):
    """Converts cells of more bytes than a block, a piece and a read of the file have."""

    def check(self, length: int) -> None:
        """Converts a cell of this length between two short ones."""
        long = "x" * length
        self.write({"t.csv": TYPES, "m.json": METADATA, "t1.csv": f"note\nfirst\n{long}\nlast\n"})
        notes = enumerate(("first", long, "last"), 1)
        self.converts([f"t1.r_{i}.note - Note - {note}" for i, note in notes])


@for_each((f"{it} columns", (it,)) for it in (256, 300))
class TestWideRows(ReportTest):
    """Converts rows of a block of facts, and of more."""

    def check(self, number: int) -> None:
        """Converts two rows of this many facts."""
        numbers = range(1, number + 1)
        columns = ",".join(f'"c{i}":{{"dimensions":{{"concept":"eg:Cash"}}}}' for i in numbers)
        meta = edited([('"cash":{"dimensions":{"concept":"eg:Cash"}}', columns)])
        row = ",".join(f"{i}" for i in numbers) + "\n"
        header = ",".join(f"c{i}" for i in numbers) + "\n"
        self.write({"t.csv": TYPES, "m.json": meta, "t1.csv": header + row * 2})
        self.converts([f"t1.r_{k}.c{i} - Cash EUR {i}" for k in (1, 2) for i in numbers])


# The numbers from 1 to 64 in byte order.
ORDER = sorted(map(str, range(1, 65)))


class TestManyTables(ReportTest):
    """Converts 64 tables."""

    def tables(self, url: str) -> None:
        """Writes a report of 64 tables whose files have these names."""
        tables = (f'"t{i}":{{"url":"{url.format(i)}","template":"p"}}' for i in range(1, 65))
        self.write({"t.csv": TYPES, "m.json": edited([(TABLE, ",".join(tables))])})

    def test_one_file(self) -> None:
        """Converts tables that share a file."""
        self.tables("t1.csv")
        self.write({"t1.csv": "cash\n7\n"})
        self.converts([cash(f"t{i}.r_1", 7) for i in ORDER])

    def test_one_row_each(self) -> None:
        """Converts tables of one row, then with one refused."""
        ways = [(1, 1), (8, 1), (8, 1_024), (64, 4), (4, None)]
        self.tables("t{}.csv")
        self.write({f"t{i}.csv": f"cash\n{i}\n" for i in ORDER})
        self.converts([cash(f"t{i}.r_1", i) for i in ORDER], ways=ways)
        self.write({"t40.csv": "cash\n40\nx\n"})
        facts = [cash(f"t{i}.r_1", i) for i in ORDER[: ORDER.index("40") + 1]]
        self.converts(facts, lines("t40, row 2, column 1: BadNumber (40)"), ways)

    def test_a_thousand_rows_each(self) -> None:
        """Converts tables of a thousand rows."""
        self.tables("t{}.csv")
        file = "cash\n" + "".join(f"{row}\n" for row in range(1, 1_001))
        self.write({f"t{i}.csv": file for i in ORDER})
        ways = [(1, None), *((workers, ring) for workers in (2, 8, 64) for ring in (1, 1_024))]
        facts = [cash(f"t{i}.r_{row}", row) for i in ORDER for row in range(1, 1_001)]
        self.converts(facts, ways=ways)
