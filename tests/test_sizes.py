"""Tests that no size is refused: a table of millions of rows, long records, long beginnings.

Contracts let a body answer "no memory" or "a failed read" at any size, since these depend on the
system. So each size here is above what such a body might think of as large.
"""
from __future__ import annotations

import os
import subprocess
from collections.abc import Iterable, Iterator

from tests.harness import NAMESPACE, PROGRAM, TYPES, TestCase, metadata

# More workers than processors: with fewer, a run on a busy machine takes one worker.
MANY = str(min(64, max(4, (os.cpu_count() or 1) + 1)))
WAYS = (("1", "1024"), (MANY, "1024"))
HEAD = (
    '{"documentInfo":{"documentType":"https://xbrl.org/2021/xbrl-json","namespaces":{"eg":"%s",'
    '"iso4217":"http://www.xbrl.org/2003/iso4217"},"taxonomy":["http://example.com/eg.xsd"]},'
    '"facts":{' % NAMESPACE
)
DIMENSIONS = '"entity":"eg:A1","period":"2021-01-01T00:00:00/2022-01-01T00:00:00"'


def cash(row: int, value: str) -> str:
    """Returns the fact of a row's number."""
    dimensions = f'"concept":"eg:Cash",{DIMENSIONS},"unit":"iso4217:EUR"'
    return f'"t1.r_{row}.cash":{{"dimensions":{{{dimensions}}},"value":"{value}"}}'


def note(row: int, value: str) -> str:
    """Returns the fact of a row's text."""
    return f'"t1.r_{row}.note":{{"dimensions":{{"concept":"eg:Note",{DIMENSIONS}}},"value":"{value}"}}'


def pieces(facts: Iterable[str], end: str) -> Iterator[bytes]:
    """Yields a document with these facts, in pieces of some thousand facts."""
    waiting, before = [HEAD], ""
    for fact in facts:
        waiting.append(before + fact)
        before = ","
        if len(waiting) > 4_000:
            yield "".join(waiting).encode()
            waiting = []
    yield ("".join(waiting) + end).encode()


class TestSizes(TestCase):
    """Converts large tables with one worker and with several, and compares each byte."""

    def setUp(self) -> None:
        """Writes the other files."""
        super().setUp()
        self.write({"t.csv": TYPES, "m.json": metadata({"t1": {}})})

    def gives(self, status: int, facts: Iterable[str], end: str, fault: str = "") -> None:
        """Fails if the document or the fault is another. A refused document lacks its end."""
        wanted = [*pieces(facts, end)]
        said = f"xbrl-json: table t1, {fault}\n" if fault else ""
        for workers, ring in WAYS:
            with self.subTest(workers=workers):
                words = ["--types", "t.csv", "m.json", "--workers", workers, "--ring", ring]
                with (self.folder / "said").open("wb") as err:
                    run = subprocess.Popen(
                        [PROGRAM, *words], cwd=self.folder, stdout=subprocess.PIPE, stderr=err
                    )
                assert run.stdout is not None
                with run.stdout as out:
                    for piece in wanted:
                        self.check_same(out.read(len(piece)), piece)
                    self.check_same(out.read(1_000), b"")
                self.assertEqual(run.wait(), status)
                self.assertEqual((self.folder / "said").read_text(), said)

    def test_rows_of_one_digit(self) -> None:
        """Converts two million rows of two bytes: 7,800 blocks, and 16,384 rows in each piece."""
        count = 2_000_000
        self.write({"t1.csv": "cash\n" + "7\n" * count})
        self.gives(0, (cash(i, "7") for i in range(1, count + 1)), "}}\n")

    def test_fault_of_a_late_row(self) -> None:
        """Refuses the row after a million and a half."""
        count = 1_500_000
        self.write({"t1.csv": "cash\n" + "7\n" * count + "x\n7\n"})
        fault = f"row {count + 1}, column 1: BadNumber (40)"
        self.gives(1, (cash(i, "7") for i in range(1, count + 1)), "", fault)

    def test_cells_of_twenty_million_bytes(self) -> None:
        """Converts a record above 20 MB between short ones."""
        long = "long " * 4_000_001
        self.write({"t1.csv": f"cash,note\n1,a\n2,{long}\n3,c\n"})
        notes = ["a", long, "c"]
        facts = [it for i in (1, 2, 3) for it in (cash(i, str(i)), note(i, notes[i - 1]))]
        self.gives(0, facts, "}}\n")

    def test_blank_lines_first(self) -> None:
        """Converts a table after a million blank lines, before its header and after it."""
        blank = "\n" * 1_000_000
        self.write({"t1.csv": f"{blank}cash\n{blank}1\n{blank}"})
        self.gives(0, [cash(1, "1")], "}}\n")

    def test_each_number_of_facts_in_the_last_block(self) -> None:
        """Converts tables whose last block has from none to 257 facts."""
        for count in range(258):
            with self.subTest(facts=count):
                self.write({"t1.csv": "cash\n" + "7\n" * count})
                self.gives(0, [cash(i, "7") for i in range(1, count + 1)], "}}\n")
