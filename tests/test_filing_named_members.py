"""Tests which members of a large types table a conversion keeps: those that a filing names."""
from __future__ import annotations

import os
from typing import Any
from unittest import mock

from filing import named_members
from filing.metadata import Merged
from filing.named_members import with_named_members
from filing.prepared import Files
from filing.report import report_by_itself
from tests.harness import TestCase, write

EG = "http://reg.example/eg"
NAMESPACES = {"eg": EG, "odd": 'http://reg.example/"a,b"', "none": "http://reg.example/none"}
ODD = '"http://reg.example/""a,b"""'
CONCEPTS = f"namespace,name,type3,period,values\n{EG},Cash,integer,,\n{EG},member,text,,\n"
NAMES = [f"{EG},{it}" for it in "ABCDEFG"] + [f"{ODD},{it}" for it in ("A", "\u00c9", "Z")]
TYPES = CONCEPTS + "".join(f"{it},member,,\n" for it in NAMES)
ALL = "eg:A eg:B eg:C eg:D eg:E eg:F eg:G odd:A odd:\u00c9 odd:Z"
LONG = 1_000_000  # what is searched for each byte of the types table, unless a test says less


class TestNamedMembers(TestCase):
    """The members of a types table that are left for a report."""

    def keeps(self, wanted: str, text: str, large: int = 1, most: int = LONG, **parts: Any) -> None:
        """Checks which members are kept of a report with this table."""
        write(self.folder, {"m.json": "{}", "t.csv": text, "p.csv": "name,value\nx,eg:G\n"})
        self.keeps_of_files(wanted, large, most, **parts)

    def keeps_of_files(self, wanted: str, large: int = 1, most: int = LONG, **parts: Any) -> None:
        """Checks the same of the files of the folder. All other records stay."""
        info = {"documentInfo": {"namespaces": NAMESPACES}, "tables": {"t": {"url": "t.csv"}}}
        found = Files.of(report_by_itself(str(self.folder / "m.json")), Merged({**info, **parts}, {}))
        with mock.patch.multiple(named_members, LARGE=large, MOST=most):
            kept = with_named_members(TYPES.encode(), found).decode()
        self.assertEqual(kept[: len(CONCEPTS)], CONCEPTS)
        lines = kept[len(CONCEPTS) :].replace(f"{EG},", "eg:").replace(f"{ODD},", "odd:")
        self.assertEqual(lines.split(",member,,\n"), [*wanted.split(), ""])

    def test_cells(self) -> None:
        """Keeps the first member, and those of cells, however these are quoted and set apart."""
        text = 'v,w\neg:B,x\n"eg:C eg:D\teg:E",1\r\n"odd:"\u00c9,"##"eg:F\reg:cash,see eg:G.\n'
        self.keeps("eg:A eg:B eg:C eg:D eg:E odd:\u00c9", text)

    def test_metadata(self) -> None:
        """Keeps members of literals and parameters."""
        dimensions = {"eg:Region": "eg:C", "eg:Other": "see eg:D"}
        self.keeps("eg:A eg:C", "v\n1\n", dimensions=dimensions)
        self.keeps("eg:A odd:Z", "v\n1\n", parameters={"x": "odd:Z"})
        self.keeps("eg:A eg:G", "v\n1\n", parameterURL="p.csv")

    def test_none(self) -> None:
        """Keeps one member if none is named, so that members are looked up."""
        self.keeps("eg:A", "v\neg:nowhere none:A zz:A A :A\n")

    def test_what_is_not_searched(self) -> None:
        """Keeps all members of a small table, and of a report with large files or a pipe."""
        self.keeps(ALL, "v\n1\n", large=len(TYPES.encode()) + 1)
        rows = "v\n" + "1\n" * 5_000
        self.keeps(ALL, rows, most=5_000)
        self.keeps("eg:A", rows, most=20_000)
        self.keeps(ALL, "v\n1\n", most=10)  # less than the metadata
        (self.folder / "t.csv").unlink()
        os.mkfifo(self.folder / "t.csv")
        self.keeps_of_files(ALL)
