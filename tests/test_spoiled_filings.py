"""Tests that a spoiled filing is refused by lines that name the guilty file, line and cell.

The first two lines on standard error must have the place. In metadata the place is a JSON pointer
or the names that lead there. The file of `--faults` must have a record, in the filing's names.
"""
from __future__ import annotations

import os
import tempfile
import unittest
from collections.abc import Iterator
from contextlib import contextmanager
from pathlib import Path

from filing import command
from filing.faults import faults_of
from tests.harness import PROGRAM, TestCase, write
from tests.spoiled_filings import Spoiled, report, spoiled, taxonomy

WORDS = ["r", "--taxonomy", "t", "--out", "o.json", "--explain"]


@contextmanager
def heard(folder: Path) -> Iterator[list[str]]:
    """Runs in a folder, and gives the lines that are written to standard error meanwhile."""
    lines: list[str] = []
    before, error = os.getcwd(), os.dup(2)
    with tempfile.TemporaryFile() as file:
        os.dup2(file.fileno(), 2)
        os.chdir(folder)
        try:
            yield lines
        finally:
            os.chdir(before)
            os.dup2(error, 2)
            os.close(error)
        file.seek(0)
        lines += file.read().decode(errors="replace").split("\n")


class TestSpoiledFilings(TestCase):
    """Runs xbrl-filing over each spoiled filing, in this process, which is faster."""

    def run_over(self, filing: Spoiled, faults: str = "f.csv") -> tuple[int, list[str]]:
        """Runs over a filing, and returns the status and the lines."""
        folder = Path(tempfile.mkdtemp(dir=self.folder))
        write(folder / "r", filing.report)
        write(folder / "t", filing.taxonomy)
        with heard(folder) as lines:
            status = command.main([*WORDS, "--faults", faults], PROGRAM)
        self.faults = folder / "f.csv"
        return status, lines

    def test_the_good_filing(self) -> None:
        """Is converted without a line, and without a fault in the file."""
        status, lines = self.run_over(Spoiled("good", report(), taxonomy(), ()))
        self.assertEqual((status, lines, faults_of(str(self.faults), 1).total), (0, [""], 0))

    def test_the_spoiled_filings(self) -> None:
        """Each is refused, and the first two lines have its place."""
        filings = spoiled()
        self.assertGreater(len(filings), 80)
        for filing in filings:
            with self.subTest(filing.name):
                status, lines = self.run_over(filing)
                said = "\n".join(lines[:2])
                missing = [it for it in filing.wanted if it not in said]
                self.assertEqual((status, missing), (1, []), lines)
                self.check_faults()

    def check_faults(self) -> None:
        """Checks that the file of faults has one, and names files of the filing only."""
        found = faults_of(str(self.faults), 1)
        self.assertGreater(found.total, 0)
        self.assertTrue(found.faults[0].place.startswith(("r", "t/")) or found.faults[0].table)
        self.assertNotIn(b"/xbrl-filing-", self.faults.read_bytes())

    def test_a_pipe(self) -> None:
        """A pipe gets the same list as a file, in the names of the filing."""
        wanted = {"parameters one cell": "r/reports/parameters.csv, line 3"}
        pointer = "/tableTemplates/open/columns/share/decimals"
        wanted["decimals"] = f"t/reg/mod.json: {pointer}"
        for filing in spoiled():
            if filing.name in wanted:
                reader, writer = os.pipe()
                self.assertEqual(self.run_over(filing, f"/dev/fd/{writer}")[0], 1)
                os.close(writer)
                with open(reader, "rb") as file:
                    listed = file.read()
                self.run_over(filing)
                self.assertEqual(listed, self.faults.read_bytes())
                (fault,) = faults_of(str(self.faults), 2).faults
                self.assertEqual(fault.place, wanted.pop(filing.name))
        self.assertEqual(wanted, {})


if __name__ == "__main__":
    unittest.main()
