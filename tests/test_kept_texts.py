"""Tests the fault of a row after rows from which quotes were taken out.

A row with a fault is read again, from the bytes that its file had. They are copied before the first
doubled quote of a piece is taken out in place.
"""
from __future__ import annotations

from tests.worked_reports import METADATA, TYPES, ReportTest, lines


class TestKeptTexts(ReportTest):
    """A bad row after doubled quotes, in a short table and amid a long one."""

    def refuses(self, count: int, bad: int) -> None:
        """Checks a table of `count` rows with doubled quotes, of which row `bad` has no number."""
        rows = [f'{i},"say ""hi"" {i}"\n' for i in range(1, count + 1)]
        rows[bad - 1] = f'x,"say ""hi"" {bad}"\n'
        table = "cash,note\n" + "".join(rows)
        self.write({"m.json": METADATA, "t.csv": TYPES, "t1.csv": table})
        facts = []
        for i in range(1, bad):
            facts.append(f"t1.r_{i}.cash - Cash EUR {i}")
            facts.append(f't1.r_{i}.note - Note - say \\"hi\\" {i}')
        self.converts(facts, lines(f"t1, row {bad}, column 1: BadNumber (40)"))

    def test_a_short_table(self) -> None:
        self.refuses(2, 2)

    def test_a_piece_of_many_rows(self) -> None:
        self.refuses(3_000, 300)
