"""Tests the causes in the file of `--faults`, and how many rows have one in the lines."""
from __future__ import annotations

from typing import Any

from tests.explaining import CASH, ExplainTest, Place, edited_all
from tests.fault_files import NO_CAUSE, records

PERIOD: dict[Place, Any] = {("dimensions", "period"): "$refPeriod", ("parameterURL",): "p.csv"}
OF_PERIOD = ["r/p.csv", "4", "2", "30.09.2025"]
GIVEN = 'name,value\na,"1\n2"\nrefPeriod,30.09.2025\n'
UNIT: dict[Place, Any] = {(*CASH, "dimensions", "unit"): "$note"}


class CausesTest(ExplainTest):
    """A test of the causes of faults."""

    def tables(self, edits: dict[Place, Any], **tables: str) -> None:
        """Writes a report with these tables, all of one template."""
        there = {it: {"template": "p", "url": f"{it}.csv"} for it in tables}
        self.write({"r/m.json": edited_all({**edits, ("tables",): there}), "r/p.csv": GIVEN})
        self.write({f"r/{it}.csv": text for it, text in tables.items()})

    def causes(self, *words: str) -> list[list[str]]:
        """Returns the table, row and column of each record, and its cause."""
        self.err("--faults", "f.csv", *words)
        return [[*it[:3], *it[9:]] for it in records(self.read("f.csv"))[1:]]

    def shared(self, *words: str) -> list[str]:
        """Returns the lines of shared causes."""
        lines = self.err("--explain", "--faults", "f.csv", *words).splitlines()
        return [it for it in lines if it.startswith("    the same in")]


class TestCauses(CausesTest):
    """Writes the place that causes a fault, and the text there."""

    def test_a_parameter(self) -> None:
        """Writes the parameter's place with the faults of all its facts, in all tables."""
        self.tables(PERIOD, t1="cash\n1\n2\n", t2="note,cash\n\nx,1\n")
        wanted = [["t1", "1", "1"], ["t1", "2", "1"], ["t2", "1", "1"], ["t2", "1", "2"]]
        self.assertEqual(self.causes(), [[*it, *OF_PERIOD] for it in wanted])

    def test_another_cell(self) -> None:
        """Writes the cell of each row, whole, with the line of its record."""
        long = "x" * 1_000
        self.tables(UNIT, t1=f'note,cash\n"{long},\n""y""",1\n\n#nil,2\n')
        wanted = [["r/t1.csv", "2", "1", f'{long},\n"y"'], ["r/t1.csv", "5", "1", "#nil"]]
        found = self.causes()
        self.assertEqual([it[3:] for it in found], wanted)
        self.assertEqual([it[:3] for it in found], [["t1", "1", "2"], ["t1", "2", "2"]])

    def test_causes_of_one_row(self) -> None:
        """Writes the cause of each cell: none if it is the cell itself."""
        edits: dict[Place, Any] = {
            ("tableTemplates", "p", "columns", "more"): {
                "dimensions": {"concept": "eg:Cash", "unit": "EUR"}
            },
            (*CASH, "dimensions", "unit"): "$kind",
            ("tableTemplates", "p", "columns", "kind"): {},
        }
        self.tables(edits, t1="cash,kind,more,note\n1,x,2,#a\ny,iso4217:EUR,3,b\n")
        pointer = "/tableTemplates/p/columns/more/dimensions/unit"
        of_more = ["r/m.json", "", pointer, '"EUR"']
        wanted = [
            ["t1", "1", "1", "r/t1.csv", "2", "2", "x"],
            ["t1", "1", "3", *of_more],
            ["t1", "1", "4", *NO_CAUSE],
            ["t1", "2", "1", *NO_CAUSE],
            ["t1", "2", "3", *of_more],
        ]
        self.assertEqual(self.causes(), wanted)

    def test_the_cell_itself(self) -> None:
        """Writes no cause if a dimension refers to the cell of the fact."""
        self.tables({(*CASH, "dimensions", "unit"): "$cash"}, t1="cash\n1\n")
        self.assertEqual(self.causes(), [["t1", "1", "1", *NO_CAUSE]])

    def test_missing_columns(self) -> None:
        """Writes the empty cell of the header, or that the header has no such column."""
        edits: dict[Place, Any] = {(*CASH, "dimensions", "concept"): "$note"}
        self.tables(edits, t1="\n\ncash,\n1,\n\n2,\n", t2="cash\n1\n")
        told = 'the header has no column "note"'
        wanted = [
            ["t1", "1", "1", "r/t1.csv", "3", "2", ""],
            ["t1", "2", "1", "r/t1.csv", "3", "2", ""],
            ["t2", "1", "1", "r/t2.csv", "2", "", told],
        ]
        self.assertEqual(self.causes(), wanted)

    def test_many_parameters(self) -> None:
        """Writes the line of each of many parameters."""
        columns = {f"c{at}": column_of(f"$p{at}") for at in range(200)}
        edits: dict[Place, Any] = {
            ("tableTemplates", "p", "columns"): columns,
            ("parameterURL",): "p.csv",
        }
        header = ",".join(columns)
        self.tables(edits, t1=f"{header}\n" + f"{'1,' * 199}1\n" * 3)
        given = "".join(f'p{at},"x\n{at}"\n' for at in reversed(range(200)))
        self.write({"r/p.csv": f"name,value\n{given}"})
        wanted = [
            ["t1", str(row), str(at + 1), "r/p.csv", str(2 * (199 - at) + 2), "2", f"x\n{at}"]
            for row in (1, 2, 3)
            for at in range(200)
        ]
        self.assertEqual(self.causes(), wanted)

    def test_whole_rows(self) -> None:
        """Writes no cause for a row, a header, a file and a cut list."""
        self.tables(PERIOD, t1="cash\n1,2\n1\n", t2="cas\n", t3="", t4="cash\n1\n1\n")
        found = self.causes("--most-faults", "1")
        self.assertEqual([it[3:] for it in found if it[3:] != NO_CAUSE], [OF_PERIOD])
        self.assertEqual(found[0], ["t1", "1", "0", *NO_CAUSE])


def column_of(unit: str) -> dict[str, Any]:
    """Returns a column of facts with this unit."""
    return {"dimensions": {"concept": "eg:Cash", "unit": unit}}


class TestRows(CausesTest):
    """Says in the lines how many rows have a cause, if the file of faults is asked for."""

    def test_several_tables(self) -> None:
        """Says how many rows of all tables have it."""
        self.tables(PERIOD, t1="cash\n1\n1\n1\n", t2="cash\n1\n", t3="cash\n1\n1\n1\n1\n")
        self.assertEqual(self.shared(), ["    the same in 2 more tables: t2, t3; 8 rows in all"])
        wanted = "    the same in 2 more tables: t2, t3; at least 5 rows in all"
        self.assertEqual(self.shared("--most-faults", "2"), [wanted])
        plain = self.err("--explain").splitlines()
        self.assertIn("    the same in 2 more tables: t2, t3", plain)

    def test_one_table(self) -> None:
        """Says how many more rows have it, each once whatever number of its cells has it."""
        for rows, wanted in (
            (1, []),
            (2, ["    the same in 1 more row"]),
            (8, ["    the same in 7 more rows"]),
        ):
            with self.subTest(rows=rows):
                two: Place = ("tableTemplates", "p", "columns", "two")
                self.tables({**PERIOD, two: column_of("eg:x")}, t1="cash,two\n" + "1,1\n" * rows)
                self.assertEqual(len(self.causes()), 2 * rows)
                self.assertEqual(self.shared(), wanted)
        cut = self.shared("--most-faults", "5")
        self.assertEqual(cut, ["    the same in at least 2 more rows"])

    def test_other_causes(self) -> None:
        """Counts only the rows with the first fault's cause, and none if that is its own cell."""
        note: Place = ("tableTemplates", "p", "columns", "note")
        edits: dict[Place, Any] = {**PERIOD, **UNIT, note: {}}
        rows = "iso4217:EUR,1\nx,1\niso4217:EUR,1\niso4217:EUR,\n,1\n"
        self.tables(edits, t1=f"note,cash\n{rows}")
        found = [it[3:] for it in self.causes()]
        self.assertEqual(found, [OF_PERIOD, ["r/t1.csv", "3", "1", "x"], OF_PERIOD, OF_PERIOD])
        self.assertEqual(self.shared(), ["    the same in 2 more rows"])
        self.tables({}, t1="cash\nx\n", t2="cash\nx\nx\n")
        self.assertEqual(self.shared(), [])
