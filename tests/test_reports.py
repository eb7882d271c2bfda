"""Tests worked reports: periods, row identifiers, several tables, arguments and early ends."""
from __future__ import annotations

from pathlib import Path

from tests.harness import for_each
from tests.worked_reports import (
    FEW_WAYS,
    HEAD,
    IDENTIFIED,
    METADATA,
    NO_TABLES,
    THREE,
    TIMED,
    TYPES,
    WAYS,
    WORDS,
    Edits,
    ReportTest,
    document,
    edited,
    lines,
    members,
)

OPTIONAL = [('"template":"p"}', '"template":"p","optional":true}')]
# An unknown member, and an empty list of reports that this one extends.
UNKNOWN = [('"tables":', '"foo":1,"tables":'), ('"taxonomy":', '"extends":[],"taxonomy":')]
TWO_REFUSED = (
    THREE,
    ["cash\n5\n", "cash\n1\nx\n", "nope\n1\n"],
    "t1.r_1.cash - Cash EUR 5; t2.r_1.cash - Cash EUR 1",
    "t2, row 2, column 1: BadNumber (40); t3, row 0, column 1: UnknownHeader (23)",
)

# Reports of several tables or none: what is replaced in the metadata, the files, None for a missing
# one, the facts, and the fault lines.
SEVERAL_TABLES: dict[str, tuple[Edits, list[str | None], str, str]] = {
    "three tables, two refused": (THREE, [*TWO_REFUSED[1]], *TWO_REFUSED[2:]),
    "three tables, one without rows": (
        THREE,
        ["cash\n", "cash\n1\n", "cash\n2\n"],
        "t2.r_1.cash - Cash EUR 1; t3.r_1.cash - Cash EUR 2",
        "",
    ),
    "an unknown member": (UNKNOWN, ["cash\n100\n"], "t1.r_1.cash - Cash EUR 100", ""),
    "no tables": (NO_TABLES, [], "", ""),
    "a missing file": ([], [None], "", "t1, row 0, column 0: NoFile (20)"),
    "a missing file of an optional table": (OPTIONAL, [None], "", ""),
    "three missing files": (
        THREE,
        [None] * 3,
        "",
        "; ".join(f"t{i}, row 0, column 0: NoFile (20)" for i in (1, 2, 3)),
    ),
}


@for_each(SEVERAL_TABLES.items())
class TestTables(ReportTest):
    """Converts reports of several tables, and of none."""

    def check(self, edits: Edits, files: list[str | None], facts: str, faults: str) -> None:
        """Converts a report."""
        self.write({"m.json": edited(edits), "t.csv": TYPES})
        self.write({f"t{i}.csv": it for i, it in enumerate(files, 1) if it is not None})
        self.converts(facts, lines(faults))

    def test_each_number_of_workers(self) -> None:
        """Converts three tables, two of which are refused, by 1 to 64 workers."""
        edits, files, facts, faults = TWO_REFUSED
        self.write({"m.json": edited(edits), "t.csv": TYPES})
        self.write({f"t{i}.csv": it for i, it in enumerate(files, 1)})
        ways = [(workers, ring) for workers in range(1, 65) for ring in (1, 4)]
        self.converts(facts, lines(faults), [*ways, (8, 65_536)])

    def test_an_address_with_a_quote(self) -> None:
        """Copies the address of a report into the document."""
        address = ('"documentType"', '"baseURL":"http://example.com/a\\"b","documentType"')
        self.write({"t.csv": TYPES, "m.json": edited([address]), "t1.csv": "cash\n"})
        self.converts("", head=edited([address], HEAD))


# Texts of periods, each with the period that it means.
PERIODS = {
    "quarter": ("2021Q4", "2021-10-01T00:00:00/2022-01-01T00:00:00"),
    "half year": ("2021H2", "2021-07-01T00:00:00/2022-01-01T00:00:00"),
    "month of a leap year": ("2024-02", "2024-02-01T00:00:00/2024-03-01T00:00:00"),
    "ISO week 53": ("2020W53", "2020-12-28T00:00:00/2021-01-04T00:00:00"),
    "ISO week of one digit": ("2021W1", "2021-01-04T00:00:00/2021-01-11T00:00:00"),
    "ISO week of two digits": ("2021W01", "2021-01-04T00:00:00/2021-01-11T00:00:00"),
    "two days": ("2021-01-01..2021-12-31", "2021-01-01T00:00:00/2022-01-01T00:00:00"),
    "end of a quarter": ("2021Q4@end", "2022-01-01T00:00:00"),
    "end of a day": ("2021-12-31T24:00:00", "2022-01-01T00:00:00"),
    "last year": ("9998", "9998-01-01T00:00:00/9999-01-01T00:00:00"),
    "last day": ("9999-12-30", "9999-12-30T00:00:00/9999-12-31T00:00:00"),
    "last second": ("9999-12-31T23:59:59", "9999-12-31T23:59:59"),
    "first week": ("0001W1", "0001-01-01T00:00:00/0001-01-08T00:00:00"),
}


def fact_of_period(row: int, period: str) -> str:
    """Returns the member of a fact of this period."""
    dimensions = f'"concept":"eg:Cash","entity":"eg:A1","period":"{period}","unit":"iso4217:EUR"'
    return f'"t1.r_{row}.cash":{{"dimensions":{{{dimensions}}},"value":"1"}}'


@for_each(PERIODS.items())
class TestPeriods(ReportTest):
    """Converts periods from a column."""

    def check(self, text: str, period: str) -> None:
        """Converts a table with this period."""
        self.write({"t.csv": TYPES, "m.json": edited(TIMED), "t1.csv": f"cash,b\n1,{text}\n"})
        self.converts([fact_of_period(1, period)], ways=FEW_WAYS)

    def test_all_in_one_table(self) -> None:
        """Converts a table with all periods."""
        rows = "".join(f"1,{text}\n" for text, _ in PERIODS.values())
        self.write({"t.csv": TYPES, "m.json": edited(TIMED), "t1.csv": "cash,b\n" + rows})
        self.converts([fact_of_period(i, it) for i, (_, it) in enumerate(PERIODS.values(), 1)])


# Texts that are not periods.
NO_PERIODS = """
2021W53 2021W0 2021Q5 2021-02-29 2021-06-30..2021-06-29 2021-12-31T23:59:60
2021-12-31T00:00:00@end 2021-01-01T00:00:00/2021-01-01T00:00:00
9999-12-31 9999-12 9999 9999W52 9999-12-31T24:00:00 0000
"""


@for_each((it, (it,)) for it in NO_PERIODS.split())
class TestNoPeriods(ReportTest):
    """Refuses texts of a column that are not periods."""

    def check(self, text: str) -> None:
        """Refuses a table with this text."""
        self.write({"t.csv": TYPES, "m.json": edited(TIMED), "t1.csv": f"cash,b\n1,{text}\n"})
        self.converts("", lines("t1, row 1, column 1: BadPeriod (37)"), FEW_WAYS)


@for_each((f"{it} letters", (it,)) for it in (1, 2, 15, 16, 22, 23, 24, 25, 31, 32, 33, 300))
class TestRepeatedIdentifiers(ReportTest):
    """Refuses an identifier that was there two rows before, in each length stored differently."""

    def check(self, length: int) -> None:
        """Refuses identifiers that differ in their last and in their first letter."""
        self.write({"t.csv": TYPES, "m.json": edited(IDENTIFIED)})
        for x, y in (
            ("x".rjust(length, "a"), "y".rjust(length, "a")),
            ("x".ljust(length, "a"), "y".ljust(length, "a")),
        ):
            with self.subTest(x=x):
                self.write({"t1.csv": f"k,cash\n{x},1\n{y},2\n{x},3\n"})
                facts = f"t1.{x}.cash - Cash EUR 1; t1.{y}.cash - Cash EUR 2"
                said = lines("t1, row 3, column 1: RepeatedRowId (30)")
                self.converts(facts, said, FEW_WAYS)


HELD = (
    "t1.r_1.cash - Cash EUR 100; t1.r_1.note - Note - first; "
    "t1.r_2.cash - Cash EUR 200; t1.r_2.note - Note - second"
)


class TestArguments(ReportTest):
    """Converts one report by several command lines."""

    def setUp(self) -> None:
        """Writes the report twice, at the top and in a folder whose name has a point."""
        super().setUp()
        table = "cash,note\n100,first\n200,second\n"
        self.write({"t.csv": TYPES, "m.json": METADATA, "t1.csv": table})
        self.write({"d/e.f/m.json": METADATA, "d/e.f/t1.csv": table})

    def test_the_held_report(self) -> None:
        """Converts it in all ways."""
        self.converts(HELD)

    def test_arguments(self) -> None:
        """Writes the same document by each command line, and no other file."""
        plain, lined = (document(it, members(HELD)) for it in ("compact", "lines"))
        most = ["--out", "o.json", "--workers", "64", "--ring", "65536", "--types", "t.csv"]
        report = f"{self.folder}/m.json"
        cases: list[tuple[list[str], str, bytes]] = [
            ([], "", plain),
            (["m.json", "--types", "t.csv"], "", plain),
            (["--ring", "1", "d/e.f/m.json", "--types=t.csv", "--workers", "1"], "", plain),
            ([report, "--types", "t.csv"], "", plain),
            ([report, "--types", "t.csv", "--out", "o.json"], "o.json", plain),
            ([*most, "m.json"], "o.json", plain),
            (["--layout=lines", "m.json", "--types", "t.csv", "--out=o.json"], "o.json", lined),
        ]
        for words, path, text in cases:
            with self.subTest(words=words):
                (self.folder / "o.json").unlink(missing_ok=True)
                done = self.run_program(*words)
                self.check_run(done, 0, b"" if path else text, "")
                self.assertEqual(self.read("o.json"), text if path else None)

    def test_paths_of_no_report(self) -> None:
        """Refuses a folder, and a path that does not exist."""
        for path in ("b/m.json", "", "d/e.f", "d/e.f/"):
            with self.subTest(path=path):
                done = self.run_program(path, "--types", "t.csv")
                if Path(path).name == "e.f":
                    self.check_run(done, 1, b"", "xbrl-json: report: Read (17)\n")
                else:
                    self.check_run(done, 3, b"", f"xbrl-json: cannot read {path}\n")

    def test_wrong_arguments(self) -> None:
        """Refuses wrong command lines with status 2."""
        wrong = ("--workers 65", "--workers 0", "--ring 65537", "--ring 0", "more")
        for words in (*([*WORDS, *it.split()] for it in wrong), ["m.json"], ["--types", "t.csv"]):
            with self.subTest(words=words):
                status, out, err = self.run_program(*words)
                self.assertEqual((status, out, err[:7]), (2, b"", "error: "))

    def test_help(self) -> None:
        """Prints the defaults."""
        status, out, err = self.run_program(*WORDS, "--help")
        self.assertEqual((status, err), (0, ""))
        for it in ("4", "1024", "standard output", "compact"):
            self.assertIn(f"[default: {it}]".encode(), out)


NAMED, ELSEWHERE = (
    ('"tables":', f'"parameterURL":"{path}","tables":') for path in ("p.csv", "x.csv")
)
EXTENDED = ('"taxonomy":', '"extends":["a.json"],"taxonomy":')
BROKEN = (METADATA, "{")
NO_TYPES = ("m.json", "--types", "x.csv")

# The arguments, what is replaced, the types table, and the line and status of the run.
EARLY_ENDS: dict[str, tuple[tuple[str, ...], Edits, str, str, int]] = {
    "no report": (("x.json", "--types", "x.csv"), [NAMED], TYPES, "cannot read x.json", 3),
    "no types table": (NO_TYPES, [BROKEN], TYPES, "cannot read x.csv", 3),
    "no parameters file": (WORDS, [ELSEWHERE], TYPES, "cannot read x.csv", 3),
    "no JSON": (WORDS, [BROKEN], TYPES, "report: Syntax (1)", 1),
    "no JSON, bad types": (WORDS, [BROKEN], "", "types: BadTypes (14)", 1),
    "extends": (WORDS, [EXTENDED], TYPES, "report: Unsupported (5)", 1),
    "bad parameters": (WORDS, [NAMED], TYPES, "parameters: BadParameter (13)", 1),
}


@for_each(EARLY_ENDS.items())
class TestEarlyEnds(ReportTest):
    """Ends before the tables are read, with the first of several faults."""

    def check(
        self, words: tuple[str, ...], edits: Edits, types: str, said: str, status: int
    ) -> None:
        """Runs over these files."""
        self.write({"m.json": edited(edits), "t.csv": types, "p.csv": "a,1\n"})
        self.stops(said, status, words, WAYS)
