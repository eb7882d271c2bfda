"""Tests what `--explain` prints of the places elsewhere that cause a fault of a cell."""
from __future__ import annotations

from typing import Any

from tests.explaining import (
    AT_CASH,
    CASH,
    MALFORMED,
    NO_NAME,
    NO_PERIOD,
    UNKNOWN_SPECIAL,
    ExplainTest,
    Place,
    edited_all,
    elsewhere,
    lines_of,
)
from tests.fault_files import records
from tests.harness import for_each

# The cause of a fault of the cell `1` in the first row: what is edited in the metadata, the table,
# the fault, the place to mend and what is there, why, and the places by which the fault comes to
# the cell. After `why` and a line end is what could be meant.
KIND = ("tableTemplates", "p", "columns", "kind")
NET: dict[Place, Any] = {
    (*KIND,): {
        "propertyGroups": {
            "net": {"dimensions": {"unit": "$currency"}},
            "own": {"decimals": "$note"},
        }
    },
    (*CASH, "propertiesFrom"): ["kind"],
}
GIVEN: dict[Place, Any] = {("parameterURL",): "p.csv"}
AT_NET = "/tableTemplates/p/columns/kind/propertyGroups/net/dimensions/unit"
AT_TWO = "r/t1.csv, line 2, cell 2"
NO_DECIMALS = "decimals are neither a whole number of 32 bits nor INF"
PARAMETERS = "name,value\na,1\n\ncurrency,EUR\n"
SOURCES: list[tuple[dict[Place, Any], str, str, str, str, list[str]]] = [
    (
        {**NET, **GIVEN},
        "cash,kind\n1,net\n",
        "BadValue (36)",
        'r/p.csv, line 4, cell 2: "EUR"',
        MALFORMED,
        [f'{AT_TWO}: "net"', f'{AT_NET}: "$currency"'],
    ),
    (
        {
            **NET,
            ("parameters",): {"currency": "e:E"},
            ("tables", "t1", "parameters"): {"currency": "E"},
        },
        "cash,kind\n1,net\n",
        "BadValue (36)",
        '/tables/t1/parameters/currency: "E"',
        MALFORMED,
        [f'{AT_TWO}: "net"', f'{AT_NET}: "$currency"'],
    ),
    (
        {**NET, ("parameters",): {"currency": "e:E"}},
        "cash,kind\n1,net\n",
        "BadValue (36)",
        '/parameters/currency: "e:E"',
        MALFORMED,
        [f'{AT_TWO}: "net"', f'{AT_NET}: "$currency"'],
    ),
    (
        NET,
        "cash,kind,note\n1,own,x\n",
        "BadDecimals (39)",
        'r/t1.csv, line 2, cell 3: "x"',
        NO_DECIMALS,
        [
            f'{AT_TWO}: "own"',
            '/tableTemplates/p/columns/kind/propertyGroups/own/decimals: "$note"',
        ],
    ),
    (NET, "cash,kind\n1,#x\n", "UnknownSpecial (31)", f'{AT_TWO}: "#x"', UNKNOWN_SPECIAL, []),
    (
        NET,
        "cash,kind\n1,#nil\n",
        "UnknownGroup (32)",
        f'{AT_TWO}: "#nil"',
        'a cell names no property group of its column\n"#nil" in kind: this column knows net, own',
        [],
    ),
    (
        {("dimensions", "entity"): "$note"},
        "cash,note\n1,#x\n",
        "UnknownSpecial (31)",
        f'{AT_TWO}: "#x"',
        UNKNOWN_SPECIAL,
        ['/dimensions/entity: "$note"'],
    ),
    (
        {("dimensions", "entity"): "$rowNumber"},
        "cash\n1\n",
        "BadValue (36)",
        '/dimensions/entity: "$rowNumber"',
        MALFORMED,
        [],
    ),
    (
        {("dimensions", "eg:Region"): "North"},
        "cash\n1\n",
        "BadValue (36)",
        '/dimensions/eg:Region: "North"',
        MALFORMED,
        [],
    ),
    (
        {("tableTemplates", "p", "dimensions"): {"period": "nope"}},
        "cash\n1\n",
        "BadPeriod (37)",
        '/tableTemplates/p/dimensions/period: "nope"',
        NO_PERIOD,
        [],
    ),
    (
        {("tableTemplates", "p", "decimals"): "$d", ("parameters",): {"d": "#x"}},
        "cash\n1\n",
        "UnknownSpecial (31)",
        '/parameters/d: "#x"',
        UNKNOWN_SPECIAL,
        ['/tableTemplates/p/decimals: "$d"'],
    ),
    (
        {(*CASH, "dimensions", "concept"): "#none"},
        "cash\n1\n",
        "NoConcept (33)",
        f'{AT_CASH}/dimensions/concept: "#none"',
        "no concept is given",
        [],
    ),
    (
        {(*CASH, "dimensions", "concept"): "$note"},
        "cash,note\n1,\n",
        "NoConcept (33)",
        f'{AT_TWO}: ""',
        "no concept is given",
        [f'{AT_CASH}/dimensions/concept: "$note"'],
    ),
    (
        {(*CASH, "dimensions", "concept"): "$note"},
        "cash\n1\n",
        "NoConcept (33)",
        'r/t1.csv, line 2: the header has no column "note"',
        "no concept is given",
        [f'{AT_CASH}/dimensions/concept: "$note"'],
    ),
    (
        {
            ("tables", "t1"): {"url": "t1.csv"},
            ("tableTemplates",): {"t1": {"columns": {"cash": {"dimensions": {"concept": "##x"}}}}},
        },
        "cash\n1\n",
        "UnknownName (34)",
        '/tableTemplates/t1/columns/cash/dimensions/concept: "##x"',
        NO_NAME,
        [],
    ),
]


def cause_of(source: str) -> list[str]:
    """Returns the fields of a place to mend: its file, line, cell and text."""
    place, text = source.split(": ", 1)
    if place.startswith("/"):
        return ["r/m.json", "", place, text]
    file, line, *cells = place.split(", ")
    if not cells:
        return [file, line.removeprefix("line "), "", text]
    return [file, line.removeprefix("line "), cells[0].removeprefix("cell "), text[1:-1]]


def fact_in(report: dict[str, Any]) -> str:
    """Returns the fact as it is shown: with its concept, if only the column writes it."""
    (template,) = report["tableTemplates"].values()
    column = template["columns"]["cash"]
    concept = column["dimensions"]["concept"].replace("##", "#")
    is_known = "propertiesFrom" not in column and not concept.startswith(("$", "#none"))
    return f'"1" in cash{f" ({concept})" if is_known else ""} of row r_1'


@for_each((f"{fault[:-5]} {i}", case) for i, case in enumerate(SOURCES) for fault in [case[2]])
class TestSources(ExplainTest):
    """Explains the places elsewhere that cause a fault of a cell."""

    def check(
        self,
        edits: dict[Place, Any],
        table: str,
        fault: str,
        source: str,
        sentence: str,
        path: list[str],
    ) -> None:
        """Explains the fault of a cell."""
        report = edited_all(edits)
        self.write({"r/m.json": report, "r/t1.csv": table, "r/p.csv": PARAMETERS})
        lines = elsewhere(source, *sentence.split("\n"), fact=fact_in(report), by=path)
        wanted = lines_of(f"table t1, row 1, column 1: {fault}", lines)
        self.check_same(self.err("--explain"), wanted)
        self.err("--faults", "f.csv")
        self.assertEqual(records(self.read("f.csv"))[1][9:], cause_of(source))


EIGHT = [f"t{i}" for i in range(1, 9)]
FACT = 'for "1" in cash (eg:Cash) of row r_1: r/{}.csv, line 2, cell 1'


def line_of(table: str, fault: str) -> str:
    """Returns the line of a fault of a table's first cell."""
    return f"xbrl-json: table {table}, row 1, column 1: {fault}\n"


class SharedTest(ExplainTest):
    """A test of causes that several tables have."""

    def tables(self, edits: dict[Place, Any], names: list[str], **files: str) -> None:
        """Writes a report with these tables, all of one template and with one fact each."""
        report = edited_all({**edits, ("tables",): {it: table_of(it) for it in names}})
        self.write({"r/m.json": report, **{f"r/{it}.csv": "cash\n1\n" for it in names}})
        self.write({f"r/{it}.csv": text for it, text in files.items()})


def table_of(name: str) -> dict[str, str]:
    """Returns a table of the template p, in its own file."""
    return {"template": "p", "url": f"{name}.csv"}


class TestShared(SharedTest):
    """Tells a cause once, whatever number of tables has it."""

    def test_a_parameter(self) -> None:
        """Names a parameter's line first, and the tables that have it."""
        edits: dict[Place, Any] = {("dimensions", "period"): "$refPeriod", **GIVEN}
        self.tables(edits, EIGHT, p="name,value\n\nrefPeriod,30.09.2025\n")
        fault, source = "BadPeriod (37)", 'r/p.csv, line 3, cell 2: "30.09.2025"'
        wanted = line_of("t1", fault) + "".join(
            f"    {it}\n"
            for it in (
                source,
                NO_PERIOD,
                FACT.format("t1"),
                'by /dimensions/period: "$refPeriod"',
                "the same in 7 more tables: t2, t3, t4 .. t8",
            )
        )
        for it in EIGHT[1:]:
            wanted += line_of(it, fault) + f"    the same cause as in table t1: {source}\n"
        self.check_same(self.err("--explain"), wanted)
        self.check_same(self.err(), "".join(line_of(it, fault) for it in EIGHT))

    def test_how_many(self) -> None:
        """Names one table, and all of four."""
        for count, line in (
            (2, "the same in 1 more table: t2"),
            (4, "the same in 3 more tables: t2, t3, t4"),
            (5, "the same in 4 more tables: t2, t3, t4 .. t5"),
        ):
            with self.subTest(count=count):
                self.tables({("dimensions", "entity"): "A1"}, EIGHT[:count])
                lines = self.err("--explain").splitlines()
                self.assertEqual(lines[4], f"    {line}")
                self.assertEqual(len(lines), 5 + 2 * (count - 1))

    def test_two_causes(self) -> None:
        """Keeps causes apart: a cell of each table, and a parameter that others have."""
        edits: dict[Place, Any] = {
            ("dimensions", "unit"): "$note",
            ("parameters",): {"note": "EUR"},
        }
        self.tables(edits, EIGHT[:4], t2="cash,note\n1,x\n", t4="cash,note\n1,x\n")
        source = '/parameters/note: "EUR"'
        by = ['/dimensions/unit: "$note"']

        def told(table: str, source: str) -> list[str]:
            """Returns what is told of a table."""
            return elsewhere(source, MALFORMED, at=f"r/{table}.csv, line 2, cell 1", by=by)

        wanted = ""
        for table, lines in {
            "t1": [*told("t1", source), "the same in 1 more table: t3"],
            "t2": told("t2", 'r/t2.csv, line 2, cell 2: "x"'),
            "t3": [f"the same cause as in table t1: {source}"],
            "t4": told("t4", 'r/t4.csv, line 2, cell 2: "x"'),
        }.items():
            wanted += lines_of(f"table {table}, row 1, column 1: BadValue (36)", lines)
        self.check_same(self.err("--explain"), wanted)

    def test_one_place_with_two_faults(self) -> None:
        """Tells both: one parameter is not a unit here, and not a period there."""
        edits: dict[Place, Any] = {
            ("parameters",): {"both": "x"},
            ("tableTemplates", "q"): {
                "columns": {"cash": {"dimensions": {"concept": "eg:Cash", "unit": "$both"}}}
            },
            ("tableTemplates", "p", "dimensions"): {"period": "$both"},
        }
        self.tables({**edits}, ["t1"])
        report = edited_all({**edits, ("tables", "t1"): table_of("t1")})
        report["tables"]["t2"] = {"template": "q", "url": "t1.csv"}
        self.write({"r/m.json": report})
        source = '/parameters/both: "x"'
        by = ['/tableTemplates/p/dimensions/period: "$both"']
        lines = elsewhere(source, NO_PERIOD, by=by)
        wanted = lines_of("table t1, row 1, column 1: BadPeriod (37)", lines)
        by = ['/tableTemplates/q/columns/cash/dimensions/unit: "$both"']
        lines = elsewhere(source, MALFORMED, by=by)
        wanted += lines_of("table t2, row 1, column 1: BadValue (36)", lines)
        self.check_same(self.err("--explain"), wanted)

    def test_the_file_of_faults(self) -> None:
        """Has a record for each table."""
        self.tables({("dimensions", "entity"): "A1"}, EIGHT[:2])
        self.err("--explain", "--faults", "f.csv")
        rows = records(self.read("f.csv"))[1:]
        cause = ["", *cause_of('/dimensions/entity: "A1"')]
        wanted = [[it, "1", "1", "36", "BadValue", "2", "cash", "1", *cause] for it in EIGHT[:2]]
        self.assertEqual(rows, wanted)
