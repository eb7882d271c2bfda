"""Tests the metadata, the parameters file and the types table of worked reports."""
from __future__ import annotations

from tests.harness import for_each
from tests.worked_reports import (
    BY_NAME,
    FEW_WAYS,
    HEAD,
    NO_TABLES,
    ON_ONE_LINE,
    ONE_WAY,
    TYPES,
    WAYS,
    Edits,
    ReportTest,
    cash,
    edited,
    lines,
    once,
)

NO_TAXONOMY = ',"taxonomy":["http://example.com/eg.xsd"]'

# Faults of metadata on one line: the first occurrence of a text, and its replacement.
FAULTS = {
    "another document type": ("xbrl-csv", "xbrl-json", "NotReport (2)"),
    "a prefix with a digit": ('"eg":', '"1a":"http://example.com/1a","eg":', "BadNamespaces (3)"),
    "two prefixes": ('"eg":', '"eh":"http://example.com/eg","eg":', "BadNamespaces (3)"),
    "no taxonomy": (NO_TAXONOMY, "", "BadTaxonomy (4)"),
    "links": ('"tables"', '"links":{"x":{}},"tables"', "Unsupported (5)"),
    "extends": ('"taxonomy"', '"extends":["a.json"],"taxonomy"', "Unsupported (5)"),
    "a table with a point": ('"t1"', '"t.1"', "BadIdentifier (6)"),
    "no columns": ('"columns"', '"rows"', "BadTemplate (7)"),
    "a url that leads out": ("t1.csv", "../t1.csv", "BadTemplate (7)"),
    "two kinds of column": ('"cash":{', '"cash":{"comment":true,', "ColumnKinds (8)"),
    "another template": ('"template":"p"', '"template":"q"', "UnknownTemplate (9)"),
    "another column": ('"columns"', '"rowIdColumn":"k","columns"', "UnknownColumn (10)"),
    "a concept as dimension": ('"entity"', '"eg:Cash":"x","entity"', "BadDimension (11)"),
    "no reference": ('"eg:Cash"', '"eg:Cash","unit":"$a b"', "BadDimension (11)"),
    "decimals in words": ('"tables"', '"decimals":"two","tables"', "BadDecimals (12)"),
    "a parameter": ('"tables"', '"parameters":{"a b":"x"},"tables"', "BadParameter (13)"),
}


@for_each(FAULTS.items())
class TestFaults(ReportTest):
    """Refuses metadata with a fault."""

    def check(self, old: str, new: str, fault: str) -> None:
        """Refuses a metadata."""
        self.write({"t.csv": TYPES, "t1.csv": "cash\n", "m.json": once(old, new)})
        self.stops(f"report: {fault}")

    def test_the_first_of_two_faults(self) -> None:
        """Reports the fault that comes first."""
        meta = once(NO_TAXONOMY, "").replace('"t1"', '"t.1"', 1)
        self.write({"t.csv": TYPES, "t1.csv": "cash\n", "m.json": meta})
        self.stops("report: BadTaxonomy (4)")

    def test_no_metadata(self) -> None:
        """Refuses texts that are not metadata."""
        self.write({"t.csv": TYPES, "t1.csv": "cash\n"})
        for text, fault in [
            ("{", "Syntax (1)"),
            ("[]", "NotReport (2)"),
            ("[" * 200 + "]" * 200, "Syntax (1)"),
        ]:
            with self.subTest(text=text[:10]):
                self.write({"m.json": text})
                self.stops(f"report: {fault}")

    def test_each_beginning(self) -> None:
        """Refuses a metadata that is cut short at any byte."""
        self.write({"t.csv": TYPES})
        for length in range(len(ON_ONE_LINE)):
            with self.subTest(length=length):
                self.write({"m.json": ON_ONE_LINE[:length]})
                self.stops("report: Syntax (1)", ways=ONE_WAY)


# Metadata without a fault.
PASSED_OVER = {
    "nothing more": ('"tables"', '"tables"'),
    "an empty list": ('"taxonomy"', '"extends":[],"taxonomy"'),
    "an unknown member": ('"tables"', '"foo":1,"tables"'),
    "more dimensions": ('"entity"', '"eg:Region":"$cash","eg:Branch":"#nil","entity"'),
}


@for_each(PASSED_OVER.items())
class TestPassedOver(ReportTest):
    """Converts metadata with more than the program uses."""

    def check(self, old: str, new: str) -> None:
        """Converts a report without facts."""
        self.write({"t.csv": TYPES, "t1.csv": "cash\n", "m.json": once(old, new)})
        self.converts("")


@for_each(
    (f"{kind} before {place}", (opened, closed, f'"{place}"', above))
    for place, above in (("tables", 1), ("taxonomy", 2), ("template", 3))
    for kind, opened, closed in (("lists", "[", "]"), ("objects", '{"a":', "}"))
)
class TestDepth(ReportTest):
    """Converts JSON nested 127 levels deep, and refuses one level more.

    It is an unknown member of the metadata, of its documentInfo and of a table.
    """

    def check(self, opened: str, closed: str, place: str, above: int) -> None:
        """Converts the deepest JSON at this place, whose members are some levels deep."""
        self.write({"t.csv": TYPES, "t1.csv": "cash\n100\n"})
        for levels in (127, 128):
            deep = levels - above
            # The innermost list is empty.
            value = opened * (deep - 1) + "[]" + closed * (deep - 1)
            self.write({"m.json": once(place, f'"foo":{value},{place}')})
            with self.subTest(levels=levels):
                if levels == 127:
                    self.converts(cash("t1.r_1", 100), ways=FEW_WAYS)
                else:
                    self.stops("report: Syntax (1)")


class TestLimits(ReportTest):
    """Converts the most bytes, tables, columns, parameters and types, and refuses one more."""

    def setUp(self) -> None:
        """Writes the other files."""
        super().setUp()
        self.write({"t.csv": TYPES, "t1.csv": "cash\n"})

    def limit(self, most: str, more: str) -> None:
        """Converts the first metadata, and refuses the second."""
        self.write({"m.json": most})
        self.converts("", ways=ONE_WAY)
        self.write({"m.json": more})
        self.stops("report: TooLarge (15)", ways=ONE_WAY)

    def test_bytes(self) -> None:
        """Limits a metadata to 67,108,864 bytes."""
        blanks = " " * (67_108_864 - len(ON_ONE_LINE))
        self.limit(ON_ONE_LINE + blanks, ON_ONE_LINE + blanks + " ")

    def test_tables(self) -> None:
        """Limits a report to 4,096 tables."""
        table = '"t1":{"url":"t1.csv"'
        more = [f'"a{i}":{{"url":"t1.csv","template":"p"}},' for i in range(4_096)]
        most = once(table, "".join(more[:-1]) + table)
        self.limit(most, once(table, "".join(more) + table))

    def test_columns(self) -> None:
        """Limits a template to 4,096 columns, of which it has two."""
        more = [f'"a{i}":{{}},' for i in range(4_095)]
        most = once('"cash":', "".join(more[:-1]) + '"cash":')
        self.limit(most, once('"cash":', "".join(more) + '"cash":'))

    def test_parameters(self) -> None:
        """Limits a parameters file to 65,536 records."""
        most = "name,value\n" + "".join(f"p{i},1\n" for i in range(65_536))
        self.write({"m.json": edited([BY_FILE]), "t1.csv": "cash\n5\n", "p.csv": most})
        self.converts("t1.r_1.cash - Cash EUR 5", ways=ONE_WAY)
        self.write({"p.csv": most + "p65536,1\n"})
        self.stops("parameters: TooLarge (15)", ways=ONE_WAY)

    def test_types(self) -> None:
        """Limits a types table to 1,048,576 records."""
        most = TYPES_HEADER + "".join(f"u,p{i},text\n" for i in range(1_048_576))
        self.write({"m.json": edited(NO_TABLES), "t.csv": most})
        self.converts("", ways=ONE_WAY)
        self.write({"t.csv": most + "u,p1048576,text\n"})
        self.stops("types: TooLarge (15)", ways=ONE_WAY)


BY_FILE = ('"tables":', '"parameterURL":"p.csv","tables":')
NESTED, DOTTED = (
    ('"tables":', f'"parameterURL":"{path}","tables":') for path in ("a/p.csv", "a/./p.csv")
)
FROM_BOTH = [BY_NAME, BY_FILE, ('"tables":', '"parameters":{"c":"eg:Mass"},"tables":')]
BAD_PATH = [
    ('"taxonomy":', '"taxonomies":'),
    ('"tables":', '"parameterURL":"/p.csv","tables":'),
]
GIVEN = "name,value\nc,eg:Cash\n"

# What is replaced, the path and text of a parameters file, and the line and status of the run.
PATHS: dict[str, tuple[Edits, str, str, str, int]] = {
    "next to it": ([BY_NAME, BY_FILE], "d/p.csv", GIVEN, "", 0),
    "in a folder": ([BY_NAME, NESTED], "d/a/p.csv", GIVEN, "", 0),
    "not named": ([], "d/p.csv", "c,eg:Cash\n", "", 0),
    "elsewhere": ([BY_NAME, BY_FILE], "p.csv", GIVEN, "cannot read d/p.csv", 3),
    "not in the folder": ([BY_NAME, NESTED], "d/p.csv", GIVEN, "cannot read d/a/p.csv", 3),
    "both": (FROM_BOTH, "d/p.csv", GIVEN, "report: BadParameter (13)", 1),
    "a bad file before a bad metadata": (
        [BY_FILE, ('"eg:A1"', '"#nil"')],
        "d/p.csv",
        "c,eg:Cash\n",
        "parameters: BadParameter (13)",
        1,
    ),
    "a bad path before a bad metadata": (
        BAD_PATH,
        "d/p.csv",
        GIVEN,
        "report: BadParameter (13)",
        1,
    ),
    "a path with a point": ([DOTTED], "d/a/p.csv", GIVEN, "report: BadParameter (13)", 1),
}


@for_each(PATHS.items())
class TestPathsOfParameters(ReportTest):
    """Runs over a report in a folder with a parameters file, which exists or does not."""

    def check(self, edits: Edits, path: str, text: str, said: str, status: int) -> None:
        """Converts or refuses the report."""
        words = ("d/m.json", "--types", "t.csv")
        self.write({"d/m.json": edited(edits), "t.csv": TYPES, path: text, "d/t1.csv": "cash\n5\n"})
        if said:
            self.stops(said, status, words, WAYS)
        else:
            self.converts("t1.r_1.cash - Cash EUR 5", words=words)


class TestParameters(ReportTest):
    """Reads parameters files, whose parameters are the decimals and a dimension."""

    def setUp(self) -> None:
        """Writes a report."""
        super().setUp()
        dimensions = '"decimals":"$a","dimensions":{"eg:Branch":"$b","entity"'
        meta = edited([BY_FILE, ('"dimensions":{"entity"', dimensions)])
        self.write({"m.json": meta, "t.csv": TYPES, "t1.csv": "cash\n5\n"})

    def test_right_files(self) -> None:
        """Converts with parameters in quotes, after a mark and over blank lines."""
        wanted = (
            '"t1.r_1.cash":{"decimals":1,"dimensions":{"concept":"eg:Cash",'
            '"eg:Branch":"x,\\"y","entity":"eg:A1","period":"@","unit":"iso4217:EUR"},"value":"5"}'
        )
        marked = '\ufeffname,value\r\na,1\r\n\r\nb,"x,""y"'
        for text in ('name,value\na,1\nb,"x,""y"\n', marked):
            with self.subTest(text=text):
                self.write({"p.csv": text})
                self.converts([wanted])

    def test_wrong_files(self) -> None:
        """Refuses bad headers and records."""
        for text in (
            "",
            "a,1\n",
            "name,value\na,1\na,2\n",
            "name,value\na\n",
            "name,value\na,1,2\n",
            "name,value\n,1\n",
            "name,value\na,\udcff\n",
        ):
            with self.subTest(text=ascii(text)):
                self.write({"p.csv": text})
                self.stops("parameters: BadParameter (13)")


OTHER = ('"eg":', '"e":"http://example.com/e","eg":')
NUMBER = "t1, row 1, column 1: BadNumber (40)"
NO_NAME = "t1, row 1, column 1: UnknownName (34)"
TYPES_HEADER = "namespace,name,type\n"

# The concept and text of a cell, and its fact or fault.
TYPED = {
    "an integer": ("eg:Cash", "12", "t1.r_1.cash - Cash EUR 12", ""),
    "an integer with a point": ("eg:Cash", "1.5", "", NUMBER),
    "an integer with an exponent": ("eg:Cash", "1e2", "", NUMBER),
    "a decimal": ("eg:Rate", "1.5", "t1.r_1.cash - Rate EUR 1.5", ""),
    "a decimal with an exponent": ("eg:Rate", "1e2", "", NUMBER),
    "a double": ("eg:Mass", "1e2", "t1.r_1.cash - Mass EUR 1e2", ""),
    "a double that is a letter": ("eg:Mass", "x", "", NUMBER),
    "a text": ("eg:Note", "x", "t1.r_1.cash - Note - x", ""),
    "another type": ("eg:Flag", "x", "t1.r_1.cash - Flag - x", ""),
    "an explicit dimension": ("eg:Region", "1", "", NO_NAME),
    "a typed dimension": ("eg:Branch", "1", "", NO_NAME),
    "an unknown name": ("eg:cash", "1", "", NO_NAME),
    "an unknown prefix": ("e:Cash", "1", "", NO_NAME),
}


@for_each(TYPED.items())
class TestTypes(ReportTest):
    """Looks concepts up in types tables."""

    def check(self, concept: str, cell: str, facts: str, faults: str) -> None:
        """Converts a cell of a concept."""
        meta = edited([OTHER, ('"eg:Cash"', f'"{concept}"')])
        self.write({"m.json": meta, "t.csv": TYPES, "t1.csv": f"cash\n{cell}\n"})
        self.converts(facts, lines(faults), head=edited([OTHER], HEAD))

    def test_wrong_files(self) -> None:
        """Refuses bad headers and records."""
        self.write({"m.json": edited(NO_TABLES)})
        for text in (
            "",
            "namespace,type,name\n",
            TYPES_HEADER + "u,A,text\nv,A,text\nu,A,typed\n",
            TYPES_HEADER + "u,A,money\n",
            TYPES_HEADER + "u,,text\n",
            TYPES_HEADER + "u,A\n",
        ):
            with self.subTest(text=text):
                self.write({"t.csv": text})
                self.stops("types: BadTypes (14)")

    def test_one_name_in_two_namespaces(self) -> None:
        """Converts with a name that occurs in two namespaces."""
        types = TYPES_HEADER + "u,A,text\nv,A,text\n"
        self.write({"m.json": edited(NO_TABLES), "t.csv": types})
        self.converts("")
