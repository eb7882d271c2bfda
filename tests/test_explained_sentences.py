"""Tests the sentences of `--explain` for what a spreadsheet or a wrong program leaves in a file."""
from __future__ import annotations

from typing import Any

from tests.explaining import (
    CASH,
    NO_PERIOD,
    REPORT,
    TYPES,
    UNKNOWN_SPECIAL,
    ExplainTest,
    edited,
    edited_all,
    elsewhere,
)
from tests.harness import NAMESPACE, Content, for_each

SPREADSHEET = "this is an error of the spreadsheet, not a value: mend the cell's formula"
BOOLEAN = "a yes/no cell holds true, false, 1 or 0, in small letters"
DATE = "a date is written 2025-09-30, by year, month and day, and must exist"
WITH_TIME = "a date with a time is written 2025-09-30T12:00:00, and must exist"
NAME = "a name has a prefix that namespaces declares, as in eg:North"
NO_COLUMN = "a header cell does not name a column of the template"
UTF_16 = "the file is in UTF-16: save it as UTF-8"
SEMICOLONS = "semicolons are between the cells: save the file with commas"
TABS = "tabs are between the cells: save the file with commas"
FIRST_LINE = "the first line is a spreadsheet's own, with sep= in it: delete the line"
UNCLOSED = "a quotation mark opens a text that is never closed"
NO_GROUP = "a cell names no property group of its column"
CELL = "r/t1.csv, line 2, cell 1"
TYPE3 = "namespace,name,type3,period,values\n" + "".join(
    f"{NAMESPACE},{it},,\n" for it in ("Cash,integer", "Note,text", "Stamp,dateTime", "When,time")
)
OTHERS = TYPES + "".join(
    f"{NAMESPACE},{it}\n" for it in ("Open,boolean", "Day,date", "Kind,qname")
)


def of_concept(name: str) -> dict[str, Any]:
    """Returns the report with this concept in the column cash."""
    return edited((*CASH, "dimensions", "concept"), f"eg:{name}")


# The concept, its cell, and the sentence.
VALUES = [
    *(("Open", cell, BOOLEAN) for cell in ("TRUE", "WAHR", "yes", "False", "ja", "2")),
    *(("Day", cell, DATE) for cell in ("30.09.2025", "9/30/2025", "2025-02-30", "20250930")),
    *(("Kind", cell, NAME) for cell in ("North", "xx:North")),
    *(("Stamp", cell, WITH_TIME) for cell in ("2025-09-30", "30.09.2025 12:00")),
    ("When", "12:30", "a time is written 12:30:00, with hours, minutes and seconds"),
]


@for_each((f"{concept} {cell}", (concept, cell, why)) for concept, cell, why in VALUES)
class TestValues(ExplainTest):
    """Says how a value of the concept's type is written."""

    def check(self, concept: str, cell: str, why: str) -> None:
        """Explains a cell that has another form."""
        types = TYPE3 if concept in ("Stamp", "When") else OTHERS
        files: dict[str, Content] = {"r/m.json": of_concept(concept), "t.csv": types}
        files["r/t1.csv"] = f"cash\n{cell}\n"
        line = "table t1, row 1, column 1: BadFactValue (44)"
        self.says(files, line, CELL, f'"{cell}" in cash (eg:{concept}) of row r_1', why)


@for_each(
    (text, (text,))
    for text in ("#N/A", "#REF!", "#VALUE!", "#DIV/0!", "#NAME?", "#NUM!", "#NV", "#BEZUG!")
)
class TestSpreadsheet(ExplainTest):
    """Names an error of a spreadsheet as such."""

    def check(self, text: str) -> None:
        """Explains it in a fact's cell, in a cell that is referred to, and one with more text."""
        line = "table t1, row 1, column 1: UnknownSpecial (31)"
        found = f'"{text}" in cash (eg:Cash) of row r_1'
        self.says({"r/t1.csv": f"cash\n{text}\n"}, line, CELL, found, SPREADSHEET)
        found = f'"{text}x" in cash (eg:Cash) of row r_1'
        self.says({"r/t1.csv": f"cash\n{text}x\n"}, line, CELL, found, UNKNOWN_SPECIAL)
        files: dict[str, Content] = {"r/t1.csv": f"cash,note\n1,{text}\n"}
        files["r/m.json"] = edited((*CASH, "dimensions", "unit"), "$note")
        by = ['/tableTemplates/p/columns/cash/dimensions/unit: "$note"']
        source = f'r/t1.csv, line 2, cell 2: "{text}"'
        self.says(files, line, *elsewhere(source, SPREADSHEET, by=by))


def grouped(*names: str) -> dict[str, Any]:
    """Returns a report whose column g has property groups of these names."""
    groups: dict[str, Any] = {name: {} for name in names}
    edits: dict[tuple[str, ...], Any] = {(*CASH[:3], "g"): {"propertyGroups": groups}}
    return edited_all({**edits, (*CASH, "propertiesFrom"): ["g"]})


FEW = ("dp1", "dp2", "dp3")
MANY = tuple(f"dp{i}" for i in range(100, 300))
# The groups, the cell, and what is told of the column.
GROUP_CELLS = [
    (FEW, "dp9", '"dp9" in g: this column knows dp1, dp2, dp3'),
    (("dp1",), "dp 1", '"dp 1" in g: this column knows dp1'),
    ((), "dp1", '"dp1" in g: this column knows none'),
    (MANY, "dp1775", '"dp1775" in g: this column knows 200 groups, of which dp175 is nearest'),
    (MANY, "DP203 ", '"DP203 " in g: this column knows 200 groups, of which dp203 is nearest'),
    (MANY, "x" * 65, f'"{"x" * 65}" in g: this column knows 200 groups'),
]


@for_each((cell[:9], (names, cell, told)) for names, cell, told in GROUP_CELLS)
class TestGroups(ExplainTest):
    """Names the groups that a column knows, or how many and the nearest."""

    def check(self, names: tuple[str, ...], cell: str, told: str) -> None:
        """Explains a cell that names none of them."""
        files: dict[str, Content] = {"r/m.json": grouped(*names)}
        files["r/t1.csv"] = f"cash,g\n1,{cell}\n"
        source = f'r/t1.csv, line 2, cell 2: "{cell}"'
        line = "table t1, row 1, column 1: UnknownGroup (32)"
        fact = '"1" in cash of row r_1'
        self.says(files, line, *elsewhere(source, NO_GROUP, told, fact=fact))


def found_in(header: Content) -> str:
    """Returns the header's first cell as it is shown."""
    first = header.encode() if isinstance(header, str) else header
    assert isinstance(first, bytes)
    first = first.split(b"\n")[0].split(b",")[0]
    return first.decode("ascii", "backslashreplace").replace("\t", "\\x09").replace("\0", "\\x00")


# A header, and what is told of it after the place and its first cell.
HEADERS: list[tuple[Content, list[str]]] = [
    ("cash;note", [SEMICOLONS]),
    ("cash\tnote", [TABS]),
    ("sep=,\ncash,note", [FIRST_LINE]),
    ("sep=;\ncash;note", [FIRST_LINE]),
    ("Cash,note", [NO_COLUMN, 'did you mean "cash"?']),
    (" cash ,note", [NO_COLUMN, 'did you mean "cash"?']),
    ("CASH,note", [NO_COLUMN, 'did you mean "cash"?']),
    ("cach,note", [NO_COLUMN, 'did you mean "cash"?']),
    ("dish,note", [NO_COLUMN]),
    ("comment,note", [NO_COLUMN]),
    (b"\xff\xfe" + "cash,note".encode("utf-16-le"), [UTF_16]),
    (b"\xfe\xff" + "cash,note".encode("utf-16-be"), [UTF_16]),
]


@for_each((f"{i}", (header, told)) for i, (header, told) in enumerate(HEADERS))
class TestHeaders(ExplainTest):
    """Explains a header that a spreadsheet or a person wrote otherwise."""

    def check(self, header: Content, told: list[str]) -> None:
        """Explains a header cell that names no column."""
        place, line = "r/t1.csv, line 1, cell 1", "table t1, row 0, column 1: UnknownHeader (23)"
        self.says({"r/t1.csv": header}, line, place, f'"{found_in(header)}"', *told)


class TestEntries(ExplainTest):
    """Explains the header of a types table and of a parameters file in the same words."""

    def test_types(self) -> None:
        """Explains semicolons, and another encoding."""
        line = "types: BadTypes (14)"
        text = TYPES.replace(",", ";")
        self.says({"t.csv": text}, line, "t.csv, line 1", "namespace;name;type2", SEMICOLONS)
        coded = b"\xff\xfe" + "namespace,name,type2\n".encode("utf-16-le")
        self.write({"t.csv": coded})
        self.assertIn(f"\n    {UTF_16}\n", self.err("--explain"))

    def test_parameters(self) -> None:
        """Explains tabs, and a quotation mark that is not closed."""
        files: dict[str, Content] = {"r/m.json": {**REPORT, "parameterURL": "p.csv"}}
        files["r/p.csv"] = "name\tvalue\na\t1\n"
        line = "parameters: BadParameter (13)"
        self.says(files, line, "r/p.csv, line 1", "name\\x09value", TABS)
        files["r/p.csv"] = 'name,value\na,1\n"b,2\nc,3\n'
        opened = "r/p.csv, line 3: the quotation mark that opens it"
        self.says(files, line, "r/p.csv, line 3", "(a record of 1)", UNCLOSED, opened)


class TestQuotes(ExplainTest):
    """Gives the line of a quotation mark that is never closed."""

    def test_a_record(self) -> None:
        """Names it for a record that is too short, at its own line."""
        text = 'cash,note\n1,"a\nb"\n2,c\r\n"3,d\n4,e\n'
        opened = "r/t1.csv, line 5: the quotation mark that opens it"
        line, found = "table t1, row 3, column 0: Ragged (26)", "(a record of 1); the header has 2"
        self.says({"r/t1.csv": text}, line, "r/t1.csv, line 5", found, UNCLOSED, opened)

    def test_a_cell(self) -> None:
        """Names it for a number that has the rest of the file."""
        text = 'note,cash\na,1\nb,"2\nc,""3""\n'
        opened = "r/t1.csv, line 3: the quotation mark that opens it"
        found = '"2\\x0ac,"3"\\x0a" in cash (eg:Cash) of row r_2'
        line = "table t1, row 2, column 2: BadNumber (40)"
        place = "r/t1.csv, line 3, cell 2"
        self.says({"r/t1.csv": text}, line, place, found, UNCLOSED, opened)

    def test_a_closed_one(self) -> None:
        """Says nothing of quotation marks that are closed, or within a text."""
        why = "a record has another length than the header"
        for text in ('cash,note\n"1"\n', 'cash,note\n1"\n', 'cash,note\n"1\n2"\n3,x\n'):
            with self.subTest(text=text):
                line = "table t1, row 1, column 0: Ragged (26)"
                found = "(a record of 1); the header has 2"
                self.says({"r/t1.csv": text}, line, "r/t1.csv, line 2", found, why)


# Texts that are not periods: dates in other forms, and what does not exist.
PERIODS = [
    *("30.09.2025", "9/30/2025", "30-9-2025", "2025/09/30", "3.2025"),
    *("2021-13", "2025-02-30", "2025Q5", "Q3 2025", "2025-09-30..2025-07-01", "september"),
]


@for_each((text, (text,)) for text in PERIODS)
class TestPeriods(ExplainTest):
    """Says how a period is written."""

    def check(self, text: str) -> None:
        """Explains a period of a parameter."""
        report = {**edited(("dimensions", "period"), "$when"), "parameters": {"when": text}}
        fact = '"100" in cash (eg:Cash) of row r_1'
        by = ['/dimensions/period: "$when"']
        lines = elsewhere(f'/parameters/when: "{text}"', NO_PERIOD, fact=fact, by=by)
        line = "table t1, row 1, column 1: BadPeriod (37)"
        self.says({"r/m.json": report}, line, *lines)


class TestFilings(ExplainTest):
    """Names xbrl-filing for a file of a filing that is given as the metadata."""

    def test_a_zip(self) -> None:
        """Names it for a ZIP."""
        why = "this is a ZIP: if it is a filing, convert it with xbrl-filing"
        line = "report: Syntax (1)"
        begin = b"PK\x03\x04\x14\0"
        self.says({"r/m.json": begin}, line, "r/m.json", "line 1, column 1", why)

    def test_other_files(self) -> None:
        """Names it for a metadata that extends another, and for the one of the package."""
        type_of = "https://xbrl.org/2021/xbrl-csv"
        info: dict[str, Any] = {"documentType": type_of, "extends": ["http://x/mod.json"]}
        why = "taxonomy is missing, and extends is there: convert this filing with xbrl-filing"
        line, place = "report: BadTaxonomy (4)", "/documentInfo/taxonomy"
        self.says({"r/m.json": {"documentInfo": info}}, line, place, "(nothing)", why)
        alone = "taxonomy is missing"
        info = {"documentType": type_of}
        self.says({"r/m.json": {"documentInfo": info}}, line, place, "(nothing)", alone)
        line, place = "report: NotReport (2)", "/documentInfo/documentType"
        for text, why in (
            (
                "https://xbrl.org/report-package/2023",
                "this describes the package of a filing: convert the filing with xbrl-filing",
            ),
            (
                "https://xbrl.org/2021/xbrl-json",
                "this is a document in xBRL-JSON, and not the metadata of a report in xBRL-CSV",
            ),
            ("https://xbrl.org/other", "documentType is not https://xbrl.org/2021/xbrl-csv"),
        ):
            with self.subTest(text=text):
                report = {"documentInfo": {"documentType": text}}
                self.says({"r/m.json": report}, line, place, f'"{text}"', why)

    def test_utf_16(self) -> None:
        """Names the encoding."""
        text = b"\xff\xfe" + "{}".encode("utf-16-le")
        line = "report: Syntax (1)"
        self.says({"r/m.json": text}, line, "r/m.json", "line 1, column 1", UTF_16)
