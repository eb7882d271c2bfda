"""Tests what `--explain` prints of a fault of a table: its place, its text and its cause."""
from __future__ import annotations

from typing import Any

from tests.explaining import (
    AT_CASH,
    CASH,
    MALFORMED,
    NO_NAME,
    NO_PERIOD,
    TABLE,
    TYPES,
    UNKNOWN_SPECIAL,
    UNREAD,
    ExplainTest,
    Place,
    edited_all,
    elsewhere,
)
from tests.harness import Content, for_each

IDENTIFIED = {(*CASH[:3], "k"): {}, (*CASH[:2], "rowIdColumn"): "k"}
GROUPS = {
    (*CASH[:3], "g"): {"propertyGroups": {"net": {}}},
    (*CASH, "propertiesFrom"): ["g"],
}
OPEN = {(*CASH, "dimensions", "concept"): "eg:Open"}
WITH_OPEN = TYPES + "http://example.com/eg,Open,boolean\n"
HUNDRED = '"100" in cash (eg:Cash) of row r_1'
NO_NUMERAL = "the cell of a number is not a numeral"
OTHER_NUMERAL = (
    "the concept's type takes no such numeral: an integer has no point, only a double an exponent"
)
BAD_SUFFIX = "behind the d of a numeral stands neither a whole number of 32 bits nor INF"
BEYOND = "INF and NaN are values that cannot be carried over"
SEPARATORS = "a numeral has no separators of thousands, and its decimal sign is a point"
EXPONENT = "only a double has an exponent: write the number out, as 120000 for 1.2E+5"
DECIMAL_COMMA = "the decimal sign is a point, not a comma: write 1.5 for 1,5"
BLANKS = "a numeral has no blanks, also none that do not break a line"
MINUS = "the minus sign is the hyphen of the keyboard, not a dash or U+2212"
BRACKETS = "brackets make no number negative: write a hyphen before it"
PERCENT = "a numeral has no percent sign: 5% is written 0.05"
CURRENCY = "a numeral has no currency: the unit is a dimension of the fact"
SPREADSHEET = "this is an error of the spreadsheet, not a value: mend the cell's formula"


def shown(cell: str) -> str:
    """Returns a text with the codes of blanks that do not break a line and of narrow ones."""
    for blank in "\u2009\u202f":
        cell = cell.replace(blank, f"\\u{ord(blank):04x}")
    return cell


# What is edited in the metadata, the table (None: it has no file), the place and the fault, and the
# lines.
TABLES: list[tuple[Any, ...]] = [
    (
        {("tables", "t1", "url"): "no.csv"},
        None,
        "0, 0 NoFile (20)",
        "r/no.csv",
        "(the whole file)",
        "a table that is not optional has no file",
    ),
    ({("tables", "t1", "url"): "d"}, None, "0, 0 Read (21)", "r/d", "(the whole file)", UNREAD),
    ({}, "", "0, 0 NoHeader (22)", "r/t1.csv", "(the whole file)", "the file has no record at all"),
    (
        {},
        "cash,note\n1\u00a0000,a\n",
        "1, 1 BadNumber (40)",
        "r/t1.csv, line 2, cell 1",
        '"1\\u00a0000" in cash (eg:Cash) of row r_1',
        BLANKS,
    ),
    *(
        (
            {},
            f'cash,note\n"{cell}",a\n',
            "1, 1 BadNumber (40)",
            "r/t1.csv, line 2, cell 1",
            f'"{shown(cell)}" in cash (eg:Cash) of row r_1',
            sentence,
        )
        for sentence, cells in (
            (OTHER_NUMERAL, ("12.5", " 12.5 ", "12.5d2", ".5", "1.d-3")),
            (EXPONENT, ("1e3", "-1.5E-3")),
            (
                BAD_SUFFIX,
                (
                    "12d1.5",
                    "12.50d1.5",
                    "12d",
                    "12dINFINITY",
                    "12d+",
                    "1e3dx",
                    "12d3000000000",
                    "12d1,5",
                ),
            ),
            (BEYOND, ("INF", "-INF", "+INF", "NaN", " INF ")),
            (SEPARATORS, ("1,200", "1,200.50", ",", "1,x", "1.200.000", "1.200,50", "1'200")),
            (DECIMAL_COMMA, ("12,5", "-1234,56", "0,0001")),
            (BLANKS, ("1 200", "1\u202f200", "\u2009" + "1", "- 1")),
            (MINUS, ("\u2212" + "1", "\u2013" + "1 200")),
            (BRACKETS, ("(1200)", "(1,200)")),
            (PERCENT, ("5%", "5 %")),
            (CURRENCY, ("\u20ac 5", "5 EUR", "$5", "USD1,200")),
            (SPREADSHEET, ("####", "########")),
            (NO_NUMERAL, ("1x0", "d2", "-", "x", "inf", "INFd2", "12D2", "##1", "EUR")),
        )
        for cell in cells
    ),
    (
        {},
        "\ufeff\ufeffcash,note\n",
        "0, 1 UnknownHeader (23)",
        "r/t1.csv, line 1, cell 1",
        '"\\ufeffcash"',
        "a header cell does not name a column of the template",
        'did you mean "cash"?',
    ),
    (
        {},
        "cash,no\x7fpe\n",
        "0, 2 UnknownHeader (23)",
        "r/t1.csv, line 1, cell 2",
        '"no\\x7fpe"',
        "a header cell does not name a column of the template",
    ),
    (
        {},
        "\r\n\ncash,note,cash\n",
        "0, 3 RepeatedHeader (24)",
        "r/t1.csv, line 3, cell 3",
        '"cash"',
        "a column stands twice in the header",
    ),
    (
        IDENTIFIED,
        "cash,note\n",
        "0, 0 NoRowIdColumn (25)",
        "r/t1.csv, line 1",
        "k",
        "the column of row identifiers is not in the header",
    ),
    (
        {},
        'cash,note\n1,"a\nb"\n1,b,c\n',
        "2, 0 Ragged (26)",
        "r/t1.csv, line 4",
        "(a record of 3); the header has 2",
        "a record has another length than the header",
    ),
    (
        {},
        b"cash,note\n1,a\xe9\n",
        "1, 2 NotUtf8 (27)",
        "r/t1.csv, line 2, cell 2",
        '"a\\xe9" in note (eg:Note) of row r_1',
        "a cell is not UTF-8",
    ),
    (
        IDENTIFIED,
        "cash,k\n1,\n",
        "1, 2 MissingRowId (28)",
        "r/t1.csv, line 2, cell 2",
        '"" in k',
        "the cell of the row identifier is empty",
    ),
    (
        IDENTIFIED,
        "cash,k\n1,a.b\n",
        "1, 2 BadRowId (29)",
        "r/t1.csv, line 2, cell 2",
        '"a.b" in k of row a.b',
        "the cell of the row identifier is not well-formed",
    ),
    (
        IDENTIFIED,
        "cash,k\n\n1,a\n2,b\n3,a\n",
        "3, 2 RepeatedRowId (30)",
        "r/t1.csv, line 5, cell 2",
        '"a" in k of row a, first in line 3',
        "an earlier row of the table has the same row identifier",
    ),
    (
        IDENTIFIED,
        "cash,k\n1,a\n2,b\n3,c\n4,d\n5,c\n",
        "5, 2 RepeatedRowId (30)",
        "r/t1.csv, line 6, cell 2",
        '"c" in k of row c, first in line 4',
        "an earlier row of the table has the same row identifier",
    ),
    (
        {},
        "cash,note\n1,#x\n",
        "1, 2 UnknownSpecial (31)",
        "r/t1.csv, line 2, cell 2",
        '"#x" in note (eg:Note) of row r_1',
        UNKNOWN_SPECIAL,
    ),
    (
        GROUPS,
        "cash,g\n1,gross\n",
        "1, 1 UnknownGroup (32)",
        *elsewhere(
            'r/t1.csv, line 2, cell 2: "gross"',
            "a cell names no property group of its column",
            '"gross" in g: this column knows net',
            fact='"1" in cash of row r_1',
        ),
    ),
    (
        {(*CASH, "dimensions"): {}},
        TABLE,
        "1, 1 NoConcept (33)",
        *elsewhere(
            f"{AT_CASH}/dimensions/concept: (nothing)",
            "no concept is given",
            fact='"100" in cash of row r_1',
        ),
    ),
    (
        {**GROUPS, (*CASH, "dimensions"): {}},
        "cash,g\n1,net\n2,\n",
        "1, 1 NoConcept (33)",
        *elsewhere(
            f"{AT_CASH}/dimensions/concept: (nothing)",
            "no concept is given",
            fact='"1" in cash of row r_1',
        ),
    ),
    (
        {**GROUPS, (*CASH, "dimensions"): {}},
        "cash,g\n2,\n",
        "1, 1 NoConcept (33)",
        *elsewhere(
            'r/t1.csv, line 2, cell 2: ""',
            "no concept is given",
            fact='"2" in cash of row r_1',
            by=[f"{AT_CASH}/dimensions/concept: (nothing)"],
        ),
    ),
    (
        {**GROUPS, (*CASH, "dimensions"): {}},
        "cash\n2\n",
        "1, 1 NoConcept (33)",
        *elsewhere(
            'r/t1.csv, line 2: the header has no column "g"',
            "no concept is given",
            fact='"2" in cash of row r_1',
            by=[f"{AT_CASH}/dimensions/concept: (nothing)"],
        ),
    ),
    (
        {(*CASH, "dimensions", "concept"): "eg:Chas"},
        TABLE,
        "1, 1 UnknownName (34)",
        *elsewhere(
            f'{AT_CASH}/dimensions/concept: "eg:Chas"',
            NO_NAME,
            fact='"100" in cash (eg:Chas) of row r_1',
        ),
    ),
    (
        {(*CASH, "dimensions", "unit"): "$note"},
        "cash,note\n1,#nil\n",
        "1, 1 BadReference (35)",
        *elsewhere(
            'r/t1.csv, line 2, cell 2: "#nil"',
            "a dimension that is not typed is nil or empty",
            by=[f'{AT_CASH}/dimensions/unit: "$note"'],
        ),
    ),
    (
        {("dimensions", "entity"): "A1"},
        TABLE,
        "1, 1 BadValue (36)",
        *elsewhere('/dimensions/entity: "A1"', MALFORMED, fact=HUNDRED),
    ),
    (
        {("dimensions", "period"): "2021-13"},
        TABLE,
        "1, 1 BadPeriod (37)",
        *elsewhere('/dimensions/period: "2021-13"', NO_PERIOD, fact=HUNDRED),
    ),
    (
        {("dimensions", "period"): "$when@start", ("parameters",): {"when": "2021-01-01T00:00:00"}},
        TABLE,
        "1, 1 NotDuration (38)",
        *elsewhere(
            '/parameters/when: "2021-01-01T00:00:00"',
            "the start or end of an instant is asked for",
            fact=HUNDRED,
            by=['/dimensions/period: "$when@start"'],
        ),
    ),
    (
        {(*CASH, "decimals"): "$note"},
        TABLE,
        "1, 1 BadDecimals (39)",
        *elsewhere(
            'r/t1.csv, line 2, cell 2: "first"',
            "decimals are neither a whole number of 32 bits nor INF",
            fact=HUNDRED,
            by=[f'{AT_CASH}/decimals: "$note"'],
        ),
    ),
    (
        {},
        'cash,note\r\n1,"x\r\ny"\r\n"1,200",z\r\n',
        "2, 1 BadNumber (40)",
        "r/t1.csv, line 4, cell 1",
        '"1,200" in cash (eg:Cash) of row r_2',
        SEPARATORS,
    ),
    (
        OPEN,
        "cash\nyes\n",
        "1, 1 BadFactValue (44)",
        "r/t1.csv, line 2, cell 1",
        '"yes" in cash (eg:Open) of row r_1',
        "a yes/no cell holds true, false, 1 or 0, in small letters",
    ),
]


@for_each(
    (f"{place.split()[2]} {i}", (edits, table, place, lines))
    for i, (edits, table, place, *lines) in enumerate(TABLES)
)
class TestTables(ExplainTest):
    """Explains a fault of each kind that a table can have."""

    def check(
        self, edits: dict[Place, Any], table: Content | None, fault: str, lines: list[str]
    ) -> None:
        """Explains the fault of a table."""
        (self.folder / "r/d").mkdir()
        files: dict[str, Content] = {"r/m.json": edited_all(edits), "t.csv": WITH_OPEN}
        row, column, name = fault.split(" ", 2)
        if table is not None:
            files["r/t1.csv"] = table
        self.says(files, f"table t1, row {row} column {column}: {name}", *lines)
