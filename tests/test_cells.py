"""Tests the cells of tables: what a text means, and which fault it has.

Each report is the built-in one with some texts replaced, with several tables. A table comes with
its facts, as `fact` of `worked_reports` takes them, and with the line of its fault, if any.
"""
from __future__ import annotations

from tests.harness import for_each
from tests.worked_reports import (
    BY_NAME,
    ENDED,
    IDENTIFIED,
    OF_REPORT,
    OF_TABLE,
    PLAIN,
    SIDED,
    TYPES,
    UNTIMED,
    Edits,
    ReportTest,
    edited,
    lines,
)

PURE = [("iso4217:EUR", "xbrli:pure")]
NO_UNIT = [("iso4217:EUR", "euro")]
NO_LANGUAGE = [('"dimensions":{"entity"', '"dimensions":{"language":"en_GB","entity"')]
CASH = '"cash":{"dimensions":{"concept":"eg:Cash"}}'
RATE = [
    ('"dimensions":{"entity"', '"decimals":0,"dimensions":{"entity"'),
    (CASH, '"rate":{"dimensions":{"concept":"eg:Rate"}}'),
]
GROUPS = [
    (
        CASH,
        '"g":{"propertyGroups":{"usd":{"dimensions":{"unit":"iso4217:USD"}}}},'
        '"a":{"dimensions":{"concept":"eg:Cash","unit":"#none"},"propertiesFrom":["g"]},'
        '"b":{"dimensions":{"concept":"eg:Cash"},"propertiesFrom":["g"]},'
        '"c":{"dimensions":{"concept":"eg:Cash","unit":"iso4217:GBP"},"propertiesFrom":["g"]}',
    )
]
OF_NEITHER = [BY_NAME]
BY_REPORT = [BY_NAME, OF_REPORT]
BY_TABLE = [BY_NAME, OF_TABLE]
BY_BOTH = [BY_NAME, OF_REPORT, OF_TABLE]
BY_NIL = [BY_NAME, OF_TABLE, ('{"c":"eg:Cash"}', '{"c":"#nil"}')]
BY_MEMBER = [BY_NAME, OF_TABLE, ('{"c":"eg:Cash"}', '{"c":"eg:Region"}')]
MISPLACED = [('"entity":"eg:A1"', '"eg:Region":"North","entity":"eg:A1"')]
COARSE = [PLAIN, ('"dimensions":{"entity"', '"decimals":"$b","dimensions":{"entity"')]

# Reports of one table: what is replaced in the metadata, and its tables, each with its facts and
# faults.
TABLES: dict[str, tuple[Edits, list[tuple[str, str, str]]]] = {
    "rows of a table": (
        [],
        [
            (
                "cash,note\n100,first\n200,second\n",
                "t1.r_1.cash - Cash EUR 100; t1.r_1.note - Note - first; "
                "t1.r_2.cash - Cash EUR 200; t1.r_2.note - Note - second",
                "",
            ),
            ("note,,cash\nn,zzz,5\n", "t1.r_1.note - Note - n; t1.r_1.cash - Cash EUR 5", ""),
            ("\ufeffnote,,cash\nn,zzz,5\n", "t1.r_1.note - Note - n; t1.r_1.cash - Cash EUR 5", ""),
            ("cash,note\n1,#foo\n", "", "t1, row 1, column 2: UnknownSpecial (31)"),
            (
                "cash,note\n100,first\n200,second\n300,third\n",
                "t1.r_1.cash - Cash EUR 100; t1.r_1.note - Note - first; "
                "t1.r_2.cash - Cash EUR 200; t1.r_2.note - Note - second; "
                "t1.r_3.cash - Cash EUR 300; t1.r_3.note - Note - third",
                "",
            ),
        ],
    ),
    "faults of a table's file": (
        [],
        [
            ("", "", "t1, row 0, column 0: NoHeader (22)"),
            ("\ufeff", "", "t1, row 0, column 0: NoHeader (22)"),
            ("cash,nope\n", "", "t1, row 0, column 2: UnknownHeader (23)"),
            ("cash,cash\n", "", "t1, row 0, column 2: RepeatedHeader (24)"),
            ("cash,note\n1\n", "", "t1, row 1, column 0: Ragged (26)"),
            ("cash,note\n100,\udcff\n200,second\n", "", "t1, row 1, column 2: NotUtf8 (27)"),
        ],
    ),
    "row identifiers": (
        IDENTIFIED,
        [
            ("k,cash\nx,1\ny,2\n", "t1.x.cash - Cash EUR 1; t1.y.cash - Cash EUR 2", ""),
            (
                "k,cash\nx,1\nx,3\n",
                "t1.x.cash - Cash EUR 1",
                "t1, row 2, column 1: RepeatedRowId (30)",
            ),
            ("k,cash\n7,1\n", "t1.7.cash - Cash EUR 1", ""),
            ("k,cash\na.b,1\n", "", "t1, row 1, column 1: BadRowId (29)"),
            ("k,cash\n#none,1\n", "", "t1, row 1, column 1: BadRowId (29)"),
            ("k,cash\n,1\n", "", "t1, row 1, column 1: MissingRowId (28)"),
            ("cash\n1\n", "", "t1, row 0, column 0: NoRowIdColumn (25)"),
        ],
    ),
    "special values alone": (
        [],
        [
            ("note\n#empty\n", "t1.r_1.note - Note - ", ""),
            ("note\n#nil\n", "t1.r_1.note - Note - null", ""),
            ("note\n##x\n##\n", "t1.r_1.note - Note - #x; t1.r_2.note - Note - #", ""),
            ("note\na#\n", "t1.r_1.note - Note - a#", ""),
            ('note\n""\n#none\n', "", ""),
            ("note\n#\n", "", "t1, row 1, column 1: UnknownSpecial (31)"),
        ],
    ),
    "special values": (
        [],
        [
            (
                "cash,note\n100,first\n",
                "t1.r_1.cash - Cash EUR 100; t1.r_1.note - Note - first",
                "",
            ),
            ("cash,note\n,#empty\n", "t1.r_1.note - Note - ", ""),
            ("cash,note\n,#nil\n", "t1.r_1.note - Note - null", ""),
            ("cash,note\n,##x\n", "t1.r_1.note - Note - #x", ""),
            ("cash,note\n,##\n", "t1.r_1.note - Note - #", ""),
            ("cash,note\n,a#\n", "t1.r_1.note - Note - a#", ""),
            (
                'cash,note\n,"say ""hi"" \\\n\u00e9\x01"\n',
                't1.r_1.note - Note - say \\"hi\\" \\\\\\n\u00e9\\u0001',
                "",
            ),
            ("cash,note\n,#none\n", "", ""),
            ("cash,note\n,\n", "", ""),
            ("cash,note\n,#foo\n", "", "t1, row 1, column 2: UnknownSpecial (31)"),
            ("cash,note\n,#\n", "", "t1, row 1, column 2: UnknownSpecial (31)"),
            ("cash,note\nx,\n", "", "t1, row 1, column 1: BadNumber (40)"),
        ],
    ),
    "a period that is none": (
        UNTIMED,
        [
            ("cash\n1\n", "", "t1, row 1, column 1: BadPeriod (37)"),
            ("cash\n#none\n", "", ""),
            ("cash,note\n1,\n", "", "t1, row 1, column 1: BadPeriod (37)"),
            ("cash,note\nx,\n", "", "t1, row 1, column 1: BadPeriod (37)"),
            ("cash,note\n#foo,\n", "", "t1, row 1, column 1: UnknownSpecial (31)"),
            ("cash,note\n#none,\n", "", ""),
            ("cash,note\n,\n", "", ""),
        ],
    ),
    "numerals alone": (
        RATE,
        [
            ("rate\n1250.5d-2\n", "t1.r_1.rate -2 Rate EUR 1250.5", ""),
            ("rate\n1dINF\n", "t1.r_1.rate - Rate EUR 1", ""),
            ("rate\n-0d+1\n", "t1.r_1.rate 1 Rate EUR -0", ""),
            ("rate\n 7 \n#nil\n", "t1.r_1.rate 0 Rate EUR 7; t1.r_2.rate - Rate EUR null", ""),
            ("rate\n1d2d3\n", "", "t1, row 1, column 1: BadNumber (40)"),
            ("rate\nd3\n", "", "t1, row 1, column 1: BadNumber (40)"),
            ("rate\n1e2\n", "", "t1, row 1, column 1: BadNumber (40)"),
            ("rate\n#empty\n", "", "t1, row 1, column 1: BadNumber (40)"),
            ("rate\n \n", "", "t1, row 1, column 1: BadNumber (40)"),
        ],
    ),
    "numerals": (
        RATE,
        [
            ("note,rate\n,1250.5d-2\n", "t1.r_1.rate -2 Rate EUR 1250.5", ""),
            ("note,rate\n,1dINF\n", "t1.r_1.rate - Rate EUR 1", ""),
            ("note,rate\n,-0d+1\n", "t1.r_1.rate 1 Rate EUR -0", ""),
            ("note,rate\n, 7 \n", "t1.r_1.rate 0 Rate EUR 7", ""),
            ("note,rate\n,#nil\n", "t1.r_1.rate - Rate EUR null", ""),
            ("note,rate\n,d3\n", "", "t1, row 1, column 2: BadNumber (40)"),
            ("note,rate\n,1d2d3\n", "", "t1, row 1, column 2: BadNumber (40)"),
            ("note,rate\n,1e2\n", "", "t1, row 1, column 2: BadNumber (40)"),
            ("note,rate\n,#empty\n", "", "t1, row 1, column 2: BadNumber (40)"),
            ("note,rate\n, \n", "", "t1, row 1, column 2: BadNumber (40)"),
        ],
    ),
    "property groups": (
        GROUPS,
        [
            (
                "g,a,b,c\nusd,1,2,3\n",
                "t1.r_1.a - Cash - 1; t1.r_1.b - Cash USD 2; t1.r_1.c - Cash GBP 3",
                "",
            ),
            (
                "g,a,b,c\n,1,2,3\n",
                "t1.r_1.a - Cash - 1; t1.r_1.b - Cash EUR 2; t1.r_1.c - Cash GBP 3",
                "",
            ),
            ("g,a,b,c\ngbp,,2,\n", "", "t1, row 1, column 3: UnknownGroup (32)"),
            ("g,a,b,c\ngbp,,,\n", "", ""),
        ],
    ),
    "property groups behind the facts": (
        GROUPS,
        [
            (
                "a,b,c,g,note\n1,2,3,usd,\n",
                "t1.r_1.a - Cash - 1; t1.r_1.b - Cash USD 2; t1.r_1.c - Cash GBP 3",
                "",
            ),
            (
                "a,b,c,g,note\n1,2,3,,\n",
                "t1.r_1.a - Cash - 1; t1.r_1.b - Cash EUR 2; t1.r_1.c - Cash GBP 3",
                "",
            ),
            (
                "a,b,c,g,note\n1,2,3,#none,\n",
                "t1.r_1.a - Cash - 1; t1.r_1.b - Cash EUR 2; t1.r_1.c - Cash GBP 3",
                "",
            ),
            ("a,b,c,g,note\n,2,,gbp,\n", "", "t1, row 1, column 2: UnknownGroup (32)"),
            ("a,b,c,g,note\n,2,,#nil,\n", "", "t1, row 1, column 2: UnknownGroup (32)"),
            ("a,b,c,g,note\n,2,,#empty,\n", "", "t1, row 1, column 2: UnknownGroup (32)"),
            ("a,b,c,g,note\n,2,,#usd,\n", "", "t1, row 1, column 2: UnknownSpecial (31)"),
            ("a,b,c,g,note\n,#foo,,gbp,\n", "", "t1, row 1, column 2: UnknownSpecial (31)"),
            ("a,b,c,g,note\n,,,gbp,\n", "", ""),
        ],
    ),
    "a parameter of the report": (
        BY_REPORT,
        [
            ("cash\n1\n", "t1.r_1.cash - Mass EUR 1", ""),
            ("c,cash,note\n,1,\n", "t1.r_1.cash - Mass EUR 1", ""),
        ],
    ),
    "a parameter of the table": (
        BY_TABLE,
        [
            ("cash\n1\n", "t1.r_1.cash - Cash EUR 1", ""),
            ("cash,c\n1,\n", "t1.r_1.cash - Cash EUR 1", ""),
            ("cash,c\n1,eg:Mass\n", "t1.r_1.cash - Mass EUR 1", ""),
            ("cash,c\n1,eg:Nope\n", "", "t1, row 1, column 1: UnknownName (34)"),
            ("cash,c\n1,#none\n", "", "t1, row 1, column 1: NoConcept (33)"),
        ],
    ),
    "a parameter of both": (
        BY_BOTH,
        [
            ("cash\n1\n", "t1.r_1.cash - Cash EUR 1", ""),
            ("c,cash,note\n,1,\n", "t1.r_1.cash - Cash EUR 1", ""),
            ("c,cash,note\neg:Mass,1,\n", "t1.r_1.cash - Mass EUR 1", ""),
            ("c,cash,note\n#none,1,\n", "", "t1, row 1, column 2: NoConcept (33)"),
            ("c,cash,note\n#nil,1,\n", "", "t1, row 1, column 2: BadReference (35)"),
            ("c,cash,note\n#foo,1,\n", "", "t1, row 1, column 2: UnknownSpecial (31)"),
            ("c,cash,note\neg:Nope,1,\n", "", "t1, row 1, column 2: UnknownName (34)"),
            ("c,cash,note\neg:Region,1,\n", "", "t1, row 1, column 2: UnknownName (34)"),
            ("c,cash,note\neg:Nope,x,\n", "", "t1, row 1, column 2: UnknownName (34)"),
            ("c,cash,note\neg:Nope,#foo,\n", "", "t1, row 1, column 2: UnknownSpecial (31)"),
        ],
    ),
    "a parameter of neither": (
        OF_NEITHER,
        [
            ("cash\n1\n", "", "t1, row 1, column 1: NoConcept (33)"),
            ("c,cash,note\n,1,\n", "", "t1, row 1, column 2: NoConcept (33)"),
        ],
    ),
    "a parameter that is nil": (
        BY_NIL,
        [
            ("cash\n1\n", "", "t1, row 1, column 1: BadReference (35)"),
        ],
    ),
    "a parameter that names a dimension": (
        BY_MEMBER,
        [
            ("cash\n1\n", "", "t1, row 1, column 1: UnknownName (34)"),
        ],
    ),
    "a language that is none": (
        NO_LANGUAGE,
        [
            ("cash,note\n1,\n", "t1.r_1.cash - Cash EUR 1", ""),
            ("cash,note\n1,n\n", "", "t1, row 1, column 2: BadValue (36)"),
        ],
    ),
    "a unit that is none": (
        NO_UNIT,
        [
            ("cash,note\n1,n\n", "", "t1, row 1, column 1: BadValue (36)"),
            ("cash,note\n,n\n", "t1.r_1.note - Note - n", ""),
        ],
    ),
    "the pure unit": (
        PURE,
        [
            ("cash\n1\n", "t1.r_1.cash - Cash - 1", ""),
            ("cash,note\n1,\n", "t1.r_1.cash - Cash - 1", ""),
        ],
    ),
    "a member that is none": (
        MISPLACED,
        [
            ("cash,note\n,n\n", "", "t1, row 1, column 2: BadValue (36)"),
        ],
    ),
    "an unknown special value by reference": (
        SIDED,
        [
            ("b,cash,note\n#foo,,n\n", "", "t1, row 1, column 3: UnknownSpecial (31)"),
        ],
    ),
    "the end of a period by reference": (
        ENDED,
        [
            ("b,cash,note\n2021-12-31T00:00:00,1,\n", "", "t1, row 1, column 2: NotDuration (38)"),
            ("b,cash,note\nx,1,\n", "", "t1, row 1, column 2: BadPeriod (37)"),
            ("b,cash,note\nx,y,\n", "", "t1, row 1, column 2: BadPeriod (37)"),
            ("b,cash,note\nx,,\n", "", ""),
        ],
    ),
    "decimals by reference": (
        COARSE,
        [
            ("b,cash,note\n2,1,\n", "t1.r_1.cash 2 Cash EUR 1", ""),
            ("b,cash,note\ntwo,1d3,\n", "t1.r_1.cash 3 Cash EUR 1", ""),
            ("b,cash,note\ntwo,1,\n", "", "t1, row 1, column 2: BadDecimals (39)"),
            ("b,cash,note\ntwo,x,\n", "", "t1, row 1, column 2: BadDecimals (39)"),
            ("b,cash,note\ntwo,#nil,\n", "t1.r_1.cash - Cash EUR null", ""),
        ],
    ),
}


@for_each(TABLES.items())
class TestCells(ReportTest):
    """Converts each report with each of its tables."""

    def check(self, edits: Edits, tables: list[tuple[str, str, str]]) -> None:
        """Converts each table."""
        self.write({"m.json": edited(edits), "t.csv": TYPES})
        for table, facts, faults in tables:
            with self.subTest(table=table):
                self.write({"t1.csv": table})
                self.converts(facts, lines(faults))
