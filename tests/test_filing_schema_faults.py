"""Tests filings against what the schemas of their taxonomy allow.

The module is made as the EBA makes its modules: data points, explicit dimensions whose members are
in dictionaries of their own, a typed dimension, and the unit by a parameter. What is refused
follows from XML Schema Part 2, XBRL 2.1, XBRL Dimensions 1.0 and Extensible Enumerations 2.0.
"""
from __future__ import annotations

import json
import shutil
from collections.abc import Mapping, Sequence
from pathlib import Path
from typing import Any, NamedTuple, Optional

from filing import members, types_table
from filing.kinds import MEMBER
from tests.filing_samples import (
    HOST,
    TYPES_HEADER,
    XBRLDT,
    XBRLI,
    XS,
    catalog,
    include,
    linkbase,
    loc,
    meta,
    rewrite,
)
from tests.filings import FilingTest, start
from tests.harness import TestCase, write

ENUM = "http://xbrl.org/2020/extensible-enumerations-2.0"
OLD_ENUM = "http://xbrl.org/2014/extensible-enumerations"
NON_NUMERIC = "http://www.xbrl.org/dtr/type/non-numeric"
REGISTRY = "http://www.xbrl.org/dtr/type/2022-03-31"
DICT = {it: f"{HOST}dict/{it}" for it in ("met", "dim", "CU", "GA")}
PREFIXES = {
    "xs": XS,
    "xbrli": XBRLI,
    "xbrldt": XBRLDT,
    "enum2": ENUM,
    "enum": OLD_ENUM,
    "nonnum": NON_NUMERIC,
    "dtr": REGISTRY,
    **{f"eba_{it}": uri for it, uri in DICT.items()},
}
NAMESPACES = {
    **{f"eba_{it}": uri for it, uri in DICT.items()},
    "iso4217": "http://www.xbrl.org/2003/iso4217",
    "xbrli": XBRLI,
    "lei": "http://standards.iso.org/iso/17442",
    "far": "http://far.example/",  # no package has a schema for it
    "documentation": f"{HOST}documentation",
}
# The type and period of each metric.
METRICS = {
    "mi1": ("eba_met:amount", "instant"),
    "mi2": ("dtr:nonNegativeMonetaryItemType", "instant"),
    "md1": ("xbrli:monetaryItemType", "duration"),
    "sh1": ("xbrli:sharesItemType", "instant"),
    "ni1": ("xbrli:nonNegativeIntegerItemType", "instant"),
    "pi1": ("xbrli:positiveIntegerItemType", "instant"),
    "by1": ("xbrli:byteItemType", "instant"),
    "ub1": ("xbrli:unsignedByteItemType", "instant"),
    "pp1": ("dtr:percentItemType", "instant"),
    "fl1": ("xbrli:floatItemType", "instant"),
    "di1": ("xbrli:dateItemType", "instant"),
    "dt1": ("xbrli:dateTimeItemType", "instant"),
    "ti1": ("xbrli:timeItemType", "instant"),
    "gy1": ("xbrli:gYearItemType", "instant"),
    "du1": ("xbrli:durationItemType", "instant"),
    "la1": ("xbrli:languageItemType", "instant"),
    "nc1": ("xbrli:NCNameItemType", "instant"),
    "hb1": ("xbrli:hexBinaryItemType", "instant"),
    "bo1": ("xbrli:booleanItemType", "instant"),
    "qn1": ("xbrli:QNameItemType", "instant"),
    "st1": ("xbrli:stringItemType", "instant"),
    "ur1": ("xbrli:anyURIItemType", "instant"),
    "ei1": ("enum:enumerationItemType", "instant"),
    "ee1": ("enum2:enumerationItemType", "instant"),
    "es1": ("enum2:enumerationSetItemType", "instant"),
}
# The types of the domains of typed dimensions.
DOMAINS = {
    "TI": 'type="xs:integer"',
    "TD": 'type="xs:date"',
    "TS": 'type="xs:string"',
    "TY": 'type="eba_dim:year"',
}
AMOUNT = (
    '<xs:complexType name="amount"><xs:simpleContent><xs:restriction base="eba_met:any"/>'
    '</xs:simpleContent></xs:complexType><xs:complexType name="any"><xs:simpleContent>'
    '<xs:restriction base="xbrli:monetaryItemType"/></xs:simpleContent></xs:complexType>'
)
YEAR = (
    '<xs:simpleType name="year"><xs:restriction base="eba_dim:someYear"><xs:pattern value="2.*"/>'
    '</xs:restriction></xs:simpleType><xs:simpleType name="someYear"><xs:restriction'
    ' base="xs:gYear"/></xs:simpleType>'
)


def schema(kind: str, body: str) -> str:
    """Returns a schema of a dictionary."""
    prefixes = " ".join(f'xmlns:{it}="{uri}"' for it, uri in PREFIXES.items())
    return f'<xs:schema {prefixes} targetNamespace="{DICT[kind]}">{body}</xs:schema>'


def item(name: str, kind: str, head: str = "xbrli:item", more: str = "") -> str:
    """Returns an element of a dictionary."""
    type_of = f'type="{kind}"' if kind else ""
    return f'<xs:element name="{name}" id="{name}" {type_of} substitutionGroup="{head}" {more}/>'


def metrics() -> str:
    """Returns the elements of the metrics, and of an abstract item among them."""
    period = 'xbrli:periodType="{}"'
    found = (item(it, kind, more=period.format(of)) for it, (kind, of) in METRICS.items())
    return AMOUNT + "".join(found) + item("heading", "xbrli:stringItemType", more=ABSTRACT)


ABSTRACT = 'abstract="true" xbrli:periodType="instant"'


def dimensions() -> str:
    """Returns the elements of the dimensions, and of the domains of the typed ones."""
    head = "xbrldt:dimensionItem"
    typed = "".join(
        item(it, "xbrli:stringItemType", head, f'{ABSTRACT} xbrldt:typedDomainRef="typ.xsd#d_{it}"')
        for it in DOMAINS
    )
    explicit = "".join(item(it, "xbrli:stringItemType", head, ABSTRACT) for it in ("CUR", "GEO"))
    return YEAR + typed + explicit


def domain(*names: str) -> str:
    """Returns the elements of members."""
    return "".join(item(it, "nonnum:domainItemType", more=ABSTRACT) for it in names)


DOMAIN_SCHEMA = "".join(
    f'<xs:element name="d_{it}" id="d_{it}" {of}/>' for it, of in DOMAINS.items()
)
# Column by column: what the cells of the table have.
TEMPLATE: dict[str, Any] = {
    "columns": {
        "point": {
            "propertyGroups": {
                it: {
                    "dimensions": {
                        "concept": f"eba_met:{it}",
                        "eba_dim:CUR": "eba_CU:EUR",
                        "unit": "$shares" if it == "sh1" else "$baseCurrency",
                    },
                    "decimals": "0",
                }
                for it in METRICS
            }
        },
        "value": {"dimensions": {}, "propertiesFrom": ["point"]},
    }
}
OPEN: dict[str, Any] = {
    "dimensions": {
        "eba_dim:GEO": "$geo",
        "period": "$when",
        "unit": "$unit",
        **{f"eba_dim:{it}": f"${it}" for it in DOMAINS},
    },
    "columns": {
        **{it: {} for it in ("geo", "when", "unit", *DOMAINS)},
        **{it: {"dimensions": {"concept": f"eba_met:{it}"}} for it in METRICS},
    },
}
MODULE: dict[str, Any] = {
    "tableTemplates": {"points": TEMPLATE, "open": OPEN},
    "dimensions": {"entity": "$entityID", "period": "$refPeriod@end"},
    "parameterURL": "parameters.csv",
}
TAXONOMY = {
    "META-INF/catalog.xml": catalog(rewrite()),
    "reg/mod.xsd": f'<xs:schema xmlns:xs="{XS}">{include("def.xml")}</xs:schema>',
    "reg/def.xml": linkbase(
        loc("dict/met.xsd#mi1")
        + loc("dict/dim.xsd#CUR")
        + loc("dict/CU.xsd#EUR")
        + loc("dict/GA.xsd#AT")
    ),
    "reg/dict/met.xsd": schema("met", metrics()),
    "reg/dict/dim.xsd": schema("dim", dimensions() + include("typ.xsd", "include")),
    "reg/dict/typ.xsd": schema("dim", DOMAIN_SCHEMA),
    "reg/dict/CU.xsd": schema("CU", domain("EUR", "USD")),
    "reg/dict/GA.xsd": schema("GA", domain("AT", "x1") + item("whole", "eba_GA:none")),
}
PARAMETERS = {
    "entityID": "lei:529900T8BM49AURSDO55.IND",
    "refPeriod": "2025-12-31",
    "baseCurrency": "iso4217:EUR",
    "shares": "xbrli:shares",
}
END = "2026-01-01T00:00:00"


class Table(NamedTuple):
    """A table of the filing: its template, its text, and parameters of its own."""

    template: str
    text: str
    parameters: Mapping[str, str] = {}


def points(*rows: str, **parameters: str) -> Table:
    """Returns a table of data points."""
    return Table("points", "".join(f"{it}\n" for it in ("point,value", *rows)), parameters)


def columns(row: Mapping[str, str]) -> Table:
    """Returns a table of one row of cells, by their columns."""
    return Table("open", f"{','.join(row)}\n{','.join(row.values())}\n")


class SchemaTest(FilingTest):
    """Filings of the module, with tables of data points and of columns."""

    def convert(
        self,
        tables: Sequence[Table],
        taxonomy: Optional[Mapping[str, str]] = None,
        words: tuple[str, ...] = (),
        module: Optional[Mapping[str, Any]] = None,
        prefixes: Optional[Mapping[str, str]] = None,
        **parameters: Optional[str],
    ) -> tuple[int, bytes, str]:
        """Converts tables, which are t10, t11 .. by their order.

        `prefixes` are those of the report itself. A parameter that is None is left out.
        """
        named = {f"t{number + 10}": it for number, it in enumerate(tables)}
        parts = {
            name: {"url": f"{name}.csv", "template": it.template, "parameters": it.parameters}
            for name, it in named.items()
        }
        made = {**MODULE, **(module or {}), "tables": parts}
        said: dict[str, Optional[str]] = {**PARAMETERS, **parameters}
        files = {
            "r": {
                "reports/report.json": meta(
                    {"extends": [f"{HOST}mod.json"], "namespaces": prefixes or {}}
                ),
                "reports/parameters.csv": "name,value\n"
                + "".join(f"{it},{text}\n" for it, text in said.items() if text is not None),
                **{f"reports/{name}.csv": it.text for name, it in named.items()},
            },
            "t": {
                **(taxonomy or TAXONOMY),
                "reg/mod.json": meta({"namespaces": NAMESPACES, "taxonomy": ["mod.xsd"]}, **made),
            },
        }
        for folder, texts in files.items():
            shutil.rmtree(self.folder / folder, ignore_errors=True)
            write(self.folder / folder, texts)
        return start(["r", "--taxonomy", "t", *words], self.folder)

    def facts(self, tables: Sequence[Table], **given: Any) -> list[Any]:
        """Returns the facts of a filing that is converted."""
        status, out, err = self.convert(tables, **given)
        self.assertEqual((status, err), (0, ""))
        found: dict[str, Any] = json.loads(out)["facts"]
        return list(found.values())

    def refused(self, faults: Sequence[tuple[Table, str]], **given: Any) -> None:
        """Checks that each table is refused, for the cell and the fault that are given with it."""
        status, _, err = self.convert([it for it, _ in faults], **given)
        lines = (f"xbrl-json: table t{it + 10}, {said}\n" for it, (_, said) in enumerate(faults))
        self.assertEqual((status, err), (1, "".join(lines)))


GOOD_CELLS = {
    "mi1": "-1.5",
    "mi2": "7",
    "sh1": "3",
    "ni1": "0",
    "pi1": "1",
    "by1": "-128",
    "ub1": "255",
    "pp1": "0.05",
    "fl1": "1.5e3",
    "di1": "2025-12-31",
    "dt1": "2025-12-31T23:59:59Z",
    "ti1": "12:00:00",
    "gy1": "2025",
    "du1": "P1Y",
    "la1": "de-AT",
    "nc1": "a.b",
    "hb1": "0FB7",
    "bo1": "true",
    "qn1": "eba_GA:nowhere",
    "st1": "any text",
    "ur1": "any text",
    "ei1": "eba_GA:AT",
    "ee1": "eba_GA:x1",
    "es1": "eba_GA:AT eba_GA:x1",
}
BAD_CELLS = {
    "an amount of letters": ("mi1", "x", "BadNumber (40)"),
    "a sign of a count": ("ni1", "-1", "BadNumber (40)"),
    "a zero of a positive number": ("pi1", "0", "BadNumber (40)"),
    "a byte of nine bits": ("by1", "128", "BadNumber (40)"),
    "a sign of an unsigned byte": ("ub1", "-1", "BadNumber (40)"),
    "a date that does not exist": ("di1", "2025-02-29", "BadFactValue (44)"),
    "a date and time that do not exist": ("dt1", "2025-02-29T00:00:00", "BadFactValue (44)"),
    "a time of a clock of twelve hours": ("ti1", "1:00 pm", "BadFactValue (44)"),
    "a year of two digits": ("gy1", "25", "BadFactValue (44)"),
    "a duration in words": ("du1", "one year", "BadFactValue (44)"),
    "a language with an underscore": ("la1", "de_AT", "BadFactValue (44)"),
    "a name with a colon": ("nc1", "a:b", "BadFactValue (44)"),
    "half a byte": ("hb1", "0FB", "BadFactValue (44)"),
    "a boolean in words": ("bo1", "yes", "BadFactValue (44)"),
    "a name without a prefix": ("qn1", "AT", "BadFactValue (44)"),
    "an enumeration of free text": ("ee1", "Austria", "BadFactValue (44)"),
    "an enumeration of no member": ("ee1", "eba_GA:XX", "UnknownMember (47)"),
    "an older enumeration of no member": ("ei1", "eba_GA:XX", "UnknownMember (47)"),
    "an enumeration of a dimension": ("ee1", "eba_dim:GEO", "UnknownMember (47)"),
    "a set with an undeclared prefix": ("es1", "eba_GA:AT zz:x1", "BadFactValue (44)"),
    "a set of free text": ("es1", "Austria", "BadFactValue (44)"),
    "a set with a member twice": ("es1", "eba_GA:AT eba_GA:AT", "BadFactValue (44)"),
    "a set with no member": ("es1", "eba_GA:AT eba_GA:XX", "UnknownMember (47)"),
}
UNITS = {
    "no currency": ("mi1", {"baseCurrency": ""}, "BadUnit (45)"),
    "a currency in small letters": ("mi1", {"baseCurrency": "iso4217:eur"}, "BadUnit (45)"),
    "a currency of the registry": ("mi2", {"baseCurrency": "xbrli:pure"}, "BadUnit (45)"),
    "a currency without a prefix": ("mi1", {"baseCurrency": "EUR"}, "BadValue (36)"),
    "shares in a currency": ("sh1", {"shares": "iso4217:EUR"}, "BadUnit (45)"),
    "shares without a unit": ("sh1", {"shares": ""}, "BadUnit (45)"),
}


ROW = {"geo": "eba_GA:AT", "unit": "iso4217:USD", "when": END, "TI": "1", "TD": "2025-01-01"}
ROW = {**ROW, "TY": "2025", "mi1": "1"}
ROWS = {
    "an unknown member": ({"geo": "eba_GA:XX"}, "UnknownMember (47)"),
    "a member of another dictionary": ({"geo": "eba_CU:AT"}, "UnknownMember (47)"),
    "a currency as a member": ({"geo": "iso4217:EUR"}, "UnknownMember (47)"),
    "a dimension as a member": ({"geo": "eba_dim:GEO"}, "UnknownMember (47)"),
    "a member without a prefix": ({"geo": "AT"}, "BadValue (36)"),
    "an integer of letters": ({"TI": "x"}, "BadValue (36)"),
    "an integer with a fraction": ({"TI": "1.5"}, "BadValue (36)"),
    "a date of a day that does not exist": ({"TD": "2025-02-29"}, "BadValue (36)"),
    "a year of a derived type": ({"TY": "25"}, "BadValue (36)"),
    "a duration for an instant": ({"when": "2025"}, "WrongPeriod (46)"),
    "no period for an instant": ({"when": "#none"}, "WrongPeriod (46)"),
    "no unit": ({"unit": "#none"}, "BadUnit (45)"),
    "an empty unit": ({"unit": ""}, "BadUnit (45)"),
}


class TestGoodFilings(SchemaTest):
    """Converts good filings of all types."""

    def test_data_points(self) -> None:
        """Converts a value of each type and nil, in the unit that the parameters give."""
        cells = [*GOOD_CELLS.items(), *((it, "#nil") for it in GOOD_CELLS)]
        cells += [("es1", "#empty"), ("st1", "#empty")]
        facts = self.facts([points(*(f"{it},{text}" for it, text in cells))])
        wanted: list[Optional[str]] = [*GOOD_CELLS.values(), *([None] * len(GOOD_CELLS)), "", ""]
        self.assertEqual([it["value"] for it in facts], wanted)
        self.assertEqual(
            facts[0]["dimensions"],
            {
                "concept": "eba_met:mi1",
                "eba_dim:CUR": "eba_CU:EUR",
                "entity": PARAMETERS["entityID"],
                "period": END,
                "unit": "iso4217:EUR",
            },
        )

    def test_dimensions_of_cells(self) -> None:
        """Converts members and typed values that cells give, and concepts as members."""
        names = ["eba_GA:AT", "eba_GA:whole", "eba_met:mi1", "eba_met:heading", "eba_CU:USD"]
        typed = {"TI": "-5", "TD": "2025-01-01", "TS": "any text", "TY": "2025"}
        facts = self.facts([columns({**ROW, **typed, "geo": it}) for it in names])
        self.assertEqual([it["dimensions"]["eba_dim:GEO"] for it in facts], names)
        seen = {it: facts[0]["dimensions"][f"eba_dim:{it}"] for it in typed}
        self.assertEqual(seen, typed)

    def test_a_kept_module(self) -> None:
        """Refuses and converts the same with a cache, also from what it keeps."""
        for _ in range(2):
            words = ("--cache", "c")
            bad = [(points("ni1,-1"), "row 1, column 2: BadNumber (40)")]
            self.refused(bad, words=words)
            self.assertEqual(len(self.facts([points("ni1,1")], words=words)), 1)

    def test_periods_of_a_duration(self) -> None:
        """Converts a year and no period for a duration, and refuses an instant."""
        row = {"unit": "iso4217:USD", "md1": "1"}
        rows = [columns({**row, "when": it}) for it in ("2025", "#none", END)]
        self.assertEqual(len(self.facts(rows[:2])), 2)
        self.refused([(rows[2], "row 1, column 2: WrongPeriod (46)")])


class TestBadFilings(SchemaTest):
    """Refuses what the schemas do not allow, with the place of the cell."""

    def test_cells(self) -> None:
        """Refuses cells that the type of their concept does not allow, after a good one."""
        self.refused(
            [
                (points(f"{it},{GOOD_CELLS[it]}", f"{it},{cell}"), f"row 2, column 2: {fault}")
                for it, cell, fault in BAD_CELLS.values()
            ]
        )

    def test_units(self) -> None:
        """Refuses numbers and nil that are not in the unit of their concept."""
        self.refused(
            [
                (points(f"{metric},{text}", **parameters), f"row 1, column 2: {fault}")
                for metric, parameters, fault in UNITS.values()
                for text in ("1", "#nil")
            ]
        )

    def test_no_currency(self) -> None:
        """Refuses an amount if the parameter of the currency is left out or misspelt."""
        bad = [(points("st1,text", "mi1,1"), "row 2, column 2: BadUnit (45)")]
        self.refused(bad, baseCurrency=None)
        self.refused(bad, baseCurrency=None, baseCurency="iso4217:EUR")
        given: dict[str, Any] = {"baseCurrency": None, "basecurrency": "iso4217:EUR"}
        status, _, err = self.convert([bad[0][0]], **given)
        place = "r/reports/parameters.csv, line 5, cell 1"
        line = f"xbrl-filing: {place}: nothing refers to the parameter 'basecurrency'"
        self.assertEqual((status, err[: len(line)]), (1, line))

    def test_a_replaced_prefix(self) -> None:
        """Refuses members by the prefix of the module if the report has its own for them."""
        given: dict[str, Any] = {"prefixes": {"ga": DICT["GA"]}}
        cells = ("eba_GA:AT", "ga:AT eba_GA:x1")
        tables = [columns({"when": END, "es1": it}) for it in cells]
        self.refused([(it, "row 1, column 2: BadFactValue (44)") for it in tables], **given)
        line = "xbrl-filing: r/reports/t10.csv, line 3, cell 2: 'eba_GA:AT' has the prefix"
        table = points("st1,text", "es1,eba_GA:AT")  # a point may be a text that is copied
        for words in ((), ("--cache", "c"), ("--cache", "c")):
            status, _, err = self.convert([table], words=words, **given)
            self.assertEqual((status, err[: len(line)]), (1, line))
        facts = self.facts([points("es1,ga:AT ga:x1")], **given)
        self.assertEqual([it["value"] for it in facts], ["ga:AT ga:x1"])

    def test_rows(self) -> None:
        """Refuses rows with one dimension that the schemas do not allow."""
        self.assertEqual(len(self.facts([columns(ROW)])), 1)
        rows = ((columns({**ROW, **it}), fault) for it, fault in ROWS.values())
        self.refused([(it, f"row 1, column 7: {fault}") for it, fault in rows])

    def test_every_fault(self) -> None:
        """Lists the fault of each row, also those that only schemas know of."""
        changes: list[dict[str, str]] = [{"unit": "#none"}, {"when": "2025"}]
        changes += [{"geo": "eba_GA:XX"}, {"mi1": "x"}, {}]
        rows = (",".join({**ROW, **it}.values()) for it in changes)
        table = Table("open", "".join(f"{it}\n" for it in (",".join(ROW), *rows)))
        words = "--faults", str(self.folder / "f.csv")
        status, _, _ = self.convert([table], words=words)
        seen = [it.split(",")[:4] for it in (self.folder / "f.csv").read_text().splitlines()[1:]]
        faults = ("45", "46", "47", "40")
        wanted = [["t10", str(row), "7", it] for row, it in enumerate(faults, 1)]
        self.assertEqual((status, seen), (1, wanted))


def without(*files: str) -> dict[str, str]:
    """Returns the taxonomy without schemas of members."""
    locs = "".join(loc(f"dict/{it}.xsd#x") for it in ("met", "dim", "CU", "GA") if it not in files)
    left = {it: text for it, text in TAXONOMY.items() if Path(it).stem not in files}
    return {**left, "reg/def.xml": linkbase(locs)}


FEW = {"geo": "eba_GA:AT", "unit": "iso4217:EUR", "when": END, "mi1": "1"}
UNKNOWN = {**FEW, "geo": "eba_CU:XX"}
FAULT = "row 1, column 4: UnknownMember (47)"


class TestMembersWithoutASchema(SchemaTest):
    """Converts members of namespaces that have no schema, as long as some are used.

    Nothing says then which members there are, so none is looked up. A cache changes nothing.
    """

    def converts(self, count: int, tables: Sequence[Table], **given: Any) -> None:
        """Checks how many facts are converted, also from what a cache keeps."""
        for words in ((), ("--cache", "c"), ("--cache", "c")):
            self.assertEqual(len(self.facts(tables, words=words, **given)), count)

    def refuses(self, table: Table, **given: Any) -> None:
        """Checks that a table is refused for a member, also from what a cache keeps."""
        for words in ((), ("--cache", "c"), ("--cache", "c")):
            self.refused([(table, FAULT)], words=words, **given)

    def test_a_literal(self) -> None:
        """A data point has such a member, so members of cells are not looked up either."""
        row = columns({**FEW, "geo": "eba_GA:XX"})
        self.converts(2, [points("mi1,1"), row], taxonomy=without("CU"))

    def test_a_literal_of_a_table_that_is_not_filed(self) -> None:
        """A table that is not filed has no part in it."""
        self.refuses(columns({**FEW, "geo": "eba_GA:XX"}), taxonomy=without("CU"))

    def test_a_cell(self) -> None:
        """A cell has such a member."""
        self.converts(1, [columns(FEW)], taxonomy=without("GA"))
        self.refuses(columns(UNKNOWN), taxonomy=without("GA"))

    def test_a_namespace_that_no_package_has(self) -> None:
        """The metadata declares a namespace that no schema is for."""
        self.assertEqual(len(self.facts([columns({**FEW, "geo": "far:AT"})])), 1)

    def test_an_enumeration(self) -> None:
        """The cell of an enumeration has such a member."""
        self.converts(1, [points("es1,eba_CU:USD eba_GA:AT")], taxonomy=without("GA"))

    def test_a_parameter(self) -> None:
        """A parameter has such a member."""
        left = {it: column for it, column in OPEN["columns"].items() if it != "geo"}
        opened: dict[str, Any] = {**OPEN, "columns": {"none": {}, **left}}
        module = {"tableTemplates": {"points": TEMPLATE, "open": opened}}
        row = columns({"none": "", **{it: text for it, text in FEW.items() if it != "geo"}})
        given = {"taxonomy": without("GA"), "module": module}
        self.converts(1, [row], geo="eba_GA:AT", **given)
        self.refuses(row, geo="eba_CU:XX", **given)

    def test_a_parameter_of_no_dimension(self) -> None:
        """A parameter that no dimension takes may look like such a member."""
        self.refuses(columns(UNKNOWN), taxonomy=without("GA"), note="eba_GA:AT")

    def test_no_member_at_all(self) -> None:
        """Schemas in which each item is a concept say nothing of members."""
        heading = item("heading", "xbrli:stringItemType", more=ABSTRACT)
        met = TAXONOMY["reg/dict/met.xsd"].replace(heading, "")
        taxonomy = {**without("CU", "GA"), "reg/dict/met.xsd": met}
        self.assertEqual(len(self.facts([points("mi1,1"), columns(FEW)], taxonomy=taxonomy)), 2)


class TestTable(TestCase):
    """The types table of kinds."""

    def test_too_many_members(self) -> None:
        """Leaves members out of a table that would be longer than xbrl-json takes."""
        kinds = {"http://a/": {"A": "text,,", "B": MEMBER, "C": MEMBER}}
        whole = TYPES_HEADER + "http://a/,A,text,,\nhttp://a/,B,member,,\nhttp://a/,C,member,,\n"
        short = TYPES_HEADER + "http://a/,A,text,,\n"
        before = types_table.MOST_RECORDS
        try:
            for most, wanted in ((3, whole), (2, short)):
                types_table.MOST_RECORDS = most
                made = types_table.types_table(kinds, ["http://a/", "http://b/"], True)
                self.assertEqual(made.decode(), wanted)
        finally:
            types_table.MOST_RECORDS = before

    def test_places_of_members(self) -> None:
        """Finds where members of such a namespace may come from, by the templates."""
        kinds = {"e:R": "explicit", "e:T": "typed", "e:Enum": "enumeration", "e:Text": "text"}
        found = members.MemberPlaces
        for dimensions, own, wanted in (
            ({"e:R": "x:a"}, {}, found(["x"], ["t", "u"], [], [])),
            ({}, {"e:R": "x:a"}, found(["x"], ["t"], [], [])),
            ({"e:R": "$p"}, {}, found(["x"], [], ["t", "u"], ["p"])),
            ({}, {"e:R": "$p"}, found(["x"], [], ["t"], ["p"])),
            ({}, {"concept": "e:Enum"}, found(["x"], [], ["t"], [])),
            ({}, {"concept": "$p"}, found(["x"], [], ["t"], [])),
            ({}, {"concept": "e:Text", "e:T": "x:a", "e:R": "xx:a"}, found(["x"], [], [], [])),
            ({}, {"e:T": "$p", "entity": "x:a", "e:R": 1}, found(["x"], [], [], [])),
        ):
            columns = {"c": {"dimensions": own}}
            templates: dict[str, Any] = {"t": {"columns": columns}, "u": {}}
            report = {"dimensions": dimensions, "tableTemplates": templates}
            self.assertEqual(members.member_places(report, ["x"], kinds.get), wanted)
            self.assertEqual(members.member_places(report, [], kinds.get), found([], [], [], []))

    def test_prefixes_without_a_schema(self) -> None:
        """Namespaces of units and entities have no members."""
        kinds: dict[str, dict[str, str]] = {uri: {} for uri in DICT.values()}
        seen = members.unread_prefixes(NAMESPACES, kinds)
        self.assertEqual(seen, ["documentation", "far"])
