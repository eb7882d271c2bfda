"""Tests concepts of `dateTimeItemType`: dates with and without a time (XBRL 2.1, section 5.1.1.3).

The forms follow from XML Schema Part 2, sections 3.2.7 and 3.2.9. A cache changes nothing.
"""
from __future__ import annotations

import json
import os
import threading
from collections.abc import Mapping, Sequence
from contextlib import suppress
from pathlib import Path
from typing import Any, Optional

from filing.dates import form_of
from tests.filing_samples import EG, EXPLICIT, HOST, TYPED, catalog, derived, item, meta, rewrite, schema
from tests.filings import FilingTest, start
from tests.harness import TestCase, write

DATES = ("2024-02-29", " 2024-02-29 ", "0001-01-01Z", "9999-12-31+14:00", "2000-02-29-13:59")
DATE_TIMES = (
    "2024-02-29T00:00:00",
    "\t2024-02-29T24:00:00\n",
    "2024-02-29T24:00:00.000Z",
    "2024-02-29T23:59:59.123456789-00:00",
)
NEITHER = (
    "2025-13-40",
    "2025-02-29",
    "1900-02-29",
    "2025-04-31",
    "2025-01-00",
    "0000-01-01",
    "-0001-01-01",
    "12025-01-01",
    "25-01-01",
    "2025-1-1",
    "2025-01-01z",
    "2025-01-01+14:01",
    "2025-01-01+1:00",
    "2025-01-01T",
    "2025-01-01T24:00:01",
    "2025-01-01T24:00:00.1",
    "2025-01-01T12:00",
    "2025-01-01T12:60:00",
    "2025-01-01T12:00:60",
    "2025-01-01T12:00:00.",
    "2025-01-01 12:00:00",
    "2025-01-01t12:00:00",
    "\u0662\u0660\u0662\u0665-01-01",
    "\u00a02025-01-01",
    "soon",
    "#empty",
)


class TestForms(TestCase):
    """The form of a text."""

    def test_forms(self) -> None:
        """Tells dates, dates with times, and what is neither."""
        for form, texts in (("date", DATES), ("dateTime", DATE_TIMES), ("", NEITHER)):
            for text in texts:
                with self.subTest(text):
                    self.assertEqual(form_of(text), form)


CONCEPTS = (
    item("Opened", "xbrli:dateTimeItemType", 'xbrli:periodType="instant"')
    + item("Closed", "eg:closing")
    + derived("closing", "xbrli:dateTimeItemType")
    + item("Day", "xbrli:dateItemType")
    + item("Note")
    + item("Count", "xbrli:integerItemType")
    + EXPLICIT
    + item("A", more='abstract="true"')
    + '<xs:element name="Moment" substitutionGroup="xbrldt:dimensionItem" abstract="true"'
    ' xbrldt:typedDomainRef="#m"/><xs:element name="m" id="m" type="xs:dateTime"/>'
    + TYPED.replace("Branch", "Text")
)
FAR = "http://far.example/"  # no schema is for it
INFO = {"namespaces": {"eg": EG, "far": FAR}, "taxonomy": ["mod.xsd"]}
COLUMNS: dict[str, Any] = {
    **{name: {"dimensions": {"concept": f"eg:{name}"}} for name in ("Opened", "Closed", "Note")},
    "Count": {"dimensions": {"concept": "eg:Count", "eg:Moment": "$moment"}},
    "moment": {},
}
POINTS: dict[str, Any] = {
    "point": {
        "propertyGroups": {
            name: {"dimensions": {"concept": f"eg:{name}"}} for name in ("Opened", "Note", "Count")
        }
        | {"none": {"dimensions": {"eg:Region": "eg:A"}}}
    },
    "more": {"propertyGroups": {"Closed": {"dimensions": {"concept": "eg:Closed"}}, "none": {}}},
    "value": {"dimensions": {}, "propertiesFrom": ["point", "more"]},
}
NAMED: dict[str, Any] = {
    "concept": {},
    "value": {"dimensions": {"concept": "$concept"}},
    "given": {"dimensions": {"concept": "$parameter"}},
}
OUTER: dict[str, Any] = {
    "point": {"propertyGroups": {"Note": {"dimensions": {"concept": "eg:Note"}}, "none": {}}},
    "value": {"dimensions": {}, "propertiesFrom": ["point"]},
    "other": {"dimensions": {"concept": "eg:Note"}},
}
TEMPLATES: dict[str, Any] = {
    "columns": {"columns": COLUMNS},
    "points": {"columns": POINTS},
    "named": {"columns": NAMED},
    "outer": {"columns": OUTER, "dimensions": {"concept": "eg:Opened"}},
}
FACT = {"entity": "eg:A1", "period": "2025-12-31T00:00:00"}
WRONG = "BadFactValue (44)"


class DatesTest(FilingTest):
    """Filings of tables, each given by its template and text."""

    def convert(
        self, tables: Sequence[tuple[str, str]], words: Sequence[str] = (), **given: Mapping[str, str]
    ) -> tuple[int, bytes, str]:
        """Converts tables, which are t10, t11 .. by their order; `given` are their parameters."""
        named: dict[str, dict[str, Any]] = {
            f"t{number}": {"url": f"t{number}.csv", "template": template}
            for number, (template, _) in enumerate(tables, 10)
        }
        for name, parameters in given.items():
            named[name] = {**named[name], "parameters": dict(parameters)}
        module = meta(INFO, tableTemplates=TEMPLATES, tables=named, dimensions=FACT)
        texts = {f"reports/t{number}.csv": text for number, (_, text) in enumerate(tables, 10)}
        write(self.folder / "r", {"reports/report.json": meta({"extends": [f"{HOST}mod.json"]})})
        write(self.folder / "r", texts)
        taxonomy = {"META-INF/catalog.xml": catalog(rewrite()), "reg/mod.xsd": schema(CONCEPTS)}
        write(self.folder / "t", {**taxonomy, "reg/mod.json": module})
        return start(["r", "--taxonomy", "t", *words], self.folder)

    def converts(
        self, values: Sequence[Optional[str]], *tables: tuple[str, str], **given: Any
    ) -> None:
        """Checks the values of the facts."""
        status, out, err = self.convert(tables, **given)
        self.assertEqual((status, err), (0, ""))
        facts = json.loads(out)["facts"].values()
        self.assertEqual([fact["value"] for fact in facts], list(values))

    def refuses(self, line: str, *tables: tuple[str, str], **given: Any) -> None:
        """Checks the line of a refusal."""
        status, _, err = self.convert(tables, **given)
        self.assertEqual((status, err), (1, f"{line}\n"))


def fault(table: int, row: int, column: int) -> str:
    """Returns the line of xbrl-json for a cell that is not a date."""
    return f"xbrl-json: table t{table}, row {row}, column {column}: {WRONG}"


def neither(table: int, row: int, cell: int, text: str) -> str:
    """Returns the line of xbrl-filing for a cell that is not a date, of a file without quotes."""
    place = f"xbrl-filing: r/reports/t{table}.csv, line {row + 1}, cell {cell}"
    return f"{place}: '{text}' is neither a date nor a date with a time"


class TestColumns(DatesTest):
    """Columns of one concept each."""

    def test_dates(self) -> None:
        """Takes dates without a time, and cells without a value."""
        text = "Opened,Closed\n2025-01-01, 2025-01-02Z \n#nil,\n#none,2025-01-03\n"
        self.converts(["2025-01-01", "2025-01-02Z", None, "2025-01-03"], ("columns", text))

    def test_dates_with_times(self) -> None:
        """Takes dates with a time, one of which is in a typed dimension."""
        text = "Opened,Count,moment\n2025-01-01T00:00:00,1,2025-01-01T12:00:00\n"
        self.converts(["2025-01-01T00:00:00", "1"], ("columns", text))

    def test_both(self) -> None:
        """Takes both in one concept, in one table or two."""
        text = "Opened\n2025-01-01\n2025-01-01T00:00:00\n"
        self.converts(["2025-01-01", "2025-01-01T00:00:00"], ("columns", text))
        days, times = "Opened\n2025-01-01\n", "Opened\n2025-01-01T00:00:00\n"
        self.converts(
            ["2025-01-01", "2025-01-01T00:00:00"], ("columns", days), ("columns", times)
        )

    def test_concepts_apart(self) -> None:
        """The cells of one concept say nothing of another one."""
        text = "Opened,Closed,Note\n2025-01-01,2025-01-01T00:00:00,2025-01-01\n"
        self.converts(["2025-01-01", "2025-01-01T00:00:00", "2025-01-01"], ("columns", text))
        bad = text + ",2025-01-02,\nx,,\n"
        self.refuses(fault(10, 3, 1), ("columns", bad))

    def test_neither(self) -> None:
        """Refuses a cell that is not a date: after nil, a date, and a date with a time."""
        before = {"2025-13-40": "#nil", "soon": "2025-01-01", "##x": "2025-01-01T00:00:00"}
        for bad, good in before.items():
            with self.subTest(bad):
                self.refuses(fault(10, 2, 1), ("columns", f"Opened\n{good}\n{bad}\n"))

    def test_neither_after_both(self) -> None:
        """Refuses a cell that is not a date although the concept has cells of both forms."""
        both = "Note,Closed\nx,2025-01-01\nx,2025-01-01T00:00:00\n"
        for bad in ("2025-13-40", "#empty", "##x"):
            with self.subTest(bad):
                self.refuses(neither(10, 3, 2, bad), ("columns", f"{both},{bad}\n"))
        text = f"{both},#what\n"
        line = "xbrl-json: table t10, row 3, column 2: UnknownSpecial (31)"
        self.refuses(line, ("columns", text))

    def test_a_typed_dimension(self) -> None:
        """A typed dimension of times stays one."""
        text = "Opened,Count,moment\n2025-01-01,1,2025-01-01\n"
        line = "xbrl-json: table t10, row 1, column 2: BadValue (36)"
        self.refuses(line, ("columns", text))


class TestLevels(DatesTest):
    """Concepts of property groups, templates, cells and parameters."""

    def test_groups(self) -> None:
        """Each row has its own concept, by the first group that gives one."""
        rows = "Opened,,2025-01-01\nNote,,soon\nnone,Closed,2025-01-01T00:00:00\nCount,Closed,7\n"
        rows += "none,Closed,2025-01-01\n"
        values = ["2025-01-01", "soon", "2025-01-01T00:00:00", "7", "2025-01-01"]
        self.converts(values, ("points", f"point,more,value\n{rows}"))
        self.refuses(fault(10, 6, 3), ("points", f"point,more,value\n{rows}Opened,,soon\n"))
        both = f"point,more,value\n{rows}Opened,,2025-01-01T00:00:00\nNote,,late\nOpened,,soon\n"
        self.refuses(neither(10, 8, 3, "soon"), ("points", both))

    def test_templates(self) -> None:
        """A template gives the concept after groups, and a column before it."""
        rows = "none,2025-01-01,a\nNote,x,b\n,2025-01-01T00:00:00,c\n"
        values = ["2025-01-01", "a", "x", "b", "2025-01-01T00:00:00", "c"]
        self.converts(values, ("outer", f"point,value,other\n{rows}"))
        bad = f"point,value,other\n{rows}none,soon,d\n"
        self.refuses(neither(10, 4, 2, "soon"), ("outer", bad))

    def test_references(self) -> None:
        """A cell or a parameter names the concept."""
        text = "concept,value,given\neg:Opened,2025-01-01,2025-01-01T00:00:00\neg:Note,x,\n"
        values = ["2025-01-01", "2025-01-01T00:00:00", "x"]
        self.converts(values, ("named", text), t10={"parameter": "eg:Closed"})
        values = ["2025-01-01", "2025-01-01T00:00:00", "x"]
        self.converts(values, ("named", text), t10={"parameter": "eg:Opened"})
        bad = f"{text}eg:Opened,soon,\n"
        line = neither(10, 3, 2, "soon")
        self.refuses(line, ("named", bad), t10={"parameter": "eg:Opened"})
        self.refuses(fault(10, 3, 2), ("named", bad), t10={"parameter": "eg:Closed"})


class TestCache(DatesTest):
    """What a cache keeps does not depend on the cells of the filing that made it."""

    def test_filings_of_one_module(self) -> None:
        """Prepares filings with other cells after each other, as without a cache."""
        day, time = "2025-01-01", "2025-01-01T00:00:00"
        kept: list[Path] = []
        for rows in (day, time, f"{day}\n{time}", day, "soon"):
            tables = [
                ("columns", f"Opened\n{rows}\n"),
                ("points", f"point,more,value\nOpened,,{time}\nnone,Closed,{day}\n"),
                ("named", f"concept,value,given\neg:Closed,{time},{day}\n"),
            ]
            made: list[bytes] = []
            for words in ((), ("--cache", "c")):
                folder = f"p{len(kept)}{len(words)}"
                given = {"t12": {"parameter": "eg:Opened"}}
                status, _, err = self.convert(tables, ("--prepare", folder, *words), **given)
                self.assertEqual((status, err), (1, f"{neither(10, 1, 1, rows)}\n") if rows == "soon" else (0, ""))
                if status == 0:
                    made.append((self.folder / folder / "types.csv").read_bytes())
            self.assertEqual(made, made[:1] * len(made))
            kept += (self.folder / "c").glob("*.module")
        self.assertEqual(len(set(kept)), 1)


def feed(pipe: Path, text: str) -> None:
    """Gives a pipe this text. A reader that went away is left."""
    with suppress(BrokenPipeError), open(pipe, "w") as file:
        file.write(text)


class TestPipes(FilingTest):
    """A lone metadata file whose table is a pipe, which can be read only once."""

    def convert(self, dimensions: Mapping[str, str], text: str, **own: str) -> tuple[int, str, str]:
        """Converts a report whose table comes through a pipe; `own` are its own prefixes."""
        columns = {"v": {"dimensions": dimensions}, "x": {}}
        parts = {"tableTemplates": {"t": {"columns": columns}}, "tables": {"t": {"url": "t.csv"}}}
        info = {"extends": [f"{HOST}mod.json"], "namespaces": own}
        write(self.folder / "r", {"report.json": meta(info)})
        taxonomy = {"META-INF/catalog.xml": catalog(rewrite()), "reg/mod.xsd": schema(CONCEPTS)}
        module = meta(INFO, dimensions=FACT, **parts)
        write(self.folder / "t", {**taxonomy, "reg/mod.json": module})
        pipe: Path = self.folder / "r/t.csv"
        os.mkfifo(pipe)
        feeding = threading.Thread(target=feed, args=(pipe, text))
        feeding.start()
        try:
            status, out, err = start(["r/report.json", "--taxonomy", "t"], self.folder)
        finally:
            reader = os.open(pipe, os.O_RDONLY | os.O_NONBLOCK)
            feeding.join()
            os.close(reader)
            pipe.unlink()
        return status, out.decode(), err

    def converts(self, values: Sequence[str], dimensions: Mapping[str, str], text: str, **own: str) -> None:
        """Checks the values of the facts."""
        status, out, err = self.convert(dimensions, text, **own)
        self.assertEqual((status, err), (0, ""))
        self.assertEqual([it["value"] for it in json.loads(out)["facts"].values()], list(values))

    def test_dates(self) -> None:
        """Takes both forms, because nobody can look at them first."""
        values = ["2025-01-01", "2025-01-01T00:00:00"]
        self.converts(values, {"concept": "eg:Opened"}, "v,x\n2025-01-01,\n2025-01-01T00:00:00,\n")

    def test_members(self) -> None:
        """Looks no member up, because a cell may have one of a namespace without a schema."""
        dimensions = {"concept": "eg:Note", "eg:Region": "$x"}
        self.converts(["a", "b"], dimensions, "v,x\na,far:B\nb,eg:A\n")
        status, _, err = self.convert({**dimensions, "eg:Region": "eg:B"}, "v,x\na,\n")
        self.assertEqual((status, err), (1, "xbrl-json: table t, row 1, column 1: UnknownMember (47)\n"))

    def test_replaced_prefixes(self) -> None:
        """Refuses a pipe whose cells may name one in a text that is copied."""
        self.converts(["eg:x"], {"concept": "eg:Note"}, "v,x\neg:x,\n", g=EG)
        dimensions = {"concept": "eg:Note", "eg:Text": "$x"}
        self.converts(["a"], dimensions, "v,x\na,eg:x\n")
        status, out, err = self.convert(dimensions, "v,x\na,eg:x\n", g=EG)
        why = "is a pipe, which cannot be searched for the prefix 'eg', whose namespace has the prefix"
        what = "'g' here: give a file, or declare 'eg' instead of 'g' in r/report.json"
        self.assertEqual((status, out, err), (1, "", f"xbrl-filing: r/t.csv: {why} {what}\n"))
