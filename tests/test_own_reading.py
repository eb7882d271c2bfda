"""Compares the program with a second reading: these tests make reports and read them themselves.

The reports have what a converter with caches may get wrong: references with more texts than are
kept, in an order in which they return; property groups in two columns, with over a thousand
choices; row numbers as references; decimals by reference and by suffix; a row of 300 facts; texts
with an escaped character at each of 41 places. Each is converted with several numbers of workers
and ring sizes.
"""
from __future__ import annotations

import csv
import json
from collections.abc import Iterator
from pathlib import Path
from typing import Any, Optional, Union

from tests.harness import CaseTest, for_each

DIMENSIONS = {"entity": "eg:A1", "period": "2021-12-31T00:00:00"}
NAMESPACES = {"eg": "http://example.com/eg", "iso4217": "http://www.xbrl.org/2003/iso4217"}
TAXONOMY = ["http://example.com/eg.xsd"]
TYPES = {"Amount": "decimal", "Note": "text", "Region": "explicit"}
TYPES.update({it: "typed" for it in ("Customer", "Line", "Kind", "Channel")})
KINDS: dict[str, dict[str, str]] = {
    "one": {"eg:Kind": 'first "kind"'},
    "two": {"eg:Kind": "second"},
    "none": {},
}
CHANNELS = {
    "shop": {"eg:Channel": "shop"},
    "net": {"eg:Channel": "n\u00e9t", "eg:Region": "eg:Nowhere"},
}
REFERENCES = {"eg:Customer": "customer", "eg:Region": "region"}
REFERENCES.update({"unit": "currency", "period": "day"})
TO_ESCAPE = '"\\\n\r\t\b\f\x01\x1f\x7f\u00e9\u2028\U0001f600'

# A row: its cells by their columns. A fact: its column, decimals, dimensions and value.
Row = dict[str, str]
Fact = tuple[str, Optional[str], dict[str, str], str]


def text(value: str) -> str:
    """Returns a text as JSON."""
    return json.dumps(value, ensure_ascii=False)


def member(identifier: str, decimals: str | None, dimensions: dict[str, str], value: str) -> str:
    """Returns the text of a fact."""
    stated = "" if decimals is None else f'"decimals":{decimals},'
    inside = ",".join(f"{text(name)}:{text(dimensions[name])}" for name in sorted(dimensions))
    return f'{text(identifier)}:{{{stated}"dimensions":{{{inside}}},"value":{text(value)}}}'


def reading(cell: str) -> str | None:
    """Returns the meaning of a cell: nothing, or a text."""
    return None if cell in ("", "#none") else cell[1:] if cell.startswith("##") else cell


def amount(cell: str) -> tuple[str, str | None]:
    """Returns the numeral of a cell, and the decimals of its suffix."""
    numeral, _, suffix = cell.partition("d")
    return numeral, suffix or None


class Sales:
    """Rows of three amounts under references, and under property groups of two columns."""

    name = "sales"
    template: dict[str, Any] = {
        "columns": {
            **{name: {} for name in ("customer", "region", "currency", "day", "places")},
            "kind": {"propertyGroups": {name: {"dimensions": it} for name, it in KINDS.items()}},
            "channel": {
                "propertyGroups": {name: {"dimensions": it} for name, it in CHANNELS.items()}
            },
            **{
                f"a{i}": {
                    "dimensions": {
                        "concept": "eg:Amount",
                        "eg:Line": "$rowNumber",
                        **{name: f"${it}" for name, it in REFERENCES.items()},
                    },
                    "decimals": "$places",
                    "propertiesFrom": ["kind", "channel"],
                }
                for i in range(3)
            },
        }
    }

    @staticmethod
    def rows() -> Iterator[Row]:
        """Makes 700 rows, whose texts return in another order than at first."""
        for i in range(700):
            named = f"customer {i * 7 % 45}" + ' "x"' * (i % 4 == 1)
            customer = ["", "##1", "#none"][i % 3] if i % 11 == 0 else named
            yield {
                "customer": customer,
                "region": f"eg:R{i * 5 % 40}",
                "currency": "iso4217:" + ["EUR", "USD", "GBP"][i % 3],
                "day": f"20{i % 60 + 10}-0{i % 9 + 1}-{i % 19 + 10}T00:00:00",
                "places": str(i % 37 - 18),
                "kind": list(KINDS)[i // 2 % 3],
                "channel": list(CHANNELS)[i // 3 % 2],
                **{f"a{k}": ["", f"{i}.{k}0", f"-{i}d{k}"][(i + k) % 3] for k in range(3)},
            }

    @staticmethod
    def facts(number: int, row: Row) -> Iterator[Fact]:
        """Yields the facts of a row: one for each amount."""
        for k in range(3):
            if row[f"a{k}"]:
                value, suffix = amount(row[f"a{k}"])
                groups = {**CHANNELS[row["channel"]], **KINDS[row["kind"]]}
                own = {"concept": "eg:Amount", "eg:Line": str(number)}
                dimensions = {**DIMENSIONS, **groups, **own}
                for name, column in REFERENCES.items():
                    said = reading(row[column])
                    dimensions.pop(name, None)
                    dimensions.update({} if said is None else {name: said})
                yield f"a{k}", suffix or row["places"], dimensions, value


class Wide:
    """Rows of 300 facts."""

    name = "wide"
    template: dict[str, Any] = {
        "dimensions": {"concept": "eg:Amount", "unit": "iso4217:EUR"},
        "columns": {f"c{i}": {"dimensions": {"eg:Line": f"column {i}"}} for i in range(300)},
    }

    @staticmethod
    def rows() -> Iterator[Row]:
        """Makes five rows of 300 numbers."""
        for i in range(5):
            yield {f"c{k}": str(i * k) for k in range(300)}

    @staticmethod
    def facts(number: int, row: Row) -> Iterator[Fact]:
        """Yields the facts of a row: one for each cell."""
        for name, value in row.items():
            own = {"concept": "eg:Amount", "unit": "iso4217:EUR", "eg:Line": f"column {name[1:]}"}
            yield name, None, {**DIMENSIONS, **own}, value


class Notes:
    """Texts with a character to escape at each place, as values and as dimensions."""

    name = "notes"
    template: dict[str, Any] = {
        "columns": {
            "customer": {},
            "note": {"dimensions": {"concept": "eg:Note", "eg:Customer": "$customer"}},
        }
    }

    @staticmethod
    def rows() -> Iterator[Row]:
        """Makes a row for each character to escape at each place, in a value and in a dimension."""
        for character in TO_ESCAPE:
            for place in range(41):
                customer = "c" * place + character + "d" * (place % 7)
                note = "a" * place + character + "b" * (40 - place)
                yield {"customer": customer, "note": note}

    @staticmethod
    def facts(number: int, row: Row) -> Iterator[Fact]:
        """Yields the one fact of a row."""
        own = {"concept": "eg:Note", "eg:Customer": row["customer"]}
        yield "note", None, {**DIMENSIONS, **own}, row["note"]


class Groups:
    """Two columns of 40 property groups each: a row for each of the 1,600 choices."""

    name = "groups"
    template: dict[str, Any] = {
        "columns": {
            "kind": {
                "propertyGroups": {
                    f"k{i}": {"dimensions": {"eg:Kind": f"kind {i}"}} for i in range(40)
                }
            },
            "channel": {
                "propertyGroups": {
                    f"c{i}": {"dimensions": {"eg:Channel": f"channel {i}"}} for i in range(40)
                }
            },
            "a": {"dimensions": {"concept": "eg:Amount"}, "propertiesFrom": ["kind", "channel"]},
        }
    }

    @staticmethod
    def rows() -> Iterator[Row]:
        """Makes a row for each choice of two groups."""
        for i in range(1600):
            yield {"kind": f"k{i // 40}", "channel": f"c{i % 40}", "a": str(i)}

    @staticmethod
    def facts(number: int, row: Row) -> Iterator[Fact]:
        """Yields the one fact of a row."""
        kind, channel = f"kind {row['kind'][1:]}", f"channel {row['channel'][1:]}"
        own = {"concept": "eg:Amount", "eg:Kind": kind, "eg:Channel": channel}
        yield "a", None, {**DIMENSIONS, **own}, row["a"]


Table = Union[type[Sales], type[Wide], type[Notes], type[Groups]]


def info_of(form: str) -> dict[str, Any]:
    """Returns the documentInfo of a report or a document."""
    return {
        "documentType": f"https://xbrl.org/2021/xbrl-{form}",
        "namespaces": NAMESPACES,
        "taxonomy": TAXONOMY,
    }


def write_report(folder: Path, tables: list[Table]) -> None:
    """Writes the files of a report."""
    report = {
        "documentInfo": info_of("csv"),
        "dimensions": DIMENSIONS,
        "tableTemplates": {it.name: it.template for it in tables},
        "tables": {it.name: {"url": f"{it.name}.csv"} for it in tables},
    }
    (folder / "meta.json").write_text(json.dumps(report))
    types = "".join(f"{NAMESPACES['eg']},{name},{it}\n" for name, it in TYPES.items())
    (folder / "types.csv").write_text("namespace,name,type\n" + types)
    for table in tables:
        rows = list(table.rows())
        with open(folder / f"{table.name}.csv", "w", newline="", encoding="utf-8") as file:
            names = rows[0].keys()
            writer = csv.DictWriter(file, names, quoting=csv.QUOTE_ALL, lineterminator="\n")
            writer.writeheader()
            writer.writerows(rows)


def document(tables: list[Table]) -> str:
    """Returns the document by the own reading."""
    facts = [
        member(f"{table.name}.r_{number}.{fact[0]}", *fact[1:])
        for table in sorted(tables, key=lambda it: it.name)
        for number, row in enumerate(table.rows(), 1)
        for fact in table.facts(number, row)
    ]
    info = json.dumps(info_of("json"), separators=(",", ":"))
    return '{"documentInfo":' + info + ',"facts":{' + ",".join(facts) + "}}\n"


REPORTS: dict[str, list[Table]] = {
    "groups": [Groups],
    "sales": [Sales],
    "wide rows": [Wide],
    "notes": [Notes],
    "three tables": [Sales, Wide, Notes],
}


@for_each((name, (tables,)) for name, tables in REPORTS.items())
class TestOwnReading(CaseTest):
    """Converts reports, and compares the documents with those by the own reading."""

    def check(self, tables: list[Table]) -> None:
        """Converts a report in several ways."""
        write_report(self.folder, tables)
        wanted = document(tables).encode()
        for workers, ring in ((1, 1), (1, 1024), (2, 4), (4, 1024)):
            with self.subTest(workers=workers, ring=ring):
                words = ["meta.json", "--types", "types.csv", f"--workers={workers}"]
                self.check_run(self.run_program(*words, f"--ring={ring}"), 0, wanted, "")
