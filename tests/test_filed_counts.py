"""Compares the counts of summaries with those of a second reading, over filings made by chance.

`tests/own_reading.py`, which shares no code with the programs, reads the tables. Each filing has a
module of its own: tables of one template or several, optional ones without a file, units, decimals,
entities and periods that are given, absent or taken from a cell or a parameter, property groups,
row identifiers, special values, blank lines and cells below an empty header. All filings are
converted in one run, whose sums are compared too.
"""
from __future__ import annotations

import csv
import io
import json
from random import Random
from typing import Any, NamedTuple, Optional

from tests.filing_samples import EG, HOST, Files, catalog, item, meta, pack, rewrite, schema
from tests.filings import FilingTest, start
from tests.own_reading import Report

FILINGS = 40
MEMBERS = ("rows", "facts", "withoutUnit", "withoutDecimals", "withoutEntity", "withoutPeriod")
NAMESPACES = {
    "eg": EG,
    "iso4217": "http://www.xbrl.org/2003/iso4217",
    "xbrli": "http://www.xbrl.org/2003/instance",
}
KINDS = {"Amount": "decimal", "Count": "integer", "Note": "text"}
TYPES = {f"{EG} {name}": kind for name, kind in {**KINDS, "Branch": "typed"}.items()}
SCHEMA = schema(
    item("Amount", "xbrli:decimalItemType")
    + item("Count", "xbrli:integerItemType")
    + item("Note")
    + '<xs:element name="Branch" substitutionGroup="xbrldt:dimensionItem" abstract="true"'
    ' xbrldt:typedDomainRef="#b"/>'
)
INSTANT = "2025-12-31T00:00:00"
# What a level may have, and the cells of the columns that it may refer to.
WAYS: dict[str, tuple[Optional[str], ...]] = {
    "unit": (None, None, "iso4217:EUR", "xbrli:pure", "$currency", "$base", "#none"),
    "entity": (None, "eg:A1", "$who", "#none"),
    "period": (None, INSTANT, "$day", "#none"),
    "eg:Branch": (None, "north", "$branch"),
}
DECIMALS = (None, None, 2, -3, "$places")
REFERRED = {
    "currency": ("", "iso4217:EUR", "iso4217:USD", "xbrli:pure", "#none"),
    "who": ("", "eg:A1", "eg:B-2", "#none"),
    "day": ("", INSTANT, "2024-01-01T00:00:00/2025-01-01T00:00:00"),
    "branch": ("", "north", "##1", "#nil"),
    "places": ("", "0", "-6", "INF", "#none"),
    "kind": ("", "one", "two", "three", "#none"),
}
CELLS = {
    "Amount": ("", "#none", "#nil", "12.5", "-3", "7d1", "8dINF", " 4 "),
    "Count": ("", "#nil", "12", "-3d0", "+5"),
    "Note": ("", "#none", "#nil", "#empty", "##x", "word", 'a "b", c', "two\nlines"),
}
GROUPS: dict[str, dict[str, Any]] = {
    "one": {"dimensions": {"unit": "iso4217:USD"}, "decimals": 1},
    "two": {"dimensions": {"period": INSTANT, "entity": "eg:C3"}},
    "three": {},
}


class Made(NamedTuple):
    """A filing: its module without `documentInfo`, its parameters, the records of its tables."""

    module: dict[str, Any]
    parameters: dict[str, str]
    tables: dict[str, list[list[str]]]


def dimensions(chance: Random) -> dict[str, str]:
    """Returns what a level gives, besides the concept."""
    found = {name: chance.choice(ways) for name, ways in WAYS.items()}
    return {name: text for name, text in found.items() if text is not None}


def column(chance: Random) -> dict[str, Any]:
    """Returns a column with facts."""
    made: dict[str, Any] = {
        "dimensions": {"concept": f"eg:{chance.choice(list(KINDS))}", **dimensions(chance)}
    }
    decimals = chance.choice(DECIMALS)
    if decimals is not None:
        made["decimals"] = decimals
    if chance.random() < 0.4:
        made["propertiesFrom"] = ["kind"]
    return made


def template(chance: Random) -> dict[str, Any]:
    """Returns a template: columns with facts, and those that they may refer to."""
    columns: dict[str, Any] = {f"f{number}": column(chance) for number in range(chance.randint(1, 4))}
    columns.update({name: {} for name in REFERRED})
    columns["kind"] = {"propertyGroups": GROUPS}
    made: dict[str, Any] = {"columns": columns}
    if chance.random() < 0.5:
        made["dimensions"] = dimensions(chance)
    if chance.random() < 0.3:
        columns["id"] = {}
        made["rowIdColumn"] = "id"
    return made


def records(chance: Random, made: dict[str, Any]) -> list[list[str]]:
    """Returns the header and rows of a table."""
    columns = made["columns"]
    header = [name for name in columns if name == made.get("rowIdColumn") or chance.random() < 0.8]
    header += [""] * chance.choice((0, 0, 1, 2))
    chance.shuffle(header)
    rows = []
    for number in range(chance.choice((0, 1, 3, 40))):
        row = []
        for name in header:
            concept = columns.get(name, {}).get("dimensions", {}).get("concept", ":")
            cells = CELLS.get(concept.partition(":")[2], REFERRED.get(name, ("", "left out")))
            row.append(f"row-{number}" if name == "id" else chance.choice(cells))
        rows.append(row)
    return [header, *rows]


def filing(chance: Random) -> Made:
    """Returns a filing."""
    templates = {f"p{number}": template(chance) for number in range(chance.randint(1, 3))}
    tables: dict[str, dict[str, Any]] = {}
    filed: dict[str, list[list[str]]] = {}
    for name in chance.sample(["a", "B", "c_1", "d-2", "Z9", "_e"], chance.randint(1, 5)):
        tables[name] = {"url": f"{name}.csv", "template": chance.choice(list(templates))}
        if chance.random() < 0.3:
            tables[name]["parameters"] = {"base": "xbrli:pure", "currency": "iso4217:SEK"}
        is_absent = chance.random() < 0.3
        if is_absent or chance.random() < 0.3:
            tables[name]["optional"] = True
        if not is_absent:
            filed[name] = records(chance, templates[tables[name]["template"]])
    module: dict[str, Any] = {"tableTemplates": templates, "tables": tables}
    if chance.random() < 0.5:
        module["dimensions"] = dimensions(chance)
    if chance.random() < 0.3:
        module["decimals"] = 0
    return Made(module, {"base": "iso4217:GBP"}, filed)


def as_csv(chance: Random, lines: list[list[str]]) -> str:
    """Returns the text of a table, with blank lines here and there."""
    made = io.StringIO()
    writer = csv.writer(made, lineterminator="\n")
    for line in lines:
        made.write("\n" * chance.choice((0, 0, 0, 0, 2)))
        writer.writerow(line)
    return made.getvalue()


def own_counts(made: Made) -> dict[str, dict[str, int]]:
    """Returns the counts of each filed table, by the second reading."""
    info = {"namespaces": NAMESPACES, "taxonomy": []}
    metadata = {"documentInfo": info, "parameters": made.parameters, **made.module}
    report = Report(metadata, TYPES, made.tables)
    found: dict[str, dict[str, int]] = {}
    for name, lines in made.tables.items():
        facts = [members for row in report.rows_of(name) for _, members in row]
        without = [
            sum(key not in members["dimensions"] for members in facts)
            for key in ("unit", "entity", "period")
        ]
        exact = sum("decimals" not in members for members in facts)
        numbers = (len(lines) - 1, len(facts), without[0], exact, without[1], without[2])
        found[name] = dict(zip(MEMBERS, numbers))
    return found


def sums(counts: list[dict[str, int]]) -> dict[str, int]:
    """Returns the sums of some counts."""
    return {name: sum(count[name] for count in counts) for name in MEMBERS}


class TestCounts(FilingTest):
    """Counts of filings that are made by chance."""

    def package(self, number: int, made: Made, chance: Random) -> Files:
        """Packs a report, and returns the files of its module."""
        own = {f"reports/{name}.csv": as_csv(chance, made.tables[name]) for name in made.tables}
        own["reports/report.json"] = meta({"extends": [f"{HOST}m{number}.json"]})
        given = "".join(f"{name},{text}\n" for name, text in made.parameters.items())
        own["reports/parameters.csv"] = f"name,value\n{given}"
        pack(self.folder / f"{number}.zip", own)
        info = {"namespaces": NAMESPACES, "taxonomy": ["mod.xsd"]}
        module = meta(info, parameterURL="parameters.csv", **made.module)
        return {f"reg/m{number}.json": module}

    def summary(self, name: str) -> Any:
        """Returns a summary."""
        return json.loads((self.folder / name).read_text())

    def test_counts_of_a_second_reading(self) -> None:
        """Has the same rows, facts and facts without something, of each table and in sum."""
        chance = Random(2026)
        filings = [filing(chance) for _ in range(FILINGS)]
        modules = [self.package(at, made, chance) for at, made in enumerate(filings)]
        taxonomy: dict[str, Any] = {"META-INF/catalog.xml": catalog(rewrite()), "reg/mod.xsd": SCHEMA}
        for module in modules:
            taxonomy.update(module)
        pack(self.folder / "t.zip", taxonomy)
        reports = [f"{number}.zip" for number in range(FILINGS)]
        words = [*reports, "--taxonomy", "t.zip", "--into", "out", "--summary", "all.json"]
        status, _, err = start(words, self.folder)
        self.assertEqual(status, 0, err)
        wanted = [own_counts(made) for made in filings]
        for number, (made, counts) in enumerate(zip(filings, wanted)):
            summary = self.summary(f"out/{number}.summary.json")
            seen = {it["table"]: {name: it[name] for name in MEMBERS} for it in summary["tables"]}
            absent = sorted(set(made.module["tables"]) - set(made.tables))
            left_out = sorted(it["table"] for it in summary["optionalWithoutFile"])
            self.case(f"filing {number}", (seen, left_out), (counts, absent))
            self.case(f"total of {number}", summary["total"], sums(list(counts.values())))
        every = sums([count for counts in wanted for count in counts.values()])
        self.assertEqual(self.summary("all.json")["total"], every)
        self.assertGreater(min(every.values()), 100, every)
        self.assertLess(max(every[name] for name in MEMBERS[2:]), every["facts"])
