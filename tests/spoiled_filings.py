"""Filings that are spoiled in one place each, and how the place is named.

Each is the same good filing, made of `tests.filing_samples`, with one mistake of a filer or a
supervisor. The rows of mistakes in cells are drawn by a fixed seed.
"""
from __future__ import annotations

import json
import random
from collections.abc import Iterator, Mapping
from typing import Any, NamedTuple, Optional

from tests.filing_samples import EG, HOST, Files, Text, as_bytes, catalog, meta, rewrite
from tests.filing_samples import headed, include, item, schema

SEED = 81
ROWS = 12
FOREIGN = "http://reg.example/members"
NAMESPACES = {
    "eg": EG,
    "eba": FOREIGN,
    "iso4217": "http://www.xbrl.org/2003/iso4217",
    "lei": "http://standards.iso.org/iso/17442",
    "xbrli": "http://www.xbrl.org/2003/instance",
}
ELEMENTS = (
    item("Cash", "xbrli:monetaryItemType", 'xbrli:periodType="instant"')
    + item("Note", "xbrli:stringItemType", 'xbrli:periodType="instant"')
    + item("Paid", "xbrli:booleanItemType", 'xbrli:periodType="instant"')
    + item("Due", "xbrli:dateItemType", 'xbrli:periodType="instant"')
    + item("Seen", "xbrli:dateTimeItemType", 'xbrli:periodType="instant"')
    + item("Share", "xbrli:decimalItemType", 'xbrli:periodType="instant"')
    + item("Count", "xbrli:nonNegativeIntegerItemType", 'xbrli:periodType="instant"')
    + item("Link", "xbrli:anyURIItemType", 'xbrli:periodType="instant"')
    + headed("Region xbrldt:dimensionItem", "Branch xbrldt:dimensionItem", more='abstract="true"')
).replace('name="Branch"', 'name="Branch" xbrldt:typedDomainRef="#domain"')
DOMAIN = '<xs:element name="domain" id="domain" type="xs:string"/>'
MEMBERS = "".join(
    f'<xs:element name="{it}" type="xbrli:stringItemType" substitutionGroup="xbrli:item"'
    ' abstract="true" xbrli:periodType="instant"/>'
    for it in ("AT", "BE", "CY")
)
OPEN: dict[str, Any] = {
    "rowIdColumn": "key",
    "dimensions": {"eg:Region": "$region", "eg:Branch": "$branch", "period": "$when@end"},
    "columns": {
        "key": {},
        "region": {},
        "branch": {},
        "when": {},
        "currency": {},
        "exact": {},
        "cash": {
            "dimensions": {"concept": "eg:Cash", "unit": "$currency"},
            "decimals": "$exact",
        },
        "note": {"dimensions": {"concept": "eg:Note"}},
        "paid": {"dimensions": {"concept": "eg:Paid"}},
        "due": {"dimensions": {"concept": "eg:Due"}},
        "share": {"dimensions": {"concept": "eg:Share", "unit": "xbrli:pure"}, "decimals": 4},
        "count": {"dimensions": {"concept": "eg:Count", "unit": "xbrli:pure"}, "decimals": 0},
        "seen": {"dimensions": {"concept": "eg:Seen"}},
    },
}
POINTS: dict[str, Any] = {
    "columns": {
        "datapoint": {
            "propertyGroups": {
                f"dp{at}": {
                    "dimensions": {
                        "concept": "eg:Cash",
                        "eg:Region": f"eba:{region}",
                        "unit": "$baseCurrency",
                    },
                    "decimals": "$decimals",
                }
                for at, region in enumerate(("AT", "BE", "CY"), 1)
            }
        },
        "factValue": {"dimensions": {}, "propertiesFrom": ["datapoint"]},
    }
}
INFO: dict[str, Any] = {"namespaces": NAMESPACES, "taxonomy": ["mod.xsd"]}
MODULE: dict[str, Any] = {
    "tableTemplates": {"open": OPEN, "points": POINTS},
    "tables": {
        "open": {"url": "open.csv"},
        "points": {"url": "points.csv"},
        "more": {"url": "more.csv", "template": "points", "optional": True},
    },
    "dimensions": {"entity": "$entityID", "period": "$refPeriod@end"},
    "parameterURL": "parameters.csv",
}
PARAMETERS = {
    "entityID": "lei:529900T8BM49AURSDO55",
    "refPeriod": "2025-12-31",
    "baseCurrency": "iso4217:EUR",
    "decimals": "-3",
}
GOOD_ROW = {
    "key": "r{}",
    "region": "eba:AT",
    "branch": "north {}",
    "when": "2025-12-31",
    "currency": "iso4217:EUR",
    "exact": "2",
    "cash": "{}0.5",
    "note": "text {}",
    "paid": "true",
    "due": "2025-06-{:02}",
    "share": "0.{}",
    "count": "{}",
    "seen": "2025-06-{:02}T08:00:00",
}
COLUMNS = list(GOOD_ROW)
REPORT_FILE, OPEN_FILE, POINTS_FILE = "report.json", "open.csv", "points.csv"
PARAMETER_FILE, MODULE_FILE, SCHEMA_FILE = "parameters.csv", "mod.json", "mod.xsd"
MORE_FILE = "more.csv"


class Spoiled(NamedTuple):
    """A spoiled filing: its files, and what the first two lines on standard error must have."""

    name: str
    report: Files
    taxonomy: Files
    wanted: tuple[str, ...]


def report(changes: Mapping[str, Optional[Text]] = {}) -> dict[str, Text]:
    """Returns the report's files by their names in the folder of reports, with changes."""
    rows = [",".join(it.format(row) for it in GOOD_ROW.values()) for row in range(1, ROWS + 1)]
    files: dict[str, Text] = {
        REPORT_FILE: json.dumps(json.loads(meta({"extends": [f"{HOST}mod.json"]})), indent=2),
        PARAMETER_FILE: "".join(
            f"{it}\n" for it in ("name,value", *map(",".join, PARAMETERS.items()))
        ),
        OPEN_FILE: "\n".join([",".join(COLUMNS), *rows, ""]),
        POINTS_FILE: "datapoint,factValue\ndp1,100\ndp2,200\ndp3,300\n",
    }
    return placed("reports", files, changes)


def placed(
    folder: str, files: Mapping[str, Text], changes: Mapping[str, Optional[Text]]
) -> dict[str, Text]:
    """Returns files in a folder, with changes; a file that becomes None is left out."""
    kept = {name: text for name, text in files.items() if name not in changes}
    new = {name: text for name, text in changes.items() if text is not None}
    return {f"{folder}/{name}": text for name, text in {**kept, **new}.items()}


def taxonomy(changes: Mapping[str, Optional[Text]] = {}) -> dict[str, Text]:
    """Returns the taxonomy's files by their names in the folder of the host, with changes."""
    files: dict[str, Text] = {
        MODULE_FILE: json.dumps(json.loads(meta(INFO, **MODULE)), indent=2),
        SCHEMA_FILE: schema("\n".join([include("members.xsd"), ELEMENTS, DOMAIN])),
        "members.xsd": schema(MEMBERS, FOREIGN),
    }
    made = placed("reg", files, changes)
    return {"META-INF/catalog.xml": catalog(rewrite()), **made}


def lines_of(name: str) -> list[str]:
    """Returns the lines of a file of the good report."""
    return as_bytes(report()[f"reports/{name}"]).decode().split("\n")


def in_report(name: str, file: str, text: Optional[Text], *wanted: str, **more: Text) -> Spoiled:
    """Returns the filing whose report has another file."""
    return Spoiled(name, report({file: text, **more}), taxonomy(), (f"r/reports/{file}", *wanted))


def in_module(name: str, spoil: Mapping[str, Any], *wanted: str, **info: Any) -> Spoiled:
    """Returns the filing whose module has other parts."""
    text = json.dumps(json.loads(meta({**INFO, **info}, **{**MODULE, **spoil})), indent=2)
    return Spoiled(name, report(), taxonomy({MODULE_FILE: text}), ("t/reg/mod.json", *wanted))


def in_open(name: str, part: str, more: Mapping[str, Any], *wanted: str) -> Spoiled:
    """Returns the filing whose template of the open table has more in one of its parts."""
    spoilt = {**OPEN, part: {**OPEN[part], **more}}
    templates = {"tableTemplates": {"open": spoilt, "points": POINTS}}
    return in_module(name, templates, "tableTemplates", "open", *wanted)


def in_own(name: str, parts: Mapping[str, Any], *wanted: str, **info: Any) -> Spoiled:
    """Returns the filing whose own metadata file has further parts."""
    text = meta({"extends": [f"{HOST}mod.json"], **info}, **parts)
    return in_report(name, REPORT_FILE, json.dumps(json.loads(text), indent=2), *wanted)


def with_cell(file: str, line: int, cell: int, text: Text) -> bytes:
    """Returns the text of a file of the report with another cell. Both count from 1."""
    lines = [it.encode() for it in lines_of(file)]
    cells = lines[line - 1].split(b",")
    cells[cell - 1] = as_bytes(text)
    lines[line - 1] = b",".join(cells)
    return b"\n".join(lines)


def cell(name: str, column: str, text: Text, dice: random.Random) -> Spoiled:
    """Returns the filing with a wrong cell in a row of the open table."""
    line, at = dice.randrange(2, ROWS + 2), COLUMNS.index(column) + 1
    spoilt = with_cell(OPEN_FILE, line, at, text)
    return in_report(name, OPEN_FILE, spoilt, f"line {line}", f"cell {at}")


# What filers write into cells, by the column.
CELLS: list[tuple[str, Text]] = [
    ("cash", '"1,050"'),
    ("cash", "1.050.000"),
    ("cash", "1 050"),
    ("cash", "1\u00a0050"),
    ("cash", "(1050)"),
    ("cash", "\u22121050"),
    ("cash", "10 EUR"),
    ("cash", "#REF!"),
    ("cash", "#N/A"),
    ("cash", "n/a"),
    ("share", "12%"),
    ("share", "0.5.5"),
    ("share", "1e-3"),
    ("count", "-1"),
    ("count", "1.0"),
    ("count", "many"),
    ("paid", "TRUE"),
    ("paid", "WAHR"),
    ("due", "31.12.2025"),
    ("due", "2025-02-30"),
    ("due", "45000"),
    ("note", "#none yet"),
    ("note", b"caf\xe9"),
    ("region", "AT"),
    ("region", "eba:DE"),
    ("region", "eba AT"),
    ("when", "31.12.2025"),
    ("when", "2025-13"),
    ("currency", "EUR"),
    ("currency", "iso4217:EURO EUR"),
    ("currency", "xbrli:pure"),
    ("exact", "two"),
    ("exact", "2.5"),
    ("seen", "6/11/2025"),
]


def cells() -> Iterator[Spoiled]:
    """Yields filings with a wrong cell."""
    dice = random.Random(SEED)
    for at, (column, text) in enumerate(CELLS, 1):
        yield cell(f"cell {at} {column}", column, text, dice)
    points = lines_of(POINTS_FILE)
    for line, group in ((2, "dp9"), (4, "DP3")):
        spoilt = with_cell(POINTS_FILE, line, 1, group)
        yield in_report(f"group {group}", POINTS_FILE, spoilt, f"line {line}", "cell 1")
    spoilt = with_cell(POINTS_FILE, 3, 2, "x")
    yield in_report("value of a point", POINTS_FILE, spoilt, "line 3", "cell 2")
    both = with_cell(OPEN_FILE, 3, COLUMNS.index("seen") + 1, "2025-06-01").split(b"\n")
    both[7] = b",".join([*both[7].split(b",")[:-1], b"yesterday"])
    where = "line 8", f"cell {len(COLUMNS)}"
    yield in_report("neither a date nor a time", OPEN_FILE, b"\n".join(both), *where)
    own = meta({"extends": [f"{HOST}mod.json"], "namespaces": {"mem": FOREIGN}})
    renamed = with_cell(OPEN_FILE, 5, 3, "eba:north").replace(b"eba:AT", b"mem:AT")
    where = "line 5", "cell 3"
    yield in_report("prefix of a cell", OPEN_FILE, renamed, *where, **{REPORT_FILE: own})
    more = "\n".join([*points[:2], "dp2,2OO", ""])
    yield in_report("optional table", MORE_FILE, more, "line 3", "cell 2")


def rows() -> Iterator[Spoiled]:
    """Yields filings with a wrong row."""
    lines = lines_of(OPEN_FILE)

    def with_line(line: int, text: str) -> str:
        return "\n".join([*lines[: line - 1], text, *lines[line:]])

    yield in_report("row too short", OPEN_FILE, with_line(4, "r3,eba:AT"), "line 4")
    yield in_report("row too long", OPEN_FILE, with_line(5, lines[4] + ",x"), "line 5")
    spoilt = with_cell(OPEN_FILE, 6, 1, "")
    yield in_report("row without identifier", OPEN_FILE, spoilt, "line 6", "cell 1")
    spoilt = with_cell(OPEN_FILE, 7, 1, "r 6")
    yield in_report("identifier that is not one", OPEN_FILE, spoilt, "line 7", "cell 1")
    spoilt = with_cell(OPEN_FILE, 9, 1, "r2")
    yield in_report("identifier twice", OPEN_FILE, spoilt, "line 9", "cell 1")
    spoilt = with_cell(OPEN_FILE, 8, 8, '"text')
    yield in_report("quote that is not closed", OPEN_FILE, spoilt, "line 8")


def headers() -> Iterator[Spoiled]:
    """Yields filings with a wrong header, or without one."""
    lines = lines_of(OPEN_FILE)
    for name, old, new in (
        ("misspelt", "currency", "curency"),
        ("capitals", "currency", "Currency"),
        ("blank", "currency", "currency "),
        ("empty", "currency", ""),
        ("twice", "currency", "cash"),
    ):
        at = COLUMNS.index("cash" if name == "twice" else old) + 1
        text = "\n".join([lines[0].replace(old, new), *lines[1:]])
        yield in_report(f"header {name}", OPEN_FILE, text, "line 1", f"cell {at}")
    points = "\n".join(lines_of(POINTS_FILE))
    for name, text, more in (
        ("semicolons", points.replace(",", ";"), "cell 1"),
        ("tabs", points.replace(",", "\t"), "cell 1"),
        ("sep", "sep=,\n" + points, "line 1"),
    ):
        yield in_report(f"header {name}", POINTS_FILE, text, "line 1", more)
    yield in_report("UTF-16", POINTS_FILE, points.encode("utf-16"), "line 1")
    yield in_report("table without text", POINTS_FILE, "")


def parameters() -> Iterator[Spoiled]:
    """Yields filings with a wrong parameter."""
    names = list(PARAMETERS)
    for name, text in (
        ("refPeriod", "30.09.2025"),
        ("refPeriod", "2025-Q5"),
        ("baseCurrency", "EUR"),
        ("baseCurrency", "Euro"),
        ("entityID", "529900T8BM49AURSDO55"),
        ("decimals", "three"),
    ):
        line = names.index(name) + 2
        spoilt = with_cell(PARAMETER_FILE, line, 2, text)
        where = f"line {line}", "cell 2"
        yield in_report(f"parameter {name} {text}", PARAMETER_FILE, spoilt, *where)
    lines = lines_of(PARAMETER_FILE)

    def spelt(name: str, line: int, text: str, *wanted: str) -> Spoiled:
        changed = "\n".join([*lines[: line - 1], text, *lines[line:]])
        return in_report(f"parameters {name}", PARAMETER_FILE, changed, *wanted)

    yield spelt("header", 1, "Name,Value", "line 1")
    yield spelt("one cell", 3, "refPeriod", "line 3")
    yield spelt("semicolon", 4, "baseCurrency;iso4217:EUR", "line 4")
    yield spelt("twice", 5, lines[1], "line 5", "cell 1")
    yield spelt("capitals", 4, "BaseCurrency,iso4217:EUR", "line 4", "cell 1")
    yield spelt("without entity", 2, "other,x", "'entityID'")
    own = meta({"extends": [f"{HOST}mod.json"], "namespaces": {"LEI": NAMESPACES["lei"]}})
    place = f"r/reports/{PARAMETER_FILE}", "line 2", "cell 2"
    yield Spoiled("prefix of a parameter", report({REPORT_FILE: own}), taxonomy(), place)
    yield spelt("value left out", 2, "entityID,", "line 2", "cell 2")


def of_the_report() -> Iterator[Spoiled]:
    """Yields filings whose own metadata file is wrong."""
    good = "\n".join(lines_of(REPORT_FILE))
    broken = good.replace('"extends"', "extends")
    line = next(at for at, it in enumerate(broken.split("\n"), 1) if " extends" in it)
    yield in_report("report that is not JSON", REPORT_FILE, broken, f"line {line}")
    twice = good.rstrip()[:-1].rstrip() + ',\n  "documentInfo": {}\n}\n'
    yield in_report("key twice", REPORT_FILE, twice, "documentInfo")
    yield in_report("other module", REPORT_FILE, good.replace("mod.json", "mud.json"), "extends")
    other = good.replace("xbrl-csv", "xbrl-tsv")
    named = "reports/report.json has the document type", "xbrl-tsv"
    yield Spoiled("other type", report({REPORT_FILE: other}), taxonomy(), named)
    yield in_own("parameter of the report", {"parameters": {"refPeriod": "June"}}, "refPeriod")
    language = {"dimensions": {"language": "e n"}}
    yield in_own("language of the report", language, "dimensions", "language")
    yield in_own("entity of the report", {"dimensions": {"entity": "#x"}}, "dimensions", "entity")
    table = {"tables": {"mine": {"url": "points.csv", "template": "Points"}}}
    yield in_own("template of the report", table, "mine", "template")
    yield in_own("prefix", {}, "namespaces", namespaces={"e g": EG})


def of_the_taxonomy() -> Iterator[Spoiled]:
    """Yields filings whose module or schema is wrong."""
    note = {"note": {"dimensions": {"concept": "eg:Remark"}}}
    yield in_open("concept", "columns", note, "columns", "note", "concept")
    yield in_open("dimension", "dimensions", {"eg:Town": "$branch"}, "dimensions", "eg:Town")
    share = {"share": {**OPEN["columns"]["share"], "decimals": "4.5"}}
    yield in_open("decimals", "columns", share, "columns", "share", "decimals")
    tables = {**MODULE["tables"], "open": {"url": "../open.csv"}}
    yield in_module("url", {"tables": tables}, "tables", "open", "url")
    yield in_module("entry point", {}, "mud.xsd", taxonomy=["mud.xsd"])
    text = as_bytes(taxonomy()["reg/mod.xsd"]).decode()
    line = 1 + text.split("Due")[0].count("\n")
    wrong = text.replace('name="Due"', "name=Due")
    of_schema = "t/reg/mod.xsd", f"line {line}"
    yield Spoiled("schema", report(), taxonomy({SCHEMA_FILE: wrong}), of_schema)
    wrong = text.replace("xbrli:dateItemType", "xsi:dateItemType")
    yield Spoiled("type of a schema", report(), taxonomy({SCHEMA_FILE: wrong}), of_schema)
    gone = taxonomy({"members.xsd": None})
    yield Spoiled("schema that is missing", report(), gone, ("t/reg/mod.xsd", "members.xsd"))


def files() -> Iterator[Spoiled]:
    """Yields filings that have a file too many or too few."""
    yield in_report("table that is missing", OPEN_FILE, None)
    yield in_report("parameters that are missing", PARAMETER_FILE, None)
    yield in_report("file that nothing names", "Open2.csv", "a\n1\n")


def spoiled() -> list[Spoiled]:
    """Returns all spoiled filings."""
    parts = cells(), rows(), headers(), parameters(), of_the_report(), of_the_taxonomy(), files()
    return [it for part in parts for it in part]
