#!/usr/bin/env python3
"""Writes a large valid xBRL-CSV report into a folder, the same bytes for the same arguments.

    generate.py FOLDER [--shape positions] [--megabytes 64] [--tables N] [--largest PERCENT]
                [--row-ids]

FOLDER gets meta.json, types.csv, t01.csv and so on, and sizes.json (bytes of CSV, rows and facts).
The tables have equal sizes, in sum just above the given megabytes (of 1,000,000 bytes). With
--largest the fourth, or the last of fewer, has that share of the bytes. There are eight tables, or
three for the shapes `datapoints` and `wide`, unless --tables gives another number.

The shape `positions`: each row has five fact columns: an amount in the row's currency, a price with
the unit of a property group, a count, a rate with an exponent and its own decimals, and a text with
quotes and letters beyond ASCII. The period is a reference to a cell, the counterparty a typed
dimension, the region an explicit one. With --row-ids the rows have identifiers of their own, which
the converter keeps in memory to find one that repeats.

The shape `mixed`: rows have identifiers; each has a description of 10 to 80 characters, some with
quotes and umlauts, amounts, some of them nil or empty, typed and explicit dimensions by reference,
three property groups, and decimals by suffix and by reference. The last table has another template,
with 200 columns.

The shape `texts`: rows have identifiers; each has a title, a comment of 40 to 240 characters and a
reply, most of them quoted, with commas, doubled quotes, umlauts and letters of three and four
bytes. Some replies are nil or empty. There is an amount with the decimals of a property group, and
an estimate with decimals by suffix or by reference. The author is a typed dimension.

The shape `datapoints` is the form in which banking supervisors publish: a column with 10,000
property groups, one for each data point, and each row names another one. A group has the concept,
two members, and the unit and decimals by parameters of the report. Each row has a typed key, and
one column has all values.

The shape `wide` has only the template of 200 columns of `mixed`.
"""
from __future__ import annotations

import argparse
import json
from pathlib import Path
from typing import Any, Callable, Tuple

NAMESPACE = "https://example.org/bench"
TYPES = """namespace,name,type
https://example.org/bench,Amount,decimal
https://example.org/bench,Price,decimal
https://example.org/bench,Count,integer
https://example.org/bench,Rate,double
https://example.org/bench,Remark,text
https://example.org/bench,Counterparty,typed
https://example.org/bench,Region,explicit
"""
PERIODS = ["2025-01", "2025Q2", "2025H1", "2025W07", "2025-03-14", "2025-02-01..2025-02-14", "2025-01-01T00:00:00/2025-07-01T00:00:00"]
CURRENCIES = ["EUR", "USD", "DKK", "JPY"]
MARKETS = ["paris", "oslo", ""]
REGIONS = ["North", "South", "East", "West", "Überall"]
REMARKS = ["", "settled", "awaiting the broker's reply", "\"urgent\", see page 3", "Größe geprüft", "C:\\files\\scan.pdf", "##2 of 3", "#nil"]


class Numbers:
    """A linear congruential generator of 64 bits, so that no version of Python changes the bytes.
    """

    def __init__(self, seed: int) -> None:
        """Numbers that follow from a seed."""
        self.state = seed

    def below(self, n: int) -> int:
        """The next number, which is less than n."""
        self.state = (self.state * 6364136223846793005 + 1442695040888963407) % 2**64
        return (self.state >> 33) % n


# What makes the line of a row from its number, and counts its facts.
RowOf = Callable[[Numbers, int], Tuple[str, int]]


def group(unit: str, decimals: int) -> dict[str, Any]:
    """A property group of a unit and decimals."""
    return {"dimensions": {"unit": unit}, "decimals": decimals}


def metadata(tables: list[str], row_ids: bool) -> dict[str, Any]:
    """The metadata of the shape `positions`."""
    columns: dict[str, Any] = {
        "period": {},
        "currency": {},
        "party": {},
        "region": {},
        "market": {"propertyGroups": {"paris": group("iso4217:EUR/xbrli:shares", 3), "oslo": group("iso4217:NOK/xbrli:shares", 2)}},
        "amount": {"dimensions": {"concept": "b:Amount", "unit": "$currency"}, "decimals": 2},
        "price": {"dimensions": {"concept": "b:Price"}, "propertiesFrom": ["market"]},
        "count": {"dimensions": {"concept": "b:Count", "unit": "xbrli:pure"}, "decimals": "INF"},
        "rate": {"dimensions": {"concept": "b:Rate", "unit": "xbrli:pure"}},
        "remark": {"dimensions": {"concept": "b:Remark", "language": "en"}},
    }
    template: dict[str, Any] = {
        "dimensions": {"period": "$period", "b:Counterparty": "$party", "b:Region": "$region"},
        "columns": {"id": {}, **columns} if row_ids else columns,
    }
    if row_ids:
        template["rowIdColumn"] = "id"
    return {
        "documentInfo": {
            "documentType": "https://xbrl.org/2021/xbrl-csv",
            "namespaces": {
                "b": NAMESPACE,
                "e": "https://example.org/entities",
                "iso4217": "http://www.xbrl.org/2003/iso4217",
                "xbrli": "http://www.xbrl.org/2003/instance",
            },
            "taxonomy": [NAMESPACE + "/bench.xsd"],
        },
        "parameters": {"unit": "iso4217:EUR"},
        "dimensions": {"entity": "e:BANK-1", "unit": "$unit"},
        "decimals": 0,
        "tableTemplates": {"positions": template},
        "tables": {t: {"url": f"{t}.csv", "template": "positions"} for t in tables},
    }


WORDS = ["premium", "reserve", "claim", "Rückstellung", "policy", "broker", "reinsurer", "für", "quarter", "Prämie", "ledger", "adjusted"]
GROUPS = ["gross", "net", "ceded"]
WIDE = 198

MIXED_TYPES = """namespace,name,type
https://example.org/bench,Amount,decimal
https://example.org/bench,Share,double
https://example.org/bench,Count,integer
https://example.org/bench,Description,text
https://example.org/bench,Policy,typed
https://example.org/bench,Line,explicit
"""


def mixed_metadata(tables: list[str], is_wide: bool = False) -> dict[str, Any]:
    """The metadata of the shape `mixed`, or `wide`."""
    groups = {"gross": group("iso4217:EUR", 2), "net": group("iso4217:DKK", 0), "ceded": group("iso4217:SEK", -3)}
    lines = {
        "id": {},
        "line": {},
        "policy": {},
        "places": {},
        "basis": {"propertyGroups": groups},
        "amount": {"dimensions": {"concept": "b:Amount"}, "propertiesFrom": ["basis"]},
        "paid": {"dimensions": {"concept": "b:Amount", "period": "$year@end"}, "decimals": "$places"},
        "share": {"dimensions": {"concept": "b:Share", "unit": "xbrli:pure"}},
        "description": {"dimensions": {"concept": "b:Description"}},
        "note": {"comment": True},
    }
    wide = {f"c{i:03}": {"dimensions": {"concept": "b:Count", "unit": "xbrli:pure"}} for i in range(WIDE)}
    report = metadata(tables, False)
    report["parameters"] = {"year": "2025", "language": "de"}
    report["dimensions"] = {"entity": "e:BANK-1", "period": "$year", "language": "$language"}
    report["tableTemplates"] = {
        "lines": {"rowIdColumn": "id", "dimensions": {"b:Line": "$line", "b:Policy": "$policy"}, "columns": lines},
        "wide": {"rowIdColumn": "id", "dimensions": {"b:Line": "$line"}, "columns": {"id": {}, "line": {}, **wide}},
    }
    last = len(tables) - 1
    report["tables"] = {t: {"url": f"{t}.csv", "template": "wide" if is_wide or i == last and last > 0 else "lines"} for i, t in enumerate(tables)}
    return report


def description(numbers: Numbers) -> str:
    """Makes a text of about 10 to 80 characters, with quotes now and then."""
    text = WORDS[numbers.below(len(WORDS))]
    length = 10 + numbers.below(71)
    while len(text) < length:
        text += (" " if numbers.below(40) else ' "see" ') + WORDS[numbers.below(len(WORDS))]
    return text[:length].rstrip() or "none"


def now_and_then(numbers: Numbers, text: str) -> str:
    """The text, and now and then nil or nothing."""
    chance = numbers.below(20)
    return "#nil" if chance == 0 else "" if chance == 1 else text


def lines_row(numbers: Numbers, n: int) -> tuple[str, int]:
    """A row's line of the shape `mixed`, and how many facts it has."""
    amount = numbers.below(10**9)
    cells = [
        f"{n:x}-{numbers.below(10**6)}",
        "b:" + REGIONS[numbers.below(len(REGIONS))],
        f"POL-{numbers.below(200000):06}",
        str(numbers.below(4)),
        GROUPS[numbers.below(len(GROUPS))],
        now_and_then(numbers, f"{amount // 100}.{amount % 100:02}"),
        now_and_then(numbers, f"{'-' if amount % 3 == 0 else ''}{amount // 7}"),
        now_and_then(numbers, f"0.{numbers.below(10**6):06}d4"),
        description(numbers),
        "checked",
    ]
    facts = sum(1 for c in cells[5:9] if c != "")
    return ",".join(map(cell, cells)) + "\n", facts


def wide_row(numbers: Numbers, n: int) -> tuple[str, int]:
    """A row's line of the template of 200 columns, and how many facts it has."""
    counts = [now_and_then(numbers, str(numbers.below(10**5))) for _ in range(WIDE)]
    cells = [f"{n:x}-{numbers.below(10**6)}", "b:" + REGIONS[numbers.below(len(REGIONS))], *counts]
    return ",".join(cells) + "\n", sum(1 for c in counts if c != "")


SAID = ["see", "the", "claim", "über", "Prämie", "was", "settled", "“in full”", "für", "1 000 €", "größer", "als", "expected", "audit", "naïve", "𝛼", "reserve", "of", "Zürich"]

TEXTS_TYPES = """namespace,name,type
https://example.org/bench,Title,text
https://example.org/bench,Comment,text
https://example.org/bench,Reply,text
https://example.org/bench,Amount,decimal
https://example.org/bench,Estimate,decimal
https://example.org/bench,Author,typed
"""


def texts_metadata(tables: list[str]) -> dict[str, Any]:
    """The metadata of the shape `texts`."""
    report = metadata(tables, False)
    columns = {
        "id": {},
        "period": {},
        "author": {},
        "places": {},
        "basis": {"propertyGroups": {"gross": group("iso4217:EUR", 2), "netto": group("iso4217:CHF", 0)}},
        "title": {"dimensions": {"concept": "b:Title", "language": "de"}},
        "comment": {"dimensions": {"concept": "b:Comment", "language": "en"}},
        "reply": {"dimensions": {"concept": "b:Reply", "language": "en"}},
        "amount": {"dimensions": {"concept": "b:Amount"}, "propertiesFrom": ["basis"]},
        "estimate": {"dimensions": {"concept": "b:Estimate", "unit": "iso4217:EUR"}, "decimals": "$places"},
    }
    report["parameters"] = {}
    report["dimensions"] = {"entity": "e:BANK-1"}
    del report["decimals"]
    report["tableTemplates"] = {"remarks": {"rowIdColumn": "id", "dimensions": {"period": "$period", "b:Author": "$author"}, "columns": columns}}
    report["tables"] = {t: {"url": f"{t}.csv", "template": "remarks"} for t in tables}
    return report


def said(numbers: Numbers, least: int, most: int) -> str:
    """Makes a text of about `least` to `most` characters, with commas and quotes now and then."""
    words, length, wanted = [], 0, least + numbers.below(most - least + 1)
    while length < wanted:
        word = SAID[numbers.below(len(SAID))]
        chance = numbers.below(12)
        words.append(f'"{word}"' if chance == 0 else word + "," if chance < 3 else word)
        length += len(words[-1]) + 1
    return " ".join(words)


def texts_row(numbers: Numbers, n: int) -> tuple[str, int]:
    """A row's line of the shape `texts`, and how many facts it has."""
    amount = numbers.below(10**9)
    cells = [
        f"Ü{n:x}-{numbers.below(10**6)}",
        PERIODS[numbers.below(len(PERIODS))],
        f"Müller {numbers.below(5000):04}",
        str(numbers.below(4)),
        ["gross", "netto"][numbers.below(2)],
        said(numbers, 8, 24),
        said(numbers, 40, 240),
        now_and_then(numbers, said(numbers, 20, 120)),
        f"{amount // 100}.{amount % 100:02}",
        f"{amount // 977}" + ("d-3" if amount % 3 == 0 else ""),
    ]
    return ",".join(map(cell, cells)) + "\n", 5 if cells[7] else 4


POINTS = 10_000
BASES = 25
STRIDE = 7919  # prime to POINTS: rows next to each other name groups that are far apart

POINT_TYPES = """namespace,name,type
https://example.org/bench,Amount,decimal
https://example.org/bench,Count,integer
https://example.org/bench,Share,double
https://example.org/bench,Base,explicit
https://example.org/bench,Region,explicit
https://example.org/bench,Key,typed
"""
POINT_CONCEPTS = [
    ("b:Amount", "$baseCurrency", "$decimalsMonetary"),
    ("b:Count", "xbrli:pure", "$decimalsInteger"),
    ("b:Share", "xbrli:pure", "$decimalsPercentage"),
]


def data_point(n: int) -> dict[str, Any]:
    """The property group of the data point n."""
    concept, unit, decimals = POINT_CONCEPTS[n % 3]
    members = {"b:Base": f"b:x{n % BASES}", "b:Region": f"b:r{n // BASES}"}
    return {"dimensions": {"concept": concept, **members, "unit": unit}, "decimals": decimals}


def datapoints_metadata(tables: list[str]) -> dict[str, Any]:
    """The metadata of the shape `datapoints`."""
    report = metadata(tables, False)
    report["parameters"] = {
        "entityID": "e:BANK-1",
        "refPeriod": "2025-12-31",
        "baseCurrency": "iso4217:EUR",
        "decimalsMonetary": "-3",
        "decimalsInteger": "0",
        "decimalsPercentage": "4",
    }
    report["dimensions"] = {"entity": "$entityID", "period": "$refPeriod"}
    del report["decimals"]
    columns = {
        "datapoint": {"propertyGroups": {f"dp{n:06}": data_point(n) for n in range(POINTS)}},
        "key": {},
        "factValue": {"dimensions": {"b:Key": "$key"}, "propertiesFrom": ["datapoint"]},
    }
    report["tableTemplates"] = {"datapoints": {"columns": columns}}
    report["tables"] = {t: {"url": f"{t}.csv", "template": "datapoints"} for t in tables}
    return report


def datapoint_row(numbers: Numbers, n: int) -> tuple[str, int]:
    """A row's line of the shape `datapoints`, and how many facts it has."""
    point = n * STRIDE % POINTS
    amount = numbers.below(10**9)
    value = [f"{amount // 100}.{amount % 100:02}", str(amount // 1000), f"0.{amount % 10**6:06}"][point % 3]
    return f"dp{point:06},K{numbers.below(50000):05},{value}\n", 1


def cell(text: str) -> str:
    """Returns a text as a cell, quoted if it needs that."""
    return '"' + text.replace('"', '""') + '"' if any(c in text for c in '",\n') else text


def row(numbers: Numbers, n: int, row_ids: bool) -> tuple[str, int]:
    """A row's line, and how many facts it has."""
    amount = numbers.below(10**11)
    price = numbers.below(10**6)
    rate = numbers.below(10**5)
    remark = REMARKS[numbers.below(len(REMARKS))]
    cells = [f"{n:x}-{numbers.below(10**6)}"] if row_ids else []
    cells += [
        PERIODS[numbers.below(len(PERIODS))],
        "iso4217:" + CURRENCIES[numbers.below(len(CURRENCIES))],
        f"P{numbers.below(50000):05}",
        "b:" + REGIONS[numbers.below(len(REGIONS))],
        MARKETS[numbers.below(len(MARKETS))],
        f"{'-' if amount % 3 == 0 else ''}{amount // 100}.{amount % 100:02}",
        f"{price // 1000}.{price % 1000:03}",
        str(numbers.below(100000)),
        f"{rate // 10000}.{rate % 10000:04}e-2d6",
        remark,
    ]
    return ",".join(map(cell, cells)) + "\n", 4 if remark == "" else 5


def write_table(path: Path, numbers: Numbers, size: float, header: str, row_of: RowOf) -> dict[str, int]:
    """Writes a table of at least `size` bytes, and returns its bytes, rows and facts."""
    written, rows, facts = len(header), 0, 0
    with open(path, "wb") as file:
        file.write(header.encode())
        while written < size:
            text, more = row_of(numbers, rows + 1)
            line = text.encode()
            file.write(line)
            written, rows, facts = written + len(line), rows + 1, facts + more
    return {"bytes": written, "rows": rows, "facts": facts}


def forms(options: argparse.Namespace, tables: list[str]) -> tuple[dict[str, Any], str, list[tuple[str, RowOf]]]:
    """The metadata, the types table, and for each table its header and its rows."""
    if options.shape in ("mixed", "wide"):
        report = mixed_metadata(tables, options.shape == "wide")
        rows = {"lines": lines_row, "wide": wide_row}
        kinds = [report["tables"][t]["template"] for t in tables]
        headers = [",".join(report["tableTemplates"][kind]["columns"]) + "\n" for kind in kinds]
        return report, MIXED_TYPES, list(zip(headers, (rows[kind] for kind in kinds)))
    if options.shape == "texts":
        report = texts_metadata(tables)
        header = ",".join(report["tableTemplates"]["remarks"]["columns"]) + "\n"
        return report, TEXTS_TYPES, [(header, texts_row)] * len(tables)
    if options.shape == "datapoints":
        return datapoints_metadata(tables), POINT_TYPES, [("datapoint,key,factValue\n", datapoint_row)] * len(tables)
    header = ("id," if options.row_ids else "") + "period,currency,party,region,market,amount,price,count,rate,remark\n"
    return metadata(tables, options.row_ids), TYPES, [(header, lambda numbers, n: row(numbers, n, options.row_ids))] * len(tables)


def shares_of(options: argparse.Namespace) -> list[float]:
    """How many bytes each table has."""
    whole = options.megabytes * 1e6
    if options.largest is None:
        return [whole / options.tables] * options.tables
    largest = whole * options.largest / 100
    shares = [(whole - largest) / (options.tables - 1)] * options.tables
    shares[min(3, options.tables - 1)] = largest
    return shares


def main() -> None:
    """Writes the report that the command line asks for, and prints its size."""
    parser = argparse.ArgumentParser(description=__doc__, formatter_class=argparse.RawDescriptionHelpFormatter)
    parser.add_argument("folder", type=Path)
    parser.add_argument("--shape", choices=["positions", "mixed", "texts", "datapoints", "wide"], default="positions")
    parser.add_argument("--megabytes", type=float, default=64.0)
    parser.add_argument("--tables", type=int)
    parser.add_argument("--largest", type=float, metavar="PERCENT")
    parser.add_argument("--row-ids", action="store_true")
    options = parser.parse_args()
    if options.tables is None:
        options.tables = 3 if options.shape in ("datapoints", "wide") else 8
    if options.tables < 1:
        parser.error("--tables is 1 at least")
    if options.largest is not None and (options.tables < 2 or not 0 < options.largest < 100):
        parser.error("--largest is between 0 and 100, of two tables at least")
    options.folder.mkdir(parents=True, exist_ok=True)
    tables = [f"t{i:02}" for i in range(1, options.tables + 1)]
    report, types, parts = forms(options, tables)
    (options.folder / "meta.json").write_bytes((json.dumps(report, indent=1) + "\n").encode())
    (options.folder / "types.csv").write_bytes(types.encode())
    sizes = {"bytes": 0, "rows": 0, "facts": 0}
    shares = shares_of(options)
    for place, (table, share, (header, row_of)) in enumerate(zip(tables, shares, parts)):
        part = write_table(options.folder / f"{table}.csv", Numbers(place), share, header, row_of)
        sizes = {name: sizes[name] + part[name] for name in sizes}
    (options.folder / "sizes.json").write_bytes((json.dumps({"tables": options.tables, **sizes}) + "\n").encode())
    print(f"{options.tables} tables, {sizes['bytes']} bytes of CSV, {sizes['rows']} rows, {sizes['facts']} facts")


if __name__ == "__main__":
    main()
