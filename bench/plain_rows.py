#!/usr/bin/env python3
"""Counts the good rows that miss the fast path, and fails if there is one.

    plain_rows.py PROGRAM [FOLDER..]

No proof notices a good row that takes the slow path by mistake: it is right, but takes about
fifteen times as long. So this script runs PROGRAM with one worker under valgrind on small reports,
and counts the calls of the function that writes a row on the slow path. The reports are one of each
shape of generate.py, one with `#none` in a column whose own literals have a fault, and one with
each type of the header `type3`. FOLDER is one more report: its meta.json and types.csv, or the
arguments of the first run in its case.json, if that run ends with status 0.

Each line has a report's rows on the slow path, and its name. The status is 1 if there is such a
row, or if a report is not converted. PROGRAM must have the names of its functions: a program that
was built here has them, dist/xbrl-json does not. Needs Linux and valgrind.
"""
from __future__ import annotations

import argparse
import csv
import json
import re
import subprocess
import sys
import tempfile
from pathlib import Path
from typing import Iterator

HERE = Path(__file__).resolve().parent
PLAIN_WAY = "oim_decode::table::plain_rows::PlainRows::put_row"
# Good cells of each type of the header `type3`.
CELLS: dict[str, list[str]] = {
    "integer": ["-12", "7d0", "#nil"],
    "decimal": ["-1.5", "7.", "2.50d2"],
    "double": ["1e2", "-1.5E-3", "0"],
    "positiveInteger": ["1", "+0012", "9d-1"],
    "nonNegativeInteger": ["0", "-0", "12"],
    "negativeInteger": ["-1", "-12", "-3dINF"],
    "nonPositiveInteger": ["0", "-12", "+0"],
    "long": ["9223372036854775807", "-1", "0"],
    "int": ["2147483647", "-1", " 7 "],
    "short": ["32767", "-1", "7"],
    "byte": ["127", "-128", "7"],
    "unsignedLong": ["18446744073709551615", "0", "7"],
    "unsignedInt": ["4294967295", "0", "7"],
    "unsignedShort": ["65535", "0", "7"],
    "unsignedByte": ["255", "0", "7"],
    "monetary": ["12.50", "-1d-3", "#nil"],
    "shares": ["12.50", "7", "1dINF"],
    "text": ["two \"words\"", "#empty", " blanks "],
    "boolean": ["true", " 0 ", "#nil"],
    "qname": ["b:a", " b:a ", "b:c"],
    "date": ["2024-02-29", "2024-02-29Z", " 9999-12-31 "],
    "dateTime": ["2024-02-29T00:00:00", "9999-12-31T24:00:00", "2024-02-29T23:59:59.9+05:30"],
    "time": ["00:00:00", "24:00:00Z", "23:59:59.5"],
    "gYear": ["2024", "0001Z", "9999"],
    "gYearMonth": ["2024-12", "2024-01Z", "2024-02"],
    "gMonth": ["--01", "--12Z", "--02"],
    "gMonthDay": ["--02-29", "--12-31Z", "--01-01"],
    "gDay": ["---01", "---31", "---02Z"],
    "duration": ["P1Y2M3DT4H5M6.7S", "-P1D", "PT0S"],
    "language": ["en-GB", " De ", "x-klingon"],
    "NCName": ["a.b-1", " _x ", "a"],
    "hexBinary": ["0fB7", "#empty", " AB "],
    "enumeration": ["b:North", " b:South ", "#nil"],
    "enumerations": ["b:North", " b:South  b:North ", "#empty"],
    "other": ["any \\ text", "#empty", "#nil"],
}
SHAPES: dict[str, list[str]] = {"positions": [], "positions with identifiers": ["--row-ids"], "mixed": [], "texts": [], "datapoints": []}


def plain_rows(program: Path, folder: Path, words: list[str]) -> int:
    """Counts the rows of a report on the slow path. Ends the script if the run fails."""
    with tempfile.TemporaryDirectory() as out:
        counts = Path(out) / "counts"
        command: list[str] = ["valgrind", "--tool=callgrind", "--quiet", f"--callgrind-out-file={counts}", str(program), *words]
        done = subprocess.run(command, cwd=folder, stdin=subprocess.DEVNULL, stdout=subprocess.DEVNULL, stderr=subprocess.DEVNULL)
        if done.returncode:
            sys.exit(f"{folder} is not converted: the status is {done.returncode}")
        return calls(counts.read_text(errors="replace"))


def calls(counts: str) -> int:
    """Reads from a file of counts how often the slow path was called."""
    names: dict[str, str] = {}
    called, total = "", 0
    for line in counts.splitlines():
        found = re.match(r"c?fn=(\(\d+\))(?: (.*))?$", line)
        if found and found.group(2):
            names[found.group(1)] = found.group(2)
        if found and line.startswith("cfn="):
            called = names[found.group(1)]
        elif line.startswith("calls=") and called.startswith(PLAIN_WAY):
            total += int(line[len("calls="):].split()[0])
    return total


def words_of(folder: Path) -> list[str] | None:
    """Returns the arguments that convert a report, or None if it has a fault."""
    case = folder / "case.json"
    if not case.exists():
        return ["meta.json", "--types", "types.csv", "--workers", "1"]
    told = json.loads(case.read_text(encoding="utf-8"))
    return told["runs"][0] if told["status"] == 0 else None


def generate(folder: Path, shape: str, *more: str) -> Path:
    """Makes a small report of a shape in two tables, and gives its folder."""
    words = [str(HERE / "generate.py"), str(folder), "--shape", shape, "--megabytes", "0.1", "--tables", "2", *more]
    subprocess.run([sys.executable, *words], stdout=subprocess.DEVNULL, check=True)
    return folder


def add_column(report: Path) -> None:
    """Adds a column to the tables of a report, with a unit whose prefix is not declared, and a cell
    `#none` in it to each row.
    """
    meta = json.loads((report / "meta.json").read_text(encoding="utf-8"))
    for template in meta["tableTemplates"].values():
        template["columns"]["odd"] = {"dimensions": {"concept": "b:Amount", "unit": "undeclared:EUR"}}
    (report / "meta.json").write_text(json.dumps(meta), encoding="utf-8")
    for table in meta["tables"].values():
        with open(report / table["url"], encoding="utf-8", newline="") as file:
            header, *rows = csv.reader(file)
        with open(report / table["url"], "w", encoding="utf-8", newline="") as file:
            csv.writer(file, lineterminator="\n").writerows([[*header, "odd"], *([*row, "#none"] for row in rows)])


NAMESPACE = "https://example.org/bench"
NAMES = {"b": NAMESPACE, "iso4217": "http://www.xbrl.org/2003/iso4217", "xbrli": "http://www.xbrl.org/2003/instance"}
# The periods of a concept, by its number: their type, a literal, a column, and its cell.
PERIODS = [("instant", "2025-01-01T00:00:00", "$at", "2025-06-30T00:00:00"), ("duration", "2025", "$span", "2024Q1"), ("", "2025", "$at", "")]


def type_records() -> list[str]:
    """Returns the records of a types table with a concept of each type."""
    concepts = [f"{NAMESPACE},A{i},{word},{PERIODS[i % 3][0]}," for i, word in enumerate(CELLS)]
    others = ["North,member", "South,member", "Region,explicit", "Key,typed"]
    return ["namespace,name,type3,period,values", *(f"{NAMESPACE},{it},," for it in others), *concepts, ""]


def typed_columns() -> dict[str, dict[str, object]]:
    """Returns a column for each type, one whose concept each row names, and those to which they
    refer. Every second unit and period is a literal.
    """
    same = {"language": "en", "b:Region": "$member", "b:Key": "$key"}
    columns: dict[str, dict[str, object]] = {it: {} for it in ("money", "at", "span", "member", "key", "name", "unit", "when")}
    for i, word in enumerate(CELLS):
        unit = "xbrli:shares" if word == "shares" else ("$money", "iso4217:EUR")[i % 2]
        period = PERIODS[i % 3][1 + i % 2]
        columns[word] = {"dimensions": {"concept": f"b:A{i}", "unit": unit, "period": period, **same}, "decimals": 2}
    columns["any"] = {"dimensions": {"concept": "$name", "unit": "$unit", "period": "$when", **same}, "decimals": 2}
    return columns


def typed_rows() -> Iterator[list[str]]:
    """Yields rows under those columns."""
    words = list(CELLS)
    for i in range(300):
        k = i % len(words)
        yield [
            *(("iso4217:EUR", "iso4217:USD")[i % 2], f"2025-01-{1 + i % 28:02}T00:00:00", ("2025", "2024Q1", "")[i % 3]),
            *(("b:North", "b:South")[i % 2], f" {i} ", f"b:A{k}", "xbrli:shares" if words[k] == "shares" else "iso4217:EUR", PERIODS[k % 3][3]),
            *(cells[i % len(cells)] for cells in CELLS.values()),
            CELLS[words[k]][i % 3],
        ]


def typed(folder: Path) -> Path:
    """Makes a report with each type of the header `type3`, and gives its folder."""
    folder.mkdir()
    columns = typed_columns()
    info = {"documentType": "https://xbrl.org/2021/xbrl-csv", "namespaces": NAMES, "taxonomy": [f"{NAMESPACE}.xsd"]}
    meta = {"documentInfo": info, "dimensions": {"entity": "b:E"}, "tableTemplates": {"p": {"columns": columns}}, "tables": {"t": {"url": "t.csv", "template": "p"}}}
    (folder / "meta.json").write_text(json.dumps(meta), encoding="utf-8")
    (folder / "types.csv").write_text("\n".join(type_records()), encoding="utf-8")
    with open(folder / "t.csv", "w", encoding="utf-8", newline="") as file:
        csv.writer(file, lineterminator="\n").writerows([list(columns), *typed_rows()])
    return folder


def reports(options: argparse.Namespace, folder: Path) -> Iterator[tuple[str, Path]]:
    """Yields the reports to look at, each with its name: those made here, and those of the command
    line.
    """
    for i, (name, more) in enumerate(SHAPES.items()):
        yield name, generate(folder / str(i), name.split()[0], *more)
    add_column(generate(folder / "none", "positions"))
    yield "#none under a fault of literals", folder / "none"
    yield "types of the header type3", typed(folder / "typed")
    for each in options.folders:
        yield str(each), each


def main() -> None:
    """Prints a line for each report, and ends with status 1 if a row took the slow path."""
    parser = argparse.ArgumentParser(description=__doc__, formatter_class=argparse.RawDescriptionHelpFormatter)
    parser.add_argument("program", type=Path)
    parser.add_argument("folders", nargs="*", type=Path, metavar="FOLDER")
    options = parser.parse_args()
    program = options.program.resolve()
    if PLAIN_WAY.encode() not in program.read_bytes():
        sys.exit(f"{program} has no function {PLAIN_WAY}, so its calls cannot be counted")
    bad = 0
    with tempfile.TemporaryDirectory() as folder:
        for name, report in reports(options, Path(folder)):
            words = words_of(report)
            if words:
                rows = plain_rows(program, report, words)
                print(f"{rows:7} {name}", flush=True)
                bad += rows > 0
    if bad:
        sys.exit(f"{bad} reports have rows that went the plain way")


if __name__ == "__main__":
    main()
