"""Reads a report by itself, in Python, for the tests that compare the program with it.

It shares no code with the program. It knows the metadata's levels, references, parameters, property
groups, special values, decimals, and the types integer, decimal, text, explicit and typed. It takes
periods only as instants and durations of full dates with times, which a document writes as they
are, and tables as lists of cells.

`Report.told` gives what a run must write: the document, or the line of each table that has a fault.
`Report.fault_records` gives the records of the file of faults, with all faults of all tables.
"""
from __future__ import annotations

import csv
import json
import re
import sys
from collections.abc import Iterator, Mapping
from typing import Any, NamedTuple, Optional

# Names of faults by their numbers, as docs/FAULTS.md has them.
NAMES = {
    23: "UnknownHeader",
    24: "RepeatedHeader",
    26: "Ragged",
    28: "MissingRowId",
    29: "BadRowId",
    30: "RepeatedRowId",
    31: "UnknownSpecial",
    32: "UnknownGroup",
    33: "NoConcept",
    34: "UnknownName",
    35: "BadReference",
    36: "BadValue",
    37: "BadPeriod",
    39: "BadDecimals",
    40: "BadNumber",
}
TIME = r"[0-9]{4}-(0[1-9]|1[0-2])-(0[1-9]|[12][0-9]|3[01])T([01][0-9]|2[0-3]):[0-5][0-9]:[0-5][0-9]"
PERIOD = re.compile(f"{TIME}(/{TIME})?")
NAME = re.compile(r"([A-Za-z_][A-Za-z0-9_.-]*):([A-Za-z_][A-Za-z0-9_.-]*)")
ENTITY = re.compile(r"([A-Za-z_][A-Za-z0-9_.-]*):([A-Za-z0-9_.-]+)")
ROW_ID = re.compile(r"[A-Za-z0-9_-]+")
LANGUAGE = re.compile(r"[A-Za-z]{2,8}(-[A-Za-z0-9]{1,8})*")
NUMERALS = {
    "integer": re.compile(r"[+-]?[0-9]+"),
    "decimal": re.compile(r"[+-]?([0-9]+(\.[0-9]*)?|\.[0-9]+)"),
}
INTEGER = re.compile(r"[+-]?[0-9]+")

# What a text means: nothing, nil, the empty text, an unknown special value, or a text.
ABSENT, NIL, EMPTY, UNKNOWN, TEXT = range(5)
Meaning = tuple[int, str]
# A fact: its identifier, and its members as JSON values in the order of a document.
Fact = tuple[str, dict[str, Any]]


class Fault(Exception):
    """A fault: its number, the row and the column from 1, each 0 for none."""

    def __init__(self, number: int, column: int = 0, row: int = 0) -> None:
        """Keeps the parts."""
        super().__init__(number)
        self.number = number
        self.column = column
        self.row = row


class Told(NamedTuple):
    """What a run must end with: its status, its output, and its lines."""

    status: int
    out: bytes
    err: str


def meaning(text: str) -> Meaning:
    """Returns what a text means."""
    if text in ("", "#none"):
        return ABSENT, ""
    if text == "#nil":
        return NIL, ""
    if text == "#empty":
        return EMPTY, ""
    if text.startswith("##"):
        return TEXT, text[1:]
    return (UNKNOWN, "") if text.startswith("#") else (TEXT, text)


def decimals_of(text: str) -> Optional[str]:
    """Returns the accuracy that a text states: a number, "INF", or None if it states none."""
    if text == "INF":
        return text
    if INTEGER.fullmatch(text) and abs(int(text)) < 2**31:
        return str(int(text))
    return None


def numeral_of(kind: str, text: str) -> Optional[tuple[str, Optional[str]]]:
    """Returns the numeral of a text and the accuracy of its suffix, or None if it has none."""
    numeral, mark, suffix = text.strip(" \t\r\n").partition("d")
    stated = decimals_of(suffix) if mark else None
    if not NUMERALS[kind].fullmatch(numeral) or (mark and stated is None):
        return None
    return numeral, stated


def compact(value: Any) -> str:
    """Returns a value as JSON without blanks."""
    return json.dumps(value, separators=(",", ":"), ensure_ascii=False)


def least(faults: list[int]) -> None:
    """Raises the fault with the least number, if there is one."""
    if faults:
        raise Fault(min(faults))


def lines_of(content: bytes) -> list[int]:
    """Returns the line at which each record of a file begins."""
    csv.field_size_limit(sys.maxsize)
    text = content.decode("utf-8-sig", "surrogateescape")
    reader = csv.reader(re.findall(r"[^\r\n]*(?:\r\n|\r|\n)|[^\r\n]+", text))
    found = []
    before = 0
    for record in reader:
        if record:
            found.append(before + 1)
        before = reader.line_num
    return found


class Cell(NamedTuple):
    """A cell of a row: what is needed to read the fact of a column."""

    report: Report
    table: str
    row: dict[str, str]
    number: int
    column: str

    def levels(self) -> list[dict[str, Any]]:
        """Returns the levels of the column, the most general first."""
        template = self.report.template(self.table)
        mine = template["columns"][self.column]
        groups = []
        for name in reversed(mine.get("propertiesFrom", [])):
            what, text = meaning(self.row.get(name, ""))
            if what == TEXT:
                groups.append(template["columns"][name]["propertyGroups"][text])
        return [self.report.metadata, template, *groups, mine]

    def group_faults(self) -> list[int]:
        """Returns the faults of the cell itself and of the cells that name its groups."""
        template = self.report.template(self.table)
        faults = [31] if meaning(self.row.get(self.column, ""))[0] == UNKNOWN else []
        for name in template["columns"][self.column].get("propertiesFrom", []):
            what, text = meaning(self.row.get(name, ""))
            if what == UNKNOWN:
                faults.append(31)
            elif what in (NIL, EMPTY):
                faults.append(32)
            elif what == TEXT and text not in template["columns"][name]["propertyGroups"]:
                faults.append(32)
        return faults

    def referred(self, name: str) -> Meaning:
        """Returns what a reference means: the row's cell, else a parameter."""
        if name == "rowNumber":
            return TEXT, str(self.number)
        table = self.report.metadata["tables"][self.table]
        known = {**self.report.metadata.get("parameters", {}), **table.get("parameters", {})}
        if name in self.report.template(self.table)["columns"] and self.row.get(name):
            return meaning(self.row[name])
        return meaning(known.get(name, ""))

    def value(self, written: Any) -> Meaning:
        """Returns what a written property means in the row."""
        if isinstance(written, int):
            return TEXT, str(written)
        if written.startswith("$$"):
            return TEXT, written[1:]
        return self.referred(written[1:]) if written.startswith("$") else meaning(written)

    def dimensions(self) -> dict[str, Meaning]:
        """Returns what each dimension that a level writes means, in byte order of name."""
        written: dict[str, str] = {}
        for level in self.levels():
            written.update(level.get("dimensions", {}))
        names = sorted(written, key=lambda it: it.encode())
        return {name: self.value(written[name]) for name in names}

    def decimals(self) -> Meaning:
        """Returns what the decimals mean that the most special level writes."""
        for level in reversed(self.levels()):
            if "decimals" in level:
                return self.value(level["decimals"])
        return ABSENT, ""

    def concept(self, dimensions: dict[str, Meaning]) -> str:
        """Returns the type of the concept."""
        what, text = dimensions.get("concept", (ABSENT, ""))
        if what != TEXT:
            raise Fault({UNKNOWN: 31, ABSENT: 33}.get(what, 35))
        kind = self.report.kind(text)
        if kind not in ("integer", "decimal", "text"):
            raise Fault(34)
        return kind

    def fact(self) -> Optional[Fact]:
        """Returns the fact of the cell, or None if it has none."""
        what, text = meaning(self.row.get(self.column, ""))
        if what == ABSENT:
            return None
        least(self.group_faults())
        dimensions = self.dimensions()
        kind = self.concept(dimensions)
        faults: list[int] = []
        held: dict[str, Optional[str]] = {}
        for name, said in dimensions.items():
            faults += self.report.put_dimension(kind, name, said, held)
        members: dict[str, Any] = {"dimensions": held, "value": text if what != NIL else None}
        if kind == "text":
            least(faults)
            return self.column, members
        suffix = None
        if what != NIL:
            parts = numeral_of(kind, text)
            if parts is None:
                faults.append(40)
            else:
                members["value"], suffix = parts
            stated = self.stated(suffix, faults)
            if stated not in (None, "INF"):
                members = {"decimals": int(stated or 0), **members}
        least(faults)
        return self.column, members

    def stated(self, suffix: Optional[str], faults: list[int]) -> Optional[str]:
        """Returns the decimals of a number, and adds their fault."""
        if suffix is not None:
            return suffix
        what, text = self.decimals()
        if what == ABSENT:
            return None
        found = decimals_of(text) if what == TEXT else None
        if found is None:
            faults.append(31 if what == UNKNOWN else 39)
        return found


class Report:
    """A report: its metadata, the types of names by prefix and name, and its tables' records."""

    def __init__(
        self, metadata: dict[str, Any], types: dict[str, str], tables: dict[str, list[list[str]]]
    ) -> None:
        """Keeps the parts. The first record of a table is its header."""
        self.metadata = metadata
        self.types = types
        self.tables = tables

    def template(self, table: str) -> dict[str, Any]:
        """Returns the template of a table."""
        name = self.metadata["tables"][table].get("template", table)
        found: dict[str, Any] = self.metadata["tableTemplates"][name]
        return found

    def namespaces(self) -> dict[str, str]:
        """Returns the namespaces by their prefixes."""
        found: dict[str, str] = self.metadata["documentInfo"]["namespaces"]
        return found

    def is_name(self, form: re.Pattern[str], text: str) -> bool:
        """Returns whether a text is a name of this form whose prefix is declared."""
        found = form.fullmatch(text)
        return found is not None and found[1] in self.namespaces()

    def kind(self, name: str) -> Optional[str]:
        """Returns the type of a name, if the prefix is declared and the types table has it."""
        found = NAME.fullmatch(name)
        if found is None or found[1] not in self.namespaces():
            return None
        return self.types.get(f"{self.namespaces()[found[1]]} {found[2]}")

    def is_unit(self, text: str) -> bool:
        """Returns whether a text is a unit: measures with stars, and at most one stroke."""
        parts = text.split("/")
        measures = [it for part in parts for it in part.split("*")]
        return len(parts) < 3 and all(self.is_name(NAME, it) for it in measures)

    def put_dimension(
        self, kind: str, name: str, said: Meaning, held: dict[str, Optional[str]]
    ) -> list[int]:
        """Puts a dimension into those that a fact has, and returns its faults."""
        what, text = said
        if (name == "unit" and kind == "text") or (name == "language" and kind != "text"):
            return []
        is_typed = self.kind(name) == "typed"
        if what == UNKNOWN:
            return [31]
        if what in (NIL, EMPTY):
            if not is_typed:
                return [35]
            held[name] = None if what == NIL else ""
        if what == TEXT:
            if not self.has_form(name, text):
                return [37 if name == "period" else 36]
            if not (name == "unit" and self.is_pure(text)):
                held[name] = text.lower() if name == "language" else text
        return []

    def is_pure(self, unit: str) -> bool:
        """Returns whether a unit is the pure one."""
        return unit == "xbrli:pure"

    def has_form(self, name: str, text: str) -> bool:
        """Returns whether the value of a dimension has its form."""
        if name == "entity":
            return self.is_name(ENTITY, text)
        if name == "unit":
            return self.is_unit(text)
        if name == "language":
            return LANGUAGE.fullmatch(text) is not None
        if name == "period":
            return PERIOD.fullmatch(text) is not None
        return self.kind(name) != "explicit" or self.is_name(NAME, text)

    def rows_of(self, table: str) -> Iterator[list[Fact]]:
        """Yields the facts of each row of a table. Raises its first fault."""
        header, *records = self.tables[table]
        self.test_header(table, header)
        template = self.template(table)
        place = template.get("rowIdColumn")
        ids: set[str] = set()
        for number, record in enumerate(records, 1):
            try:
                yield self.row(table, header, record, number, place, ids)
            except Fault as fault:
                raise Fault(fault.number, fault.column, number) from None

    def test_header(self, table: str, header: list[str]) -> None:
        """Raises the fault of a header."""
        columns = self.template(table)["columns"]
        for at, name in enumerate(header):
            if name and name not in columns:
                raise Fault(23, at + 1)
        for at, name in enumerate(header):
            if name and name in header[:at]:
                raise Fault(24, at + 1)

    def row(
        self,
        table: str,
        header: list[str],
        record: list[str],
        number: int,
        place: Optional[str],
        ids: set[str],
    ) -> list[Fact]:
        """Returns the facts of a row."""
        if len(record) != len(header):
            raise Fault(26)
        row = {name: text for name, text in zip(header, record) if name}
        identifier = f"r_{number}"
        if place is not None:
            identifier = row[place]
            number_of_fault = self.id_fault(identifier, ids)
            if number_of_fault:
                raise Fault(number_of_fault, header.index(place) + 1)
            ids.add(identifier)
        facts = []
        for at, name in enumerate(header):
            if not name or "dimensions" not in self.template(table)["columns"][name]:
                continue
            try:
                found = Cell(self, table, row, number, name).fact()
            except Fault as fault:
                raise Fault(fault.number, at + 1) from None
            if found is not None:
                facts.append((f"{table}.{identifier}.{found[0]}", found[1]))
        return facts

    def faults_of_row(
        self, table: str, header: list[str], record: list[str], number: int, ids: set[str]
    ) -> list[tuple[int, int]]:
        """Returns all faults of a row: the column and the number of each."""
        if len(record) != len(header):
            return [(0, 26)]
        row = {name: text for name, text in zip(header, record) if name}
        place = self.template(table).get("rowIdColumn")
        if place is not None:
            fault = self.id_fault(row[place], ids)
            if fault:
                return [(header.index(place) + 1, fault)]
            ids.add(row[place])
        found = []
        for at, name in enumerate(header, 1):
            if not name or "dimensions" not in self.template(table)["columns"][name]:
                continue
            try:
                Cell(self, table, row, number, name).fact()
            except Fault as fault_of_cell:
                found.append((at, fault_of_cell.number))
        return found

    def faults_of(self, table: str) -> list[tuple[int, int, int]]:
        """Returns all faults of a table: the row, the column and the number of each."""
        header, *records = self.tables[table]
        try:
            self.test_header(table, header)
        except Fault as fault:
            return [(0, fault.column, fault.number)]
        ids: set[str] = set()
        found = []
        for number, record in enumerate(records, 1):
            faults = self.faults_of_row(table, header, record, number, ids)
            found += [(number, column, fault) for column, fault in faults]
        return found

    def fault_records(self, contents: Mapping[str, bytes]) -> list[list[str]]:
        """Returns the records of the file of faults without their causes.

        `contents` has the tables' files by their names.
        """
        found = []
        for table in sorted(self.tables):
            records = self.tables[table]
            lines = lines_of(contents[f"{table}.csv"])
            for row, column, number in self.faults_of(table):
                place = [str(row), str(column), str(number), NAMES[number], str(lines[row])]
                named = records[0][column - 1] if column else ""
                held = records[row][column - 1] if row and column else ""
                found.append([table, *place, named, held, ""])
        return found

    @staticmethod
    def id_fault(identifier: str, ids: set[str]) -> int:
        """Returns the number of the fault of a row's identifier, or 0."""
        if not identifier:
            return 28
        if not ROW_ID.fullmatch(identifier):
            return 29
        return 30 if identifier in ids else 0

    def head(self) -> str:
        """Returns the text of a document before its facts."""
        info = self.metadata["documentInfo"]
        said = {
            "documentType": "https://xbrl.org/2021/xbrl-json",
            "namespaces": info["namespaces"],
            "taxonomy": info["taxonomy"],
        }
        return '{"documentInfo":' + compact(said) + ',"facts":{'

    def told(self) -> Told:
        """Returns what a run must end with."""
        members: list[str] = []
        lines: list[str] = []
        for table in sorted(self.tables):
            try:
                for facts in self.rows_of(table):
                    if not lines:
                        members += [f"{compact(name)}:{compact(held)}" for name, held in facts]
            except Fault as fault:
                where = f"table {table}, row {fault.row}, column {fault.column}"
                name = f"{NAMES[fault.number]} ({fault.number})"
                lines.append(f"xbrl-json: {where}: {name}\n")
        text = self.head() + ",".join(members)
        if lines:
            return Told(1, text.encode(), "".join(lines))
        return Told(0, (text + "}}\n").encode(), "")
