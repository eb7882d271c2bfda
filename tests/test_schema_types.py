"""Tests what cells may hold under the header `type3` of a types table.

The values and faults follow from XML Schema Part 2 (second edition), XBRL 2.1, XBRL Dimensions 1.0
and Extensible Enumerations 2.0. No run of the program makes them.
"""
from __future__ import annotations

import json
from collections.abc import Iterable, Mapping
from typing import Optional

from tests.harness import for_each
from tests.worked_reports import FEW_WAYS, ONE_WAY, PERIOD, TABLE, ReportTest, edited, lines

HEADER = "namespace,name,type3,period,values\n"
EG = "http://example.com/eg"
EURO = "iso4217:EUR"
SHARES = "xbrli:shares"
INSTANT = "2021-12-31T00:00:00"
# More than 128 bytes, so the program keeps its members in order.
LONG_SET = " ".join(f"eg:m{it}" for it in range(40))

NUMBER, VALUE, FORM = "BadNumber (40)", "BadValue (36)", "BadFactValue (44)"
UNIT, WRONG, MEMBER = "BadUnit (45)", "WrongPeriod (46)", "UnknownMember (47)"

# Good cells with the values of their facts, where None is nil; the fault of the bad cells; these.
Cells = tuple[Mapping[str, Optional[str]], str, Iterable[str]]


def same(*cells: str) -> dict[str, Optional[str]]:
    """Returns cells whose values are their texts, and the cell of nil."""
    written: dict[str, Optional[str]] = {it: it for it in cells}
    return {**written, "#nil": None}


def bounded(least: Optional[int], most: Optional[int], *bad: str) -> Cells:
    """Returns the integers at the bounds and their neighbors."""
    first = 0 if least is None else least
    last = first + 10**30 if most is None else most
    if least is None:
        first = last - 10**30
    good = same(str(first), str(last), f" {last} ")
    good[f" {last} "] = str(last)
    outside = [str(first - 1)] * (least is not None) + [str(last + 1)] * (most is not None)
    return good, NUMBER, [*outside, *bad, "1.0", "1e0", "x", "-", "#empty"]


def signed(bits: int) -> Cells:
    """Returns the integers of a count of bits, with a sign."""
    return bounded(-(2 ** (bits - 1)), 2 ** (bits - 1) - 1)


def unsigned(bits: int) -> Cells:
    """Returns the integers of a count of bits, without a sign."""
    return bounded(0, 2**bits - 1, "+1", "-0", "+0")


OCTETS: Cells = {**same("0fB7", "00"), "#empty": "", " AB ": "AB"}, FORM, ["0fB", "0g", "0x"]
WORDS: dict[str, Cells] = {
    "integer": (same("-12", "+3", "007"), NUMBER, ["1.0", "1e2", "#empty"]),
    "decimal": (same("-1.5", ".5", "7."), NUMBER, ["1e2", "1,5", "#empty"]),
    "double": (same("-1.5", "1e2", "1E-7"), NUMBER, ["INF", "NaN", "#empty"]),
    "positiveInteger": bounded(1, None, "-0"),
    "nonNegativeInteger": ({**bounded(0, None)[0], "-0": "-0", "+2": "+2"}, NUMBER, ["-1", "x"]),
    "negativeInteger": bounded(None, -1, "-0", "+0"),
    "nonPositiveInteger": ({**bounded(None, 0)[0], "+0": "+0"}, NUMBER, ["1", "+1", "x"]),
    "long": signed(64),
    "int": signed(32),
    "short": signed(16),
    "byte": signed(8),
    "unsignedLong": unsigned(64),
    "unsignedInt": unsigned(32),
    "unsignedShort": unsigned(16),
    "unsignedByte": unsigned(8),
    "monetary": (same("12.50", "-1"), NUMBER, ["1e2", "EUR 1", "#empty"]),
    "shares": (same("12.50", "1"), NUMBER, ["1e2", "x", "#empty"]),
    "text": ({**same(" a ", "1"), "#empty": ""}, "", []),
    "boolean": ({**same("true", "0"), " 1 ": "1"}, FORM, ["TRUE", "yes", "2", "#empty"]),
    "qname": ({**same("eg:a"), " eg:a ": "eg:a"}, FORM, ["a", "zz:a", "eg:1", "#empty"]),
    "date": (
        {**same("2024-02-29", "2024-02-29Z", "0001-01-01-14:00"), " 9999-12-31 ": "9999-12-31"},
        FORM,
        ["2023-02-29", "2024-02-29+14:01", "2024-02-29z", "24-02-29", "-0001-01-01", "#empty"],
    ),
    "dateTime": (
        same("2024-02-29T00:00:00", "9999-12-31T24:00:00.000", "2024-02-29T23:59:59.9+05:30"),
        FORM,
        ["2024-02-29T24:00:00.1", "2024-02-29T23:59:60", "2024-02-29T12:00:00.", "2024-02-29"],
    ),
    "time": (
        same("00:00:00", "24:00:00Z", "23:59:59.123456789-00:01"),
        FORM,
        ["24:00:01", "12:60:00", "12:00", "1:00:00", "#empty"],
    ),
    "gYear": (same("2024", "0001Z", "9999+14:00"), FORM, ["0000", "10000", "24", "2024-01"]),
    "gYearMonth": (same("2024-12", "2024-01Z"), FORM, ["2024-13", "2024-1", "2024", "2024-00"]),
    "gMonth": (same("--01", "--12Z"), FORM, ["--13", "--00", "01", "--01--", "-01"]),
    "gMonthDay": (same("--02-29", "--12-31Z"), FORM, ["--02-30", "--04-31", "--1-1", "02-29"]),
    "gDay": (same("---01", "---31-05:00"), FORM, ["---32", "---00", "--01", "---1"]),
    "duration": (
        {**same("P1Y2M3DT4H5M6.7S", "-P1D", "PT0S", "P0Y"), " P1M ": "P1M"},
        FORM,
        ["P", "P1YT", "+P1D", "P1D2M", "PT1.5M", "PT.5S", "P-1D", "1D", "#empty"],
    ),
    "language": (
        {**same("en-GB", "x-klingon"), " De ": "De"},
        FORM,
        ["e n", "en_GB", "en-", "123", "abcdefghi", "#empty"],
    ),
    "NCName": ({**same("a.b-1", "_x"), " a ": "a"}, FORM, ["1a", "a:b", "a b", "#empty"]),
    "hexBinary": OCTETS,
    "enumeration": ({**same("eg:a"), " eg:a ": "eg:a"}, FORM, ["a", "zz:a", "eg:a eg:b", "#empty"]),
    "enumerations": (
        {**same("eg:b eg:a", LONG_SET), " eg:a\t eg:b\n": "eg:a eg:b", "#empty": "", " \t": ""},
        FORM,
        ["eg:a eg:a", "a", "zz:a", "eg:a,eg:b", "eg:a zz:b", f"{LONG_SET} eg:m7"],
    ),
    "other": ({**same(" a ", "TRUE"), "#empty": ""}, "", []),
}
NUMBERS = [it for it, (_, fault, _) in WORDS.items() if fault == NUMBER]
NOT_SIMPLE = "monetary", "shares", "text", "enumeration", "enumerations", "other"
SIMPLE = [it for it in WORDS if it not in NOT_SIMPLE]


def types_of(*records: str) -> str:
    """Returns a types table of these records, without their namespace."""
    return HEADER + "".join(f"{EG},{it}\n" for it in records)


def member(identifier: str, value: Optional[str], more: Mapping[str, Optional[str]]) -> str:
    """Returns the member of a fact of the concept C with these other dimensions."""
    dimensions: dict[str, Optional[str]] = {"concept": "eg:C", "entity": "eg:A1", **more}
    in_order = {it: dimensions[it] for it in sorted(dimensions)}
    text = json.dumps({"dimensions": in_order, "value": value}, separators=(",", ":"))
    return f"{json.dumps(identifier)}:{text}"


def quoted(cell: str) -> str:
    """Returns a cell as CSV."""
    return f'"{cell}"' if set(cell) & set(' ,"\t\n') else cell


class SchemaTest(ReportTest):
    """A test with the concept C in the column cash, and the reference `$b` to the column b."""

    def prepare(self, types: str, files: list[str], **changes: str) -> None:
        """Writes a report whose tables t10, t11 .. have these files.

        Each change is that of a dimension of the report, with `_` for the colon of its name.
        """
        old = f'"entity":"eg:A1",\n"period":"{PERIOD}",\n"unit":"{EURO}"'
        dimensions = {"entity": "eg:A1", "period": PERIOD, "unit": EURO}
        named = {it.replace("_", ":"): value for it, value in changes.items()}
        tables = ",".join(TABLE.replace("t1", f"t{i + 10}") for i in range(len(files)))
        meta = edited(
            [
                (old, json.dumps({**dimensions, **named})[1:-1]),
                ('"concept":"eg:Cash"', '"concept":"eg:C"'),
                ('"columns":{', '"columns":{"b":{},'),
                (TABLE, tables),
            ]
        )
        written = {f"t{i + 10}.csv": text for i, text in enumerate(files)}
        self.write({"m.json": meta, "t.csv": types, **written})

    def gives(
        self, types: str, rows: list[str], facts: list[str], **changes: str
    ) -> None:
        """Checks the facts of one table."""
        self.prepare(types, ["cash,b\n" + "".join(f"{it}\n" for it in rows)], **changes)
        self.converts(facts, ways=FEW_WAYS)

    def refuses(self, types: str, faults: dict[str, str], **changes: str) -> None:
        """Checks the faults of rows, each of which is in a table of its own."""
        self.prepare(types, [f"cash,b\n{row}\n" for row in faults], **changes)
        said = (f"t{i + 10}, row 1, column 1: {it}" for i, it in enumerate(faults.values()))
        self.converts("", lines("; ".join(said)), ways=ONE_WAY)


def dimensions_of(word: str, unit: str) -> dict[str, Optional[str]]:
    """Returns the period of a fact, and its unit if the concept is numeric."""
    return {"period": PERIOD, **({"unit": unit} if word in NUMBERS else {})}


@for_each((it, (it, *cells)) for it, cells in WORDS.items())
class TestWords(SchemaTest):
    """Converts the good and the bad cells of each word, in the unit that it wants."""

    def check(
        self, word: str, good: Mapping[str, Optional[str]], fault: str, bad: Iterable[str]
    ) -> None:
        """Converts the cells of a word."""
        unit = SHARES if word == "shares" else EURO
        types = types_of(f"C,{word},,")
        rows = [f"{quoted(it)}," for it in good]
        more = dimensions_of(word, unit)
        facts = [member(f"t10.r_{i + 1}.cash", v, more) for i, v in enumerate(good.values())]
        self.gives(types, rows, facts, unit=unit)
        if faults := {f"{quoted(it)},": fault for it in bad}:
            self.refuses(types, faults, unit=unit)


# The word of a concept, the unit that the row gives, and its fault.
UNITS = {
    "a currency": ("monetary", EURO, ""),
    "a currency that no list has": ("monetary", "iso4217:XYZ", ""),
    "a currency in small letters": ("monetary", "iso4217:eur", UNIT),
    "a currency of four letters": ("monetary", "iso4217:EURO", UNIT),
    "a currency of another namespace": ("monetary", "eg:EUR", UNIT),
    "shares of money": ("monetary", SHARES, UNIT),
    "pure money": ("monetary", "xbrli:pure", UNIT),
    "money in parentheses": ("monetary", "(iso4217:EUR)", UNIT),
    "money a share": ("monetary", "iso4217:EUR/xbrli:shares", UNIT),
    "money times money": ("monetary", "iso4217:EUR*iso4217:USD", UNIT),
    "money without a unit": ("monetary", "", UNIT),
    "money with none": ("monetary", "#none", UNIT),
    "money with nil": ("monetary", "#nil", "BadReference (35)"),
    "money with empty": ("monetary", "#empty", "BadReference (35)"),
    "money with an unknown value": ("monetary", "#N/A", "UnknownSpecial (31)"),
    "a unit without a prefix": ("monetary", "EUR", VALUE),
    "a unit of an unknown prefix": ("monetary", "zz:EUR", VALUE),
    "shares": ("shares", SHARES, ""),
    "shares in money": ("shares", EURO, UNIT),
    "pure shares": ("shares", "xbrli:pure", UNIT),
    "shares of another namespace": ("shares", "eg:shares", UNIT),
    "shares without a unit": ("shares", "", UNIT),
    "a decimal without a unit": ("decimal", "", ""),
    "a text in no unit": ("text", "EUR", ""),
}


@for_each(UNITS.items())
class TestUnits(SchemaTest):
    """Converts a number and nil in the unit that the column b has."""

    def check(self, word: str, unit: str, fault: str) -> None:
        """Converts a number and nil in a unit."""
        types = types_of(f"C,{word},,")
        rows = {"7": "7", "#nil": None}
        if fault:
            self.refuses(types, {f"{it},{unit}": fault for it in rows}, unit="$b")
            return
        more = {"period": PERIOD, **({"unit": unit} if unit and word != "text" else {})}
        facts = [member(f"t10.r_{i + 1}.cash", v, more) for i, v in enumerate(rows.values())]
        self.gives(types, [f"{it},{unit}" for it in rows], facts, unit="$b")

    def test_no_fact_wants_no_unit(self) -> None:
        """An empty cell has no fact and so no fault."""
        self.gives(types_of("C,monetary,,"), [",EUR", "#none,"], [], unit="$b")


# The type of a concept's periods, what the period is by reference, the cell, and its fault or the
# period of the fact.
PERIODS = {
    "an instant": ("instant", "$b", INSTANT, INSTANT),
    "a duration for an instant": ("instant", "$b", "2021", WRONG),
    "no instant": ("instant", "$b", "", WRONG),
    "none for an instant": ("instant", "$b", "#none", WRONG),
    "the end of a duration": ("instant", "$b@end", "2021", "2022-01-01T00:00:00"),
    "the start of a duration": ("instant", "$b@start", "2021", "2021-01-01T00:00:00"),
    "a written end": ("instant", "$b", "2021@end", "2022-01-01T00:00:00"),
    "the end of an instant": ("instant", "$b@end", INSTANT, "NotDuration (38)"),
    "no period": ("instant", "$b", "nope", "BadPeriod (37)"),
    "nil": ("instant", "$b", "#nil", "BadReference (35)"),
    "a duration": ("duration", "$b", "2021", PERIOD),
    "for ever": ("duration", "$b", "", ""),
    "an instant for a duration": ("duration", "$b", INSTANT, WRONG),
    "an end for a duration": ("duration", "$b@end", "2021", WRONG),
    "no period for a duration": ("duration", "$b", "nope", "BadPeriod (37)"),
    "any instant": ("", "$b", INSTANT, INSTANT),
    "any duration": ("", "$b", "2021", PERIOD),
    "any period": ("", "$b", "", ""),
}


@for_each(PERIODS.items())
class TestPeriods(SchemaTest):
    """Converts a number and nil of the period that the column b has."""

    def check(self, wanted: str, written: str, cell: str, answer: str) -> None:
        """Converts a number and nil of a period."""
        types = types_of(f"C,integer,{wanted},")
        rows = {"7": "7", "#nil": None}
        if answer.endswith(")"):
            self.refuses(types, {f"{it},{cell}": answer for it in rows}, period=written)
            return
        more = {"unit": EURO, **({"period": answer} if answer else {})}
        facts = [member(f"t10.r_{i + 1}.cash", v, more) for i, v in enumerate(rows.values())]
        self.gives(types, [f"{it},{cell}" for it in rows], facts, period=written)


@for_each((it, (it,)) for it in SIMPLE)
class TestTyped(SchemaTest):
    """Converts the values of a typed dimension of each simple type, by reference to the column b.

    Numbers have no suffix, nil is nil, and an empty cell leaves the dimension out.
    """

    def check(self, word: str) -> None:
        """Converts the good and the bad values of a type."""
        types = types_of("C,integer,,", f"D,typed,,{word}")
        good, _, bad = WORDS[word]
        values: dict[str, Optional[str]] = {**good, "": None}
        rows = [f"1,{quoted(it)}" for it in values]
        base: dict[str, Optional[str]] = {"period": PERIOD, "unit": EURO}
        facts = [
            member(f"t10.r_{i + 1}.cash", "1", {**base, **({"eg:D": v} if it else {})})
            for i, (it, v) in enumerate(values.items())
        ]
        self.gives(types, rows, facts, eg_D="$b")
        suffixed = ["7d0"] if word in NUMBERS else []
        self.refuses(types, {f"1,{quoted(it)}": VALUE for it in [*bad, *suffixed]}, eg_D="$b")


MEMBERS = ("M,member,,", "N,member,,", "D,explicit,,", "T,typed,,")
# The word of the concept C, the cell, and the value or the fault.
KNOWN = {
    "a member": ("enumeration", " eg:M ", "eg:M"),
    "a concept as a member": ("enumeration", "eg:C", "eg:C"),
    "no member": ("enumeration", "eg:X", MEMBER),
    "a dimension as a member": ("enumeration", "eg:D", MEMBER),
    "a member without a prefix": ("enumeration", "M", FORM),
    "two members": ("enumerations", "eg:N  eg:M", "eg:N eg:M"),
    "no members": ("enumerations", "#empty", ""),
    "a member and none": ("enumerations", "eg:M eg:X", MEMBER),
    "none and a member": ("enumerations", "eg:X eg:M", MEMBER),
    "none twice": ("enumerations", "eg:X eg:X", FORM),
    "a name that is no member": ("qname", "eg:X", "eg:X"),
}


@for_each(KNOWN.items())
class TestMembers(SchemaTest):
    """Converts cells of members, where the types table names members."""

    def check(self, word: str, cell: str, answer: str) -> None:
        """Converts a cell."""
        types = types_of(f"C,{word},,", *MEMBERS)
        if answer.endswith(")"):
            self.refuses(types, {f"{quoted(cell)},": answer})
        else:
            facts = [member("t10.r_1.cash", answer, {"period": PERIOD})]
            self.gives(types, [f"{quoted(cell)},"], facts)

    def test_explicit_dimensions(self) -> None:
        """An explicit member, which is not trimmed, is known where the table names members."""
        base: dict[str, Optional[str]] = {"period": PERIOD, "unit": EURO}
        types = types_of("C,integer,,", *MEMBERS)
        facts = [
            member(f"t10.r_{i + 1}.cash", "1", {**base, "eg:D": it})
            for i, it in enumerate(("eg:M", "eg:C"))
        ]
        self.gives(types, ["1,eg:M", "1,eg:C"], facts, eg_D="$b")
        bad = {"1,eg:X": MEMBER, "1,eg:T": MEMBER, "1,X": VALUE, '1," eg:M"': VALUE}
        self.refuses(types, bad, eg_D="$b")

    def test_explicit_dimensions_without_members(self) -> None:
        """Without members in the table each QName is one."""
        more = {"period": PERIOD, "unit": EURO, "eg:D": "eg:X"}
        types = types_of("C,integer,,", "D,explicit,,")
        self.gives(types, ["1,eg:X"], [member("t10.r_1.cash", "1", more)], eg_D="$b")

    def test_a_member_is_no_concept(self) -> None:
        """The concept of a cell may not be a member."""
        self.refuses(types_of("C,member,,"), {"1,": "UnknownName (34)"})


class TestOrder(SchemaTest):
    """Tests which fault of a cell is told."""

    def test_decimals_behind_a_suffix(self) -> None:
        """Behind a suffix decimals are not read, also where the number is out of bounds."""
        types = types_of("C,byte,,")
        faults = {"300d0,y": NUMBER, "300,y": "BadDecimals (39)", "300,#x": "UnknownSpecial (31)"}
        self.prepare(types, [f"cash,b\n{row}\n" for row in faults])
        file = self.folder / "m.json"
        meta = file.read_text()
        file.write_text(meta.replace('{"concept":"eg:C"}', '{"concept":"eg:C"},"decimals":"$b"'))
        said = (f"t{i + 10}, row 1, column 1: {it}" for i, it in enumerate(faults.values()))
        self.converts("", lines("; ".join(said)), ways=ONE_WAY)

    def test_by_number(self) -> None:
        """A bad form is told before the unit, the unit before the period, this before a member."""
        self.refuses(types_of("C,monetary,instant,"), {"x,": NUMBER, "1,": UNIT}, unit=SHARES)
        types = types_of("C,enumeration,instant,", "M,member,,")
        self.refuses(types, {"x,": FORM, "eg:X,": WRONG, "eg:M,": WRONG})
