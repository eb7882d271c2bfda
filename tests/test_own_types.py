"""Compares the program with tests/own_types.py over random cells of each word of `type3`.

Cells are values of a type, values with a letter changed, and texts of other types, by a fixed seed.
Those that are good by the own reading are in one table for each word, whose document must be the
same. Each of the others is the one row of a table, which must be refused for the same fault.
"""
from __future__ import annotations

import json
from collections.abc import Callable, Mapping, Sequence
from functools import partial
from random import Random
from typing import Any, NamedTuple

from tests.harness import TestCase
from tests.own_types import BOUNDS, FREE, SETS, Names, Read, cell_of, typed_of, unit_fault

SEED, CELLS = 1, 1200  # cells of each word in each place
CSV = "https://xbrl.org/2021/xbrl-csv"
EG, OTHER = "http://example.com/eg", "http://example.com/o"
PREFIXES = {
    "eg": EG,
    "o": OTHER,
    "iso4217": "http://www.xbrl.org/2003/iso4217",
    "xbrli": "http://www.xbrl.org/2003/instance",
}
MEMBERS = {(EG, "M"), (EG, "N"), (OTHER, "M"), (OTHER, "\u00c9-1"), (EG, "C")}
FAULTS = {
    31: "UnknownSpecial",
    35: "BadReference",
    36: "BadValue",
    40: "BadNumber",
    44: "BadFactValue",
    45: "BadUnit",
    47: "UnknownMember",
}
# Letters that a change puts into a text.
LETTERS = "0123456789+-.:/*#TZPYMDHSEedINFaxtrue _\u00b7\u00a0\u0661\u00e9\u0301\ufffe\U00010000\t\n\r,\"'"
SPECIAL = ["", "#none", "#nil", "#empty", "##", "##1", "#N/A", "#Nil", " #nil", "#"]
MOST_TABLES = 4096  # of a report

# How a word's cells are made.
Maker = Callable[[Random], str]
Places = Mapping[str, "Place"]


def digits(random: Random, most: int) -> str:
    """Returns one digit or more."""
    return "".join(random.choices("0123456789", k=random.randint(1, most)))


def integer(random: Random, word: str) -> str:
    """Returns an integer, often one at the bound of a type."""
    of = random.choice([word, *BOUNDS])
    bounds = [it for it in (*BOUNDS[word], *BOUNDS[of]) if it is not None] or [0]
    at_bound = random.choice(bounds) + random.randint(-1, 1)
    value = random.choice([0, at_bound, at_bound, random.randint(-300, 300)])
    sign = random.choice(["-", "+"]) if value == 0 and random.random() < 0.3 else ""
    zeros = "0" * random.choice([0, 0, 0, 2])
    text = f"{'-' if value < 0 else sign}{zeros}{abs(value)}"
    return f"+{text}" if text[0] in "0123456789" and random.random() < 0.1 else text


def decimal(random: Random) -> str:
    """Returns a decimal."""
    whole, fraction = digits(random, 4), digits(random, 4)
    text = random.choice([whole, f"{whole}.{fraction}", f".{fraction}", f"{whole}."])
    return random.choice(["", "", "-", "+"]) + text


def double(random: Random) -> str:
    """Returns a double."""
    exponent = random.choice("eE") + random.choice(["", "-", "+"]) + digits(random, 3)
    return decimal(random) + random.choice(["", exponent])


def suffixed(maker: Maker) -> Maker:
    """Returns a maker of numbers that may have decimals as a suffix."""
    ends = ["d0", "d-3", "d+2", "dINF", "d2147483647", "d2147483648", "d-2147483648", "d1.5", "d", "dinf"]
    return lambda random: maker(random) + (random.choice(ends) if random.random() < 0.2 else "")


def zone(random: Random) -> str:
    """Returns a time zone or nothing."""
    shift = f"{random.choice('+-')}{random.choice([0, 5, 13, 14, 15]):02}:{random.choice([0, 1, 59, 60]):02}"
    return random.choice(["", "", "Z", shift])


def day(random: Random) -> str:
    """Returns a date, which may not exist."""
    year = random.choice([1, 4, 100, 1900, 2000, 2023, 2024, 9999, 0])
    return f"{year:04}-{random.choice([1, 2, 2, 4, 12, 13]):02}-{random.choice([0, 1, 28, 29, 30, 31, 32]):02}"


def time(random: Random) -> str:
    """Returns a time, which may not exist."""
    hours, minutes, seconds = (random.choice(it) for it in ([0, 12, 23, 24, 24], [0, 0, 59, 60], [0, 0, 59, 60]))
    fraction = random.choice(["", "", ".0", ".000", ".5", f".{digits(random, 12)}"])
    return f"{hours:02}:{minutes:02}:{seconds:02}{fraction}"


def duration(random: Random) -> str:
    """Returns a duration, which may lack all its parts."""

    def parts(letters: str) -> str:
        return "".join(f"{digits(random, 3)}{it}" for it in letters if random.random() < 0.4)

    seconds = f"{digits(random, 3)}.{digits(random, 3)}S" if random.random() < 0.2 else ""
    times = parts("HM") + (seconds or parts("S"))
    return random.choice(["", "", "-"]) + f"P{parts('YMD')}" + random.choice(["", f"T{times}"])


def name(random: Random) -> str:
    """Returns an NCName of the letters that names have."""
    first = random.choice("aZ_\u00e9\u0391\u4e00\U00010000")
    return first + "".join(random.choices("a1-._\u00b7\u0301\u203f", k=random.randint(0, 4)))


def qname(random: Random) -> str:
    """Returns a QName, whose prefix may not be declared."""
    local = random.choice(["M", "N", "C", "\u00c9-1", "X", name(random)])
    return f"{random.choice(['eg', 'o', 'eg', 'o', 'zz', 'EG'])}:{local}"


def qnames(random: Random) -> str:
    """Returns a set of QNames, in which one may occur twice."""
    names = [qname(random) for _ in range(random.randint(0, 3))]
    return random.choice([" ", "  ", "\t", "\n", "\r\n"]).join(names)


def language(random: Random) -> str:
    """Returns a language."""
    parts = ["".join(random.choices("abZ", k=random.choice([1, 2, 3, 8, 9])))]
    parts += ["".join(random.choices("aZ09", k=random.choice([1, 2, 8, 9]))) for _ in range(random.randint(0, 2))]
    return "-".join(parts)


def hexadecimal(random: Random) -> str:
    """Returns hexadecimal digits, also none."""
    return "".join(random.choices("0123456789abcdefABCDEF", k=random.randint(0, 5)))


MAKERS: dict[str, Maker] = {
    **{it: suffixed(partial(integer, word=it)) for it in BOUNDS},
    **{it: suffixed(decimal) for it in ("decimal", "monetary", "shares")},
    "double": suffixed(double),
    "text": name,
    "other": name,
    "boolean": lambda random: random.choice(["true", "false", "0", "1", "True", "00"]),
    "qname": qname,
    "date": lambda random: day(random) + zone(random),
    "dateTime": lambda random: f"{day(random)}T{time(random)}{zone(random)}",
    "time": lambda random: time(random) + zone(random),
    "gYear": lambda random: day(random)[:4] + zone(random),
    "gYearMonth": lambda random: day(random)[:7] + zone(random),
    "gMonth": lambda random: f"-{day(random)[4:7]}{zone(random)}",
    "gMonthDay": lambda random: f"-{day(random)[4:]}{zone(random)}",
    "gDay": lambda random: f"--{day(random)[7:]}{zone(random)}",
    "duration": duration,
    "language": language,
    "NCName": name,
    "hexBinary": hexadecimal,
    "enumeration": qname,
    "enumerations": qnames,
}
TYPED = [it for it in MAKERS if it not in (*FREE, *SETS, "monetary", "shares")]


def changed(random: Random, text: str) -> str:
    """Returns a text in which a letter is put in, taken out or replaced."""
    at = random.randint(0, len(text))
    put = random.choice(["", random.choice(LETTERS)])
    return text[:at] + put + text[at + random.randint(0, 1) :]


def cell(random: Random, word: str) -> str:
    """Returns a cell for a word: a value, one with changes, one of another word, or any text."""
    draw = random.random()
    if draw < 0.03:
        return random.choice(SPECIAL)
    if draw < 0.1:
        return "".join(random.choices(LETTERS, k=random.randint(1, 6)))
    of = random.choice(list(MAKERS)) if draw < 0.2 else word
    text = MAKERS[of](random)
    for _ in range(random.choice([0, 0, 1, 2]) if draw < 0.6 else 0):
        text = changed(random, text)
    if random.random() < 0.1:
        text = random.choice([" ", "\t", "\r\n", ""]) + text + random.choice([" ", "\n", "\u00a0", ""])
    return text


class Place(NamedTuple):
    """Where cells are: the columns of a template, and how a cell is read there.

    A fact has the value of the cell as its own, or as that of a dimension.
    """

    columns: dict[str, Any]
    read: Callable[[str], Read]
    dimension: str = ""

    def row(self, cell: str) -> str:
        """Returns a row of the table with a cell."""
        text = '"' + cell.replace('"', '""') + '"'
        return f"1,{text}\n" if self.dimension else f"{text}\n"

    def seen(self, fact: Any) -> Any:
        """Returns what a fact has of its cell."""
        if self.dimension:
            return fact["dimensions"].get(self.dimension, "absent")
        return fact["value"], fact.get("decimals")

    def wanted(self, read: Read) -> Any:
        """Returns what the fact of a good cell has of it; None if there is no fact."""
        if self.dimension:
            return read.value if read.is_fact else "absent"
        return (read.value, read.decimals) if read.is_fact else None


def fact_place(word: str, names: Names) -> Place:
    """Returns the place of cells of a concept of this type."""
    unit = "xbrli:shares" if word == "shares" else "iso4217:EUR"
    columns = {"v": {"dimensions": {"concept": f"eg:c_{word}", "unit": unit}}}
    return Place(columns, lambda text: cell_of(word, text, names))


def typed_place(word: str, names: Names) -> Place:
    """Returns the place of values of a typed dimension of this type."""
    dimensions = {"concept": "eg:c_integer", "unit": "iso4217:EUR", f"eg:d_{word}": "$w"}
    columns = {"v": {"dimensions": dimensions}, "w": {}}
    return Place(columns, lambda text: typed_of(word, text, names), f"eg:d_{word}")


def unit_place(word: str, names: Names) -> Place:
    """Returns the place of units of a number of this type."""
    columns = {"v": {"dimensions": {"concept": f"eg:c_{word}", "unit": "$w"}}, "w": {}}
    return Place(columns, lambda text: Read(unit_fault(word, text, names), value=text), "unit")


def unit(random: Random) -> str:
    """Returns a unit, which may not be well-formed."""
    measures = ["iso4217:EUR", "iso4217:EUR", "iso4217:USD", "xbrli:shares", "xbrli:shares"]
    measures += ["iso4217:eur", "iso4217:EURO", "iso4217:E", "eg:EUR", "zz:EUR", "EUR", "xbrli:Shares"]
    text = random.choice(measures)
    while random.random() < 0.2:
        text += random.choice("*/") + random.choice(measures)
    return changed(random, text) if random.random() < 0.2 else text


def types(with_members: bool) -> str:
    """Returns a types table with a concept and a typed dimension of each word."""
    lines = [f"{EG},c_{it},{it},," for it in MAKERS] + [f"{EG},d_{it},typed,,{it}" for it in TYPED]
    if with_members:
        lines += [f"{uri},{it},member,," for uri, it in sorted(MEMBERS)]
    return "namespace,name,type3,period,values\n" + "".join(f"{it}\n" for it in lines)


class TestOwnTypes(TestCase):
    """Converts cells, and compares what they give with the own reading."""

    def report(self, places: Places, tables: Mapping[str, tuple[str, Sequence[str]]]) -> None:
        """Writes a report; each table is given by its place and cells."""
        info: dict[str, Any] = {"documentType": CSV, "namespaces": PREFIXES}
        named = {it: {"url": f"{it}.csv", "template": used} for it, (used, _) in tables.items()}
        metadata = {
            "documentInfo": {**info, "taxonomy": [f"{EG}.xsd"]},
            "dimensions": {"entity": "eg:A1", "period": "2021-12-31T00:00:00"},
            "tableTemplates": {it: {"columns": place.columns} for it, place in places.items()},
            "tables": named,
        }
        self.write({"meta.json": metadata})
        for table, (used, cells) in tables.items():
            header = ",".join(places[used].columns)
            rows = "".join(map(places[used].row, cells))
            self.write({f"{table}.csv": f"{header}\n{rows}"})

    def compare(self, places: Places, cells: Mapping[str, Sequence[str]], with_members: bool) -> None:
        """Converts the good cells of each place in one table, and each bad one in its own."""
        self.write({"types.csv": types(with_members)})
        cases = [(it, text, place.read(text)) for it, place in places.items() for text in cells[it]]
        good: dict[str, list[str]] = {}
        for it, text, read in cases:
            if not read.fault:
                good.setdefault(it, []).append(text)
        bad = [(it, text) for it, text, read in cases if read.fault]
        self.assertEqual(set(good), set(places))
        self.compare_good(places, good)
        for at in range(0, len(bad), MOST_TABLES):
            self.compare_bad(places, bad[at : at + MOST_TABLES])

    def compare_good(self, places: Places, good: Mapping[str, Sequence[str]]) -> None:
        """Converts good cells, and compares the values of their facts."""
        self.report(places, {it: (it, texts) for it, texts in good.items()})
        done = self.run_program("meta.json", "--types", "types.csv", "--workers=1")
        self.assertEqual((done.status, done.err), (0, ""))
        facts = json.loads(done.out)["facts"]
        differ: dict[str, Any] = {}
        count = 0
        for it, texts in good.items():
            for number, text in enumerate(texts, 1):
                fact = facts.get(f"{it}.r_{number}.v")
                count += fact is not None
                seen = None if fact is None else places[it].seen(fact)
                wanted = places[it].wanted(places[it].read(text))
                if seen != wanted:
                    differ[f"{it} {text!r}"] = (seen, wanted)
        self.assertEqual(differ, {})
        self.assertEqual(len(facts), count)

    def compare_bad(self, places: Places, bad: Sequence[tuple[str, str]]) -> None:
        """Converts bad cells, each in a table of its own, and compares the faults."""
        self.report(places, {f"t{at}": (used, [text]) for at, (used, text) in enumerate(bad)})
        done = self.run_program("meta.json", "--types", "types.csv", "--workers=1")
        said = (it.replace("xbrl-json: table ", "").split(", ", 1) for it in done.err.splitlines())
        seen = {table: line for table, line in said}
        differ: dict[str, Any] = {}
        for at, (used, text) in enumerate(bad):
            number = places[used].read(text).fault
            wanted = f"row 1, column 1: {FAULTS[number]} ({number})"
            if seen.get(f"t{at}") != wanted:
                differ[f"{used} {text!r}"] = (seen.get(f"t{at}"), wanted)
        self.assertEqual((differ, done.status), ({}, 1))

    def test_cells(self) -> None:
        """Compares cells of concepts, without members in the types table."""
        random = Random(SEED)
        places = {it: fact_place(it, Names(PREFIXES)) for it in MAKERS}
        self.compare(places, {it: [cell(random, it) for _ in range(CELLS)] for it in places}, False)

    def test_members(self) -> None:
        """Compares cells of members and names, with members in the types table."""
        random = Random(SEED)
        names = Names(PREFIXES, {*MEMBERS, *((EG, f"c_{it}") for it in MAKERS)})
        places = {it: fact_place(it, names) for it in (*SETS, "qname")}
        self.compare(places, {it: [cell(random, it) for _ in range(CELLS)] for it in places}, True)

    def test_typed_dimensions(self) -> None:
        """Compares values of typed dimensions."""
        random = Random(SEED)
        places = {it: typed_place(it, Names(PREFIXES)) for it in TYPED}
        self.compare(places, {it: [cell(random, it) for _ in range(CELLS)] for it in places}, False)

    def test_units(self) -> None:
        """Compares units of amounts of money and of shares."""
        random = Random(SEED)
        places = {it: unit_place(it, Names(PREFIXES)) for it in ("monetary", "shares")}
        units = [*SPECIAL, *(unit(random) for _ in range(CELLS))]
        self.compare(places, dict.fromkeys(places, units), False)
