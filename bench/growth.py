#!/usr/bin/env python3
"""Measures how the converter's time grows with each kind of report, compared with plain Rust.

    growth.py PROGRAM [PLAIN] [KIND..] [--hostile] [--fault table|metadata] [--runs 3] [--limit 60]

PROGRAM is the built program's file, PLAIN that of plain Rust (`plain`, here), if there is one. Each
kind of report is made twice, of the size n and of 4 n, and grows in one direction only. Without a
KIND all are taken, and `--list` names them. Both programs convert each report on one worker, or on
as many as the kind says. Their documents of the smaller one must be the same JSON value.

A line has the size n; then for both programs the processor seconds (user and system) at n and at
4 n, the least of the rounds, and their quotient; then the program's seconds at 4 n as a multiple of
plain Rust's. Linear growth has a quotient of about 4, quadratic growth one of 16. A run over the
limit (in processor seconds) is stopped, and one over a tenth of it is made once.

The last column names missed goals: `growth`, if 4 n takes more than 0.1 s and more than 5 times the
time of n, and `plain`, if it takes more than 0.9 of plain Rust's. Needs Linux.

Some kinds are what a stranger would send to cost us time or memory: names of one hash or in falling
order, two directions at once, one fault, a header of empty cells, or a long text that is written
into each fact. `--hostile` takes only these, in a few minutes. Their goals are 4.5 times the time
of n, and 3 times that of plain Rust. Where a report grows in two directions, its facts or cells are
16 times as many at 4 n, and the first goal is 18.

A hostile kind is also converted with four workers at 4 n. The column `MB` has the most memory that
this took, and the goal `memory` is 64 MB and 20 times the metadata's bytes, or as many times as the
kind says. This needs GNU time. If all processors are busy, a run takes only one worker: then give
--workers more than there are processors. A kind whose rows have no facts is also timed so, and its
goal `workers` is 3 times the time of one worker.

With --fault each report has a fault at its end: a row with one cell too many in the last table, or
a dimension that no taxonomy has in the metadata. Then the run ends with that fault and explains it
(`--explain`, `--faults`), and plain Rust is left out.
"""
from __future__ import annotations

import argparse
import functools
import itertools
import json
import os
import resource
import signal
import subprocess
import sys
import tempfile
from pathlib import Path
from typing import Any, Callable, Dict, Iterable, NamedTuple, Optional

import generate

Json = Dict[str, Any]
TIMES = 4


class Report(NamedTuple):
    """A report's metadata, the records of its types table after the namespace, and its other files
    by name.
    """

    metadata: Json
    types: list[str]
    files: dict[str, str]


class Kind(NamedTuple):
    """A direction: what makes a report of a size, the smaller size, and the status.

    `hostile` tells whether a stranger would make such a report to cost us time or memory, and
    `work` how many times the facts or cells of the smaller one it has at the greater size. `memory`
    is how many times the metadata's bytes it may take, and `words` are further arguments. `apart`
    tells whether several workers are timed too.
    """

    make: Callable[[int], Report]
    size: int
    hostile: bool
    status: int
    work: int
    memory: int
    words: list[str]
    apart: bool


KINDS: dict[str, Kind] = {}
TYPES = ["Amount,decimal", "Count,integer", "Note,text", "Key,typed", "Region,explicit"]
COUNT = {"concept": "b:Count", "unit": "xbrli:pure"}
LEVEL = {"entity": "e:BANK-1", "period": "2025"}


def kind(
    size: int,
    hostile: bool = False,
    status: int = 0,
    work: int = TIMES,
    memory: int = 20,
    words: Iterable[str] = (),
    apart: bool = False,
) -> Callable[[Callable[[int], Report]], Callable[[int], Report]]:
    """Makes a kind of the function below it, with the smaller size."""

    def keep(make: Callable[[int], Report]) -> Callable[[int], Report]:
        KINDS[make.__name__] = Kind(make, size, hostile, status, work, memory, list(words), apart)
        return make

    return keep


def report(columns: Json, rows: Iterable[str], types: Iterable[str] = (), template: Json = {}, table: Json = {}, **other: Any) -> Report:
    """Makes a report of one table t with these columns and rows.

    `other` is added to the metadata.
    """
    metadata = {**generate.metadata([], False), "parameters": {}, "dimensions": LEVEL, **other}
    metadata["tableTemplates"] = {"p": {"columns": columns, **template}, **other.get("tableTemplates", {})}
    metadata["tables"] = {"t": {"url": "t.csv", "template": "p", **table}, **other.get("tables", {})}
    text = "\n".join([",".join(columns), *rows]) + "\n"
    return Report(metadata, [*TYPES, *types], {"t.csv": text})


def names(letter: str, n: int) -> list[str]:
    """n names of one length that begin with the letter."""
    return [f"{letter}{i:07}" for i in range(n)]


def counts(**more: str) -> Json:
    """A column of counts, with more dimensions."""
    return {"dimensions": {**COUNT, **more}}


def line(n: int, text: str = "1") -> str:
    """A row's n cells."""
    return ",".join([text] * n)


def keys(n: int, value: str = "x") -> tuple[Json, list[str]]:
    """n typed dimensions with a value, and their types."""
    return {f"b:{d}": value for d in names("K", n)}, [f"{d},typed" for d in names("K", n)]


def identified(ids: Iterable[str]) -> Report:
    """A table of rows with these identifiers."""
    return report({"id": {}, "count": counts()}, (f"{i},7" for i in ids), template={"rowIdColumn": "id"})


@kind(10_000)
def datapoints(n: int) -> Report:
    """n property groups in one column, two rows each; each row names another group than the row
    before.
    """
    columns = {"datapoint": {"propertyGroups": {f"dp{i:06}": generate.data_point(i) for i in range(n)}}, "key": {}}
    columns["value"] = {"dimensions": {"b:Key": "$key"}, "propertiesFrom": ["datapoint"]}
    parameters = {"baseCurrency": "iso4217:EUR", "decimalsMonetary": "-3", "decimalsInteger": "0", "decimalsPercentage": "4"}
    rows = (f"dp{i * generate.STRIDE % n:06},K{i % 100},{i}" for i in range(2 * n))
    return report(columns, rows, ["Share,double", "Base,explicit"], parameters=parameters)


@kind(250)
def group_columns(n: int) -> Report:
    """n columns of facts under one column of 100 property groups, in 100 rows."""
    groups = {g: {"dimensions": {"b:Key": g}} for g in names("g", 100)}
    columns: Json = {"group": {"propertyGroups": groups}, **{c: {**counts(), "propertiesFrom": ["group"]} for c in names("c", n)}}
    return report(columns, (f"{g}," + line(n) for g in groups))


@kind(2_000)
def choices(n: int) -> Report:
    """n rows that choose the groups of 60 columns in different ways: a group or none, by the bits
    of the row's number.
    """
    columns: Json = {c: {"propertyGroups": {"g": {"dimensions": {"b:Key": c}}}} for c in names("o", 60)}
    columns["count"] = {**counts(), "propertiesFrom": names("o", 60)}
    bits = (f"{i * 0x9E3779B97F4A7C15 % 2**60:060b}" for i in range(n))
    return report(columns, (",".join(["g" if bit == "1" else "" for bit in row] + ["1"]) for row in bits))


@kind(4_000)
def dimensions(n: int) -> Report:
    """n dimensions of the report, on each of four facts."""
    level, types = keys(n)
    return report({"count": counts()}, ["1"] * 4, types, dimensions={**LEVEL, **level})


@kind(4_000)
def group_dimensions(n: int) -> Report:
    """n dimensions of a property group, each over one of the report's, on each of four facts."""
    level, types = keys(n)
    over, _ = keys(n, "y")
    columns = {"group": {"propertyGroups": {"g": {"dimensions": over}}}, "count": {**counts(), "propertiesFrom": ["group"]}}
    return report(columns, ["g,1"] * 4, types, dimensions={**LEVEL, **level})


@kind(4_000)
def references(n: int) -> Report:
    """n dimensions of the report, each with a parameter of the report of its own."""
    level, types = keys(n)
    level = {d: f"${p}" for d, p in zip(level, names("p", n))}
    parameters = dict.fromkeys(names("p", n), "x")
    return report({"count": counts()}, ["1"] * 4, types, dimensions={**LEVEL, **level}, parameters=parameters)


@kind(10_000)
def prefixes(n: int) -> Report:
    """n prefixes of the metadata, each with a namespace of its own."""
    made = report({"count": counts()}, ["1"])
    made.metadata["documentInfo"]["namespaces"].update({p: f"https://example.org/{p}" for p in names("p", n)})
    return made


@kind(1_000)
def table_parameters(n: int) -> Report:
    """n parameters of one table, and n columns that each refer to one."""
    columns = {c: counts(**{"b:Key": f"${p}"}) for c, p in zip(names("c", n), names("p", n))}
    return report(columns, [line(n)] * 2, table={"parameters": dict.fromkeys(names("p", n), "x")})


@kind(100_000)
def members(n: int) -> Report:
    """n rows whose cells name members of 200 prefixes."""
    made = report({"region": {}, "count": counts(**{"b:Region": "$region"})}, (f"p{i * 7919 % 200:07}:m{i % 1000},1" for i in range(n)))
    made.metadata["documentInfo"]["namespaces"].update({p: f"https://example.org/{p}" for p in names("p", 200)})
    return made


@kind(500)
def wide(n: int) -> Report:
    """n columns of facts that each refer to a column of their own."""
    columns: Json = {**{k: {} for k in names("k", n)}, **{c: counts(**{"b:Key": f"${k}"}) for c, k in zip(names("c", n), names("k", n))}}
    return report(columns, [line(2 * n)] * 2)


@kind(1_000)
def columns(n: int) -> Report:
    """n columns of facts, which refer to none."""
    return report({c: counts() for c in names("c", n)}, [line(n)] * 20)


@kind(100_000)
def taxonomy(n: int) -> Report:
    """n URLs of the taxonomy."""
    made = report({"count": counts()}, ["1"])
    made.metadata["documentInfo"]["taxonomy"] = [f"https://example.org/taxonomy/{u}.xsd" for u in names("u", n)]
    return made


@kind(7_500_000)
def block(n: int) -> Report:
    """One cell of n bytes of text with quotes and umlauts."""
    piece = '<p class=""note"">Die Prämie für das Quartal wurde geprüft; die Rückstellung ist ""angepasst"".</p> '
    text = piece * (n // len(piece.encode()) + 1)
    return report({"note": {"dimensions": {"concept": "b:Note", "language": "de"}}}, [f'"{text}"'])


@kind(10_000)
def templates(n: int) -> Report:
    """n templates; the one table has the last."""
    others = {t: {"columns": {"count": counts()}} for t in names("a", n)}
    return report({"count": counts()}, ["1"], tableTemplates=others)


@kind(1_000)
def tables(n: int) -> Report:
    """n tables of one template, which read one file."""
    return report({"count": counts()}, ["1"], tables={t: {"url": "t.csv", "template": "p"} for t in names("t", n)})


@kind(1_000)
def own_templates(n: int) -> Report:
    """n tables, each of a template of its own, which read one file."""
    own = {t: {"columns": {"count": counts()}} for t in names("t", n)}
    return report({"count": counts()}, ["1"], tableTemplates=own, tables={t: {"url": "t.csv"} for t in own})


@kind(100_000)
def types(n: int) -> Report:
    """n records of the types table."""
    return report({"count": counts()}, ["1"], [f"{t},decimal" for t in names("T", n)])


@kind(100_000)
def short_ids(n: int) -> Report:
    """n rows with identifiers of one to six bytes."""
    return identified(str(i) for i in range(n))


@kind(25_000)
def long_ids(n: int) -> Report:
    """n rows with identifiers of 200 bytes that differ at their beginning."""
    return identified(f"{i:07}" + "x" * 193 for i in range(n))


@kind(25_000)
def like_ids(n: int) -> Report:
    """n rows with identifiers of 200 bytes that differ at their end."""
    return identified("x" * 193 + f"{i:07}" for i in range(n))


@kind(1_000)
def properties_from(n: int) -> Report:
    """One column of facts that takes properties from n columns of one group each."""
    columns: Json = {o: {"propertyGroups": {"g": {"dimensions": {"b:Key": o}}}} for o in names("o", n)}
    columns["count"] = {**counts(), "propertiesFrom": names("o", n)}
    return report(columns, [line(n, "g") + ",1"] * 4)


@kind(500)
def many_sources(n: int) -> Report:
    """n columns of facts that each take properties from the same 50 columns of one group each."""
    columns: Json = {o: {"propertyGroups": {"g": {"dimensions": {"b:Key": o}}}} for o in names("a", 50)}
    columns.update({c: {**counts(), "propertiesFrom": names("a", 50)} for c in names("c", n)})
    return report(columns, [line(50, "g") + "," + line(n)] * 4)


@kind(100_000)
def parameters(n: int) -> Report:
    """n parameters of the report; 100 columns refer to one each."""
    columns = {c: counts(**{"b:Key": f"${p}"}) for c, p in zip(names("c", 100), names("p", 100))}
    return report(columns, [line(100)] * 2, parameters=dict.fromkeys(names("p", n), "x"))


@kind(16_000)
def parameter_file(n: int) -> Report:
    """n records of the parameters file; 100 columns refer to one each."""
    columns = {c: counts(**{"b:Key": f"${p}"}) for c, p in zip(names("c", 100), names("p", 100))}
    made = report(columns, [line(100)] * 2, parameterURL="parameters.csv")
    made.files["parameters.csv"] = "name,value\n" + "".join(f"{p},x\n" for p in names("p", n))
    return made


@kind(1_000)
def long_names(n: int) -> Report:
    """n columns of facts whose names, all of 200 bytes, differ at their end."""
    return report({"c" * 192 + c: counts() for c in names("c", n)}, [line(n)] * 10)


@kind(50_000)
def like_texts(n: int) -> Report:
    """n rows whose texts of 200 bytes, of a fact and of a typed dimension, differ at their end."""
    note = {"concept": "b:Note", "language": "en", "b:Key": "$key"}
    texts = ("x" * 193 + f"{i:07}" for i in range(n))
    return report({"key": {}, "note": {"dimensions": note}}, (f"{t},{t}" for t in texts))


@kind(100_000)
def like_middles(n: int) -> Report:
    """n rows whose texts, of a typed dimension, have the same length, ends and middle."""
    texts = (f"xx{i:07}xxxxxx{i:07}xx" for i in range(n))
    return report({"key": {}, "count": counts(**{"b:Key": "$key"})}, (f"{t},1" for t in texts))


@kind(2_500)
def nesting(n: int) -> Report:
    """n values of the metadata that mean nothing, each a list nested 100 levels deep."""
    value: Any = "x"
    for _ in range(100):
        value = [value]
    return report({"count": counts()}, ["1"], **{f"b:{v}": value for v in names("v", n)})


@kind(200_000)
def measures(n: int) -> Report:
    """A unit of n measures, in one cell."""
    columns = {"unit": {}, "amount": {"dimensions": {"concept": "b:Amount", "unit": "$unit"}}}
    return report(columns, ["*".join(f"b:{u}" for u in names("u", n)) + ",1"])


@kind(50_000)
def rows(n: int) -> Report:
    """n rows of five facts, of the shape `positions` of generate.py."""
    numbers = generate.Numbers(0)
    made = generate.metadata(["t"], False)
    lines = [generate.row(numbers, i, False)[0] for i in range(n)]
    header = ",".join(made["tableTemplates"]["positions"]["columns"]) + "\n"
    return Report(made, [record.split(",", 1)[1] for record in generate.TYPES.split("\n")[1:-1]], {"t.csv": header + "".join(lines)})


def folded(a: int, b: int) -> int:
    """One step of the kit's hash: both halves of a product."""
    product = a * b
    return product % 2**64 ^ product >> 64


@functools.lru_cache(None)
def one_hash() -> str:
    """Return 24 letters and digits.

    After these, any 8 bytes give the kit's hash of 32 bytes the value 0.
    """
    multiplier, start = 0x9E3779B97F4A7C15, 0x243F6A8885A308D3 + 32
    allowed = frozenset(b"0123456789ABCDEFGHIJKLMNOPQRSTUVWXYZabcdefghijklmnopqrstuvwxyz")
    for i in itertools.count():
        block = f"N{i:015}".encode()
        first, second = (int.from_bytes(block[at : at + 8], "little") for at in (0, 8))
        state = folded(first ^ start, second ^ multiplier).to_bytes(8, "little")
        if allowed.issuperset(state):
            return (block + state).decode()
    raise AssertionError


def colliding(n: int) -> list[str]:
    """n names of one hash."""
    return [f"{one_hash()}{i:08}" for i in range(n)]


@kind(15_000, hostile=True)
def hash_ids(n: int) -> Report:
    """n rows whose identifiers have one hash."""
    return identified(colliding(n))


def crowding(n: int) -> list[str]:
    """n names of 8 bytes that the kit's table seeks first in groups side by side, 16 in each.

    A group has 12 places.
    """
    multiplier, start = 0x9E3779B97F4A7C15 ^ 16, 0x243F6A8885A308D3
    groups = 1 << (n // 4 - 1).bit_length()
    rooms: list[list[str]] = [[] for _ in range(n // 16)]
    left = 16 * len(rooms)
    for i in itertools.count():
        name = f"{i:08}"
        number = folded(start ^ int.from_bytes(name.encode(), "little"), multiplier)
        group = (number ^ number >> 32) % groups
        if group < len(rooms) and len(rooms[group]) < 16:
            rooms[group].append(name)
            left -= 1
            if not left:
                break
    return [name for room in rooms for name in room]


@kind(16_000, hostile=True)
def crowded_ids(n: int) -> Report:
    """n rows whose identifiers are sought first in places side by side."""
    return identified(crowding(n))


@kind(16_000, hostile=True)
def hash_types(n: int) -> Report:
    """n records of the types table whose names have one hash."""
    return report({"count": counts()}, ["1"], [f"{t},decimal" for t in colliding(n)])


@kind(16_000, hostile=True)
def hash_parameters(n: int) -> Report:
    """n records of the parameters file whose names have one hash."""
    made = report({"count": counts()}, ["1"], parameterURL="parameters.csv")
    made.files["parameters.csv"] = "name,value\n" + "".join(f"{p},x\n" for p in colliding(n))
    return made


@kind(1_000, hostile=True, status=1)
def one_fault(n: int) -> Report:
    """n columns of facts under n / 4 dimensions of the report; only one row has a bad fact."""
    level, types = keys(n // 4)
    return report({c: counts() for c in names("c", n)}, ["," * (n - 1) + "x"], types, dimensions={**LEVEL, **level})


@kind(1_000, hostile=True, status=1, work=16)
def bad_row(n: int) -> Report:
    """n columns of facts under n / 4 dimensions of the report; the last fact of one row is bad."""
    level, types = keys(n // 4)
    return report({c: counts() for c in names("c", n)}, [line(n - 1) + ",x"], types, dimensions={**LEVEL, **level})


@kind(1_024, hostile=True, status=1, work=16)
def bad_tables(n: int) -> Report:
    """n tables of one file of n columns, with four written dimensions, and a bad fact in each."""
    level, types = keys(4)
    tables = {t: {"url": "t.csv", "template": "p"} for t in names("t", n - 1)}
    return report({c: counts() for c in names("c", n)}, ["," * (n - 1) + "x"], types, dimensions={**LEVEL, **level}, tables=tables)


@kind(16_384, hostile=True)
def reference_cells(n: int) -> Report:
    """n dimensions of the report, each with a reference to one column, on each of eight facts."""
    level, types = keys(n, "$key")
    return report({"key": {}, "count": counts()}, ["1,1"] * 8, types, dimensions={**LEVEL, **level})


def two_levels(n: int, general: str, special: str) -> Report:
    """n dimensions of the report, and n over 16 columns of facts, with names of these letters."""
    level = {f"b:{d}": "x" for d in names(general, n)}
    own = [f"b:{d}" for d in names(special, n)]
    types = [f"{d},typed" for letter in (general, special) for d in names(letter, n)]
    columns = {c: counts(**dict.fromkeys(own[i::16], "x")) for i, c in enumerate(names("c", 16))}
    return report(columns, [line(16)], types, dimensions={**LEVEL, **level})


@kind(16_000, hostile=True)
def falling_levels(n: int) -> Report:
    """n dimensions of the report, and as many over 16 columns of facts, all after them by name."""
    return two_levels(n, "K", "L")


@kind(16_000, hostile=True)
def rising_levels(n: int) -> Report:
    """n dimensions of the report, and as many over 16 columns of facts, all before them by name."""
    return two_levels(n, "L", "K")


@kind(250_000, hostile=True)
def empty_header(n: int) -> Report:
    """A header of n empty cells and n / 250 columns, and no row."""
    made = report({c: counts() for c in names("c", n // 250)}, [])
    return made._replace(files={"t.csv": "," * n + made.files["t.csv"]})


@kind(1_000, hostile=True, work=16)
def good_facts(n: int) -> Report:
    """n columns of facts under n written dimensions of the report, and one row of n / 8 facts."""
    level, types = keys(n)
    return report({c: counts() for c in names("c", n)}, [line(n // 8) + "," * (n - n // 8)], types, dimensions={**LEVEL, **level})


@kind(512, hostile=True, status=1, work=16, words=["--explain", "--faults", "faults"])
def told_tables(n: int) -> Report:
    """n tables of one file of n columns, with a bad fact in each, which is explained."""
    return bad_tables(n)


@kind(32_768, hostile=True, work=16)
def waiting_literal(n: int) -> Report:
    """A literal of n bytes in each of n / 8 facts, all in one table."""
    return report({"count": counts()}, ["1"] * (n // 8), ["Long,typed"], dimensions={**LEVEL, "b:Long": "x" * n})


@kind(65_536, hostile=True, work=16)
def waiting_cell(n: int) -> Report:
    """A cell of n bytes that each of n / 130 facts of its row refers to."""
    columns: dict[str, Any] = {"key": {}}
    columns.update({c: counts(**{"b:Key": "$key"}) for c in names("c", n // 130)})
    return report(columns, ["x" * n + "," + line(n // 130)])


@kind(16_384, hostile=True, work=16)
def waiting_tables(n: int) -> Report:
    """A literal of n bytes in each of n / 256 facts of 64 tables, which read one file."""
    tables = {t: {"url": "t.csv", "template": "p"} for t in names("t", 63)}
    columns = {"count": counts(**{"b:Long": "x" * n})}
    return report(columns, ["1"] * (n // 256), ["Long,typed"], tables=tables)


@kind(25_000, hostile=True)
def waiting_rows(n: int) -> Report:
    """A literal of 1,000 bytes in each of n facts, in rows of two bytes."""
    return report({"count": counts()}, ["1"] * n, ["Long,typed"], dimensions={**LEVEL, "b:Long": "x" * 1_000})


@kind(32_768, hostile=True, work=16, words=["--workers", "64"])
def waiting_odd_rows(n: int) -> Report:
    """A literal of n bytes in each of n / 32 facts, in rows of 11 bytes, on several workers."""
    return report({"count": counts()}, ["1" * 10] * (n // 32), ["Long,typed"], dimensions={**LEVEL, "b:Long": "x" * n})


@kind(50, hostile=True)
def waiting_copies(n: int) -> Report:
    """A cell of 2,000 bytes in each of n rows, to which the row's 500 facts refer."""
    columns: dict[str, Any] = {"key": {}, **{c: counts(**{"b:Key": "$key"}) for c in names("c", 500)}}
    return report(columns, ["x" * 2_000 + "," + line(500)] * n)


@kind(8_192, hostile=True, memory=60, words=["--workers", "64"])
def group_tables(n: int) -> Report:
    """n property groups in one column of n / 16 tables, which read one file, on several workers."""
    groups = {g: {"dimensions": {"b:Key": g}} for g in names("g", n)}
    columns: dict[str, Any] = {"group": {"propertyGroups": groups}, "count": {**counts(), "propertiesFrom": ["group"]}}
    tables = {t: {"url": "t.csv", "template": "p"} for t in names("t", n // 16 - 1)}
    return report(columns, [f"{g},1" for g in names("g", 2)], tables=tables)


@kind(200, hostile=True, work=16)
def group_frames(n: int) -> Report:
    """n columns of facts under one column of n property groups, each in one row."""
    groups = {g: {"dimensions": {"b:Key": g}} for g in names("g", n)}
    columns: dict[str, Any] = {"group": {"propertyGroups": groups}}
    columns.update({c: {**counts(), "propertiesFrom": ["group"]} for c in names("c", n)})
    return report(columns, (f"{g}," + line(n) for g in groups))


@kind(200, hostile=True, work=16)
def frame_tables(n: int) -> Report:
    """Four tables of one file, with n columns of facts under one column of n property groups."""
    tables = {t: {"url": "t.csv", "template": "p"} for t in names("t", 3)}
    made = group_frames(n)
    made.metadata["tables"].update(tables)
    return made


@kind(65_536, hostile=True, work=16)
def waiting_copied_rows(n: int) -> Report:
    """Four rows with a cell of n bytes that each of n / 260 facts of the row refers to."""
    columns: dict[str, Any] = {"key": {}}
    columns.update({c: counts(**{"b:Key": "$key"}) for c in names("c", n // 260)})
    return report(columns, ["x" * n + "," + line(n // 260)] * 4)


@kind(128, hostile=True, work=16)
def copied_cells(n: int) -> Report:
    """n / 32 rows with a cell of n KB that each of 200 facts of the row refers to."""
    columns: dict[str, Any] = {"key": {}}
    columns.update({c: counts(**{"b:Key": "$key"}) for c in names("c", 200)})
    return report(columns, ["x" * (1_000 * n) + "," + line(200)] * (n // 32))


@kind(250_000, hostile=True, apart=True)
def empty_rows(n: int) -> Report:
    """n rows without facts, of two bytes, under a literal of 1,000,000 bytes."""
    level = {**LEVEL, "b:Long": "x" * 1_000_000}
    return report({"key": {}, "count": counts()}, [","] * n, ["Long,typed"], dimensions=level)


@kind(250_000, hostile=True, apart=True)
def none_rows(n: int) -> Report:
    """n rows of one cell `#none` under a literal of 1,000,000 bytes."""
    return report({"count": counts()}, ["#none"] * n, ["Long,typed"], dimensions={**LEVEL, "b:Long": "x" * 1_000_000})


@kind(250_000, hostile=True)
def header_rows(n: int) -> Report:
    """A header of n empty cells and n / 250 columns, and four rows of as many empty cells."""
    made = empty_header(n)
    row = "," * (n + n // 250 - 1) + "\n"
    return made._replace(files={"t.csv": made.files["t.csv"] + row * 4})


@kind(100_000, hostile=True, memory=130)
def small_objects(n: int) -> Report:
    """n objects of the metadata that mean nothing, with one member each."""
    made: dict[str, Any] = {"b:x": [{"": 1}] * n}
    return report({"count": counts()}, ["1"], **made)


def colliding_long(n: int, length: int) -> list[str]:
    """n names of one hash, whose first bytes are the same, all but the last 8 of this length."""
    multiplier = 0x9E3779B97F4A7C15
    state = 0x243F6A8885A308D3 + length
    for _ in range((length - 32) // 16):
        first, second = (int.from_bytes(b"x" * 8, "little") for _ in range(2))
        state = folded(first ^ state, second ^ multiplier)
    allowed = frozenset(b"0123456789ABCDEFGHIJKLMNOPQRSTUVWXYZabcdefghijklmnopqrstuvwxyz")
    for i in itertools.count():
        block = f"N{i:015}".encode()
        first, second = (int.from_bytes(block[at : at + 8], "little") for at in (0, 8))
        last = folded(first ^ state, second ^ multiplier).to_bytes(8, "little")
        if allowed.issuperset(last):
            start = "x" * (length - 32) + (block + last).decode()
            return [f"{start}{at:08}" for at in range(n)]
    raise AssertionError


@kind(2_000, hostile=True)
def long_hash_ids(n: int) -> Report:
    """n rows whose identifiers of 1,024 bytes have one hash, and differ at their end."""
    return identified(colliding_long(n, 1_024))


def spoilt(made: Report, place: str) -> Report:
    """The report with a fault at its end, in its last table or in its metadata."""
    if place == "metadata":
        level = {**made.metadata.get("dimensions", {}), "b:nowhere": "x"}
        return made._replace(metadata={**made.metadata, "dimensions": level})
    name = max(made.files)
    cells = made.files[name].split("\n", 1)[0].count(",") + 2
    return made._replace(files={**made.files, name: made.files[name] + ",".join(["1"] * cells) + "\n"})


def write(made: Report, folder: Path) -> list[str]:
    """Writes a report into a folder, and returns the arguments that convert it."""
    folder.mkdir()
    (folder / "meta.json").write_text(json.dumps(made.metadata, ensure_ascii=False), encoding="utf-8")
    records = "".join(f"{generate.NAMESPACE},{record}\n" for record in made.types)
    (folder / "types.csv").write_text("namespace,name,type\n" + records, encoding="utf-8")
    for name, text in made.files.items():
        (folder / name).write_bytes(text.encode())
    return [str(folder / "meta.json"), "--types", str(folder / "types.csv")]


def run(command: list[str], limit: int, wanted: int) -> Optional[float]:
    """Returns the processor seconds of one run, or None if the system stopped it at the limit."""
    process = subprocess.Popen(command, stdin=subprocess.DEVNULL, stdout=subprocess.DEVNULL, stderr=subprocess.DEVNULL if wanted else None)
    resource.prlimit(process.pid, resource.RLIMIT_CPU, (limit, limit + 1))
    _, status, usage = os.wait4(process.pid, 0)
    process.returncode = os.waitstatus_to_exitcode(status)
    if process.returncode in (-signal.SIGXCPU, -signal.SIGKILL):
        return None
    if process.returncode != wanted:
        sys.exit(f"{' '.join(command)}: status {process.returncode}")
    return float(usage.ru_utime + usage.ru_stime)


def peak(command: list[str], wanted: int) -> float:
    """Returns the most memory that one run took, in MB."""
    with tempfile.NamedTemporaryFile("r") as told:
        done = subprocess.run(
            ["/usr/bin/time", "-q", "-f", "%M", "-o", told.name, *command],
            stdin=subprocess.DEVNULL,
            stdout=subprocess.DEVNULL,
            stderr=subprocess.DEVNULL if wanted else None,
        )
        if done.returncode != wanted:
            sys.exit(f"{' '.join(command)}: status {done.returncode}")
        return int(told.read().split()[-1]) / 1000


def least(commands: list[list[str]], runs: int, limit: int, wanted: int) -> list[Optional[float]]:
    """Returns the least seconds of each command in some rounds, which take turns.

    What takes long runs only once.
    """
    best = [run(command, limit, wanted) for command in commands]
    for _ in range(runs - 1):
        for i, command in enumerate(commands):
            before = best[i]
            if before is not None and before <= limit / 10:
                best[i] = min(before, run(command, limit, wanted) or before)
    return best


def same(programs: list[str], words: list[str]) -> bool:
    """Whether the programs write the same JSON value."""
    texts = [subprocess.run([program, *words], stdin=subprocess.DEVNULL, stdout=subprocess.PIPE).stdout for program in programs]
    return all(text == texts[0] or json.loads(text) == json.loads(texts[0]) for text in texts[1:])


def seconds(taken: Optional[float], limit: int) -> str:
    return f"over {limit}" if taken is None else f"{taken:.3f}"


def multiple(above: Optional[float], below: Optional[float]) -> str:
    return f"{above / below:.1f}" if above is not None and below else ""


def missed(mine: list[Optional[float]], plain: list[Optional[float]], hostile: bool, work: int) -> str:
    """The goals that are missed."""
    times, of_plain = (4.5, 3.0) if hostile else (5.0, 0.9)
    times *= work / TIMES
    small, large = mine
    if small is None or large is None:
        return "growth"
    grows = large > 0.1 and large > times * small
    behind = len(plain) == 2 and plain[1] is not None and large > of_plain * plain[1]
    return ", ".join(name for name, is_missed in [("growth", grows), ("plain", behind)] if is_missed)


def missed_by_several(one: Optional[float], several: Optional[float]) -> list[str]:
    """The goal of a kind that several workers could take long for."""
    return ["workers"] if several is None or (one is not None and several > max(0.1, 3 * one)) else []


def by_workers(count: str, more: list[str]) -> list[str]:
    """The further arguments, with this count of workers if they have none."""
    return more if "--workers" in more else ["--workers", count, *more]


def measured(name: str, programs: list[str], folder: Path, options: argparse.Namespace) -> str:
    """A kind's line."""
    make, n, hostile, status, work, times, more, apart = KINDS[name]
    wanted = 1 if options.fault else status
    reports = [make(size) for size in (n, TIMES * n)]
    if options.fault:
        reports = [spoilt(it, options.fault) for it in reports]
    written = [write(it, folder / str(i)) for i, it in enumerate(reports)]
    if options.fault:
        more = ["--explain", "--faults", "faults"]
    more = [str(folder / word) if word == "faults" else word for word in more]
    sizes = [[*it, *by_workers("1", more)] for it in written]
    taken = least([[program, *words] for program in programs for words in sizes], options.runs, options.limit, wanted)
    mine, plain = taken[:2], taken[2:]
    if mine[0] is not None and wanted == 0 and not same(programs, sizes[0]):
        sys.exit(f"{name}: the documents differ")
    cells = [name, f"{n:,}"]
    for figures in (mine, plain):
        cells += [seconds(each, options.limit) for each in figures] + [multiple(figures[1], figures[0])] if figures else []
    cells += [f"{mine[1] / plain[1]:.2f}" if plain and mine[1] is not None and plain[1] else ""] if plain else []
    misses = [missed(mine, plain, hostile, work)]
    if options.hostile:
        several = [programs[0], *written[1], *by_workers(str(options.workers), more)]
        megabytes = peak(several, wanted)
        bound = 64 + times * (folder / "1/meta.json").stat().st_size / 1e6
        cells.append(f"{megabytes:.0f} of {bound:.0f}")
        misses += ["memory"] if megabytes > bound else []
        if apart:
            misses += missed_by_several(mine[1], least([several], options.runs, options.limit, wanted)[0])
    return "| " + " | ".join([*cells, ", ".join(filter(None, misses))]) + " |"


def words() -> argparse.Namespace:
    parser = argparse.ArgumentParser(description=__doc__, formatter_class=argparse.RawDescriptionHelpFormatter)
    parser.add_argument("program", nargs="?")
    parser.add_argument("others", nargs="*", metavar="[PLAIN] [KIND..]")
    parser.add_argument("--fault", choices=("table", "metadata"))
    parser.add_argument("--hostile", action="store_true", help="only the kinds that a stranger would make to cost us time")
    parser.add_argument("--runs", type=int, default=3)
    parser.add_argument("--limit", type=int, default=60)
    parser.add_argument("--workers", type=int, default=4, help="how many workers measure memory")
    parser.add_argument("--list", action="store_true", help="only names the kinds")
    options = parser.parse_args()
    if options.program is None and not options.list:
        parser.error("no PROGRAM")
    return options


def main() -> None:
    options = words()
    if options.list:
        print("\n".join(f"{name}, from {each.size:,}: {each.make.__doc__}" for name, each in KINDS.items()))
        return
    others = options.others
    plain, chosen = ([], others) if not others or others[0] in KINDS else (others[:1], others[1:])
    unknown = [name for name in chosen if name not in KINDS]
    if unknown:
        sys.exit(f"no such kind: {', '.join(unknown)}")
    if options.fault and plain:
        sys.exit("plain Rust explains no faults")
    programs = [os.path.abspath(program) for program in [options.program, *plain]]
    columns = ["Kind", "n", "s", f"at {TIMES} n", "times"] + (["plain Rust s", f"at {TIMES} n", "times", "of plain Rust"] if plain else [])
    columns += ["MB"] if options.hostile else []
    print("| " + " | ".join([*columns, "missed"]) + " |\n" + "|---" * (len(columns) + 1) + "|")
    for name in chosen or [name for name, each in KINDS.items() if each.hostile or not options.hostile]:
        with tempfile.TemporaryDirectory() as folder:
            print(measured(name, programs, Path(folder), options), flush=True)


if __name__ == "__main__":
    main()
