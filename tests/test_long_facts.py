"""Tests facts that are far longer than their rows: what they cost one worker and several.

The metadata adds a long text to each fact, or a row copies a long cell to each, or many tables have
one large template. Neither memory nor time may grow faster than the report.
"""
from __future__ import annotations

import os
import subprocess
from pathlib import Path
from typing import Any, NamedTuple

from tests.harness import COLUMNS, NAMESPACE, PROGRAM, TYPES, CaseTest, TestCase, for_each, metadata
from tests.test_stress import peak

# More workers than processors, since a run takes one worker if all others are busy
WORKERS = "64"
WORDS = [PROGRAM, "m.json", "--types", "t.csv", "--workers"]
LONG_TYPE = f"{NAMESPACE},Long,typed\n"
# Facts of 160,000 bytes took 52 KB each, if every second piece had two rows
LONG, FACTS = 160_000, 3_000
# In KiB: 64 MB and 20 times the metadata
MEMORY = 65_000
# Facts of a row that copy a cell of this many bytes: 520 MB of texts
COPIES, CELL = 2_000, 260_000
# Facts of a row that is decoded in pieces, and a cell that each of them copies: 200 MB of texts, or
# 60 MB
FEW_COPIES, LONG_CELL, SHORTER_CELL = 200, 1_000_000, 300_000
# Facts of a row, and dimensions of the report that each of them has: 112 MB of texts
WIDE, DEEP = 2_000, 3_000
# Columns of facts, and property groups of one column, of which each row names another
UNDER_GROUPS = 700
# Groups and tables for which several workers took 12 times the time of one
GROUPS, TABLES = 32_768, 2_048


def memory(folder: Path, workers: str) -> int:
    """Returns the most memory of a run, in KiB. Fails if it does not end with status 0."""
    most = 0
    with subprocess.Popen(
        [*WORDS, workers], cwd=folder, stdin=subprocess.DEVNULL, stdout=subprocess.PIPE
    ) as run:
        assert run.stdout is not None
        while run.stdout.read(1 << 20):
            most = max(most, peak(run.pid))
    if run.returncode != 0:
        raise AssertionError(f"status {run.returncode}")
    return most


def seconds(folder: Path, workers: str) -> float:
    """Returns the processor seconds of a run. Fails if it does not end with status 0."""
    null = subprocess.DEVNULL
    run = subprocess.Popen([*WORDS, workers], cwd=folder, stdin=null, stdout=null)
    _, status, used = os.wait4(run.pid, 0)
    run.returncode = os.waitstatus_to_exitcode(status)
    if run.returncode != 0:
        raise AssertionError(f"status {run.returncode}")
    return float(used.ru_utime + used.ru_stime)


@for_each((f"rows of {length} bytes", (length,)) for length in (2, 8, 11, 16, 23))
class TestLongFacts(CaseTest):
    """Converts rows whose facts have 160,000 bytes in little memory."""

    def check(self, length: int) -> None:
        """Converts rows of this many bytes."""
        dimensions = metadata({})["dimensions"]
        long = {**dimensions, "eg:Long": "x" * LONG}
        row = "1" * (length - 1) + "\n"
        self.write(
            {
                "t.csv": TYPES + LONG_TYPE,
                "m.json": metadata({"t1": {}}, dimensions=long),
                "t1.csv": "cash\n" + row * FACTS,
            }
        )
        most = memory(self.folder, WORKERS)
        self.assertGreater(most, 0)
        self.assertLess(most, MEMORY)


class LongRows(NamedTuple):
    """A report: the dimensions of all facts, the table's columns, its rows, and further types."""

    dimensions: dict[str, Any]
    columns: dict[str, Any]
    rows: list[str]
    types: str


def facts_of(count: int, **more: Any) -> dict[str, Any]:
    """Returns this many columns of facts, with further members."""
    return {f"c{i}": {**COLUMNS["cash"], **more} for i in range(count)}


def copied_cell() -> LongRows:
    """A row whose facts each copy one of its cells."""
    columns: dict[str, Any] = {"key": {}, **facts_of(COPIES)}
    row = "x" * CELL + ",1" * COPIES
    return LongRows({"eg:Long": "$key"}, columns, [row], LONG_TYPE)


def copied_cells(rows: int, length: int) -> LongRows:
    """Rows of few facts that each copy a cell of this length, after rows whose cells are short."""
    columns: dict[str, Any] = {"key": {}, **facts_of(FEW_COPIES)}
    facts = ",1" * FEW_COPIES
    lines = ["k" + facts] * 100 + ["x" * length + facts] * rows
    return LongRows({"eg:Long": "$key"}, columns, lines, LONG_TYPE)


def four_copied_cells() -> LongRows:
    """Four rows of few facts that each copy one of its cells."""
    return copied_cells(4, LONG_CELL)


def many_dimensions() -> LongRows:
    """A row whose facts each have all dimensions of the report."""
    names = [f"D{i:05}" for i in range(DEEP)]
    types = "".join(f"{NAMESPACE},{name},typed\n" for name in names)
    row = ",".join("1" * WIDE)
    return LongRows({f"eg:{name}": "x" for name in names}, facts_of(WIDE), [row], types)


def columns_under_groups() -> LongRows:
    """Rows that each name another group, which adds a dimension to all of their facts."""
    groups = {f"g{i}": {"dimensions": {"eg:Long": str(i)}} for i in range(UNDER_GROUPS)}
    facts = facts_of(UNDER_GROUPS, propertiesFrom=["group"])
    rows = [f"{group}" + ",1" * UNDER_GROUPS for group in groups]
    return LongRows({}, {"group": {"propertyGroups": groups}, **facts}, rows, LONG_TYPE)


def files_of(made: LongRows) -> dict[str, Any]:
    """Returns the files of a report with such rows."""
    dimensions = {**metadata({})["dimensions"], **made.dimensions}
    template = {"columns": made.columns}
    report = metadata({"t1": {}}, dimensions=dimensions, tableTemplates={"p": template})
    lines = [",".join(made.columns), *made.rows]
    table = "".join(f"{line}\n" for line in lines)
    return {"t.csv": TYPES + made.types, "m.json": report, "t1.csv": table}


LONG_ROWS = {
    "a cell that 2,000 facts copy": copied_cell,
    "cells that 200 facts copy": four_copied_cells,
    "2,000 facts of 3,000 dimensions": many_dimensions,
    "700 columns under 700 groups": columns_under_groups,
}


@for_each(
    (f"{name}, {workers} workers", (name, workers))
    for name in LONG_ROWS
    for workers in ("1", WORKERS)
)
class TestLongRows(CaseTest):
    """Converts rows whose own facts are far longer, in little memory."""

    def check(self, name: str, workers: str) -> None:
        """Converts a report with this many workers."""
        self.write(files_of(LONG_ROWS[name]()))
        most = memory(self.folder, workers)
        self.assertGreater(most, 0)
        self.assertLess(most, MEMORY)


class TestCopiedCells(TestCase):
    """Converts rows whose facts copy long cells, after rows whose facts do not."""

    def test_many_rows(self) -> None:
        """Takes no more memory for forty such rows."""
        self.write(files_of(copied_cells(40, SHORTER_CELL)))
        most = memory(self.folder, WORKERS)
        self.assertGreater(most, 0)
        self.assertLess(most, MEMORY)

    def test_same_bytes(self) -> None:
        """Writes what one worker writes."""
        self.write(files_of(copied_cells(4, SHORTER_CELL)))
        alone, several = (self.written(workers) for workers in ("1", WORKERS))
        self.assertGreater(len(alone), 4 * FEW_COPIES * SHORTER_CELL)
        self.assertTrue(alone == several)

    def written(self, workers: str) -> bytes:
        """Returns the document from this many workers."""
        null = subprocess.DEVNULL
        return subprocess.run(
            [*WORDS, workers], cwd=self.folder, stdin=null, stdout=subprocess.PIPE, check=True
        ).stdout


class TestManyTables(TestCase):
    """Converts many tables of one large template in about the time of one worker."""

    def test_groups_and_tables(self) -> None:
        """Takes at most four times the processor time of one worker."""
        groups = {f"g{i}": {"dimensions": {"concept": "eg:Cash"}} for i in range(GROUPS)}
        cash = {**COLUMNS["cash"], "propertiesFrom": ["group"]}
        template = {"columns": {"group": {"propertyGroups": groups}, "cash": cash}}
        tables = {f"t{i}": {"url": "t1.csv"} for i in range(TABLES)}
        made = metadata(tables, tableTemplates={"p": template})
        self.write({"t.csv": TYPES, "m.json": made, "t1.csv": "group,cash\ng7,1\n"})
        alone = seconds(self.folder, "1")
        self.assertLess(seconds(self.folder, WORKERS), 4 * alone)
