"""Tests what a run over many reports leaves out of the types table of their module.

Each report's files must be the same as with the whole table, also if the report has a fault.
"""
from __future__ import annotations

import json
import os
import re
import subprocess
import sys
import unittest
from array import array
from pathlib import Path
from typing import Any
from unittest import mock

from filing import held_modules, held_types, library
from filing.held_types import HeldTypes
from filing.metadata import Merged
from filing.prepared import Files
from filing.report import report_by_itself
from tests.filing_samples import include, item, schema
from tests.harness import PATIENCE, PROGRAM, TOP, TestCase, write
from tests.spoiled_filings import DOMAIN, ELEMENTS, SCHEMA_FILE, report, spoiled, taxonomy

EG = "http://reg.example/eg"
TYPES = "namespace,name,type3,period,values\n" + "".join(
    f"{EG},{it}\n"
    for it in (
        *("Cash,monetary,instant,", "Note,text,,", "Region,explicit,,", "Branch,typed,,integer"),
        *("A,member,,", "B,member,,", "C,member,,", "D,member,,"),
    )
)
SPARE = 20  # concepts that nothing names

# Runs over many reports as if there were enough to look at the templates, or not.
DRIVER = """import sys
sys.path.insert(0, sys.argv[1])
from filing import command, held_modules, held_types
held_modules.MANY, held_types.LEAST_LEFT_OUT = int(sys.argv[2]), 0
sys.exit(command.main(sys.argv[4:], sys.argv[3]))
"""
# Notes how many records the types table has that xbrl-json gets.
COUNTING = """#!/bin/sh
for word; do [ "$before" = --types ] && wc -l < "$word" >> "$COUNTS"; before=$word; done
exec "$REAL" "$@"
"""


class TestHeldTypes(TestCase):
    """The records of a types table that are left for a report."""

    def kept(self, templates: dict[str, Any], text: str, **parts: Any) -> list[str] | None:
        """Returns the names of the records for a report with this table; None for all."""
        info = {"documentInfo": {"namespaces": {"eg": EG}}, "tables": {"t": {"url": "t.csv"}}}
        sketches: dict[str, Any] = {name: {} for name in parts.pop("used", templates)}
        value = {**info, "tableTemplates": sketches, **parts}
        write(self.folder, {"m.json": "{}", "t.csv": text})
        files = Files.of(report_by_itself(str(self.folder / "m.json")), Merged(value, {}))
        texts = {name: json.dumps(it).encode() for name, it in templates.items()}
        types = HeldTypes(TYPES.encode(), texts, {"eg": EG})
        self.assertEqual(len(list(types.look())), len(templates))
        table = types.table(files)
        if table is None:
            return None
        lines = table.decode().splitlines(keepends=True)
        self.assertEqual(lines, [it for it in TYPES.splitlines(keepends=True) if it in lines])
        return [it.split(",")[1] for it in lines]

    def test_what_is_named(self) -> None:
        """Keeps what the used templates, the other metadata and the cells name, and a member."""
        templates = {"a": {"x": "eg:Cash"}, "b": {"eg:Region": "eg:C"}, "c": {"eg:Branch": "$x"}}
        with mock.patch.object(held_types, "LEAST_LEFT_OUT", 0):
            self.assertEqual(self.kept(templates, "v\n", used=["a"]), ["name", "Cash", "A"])
            both = ["name", "Region", "Branch", "A", "C"]
            self.assertEqual(self.kept(templates, "v\n", used=["b", "c"]), both)
            by_cells = ["name", "Note", "A", "B", "D"]
            self.assertEqual(self.kept({}, 'v\n"eg:B eg:Note"\neg:D,eg:None\n'), by_cells)
            by_parameter = ["name", "Cash", "A"]
            self.assertEqual(self.kept({}, "v\n", parameters={"p": "eg:Cash"}), by_parameter)

    def test_the_whole_table(self) -> None:
        """Leaves nothing out if that is little, or if a table is too large to be searched."""
        self.assertEqual(self.kept({}, "v\n"), ["name", "A"])
        self.assertIsNone(self.kept({"a": {"x": "eg:Cash", "y": "eg:Note", "z": "eg:B"}}, "v\n"))
        with mock.patch.object(held_types, "MOST", 1_000):
            self.assertIsNone(self.kept({}, "v\n" + 1_000 * "1\n"))

    def test_a_namespace_of_two_lines(self) -> None:
        """Its records have two lines, so nothing is left out."""
        for end in ("\n", "\r"):
            namespace = f"http://reg.example/{end}eg"
            types = TYPES.replace(EG, f'"{namespace}"')
            write(self.folder, {"m.json": "{}"})
            files = Files.of(report_by_itself(str(self.folder / "m.json")), Merged({}, {}))
            table = HeldTypes(types.encode(), {}, {"eg": namespace})
            with mock.patch.object(held_types, "LEAST_LEFT_OUT", 0):
                self.assertIsNone(table.table(files))

    def test_places(self) -> None:
        """Each record begins where it does in the table, and the last one has its end."""
        text = TYPES.encode()
        held = HeldTypes(text, {}, {})
        ends = [at + 1 for at, byte in enumerate(text) if byte == ord("\n")]
        self.assertEqual(held.starts, array("L", [0, *ends]))


class TestHolding(TestCase):
    """Looking at the templates of a module little by little."""

    path: str

    def setUp(self) -> None:
        """Makes the entry of a module."""
        super().setUp()
        write(self.folder / "r", report())
        write(self.folder / "t", taxonomy())
        at = {it: str(self.folder / it) for it in ("r", "t", "p", "c")}
        library.prepare(at["r"], [at["t"]], at["p"], at["c"])
        self.path = str(next((self.folder / "c").glob("*.module")))
        self.addCleanup(lambda: held_modules.held.pop(self.path, None))

    def went_on(self, reports: int) -> int:
        """Holds the entry in a run of some reports. Returns how often it then goes on."""
        holding = held_modules.Holding(reports)
        holding.hold(self.path)
        self.assertIsNone(held_modules.held[self.path].types)
        times = 0
        while holding.go_on():
            times += 1
            self.assertIsNone(held_modules.held[self.path].types)
        self.assertFalse(holding.go_on())
        return times

    def test_many_reports(self) -> None:
        """The whole table serves until all templates are looked at."""
        entry_templates = 2
        self.assertEqual(self.went_on(held_modules.MANY), entry_templates + 1)
        module, types = held_modules.held[self.path].module, held_modules.held[self.path].types
        assert types is not None
        self.assertEqual(set(types.of_template), set(module.templates))

    def test_few_reports(self) -> None:
        """Nothing is looked at."""
        self.assertEqual(self.went_on(held_modules.MANY - 1), 0)
        self.assertIsNone(held_modules.held[self.path].types)

    def test_the_room(self) -> None:
        """An entry is held only if all that are held have room."""
        size = os.path.getsize(self.path)
        copy = self.path.replace(".module", "2.module")
        Path(copy).write_bytes(Path(self.path).read_bytes())
        self.addCleanup(lambda: held_modules.held.pop(copy, None))
        for room, wanted in ((size - 1, []), (2 * size - 1, [self.path])):
            with mock.patch.object(held_modules, "MOST_HELD", room):
                holding = held_modules.Holding(1)
                holding.hold(self.path)
                holding.hold(copy)
            self.assertEqual([it for it in (self.path, copy) if it in held_modules.held], wanted)

    def test_too_little_memory(self) -> None:
        """The whole table serves for all reports."""
        for it in ("__init__", "look"):
            with self.subTest(it), mock.patch.object(HeldTypes, it, side_effect=MemoryError):
                self.assertLess(self.went_on(held_modules.MANY), 2)
                self.assertIsNone(held_modules.held[self.path].types)


class TestManyReports(TestCase):
    """The good filing, and each spoiled one of the same module."""

    reports: list[str]

    def outcome(self, many: int) -> tuple[dict[str, bytes], set[int]]:
        """Returns the files of a run, without its measures, and the sizes of the types tables."""
        counting, counts = self.folder / "counting", self.folder / f"counts{many}"
        counting.write_text(COUNTING)
        counting.chmod(0o755)
        words = ["-c", DRIVER, str(TOP), str(many), str(counting), *self.reports]
        words += ["--taxonomy", "t", "--into", "out", "--jobs", "1", "--explain"]
        told = {**os.environ, "REAL": PROGRAM, "COUNTS": str(counts)}
        ways: dict[str, Any] = {"cwd": self.folder, "env": told, "timeout": PATIENCE}
        done = subprocess.run([sys.executable, *words], stderr=subprocess.DEVNULL, **ways)
        self.assertEqual(done.returncode, 1)
        out = self.folder / "out"
        found = {it.name: self.measured(it) for it in out.iterdir() if it.is_file()}
        out.rename(self.folder / f"out{many}")
        return found, set(map(int, counts.read_text().split()))

    def measured(self, path: Path) -> bytes:
        """Returns a file's bytes without temporary names; of an outcome, without measures."""
        if path.suffix != ".outcome":
            return re.sub(rb"xbrl-filing-[0-9a-f]{16}", b"xbrl-filing", path.read_bytes())
        outcome = json.loads(path.read_bytes())
        return json.dumps({**outcome, "seconds": 0, "memory": 0}).encode()

    def test_the_same_files(self) -> None:
        """Documents, faults, logs and outcomes are those with the whole types table."""
        spare = "".join(item(f"Spare{it}") for it in range(SPARE))
        elements = "\n".join([include("members.xsd"), ELEMENTS, DOMAIN, spare])
        good = taxonomy()
        write(self.folder / "t", taxonomy({SCHEMA_FILE: schema(elements)}))
        filings = [it.report for it in spoiled() if it.taxonomy == good]
        self.reports = []
        for at, files in enumerate([report(), *filings]):
            self.reports.append(f"in/{at:03}")
            write(self.folder / self.reports[-1], files)
        self.assertGreater(len(self.reports), 50)
        whole, sizes = self.outcome(len(self.reports) + 1)
        fewer, fewer_sizes = self.outcome(len(self.reports))
        self.assertEqual(len(sizes), 1)
        self.assertLess(min(fewer_sizes), max(sizes) - SPARE + 1)
        self.assertIn("000.json", whole)
        self.assertEqual(sorted(fewer), sorted(whole))
        for name, content in whole.items():
            self.assertEqual(fewer[name], content, name)


if __name__ == "__main__":
    unittest.main()
