"""Runs the program on a system that refuses calls, and judges what it wrote.

A module that uses it calls `build_library` first, in `setUpModule`. `RefusedTest` has a report of
three tables and a parameters file, and its whole document.
"""
from __future__ import annotations

import concurrent.futures
import json
import os
import re
import subprocess
import tempfile
import unittest
from collections.abc import Callable, Mapping, Sequence
from pathlib import Path
from typing import Any, TypeVar

from tests.harness import PATIENCE, PROGRAM, TOP, CaseTest, Done

WORDS = ["meta.json", "--types", "types.csv"]
TABLES = ["t1", "t2", "t3"]
LINE = re.compile(r"xbrl-json: table (\w+), row 0, column 0: (\w+) \((\d+)\)")
FAILED_WRITE = Done(3, b"", "xbrl-json: output: Write (56)\n")

# The faults of tables that refused calls of a kind may give, and the ends of the run.
FAULTS: dict[str, set[str]] = {
    "memory": {"Memory"},
    "read": {"Read"},
    "write": set(),
    "zero": set(),
    "open": {"Read"},
    "stat": {"Read"},
    "thread": {"NoThread"},
}
FILES = ["meta.json", "types.csv", "parameters.csv"]
PARTS = ["report", "types", "parameters"]
CANNOT_READ = {f"xbrl-json: cannot read {it}\n" for it in FILES}
ENDS: dict[str, set[str]] = {
    "memory": {f"xbrl-json: {it}: Memory (16)\n" for it in PARTS}
    | {"xbrl-json: run: Memory (53)\n", "error: out of memory\n"},
    "read": {f"xbrl-json: {it}: Read (17)\n" for it in PARTS},
    "write": {FAILED_WRITE.err},
    "zero": {FAILED_WRITE.err},
    "open": CANNOT_READ | {FAILED_WRITE.err},
    "stat": CANNOT_READ,
    "thread": set(),
}

T = TypeVar("T")


class Library:
    """The library that refuses calls, built once for a module."""

    path = ""


def library_in(folder: str) -> str:
    """Builds the library in a folder, and returns its path."""
    path = f"{folder}/refuse.so"
    source = str(TOP / "tests/refuse.c")
    command = ["cc", "-shared", "-fPIC", "-O1", "-o", path, source, "-ldl"]
    subprocess.run(command, check=True)
    return path


def build_library() -> None:
    """Builds the library, and removes it when the tests of the module have ended."""
    folder = tempfile.TemporaryDirectory()
    unittest.addModuleCleanup(folder.cleanup)
    Library.path = library_in(folder.name)


def in_parallel(call: Callable[[T], Done], todo: Sequence[T]) -> list[tuple[T, Done]]:
    """Returns what a call gives for each item, as many at a time as there are processors."""
    with concurrent.futures.ThreadPoolExecutor(len(os.sched_getaffinity(0))) as pool:
        return list(zip(todo, pool.map(call, todo)))


def called(counts: Path) -> dict[str, int]:
    """Returns how many calls of each kind a run has written to its file of counts."""
    lines = map(str.split, counts.read_text().splitlines())
    calls = {name: int(number) for name, number in lines}
    return {**calls, "zero": calls["write"]}


def write_report(folder: Path) -> None:
    """Writes three tables of numbers, texts, references and property groups.

    The report has a parameters file.
    """
    groups = {
        "net": {"dimensions": {"unit": "iso4217:EUR"}},
        "gross": {"dimensions": {"unit": "iso4217:USD"}},
    }
    note = {"concept": "eg:Note", "language": "$tongue", "eg:site": "$name"}
    columns: dict[str, Any] = {
        "name": {},
        "cash": {
            "dimensions": {"concept": "eg:Cash"},
            "decimals": "$places",
            "propertiesFrom": ["kind"],
        },
        "note": {"dimensions": note},
        "kind": {"propertyGroups": groups},
        "places": {},
    }
    eg = "http://example.com/eg"
    meta = {
        "documentInfo": {
            "documentType": "https://xbrl.org/2021/xbrl-csv",
            "namespaces": {"eg": eg, "iso4217": "http://www.xbrl.org/2003/iso4217"},
            "taxonomy": ["http://example.com/eg.xsd"],
        },
        "parameterURL": "parameters.csv",
        "dimensions": {"entity": "eg:A1", "period": "2021"},
        "tableTemplates": {"p": {"rowIdColumn": "name", "columns": columns}},
        "tables": {name: {"url": f"{name}.csv", "template": "p"} for name in TABLES},
    }
    (folder / "meta.json").write_text(json.dumps(meta))
    types = f"namespace,name,type\n{eg},Cash,decimal\n{eg},Note,text\n{eg},site,typed\n"
    (folder / "types.csv").write_text(types)
    (folder / "parameters.csv").write_text("name,value\ntongue,en\n")
    for table in TABLES:
        rows = "".join(
            f'{table}{i},{i}.5,"a ""quoted"" note",{"net" if i % 2 else "gross"},{i}\n'
            for i in range(3)
        )
        (folder / f"{table}.csv").write_text("name,cash,note,kind,places\n" + rows)


class Document:
    """The whole document, and where each fact of each table ends in it."""

    def __init__(self, whole: bytes) -> None:
        """Finds the facts of the whole document."""
        self.whole = whole
        ends = [m.start() for m in re.finditer(rb'[,{]"t\d\.', whole)]
        self.starts = {
            table: [it for it in ends if whole.startswith(f"{table}.".encode(), it + 2)]
            for table in TABLES
        }
        self.head = self.starts[TABLES[0]][0] + 1
        self.tail = whole.rindex(b"}}")

    def is_cut(self, out: bytes, table: str) -> bool:
        """Returns whether a text is the document's prefix up to a fact of a table.

        Also up to the place before its first fact.
        """
        first = TABLES.index(table)
        begin = self.starts[table]
        after = self.starts[TABLES[first + 1]][0] if first + 1 < len(TABLES) else self.tail
        places = [begin[0] if first else self.head, *begin[1:], after]
        return self.whole.startswith(out) and len(out) in places


def fault_of(seen: Done, document: Document, kind: str) -> str | None:
    """Returns what is wrong with a run in which calls of a kind were refused, or None."""
    status, out, err = seen
    lines = [LINE.fullmatch(it) for it in err.splitlines()]
    if status == 0:
        is_right = (out, err) == (document.whole, "")
        return None if is_right else f"status 0 without the document: {err}"
    tables = [it[1] for it in lines if it]
    if status == 1 and lines and len(tables) == len(lines):
        if tables != sorted(set(tables)) or not {it[2] for it in lines if it} <= FAULTS[kind]:
            return f"lines {err}"
        return None if document.is_cut(out, tables[0]) else f"another text: {out!r}"
    if kind == "memory" and err == "" and status in (1, 3):
        # No memory was left for the line.
        is_prefix = out == b"" or any(document.is_cut(out, it) for it in TABLES)
        return None if is_prefix else f"another text: {out!r}"
    if err in ENDS[kind] and status == (1 if err.endswith((" (16)\n", " (17)\n")) else 3):
        if "output" in err:
            return None if document.whole.startswith(out) else f"not a prefix: {out!r}"
        return f"{err} with text written" if out else None
    return f"status {status}, {err!r}, {out!r}"


class RefusedTest(CaseTest):
    """A test with a report of three tables, and its document."""

    document: Document

    def setUp(self) -> None:
        """Writes the report, and converts it with nothing refused."""
        super().setUp()
        self.report = self.folder / "report"
        self.report.mkdir()
        self.counts = self.folder / "counts"
        write_report(self.report)
        status, whole, err = self.refuse()
        self.assertEqual((status, err), (0, ""))
        self.assertEqual(len(json.loads(whole)["facts"]), 18)
        self.document = Document(whole)

    def refuse(
        self,
        refuse: str = "",
        words: Sequence[str] = (),
        folder: Path | None = None,
        counts: Path | None = None,
    ) -> Done:
        """Runs the program over a report while calls are refused, and counts calls."""
        chosen = {"REFUSE": refuse, "REFUSE_COUNT": str(counts or "/dev/null")}
        done = subprocess.run(
            [PROGRAM, *WORDS, *words],
            cwd=folder or self.report,
            env={**os.environ, "LD_PRELOAD": Library.path, **chosen},
            stdin=subprocess.DEVNULL,
            capture_output=True,
            timeout=PATIENCE,
        )
        return Done(done.returncode, done.stdout, done.stderr.decode(errors="replace"))

    def calls(self, words: Sequence[str], folder: Path | None = None) -> dict[str, int]:
        """Returns how many calls of each kind a run makes with nothing refused."""
        self.refuse("", words, folder, self.counts)
        return called(self.counts)

    def copied(self, name: str, files: Mapping[str, str]) -> Path:
        """Makes a folder with the report over other tables, whose files are still to be written.

        Each table is given by its identifier and its file.
        """
        other = self.folder / name
        other.mkdir()
        meta = json.loads((self.report / "meta.json").read_text())
        meta["tables"] = {
            table: {"url": f"{file}.csv", "template": "p"} for table, file in files.items()
        }
        (other / "meta.json").write_text(json.dumps(meta))
        for same in ("types.csv", "parameters.csv"):
            (other / same).write_text((self.report / same).read_text())
        return other

    def is_right(self, seen: Done, kind: str, document: Document | None = None) -> None:
        """Fails if a run in which calls of a kind were refused did not end as it may."""
        why = fault_of(seen, document or self.document, kind)
        self.assertIsNone(why)

    def left(self, folder: Path, pattern: str) -> list[str]:
        """Returns the names of the files of a folder that match a pattern."""
        return sorted(it.name for it in folder.glob(pattern))
