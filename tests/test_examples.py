"""Tests the examples, and documents in lines: documents, lines of faults and statuses."""
from __future__ import annotations

import json
from collections.abc import Iterator
from pathlib import Path
from typing import Any

from tests.edges import EdgeTest, table_fault
from tests.harness import TOP, CaseTest, for_each

EXAMPLES = TOP / "examples"
WAYS = ((1, 1), (2, 4), (4, 1024), (64, 65536))


def in_lines(document: bytes) -> bytes:
    """Returns a document with a line for each fact, from the same document on one line."""
    head, facts = document.decode().split('"facts":{', 1)
    lines, at, decoder = [head + '"facts":{'], 0, json.JSONDecoder()
    while facts[at : at + 1] == '"':
        start = at
        at = decoder.raw_decode(facts, at)[1]
        at = decoder.raw_decode(facts, at + 1)[1]
        at += facts[at : at + 1] == ","
        lines.append(facts[start:at])
    return "\n".join(lines + [facts[at:]] * (facts[at:] != "")).encode()


def examples() -> Iterator[tuple[str, tuple[Path]]]:
    """Yields the folders of the examples, by their names."""
    for folder in sorted(it for it in EXAMPLES.iterdir() if (it / "words").is_file()):
        yield folder.name, (folder,)


@for_each(examples())
class TestExamples(CaseTest):
    """Converts each example with several numbers of workers and ring sizes, in both layouts."""

    def check(self, folder: Path) -> None:
        """Converts an example."""
        words = (folder / "words").read_text().split()
        document = (folder / "expected.json").read_bytes()
        err = folder / "expected.err"
        lines = err.read_text() if err.is_file() else ""
        for workers, ring in WAYS:
            for layout, written in (("compact", document), ("lines", in_lines(document))):
                with self.subTest(workers=workers, ring=ring, layout=layout):
                    more = [f"--workers={workers}", f"--ring={ring}", f"--layout={layout}"]
                    seen = self.run_program(*words, *more, cwd=folder)
                    self.check_run(seen, 1 if lines else 0, written, lines)

    def test_documents_in_lines(self) -> None:
        """Has the same facts in each example that is there in lines too."""
        found = sorted(EXAMPLES.glob("*/expected-lines.json"))
        self.assertTrue(found)
        for written in found:
            with self.subTest(example=written.parent.name):
                document = written.with_name("expected.json").read_bytes()
                self.check_same(in_lines(document), written.read_bytes())

    def test_no_arguments(self) -> None:
        """Converts the built-in report."""
        seen = self.run_program(cwd=EXAMPLES / "held")
        self.check_run(seen, 0, (EXAMPLES / "held/expected.json").read_bytes(), "")


HEAD = (
    '{"documentInfo":{"documentType":"https://xbrl.org/2021/xbrl-json",'
    '"namespaces":{"eg":"http://example.com/eg","iso4217":"http://www.xbrl.org/2003/iso4217"},'
    '"taxonomy":["http://example.com/eg.xsd"]},"facts":{'
)


def member(table: str, row: int, value: int) -> str:
    """Returns the text of a fact of the report."""
    return (
        f'"{table}.r_{row}.cash":{{"dimensions":{{"concept":"eg:Cash","entity":"eg:A1",'
        '"period":"2021-01-01T00:00:00/2022-01-01T00:00:00","unit":"iso4217:EUR"},'
        f'"value":"{value}"}}'
    )


# Tables, the document in lines, and the lines of faults.
LINED: dict[str, tuple[dict[str, str], str, str]] = {
    "two rows": (
        {"t1": "1\n2\n"},
        f"{HEAD}\n{member('t1', 1, 1)},\n{member('t1', 2, 2)}\n}}}}\n",
        "",
    ),
    "no tables": ({}, HEAD + "\n}}\n", ""),
    "the first table refused": (
        {"t1": "x\n", "t2": "1\n"},
        HEAD,
        table_fault("t1", 1, 1, "BadNumber (40)"),
    ),
    "the second table refused": (
        {"t1": "1\n", "t2": "2\nx\n"},
        f"{HEAD}\n{member('t1', 1, 1)},\n{member('t2', 1, 2)}",
        table_fault("t2", 2, 1, "BadNumber (40)"),
    ),
}


class LinesTest(EdgeTest, CaseTest):
    """A test of documents in lines."""


@for_each(LINED.items())
class TestLines(LinesTest):
    """Writes documents with a line for each fact, whole and unfinished."""

    def check(self, tables: dict[str, str], document: str, lines: str) -> None:
        """Converts a report with several numbers of workers and ring sizes."""
        self.report({table: {} for table in tables})
        self.write({f"{table}.csv": "cash\n" + rows for table, rows in tables.items()})
        for workers in (1, 2, 8):
            for ring in (1, 4):
                with self.subTest(workers=workers, ring=ring):
                    more = [f"--workers={workers}", f"--ring={ring}", "--layout=lines"]
                    seen = self.convert(*more)
                    self.check_run(seen, 1 if lines else 0, document.encode(), lines)


# Tables, their file, and how the document in lines ends.
WITHOUT_FACTS: dict[str, tuple[dict[str, Any], str, bytes]] = {
    "no table": ({}, "", b"\n}}\n"),
    "a table without rows": ({"t1": {}}, "cash\n", b"\n}}\n"),
    "a refused first table": ({"t1": {}, "t2": {}}, "cash\nx\n", b""),
}


@for_each(WITHOUT_FACTS.items())
class TestLinesWithoutFacts(LinesTest):
    """Writes documents without facts in lines."""

    def check(self, tables: dict[str, Any], file: str, ends: bytes) -> None:
        """Compares both layouts."""
        self.report(tables)
        self.write({f"{table}.csv": file for table in tables})
        whole, lined = self.convert(), self.convert("--layout", "lines")
        head = whole.out[: -len(b"}}\n")] if whole.out.endswith(b"}}\n") else whole.out
        self.assertTrue(head.endswith(b'"facts":{'))
        self.check_run(lined, whole.status, head + ends, whole.err)
