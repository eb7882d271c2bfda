"""The report whose faults `--explain` explains, and checks of an explanation.

Each case is a small report with one fault. Its whole explanation is compared with the wanted lines,
and its first lines with those of the same run without `--explain`.
"""
from __future__ import annotations

import copy
from collections.abc import Iterable
from typing import Any

from tests.harness import NAMESPACE, CaseTest, Content, metadata

WORDS = ("r/m.json", "--types", "t.csv")
TYPES = "namespace,name,type2\n" + "".join(
    f"{NAMESPACE},{it}\n" for it in ("Cash,integer", "Note,text", "Region,explicit", "Branch,typed")
)
TABLE = "cash,note\n100,first\n200,second\n"
REPORT = metadata({"t1": {}})
CASH = ("tableTemplates", "p", "columns", "cash")
AT_CASH = "/tableTemplates/p/columns/cash"
NO_PATH = "is not a plain relative path: no empty part, no . or .., no % : ? # or backslash"
UNREAD = "the file cannot be opened or read to its end, or is a folder"

UNKNOWN_SPECIAL = "a text begins with # and is not a special value"
MALFORMED = (
    "an entity, unit, language or explicit member is not well-formed, or its prefix is not declared"
)
NO_PERIOD = (
    "a period is written 2025Q3, 2025-09, 2025-09-30 or 2025-07-01..2025-09-30, and must exist"
)
NO_NAME = "the types table has no concept of this name, or its prefix is not declared"

# The null of JSON, as the value of a place.
NULL = object()
# The keys of a place of the metadata.
Place = tuple[str, ...]


def edited(keys: Place, value: Any, report: dict[str, Any] = REPORT) -> dict[str, Any]:
    """Returns the report with another value at a place.

    The value None removes what is there, and NULL is null.
    """
    report = copy.deepcopy(report)
    *before, last = keys
    there = report
    for key in before:
        there = there[key]
    if value is None:
        del there[last]
    else:
        there[last] = None if value is NULL else value
    return report


def edited_all(edits: dict[Place, Any]) -> dict[str, Any]:
    """Returns the report with other values at several places."""
    report = REPORT
    for keys, value in edits.items():
        report = edited(keys, value, report)
    return report


def lines_of(line: str, places: Iterable[str]) -> str:
    """Returns what a run prints: the line of a fault, and its explanation."""
    return f"xbrl-json: {line}\n" + "".join(f"    {it}\n" for it in places)


def elsewhere(
    source: str,
    why: str,
    *advice: str,
    fact: str = '"1" in cash (eg:Cash) of row r_1',
    at: str = "r/t1.csv, line 2, cell 1",
    by: Iterable[str] = (),
) -> list[str]:
    """Returns what is told of a fact whose fault comes from elsewhere.

    The place to mend comes first, then why, and what could be meant. The fact follows, with the
    places by which the fault came to it.
    """
    return [source, why, *advice, f"for {fact}: {at}", *(f"by {it}" for it in by)]


class ExplainTest(CaseTest):
    """A test of explanations."""

    def setUp(self) -> None:
        """Writes the report."""
        super().setUp()
        self.write({"r/m.json": REPORT, "t.csv": TYPES, "r/t1.csv": TABLE})

    def err(self, *words: str, report: tuple[str, ...] = WORDS) -> str:
        """Returns standard error of a run that ends with status 1."""
        done = self.run_program(*report, *words, "--out", "o.json")
        self.assertEqual(done.status, 1, done)
        return done.err

    def says(
        self,
        files: dict[str, Content],
        line: str,
        *places: str,
        words: tuple[str, ...] = WORDS,
    ) -> None:
        """Checks the line of a fault, and its explanation after it.

        The sentence has at most 100 characters: in the second line of the explanation if the fault
        comes from elsewhere, else in the third.
        """
        self.write(files)
        self.check_same(self.err(report=words), f"xbrl-json: {line}\n")
        explained = self.err("--explain", report=words)
        self.check_same(explained, lines_of(line, places))
        sentence = places[1 if any(it.startswith("for ") for it in places) else 2]
        self.assertLessEqual(len(sentence), 100)
