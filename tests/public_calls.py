#!/usr/bin/env python3
"""Checks which public names of the libraries the tests call, and which only the program does.

    tests/public_calls.py           lists each name that is not called as it must be
    tests/public_calls.py --list    also lists the names that only the program calls

The tests are the crates of `TESTS`, which compile and run. The rules:

- A test has each published name: those of `PUBLISHED`, and those that the table "What each crate
  promises" of docs/PROVED.md names. It calls the name once, with ample memory, and compares the
  answer. This script sees only that the name is used.
- A test has the example of each library's page, word for word: the lines between ``` in the first
  comment of its `src/lib.rt`.
- A test has each name that no other crate of the program or of the C library uses.
- No test needs another name. The program calls it, and the worked reports of tests/run compare what
  the program writes.

The libraries are those of the program in crates.txt. Their public names are those of `pub use` and
`pub mod` in `src/lib.rt`, and the methods of these types. A file uses a name if it imports it and
has it elsewhere too, and a method if it has its name after a dot, `::` or `fn`. If the method is
published, the file uses its type too. Comments, texts and ghost code do not count. Python 3.9 or
later.
"""
from __future__ import annotations

import re
import sys
from pathlib import Path
from typing import Final

TOP = Path(__file__).resolve().parent.parent
sys.path.insert(0, str(TOP))

from tests.crates import crates_below  # noqa: E402
from tests.proved_tables import CODE, ROW, calls_of  # noqa: E402

CRATES = TOP / "crates"
TESTS: Final = ("public_calls", "conversion_tests", "run_tests", "ring_tests", "record_tests")
PROGRAMS: Final = ("xbrl_json_cli", "xbrl_json_c")
PAGE, PROMISES = TOP / "docs/PROVED.md", "What each crate promises"

# What another program may call, by library. These keep their names and answers. The numbers and
# names of faults are published too: tests/fault_table.py compares them with docs/FAULTS.md.
PUBLISHED: Final[dict[str, str]] = {
    "oim_names": """
        is_identifier is_row_identifier is_ncname qname sqname unit UnitKind language NameFault
        Namespaces Namespaces::new Namespaces::add Namespaces::uri Namespaces::len Namespaces::at
        Items Text
        """,
    "oim_period": """
        read is_date Moment Period Period::start_instant Period::end_instant Period::text
        """,
    "oim_cells": """
        meaning CellMeaning split_numeral NumberKind decimals Accuracy trimmed is_boolean
        """,
    "oim_report": """
        Parameters Parameters::none Types Limits Limits::profile Column ColumnKind Level Written
        Side WrittenDecimals Kind Info
        Report Report::tables Report::table_id Report::table_url Report::is_optional Report::columns
        Report::column Report::row_id_column Report::template_level Report::report_level
        Report::parameter Report::namespaces Report::kind_of Report::info Report::clone_report
        """,
    "oim_entries": "read_parameters read_types MetaFault",
    "oim_meta": "parameter_url read_report",
    "oim_files": "Folder Source",
    "oim_resolve": "Row Row::new resolve Fact CellFault",
    "oim_rows": "Rows Rows::open Rows::next RowFacts TableFault TableKind",
    "oim_json": """
        member_of Member Member::bytes head TAIL tail Layout Sink Sink::write_some Marked
        Marked::new write_all_of WriteFault block_of Block Block::count Block::bytes Block::text
        """,
    "oim_ring": """
        lane Item Ending Feed Feed::put Feed::close Closed CloseFault Drain Drain::take
        Drain::settle Drained
        """,
    "oim_merge": "merge MergeEnd",
    "oim_crew": "Claims Claims::new Claims::draw Claims::close Seat",
    "oim_convert": "convert convert_serial convert_with_starts Run ConvertFault",
    "oim_run": "job Settings run Outcome status line",
}

# What a source has that is not code: comments, texts and characters.
ASIDE = re.compile(
    r"""//[^\n]*|b?r(\#*)".*?"\1|b?"(?:\\.|[^"\\])*"|b?'(?:\\[^']+|[^'\\])'""", re.S
)
BLOCK = r"\{(?:[^{}]|\{(?:[^{}]|\{(?:[^{}]|\{[^{}]*\})*\})*\})*\}"
GHOST = re.compile(rf"\b(?:requires|ensures|ghost)\b[^{{}};]*{BLOCK}(?:\s*=\s*{BLOCK})?")
IMPORT = re.compile(r"\buse (\w+)::([^;]*);")
IMPORTS = re.compile(r"^\s*(?:ghost )?(?:pub(?:\([^)]*\))? )?use [^;]*;", re.M)
PATH = re.compile(r"\b(\w+)::(\w+)")
METHOD = re.compile(r"(?:\.|::|\bfn )(\w+)")
GIVEN = re.compile(r"^pub (?:mod |use ((?:\w+::)*))(\{[^}]*\}|\w+);", re.M)

# A public name: its library, and the name or `Type::method`.
Name = tuple[str, str]
# What each file of some crates uses.
Uses = list[set[Name]]


def page_of(library: str) -> str:
    """Returns the root file of a library."""
    return (CRATES / library / "src/lib.rt").read_text(encoding="utf-8")


def given_by(page: str, libraries: set[str]) -> dict[str, str]:
    """Returns the names that a page gives, each with the library that it is from, if another."""
    found = {}
    for path, names in GIVEN.findall(page):
        origin = path.split("::")[0]
        for name in re.findall(r"\w+", names):
            found[name] = origin if origin in libraries else ""
    return found


def origins(libraries: list[str]) -> dict[Name, Name]:
    """Returns each name that a library gives, with the same name in the library that makes it."""
    found: dict[Name, Name] = {}
    for library in libraries:
        for name, origin in given_by(page_of(library), set(libraries) - {library}).items():
            found[library, name] = found[origin, name] if origin else (library, name)
    return found


def examples_of(page: str) -> list[str]:
    """Returns the examples that a page shows, each as its lines."""
    comment = "\n".join(line[4:] for line in page.splitlines() if line.startswith("//!"))
    return re.findall(r"^```\n(.*?\n)```$", comment, re.M | re.S)


def used_in(source: str, known: dict[Name, Name]) -> set[Name]:
    """Returns the public names that a source uses. Methods have the library ``""``."""
    code = GHOST.sub("", ASIDE.sub(" ", source))
    body = IMPORTS.sub("", code)
    words = set(re.findall(r"\w+", body))
    used = set(PATH.findall(body))
    for crate, names in IMPORT.findall(code):
        used |= {(crate, it) for it in re.findall(r"\w+", names) if it in words}
    return {known[it] for it in used if it in known} | {("", it) for it in METHOD.findall(body)}


def sources_of(crate: str) -> list[str]:
    """Returns the source files of a crate."""
    return [it.read_text(encoding="utf-8") for it in sorted((CRATES / crate / "src").rglob("*.rt"))]


def methods_of(library: str) -> set[str]:
    """Returns the public methods of a library's public types, each as `Type::method`."""
    return {it.name for it in calls_of(library) if "::" in it.name}


def promised(known: dict[Name, Name]) -> set[Name]:
    """Returns the public names that the table of docs/PROVED.md has in the row of their crate."""
    parts = re.split(r"\n##+ ", PAGE.read_text(encoding="utf-8"))
    found: set[Name] = set()
    for crates, row in ROW.findall(next(it for it in parts if it.startswith(PROMISES))):
        # The cell after the promise has clauses, among them laws, which are calls.
        told, methods = set(CODE.findall(row)), set(CODE.findall(row.split(" | ")[0]))
        for crate in CODE.findall(crates):
            found |= {known[crate, it] for it in told if (crate, it) in known}
            found |= {(crate, it) for it in methods_of(crate) if methods & {it, it.split("::")[1]}}
    return found


def published(known: dict[Name, Name]) -> set[Name]:
    """Returns the names that a test must have, whoever else uses them."""
    listed = {(library, it) for library, names in PUBLISHED.items() for it in names.split()}
    return listed | promised(known)


def calls(used: set[Name], name: Name) -> bool:
    """Returns whether one of the names used is this one, or may be this method."""
    owner, _, method = name[1].rpartition("::")
    return (("", method) if owner else name) in used


def calls_surely(used: set[Name], name: Name) -> bool:
    """Returns whether one of the names used is this one, or this method and its type are there."""
    owner = name[1].partition("::")[0]
    return calls(used, name) and (name[0], owner) in used


def flaw(name: Name, is_published: bool, tests: Uses, above: Uses) -> str:
    """Returns what is wrong with how the tests and the other crates call a name, or nothing."""
    if is_published:
        is_called = any(calls_surely(it, name) for it in tests)
        return "" if is_called else "is published, and no test calls it"
    is_called = any(calls(it, name) for it in (*tests, *above))
    return "" if is_called else "is called by no test and no other crate"


def main() -> None:
    """Prints each name that is not called as it must be, and exits with 1 if there is one."""
    libraries = crates_below()["xbrl_json_cli"]
    known = origins(libraries)
    kept = published(known)
    crates = (*libraries, *PROGRAMS, *TESTS)
    uses = {crate: [used_in(it, known) for it in sources_of(crate)] for crate in crates}
    tests = [it for crate in TESTS for it in uses[crate]]
    text = "\n".join(source for crate in TESTS for source in sources_of(crate))
    wrong, alone, right = [], [], 0
    for library in libraries:
        names = {it for crate, it in known.values() if crate == library} | methods_of(library)
        above = [it for c in (*libraries, *PROGRAMS) if c != library for it in uses[c]]
        for name in sorted(names | {it for crate, it in kept if crate == library}):
            this = library, name
            what = flaw(this, this in kept, tests, above) if name in names else "does not exist"
            wrong += [f"{library}: {name} {what}"] if what else []
            right += not what
            if not what and not any(calls(it, this) for it in tests):
                alone.append(f"{library}: {name}")
        shown = examples_of(page_of(library))
        wrong += [] if shown else [f"{library}: no example on its page"]
        wrong += [f"{library}: in no test: {it.splitlines()[0]}" for it in shown if it not in text]
        right += sum(it in text for it in shown)
    if sys.argv[1:] == ["--list"]:
        print("\n".join(alone))
    for it in wrong:
        print(it)
    print(f"public names and examples: {right} as they must be, {len(wrong)} not")
    sys.exit(1 if wrong or not right else 0)


if __name__ == "__main__":
    main()
