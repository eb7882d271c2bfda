#!/usr/bin/env python3
"""Compares docs/FAULTS.md with the sources, in both directions.

    tests/fault_table.py

Each fault that a crate numbers and names has one row, `| 40 BadNumber | when | .. | what to do |`,
in a table whose last column is "What to do". That cell is not empty. Within a section the rows are
in the order of their numbers. A heading `### 40 BadNumber` names a fault too.

Each sentence of `--explain` is there word for word, and no other: in the last section, by the
numbers of its faults, or, for a fault with one sentence only, in the second cell of its row.

The sources are the lines `Type::Variant => 40,`, `Type::Variant => "BadNumber",` and
`Type::Variant => "a sentence of words",` of crates/*/src. Each fault needs such a sentence. A
constant of `oim_rows` for a fault of a cell has that fault's name.
"""
from __future__ import annotations

import re
import sys
from pathlib import Path

TOP = Path(__file__).resolve().parent.parent
VARIANT = r"^\s*(\w+::\w+)(?:\([^)]*\)| \{[^}]*\})? =>"
ARM = re.compile(VARIANT + r' (?:(\d+)|"(\w+)"),$', re.M)
EXPLAINED = re.compile(VARIANT + r'\s*(?:\{\s*)?"(\w+ [^"]*)"', re.M)
SENTENCE = re.compile(r'"(\w+ [^"\\\\]*[^"\\\\ ,:])"')
SENTENCE_ROW = re.compile(r"^\| (all|[\d, ]+) \| (.*) \|$", re.M)
ROW = re.compile(r"^(\d+) (\w+)$")
HEADING = re.compile(r"^### (\d+) (\w+)", re.M)
SENTENCES = "The sentences of `--explain`"

# The faults of a cell under their own names, which callers of the library use as patterns.
SAME = re.compile(r"^\s*pub const (\w+): \w+ = \w+::Cell\(\w+::(\w+)\);$", re.M)

# For these faults of a whole file `--explain` prints the fault's own sentence. Other faults of the
# metadata have sentences in `oim_explain`.
OF_WHOLE_FILES = "MetaFault::Memory", "MetaFault::Read"

# A fault, by its number and name; a sentence, with the number of its fault.
Fault = tuple[int, str]


def named_in_sources() -> tuple[set[Fault], set[Fault], set[Fault]]:
    """Returns the faults of the sources, those without a sentence, and the sentences of the faults
    for which `--explain` prints the fault's own."""
    numbers: dict[tuple[str, str], int] = {}
    names: dict[tuple[str, str], str] = {}
    explained: dict[tuple[str, str], str] = {}
    for file in sorted(TOP.glob("crates/*/src/**/*.rt")):
        crate, text = file.relative_to(TOP).parts[1], file.read_text()
        for variant, number, name in ARM.findall(text):
            if number:
                numbers[crate, variant] = int(number)
            else:
                names[crate, variant] = name
        explained.update({(crate, it): sentence for it, sentence in EXPLAINED.findall(text)})
    faults = {it: (numbers[it], names[it]) for it in numbers if it in names}
    themselves = {
        (numbers[it], explained[it])
        for it in faults.keys() & explained.keys()
        if it[0] in ("oim_rows", "oim_resolve") or it[1] in OF_WHOLE_FILES
    }
    return set(faults.values()), {faults[it] for it in faults.keys() - explained.keys()}, themselves


def sentences_in_sources() -> set[str]:
    """Returns the sentences of `oim_explain`: its texts of several words."""
    own = [file.read_text() for file in (TOP / "crates/oim_explain/src").glob("*.rt")]
    return {it for text in own for it in SENTENCE.findall(text) if "{" not in it}


def rows_of(section: str) -> tuple[list[tuple[Fault, str]], list[str]]:
    """Returns the faults of a section's tables with their second cells, and what is wrong there."""
    rows: list[tuple[Fault, str]] = []
    wrong: list[str] = []
    head: list[str] = []
    for line in section.splitlines():
        cells = [it.strip() for it in line.strip("|").split(" |")] if line.startswith("|") else []
        if len(cells) < 2 or not (it := ROW.match(cells[0])):
            head = head if cells and set(line) <= set("|-") else cells
            continue
        rows.append(((int(it[1]), it[2]), cells[1]))
        if len(cells) != len(head) or head[-1] != "What to do":
            wrong.append(f"not a row of its table: {line}")
        elif not all(cells):
            wrong.append(f"a cell is empty, or nothing to do: {cells[0]}")
    if rows != sorted(rows, key=lambda it: it[0]):
        wrong.append(f"not in the order of the numbers: {[it for it, _ in rows]}")
    return rows, wrong


def main() -> None:
    """Prints what differs, and exits with 1 if anything does."""
    page = (TOP / "docs/FAULTS.md").read_text()
    sections = page.split("\n## ")
    wrong, rows = [], []
    for section in sections:
        here, faulty = rows_of(section)
        rows += here
        wrong += faulty
    told = [it for it, _ in rows]
    sources, unexplained, themselves = named_in_sources()
    headings = {(int(number), name) for number, name in HEADING.findall(page)}
    wrong += [f"not explained in the sources: {it}" for it in sorted(unexplained)]
    wrong += [f"not in docs/FAULTS.md: {it}" for it in sorted(sources - set(told))]
    wrong += [f"not in the sources: {it}" for it in sorted((set(told) | headings) - sources)]
    wrong += [f"twice: {it}" for it in sorted({it for it in told if told.count(it) > 1})]
    same = SAME.findall((TOP / "crates/oim_rows/src/fault.rt").read_text())
    wrong += [f"{name} is {variant}" for name, variant in same if name != variant]
    wrong += [] if len(same) == 14 else [f"{len(same)} faults of a cell have their own names"]

    own = sentences_in_sources()
    table = SENTENCE_ROW.findall(next((it for it in sections if it.startswith(SENTENCES)), ""))
    known = own | {it for _, it in themselves}
    in_rows = {(fault[0], when) for fault, when in rows if when in known}
    listed = {(int(n), it) for row, it in table if row != "all" for n in row.split(", ")}
    of_fault, said = in_rows | listed, {it for _, it in in_rows} | {it for _, it in table}
    missing = [*sorted(own - said), *sorted(themselves - of_fault)]
    wrong += [f"printed by --explain and not in docs/FAULTS.md: {it}" for it in missing]
    strange = {it for it in of_fault - themselves if it[1] not in own}
    foreign = [*sorted(said - known), *sorted(strange)]
    wrong += [f"not printed by --explain: {it}" for it in foreign]
    for it in wrong:
        print(it)
    print(f"docs/FAULTS.md: {len(sources & set(told))} as they must be, {len(wrong)} not")
    sys.exit(1 if wrong or not sources else 0)


if __name__ == "__main__":
    main()
