#!/usr/bin/env python3
"""Counts the definitions that the headline rests on.

    tests/specification_size.py [--list] [KIT]

Begins with the names in the contract of `run` (crates/oim_run/src/running.rt), and follows each
name to its definition and on to the names in that: through crates/*/specs, and through the
definitions of the kit's ported crates. A line counts if it is neither blank nor a comment; imports
do not count. `--list` prints each definition with its lines.

KIT is the folder of the kit's crates; without it, `rattle` next to the file that `rt doc` names.
Without a kit only this repository is counted. The kit's general words (its logic, `std`, mathlib)
and the declared Rust types are not followed. Python 3.9 or later.
"""
from __future__ import annotations

import subprocess
import sys
from collections import Counter
from pathlib import Path

TOP = Path(__file__).resolve().parent.parent
sys.path.insert(0, str(TOP))

from tests.definitions import (  # noqa: E402
    CRATES,
    File,
    Name,
    Room,
    file_of,
    files,
    imports,
    named,
    rests,
)

RUN = CRATES / "oim_run/src/running.rt"
HEAD, END = "pub fn run<", "\n{\n"
# The kit's general words.
GENERAL = "std", "core", "libc"


def kit_folder() -> Path | None:
    """Returns the folder of the kit's crates, if there is a kit."""
    try:
        said = subprocess.run(["rt", "doc"], capture_output=True, text=True, check=True).stdout
    except (OSError, subprocess.CalledProcessError):
        return None
    return Path(said.strip()).parent / "rattle"


def kit_files(kit: Path | None) -> dict[Room, File]:
    """Returns the files of definitions of the kit's ported crates."""
    found: dict[Room, File] = {}
    if kit is None:
        return found
    for file in sorted(kit.glob("*/specs/**/*.antt")):
        crate, _, *steps = file.relative_to(kit).with_suffix("").parts
        if steps != ["Lib"] and not crate.startswith(GENERAL):
            found[crate, "/".join(steps)] = file_of(file.read_text(encoding="utf-8"))
    return found


def lines_of(text: str) -> int:
    """Returns how many lines of a definition are not blank. Comments are taken out already."""
    return sum(1 for line in text.splitlines() if line.strip())


def main() -> None:
    """Prints the counts by crate, this repository's and the kit's."""
    words = [it for it in sys.argv[1:] if it != "--list"]
    ours = files()
    kit = kit_files(Path(words[0]) if words else kit_folder())
    both = {**kit, **ours}
    source = RUN.read_text(encoding="utf-8")
    contract = source[source.index(HEAD) :]
    contract = contract[: contract.index(END)]
    reached: set[Name] = set()
    fresh = named(contract, imports(source), both)
    while fresh := {it for it in fresh - reached if it[2] in both[it[:2]].own}:
        reached |= fresh
        fresh = {it for crate, file, name in fresh for it in rests((crate, file), name, both)}
    if "--list" in sys.argv:
        for crate, file, name in sorted(reached):
            print(f"{crate}/specs/{file}: {name}, {lines_of(both[crate, file].own[name])}")
    for title, rooms in (("this repository", ours), ("the kit's ported crates", kit)):
        here = [it for it in reached if it[:2] in rooms]
        count: Counter[str] = Counter()
        lines: Counter[str] = Counter()
        for crate, file, name in here:
            count[crate] += 1
            lines[crate] += lines_of(both[crate, file].own[name])
        for crate, number in sorted(count.items(), key=lambda it: -lines[it[0]]):
            print(f"  {crate}: {number} definitions, {lines[crate]} lines")
        total, of = sum(lines.values()), len({it[:2] for it in here})
        print(f"{title}: {len(here)} definitions, {total} lines in {of} files")
    if not reached:
        sys.exit("no definition is reached from the contract of run")


if __name__ == "__main__":
    main()
