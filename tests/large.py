#!/usr/bin/env python3
"""Converts reports of the largest sizes: 100,000,000 rows, a cell of 4 GB, a file above 4 GB.

    tests/large.py PROGRAM [--scale N] [--only rows|cell|file]

The tables come through pipes, so they need no room on the disk, but for the file above 4 GB, which
is written to the folder for temporary files. The cell needs up to 16 GB of memory. If the system
refuses it, the table must be refused for memory. The output is counted and not kept. It takes some
minutes. `--scale` divides all sizes, to try the script. The last line counts. Needs Linux and
Python 3.9 or later.
"""
from __future__ import annotations

import argparse
import json
import os
import subprocess
import sys
import tempfile
import threading
from collections.abc import Iterator
from pathlib import Path
from typing import NamedTuple

TOP = Path(__file__).resolve().parent.parent
sys.path.insert(0, str(TOP))

from tests.harness import NAMESPACE, metadata  # noqa: E402

MOST_ROWS = 100_000_000
GIGABYTES = 4 << 30
PART = 1 << 20
TYPES = f"namespace,name,type\n{NAMESPACE},Cash,integer\n{NAMESPACE},Note,text\n"


class Ended(NamedTuple):
    """How a run ended: its status, the size, start and end of its output, and its lines."""

    status: int
    size: int
    first: bytes
    last: bytes
    err: str


def feed(pipe: Path, parts: Iterator[bytes]) -> None:
    """Gives a pipe these bytes. A reader that went away is left."""
    try:
        with open(pipe, "wb", buffering=0) as file:
            for part in parts:
                view = memoryview(part)
                while view:
                    view = view[file.write(view) or 0 :]
    except BrokenPipeError:
        pass


def ended(program: str, folder: Path, words: list[str]) -> Ended:
    """Converts the report of a folder, and counts the output."""
    run = subprocess.Popen(
        [program, "meta.json", "--types", "types.csv", *words],
        cwd=folder,
        stdin=subprocess.DEVNULL,
        stdout=subprocess.PIPE,
        stderr=subprocess.PIPE,
    )
    assert run.stdout is not None and run.stderr is not None
    size, first, last = 0, b"", b""
    while part := os.read(run.stdout.fileno(), PART):
        size += len(part)
        first = (first + part)[:PART] if len(first) < PART else first
        last = (last + part)[-300:]
    err = run.stderr.read().decode()
    return Ended(run.wait(), size, first, last, err)


def report(folder: Path) -> None:
    """Writes the metadata and the types table of one table."""
    (folder / "meta.json").write_text(json.dumps(metadata({"t1": {}})))
    (folder / "types.csv").write_text(TYPES)


def converted(program: str, folder: Path, parts: Iterator[bytes], words: list[str]) -> Ended:
    """Converts a report whose table comes through a pipe."""
    report(folder)
    pipe = folder / "t1.csv"
    os.mkfifo(pipe)
    threading.Thread(target=feed, args=(pipe, parts), daemon=True).start()
    return ended(program, folder, words)


def fact_of(run: Ended) -> int:
    """Returns the size of the first fact without its row number, and with a comma."""
    value = b'"value":"1"}'
    return run.first.index(value) + len(value) - run.first.index(b'"t1.r_1.')


def digits(last: int) -> int:
    """Returns how many digits the numbers from 1 to the last have together."""
    count, power = 0, 1
    while power <= last:
        count += last - power + 1
        power *= 10
    return count


def many_rows(program: str, folder: Path, scale: int) -> list[str]:
    """Converts the most rows, and one more. Returns what is wrong."""
    faults = []
    most = MOST_ROWS // scale
    for rows in (most, most + 1):
        if scale > 1 and rows > most:
            continue  # a smaller report may have one row more
        parts = (b"1\n" * (min(at + PART, rows) - at) for at in range(0, rows, PART))
        whole = (part for source in (iter([b"cash\n"]), parts) for part in source)
        made = folder / str(rows)
        made.mkdir()
        run = converted(program, made, whole, [])
        end = len(b"}}\n") if rows <= most else 0
        start = run.first.index(b'"t1.r_1.')
        wanted = start + most * fact_of(run) + digits(most) - 1 + end
        line = "" if end else f"xbrl-json: table t1, row {rows}, column 0: TooManyRows (41)\n"
        if (run.status, run.size, run.err) != (0 if end else 1, wanted, line):
            faults.append(f"{rows} rows: wanted {wanted} bytes, found {run}"[:600])
    return faults


def long_cell(program: str, folder: Path, scale: int) -> list[str]:
    """Converts a cell of more than 4 GB, or is refused for memory. Returns what is wrong."""
    size = GIGABYTES // scale + 10
    parts = (b"x" * min(PART, size - at) for at in range(0, size, PART))
    whole = (part for source in (iter([b"cash,note\n7,"]), parts) for part in source)
    run = converted(program, folder, whole, ["--workers", "1"])
    lines = [f"xbrl-json: table t1, row 0, column 0: Memory ({it})\n" for it in (16, 42)]
    if run.status == 1 and run.err in lines:
        return []
    is_right = run.status == 0 and run.size > size and run.last.endswith(b'xxxx"}}}\n')
    return [] if is_right and not run.err else [f"a cell of {size} bytes: {run}"[:600]]


def large_file(program: str, folder: Path, scale: int) -> list[str]:
    """Converts a file above 4 GB, whose last row has a fault. Returns what is wrong."""
    report(folder)
    count = GIGABYTES // PART // scale + 2
    with open(folder / "t1.csv", "wb") as file:
        file.write(b"cash,note\n")
        for _ in range(count):
            file.write(b"7," + b"x" * PART + b"\n")
        file.write(b"1.5,\n")
    run = ended(program, folder, ["--explain"])
    line = f"xbrl-json: table t1, row {count + 1}, column 1: BadNumber (40)\n"
    place = f"    t1.csv, line {count + 2}, cell 1\n"
    is_right = run.status == 1 and run.err.startswith(line + place) and run.size > count * PART
    return [] if is_right else [f"a file of {count} MB: {run}"[:600]]


def main() -> int:
    """Converts each report, and counts."""
    parser = argparse.ArgumentParser(
        description=__doc__, formatter_class=argparse.RawDescriptionHelpFormatter
    )
    parser.add_argument("program")
    parser.add_argument("--scale", type=int, default=1)
    parser.add_argument("--only", choices=("rows", "cell", "file"))
    given = parser.parse_args()
    program = os.path.abspath(given.program)
    kinds = {"rows": many_rows, "cell": long_cell, "file": large_file}
    bad = 0
    chosen = [name for name in kinds if given.only in (None, name)]
    for name in chosen:
        with tempfile.TemporaryDirectory() as made:
            faults = kinds[name](program, Path(made), given.scale)
        bad += bool(faults)
        for fault in faults:
            print(f"FAILED {name}: {fault}", flush=True)
    print(f"over large reports: {len(chosen) - bad} as they must be, {bad} not")
    return int(bad > 0)


if __name__ == "__main__":
    sys.exit(main())
