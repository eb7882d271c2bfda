#!/usr/bin/env python3
"""Converts small reports thousands of times, to see that no run waits for ever.

    tests/soak.py [PROGRAM] [--runs N] [--seed S] [--jobs J]

The runs go through all counts of workers from 1 to 64 with rings of 1 to 4 blocks, in turn. As many
run at once as `--jobs` says (16), so the machine is loaded. A report has 1 to 40 tables: empty,
short, or of several pieces, and every fourth report has a fault. A run may use all processors, two
or one; some outputs are read slowly, and some tables are pipes that are fed slowly.

Each output must be the document by the own reading of these tests, or with a fault what one worker
writes and says. A run that takes longer than ten minutes hangs: its threads are shown as the system
knows them, and it is stopped. The last line counts the runs, those that hung and those that were
wrong. Without `--runs` there are 10,000. Needs Linux, Python 3.9 or later and `cc`, for
`refuse.c`: without it a run of few workers would take one on a machine as busy as this one.
"""
from __future__ import annotations

import argparse
import os
import random
import subprocess
import sys
import tempfile
import threading
from collections import Counter
from collections.abc import Iterator
from concurrent.futures import ThreadPoolExecutor
from pathlib import Path
from typing import NamedTuple

TOP = Path(__file__).resolve().parent.parent
MOST_WORKERS = 64
MOST_RING = 4
# How many runs convert one report
RUNS_EACH = 32


class Asked(NamedTuple):
    """How a report is converted: workers, ring, processors (0: all), reader, tables as pipes."""

    workers: int
    ring: int
    processors: int
    is_read_slowly: bool
    slow: list[str]


class Ended(NamedTuple):
    """How a run ended: its status, standard output and standard error."""

    status: int
    out: bytes
    err: bytes


def sizes_of(numbers: random.Random) -> list[int]:
    """Returns the counts of rows of a small report's tables."""
    count = numbers.choice([1, 2, 3, 8, 40])
    if count == 1:
        return [numbers.choice([0, 1, 300, 3_000, 6_000])]
    most = 4_000 // count
    return [numbers.choice([0, 1, 2, 40, most]) for _ in range(count)]


def asked_of(numbers: random.Random, at: int, names: list[str]) -> Asked:
    """Returns the way of a run, by its number."""
    slow = [it for it in names if numbers.random() < 0.02]
    return Asked(
        at % MOST_WORKERS + 1,
        at // MOST_WORKERS % MOST_RING + 1,
        numbers.choice([0, 0, 0, 2, 1]),
        numbers.random() < 0.1,
        slow,
    )


def threads_of(process: int) -> str:
    """Describes the threads of a process, as the system knows them."""
    lines = []
    for task in sorted(Path(f"/proc/{process}/task").iterdir()):
        states = [
            it for it in (task / "status").read_text().splitlines() if it.startswith("State")
        ]
        lines.append(f"    {task.name} {states} {(task / 'wchan').read_text()}")
    return "\n".join(lines)


def take_all(run: subprocess.Popen[bytes], is_slow: bool, into: list[bytes]) -> None:
    """Reads the output of a run to its end, slowly if so asked."""
    from tests.test_stress import read_all

    assert run.stdout is not None
    read_all(run.stdout, is_slow, into)


def hold_to(processors: int) -> None:
    """Holds a run to this many processors, before it starts; 0 are all."""
    if processors:
        os.sched_setaffinity(0, sorted(os.sched_getaffinity(0))[:processors])


def start(folder: Path, asked: Asked) -> subprocess.Popen[bytes]:
    """Starts a run."""
    from tests.test_stress import words_of

    return subprocess.Popen(
        words_of(asked.workers, asked.ring),
        cwd=folder,
        stdin=subprocess.DEVNULL,
        stdout=subprocess.PIPE,
        stderr=subprocess.PIPE,
        preexec_fn=lambda: hold_to(asked.processors),
    )


def ended(folder: Path, asked: Asked) -> Ended | None:
    """Converts a report, and returns how the run ended, or None if it hung."""
    from tests.harness import PATIENCE
    from tests.test_stress import feed

    held = {it: (folder / f"{it}.csv").read_bytes() for it in asked.slow}
    for name, whole in held.items():
        pipe = folder / f"{name}.csv"
        pipe.unlink()
        os.mkfifo(pipe)
        threading.Thread(target=feed, args=(pipe, whole, 4_000), daemon=True).start()
    wrote: list[bytes] = []
    try:
        with start(folder, asked) as run:
            words = run, asked.is_read_slowly, wrote
            reader = threading.Thread(target=take_all, args=words, daemon=True)
            reader.start()
            try:
                status = run.wait(PATIENCE)
            except subprocess.TimeoutExpired:
                print(f"HANGS {folder} {asked}\n{threads_of(run.pid)}", flush=True)
                run.kill()
                return None
            reader.join(PATIENCE)
            assert run.stderr is not None
            return Ended(status, b"".join(wrote), run.stderr.read())
    finally:
        for name, whole in held.items():
            pipe = folder / f"{name}.csv"
            pipe.unlink()
            pipe.write_bytes(whole)


def convert_often(seed: int, first: int, last: int) -> Iterator[str]:
    """Makes the report of these runs, and converts it once for each. Yields how each ended."""
    from tests.test_stress import document, table, write_report

    numbers = random.Random(f"{seed} {first}")
    has_faults = first // RUNS_EACH % 4 == 3
    sizes = sizes_of(numbers)
    tables = [
        table(numbers, f"t{at:03}", size, has_faults and numbers.random() < 0.5)
        for at, size in enumerate(sizes)
    ]
    with tempfile.TemporaryDirectory() as name:
        folder = Path(name)
        write_report(folder, numbers, tables)
        wanted: Ended | None = Ended(0, document(tables), b"")
        if any(it.bad is not None for it in tables):
            wanted = ended(folder, Asked(1, 1, 0, False, []))
        for at in range(first, last):
            names = [it.name for it in tables if it.rows] if len(tables) < 10 else []
            asked = asked_of(numbers, at, names)
            found = ended(folder, asked)
            if found is not None and found != wanted:
                print(f"WRONG seed {seed}, run {at}, {asked}, status {found.status}", flush=True)
            yield "hung" if found is None else "right" if found == wanted else "wrong"


def main() -> int:
    """Converts as often as asked, and counts."""
    parser = argparse.ArgumentParser(
        description=__doc__, formatter_class=argparse.RawDescriptionHelpFormatter
    )
    parser.add_argument("program", nargs="?", default=str(TOP / "dist/xbrl-json"))
    parser.add_argument("--runs", type=int, default=10_000)
    parser.add_argument("--seed", type=int, default=1)
    parser.add_argument("--jobs", type=int, default=16)
    options = parser.parse_args()
    os.environ["XBRL_JSON"] = os.path.abspath(options.program)
    sys.path.insert(0, str(TOP))
    from tests.refusing import library_in

    counts: Counter[str] = Counter()
    starts = range(0, options.runs, RUNS_EACH)

    def all_of(first: int) -> list[str]:
        """Converts one report as often as its runs say."""
        return list(convert_often(options.seed, first, min(first + RUNS_EACH, options.runs)))

    with tempfile.TemporaryDirectory() as folder, ThreadPoolExecutor(options.jobs) as pool:
        os.environ["LD_PRELOAD"] = library_in(folder)
        for found in pool.map(all_of, starts):
            counts.update(found)
            if sum(counts.values()) % 1_024 == 0:
                print(f"{sum(counts.values())} runs, {counts['hung']} hung", flush=True)
    print(
        f"{sum(counts.values())} runs, {counts['hung']} hung, {counts['wrong']} wrong: "
        f"workers 1 to {MOST_WORKERS}, rings 1 to {MOST_RING}, {options.jobs} at once"
    )
    return 1 if counts["hung"] or counts["wrong"] else 0


if __name__ == "__main__":
    sys.exit(main())
