#!/usr/bin/env python3
"""Measures the processor time of one worker and of plain Rust, on each shape of report.

    bench/beside.py PROGRAM PLAIN [FOLDER..] [--megabytes 4] [--rounds 25] [--real-time]

PROGRAM is the program's file, PLAIN that of plain Rust (`plain`). Each FOLDER is a report of
`generate.py`; without one, reports of the shapes positions, mixed and texts are made. The two
programs take turns on each report, once untimed and then in the rounds, and write to /dev/null.

A line has the processor milliseconds (user and system) of both, the least of the rounds and the
median, and the program's as a multiple of plain Rust's. The last column is the median of the
multiples in each round, which changes of the machine's speed disturb least. With --real-time each
run has real-time priority, which needs a privilege and keeps other work away. Needs Linux and
Python 3.9 or later.
"""
from __future__ import annotations

import argparse
import os
import statistics
import subprocess
import sys
import tempfile
from pathlib import Path
from typing import Any, Dict, List

HERE = Path(__file__).resolve().parent
SHAPES = "positions", "mixed", "texts"


def processor(command: List[str], is_real_time: bool) -> float:
    """The milliseconds of processor that a run takes, from its start by the system on."""
    more: Dict[str, Any] = {"scheduler": (os.SCHED_FIFO, os.sched_param(10))} if is_real_time else {}
    away = [(os.POSIX_SPAWN_OPEN, 1, os.devnull, os.O_WRONLY, 0)]
    process = os.posix_spawn(command[0], command, os.environ, file_actions=away, **more)
    _, status, usage = os.wait4(process, 0)
    if status:
        sys.exit(f"{' '.join(command)}: status {os.waitstatus_to_exitcode(status)}")
    return float(usage.ru_utime + usage.ru_stime) * 1000


def line_of(program: str, plain: str, folder: Path, rounds: int, is_real_time: bool) -> str:
    """The table's line of a report."""
    words = [str(folder / "meta.json"), "--types", str(folder / "types.csv")]
    ours: List[float] = []
    theirs: List[float] = []
    for at in range(rounds + 1):
        pair = processor([program, *words, "--workers", "1"], is_real_time), processor([plain, *words], is_real_time)
        if at:
            ours.append(pair[0])
            theirs.append(pair[1])
    medians = statistics.median(ours), statistics.median(theirs)
    pairs = statistics.median(one / other for one, other in zip(ours, theirs))
    least = f"{min(ours):.1f} | {min(theirs):.1f} | {min(ours) / min(theirs):.3f}"
    return f"| {folder.name} | {least} | {medians[0]:.1f} | {medians[1]:.1f} | {medians[0] / medians[1]:.3f} | {pairs:.3f} |"


def absolute(path: str) -> str:
    """Returns an absolute path."""
    return os.path.abspath(path)


def main() -> None:
    """Makes the reports, if none is named, measures, and prints the table."""
    parser = argparse.ArgumentParser(description=__doc__, formatter_class=argparse.RawDescriptionHelpFormatter)
    parser.add_argument("program", type=absolute)
    parser.add_argument("plain", type=absolute)
    parser.add_argument("folders", type=Path, nargs="*", metavar="FOLDER")
    parser.add_argument("--megabytes", type=float, default=4.0)
    parser.add_argument("--rounds", type=int, default=25)
    parser.add_argument("--real-time", action="store_true")
    options = parser.parse_args()
    with tempfile.TemporaryDirectory() as name:
        folders = options.folders
        if not folders:
            folders = [Path(name) / shape for shape in SHAPES]
            for folder in folders:
                make = [str(HERE / "generate.py"), str(folder), "--shape", folder.name, "--megabytes", str(options.megabytes), "--tables", "2"]
                subprocess.run(make, check=True, stdout=subprocess.DEVNULL)
        print("| Report | least ms | plain Rust | of it | median ms | plain Rust | of it | in each round |\n|---|---|---|---|---|---|---|---|")
        for folder in folders:
            print(line_of(options.program, options.plain, folder, options.rounds, options.real_time), flush=True)


if __name__ == "__main__":
    main()
