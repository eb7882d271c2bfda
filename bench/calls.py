#!/usr/bin/env python3
"""Measures calls of the C library, and fails if one takes longer than it may.

    bench/calls.py [FOLDER PROGRAM]

FOLDER has the library and PROGRAM is xbrl-json; without them they are dist/lib and dist/xbrl-json.
The reports are those of bench/generate.py in the shape `positions`:

- 10 KB of tables: a call may take 1 ms, from C and from Python;
- 24 MB of tables: one call may take twice the time of PROGRAM with one worker, which writes a file.

Times are of the processor, the best of five. Ends with status 1 if a call took longer. Needs Linux,
Python 3.9 or later and a C compiler.
"""
from __future__ import annotations

import os
import resource
import subprocess
import sys
import tempfile
from pathlib import Path
from typing import List

TOP = Path(__file__).resolve().parent.parent
CALLS, RUNS = 1_000, 5
MOST_SECONDS, MOST_TIMES = 0.001, 2.0
FROM_PYTHON = """import sys, xbrl_json
files = {name: open(name, "rb").read() for name in sys.argv[2:]}
for _ in range(int(sys.argv[1])):
    xbrl_json.convert(files, sys.argv[2], sys.argv[3])
"""


def seconds(words: List[str], folder: Path) -> float:
    """Returns the least processor time of some runs of a command in a folder."""
    times = []
    for _ in range(RUNS):
        before = resource.getrusage(resource.RUSAGE_CHILDREN)
        subprocess.run(words, cwd=folder, check=True, stdout=subprocess.DEVNULL)
        after = resource.getrusage(resource.RUSAGE_CHILDREN)
        times.append(after.ru_utime + after.ru_stime - before.ru_utime - before.ru_stime)
    return min(times)


def generated(folder: Path, *words: str) -> List[str]:
    """Writes a report into a folder, and returns its files: META, the types table, the tables."""
    generator = [sys.executable, str(TOP / "bench/generate.py"), str(folder), *words]
    subprocess.run(generator, check=True, stdout=subprocess.DEVNULL)
    return ["meta.json", "types.csv", *sorted(it.name for it in folder.glob("t[0-9]*.csv"))]


def of_a_call(words: List[str], files: List[str], folder: Path) -> float:
    """Returns the time of one call, without that of a process. The words end before the number."""
    many, one = (seconds([*words, str(count), *files], folder) for count in (CALLS, 1))
    return (many - one) / (CALLS - 1)


def holds(what: str, seen: float, most: float, unit: str) -> bool:
    """Prints what was measured, and whether it is as small as it must be."""
    print(f"{what}: {seen:.2f} {unit}, at most {most:g}: {'yes' if seen <= most else 'NO'}")
    return seen <= most


def small_calls(driver: str, folder: Path) -> bool:
    """Measures a call on a report of 10 KB, from C and from Python."""
    files = generated(folder, "--megabytes", "0.01", "--tables", "3")
    size = sum((folder / it).stat().st_size for it in files)
    good = True
    python = [sys.executable, "-c", FROM_PYTHON]
    for name, words in (("C", [driver, "calls"]), ("Python", python)):
        time = of_a_call(words, files, folder)
        good &= holds(f"{size:,} bytes, from {name}", time * 1000, MOST_SECONDS * 1000, "ms a call")
    return good


def large_call(driver: str, program: str, folder: Path) -> bool:
    """Compares one call on a large report with a run of the program."""
    files = generated(folder, "--megabytes", "24")
    words = [program, *files[:1], "--types", files[1], "--workers", "1", "--out", "out.json"]
    run, call = seconds(words, folder), seconds([driver, "calls", "0", *files], folder)
    print(f"24 MB: the program {run:.2f} s, a call {call:.2f} s of the processor")
    return holds("24 MB: a call", call / run, MOST_TIMES, "times the program's time")


def main(library: Path, program: str) -> int:
    """Measures both, and returns the status."""
    os.environ["XBRL_JSON_LIBRARY"] = str(library / "libxbrl_json.so.0")
    os.environ["PYTHONPATH"] = str(TOP / "library/python")
    with tempfile.TemporaryDirectory() as name:
        folder, driver = Path(name), str(Path(name) / "driver")
        source, archive = str(TOP / "tests/library.c"), str(library / "libxbrl_json.a")
        words = ["cc", "-O2", "-std=gnu11", "-pthread", f"-I{TOP / 'library'}", "-o", driver]
        subprocess.run([*words, source, archive], check=True)
        good = small_calls(driver, folder / "small")
        good &= large_call(driver, program, folder / "large")
    return 0 if good else 1


if __name__ == "__main__":
    if len(sys.argv) not in (1, 3):
        sys.exit(__doc__)
    at, file = sys.argv[1:] or [str(TOP / "dist/lib"), str(TOP / "dist/xbrl-json")]
    sys.exit(main(Path(at).resolve(), os.path.abspath(file)))
