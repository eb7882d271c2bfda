#!/usr/bin/env python3
"""Measures a run over many reports, and fails if it costs too much next to the conversions.

    bench/night.py PROGRAM [--copies 200] [--jobs 4] [--tables 40] [--filed 8] ..

One made filing (bench/generate_taxonomy.py) is copied. Then `xbrl-filing COPIES --into FOLDER` may
take 1.5 times what PROGRAM takes for the plain files of as many copies, as many at a time and each
with one worker. Both are told in seconds of the clock and of the processors, children included. A
busy machine changes the first more than the second, so the second is what must hold; both are
printed with the load. The cache is empty before the run. Ends with status 1 if it took longer.
"""
from __future__ import annotations

import argparse
import os
import resource
import shutil
import subprocess
import sys
import tempfile
import time
import zipfile
from concurrent.futures import ThreadPoolExecutor
from pathlib import Path
from typing import Callable, Dict, List, NamedTuple

TOP = Path(__file__).resolve().parent.parent
MOST_TIMES = 1.5


class Cost(NamedTuple):
    """What a step has cost, in seconds."""

    clock: float
    processors: float


def cost_of(step: Callable[[], object]) -> Cost:
    """Returns what a step costs, with all processes that it starts."""
    began, before = time.monotonic(), resource.getrusage(resource.RUSAGE_CHILDREN)
    step()
    after = resource.getrusage(resource.RUSAGE_CHILDREN)
    used = after.ru_utime + after.ru_stime - before.ru_utime - before.ru_stime
    return Cost(time.monotonic() - began, used)


def packed(folder: Path, target: Path) -> None:
    """Packs a folder."""
    with zipfile.ZipFile(target, "w", zipfile.ZIP_DEFLATED) as archive:
        for path in sorted(folder.rglob("*")):
            if path.is_file():
                archive.write(path, os.path.join(folder.name, path.relative_to(folder)))


def run(words: List[str], folder: Path, **environment: str) -> None:
    """Runs a command that must succeed."""
    told: Dict[str, str] = {**os.environ, **environment}
    done = subprocess.run(words, cwd=folder, env=told, capture_output=True, text=True)
    if done.returncode:
        sys.exit(f"{words[0]}: status {done.returncode}: {done.stderr[-2000:]}")


def converted(program: str, folder: Path, copies: int, jobs: int) -> None:
    """Converts the plain files as often as there are copies, some at a time."""
    words = [program, "plain/meta.json", "--types", "plain/types.csv", "--workers", "1", "--whole"]
    with ThreadPoolExecutor(jobs) as pool:
        for done in [
            pool.submit(run, [*words, "--out", f"alone/{number}.json"], folder)
            for number in range(copies)
        ]:
            done.result()


def main() -> int:
    """Measures, prints, and returns the status."""
    parser = argparse.ArgumentParser(prog="bench/night.py")
    parser.add_argument("program")
    sizes = dict(megabytes=20, concepts=20_000, tables=40, filed=8)
    for name, value in dict(copies=200, jobs=4, **sizes).items():
        parser.add_argument(f"--{name}", type=int, default=value)
    asked = parser.parse_args()
    program = os.path.abspath(asked.program)
    with tempfile.TemporaryDirectory() as scratch:
        folder = Path(scratch)
        told = [word for name in sizes for word in (f"--{name}", str(vars(asked)[name]))]
        generator = [sys.executable, str(TOP / "bench/generate_taxonomy.py"), ".", *told, "--zip"]
        run(generator, folder)
        packed(folder / "first", folder / "report.zip")
        (folder / "in").mkdir()
        (folder / "alone").mkdir()
        reports = [f"in/{number}.zip" for number in range(asked.copies)]
        for report in reports:
            shutil.copyfile(folder / "report.zip", folder / report)
        taxonomy = ["--taxonomy", "taxonomy.zip"]
        filing = [sys.executable, str(TOP / "xbrl-filing")]
        run([*filing, "report.zip", *taxonomy, "--prepare", "plain"], folder)
        alone = cost_of(lambda: converted(program, folder, asked.copies, asked.jobs))
        many = [*filing, *reports, *taxonomy, "--into", "out", "--jobs", str(asked.jobs)]
        night = cost_of(lambda: run(many, folder, XBRL_JSON=program))
        for number in range(asked.copies):
            if (folder / f"out/{number}.json").read_bytes() != (folder / "alone/0.json").read_bytes():
                sys.exit(f"copy {number} has another document")
    times = Cost(*(one / other for one, other in zip(night, alone)))
    print(f"{asked.copies} copies, {asked.jobs} at a time; load {os.getloadavg()[0]:.1f}")
    print(f"conversions alone: {alone.clock:.1f} s, {alone.processors:.1f} s of processors")
    print(f"--into:            {night.clock:.1f} s, {night.processors:.1f} s of processors")
    print(f"times:             {times.clock:.2f}, {times.processors:.2f} (at most {MOST_TIMES})")
    return 0 if times.processors <= MOST_TIMES else 1


if __name__ == "__main__":
    sys.exit(main())
