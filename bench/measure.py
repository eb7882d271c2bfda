#!/usr/bin/env python3
"""Measures the converter on a report of generate.py, next to `cat` of its tables and plain Rust.

    measure.py PROGRAM FOLDER [--workers 1,2,4] [--ring K] [--rounds 3] [--out FILE]
               [--mark COMMAND] [--count SMALL] [--json FILE]

PROGRAM is the built program's file. Each run is made once untimed, and its document is hashed: all
hashes must be equal, and the files are then in the system's cache. Then come the rounds. Each runs
`cat` and every number of workers once, in turn, so that all meet the same machine. The document
goes to /dev/null, or with --out to FILE, which is removed at the end.

--mark is the command of a converter to compare with, without its arguments META --types TYPES (it
is `plain`, here). Its document must be the same.

A line has the medians of the rounds: seconds by the clock, then processor seconds of all threads,
also as a multiple of the mark's. From the clock follow MB of CSV (1,000,000 bytes) and facts a
second. The last column is the largest resident memory of the process in any round.

--count SMALL also counts instructions a fact with valgrind, on the small report in the folder
SMALL, because counting is slow. --json FILE adds the figures of this report to FILE under the name
of FOLDER; `plots.py` draws them. Needs Linux, GNU time (/usr/bin/time), and valgrind to count.
"""
from __future__ import annotations

import argparse
import glob
import hashlib
import json
import os
import platform
import shlex
import statistics
import subprocess
import sys
import tempfile
import time
from pathlib import Path
from typing import Any, Dict

MARK = "plain Rust"
CAT = "`cat` of the tables"
Json = Dict[str, Any]


def timed(command: list[str], sink: str) -> tuple[float, float, int]:
    """Returns clock seconds, processor seconds and the largest resident KiB of one run.

    GNU time starts it, because a process that Python starts is charged with Python's memory.
    """
    with tempfile.NamedTemporaryFile("r") as report, open(sink, "wb") as out:
        started = ["/usr/bin/time", "--quiet", "-o", report.name, "-f", "%U %S %M", *command]
        start = time.perf_counter()
        status = subprocess.run(started, stdin=subprocess.DEVNULL, stdout=out).returncode
        seconds = time.perf_counter() - start
        if status != 0:
            sys.exit(f"{shlex.join(command)}: status {status}")
        user, system, peak = report.read().split()
    return seconds, float(user) + float(system), int(peak)


def document(command: list[str]) -> tuple[str, int]:
    """Runs a command and returns the hash and the length of its output."""
    digest, length = hashlib.sha256(), 0
    with subprocess.Popen(command, stdin=subprocess.DEVNULL, stdout=subprocess.PIPE) as process:
        assert process.stdout is not None  # it is a pipe
        while piece := process.stdout.read(1 << 20):
            digest.update(piece)
            length += len(piece)
    if process.returncode != 0:
        sys.exit(f"{shlex.join(command)}: status {process.returncode}")
    return digest.hexdigest(), length


def processor() -> str:
    """Returns the name of the machine's processor."""
    for line in Path("/proc/cpuinfo").read_text().splitlines():
        if line.startswith("model name"):
            return line.split(":", 1)[1].strip()
    return platform.machine()


def words() -> argparse.Namespace:
    """Reads the command line."""
    parser = argparse.ArgumentParser(description=__doc__, formatter_class=argparse.RawDescriptionHelpFormatter)
    parser.add_argument("program")
    parser.add_argument("folder", type=Path)
    parser.add_argument("--workers", default="1,2,4")
    parser.add_argument("--ring", default=None)
    parser.add_argument("--rounds", type=int, default=3)
    parser.add_argument("--out", default=os.devnull)
    parser.add_argument("--mark")
    parser.add_argument("--count", type=Path, metavar="SMALL")
    parser.add_argument("--json", type=Path, metavar="FILE")
    return parser.parse_args()


def commands(options: argparse.Namespace, folder: Path) -> dict[str, list[str]]:
    """Returns the commands to measure, by the name of their line."""
    report = [str(folder / "meta.json"), "--types", str(folder / "types.csv")]
    ring = ["--ring", options.ring] if options.ring else []
    runs: dict[str, list[str]] = {}
    for workers in options.workers.split(","):
        runs[f"{workers} worker{'s' if workers != '1' else ''}"] = [os.path.abspath(options.program), *report, "--workers", workers, *ring]
    if options.mark:
        runs[MARK] = shlex.split(options.mark) + report
    return runs


def same_document(runs: dict[str, list[str]]) -> int:
    """Checks that all runs write the same document, and returns its length."""
    documents = {name: document(command) for name, command in runs.items()}
    if len(set(documents.values())) != 1:
        sys.exit("\n".join(["the documents differ:"] + [f"{name}: {digest}, {length} bytes" for name, (digest, length) in documents.items()]))
    return next(iter(documents.values()))[1]


def counted(command: list[str], facts: int) -> float:
    """Counts instructions a fact by callgrind, over all threads."""
    with tempfile.TemporaryDirectory() as folder:
        named = f"--callgrind-out-file={folder}/out"
        subprocess.run(["valgrind", "--tool=callgrind", "--quiet", "--separate-threads=yes", named, *command], stdin=subprocess.DEVNULL, stdout=subprocess.DEVNULL, check=True)
        totals: list[int] = []
        for file in glob.glob(f"{folder}/out*"):
            lines = [line for line in Path(file).read_text(errors="replace").splitlines() if line.startswith(("totals:", "summary:"))]
            totals += [int(line.split()[1]) for line in lines[-1:]]
    return sum(totals) / facts


def instructions(options: argparse.Namespace) -> Json:
    """Counts instructions a fact on the small report, with one worker."""
    sizes = json.loads((options.count / "sizes.json").read_text())
    runs = {name: command for name, command in commands(options, options.count).items() if name in ("1 worker", MARK)}
    return {"name": options.count.name, "facts": sizes["facts"], "each": {name: round(counted(command, sizes["facts"])) for name, command in runs.items()}}


def about(options: argparse.Namespace) -> Json:
    """Names the machine and the program."""
    told = subprocess.run([options.program, "--version"], stdin=subprocess.DEVNULL, capture_output=True, text=True)
    cores = len(os.sched_getaffinity(0))
    return {"processor": processor(), "cores": cores, "system": f"{platform.system()} {platform.release()}", "program": told.stdout.strip()}


def figures(rounds: list[tuple[float, float, int]]) -> Json:
    """Sums up the rounds of one run: seconds, and MiB of memory."""
    clock = [seconds for seconds, _, _ in rounds]
    used = statistics.median(seconds for _, seconds, _ in rounds)
    peak = max(kib for _, _, kib in rounds) / 1024
    return {"seconds": statistics.median(clock), "least": min(clock), "most": max(clock), "processor": used, "peak": peak}


def measured(options: argparse.Namespace) -> Json:
    """Measures the report that the command line names."""
    sizes = json.loads((options.folder / "sizes.json").read_text())
    tables = [str(options.folder / f"t{i:02}.csv") for i in range(1, sizes["tables"] + 1)]
    runs = commands(options, options.folder)
    length = same_document(runs)
    runs = {CAT: ["cat", *tables], **runs}
    rounds: dict[str, list[tuple[float, float, int]]] = {name: [] for name in runs}
    for _ in range(options.rounds):
        for name, command in runs.items():
            rounds[name].append(timed(command, options.out))
    if options.out != os.devnull:
        os.remove(options.out)
    found = {**sizes, "document": length, "rounds": options.rounds, "output": options.out}
    return {**found, "runs": {name: figures(seen) for name, seen in rounds.items()}}


def show(machine: Json, report: Json) -> None:
    """Prints the tables of a report."""
    print(f"{machine['processor']}, {machine['cores']} cores, {machine['system']}; {report['rounds']} rounds, document to {report['output']}")
    print(f"{report['tables']} tables, {report['bytes']} bytes of CSV, {report['rows']} rows, {report['facts']} facts, {report['document']} bytes of document\n")
    print(f"| Run | seconds | spread | processor s | times {MARK} | MB of CSV/s | facts/s | peak MiB |")
    print("|---|---|---|---|---|---|---|---|")
    mark = report["runs"].get(MARK, {}).get("processor")
    for name, it in report["runs"].items():
        times = "" if name == CAT or not mark else f"{it['processor'] / mark:.2f}"
        facts = "" if name == CAT else f"{report['facts'] / it['seconds']:,.0f}"
        spread = f"{it['least']:.2f} to {it['most']:.2f}"
        speed = f"{report['bytes'] / 1e6 / it['seconds']:.1f}"
        print(f"| {name} | {it['seconds']:.2f} | {spread} | {it['processor']:.2f} | {times} | {speed} | {facts} | {it['peak']:.1f} |")
    if "instructions" in report:
        each = report["instructions"]["each"]
        print(f"\n{report['instructions']['name']}: {report['instructions']['facts']} facts\n\n| Run | instructions a fact | times {MARK} |\n|---|---|---|")
        for name, count in each.items():
            print(f"| {name} | {count:,} | {count / each[MARK]:.2f} |" if MARK in each else f"| {name} | {count:,} | |")


def kept(file: Path, machine: Json) -> Json:
    """Reads the figures that FILE has, which must be of this machine and program."""
    if not file.exists():
        return {"machine": machine, "reports": {}}
    found: Json = json.loads(file.read_text())
    if found["machine"] != machine:
        sys.exit(f"{file} has figures of another machine or program: remove it first")
    return found


def rounded(it: Any) -> Any:
    """Rounds all numbers in figures to four places."""
    if isinstance(it, dict):
        return {name: rounded(value) for name, value in it.items()}
    return round(it, 4) if isinstance(it, float) else it


def main() -> None:
    """Measures, prints the tables, and writes the figures if --json is given."""
    options = words()
    machine = about(options)
    results = kept(options.json, machine) if options.json else {}
    report = measured(options)
    if options.count:
        report["instructions"] = instructions(options)
    show(machine, report)
    if options.json:
        results["reports"][options.folder.resolve().name] = rounded(report)
        options.json.write_text(json.dumps(results, indent=1) + "\n")


if __name__ == "__main__":
    main()
