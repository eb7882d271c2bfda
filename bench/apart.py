#!/usr/bin/env python3
"""Compares a run with four workers to four programs that share nothing, and to one worker.

    bench/apart.py PROGRAM [PLAIN] [--megabytes 48] [--rounds 11] [--real-time]

PROGRAM is the program's file, PLAIN that of plain Rust (`plain`), if there is one. The first line
is what the machine can give: four programs of one worker, each on a quarter of a report, at once.
The next two are the same for rows with identifiers and for rows of 200 columns. The others are
whole reports of the same size: one table, eight, eight of which one has 40 % of the bytes, one and
eight with identifiers, and tables of 200 columns. Some lines are held to one processor and to two,
and two run next to three busy programs. Each report is made by `generate.py` and written to
/dev/null, unless a file is named.

A line has the median and the least of the rounds, which take turns, both also as a multiple of the
line that it is compared with; the medians of processor seconds, of sleeps, of preemptions and of
page faults; and the largest memory of one further run. The runs have the ordinary scheduler. With
--real-time each has real-time priority, which needs a privilege and keeps other work away.
Needs Linux, GNU time (/usr/bin/time) and Python 3.9 or later.
"""
from __future__ import annotations

import argparse
import os
import statistics
import subprocess
import sys
import tempfile
import time
from pathlib import Path
from typing import Callable, Dict, List, NamedTuple, Optional

HERE = Path(__file__).resolve().parent


class Line(NamedTuple):
    """What is run at once, where its output goes, and the line that it is compared with.

    The runs are held to that number of processors. With 0 they may use all. Meanwhile `busy`
    other programs use a processor each.
    """

    commands: List[List[str]]
    output: str
    by: Optional[str]
    processors: int = 0
    busy: int = 0


class Seen(NamedTuple):
    """The seconds of clock and of processor of a round, its switches and its page faults."""

    clock: float
    processor: float
    sleeps: int
    preemptions: int
    faults: int


def absolute(path: str) -> str:
    """Returns the absolute path of a file."""
    return os.path.abspath(path)


def generate(folder: Path, megabytes: float, *words: str) -> List[str]:
    """Makes a report in a folder, and returns the arguments that convert it."""
    subprocess.run([str(HERE / "generate.py"), str(folder), "--megabytes", str(megabytes), *words], check=True, stdout=subprocess.DEVNULL)
    return [str(folder / "meta.json"), "--types", str(folder / "types.csv")]


def lines_of(program: str, plain: Optional[str], folder: Path, megabytes: float) -> Dict[str, Line]:
    """The lines of the table, by their names."""
    quarters = [generate(folder / f"quarter{i}", megabytes / 4, "--tables", "2") for i in range(4)]
    named_quarters = [generate(folder / f"named{i}", megabytes / 4, "--tables", "2", "--row-ids") for i in range(4)]
    one = generate(folder / "one", megabytes, "--tables", "1")
    eight = generate(folder / "eight", megabytes)
    unequal = generate(folder / "unequal", megabytes, "--largest", "40")
    named = generate(folder / "named", megabytes, "--tables", "1", "--row-ids")
    all_named = generate(folder / "all_named", megabytes, "--row-ids")
    wide = generate(folder / "wide", megabytes / 2, "--shape", "wide")
    wide_quarters = [generate(folder / f"wide{i}", megabytes / 8, "--shape", "wide", "--tables", "2") for i in range(4)]
    four, four_named, four_wide = "four programs of one worker", "the same with identifiers", "the same with 200 columns"
    one_worker, alone = "eight tables, one worker", "eight with identifiers, one worker"
    disturbed = "eight tables, one worker, three busy programs"
    document, copy = str(folder / "document.json"), str(folder / "copy.json")
    lines = {
        four: Line([[program, *it, "--workers", "1"] for it in quarters], os.devnull, None),
        four_named: Line([[program, *it, "--workers", "1"] for it in named_quarters], os.devnull, None),
        four_wide: Line([[program, *it, "--workers", "1"] for it in wide_quarters], os.devnull, None),
        "one table": Line([[program, *one]], os.devnull, four),
        "eight tables": Line([[program, *eight]], os.devnull, four),
        "eight, one with 40 %": Line([[program, *unequal]], os.devnull, four),
        "eight, 64 workers": Line([[program, *eight, "--workers", "64"]], os.devnull, "eight tables"),
        one_worker: Line([[program, *eight, "--workers", "1"]], os.devnull, None),
        "eight tables, two processors": Line([[program, *eight]], os.devnull, one_worker, 2),
        "eight tables, one processor": Line([[program, *eight]], os.devnull, one_worker, 1),
        disturbed: Line([[program, *eight, "--workers", "1"]], os.devnull, None, busy=3),
        "eight tables, three busy programs": Line([[program, *eight]], os.devnull, disturbed, busy=3),
        "one with identifiers": Line([[program, *named]], os.devnull, four_named),
        alone: Line([[program, *all_named, "--workers", "1"]], os.devnull, None),
        "eight with identifiers": Line([[program, *all_named]], os.devnull, four_named),
        "eight with identifiers, two processors": Line([[program, *all_named]], os.devnull, alone, 2),
        "eight with identifiers, one processor": Line([[program, *all_named]], os.devnull, alone, 1),
        "200 columns": Line([[program, *wide]], os.devnull, four_wide),
        "one table, to a file": Line([[program, *one]], document, None),
        "the same by `dd bs=64k`": Line([["dd", f"if={document}", f"of={copy}", "bs=64k", "status=none"]], os.devnull, None),
    }
    lines["one table, to a file"] = lines["one table, to a file"]._replace(by="the same by `dd bs=64k`")
    if plain:
        lines["plain Rust, eight tables"] = Line([[plain, *eight]], os.devnull, None)
        lines["plain Rust, 200 columns"] = Line([[plain, *wide]], os.devnull, "200 columns")
    return lines


def before_start(processors: int, is_real_time: bool) -> Callable[[], None]:
    """Returns what a run does before its program starts."""
    held = sorted(os.sched_getaffinity(0))[-processors:]

    def first() -> None:
        if processors:
            os.sched_setaffinity(0, held)
        if is_real_time:
            os.sched_setscheduler(0, os.SCHED_FIFO, os.sched_param(10))

    return first


# A program that only uses a processor, and ends by itself if the one that started it, whose number
# it is given, has ended.
BUSY = "import os, sys\nwhile os.getppid() == int(sys.argv[1]): sum(range(100_000))"


def start_busy(count: int) -> List["subprocess.Popen[bytes]"]:
    """Starts programs that only use a processor each, and gives them time to begin."""
    busy = [subprocess.Popen([sys.executable, "-c", BUSY, str(os.getpid())], stdin=subprocess.DEVNULL) for _ in range(count)]
    if busy:
        time.sleep(0.3)
    return busy


def run(line: Line, is_real_time: bool) -> Seen:
    """One round of a line."""
    busy = start_busy(line.busy)
    try:
        return run_now(line, is_real_time)
    finally:
        for it in busy:
            it.kill()
            it.wait()


def run_now(line: Line, is_real_time: bool) -> Seen:
    """One round of a line, with what is busy already."""
    first = before_start(line.processors, is_real_time)
    used, sleeps, preemptions, faults = 0.0, 0, 0, 0
    with open(line.output, "wb") as output:
        begin = time.perf_counter()
        runs = [subprocess.Popen(it, stdin=subprocess.DEVNULL, stdout=output, preexec_fn=first) for it in line.commands]
        for it in runs:
            _, status, usage = os.wait4(it.pid, 0)
            if status:
                sys.exit(f"{' '.join(map(str, line.commands))}: status {os.waitstatus_to_exitcode(status)}")
            used += usage.ru_utime + usage.ru_stime
            sleeps += usage.ru_nvcsw
            preemptions += usage.ru_nivcsw
            faults += usage.ru_minflt + usage.ru_majflt
        return Seen(time.perf_counter() - begin, used, sleeps, preemptions, faults)


def memory(line: Line) -> float:
    """Returns the largest memory of one run of a line, in MB, of all that run at once.

    GNU time starts it, because what Python starts is charged with Python's memory.
    """
    most = 0
    for command in line.commands:
        with tempfile.NamedTemporaryFile("r") as report, open(line.output, "wb") as output:
            words = ["/usr/bin/time", "--quiet", "-o", report.name, "-f", "%M", *command]
            subprocess.run(words, stdin=subprocess.DEVNULL, stdout=output, preexec_fn=before_start(line.processors, False), check=True)
            most += int(report.read())
    return most * 1024 / 1e6


def table(lines: Dict[str, Line], seen: Dict[str, List[Seen]], most: Dict[str, float]) -> None:
    """Prints the table of all lines."""
    median = {it: statistics.median(one.clock for one in all) for it, all in seen.items()}
    least = {it: min(one.clock for one in all) for it, all in seen.items()}
    print("| Run | median s | least s | measured by | times, of medians | of the least | processor s | sleeps | preemptions | page faults | MB |")
    print("|---|---|---|---|---|---|---|---|---|---|---|")
    for it, line in lines.items():
        times = f"{line.by} | {median[it] / median[line.by]:.2f} | {least[it] / least[line.by]:.2f}" if line.by else "| | "
        processor = statistics.median(one.processor for one in seen[it])
        counts = zip(*((one.sleeps, one.preemptions, one.faults) for one in seen[it]))
        switches = " | ".join(f"{statistics.median(all):.0f}" for all in counts)
        print(f"| {it} | {median[it]:.4f} | {least[it]:.4f} | {times} | {processor:.3f} | {switches} | {most[it]:.0f} |")


def main() -> None:
    """Makes the reports, measures, and prints the table."""
    parser = argparse.ArgumentParser(description=__doc__, formatter_class=argparse.RawDescriptionHelpFormatter)
    parser.add_argument("program", type=absolute)
    parser.add_argument("plain", type=absolute, nargs="?")
    parser.add_argument("--megabytes", type=float, default=48.0)
    parser.add_argument("--rounds", type=int, default=11)
    parser.add_argument("--real-time", action="store_true")
    options = parser.parse_args()
    if options.real_time:
        # Higher than the runs, or the first of four would keep this script from starting the
        # others.
        os.sched_setscheduler(0, os.SCHED_FIFO, os.sched_param(11))
    with tempfile.TemporaryDirectory() as name:
        lines = lines_of(options.program, options.plain, Path(name), options.megabytes)
        seen: Dict[str, List[Seen]] = {it: [] for it in lines}
        for at in range(options.rounds + 1):
            for it, line in lines.items():
                found = run(line, options.real_time)
                if at:
                    seen[it].append(found)
        most = {it: memory(line) for it, line in lines.items()}
    print(f"{options.megabytes:g} MB of CSV (200 columns: half of that), {len(os.sched_getaffinity(0))} processors, {options.rounds} rounds\n")
    table(lines, seen, most)


if __name__ == "__main__":
    main()
