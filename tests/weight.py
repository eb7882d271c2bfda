#!/usr/bin/env python3
"""Prints the processor minutes of the gate, by crate and by kind, as a Markdown table.

    tests/weight.py LOG COMMAND ARGUMENT ..    runs a command, writes its output and times to LOG
    tests/weight.py LOG                        prints the table of such a LOG

COMMAND is `rt ci` or `.ci/run`, for example. `rt ci` prints no times. So twice a second this script
reads the processor time (user and system) of each process below the command, with its crate and its
kind: a crate's proof, the check and run of its tests, the tries of its wrong bodies, the builds and
runs of a program.

The last row is the system's sum. What it has more than the rows above is `rt` itself, and what
ended between two looks. It leaves out checks of wrong bodies that `tests/wrong_bodies.py` ends, so
with many of them there is no such row. What `rt ci` takes from earlier runs costs nothing and is
named under the table: for figures from nothing use `rt ci --anew`. Processor times grow with the
load, up to twice, so use a machine that does nothing else. SIGTERM ends the command too, and the
LOG has the times so far. Needs Linux and Python 3.9 or later.
"""
from __future__ import annotations

import os
import re
import signal
import subprocess
import sys
import time
from collections import Counter
from dataclasses import dataclass
from pathlib import Path

KINDS = "proof", "tests", "edits", "programs"
LOOK = 0.5
TICKS = os.sysconf("SC_CLK_TCK")
TIMES = re.compile(r"weight: (\w+) (\S+) ([\d.]+)$", re.M)
# The folders in which rt ci and tests/wrong_bodies.py try wrong bodies.
EDITED = re.compile(r"/(rt-edit|wrong-bodies)-")
KEPT = re.compile(r"^rt: (\w+) is kept: ", re.M)
SHARED = re.compile(r"^rt: (\w+): (\d+) of its (\d+) must-fail edits were tried by an earlier run", re.M)


@dataclass(frozen=True)
class Process:
    """A process: its number and start, which identify it, its parent, arguments and folder."""

    number: int
    start: int
    parent: int
    words: tuple[str, ...]
    folder: str


def seen(number: int) -> tuple[Process, float] | None:
    """A process, and its own processor seconds, or None once it has ended."""
    try:
        fields = Path(f"/proc/{number}/stat").read_text().rpartition(")")[2].split()
        words = Path(f"/proc/{number}/cmdline").read_bytes().decode(errors="replace").split("\0")
        folder = os.readlink(f"/proc/{number}/cwd")
    except OSError:
        return None
    return Process(number, int(fields[19]), int(fields[1]), tuple(words), folder), (int(fields[11]) + int(fields[12])) / TICKS


def about(process: Process) -> tuple[str, str] | None:
    """Finds the crate and the kind of a process in its arguments."""
    words = process.words
    if Path(words[0]).name == "rattle" and "--crate-name" in words:
        crate = words[words.index("--crate-name") + 1]
        if EDITED.search(process.folder) or any("/rt-edits-" in it for it in words):
            return crate, "edits"
        return crate, "tests" if "--test" in words else "programs" if "--crate-checked" in words else "proof"
    ran = re.search(r"/rt-run-[^/]*/bin/(\w+)", " ".join(words))
    if ran:
        return ran[1].removesuffix("_tests"), "tests" if ran[1].endswith("_tests") else "programs"
    return None


def below(top: int) -> dict[int, tuple[Process, float]]:
    """The processes below one, itself included."""
    every = {int(it): seen(int(it)) for it in os.listdir("/proc") if it.isdigit()}
    found = {number: it for number, it in every.items() if it}
    inside = {top}
    for _ in found:
        more = {number for number, (it, _) in found.items() if it.parent in inside} - inside
        if not more:
            break
        inside |= more
    return {number: it for number, it in found.items() if number in inside}


def part_of(process: Process, found: dict[int, tuple[Process, float]]) -> tuple[str, str] | None:
    """The crate and the kind of a process, or else of the one that started it."""
    at: Process | None = process
    while at:
        part = about(at)
        if part:
            return part
        at = found[at.parent][0] if at.parent in found else None
    return None


class Watch:
    """The processor seconds of each process that was seen."""

    def __init__(self) -> None:
        self.seconds: dict[tuple[int, int], float] = {}
        self.parts: dict[tuple[int, int], tuple[str, str]] = {}

    def look(self, top: int) -> None:
        found = below(top)
        for process, seconds in found.values():
            part = part_of(process, found)
            if part:
                key = process.number, process.start
                self.seconds[key] = seconds
                self.parts[key] = part

    def sums(self) -> Counter[tuple[str, str]]:
        sums: Counter[tuple[str, str]] = Counter()
        for key, seconds in self.seconds.items():
            sums[self.parts[key]] += seconds  # type: ignore[assignment]
        return sums


def measure(log: Path, words: list[str]) -> int:
    """Runs a command, writes its output and times to a log, and returns its status.

    SIGTERM or Ctrl-C ends the command and all that it runs; the log has the times so far.
    """
    watch, begun = Watch(), time.time()
    with log.open("w") as out:
        ran = subprocess.Popen(words, stdin=subprocess.DEVNULL, stdout=out, stderr=subprocess.STDOUT, start_new_session=True)
        for it in signal.SIGTERM, signal.SIGINT:
            signal.signal(it, lambda *_: os.killpg(ran.pid, signal.SIGTERM))
        while True:
            watch.look(ran.pid)
            number, status, used = os.wait4(ran.pid, os.WNOHANG)
            if number:
                break
            time.sleep(LOOK)
    with log.open("a") as out:
        for (crate, kind), seconds in sorted(watch.sums().items()):
            print(f"weight: {kind} {crate} {seconds:.2f}", file=out)
        print(f"weight: whole run {used.ru_utime + used.ru_stime:.2f}", file=out)
        print(f"weight: wall run {time.time() - begun:.2f}", file=out)
    return os.waitstatus_to_exitcode(status)


def row(name: str, seconds: list[float]) -> str:
    return f"| {name} | " + " | ".join(f"{it / 60:.1f}" if it else "" for it in seconds) + " |"


def table(text: str) -> list[str]:
    """The lines of the table of a log, in processor minutes."""
    times = {(kind, name): float(seconds) for kind, name, seconds in TIMES.findall(text)}
    if ("whole", "run") not in times:
        sys.exit(f"the log has no times, since rt ci prints none: make it by this script\n{__doc__}")
    crates = sorted({name for kind, name in times if kind in KINDS}, key=lambda it: -sum(times.get((kind, it), 0) for kind in KINDS))
    columns = [[times.get((kind, crate), 0.0) for kind in KINDS] for crate in crates]
    totals = [sum(it) for it in zip(*columns)] or [0.0] * len(KINDS)
    lines = ["| Processor minutes | Proof | Tests | Wrong bodies | Program | All |", "|---|---|---|---|---|---|"]
    lines += [row(f"`{crate}`", [*seconds, sum(seconds)]) for crate, seconds in zip(crates, columns)]
    lines.append(row("all crates", [*totals, sum(totals)]))
    whole = times["whole", "run"]
    if whole > sum(totals):
        lines.append(f"| with `rt` itself, and what ended between two looks | | | | | {whole / 60:.1f} |")
    return [*lines, "", f"{times['wall', 'run'] / 60:.1f} minutes of wall time.", *kept(text)]


def kept(text: str) -> list[str]:
    """Lists what the run took from earlier runs."""
    whole = KEPT.findall(text)
    lines = [f"Kept from earlier runs, and not in the table: {', '.join(whole)}."] if whole else []
    return lines + [f"Of `{crate}` {some} of {every} wrong bodies are kept." for crate, some, every in SHARED.findall(text)]


def main(words: list[str]) -> int:
    if not words:
        sys.exit(__doc__)
    log = Path(words[0])
    status = measure(log, words[1:]) if len(words) > 1 else 0
    print(*table(log.read_text(errors="replace")), sep="\n")
    return status


if __name__ == "__main__":
    sys.exit(main(sys.argv[1:]))
