"""Runs the test modules, as many at a time as there are processors, and counts.

    python3 -m tests.runner PROGRAM [-k NAME ..]

`tests/run` starts it at the top of the repository. Each module `test_*.py` below tests/ runs in a
process of its own, so one that crashes or hangs hides no other. The scripts of SCRIPTS, which count
by themselves, run next to them. With -k only tests run whose full name has one of the names, or
matches it as a pattern with `*`.

A test that fails is printed when its module ends, and once more at the end, with its cause. A
module that ends early is a failure, which names the test that ran then. The
last line is `N passed, M failed`. N counts tests, and in a test with sub-tests each of these. The
status is 0 only if some tests passed and none failed.
"""
from __future__ import annotations

import argparse
import atexit
import concurrent.futures
import faulthandler
import fnmatch
import json
import os
import re
import shutil
import signal
import subprocess
import sys
import tempfile
import time
import unittest
from pathlib import Path
from typing import Any, NamedTuple

TOP = Path(__file__).resolve().parent.parent

# Scripts that count by themselves, the longest first: they start before the modules.
SCRIPTS = [
    "library.py",
    "filing_bounds.py",
    "fuzz_filing.py",
    "fuzz_reports.py",
    "packages.py",
    "fault_table.py",
]
# The modules that take the longest start first.
LONGEST = [
    "tests.test_refused",
    "tests.test_page",
    "tests.test_filing_size",
    "tests.test_stress",
    "tests.test_run",
]
# Seconds after which a module is stopped: many times what the longest takes.
LIMIT = 3_600
# A test that takes as many seconds is named with its time.
SLOW = 10
COUNTED = re.compile(r": (\d+) [a-z ]+, (\d+) not$")

# A test that failed: its name and the text of its failure.
Failure = tuple[str, str]


class Told(NamedTuple):
    """What a module or script gave: counts, failures, tests that were left out or slow, seconds."""

    name: str
    passed: int
    failures: list[Failure]
    skipped: list[Failure]
    slow: list[tuple[str, float]] = []
    seconds: float = 0.0


class Result(unittest.TestResult):
    """Counts the tests of a module, and each sub-test of one that has some."""

    def __init__(self, running: Path) -> None:
        """Begins to count; the file `running` gets the name of each test as it starts."""
        super().__init__()
        self.running = running
        self.passed = 0
        self.told: list[Failure] = []
        self.slow: list[tuple[str, float]] = []
        self.parted: str | None = None
        self.depth = 0
        self.since = 0.0

    def startTest(self, test: Any) -> None:
        """Begins a test, which has no sub-tests yet."""
        super().startTest(test)
        self.running.write_text(test.id(), encoding="utf-8")
        self.parted, self.depth, self.since = None, 0, time.monotonic()

    def stopTest(self, test: Any) -> None:
        """Ends a test, and keeps its time if it was slow."""
        super().stopTest(test)
        took = time.monotonic() - self.since
        if took >= SLOW:
            self.slow.append((test.id(), took))

    def addSubTest(self, test: Any, subtest: Any, err: Any) -> None:
        """Counts a sub-test, unless it had some itself."""
        super().addSubTest(test, subtest, err)
        before, self.depth = self.depth, len(subtest.params.maps)
        self.parted = test.id()
        if err is None:
            self.passed += self.depth >= before
        else:
            is_failure = issubclass(err[0], test.failureException)
            self.told.append((subtest.id(), (self.failures if is_failure else self.errors)[-1][1]))

    def addSuccess(self, test: Any) -> None:
        """Counts a test, if its sub-tests were not counted."""
        super().addSuccess(test)
        self.passed += self.parted != test.id()

    def addError(self, test: Any, err: Any) -> None:
        """Keeps an error of a test."""
        super().addError(test, err)
        self.told.append((test.id(), self.errors[-1][1]))

    def addFailure(self, test: Any, err: Any) -> None:
        """Keeps a failure of a test."""
        super().addFailure(test, err)
        self.told.append((test.id(), self.failures[-1][1]))

    def addUnexpectedSuccess(self, test: Any) -> None:
        """Keeps a test that was expected to fail, and did not."""
        super().addUnexpectedSuccess(test)
        self.told.append((test.id(), "it was expected to fail"))


def is_chosen(name: str, patterns: list[str]) -> bool:
    """Returns whether a name has one of the patterns; any name if there are none."""
    wild = [it if "*" in it else f"*{it}*" for it in patterns]
    return not wild or any(fnmatch.fnmatchcase(name, it) for it in wild)


def run_here(module: str, into: str, patterns: list[str]) -> None:
    """Runs a module in this process, and writes what it gave to a file as JSON."""
    faulthandler.dump_traceback_later(LIMIT - 60)
    loader = unittest.TestLoader()
    if patterns:
        loader.testNamePatterns = [it if "*" in it else f"*{it}*" for it in patterns]
    result = Result(Path(into).with_suffix(".running"))
    loader.loadTestsFromName(module).run(result)
    skipped = [(test.id(), why) for test, why in result.skipped]
    told = [result.passed, result.told, skipped, result.slow]
    Path(into).write_text(json.dumps(told), encoding="utf-8")


def last_lines(output: bytes) -> str:
    """Returns the last lines of an output."""
    return "\n".join(output.decode(errors="replace").splitlines()[-12:])


def end_of(status: int | None) -> str:
    """Describes how a process ended that gave no counts."""
    if status is None:
        return f"it did not end within {LIMIT} seconds"
    return f"it ended by signal {-status}" if status < 0 else f"it ended with status {status}"


def ran(words: list[str]) -> tuple[int | None, bytes]:
    """Runs a Python command at the top, and returns its status and its output."""
    try:
        done = subprocess.run(
            [sys.executable, *words],
            cwd=TOP,
            stdin=subprocess.DEVNULL,
            stdout=subprocess.PIPE,
            stderr=subprocess.STDOUT,
            timeout=LIMIT,
        )
    except subprocess.TimeoutExpired as why:
        return None, why.stdout or b""
    return done.returncode, done.stdout


def run_module(module: str, patterns: list[str]) -> Told:
    """Runs a module in a process of its own."""
    with tempfile.TemporaryDirectory() as folder:
        into = Path(folder) / "told.json"
        words = ["-m", "tests.runner", "--module", module, str(into)]
        status, output = ran([*words, *(f"-k{it}" for it in patterns)])
        if status != 0 or not into.exists():
            running = into.with_suffix(".running")
            test = f", in {running.read_text(encoding='utf-8')}" if running.exists() else ""
            return Told(module, 0, [(module, f"{last_lines(output)}\n{end_of(status)}{test}")], [])
        passed, *lists = json.loads(into.read_text(encoding="utf-8"))
    failures, skipped, slow = ([(a, b) for a, b in pairs] for pairs in lists)
    return Told(module, passed, failures, skipped, slow)


def run_script(name: str, program: str) -> Told:
    """Runs a script that counts by itself; one that does not count is one test."""
    status, output = ran([f"tests/{name}", program])
    lines = output.decode(errors="replace").splitlines()
    found = COUNTED.search(lines[-1]) if lines else None
    passed, failed = (int(found[1]), int(found[2])) if found else (int(status == 0), 0)
    told = [(f"tests/{name}", it[len("FAILED ") :]) for it in lines if it.startswith("FAILED ")]
    if len(told) < failed or (status != 0 and not failed):
        why = f"{end_of(status)}\n{last_lines(output)}"
        told += [(f"tests/{name}", why)] * max(failed - len(told), 1)
    begin = "left out: "
    skipped = [(f"tests/{name}", it[len(begin) :]) for it in lines if it.startswith(begin)]
    return Told(f"tests/{name}", passed, told, skipped)


def modules() -> list[str]:
    """Returns the names of all test modules, the longest first."""
    files = (TOP / "tests").rglob("test_*.py")
    found = sorted(".".join(it.relative_to(TOP).with_suffix("").parts) for it in files)
    return sorted(found, key=lambda it: it not in LONGEST)


def cause(why: str) -> str:
    """Returns the last line of a failure, which has the cause."""
    lines = [it.strip() for it in why.splitlines() if it.strip()]
    starts = [it for it in lines if re.match(r"[\w.]+(Error|Expired|Exception)\b", it)]
    return (starts or lines or ["no cause"])[-1][:500]


def tell(it: Told) -> None:
    """Prints what a module gave, unless nothing of it was chosen."""
    for name, why in it.failures:
        print(f"FAILED {name}\n{why[:4_000].rstrip()}\n")
    for name, why in it.skipped:
        print(f"left out: {name}: {why}")
    for name, seconds in it.slow:
        print(f"slow: {name}: {seconds:.0f} s")
    if it.passed or it.failures:
        print(f"{it.name}: {it.passed} passed, {len(it.failures)} failed, {it.seconds:.0f} s")
    sys.stdout.flush()


def run_all(program: str, patterns: list[str]) -> int:
    """Runs all modules and scripts, and returns the status."""
    scripts = [
        it
        for it in SCRIPTS
        if (TOP / "tests" / it).is_file() and is_chosen(f"tests/{it}", patterns)
    ]

    def timed(name: str) -> Told:
        since = time.monotonic()
        told = run_script(name, program) if name in scripts else run_module(name, patterns)
        return told._replace(seconds=time.monotonic() - since)

    print(f"tests of {program}", flush=True)
    passed, failures = 0, []
    keep_compiled()
    with concurrent.futures.ThreadPoolExecutor(len(os.sched_getaffinity(0))) as pool:
        waiting = [pool.submit(timed, it) for it in [*scripts, *modules()]]
        for it in concurrent.futures.as_completed(waiting):
            told = it.result()
            tell(told)
            passed += told.passed
            failures += told.failures
    if not passed and not failures:
        failures = [("tests/run", "no test has this name" if patterns else "there are no tests")]
    for name, why in sorted(failures):
        print(f"FAILED {name}: {cause(why)}")
    print(f"{passed} passed, {len(failures)} failed")
    return 1 if failures else 0


def keep_compiled() -> None:
    """Have all runs of Python share their compiled modules, in a folder that this run removes."""
    folder = tempfile.mkdtemp()
    atexit.register(shutil.rmtree, folder, ignore_errors=True)
    os.environ.pop("PYTHONDONTWRITEBYTECODE", None)
    os.environ["PYTHONPYCACHEPREFIX"] = folder


def is_program(path: Path) -> bool:
    """Returns whether a file is a script or a program of Linux."""
    with open(path, "rb") as file:
        return file.read(4).startswith((b"#!", b"\x7fELF"))


def with_execute_bits(folder: Path) -> Path:
    """Copies the repository into a folder, where all programs can be executed."""
    top = folder / "copy"
    shutil.copytree(TOP, top, symlinks=True, ignore=shutil.ignore_patterns(".git", "out"))
    for it in top.rglob("*"):
        if it.is_file() and not it.is_symlink() and is_program(it):
            it.chmod(it.stat().st_mode | 0o111)
    return top


def run_in_copy(program: str, words: list[str], is_whole: bool) -> int:
    """Runs the tests where the program, and unless it is whole the repository, can be executed."""
    with tempfile.TemporaryDirectory() as folder:
        top = TOP if is_whole else with_execute_bits(Path(folder))
        if not os.access(program, os.X_OK):
            executable = Path(folder) / "xbrl-json"
            shutil.copyfile(program, executable)
            executable.chmod(0o755)
            program = str(executable)
        told = {**os.environ, "XBRL_JSON": program}
        command = [sys.executable, "-m", "tests.runner", program, *words]
        return subprocess.run(command, cwd=top, env=told).returncode


def main() -> int:
    """Reads the arguments, and returns the status."""
    parser = argparse.ArgumentParser(prog="tests/run")
    parser.add_argument("program", metavar="PROGRAM", nargs="?", help="the program's file")
    parser.add_argument("-k", metavar="NAME", action="append", default=[], help="only these tests")
    parser.add_argument("--module", nargs=2, help=argparse.SUPPRESS)
    told = parser.parse_args()
    # A shell starts a program in the background with SIGINT ignored, and so would its children.
    signal.signal(signal.SIGINT, signal.default_int_handler)
    if told.module:
        run_here(told.module[0], told.module[1], told.k)
        return 0
    program = os.path.abspath(told.program)
    os.environ["XBRL_JSON"] = program
    is_whole = all(os.access(TOP / it, os.X_OK) for it in ("tests/run", "xbrl-json", "xbrl-filing"))
    if not is_whole or not os.access(program, os.X_OK):
        return run_in_copy(program, [f"-k{it}" for it in told.k], is_whole)
    return run_all(program, told.k)


if __name__ == "__main__":
    sys.exit(main())
