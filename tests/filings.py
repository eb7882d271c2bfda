"""Tests over made-up filings: runs of xbrl-filing, and cases of what it makes of a filing.

A test module has tables of cases and methods. A table is a function that yields cases:

    def catalogs() -> Iterator[Case]:
        yield stops("no catalog", "t0: has no catalog", taxonomies=[{}])

    @for_each(cases(catalogs()))
    class TestCatalogs(FilingTest): ...

Each case is a test that runs by its name, as `tests/run PROGRAM -k test_no_catalog`. A method runs
a case by `self.see(case)`, and compares anything else by `self.case(name, seen, wanted)`.
"""
from __future__ import annotations

import contextlib
import io
import json
import os
import pty
import shutil
import signal
import subprocess
import sys
import warnings
from collections.abc import Callable, Iterable, Iterator, Mapping, Sequence
from pathlib import Path
from typing import Any, NamedTuple

from filing import command, stopping
from tests.filing_samples import REPORT, TAXONOMY, Files, as_bytes, pack
from tests.harness import PATIENCE, PROGRAM, TOP, CaseTest, first_difference, named, write

FILING = str(TOP / "xbrl-filing")

# What a run made: the content of each file, by its path in the prepared folder.
Made = dict[str, bytes]


def run(words: Iterable[object], folder: Path) -> tuple[int, str]:
    """Runs in this process, which is much faster, and returns status and standard error.

    The run must not reach xbrl-json. Warnings, which `unittest` turns on, are left out.
    """
    before, err = os.getcwd(), io.StringIO()
    os.chdir(folder)
    try:
        with contextlib.redirect_stderr(err), contextlib.redirect_stdout(io.StringIO()):
            warnings.simplefilter("ignore", ResourceWarning)
            status = command.main([str(it) for it in words], "/nonexistent/xbrl-json")
    finally:
        os.chdir(before)
    return status, err.getvalue()


def start(words: Iterable[object], folder: Path, **more: Any) -> tuple[int, bytes, str]:
    """Runs as a process, with xbrl-json after it.

    Returns status, standard output and standard error. `more` goes to `subprocess.run`; of `env`
    only what is added.
    """
    env = {**os.environ, "XBRL_JSON": PROGRAM, **more.pop("env", {})}
    ways: dict[str, Any] = {"stdin": subprocess.DEVNULL, "timeout": PATIENCE, **more}
    given = [FILING, *map(str, words)]
    done = subprocess.run(given, cwd=folder, env=env, capture_output=True, **ways)
    return done.returncode, done.stdout, done.stderr.decode(errors="replace")


# Starts the tool so that it shows each step at once, however fast it is.
AT_ONCE = (
    "import sys; sys.path.insert(0, {!r}); from filing import command, progress;"
    " progress.EVERY = 0; sys.exit(command.main(sys.argv[2:], {!r}))"
)


def on_a_terminal(
    words: Sequence[str], folder: Path, program: str = PROGRAM, at_once: bool = False
) -> tuple[int, bytes]:
    """Runs with standard error on a terminal, and returns the status and what it shows.

    With `at_once` it shows each step of the progress.
    """
    controller, terminal = pty.openpty()
    begin = [sys.executable, "-c", AT_ONCE.format(str(TOP), program)] if at_once else []
    done = subprocess.run(
        [*begin, FILING, *words],
        cwd=folder,
        env={**os.environ, "XBRL_JSON": program},
        stdout=subprocess.DEVNULL,
        stderr=terminal,
        timeout=PATIENCE,
    )
    os.close(terminal)
    shown = b""
    with contextlib.suppress(OSError):
        while piece := os.read(controller, 1024):
            shown += piece
    os.close(controller)
    return done.returncode, shown


def worked() -> float:
    """Returns the processor seconds of this process and those that it ran.

    No other load increases these.
    """
    return sum(os.times()[:4])


def listing(folder: Path) -> dict[str, bytes]:
    """Returns all files of a folder with their bytes."""
    files = (it for it in sorted(folder.rglob("*")) if it.is_file())
    return {str(it.relative_to(folder)): it.read_bytes() for it in files}


def at(value: Any, path: str) -> Any:
    """Returns a part of a JSON value by the names that lead to it, or None."""
    for name in path.split("/"):
        value = value.get(name) if isinstance(value, dict) else None
    return value


def write_inputs(folder: Path) -> None:
    """Writes the good report and its taxonomy as the folders `r` and `t`."""
    write(folder / "r", REPORT)
    write(folder / "t", TAXONOMY)


def write_packages(folder: Path) -> None:
    """Writes the good report and its taxonomy, each as a folder and as a ZIP."""
    write_inputs(folder)
    pack(folder / "r.zip", REPORT)
    pack(folder / "t.zip", TAXONOMY)


def heeding() -> None:
    """Restores signals that a program in the background may ignore. The tested program must not."""
    for it in (signal.SIGTERM, signal.SIGINT, signal.SIGHUP):
        signal.signal(it, signal.SIG_DFL)


def heeded() -> stopping.Stopping:
    """Returns what takes signals from now on."""
    made = stopping.Stopping()
    made.heed()
    return made


def with_fake(folder: Path) -> tuple[Path, Path, dict[str, str]]:
    """Makes a report, a taxonomy, an empty TMPDIR, and a program instead of xbrl-json.

    Returns the paths of the last two, and the environment in which they count.
    """
    temporary, fake = folder / "tmp", folder / "fake"
    temporary.mkdir()
    write_inputs(folder)
    fake.write_text("")
    fake.chmod(0o755)
    return temporary, fake, {"XBRL_JSON": str(fake), "TMPDIR": str(temporary)}


class FilingTest(CaseTest):
    """A test of xbrl-filing, with a folder of its own."""

    def case(self, name: str, seen: object, wanted: object) -> None:
        """Compares what was seen with what was wanted, as a sub-test of this name."""
        with self.subTest(name):
            if seen != wanted:
                self.fail(first_difference(seen, wanted))

    def see(self, case: Case) -> Made:
        """Runs and checks a case, and returns what it made."""
        return case.seen(self)

    def check(self, seen: Callable[[FilingTest], Made]) -> None:
        """Runs and checks a case of a table."""
        seen(self)

    def prepared(
        self,
        report: Files = REPORT,
        taxonomies: Sequence[Files] = (TAXONOMY,),
        words: Sequence[str] = (),
        name: str = "reports/report.json",
        form: str = "folder",
    ) -> tuple[int, str, Made]:
        """Runs with --prepare, and returns status, standard error, and the files that it makes.

        The packages are `r`, `t0`, `t1` ..; `form` is how they are given: `folder`, `zip`, `top`
        (a ZIP with one folder at the top) or `file` (the report's metadata file). Inputs must stay
        unchanged, and nothing else may be left. The table of REPORT exists only if a metadata file
        names it, because the report would be refused without that.
        """
        texts = (it for files in (report, *taxonomies) for it in files.items())
        if not any(b"t.csv" in as_bytes(text) for it, text in texts if not it.endswith(".csv")):
            report = {it: text for it, text in report.items() if it != "reports/t.csv"}
        work = self.folder / "w"
        shutil.rmtree(work, ignore_errors=True)
        work.mkdir()
        labels = ["r"] + [f"t{number}" for number in range(len(taxonomies))]
        for label, files in zip(labels, [report, *taxonomies]):
            if form == "folder" or (label == "r" and form == "file"):
                write(work / label, files)
            else:
                pack(work / label, files, "top/" if form == "top" else "")
        before = listing(work)
        given = [f"r/{name}" if form == "file" else "r", *(["--taxonomy"] if taxonomies else [])]
        status, err = run([*given, *labels[1:], "--prepare", "out", *words], work)
        return status, err, self.made_beside(before, labels, status)

    def made_beside(self, before: Made, labels: Sequence[str], status: int) -> Made:
        """Returns the prepared files, and fails if anything else was made or changed."""
        work = self.folder / "w"
        after = listing(work)
        made = {it[len("out/") :]: text for it, text in after.items() if it.startswith("out/")}
        left = {it: text for it, text in after.items() if not it.startswith("out/")}
        if left != before:
            self.fail(f"an input is changed, or a file is left: {first_difference(left, before)}")
        if status and (made or sorted(os.listdir(work)) != sorted(labels)):
            self.fail(f"a refused run prepares {sorted(made)}, and leaves {os.listdir(work)}")
        return made


class Case(NamedTuple):
    """A case: its name, and what runs it in a test, checks it and returns what was made."""

    name: str
    seen: Callable[[FilingTest], Made]

    def then(self, name: str, look: Callable[[Made], object], wanted: object) -> Case:
        """Returns the same case, with one more comparison of what was made."""

        def seen(test: FilingTest) -> Made:
            made = self.seen(test)
            test.case(name, look(made), wanted)
            return made

        return Case(self.name, seen)


def makes(
    name: str,
    merged: Mapping[str, Any] | None = None,
    types: str | None = None,
    parts: Mapping[str, Any] | None = None,
    **inputs: Any,
) -> Case:
    """Returns the case of a run that is good and silent, and makes this metadata and types table.

    `parts` are wanted parts of the metadata, each by the names that lead to it. `inputs` are those
    of `FilingTest.prepared`.
    """

    def seen(test: FilingTest) -> Made:
        status, err, made = test.prepared(**inputs)
        value = json.loads(made["meta.json"]) if "meta.json" in made else None
        if merged is not None:
            test.case(name, (status, err, value), (0, "", merged))
        if parts is not None:
            found = {key: at(value, key) for key in parts}
            test.case(name, (status, err, found), (0, "", parts))
        if types is not None:
            found_types = made.get("types.csv", b"").decode()
            test.case(f"{name}: types", (status, err, found_types), (0, "", types))
        if merged is None and parts is None and types is None:
            test.case(name, (status, err), (0, ""))
        return made

    return Case(name, seen)


def stops(name: str, line: str, status: int = 1, **inputs: Any) -> Case:
    """Returns the case of a run that ends with this line and status, and makes nothing."""

    def seen(test: FilingTest) -> Made:
        found = test.prepared(**inputs)
        test.case(name, found[:2], (status, f"xbrl-filing: {line}\n"))
        return found[2]

    return Case(name, seen)


def reads(name: str, files: Files, types: str) -> Case:
    """Returns the case of a taxonomy with these files, which gives this types table."""
    return makes(name, types=types, taxonomies=[{**TAXONOMY, **files}])


def refuses(name: str, files: Files, line: str) -> Case:
    """Returns the case of a taxonomy with these files, which is refused by this line."""
    return stops(name, line, taxonomies=[{**TAXONOMY, **files}])


def equal(name: str, look: Callable[[], object], wanted: object) -> Case:
    """Returns the case of a call that gives this value."""

    def seen(test: FilingTest) -> Made:
        test.case(name, look(), wanted)
        return {}

    return Case(name, seen)


def cases(table: Iterable[Case]) -> Iterator[tuple[str, tuple[Callable[[FilingTest], Made]]]]:
    """Yields the cases of a table for `for_each`; one whose words occurred before gets a number."""
    times: dict[str, int] = {}
    for case in table:
        word = named(case.name)
        times[word] = times.get(word, 0) + 1
        yield case.name + (f" {times[word]}" if times[word] > 1 else ""), (case.seen,)
