"""Tests the second process that reads the schemas of a module while its metadata is joined.

A filing is the same with it and without: its files, its lines and its status. The process ends with
the run, however that ends.
"""
from __future__ import annotations

import contextlib
import json
import os
import signal
import subprocess
import sys
import time
import unittest
from pathlib import Path
from typing import Any
from unittest import mock

from filing import kinds_reading, library
from tests.filing_samples import EG, meta, pack, schema
from tests.filings import heeding
from tests.harness import PATIENCE, TOP, TestCase
from tests.spoiled_filings import MODULE_FILE, SCHEMA_FILE, report, spoiled, taxonomy

# Runs as if each module were large. The second process leaves a file with its number, and then
# waits as long as it is told to. A process that is to read the schemas by itself leaves a file too.
DRIVER = """import os, sys, time
sys.path.insert(0, sys.argv[1])
from filing import command, kinds_reading
kinds_reading.LARGE, kinds_reading.processors = 0, lambda: 2
begun, read, process = sys.argv[2], kinds_reading.read_schemas, os.getpid()
def read_schemas(*given):
    if os.getpid() == process:
        open(begun + ".self", "w").close()
    else:
        open(begun + ".new", "w").write(str(os.getpid()))
        os.rename(begun + ".new", begun)
        time.sleep(float(sys.argv[3]))
    return read(*given)
kinds_reading.read_schemas = read_schemas
sys.exit(command.main(sys.argv[5:], sys.argv[4]))
"""
NO_LIBRARY = "from filing import stopping\nstopping.c_library = lambda: None\n"
WAIT = 0.02


class Case(TestCase):
    """A scratch folder with a filing and its taxonomy."""

    begun: Path

    def setUp(self) -> None:
        """Names the file that the second process leaves."""
        super().setUp()
        self.begun = self.folder / "begun"

    def words(self, seconds: float, *more: str) -> list[str]:
        """Returns the words of a run whose second process waits for some seconds first."""
        driver = ["-c", DRIVER, str(TOP), str(self.begun), str(seconds), "/nowhere"]
        return [sys.executable, *driver, "r.zip", "--taxonomy", "t.zip", "--prepare", "p", *more]

    def prepared(self, *more: str) -> tuple[int, str, dict[str, bytes]]:
        """Prepares the filing: its status, its lines and its files, which are removed."""
        ways: dict[str, Any] = {"cwd": self.folder, "timeout": PATIENCE, "text": True}
        done = subprocess.run(self.words(0, *more), capture_output=True, **ways)
        target = self.folder / "p"
        files = {it.name: it.read_bytes() for it in target.glob("*")} if target.is_dir() else {}
        if target.is_dir():
            target.rename(self.folder / f"p{os.urandom(4).hex()}")
        return done.returncode, done.stderr, files

    def helped(self) -> tuple[bool, bool]:
        """Returns whether a second process began, and whether the run read schemas by itself."""
        files = self.begun, Path(f"{self.begun}.self")
        found = [it.exists() for it in files]
        for file in files:
            file.unlink(missing_ok=True)
        return found[0], found[1]

    def same(self, filed: Any, module: Any, helps: bool = True) -> tuple[int, str]:
        """Checks that a filing is the same with a second process. Returns its status and lines.

        `helps` says whether the run then does not read the schemas itself.
        """
        pack(self.folder / "r.zip", filed)
        pack(self.folder / "t.zip", module)
        without = self.prepared()
        self.assertEqual(self.helped(), (False, True), "without a cache")
        cache = f"c{os.urandom(4).hex()}"
        self.assertEqual(self.prepared("--cache", cache), without, "with an empty cache")
        self.assertEqual(self.helped(), (True, not helps), without[1])
        self.assertEqual(self.prepared("--cache", cache), without, "with a cache")
        self.helped()
        return without[:2]


class TestTheSame(Case):
    """Filings with a second process, and without."""

    def test_a_good_filing(self) -> None:
        """The second process reads the schemas, and this one does not."""
        self.assertEqual(self.same(report(), taxonomy()), (0, ""))

    def test_spoiled_modules(self) -> None:
        """Each module that is wrong has the same line as without a second process."""
        good, seen = taxonomy(), 0
        for it in spoiled():
            if it.taxonomy != good and "META-INF/catalog.xml" in it.taxonomy:
                with self.subTest(it.name):
                    pack(self.folder / "r.zip", it.report)
                    pack(self.folder / "t.zip", it.taxonomy)
                    without = self.prepared()
                    self.assertEqual(self.prepared("--cache", f"c{seen}"), without)
                    seen += 1
        self.assertGreater(seen, 5)

    def test_a_schema_that_is_wrong(self) -> None:
        """Its line is that of the run itself, and comes before a conflict of the metadata."""
        wrong = schema('<xs:element name="1"/>')
        status, line = self.same(report(), taxonomy({SCHEMA_FILE: wrong}), helps=False)
        self.assertEqual(status, 1)
        self.assertIn("declares '1', which is no name", line)
        conflict = self.with_conflict(taxonomy())
        _, other = self.same(report(), conflict, helps=True)
        self.assertIn("has another value than in", other)
        both = {**conflict, f"reg/{SCHEMA_FILE}": wrong}
        self.assertEqual(self.same(report(), both, helps=False), (status, line))

    def with_conflict(self, module: dict[str, Any]) -> dict[str, Any]:
        """Returns a module that extends a file which gives another value of a parameter."""
        at = f"reg/{MODULE_FILE}"
        top = json.loads(module[at])
        top["documentInfo"]["extends"] = ["low.json"]
        low = meta({}, tables={name: {"url": "other.csv"} for name in top["tables"]})
        return {**module, at: json.dumps(top), "reg/low.json": low}

    def test_a_prefix_that_is_replaced(self) -> None:
        """The metadata cannot be joined before the kinds are there."""
        module = taxonomy()
        at = f"reg/{MODULE_FILE}"
        top = json.loads(module[at])
        top["documentInfo"]["extends"] = ["low.json"]
        low = meta({"namespaces": {"other": EG}}, dimensions={"other:Region": "other:A"})
        self.same(report(), {**module, at: json.dumps(top), "reg/low.json": low})


class TestWhereNoneHelps(Case):
    """Runs without a second process."""

    def setUp(self) -> None:
        """Writes a filing."""
        super().setUp()
        pack(self.folder / "r.zip", report())
        pack(self.folder / "t.zip", taxonomy())

    def test_the_kinds_are_kept(self) -> None:
        """The cache has the kinds, but not the module."""
        self.assertEqual(self.prepared("--cache", "c")[0], 0)
        self.assertEqual(self.helped(), (True, False))
        for module in (self.folder / "c").glob("*.module"):
            module.unlink()
        self.assertEqual(self.prepared("--cache", "c")[0], 0)
        self.assertEqual(self.helped(), (False, False))

    def test_a_limit_of_memory(self) -> None:
        """The limit is for one process."""
        words = " ".join(f"'{it}'" for it in self.words(0, "--cache", "c")[3:])
        limited = f"ulimit -v 4000000; exec '{sys.executable}' -c \"$DRIVER\" {words}"
        told = {**os.environ, "DRIVER": DRIVER}
        done = subprocess.run(
            ["bash", "-c", limited], cwd=self.folder, env=told, timeout=PATIENCE
        )
        self.assertEqual((done.returncode, self.helped()), (0, (False, True)))

    def test_another_program(self) -> None:
        """A program that calls `prepare` may have threads, so it gets no second process."""
        before = os.getcwd()
        os.chdir(self.folder)
        try:
            with mock.patch.object(kinds_reading, "LARGE", 0):
                with mock.patch("os.fork", side_effect=AssertionError):
                    library.prepare("r.zip", ["t.zip"], "p", "c")
        finally:
            os.chdir(before)
        self.assertTrue((self.folder / "p/meta.json").exists())

    def test_no_more_processes(self) -> None:
        """The system refuses one, and the run goes on."""
        refused = "def fork(): raise BlockingIOError\nos.fork = fork\nbegun,"
        driver = DRIVER.replace("begun,", refused, 1)
        with mock.patch.dict(globals(), DRIVER=driver):
            self.assertEqual(self.prepared("--cache", "c")[:2], (0, ""))
        self.assertEqual(self.helped(), (False, True))


class TestItsEnd(Case):
    """A second process that would take very long."""

    def begin(self, driver: str) -> None:
        """Begins a run, and waits until its second process has begun."""
        pack(self.folder / "r.zip", report())
        pack(self.folder / "t.zip", taxonomy())
        words = self.words(PATIENCE, "--cache", "c")
        words[2] = driver
        self.run_of = subprocess.Popen(
            words, cwd=self.folder, stderr=subprocess.PIPE, preexec_fn=heeding
        )
        until = time.monotonic() + PATIENCE
        while not self.begun.exists() and time.monotonic() < until:
            time.sleep(WAIT)
        self.helper = int(self.begun.read_text())

    def tearDown(self) -> None:
        """Ends what a test has left."""
        with contextlib.suppress(ProcessLookupError):
            os.kill(self.helper, signal.SIGKILL)
        self.run_of.kill()
        self.run_of.communicate()

    def ends(self) -> bool:
        """Returns whether the second process ends long before it has waited."""
        until = time.monotonic() + PATIENCE / 10
        while time.monotonic() < until:
            if not is_running(self.helper):
                return True
            time.sleep(WAIT)
        return False

    def test_a_signal(self) -> None:
        """The run ends the second process first, also if the system would not."""
        self.begin(DRIVER.replace("begun,", f"{NO_LIBRARY}begun,", 1))
        self.run_of.send_signal(signal.SIGTERM)
        self.assertEqual(self.run_of.wait(PATIENCE), -signal.SIGTERM)
        self.assertFalse(is_running(self.helper))
        assert self.run_of.stderr is not None
        self.assertEqual(self.run_of.stderr.read(), b"")

    def test_a_run_that_is_killed(self) -> None:
        """The system ends the second process."""
        self.begin(DRIVER)
        self.run_of.kill()
        self.assertTrue(self.ends())

    def test_a_second_process_that_is_killed(self) -> None:
        """The run reads the schemas by itself."""
        self.begin(DRIVER)
        os.kill(self.helper, signal.SIGKILL)
        self.assertEqual(self.run_of.wait(PATIENCE), 0)
        self.assertEqual(self.helped(), (True, True))
        self.assertTrue((self.folder / "p/types.csv").exists())


def is_running(process: int) -> bool:
    """Returns whether a process exists and has not ended."""
    try:
        state = Path(f"/proc/{process}/stat").read_text().rpartition(")")[2].split()[0]
    except FileNotFoundError:
        return False
    return state not in "ZX"


if __name__ == "__main__":
    unittest.main()
