"""Tests tests/run itself over a small tree of made-up tests: what it counts, names and needs."""
from __future__ import annotations

import os
import shutil
import subprocess
import sys

from tests.harness import PATIENCE, TOP, Done, TestCase

# What tests/run needs in a tree, without the tests.
TREE = ["tests/__init__.py", "tests/run", "tests/runner.py", "tests/needs.py", "tests/refuse.c"]
TREE += ["dist/sources.sh", "xbrl-json", "xbrl-filing"]
COMMANDS = ("bash", "dirname", "readlink", "env")
PASSES = """# from a file, and
from unittest import case
import os, unittest
TEXT = '''
from a pipe
import of words
'''
class TestThis(unittest.TestCase):
    def test_program(self):
        self.assertEqual(os.environ["XBRL_JSON"], {program!r})
    def test_parts(self):
        for part in range(3):
            with self.subTest(part=part):
                with self.subTest("first"):
                    pass
                with self.subTest("second"):
                    pass
"""
FAILS = """import unittest
class TestThat(unittest.TestCase):
    def test_wrong(self):
        self.assertEqual("seen", "wanted")
    def test_parts(self):
        for part in range(3):
            with self.subTest(part=part):
                self.assertNotEqual(part, 1, "one of three")
    def test_error(self):
        raise OSError("the disk is full")
    def test_right(self):
        pass
    @unittest.skip("not here")
    def test_left_out(self):
        pass
"""


class TreeTest(TestCase):
    """A test that runs tests/run in a small tree."""

    def setUp(self) -> None:
        """Makes the tree, a program in it, and a folder of the commands that may be used."""
        super().setUp()
        self.top = self.folder / "a tree, größer"
        for name in TREE:
            (self.top / name).parent.mkdir(parents=True, exist_ok=True)
            shutil.copy(TOP / name, self.top / name)
        (self.top / "filing").mkdir()
        for name in ("tests/run", "xbrl-json", "xbrl-filing"):
            (self.top / name).chmod(0o755)
        self.program = self.top / "dist/a program"
        self.program.write_text("#!/bin/sh\n")
        self.program.chmod(0o755)
        self.tools = self.folder / "tools"
        self.tools.mkdir()
        for name in (*COMMANDS, "cc"):
            (self.tools / name).symlink_to(str(shutil.which(name)))
        (self.tools / "python3").symlink_to(sys.executable)

    def module(self, name: str, text: str) -> None:
        """Writes a file of tests/."""
        (self.top / "tests" / name).write_text(text.replace("{program!r}", repr(str(self.program))))

    def runs(self, *words: str, start: str = "", **more: str) -> Done:
        """Runs tests/run over the program, with further words, or started by another command."""
        path = f"{self.tools}:/usr/bin" if shutil.which("cc", path="/usr/bin") else ""
        env = {"PATH": path or os.environ["PATH"], "TMPDIR": str(self.folder), **more}
        command = [*([start] if start else []), "tests/run", "dist/a program", *words]
        done = subprocess.run(command, cwd=self.top, env=env, capture_output=True, timeout=PATIENCE)
        return Done(done.returncode, done.stdout, done.stderr.decode())

    def last(self, done: Done, number: int) -> list[str]:
        """Returns the last lines of the output."""
        return done.out.decode().splitlines()[-number:]


class TestRun(TreeTest):
    """Counts tests and names those that failed."""

    def test_all_pass(self) -> None:
        """Counts tests and the innermost sub-tests."""
        self.module("test_this.py", PASSES)
        done = self.runs()
        self.assertEqual((done.status, done.err), (0, ""))
        self.assertEqual(self.last(done, 1), ["7 passed, 0 failed"])

    def test_failures_are_named(self) -> None:
        """Names each test that failed in the last lines, with its cause, and runs all others."""
        self.module("test_this.py", PASSES)
        self.module("test_that.py", FAILS)
        done = self.runs()
        name = "tests.test_that.TestThat.test_"
        self.assertEqual(done.status, 1)
        self.assertEqual(
            self.last(done, 4),
            [
                f"FAILED {name}error: OSError: the disk is full",
                f"FAILED {name}parts (part=1): AssertionError: 1 == 1 : one of three",
                f"FAILED {name}wrong: AssertionError: 'seen' != 'wanted'",
                "10 passed, 3 failed",
            ],
        )
        self.assertIn(f"left out: {name}left_out: not here\n", done.out.decode())

    def test_modules_that_end_early(self) -> None:
        """Names a module that cannot be imported, and one that a signal ends."""
        self.module("test_this.py", PASSES)
        self.module("test_broken.py", "1 / 0\n")
        self.module("test_killed.py", PASSES.replace("    pass", "    os.kill(os.getpid(), 9)"))
        done = self.runs()
        broken, ended, counts = self.last(done, 3)
        self.assertEqual((done.status, counts), (1, "7 passed, 2 failed"))
        self.assertIn("test_broken: ZeroDivisionError: division by zero", broken)
        test = "tests.test_killed.TestThis.test_parts"
        self.assertEqual(ended, f"FAILED tests.test_killed: it ended by signal 9, in {test}")

    def test_scripts(self) -> None:
        """Adds the counts of scripts that count by themselves."""
        print_counts = "print('over filings: 5 as they must be, 1 not')\nraise SystemExit(1)\n"
        self.module("filing_bounds.py", "print('FAILED one: why')\n" + print_counts)
        self.module("fuzz_filing.py", "raise OSError('no space')\n")
        self.module("fault_table.py", "print('a table: 4 as they must be, 0 not')\n")
        done = self.runs()
        self.assertEqual(
            self.last(done, 3),
            [
                "FAILED tests/filing_bounds.py: one: why",
                "FAILED tests/fuzz_filing.py: OSError: no space",
                "9 passed, 2 failed",
            ],
        )

    def test_names(self) -> None:
        """Runs only the tests that -k chooses, by a part of the name or a pattern."""
        self.module("test_this.py", PASSES)
        self.module("test_that.py", FAILS)
        self.module("fault_table.py", "raise SystemExit(1)\n")
        for words, counts in (
            (["-k", "TestThis.test_program"], "1 passed, 0 failed"),
            (["-ktest_right", "-k", "test_program"], "2 passed, 0 failed"),
            (["-k", "*that*right"], "1 passed, 0 failed"),
            (["-k", "fault_table.py"], "0 passed, 1 failed"),
        ):
            with self.subTest(words=words):
                self.assertEqual(self.last(self.runs(*words), 1), [counts])

    def test_nothing_runs(self) -> None:
        """Fails if no test exists or has the name."""
        for words, why in ((), "there are no tests"), (("-k", "other"), "no test has this name"):
            with self.subTest(words=words):
                done = self.runs(*words)
                wanted = [f"FAILED tests/run: {why}", "0 passed, 1 failed"]
                self.assertEqual((done.status, self.last(done, 2)), (1, wanted))
            self.module("test_this.py", PASSES)

    def test_lost_execute_bits(self) -> None:
        """Runs in a copy where all programs can be executed, if a ZIP lost the bits."""
        self.module("test_this.py", PASSES)
        own = "import os, unittest\nclass TestBits(unittest.TestCase):\n    def test_bits(self):\n"
        own += '        self.assertTrue(os.access("xbrl-filing", os.X_OK))\n'
        own += '        self.assertTrue(os.access(os.environ["XBRL_JSON"], os.X_OK))\n'
        self.module("test_bits.py", own)
        for it in self.top.rglob("*"):
            if it.is_file():
                it.chmod(0o644)
        done = self.runs("-k", "Bits", start="bash")
        self.assertEqual((done.status, done.err), (0, ""), done)
        self.assertEqual(self.last(done, 1), ["1 passed, 0 failed"])
        self.assertFalse(os.access(self.program, os.X_OK))

    def test_wrong_arguments(self) -> None:
        """Starts nothing with wrong arguments or without the program."""
        for words in (["more"], ["--fast"], ["-k"]):
            with self.subTest(words=words):
                done = self.runs(*words)
                self.assertEqual((done.status, done.out), (1, b"0 passed, 1 failed\n"))
                self.assertIn("tests/run [PROGRAM] [-k NAME ..]", done.err)
        self.program.unlink()
        done = self.runs()
        said = "tests/run: dist/a program is no program\n"
        self.check_run(done, 1, b"0 passed, 1 failed\n", said)


class TestNeeds(TreeTest):
    """Starts nothing where a part is missing, and names it."""

    def is_missing(self, said: str, **more: str) -> None:
        """Checks that tests/run starts nothing, and prints this."""
        self.module("test_this.py", PASSES)
        done = self.runs(start="", **more)
        self.assertEqual((done.status, done.out), (1, b"0 passed, 1 failed\n"), done)
        self.assertIn(said, done.err)

    def only_tools(self) -> dict[str, str]:
        """Returns an environment with only the made folder of commands."""
        return {"PATH": str(self.tools)}

    def test_commands(self) -> None:
        """Names cc, and then python3 too."""
        (self.tools / "cc").unlink()
        self.is_missing("needed and not found: cc\n", **self.only_tools())
        (self.tools / "python3").unlink()
        self.is_missing("needed and not found: python3 cc\n", **self.only_tools())

    def hidden(self, name: str, text: str) -> dict[str, str]:
        """Returns an environment where a module of the standard library is this one."""
        folder = self.folder / "modules"
        folder.mkdir(exist_ok=True)
        (folder / name).write_text(text)
        return {"PYTHONPATH": str(folder)}

    def test_modules_of_the_standard_library(self) -> None:
        """Names the modules that the smallest Python lacks."""
        missing = self.hidden("csv.py", "raise ImportError('no csv')\n")
        self.module("test_csv.py", "import csv\nfrom zipfile import ZipFile\n")
        self.is_missing("not python3-minimal): it has no csv\n", **missing)

    def test_headers(self) -> None:
        """Names the headers of C if the compiler has none."""
        (self.tools / "cc").unlink()
        (self.tools / "cc").write_text("#!/bin/sh\necho 'fatal error: errno.h: none'; exit 1\n")
        (self.tools / "cc").chmod(0o755)
        self.is_missing("headers of C (Debian: libc6-dev): fatal error: errno.h: none\n")

    def test_a_terminal(self) -> None:
        """Names the pseudo-terminal if none can be opened."""
        text = "def openpty():\n    raise OSError('out of pty devices')\n"
        self.is_missing("/dev/pts: out of pty devices\n", **self.hidden("pty.py", text))

    def test_an_old_python(self) -> None:
        """Names the version of a Python that is too old."""
        (self.tools / "python3").unlink()
        text = f"#!/bin/sh\nexec {sys.executable} -c '{OLD}' \"$@\"\n"
        (self.tools / "python3").write_text(text)
        (self.tools / "python3").chmod(0o755)
        self.is_missing("needed and not found: Python 3.9 or later: this is 3.8.1\n")


# Runs a file as Python 3.8 would.
OLD = """import sys, runpy
sys.version_info, sys.version = (3, 8, 1), "3.8.1 (old)"
sys.argv = sys.argv[1:]
runpy.run_path(sys.argv[0], run_name="__main__")
"""
