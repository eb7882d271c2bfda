"""Tests --progress: one line at the end, one each ten seconds, and many on a terminal."""
from __future__ import annotations

import os
import pty
import subprocess
import threading
import time

from tests.edges import WORDS, EdgeTest, table_fault
from tests.harness import PATIENCE, PROGRAM

LINE = "xbrl-json: {} of {} tables, {:.1f} of {:.1f} MB read, {:.1f} MB written\n"
# With a pipe the program does not know how many bytes there are.
ENDLESS = "xbrl-json: {} of {} tables, 0.0 MB read, 0.0 MB written\n"


class TestProgress(EdgeTest):
    """Prints lines of progress."""

    def setUp(self) -> None:
        """Writes a report of three tables, one of which has no file."""
        super().setUp()
        self.report({"t1": {}, "t2": {"optional": True}, "t3": {}})
        self.write({"t1.csv": "cash\n" + "1\n" * 150_000, "t3.csv": "cash\n2\n"})

    def test_the_last_line(self) -> None:
        """Prints what was read and written."""
        document = self.convert().out
        last = LINE.format(3, 3, 0.3, 0.3, len(document) // 100_000 / 10)
        self.check_run(self.convert("--progress"), 0, document, last)

    def test_no_tables(self) -> None:
        """Prints nothing in a run that ends before the tables."""
        seen = self.run_program("nothing.json", "--types", "types.csv", "--progress")
        self.check_run(seen, 3, b"", "xbrl-json: cannot read nothing.json\n")

    def test_a_refused_table(self) -> None:
        """Prints the line before those of the tables."""
        self.write({"t1.csv": "cash\nx\n"})
        seen = self.convert("--progress")
        said = LINE.format(3, 3, 0, 0, 0) + table_fault("t1", 1, 1, "BadNumber (40)")
        self.assertEqual((seen.status, seen.err), (1, said))

    def feed(self, ends: threading.Event) -> None:
        """Makes t1 a pipe that gets a row every tenth of a second, until it is told to end.

        The program prints a line only when it has read or written something. If it prints none, the
        pipe ends by itself after PATIENCE, and the test fails without one.
        """
        pipe = self.folder / "t1.csv"
        pipe.unlink()
        os.mkfifo(pipe)

        def write() -> None:
            with open(pipe, "w") as out:
                out.write("cash\n")
                for _ in range(10 * PATIENCE):
                    out.write("1\n")
                    out.flush()
                    if ends.wait(0.1):
                        return

        threading.Thread(target=write, daemon=True).start()

    def test_on_a_terminal(self) -> None:
        """Replaces the line several times a second."""
        ends = threading.Event()
        self.feed(ends)
        ours, theirs = pty.openpty()
        command = [PROGRAM, *WORDS, "--progress"]
        none = subprocess.DEVNULL
        seen = b""
        with subprocess.Popen(command, cwd=self.folder, stdin=none, stdout=none, stderr=theirs):
            os.close(theirs)
            while True:
                try:
                    seen += os.read(ours, 4096)
                except OSError:
                    break
                if seen.count(b"\r") > 4:
                    ends.set()
        os.close(ours)
        self.assertTrue(ends.is_set(), "no lines while the pipe was fed")
        said = seen.decode()
        line = r"(\rxbrl-json: \d of 3 tables, 0\.0( of 0\.0)? MB read, 0\.0 MB written)+\r\n"
        self.assertRegex(said, rf"\A{line}\Z")
        self.assertTrue(said.endswith("\r" + ENDLESS.format(3, 3)[:-1] + "\r\n"), repr(said))

    def test_each_ten_seconds(self) -> None:
        """Prints a line after ten seconds, and not before."""
        ends = threading.Event()
        self.feed(ends)
        # More workers than processors, so that a busy machine has not fewer.
        command = [PROGRAM, *WORDS, "--workers=64", "--progress", "--out", "o.json"]
        since = time.monotonic()
        with subprocess.Popen(command, cwd=self.folder, stderr=subprocess.PIPE) as run:
            assert run.stderr is not None
            first = run.stderr.readline().decode()
            took = time.monotonic() - since
            ends.set()
            rest = run.stderr.read().decode().splitlines(keepends=True)
        self.assertEqual(first, ENDLESS.format(2, 3))
        self.assertGreaterEqual(took, 9.5)
        self.assertEqual(rest[-1:], [ENDLESS.format(3, 3)])
        self.assertEqual((run.returncode, set(rest[:-1]) - {first}), (0, set()))

    def test_no_standard_error(self) -> None:
        """Writes no line into the document, which is the first file that is opened."""
        self.report({"t1": {}})
        self.write({"t1.csv": "cash\n1\n1\n"})
        document = self.convert().out
        self.write_late("t1.csv", [10.5])
        words = ["--progress", "--out", "out.json"]
        status, out, _ = self.convert(*words, preexec_fn=lambda: os.close(2))
        self.assertEqual((status, out), (0, b""))
        self.assertEqual(self.read("out.json"), document)
