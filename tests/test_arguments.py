"""Tests the command line: arguments, help and version, and lines on a terminal."""
from __future__ import annotations

import os
import re

from tests.edges import WORDS, EdgeTest, facts

OF_WRITE = "xbrl-json: output: Write (56)\n"


class TestArguments(EdgeTest):
    """Reads arguments that are right, wrong and not UTF-8."""

    def setUp(self) -> None:
        """Writes a report."""
        super().setUp()
        self.report({"t1": {}})
        self.write({"t1.csv": "cash\n1\n"})

    def test_help(self) -> None:
        """Prints the options."""
        status, out, err = self.run_program("--help")
        self.assertEqual((status, err), (0, ""))
        self.assertIn(b"--types", out)
        self.assertIn(b"--out", out)

    def test_version(self) -> None:
        """Prints the version."""
        status, out, err = self.run_program("--version")
        self.assertEqual((status, err), (0, ""))
        self.assertTrue(out.startswith(b"xbrl-json "), out)

    def test_wrong_arguments(self) -> None:
        """Refuses each with status 2 and a line."""
        wrong = ["--workers 0", "--workers 65", "--ring 0", "--ring 65537", "--layout pretty"]
        wrong += ["--layout", "--progress yes", "--progress=yes", "--explain yes", "--explain=yes"]
        wrong += ["--no-explain yes", "--no-explain=yes"]
        wrong += ["--workers two", "--colour", "more", "--types types.csv"]
        for words in (
            ["meta.json"],
            ["--types", "types.csv"],
            *([*WORDS, *it.split()] for it in wrong),
        ):
            with self.subTest(words=words):
                status, out, err = self.run_program(*words)
                self.assertEqual((status, out, err[:7]), (2, b"", "error: "))

    def test_no_utf8(self) -> None:
        """Refuses an argument that is not UTF-8."""
        status, out, _ = self.run_program(b"meta\xff.json", "--types", "types.csv")
        self.assertEqual((status, out), (2, b""))

    def test_one_worker(self) -> None:
        """Converts with one worker."""
        status, out, err = self.convert("--workers", "1")
        self.assertEqual((status, err), (0, ""))
        self.assertEqual(len(facts(out)), 1)


class TestHelpThatCannotBePrinted(EdgeTest):
    """Ends --help and --version with status 3 and a line if they cannot be printed."""

    def test_a_full_disk(self) -> None:
        """Prints to a full disk."""
        for word in ("--help", "-h", "--version", "-V"):
            with self.subTest(word=word), open("/dev/full", "wb") as full:
                self.check_run(self.run_program(word, stdout=full), 3, b"", OF_WRITE)

    def test_no_standard_output(self) -> None:
        """Prints without standard output."""
        for word in ("--help", "-h", "--version", "-V"):
            with self.subTest(word=word):
                seen = self.run_program(word, preexec_fn=lambda: os.close(1))
                self.check_run(seen, 3, b"", OF_WRITE)

    def test_a_closed_pipe(self) -> None:
        """Prints to a pipe that nobody reads."""
        for word in ("--help", "-h", "--version", "-V"):
            with self.subTest(word=word):
                read, write = os.pipe()
                os.close(read)
                with os.fdopen(write, "wb") as closed:
                    self.check_run(self.run_program(word, stdout=closed), 3, b"", OF_WRITE)


FORGED = "a\nxbrl-json: \x1b[31mb\x7f\u009bc\tdé"
PLAIN = "a\\x0axbrl-json: \\x1b[31mb\\x7f\\x9bc\\x09dé"


class TestLinesOnATerminal(EdgeTest):
    """Prints no control character of a path or an argument on a terminal.

    A pipe gets the lines unchanged.
    """

    def setUp(self) -> None:
        """Writes a report."""
        super().setUp()
        self.report({"t1": {}})

    def cannot(self, what: str, path: str, *words: str) -> None:
        """Checks the line of a file that cannot be read or written."""
        seen = self.run_program(*words)
        self.check_run(seen, 3, b"", f"xbrl-json: cannot {what} {path}\n")
        line = f"xbrl-json: cannot {what} {path.replace(FORGED, PLAIN)}\r\n"
        self.assertEqual(self.on_a_terminal(*words, "--no-explain", NO_COLOR="1"), line)

    def test_a_path_to_read(self) -> None:
        """Names META and the types table."""
        self.cannot("read", FORGED, FORGED, "--types", "types.csv")
        self.cannot("read", FORGED, "meta.json", "--types", FORGED)

    def test_a_path_to_write(self) -> None:
        """Names the document's file."""
        self.cannot("write", FORGED + "/o", *WORDS, "--out", FORGED + "/o")

    def test_wrong_arguments(self) -> None:
        """Names the wrong value."""
        words = [*WORDS, "--layout", "a\x1b[31m\tb"]
        seen = self.on_a_terminal(*words)
        self.assertIn("'a\\x1b[31m\\x09b'", seen)
        self.assertIsNone(re.search(r"[^\r\n -~]", seen), repr(seen))
        self.assertTrue(seen.startswith("error: "))
        status, _, err = self.run_program(*words)
        self.assertEqual(status, 2)
        self.assertIn("a\x1b[31m\tb", err)
