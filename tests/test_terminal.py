"""Tests what a terminal gets: explanations without being asked for, and colours."""
from __future__ import annotations

import os
import subprocess
from typing import Any

from tests.edges import EdgeTest, limited_files
from tests.explaining import WORDS, ExplainTest
from tests.harness import Content, Done

FAULTY: dict[str, Content] = {"r/t1.csv": "cash,note\n1,200,x\n"}
LINE = "xbrl-json: table t1, row 1, column 0: Ragged (26)\n"
PLACE = "r/t1.csv, line 2"
FOUND = "(a record of 3); the header has 2"
CAUSE = "a record has another length than the header"
EXPLAINED = f"{LINE}    {PLACE}\n    {FOUND}\n    {CAUSE}\n"
RED, BOLD, END = "\x1b[1;31m", "\x1b[1m", "\x1b[0m"
COLOURED = f"{RED}{LINE}{END}{BOLD}    {PLACE}{END}\n    {FOUND}\n    {CAUSE}\n"


class TerminalTest(ExplainTest, EdgeTest):
    """A test of a report with a fault."""

    def setUp(self) -> None:
        """Writes the report."""
        super().setUp()
        self.write(FAULTY)

    def shown(self, *words: str, **variables: str) -> str:
        """Returns what a terminal shows, with plain line feeds."""
        return self.on_a_terminal(*WORDS, *words, **variables).replace("\r\n", "\n")


class TestDefault(TerminalTest):
    """Explains on a terminal unless that is turned off, and elsewhere only if it is asked for."""

    def test_a_terminal(self) -> None:
        """Explains by itself, and with --explain."""
        self.check_same(self.shown(NO_COLOR="1"), EXPLAINED)
        self.check_same(self.shown("--explain", NO_COLOR="1"), EXPLAINED)

    def test_turned_off(self) -> None:
        """Prints only the line with --no-explain, also with --explain, in both orders."""
        for words in (
            ["--no-explain"],
            ["--no-explain", "--explain"],
            ["--explain", "--no-explain"],
        ):
            with self.subTest(words=words):
                self.check_same(self.shown(*words, NO_COLOR="1"), LINE)
                self.check_same(self.err(*words), LINE)

    def test_a_pipe(self) -> None:
        """Prints only the line, and explains with --explain, without colours."""
        self.check_same(self.err(), LINE)
        self.check_same(self.err("--explain"), EXPLAINED)

    def test_a_good_report(self) -> None:
        """Prints nothing."""
        self.write({"r/t1.csv": "cash,note\n1,x\n"})
        self.check_same(self.shown(), "")

    def test_a_file_that_is_not_there(self) -> None:
        """Gives the reason."""
        seen = self.on_a_terminal("no.json", "--types", "t.csv", NO_COLOR="1")
        self.assertEqual(seen, "xbrl-json: cannot read no.json\r\n    there is no such file\r\n")


class TestColours(TerminalTest):
    """Colours the line of a fault and its place."""

    def test_colours(self) -> None:
        """Colours them on a terminal."""
        self.check_same(self.shown(), COLOURED)
        self.check_same(self.shown("--no-explain"), f"{RED}{LINE}{END}")

    def test_no_color(self) -> None:
        """Leaves colours out if NO_COLOR is not empty."""
        self.check_same(self.shown(NO_COLOR=""), COLOURED)
        self.check_same(self.shown(NO_COLOR="0"), EXPLAINED)

    def test_a_dumb_terminal(self) -> None:
        """Leaves colours out if TERM is dumb."""
        self.check_same(self.shown(TERM="dumb"), EXPLAINED)
        self.check_same(self.shown(TERM="dumber"), COLOURED)

    def test_a_fault_of_the_metadata(self) -> None:
        """Colours its line and place too."""
        self.write({"r/m.json": ""})
        why = "this is not JSON in UTF-8, is over 127 levels deep, or a number passes a double"
        line, rest = "xbrl-json: report: Syntax (1)\n", f"    line 1, column 0\n    {why}\n"
        self.check_same(self.shown(), f"{RED}{line}{END}{BOLD}    r/m.json{END}\n{rest}")


FAILED = "xbrl-json: output: Write (56)\n"
FULL = "no space is left on its device"
CLOSED = "the program that reads it has ended: its pipe is closed"
TOO_LARGE = "the file grew past the largest size that is allowed (ulimit -f)"
REFUSED = "the system refused a write, or it is closed"


class TestFailedWrite(ExplainTest):
    """Explains why the document could not be written, and which output it is."""

    def check_write(self, out: str, why: str, *words: str, **more: Any) -> None:
        """Checks a run whose output fails: its line alone, and with the reason below it."""
        plain = self.run_program(*WORDS, *words, **more)
        self.check_run(Done(plain.status, b"", plain.err), 3, b"", FAILED)
        seen = self.run_program(*WORDS, *words, "--explain", **more)
        self.check_run(Done(seen.status, b"", seen.err), 3, b"", f"{FAILED}    {out}: {why}\n")

    def test_a_full_disk(self) -> None:
        """Names standard output, or the file of --out."""
        with open("/dev/full", "wb") as full:
            self.check_write("standard output", FULL, stdout=full)
        self.check_write("/dev/full", FULL, "--out", "/dev/full")

    def test_a_file_that_is_too_large(self) -> None:
        """Names the limit."""
        for words in (["--out", "o.json"], ["--out", "o.json", "--whole"]):
            with self.subTest(words=words):
                self.check_write("o.json", TOO_LARGE, *words, preexec_fn=lambda: limited_files(8))

    def test_a_closed_pipe(self) -> None:
        """Names the reader."""
        read, write = os.pipe()
        os.close(read)
        with os.fdopen(write, "wb") as closed:
            self.check_write("standard output", CLOSED, stdout=closed)

    def test_no_standard_output(self) -> None:
        """Says that it is closed."""
        none = subprocess.DEVNULL
        self.check_write(
            "standard output", REFUSED, stdout=none, preexec_fn=lambda: os.close(1)
        )

    def test_a_control_character(self) -> None:
        """Shows the path with its control characters by code."""
        path = "a\x1b[31mb"
        (self.folder / path).symlink_to("/dev/full")
        self.check_write("a\\x1b[31mb", FULL, "--out", path)


class TestFailedFile(ExplainTest):
    """Explains why a file other than the document could not be written."""

    def check_file(self, why: str, *words: str, **more: Any) -> None:
        """Checks a run that cannot write the file of faults or of counts, which words[1] names."""
        seen = self.run_program(*WORDS, *words, "--out", "o.json", "--explain", **more)
        line = f"xbrl-json: cannot write {words[1]}\n"
        self.check_run(Done(seen.status, b"", seen.err), 3, b"", f"{line}    {why}\n")

    def test_a_full_disk(self) -> None:
        """Names it for both."""
        self.write({"r/t1.csv": "cash,note\n1,x\n"})
        for word in ("--faults", "--counts"):
            with self.subTest(word=word):
                self.check_file(FULL, word, "/dev/full")

    def test_a_closed_pipe(self) -> None:
        """Names the reader."""
        self.write({"r/t1.csv": "cash,note\n1,x\n"})
        read, write = os.pipe()
        os.close(read)
        with os.fdopen(write, "wb") as closed:
            path = f"/dev/fd/{closed.fileno()}"
            self.check_file(CLOSED, "--counts", path, pass_fds=(closed.fileno(),))
