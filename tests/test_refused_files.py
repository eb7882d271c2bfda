"""Tests a system that refuses calls on the files that the program writes.

With --whole the file has the whole document or is unchanged, and so is the file of --faults.
"""
from __future__ import annotations

import os
import re
from collections.abc import Sequence

from tests.fault_files import HEADER
from tests.harness import Done, for_each
from tests.refusing import FAILED_WRITE, RefusedTest, build_library

OUT = ["--out", "out.json"]
NOT_WRITTEN = Done(3, b"", "xbrl-json: cannot write out.json\n")
OLD = b"what was there"
FILE_KINDS = ("read", "write", "zero", "open", "stat", "sync", "rename", "permit", "path", "close")


def setUpModule() -> None:
    """Builds the library that refuses."""
    build_library()


class TestOut(RefusedTest):
    """Refuses calls of a run with --out."""

    def setUp(self) -> None:
        """Writes the old file."""
        super().setUp()
        self.out = self.report / "out.json"
        self.out.write_bytes(OLD)

    def test_each_open(self) -> None:
        """Gives --out what standard output would have.

        If it cannot be opened, that is reported before anything is read.
        """
        not_made = 0
        for n in range(1, 13):
            with self.subTest(open=n):
                self.out.write_bytes(OLD)
                status, printed, err = self.refuse(f"open:{n}", OUT)
                if err == NOT_WRITTEN.err:
                    not_made += 1
                    self.assertEqual((status, printed, self.out.read_bytes()), (3, b"", OLD))
                else:
                    self.assertEqual(printed, b"")
                    self.is_right(Done(status, self.out.read_bytes(), err), "open")
        self.assertEqual(not_made, 1)

    def test_it_cannot_be_emptied(self) -> None:
        """Leaves the file unchanged."""
        self.check_run(self.refuse("cut:1+", OUT), *FAILED_WRITE)
        self.assertEqual(self.out.read_bytes(), OLD)

    def test_its_path_cannot_be_looked_at(self) -> None:
        """Writes the document: the look at the path before it is opened may fail."""
        self.check_run(self.refuse("stat:1", OUT), 0, b"", "")
        self.assertEqual(self.out.read_bytes(), self.document.whole)

    def test_it_cannot_be_identified(self) -> None:
        """Leaves the file unchanged if it cannot be identified once it is open."""
        self.check_run(self.refuse("stat:2", OUT), *NOT_WRITTEN)
        self.assertEqual(self.out.read_bytes(), OLD)

    def test_failed_writes_of_whole(self) -> None:
        """Reports a file that cannot be made durable or renamed as a failed write."""
        for refuse in ("sync:1", "rename:1"):
            with self.subTest(refuse=refuse):
                seen = self.refuse(refuse, [*OUT, "--whole", "--workers", "1"])
                self.check_run(seen, *FAILED_WRITE)


@for_each(
    (f"{kind} refused over {name}", (kind, old))
    for name, old in (("an old file", OLD), ("no file", None))
    for kind in FILE_KINDS
)
class TestWhole(RefusedTest):
    """Leaves the old file with --whole, or none if there was none, and no other file.

    At status 0 the file has the whole document.
    """

    def check(self, kind: str, old: bytes | None) -> None:
        """Refuses each call of a kind."""
        out, words = self.report / "out.json", [*OUT, "--whole", "--workers", "1"]
        if old is not None:
            out.write_bytes(old)
        for n in range(1, self.calls(words)[kind] + 1):
            with self.subTest(call=n):
                out.unlink(missing_ok=True)
                if old is not None:
                    out.write_bytes(old)
                status, printed, err = self.refuse(f"{kind}:{n}", words)
                held = out.read_bytes() if out.exists() else None
                self.assertEqual(held, self.document.whole if status == 0 else old)
                names = ["out.json"] if held is not None else []
                self.assertEqual(self.left(self.report, "out.json*"), names)
                self.assertEqual(printed, b"")
                self.assertEqual(status == 0, err == "")


class TestPermissions(RefusedTest):
    """Lets nobody open a new file who could not open the one that it replaces."""

    def check_private(self, name: str, words: Sequence[str]) -> None:
        """Replaces a private file and a public one, while new files are open to all."""
        file = self.report / name
        mask = os.umask(0)
        self.addCleanup(os.umask, mask)
        for mode in (0o600, 0o640, 0o400, 0o666):
            with self.subTest(mode=oct(mode)):
                file.unlink(missing_ok=True)
                file.write_bytes(OLD)
                file.chmod(mode)
                open_to = self.calls([*words, "--workers", "1"])["open_to"]
                self.assertEqual(oct(open_to & ~(mode | 0o600)), "0o0")
                self.assertEqual(oct(file.stat().st_mode & 0o777), oct(mode))
                self.assertNotEqual(file.read_bytes(), OLD)

    def test_whole_document(self) -> None:
        """Replaces the document."""
        self.check_private("out.json", [*OUT, "--whole"])

    def test_faults(self) -> None:
        """Replaces the file of faults."""
        self.check_private("f.csv", ["--faults", "f.csv"])

    def test_new_file_stays(self) -> None:
        """Keeps the old document if the new file can neither be used nor removed."""
        (self.report / "out.json").write_bytes(OLD)
        (self.report / "types.csv").write_text("x")
        words = [*OUT, "--whole", "--workers", "1"]
        self.assertEqual(self.refuse("", words).status, 1)
        self.assertEqual(self.left(self.report, "out.json*"), ["out.json"])
        self.assertEqual(self.refuse("unlink:1+", words).status, 1)
        self.assertEqual(self.left(self.report, "out.json*"), ["out.json", "out.json.new"])
        self.assertEqual((self.report / "out.json").read_bytes(), OLD)


FAULT = re.compile(r"xbrl-json: table (\w+), row (\d+), column (\d+): (\w+) \((\d+)\)")
OF_THE_REPORT = re.compile(r"xbrl-json: (?:report|types|parameters): (\w+) \((\d+)\)")
FAULT_HEADER = HEADER.decode().rstrip("\n")
KINDS = ("memory", *FILE_KINDS)


def agrees(content: bytes | None, err: str) -> bool:
    """Returns whether a file of faults is whole and agrees with the lines.

    The list of a table may end with the failure of the second reading.
    """
    if content is None or not content.endswith(b"\n"):
        return False
    header, *rows = content.decode().splitlines()
    said = [
        ",".join((table, row, column, number, name))
        for table, row, column, name, number in FAULT.findall(err)
    ]
    said += [f",0,0,{number},{name}" for name, number in OF_THE_REPORT.findall(err)]
    found = [",".join(it.split(",")[:5]) for it in rows]
    ended = [it for it in found if it.endswith((",0,0,42,Memory", ",0,0,21,Read"))]
    return header == FAULT_HEADER and (found == said or found == [*said, *ended[:1]])


@for_each(
    (f"{kind} refused over {name}", (kind, old))
    for name, old in (("an old file", OLD), ("no file", None))
    for kind in KINDS
)
class TestFaults(RefusedTest):
    """Leaves a whole file of --faults at status 0 and 1, the old one or none at 3."""

    def check(self, kind: str, old: bytes | None) -> None:
        """Refuses each call of a kind."""
        bad = self.copied("bad", {"t1": "t1", "t2": "bad"})
        (bad / "t1.csv").write_bytes((self.report / "t1.csv").read_bytes())
        (bad / "bad.csv").write_text("name,cash\nx,y\n")
        faults = bad / "f.csv"
        words = ["--faults", "f.csv", *OUT, "--workers", "1"]
        calls = self.calls(words, bad)[kind]
        self.assertEqual(faults.read_text(), f"{FAULT_HEADER}\nt2,1,2,40,BadNumber,2,cash,y,,,,,\n")
        for n in range(1, calls + 1):
            with self.subTest(call=n):
                faults.unlink(missing_ok=True)
                if old is not None:
                    faults.write_bytes(old)
                status, _, err = self.refuse(f"{kind}:{n}", words, bad)
                held = faults.read_bytes() if faults.exists() else None
                if status == 1:
                    no_line = kind == "memory" and err == ""
                    self.assertTrue(no_line or agrees(held, err), (held, err))
                else:
                    self.assertEqual((status, held), (3, old), err)
                names = ["f.csv"] if held is not None else []
                self.assertEqual(self.left(bad, "f.csv*"), names)
