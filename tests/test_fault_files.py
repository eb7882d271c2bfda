"""Tests where the file of `--faults FILE` may be: inputs, outputs, pipes, links and full disks."""
from __future__ import annotations

import os
import resource
import signal
import stat
import threading
from typing import Any

from tests.fault_files import REFUSED, FaultsTest, cannot_write
from tests.harness import NOBODY, PATIENCE, held

INPUTS = ["r/m.json", "t.csv", "r/p.csv", "r/t1.csv", "r/t2.csv"]
OUT = ["--out", "o.json"]
WHOLE = [*OUT, "--whole"]
WAYS: list[list[str]] = [[], OUT, WHOLE]


class TestInputs(FaultsTest):
    """Refuses a file that the report reads, by any path, and writes nothing."""

    def linked_report(self, table: bytes) -> None:
        """Writes a report with a parameters file and two tables.

        Each file has a hard and a symbolic link.
        """
        both = {"t1": table, "t2": table}
        self.report(both, {"optional": True}, parameterURL="p.csv")
        self.write({"r/p.csv": "name,value\na,1\n"})
        for name in INPUTS:
            os.link(self.folder / name, self.folder / f"hard.{name[-5:]}")
            os.symlink(name, self.folder / f"soft.{name[-5:]}")

    def refuses(self, table: bytes) -> None:
        """Refuses each path to each file."""
        self.linked_report(table)
        before = held(self.folder)
        for name in INPUTS:
            links = f"hard.{name[-5:]}", f"soft.{name[-5:]}"
            for path in (name, f"./{name}", f"{self.folder}/{name}", f"r/../{name}", *links):
                for words in [*WAYS, ["--workers", "1"]]:
                    with self.subTest(path=path, words=words):
                        seen = self.convert(*words, "--faults", path)
                        self.check_run(seen, *cannot_write(path))
                        self.assertEqual(held(self.folder), before)

    def test_files_of_a_right_report(self) -> None:
        """Refuses the files of a report without a fault."""
        self.refuses(b"cash\n1\n")

    def test_files_of_a_wrong_report(self) -> None:
        """Refuses the files of a report with a refused table."""
        self.refuses(b"cash\nx\n")

    def missing(self, name: str, said: str) -> None:
        """Refuses each path to a file that does not exist."""
        self.linked_report(b"cash\n1\n")
        (self.folder / name).unlink()
        (self.folder / f"hard.{name[-5:]}").unlink()
        before = held(self.folder)
        for path in (name, f"./{name}", f"{self.folder}/r/../{name}"):
            for words in WAYS:
                with self.subTest(path=path, words=words):
                    seen = self.convert(*words, "--faults", path)
                    self.check_run(seen, 3, b"", f"xbrl-json: cannot {said.format(path)}\n")
                    self.assertFalse((self.folder / name).exists())
                    (self.folder / "o.json").unlink(missing_ok=True)
                    self.assertEqual(held(self.folder), before)

    def test_a_table_that_is_missing(self) -> None:
        """Refuses the path of an optional table."""
        self.missing("r/t1.csv", "write {}")

    def test_a_parameters_file_that_is_missing(self) -> None:
        """Ends because the parameters file cannot be read."""
        self.missing("r/p.csv", "read r/p.csv")


class TestOutputs(FaultsTest):
    """Refuses a file that is the document's, or that cannot be made, and writes nothing."""

    def setUp(self) -> None:
        """Writes a report with a refused table."""
        super().setUp()
        self.report({"t1": b"cash\nx\n"})

    def refuses(self, *more: str) -> None:
        """Refuses each path to the document's file."""
        before = held(self.folder)
        for path in ("o.json", "./o.json", f"{self.folder}/o.json", "r/../o.json", *more):
            for words in (OUT, WHOLE):
                with self.subTest(path=path, words=words):
                    seen = self.convert(*words, "--faults", path)
                    self.check_run(seen, *cannot_write(path))
                    self.assertEqual(held(self.folder), before)

    def test_a_new_document(self) -> None:
        """Refuses a document's file that does not exist."""
        self.refuses()

    def test_an_old_document(self) -> None:
        """Refuses a document's file with links."""
        self.write({"o.json": "old"})
        os.link(self.folder / "o.json", self.folder / "hard")
        os.symlink("o.json", self.folder / "soft")
        self.refuses("hard", "soft")

    def test_standard_output(self) -> None:
        """Refuses the file that is standard output."""
        with open(self.folder / "o.json", "wb") as out:
            seen = self.convert("--faults", "o.json", stdout=out)
        self.check_run(seen, *cannot_write("o.json"))
        self.assertEqual(self.read("o.json"), b"")

    def test_files_that_cannot_be_made(self) -> None:
        """Refuses folders, and files in folders that are missing or may not be written."""
        before = held(self.folder)
        os.chmod(self.folder, 0o555)
        self.addCleanup(os.chmod, self.folder, 0o755)
        nobody: dict[str, Any] = {} if os.getuid() else {"user": NOBODY, "group": NOBODY}
        for path in ("no/f.csv", "r", ".", "f.csv"):
            with self.subTest(path=path):
                seen = self.convert("--faults", path, **(nobody if path == "f.csv" else {}))
                self.check_run(seen, *cannot_write(path))
                self.assertEqual(held(self.folder), before)


def limited() -> None:
    """Limits files to 20 bytes, and ignores the signal of that."""
    signal.signal(signal.SIGXFSZ, signal.SIG_IGN)
    resource.setrlimit(resource.RLIMIT_FSIZE, (20, 20))


class TestPlaces(FaultsTest):
    """Writes the file instead of a link or of an old file, and where no disk is."""

    def setUp(self) -> None:
        """Writes a report with a refused table."""
        super().setUp()
        self.report({"t1": b"cash\nx\n"})
        self.file = self.folder / "f.csv"

    def test_links(self) -> None:
        """Writes through a link, and keeps the permissions; a dangling link may be refused."""
        real = self.folder / "real.csv"
        real.write_bytes(b"old" * 1000)
        real.chmod(0o640)
        os.symlink("real.csv", self.file)
        self.assertEqual(self.convert("--faults", "f.csv").status, 1)
        self.assertTrue(self.file.is_symlink())
        self.assertEqual(real.read_bytes(), REFUSED)
        self.assertEqual(stat.S_IMODE(real.stat().st_mode), 0o640)
        real.unlink()
        if self.convert("--faults", "f.csv").status != 3:
            self.assertEqual(real.read_bytes(), REFUSED)

    def test_standard_output(self) -> None:
        """Writes to standard output by its path."""
        seen = self.convert(*OUT, "--faults", "/dev/stdout")
        self.assertEqual(seen[:2], (1, REFUSED))

    def test_a_named_pipe(self) -> None:
        """Writes to a named pipe."""
        os.mkfifo(self.file)
        got: list[bytes] = []
        reader = threading.Thread(target=lambda: got.append(self.file.read_bytes()), daemon=True)
        reader.start()
        self.assertEqual(self.convert(*OUT, "--faults", "f.csv").status, 1)
        reader.join(timeout=PATIENCE)
        self.assertEqual(got, [REFUSED])

    def test_a_full_disk(self) -> None:
        """Ends with a line of the file after those of the tables."""
        seen = self.convert(*OUT, "--faults", "/dev/full")
        line = "xbrl-json: table t1, row 1, column 1: BadNumber (40)\n"
        wanted = (3, line + "xbrl-json: cannot write /dev/full\n")
        self.assertEqual((seen.status, seen.err), wanted)

    def test_dev_null(self) -> None:
        """Writes to /dev/null."""
        self.assertEqual(self.convert("--faults", "/dev/null").status, 1)

    def test_a_file_that_may_not_be_so_long(self) -> None:
        """Keeps the old file, and leaves no other."""
        self.file.write_bytes(b"old")
        seen = self.convert("--faults", "f.csv", preexec_fn=limited)
        self.assertEqual((seen.status, self.faults()), (3, b"old"), seen)
        self.assertFalse((self.folder / "f.csv.new").exists())

    def test_a_name_that_is_taken(self) -> None:
        """Leaves a file whose name the new file would take."""
        self.write({"f.csv": "old", "f.csv.new": "another's"})
        seen = self.convert("--faults", "f.csv")
        self.assertEqual((seen.status, self.faults()), (1, REFUSED), seen)
        self.assertEqual(self.read("f.csv.new"), b"another's")

    def test_closed_descriptors(self) -> None:
        """Writes the file without standard input, output or error."""
        for closed in ((0,), (1,), (2,), (0, 1, 2)):
            with self.subTest(closed=closed):
                self.file.unlink(missing_ok=True)

                def close(closed: tuple[int, ...] = closed) -> None:
                    for it in closed:
                        os.close(it)

                self.convert(*OUT, "--faults", "f.csv", preexec_fn=close)
                self.assertEqual(self.faults(), REFUSED)
