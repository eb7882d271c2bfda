"""Tests the files that the program reads: missing, refused, late, endless, pipes and folders."""
from __future__ import annotations

import os
import resource
import subprocess
import tempfile
import threading
from typing import Any

from tests.edges import WORDS, EdgeTest, facts, limited_memory, table_fault
from tests.harness import NOBODY, PROGRAM, metadata


class TestBadRows(EdgeTest):
    """Reports a fault of a row after the facts of the rows before it."""

    def test_each_fault(self) -> None:
        """Reports each fault in the first row and far down."""
        self.report({"t1": {}})
        for row, column, fault in (
            (b"1,2", 0, "Ragged (26)"),
            (b"\xff", 1, "NotUtf8 (27)"),
            (b"x", 1, "BadNumber (40)"),
            (b"#x", 1, "UnknownSpecial (31)"),
        ):
            for before in (0, 1500):
                self.write({"t1.csv": b"cash\n" + b"1\n" * before + row + b"\n1\n"})
                for workers in ("1", "4"):
                    with self.subTest(fault=fault, before=before, workers=workers):
                        status, out, err = self.convert("--workers", workers)
                        line = table_fault("t1", before + 1, column, fault)
                        self.assertEqual((status, err), (1, line))
                        self.assertEqual(out.count(b'"t1.r_'), before)


class TestUnread(EdgeTest):
    """Ends or refuses a table over files that are missing, folders, or not permitted."""

    def setUp(self) -> None:
        """Writes a report of one table with a row."""
        super().setUp()
        self.report({"t1": {}})
        self.write({"t1.csv": "cash\n1\n"})
        self.table = self.folder / "t1.csv"

    def test_a_missing_table(self) -> None:
        """Refuses a table without a file."""
        self.table.unlink()
        seen = self.convert()
        self.assertEqual((seen.status, seen.err), (1, table_fault("t1", 0, 0, "NoFile (20)")))

    def test_a_folder_as_a_table(self) -> None:
        """Refuses a table whose file is a folder, with the same document."""
        self.table.unlink()
        head = self.convert().out
        self.table.mkdir()
        self.check_run(self.convert(), 1, head, table_fault("t1", 0, 0, "Read (21)"))

    def test_missing_files(self) -> None:
        """Ends if META or the types table is missing."""
        for words in ["nothing", "--types", "types.csv"], ["meta.json", "--types", "nothing"]:
            with self.subTest(words=words):
                seen = self.run_program(*words)
                self.check_run(seen, 3, b"", "xbrl-json: cannot read nothing\n")
        (self.folder / "types.csv").unlink()
        self.check_run(self.convert(), 3, b"", "xbrl-json: cannot read types.csv\n")

    def test_folders(self) -> None:
        """Ends if META or the types table is a folder."""
        seen = self.run_program(".", "--types", "types.csv")
        self.check_run(seen, 1, b"", "xbrl-json: report: Read (17)\n")
        seen = self.run_program("meta.json", "--types", ".")
        self.check_run(seen, 1, b"", "xbrl-json: types: Read (17)\n")

    def test_a_parameters_file(self) -> None:
        """Ends if the parameters file is missing or a folder, and else converts."""
        self.write({"meta.json": metadata({"t1": {}}, parameterURL="parameters.csv")})
        self.check_run(self.convert(), 3, b"", "xbrl-json: cannot read parameters.csv\n")
        (self.folder / "parameters.csv").mkdir()
        self.check_run(self.convert(), 1, b"", "xbrl-json: parameters: Read (17)\n")
        (self.folder / "parameters.csv").rmdir()
        self.write({"parameters.csv": "name,value\na,1\n"})
        self.assertEqual(self.convert().status, 0)

    def test_a_path_through_a_file(self) -> None:
        """Leaves out an optional table whose path leads through a file."""
        self.report({"t1": {"url": "types.csv/t1.csv", "optional": True}})
        status, out, err = self.convert()
        self.assertEqual((status, facts(out), err), (0, {}, ""))

    def test_a_table_without_permission(self) -> None:
        """Refuses a table that may not be read, even if it is optional."""
        self.report({"t1": {"optional": True}})
        self.table.chmod(0)
        os.chmod(self.folder, 0o755)
        nobody: dict[str, Any] = {} if os.getuid() else {"user": NOBODY, "group": NOBODY}
        seen = self.convert(**nobody)
        self.assertEqual((seen.status, seen.err), (1, table_fault("t1", 0, 0, "Read (21)")))


class TestManyFiles(EdgeTest):
    """Reads many tables with little of what the system gives."""

    def test_few_descriptors(self) -> None:
        """Converts 4,096 tables with 32 open files and 8 workers."""
        tables = [f"t{i:04}" for i in range(4096)]
        self.report({it: {"optional": True} for it in tables})
        self.write({f"{it}.csv": "cash\n1\n" for it in tables})

        def limited() -> None:
            resource.setrlimit(resource.RLIMIT_NOFILE, (32, 32))

        status, out, err = self.convert("--workers", "8", preexec_fn=limited)
        self.assertEqual((status, err), (0, ""))
        self.assertEqual(len(facts(out)), 4096)

    def test_many_refused_tables(self) -> None:
        """Prints a line for each of 300 refused tables."""
        tables = [f"t{i:04}" for i in range(300)]
        self.report({it: {} for it in tables})
        self.write({f"{it}.csv": "cash\nx\n" for it in tables})
        lines = "".join(table_fault(it, 1, 1, "BadNumber (40)") for it in tables)
        for workers in ("1", "4"):
            with self.subTest(workers=workers):
                status, _, err = self.convert("--workers", workers)
                self.assertEqual(status, 1)
                self.check_same(err, lines)

    def switches(self, *words: str) -> tuple[int, bytes]:
        """Returns how often the threads of a run gave their processor up, and the document."""
        with tempfile.TemporaryFile() as out:
            command = [PROGRAM, *WORDS, *words]
            none = subprocess.DEVNULL
            with subprocess.Popen(command, cwd=self.folder, stdin=none, stdout=out) as run:
                usage = os.wait4(run.pid, 0)[2]
                run.returncode = 0
            out.seek(0)
            return usage.ru_nvcsw, out.read()

    def few_switches(self, rows: list[int], most: int) -> None:
        """Checks how often threads sleep for each table: the least of three runs.

        Other work on the machine may only add to it.
        """
        document = self.short_tables(rows)
        for workers, ring in [(2, 1), (16, 1), (64, 1), (64, 4), (64, 1024)]:
            with self.subTest(workers=workers, ring=ring):
                counts: list[int] = []
                while len(counts) < 3 and min(counts, default=most + 1) > most:
                    words = ["--workers", str(workers), "--ring", str(ring)]
                    switches, seen = self.switches(*words)
                    self.check_same(seen, document)
                    counts.append(-(-switches // len(rows)))
                self.assertLessEqual(min(counts), most)

    def test_few_switches_of_short_tables(self) -> None:
        """Wakes no thread that cannot go on, over tables of one row."""
        self.few_switches([1] * 1024, 4)

    def test_few_switches_of_longer_tables(self) -> None:
        """Wakes no thread that cannot go on, over tables of 300 rows."""
        self.few_switches([300] * 256, 16)


class TestPipes(EdgeTest):
    """Reads tables from pipes, and files without end."""

    def test_a_named_pipe(self) -> None:
        """Converts a table that is a named pipe."""
        self.report({"t1": {}})
        pipe = self.folder / "t1.csv"
        os.mkfifo(pipe)
        threading.Thread(target=lambda: pipe.write_text("cash\n1\n2\n"), daemon=True).start()
        status, out, err = self.convert()
        self.assertEqual((status, err), (0, ""))
        self.assertEqual(len(facts(out)), 2)

    def test_late_tables(self) -> None:
        """Ends with the same document if tables are late and all rings are full."""
        document = self.short_tables([600] * 12)
        for workers, ring in [(1, 1), (2, 1), (3, 2), (16, 1), (64, 4)]:
            with self.subTest(workers=workers, ring=ring):
                for name in ("t0000", "t0005", "t0006"):
                    self.write_late(f"{name}.csv", [0.02] + [0] * 598)
                seen = self.convert("--workers", str(workers), "--ring", str(ring))
                self.check_run(seen, 0, document, "")

    def endless(self, words: list[str], said: str) -> None:
        """Checks the line of a file without end, in 256 MiB of memory."""
        self.report({"t1": {}})
        os.symlink("/dev/zero", self.folder / "t1.csv")
        seen = self.run_program(*words, "--workers", "1", preexec_fn=limited_memory)
        self.assertEqual((seen.status, seen.err), (1, said))

    def test_an_endless_metadata(self) -> None:
        """Finds it too large."""
        words = ["/dev/zero", "--types", "types.csv"]
        self.endless(words, "xbrl-json: report: TooLarge (15)\n")

    def test_an_endless_types_table(self) -> None:
        """Takes the memory that the system gives, because a record has no limit."""
        self.endless(["meta.json", "--types", "/dev/zero"], "xbrl-json: types: Memory (16)\n")

    def test_an_endless_table(self) -> None:
        """Takes the memory that the system gives."""
        self.endless(WORDS, table_fault("t1", 0, 0, "Memory (42)"))

    def test_a_short_table_in_little_memory(self) -> None:
        """Converts in the same memory."""
        self.report({"t1": {}})
        self.write({"t1.csv": "cash\n1\n"})
        status, out, err = self.convert("--workers", "1", preexec_fn=limited_memory)
        self.assertEqual((status, err), (0, ""))
        self.assertEqual(len(facts(out)), 1)
