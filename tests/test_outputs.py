"""Tests the document's file: full, closed, replaced, misnamed, too long, and --whole."""
from __future__ import annotations

import hashlib
import os
import resource
import shutil
import signal
import stat
import subprocess
from pathlib import Path
from typing import Any

from tests.edges import FAILED_WRITE, NOTHING, WORDS, EdgeTest, limited_files, table_fault
from tests.harness import PATIENCE, PROGRAM, TOP, Done, held, metadata

UMASK = os.umask(0)
os.umask(UMASK)
REFUSED_T2 = table_fault("t2", 1, 1, "BadNumber (40)")


class OutputTest(EdgeTest):
    """A test with a report of two tables, and its document."""

    def setUp(self) -> None:
        """Writes the report."""
        super().setUp()
        self.report({"t1": {}, "t2": {}})
        self.write({"t1.csv": "cash\n1\n", "t2.csv": "cash\n2\n"})
        self.document = self.convert().out
        self.out = self.folder / "out.json"


class TestOutputs(OutputTest):
    """Writes to --out and to standard output."""

    def test_a_longer_file(self) -> None:
        """Replaces a longer file."""
        self.out.write_bytes(b"x" * 100_000)
        self.check_run(self.convert("--out", "out.json"), 0, b"", "")
        self.check_same(self.out.read_bytes(), self.document)

    def test_a_missing_folder(self) -> None:
        """Refuses a file in a folder that is missing, also if its path is long."""
        for path in ("no/out.json", f"no/{'long' * 60}.json", f"{'no/' * 1_000}out.json"):
            with self.subTest(path=path):
                said = f"xbrl-json: cannot write {path}\n"
                self.check_run(self.convert("--out", path), 3, b"", said)

    def test_inputs(self) -> None:
        """Refuses META and the types table."""
        for path in ("meta.json", "types.csv"):
            with self.subTest(path=path):
                before = self.read(path)
                seen = self.convert("--out", path)
                self.check_run(seen, 3, b"", f"xbrl-json: cannot write {path}\n")
                self.assertEqual(self.read(path), before)

    def test_a_full_disk(self) -> None:
        """Ends with a failed write, by --out and on standard output."""
        self.check_run(self.convert("--out", "/dev/full"), *FAILED_WRITE)
        for words in (WORDS, NOTHING):
            with self.subTest(words=words), open("/dev/full", "wb") as full:
                self.check_run(self.run_program(*words, stdout=full), *FAILED_WRITE)

    def test_a_closed_pipe(self) -> None:
        """Ends with a failed write."""
        read, write = os.pipe()
        os.close(read)
        with os.fdopen(write, "wb") as closed:
            self.check_run(self.convert(stdout=closed), *FAILED_WRITE)

    def test_a_refused_table(self) -> None:
        """Writes a prefix of the document, or ends with a failed write on a full disk."""
        self.write({"t2.csv": "cash\nx\n"})
        self.check_run(self.convert("--out", "/dev/full"), *FAILED_WRITE)
        status, out, err = self.convert()
        self.assertEqual((status, err), (1, REFUSED_T2))
        self.assertTrue(self.document.startswith(out) and b"t1.r_1" in out, out)


INPUTS = ["meta.json", "types.csv", "parameters.csv", "t1.csv", "t2.csv"]


class TestOutputsOverInputs(EdgeTest):
    """Refuses --out with a path to a file of the report, and touches nothing."""

    def setUp(self) -> None:
        """Writes a report with a parameters file and two tables, one of them optional.

        Each file has further names: `hard.`, `soft.` and `folder/`.
        """
        super().setUp()
        meta = metadata({"t1": {}, "t2": {"optional": True}}, parameterURL="parameters.csv")
        self.report({})
        self.write({"meta.json": meta, "parameters.csv": "name,value\na,1\n"})
        self.write({"t1.csv": "cash\n1\n", "t2.csv": "cash\n1\n"})
        for name in INPUTS:
            os.link(self.folder / name, self.folder / f"hard.{name}")
            os.symlink(name, self.folder / f"soft.{name}")
        (self.folder / "folder").mkdir()

    def paths(self, name: str) -> list[str]:
        """Returns paths to a file."""
        return [name, f"./{name}", f"{self.folder}/{name}", f"folder/../{name}", f"soft.{name}"]

    def test_each_path(self) -> None:
        """Refuses each path to each file."""
        before = held(self.folder)
        ways: list[list[str]] = [[], ["--workers", "1"], ["--whole"], ["--whole", "--progress"]]
        for name in INPUTS:
            for path in (*self.paths(name), f"hard.{name}", f"{self.folder}/soft.{name}"):
                for words in ways:
                    with self.subTest(path=path, words=words):
                        status, out, err = self.convert(*words, "--out", path)
                        lines = err.splitlines()
                        said = lines[-1:] if "--progress" in words else lines
                        self.assertEqual((status, out), (3, b""))
                        self.assertEqual(said, [f"xbrl-json: cannot write {path}"])
                        self.assertEqual(held(self.folder), before)

    def missing(self, name: str) -> None:
        """Refuses each path to a file that does not exist.

        The new file of --whole does not create one at the path of the parameters file, which then
        cannot be read. A dangling link is opened.
        """
        (self.folder / f"hard.{name}").unlink()
        (self.folder / name).unlink()
        before = held(self.folder)
        for path in self.paths(name):
            for words in NOTHING, ["--whole"], ["--whole", "--workers", "1"]:
                with self.subTest(path=path, words=words):
                    seen = self.convert(*words, "--out", path)
                    is_unread = words and name == "parameters.csv" and not path.startswith("soft.")
                    wanted = f"read {name}" if is_unread else f"write {path}"
                    self.check_run(seen, 3, b"", f"xbrl-json: cannot {wanted}\n")
                    self.assertEqual(held(self.folder), before)

    def test_missing_tables(self) -> None:
        """Refuses the path of a table."""
        self.missing("t1.csv")

    def test_missing_optional_tables(self) -> None:
        """Refuses the path of an optional table."""
        self.missing("t2.csv")

    def test_missing_parameters(self) -> None:
        """Refuses the path of the parameters file."""
        self.missing("parameters.csv")

    def test_a_bad_metadata(self) -> None:
        """Empties --out if the metadata has a fault, but not with --whole, and no input."""
        self.write({"meta.json": "{", "out.json": "what was there"})
        for words, left in (["--whole"], b"what was there"), (NOTHING, b""):
            with self.subTest(words=words):
                seen = self.convert(*words, "--out", "out.json")
                self.check_run(seen, 1, b"", "xbrl-json: report: Syntax (1)\n")
                self.assertEqual(self.read("out.json"), left)
        seen = self.convert("--out", "hard.types.csv")
        self.check_run(seen, 3, b"", "xbrl-json: cannot write hard.types.csv\n")
        self.assertNotEqual(self.read("types.csv"), b"")


class TestWhole(OutputTest):
    """Leaves the whole document with --whole at status 0, else the old file, and no other."""

    def setUp(self) -> None:
        """Remembers the files of the report."""
        super().setUp()
        self.before = self.names()

    def whole(self, path: str = "out.json", **more: Any) -> Done:
        """Converts with --whole."""
        return self.convert("--whole", "--out", path, **more)

    def has(self, seen: Done, wanted: Done, path: Path, text: bytes, *more: str) -> None:
        """Checks that a run ends so, that a file has this text, and which files there are."""
        self.check_run(seen, *wanted)
        self.check_same(path.read_bytes(), text)
        self.assertEqual(self.names(), sorted([*self.before, *more]))

    def test_a_new_file(self) -> None:
        """Gives a new file the permissions of any."""
        self.has(self.whole(), Done(0, b"", ""), self.out, self.document, "out.json")
        self.assertEqual(stat.S_IMODE(self.out.stat().st_mode), 0o666 & ~UMASK)

    def test_an_old_file(self) -> None:
        """Keeps the permissions of the old file, and another name of it."""
        self.out.write_bytes(b"x" * 100_000)
        self.out.chmod(0o640)
        os.link(self.out, self.folder / "other")
        seen = self.whole("./out.json")
        self.has(seen, Done(0, b"", ""), self.out, self.document, "out.json", "other")
        self.assertEqual(stat.S_IMODE(self.out.stat().st_mode), 0o640)
        self.assertEqual((self.folder / "other").stat().st_size, 100_000)

    def test_links(self) -> None:
        """Writes through a link, and through one that leads nowhere."""
        real = self.folder / "real"
        os.symlink("real", self.out)
        real.write_bytes(b"old")
        for _ in range(2):
            seen = self.whole()
            self.has(seen, Done(0, b"", ""), real, self.document, "out.json", "real")
            self.assertTrue(self.out.is_symlink())
            real.unlink()

    def test_a_name_that_is_taken(self) -> None:
        """Leaves a file whose name the new file would take."""
        self.write({"out.json": "old", "out.json.new": "another's"})
        more = "out.json", "out.json.new"
        self.has(self.whole(), Done(0, b"", ""), self.out, self.document, *more)
        self.assertEqual(self.read("out.json.new"), b"another's")

    def test_a_refused_table(self) -> None:
        """Leaves the old file, or none."""
        self.write({"t2.csv": "cash\nx\n", "out.json": "old"})
        wanted = Done(1, b"", REFUSED_T2)
        self.has(self.whole(), wanted, self.out, b"old", "out.json")
        self.out.unlink()
        self.check_run(self.whole(), *wanted)
        self.assertEqual(self.names(), self.before)

    def test_paths_that_cannot_be_written(self) -> None:
        """Refuses a missing folder and a folder, and writes to a device directly."""
        for path in ("no/out.json", "."):
            self.check_run(self.whole(path), 3, b"", f"xbrl-json: cannot write {path}\n")
        self.check_run(self.whole("/dev/full"), *FAILED_WRITE)
        self.check_run(self.whole("/dev/stdout"), 0, self.document, "")

    def test_no_out(self) -> None:
        """Wants --out."""
        seen = self.convert("--whole")
        self.check_run(seen, 2, b"", "error: --whole wants --out FILE\n")

    def test_a_file_that_may_not_be_so_long(self) -> None:
        """Ends with a failed write, and leaves no file."""
        seen = self.whole(preexec_fn=lambda: limited_files(64))
        self.check_run(seen, *FAILED_WRITE)
        self.assertEqual(self.names(), self.before)


class TestFileSizes(EdgeTest):
    """Ends with a failed write at the limit of a file's size, if the signal is ignored."""

    def setUp(self) -> None:
        """Writes a report with a document of more than 5,000 bytes."""
        super().setUp()
        self.report({"t1": {}})
        self.write({"t1.csv": "cash\n" + "1\n" * 2000})

    def test_the_program(self) -> None:
        """Writes as many bytes as it may."""
        document = self.convert().out
        for words in NOTHING, ["--workers", "1"]:
            with self.subTest(words=words):
                limited = ["--out", "out.json"]
                seen = self.convert(*words, *limited, preexec_fn=lambda: limited_files(5000))
                self.check_run(seen, *FAILED_WRITE)
                self.assertEqual(self.read("out.json"), document[:5000])

    def launched(self) -> Path:
        """Makes a checkout whose ./xbrl-json runs the program, as one of other sources."""
        top = self.folder / "top"
        (top / "dist").mkdir(parents=True)
        for name in ("xbrl-json", "dist/sources.sh", "crates.txt", "HANDLES"):
            shutil.copy(TOP / name, top / name)
        shutil.copy(PROGRAM, top / "dist/xbrl-json")
        program = hashlib.sha256(Path(PROGRAM).read_bytes()).hexdigest()
        note = f"sources: {0:064}\nkit: none\nprogram: {0:064}\nxbrl-json: {program}\n"
        note += f"note: {hashlib.sha256(note.encode()).hexdigest()}\n"
        (top / "dist/SOURCES").write_text(note)
        return top

    def test_the_script(self) -> None:
        """Ignores the signal in ./xbrl-json."""

        def limited() -> None:
            signal.signal(signal.SIGXFSZ, signal.SIG_DFL)
            resource.setrlimit(resource.RLIMIT_FSIZE, (5000, 5000))

        done = subprocess.run(
            [self.launched() / "xbrl-json", *WORDS, "--out", "out.json"],
            cwd=self.folder,
            stdin=subprocess.DEVNULL,
            capture_output=True,
            preexec_fn=limited,
            timeout=PATIENCE,
        )
        seen = Done(done.returncode, done.stdout, done.stderr.decode())
        self.check_run(seen, *FAILED_WRITE)


class TestClosedDescriptors(OutputTest):
    """Runs without standard input, output or error, whose numbers files get.

    Still only the document goes into its file.
    """

    def converts(self, table: str, status: int) -> None:
        """Closes each choice of descriptors, with and without --out."""
        self.write({"t2.csv": table})
        files = {it: content for it, content in held(self.folder).items() if it != "out.json"}
        _, document, said = self.convert()
        for closed in ((0,), (1,), (2,), (0, 1), (1, 2), (0, 1, 2)):

            def close(closed: tuple[int, ...] = closed) -> None:
                for it in closed:
                    os.close(it)

            for words in NOTHING, ["--out", "out.json"]:
                with self.subTest(closed=closed, words=words):
                    seen = self.convert(*words, preexec_fn=close)
                    is_written = words or 1 not in closed
                    err = said if is_written else FAILED_WRITE.err
                    out = document if is_written and not words else b""
                    wanted = (status if is_written else 3, out, err if 2 not in closed else "")
                    self.check_run(seen, *wanted)
                    if words:
                        self.check_same(self.out.read_bytes(), document)
                    now = {it: held(self.folder)[it] for it in files}
                    self.assertEqual(now, files)

    def test_a_right_report(self) -> None:
        """Converts."""
        self.converts("cash\n2\n", 0)

    def test_a_refused_table(self) -> None:
        """Refuses a table."""
        self.converts("cash\nx\n", 1)
