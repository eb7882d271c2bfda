"""A report for the tests of the real system: its files, its terminal, its limits."""
from __future__ import annotations

import json
import os
import pty
import resource
import signal
import subprocess
import threading
import time
from collections.abc import Mapping
from pathlib import Path
from typing import Any

from tests.harness import PROGRAM, TYPES, Done, TestCase, metadata

WORDS = ["meta.json", "--types", "types.csv"]
# No arguments.
NOTHING: list[str] = []
FAILED_WRITE = Done(3, b"", "xbrl-json: output: Write (56)\n")


def table_fault(table: str, row: int, column: int, fault: str) -> str:
    """Returns the line of a fault, which has its name and number."""
    return f"xbrl-json: table {table}, row {row}, column {column}: {fault}\n"


def facts(document: bytes) -> dict[str, Any]:
    """Returns the facts of a document, by their identifiers."""
    found: dict[str, Any] = json.loads(document)["facts"]
    return found


def limited_files(most: int) -> None:
    """Limits the size of files to this many bytes, and ignores the signal of that."""
    signal.signal(signal.SIGXFSZ, signal.SIG_IGN)
    resource.setrlimit(resource.RLIMIT_FSIZE, (most, most))


def limited_memory() -> None:
    """Limits the run to 256 MiB of memory."""
    resource.setrlimit(resource.RLIMIT_AS, (1 << 28, 1 << 28))


class EdgeTest(TestCase):
    """A test with a report of tables over one template."""

    def report(self, tables: Mapping[str, Mapping[str, Any]], **more: Any) -> None:
        """Writes a report of tables, each given by its identifier and its members."""
        self.write({"meta.json": metadata(tables, **more), "types.csv": TYPES})

    def convert(self, *words: str, **more: Any) -> Done:
        """Runs the program over the report."""
        return self.run_program(*WORDS, *words, **more)

    def names(self) -> list[str]:
        """Returns the names of all files at the top of the folder."""
        return sorted(it.name for it in self.folder.iterdir())

    def short_tables(self, rows: list[int]) -> bytes:
        """Writes a report with tables of these numbers of rows.

        Returns its document by one worker.
        """
        names = [f"t{at:04}" for at in range(len(rows))]
        self.report({name: {} for name in names})
        self.write({f"{name}.csv": "cash\n" + "1\n" * n for name, n in zip(names, rows)})
        return self.convert("--workers", "1").out

    def write_late(self, name: str, pauses: list[float]) -> None:
        """Replaces a table by a pipe that gets a row, then after each pause one more."""
        pipe: Path = self.folder / name
        pipe.unlink(missing_ok=True)
        os.mkfifo(pipe)

        def write() -> None:
            with open(pipe, "w") as out:
                out.write("cash\n1\n")
                out.flush()
                for pause in pauses:
                    time.sleep(pause)
                    out.write("1\n")
                    out.flush()

        threading.Thread(target=write, daemon=True).start()

    def on_a_terminal(self, *words: str, **variables: str) -> str:
        """Returns standard error of a run on a terminal with colours.

        The run's environment has no `NO_COLOR` but that of `variables`.
        """
        ours, theirs = pty.openpty()
        command = [PROGRAM, *words]
        none = subprocess.DEVNULL
        kept = {name: text for name, text in os.environ.items() if name != "NO_COLOR"}
        env = {**kept, "TERM": "xterm", **variables}
        with subprocess.Popen(
            command, cwd=self.folder, stdin=none, stdout=none, stderr=theirs, env=env
        ):
            os.close(theirs)
            seen = b""
            while True:
                try:
                    more = os.read(ours, 4096)
                except OSError:
                    more = b""
                if not more:
                    break
                seen += more
        os.close(ours)
        return seen.decode()
