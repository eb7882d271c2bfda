"""A report for the tests of `--faults FILE`, its records, and files that are read once."""
from __future__ import annotations

import csv
import io
import os
import threading
from collections.abc import Mapping
from pathlib import Path
from typing import Any

from tests.harness import TYPES, Done, TestCase, metadata

WORDS = ["r/m.json", "--types", "t.csv"]
NAMES = ["table_id", "table_row", "table_column", "fault_number", "fault_name", "line"]
NAMES += ["header_cell", "row_cell", "place"]
NAMES += ["cause_file", "cause_line", "cause_cell", "cause_text"]
NO_CAUSE = [""] * 4
HEADER = (",".join(NAMES) + "\n").encode()
REFUSED = HEADER + b"t1,1,1,40,BadNumber,2,cash,x,,,,,\n"


def records(content: bytes | None) -> list[list[str]]:
    """Returns the records of a file, which is UTF-8, as Python's CSV reader reads them."""
    text = io.StringIO((content or b"").decode(), newline="")
    return list(csv.reader(text, strict=True))


def cannot_write(path: str) -> tuple[int, bytes, str]:
    """Returns how a run ends that cannot write a file."""
    return 3, b"", f"xbrl-json: cannot write {path}\n"


class FaultsTest(TestCase):
    """A test of the file of faults."""

    def report(
        self,
        tables: Mapping[str, bytes | None],
        members: Mapping[str, Any] | None = None,
        **more: Any,
    ) -> None:
        """Writes a report whose tables have these files, and these further members."""
        meta = metadata({name: members or {} for name in tables}, **more)
        self.write({"r/m.json": meta, "t.csv": TYPES})
        self.write({f"r/{name}.csv": it for name, it in tables.items() if it is not None})

    def convert(self, *words: str, **more: Any) -> Done:
        """Runs the program over the report."""
        return self.run_program(*WORDS, *words, **more)

    def faults(self) -> bytes | None:
        """Returns the file of faults."""
        return self.read("f.csv")

    def read_once_only(self, path: str) -> None:
        """Replaces a file by a named pipe that gives its content to its first reader."""
        file: Path = self.folder / path
        content = file.read_bytes()
        file.unlink()
        os.mkfifo(file)
        threading.Thread(target=lambda: file.write_bytes(content), daemon=True).start()
