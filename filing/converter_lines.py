"""The lines of xbrl-json, in the names of the filing.

The files that were prepared for it are temporary, so their names would mean nothing.
"""

from __future__ import annotations

import os
import re
import sys
from contextlib import suppress
from typing import Dict, Optional, Tuple

from .origins import Origins
from .refusals import escaped

# With `--explain`, a line below that of a fault may have a place in the metadata, as a JSON
# pointer, and what is there.
PLACE = re.compile(
    r"([ \t]+(?:by |the same cause as in table [^:]*: )?)(/.*?)(: .*)?", re.DOTALL
)
FAULT_OF_METADATA = "xbrl-json: report: "


class ConverterLines:
    """Hands the lines of xbrl-json on to standard error, each as soon as it is whole."""

    def __init__(self, origins: Origins, folder: str, names: Dict[str, str]) -> None:
        self.origins = origins
        self.folder = folder + "/"
        self.names = names  # what the filing calls a file, by its name in the folder
        self.for_terminal = bool(sys.stderr and sys.stderr.isatty())
        self.begun = b""
        self.causes: Dict[Tuple[str, str], Tuple[str, str]] = {}  # so a cause is looked up once
        self.of_metadata = self.placed = False

    def hear(self, piece: bytes) -> None:
        """Take what xbrl-json has printed since the last call."""
        *lines, self.begun = (self.begun + piece).split(b"\n")
        for line in lines:
            put(self.told(line) + b"\n")

    def end(self) -> Optional[str]:
        """Hand on a last line without an end.

        Return a line that lists the joined files if a fault of the metadata had no place, else
        None.
        """
        put(self.told(self.begun) if self.begun else b"")
        if not self.of_metadata or self.placed:
            return None
        files = self.origins.labels()
        if len(files) < 2:
            return None
        return f"'report' is the metadata that was joined of {', '.join(files)}; --prepare FOLDER writes it as one file"

    def told(self, line: bytes) -> bytes:
        """Return a line as it is handed on: unchanged except for names of files and places."""
        text = line.decode("utf-8", "surrogateescape")
        self.of_metadata = self.of_metadata or text.startswith(FAULT_OF_METADATA)
        text = self.renamed(text)
        found = PLACE.fullmatch(text)
        place = self.origins.place(found[2]) if found else None
        if found and place:
            self.placed = True
            text = f"{found[1]}{place[0]}: {place[1]}{found[3] or ''}"
        return (escaped(text) if self.for_terminal else text).encode("utf-8", "surrogateescape")

    def place(self, text: str) -> str:
        """Return a place of the file of `--faults` in the names of the filing."""
        found = self.origins.place(text)
        return f"{found[0]}: {found[1]}" if found else self.renamed(text)

    def cause(self, file: str, cell: str) -> Tuple[str, str]:
        """Return the file and the cell of a cause in the names of the filing."""
        if (file, cell) not in self.causes:
            found = self.origins.place(cell) if cell.startswith("/") else None
            self.causes[file, cell] = found or (self.renamed(file), cell)
        return self.causes[file, cell]

    def renamed(self, text: str) -> str:
        """Return a text with the filing's names for the files of the folder."""
        before, *behind = text.split(self.folder)
        return before + "".join(self.named(part) for part in behind)

    def named(self, rest: str) -> str:
        """Return what follows the folder's path in a line, with the file's name in the filing.

        The longest name that fits counts.
        """
        name = max((name for name in self.names if rest.startswith(name)), key=len, default="")
        return self.names[name] + rest[len(name) :] if name else self.folder + rest


def put(text: bytes) -> None:
    """Write bytes to standard error, if there is one."""
    with suppress(OSError):
        while text and sys.stderr is not None:
            text = text[os.write(2, text) :]
