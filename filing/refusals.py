"""What ends a run early: one line for standard error, and a status."""

from __future__ import annotations

import os
from typing import NamedTuple, Optional

WRONG = 1  # the report or the taxonomy is wrong
WORDS = 2  # the command line is wrong
FILES = 3  # a file does not exist, or cannot be read or written; or this program is at fault
LONGEST_LINE = 2000
DEBUG = "XBRL_FILING_DEBUG"  # 1 lets the traceback of a fault of this program through


class Spot(NamedTuple):
    """A cell of a CSV file: the line at which its record begins, and its number. Both from 1."""

    line: int
    cell: int


class Refusal(Exception):
    """A run that ends without a document.

    The line is `FILE: what`, or only `what` if no file is at fault. A cell of a file is named as
    `FILE, line N, cell N`, as xbrl-json does it.
    """

    def __init__(self, status: int, file: str, what: str, spot: Optional[Spot] = None) -> None:
        super().__init__(what)
        self.status = status
        self.what = what
        self.place = f"{file}, line {spot.line}, cell {spot.cell}" if spot else file
        self.line = f"{self.place}: {what}" if file else what


def wrong(file: str, what: str, spot: Optional[Spot] = None) -> Refusal:
    """Return the refusal of a report or a taxonomy that is wrong."""
    return Refusal(WRONG, file, what, spot)


def cannot_read(file: str, error: OSError) -> Refusal:
    """Return the refusal of a file that the system does not give."""
    return Refusal(FILES, file, f"cannot read ({error.strerror or error})")


def cannot_write(file: str, why: object) -> Refusal:
    """Return the refusal of a file that cannot be written, or must not be."""
    return Refusal(FILES, file, f"cannot write ({why.strerror if isinstance(why, OSError) and why.strerror else why})")


def lets_through() -> bool:
    """Return whether the traceback of a fault of this program is asked for."""
    return os.environ.get(DEBUG) == "1"


def printable(text: str) -> str:
    """Return a text as a line shows it: a very long one is cut."""
    if len(text) > LONGEST_LINE:
        text = f"{text[: LONGEST_LINE // 2]} .. {text[-LONGEST_LINE // 2 :]}"
    return escaped(text)


def escaped(text: str) -> str:
    """Return a text with control characters, line ends and broken bytes as escapes.

    So a line stays one line.
    """
    return "".join(letter if letter.isprintable() else letter.encode("unicode_escape").decode() for letter in text)
