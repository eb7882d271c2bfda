"""The cells of some columns of a table, as far as a CSV reader has them."""

from __future__ import annotations

import csv
import io
import os
from contextlib import suppress
from typing import Container, Iterator, List, Tuple

from .csv_text import records_of_report
from .prepared import Files

Cell = Tuple[int, str, str]  # a row, a column and a text


class Pieces(io.RawIOBase):
    """A file that is read from pieces of bytes."""

    def __init__(self, pieces: Iterator[bytes]) -> None:
        super().__init__()
        self.pieces, self.left = pieces, b""

    def readable(self) -> bool:
        """Return that it can be read."""
        return True

    def readinto(self, into: memoryview) -> int:  # type: ignore[override]
        """Fill a part of `into`, and return how much of it."""
        self.left = self.left or next(self.pieces, b"")
        size = min(len(into), len(self.left))
        into[:size] = self.left[:size]
        self.left = self.left[size:]
        return size


def is_pipe(files: Files, url: str) -> bool:
    """Return whether a table is a pipe or a device: it can be read once, and that by xbrl-json."""
    name = files.name(url)
    if not files.package.has(name):
        return False
    path = files.package.path_on_disk(name)
    return path is not None and not os.path.isfile(path)


def pieces_of(files: Files, url: str) -> Iterator[bytes]:
    """Yield the bytes of a table that is a regular file."""
    name = files.name(url)
    if files.package.has(name) and not is_pipe(files, url):
        yield from files.package.pieces(name)


def rows_of(files: Files, url: str) -> Iterator[List[str]]:
    """Yield the records of a table, its header first. What is wrong is left to xbrl-json."""
    with suppress(csv.Error):
        yield from records_of_report(io.BufferedReader(Pieces(pieces_of(files, url))))


def cells_of(files: Files, url: str, columns: Container[str]) -> Iterator[Cell]:
    """Yield the cells of some columns of a table."""
    rows = rows_of(files, url)
    header: List[str] = next(rows, [])
    places = [(at, name) for at, name in enumerate(header) if name in columns]
    for number, row in enumerate(rows, 1):
        yield from ((number, name, row[at]) for at, name in places if at < len(row))
