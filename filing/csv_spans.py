"""Where the records and cells of a CSV file are, as xbrl-json reads them (RFC 4180)."""

from __future__ import annotations

import mmap
import re
from typing import Iterator, Tuple

from .page_text import cut

MARK = b"\xef\xbb\xbf"
LINE_ENDS = re.compile(rb"[\r\n]*")
ONE_LINE_END = re.compile(rb"\r\n?|\n")
FIELD_END = re.compile(rb"[,\r\n]")
# A record in which each quote opens or closes a field, or is doubled in one.
PLAIN_FIELD = rb'(?:"[^"]*(?:""[^"]*)*"[^",\r\n]*|[^",\r\n]*)'
PLAIN_RECORD = re.compile(rb"%b(?:,%b)*(?=[\r\n]|\Z)" % (PLAIN_FIELD, PLAIN_FIELD))

Span = Tuple[int, int]  # where a record begins and ends


def all_spans(data: mmap.mmap) -> Iterator[Span]:
    """Yield where each record of a CSV file begins and ends. Empty lines are not records."""
    at = len(MARK) if data[: len(MARK)] == MARK else 0
    size = len(data)
    while True:
        blank = LINE_ENDS.match(data, at)
        start = blank.end() if blank else at
        if start == size:
            return
        at = record_end(data, start)
        yield start, at


def record_end(data: mmap.mmap, start: int) -> int:
    """Return where a record ends: at the end of its line or of the file (RFC 4180).

    `start` is its first byte. Quotes count as they do for xbrl-json.
    """
    plain = PLAIN_RECORD.match(data, start)
    if plain:
        return plain.end()
    at = start
    while True:
        field = FIELD_END.search(data, behind_quotes(data, at) if data[at : at + 1] == b'"' else at)
        if not field:
            return len(data)
        if data[field.start()] != ord(","):
            return field.start()
        at = field.end()


def behind_quotes(data: mmap.mmap, at: int) -> int:
    """Return the place after the closing quote, or the end of the file.

    `at` is the place of the opening quote.
    """
    while True:
        at = data.find(b'"', at + 1)
        if at < 0:
            return len(data)
        if data[at + 1 : at + 2] != b'"':
            return at + 1
        at += 1


def cells_of(data: mmap.mmap, span: Span, most: int, longest: int) -> Iterator[str]:
    """Yield the first cells of a record, each cut. Quotes count as they do for xbrl-json."""
    at, end = span
    for _ in range(most):
        text, at = cell_at(data, at, end, longest)
        yield text
        if at >= end:
            return
        at += 1


def cell_at(data: mmap.mmap, at: int, end: int, longest: int) -> Tuple[str, int]:
    """Return the text of the cell that begins at a place, cut, and where the cell ends.

    Text after a closing quote belongs to the cell.
    """
    most = 4 * longest + 4  # a character has at most four bytes
    inside = b""
    if at < end and data[at : at + 1] == b'"':
        behind = behind_quotes(data, at)
        quoted = data[at + 1 : min(behind, at + 2 * most)]
        is_closed = at + 1 < behind <= at + 2 * most and quoted.endswith(b'"')
        inside = (quoted[:-1] if is_closed else quoted).replace(b'""', b'"')
        at = behind
    found = FIELD_END.search(data, at, end)
    behind = found.start() if found else end
    text = inside + data[at : min(behind, at + most)]
    return cut(text.decode("utf-8", "surrogateescape"), longest), behind
