"""The lines of xbrl-json while a page is made: kept for it, by the fault that they explain."""

from __future__ import annotations

import re
from typing import Dict, List, Optional, Tuple

from .converter_lines import ConverterLines, put
from .faults import Fault
from .origins import Origins

FAULT = re.compile(
    r"xbrl-json: (?:table (?P<table>.*), row (?P<row>\d+), column (?P<column>\d+)|.*):"
    r" [A-Za-z0-9]+ \((?P<number>\d+)\)"
)
BELOW = "    "  # how a line of `--explain` begins
# The fact, below a cause that is elsewhere: what is in its cell, and where that is.
FACT = re.compile(r"for (?P<found>.*): (?P<place>.*, line \d+, cell \d+)")
# Where the other faults of a table are: a page has them.
OTHERS = re.compile(r"and \d+ more in this table: see .*")
SAME = re.compile(r"the same cause as in table (?P<table>[^:]*): .*")
Key = Tuple[str, int, int, int]  # table, row, column and number of a fault


class KeptLines(ConverterLines):
    """Hands on the lines that were asked for, and keeps those of `--explain`."""

    def __init__(
        self, origins: Origins, folder: str, names: Dict[str, str], is_explained: bool
    ) -> None:
        super().__init__(origins, folder, names)
        self.is_explained = is_explained
        self.said: Dict[Key, List[str]] = {}
        self.key: Optional[Key] = None

    def hear(self, piece: bytes) -> None:
        """Take what xbrl-json has printed since the last call."""
        *lines, self.begun = (self.begun + piece).split(b"\n")
        for line in lines:
            before, told = self.placed, self.told(line)
            text = told.decode("utf-8", "surrogateescape")
            self.keep(text)
            if self.is_explained or not text.startswith(BELOW):
                put(told + b"\n")
            else:
                self.placed = before

    def keep(self, text: str) -> None:
        """Keep a line that explains a fault; note which fault the next lines are of."""
        if text.startswith(BELOW):
            if self.key is not None and not OTHERS.fullmatch(text[len(BELOW) :]):
                self.said.setdefault(self.key, []).append(text[len(BELOW) :])
            return
        found = FAULT.fullmatch(text)
        self.key = None
        if found:
            table, row, column = found["table"] or "", found["row"] or 0, found["column"] or 0
            self.key = (table, int(row), int(column), int(found["number"]))

    def of(self, fault: Fault) -> List[str]:
        """Return what is told of a fault: its place, the text there, what is wrong, the causes."""
        lines = self.said.get((fault.table, fault.row, fault.column, fault.number), [])
        same = SAME.fullmatch(lines[0]) if lines else None
        if not same:
            return sorted_lines(lines)
        told = [said for key, said in self.said.items() if key[0] == same["table"]]
        return ["", "", *(sorted_lines(told[0])[2:3] if told else []), lines[0]]


def sorted_lines(lines: List[str]) -> List[str]:
    """Return the lines below a fault with its own place first, a cause elsewhere among the last."""
    for at, line in enumerate(lines[2:], 2):
        fact = FACT.fullmatch(line)
        if fact:
            why = lines[1]
            return [fact["place"], fact["found"], why, lines[0], *lines[2:at], *lines[at + 1 :]]
    return lines
