"""The outcome of each report of a run over many, as one line of CSV or JSON."""

from __future__ import annotations

import io
import json
import os
import re
from contextlib import suppress
from dataclasses import asdict, dataclass, fields, replace
from typing import Dict, Iterable, Optional

from .csv_text import record
from .locks import locked, write_aside
from .refusals import FILES, WRONG, cannot_write
from .whole_files import aside_of

# The outcome words. A report with one of the first two is not converted again.
DONE, REFUSED = "done", "refused"
READ, MEMORY, THREAD, SIGNAL = "read", "memory", "thread", "signal"
TIME_LIMIT, MEMORY_LIMIT, BUSY = "time-limit", "memory-limit", "busy"
FAILED = "failed"
FINAL = (DONE, REFUSED)
# What may be done if the same run is started again. FAILED is for a person to look at.
TO_RETRY = (READ, MEMORY, THREAD, SIGNAL, TIME_LIMIT, MEMORY_LIMIT, BUSY)
# The status of a run that is to be tried again: EX_TEMPFAIL of sysexits.h.
TRY_AGAIN = 75

# The faults of docs/FAULTS.md that come from the system, not from the report.
OF_THE_SYSTEM = {16: MEMORY, 17: READ, 21: READ, 42: MEMORY, 43: THREAD, 53: MEMORY}
FAULT_LINE = re.compile(rb"xbrl-json: .*: [A-Za-z]+ \(([0-9]+)\)")
NO_MEMORY = b"xbrl-filing: there is not enough memory"
# What the system refuses for now, by its words in a line of status 3.
OF_THE_MOMENT = {
    b"Cannot allocate memory": MEMORY,
    b"Resource temporarily unavailable": THREAD,
    b"Input/output error": READ,
    b"Stale file handle": READ,
}
REFUSED_BY_SYSTEM = re.compile(rb"xbrl-filing: .*: cannot [a-z ]+ \(([A-Za-z/ ]+)\)")
FIRST_BYTES = 1 << 20  # of a log; the line of a fault is among the first


@dataclass(frozen=True)
class Outcome:
    """What became of one report. `memory` is the peak of its largest process, in bytes."""

    report: str
    digest: str = ""
    status: int = 0
    outcome: str = DONE
    seconds: float = 0.0
    memory: int = 0
    faults: int = 0
    document: str = ""
    line: str = ""

    def json(self) -> str:
        """Return the outcome as a line of JSON."""
        return json.dumps(asdict(self)) + "\n"

    def csv(self) -> str:
        """Return the outcome as a record of CSV."""
        return record(asdict(self).values())


HEADER = record(field.name for field in fields(Outcome))


def read_outcome(path: str) -> Optional[Outcome]:
    """Return the outcome that a file has, or None if it has none that is whole."""
    with suppress(OSError, ValueError, TypeError, RecursionError):
        with open(path, "rb") as file:
            value = json.loads(file.read(FIRST_BYTES))
        return Outcome(**{field.name: value[field.name] for field in fields(Outcome) if field.name in value})
    return None


def write_outcome(path: str, outcome: Outcome) -> None:
    """Write an outcome to a new file that gets the name at once, so that no run reads a part.

    Refuse with status 3 if the file cannot be written.
    """
    try:
        write_aside(path, aside_of(path), [outcome.json().encode()])
    except OSError as error:
        raise cannot_write(path, error) from None


def first_line(log: bytes) -> str:
    """Return the first line of a log that a program wrote."""
    lines = log.split(b"\n")
    line = next((line for line in lines if line.startswith((b"xbrl-json: ", b"xbrl-filing: "))), lines[0])
    return line.decode("utf-8", "surrogateescape")


def word_of(status: int, numbers: Iterable[int], log: bytes, signal: bool) -> str:
    """Return the outcome word of a run by its status, its faults' numbers and its lines.

    If one of several faults comes from the system, the report may have no fault of its own: its
    word is that of the system's fault.
    """
    if signal or status > 128:
        return SIGNAL
    if status == 0:
        return DONE
    lines = log.split(b"\n")
    found = (FAULT_LINE.fullmatch(line) for line in lines)
    told = [*numbers, *(int(match[1]) for match in found if match)]
    words = [OF_THE_SYSTEM[number] for number in told if number in OF_THE_SYSTEM]
    if NO_MEMORY in lines:
        words.append(MEMORY)
    if status == FILES:
        refused = (REFUSED_BY_SYSTEM.fullmatch(line) for line in lines)
        words += [OF_THE_MOMENT[why[1]] for why in refused if why and why[1] in OF_THE_MOMENT]
    if words:
        return words[0]
    return REFUSED if status == WRONG else FAILED


def limited(outcome: Outcome, late: bool, memory_limit: Optional[int]) -> Outcome:
    """Return the outcome with the word of a limit that the report broke."""
    if late:
        return replace(outcome, outcome=TIME_LIMIT)
    if outcome.outcome == MEMORY and memory_limit is not None:
        return replace(outcome, outcome=MEMORY_LIMIT)
    return outcome


def status_of(words: Dict[str, int]) -> int:
    """Return the status of a whole run by how many reports have each outcome word."""
    if any(words.get(word) for word in TO_RETRY):
        return TRY_AGAIN
    if words.get(FAILED):
        return FILES
    return WRONG if words.get(REFUSED) else 0


class OutcomeFile:
    """The file of `--outcomes`, with a line for each report that has ended."""

    def __init__(self, path: Optional[str]) -> None:
        """Begin the file anew: JSON lines if it is called so, else CSV. Without a path, no file.

        Refuse one that another run writes, because the lines would mix.
        """
        self.path = path
        self.json = path is not None and path.endswith((".jsonl", ".ndjson", ".json"))
        self.file: Optional[io.FileIO] = None
        if path is not None:
            try:
                self.file = io.FileIO(path, "a")
                if os.path.isfile(path):
                    if not locked(self.file.fileno()):
                        raise cannot_write(path, "another run writes it")
                    self.file.truncate(0)
            except OSError as error:
                raise cannot_write(path, error) from None
            if not self.json:
                self.put(HEADER)

    def add(self, outcome: Outcome) -> None:
        """Write the line of an outcome at once."""
        self.put(outcome.json() if self.json else outcome.csv())

    def close(self) -> None:
        """Close the file. No more outcomes are added."""
        if self.file is not None:
            self.file.close()

    def put(self, text: str) -> None:
        if self.file is None or self.path is None:
            return
        left = text.encode("utf-8", "surrogateescape")
        try:
            while left:
                left = left[self.file.write(left) or 0 :]
        except OSError as error:
            raise cannot_write(self.path, error) from None
