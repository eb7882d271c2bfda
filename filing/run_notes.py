"""What a run of xbrl-json writes besides the document: explanations, a page, a summary."""

from __future__ import annotations

import os
import sys
from typing import Dict, List, Optional

from .converter_program import (
    COUNTS,
    EXPLAIN,
    NO_EXPLAIN,
    PROGRESS,
    has_counts,
    has_no_explain,
)
from .counts import Counted, read_counts
from .faults import Found, faults_of
from .marked_output import asked_for
from .page_content import MOST
from .refusals import FILES, Refusal, cannot_write
from .whole_files import write_whole
from .words import Settings

FAULTS = "--faults"
PIECE = 1 << 16


def is_terminal() -> bool:
    """Return whether standard error is a terminal."""
    return bool(sys.stderr and sys.stderr.isatty())


def explains(settings: Settings) -> bool:
    """Return whether standard error gets explanations, as xbrl-json has it by its own options.

    With `--progress` a terminal gets none by itself: xbrl-json then writes there, and the files
    that it would name are temporary.
    """
    rest = settings.rest
    by_itself = is_terminal() and (PROGRESS not in rest or settings.page is not None)
    return NO_EXPLAIN not in rest and (EXPLAIN in rest or by_itself)


def words_to_explain(settings: Settings, program: str) -> List[str]:
    """Return the options for xbrl-json with one by which it explains faults or not, if need be."""
    rest = list(settings.rest)
    if settings.page is not None:
        rest = [word for word in rest if word != NO_EXPLAIN]
    if EXPLAIN in rest or NO_EXPLAIN in rest:
        return rest
    if settings.page is not None or explains(settings):
        return [EXPLAIN, *rest]
    if is_terminal() and has_no_explain(program):
        return [NO_EXPLAIN, *rest]
    return rest


def is_pipe(path: str) -> bool:
    """Return whether a path is that of a pipe or a device."""
    return os.path.exists(path) and not (os.path.isfile(path) or os.path.isdir(path))


def with_faults_in(words: List[str], path: str) -> List[str]:
    """Return the options for xbrl-json with another file of faults."""
    at = next(at for at, word in enumerate(words) if word.partition("=")[0] == FAULTS)
    behind = words[at + 1 :] if "=" in words[at] else words[at + 2 :]
    return [*words[:at], FAULTS, path, *behind]


class RunNotes:
    """The files of faults and of counts, and the options by which xbrl-json writes them."""

    def __init__(self, settings: Settings, folder: str, program: str) -> None:
        """Take a folder of the run, for the files that the command line does not ask for."""
        faults = next(settings.outputs([FAULTS]), None)
        counts = next(settings.outputs([COUNTS]), None)
        # A pipe or a device gets the faults once they are in the names of the filing.
        self.pipe = faults if faults is not None and is_pipe(faults) else None
        self.is_own = faults is None or self.pipe is not None
        own = os.path.join(folder, f"{os.urandom(8).hex()}.csv")
        self.faults = own if faults is None or self.is_own else faults
        self.page = settings.page
        self.counts = counts or os.path.join(folder, f"{os.urandom(8).hex()}.json")
        self.words: List[str] = []
        # Whether the lines of `--explain` go on to standard error, if there are some.
        self.is_explained = settings.page is None or explains(settings)
        self.is_counted = False
        if any(asked_for(settings)):
            self.words += [] if faults else [FAULTS, self.faults]
            self.is_counted = has_counts(program)
            self.words += [COUNTS, self.counts] if self.is_counted and not counts else []
        words = words_to_explain(settings, program)
        self.words += words if self.pipe is None else with_faults_in(words, self.faults)

    def hand_on_faults(self) -> None:
        """Write the file of faults to the pipe that is to get it, if there is one."""
        if self.pipe is None:
            return
        try:
            with open(self.faults, "rb") as file:
                write_whole(self.pipe, iter(lambda: file.read(PIECE), b""))
        except OSError as error:
            raise cannot_write(self.pipe, error) from None

    def names(self) -> Dict[str, str]:
        """Return how lines name the file of faults, by its name in the folder of the run."""
        asked = self.pipe or self.page or "--faults FILE"
        return {os.path.basename(self.faults): asked} if self.is_own else {}

    def read_faults(self) -> Found:
        """Return the faults of the run that a page shows, and how many it has found."""
        try:
            return faults_of(self.faults, MOST)
        except (OSError, ValueError) as error:
            raise Refusal(FILES, self.faults, f"cannot read ({error})") from None

    def read_counts(self, status: int) -> Optional[List[Counted]]:
        """Return the counts of a run that has ended with this status, if it has told them."""
        if status or not self.is_counted:
            return None
        try:
            return read_counts(self.counts)
        except (OSError, ValueError) as error:
            raise Refusal(FILES, self.counts, f"cannot read ({error})") from None
