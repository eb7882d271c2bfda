"""A refusal of xbrl-filing itself, in the file of `--faults`."""

from __future__ import annotations

import os
import stat

from .faults import HEADER, Fault, fault_list, is_header
from .outputs import stands_in
from .refusals import WRONG, Refusal, cannot_write, printable
from .whole_files import write_whole
from .words import Settings

NAME = "Refused"  # with the number 0, which no fault of xbrl-json has


def record_refusal(settings: Settings, refusal: Refusal) -> None:
    """Write a refusal of the report into the file of `--faults`, if there is one.

    Without that the file would tell of an earlier run. At another status it stays as it is, as it
    does with xbrl-json. So does a file that is not one of faults: it may be an input. Refuse a
    file that cannot be written.
    """
    path = next(settings.outputs(["--faults"]), None)
    if refusal.status != WRONG or path is None or not is_free(path, settings):
        return
    text = fault_list([fault_of_refusal(refusal)])
    try:
        write_whole(path, [text.encode(errors="backslashreplace")])
    except OSError as error:
        raise cannot_write(path, error) from None


def fault_of_refusal(refusal: Refusal) -> Fault:
    """Return the record of a refusal: why it is one, and the place."""
    why, place = printable(refusal.what), printable(refusal.place)
    return Fault("", 0, 0, 0, NAME, "", "", why, place)


def is_free(path: str, settings: Settings) -> bool:
    """Return whether a path is outside of all packages, and free or a file of faults."""
    place = os.path.realpath(path)
    inputs = (settings.report, *settings.taxonomy)
    if any(stands_in(place, os.path.realpath(path)) for path in inputs):
        return False
    try:
        mode = os.stat(path).st_mode
        if not stat.S_ISREG(mode):
            return not stat.S_ISDIR(mode)
        with open(path, "rb") as file:
            start = file.read(len(HEADER))
    except FileNotFoundError:
        return True
    except (OSError, ValueError):
        return False
    return start == b"" or is_header(start)
