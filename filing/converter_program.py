"""The program that is started as xbrl-json: its version, and which options it has."""

from __future__ import annotations

import os
import re
from functools import lru_cache
from subprocess import DEVNULL, PIPE, SubprocessError, run
from typing import Iterable

from .outcomes import first_line
from .refusals import FILES, WORDS, Refusal

COUNTS, PROGRESS = "--counts", "--progress"
EXPLAIN, NO_EXPLAIN = "--explain", "--no-explain"
LONGEST_HELP = 60.0  # seconds; a program that prints no help by then has no options


@lru_cache(maxsize=None)
def version_of(program: str) -> str:
    """Return the version of xbrl-json. Refuse one that does not run."""
    try:
        done = run([program, "--version"], stdin=PIPE, stdout=PIPE, stderr=PIPE, check=False)
    except OSError as error:
        raise Refusal(FILES, program, f"cannot run ({error.strerror})") from None
    if done.returncode:
        why = first_line(done.stderr) or f"it ends with status {done.returncode}"
        raise Refusal(FILES, program, f"cannot run ({why})")
    return done.stdout.decode("utf-8", "replace").strip()


@lru_cache(maxsize=None)
def help_of(program: str) -> bytes:
    """Return the help of the program, or nothing if it prints none."""
    words = [program, "--help"]
    try:
        done = run(words, stdin=DEVNULL, stdout=PIPE, stderr=DEVNULL, timeout=LONGEST_HELP)
    except (OSError, SubprocessError):
        return b""
    return done.stdout


def has_counts(program: str) -> bool:
    """Return whether the program has the option `--counts`, as its help says."""
    return COUNTS.encode() in help_of(program)


def has_no_explain(program: str) -> bool:
    """Return whether the program has the option `--no-explain`, as its help says."""
    return NO_EXPLAIN.encode() in help_of(program)


def require_options(program: str, names: Iterable[str]) -> None:
    """Refuse an option that the program does not have, as its help says.

    The program itself would refuse it only once the filing is joined.
    """
    for name in names:
        text = help_of(program)
        is_help = b"--types" in text  # another program may print something else
        if is_help and not re.search(rb"(?<![\w-])%b(?![\w-])" % re.escape(os.fsencode(name)), text):
            why = f"'{name}' is an option of neither xbrl-filing nor xbrl-json; try --help"
            raise Refusal(WORDS, "", why)


def require_counts(program: str) -> None:
    """Refuse a program without `--counts`, which a summary needs."""
    if not has_counts(program):
        why = f"has no option {COUNTS}, which --summary needs: take a newer xbrl-json"
        raise Refusal(FILES, program, why)
