"""What another Python program may call: `prepare` and `kinds`. Both may run in a thread."""

from __future__ import annotations

from contextlib import ExitStack
from typing import Dict, Optional, Sequence

from .command import run
from .finding import Finder
from .kinds import cells_of_kind, kinds_of, word_of
from .nested import open_taxonomies
from .packages import Beside
from .progress import Progress
from .schemas import Reference, read_schemas
from .stopping import Stopping
from .urls import Place
from .words import Settings
from .zip_entries import DEFAULT_LIMIT


def prepare(
    report: str, packages: Sequence[str], folder: str, cache: Optional[str] = None
) -> None:
    """Make the plain files of a filing in a new or empty folder, as `--prepare` does.

    Raise `refusals.Refusal` if the report, a package or the folder is refused: its `status` says
    whose fault it is, its `line` why.
    """
    settings = Settings(report, tuple(packages), prepare=folder, cache=cache)
    run(settings, "", silent(), Stopping())


def kinds(packages: Sequence[str], entries: Sequence[str]) -> Dict[str, Dict[str, str]]:
    """Return the word of each concept, dimension and member that entry points reach.

    The answer is by namespace and name, and has the same words as a types table. Raise
    `refusals.Refusal` as `prepare` does.
    """
    with ExitStack() as opened:
        taxonomy = open_taxonomies(packages, DEFAULT_LIMIT, opened)
        finder = Finder(Beside("entry points"), taxonomy)
        asked = [Reference(Place(entry), "entry points", "entry", "") for entry in entries]
        found = kinds_of(read_schemas(asked, finder, silent()))
    return {namespace: words_of(kinds) for namespace, kinds in found.items() if kinds}


def words_of(kinds: Dict[str, str]) -> Dict[str, str]:
    """Return the words of the types table for the kinds that have one."""
    records = ((name, cells_of_kind(kind)) for name, kind in kinds.items())
    return {name: word_of(cells) for name, cells in records if cells is not None}


def silent() -> Progress:
    """Return a progress that is not shown."""
    progress = Progress()
    progress.on = False
    return progress
