"""Where a page or a summary may be written.

Each replaces nothing but one of its kind, which its first bytes tell. So it never replaces an
input.
"""

from __future__ import annotations

import os
from typing import Iterable, Iterator, NamedTuple, Optional, Tuple

from .outputs import same_file, stands_in
from .page_style import MARK
from .refusals import FILES, Refusal, cannot_write
from .whole_files import write_whole
from .words import Settings


class Kind(NamedTuple):
    """What lines call a kind of file, and how each begins."""

    name: str
    mark: bytes


PAGE = Kind("a page", MARK.encode())
SUMMARY = Kind("a summary", b'{\n  "kind": "xbrl-filing summary"')
OTHER = "it is another output of this run"


def asked_for(settings: Settings) -> Iterator[Tuple[str, Kind]]:
    """Yield the files of these kinds that a command line asks for."""
    for path, kind in ((settings.page, PAGE), (settings.summary, SUMMARY)):
        if path is not None:
            yield path, kind


def check_asked(settings: Settings) -> None:
    """Refuse a page or a summary that cannot be written, or that another file of the run is."""
    outputs = [path for output in settings.outputs() for path in (output, f"{output}.new")]
    others = {os.path.realpath(output) for output in outputs}
    for path, kind in asked_for(settings):
        check_place(path, kind)
        own = os.path.realpath(path)
        if own in others:
            raise cannot_write(path, OTHER)
        others.add(own)
        check_inputs(path, [settings.report, *settings.taxonomy])
    for what in ("faults", "counts"):
        file = next(settings.outputs([f"--{what}"]), None)
        if file is not None and os.path.lexists(file) and not os.path.isfile(file):
            for _, kind in asked_for(settings):
                why = f"cannot read ({kind.name} needs its {what} in a regular file)"
                raise Refusal(FILES, file, why)


def check_place(path: str, kind: Kind, to_make: str = "") -> None:
    """Refuse a path in no folder, and one at which a file of another kind is.

    The folder `to_make` need not exist yet.
    """
    own = os.path.realpath(path)
    folder = os.path.dirname(own)
    if folder != to_make and not os.path.isdir(folder):
        raise cannot_write(path, "there is no folder to put it in")
    if not is_free(own, kind):
        raise cannot_write(path, f"another file than {kind.name} is there")


def check_inputs(path: str, inputs: Iterable[str]) -> None:
    """Refuse an output that is a file which the run reads, by any name, or is in a folder of one.

    Such a file may be an empty table.
    """
    own = os.path.realpath(path)
    for file in inputs:
        if same_file(own, file):
            raise cannot_write(path, "it is an input of this run")
        if stands_in(own, os.path.realpath(file)):
            raise cannot_write(path, "it stands inside of a package that is an input of this run")


def is_free(path: str, kind: Kind) -> bool:
    """Return whether a path has no file, an empty one, or one of the kind."""
    return not os.path.lexists(path) or start_of(path, kind) in (b"", kind.mark)


def is_of_kind(path: str, kind: Kind) -> bool:
    """Return whether a file is one of the kind."""
    return start_of(path, kind) == kind.mark


def start_of(path: str, kind: Kind) -> Optional[bytes]:
    """Return the first bytes of a regular file, as many as the mark of the kind has, or None."""
    try:
        if os.path.isfile(path):
            with open(path, "rb") as file:
                return file.read(len(kind.mark))
    except OSError:
        pass
    return None


def write_marked(path: str, kind: Kind, text: str) -> None:
    """Write a file of the kind whole or not at all.

    Refuse a place that has become another file's.
    """
    check_place(path, kind)
    try:
        write_whole(path, [text.encode()])
    except OSError as error:
        raise cannot_write(path, error) from None
