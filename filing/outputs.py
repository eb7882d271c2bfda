"""Refuses outputs that are inputs, and those that another run writes, before anything is written.

`--out` is emptied in place, so links count.
"""

from __future__ import annotations

import os
import stat
from contextlib import ExitStack
from typing import Iterator, List, Optional

from .digests import digest_of
from .locks import lock_by_name, locked
from .packages import FolderPackage, Package
from .prepared import Files
from .refusals import cannot_write
from .stopping import temporary_place
from .words import Settings


def refuse_outputs(settings: Settings, packages: List[Package], files: Optional[Files]) -> None:
    """Refuse an output that is the report, a package, or a file of one.

    `files` is None before they are known, so that the packages are checked earlier.
    """
    outputs = list(settings.outputs()) + [folder for folder in (settings.prepare, settings.cache) if folder is not None]
    folders = {package.top for package in packages if isinstance(package, FolderPackage)}
    inputs = [os.path.realpath(file) for file in input_files(settings, files)]
    for output in outputs:
        path = os.path.realpath(output)
        if any(path == file or same_file(path, file) for file in inputs):
            raise cannot_write(output, "it is an input of this run")
        if any(stands_in(path, folder) for folder in folders):
            raise cannot_write(output, "it stands inside of a package that is an input of this run")
        if any(linked_into(path, folder) for folder in folders):
            raise cannot_write(output, "it is a link to a file of a package that is an input of this run")
    if settings.prepare is not None and settings.cache is not None:
        if stands_in(os.path.realpath(settings.cache), os.path.realpath(settings.prepare)):
            raise cannot_write(settings.cache, "the cache stands inside of the folder to prepare")


def claim_outputs(settings: Settings, opened: ExitStack) -> None:
    """Claim the files that xbrl-json is to write until `opened` is closed.

    Refuse one that another run has claimed, because both would write into it. A file that does not
    exist yet is claimed by its path. Pipes and devices are not claimed.
    """
    for path, output in {os.path.realpath(output): output for output in settings.outputs()}.items():
        if os.path.exists(path) and not os.path.isfile(path):
            continue
        name = f"xbrl-filing-{digest_of(os.fsencode(path)).hex()}.lock"
        if not (lock_by_name(os.path.join(temporary_place(), name), opened) and lock_there(path, opened)):
            raise cannot_write(output, "another run writes it")


def lock_there(path: str, opened: ExitStack) -> bool:
    """Lock a file that exists, and return whether no other run holds it."""
    try:
        file = os.open(path, os.O_RDONLY)
    except OSError:
        return True
    opened.callback(os.close, file)
    os.set_inheritable(file, True)
    return locked(file)


def input_files(settings: Settings, files: Optional[Files]) -> Iterator[str]:
    """Yield the files on the disk that the run reads: those of the options and of the report."""
    yield settings.report
    yield from settings.taxonomy
    if files is not None:
        for name in [*files.package.names_read(), *(files.name(url) for url in files.all())]:
            path = files.package.path_on_disk(name)
            if path is not None:
                yield path


def stands_in(path: str, folder: str) -> bool:
    """Return whether a path is a folder's or leads into it. Both are without links."""
    return os.path.commonpath([path, folder]) == folder


def linked_into(path: str, folder: str) -> bool:
    """Return whether a file has another name in a folder: a hard link, which no path shows."""
    try:
        known = os.stat(path)
    except OSError:
        return False
    if known.st_nlink < 2 or not stat.S_ISREG(known.st_mode):
        return False
    return any(same_file(path, os.path.join(at, name)) for at, _, names in os.walk(folder) for name in names)


def same_file(one: str, other: str) -> bool:
    """Return whether two paths lead to one file."""
    try:
        return os.path.samefile(one, other)
    except OSError:
        return False
