"""Taxonomy packages, which may be in one ZIP: supervisors publish several together."""

from __future__ import annotations

import io
import os
from contextlib import ExitStack
from typing import Iterable, Iterator, List, Optional, Tuple

from .catalog import CATALOG
from .packages import OwnPlace, Package, ZipPackage, is_zip, open_package
from .refusals import cannot_write, wrong
from .report import TAXONOMY_FILE
from .stopping import temporary_place
from .zip_entries import check_unpacked

MOST_INSIDE = 200  # packages of one ZIP; each holds a file open
FREE_LISTS = 1 << 20  # bytes of their lists of entries, besides as many as the ZIP has


class InnerFile(io.BufferedReader):
    """A ZIP that was in another ZIP. Its list of entries, which is read at once, has a bound."""

    def __init__(self, file: int) -> None:
        """Take a descriptor, which is closed with this file."""
        super().__init__(OwnPlace(file))
        self.label = ""
        self.most = FREE_LISTS
        self.listed = 0

    def read(self, size: Optional[int] = -1) -> bytes:
        """Return the next bytes. Refuse a list of entries with more than `most`."""
        self.listed = max(self.listed, size or 0)
        if self.listed > self.most:
            why = f"has a list of entries of {size} bytes; more than {self.most} are not taken"
            raise wrong(self.label, why)
        return super().read(size)


def open_taxonomies(labels: Iterable[str], limit: int, opened: ExitStack) -> List[Package]:
    """Return the packages of all paths, in order. `opened` closes them."""
    found: List[Package] = []
    for label in labels:
        for package in open_taxonomy(label, limit):
            opened.callback(package.close)
            found.append(package)
    return found


def open_taxonomy(label: str, limit: int) -> List[Package]:
    """Return the package at a path, or the packages in a ZIP that is not a package itself.

    Refuse what is neither a ZIP nor a folder.
    """
    package = open_package(label, limit)
    if package is None:
        raise wrong(label, "is neither a ZIP nor a folder, so it is no taxonomy package")
    if not isinstance(package, ZipPackage) or package.has(CATALOG) or package.has(TAXONOMY_FILE):
        return [package]
    with ExitStack() as at_end:
        at_end.callback(package.close)
        with ExitStack() as opened:
            inside = packages_inside(package, limit, opened)
            if any(package.has(CATALOG) for package in inside):
                opened.pop_all()
                return inside
        at_end.pop_all()
    return [package]


def packages_inside(package: ZipPackage, limit: int, opened: ExitStack) -> List[Package]:
    """Return the packages in a ZIP, which `opened` closes. Those inside of them are not looked for.

    All together may unpack to as much as the ZIP itself.
    """
    found: List[Package] = []
    unpacked, most_listed = package.unpacked, FREE_LISTS + package.size
    for name, file in zips_inside(package):
        opened.callback(file.close)
        if len(found) == MOST_INSIDE:
            raise wrong(package.label, f"holds more than {MOST_INSIDE} packages: give only some")
        file.label, file.most = f"{package.label}/{name}", most_listed
        inner = ZipPackage(file.label, limit, file, package.files[name].compress_size)
        opened.callback(inner.close)
        most_listed -= file.listed
        file.most = FREE_LISTS  # entries are read in small pieces
        unpacked += inner.unpacked
        check_unpacked(unpacked, package.size, package.label, limit)
        found.append(inner)
    return found


def zips_inside(package: ZipPackage) -> Iterator[Tuple[str, InnerFile]]:
    """Yield the names and the bytes of the ZIPs in a ZIP, in order."""
    for name in sorted(package.files):
        is_left = any(part.startswith((".", "~$")) or part == "__MACOSX" for part in name.split("/"))
        if not is_left and name.lower().endswith(".zip"):
            pieces = package.pieces_of(package.files[name], f"{package.label}/{name}")
            first = next(pieces, b"")
            if is_zip(first):
                yield name, unpacked_file(first, pieces)


def unpacked_file(first: bytes, pieces: Iterator[bytes]) -> InnerFile:
    """Return a file without a name that holds some bytes. It is gone with the run.

    Refuse a folder of temporary files that cannot be written.
    """
    import tempfile  # takes long, and is seldom needed

    place = temporary_place()
    try:
        with tempfile.TemporaryFile(dir=place) as file:
            file.write(first)
            for piece in pieces:
                file.write(piece)
            file.flush()
            return InnerFile(os.dup(file.fileno()))
    except OSError as error:
        raise cannot_write(place, error) from None
