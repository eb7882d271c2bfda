"""What a ZIP may hold: all its entries are looked at before the first is unpacked."""

from __future__ import annotations

import stat
import zipfile
from bisect import bisect_left
from typing import Dict, Iterable, Iterator, List, Optional, Set, Tuple

from .refusals import wrong

DEFAULT_LIMIT = 8 << 30
SMALL = 16 << 20  # an entry that may be packed in any ratio
SMALL_PACKAGE = 64 << 20  # a whole package that may
RATIO = 200  # real packages have 20 at most
ENCRYPTED = 0x1 | 0x40 | 0x2000


def checked_entries(
    archive: zipfile.ZipFile, size: int, label: str, limit: int
) -> Dict[str, zipfile.ZipInfo]:
    """Return the files of a ZIP of `size` bytes by their names.

    Refuse a ZIP with a hostile entry by the entry's name, and one that unpacks to more bytes than
    the limit or than its own size allows.
    """
    files: Dict[str, zipfile.ZipInfo] = {}
    seen: Set[str] = set()
    unpacked = 0
    for entry in archive.infolist():
        # Newer Pythons take the second name from an extra field.
        refuse(label, entry.orig_filename, fault_of_name(entry.orig_filename))
        if entry.filename != entry.orig_filename:
            refuse(label, entry.filename, fault_of_name(entry.filename))
        name = entry.filename.rstrip("/")
        refuse(label, entry.orig_filename, fault_of_entry(entry) or ("stands twice" if name in seen else None))
        seen.add(name)
        unpacked += entry.file_size
        if not entry.is_dir():
            files[name] = entry
    check_unpacked(unpacked, size, label, limit)
    refuse_files_that_are_folders(files, seen, label)
    return files


def check_unpacked(unpacked: int, size: int, label: str, limit: int) -> None:
    """Refuse a ZIP of `size` bytes that unpacks to more than the limit or than its size allows."""
    if unpacked > limit:
        raise wrong(label, f"unpacks to {unpacked} bytes, more than {limit} (--unpacked-limit allows more)")
    if unpacked > SMALL_PACKAGE and unpacked > RATIO * size:
        raise wrong(label, f"unpacks to {unpacked} bytes from {size}")


def refuse(label: str, name: str, fault: Optional[str]) -> None:
    if fault is not None:
        raise wrong(label, f"the entry '{name}' {fault}")


def fault_of_name(name: str) -> Optional[str]:
    """Return why an entry's name is refused, or None.

    Report Packages 1.0 and Taxonomy Packages 1.0 both want plain relative names.
    """
    if "\0" in name:
        return "has a name that is cut short by a zero byte"
    if name.startswith("/"):
        return "has an absolute name"
    if "\\" in name:
        return "has a name with a backslash"
    if name[1:2] == ":" and name[0].isascii() and name[0].isalpha():
        return "has a name with a drive letter"
    segments = (name[:-1] if name.endswith("/") else name).split("/")
    if ".." in segments:
        return "leads outside of the package"
    if "" in segments or "." in segments:
        return "has an empty or '.' segment in its name"
    return None


def fault_of_entry(entry: zipfile.ZipInfo) -> Optional[str]:
    """Return why an entry is refused for what it is, or None."""
    if stat.S_ISLNK(entry.external_attr >> 16):
        return "is a link"
    if entry.flag_bits & ENCRYPTED:
        return "is encrypted"
    if entry.file_size > SMALL and entry.file_size > RATIO * entry.compress_size:
        return f"unpacks to {entry.file_size} bytes from {entry.compress_size}"
    return None


def refuse_files_that_are_folders(files: Dict[str, zipfile.ZipInfo], seen: Set[str], label: str) -> None:
    """Refuse a name that is both a file and the folder of another entry."""
    names = Listing(seen).names
    for one, other in zip(names, names[1:]):
        name = one.replace("\0", "/")
        if other.startswith(one + "\0") and name in files:
            raise wrong(label, f"the entry '{name}' stands twice, as a file and as a folder")


class Listing:
    """Names in the order of their segments, so that all in a folder is together.

    No folder is kept by itself, because names may be deep.
    """

    def __init__(self, names: Iterable[str]) -> None:
        self.names = sorted(name.replace("/", "\0") for name in names)

    def children(self, folder: str) -> Tuple[List[str], List[str]]:
        """Return the names of the files and of the folders in a folder, in order."""
        front = folder.replace("/", "\0") + "\0" if folder else ""
        files: List[str] = []
        folders: List[str] = []
        at = bisect_left(self.names, front)
        while at < len(self.names) and self.names[at].startswith(front):
            name, below, _ = self.names[at][len(front) :].partition("\0")
            (folders if below else files).append(name)
            at = bisect_left(self.names, front + name + "\1", at)
        return files, folders

    def below(self, folder: str) -> Iterator[str]:
        """Yield the names of the files in and below a folder, in order.

        The name of the folder ends with a slash.
        """
        front = folder.replace("/", "\0")
        for at in range(bisect_left(self.names, front), len(self.names)):
            if not self.names[at].startswith(front):
                return
            yield self.names[at].replace("\0", "/")
