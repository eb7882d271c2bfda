"""Packages: a ZIP, a folder, or the files next to a metadata file.

All are read as names and pieces of bytes.
"""

from __future__ import annotations

import errno
import io
import json
import lzma
import os
import stat
import struct
import zipfile
import zlib
from abc import ABC, abstractmethod
from contextlib import ExitStack, contextmanager, suppress
from typing import IO, Any, Dict, Iterable, Iterator, List, NamedTuple, Optional, Sequence, Tuple

from .allowance import Allowance
from .digests import Contents, contents_of_disk, digest_of, digests_of, identity_of
from .refusals import FILES, Refusal, cannot_read, wrong
from .zip_entries import Listing, checked_entries

PIECE = 1 << 18
LARGEST_TEXT = 256 << 20
DAMAGE = (zipfile.BadZipFile, zlib.error, lzma.LZMAError, EOFError, NotImplementedError, RuntimeError, struct.error, ValueError, OverflowError)


class Package(ABC):
    """Files by their names.

    A name is relative to the package's root, and has slashes between its segments.
    """

    def __init__(self, label: str, packed: Optional[int] = None) -> None:
        """Make a package that lines call `label`. Its root is its top until another is found.

        `packed` is its size, if it is packed.
        """
        self.label = label
        self.root = ""
        self.packed = packed
        self.allowance = Allowance(packed)  # of its files; others may share it

    @abstractmethod
    def has(self, name: str) -> bool:
        """Return whether a file has this name. Refuse a name that leads outside of the package."""

    @abstractmethod
    def pieces(self, name: str) -> Iterator[bytes]:
        """Yield the bytes of a file, piece by piece."""

    @abstractmethod
    def children(self, folder: str) -> Tuple[List[str], List[str]]:
        """Return the names of the files and of the folders in a folder, in order.

        `""` is the root.
        """

    @abstractmethod
    def files_below(self, folder: str) -> Iterator[str]:
        """Yield the names of all but the folders in or below a folder, in order.

        The name of the folder ends with a slash.
        """

    @abstractmethod
    def digest(self) -> bytes:
        """Return a digest of all that the package holds."""

    def identity(self, name: str) -> object:
        """Return what a file is known by in the whole run, whatever its name."""
        return self, name

    def path_on_disk(self, name: str) -> Optional[str]:
        """Return the path of a file that is on the disk; None if it must be unpacked."""
        return None

    def size_of(self, name: str) -> int:
        """Return how many bytes a file has; 0 if there is none."""
        path = self.path_on_disk(name)
        with suppress(OSError, ValueError):
            return os.stat(path).st_size if path is not None else 0
        return 0

    def names_read(self) -> Iterable[str]:
        """Return the names read so far, if the package is neither a folder nor a ZIP."""
        return ()

    def close(self) -> None:
        """Close what the package holds open. Nothing is read from it any more."""

    def shown(self, name: str) -> str:
        """Return how lines name a file of the package."""
        return f"{self.label.rstrip('/')}/{self.root}{name}"

    def text(self, name: str) -> bytes:
        """Return the whole of a file that is read into memory.

        Refuse more than `LARGEST_TEXT` bytes.
        """
        kept: List[bytes] = []
        size = 0
        for piece in self.pieces(name):
            size += len(piece)
            if size > LARGEST_TEXT:
                raise wrong(self.shown(name), f"has more than {LARGEST_TEXT} bytes")
            kept.append(piece)
        return b"".join(kept)

    def find_root(self) -> None:
        """Set the root: the one folder at the top, or the top itself.

        The folder may have any name. `META-INF` and `reports` count only with a `META-INF` inside.
        """
        folders = [folder for folder in self.children("")[1] if folder != "__MACOSX"]
        if len(folders) == 1 and (folders[0] not in ("META-INF", "reports") or "META-INF" in self.children(folders[0])[1]):
            self.root = folders[0] + "/"


class Opened(NamedTuple):
    """Packages that are open already: that of a report, if it is in one, and the taxonomy's."""

    report: Optional[Package]
    taxonomy: Sequence[Package]


class OwnPlace(io.RawIOBase):
    """A file that is read from a place of its own.

    Processes that share a descriptor have one place of the system, which each would move.
    """

    def __init__(self, file: int) -> None:
        """Take a descriptor, which is closed with this file."""
        super().__init__()
        self.file, self.at = file, 0

    def readable(self) -> bool:
        return True

    def seekable(self) -> bool:
        return True

    def fileno(self) -> int:
        return self.file

    def tell(self) -> int:
        return self.at

    def seek(self, offset: int, whence: int = os.SEEK_SET) -> int:
        """Move to a place, which is not before the file's begin."""
        start = {os.SEEK_SET: 0, os.SEEK_CUR: self.at}.get(whence)
        at = offset + (os.fstat(self.file).st_size if start is None else start)
        if at < 0:
            raise OSError(errno.EINVAL, os.strerror(errno.EINVAL))
        self.at = at
        return at

    def readinto(self, room: Any) -> int:
        """Read what comes next, as much as the system gives at once."""
        count = os.preadv(self.file, [room], self.at)
        self.at += count
        return count

    def close(self) -> None:
        """Close the descriptor."""
        if not self.closed:
            os.close(self.file)
        super().close()


def opened(path: str) -> IO[bytes]:
    """Open a file to read it, from a place of its own."""
    return io.BufferedReader(OwnPlace(os.open(path, os.O_RDONLY | os.O_CLOEXEC)))


class ZipPackage(Package):
    """A package that is a ZIP file."""

    def __init__(
        self,
        label: str,
        limit: int,
        file: Optional[IO[bytes]] = None,
        packed: Optional[int] = None,
    ) -> None:
        """Open a ZIP, or take one that is open, and check its entries.

        Refuse one that unpacks to more bytes than the limit. `packed` is the size of one that is in
        another ZIP.
        """
        with damage_told(label), ExitStack() as at_failure:
            self.file: IO[bytes] = opened(label) if file is None else file
            at_failure.callback(self.file.close)
            self.archive = zipfile.ZipFile(self.file)
            self.size = os.fstat(self.file.fileno()).st_size
            super().__init__(label, self.size if packed is None else packed)
            self.files = checked_entries(self.archive, self.size, label, limit)
            at_failure.pop_all()
        self.unpacked = sum(entry.file_size for entry in self.archive.infolist())
        self.listing = Listing(self.files)
        self.find_root()

    def has(self, name: str) -> bool:
        """Return whether the ZIP has a file of this name.

        No name leads outside: such entries were refused.
        """
        return self.root + name in self.files

    def pieces(self, name: str) -> Iterator[bytes]:
        """Yield the unpacked bytes of an entry, piece by piece. Refuse damage in one line."""
        return self.pieces_of(self.files[self.root + name], self.shown(name))

    def size_of(self, name: str) -> int:
        """Return how many bytes an entry has; 0 if there is none."""
        entry = self.files.get(self.root + name)
        return 0 if entry is None else entry.file_size

    def pieces_of(self, entry: zipfile.ZipInfo, label: str) -> Iterator[bytes]:
        """Yield the same of any entry, which lines call `label`."""
        read = 0
        with damage_told(label):
            with self.archive.open(entry) as file:
                for piece in iter(lambda: file.read(PIECE), b""):
                    read += len(piece)
                    yield piece
            if read != entry.file_size:
                raise zipfile.BadZipFile("it ends too early")

    def children(self, folder: str) -> Tuple[List[str], List[str]]:
        """Return the names of the files and of the folders in a folder of the ZIP, in order."""
        return self.listing.children((self.root + folder).rstrip("/"))

    def files_below(self, folder: str) -> Iterator[str]:
        """Yield the names of the entries below a folder, without the folders, in order."""
        return (name[len(self.root) :] for name in self.listing.below(self.root + folder))

    def close(self) -> None:
        """Close the ZIP."""
        self.archive.close()
        self.file.close()

    def digest(self) -> bytes:
        """Return the digest of the file that is open: another may have taken its name since."""
        file = self.file.fileno()
        known = os.fstat(file)
        contents = Contents(lambda: os.dup(file), known.st_size, self.label, identity_of(known))
        return digests_of([contents])[0]


class FolderPackage(Package):
    """A package that is unpacked. No name leads out of its folder, by `..` or by a link."""

    def __init__(self, label: str) -> None:
        """Take a folder by its path, by which lines call it too."""
        super().__init__(label)
        self.top = os.path.realpath(label)
        self.find_root()

    def has(self, name: str) -> bool:
        """Return whether a regular file has this name, or a link that leads to one."""
        return stat.S_ISREG(mode_of(self.disk(name), self.shown(name)) or 0)

    def pieces(self, name: str) -> Iterator[bytes]:
        """Yield the bytes of a file of the folder, piece by piece."""
        return pieces_of_disk(self.path_on_disk(name), self.shown(name))

    def children(self, folder: str) -> Tuple[List[str], List[str]]:
        """Return the names of all but the folders, and of the folders, in a folder, in order.

        A link to a folder is a folder.
        """
        found = entries_of(self.disk(folder), self.shown(folder))
        return [entry.name for entry in found if not entry.is_dir()], [entry.name for entry in found if entry.is_dir()]

    def files_below(self, folder: str) -> Iterator[str]:
        """Yield the names of all but the folders below a folder, in order.

        Links are not followed.
        """
        return (name[len(self.root) :] for name, _ in self.all_entries(self.root + folder))

    def identity(self, name: str) -> object:
        """Return the file itself: a link gives it a second name, as do capitals on some systems."""
        return identity_on_disk(os.path.join(self.top, self.root + name)) or (self, name)

    def digest(self) -> bytes:
        """Return a digest of all in the folder: names, contents of files, targets of links.

        What is next to the root counts too, because links may lead there.
        """
        links: List[Tuple[str, str]] = []
        files: Dict[str, Contents] = {}
        for name, entry in self.all_entries(""):
            if entry.is_symlink():
                links.append((name, os.readlink(entry.path)))
            elif entry.is_file():
                known, label = entry.stat(), f"{self.label}/{name}"
                identity = identity_of(known)
                files[name] = contents_of_disk(entry.path, known.st_size, label, identity)
        digests = [digest.hex() for digest in digests_of(list(files.values()))]
        return digest_of(json.dumps([self.root, links, list(zip(files, digests))]).encode())

    def all_entries(self, folder: str) -> Iterator[Tuple[str, os.DirEntry[str]]]:
        """Yield all but the folders in and below a folder, with names in the package's folder.

        It does not recurse, because folders may be deep.
        """
        ways = [self.way_into(folder)]
        while ways:
            at, entries = ways[-1]
            entry = next(entries, None)
            if entry is None:
                ways.pop()
            elif entry.is_dir(follow_symlinks=False):
                ways.append(self.way_into(f"{at}{entry.name}/"))
            else:
                yield at + entry.name, entry

    def way_into(self, folder: str) -> Tuple[str, Iterator[os.DirEntry[str]]]:
        """Return a folder's name in the package's folder, and its entries."""
        return folder, iter(entries_of(os.path.join(self.top, folder), f"{self.label.rstrip('/')}/{folder}".rstrip("/")))

    def disk(self, name: str) -> str:
        """Return the path on the disk. Refuse a link that leads outside of the folder.

        A path without a file is not resolved: that takes quadratic time if it has many folders.
        """
        path = os.path.join(self.top, self.root + name) if "\0" not in name else ""
        if os.path.lexists(path) and os.path.commonpath([self.top, os.path.realpath(path)]) != self.top:
            raise wrong(self.shown(name), f"is a link that leads outside of {self.label}")
        return path

    def path_on_disk(self, name: str) -> str:
        """Return the same, but refuse a pipe or a device: opening one could block forever."""
        path = self.disk(name)
        mode = mode_of(path, self.shown(name))
        if mode is not None and not (stat.S_ISREG(mode) or stat.S_ISDIR(mode)):
            raise wrong(self.shown(name), "is neither a file nor a folder")
        return path


class Beside(Package):
    """The files next to a metadata file that is in no package."""

    def __init__(self, label: str) -> None:
        """Take the folder of this metadata file. Nothing has been read from it."""
        super().__init__(label)
        self.folder = os.path.dirname(label)
        self.read: Dict[str, None] = {}

    def has(self, name: str) -> bool:
        """Return whether anything but a folder has this name."""
        mode = mode_of(self.shown(name), self.shown(name))
        return mode is not None and not stat.S_ISDIR(mode)

    def pieces(self, name: str) -> Iterator[bytes]:
        """Yield the bytes of a file, piece by piece. From now on it is one that was read."""
        self.read[name] = None
        return pieces_of_disk(self.shown(name), self.shown(name))

    def identity(self, name: str) -> object:
        """Return the file itself, as an unpacked package does."""
        return identity_on_disk(self.shown(name)) or (self, name)

    def names_read(self) -> Iterable[str]:
        """Return the names of the files that have been read, in that order."""
        return self.read

    def children(self, folder: str) -> Tuple[List[str], List[str]]:
        """Return nothing: files next to a metadata file are found only by their names."""
        return [], []

    def files_below(self, folder: str) -> Iterator[str]:
        """Yield nothing, as with `children`."""
        return iter(())

    def digest(self) -> bytes:
        """Raise NotImplementedError: not all files next to a metadata file are its own."""
        raise NotImplementedError

    def shown(self, name: str) -> str:
        """Return the path of a file, in the folder as it was given for the metadata file."""
        return os.path.join(self.folder, name)

    def path_on_disk(self, name: str) -> Optional[str]:
        """Return the absolute path of a file, which holds in any folder of the program."""
        return os.path.abspath(self.shown(name))


def open_package(label: str, limit: int) -> Optional[Package]:
    """Return a ZIP, by its content, or a folder; None for any other file.

    Refuse a pipe or a device: its begin can be read only once, and a ZIP is read from its end.
    """
    if os.path.isdir(label):
        return FolderPackage(label)
    if os.path.exists(label) and not os.path.isfile(label):
        raise Refusal(FILES, label, "cannot read (it is a pipe or a device: give a file or a folder)")
    try:
        with open(label, "rb") as file:
            start = file.read(4)
    except OSError as error:
        raise cannot_read(label, error) from None
    return ZipPackage(label, limit) if is_zip(start) else None


def is_zip(start: bytes) -> bool:
    """Return whether a file that begins so is a ZIP."""
    return start.startswith((b"PK\3\4", b"PK\5\6", b"PK\7\10"))


@contextmanager
def damage_told(label: str) -> Iterator[None]:
    """Refuse in one line a ZIP that is damaged, or packed in a way that Python lacks."""
    try:
        yield
    except DAMAGE as error:
        raise wrong(label, f"is damaged, or packed in a way that Python does not know ({error})") from None
    except OSError as error:
        # What bz2 raises for bytes that are not its own, or a place before the file's begin.
        if error.errno in (None, errno.EINVAL):
            raise wrong(label, f"is damaged ({error.strerror or error})") from None
        raise cannot_read(label, error) from None


def identity_on_disk(path: str) -> Optional[Tuple[int, int]]:
    """Return device and number of a file, or None if there is none or the system refuses."""
    try:
        known = os.stat(path)
    except (OSError, ValueError):
        return None
    return known.st_dev, known.st_ino


def mode_of(path: str, label: str) -> Optional[int]:
    """Return the mode of a path; None if nothing is there.

    Refuse a path that the system does not let us look at, because it may exist.
    """
    try:
        return os.stat(path).st_mode
    except ValueError:  # a zero byte, or a letter that names of files cannot have here
        return None
    except OSError as error:
        if error.errno in (errno.ENOENT, errno.ENOTDIR, errno.ENAMETOOLONG, errno.ELOOP):
            return None
        raise cannot_read(label, error) from None


def entries_of(path: str, label: str) -> List[os.DirEntry[str]]:
    """Return the entries of a folder of the disk, by name.

    Return no entry if the folder does not exist.
    """
    try:
        with os.scandir(path) as found:
            return sorted(found, key=lambda entry: entry.name)
    except (FileNotFoundError, NotADirectoryError):
        return []
    except OSError as error:
        raise cannot_read(label, error) from None


def pieces_of_disk(path: str, label: str) -> Iterator[bytes]:
    """Yield the bytes of a file on the disk, piece by piece."""
    try:
        with open(path, "rb") as file:
            yield from iter(lambda: file.read(PIECE), b"")
    except OSError as error:
        raise cannot_read(label, error) from None

