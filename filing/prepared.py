"""The files that xbrl-json reads, at the paths that the metadata names.

They are the merged metadata, the types table, and the report's tables and parameters.
"""

from __future__ import annotations

import csv
import errno
import os
import re
import shutil
import stat
from collections import Counter
from contextlib import contextmanager
from dataclasses import dataclass, replace
from functools import cached_property
from io import BytesIO
from itertools import groupby, islice
from typing import Callable, Dict, FrozenSet, Iterable, Iterator, List, NamedTuple, Optional, Tuple

from .csv_text import records_of_report
from .finding import Found
from .metadata import Merged, objects
from .packages import LARGEST_TEXT, Package, mode_of, pieces_of_disk
from .refusals import cannot_read, cannot_write, wrong
from .report import REPORTS, reports_in
from .strict_json import Json

META, TYPES = "meta.json", "types.csv"
MOST_RECORDS = 65536  # of a parameters file that xbrl-json takes
LONGEST_NAME, LONGEST_PATH = 255, 4000  # bytes that a file system takes, with a folder before it
MOST_TABLES = 8  # that one file is for on average, if the files are large
FREE_READ = 64 << 20  # bytes of the files of all tables
MOST_FOLDERS = 100  # of a table's path; each is made, and removed by recursion
# What xbrl-json takes as the path of a table; the segments are looked at besides.
PLAIN = re.compile(r"[^\\:?#%\x00-\x1f]+")


def is_plain(url: object, longest: int = LONGEST_PATH) -> bool:
    """Return whether xbrl-json takes a URL as a path below the metadata's folder.

    Other URLs are a fault that xbrl-json names, so they are never looked at here.
    """
    if not isinstance(url, str) or len(url) > longest:
        return False
    return bool(PLAIN.fullmatch(url)) and not {"", ".", ".."}.intersection(url.split("/"))


def is_too_long(path: str) -> bool:
    """Return whether a path, or a name in it, is longer than one of a file can be."""
    if len(os.fsencode(path)) > LONGEST_PATH:
        return True
    return any(len(os.fsencode(part)) > LONGEST_NAME for part in path.split("/"))


def is_csv(path: str) -> bool:
    """Return whether a file is CSV by its name, and not one that a system or an editor leaves.

    These are `._t.csv`, `.ipynb_checkpoints`, `__MACOSX`, and `~$t.csv` while Excel has a file
    open.
    """
    left = (part.startswith((".", "~$")) or part == "__MACOSX" for part in path.split("/"))
    return path.lower().endswith(".csv") and not any(left)


@dataclass(frozen=True)
class Files:
    """The tables and the parameters file of a report, by the URLs of the merged metadata."""

    package: Package
    report: str  # how lines name the report's own file
    folder: str
    merged: Merged
    tables: FrozenSet[str]  # also those without a file
    parameters: Optional[str]
    left_out: Tuple[Tuple[str, str], ...] = ()  # optional tables without a file, and their URLs

    @staticmethod
    def of(report: Found, merged: Merged) -> Files:
        """Return the files that the merged metadata of a report names."""
        tables = objects(merged.value, "tables")
        urls = frozenset(table["url"] for _, table in tables if is_plain(table.get("url")))
        parameters = merged.value.get("parameterURL")
        return Files(
            package=report.package,
            report=report.label,
            folder=report.name[: report.name.rfind("/") + 1],
            merged=merged,
            tables=urls,
            parameters=parameters if is_plain(parameters, LARGEST_TEXT) else None,
        )

    def all(self) -> List[str]:
        return sorted(self.tables | ({self.parameters} if self.parameters is not None else set()))

    def name(self, url: str) -> str:
        """Return a file's name in the package.

        URLs of tables are relative to the report's own file, whichever file has them.
        """
        return self.folder + url

    def require_parameters(self) -> None:
        """Refuse a parameters file that does not exist.

        The line names the file that asks for it.
        """
        if self.parameters is None:
            return
        name = self.name(self.parameters)
        if not self.package.has(name):
            asker = self.merged.origin(("parameterURL",))
            why = f"is missing: 'parameterURL' of {asker} names it"
            raise wrong(self.package.shown(name), why)

    def refuse_urls_of_no_file(self) -> None:
        """Refuse a table or a parameters file whose URL no file can have, or that is a folder.

        xbrl-json would name it as a file that cannot be read, which is not the report's fault.
        """
        tables = objects(self.merged.value, "tables")
        places = [(("tables", name, "url"), table.get("url")) for name, table in tables]
        for path, url in (*places, (("parameterURL",), self.parameters)):
            why = self.why_no_file(url)
            if why:
                raise wrong(self.merged.origin(path), f"'{'.'.join(path)}' {why}")

    def why_no_file(self, url: Json) -> str:
        """Return why a URL is not that of a file; nothing if it is, or if xbrl-json names it."""
        if not isinstance(url, str):
            return ""
        if url.count("/") > MOST_FOLDERS or is_too_long(url):
            most = f"{LONGEST_PATH} bytes, {LONGEST_NAME} of a name, {MOST_FOLDERS} folders"
            return f"is longer than a file's path may be ({most})"
        if (url in self.tables or url == self.parameters) and self.is_folder(self.name(url)):
            return f"is '{url}', which is a folder"
        return ""

    def is_folder(self, name: str) -> bool:
        """Return whether a folder of the package has a name."""
        path = self.package.path_on_disk(name)
        if path is not None:
            return os.path.isdir(path)
        return not self.package.has(name) and self.package.children(name) != ([], [])

    def refuse_repeated(self) -> None:
        """Refuse files that very many tables have: each table is read by itself.

        The bound is for all of them together, and only if they are large.
        """
        tables = (table.get("url") for _, table in objects(self.merged.value, "tables"))
        times = Counter(url for url in tables if isinstance(url, str) and url in self.tables)
        if max(times.values(), default=0) <= MOST_TABLES:
            return
        sizes = {url: self.package.size_of(self.name(url)) for url in times}
        read = sum(size * times[url] for url, size in sizes.items())
        if read > FREE_READ and read > MOST_TABLES * sum(sizes.values()):
            url = max(times, key=lambda url: sizes[url] * times[url])
            why = f"is the file of {times[url]} tables, which are {read} bytes with all others"
            raise wrong(self.package.shown(self.name(url)), why)

    def refuse_unread(self) -> None:
        """Refuse a CSV file of the report that nothing names, or that is in a folder above.

        Its facts would be missing silently. A URL that is not plain is left to xbrl-json.
        """
        tables = self.merged.value.get("tables", {}).values()
        urls = [table.get("url") if isinstance(table, dict) else None for table in tables]
        if not all(map(is_plain, urls)) or (self.parameters is None and "parameterURL" in self.merged.value):
            return
        name = next(self.unread(), None)
        if name is None:
            return
        if name.startswith(self.folder):
            raise wrong(self.package.shown(name), "is not read: no table of the joined metadata has this url (names are compared exactly)")
        raise wrong(self.package.shown(name), f"is not read: it stands above '{self.folder[:-1]}', the folder of the report, in which tables are looked for")

    def without_absent(self) -> Files:
        """Return the same without optional tables that have no file.

        They give no facts, so their metadata costs nothing then, and a slip in it does not stop a
        filing that has no such table. The templates that only they use are left out too.
        """
        absent = {}
        for name, table in objects(self.merged.value, "tables"):
            url: Json = table.get("url")
            if table.get("optional") is True and is_plain(url) and self.is_absent(url):
                absent[name] = url
        if not absent:
            return self
        merged = self.merged.without_tables(absent)
        return replace(self, merged=merged, left_out=tuple(sorted(absent.items())))

    def is_absent(self, url: str) -> bool:
        """Return whether nothing is at a table's path, not even a folder."""
        name = self.name(url)
        if url.count("/") > MOST_FOLDERS or is_too_long(name):
            return False
        path = self.package.path_on_disk(name)
        if path is None:
            folders = [name[:at] for at, letter in enumerate(name) if letter == "/"]
            inside = any(map(self.package.has, folders))  # of a file in a folder's place
            there = self.package.has(name) or self.package.children(name) != ([], [])
            return not (inside or there)
        try:
            os.stat(path)
        except FileNotFoundError:
            return True
        except (OSError, ValueError):
            return False
        return False

    def unread(self) -> Iterator[str]:
        """Yield the CSV files that are neither a table nor the parameters file.

        The files in and below the report's folder are first, then those above it.
        """
        read = {self.package.identity(self.name(url)) for url in self.all()}
        found = (name for name in self.package.files_below(self.folder) if is_csv(name[len(self.folder) :]) and self.package.has(name))
        for folder, names in groupby((name for name in found if self.package.identity(name) not in read), self.part):
            if not self.is_of_another_report(folder):
                yield from names
        yield from (name for name in self.files_above() if is_csv(name) and self.package.has(name) and self.package.identity(name) not in read)

    def files_above(self) -> Iterator[str]:
        """Yield the files that are directly in a folder above the report's, from the root down."""
        folder = ""
        for below in self.folder.split("/")[:-1]:
            yield from (folder + name for name in self.package.children(folder.rstrip("/"))[0])
            folder += below + "/"

    def part(self, name: str) -> str:
        """Return the report's folder, or the folder directly in it that holds a file."""
        first, slash, _ = name[len(self.folder) :].partition("/")
        return f"{self.folder}{first}/" if slash else self.folder

    def is_of_another_report(self, folder: str) -> bool:
        """Return whether a folder inside of the report's own has a report by itself.

        Only a folder of `reports` can have one.
        """
        return self.folder == REPORTS and folder != REPORTS and bool(reports_in(self.package, folder, []))

    @cached_property
    def parameter_records(self) -> Tuple[List[str], ...]:
        """Return the records of the parameters file, its header first, as many as xbrl-json takes.

        An empty record means that the file is not CSV.
        """
        if self.parameters is None:
            return ()
        found: List[List[str]] = []
        try:
            text = BytesIO(self.package.text(self.name(self.parameters)))
            found.extend(islice(records_of_report(text), MOST_RECORDS + 1))
        except csv.Error:
            found.append([])
        return tuple(found)

    def new_names(self) -> Dict[str, str]:
        """Return a new name for each file that has the name of the metadata or the types table."""
        urls = self.all()
        taken = {url.split("/")[0] for url in urls} | {META, TYPES}
        names = {}
        for reserved in (META, TYPES):
            new = reserved
            while new in taken:
                new = "filed-" + new
            names.update({url: new + url[len(reserved) :] for url in urls if url.split("/")[0] == reserved})
        return names


class Written(NamedTuple):
    """What a folder was filled with: the metadata, and how lines name the files there."""

    merged: Merged
    names: Dict[str, str]


class TypesTable(NamedTuple):
    """The bytes of a types table, and a file that xbrl-json finds them in, if there is one."""

    text: bytes
    file: Optional[str] = None
    # Returns the table with fewer records, enough for a report; None if it is to be as it is.
    fewer: Optional[Callable[[Files], Optional[bytes]]] = None

    def with_text(self, text: bytes) -> "TypesTable":
        """Return the table with this text, and with its file if that has the same text."""
        return self if text == self.text else TypesTable(text)


def write_files(folder: str, files: Files, types: TypesTable, copy: bool) -> Written:
    """Fill a folder.

    Files that are on the disk are linked; with `copy` they are copied.
    """
    names = files.new_names()
    merged = files.merged.with_urls(names)
    shown: Dict[str, str] = {}
    for url in files.all():
        target, name = names.get(url, url), files.name(url)
        shown[target] = files.package.shown(name)
        put_file(os.path.join(folder, target), files.package, name, copy)
    if types.file is not None and not copy:
        link(types.file, os.path.join(folder, TYPES))
    else:
        fill(os.path.join(folder, TYPES), iter([types.text]))
    fill(os.path.join(folder, META), merged.pieces())
    return Written(merged, shown)


def put_file(target: str, package: Package, name: str, copy: bool) -> None:
    """Put one file of the report into a folder.

    A file that does not exist is left to xbrl-json, which knows whether it must exist.
    """
    source = package.path_on_disk(name)
    if source is None:
        if package.has(name):
            fill(target, package.pieces(name))
        return
    mode = mode_of(source, package.shown(name))
    if mode is None:
        return
    if copy:
        fill(target, pieces_of_disk(source, package.shown(name)))
    else:
        if stat.S_ISREG(mode) and not os.access(source, os.R_OK):
            raise cannot_read(package.shown(name), PermissionError(errno.EACCES, os.strerror(errno.EACCES)))
        link(source, target)


@contextmanager
def writing(target: str) -> Iterator[None]:
    """Refuse a file that cannot be written. What cannot be read is refused by its reader."""
    try:
        yield
    except OSError as error:
        raise cannot_write(target, error) from None


def make_folder(target: str) -> None:
    with writing(target):
        os.makedirs(target, exist_ok=True)


def link(source: str, target: str) -> None:
    make_folder(os.path.dirname(target))
    with writing(target):
        os.symlink(source, target)


def fill(target: str, pieces: Iterator[bytes]) -> None:
    make_folder(os.path.dirname(target))
    with writing(target), open(target, "wb") as file:
        for piece in pieces:
            file.write(piece)


def move_into(folder: str, made: str) -> None:
    """Move the prepared files to their place: all of them, or no file."""
    moved: List[str] = []
    try:
        if not os.path.lexists(folder):
            os.rename(made, folder)
            return
        if os.listdir(folder):
            raise cannot_write(folder, "the folder is not empty any more")
        for name in sorted(os.listdir(made)):
            os.rename(os.path.join(made, name), os.path.join(folder, name))
            moved.append(name)
    except OSError as error:
        remove_all(os.path.join(folder, name) for name in moved)
        raise cannot_write(folder, error) from None


def remove_all(paths: Iterable[str]) -> None:
    for path in paths:
        if os.path.isdir(path):
            shutil.rmtree(path, ignore_errors=True)
        else:
            os.unlink(path)
