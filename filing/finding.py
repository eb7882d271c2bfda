"""From a place to its file: a URL through the catalogs, another place next to the report."""

from __future__ import annotations

from typing import Dict, Iterator, NamedTuple, Optional, Sequence, Set

from .allowance import Allowance
from .catalog import CATALOG, STANDARD_HOSTS, Catalogs, name_in_package
from .markup import Elements
from .packages import Beside, Package
from .refusals import Refusal, wrong
from .urls import LONGEST_URL, Place


MOST_URLS = 8  # by which one file may be asked for: http and https, with and without `www`
MOST_ASKED = 100_000  # URLs of a run; the modules that were seen ask for 4,000 at most
MOST_ASKED_TEXT = 8 << 20  # characters of these URLs, which are all held
MOST_PASSED_OVER = 1000  # files of the standards that no package has
AGAIN = 16 << 20  # bytes that may be read again, besides twice what was read first
LEAST_READ = 4096  # bytes that a file counts for at least


class Found(NamedTuple):
    """A file: its place, and the package and the name by which it is read."""

    place: Place
    package: Package
    name: str

    @property
    def label(self) -> str:
        return self.package.shown(self.name)

    @property
    def file(self) -> object:
        """Return what the file is known by, whatever its URL and its name."""
        return self.package.identity(self.name)


class Finder:
    """Finds the file of a place, for a report and its taxonomy. Nothing is fetched.

    It counts what is asked for and what is read, because a small package may ask for one file by
    ever more URLs. Each count has a bound.
    """

    def __init__(self, report: Package, packages: Sequence[Package]) -> None:
        self.report = report
        self.packages = packages
        share_allowance([package for package in packages if package is not report])
        self.catalogs = Catalogs(packages)
        self.urls: Dict[object, Set[Place]] = {}  # the URLs of each file
        self.asked = self.asked_text = self.passed_over = 0
        self.elements = Elements()  # of the schemas and linkbases
        self.read: Set[object] = set()
        self.first = self.again = 0  # bytes that were read first, and again

    def find(self, place: Place, asker: str, how: str) -> Found:
        """Return the file at a place, or refuse it by the file that asks for it."""
        if len(place.text) > LONGEST_URL:
            raise too_long(place, asker, how)
        found = self.beside(place, asker, how) if place.local else self.published(place)
        if found is None:
            raise self.missing(place, asker, how)
        urls = self.urls.setdefault(found.file, set())
        urls.add(place.known())
        if len(urls) > MOST_URLS:
            shown = place.text[:200]
            raise wrong(found.label, f"is asked for by more than {MOST_URLS} URLs: {shown}")
        return found

    def find_schema(self, place: Place, asker: str, how: str) -> Optional[Found]:
        """Return the file of a schema or linkbase; None for one of the standards that is missing.

        The program knows what the standards' own files declare.
        """
        standard = not place.local and place.is_web() and place.host() in STANDARD_HOSTS
        if standard and len(place.text) <= LONGEST_URL and self.published(place) is None:
            self.passed_over += 1
            if self.passed_over > MOST_PASSED_OVER:
                what = f"more than {MOST_PASSED_OVER} files of the standards that no package has"
                raise wrong(asker, f"asks for {what} ({how}: {place.text[:200]})")
            return None
        return self.find(place, asker, how)

    def count(self, place: Place, asker: str) -> None:
        """Count a URL that is asked for, and refuse too many."""
        self.asked += 1
        self.asked_text += min(len(place.text), LONGEST_URL)
        if self.asked > MOST_ASKED or self.asked_text > MOST_ASKED_TEXT:
            most = f"{MOST_ASKED} URLs, or {MOST_ASKED_TEXT} characters of them"
            raise wrong(asker, f"asks for more files than are taken ({most})")

    def pieces(self, found: Found) -> Iterator[bytes]:
        """Yield the bytes of a schema or linkbase, and refuse to read too much of them again."""
        file = found.file
        is_first = file not in self.read
        self.read.add(file)
        self.count_read(LEAST_READ, is_first, found)
        for piece in found.package.pieces(found.name):
            self.count_read(len(piece), is_first, found)
            yield piece

    def count_read(self, size: int, is_first: bool, found: Found) -> None:
        """Count bytes of a file that is read for the first time, or again."""
        if is_first:
            self.first += size
            return
        self.again += size
        if self.again > AGAIN + 2 * self.first:
            why = "is read again and again, by other URLs or for other namespaces"
            raise wrong(found.label, why)

    def published(self, place: Place) -> Optional[Found]:
        at = self.catalogs.find(place) if place.is_web() else None
        return Found(place, *at) if at else None

    def beside(self, place: Place, asker: str, how: str) -> Optional[Found]:
        name = place.path()
        leads_up = ".." in name.split("/") and not isinstance(self.report, Beside)
        if name.startswith("/") or leads_up:
            raise wrong(asker, f"'{place.text}' leads outside of {self.report.label} ({how})")
        return Found(place, self.report, name) if self.report.has(name) else None

    def missing(self, place: Place, asker: str, how: str) -> Refusal:
        if place.local:
            return wrong(asker, f"there is no {self.report.shown(place.path())} ({how})")
        without = "".join(without_catalog(package) for package in self.packages if package is not self.report and not package.has(CATALOG))
        none = "" if any(package is not self.report for package in self.packages) else "; there is no --taxonomy"
        other = self.other_scheme(place)
        there = f"; one has {other.text}" if other and self.published(other) else ""
        there = there or self.in_other_capitals(place)
        return wrong(asker, f"no package has {place.text} ({how}{without}{none}{there})")

    def in_other_capitals(self, place: Place) -> str:
        """Return what a line adds if a file exists whose URL differs only in capitals."""
        for package, path in self.catalogs.entries_in_any_capitals(place):
            name = name_in_package(path, place.text, package)
            alike = (file for file in package.files_below("") if file.lower() == name.lower())
            found = next(filter(package.has, alike), None)
            if found is not None:
                return f"; {package.shown(found)} differs in capitals alone"
        return ""

    @staticmethod
    def other_scheme(place: Place) -> Optional[Place]:
        """Return the URL with `http` and `https` exchanged.

        This is mostly what is wrong with a URL that no package has.
        """
        scheme, colon, rest = place.text.partition(":")
        other = {"http": "https", "https": "http"}.get(scheme)
        return Place(other + colon + rest) if other else None


def share_allowance(packages: Sequence[Package]) -> None:
    """Give the packages that are packed one allowance: what one has less, another may have more."""
    packed = [package for package in packages if package.packed is not None]
    shared = Allowance(sum(package.packed or 0 for package in packed))
    for package in packed:
        package.allowance = shared


def too_long(place: Place, asker: str, how: str) -> Refusal:
    length, start = len(place.text), place.text[:100]
    most = f"more than {LONGEST_URL} are not taken"
    return wrong(asker, f"has a URL of {length} characters; {most} ({how}: {start}..)")


def without_catalog(package: Package) -> str:
    """Return what a line adds for a package that has no catalog.

    It may be a collection of packages: supervisors publish several in one ZIP.
    """
    files, folders = package.children("")
    inside = [file for file in files if file.lower().endswith(".zip")] + [folder for folder in folders if package.has(f"{folder}/{CATALOG}")]
    held = f", but packages, which --taxonomy takes one by one: {', '.join(inside)}" if inside else ""
    return f"; {package.label} has no {CATALOG}{held}"
