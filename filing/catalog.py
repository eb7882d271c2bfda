"""Catalogs: the file of a package for a URL (Taxonomy Packages 1.0, OASIS XML Catalogs)."""

from __future__ import annotations

from bisect import bisect_right
from typing import Dict, Iterator, List, Optional, Sequence, Tuple

from .markup import XML_BASE, Content, Elements, parse
from .packages import Package
from .refusals import wrong
from .urls import LONGEST_URL, Place, decoded, joined

CATALOG = "META-INF/catalog.xml"
NAMESPACE = "urn:oasis:names:tc:entity:xmlns:xml:catalog "
REWRITE, EXACT = NAMESPACE + "rewriteURI", NAMESPACE + "uri"
STANDARD_HOSTS = ("www.xbrl.org", "xbrl.org", "www.w3.org")
MOST_IN_OTHER_CAPITALS = 4  # entries that are looked at for a line, each in a whole package
MOST_ELEMENTS = 100_000  # of the catalogs of a run; one entry serves a whole package
AN_ENTRY = 25  # elements that take as long as an entry, whose URLs are brought into normal form
MOST_ENTRIES = 100  # that are tried for one URL; packages of supervisors have one or two


class Entries(Content):
    """The `rewriteURI` and `uri` entries of a catalog."""

    def __init__(self, label: str) -> None:
        super().__init__(Place(CATALOG, True), label)
        self.rewrites: List[Tuple[str, str]] = []
        self.exact: List[Tuple[str, str]] = []

    def start(self, name: str, attributes: Dict[str, str]) -> None:
        self.enter()
        self.attributes += len(attributes)
        if XML_BASE in attributes:
            self.rebase(attributes[XML_BASE])
        if name == REWRITE and "uriStartString" in attributes:
            self.rewrites.append((attributes["uriStartString"].strip(), self.target(attributes.get("rewritePrefix", ""))))
        elif name == EXACT and "name" in attributes:
            self.exact.append((attributes["name"].strip(), self.target(attributes.get("uri", ""))))

    def end(self, name: str) -> None:
        self.leave()

    def work(self) -> int:
        return super().work() + AN_ENTRY * (len(self.rewrites) + len(self.exact))

    def target(self, reference: str) -> str:
        """Return the path in the package that an entry names.

        Refuse an entry that leads outside. Blanks around a URI do not count.
        """
        reference = reference.strip()
        if len(reference) > LONGEST_URL:
            raise wrong(self.label, f"has an entry of {len(reference)} characters; more than {LONGEST_URL} are not taken (line {self.line()})")
        place = joined(self.base(), reference)
        if not place.local or place.text.startswith("/") or ".." in place.path().split("/"):
            raise wrong(self.label, f"has an entry that leads outside of the package: '{reference}' (line {self.line()})")
        return place.text


class Catalogs:
    """The catalogs of all packages: the report's own first, then in the order of the command line.

    URLs and start strings are compared in their normal form.
    """

    def __init__(self, packages: Sequence[Package]) -> None:
        self.exact: Dict[str, List[Tuple[Package, str]]] = {}
        self.rewrites: Dict[str, List[Tuple[Package, str]]] = {}
        self.elements = Elements(MOST_ELEMENTS, MOST_ELEMENTS)
        for package in packages:
            self.take(package)
        self.starts = sorted(start for start in self.rewrites if len(start) <= LONGEST_URL)
        self.shorter = shorter_starts(self.starts)

    def take(self, package: Package) -> None:
        """Add the entries of a package's catalog, if it has one."""
        if not package.has(CATALOG):
            return
        entries = Entries(package.shown(CATALOG))
        parse(package.pieces(CATALOG), entries, self.elements, package.allowance)
        for url, path in entries.exact:
            self.exact.setdefault(Place(url).known().text, []).append((package, path))
        for start, prefix in entries.rewrites:
            self.rewrites.setdefault(Place(start).known().text, []).append((package, prefix))

    def find(self, place: Place) -> Optional[Tuple[Package, str]]:
        """Return the package and the name of the first entry for a URL whose file exists.

        Refuse a URL with too many entries without a file: each costs a look into a package.
        """
        for tried, (package, path) in enumerate(self.entries(place.known().text)):
            if tried == MOST_ENTRIES:
                why = f"has more than {MOST_ENTRIES} entries for {place.text[:200]}"
                raise wrong(package.shown(CATALOG), why)
            name = name_in_package(path, place.text, package)
            if package.has(name):
                return package, name
        return None

    def entries(self, url: str) -> Iterator[Tuple[Package, str]]:
        """Yield the package and the path of each entry for a URL, in the order in which they count.

        Exact entries come first, then the longest start string, then the order of the packages.
        """
        yield from self.exact.get(url, ())
        at = bisect_right(self.starts, url)
        start = self.starts[at - 1] if at else None
        while start is not None:
            if url.startswith(start):
                for package, prefix in self.rewrites[start]:
                    yield package, prefix + url[len(start) :]
            start = self.shorter[start]


    def entries_in_any_capitals(self, place: Place) -> Iterator[Tuple[Package, str]]:
        """Yield the package and the path of each entry for a URL in other capitals, up to a few."""
        url = place.known().text if place.is_web() else ""
        few = 0
        for start, entries in (*self.exact.items(), *self.rewrites.items()):
            if few == MOST_IN_OTHER_CAPITALS:
                return
            whole = start in self.exact
            if url and (url.lower() == start.lower() if whole else url.lower().startswith(start.lower())):
                few += 1
                yield from ((package, path if whole else path + url[len(start) :]) for package, path in entries[:1])


def shorter_starts(starts: Sequence[str]) -> Dict[str, Optional[str]]:
    """Return for each of the sorted start strings the longest other one with which it begins."""
    shorter: Dict[str, Optional[str]] = {}
    around: List[str] = []
    for start in starts:
        while around and not start.startswith(around[-1]):
            around.pop()
        shorter[start] = around[-1] if around else None
        around.append(start)
    return shorter


def name_in_package(path: str, url: str, package: Package) -> str:
    """Return the name of a file from a path whose percent signs are still encoded.

    Refuse a path that leads outside of the package.
    """
    segments = [segment for segment in decoded(path).split("/") if segment]
    if ".." in segments:
        raise wrong(package.shown(CATALOG), f"leads {url} outside of the package")
    return "/".join(segment for segment in segments if segment != ".")
