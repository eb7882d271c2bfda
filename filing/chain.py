"""The metadata files of a report: its own, and all that it extends, each once, in one order."""

from __future__ import annotations

import re
from typing import Dict, Iterator, List, Optional, Set, Tuple

from .finding import Finder, Found
from .refusals import wrong
from .strict_json import Object, Values, read_json
from .urls import Place, joined

DOCUMENT_TYPE = "https://xbrl.org/2021/xbrl-csv"
# The document types of drafts of xBRL-CSV 1.0, which have the date of the draft, or a text in which
# the date was to be put.
OF_A_DRAFT = re.compile(
    r"https?://(?:www\.)?xbrl\.org/"
    r"(?:(?:CR|PR|PWD|DPWD|IWD|WGWD)/[^/]+|YYYY|\(\(~status_date_uri~\)\))/xbrl-csv"
)
MOST_FILES = 2000  # of a report; modules that were seen have 120 at most
MOST_TEXTS = 2000  # of a list of URLs
# In all files of a report. A module has 180 prefixes in each of 120 files, and xbrl-json takes
# 4,096 tables; optional ones may be left out before.
MOST_NAMES = {"namespaces": 100_000, "tables": 16_384, "parameters": 65_536}


class Metadata:
    """One metadata file: its value, and the places of the files that it extends, in order."""

    def __init__(self, found: Found, value: Object) -> None:
        self.found = found
        self.value = value
        self.extends: List[Place] = []

    @property
    def label(self) -> str:
        return self.found.label

    @property
    def info(self) -> Object:
        value: Object = self.value["documentInfo"]
        return value

    def part(self, name: str) -> Object:
        """Return an object at the top; an empty one if it is absent."""
        return self.object_of(self.value, name)

    def info_part(self, name: str) -> Object:
        """Return an object of `documentInfo`; an empty one if it is absent."""
        return self.object_of(self.info, name)

    def object_of(self, owner: Object, name: str) -> Object:
        value = owner.get(name, {})
        if not isinstance(value, dict):
            raise wrong(self.label, f"'{name}' is not an object")
        return value

    def texts(self, name: str) -> List[str]:
        """Return a list of texts of `documentInfo`; an empty one if it is absent."""
        value = self.info.get(name, [])
        if not isinstance(value, list) or not all(isinstance(text, str) for text in value):
            raise wrong(self.label, f"'documentInfo.{name}' is not a list of texts")
        if len(value) > MOST_TEXTS:
            raise wrong(self.label, f"'documentInfo.{name}' has more than {MOST_TEXTS} URLs")
        return value

    def base_url(self) -> Optional[str]:
        value = self.info.get("baseURL")
        if value is None and "baseURL" not in self.info:
            return None
        if not isinstance(value, str):
            raise wrong(self.label, "'documentInfo.baseURL' is not a text")
        return value

    def taxonomy(self) -> List[Tuple[str, Place]]:
        """Return the entry points: the text of each in the merged metadata, and its place.

        See xBRL-CSV 1.0, `documentInfo`.
        """
        own = self.base_url()
        base = self.found.place if own is None else joined(self.found.place, own)
        entries = []
        for reference in self.texts("taxonomy"):
            place = joined(base, reference)
            entries.append((reference if place.local else place.text, place))
        return entries


def read_metadata(found: Found, values: Values) -> Metadata:
    """Read one file, and check no more of its shape than joining it needs."""
    package = found.package
    value = read_json(package.pieces(found.name), found.label, values, package.allowance)
    info = value.get("documentInfo") if isinstance(value, dict) else None
    kind = info.get("documentType") if isinstance(info, dict) else None
    if kind != DOCUMENT_TYPE:
        said = "it has no 'documentInfo.documentType'"
        if isinstance(kind, str):
            said = f"its document type is '{kind}'{draft_note(kind)}"
        raise wrong(found.label, f"is no xBRL-CSV metadata file: {said}")
    metadata = Metadata(found, value)
    if metadata.part("links"):
        raise wrong(found.label, "has 'links', which cannot be carried over")
    metadata.extends = [joined(found.place, reference) for reference in metadata.texts("extends")]
    return metadata


def draft_note(kind: object) -> str:
    """Return what a line adds to a document type of a draft of xBRL-CSV 1.0; nothing to another."""
    if not isinstance(kind, str) or not OF_A_DRAFT.fullmatch(kind):
        return ""
    return f", of a draft; that of xBRL-CSV 1.0 is '{DOCUMENT_TYPE}'"


class Chain:
    """All metadata files of a report, in order.

    Each file is followed by those that it extends, in the order of its list, and each of these by
    those that it extends itself.
    """

    def __init__(self, report: Found, finder: Finder) -> None:
        self.finder = finder
        self.values = Values()
        self.names = dict.fromkeys(MOST_NAMES, 0)
        self.files: Dict[Place, Metadata] = {}
        self.down: Dict[Place, List[Place]] = {}
        self.up: Dict[Place, List[Place]] = {}
        self.read_from(report)

    def __iter__(self) -> Iterator[Metadata]:
        return iter(self.files.values())

    def read_from(self, report: Found) -> None:
        """Walk depth first, without recursion (xBRL-CSV 1.0, extends).

        Refuse a file that extends itself, by whatever URL.
        """
        # The files from the report's own to the one that is looked at, with what is left of each.
        way: Dict[Place, Iterator[Place]] = {}
        files: Dict[object, Place] = {}  # the same files, by what they are known by
        self.enter(report, way, files)
        while way:
            at = next(reversed(way))
            place = next(way[at], None)
            if place is None:
                del way[at]
                del files[self.files[at].found.file]
                continue
            asker = self.files[at].label
            if place.known() in self.files:
                key: Optional[Place] = place.known() if place.known() in way else None
            else:
                found = self.finder.find(place, asker, "extends")
                key = files.get(found.file)
                if key is None:
                    self.enter(found, way, files)
            if key is not None:
                by_way = "" if key == at else f", by way of {self.files[key].label}"
                raise wrong(asker, f"extends itself{by_way}")

    def enter(self, found: Found, way: Dict[Place, Iterator[Place]], files: Dict[object, Place]) -> None:
        """Read a file, and begin with those that it extends."""
        if len(self.files) == MOST_FILES:
            raise wrong(found.label, f"is one of more than {MOST_FILES} files that extend each other")
        metadata = read_metadata(found, self.values)
        self.count(metadata)
        key = found.place.known()
        self.files[key] = metadata
        self.down[key] = [place.known() for place in metadata.extends]
        for place in self.down[key]:
            self.up.setdefault(place, []).append(key)
        way[key] = iter(metadata.extends)
        files[found.file] = key

    def count(self, metadata: Metadata) -> None:
        """Count the URLs and names of a file, and refuse too many: each is looked up."""
        for place in (*metadata.extends, *(place for _, place in metadata.taxonomy())):
            self.finder.count(place, metadata.label)
        for part, most in MOST_NAMES.items():
            owner = metadata.info if part == "namespaces" else metadata.value
            named = owner.get(part)
            self.names[part] += len(named) if isinstance(named, dict) else 0
            if self.names[part] > most:
                raise wrong(metadata.label, f"has more than {most} '{part}', with those before it")

    def below(self, metadata: Metadata) -> List[Metadata]:
        """Return a file and all that it extends, directly or through others."""
        return self.reached(metadata, self.down)

    def above(self, metadata: Metadata) -> List[Metadata]:
        """Return a file and all that extend it, directly or through others."""
        return self.reached(metadata, self.up)

    def reached(self, metadata: Metadata, ways: Dict[Place, List[Place]]) -> List[Metadata]:
        """Return a file and all that `ways` lead to from it, in the order of the files."""
        found: Set[Place] = set()
        waiting = [metadata.found.place.known()]
        while waiting:
            key = waiting.pop()
            if key not in found:
                found.add(key)
                waiting += ways.get(key, ())
        return [metadata for key, metadata in self.files.items() if key in found]
