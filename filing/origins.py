"""From a place of the merged metadata to the file that it came from, and its place there."""

from __future__ import annotations

import re
from typing import Iterable, List, Optional, Tuple

from .chain import Metadata
from .metadata import ENTRIES, Merged, Path
from .prefixes import Renaming
from .strict_json import Json

POINTER = re.compile(r"(?:/(?:[^~/]|~[01])*)+")


class Origins:
    """The places that the parts of a merged file have in the files that it was made of."""

    def __init__(self, merged: Merged, files: Iterable[Metadata], renaming: Renaming) -> None:
        self.merged = merged
        self.renaming = renaming
        self.files = {metadata.label: metadata for metadata in files}  # the report's own is the first

    def labels(self) -> List[str]:
        return list(self.files)

    def place(self, pointer: str) -> Optional[Tuple[str, str]]:
        """Return the file and the pointer there for a pointer of the merged file (RFC 6901).

        Return None for a text that does not point to a part of it.
        """
        path = path_of(pointer)
        if not path or path[0] not in self.merged.value:
            return None
        label, there = self.own_path(path)
        return label, pointer_of(there)

    def own_path(self, path: Path) -> Tuple[str, Path]:
        """Return the file that gave a part, or the part around it, and the part's path there."""
        label = self.merged.origin(path)
        file = self.files[label]
        owner: Json = file.value
        there: List[str] = []
        for depth, name in enumerate(path):
            there.append(self.own_name(file, owner, path[:depth], name))
            owner = owner.get(there[-1]) if isinstance(owner, dict) else None
        return label, tuple(there)

    def own_name(self, file: Metadata, owner: Json, path: Path, name: str) -> str:
        """Return what a file itself calls a member of one of its objects.

        For an entry point, return its number in the file's own list.
        """
        if path == ENTRIES and name.isdecimal():
            entries = self.merged.value["documentInfo"]["taxonomy"]
            texts = [text for text, _ in file.taxonomy()]
            return str(texts.index(entries[int(name)])) if int(name) < len(entries) else name
        if not isinstance(owner, dict) or name in owner:
            return name
        return next((own for own in owner if self.renaming.qname(own) == name), name)


def path_of(pointer: str) -> Optional[Path]:
    """Return the names in a JSON pointer (RFC 6901, section 4); None for another text."""
    if not POINTER.fullmatch(pointer):
        return None
    return tuple(name.replace("~1", "/").replace("~0", "~") for name in pointer[1:].split("/"))


def pointer_of(path: Iterable[str]) -> str:
    return "".join("/" + name.replace("~", "~0").replace("/", "~1") for name in path)
