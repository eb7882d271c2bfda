"""One prefix for each namespace.

If two files have two, the first counts, and the other is replaced.
"""

from __future__ import annotations

import re
from collections import Counter
from typing import Any, Callable, Dict, Iterable, Optional, Set

from .chain import Metadata
from .refusals import wrong
from .strict_json import Json, Object, equal

MEASURE_PREFIX = re.compile(r"(?:^|(?<=[*/(]))[^*/():]+(?=:)")


def lost_prefixes(files: Iterable[Metadata]) -> Dict[str, str]:
    """Return the prefixes that are replaced, and what replaces each.

    Two prefixes of one URI in one file are left to the converter.
    """
    first: Dict[str, str] = {}
    lost: Dict[str, str] = {}
    left: Set[str] = set()
    for metadata in files:
        own = [pair for pair in metadata.info_part("namespaces").items() if isinstance(pair[1], str)]
        left.update(uri for uri, times in Counter(uri for _, uri in own).items() if times > 1)
        for prefix, uri in own:
            if first.setdefault(uri, prefix) != prefix:
                lost[prefix] = uri
    return {prefix: first[uri] for prefix, uri in lost.items() if uri not in left}


class Renaming:
    """Replaces lost prefixes in metadata.

    `is_explicit` gets a dimension's name with its new prefix, and returns whether it is explicit.
    """

    def __init__(self, lost: Dict[str, str], is_explicit: Callable[[str], bool]) -> None:
        self.lost = lost
        self.is_explicit = is_explicit

    def qname(self, text: str) -> str:
        prefix, colon, rest = text.partition(":")
        return f"{self.lost[prefix]}:{rest}" if colon and prefix in self.lost else text

    def unit(self, text: str) -> str:
        return MEASURE_PREFIX.sub(lambda found: self.lost.get(found[0], found[0]), text)

    def lost_in(self, text: str) -> Optional[str]:
        """Return a lost prefix that a text seems to need, as a name or as a unit."""
        return next((name for name in MEASURE_PREFIX.findall(text) if name in self.lost), None)

    def value(self, dimension: str, value: Json) -> Json:
        """Return a dimension's value. References and special values have no prefix to lose."""
        if not isinstance(value, str):
            return value
        if dimension == "unit":
            return self.unit(value)
        return self.qname(value) if dimension in ("concept", "entity") or self.is_explicit(dimension) else value

    def dimensions(self, value: Json, label: str, where: str) -> Json:
        """Return a `dimensions` object. Two keys that become one must have one value."""
        if not isinstance(value, dict):
            return value
        made: Object = {}
        for key, old in value.items():
            name = self.qname(key)
            new = self.value(name, old)
            if name in made and not equal(made[name], new):
                raise wrong(label, f"gives '{name}' two values under two prefixes ({where})")
            made[name] = new
        return made

    def level(self, level: Json, label: str, where: str) -> Json:
        """Return a report, template, column or property group with its `dimensions` replaced."""
        if not isinstance(level, dict) or "dimensions" not in level:
            return level
        return {**level, "dimensions": self.dimensions(level["dimensions"], label, where)}

    def template(self, template: Json, label: str, where: str) -> Json:
        made = self.level(template, label, where)
        return each(made, "columns", lambda name, column: self.column(column, label, f"{where}, column '{name}'"))

    def column(self, column: Json, label: str, where: str) -> Json:
        made = self.level(column, label, where)
        return each(made, "propertyGroups", lambda name, group: self.level(group, label, f"{where}, group '{name}'"))

    def report(self, metadata: Metadata) -> Object:
        """Return the whole of a metadata file."""
        if not self.lost:
            return metadata.value
        label = metadata.label
        made: Object = self.level(metadata.value, label, "the report's dimensions")
        changed: Object = each(
            made, "tableTemplates", lambda name, template: self.template(template, label, f"template '{name}'")
        )
        return changed


def each(owner: Json, member: str, change: Callable[[str, Json], Json]) -> Any:
    """Return an object in which each value of one of its objects is changed."""
    if not isinstance(owner, dict) or not isinstance(owner.get(member), dict):
        return owner
    return {**owner, member: {name: change(name, value) for name, value in owner[member].items()}}
