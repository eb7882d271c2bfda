"""Where a report takes members from a namespace that has no schema.

The types table names each member that the schemas have, and xbrl-json then refuses any other. The
schemas of the standards' hosts may be missing, and metadata may declare a namespace that no schema
is for. If members of such a namespace are used, the table has no members, and none is looked up.
"""

from __future__ import annotations

from typing import Callable, Dict, Iterator, List, NamedTuple, Optional, Set, Tuple

from .kinds import Kinds
from .lost_cells import mentions
from .metadata import Merged, levels, objects
from .named import reference
from .parameters import parameters_of_file, parameters_of_metadata
from .prepared import Files
from .strict_json import Json, Object

KindOf = Callable[[str], Optional[str]]  # the word of a name of the metadata
TAKES_MEMBERS = ("enumeration", "enumerations")
MOST_PREFIXES = 1000  # that are looked for in cells
# Namespaces of units, entities and the standards: they have no member of a dimension.
WITHOUT_MEMBERS = frozenset(
    (
        "http://www.xbrl.org/2003/iso4217",
        "http://www.xbrl.org/2003/instance",
        "http://www.xbrl.org/2009/utr",
        "http://standards.iso.org/iso/17442",
        "https://xbrl.org/2021",
    )
)


class MemberPlaces(NamedTuple):
    """Where members of a namespace without a schema may come from."""

    prefixes: List[str]  # of these namespaces
    literals: List[str]  # templates whose own text has such a member
    templates: List[str]  # templates whose cells may have one
    names: List[str]  # what explicit dimensions refer to: columns and parameters


def unread_prefixes(namespaces: Dict[str, str], kinds: Kinds) -> List[str]:
    """Return the prefixes of namespaces that have no schema and may have members."""
    unread = (prefix for prefix, uri in namespaces.items() if uri not in kinds)
    return sorted(prefix for prefix in unread if namespaces[prefix] not in WITHOUT_MEMBERS)


def member_places(report: Object, prefixes: List[str], kind_of: KindOf) -> MemberPlaces:
    """Return where a report may take members with these prefixes from."""
    literals: Set[str] = set()
    templates: Set[str] = set()
    names: Set[str] = set()
    starts = tuple(f"{prefix}:" for prefix in prefixes)
    for path, level in levels(report) if prefixes else ():
        own = [path[1]] if path else [name for name, _ in objects(report, "tableTemplates")]
        for key, text in dimensions_of(level):
            name = reference(key, text)
            if key == "concept":
                if name is not None or kind_of(text) in TAKES_MEMBERS:
                    templates.update(own)
            elif kind_of(key) == "explicit":
                if name is not None:
                    templates.update(own)
                    names.add(name)
                elif text.startswith(starts):
                    literals.update(own)
    return MemberPlaces(prefixes, sorted(literals), sorted(templates), sorted(names))


def dimensions_of(level: Object) -> Iterator[Tuple[str, str]]:
    """Yield the dimensions of a level whose values are texts."""
    dimensions: Json = level.get("dimensions")
    for key, text in dimensions.items() if isinstance(dimensions, dict) else ():
        if isinstance(text, str):
            yield key, text


def takes_unread(places: MemberPlaces, merged: Merged, files: Files) -> bool:
    """Return whether a report takes a member from a namespace without a schema."""
    if not places.prefixes:
        return False
    if len(places.prefixes) > MOST_PREFIXES:
        return True
    starts = tuple(f"{prefix}:" for prefix in places.prefixes)
    for name, text, _ in (*parameters_of_metadata(merged), *parameters_of_file(files)):
        if name in places.names and text.startswith(starts):
            return True
    for table, owner in objects(merged.value, "tables"):
        used, url = owner.get("template", table), owner.get("url")
        if used in places.literals:
            return True
        if used in places.templates and isinstance(url, str) and url in files.tables:
            if mentions(files, url, places.prefixes):
                return True
    return False
