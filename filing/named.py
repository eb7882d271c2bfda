"""What metadata names: concepts, dimensions, and columns or parameters. One walk finds all."""

from __future__ import annotations

import re
from dataclasses import dataclass
from typing import Container, Dict, Iterator, Optional, Tuple

from .metadata import Path, levels
from .strict_json import Json, Object

SIDE = re.compile(r"@(?:start|end)\Z")
# A name and the template that has it; None for the report's own level, which all templates have.
Place = Tuple[str, Optional[str]]
Places = Dict[Place, Path]


@dataclass(frozen=True)
class Named:
    """The names of a metadata file, each with the first place in its template, in their order."""

    concepts: Places  # that are literals
    dimensions: Places  # of the taxonomy
    references: Places  # to columns and parameters

    def used_by(self, templates: Container[Optional[str]]) -> Named:
        """Return what the report's own level and these templates name."""
        return Named(
            only_of(self.concepts, templates),
            only_of(self.dimensions, templates),
            only_of(self.references, templates),
        )


def only_of(places: Places, templates: Container[Optional[str]]) -> Places:
    """Return the places of the report's own level and of some templates."""
    return {place: path for place, path in places.items() if place[1] is None or place[1] in templates}


def names_of(report: Object) -> Named:
    """Return what a metadata file names."""
    found = Named({}, {}, {})
    for path, level in levels(report):
        template = path[1] if path else None
        dimensions = level.get("dimensions")
        if isinstance(dimensions, dict):
            add_names(found, dimensions, template, path)
        decimals = level.get("decimals")
        if isinstance(decimals, str) and is_reference(decimals):
            found.references.setdefault((decimals[1:], template), (*path, "decimals"))
    return found


def add_names(found: Named, dimensions: Object, template: Optional[str], path: Path) -> None:
    """Add what an object of `dimensions` names.

    A module has 100,000 of them or more, so most keys and texts are only looked at for a mark.
    """
    concept = dimensions.get("concept")
    if isinstance(concept, str) and (concept, template) not in found.concepts:
        found.concepts[concept, template] = (*path, "dimensions", "concept")
    for key, text in dimensions.items():
        if ":" in key and (key, template) not in found.dimensions:
            found.dimensions[key, template] = (*path, "dimensions", key)
        if isinstance(text, str) and text.startswith("$") and is_reference(text):
            name = name_in(key, text)
            if (name, template) not in found.references:
                found.references[name, template] = (*path, "dimensions", key)


def references_of(path: Path, level: Object) -> Iterator[Tuple[str, Path]]:
    """Yield each name that `dimensions` and `decimals` of a level refer to, and where.

    It is the name of a column or a parameter.
    """
    dimensions = level.get("dimensions")
    for key, text in dimensions.items() if isinstance(dimensions, dict) else ():
        name = reference(key, text)
        if name is not None:
            yield name, (*path, "dimensions", key)
    name = reference("decimals", level.get("decimals"))
    if name is not None:
        yield name, (*path, "decimals")


def reference(key: str, text: Json) -> Optional[str]:
    """Return the name of the column or parameter to which a text refers, or None.

    `key` is the dimension whose text it is.
    """
    return name_in(key, text) if is_reference(text) else None


def is_reference(text: Json) -> bool:
    """Return whether a text refers to a column or a parameter."""
    return isinstance(text, str) and text.startswith("$") and not text.startswith("$$")


def name_in(key: str, text: str) -> str:
    """Return the name in a text that refers to a column or a parameter."""
    return SIDE.sub("", text[1:]) if key == "period" else text[1:]
