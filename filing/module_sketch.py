"""The sketch of a template: all that the checks of a report's parameters look at."""

from __future__ import annotations

from typing import Dict

from .metadata import objects
from .named import is_reference
from .parameters import OF_EACH_FACT
from .strict_json import Json, Object


def sketch(template: Json) -> Json:
    """Return what the checks of parameters look at in a template. Equal property groups are one."""
    if not isinstance(template, dict):
        return template
    made = level(template)
    if "columns" in template:
        columns = template["columns"]
        made["columns"] = columns
        if isinstance(columns, dict):
            made["columns"] = {name: sketch_of_column(column) for name, column in columns.items()}
    return made


def sketch_of_column(column: Json) -> Json:
    if not isinstance(column, dict):
        return column
    made = level(column)
    if "propertiesFrom" in column:
        made["propertiesFrom"] = column["propertiesFrom"]
    if "propertyGroups" in column:
        groups: Dict[object, Json] = {}
        for _, group in objects(column, "propertyGroups"):
            kept = level(group)
            mark = mark_of(kept)
            if mark not in groups:
                groups[mark] = kept
        made["propertyGroups"] = {str(at): level for at, level in enumerate(groups.values())}
    return made


def mark_of(kept: Object) -> object:
    """Return what only equal levels have in common.

    These are their texts, if they have no other values. Else it is the representation, which takes
    long: modules have 100,000 groups and more.
    """
    dimensions = kept.get("dimensions")
    if not isinstance(dimensions, dict):
        return repr(kept)
    for text in dimensions.values():
        if not isinstance(text, str):
            return repr(kept)
    return tuple(dimensions.items()), kept.get("decimals")


def level(owner: Object) -> Object:
    """Return the references of an object that may have `dimensions`, and its entity and period."""
    made: Object = {}
    if "dimensions" in owner:
        dimensions = owner["dimensions"]
        if isinstance(dimensions, dict):
            dimensions = {
                key: text
                for key, text in dimensions.items()
                if key in OF_EACH_FACT
                or isinstance(text, str) and text.startswith("$") and is_reference(text)
            }
        made["dimensions"] = dimensions
    decimals = owner.get("decimals")
    if isinstance(decimals, str) and is_reference(decimals):
        made["decimals"] = decimals
    return made
