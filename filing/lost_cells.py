"""Cells that name a replaced prefix: a document would name it without declaring it.

xbrl-json refuses such a name of a member, a unit or an entity. It copies texts: those of typed
dimensions, and facts that are names of no concept (`SQName`). Only these are looked at here, and
only if a prefix is replaced and a table has it at all.
"""

from __future__ import annotations

import re
from typing import Callable, Collection, Dict, Iterable, Iterator, List, Optional, Set, Tuple

from .metadata import Merged, objects
from .named import reference
from .prepared import Files
from .refusals import Refusal, wrong
from .spots import spot_of
from .strict_json import Json, Object
from .table_cells import cells_of, is_pipe, pieces_of

KindOf = Callable[[str], Optional[str]]  # the kind of a name of the metadata
FEW = 16  # prefixes that are looked for one by one
NAME = re.compile(r"([^\s:]+):\S+\s*")  # of a list
PREFIX = re.compile(rb'[^\s:,"]+(?=:)')  # of a CSV file
PREFIX_ALONE = re.compile(rb'[^\s:,"]+')


def refuse_lost_cells(merged: Merged, lost: Dict[str, str], files: Files, kind_of: KindOf) -> None:
    """Refuse a cell that is copied as a text and names a replaced prefix."""
    if not lost:
        return
    templates = dict(objects(merged.value, "tableTemplates"))
    columns_of: Dict[str, Set[str]] = {}  # by template
    naming = {url for url in files.tables if mentions(files, url, lost)}
    for url, used in dict.fromkeys(urls_and_templates(merged)):
        if url not in naming:
            continue
        if used not in columns_of:
            template = templates.get(used, {})
            columns_of[used] = columns_of_texts(template, merged.value, kind_of)
        columns = columns_of[used]
        if columns and is_pipe(files, url):
            raise unread(files, url, lost)
        for row, column, text in cells_of(files, url, columns):
            old = lost_in(text, lost)
            if old is not None:
                label = files.package.shown(files.name(url))
                why = f"'{text}' has the prefix '{old}', whose namespace has the prefix"
                what = f"'{lost[old]}' here: write '{lost[old]}', or declare '{old}' instead of it"
                spot = spot_of(files, url, row, column)
                raise wrong(label, f"{why} {what} in {files.report}", spot)


def urls_and_templates(merged: Merged) -> Iterator[Tuple[str, str]]:
    """Yield the URL and the template of each table that has both."""
    for name, table in objects(merged.value, "tables"):
        url, used = table.get("url"), table.get("template", name)
        if isinstance(url, str) and isinstance(used, str):
            yield url, used


def lost_in(text: str, lost: Dict[str, str]) -> Optional[str]:
    """Return the first replaced prefix of a text that is a list of names; None for another text."""
    at = len(text) - len(text.lstrip())
    name = NAME.match(text, at)
    while name is not None and name[1] not in lost:
        name = NAME.match(text, name.end())
    return None if name is None else name[1]


def unread(files: Files, url: str, lost: Dict[str, str]) -> Refusal:
    """Return the refusal of a pipe, whose cells may name a replaced prefix."""
    old, new = next(iter(lost.items()))
    why = f"is a pipe, which cannot be searched for the prefix '{old}', whose namespace has the prefix"
    what = f"'{new}' here: give a file, or declare '{old}' instead of '{new}' in {files.report}"
    return wrong(files.package.shown(files.name(url)), f"{why} {what}")


def mention_lost(files: Files, lost: Dict[str, str]) -> bool:
    """Return whether any table may have the text of a replaced prefix."""
    return bool(lost) and any(mentions(files, url, lost) for url in sorted(files.tables))


def mentions(files: Files, url: str, prefixes: Collection[str]) -> bool:
    """Return whether a table has the text of one of these prefixes, or is a pipe: it may then."""
    if is_pipe(files, url):
        return True
    longest = max(len(prefix.encode()) for prefix in prefixes)
    sought = [f"{prefix}:".encode() for prefix in prefixes]
    many = {start[:-1] for start in sought} if len(sought) > FEW else None
    end = b""
    for piece in pieces_of(files, url):
        text = end + piece
        if any(start in text for start in sought) if many is None else has_one_of(text, many):
            return True
        end = (end + piece)[-longest:]
    return False


def has_one_of(text: bytes, prefixes: Set[bytes]) -> bool:
    """Return whether a part of a CSV file has one of many prefixes, or may have it."""
    return not all(map(PREFIX_ALONE.fullmatch, prefixes)) or not prefixes.isdisjoint(PREFIX.findall(text))


def columns_of_texts(template: Object, report: Object, kind_of: KindOf) -> Set[str]:
    """Return the columns whose cells may be copied as a text that names a prefix."""
    columns = dict(objects(template, "columns"))
    outer = [level for level in map(dimensions_of, (template, report)) if level]
    found: Set[str] = set()
    named: Dict[str, bool] = {}  # whether a group of a column names a concept whose facts may be
    for name, column in columns.items():
        if "dimensions" not in column:
            continue
        for giver in givers_of(column):
            if giver not in named:
                groups = groups_of(giver, columns)
                named[giver] = any_may_name(groups, kind_of)
                found.update(typed_columns(groups, kind_of))
        levels = [dimensions_of(column), *outer]
        if any_may_name(levels, kind_of) or any(map(named.__getitem__, givers_of(column))):
            found.add(name)
        found.update(typed_columns(levels, kind_of))
    return found


def dimensions_of(level: Object) -> Object:
    dimensions = level.get("dimensions")
    return dimensions if isinstance(dimensions, dict) else {}


def givers_of(column: Object) -> List[str]:
    """Return the columns from which a column takes property groups."""
    places = column.get("propertiesFrom")
    return [place for place in places if isinstance(place, str)] if isinstance(places, list) else []


def groups_of(giver: str, columns: Dict[str, Object]) -> List[Object]:
    """Return the dimensions of the property groups of a column."""
    groups = objects(columns.get(giver, {}), "propertyGroups")
    return [dimensions_of(group) for _, group in groups]


def any_may_name(levels: Iterable[Object], kind_of: KindOf) -> bool:
    """Return whether one of these levels has a concept whose facts may be such texts."""
    return any(may_name(level["concept"], kind_of) for level in levels if "concept" in level)


def may_name(concept: Json, kind_of: KindOf) -> bool:
    """Return whether the facts of a concept may be texts that name a prefix."""
    return isinstance(concept, str) and (
        reference("concept", concept) is not None or kind_of(concept) == "other"
    )


def typed_columns(levels: Iterable[Object], kind_of: KindOf) -> Iterator[str]:
    """Yield the columns from which typed dimensions are taken."""
    for level in levels:
        for key, text in level.items():
            name = reference(key, text)
            if name is not None and kind_of(key) == "typed":
                yield name
