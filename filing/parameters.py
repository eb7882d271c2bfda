"""Checks for parameters that would otherwise be lost silently.

Three cases: a value whose prefix the merged metadata lacks, a name that is wrong only in its
capitals, and a missing value from which all facts take their entity or period.
"""

from __future__ import annotations

from typing import Dict, Iterator, Optional, Set, Tuple

from .metadata import Merged, objects
from .named import Places, reference
from .prefixes import Renaming
from .prepared import Files
from .refusals import wrong
from .spots import spot_of_parameter
from .strict_json import Json, Object

OF_EACH_FACT = ("entity", "period")  # what no fact of a filing does without
ROW_NUMBER = "rowNumber"  # a reference that needs no parameter


def check_parameters(merged: Merged, renaming: Renaming, files: Files) -> None:
    """Refuse a parameter whose text has a lost prefix, as a name or in a unit."""
    if not renaming.lost:
        return
    for name, text, label in (*parameters_of_metadata(merged), *parameters_of_file(files)):
        prefix = renaming.lost_in(text)
        if prefix is not None:
            stands = renaming.lost[prefix]
            spot = spot_of_parameter(files, label, name, 2)
            raise wrong(label, f"the parameter '{name}' has the prefix '{prefix}', whose namespace has the prefix '{stands}' here: write '{stands}' ({text})", spot)


def check_references(merged: Merged, files: Files, named: Places) -> None:
    """Refuse an unused parameter that differs only in capitals from one that a template needs.

    `named` are the references of the metadata.
    """
    given = {name: label for name, _, label in (*parameters_of_metadata(merged), *parameters_of_file(files))}
    if not given:
        return
    used = {name for name, _ in named}
    spelt = {name.lower(): name for name in given if name not in used}
    columns = {name: columns_of(template) for name, template in objects(merged.value, "tableTemplates")}
    for name, owner in named:
        other = spelt.get(name.lower())
        if other is None or name in given:
            continue
        template = template_without(name, owner, columns)
        if template is not None:
            what = f"nothing refers to the parameter '{other}', and the template '{template}' refers to '${name}', which is no parameter"
            spot = spot_of_parameter(files, given[other], other, 1)
            raise wrong(given[other], f"{what} and no column of it (names are compared exactly)", spot)


def require_parameters(merged: Merged, files: Files) -> None:
    """Refuse a missing value to which the report's own `entity` or `period` refers.

    Refuse it only if a fact would then have no entity or period.
    """
    dimensions, parameters = merged.value.get("dimensions", {}), merged.value.get("parameters", {})
    if is_faulty(files):
        return
    given = {name for name, text in parameters.items() if text != ""} | {name for name, text, _ in parameters_of_file(files) if text}
    for key in OF_EACH_FACT:
        name = reference(key, dimensions.get(key))
        if name is None or name in given or name == ROW_NUMBER:
            continue
        table = table_without(key, name, merged, files)
        if table is not None:
            label = files.report if files.parameters is None else files.package.shown(files.name(files.parameters))
            asker = f"'dimensions.{key}' of {merged.origin(('dimensions', key))}"
            spot = spot_of_parameter(files, label, name, 2)
            raise wrong(label, f"has no value for the parameter '{name}', to which {asker} refers: facts of the table '{table}' would have no {key}", spot)


def table_without(key: str, name: str, merged: Merged, files: Files) -> Optional[str]:
    """Return the first table that lacks a dimension without the parameter, or None.

    Its file exists, a fact of it takes the dimension from the report's own level, and nothing of
    the table gives the parameter.
    """
    templates = dict(objects(merged.value, "tableTemplates"))
    takes: Dict[str, bool] = {}  # whether a fact of a template does
    for table_name, table in objects(merged.value, "tables"):
        url, used = table.get("url"), table.get("template", table_name)
        used = used if isinstance(used, str) else ""
        template = templates.get(used, {})
        there = isinstance(url, str) and url in files.tables and files.package.has(files.name(url))
        if not there or name in columns_of(template) or member(table, "parameters", name):
            continue
        if used not in takes:
            takes[used] = takes_from_report(template, key)
        if takes[used]:
            return table_name
    return None


def takes_from_report(template: Object, key: str) -> bool:
    """Return whether a fact column takes a dimension from the report's own level.

    It does if neither it, nor its property groups, nor the template has the dimension.
    """
    columns = dict(objects(template, "columns"))
    facts = [column for column in columns.values() if "dimensions" in column and member(column, "dimensions", key) is None]
    givers = {name for name, column in columns.items() if groups_give(column, key)}
    return member(template, "dimensions", key) is None and not all(takes_from(column, givers) for column in facts)


def takes_from(column: Object, givers: Set[str]) -> bool:
    """Return whether a column takes the property groups of one of these columns."""
    places = column.get("propertiesFrom")
    return isinstance(places, list) and any(isinstance(name, str) and name in givers for name in places)


def groups_give(column: Object, key: str) -> bool:
    """Return whether a column has property groups, and all of them give a dimension."""
    groups = [member(group, "dimensions", key) for _, group in objects(column, "propertyGroups")]
    return bool(groups) and None not in groups


def member(owner: Object, part: str, name: str) -> Json:
    """Return a member of an object's object, or None."""
    inner = owner.get(part)
    return inner.get(name) if isinstance(inner, dict) else None


def columns_of(template: Object) -> Object:
    columns = template.get("columns")
    return columns if isinstance(columns, dict) else {}


def template_without(name: str, owner: Optional[str], columns: Dict[str, Object]) -> Optional[str]:
    """Return the first template of a reference that has no column of the name, or None.

    Then only a parameter can have the name. `owner` is the template that refers, or None for the
    report's own level, which all templates have.
    """
    return None if name == ROW_NUMBER else next((template for template in (columns if owner is None else [owner]) if name not in columns[template]), None)


def parameters_of_metadata(merged: Merged) -> Iterator[Tuple[str, str, str]]:
    """Yield the name, text and file of each parameter of the report and of its tables."""
    owners = [((), merged.value)] + [(("tables", name), table) for name, table in objects(merged.value, "tables")]
    for path, owner in owners:
        parameters = owner.get("parameters")
        for name, text in (parameters.items() if isinstance(parameters, dict) else ()):
            if isinstance(text, str):
                yield name, text, merged.origin(tuple(path) + ("parameters", name))


def parameters_of_file(files: Files) -> Iterator[Tuple[str, str, str]]:
    """Yield the same for the parameters file, after its header.

    What is wrong with the file is left to xbrl-json.
    """
    for record in files.parameter_records[1:]:
        if len(record) == 2:
            yield record[0], record[1], files.package.shown(files.name(files.parameters or ""))


def is_faulty(files: Files) -> bool:
    """Return whether the parameters file has a header or a record that xbrl-json refuses.

    That is another header, or a record that does not have two fields.
    """
    if files.parameters is None:
        return False
    records = files.parameter_records
    return records[:1] != (["name", "value"],) or any(len(record) != 2 for record in records)
