"""The merged metadata: all files of a chain as one, without `extends`.

It has only the members that the converter reads.
"""

from __future__ import annotations

import json
from dataclasses import dataclass, replace
from typing import Any, Container, Dict, Iterator, Mapping, Tuple, TypeVar

from .chain import DOCUMENT_TYPE, Chain, Metadata
from .prefixes import Renaming
from .refusals import wrong
from .strict_json import Json, Object, equal
from .urls import normal

Path = Tuple[str, ...]
ENTRIES: Path = ("documentInfo", "taxonomy")
TABLE_MEMBERS = ("url", "template", "optional", "parameters")
TEMPLATE_MEMBERS = ("columns", "rowIdColumn", "dimensions", "decimals")
COLUMN_MEMBERS = ("comment", "dimensions", "decimals", "propertyGroups", "propertiesFrom")
GROUP_MEMBERS = ("dimensions", "decimals")


@dataclass(frozen=True)
class Merged:
    """The joined metadata, and the file that each part of it came from.

    Nobody changes it: a step that leaves something out or renames something makes another.
    """

    value: Object
    origins: Mapping[Path, str]

    def origin(self, path: Path) -> str:
        """Return the file that gave a part, or the part around it."""
        return origin_of(self.origins, path)

    def pieces(self) -> Iterator[bytes]:
        """Yield the file's bytes: compact, with members in the order of their names."""
        yield compact(self.value)
        yield b"\n"

    def without_tables(self: SomeMerged, names: Container[str]) -> SomeMerged:
        """Return the metadata without some tables, and without the templates that only they use."""
        left = {name: table for name, table in self.value["tables"].items() if name not in names}
        return replace(self, value=with_used_templates({**self.value, "tables": left}))

    def with_urls(self: SomeMerged, names: Mapping[str, str]) -> SomeMerged:
        """Return the metadata with other URLs of tables and parameters, by those that they have."""
        value = dict(self.value)
        tables = value.get("tables")
        if isinstance(tables, dict):
            value["tables"] = {name: with_url(table, "url", names) for name, table in tables.items()}
        return replace(self, value=with_url(value, "parameterURL", names))


SomeMerged = TypeVar("SomeMerged", bound=Merged)


def compact(value: Json) -> bytes:
    """Return a value's bytes as those of the merged metadata are written."""
    text = json.dumps(value, ensure_ascii=False, sort_keys=True, separators=(",", ":"))
    return text.encode()


def origin_of(origins: Mapping[Path, str], path: Path) -> str:
    """Return the file that gave a part, or the part around it."""
    while path not in origins and path:
        path = path[:-1]
    return origins.get(path, "the report")


def with_url(owner: Json, member: str, names: Mapping[str, str]) -> Any:
    """Return an object in which a URL has its new name, if it has one."""
    url = owner.get(member) if isinstance(owner, dict) else None
    if not isinstance(url, str) or url not in names:
        return owner
    return {**owner, member: names[url]}


class Merging:
    """A metadata file while it is joined."""

    def __init__(self) -> None:
        self.value: Object = {}
        self.origins: Dict[Path, str] = {}

    def put(self, path: Path, value: Json, label: str) -> None:
        """Put a value at a path.

        A value that is there already must be equal (xBRL-CSV 1.0, `extends`).
        """
        owner: Any = self.value
        for depth, name in enumerate(path[:-1], 1):
            if name not in owner:
                self.origins[path[:depth]] = label
            owner = owner.setdefault(name, {})
        if not isinstance(owner, dict):
            raise self.conflict(path[:-1], label)
        if path[-1] not in owner:
            owner[path[-1]] = value
            self.origins[path] = label
        elif not equal(owner[path[-1]], value):
            raise self.conflict(path, label)

    def conflict(self, path: Path, label: str) -> Exception:
        """Return the refusal of a part to which two files give different values."""
        other = origin_of(self.origins, path)
        return wrong(label, f"'{'.'.join(path)}' has another value than in {other}")

    def put_table(self, name: str, table: Json, label: str) -> None:
        """Join a table member by member: one file may give what another leaves open."""
        there = self.value.get("tables", {}).get(name, {})
        if not isinstance(table, dict) or not isinstance(there, dict):
            self.put(("tables", name), table, label)
            return
        if not there:
            self.put(("tables", name), {}, label)
        for member in TABLE_MEMBERS:
            if member not in table:
                continue
            value = table[member]
            if member == "parameters" and isinstance(value, dict):
                for key, text in value.items():
                    self.put(("tables", name, member, key), text, label)
            else:
                self.put(("tables", name, member), value, label)


def merge(chain: Chain, renaming: Renaming) -> Merged:
    """Return the merged metadata of a chain."""
    merging = Merging()
    for number, metadata in enumerate(chain):
        value, label = renaming.report(metadata), metadata.label
        put_info(merging, metadata, number == 0)
        for part in ("tableTemplates", "dimensions", "parameters"):
            for name, given in value.get(part, {}).items():
                merging.put((part, name), given, label)
        for name, table in metadata.part("tables").items():
            merging.put_table(name, table, label)
        for member in ("decimals", "parameterURL"):
            if member in value:
                merging.put((member,), value[member], label)
    for prefix in renaming.lost:
        merging.value["documentInfo"]["namespaces"].pop(prefix, None)
    return Merged(pruned(merging.value), merging.origins)


def put_info(merging: Merging, metadata: Metadata, is_report: bool) -> None:
    """Join `documentInfo`: type, namespaces and entry points, and the report's `baseURL`."""
    label = metadata.label
    merging.put(("documentInfo", "documentType"), DOCUMENT_TYPE, label)
    put_namespaces(merging, metadata)
    base = metadata.base_url()
    if is_report and base is not None:
        merging.put(("documentInfo", "baseURL"), base, label)
    if "taxonomy" in metadata.info:
        put_entries(merging, metadata)


def put_entries(merging: Merging, metadata: Metadata) -> None:
    """Add a file's entry points to those that are there, each once and in its first spelling."""
    entries = merging.value["documentInfo"].setdefault("taxonomy", [])
    merging.origins.setdefault(ENTRIES, metadata.label)
    known = set(map(normal, entries))
    for text, _ in metadata.taxonomy():
        if normal(text) not in known:
            known.add(normal(text))
            merging.origins[(*ENTRIES, str(len(entries)))] = metadata.label
            entries.append(text)


def put_namespaces(merging: Merging, metadata: Metadata) -> None:
    for prefix, uri in metadata.info_part("namespaces").items():
        merging.put(("documentInfo", "namespaces", prefix), uri, metadata.label)


def check_parts(chain: Chain) -> None:
    """Refuse parts that cannot be joined.

    These are values that are not objects, and prefixes of two namespaces.
    """
    merging = Merging()
    for metadata in chain:
        for part in ("tableTemplates", "tables", "dimensions", "parameters"):
            metadata.part(part)
        put_namespaces(merging, metadata)


def pruned(value: Object) -> Object:
    """Return metadata without templates that no table uses, and members that nobody reads.

    Those are the members that the converter does not read.
    """
    value = with_used_templates(value)
    templates = value.get("tableTemplates", {})
    if not templates:
        return value
    kept = {name: pruned_template(template) for name, template in templates.items()}
    return {**value, "tableTemplates": kept}


def with_used_templates(value: Object) -> Object:
    """Return metadata without the templates that no table uses."""
    templates = value.get("tableTemplates", {})
    if not templates:
        return value
    used = [table.get("template", name) for name, table in objects(value, "tables")]
    named = {name for name in used if isinstance(name, str)}
    kept = {name: template for name, template in templates.items() if name in named}
    return {**value, "tableTemplates": kept}


def pruned_template(template: Json) -> Json:
    kept = only(template, TEMPLATE_MEMBERS)
    if isinstance(kept, dict) and isinstance(kept.get("columns"), dict):
        kept["columns"] = {name: pruned_column(column) for name, column in kept["columns"].items()}
    return kept


def pruned_column(column: Json) -> Json:
    kept = only(column, COLUMN_MEMBERS)
    if isinstance(kept, dict) and isinstance(kept.get("propertyGroups"), dict):
        groups = kept["propertyGroups"].items()
        kept["propertyGroups"] = {name: pruned_group(group) for name, group in groups}
    return kept


def pruned_group(group: Json) -> Json:
    """Return a property group without members that nobody reads: itself, if it has no other."""
    if isinstance(group, dict) and all(name in GROUP_MEMBERS for name in group):
        return group
    return only(group, GROUP_MEMBERS)


def only(value: Json, members: Tuple[str, ...]) -> Json:
    """Return an object with only some of its members. Return any other value unchanged."""
    return {name: value[name] for name in members if name in value} if isinstance(value, dict) else value


def levels(report: Object) -> Iterator[Tuple[Path, Object]]:
    """Yield each object of a metadata file that may have `dimensions`, with its path."""
    yield (), report
    for name, template in objects(report, "tableTemplates"):
        at: Path = ("tableTemplates", name)
        yield at, template
        for column_name, column in objects(template, "columns"):
            column_at = at + ("columns", column_name)
            yield column_at, column
            for group_name, group in objects(column, "propertyGroups"):
                yield column_at + ("propertyGroups", group_name), group


def objects(owner: Object, member: str) -> Iterator[Tuple[str, Object]]:
    """Yield the members of `owner[member]` that are objects, with their names."""
    inner = owner.get(member)
    for name, part in (inner.items() if isinstance(inner, dict) else ()):
        if isinstance(part, dict):
            yield name, part
