"""A module as it is kept in the cache: all of the merged metadata that a report does not change.

A report of a supervisor's module mostly says only which module it extends, and its parameters. Then
the merged metadata is that of the module, and so is the types table. Each template is kept as text,
with a sketch that has all that the checks of parameters look at. Only the templates of tables that
are filed are read from the cache.

A report that says more, and one with a fault, is joined from its files, as without a cache: only
that way has lines and refusals of its own.
"""

from __future__ import annotations

import os
from dataclasses import dataclass, field, replace
from functools import lru_cache
from typing import Callable, Dict, Iterator, List, Mapping, NamedTuple, Optional, Set, Tuple

from .cache import key_of
from .cache_room import store, used
from .catalog import CATALOG
from .chain import Chain, Metadata, read_metadata
from .dates import date_places, with_types_of_dates
from .final import final_parts
from .finding import Found
from .held_modules import entry_at
from .kinds import REASONS, Kinds, kind_of
from .lost_cells import mention_lost
from .members import member_places, takes_unread, unread_prefixes
from .metadata import Merged, Merging, Path, compact, objects
from .module_entry import Blocks, Module, Source, entry_pieces
from .module_sketch import sketch
from .named import Named, names_of
from .origins import Origins
from .packages import Package
from .parameters import check_parameters, check_references, require_parameters
from .prefixes import Renaming
from .prepared import Files, TypesTable
from .refusals import Refusal
from .strict_json import Object, Values

# What a report must leave to its module, at its top and in `documentInfo`.
OF_THE_MODULE = ("tableTemplates", "tables", "dimensions", "decimals", "links")
INFO_OF_THE_MODULE = ("namespaces", "taxonomy", "baseURL", "final")
# What both may give.
OF_BOTH = ("parameters", "parameterURL")
Joined = Tuple[Origins, Files, TypesTable]


class Draft(NamedTuple):
    """What an entry has of the metadata of its module, whatever the taxonomy is."""

    merged: Merged
    files: List[Metadata]  # of the module
    rest: Object
    texts: Dict[str, bytes]  # of the templates


@dataclass(frozen=True)
class KeptMerged(Merged):
    """The merged metadata of a report, whose templates are texts."""

    texts: Mapping[str, bytes] = field(default_factory=dict)

    def pieces(self) -> Iterator[bytes]:
        """Yield the bytes that the metadata would have if the templates were values."""
        yield from pieces_of_object({name: self.member(name) for name in sorted(self.value)})
        yield b"\n"

    def member(self, name: str) -> Iterator[bytes]:
        if name == "tableTemplates":
            templates = sorted(self.value[name])
            return pieces_of_object({name: iter([self.texts[name]]) for name in templates})
        return iter([compact(self.value[name])])


def pieces_of_object(members: Mapping[str, Iterator[bytes]]) -> Iterator[bytes]:
    """Yield the bytes of an object, without a copy of those of its members."""
    mark = b"{"
    for name, pieces in members.items():
        yield mark + compact(name) + b":"
        yield from pieces
        mark = b","
    yield b"}" if members else b"{}"


class KeptOrigins(Origins):
    """Where the parts of the merged metadata came from: found out only if it is asked for."""

    def __init__(self, join: Callable[[], Joined]) -> None:
        self.join = join
        self.found: Optional[Origins] = None

    def real(self) -> Origins:
        if self.found is None:
            self.found = self.join()[0]
        return self.found

    def labels(self) -> List[str]:
        """Return the files' labels, as the real origins do."""
        return self.real().labels()

    def place(self, pointer: str) -> Optional[Tuple[str, str]]:
        """Return the file and the pointer there, as the real origins do."""
        return self.real().place(pointer) if pointer.startswith("/") else None

    def own_path(self, path: Path) -> Tuple[str, Path]:
        """Return the file and the path there, as the real origins do."""
        return self.real().own_path(path)


class ModuleCache:
    """The entry of the module that a report extends, if it can have one."""

    last_used = ""  # the path of the entry that was used last

    def __init__(self, folder: str, report: Found, packages: List[Package]) -> None:
        """Find the entry's key. It is None if the report says more than its module allows for."""
        self.report = report
        self.packages = [package for package in packages if package is not report.package]
        self.folder = folder
        self.own = read_metadata(report, Values())
        self.key: Optional[str] = None
        has_catalog = report.package in packages and report.package.has(CATALOG)
        if not has_catalog and is_plain_report(self.own):
            self.key = key_of(self.packages, self.urls())

    def urls(self) -> List[str]:
        return [place.known().text for place in self.own.extends]

    def path(self) -> str:
        return os.path.join(self.folder, f"{self.key}.module")

    def note_used(self) -> None:
        """Note which entry this process has used: the run that started it may then hold it."""
        ModuleCache.last_used = self.path()

    def join(self, anew: Callable[[], Joined]) -> Optional[Joined]:
        """Return what `anew` would, from the entry; None if only `anew` can."""
        if self.key is None:
            return None
        try:
            with entry_at(self.path()) as (module, text_of, types_file, held_types):
                if any(part in module.final for part in OF_BOTH if part in self.own.value):
                    return None
                files = Files.of(self.report, self.merged(module)).without_absent()
                if not self.is_taken(files, module):
                    return None
                used_templates = files.merged.value.get("tableTemplates", {})
                blocks = {name: module.templates[name] for name in used_templates}
                texts = {name: text_of(block) for name, block in blocks.items()}
                fewer = None if held_types is None else held_types.table
                types = TypesTable(text_of(module.types), types_file, fewer)
                types = types.with_text(with_types_of_dates(types.text, module.dates, files))
        except (OSError, ValueError, LookupError, TypeError, RecursionError, Refusal):
            return None
        used(self.path())
        self.note_used()
        merged = KeptMerged(files.merged.value, files.merged.origins, texts)
        return KeptOrigins(anew), replace(files, merged=merged), types

    def is_taken(self, files: Files, module: Module) -> bool:
        """Return whether the entry serves a report with these files. Refuse what has a fault."""
        files.refuse_urls_of_no_file()
        files.require_parameters()
        files.refuse_repeated()
        files.refuse_unread()
        check_parameters(files.merged, Renaming(module.lost, lambda _: False), files)
        check_references(files.merged, files, names_of(files.merged.value).references)
        require_parameters(files.merged, files)
        if mention_lost(files, module.lost) or takes_unread(module.members, files.merged, files):
            return False
        return not set(files.merged.value.get("tableTemplates", {})) & set(module.faulty)

    def merged(self, module: Module) -> Merged:
        """Return the merged metadata of the report, with the sketches of templates."""
        labels: Dict[Path, str] = {}
        for path, package, file in module.sources:
            labels[tuple(path)] = self.packages[package].shown(file)
        merging = Merging()
        for name, text in self.own.part("parameters").items():
            merging.put(("parameters", name), text, self.own.label)
        if "parameterURL" in self.own.value:
            merging.put(("parameterURL",), self.own.value["parameterURL"], self.own.label)
        for part, value in module.rest.items():
            if part == "parameters" and isinstance(value, dict):
                for name, text in value.items():
                    merging.put((part, name), text, labels.get((part, name), ""))
            else:
                merging.put((part,), value, "")
        return Merged(merging.value, {**labels, **merging.origins})

    def sources(self, merged: Merged, module_files: List[Metadata]) -> List[Source]:
        """Return the files that give the module's parameters, at its top and in its tables."""
        places = {metadata.label: metadata.found for metadata in module_files}
        paths: Dict[Path, Found] = {}
        for metadata in module_files:
            for name in metadata.part("parameters"):
                paths.setdefault(("parameters", name), metadata.found)
        for table, owner in objects(merged.value, "tables"):
            parameters = owner.get("parameters")
            for name in parameters if isinstance(parameters, dict) else ():
                path = ("tables", table, "parameters", name)
                paths[path] = places[merged.origin(path)]
        return [
            Source(list(path), self.packages.index(found.package), found.name)
            for path, found in paths.items()
        ]

    def draft(self, chain: Chain, merged: Merged) -> Optional[Draft]:
        """Return what the entry of a module that was just merged has, apart from its taxonomy.

        None if it can have no entry, or has one. Nothing was left out of the module so far.
        """
        if self.key is None or os.path.exists(self.path()):
            return None
        templates = merged.value.get("tableTemplates", {})
        files = list(chain)[1:]
        if not isinstance(templates, dict):
            return None
        if any(metadata.found.package not in self.packages for metadata in files):
            return None
        texts = {name: compact(template) for name, template in templates.items()}
        return Draft(merged, files, self.rest(merged, files), texts)

    def keep(
        self,
        draft: Draft,
        named: Named,
        renaming: Renaming,
        namespaces: Dict[str, str],
        kinds: Kinds,
        types: bytes,
    ) -> None:
        """Write the entry of a module.

        `types` is the types table of its namespaces, with members.
        """
        merged, module_files = draft.merged, draft.files
        has_taxonomy = "taxonomy" in merged.value["documentInfo"]
        faulty = faulty_templates(named, has_taxonomy, namespaces, kinds)
        if faulty is None:
            return

        def kind(name: str) -> Optional[str]:
            return kind_of(name, namespaces, kinds)

        blocks = Blocks()
        index = {
            "rest": draft.rest,
            "final": sorted({part for metadata in module_files for part in final_parts(metadata)}),
            "faulty": sorted(faulty),
            "lost": renaming.lost,
            "members": member_places(merged.value, unread_prefixes(namespaces, kinds), kind),
            "dates": date_places(merged.value, kind),
            "types": blocks.add(types),
            "templates": {name: blocks.add(text) for name, text in draft.texts.items()},
            "sources": self.sources(merged, module_files),
        }
        if key_of(self.packages, self.urls()) == self.key:  # else it was changed while it was read
            store(self.path(), entry_pieces(index, blocks))
            self.note_used()

    def rest(self, merged: Merged, module_files: List[Metadata]) -> Object:
        """Return the metadata without what the report gave, and with sketches of templates."""
        rest = {name: value for name, value in merged.value.items() if name not in OF_BOTH}
        if "tableTemplates" in rest:
            templates = rest["tableTemplates"]
            rest["tableTemplates"] = {name: sketch(template) for name, template in templates.items()}
        for metadata in module_files:
            for name, text in metadata.part("parameters").items():
                rest.setdefault("parameters", {}).setdefault(name, text)
            if "parameterURL" in metadata.value:
                rest.setdefault("parameterURL", metadata.value["parameterURL"])
        return rest


def is_plain_report(own: Metadata) -> bool:
    """Return whether a report leaves all but its parameters to the module that it extends."""
    leaves = not any(part in own.value for part in OF_THE_MODULE)
    leaves = leaves and not any(part in own.info for part in INFO_OF_THE_MODULE)
    return leaves and bool(own.extends) and not any(place.local for place in own.extends)


def faulty_templates(
    named: Named, has_taxonomy: bool, namespaces: Dict[str, str], kinds: Kinds
) -> Optional[Set[str]]:
    """Return the templates with a concept or a dimension that would be refused.

    None if one is at the metadata's top, so that all reports would be refused.
    """

    @lru_cache(maxsize=None)
    def kind(name: str) -> Optional[str]:
        return kind_of(name, namespaces, kinds)

    found = {template for concept, template in named.concepts if REASONS.get(kind(concept) or "")}
    if has_taxonomy:
        known = ("explicit", "typed")
        found |= {template for dimension, template in named.dimensions if kind(dimension) not in known}
    return None if None in found else {template for template in found if template is not None}
