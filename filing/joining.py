"""Joins a filing: its metadata files become one, and its taxonomy a types table.

What would be missing from the document without a warning is refused here. All else that may be
wrong with the metadata is left to xbrl-json.
"""

from __future__ import annotations

from typing import Dict, List, Optional, Tuple

from .cache_room import claimed
from .chain import Chain
from .dates import date_places, with_types_of_dates
from .final import check_final
from .finding import Finder, Found
from .kept_module import Draft, Joined, ModuleCache
from .kinds import REASONS, Kinds, kind_of
from .kinds_reading import KindsReading, namespaces_of
from .lost_cells import refuse_lost_cells
from .members import member_places, takes_unread, unread_prefixes
from .metadata import Merged, check_parts, merge
from .named import Named, Places, names_of
from .origins import Origins
from .packages import Package
from .parameters import check_parameters, check_references, require_parameters
from .prefixes import Renaming, lost_prefixes
from .prepared import Files, TypesTable
from .progress import Progress
from .refusals import Refusal, wrong
from .types_table import types_table
from .words import Settings


def join(
    report: Found,
    packages: List[Package],
    settings: Settings,
    progress: Progress,
    may_fork: bool = False,
) -> Joined:
    """Return what `join_anew` does; with a cache, from what it keeps of the module.

    With `may_fork` a second process may help: another program may have threads, which forbid it.
    """
    if settings.cache is None:
        return join_anew(report, packages, settings, progress, None)
    progress.say("looking into the cache")
    module = ModuleCache(settings.cache, report, packages)

    def anew(kept_by: Optional[ModuleCache] = None) -> Joined:
        return join_anew(report, packages, settings, progress, kept_by, may_fork)

    if module.key is None:
        return anew()
    joined = module.join(anew)
    if joined is None:
        with claimed(settings.cache, module.path()):
            joined = module.join(anew) or anew(module)
    return joined


def join_anew(
    report: Found,
    packages: List[Package],
    settings: Settings,
    progress: Progress,
    module: Optional[ModuleCache],
    may_fork: bool = False,
) -> Joined:
    """Join the metadata, and check it against the taxonomy.

    Return the origins of its parts, the report's files, and the types table.
    """
    finder = Finder(report.package, packages)
    chain = Chain(report, finder)
    check_parts(chain)
    lost = lost_prefixes(chain)
    check_final(chain, lost)
    namespaces = namespaces_of(chain)
    reading = KindsReading(chain, finder, packages, settings.cache, progress)

    def kind(name: str) -> Optional[str]:
        return kind_of(name, namespaces, reading.kinds())

    renaming = Renaming(lost, lambda name: kind(name) == "explicit")
    merged, named, draft, kinds = merged_beside(chain, renaming, reading, module, may_fork)
    origins = Origins(merged, chain, renaming)
    types = types_table(kinds, namespaces.values(), with_members=True)
    if module is not None and draft is not None:
        module.keep(draft, named, renaming, namespaces, kinds, types)
    files = Files.of(report, merged).without_absent()
    named = named.used_by(files.merged.value.get("tableTemplates", {}))
    refuse_impossible_concepts(origins, named.concepts, namespaces, kinds)
    refuse_unknown_dimensions(origins, named.dimensions, namespaces, kinds)
    check_files(files, renaming, named.references)
    refuse_lost_cells(files.merged, lost, files, kind)
    places = member_places(files.merged.value, unread_prefixes(namespaces, kinds), kind)
    if takes_unread(places, files.merged, files):
        types = types_table(kinds, namespaces.values(), with_members=False)
    chosen = with_types_of_dates(types, date_places(files.merged.value, kind), files)
    return origins, files, TypesTable(chosen)


def merged_beside(
    chain: Chain,
    renaming: Renaming,
    reading: KindsReading,
    module: Optional[ModuleCache],
    may_fork: bool,
) -> Tuple[Merged, Named, Optional[Draft], Kinds]:
    """Return the merged metadata, what it names, the draft of its cache entry, and the kinds.

    A second process may read the kinds meanwhile. Refuse a taxonomy that is wrong.
    """
    try:
        if may_fork:
            reading.begin()
        merged = merged_by(chain, renaming, reading)
        named = names_of(merged.value)
        draft = None if module is None else module.draft(chain, merged)
        return merged, named, draft, reading.kinds()
    finally:
        reading.end()


def check_files(files: Files, renaming: Renaming, references: Places) -> None:
    """Refuse a report that lacks a parameter, or has a file or a parameter that nothing reads."""
    files.refuse_urls_of_no_file()
    files.require_parameters()
    files.refuse_repeated()
    files.refuse_unread()
    check_parameters(files.merged, renaming, files)
    check_references(files.merged, files, references)
    require_parameters(files.merged, files)


def merged_by(chain: Chain, renaming: Renaming, reading: KindsReading) -> Merged:
    """Return the merged metadata. A refusal of the taxonomy comes before one of the metadata."""
    try:
        return merge(chain, renaming)
    except Refusal:
        reading.kinds()
        raise


def refuse_impossible_concepts(
    origins: Origins, concepts: Places, namespaces: Dict[str, str], kinds: Kinds
) -> None:
    """Refuse metadata that names a concept which the types table cannot have."""
    for (concept, _), path in concepts.items():
        reason = REASONS.get(kind_of(concept, namespaces, kinds) or "")
        if reason:
            label, there = origins.own_path(path)
            raise wrong(label, f"names the concept '{concept}', which {reason} ({'.'.join(there)})")


def refuse_unknown_dimensions(
    origins: Origins, dimensions: Places, namespaces: Dict[str, str], kinds: Kinds
) -> None:
    """Refuse metadata that names a dimension which the taxonomy does not have.

    xbrl-json would refuse it too, but without its name. See Dimensions 1.0, section 2.
    """
    if "taxonomy" not in origins.merged.value["documentInfo"]:
        return
    for (dimension, _), path in dimensions.items():
        if kind_of(dimension, namespaces, kinds) not in ("explicit", "typed"):
            known = dimension.partition(":")[0] in namespaces
            reason = "which no schema that the taxonomy reaches has as one" if known else "whose prefix is not among 'namespaces'"
            label, there = origins.own_path(path)
            raise wrong(label, f"names the dimension '{there[-1]}', {reason} ({'.'.join(there)})")
