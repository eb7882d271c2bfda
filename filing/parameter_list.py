"""The list of `--parameters`: what each parameter of a filing is, and where it is referred to."""

from __future__ import annotations

from typing import Dict, Iterator, List, Optional, Set, Tuple

from .csv_text import record
from .metadata import Merged, Path, levels, objects
from .named import references_of
from .origins import Origins
from .parameters import (
    ROW_NUMBER,
    columns_of,
    parameters_of_file,
    parameters_of_metadata,
    template_without,
)
from .prepared import Files

HEADER = "parameter", "value", "file", "references", "first reference"


def parameter_list(origins: Origins, files: Files) -> str:
    """Return a CSV file with a record for each value of a parameter, in order of the names.

    A parameter without a value has a record too if something refers to it.
    """
    return record(HEADER) + "".join(map(record, rows(origins, files)))


def rows(origins: Origins, files: Files) -> Iterator[Tuple[str, str, str, int, str]]:
    """Yield name, value, file, the number of references, and the first of them."""
    given = [*parameters_of_metadata(origins.merged), *parameters_of_file(files)]
    references = references_by_name(origins.merged, {name for name, _, _ in given})
    missing = ((name, "", "") for name in references.keys() - {name for name, _, _ in given})
    for name, value, label in sorted([*given, *missing]):
        paths = references.get(name, [])
        yield name, value, label, len(paths), shown(origins, paths[0]) if paths else ""


def references_by_name(merged: Merged, given: Set[str]) -> Dict[str, List[Path]]:
    """Return where each parameter is referred to.

    If a column of the template has the same name, it counts only in tables whose file has it. So
    the reference is listed for a parameter that is given, but makes no parameter missing.
    """
    columns = {name: columns_of(template) for name, template in objects(merged.value, "tableTemplates")}
    places: Dict[str, List[Path]] = {}
    missing: Dict[Tuple[str, Optional[str]], bool] = {}  # whether a template has no such column
    for at, level in levels(merged.value):
        owner = at[1] if at else None
        for name, path in references_of(at, level):
            is_given = name != ROW_NUMBER and name in given
            if (name, owner) not in missing:
                missing[name, owner] = template_without(name, owner, columns) is not None
            if is_given or missing[name, owner]:
                places.setdefault(name, []).append(path)
    return places


def shown(origins: Origins, path: Path) -> str:
    """Return a place as lines name it: the file, and the keys there."""
    label, there = origins.own_path(path)
    return f"{label}: {'.'.join(there)}"
