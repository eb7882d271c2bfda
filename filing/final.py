"""What a metadata file declares final.

Files that extend it add nothing there (xBRL-CSV 1.0, `documentInfo.final`).
"""

from __future__ import annotations

from typing import Callable, Dict, Iterable, List, Tuple

from .chain import Chain, Metadata
from .prefixes import Renaming
from .refusals import wrong
from .urls import normal

MOST_COMPARED = 2_500_000  # files and keys of a run; a module of 120 final files has 100,000
A_KEY = 2  # files above or below another that take as long to find as a key to compare

KEYS: Dict[str, Callable[[Metadata], Iterable[str]]] = {
    "namespaces": lambda metadata: metadata.info_part("namespaces"),
    "taxonomy": lambda metadata: [place.text for _, place in metadata.taxonomy()],
    "tables": lambda metadata: metadata.part("tables"),
    "tableTemplates": lambda metadata: metadata.part("tableTemplates"),
    "dimensions": lambda metadata: metadata.part("dimensions"),
    "parameters": lambda metadata: metadata.part("parameters"),
    "parameterURL": lambda metadata: [metadata.value["parameterURL"]] if isinstance(metadata.value.get("parameterURL"), str) else [],
    "decimals": lambda metadata: ["decimals"] if "decimals" in metadata.value else [],
}


def check_final(chain: Chain, lost: Dict[str, str]) -> None:
    """Refuse a file that adds to a part which a file below it declares final.

    That is a key or a URL. A dimension is one key under all its prefixes, a URL in all spellings.
    """
    one_form = {"dimensions": Renaming(lost, lambda _: False).qname, "taxonomy": normal}
    having = {part: files_with_keys(chain, part, one_form.get(part, str)) for part in KEYS}
    compared = 0
    for metadata in chain:
        final = final_parts(metadata)
        lower = set(map(id, chain.below(metadata) if final else ()))
        upper = set(map(id, chain.above(metadata) if final else ()))
        compared += len(chain.files) if final else 0
        for part in final:
            there = {form for file, keys in having[part] if id(file) in lower for form in keys}
            compared += A_KEY * (len(there) + len(having[part]))
            if compared > MOST_COMPARED:
                raise wrong(metadata.label, f"declares more than can be compared to be final ({MOST_COMPARED} files and keys)")
            for above, keys in having[part]:
                added = [key for form, key in keys.items() if form not in there] if id(above) in upper else []
                if added:
                    raise wrong(above.label, f"adds '{added[0]}' to '{part}', which is final in {metadata.label}")


def files_with_keys(
    chain: Chain, part: str, one_form: Callable[[str], str]
) -> List[Tuple[Metadata, Dict[str, str]]]:
    """Return the files that have something in a part, in order, and its keys by their one form."""
    found = ((metadata, {one_form(key): key for key in KEYS[part](metadata)}) for metadata in chain)
    return [(metadata, keys) for metadata, keys in found if keys]


def final_parts(metadata: Metadata) -> List[str]:
    """Return the parts of `KEYS` that a file declares final.

    Refuse a declaration that is neither true nor false.
    """
    declared = metadata.info_part("final")
    for name, value in declared.items():
        if not isinstance(value, bool):
            raise wrong(metadata.label, f"'documentInfo.final.{name}' is neither true nor false")
    return [name for name in KEYS if declared.get(name)]
