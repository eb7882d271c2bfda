#!/usr/bin/env python3
"""Writes a large taxonomy package and two reports, the same bytes for the same arguments.

    generate_taxonomy.py FOLDER [--megabytes 200] [--concepts 20000] [--tables 1] [--filed 1] [--zip]

FOLDER gets `taxonomy` (a folder, and with --zip also `taxonomy.zip`), and the reports `first` and
`second`, which differ. The taxonomy is made as supervisors make theirs: a dictionary of concepts,
dimensions and members in schemas of 2,000 elements each. The module's schema reaches it only
through the definition linkbases of its tables. Tables are added until the given megabytes (of
1,000,000 bytes) are reached; about two thirds of them are linkbases, the rest schemas. The module's
metadata has the given number of tables of 2,000 data points each. The reports file some of them.
"""
from __future__ import annotations

import argparse
import json
import os
import zipfile
from pathlib import Path
from typing import Any

HOST = "https://bench.example/"
XML = '<?xml version="1.0" encoding="UTF-8"?>\n'
NAMESPACES = (
    'xmlns:xs="http://www.w3.org/2001/XMLSchema" xmlns:xbrli="http://www.xbrl.org/2003/instance" xmlns:xbrldt="http://xbrl.org/2005/xbrldt"'
    ' xmlns:link="http://www.xbrl.org/2003/linkbase" xmlns:xlink="http://www.w3.org/1999/xlink"'
    ' xmlns:nonnum="http://www.xbrl.org/dtr/type/non-numeric" xmlns:model="http://www.eurofiling.info/xbrl/ext/model"'
)
INSTANCE = '  <xs:import namespace="http://www.xbrl.org/2003/instance" schemaLocation="http://www.xbrl.org/2003/xbrl-instance-2003-12-31.xsd"/>\n'
TYPES = ["xbrli:monetaryItemType", "xbrli:stringItemType", "xbrli:dateItemType", "xbrli:booleanItemType", "xbrli:integerItemType"]
DATES = 'model:creationDate="2015-07-31" model:fromDate="2014-12-31" nillable="true"'
BLOCK = 2000


def element(kind: str, number: int) -> str:
    """The element of a concept, a dimension or a member."""
    front = f'  <xs:element name="{kind}{number}" id="bench_{kind}{number}" '
    if kind == "dim":
        return front + f'type="xbrli:stringItemType" substitutionGroup="xbrldt:dimensionItem" abstract="true" xbrli:periodType="instant" {DATES}/>\n'
    if kind == "mem":
        return front + f'type="nonnum:domainItemType" substitutionGroup="xbrli:item" abstract="true" xbrli:periodType="instant" {DATES}/>\n'
    return front + f'type="{TYPES[number % len(TYPES)]}" substitutionGroup="xbrli:item" xbrli:periodType="instant" {DATES}/>\n'


def schema(kind: str, first: int, last: int) -> str:
    """The schema of the elements of a kind from one number up to another, which is left out."""
    elements = "".join(element(kind, it) for it in range(first, last))
    return f'{XML}<xs:schema {NAMESPACES} targetNamespace="{HOST}dict/{kind}" elementFormDefault="qualified">\n{INSTANCE}{elements}</xs:schema>\n'


def linkbase(table: int, counts: dict[str, int]) -> str:
    """Makes a table's definition linkbase: 400 elements of the dictionary, each tied to the one
    before.
    """
    out = [f'{XML}<link:linkbase xmlns:link="http://www.xbrl.org/2003/linkbase" xmlns:xlink="http://www.w3.org/1999/xlink">\n']
    out.append('  <link:definitionLink xlink:type="extended" xlink:role="http://www.xbrl.org/2003/role/link">\n')
    for place in range(400):
        kind = ("met", "mem", "dim")[place % 3]
        number = (table * 137 + place * 31) % counts[kind]
        out.append(f'    <link:loc xlink:type="locator" xlink:href="../../dict/{kind}{number // BLOCK}.xsd#bench_{kind}{number}" xlink:label="loc_{place}"/>\n')
        if place:
            arcrole = "http://xbrl.org/int/dim/arcrole/domain-member"
            arc = f'    <link:definitionArc xlink:type="arc" xlink:arcrole="{arcrole}" xlink:from="loc_{place - 1}" xlink:to="loc_{place}" order="{place}"/>\n'
            out.append(arc)
    return "".join(out + ["  </link:definitionLink>\n</link:linkbase>\n"])


def module(tables: int) -> str:
    """The module's schema, which has the linkbases of all tables and no concept."""
    role = "http://www.xbrl.org/2003/role/definitionLinkbaseRef"
    refs = "".join(f'      <link:linkbaseRef xlink:type="simple" xlink:href="tab/t{it}-def.xml" xlink:role="{role}"/>\n' for it in range(tables))
    front = f'{XML}<xs:schema {NAMESPACES} targetNamespace="{HOST}mod" elementFormDefault="qualified">\n'
    return f"{front}  <xs:annotation>\n    <xs:appinfo>\n{refs}    </xs:appinfo>\n  </xs:annotation>\n{INSTANCE}</xs:schema>\n"


def names(tables: int) -> list[str]:
    """Returns the names of the tables of the metadata."""
    return ["t", *(f"t{it}" for it in range(1, tables))]


def metadata(tables: int) -> dict[str, Any]:
    """Makes the metadata that the reports extend: tables, each with the property groups of 2,000
    data points.
    """
    templates: dict[str, Any] = {}
    for number, name in enumerate(names(tables)):
        groups = {
            f"dp{it}": {"dimensions": {"concept": f"met:met{it * 5}", "dim:dim1": f"mem:mem{it + number}", "unit": "$currency"}, "decimals": 0}
            for it in range(2000)
        }
        templates[name] = {"columns": {"datapoint": {"propertyGroups": groups}, "factValue": {"dimensions": {}, "propertiesFrom": ["datapoint"]}}}
    return {
        "documentInfo": {
            "documentType": "https://xbrl.org/2021/xbrl-csv",
            "namespaces": {it: f"{HOST}dict/{it}" for it in ("met", "dim", "mem")} | {"iso4217": "http://www.xbrl.org/2003/iso4217"},
            "taxonomy": ["mod.xsd"],
        },
        "dimensions": {"entity": "met:A1", "period": "$period@end"},
        "tableTemplates": templates,
        "tables": {it: {"url": f"{it}.csv"} | ({"optional": True} if it != "t" else {}) for it in templates},
    }


def report(folder: Path, first: int, filed: int) -> None:
    """Writes a report whose tables begin with the data point of this number."""
    (folder / "reports").mkdir(parents=True)
    info = {"documentType": "https://xbrl.org/2021/xbrl-csv", "extends": [f"{HOST}mod/mod.json"]}
    parameters = {"currency": "iso4217:EUR", "period": "2025"}
    (folder / "reports/report.json").write_text(json.dumps({"documentInfo": info, "parameters": parameters}))
    for name in names(filed):
        rows = "".join(f"dp{it},{it * first}\n" for it in range(first, 1000))
        (folder / f"reports/{name}.csv").write_text("datapoint,factValue\n" + rows)


def taxonomy(folder: Path, bytes_wanted: int, concepts: int, metadata_tables: int) -> tuple[int, int]:
    """Writes the taxonomy, and answers how many files and bytes it has."""
    written = files = 0

    def put(path: str, text: str) -> None:
        """Writes a file of the taxonomy, and counts it."""
        nonlocal written, files
        (folder / path).parent.mkdir(parents=True, exist_ok=True)
        written += (folder / path).write_bytes(text.encode())
        files += 1

    put("META-INF/catalog.xml", f'<catalog xmlns="urn:oasis:names:tc:entity:xmlns:xml:catalog"><rewriteURI uriStartString="{HOST}" rewritePrefix="../bench/"/></catalog>')
    counts = {"met": concepts, "mem": max(bytes_wanted // 850, 10_000), "dim": 2000}
    for kind, count in counts.items():
        for block in range((count + BLOCK - 1) // BLOCK):
            put(f"bench/dict/{kind}{block}.xsd", schema(kind, block * BLOCK, min(count, (block + 1) * BLOCK)))
    tables = 0
    while written < bytes_wanted:
        put(f"bench/mod/tab/t{tables}-def.xml", linkbase(tables, counts))
        tables += 1
    put("bench/mod/mod.xsd", module(tables))
    put("bench/mod/mod.json", json.dumps(metadata(metadata_tables)))
    return files, written


def main() -> None:
    """Writes what the command line asks for, and prints its size."""
    parser = argparse.ArgumentParser(description=__doc__, formatter_class=argparse.RawDescriptionHelpFormatter)
    parser.add_argument("folder", type=Path)
    parser.add_argument("--megabytes", type=int, default=200)
    parser.add_argument("--concepts", type=int, default=20_000)
    parser.add_argument("--tables", type=int, default=1)
    parser.add_argument("--filed", type=int, default=1)
    parser.add_argument("--zip", action="store_true")
    options = parser.parse_args()
    files, written = taxonomy(options.folder / "taxonomy", options.megabytes * 1_000_000, options.concepts, options.tables)
    report(options.folder / "first", 1, options.filed)
    report(options.folder / "second", 2, options.filed)
    if options.zip:
        with zipfile.ZipFile(options.folder / "taxonomy.zip", "w", zipfile.ZIP_DEFLATED) as archive:
            for path in sorted((options.folder / "taxonomy").rglob("*")):
                if path.is_file():
                    archive.write(path, os.path.join("bench-2025", path.relative_to(options.folder / "taxonomy")))
    print(f"{files} files, {written / 1e6:.0f} MB")


if __name__ == "__main__":
    main()
