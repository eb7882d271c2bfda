"""The report in a report package (Report Packages 1.0)."""

from __future__ import annotations

import json
import os
from typing import List, Tuple
from urllib.parse import quote

from .chain import DOCUMENT_TYPE, draft_note
from .finding import Found
from .packages import Beside, Package
from .refusals import WRONG, Refusal, wrong
from .strict_json import Json, RepeatedKey, read_json
from .urls import Place

REPORTS = "reports/"
PACKAGE_ENDINGS = (".zip", ".xbr", ".xbri")
PACKAGE_FILE = "META-INF/reportPackage.json"
TAXONOMY_FILE = "META-INF/taxonomyPackage.xml"
PACKAGE_TYPES = ["https://xbrl.org/report-package/2023" + ending for ending in ("", "/xbr", "/xbri")]


def document_type(value: Json) -> object:
    info = value.get("documentInfo") if isinstance(value, dict) else None
    return info.get("documentType") if isinstance(info, dict) else None


def shown_type(kind: object) -> str:
    """Return a document type as a line shows it: a text in quotes, another value as JSON."""
    return f"'{kind}'" if isinstance(kind, str) else json.dumps(kind)


def kind_of_file(package: Package, name: str) -> object:
    """Return the document type of a JSON file."""
    pieces, label = package.pieces(name), package.shown(name)
    return document_type(read_json(pieces, label, allowance=package.allowance))


def report_at(package: Package, name: str) -> Found:
    """Return a file of the report, by its name in the package."""
    return Found(Place(quote(name, errors="surrogateescape"), True), package, name)


def report_by_itself(label: str) -> Found:
    """Return a metadata file that is in no package.

    A file with a package's ending that is neither a ZIP nor JSON is refused as such.
    """
    found = report_at(Beside(label), os.path.basename(label))
    if label.lower().endswith(PACKAGE_ENDINGS):
        try:
            read_json(found.package.pieces(found.name), label)
        except RepeatedKey:
            raise
        except Refusal:
            raise wrong(label, "is neither a ZIP nor JSON") from None
    return found


def find_report(package: Package) -> Found:
    """Return the one xBRL-CSV report of a package, in `reports` or else in the folders there."""
    check_package_file(package)
    passed: List[Tuple[str, object]] = []
    levels = [[REPORTS], [f"{REPORTS}{folder}/" for folder in package.children("reports")[1]]]
    for folders in levels:
        found = [name for folder in folders for name in reports_in(package, folder, passed)]
        if len(found) > 1:
            raise wrong(package.label, f"has several xBRL-CSV reports: {', '.join(found)}")
        if found:
            return report_at(package, found[0])
    broken = next((why for _, why in passed if isinstance(why, Refusal)), None)
    if broken:
        raise broken
    others = "".join(
        f"; {name} has the document type {shown_type(kind)}{draft_note(kind)}"
        for name, kind in passed
        if kind
    )
    others += "; it is a taxonomy package" if package.has(TAXONOMY_FILE) else ""
    others += "".join(f"; {name} is one, but does not stand there" for name in reports_in(package, "", []))
    raise wrong(package.label, f"has no xBRL-CSV report in 'reports' or a folder of it{others}")


def check_package_file(package: Package) -> None:
    """Refuse a package that declares another kind.

    One that declares nothing is taken, because older forms did not.
    """
    if package.has(PACKAGE_FILE):
        kind = kind_of_file(package, PACKAGE_FILE)
        if kind not in PACKAGE_TYPES:
            said = "it has no 'documentInfo.documentType'"
            if kind is not None:
                said = f"its document type is {shown_type(kind)}"
            raise wrong(package.shown(PACKAGE_FILE), f"is of no report package: {said}")


def reports_in(package: Package, folder: str, passed: List[Tuple[str, object]]) -> List[str]:
    """Return the names of the xBRL-CSV reports in a folder.

    Other JSON is passed over, and so is what is not JSON: it is named if there is no report. JSON
    with a repeated key is refused. The value that is read may not be the one that makes it a
    report.
    """
    found: List[str] = []
    for file in package.children(folder.rstrip("/"))[0]:
        if not file.lower().endswith(".json"):
            continue
        name = folder + file
        try:
            kind = kind_of_file(package, name)
        except Refusal as refusal:
            if refusal.status != WRONG or isinstance(refusal, RepeatedKey):
                raise
            kind = refusal
        if kind == DOCUMENT_TYPE:
            found.append(name)
        else:
            passed.append((name, kind))
    return found
