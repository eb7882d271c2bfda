"""What made-up filings are made of: metadata, catalogs, schemas, linkbases, and a good filing.

REPORT is the package of a report with one table, TAXONOMY that of the module which it extends. A
filing of a test is these two with some files replaced. `xbrl-filing --prepare` makes MERGED and
TYPES of them.
"""
from __future__ import annotations

import json
import warnings
import zipfile
from collections.abc import Iterable, Mapping
from pathlib import Path
from typing import Any, Union

HOST = "http://reg.example/"
CSV = "https://xbrl.org/2021/xbrl-csv"
EG = "http://reg.example/eg"
XS = "http://www.w3.org/2001/XMLSchema"
XBRLI = "http://www.xbrl.org/2003/instance"
XLINK = "http://www.w3.org/1999/xlink"
LINK = "http://www.xbrl.org/2003/linkbase"
XBRLDT = "http://xbrl.org/2005/xbrldt"
XMLNS_LINK = f'xmlns:link="{LINK}" xmlns:xlink="{XLINK}"'
REPORT_PACKAGE = "https://xbrl.org/report-package/2023"

# The content of a file, and files by their paths in a folder.
Text = Union[str, bytes]
Files = Mapping[str, Text]


def meta(info: Mapping[str, Any] | None = None, **parts: Any) -> str:
    """Returns the text of a metadata file."""
    return json.dumps({"documentInfo": {"documentType": CSV, **(info or {})}, **parts})


def catalog(entries: str, attributes: str = "") -> str:
    """Returns the text of a catalog."""
    namespace = "urn:oasis:names:tc:entity:xmlns:xml:catalog"
    return f'<catalog xmlns="{namespace}" {attributes}>{entries}</catalog>'


def rewrite(start: str = HOST, prefix: str = "../reg/") -> str:
    """Returns an entry of a catalog for all URLs that begin with `start`."""
    return f'<rewriteURI uriStartString="{start}" rewritePrefix="{prefix}"/>'


def schema(body: str = "", namespace: str = EG, attributes: str = "") -> str:
    """Returns a schema with the usual prefixes; without a target if `namespace` is empty."""
    prefixes = f'xmlns:xs="{XS}" xmlns:xbrli="{XBRLI}" xmlns:xbrldt="{XBRLDT}"'
    prefixes += f' {XMLNS_LINK} xmlns:eg="{EG}"'
    target = f' targetNamespace="{namespace}"' if namespace else ""
    return f"<xs:schema {prefixes}{target} {attributes}>{body}</xs:schema>"


def item(name: str, kind: str = "xbrli:stringItemType", more: str = "") -> str:
    """Returns the element of a concept."""
    return f'<xs:element name="{name}" type="{kind}" substitutionGroup="xbrli:item" {more}/>'


def linkbase(body: str, attributes: str = "") -> str:
    """Returns the text of a linkbase."""
    return f"<link:linkbase {XMLNS_LINK} {attributes}>{body}</link:linkbase>"


def loc(href: str, kind: str = "loc") -> str:
    """Returns an element of a linkbase that refers to a place."""
    return f'<link:{kind} xlink:href="{href}"/>'


def include(place: str, kind: str = "import") -> str:
    """Returns an element of a schema that refers to another one."""
    return f'<xs:{kind} schemaLocation="{place}"/>'


def noted(body: str, attributes: str = "") -> str:
    """Returns an annotation of a schema that has this text."""
    return f"<xs:annotation {attributes}><xs:appinfo>{body}</xs:appinfo></xs:annotation>"


def derived(name: str, base: str, how: str = "restriction", content: str = "simpleContent") -> str:
    """Returns a type that is derived from another."""
    text = '<xs:simpleType><xs:restriction base="xs:string"/></xs:simpleType>'
    inner = f'<xs:{how} base="{base}"><xs:attribute name="a">{text}</xs:attribute></xs:{how}>'
    return f'<xs:complexType name="{name}"><xs:{content}>{inner}</xs:{content}></xs:complexType>'


def headed(*names: str, more: str = "") -> str:
    """Returns elements of a substitution group, each given as `NAME HEAD`."""
    element = '<xs:element name="{}" substitutionGroup="{}" {}/>'
    return "".join(element.format(*it.split(), more) for it in names)


TYPES_HEADER = "namespace,name,type3,period,values\n"


def records(*lines: str, namespace: str = EG) -> str:
    """Returns a types table of these records of a namespace.

    Each is given without the namespace, and may end after its type.
    """
    whole = (it + "," * (3 - it.count(",")) for it in lines)
    return TYPES_HEADER + "".join(f"{namespace},{it}\n" for it in whole)


EXPLICIT = '<xs:element name="Region" substitutionGroup="xbrldt:dimensionItem" abstract="true"/>'
TYPED = EXPLICIT.replace("Region", "Branch").replace("/>", ' xbrldt:typedDomainRef="#b"/>')
ELEMENTS = item("Cash", "xbrli:decimalItemType") + item("Note") + EXPLICIT + TYPED
TEMPLATE: dict[str, Any] = {"columns": {"cash": {"dimensions": {"concept": "eg:Cash"}}}}
TABLES: dict[str, Any] = {"t": {"url": "t.csv"}}
INFO: dict[str, Any] = {"namespaces": {"eg": EG}, "taxonomy": ["mod.xsd"]}
MODULE = meta(INFO, tableTemplates={"t": TEMPLATE}, tables=TABLES)
TAXONOMY: dict[str, str] = {
    "META-INF/catalog.xml": catalog(rewrite()),
    "reg/mod.json": MODULE,
    "reg/mod.xsd": schema(ELEMENTS),
}
REPORT: dict[str, str] = {
    "reports/report.json": meta({"extends": [HOST + "mod.json"]}),
    "reports/t.csv": "cash\n1\n",
}
TYPES = records("Branch,typed", "Cash,decimal", "Note,text", "Region,explicit")
MERGED: dict[str, Any] = {
    "documentInfo": {"documentType": CSV, "namespaces": {"eg": EG}, "taxonomy": [HOST + "mod.xsd"]},
    "tableTemplates": {"t": TEMPLATE},
    "tables": TABLES,
}


# A schema in a folder of its own, and the types table of a taxonomy that only reads it.
LEAF = {"reg/d/leaf.xsd": schema(item("A"))}
ONE = records("A,text")


def deeper(files: Mapping[str, Text]) -> dict[str, Text]:
    """Returns files of a report with the report in a folder of `reports`."""
    return {it.replace("reports/", "reports/q/"): text for it, text in files.items()}


def filed_with(filed: Text, report: Files = REPORT, **parts: Any) -> dict[str, Any]:
    """Returns a filing with a parameters file, whose module has further parts."""
    whole = {"tableTemplates": {"t": TEMPLATE}, "tables": TABLES, "parameterURL": "p.csv", **parts}
    module = {**TAXONOMY, "reg/mod.json": meta(INFO, **whole)}
    return {"report": {**report, "reports/p.csv": filed}, "taxonomies": [module]}


def as_bytes(text: Text) -> bytes:
    """Returns the bytes of a file that is given by its text or by them."""
    return text if isinstance(text, bytes) else text.encode()


def pack(
    path: Path,
    files: Files | Iterable[tuple[str | zipfile.ZipInfo, Text]],
    top: str = "",
    method: int = zipfile.ZIP_DEFLATED,
) -> None:
    """Writes files as a ZIP, in a folder `top` if it is given."""
    with warnings.catch_warnings(), zipfile.ZipFile(path, "w", method) as archive:
        warnings.simplefilter("ignore")
        for name, text in files.items() if isinstance(files, Mapping) else files:
            archive.writestr(name if isinstance(name, zipfile.ZipInfo) else top + name, text)
