#!/usr/bin/env python3
"""Tests that a small hostile filing ends in one line, soon and with little memory.

    tests/filing_bounds.py PROGRAM

PROGRAM is the built xbrl-json. Each attack is a small ZIP that unpacks, repeats or nests far more
than its size. It is converted by a run of its own, whose processor time and memory are measured:
at most 2 seconds and 200 MB. What is large but not hostile must still be converted. The last line
counts. Python 3.9 or later and Linux are needed.
"""
from __future__ import annotations

import json
import os
import resource
import shutil
import subprocess
import sys
import tempfile
import time
import zipfile
from pathlib import Path
from random import Random
from typing import Any, Callable, Dict, Iterable, Iterator, List, NamedTuple, Tuple, Union

TOP = Path(__file__).resolve().parent.parent
FILING = TOP / "xbrl-filing"
HOST = "http://reg.example/"
EG = HOST + "eg"
CSV = "https://xbrl.org/2021/xbrl-csv"
XS = "http://www.w3.org/2001/XMLSchema"
XBRLI = "http://www.xbrl.org/2003/instance"
LINKBASE = (
    '<link:linkbase xmlns:link="http://www.xbrl.org/2003/linkbase"'
    ' xmlns:xlink="http://www.w3.org/1999/xlink"'
)

# A file's text, or its pieces if it is large.
Text = Union[str, bytes, Iterable[bytes]]
Files = Dict[str, Text]

MOST_SECONDS, MOST_MEMORY = 2, 200 << 20

PROGRAM = ""
COMPILED = ""  # a folder for compiled modules of Python, so that no run compiles them anew

failed: List[str] = []
count = 0


def case(name: str, seen: object, wanted: object) -> None:
    """Count a case: what was seen, and what was wanted."""
    global count
    count += 1
    if seen != wanted:
        failed.append(name)
        print(f"FAILED {name}:\n  wanted {wanted!r:.600}\n  found  {seen!r:.600}", flush=True)


# What filings are made of.


def meta(info: Dict[str, Any], **parts: Any) -> str:
    """Return the text of a metadata file."""
    return json.dumps({"documentInfo": {"documentType": CSV, **info}, **parts})


def catalog(entries: str) -> str:
    """Return the text of a catalog."""
    namespace = "urn:oasis:names:tc:entity:xmlns:xml:catalog"
    return f'<catalog xmlns="{namespace}">{entries}</catalog>'


def rewrite(start: str = HOST, prefix: str = "../reg/") -> str:
    """Return an entry of a catalog for all URLs that begin with `start`."""
    return f'<rewriteURI uriStartString="{start}" rewritePrefix="{prefix}"/>'


def schema(body: str, namespace: str = EG) -> str:
    """Return the text of a schema."""
    target = f' targetNamespace="{namespace}"' if namespace else ""
    return f'<xs:schema xmlns:xs="{XS}" xmlns:xbrli="{XBRLI}"{target}>{body}</xs:schema>'


def asks(place: str, how: str = "import") -> str:
    """Return an element of a schema that refers to another one."""
    return f'<xs:{how} schemaLocation="{place}"/>'


def loc(place: str) -> str:
    """Return an element of a linkbase that refers to a file."""
    return f'<link:loc xlink:href="{place}"/>'


CASH = '<xs:element name="Cash" type="xbrli:decimalItemType" substitutionGroup="xbrli:item"/>'
MODULE = meta(
    {"namespaces": {"eg": EG}, "taxonomy": ["mod.xsd"]},
    tableTemplates={"t": {"columns": {"cash": {"dimensions": {"concept": "eg:Cash"}}}}},
    tables={"t": {"url": "t.csv"}},
)
GOOD: Files = {
    "META-INF/catalog.xml": catalog(rewrite()),
    "reg/mod.json": MODULE,
    "reg/mod.xsd": schema(CASH),
    "reports/report.json": meta({"extends": [HOST + "mod.json"]}),
    "reports/t.csv": "cash\n1\n",
}


def repeated(
    text: bytes, size: int, start: bytes, end: bytes = b"", noise: Tuple[bytes, bytes] = (b"", b"")
) -> Iterator[bytes]:
    """Yield a text over and over, until about `size` bytes have come, between a start and an end.

    Noise between two marks, a hundredth of it, keeps the ratio of a ZIP below 200 to 1.
    """
    yield start
    for number in range(size >> 20):
        yield text * ((1 << 20) // len(text))
        if noise[0]:
            yield noise[0] + Random(number).randbytes(8192).hex().encode() + noise[1]
    yield end


def pack(path: Path, files: Files) -> None:
    """Write files as a ZIP."""
    with zipfile.ZipFile(path, "w", zipfile.ZIP_DEFLATED) as archive:
        for name, text in files.items():
            pieces = [text.encode()] if isinstance(text, str) else text
            with archive.open(name, "w") as file:
                for piece in [pieces] if isinstance(pieces, bytes) else pieces:
                    file.write(piece)


# Attacks.


class Attack(NamedTuple):
    """A filing that is to end in one line: its files, and what the line says.

    It has no line if the filing is good, and must only cost no more than others.
    """

    name: str
    files: Callable[[], Files]
    line: str = ""


def by_slashes(size: int) -> Files:
    """A schema that imports itself by ever more slashes."""
    return {"reg/mod.xsd": schema(asks(".//mod.xsd") + CASH + "<!-- -->" * (size // 8))}


def module_by_slashes() -> Files:
    """A module that extends itself by ever more slashes."""
    module: Dict[str, Any] = {**json.loads(MODULE), "x": "y" * (1 << 20)}
    module["documentInfo"]["extends"] = [".//mod.json"]
    return {"reg/mod.json": json.dumps(module)}


def two_by_slashes() -> Files:
    """Two schemas that import each other, each time by one slash more."""
    one, two = schema(asks(".//two.xsd") + CASH), schema(asks(".//mod.xsd"), HOST)
    return {"reg/mod.xsd": one, "reg/two.xsd": two}


def in_punycode() -> Files:
    """A schema in an encoding that takes quadratic time."""
    text = b"<?xml version='1.0' encoding='punycode'?>" + schema(CASH).encode() + b"-"
    return {"reg/mod.xsd": [text, b"a" * (2 << 20)]}


def deep(size: int, start: str = "", name: str = "reg/mod.xsd") -> Files:
    """Elements inside of each other, without an end."""
    front = start or SCHEMA_START
    return {name: repeated(b"<a>", size, front.encode(), noise=(b"<!--", b"-->"))}


def many_linkbases() -> Files:
    """Linkbases that each are below the size from which a ratio is asked for."""
    files: Files = {"reg/mod.xsd": linked(loc(f"l{it}.xml") for it in range(24))}
    for number in range(24):
        start, end = f"{LINKBASE}>".encode(), b"</link:linkbase>"
        files[f"reg/l{number}.xml"] = repeated(b"<a/>", 15 << 20, start, end)
    return files


def many_elements(text: bytes, start: str, name: str = "reg/mod.xsd") -> Files:
    """A file of 40 MB of very short elements, in a small ZIP."""
    return {name: repeated(text, 40 << 20, start.encode(), noise=(b"<!--", b"-->"))}


def one_file_by_many_paths() -> Files:
    """A linkbase that refers to itself by ever other paths."""
    return {"reg/mod.xsd": linked(loc(f"{it}/../mod.xsd") for it in range(300_000))}


def linked(locs: Iterable[str], more: str = "") -> str:
    """Return the text of a linkbase that refers to files."""
    return f"{LINKBASE} {more}>{''.join(locs)}</link:linkbase>"


def many_namespaces() -> Files:
    """A large schema without a namespace, which many schemas include."""
    files: Files = {"reg/mod.xsd": linked(loc(f"s{it}.xsd") for it in range(400))}
    for number in range(400):
        files[f"reg/s{number}.xsd"] = schema(asks("plain.xsd", "include"), f"http://n/{number}")
    files["reg/plain.xsd"] = schema("<!-- -->" * (1 << 18), "")
    return files


def many_urls() -> Files:
    """A linkbase that refers to many files, by a base of four thousand characters."""
    base = HOST + "y" * 3900 + "/"
    return {"reg/mod.xsd": linked((loc(f"{it}.xsd") for it in range(300_000)), f'xml:base="{base}"')}


def many_missing() -> Files:
    """A linkbase that refers to many files of the standards, which no package has."""
    return {"reg/mod.xsd": linked(loc(f"http://www.xbrl.org/{it}.xsd") for it in range(5_000))}


def many_starts() -> Files:
    """A catalog of many start strings for one URL, and a linkbase of many URLs."""
    starts = (rewrite(HOST + "y" * it, "../none/") for it in range(1, 1000))
    urls = (loc(f"{HOST}{'y' * 3000}/{it}.xsd") for it in range(2000))
    entries = rewrite() + "".join(starts)
    return {"META-INF/catalog.xml": catalog(entries), "reg/mod.xsd": linked(urls)}


NOISE = (b'"', b'",')  # a text of JSON


def many_values(files: int, size: int) -> Files:
    """A chain of modules that hold small objects without an end."""
    made: Files = {}
    for number in range(files):
        after = [f"m{number + 1}.json"] if number + 1 < files else []
        start = meta({"extends": after})[:-1] + ',"x":['
        name = "mod" if number == 0 else f"m{number}"
        made[f"reg/{name}.json"] = repeated(b"{},", size, start.encode(), b"0]}", NOISE)
    return made


def many_modules() -> Files:
    """A chain of very many modules."""
    names = ["mod", *(f"m{it}" for it in range(1, 20_000))]
    ways = zip(names, names[1:])
    return {f"reg/{name}.json": meta({"extends": [f"{after}.json"]}) for name, after in ways}


def in_reports() -> Files:
    """A report that holds small objects without an end."""
    return {"reports/report.json": repeated(b"{},", 200 << 20, b"[", b"0]", NOISE)}


def branches() -> Files:
    """A module of arrays that are 120 levels deep, side by side."""
    start = MODULE[:-1] + ',"x":['
    return {"reg/mod.json": repeated(b"[" * 120 + b"]" * 120 + b",", 7 << 20, start.encode(), b"0]}")}


def many_reports() -> Files:
    """Reports that hold small objects, each below the bound."""
    return {f"reports/z{it}.json": repeated(b"{},", 14 << 20, b"[", b"0]") for it in range(4)}


def many_linked(text: bytes, front: str = "") -> Files:
    """Three schemas of 15 MB, which nothing but the size of the package has a bound for."""
    start = SCHEMA_START[:-1] + front + ">"
    large = (f"reg/s{it}.xsd" for it in range(3))
    files: Files = {it: repeated(text, 15 << 20, start.encode(), b"</xs:schema>") for it in large}
    return {**files, "reg/mod.xsd": schema("".join(asks(f"s{it}.xsd") for it in range(3)) + CASH)}


def in_a_long_namespace(length: int) -> Files:
    """Elements of a namespace with a long name, which each of them has."""
    start = SCHEMA_START[:-1] + f' xmlns:l="{"u" * length}">'
    return {"reg/mod.xsd": repeated(b"<l:a/>", 1 << 20, start.encode(), b"</xs:schema>")}


def in_one_tag(start: str, name: str = "reg/mod.xsd") -> Files:
    """A tag of 15 MB, of which a part is read again with each piece of the file."""
    return {name: repeated(b"%41", 15 << 20, start.encode(), b'"/>')}


def with_escapes(count: int) -> Files:
    """References of a megabyte of needless escapes, which are long to decode."""
    return {"reg/mod.xsd": linked(loc("%41" * 330_000) for _ in range(count))}


def with_long_entries() -> Files:
    """A catalog of start strings of a megabyte of needless escapes."""
    starts = (rewrite(HOST + "%41" * 330_000 + str(it)) for it in range(15))
    return {"META-INF/catalog.xml": catalog(rewrite() + "".join(starts))}


def with_a_long_prefix() -> Files:
    """A catalog with an entry that leads through 200,000 folders."""
    return {"META-INF/catalog.xml": catalog(rewrite(prefix="../reg/" + "a/../" * 200_000))}


def in_module(**parts: Any) -> Dict[str, Any]:
    """Return the value of a module with other parts."""
    return {**json.loads(MODULE), **parts}


def with_url(url: str, count: int = 1) -> Files:
    """A module with optional tables at a path of very many folders."""
    tables = {f"o{it}": {"url": f"{url}{it}", "template": "t", "optional": True} for it in range(count)}
    return {"reg/mod.json": json.dumps(in_module(tables={"t": {"url": "t.csv"}, **tables}))}


def in_folders() -> Files:
    """A table in as many folders as it may be."""
    folders = "a/" * 100
    return {**with_url(folders), f"reports/{folders}0": "cash\n1\n"}


def with_groups(concept: str) -> Files:
    """A template in which 3,000 columns take 3,000 property groups each.

    Their period would come from a parameter, and a prefix is replaced.
    """
    group: Dict[str, Any] = {"dimensions": {"concept": "eg:Cash", "period": "2025-01-01"}}
    columns: Dict[str, Any] = {"cash": {"dimensions": {"concept": "eg:Cash", "period": "2025-01-01"}}}
    columns["g"] = {"propertyGroups": {f"x{it}": group for it in range(3000)}}
    fact = {"dimensions": {}, "propertiesFrom": ["g"]}
    columns.update((f"c{it}", fact) for it in range(3000))
    template = {"columns": columns, "dimensions": {"concept": concept}}
    module = in_module(tableTemplates={"t": template}, dimensions={"period": "$p"})
    module["documentInfo"]["extends"] = ["base.json"]
    module["documentInfo"]["namespaces"]["a"] = "u"
    base = meta({"namespaces": {"b": "u"}})
    return {"reg/mod.json": json.dumps(module), "reg/base.json": base, "reports/t.csv": "cash,c1\n1,b:\n"}


def with_replaced_prefixes() -> Files:
    """A module of which 10,000 prefixes are replaced, and a table of 3 MB to look for them."""
    module = in_module()
    module["documentInfo"]["extends"] = ["base.json"]
    module["documentInfo"]["namespaces"].update((f"a{it}", f"u{it}") for it in range(10_000))
    base = meta({"namespaces": {f"b{it}": f"u{it}" for it in range(10_000)}})
    return {
        "reg/mod.json": json.dumps(module),
        "reg/base.json": base,
        "reports/t.csv": repeated(b"b1\n", 3 << 20, b"cash\n"),
    }


def all_final() -> Files:
    """A chain of modules that are all final, with very many parameters in the last."""
    final = {"final": dict.fromkeys(("tables", "tableTemplates", "parameters", "dimensions"), True)}
    names = ["mod", *(f"m{it}" for it in range(1, 1900))]
    ways = zip(names, names[1:])
    files: Files = {f"reg/{name}.json": meta({"extends": [f"{next}.json"], **final}) for name, next in ways}
    parameters = {f"p{it}": "" for it in range(50_000)}
    return {**files, f"reg/{names[-1]}.json": json.dumps(in_module(parameters=parameters))}


def with_many(part: str, count: int) -> Files:
    """A module with very many tables, parameters, prefixes or URLs."""
    module = in_module()
    many: Any = {f"n{it}": f"u{it}" for it in range(count)}
    if part == "tables":
        optional = {"template": "t", "optional": True}
        many = {name: {"url": url, **optional} for name, url in many.items()}
    if part in ("extends", "taxonomy"):
        many = [f"{it}.json" for it in range(count)]
    owner = module["documentInfo"] if part in ("extends", "taxonomy", "namespaces") else module
    owner[part] = {**owner.get(part, {}), **many} if isinstance(many, dict) else many
    return {"reg/mod.json": json.dumps(module)}


def all_by_all() -> Files:
    """Modules that each extend all after them."""
    files: Files = {}
    for number in range(700):
        after = [f"m{it}.json" for it in range(number + 1, 700)]
        files[f"reg/{f'm{number}' if number else 'mod'}.json"] = meta({"extends": after})
    return files


MODULE_IS, SCHEMA_IS = "f.zip/reg/mod.json: ", "f.zip/reg/mod.xsd: "
URLS = "is asked for by more than 8 URLs: http://reg.example/////////"
DEEP = "is nested more than 1000 levels deep (line 1)"
BROKEN_OFF = catalog("").replace("</catalog>", "")
SCHEMA_START = schema("").replace("</xs:schema>", "")
JSON = "has more JSON, with that read before it, than packages of "
VALUES = "has more than 5000000 values, with the JSON read before it"
IN_S0 = "f.zip/reg/s0.xsd: "
ATTRIBUTES = b"<a " + b" ".join(b'a%d=""' % it for it in range(20)) + b"/>"
XML = "has more XML, with that read before it, than packages of "
LONG_TAG = "has a tag or a comment of more than 1048576 bytes, which is refused (line 1)"
SHORT = "has more than 100000 elements of fewer than 16 bytes, with the XML read before it: "
ATTACKS = (
    Attack("a module that extends itself", module_by_slashes, MODULE_IS + "extends itself"),
    Attack("a schema of 4 MB by slashes", lambda: by_slashes(4 << 20), SCHEMA_IS + XML),
    Attack("a schema of 1 KB by slashes", lambda: by_slashes(1 << 10), SCHEMA_IS + URLS),
    Attack("two schemas by slashes", two_by_slashes, SCHEMA_IS + URLS),
    Attack("a schema 5 million deep", lambda: deep(16 << 20), SCHEMA_IS + DEEP),
    Attack("a schema 38 million deep", lambda: deep(110 << 20), SCHEMA_IS + DEEP),
    Attack("a linkbase 5 million deep", lambda: deep(16 << 20, LINKBASE + ">"), SCHEMA_IS + DEEP),
    Attack(
        "a catalog 5 million deep",
        lambda: deep(16 << 20, BROKEN_OFF, "META-INF/catalog.xml"),
        "f.zip/META-INF/catalog.xml: " + DEEP,
    ),
    Attack("JSON of 200 MB of {}", lambda: many_values(1, 200 << 20), MODULE_IS + VALUES),
    Attack("a report of 200 MB of {}", in_reports, "f.zip/reports/report.json: " + VALUES),
    Attack("four files of 4 MB of {}", lambda: many_values(4, 4 << 20), MODULE_IS + JSON),
    Attack("a file of 14 MB of {}", lambda: many_values(1, 14 << 20), MODULE_IS + JSON),
    Attack("arrays in 120 levels", branches, MODULE_IS + JSON),
    Attack("four reports of 14 MB of {}", many_reports),
    Attack(
        "a schema in punycode",
        in_punycode,
        SCHEMA_IS + "is in an encoding that is not taken: punycode",
    ),
    Attack("24 linkbases of 16 MB of <a/>", many_linkbases, "f.zip: unpacks to 3"),
    Attack(
        "a catalog of <a/>",
        lambda: many_elements(b"<a/>", BROKEN_OFF, "META-INF/catalog.xml"),
        "f.zip/META-INF/catalog.xml: has more than 100000 elements, with the XML read before it: ",
    ),
    Attack("a schema of <a/>", lambda: many_elements(b"<a/>", SCHEMA_START), SCHEMA_IS + SHORT),
    Attack(
        "a linkbase of <a/>",
        lambda: many_elements(b"<a/>", LINKBASE + ">"),
        SCHEMA_IS + SHORT,
    ),
    Attack(
        "a schema of prefixes",
        lambda: many_elements(b'<a xmlns:b="c" xmlns:d="e"/>', SCHEMA_START),
        SCHEMA_IS + SHORT,
    ),
    Attack(
        "a schema of bases",
        lambda: many_elements(b'<a xml:base="b/"/>', SCHEMA_START),
        SCHEMA_IS + SHORT,
    ),
    Attack("one file by many paths", one_file_by_many_paths, SCHEMA_IS + SHORT),
    Attack("a schema for 400 namespaces", many_namespaces, "f.zip/reg/plain.xsd: " + XML),
    Attack("many long URLs", many_urls, SCHEMA_IS + "asks for more files than are taken"),
    Attack("many missing files", many_missing, SCHEMA_IS + "asks for more than 1000 files"),
    Attack(
        "many start strings",
        many_starts,
        "f.zip/META-INF/catalog.xml: has more than 100 entries",
    ),
    Attack("elements of 16 bytes", lambda: many_linked(b"<aaaaaaaaaaaaaa/>"), IN_S0 + XML),
    Attack("elements that are declared", lambda: many_linked(CASH.encode()), IN_S0 + XML),
    Attack("elements of many attributes", lambda: many_linked(ATTRIBUTES), IN_S0 + XML),
    Attack("a namespace of a megabyte", lambda: in_a_long_namespace(1_000_000), SCHEMA_IS + "has a namespace of 1000000"),
    Attack("a namespace that is long", lambda: in_a_long_namespace(255), SCHEMA_IS + SHORT),
    Attack("a reference of 15 MB", lambda: in_one_tag(LINKBASE + '><a b="'), SCHEMA_IS + LONG_TAG),
    Attack(
        "a start string of 15 MB",
        lambda: in_one_tag(BROKEN_OFF + '<uri name="', "META-INF/catalog.xml"),
        "f.zip/META-INF/catalog.xml: " + LONG_TAG,
    ),
    Attack("references of a megabyte", lambda: with_escapes(5), SCHEMA_IS + "has a URL of 990000"),
    Attack("start strings of a megabyte", with_long_entries),
    Attack(
        "an entry of a megabyte",
        with_a_long_prefix,
        "f.zip/META-INF/catalog.xml: has an entry of 1000007 characters",
    ),
    Attack(
        "a path of 500,000 folders",
        lambda: with_url("a/" * 500_000),
        MODULE_IS + "'tables.o0.url' is longer than a file's path may be",
    ),
    Attack(
        "a path of 1,950 folders, often",
        lambda: with_url("a/" * 1_950, 1000),
        MODULE_IS + "'tables.o0.url' is longer than a file's path may be",
    ),
    Attack(
        "a table in 1,200 folders",
        lambda: {**with_url("a/" * 1_200), f"reports/{'a/' * 1_200}0": "cash\n1\n"},
        MODULE_IS + "'tables.o0.url' is longer than a file's path may be",
    ),
    Attack("a table in 100 folders", in_folders),
    Attack("groups of very many columns", lambda: with_groups("eg:Cash")),
    Attack("groups, for a concept that is referred to", lambda: with_groups("$x")),
    Attack("replaced prefixes", with_replaced_prefixes),
    Attack("very much that is final", all_final, "f.zip/reg/m"),
    Attack("many tables", lambda: with_many("tables", 17_000), MODULE_IS + "has more than 16384 'tables'"),
    Attack("many parameters", lambda: with_many("parameters", 66_000), MODULE_IS + "has more than 65536 'param"),
    Attack("many prefixes", lambda: with_many("namespaces", 101_000), MODULE_IS + "has more than 100000 'name"),
    Attack("many entry points", lambda: with_many("taxonomy", 2001), MODULE_IS + "'documentInfo.taxonomy' has more"),
    Attack("a long list of modules", lambda: with_many("extends", 2001), MODULE_IS + "'documentInfo.extends' has more"),
    Attack("modules that extend all others", all_by_all, "f.zip/reg/m"),
    Attack("many modules", many_modules, "f.zip/reg/m1999.json: is one of more than 2000 files"),
)


# What is large and not hostile.


def many_entries() -> Files:
    """A package of very many files."""
    return {**GOOD, **{f"more/{it}": "" for it in range(100_000)}}


def many_lengths() -> Files:
    """A catalog with start strings of very many lengths."""
    starts = (rewrite(f"http://{'z' * it}.example/") for it in range(1, 4000))
    return {**GOOD, "META-INF/catalog.xml": catalog(rewrite() + "".join(starts))}


def many_concepts() -> Files:
    """A schema of very many concepts, which packs well."""
    body = "".join(CASH.replace("Cash", f"C{it}") for it in range(50_000))
    return {**GOOD, "reg/mod.xsd": schema(CASH + body)}


def many_texts() -> Files:
    """A module with far more commas and brackets in its texts than JSON may have values."""
    module: Dict[str, Any] = {**json.loads(MODULE), "x": 'a,{["\\' * 2_000_000}
    return {**GOOD, "reg/mod.json": json.dumps(module)}


LARGE = {
    "100,000 files": many_entries,
    "start strings of 4,000 lengths": many_lengths,
    "50,000 concepts": many_concepts,
    "texts full of commas": many_texts,
}


class Measured(NamedTuple):
    """A run: its status and standard error, its seconds of processor time and its bytes."""

    status: int
    err: str
    seconds: float
    memory: int


def yardstick() -> float:
    """Return the seconds of processor time in which this machine reads 200,000 objects of JSON."""
    text = "[" + "{}," * 200_000 + "0]"

    def once() -> float:
        begun = time.process_time()
        json.loads(text, object_pairs_hook=dict)
        return time.process_time() - begun

    return min(once() for _ in range(5))


def measured(words: List[str], folder: Path) -> Measured:
    """Run xbrl-filing in a process of its own, with an end for a run that has none."""

    def limit() -> None:
        resource.setrlimit(resource.RLIMIT_CPU, (30, 30))
        resource.setrlimit(resource.RLIMIT_AS, (4 << 30, 4 << 30))

    env = {**os.environ, "XBRL_JSON": PROGRAM}
    if COMPILED:
        env.pop("PYTHONDONTWRITEBYTECODE", None)
        env["PYTHONPYCACHEPREFIX"] = COMPILED
    with tempfile.TemporaryFile() as said, open(os.devnull, "r+b") as nothing:
        child = subprocess.Popen(
            [str(FILING), *words],
            cwd=folder,
            env=env,
            stdin=nothing,
            stdout=nothing,
            stderr=said,
            preexec_fn=limit,
        )
        _, status, used = os.wait4(child.pid, 0)
        child.returncode = os.waitstatus_to_exitcode(status)
        said.seek(0)
        err = said.read().decode(errors="replace")
    return Measured(child.returncode, err, used.ru_utime + used.ru_stime, used.ru_maxrss << 10)


def attacks(folder: Path) -> None:
    """Each attack ends in its line with status 1, within the bounds, and writes nothing.

    Each one without a line is prepared, within the same bounds.
    """
    for attack in ATTACKS:
        files = {**GOOD, **attack.files()}
        pack(folder / "f.zip", files)
        run = measured(["f.zip", "--prepare", "out"], folder)
        front = f"xbrl-filing: {attack.line}" if attack.line else ""
        is_line = run.err.startswith(front) and run.err.count("\n") == (1 if front else 0)
        wanted = (1 if front else 0, front)
        case(attack.name, (run.status, run.err if not is_line else front), wanted)
        what = f"{attack.name}: {run.seconds:.2f} seconds, at most {MOST_SECONDS}"
        case(what, run.seconds <= MOST_SECONDS, True)
        case(f"{attack.name}: {run.memory >> 20} MB", run.memory <= MOST_MEMORY, True)
        left = ["f.zip"] if front else ["f.zip", "out"]
        case(f"{attack.name}: what is left", sorted(os.listdir(folder)), left)
        os.unlink(folder / "f.zip")
        shutil.rmtree(folder / "out", ignore_errors=True)


def large(folder: Path) -> None:
    """Each filing that is large but not hostile is prepared."""
    for number, (name, files) in enumerate(LARGE.items()):
        pack(folder / "f.zip", files())
        run = measured(["f.zip", "--prepare", f"out{number}"], folder)
        case(name, (run.status, run.err), (0, ""))
        is_there = (folder / f"out{number}/meta.json").is_file()
        case(f"{name}: prepared", is_there, True)


def main() -> None:
    """Run all cases, and end with status 1 if one failed."""
    global COMPILED
    with tempfile.TemporaryDirectory() as COMPILED:
        for part in (attacks, large):
            with tempfile.TemporaryDirectory() as folder:
                part(Path(folder).resolve())
    print(f"over hostile filings: {count - len(failed)} as they must be, {len(failed)} not")
    sys.exit(1 if failed else 0)


if __name__ == "__main__":
    if len(sys.argv) != 2:
        sys.exit(__doc__)
    PROGRAM = os.path.abspath(sys.argv[1])
    main()
