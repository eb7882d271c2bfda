#!/usr/bin/env python3
"""Feeds xbrl-filing broken and hostile filings, made by chance from good ones.

    tests/fuzz_filing.py PROGRAM [--cases N] [--seconds N] [--seed S] [--jobs J]
    tests/fuzz_filing.py PROGRAM --seed S --case K [--keep FOLDER]

PROGRAM is the built xbrl-json. Case K of a seed is the same on every machine with one version of
Python. A failed case prints the command that shows it again; `--keep` leaves its files in a new
folder. Without `--seconds` and `--cases` it judges 1,000 cases, about two minutes.

Each case is a package or a folder of which ZIP, JSON, XML, CSV, names, links or pipes are changed.
It must end with status 0, 1 or 3 (with --into also 75) and without a traceback, within 20 seconds
of processor time and 800 MB of memory. Only seconds of the processor count, because a loaded
machine makes a run wait; the slowest of 11,000 cases took 1.6 of them with a load of 30 on four
processors. A refusal is one line. Nothing is written but what was asked for, no input is changed,
and no temporary file is left. The line before the last names the slowest cases, and the last one
counts. Linux is needed.
"""
from __future__ import annotations

import argparse
import json
import os
import resource
import shutil
import signal
import struct
import sys
import tempfile
import time
import zipfile
from copy import deepcopy
from pathlib import Path
from random import Random
from typing import Any, Callable, Dict, Iterable, Iterator, List, NamedTuple, NoReturn, Optional, Tuple

TOP = Path(__file__).resolve().parent.parent
sys.path.insert(0, str(TOP))

from filing import command  # noqa: E402
from tests.filing_bounds import (  # noqa: E402
    GOOD,
    HOST,
    LINKBASE,
    asks,
    catalog,
    loc,
    meta,
    rewrite,
    schema,
)

MOST_SECONDS = 20  # of the processor
MOST_WAIT = 900  # seconds of the clock, after which a run hangs
CASES, LONGEST_RUN = 1000, 3000  # without words for it: cases, and seconds for all of them
SLOWEST = 3
MOST_MEMORY = 800 << 20
SECRET, MARK = "outside.csv", "4242424242"  # a file beside the package, which no run may read
Files = Dict[str, bytes]
Chance = Random


NAMESPACES = {it: HOST + it for it in ("eg", "iso", "lei")}


# Good filings, from which cases are made.


def in_one() -> Files:
    """Return a package that is report and taxonomy at once."""
    return {name: text.encode() for name, text in GOOD.items() if isinstance(text, str)}


def in_parts() -> Files:
    """Return a package with most of what a taxonomy may have."""
    head = schema("").replace("</xs:schema>", "")
    concepts = "".join(
        f'<xs:element xmlns:e="{HOST}eg" name="{name}" type="{kind}"'
        ' substitutionGroup="xbrli:item"/>'
        for name, kind in (("A", "xbrli:dateItemType"), ("B", "e:T"), ("C", "xbrli:QNameItemType"))
    )
    derived = '<xs:complexType name="T"><xs:simpleContent><xs:restriction base="xbrli:decimalItemType"/>'
    derived += "</xs:simpleContent></xs:complexType>"
    dimension = '<xs:element name="D" xmlns:d="http://xbrl.org/2005/xbrldt" abstract="true"'
    dimension += ' substitutionGroup="d:dimensionItem"/>'
    columns = {
        "a": {"dimensions": {"concept": "eg:B", "unit": "$u"}, "propertiesFrom": ["g"]},
        "g": {"propertyGroups": {"x": {"dimensions": {"eg:D": "eg:M"}, "decimals": 2}}},
        "k": {},
        "c": {"comment": True},
    }
    module = meta(
        {"namespaces": NAMESPACES, "taxonomy": ["mod.xsd"]},
        tableTemplates={"t": {"columns": columns, "dimensions": {"period": "$refPeriod"}}},
        dimensions={"entity": "$e"},
        parameterURL="parameters.csv",
    )
    made = {
        "META-INF/reportPackage.json": json.dumps(
            {"documentInfo": {"documentType": "https://xbrl.org/report-package/2023"}}
        ),
        "META-INF/catalog.xml": catalog(rewrite() + f'<uri name="{HOST}x" uri="../reg/mod.json"/>'),
        "reg/sub/base.json": module.replace('"mod.xsd"', '"../mod.xsd"'),
        "reg/mod.json": meta({"extends": ["sub/base.json"]}, tables={"t": {"url": "t.csv"}}),
        "reg/mod.xsd": f"{head}{asks('in.xsd', 'include')}{asks('l.xml')}{dimension}</xs:schema>",
        "reg/in.xsd": schema(concepts + derived),
        "reg/l.xml": f"{LINKBASE}>{loc('mod.xsd#D')}{loc('in.xsd')}</link:linkbase>",
        "reports/report.json": meta(
            {"extends": [HOST + "mod.json"], "namespaces": {"reg": HOST + "eg"}},
            tables={"o": {"url": "o.csv", "template": "t", "optional": True}},
        ),
        "reports/t.csv": 'a,g,k,c\n1.5,x,"r,1",hello\n2,x,r2,"a ""b"""\n',
        "reports/parameters.csv": "name,value\nu,iso:EUR\nrefPeriod,2025-01-01\ne,lei:1\n",
    }
    return {name: text.encode() for name, text in made.items()}


def example() -> Files:
    """Return the example of the repository as one package."""
    made: Files = {}
    for part in ("taxonomy", "report"):
        folder = TOP / "examples/filing" / part
        for path in sorted(folder.rglob("*")):
            if path.is_file():
                made[str(path.relative_to(folder))] = path.read_bytes()
    return made


# Changes of a file.

URLS = [
    *("", ".", "..", "/", "//", ".//mod.json", "../" * 50 + "etc/passwd", "%2e%2e/%2e%2e/x", "#", "?"),
    *("file:///etc/passwd", "http://", "http:///", "HTTP://REG.example:80/mod.json", "urn:x", ":"),
    *(HOST, HOST + "%6dod.json", HOST + "/mod.xsd", HOST + "mod.xsd#a", HOST + "%00", HOST + "a\\b"),
    *("mod.json", "mod.xsd", "l.xml", "%", "%zz", "\ud7ff", "a" * 5000, "http://[", "x" * 300 + ".csv"),
    *("http://www.xbrl.org/2003/x.xsd", "report.json", "t.csv", "meta.json", "types.csv", "../t.csv"),
]
TEXTS = [
    *URLS,
    *("$", "$$", "$x", "$rowNumber", "#none", "#nil", "##", "eg:A", "reg:A", "eg:", ":eg", "true"),
    *("\0", "\n", "\x1b[2J", "\u202e", "\U0001f600", "e\u0301", "a.b", "iso:EUR", "2025-01-01", "-0"),
]
VALUES: List[Any] = [
    *(None, True, False, 0, -1, 1.5, 10**30, -(10**400), [], {}, "", [[]], [{}], {"": ""}, [1, "a"]),
    *({"eg": "x"}, {"a": {"dimensions": {}}}, {"a": {"url": "t.csv"}}, {"url": "t.csv", "optional": 1}),
]
ENCODINGS = [
    *("utf-8", "UTF8", "utf-16", "UTF16", "utf-16-le", "utf-32", "ascii", "latin-1", "cp037", "cp1252"),
    *("shift_jis", "gb18030", "euc-kr", "big5", "iso2022_jp", "utf-7", "punycode", "idna", "zlib"),
    *("unicode_escape", "undefined", "klingon", "utf-8-sig", "x" * 200, "rot13", "mbcs", "hz", "a.b"),
]
SPLICES = [
    *(b"\0", b"\xff", b"\xef\xbb\xbf", b"\xff\xfe", b"<", b"&", b"&amp;", b"&x;", b'"', b"'", b"\\"),
    *(b"<!DOCTYPE x>", b'<!DOCTYPE x [<!ENTITY a "b">]>', b"<?x y?>", b"<!--", b"-->", b"<![CDATA[", b"]]>"),
    *(b"<a>" * 2000, b"<a/>" * 2000, b"[" * 300, b"{" * 300, b',"a":1,"a":2', b"NaN", b"1e999", b"\\ud800"),
    *(b' xml:base="x/"', b' xmlns:q="q"', b' xmlns=""', b'<xs:redefine schemaLocation="x"/>', b"\r", b"\n"),
    *(b"<g xml:base='a/'>" * 120, b",", b"\n\n", b"x" * 70_000, b'"' * 5, b"2025-13-40", b"{}" * 1000),
]


def bytes_changed(chance: Chance, text: bytes) -> bytes:
    """Change, cut, double or take out some bytes."""
    data = bytearray(text)
    for _ in range(chance.choice((1, 1, 2, 5))):
        at = chance.randrange(len(data) + 1)
        kind = chance.randrange(5)
        if kind == 0 and at < len(data):
            data[at] = chance.randrange(256)
        elif kind == 1:
            data[at:at] = chance.choice(SPLICES)
        elif kind == 2:
            del data[at : at + chance.choice((1, 1, 8, 100, 10_000))]
        elif kind == 3:
            data[at:at] = data[at : at + chance.choice((1, 30, 1000))] * chance.choice((1, 2, 50))
        else:
            data[at:] = b"" if chance.random() < 0.3 else bytes(data[at:])
    return bytes(data)


def recoded(chance: Chance, text: bytes) -> bytes:
    """Write a text in another encoding, which it declares or not."""
    encoding, declared = chance.choice(ENCODINGS), chance.choice(ENCODINGS)
    words = text.decode("utf-8", "replace")
    if chance.random() < 0.7:
        gap = chance.choice((" ", "  ", "\n", " " * 1100, ""))
        words = f"<?xml version='1.0'{gap}encoding='{declared}'?>" + words
    try:
        data = words.encode(encoding, "replace")
    except (LookupError, UnicodeError):
        data = words.encode()
    mark = chance.choice((b"", b"", b"\xef\xbb\xbf", b"\xff\xfe", b"\xfe\xff", b"\xff\xfe\0\0"))
    return mark + data


def json_changed(chance: Chance, text: bytes) -> bytes:
    """Change values of a JSON text, or what they are called."""
    try:
        value = json.loads(text)
    except ValueError:
        return bytes_changed(chance, text)
    for _ in range(chance.choice((1, 1, 2, 6))):
        owners = [it for it in all_values(value) if isinstance(it, (dict, list)) and it]
        if not owners:
            break
        owner = chance.choice(owners)
        key = chance.choice(list(owner) if isinstance(owner, dict) else range(len(owner)))
        change_member(chance, owner, key, value)
    made = json.dumps(value, ensure_ascii=chance.random() < 0.5)
    return made.encode("utf-8", "surrogatepass")


def all_values(value: Any) -> Iterator[Any]:
    """Yield a value and all inside of it."""
    waiting = [value]
    while waiting:
        at = waiting.pop()
        yield at
        if isinstance(at, (dict, list)):
            waiting += at.values() if isinstance(at, dict) else at


def change_member(chance: Chance, owner: Any, key: Any, value: Any) -> None:
    """Change, take out, rename or add a member of an object or an array."""
    kind = chance.randrange(6)
    if kind == 0:
        del owner[key]
    elif kind == 1 and isinstance(owner, dict):
        owner[chance.choice(TEXTS)] = owner.pop(key)
    elif kind == 2:
        owner[key] = deepcopy(chance.choice(VALUES))
    elif kind == 3:
        owner[key] = deepcopy(chance.choice(list(all_values(value))))
    elif kind == 4 and isinstance(owner, dict):
        word = chance.choice(("extends", "links", "final", "taxonomy", "parameterURL", "url", "x:y"))
        more = (*VALUES, *URLS, [chance.choice(URLS)], [HOST + "mod.json"])
        owner[word] = deepcopy(chance.choice(more))
    else:
        owner[key] = chance.choice(TEXTS)


def xml_changed(chance: Chance, text: bytes) -> bytes:
    """Change an attribute, an element or the encoding of an XML text."""
    kind = chance.randrange(5)
    if kind == 0:
        return recoded(chance, text)
    if kind == 1:
        return bytes_changed(chance, text)
    quotes = [at for at, letter in enumerate(text) if letter == ord('"')]
    if kind in (2, 3) and len(quotes) > 1:
        start = chance.randrange(len(quotes) - 1)
        word = chance.choice(TEXTS).encode("utf-8", "replace").replace(b"\0", b"")
        return text[: quotes[start] + 1] + word + text[quotes[start + 1] :]
    tags = [at for at, letter in enumerate(text) if letter == ord("<")]
    at = chance.choice(tags or [0])
    more = chance.choice((*SPLICES, *(asks(chance.choice(URLS), it).encode() for it in ("import", "include"))))
    return text[:at] + more * chance.choice((1, 1, 3)) + text[at:]


def csv_changed(chance: Chance, text: bytes) -> bytes:
    """Change a cell, a line or the encoding of a CSV text."""
    lines = text.split(b"\n")
    line = chance.randrange(len(lines))
    cells = lines[line].split(b",")
    kind = chance.randrange(5)
    if kind == 0:
        return recoded(chance, text)
    if kind == 1:
        return bytes_changed(chance, text)
    if kind == 2:
        lines[line : line + 1] = [lines[line]] * chance.choice((0, 2, 300))
    else:
        at = chance.randrange(len(cells))
        cells[at] = chance.choice(TEXTS).encode("utf-8", "replace")
        lines[line] = b",".join(cells)
    return b"\n".join(lines)


SWOLLEN = {
    True: [b"<a>", b"<a/>", b"<!---->", b"x"],
    False: [b"{},", b"[", b'{"":', b'{"":0},', b'"",', b'a,"b"\n'],
}


def swollen(chance: Chance, text: bytes, sizes: Tuple[int, ...] = (1 << 18, 8 << 20)) -> bytes:
    """Repeat something very often at a place where it counts.

    Noise in between keeps the ratio of a ZIP low.
    """
    is_xml = text.lstrip().startswith(b"<")
    word = chance.choice(SWOLLEN[is_xml])
    size = chance.choice(sizes)
    noise = b"<!--%b-->" if is_xml else b'"%b",'
    block = word * ((1 << 20) // len(word))
    more = [block + noise % chance.randbytes(8192).hex().encode() for _ in range(size >> 20)]
    places = [at + 1 for at, letter in enumerate(text) if letter in (b">" if is_xml else b"{[,")]
    at = chance.choice(places or [0])
    return text[:at] + b"".join(more or [word * (size // len(word))]) + text[at:]


CHANGES: Dict[str, Callable[[Chance, bytes], bytes]] = {
    ".json": json_changed,
    ".xml": xml_changed,
    ".xsd": xml_changed,
    ".csv": csv_changed,
}


def file_changed(chance: Chance, name: str, text: bytes) -> bytes:
    """Change a file as its ending asks for, or its bytes."""
    change, draw = CHANGES.get(Path(name).suffix, bytes_changed), chance.random()
    if draw < 0.02:
        return swollen(chance, text)
    return (bytes_changed if draw < 0.2 else change)(chance, text)


# Changes of a package.

NAMES = [
    *("../x", "/x", "a//b", "a/./b", "a\\b", "c:x", "x" * 70_000, "a/" * 3000 + "b", "\x1b", "a\0b", ""),
    *("reports/x.csv", "reports/b/report.json", "META-INF", "reports", "reg/mod.json", "reg/MOD.JSON"),
    *("e\u0301", "\u00e9", "__MACOSX/x", ".x.csv", "~$t.csv", "x.csv", "reports/t.csv/x", "meta.json"),
]


def files_changed(chance: Chance, files: Files) -> Files:
    """Change some files of a package, their names, or which there are."""
    made = dict(files)
    for _ in range(chance.choice((1, 1, 1, 2, 4))):
        name = chance.choice(list(made))
        kind = chance.randrange(10)
        if kind == 0:
            del made[name]
        elif kind == 1:
            made[chance.choice(NAMES)] = made[name]
        elif kind == 2:
            made[name] = chance.choice(list(files.values()))
        else:
            made[name] = file_changed(chance, name, made[name])
        if not made:
            break
    return made


def zip_of(chance: Chance, path: Path, files: Files) -> None:
    """Write a package as a ZIP, which may be broken."""
    top = chance.choice(("", "", "", "top/", "META-INF/"))
    with zipfile.ZipFile(path, "w") as archive:
        for name, text in files.items():
            entry = zipfile.ZipInfo("x", (2025, 1, 1, 0, 0, 0))
            entry.filename = top + name
            entry.external_attr = (0o120777 if chance.random() < 0.002 else 0) << 16
            method = chance.choice((zipfile.ZIP_DEFLATED, zipfile.ZIP_DEFLATED, zipfile.ZIP_STORED))
            if chance.random() < 0.02:
                method = chance.choice((zipfile.ZIP_BZIP2, zipfile.ZIP_LZMA))
            try:
                archive.writestr(entry, text, method)
            except (ValueError, UnicodeError, struct.error, RuntimeError, zipfile.LargeZipFile):
                continue
    if chance.random() < 0.2:
        path.write_bytes(zip_changed(chance, path.read_bytes()))


def wrap(chance: Chance, path: Path) -> None:
    """Make a ZIP the only package in another ZIP, or one of several."""
    text = path.read_bytes()
    names = chance.choice((["a.zip"], ["a.zip", "b/c.ZIP"], [".a.zip"], ["a.zip", "x.txt"]))
    zip_of(chance, path, {it: text for it in names})


def zip_changed(chance: Chance, data: bytes) -> bytes:
    """Change a header of a ZIP, or any of its bytes."""
    marks = [b"PK\1\2", b"PK\3\4", b"PK\5\6"]
    mark = chance.choice(marks)
    places = [at for at in range(len(data) - 30) if data[at : at + 4] == mark]
    if not places or chance.random() < 0.3:
        return bytes_changed(chance, data)
    changed = bytearray(data)
    at = chance.choice(places) + chance.randrange(4, 22 if mark == b"PK\5\6" else 30)
    value = chance.choice((0, 1, 0xFF, 0x7F, chance.randrange(256)))
    for offset in range(chance.choice((1, 2, 4))):
        if at + offset < len(changed):
            changed[at + offset] = value
    return bytes(changed)


def folder_of(chance: Chance, path: Path, files: Files) -> None:
    """Write a package as a folder, in which links, pipes or folders may be in a file's place."""
    for name, text in files.items():
        at = path / name.lstrip("/")
        try:
            if ".." in at.parts:
                continue
            at.parent.mkdir(parents=True, exist_ok=True)
            at.write_bytes(text)
        except (OSError, ValueError):
            continue
    places = sorted(it for it in path.rglob("*"))
    for _ in range(chance.choice((0, 0, 0, 0, 0, 0, 1, 2))):
        at = chance.choice(places or [path / "x"])
        if at.is_dir() and not at.is_symlink():
            shutil.rmtree(at)
        elif os.path.lexists(at):
            at.unlink()
        outside = (str(path.parent / SECRET), f"../../{SECRET}", "/etc/passwd", "..", "/")
        target = chance.choice((*outside, ".", str(at), "t.csv", "report.json", "none"))
        try:
            kind = chance.randrange(3)
            if kind == 0:
                at.symlink_to(target)
            elif kind == 1:
                os.mkfifo(at)
            else:
                at.mkdir()
        except OSError:
            continue


# Cases.


class Case(NamedTuple):
    """A run: its words, and what it may write."""

    words: List[str]
    outputs: List[str]


WAYS: List[Tuple[List[str], List[str]]] = [
    (["--prepare", "out"], ["out"]),
    (["--prepare", "out"], ["out"]),
    (["--out", "doc.json"], ["doc.json"]),
    (["--out", "doc.json", "--faults", "faults.csv"], ["doc.json", "faults.csv"]),
    ([], []),
    (["--explain"], []),
    (["--cache", "kept", "--prepare", "out"], ["kept", "out"]),
    (["--parameters"], []),
    (["--page", "page.html", "--faults", "faults.csv"], ["page.html", "faults.csv"]),
    (["--unpacked-limit", "5000", "--prepare", "out"], ["out"]),
    (["--out", "doc.json", "--summary", "summary.json"], ["doc.json", "summary.json"]),
    (["--into", "many"], ["many"]),
]


def make_case(chance: Chance, folder: Path) -> Case:
    """Write the files of a case into a folder."""
    (folder / SECRET).write_text(f"cash,a\n{MARK},{MARK}\n")
    files = chance.choice((in_one, in_parts, in_parts, example))()
    split = chance.random() < 0.5
    changed = files_changed(chance, files) if chance.random() < 0.95 else dict(files)
    if chance.random() < 0.04:
        changed = in_one()
        name = chance.choice(["reg/mod.xsd", "META-INF/catalog.xml", "reg/mod.json"])
        changed[name] = swollen(chance, changed[name], (40 << 20,))
    parts = {"f": changed}
    if split:
        own = {it: text for it, text in changed.items() if it.startswith(("reports", "META-INF/report"))}
        rest = {it: text for it, text in changed.items() if it not in own}
        parts = {"r": own, "t": rest}
    for name, part in parts.items():
        if chance.random() < 0.6:
            zip_of(chance, folder / name, part)
            if chance.random() < 0.1:
                wrap(chance, folder / name)
        else:
            (folder / name).mkdir()
            folder_of(chance, folder / name, part)
    words = ["r", "--taxonomy", "t"] if split else ["f"]
    alone = chance.random() < 0.1 and not split and (folder / "f").is_dir()
    if alone and not any(it.is_fifo() for it in (folder / "f").rglob("*")):  # a pipe is waited for
        words = ["f/reports/report.json", "--taxonomy", "f"]
    if chance.random() < 0.05:
        (folder / "x").write_bytes(chance.choice((b"", b"PK\3\4", b"PK\5\6" + b"\0" * 18, b"{}")))
        words = [*words, "x"] if "--taxonomy" in words else [*words, "--taxonomy", "x"]
    more, outputs = chance.choice(WAYS)
    return Case([*words, *more], outputs)


def seen(folder: Path) -> Dict[str, Tuple[int, bytes]]:
    """Return what is in a folder: for each name its mode, and its text or where it leads."""
    found: Dict[str, Tuple[int, bytes]] = {}
    for at, folders, names in os.walk(folder):
        for name in (*folders, *names):
            path = os.path.join(at, name)
            mode = os.lstat(path).st_mode
            text = b""
            if os.path.islink(path):
                text = os.fsencode(os.readlink(path))
            elif os.path.isfile(path):
                text = Path(path).read_bytes()
            found[os.path.relpath(path, folder)] = (mode, text)
    return found


class Run(NamedTuple):
    """How a run has ended."""

    status: int
    said: str
    seconds: float
    memory: int


def run_case(case: Case, folder: Path, temporary: Path) -> Run:
    """Run a case in a process of its own, which ends at the bounds at the latest."""
    with tempfile.TemporaryFile() as said:
        child = os.fork()
        if child == 0:
            run_child(case, folder, temporary, said.fileno())
        signal.signal(signal.SIGALRM, lambda *_: os.killpg(child, signal.SIGKILL))
        signal.alarm(MOST_WAIT)
        _, status, used = os.wait4(child, 0)
        signal.alarm(0)
        said.seek(0)
        text = said.read().decode(errors="replace")
    seconds = used.ru_utime + used.ru_stime
    return Run(os.waitstatus_to_exitcode(status), text, seconds, used.ru_maxrss << 10)


def run_child(case: Case, folder: Path, temporary: Path, said: int) -> NoReturn:
    """Be the process of a case."""
    status = 99
    try:
        os.setsid()
        nothing = os.open(os.devnull, os.O_RDWR)
        for number, to in enumerate((nothing, nothing, said)):
            os.dup2(to, number)
        sys.stderr = open(2, "w", closefd=False)
        resource.setrlimit(resource.RLIMIT_CPU, (MOST_SECONDS, MOST_SECONDS))
        resource.setrlimit(resource.RLIMIT_AS, (4 << 30, 4 << 30))
        resource.setrlimit(resource.RLIMIT_CORE, (0, 0))
        os.environ["TMPDIR"] = str(temporary)
        os.chdir(folder)
        status = command.main(case.words, PROGRAM)
    except BaseException as error:
        os.write(2, f"Traceback: {type(error).__name__}: {error}\n".encode(errors="replace"))
    finally:
        os._exit(status)


def faults_of(case: Case, run: Run, before: Dict[str, Tuple[int, bytes]], folder: Path, temporary: Path) -> List[str]:
    """Return what a run has done that it must not."""
    faults = []
    own = [it for it in run.said.split("\n") if it.startswith("xbrl-filing: ")]
    is_of_many = "--into" in case.words  # which ends with a line of its own
    if run.status not in ((0, 1, 3, 75) if is_of_many else (0, 1, 3)):
        faults.append(f"status {run.status}")
    if "Traceback" in run.said or "a fault of the program" in run.said:
        faults.append("a fault of the program")
    if run.seconds > MOST_SECONDS - 1:
        faults.append(f"{run.seconds:.0f} seconds")
    if run.memory > MOST_MEMORY:
        faults.append(f"{run.memory >> 20} MB")
    if run.status and not run.said:
        faults.append("no line")
    if "xbrl-json: " not in run.said and (len(own) > 1 + is_of_many or run.said.count("\n") > len(own)):
        faults.append("more than one line")
    after = seen(folder)
    allowed = [it for it in after if it.split("/")[0] in case.outputs]
    if {it: after[it] for it in after if it not in allowed} != before:
        faults.append("what was there is changed, or something is written beside")
    if any(MARK.encode() in after[it][1] for it in allowed) or MARK in run.said:
        faults.append("a file outside of the package is read")
    if run.status and any(it.split("/")[0] == "out" for it in after):
        faults.append("a refused run has prepared something")
    if os.listdir(temporary):
        faults.append(f"left over: {os.listdir(temporary)}")
    return faults


def judge(seed: int, number: int, keep: Optional[Path] = None) -> Tuple[List[str], float]:
    """Make a case, run it, and return what is wrong with its end, and its seconds."""
    chance = Random(f"{seed}/{number}")
    with tempfile.TemporaryDirectory(prefix="fuzz-") as made, tempfile.TemporaryDirectory() as other:
        folder, temporary = Path(made).resolve(), Path(other).resolve()
        case = make_case(chance, folder)
        before = seen(folder)
        if keep is not None:
            shutil.copytree(folder, keep, symlinks=True, ignore=pipes)
            print(f"words: {' '.join(case.words)}")
        run = run_case(case, folder, temporary)
        if keep is not None:
            print(f"status {run.status}, {run.seconds:.2f} s, {run.memory >> 20} MB\n{run.said}", end="")
        return faults_of(case, run, before, folder, temporary), run.seconds


def pipes(folder: str, names: List[str]) -> List[str]:
    """Return the names in a folder that cannot be copied."""
    paths = [(it, os.path.join(folder, it)) for it in names]
    return [it for it, path in paths if not (os.path.isfile(path) or os.path.isdir(path) or os.path.islink(path))]


def work(seed: int, numbers: Iterable[int], end: float, told: int) -> None:
    """Judge cases until the time ends, and write a line on each."""
    for number in numbers:
        if time.monotonic() > end:
            return
        seconds = 0.0
        try:
            faults, seconds = judge(seed, number)
        except Exception as error:
            faults = [f"the fuzzer itself: {type(error).__name__}: {error}"]
        line = f"{number}\t{seconds}\t{'; '.join(faults)}\n"
        os.write(told, line.encode(errors="replace"))


def work_all(seed: int, cases: int, seconds: float, jobs: int) -> Tuple[int, int]:
    """Judge cases in several processes, print each failed one, and return how many were good."""
    reader, writer = os.pipe()
    end = time.monotonic() + seconds
    for first in range(jobs):
        if os.fork() == 0:
            os.close(reader)
            try:
                work(seed, range(first, cases, jobs), end, writer)
            finally:
                os._exit(0)
    os.close(writer)
    good = bad = 0
    slowest: List[Tuple[float, str]] = []
    with open(reader, encoding="utf-8", errors="replace") as lines:
        for line in lines:
            number, used, faults = line.rstrip("\n").split("\t", 2)
            slowest = sorted([*slowest, (float(used), number)])[-SLOWEST:]
            good, bad = good + (not faults), bad + bool(faults)
            if faults:
                again = f"tests/fuzz_filing.py {PROGRAM} --seed {seed} --case {number} --keep FOLDER"
                print(f"FAILED case {number}: {faults}\n  {again}", flush=True)
    for _ in range(jobs):
        os.wait()
    print("slowest:", ", ".join(f"case {it} {used:.1f} s" for used, it in reversed(slowest)))
    if good + bad < cases and seconds == LONGEST_RUN:
        print(f"the time ended after {good + bad} of {cases} cases")
    return good, bad


def main() -> None:
    """Read the command line, and judge one case or as many as the time allows."""
    parser = argparse.ArgumentParser(description=__doc__, formatter_class=argparse.RawTextHelpFormatter)
    parser.add_argument("program")
    parser.add_argument("--cases", type=int)
    parser.add_argument("--seconds", type=float)
    parser.add_argument("--seed", type=int, default=1)
    parser.add_argument("--jobs", type=int, default=min(4, len(os.sched_getaffinity(0))))
    parser.add_argument("--case", type=int)
    parser.add_argument("--keep", type=Path)
    given = parser.parse_args()
    global PROGRAM
    PROGRAM = os.path.abspath(given.program)
    if given.case is not None:
        faults, _ = judge(given.seed, given.case, given.keep)
        print("; ".join(faults) or "as it must be")
        sys.exit(bool(faults))
    cases = given.cases or (CASES if given.seconds is None else sys.maxsize)
    good, bad = work_all(given.seed, cases, given.seconds or LONGEST_RUN, given.jobs)
    print(f"over filings by chance, seed {given.seed}: {good} as they must be, {bad} not")
    sys.exit(1 if bad else 0)


if __name__ == "__main__":
    PROGRAM = ""
    main()
