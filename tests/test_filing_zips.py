"""Tests ZIPs that are hostile, damaged or packed in another way."""
from __future__ import annotations

import os
import shutil
import struct
import zipfile
from collections.abc import Callable, Iterable, Iterator, Sequence
from pathlib import Path
from typing import Any

from filing import refusals, zip_entries
from tests.filing_samples import (
    ELEMENTS,
    INFO,
    REPORT,
    TAXONOMY,
    TEMPLATE,
    TYPES,
    Text,
    meta,
    pack,
    schema,
)
from tests.filings import Case, FilingTest, Made, cases, listing, run, start
from tests.harness import for_each


def entry(name: str, mode: int = 0) -> zipfile.ZipInfo:
    """An entry of a ZIP under any name."""
    made = zipfile.ZipInfo("x", (2025, 1, 1, 0, 0, 0))
    made.filename = name
    made.external_attr = mode << 16
    made.compress_type = zipfile.ZIP_DEFLATED
    return made


def patched(path: Path, changes: Iterable[tuple[bytes, bytes]]) -> None:
    """Replaces bytes of a file by others of the same length, wherever they occur."""
    data = path.read_bytes()
    for old, new in changes:
        assert old in data and len(old) == len(new), old
        data = data.replace(old, new)
    path.write_bytes(data)


def with_header(
    path: Path, name: str, offset_local: int, offset_central: int, form: str, value: int
) -> None:
    """Changes one field of an entry's two headers."""
    data = bytearray(path.read_bytes())
    for mark, at_name, offset in ((b"PK\3\4", 30, offset_local), (b"PK\1\2", 46, offset_central)):
        start = data.find(mark)
        while data[start + at_name : start + at_name + len(name)] != name.encode():
            start = data.index(mark, start + 1)
        struct.pack_into(form, data, start + offset, value)
    path.write_bytes(bytes(data))


def with_end(path: Path, offset: int, more: int) -> None:
    """Adds to one field of the record that ends a ZIP."""
    data = bytearray(path.read_bytes())
    at = data.rindex(b"PK\5\6") + offset
    struct.pack_into("<I", data, at, struct.unpack_from("<I", data, at)[0] + more)
    path.write_bytes(bytes(data))


GOOD = list({**TAXONOMY, **REPORT}.items())


def refused_zip(
    name: str,
    line: str,
    entries: list[tuple[zipfile.ZipInfo, Text]],
    change: Callable[[Path], None] | None = None,
    words: Sequence[str] = (),
) -> Case:
    """Returns the case of a ZIP with these entries, which is refused by this line.

    It is given as a report and as a taxonomy; `change` changes the ZIP. Nothing is written.
    """

    def seen(test: FilingTest) -> Made:
        for role in ("report", "taxonomy"):
            work = test.folder / role
            shutil.rmtree(work, ignore_errors=True)
            work.mkdir()
            pack(work / "good.zip", GOOD)
            pack(work / "bad.zip", [*GOOD, *entries])
            if change:
                change(work / "bad.zip")
            (work / "doc.json").write_text("as it was")
            both = ["bad.zip", "--taxonomy", "good.zip"]
            given = both if role == "report" else both[::-1]
            before = listing(work)
            found = run([*given, *words, "--out", "doc.json"], work)
            test.case(f"{name}, as {role}", found, (1, f"xbrl-filing: bad.zip: {line}\n"))
            test.case(f"{name}, as {role}: nothing is written", listing(work), before)
            status = run([*given, *words, "--prepare", "o"], work)[0]
            left = status, sorted(os.listdir(work))
            test.case(f"{name}, as {role}, to prepare", left, (1, sorted(before)))
        return {}

    return Case(name, seen)


HOSTILE_NAMES = {
    "/etc/x": "has an absolute name",
    "C:/x": "has a name with a drive letter",
    "c:x": "has a name with a drive letter",
    "a\\b": "has a name with a backslash",
    "../x": "leads outside of the package",
    "a/../../x": "leads outside of the package",
    "a/..": "leads outside of the package",
    "a//b": "has an empty or '.' segment in its name",
    "a/./b": "has an empty or '.' segment in its name",
    "./a": "has an empty or '.' segment in its name",
    "a//": "has an empty or '.' segment in its name",
    "": "has an empty or '.' segment in its name",
    "reg/mod.json": "stands twice",
    "reg/mod.json/": "stands twice",
}


def hostile_zips() -> Iterator[Case]:
    """ZIPs that are refused by the name of an entry, used or not."""
    for name, what in HOSTILE_NAMES.items():
        yield refused_zip(f"an entry '{name}'", f"the entry '{name}' {what}", [(entry(name), "x")])
    line = r"the entry '../\n\x1b[2J\x9b' leads outside of the package"
    yield refused_zip("an entry with control bytes", line, [(entry("../\n\x1b[2J\x9b"), "x")])
    line = "the entry 'a/b' stands twice, as a file and as a folder"
    yield refused_zip(
        "a file that is the folder of one far below",
        line,
        [(entry(it), "x") for it in ("a/b!", "a/b/c/d/e", "a/b", "a/b-", "a.b")],
    )
    line = "the entry 'a' stands twice, as a file and as a folder"
    yield refused_zip(
        "a file that is a folder too", line, [(entry("a"), "x"), (entry("a/b/c"), "x")]
    )
    yield refused_zip("a link", "the entry 'a' is a link", [(entry("a", 0o120777), "/etc/passwd")])
    yield refused_zip(
        "a folder that is a link", "the entry 'a/' is a link", [(entry("a/", 0o120777), "/etc")]
    )
    line = r"the entry 'reg/mod.json\x00X' has a name that is cut short by a zero byte"
    cut_short = lambda it: patched(it, [(b"mod.jsonQX", b"mod.json\0X")])
    yield refused_zip("a name that is cut short", line, [(entry("reg/mod.jsonQX"), "x")], cut_short)
    for bit in (0x1, 0x40, 0x2000):
        encrypted = lambda it, bit=bit: with_header(it, "a", 6, 8, "<H", bit)
        yield refused_zip(
            f"an encrypted entry, bit {bit}",
            "the entry 'a' is encrypted",
            [(entry("a"), "x")],
            encrypted,
        )


@for_each(cases(hostile_zips()))
class TestHostileZips(FilingTest):
    """The cases of `hostile_zips`."""


def packed(path: Path, name: str, length: int) -> bytes:
    """Finds the first bytes of a packed entry that occur only once in the file."""
    data = path.read_bytes()
    at = data.find(name.encode()) + len(name)
    return data[at : at + length]


class TestRuns(FilingTest):
    """Tests that take several runs of one folder."""

    def test_a_second_name(self) -> None:
        """An entry is refused by the name that it has in the end."""
        two_names = entry("../x")
        two_names.orig_filename = "a"
        try:
            seen: object = zip_entries.checked_entries(
                type("Archive", (), {"infolist": lambda _: [two_names]})(), 100, "z", 1000
            )
        except refusals.Refusal as refusal:
            seen = refusal.line
        self.case(
            "an entry with a second name", seen, "z: the entry '../x' leads outside of the package"
        )

    def test_bombs(self) -> None:
        """ZIPs that unpack to too much, as one entry or as all together."""
        folder = self.folder
        size, many = (16 << 20) + 1, 140 << 17
        pack(folder / "small.zip", [(entry("a"), b"\0" * size)])
        with zipfile.ZipFile(folder / "small.zip") as archive:
            small = archive.getinfo("a").compress_size
        self.see(
            refused_zip(
                "a bomb",
                f"the entry 'a' unpacks to {size} bytes from {small}",
                [(entry("a"), b"\0" * size)],
            )
        )
        total = sum(len(text) for _, text in GOOD) + 5001
        line = f"unpacks to {total} bytes, more than {total - 1} (--unpacked-limit allows more)"
        entries: list[Any] = [(entry("a"), "x" * 4000), (entry("b"), "x" * 1001)]
        self.see(
            refused_zip(
                "more than the limit", line, entries, words=["--unpacked-limit", str(total - 1)]
            )
        )
        pack(folder / "good.zip", GOOD)
        pack(
            folder / "mild.zip",
            GOOD
            + [(entry("a"), b"\0" * (16 << 20)), (entry("b"), os.urandom(1 << 17) * (many >> 17))],
        )
        for limit, status in ((1 << 30, 0), ((16 << 20) + many, 1), ((16 << 20) + many + total, 0)):
            seen = run(
                [
                    "good.zip",
                    "--taxonomy",
                    "mild.zip",
                    "--unpacked-limit",
                    limit,
                    "--prepare",
                    f"o{limit}",
                ],
                folder,
            )
            self.case(f"what is large and no bomb, limit {limit}", seen[0], status)

    def test_damaged_zips(self) -> None:
        """ZIPs that are cut, changed or packed in an unknown way: one line, and nothing is made."""
        folder = self.folder
        name, damaged = "reg/mod.json", "is damaged, or packed in a way that Python does not know ("
        damages: tuple[tuple[str, str, Callable[[Path], object]], ...] = (
            (
                "cut short",
                "bad.zip: " + damaged + "File is not a zip file)\n",
                lambda it: it.write_bytes(it.read_bytes()[:-30]),
            ),
            (
                "an entry before its begin",
                "bad.zip/META-INF/catalog.xml: is damaged",
                lambda it: with_end(it, 16, 1000),
            ),
            ("a method that is not known", "", lambda it: with_header(it, name, 8, 10, "<H", 99)),
            ("a wrong check sum", "", lambda it: with_header(it, name, 14, 16, "<I", 12345)),
            ("too little declared", "", lambda it: with_header(it, name, 22, 24, "<I", 20)),
            ("too much declared", "", lambda it: with_header(it, name, 22, 24, "<I", 20_000)),
            (
                "a damaged stream",
                "",
                lambda it: patched(it, [(packed(it, name, 40), b"\xff" * 40)]),
            ),
            (
                "another name in the file",
                "",
                lambda it: patched(
                    it,
                    [(name.encode() + packed(it, name, 4), b"reg/mud.json" + packed(it, name, 4))],
                ),
            ),
        )
        for what, front, change in damages:
            work = folder / what
            work.mkdir()
            pack(work / "r.zip", REPORT)
            pack(work / "bad.zip", TAXONOMY)
            change(work / "bad.zip")
            before = listing(work)
            status, err = run(["r.zip", "--taxonomy", "bad.zip", "--prepare", "o"], work)
            starts = err.startswith("xbrl-filing: " + (front or f"bad.zip/{name}: {damaged}"))
            self.case(
                f"a ZIP with {what}",
                (status, err.count("\n"), starts, listing(work) == before),
                (1, 1, True, True),
            )

    def test_zips_of_other_methods(self) -> None:
        """ZIPs of nothing, with another mark, and packed by other methods."""
        folder = self.folder
        pack(folder / "empty.zip", {})
        line = "xbrl-filing: empty.zip: has no xBRL-CSV report in 'reports' or a folder of it\n"
        self.case("a ZIP of nothing", run(["empty.zip", "--prepare", "never"], folder), (1, line))
        pack(folder / "whole.zip", {**REPORT, **TAXONOMY})
        (folder / "marked.zip").write_bytes(b"PK\7\10" + (folder / "whole.zip").read_bytes())
        self.case(
            "a ZIP that begins with the mark of one in parts",
            run(["marked.zip", "--prepare", "marked"], folder),
            (0, ""),
        )
        for method in (zipfile.ZIP_BZIP2, zipfile.ZIP_LZMA):
            pack(folder / f"{method}.zip", {**REPORT, **TAXONOMY}, method=method)
            seen = run([f"{method}.zip", "--prepare", f"o{method}"], folder)
            self.case(
                f"packed by method {method}",
                (seen, listing(folder / f"o{method}")["types.csv"].decode()),
                ((0, ""), TYPES),
            )
            data = bytearray((folder / f"{method}.zip").read_bytes())
            at = data.find(b"reports/report.json") + 19
            data[at : at + 12] = b"\xff" * 12
            (folder / f"{method}.zip").write_bytes(data)
            status, err = run([f"{method}.zip", "--prepare", "never"], folder)
            starts = err.startswith(f"xbrl-filing: {method}.zip/reports/report.json: is damaged")
            self.case(
                f"damaged, by method {method}", (status, err.count("\n"), starts), (1, 1, True)
            )

    def test_damaged_tables(self) -> None:
        """Checks that no table is converted if one of them is damaged, the first or the last."""
        folder = self.folder
        temporary = folder / "tmp"
        temporary.mkdir()
        for table in ("a.csv", "z.csv"):
            tables = {it: {"url": it + ".csv", "template": "t"} for it in "az"}
            report = {
                "reports/report.json": meta(INFO, tableTemplates={"t": TEMPLATE}, tables=tables),
                "reports/mod.xsd": schema(ELEMENTS),
            }
            pack(
                folder / "r.zip",
                {**report, "reports/a.csv": "cash\n1\n", "reports/z.csv": "cash\n2\n"},
            )
            with_header(folder / "r.zip", "reports/" + table, 14, 16, "<I", 12345)
            seen = start(["r.zip", "--out", "doc.json"], folder, env={"TMPDIR": str(temporary)})
            line = (
                f"xbrl-filing: r.zip/reports/{table}: is damaged, or packed in a way that Python"
                f" does not know (Bad CRC-32 for file 'reports/{table}')\n"
            )
            self.case(
                f"a wrong check sum of {table}",
                (seen, (folder / "doc.json").exists(), os.listdir(temporary)),
                ((1, b"", line), False, []),
            )
