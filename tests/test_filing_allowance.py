"""Tests what the files of packages may take to read, by the size of the packages as packed."""

from __future__ import annotations

import json
import os
import struct
import sys
import tempfile
import unittest
import zipfile
from functools import partial
from pathlib import Path
from typing import Any, Callable, Dict, List
from unittest import mock

TOP = Path(__file__).resolve().parent.parent
sys.path.insert(0, str(TOP))

from filing import (  # noqa: E402
    allowance,
    dates,
    finding,
    indicators,
    library,
    lost_cells,
    markup,
    nested,
    packages,
    prepared,
    refusals,
    strict_json,
    zip_entries,
)
from filing.allowance import Allowance  # noqa: E402
from filing.catalog import Entries  # noqa: E402
from filing.schemas import Reading, TaxonomyFile  # noqa: E402
from filing.urls import Place  # noqa: E402
from tests.filing_bounds import (  # noqa: E402
    CASH,
    GOOD,
    HOST,
    LINKBASE,
    Files,
    catalog,
    meta,
    pack,
    rewrite,
    schema,
)

WORK, MEMORY = allowance.FREE_WORK, allowance.FREE_MEMORY


class Counted(unittest.TestCase):
    """What a file counts for."""

    def refused(self, act: Callable[[], object], why: str) -> None:
        """Check that a call is refused with a line."""
        with self.assertRaises(refusals.Refusal) as seen:
            act()
        self.assertEqual(seen.exception.line, why)

    def test_work(self) -> None:
        """Work is free up to a bound, and has two units for each packed byte besides."""
        why = "a: has more XML, with that read before it, than packages of 50 bytes may have"
        some = Allowance(50)
        some.add_work(WORK, "a")
        some.add_work(100, "a")
        self.refused(lambda: some.add_work(1, "a"), why)
        Allowance(None).add_work(1 << 40, "a")

    def test_large_packages(self) -> None:
        """A byte after the first megabyte counts for three."""
        large = Allowance((1 << 20) + 50)
        large.add_work(WORK + 2 * (1 << 20) + 300, "a")
        why = "packages of 1048626 bytes may have"
        with self.assertRaises(refusals.Refusal) as seen:
            large.add_work(1, "a")
        self.assertIn(why, seen.exception.line)
        self.assertEqual(large.memory_left("a"), MEMORY + 130 * ((1 << 20) + 150))
        self.assertEqual(Allowance(1 << 20).memory_left("a"), MEMORY + 130 * (1 << 20))

    def test_entries_of_a_catalog(self) -> None:
        """An entry counts as 25 elements besides its own. Another element counts as itself."""
        empty = self.work_of_catalog("")
        entries = rewrite(HOST + "a") * 3 + f'<uri name="{HOST}b" uri="b"/>'
        self.assertEqual(self.work_of_catalog(entries) - empty, 4 * 26 + 8 // 4)
        self.assertEqual(self.work_of_catalog("<group/>" * 4) - empty, 4)

    def work_of_catalog(self, entries: str) -> int:
        """Return the work of a catalog."""
        counted, text = Allowance(0), catalog(entries).encode()
        markup.parse([text], Entries("c"), markup.Elements(), counted)
        return counted.work - len(text) // markup.BYTES_OF_ELEMENT

    def work_of(self, text: str) -> int:
        """Return the work of a schema or linkbase."""
        counted = Allowance(0)
        finder = finding.Finder(packages.Beside("x"), [])
        found = finding.Found(Place("x.xsd", True), packages.Beside("x"), "x.xsd")
        found.package.allowance = counted
        content = TaxonomyFile(found, "", Reading(finder))
        markup.parse([text.encode()], content, markup.Elements(), counted)
        return counted.work - len(text.encode()) // markup.BYTES_OF_ELEMENT

    def test_xml(self) -> None:
        """Elements count one, four attributes one, what is declared six, and 64 bytes one."""
        for start, end in ((schema("")[:-12], "</xs:schema>"), (f"{LINKBASE}>", "</link:linkbase>")):
            own = self.work_of(start + end)
            self.assertEqual(self.work_of(start + "<a/>" * 10 + end) - own, 10)
            more = self.work_of(start + '<a b="" c=""/>' * 10 + end) - own
            self.assertEqual(more, 15)
        head, end = schema("")[:-12], "</xs:schema>"
        declared = self.work_of(head + CASH * 4 + end) - self.work_of(head + end)
        self.assertEqual(declared, 4 + 3 + 4 * 6)

    def test_names_of_namespaces(self) -> None:
        """The name of a namespace has at most 255 characters: expat copies it for each element."""
        head, end = schema("")[:-12], "</xs:schema>"
        self.work_of(f'{head}<l:a xmlns:l="{"u" * 255}"/>{end}')
        why = "x.xsd: has a namespace of 256 characters; more than 255 are not taken (line 1)"
        self.refused(lambda: self.work_of(f'{head}<l:a xmlns:l="{"u" * 256}"/>{end}'), why)

    def test_json(self) -> None:
        """A value counts 100 bytes, a byte of text 3, 5 or 9 by the widest character."""
        for letter, width in (("a", 3), ("\u00e9", 3), ("\u2265", 5), ("\U0001f600", 9)):
            text = f'["{letter}", {{}}]'.encode()
            for size in (1, 5, len(text)):
                counted = Allowance(0)
                pieces = (text[at : at + size] for at in range(0, len(text), size))
                strict_json.read_json(pieces, "a", allowance=counted)
                self.assertEqual(counted.memory, {"a": len(text) * width + 300})

    def test_json_that_is_too_much(self) -> None:
        """The memory of all files of a package has a bound; one that is read again counts once."""
        text = b"[" + b"{}," * 1000 + b"0]"
        memory = len(text) * 3 + 1002 * 100
        why = "b: has more JSON, with that read before it, than packages of 0 bytes may have"
        for most, is_taken in ((2 * memory, True), (2 * memory - 400, False)):
            with mock.patch.object(allowance, "FREE_MEMORY", most):
                counted = Allowance(0)
                for _ in range(3):
                    strict_json.read_json([text], "a", allowance=counted)
                act = partial(strict_json.read_json, [text], "b", allowance=counted)
                if is_taken:
                    act()
                else:
                    self.refused(act, why)

    def test_commas_in_texts(self) -> None:
        """Commas and brackets of texts are not values, in whatever pieces they come."""
        text = b'["' + b"{[,\\\"" * 1000 + b'"]'
        memory = len(text) * 3 + 2 * 100
        with mock.patch.object(allowance, "FREE_MEMORY", memory + 100):
            for size in (1, 7, len(text)):
                pieces = (text[at : at + size] for at in range(0, len(text), size))
                strict_json.read_json(pieces, "a", allowance=Allowance(0))


class OfPackages(unittest.TestCase):
    """Whose allowance a file counts for."""

    def setUp(self) -> None:
        scratch = tempfile.TemporaryDirectory()
        self.addCleanup(scratch.cleanup)
        self.folder = Path(scratch.name)

    def zip(self, name: str, size: int = 0) -> packages.Package:
        """Return a package of some size."""
        path = self.folder / name
        with zipfile.ZipFile(path, "w") as archive:
            archive.writestr("x", os.urandom(size))
        opened = packages.open_package(str(path), 1 << 30)
        assert opened is not None
        self.addCleanup(opened.close)
        return opened

    def test_shared(self) -> None:
        """All packages of the taxonomy share an allowance, and the report has its own."""
        report, one, two = self.zip("r.zip"), self.zip("1.zip", 1000), self.zip("2.zip", 5000)
        finding.Finder(report, [report, one, two])
        self.assertIs(one.allowance, two.allowance)
        self.assertIsNot(report.allowance, one.allowance)
        sizes = [os.path.getsize(self.folder / it) for it in ("1.zip", "2.zip", "r.zip")]
        self.assertEqual(one.allowance.packed, sum(sizes[:2]))
        self.assertEqual(report.allowance.packed, sizes[2])

    def test_folders(self) -> None:
        """What is not packed has no bound here."""
        (self.folder / "f").mkdir()
        opened = packages.open_package(str(self.folder / "f"), 1 << 30)
        assert opened is not None
        finding.Finder(packages.Beside("x"), [opened, self.zip("1.zip")])
        self.assertIsNone(opened.allowance.packed)
        self.assertIsNone(packages.Beside("x").allowance.packed)

    def test_inside(self) -> None:
        """A package in a ZIP has the size that it is packed to there."""
        pack(self.folder / "a.zip", {"META-INF/catalog.xml": catalog(rewrite()), "x": "x" * 9000})
        text = (self.folder / "a.zip").read_bytes()
        with zipfile.ZipFile(self.folder / "all.zip", "w", zipfile.ZIP_DEFLATED) as archive:
            archive.writestr("a.zip", text)
            archive.writestr("b.zip", zip_with(b"y" * 50_000))
            sizes = {it.filename: it.compress_size for it in archive.infolist()}
        found = nested.open_taxonomy(str(self.folder / "all.zip"), 1 << 30)
        for package in found:
            self.addCleanup(package.close)
        self.assertEqual([it.packed for it in found], [sizes["a.zip"], sizes["b.zip"]])
        self.assertLess(sizes["b.zip"], 5000)

    def test_lists_of_entries(self) -> None:
        """The lists of entries of all packages in a ZIP have a bound together."""
        small = {"META-INF/catalog.xml": catalog(rewrite())}
        pack(self.folder / "a.zip", {**small, **{f"x{it}": "" for it in range(99)}})
        text = (self.folder / "a.zip").read_bytes()
        listed = size_of_list(text)
        with zipfile.ZipFile(self.folder / "all.zip", "w") as archive:
            for name in ("a.zip", "b.zip"):
                archive.writestr(name, text)
        size = os.path.getsize(self.folder / "all.zip")
        for more, is_taken in ((0, True), (-1, False)):
            with mock.patch.object(nested, "FREE_LISTS", 2 * listed - size + more):
                if is_taken:
                    for package in nested.open_taxonomy(str(self.folder / "all.zip"), 1 << 30):
                        package.close()
                    continue
                with self.assertRaises(refusals.Refusal) as seen:
                    nested.open_taxonomy(str(self.folder / "all.zip"), 1 << 30)
                why = f"b.zip: has a list of entries of {listed} bytes; more than {listed - 1}"
                self.assertIn(why, seen.exception.line)

    def test_kinds(self) -> None:
        """The bound holds for the schemas that are read out of a ZIP, not out of a folder."""
        files: Dict[str, str] = {name: str(text) for name, text in GOOD.items()}
        pack(self.folder / "t.zip", {**files})
        for name, text in files.items():
            (self.folder / "t" / name).parent.mkdir(parents=True, exist_ok=True)
            (self.folder / "t" / name).write_text(text)
        entries: List[str] = [HOST + "mod.xsd"]
        with mock.patch.object(allowance, "FREE_WORK", 0):
            with mock.patch.object(allowance, "WORK_OF_BYTE", 0):
                library.kinds([str(self.folder / "t")], entries)
                with self.assertRaises(refusals.Refusal) as seen:
                    library.kinds([str(self.folder / "t.zip")], entries)
        self.assertIn("catalog.xml: has more XML", seen.exception.line)

    def test_reports(self) -> None:
        """The bound holds for each JSON file of a package in which reports are looked for."""
        with mock.patch.object(allowance, "FREE_MEMORY", 0):
            with mock.patch.object(allowance, "MEMORY_OF_BYTE", 0):
                for name in ("reports/r.json", "META-INF/reportPackage.json"):
                    pack(self.folder / "r.zip", {"reports/r.json": meta({}), name: "{}"})
                    with self.assertRaises(refusals.Refusal) as seen:
                        library.prepare(str(self.folder / "r.zip"), [], str(self.folder / "o"))
                    self.assertIn(f"{name}: has more JSON", seen.exception.line)


class Edges(unittest.TestCase):
    """Bounds that are met exactly."""

    def test_ratio(self) -> None:
        """A ZIP that unpacks to more than 64 MiB may have 200 times its size, not a byte more."""
        size = zip_entries.SMALL_PACKAGE // zip_entries.RATIO + 1
        zip_entries.check_unpacked(200 * size, size, "a.zip", 1 << 40)
        zip_entries.check_unpacked(64 << 20, 1, "a.zip", 1 << 40)
        for unpacked, packed in ((200 * size + 1, size), ((64 << 20) + 1, 1)):
            with self.assertRaises(refusals.Refusal):
                zip_entries.check_unpacked(unpacked, packed, "a.zip", 1 << 40)

    def test_links_to_nothing(self) -> None:
        """A link that leads outside of a folder is refused, even if nothing is there."""
        with tempfile.TemporaryDirectory() as name:
            folder = Path(name)
            (folder / "f").mkdir()
            for link, target in (("a", "../none"), ("b", "/none"), ("c", "none")):
                (folder / "f" / link).symlink_to(target)
            package = packages.FolderPackage(str(folder / "f"))
            for link in ("a", "b"):
                for act in (package.has, package.path_on_disk, package.children):
                    with self.assertRaises(refusals.Refusal):
                        act(link)
            self.assertFalse(package.has("c"))
            self.assertFalse(package.has("a/b" * 100_000))  # soon

    def test_tables_of_one_file(self) -> None:
        """A file of more than 8 tables is refused if all tables have more than 64 MiB."""
        for size, count, is_taken in ((5000, 9, True), (5001, 9, False), (9000, 8, True)):
            with self.subTest(size=size, count=count), tempfile.TemporaryDirectory() as name:
                tables = {f"t{it}": {"url": "t.csv", "template": "t"} for it in range(count)}
                module = {**json.loads(str(GOOD["reg/mod.json"])), "tables": tables}
                files: Files = {**GOOD, "reg/mod.json": json.dumps(module)}
                files["reports/t.csv"] = "1" * size
                pack(Path(name) / "f.zip", files)
                act = partial(library.prepare, f"{name}/f.zip", [], f"{name}/o")
                with mock.patch.object(prepared, "FREE_READ", 9 * 5000):
                    if is_taken:
                        act()
                        continue
                    with self.assertRaises(refusals.Refusal) as seen:
                        act()
                why = f"reports/t.csv: is the file of {count} tables, which are {size * count} bytes"
                self.assertIn(why, seen.exception.line)

    def test_many_replaced_prefixes(self) -> None:
        """Many prefixes are found in a table by their names. Odd ones always may be there."""
        many = {f"p{it}".encode() for it in range(20)}
        for text, is_there in ((b"a\nq:x,p3:y", True), (b'"p3:y"', True), (b"p20:x,xp3:y,p3", False)):
            self.assertEqual(lost_cells.has_one_of(text, many), is_there)
        self.assertTrue(lost_cells.has_one_of(b"x", {b"a,b", *many}))
        lost = {"b": "a"}
        for cell, found in ((" b:x", "b"), ("c:x b:y", "b"), ("c:x d b:y", None), ("b", None), ("a:1 c:2 b:3", "b")):
            self.assertEqual(lost_cells.lost_in(cell, lost), found)

    def test_indicators(self) -> None:
        """An indicator names a table by its whole name, or by the parts before a dot."""
        tables = indicators.Tables({"a": {"s.01.02"}, "b": {"s.01", "x"}, "c": {"s.01-a", "s.010"}})
        for template, found in (("s.01", ("a", "b")), ("s.01.02", ("a",)), ("s", ("a", "b", "c")), ("x.", ())):
            self.assertEqual(tables.of(template), found)

    def test_groups(self) -> None:
        """The groups of several givers are kept whole, those of one only if they are sought."""
        columns: Dict[str, Any] = {
            "g": {"propertyGroups": {"a": group_of("d"), "b": group_of("n")}},
            "h": {"propertyGroups": {"a": group_of("d"), "b": group_of("n")}},
            "one": {"dimensions": {}, "propertiesFrom": ["g"]},
        }
        report = {"tableTemplates": {"t": {"columns": columns}}}
        kind = {"d": "dateTime"}.get
        found = dates.date_places(report, kind)["t"]
        self.assertEqual(found, ({"one": ("", ["g"])}, {"g": {"a": "d"}}))
        columns["two"] = {"dimensions": {}, "propertiesFrom": ["g", "h", "g"]}
        found = dates.date_places(report, kind)["t"]
        both = {"a": "d", "b": "n"}
        self.assertEqual(found.groups, {"g": both, "h": both})
        self.assertEqual(found.columns["two"].givers, ["g", "h"])
        columns["three"] = group_of("n")
        self.assertNotIn("three", dates.date_places(report, kind)["t"].columns)


def group_of(concept: str) -> Dict[str, Any]:
    """Return a property group or a column with a concept."""
    return {"dimensions": {"concept": concept}}


def zip_with(text: bytes) -> bytes:
    """Return a ZIP in which a text is not packed."""
    with tempfile.TemporaryFile() as file:
        with zipfile.ZipFile(file, "w") as archive:
            archive.writestr("y", text)
        file.seek(0)
        return file.read()


def size_of_list(text: bytes) -> int:
    """Return the size of a ZIP's list of entries, from its last record."""
    size: int = struct.unpack("<L", text[-10:-6])[0]
    return size


if __name__ == "__main__":
    unittest.main()
