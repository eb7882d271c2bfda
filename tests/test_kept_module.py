"""Tests what `--cache` keeps of a module: a filing is the same with it, and without.

Made-up filings are prepared without a cache, with an empty one, and with what that one then has:
the files, the lines and the statuses must be the same.
"""

from __future__ import annotations

import contextlib
import io
import json
import os
import subprocess
import threading
import time
from pathlib import Path
from typing import Any, Dict, List, Tuple, Union
from unittest import mock

from filing import cache_room, command, joining
from tests.filing_samples import CSV, EG, EXPLICIT, HOST, catalog, item, pack, rewrite, schema
from tests.harness import PROGRAM, TOP, TestCase, bytes_of

Files = Dict[str, Union[str, Dict[str, Any]]]

ELEMENTS = (
    item("Cash", "xbrli:monetaryItemType")
    + item("Note")
    + EXPLICIT
    + '<xs:element name="Pair" substitutionGroup="xbrli:tuple"/>'
)
SCHEMA = schema(ELEMENTS)
CATALOG = catalog(rewrite())


def meta(info: Dict[str, Any], **parts: Any) -> Dict[str, Any]:
    """Return a metadata file."""
    return {"documentInfo": {"documentType": CSV, **info}, **parts}


def template(**more: Any) -> Dict[str, Any]:
    """Return a template with a column of property groups, as modules have them."""
    groups = {
        f"dp{it}": {"dimensions": {"concept": "eg:Cash", "unit": "$unit"}, "decimals": "$exact"}
        for it in range(3)
    }
    columns = {
        "point": {"propertyGroups": groups},
        "value": {"dimensions": {}, "propertiesFrom": ["point"]},
        "note": {"dimensions": {"concept": "eg:Note", "period": "$day@end"}, "ignored": 1},
    }
    return {"columns": columns, "ignored": True, **more}


BAD = {"columns": {"x": {"dimensions": {"concept": "eg:Pair"}}}}
LOST = {"columns": {"x": {"dimensions": {"concept": "eg:Cash", "eg:Nowhere": "eg:A"}}}}
MODULE = meta(
    {"namespaces": {"eg": EG, "iso4217": "http://www.xbrl.org/2003/iso4217"}, "taxonomy": ["m.xsd"]},
    dimensions={"entity": "$who", "period": "$day"},
    tableTemplates={"a": template(), "b": template(), "bad": BAD, "lost": LOST, "unused": BAD},
    tables={
        "a": {"url": "a.csv"},
        "b2": {"url": "b.csv", "template": "b", "optional": True, "parameters": {"unit": "eg:U"}},
        "bad": {"url": "bad.csv", "optional": True},
        "lost": {"url": "lost.csv", "optional": True},
    },
    parameters={"exact": "2"},
)
TABLE = "point,value,note\ndp1,1,x\n"
PARAMETERS = "name,value\nwho,eg:A1\nday,2025\nunit,iso4217:EUR\n"
REPORT: Files = {
    "reports/report.json": meta({"extends": [HOST + "m.json"]}, parameterURL="parameters.csv"),
    "reports/parameters.csv": PARAMETERS,
    "reports/a.csv": TABLE,
}
TAXONOMY: Files = {"META-INF/catalog.xml": CATALOG, "reg/m.json": MODULE, "reg/m.xsd": SCHEMA}


def packed(path: Path, files: Files) -> None:
    """Write a ZIP with these files; a value is written as JSON."""
    pack(path, {name: bytes_of(content) for name, content in files.items()})


class Case(TestCase):
    """A scratch folder for filings, with the path of a cache."""

    cache: Path

    def setUp(self) -> None:
        super().setUp()
        self.cache = self.folder / "cache"

    def prepared(self, name: str, *more: str) -> Tuple[int, str, Dict[str, bytes], int]:
        """Prepare the filing `r.zip`: status, lines, files, and how often it was joined anew."""
        target = self.folder / name
        err = io.StringIO()
        words = ["r.zip", "--taxonomy", "t.zip", "--prepare", str(target), *more]
        where = os.getcwd()
        os.chdir(self.folder)
        try:
            with contextlib.redirect_stderr(err), mock.patch.object(
                joining, "join_anew", wraps=joining.join_anew
            ) as anew:
                status = command.main(words, "/nowhere")
        finally:
            os.chdir(where)
        files = {it.name: it.read_bytes() for it in target.glob("*")} if target.is_dir() else {}
        return status, err.getvalue(), files, anew.call_count

    def same(
        self, report: Files, taxonomy: Files = TAXONOMY, kept: bool = True, status: int = 0
    ) -> Dict[str, bytes]:
        """Check that a filing is the same each time, and whether the last run needed no module."""
        packed(self.folder / "r.zip", report)
        packed(self.folder / "t.zip", taxonomy)
        runs = [self.prepared(f"p{os.urandom(4).hex()}")]
        runs += [
            self.prepared(f"p{os.urandom(4).hex()}", "--cache", str(self.cache)) for _ in range(2)
        ]
        self.assertEqual(runs[0][0], status, runs[0][1])
        self.assertEqual(runs[0][:3], runs[1][:3], "with an empty cache")
        self.assertEqual(runs[0][:3], runs[2][:3], "with a cache")
        self.assertEqual(runs[2][3], 0 if kept else 1, "joined anew with a cache")
        return runs[0][2]


def changed(files: Files, **more: Any) -> Files:
    """Return the report with other members of its metadata."""
    value = json.loads(json.dumps(files["reports/report.json"]))
    for name, it in more.items():
        owner = value["documentInfo"] if name.startswith("info_") else value
        owner[name[5:] if name.startswith("info_") else name] = it
    return {**files, "reports/report.json": value}


class TestTheSame(Case):
    """Filings of one module, with what is kept of it."""

    def test_a_plain_report(self) -> None:
        files = self.same(REPORT)
        self.assertEqual(list(json.loads(files["meta.json"])["tableTemplates"])[:1], ["a"])

    def test_another_report_of_the_module(self) -> None:
        self.same(REPORT)
        other: Files = {**REPORT, "reports/b.csv": TABLE.replace("1,1", "2,5")}
        packed(self.folder / "r.zip", other)
        status, _, files, anew = self.prepared("other", "--cache", str(self.cache))
        self.assertEqual((status, anew), (0, 0))
        self.assertIn("b2", json.loads(files["meta.json"])["tables"])
        self.assertEqual(self.prepared("without")[2], files)

    def test_parameters_in_the_metadata(self) -> None:
        given = {"who": "eg:A1", "day": "2025", "exact": "2"}
        self.same(changed(REPORT, parameters=given))

    def test_another_value_than_the_module_has(self) -> None:
        self.same(REPORT)
        self.same(changed(REPORT, parameters={"exact": "3"}), kept=False, status=1)

    def test_extensions_are_passed_over(self) -> None:
        report = changed(REPORT, info_features={"x": 1}, **{"eg:software": {"name": "x"}})
        self.same(report)

    def test_a_table_whose_template_names_a_tuple(self) -> None:
        self.same({**REPORT, "reports/bad.csv": "x\n1\n"}, kept=False, status=1)

    def test_a_table_whose_template_names_no_dimension(self) -> None:
        self.same({**REPORT, "reports/lost.csv": "x\n1\n"}, kept=False, status=1)

    def test_a_report_that_adds_to_the_module(self) -> None:
        additions: List[Dict[str, Any]] = [
            {"dimensions": {"eg:Region": "eg:A"}},
            {"decimals": 3},
            {"tables": {"c": {"url": "a.csv", "template": "a"}}},
            {"info_namespaces": {"x": "http://x.example/"}},
            {"info_baseURL": "http://reg.example/"},
            {"info_final": {"parameters": True}},
        ]
        for more in additions:
            with self.subTest(more=more):
                self.same(changed(REPORT, **more), kept=False)

    def test_links_are_refused(self) -> None:
        self.same(changed(REPORT, links={"a": {}}), status=1)  # before any module is looked at

    def test_a_report_with_a_catalog(self) -> None:
        self.same({**REPORT, "META-INF/catalog.xml": CATALOG}, TAXONOMY, kept=False)

    def test_parameters_that_are_final(self) -> None:
        final = json.loads(json.dumps(MODULE))
        final["documentInfo"]["final"] = {"parameters": True}
        taxonomy = {**TAXONOMY, "reg/m.json": final}
        self.same(REPORT, taxonomy)
        self.same(changed(REPORT, parameters={"exact": "2"}), taxonomy, kept=False)
        self.same(changed(REPORT, parameters={"new": "2"}), taxonomy, kept=False, status=1)

    def test_prefixes_that_are_lost(self) -> None:
        below = meta({"namespaces": {"other": EG}}, dimensions={"other:Region": "other:A"})
        module = json.loads(json.dumps(MODULE))
        module["documentInfo"]["extends"] = ["below.json"]
        taxonomy = {**TAXONOMY, "reg/m.json": module, "reg/below.json": below}
        files = self.same(REPORT, taxonomy)
        self.assertEqual(json.loads(files["meta.json"])["dimensions"]["eg:Region"], "eg:A")
        lost: Files = dict(REPORT)
        lost["reports/parameters.csv"] = PARAMETERS.replace("eg:A1", "other:A1")
        self.same(lost, taxonomy, kept=False, status=1)

    def test_faults_of_the_filing(self) -> None:
        self.same(REPORT)
        wrong: List[Files] = [
            {**REPORT, "reports/misspelt.csv": TABLE},
            {**REPORT, "reports/parameters.csv": "name,value\nwho,eg:A1\nunit,eg:U\n"},
            {**REPORT, "reports/parameters.csv": PARAMETERS.replace("unit", "Unit")},
        ]
        for report in wrong:
            with self.subTest(report=report):
                self.same(report, kept=False, status=1)
        none = {name: it for name, it in REPORT.items() if "parameters" not in name}
        self.same(none, kept=False, status=1)

    def test_a_missing_table_is_left_to_the_converter(self) -> None:
        self.same({name: it for name, it in REPORT.items() if not name.endswith("a.csv")})

    def test_letters_of_all_scripts(self) -> None:
        module = json.loads(json.dumps(MODULE).replace('"b"', '"\u00e9\\u2028\\ud83d\\ude00"'))
        self.same({**REPORT, "reports/b.csv": TABLE}, {**TAXONOMY, "reg/m.json": module})

    def test_a_changed_taxonomy(self) -> None:
        self.same(REPORT)
        module = json.loads(json.dumps(MODULE))
        module["parameters"]["exact"] = "4"
        files = self.same(REPORT, {**TAXONOMY, "reg/m.json": module})
        self.assertEqual(json.loads(files["meta.json"])["parameters"], {"exact": "4"})


class TestTheEntry(Case):
    """The files of a cache."""

    def entry(self) -> Path:
        self.same(REPORT)
        return next(self.cache.glob("*.module"))

    def test_an_entry_that_is_not_whole_is_passed_over(self) -> None:
        entry = self.entry()
        whole = entry.read_bytes()
        used = whole.index(b'"dp1"', whole.index(b"\n"))
        for bad in (b"", whole[:100], whole[:-1], whole.replace(b"eg:Cash", b"eg:Cush"),
                    whole[:used] + b"X" + whole[used + 1 :], b"x" + whole):
            entry.write_bytes(bad)
            status, err, files, _ = self.prepared(os.urandom(4).hex(), "--cache", str(self.cache))
            self.assertEqual((status, err), (0, ""))
            self.assertEqual(files, self.prepared(os.urandom(4).hex())[2])

    def test_the_bound_is_kept_and_the_oldest_go_first(self) -> None:
        self.cache.mkdir()
        names = [f"{it:064x}.module" for it in range(4)]
        for age, name in enumerate(names):
            (self.cache / name).write_bytes(b"x" * 100)
            os.utime(self.cache / name, (1000 - age, 1000 - age))
        (self.cache / "mine.txt").write_bytes(b"x" * 1000)
        with mock.patch.object(cache_room, "LIMIT", 350):
            cache_room.store(str(self.cache / f"{9:064x}.kinds"), [b"y" * 120])
        left = sorted(it.name for it in self.cache.iterdir())
        self.assertEqual(left, sorted([*names[:2], f"{9:064x}.kinds", "mine.txt"]))

    def test_an_entry_that_is_used_stays(self) -> None:
        entry = self.entry()
        os.utime(entry, (1000, 1000))
        self.prepared("again", "--cache", str(self.cache))
        self.assertGreater(entry.stat().st_mtime, time.time() - 600)

    def test_what_never_became_an_entry_is_removed(self) -> None:
        self.cache.mkdir()
        old = self.cache / f"{1:064x}.module.{2:016x}"
        old.write_bytes(b"x")
        os.utime(old, (1000, 1000))
        fresh = self.cache / f"{3:064x}.module.{2:016x}"
        fresh.write_bytes(b"x")
        cache_room.store(str(self.cache / f"{9:064x}.kinds"), [b"y"])
        self.assertEqual((old.exists(), fresh.exists()), (False, True))

    def test_only_one_run_makes_an_entry(self) -> None:
        self.cache.mkdir()
        entry = str(self.cache / "entry")
        order: List[str] = []

        def other() -> None:
            with cache_room.claimed(str(self.cache), entry):
                order.append("other")

        with cache_room.claimed(str(self.cache), entry):
            thread = threading.Thread(target=other)
            thread.start()
            time.sleep(0.3)
            order.append("first")
        thread.join()
        self.assertEqual(order, ["first", "other"])

    def test_a_run_that_hangs_is_waited_for_a_while_only(self) -> None:
        self.cache.mkdir()
        entry = str(self.cache / "entry")
        with cache_room.claimed(str(self.cache), entry):
            with mock.patch.object(cache_room, "LONGEST_WAIT", 0.2):
                begun = time.monotonic()
                with cache_room.claimed(str(self.cache), entry):
                    self.assertGreater(time.monotonic(), begun + 0.2)

    def test_nobody_waits_for_an_entry_that_exists(self) -> None:
        self.cache.mkdir()
        entry = self.cache / "entry"
        with cache_room.claimed(str(self.cache), str(entry)):
            with mock.patch.object(cache_room, "LONGEST_WAIT", 20.0):
                made = threading.Timer(0.2, entry.touch)
                made.start()
                begun = time.monotonic()
                for _ in range(2):
                    with cache_room.claimed(str(self.cache), str(entry)):
                        self.assertTrue(entry.exists())
                self.assertLess(time.monotonic(), begun + 20)
                made.join()

    def test_a_cache_that_cannot_be_written_is_refused(self) -> None:
        self.cache.write_text("a file")
        packed(self.folder / "r.zip", REPORT)
        packed(self.folder / "t.zip", TAXONOMY)
        status, err, _, _ = self.prepared("p", "--cache", str(self.cache))
        self.assertEqual((status, "cannot write" in err), (3, True), err)

    def test_places_of_faults_are_those_of_the_filing(self) -> None:
        module = json.loads(json.dumps(MODULE))
        module["tableTemplates"]["a"]["columns"]["note"]["dimensions"]["concept"] = "zz:Note"
        packed(self.folder / "r.zip", REPORT)
        packed(self.folder / "t.zip", {**TAXONOMY, "reg/m.json": module})
        said: List[Tuple[int, str]] = []
        for _ in range(3):
            words = ["r.zip", "--taxonomy", "t.zip", "--out", "o", "--explain"]
            words += ["--cache", "cache"] if said else []
            done = subprocess.run(
                [str(TOP / "xbrl-filing"), *words],
                cwd=self.folder,
                env={**os.environ, "XBRL_JSON": PROGRAM},
                capture_output=True,
                text=True,
                check=False,
            )
            said.append((done.returncode, done.stderr))
        self.assertIn("t.zip/reg/m.json: /", said[0][1])
        self.assertEqual(said[0], said[1])
        self.assertEqual(said[0], said[2])
