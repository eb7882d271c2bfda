"""Tests cells that name a prefix which the report's own prefix displaces."""

from __future__ import annotations

import json
import os
import subprocess
import tempfile
import unittest
from pathlib import Path
from typing import Dict, Optional, Tuple

from tests.filing_bounds import CASH, EG, GOOD, HOST, Files, meta, pack, schema

TOP = Path(__file__).resolve().parent.parent
FILING = str(TOP / "xbrl-filing")
PROGRAM = os.path.abspath(os.environ.get("XBRL_JSON") or TOP / "dist/xbrl-json")
MEMBERS = HOST + "mem"
DTR = "http://www.xbrl.org/dtr/type/2022-03-31"
REPORT = "f.zip/reports/report.json"


def concept(name: str, of_type: str) -> str:
    """Return the declaration of a concept."""
    return f'<xs:element name="{name}" type="{of_type}" substitutionGroup="xbrli:item"/>'


def dimension(name: str, more: str = "") -> str:
    """Return the declaration of a dimension."""
    head = 'xmlns:d="http://xbrl.org/2005/xbrldt" substitutionGroup="d:dimensionItem"'
    return f'<xs:element name="{name}" {head} abstract="true" {more}/>'


CONCEPTS = (
    CASH
    + concept("Text", "xbrli:stringItemType")
    + concept("Name", "r:SQNameItemType").replace("<xs:element", f'<xs:element xmlns:r="{DTR}"')
    + dimension("Typed", 'd:typedDomainRef="#x"')
    + dimension("Region")
)
NAMESPACES = {
    "eg": EG,
    "mem": MEMBERS,
    "iso4217": "http://www.xbrl.org/2003/iso4217",
    "lei": "http://standards.iso.org/iso/17442",
}


def filing(dimensions: Dict[str, str], rows: str, own: Dict[str, str]) -> Files:
    """Return a filing whose module says `mem`, and whose report has its own prefixes."""
    fact = {"period": "2024-01-01", "entity": "lei:a", **dimensions}
    columns = {"v": {"dimensions": fact}, "x": {}}
    module = meta(
        {"namespaces": NAMESPACES, "taxonomy": ["mod.xsd"]},
        tableTemplates={"t": {"columns": columns}},
        tables={"t": {"url": "t.csv"}},
    )
    return {
        **GOOD,
        "reg/mod.json": module,
        "reg/mod.xsd": schema(CONCEPTS),
        "reports/report.json": meta({"extends": [HOST + "mod.json"], "namespaces": own}),
        "reports/t.csv": f"v,x\n{rows}",
    }


TYPED = {"concept": "eg:Text", "eg:Typed": "$x"}
CASH_IS = {"concept": "eg:Cash", "unit": "iso4217:EUR", "eg:Region": "$x"}
NAME = {"concept": "eg:Name"}
OWN = {"mem2": MEMBERS}


class Prefixes(unittest.TestCase):
    """Conversions of filings in a scratch folder."""

    def setUp(self) -> None:
        scratch = tempfile.TemporaryDirectory()
        self.addCleanup(scratch.cleanup)
        self.folder = Path(scratch.name)

    def run_over(self, files: Files, *words: str) -> Tuple[int, str, str]:
        """Convert a filing, and return status, output and standard error."""
        pack(self.folder / "f.zip", files)
        done = subprocess.run(
            [FILING, "f.zip", *words],
            cwd=self.folder,
            env={**os.environ, "XBRL_JSON": PROGRAM},
            stdin=subprocess.DEVNULL,
            capture_output=True,
            text=True,
        )
        return done.returncode, done.stdout, done.stderr

    def refused(
        self, dimensions: Dict[str, str], rows: str, place: str, more: Optional[Files] = None
    ) -> None:
        """Check that a cell is refused by a line that names both prefixes."""
        why = "has the prefix 'mem', whose namespace has the prefix 'mem2' here"
        what = f"write 'mem2', or declare 'mem' instead of it in {REPORT}"
        line = f"xbrl-filing: f.zip/reports/t.csv, {place} {why}: {what}\n"
        files = {**filing(dimensions, rows, OWN), **(more or {})}
        for words in ((), ("--cache", "kept"), ("--cache", "kept"), ("--explain",)):
            with self.subTest(rows=rows, words=words):
                self.assertEqual(self.run_over(files, *words), (1, "", line))

    def values(self, dimensions: Dict[str, str], rows: str, own: Dict[str, str]) -> Dict[str, str]:
        """Return the values of the facts of a document, whose namespaces are checked."""
        status, out, err = self.run_over(filing(dimensions, rows, own))
        self.assertEqual((status, err), (0, ""))
        document = json.loads(out)
        prefixes = {*NAMESPACES, *own} - ({"mem"} if own == OWN else set())
        self.assertEqual(set(document["documentInfo"]["namespaces"]), prefixes)
        return {name: fact["value"] for name, fact in document["facts"].items()}

    def test_texts_that_are_copied(self) -> None:
        """A typed dimension, and a fact that is a name, cannot have a prefix that is gone."""
        self.refused(TYPED, "a,eg:x\na,mem:x1\n", "line 3, cell 2: 'mem:x1'")
        self.refused(TYPED, 'a,"eg:a mem:x1"\n', "line 2, cell 2: 'eg:a mem:x1'")
        self.refused(TYPED, "a,  mem:x1\n", "line 2, cell 2: '  mem:x1'")
        self.refused(NAME, "mem:x1,\n", "line 2, cell 1: 'mem:x1'")
        self.refused({"concept": "$x"}, "mem:x1,eg:Name\n", "line 2, cell 1: 'mem:x1'")

    def test_module_of_two_prefixes(self) -> None:
        """A module may displace its own prefix. Then it may be kept, too."""
        module = str(filing(TYPED, "", {})["reg/mod.json"])
        own: Files = {
            "reports/report.json": meta({"extends": [HOST + "mod.json"]}),
            "reg/mod.json": meta({"extends": ["base.json"], "namespaces": OWN}),
            "reg/base.json": module,
        }
        self.refused(TYPED, "a,mem:x1\n", "line 2, cell 2: 'mem:x1'", own)
        taxonomy = {**filing(TYPED, "", {}), **own}
        pack(self.folder / "t.zip", {it: taxonomy[it] for it in taxonomy if it[:3] != "rep"})
        for rows, status in (("a,mem2:x\n", 0), ("a,mem:x\n", 1), ("a,mem2:x\n", 0)):
            report: Files = {
                "reports/report.json": own["reports/report.json"],
                "reports/t.csv": f"v,x\n{rows}",
            }
            seen = self.run_over(report, "--taxonomy", "t.zip", "--cache", "kept")
            self.assertEqual(seen[0], status, seen)

    def test_what_names_no_prefix(self) -> None:
        """Texts of other columns and facts, and words before a colon, stay as they are."""
        self.assertEqual(self.values(TYPED, "mem:x1,see mem:x1\n", OWN), {"t.r_1.v": "mem:x1"})
        self.assertEqual(self.values(NAME, "mem2:x1,mem:x1\n", OWN), {"t.r_1.v": "mem2:x1"})
        self.assertEqual(self.values(NAME, "mem:x1,\n", {"mem": MEMBERS}), {"t.r_1.v": "mem:x1"})
        self.assertEqual(self.values(NAME, "mem:x1,\n", {}), {"t.r_1.v": "mem:x1"})

    def test_what_the_converter_refuses(self) -> None:
        """A member with such a prefix is refused by xbrl-json."""
        status, _, err = self.run_over(filing(CASH_IS, "1,mem:x1\n", OWN))
        self.assertEqual((status, err), (1, "xbrl-json: table t, row 1, column 1: BadValue (36)\n"))

    def test_pieces(self) -> None:
        """A prefix is found on the border of two pieces of a large table."""
        before = (1 << 18) - len("me")
        first = "a," + "z" * (before - len("v,x\n") - len("a,\na,")) + "\n"
        rows = f"{first}a,mem:x1\n"
        self.assertEqual(f"v,x\n{rows}".index("mem:x1"), before)
        self.refused(TYPED, rows, "line 3, cell 2: 'mem:x1'")


if __name__ == "__main__":
    unittest.main()
