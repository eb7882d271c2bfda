#!/usr/bin/env python3
"""Tests `xbrl-filing .. --page FILE`: what a page shows, where it is written, what it never runs.

    tests/test_page.py [PROGRAM] [TEST..]

PROGRAM is the built xbrl-json, by default the one that XBRL_JSON names, or dist/xbrl-json. What a
page shows is read with Python's own HTML parser, and compared with the file of --faults, record by
record, and with the tables by Python's own CSV reader. Where chromium is installed, pages are
opened in it. Needs Linux and Python 3.9 or later.
"""

from __future__ import annotations

import base64
import csv
import hashlib
import io
import os
import random
import re
import shutil
import subprocess
import sys
import tempfile
import unittest
import zipfile
from html import escape
from html.parser import HTMLParser
from pathlib import Path
from typing import Any, Dict, Iterator, List, NamedTuple, Optional, Tuple
from urllib.parse import unquote

TOP = Path(__file__).resolve().parent.parent
sys.path.insert(0, str(TOP))

from filing.converter_program import has_counts  # noqa: E402
from filing.faults import FIELDS, MORE, Fault, count_faults, faults_of  # noqa: E402
from filing.page_content import MOST, Content, TableFile, filled  # noqa: E402
from filing.page_index import Listed, index  # noqa: E402
from filing.page_markup import GROUP, page  # noqa: E402
from filing.page_remedies import FORMS, REMEDIES  # noqa: E402
from filing.page_rows import WIDEST, Budget, Near, read_table  # noqa: E402
from filing.page_script import SCRIPT  # noqa: E402
from filing.page_style import MARK, STYLE  # noqa: E402
from filing.page_text import is_hidden, markup, plain, seen  # noqa: E402
from filing.outcomes import Outcome  # noqa: E402
from tests.browser import PROGRAM as BROWSER  # noqa: E402
from tests.browser import Browser  # noqa: E402
from tests.filing_bounds import yardstick  # noqa: E402

FILING = str(TOP / "xbrl-filing")
EXAMPLE = TOP / "examples/filing"
PROGRAM = os.path.abspath(os.environ.get("XBRL_JSON") or TOP / "dist/xbrl-json")
PATIENCE = 600
# Cells of the many faults, of which a browser could make something else than text.
ODD_CELLS = ("x", "<b>1</b>", "&lt;", "'\"", "1,5", "\u00e9\u6f22", "a  b", "{{1}}")
# What a browser shows of each fault: its title, sentence and marked cell, and whether it is shown.
SHOWN = """[...document.querySelectorAll("article.fault")].map((it) =>
    [it.querySelector("h3").textContent, it.querySelector(".why").textContent,
     it.querySelector("mark")?.textContent ?? null, !it.hidden])"""
# Picks the faults of one number, as a person does.
PICKED = """(() => { const form = document.querySelector(".filters"); form.fault.value = "37";
    form.fault.dispatchEvent(new Event("change", {bubbles: true})); })()"""
TOLD = "document.querySelector('output').textContent"
ALL_MADE = "!document.querySelector('.later')"  # whether no faults are a text any more
NEVER_IDLE = "window.requestIdleCallback = () => 0"
# How long the thread of a page of the most faults may work until it is drawn: 12 were seen at most,
# and 29 to 31 of a page whose faults are all made at once.
MOST_YARDSTICKS = 25
# Texts that a page never has, and what its script shows of them, if that is another text.
UNESCAPED = {
    "<script>document.title = 'run'</script>": "",
    "<img src=\"x\" onerror=\"document.title = 'run'\">": "",
    "<b onclick=\"document.title = 'run'\">b</b>": "",
    "<p class=\"why\" style=\"color: red\">p</p>": "",
    "<a href=\"javascript:document.title = 'run'\">a</a>": "",
    "<a href=\"https://reg.example/\">a</a>": "",
    "<p id=\"faults\">p</p>": "",
    "<!-- <b>no end": "",
    "<span class=\"hide\"><i>no end": "",
    "</td></b>": "",
    "<iframe></iframe><style>*{display:none}</style>": "",
    "&lt;b&gt; &amp;lt;b&amp;gt; &nbsp;": "<b> &lt;b&gt; &nbsp;",
}
REPORTS = "reports"
VOID = ("meta",)
TITLE = re.compile(
    r"(?:Table (.*?)(?:, row (\d+))?(?:, column (\d+))?|.*) (\w+) \((\d+)\)", re.DOTALL
)
FOREIGN = "cannot write (another file than a page is there)"
INSIDE = "cannot write (it stands inside of a package that is an input of this run)"
OUTPUT = "cannot write (it is another output of this run)"
ALLOWED = set(
    "html head meta title style body header main section footer article a span h1 h2 h3 p dl dt dd"
    " form label select option button output div table caption thead tbody tr th td mark code i bdi"
    " b pre script noscript".split()
)
ATTRIBUTES = set(
    "lang charset http-equiv content name class id href hidden value type scope tabindex role"
    " aria-label data-keys data-outcome".split()
)


class Element(NamedTuple):
    """An element of a page: its name, attributes, and what is in it."""

    name: str
    attributes: Dict[str, Optional[str]]
    children: List[Any]

    def all(self, name: str, kind: str = "") -> List[Element]:
        """Return the elements of a name and class in this one, in order."""
        return [it for it in self.walk() if it.name == name and kind in it.kinds()]

    def kinds(self) -> List[str]:
        return ["", *(self.attributes.get("class") or "").split()]

    def walk(self) -> Iterator[Element]:
        for it in self.children:
            if isinstance(it, Element):
                yield it
                yield from it.walk()

    def text(self) -> str:
        return "".join(it if isinstance(it, str) else it.text() for it in self.children)


class Reader(HTMLParser):
    """Reads a page into elements. Each that is opened must be closed, in order."""

    def __init__(self, text: str) -> None:
        super().__init__(convert_charrefs=True)
        self.open = [Element("", {}, [])]
        self.feed(text)
        self.close()
        assert len(self.open) == 1, self.open[-1].name

    def handle_starttag(self, tag: str, attrs: List[Tuple[str, Optional[str]]]) -> None:
        made = Element(tag, dict(attrs), [])
        self.open[-1].children.append(made)
        if tag not in VOID:
            self.open.append(made)

    def handle_endtag(self, tag: str) -> None:
        assert self.open.pop().name == tag, tag

    def handle_data(self, data: str) -> None:
        self.open[-1].children.append(data)


def read(text: str) -> Element:
    """Return the elements of a page."""
    return Reader(text).open[0]


class Shown(NamedTuple):
    """A fault as a page shows it."""

    table: str
    row: int
    column: int
    name: str
    number: int
    sentence: str
    file: str
    marked: Optional[str]
    lines: List[List[str]]  # the cells of the rows, with the line and the number first


def read_faults(path: str) -> List[Fault]:
    """Return the faults of a file of `--faults`."""
    return faults_of(path, MOST).faults


def shown_faults(top: Element) -> List[Shown]:
    """Return the faults of a page."""
    return [shown_fault(it) for it in top.all("article", "fault")]


def shown_fault(it: Element) -> Shown:
    title = it.all("h3")[0].text()
    found = TITLE.fullmatch(title)
    assert found, title
    marks = [mark.text() for mark in it.all("mark")]
    captions = [part.text() for part in it.all("caption")]
    rows = [row for body in it.all("tbody") for row in body.all("tr")]
    lines = [[part.text() for part in row.children if isinstance(part, Element)] for row in rows]
    return Shown(
        found[1] or "",
        int(found[2] or 0),
        int(found[3] or 0),
        found[4],
        int(found[5]),
        it.all("p", "why")[0].text(),
        captions[0] if captions else "",
        marks[0] if marks else None,
        [[cell.replace(" (the fault)", "") for cell in line] for line in lines],
    )


class Case(unittest.TestCase):
    """A scratch folder with a report and a taxonomy, as folders."""

    def setUp(self) -> None:
        scratch = tempfile.TemporaryDirectory()
        self.addCleanup(scratch.cleanup)
        self.folder = Path(scratch.name).resolve()
        self.temporary = self.folder / "tmp"
        self.temporary.mkdir()
        shutil.copytree(EXAMPLE / "report", self.folder / "report")
        shutil.copytree(EXAMPLE / "taxonomy", self.folder / "taxonomy")
        self.tables = self.folder / "report" / REPORTS
        self.page = self.folder / "page.html"

    def run_filing(self, *words: str) -> subprocess.CompletedProcess[str]:
        """Run the command in the folder. It may leave no temporary file."""
        done = subprocess.run(
            [FILING, *words],
            cwd=self.folder,
            env={**os.environ, "XBRL_JSON": PROGRAM, "TMPDIR": str(self.temporary)},
            stdin=subprocess.DEVNULL,
            stdout=subprocess.PIPE,
            stderr=subprocess.PIPE,
            text=True,
            errors="surrogateescape",
            timeout=PATIENCE,
        )
        self.assertEqual(os.listdir(self.temporary), [])
        left = [it.name for it in self.folder.iterdir() if it.name.startswith("page.html.")]
        self.assertEqual(left, [])
        return done

    def convert(self, *words: str, status: int = 0) -> subprocess.CompletedProcess[str]:
        """Convert the report with a page. Fail at another status."""
        more = ["--taxonomy", "taxonomy", "--page", "page.html", *words]
        done = self.run_filing("report", *more)
        self.assertEqual(done.returncode, status, done.stderr)
        return done

    def top(self) -> Element:
        """Return the page, which is one that is safe."""
        text = self.page.read_text(encoding="utf-8")
        self.check_safe(text)
        return read(text)

    def check_safe(self, text: str) -> None:
        """Fail if a page has anything but its own elements, style and script."""
        self.assertTrue(text.startswith(MARK))
        hidden = {it for it in text if is_hidden(it) and it != "\n"}
        self.assertEqual(hidden, set())
        top = read(text)
        elements = list(top.walk())
        self.assertLessEqual({it.name for it in elements}, ALLOWED)
        self.assertLessEqual({key for it in elements for key in it.attributes}, ATTRIBUTES)
        self.assertEqual([it.text() for it in top.all("script")], [SCRIPT])
        self.assertEqual([it.text() for it in top.all("style")], [STYLE])
        for it in top.all("a"):
            self.assertRegex(it.attributes["href"] or "", r"\A(#\w+|\./[\w./%~-]+)\Z")
        ids = [it.attributes["id"] for it in elements if "id" in it.attributes]
        self.assertEqual(len(ids), len(set(ids)))
        for it in top.all("a"):
            href = it.attributes["href"] or ""
            self.assertTrue(href.startswith("./") or href[1:] in ids, href)

    def edit(self, table: str, text: str) -> None:
        """Write a table of the report. A lone \\udcNN is a byte that is not UTF-8."""
        (self.tables / table).write_bytes(text.encode("utf-8", "surrogateescape"))

    def content(self, faults: int) -> Content:
        """Return the content of a page with some faults of one table."""
        self.edit("t.csv", "a,b\n" + "1,x\n" * faults)
        table = TableFile("t", "t.csv", str(self.tables / "t.csv"))
        found = [
            Fault("t", it, 2, 40, "BadNumber", str(it + 1), "b", "x", "")
            for it in range(1, faults + 1)
        ]
        bare = Content("Refused", "r", "", [], faults)
        return filled(bare, [table], found[:MOST], {})

    def check_agrees(self, faults: List[Fault]) -> List[Shown]:
        """Fail if the page does not show these faults, one by one; return what it shows."""
        shown = shown_faults(self.top())
        seen = [(it.table, it.row, it.column, it.number, it.name) for it in shown]
        self.assertEqual(seen, [(it.table, it.row, it.column, it.number, it.name) for it in faults])
        for it, fault in zip(shown, faults):
            if fault.row and it.lines:
                number = f"{fault.row:,}"
                line = next(cells[0] for cells in it.lines if cells[1] == number)
                self.assertEqual(line.replace(",", ""), fault.line)
                self.assertTrue(it.file.endswith(f".csv, line {fault.line}"), it.file)
            if it.marked is not None and fault.row:
                self.assertEqual(it.marked, read(markup(fault.cell, 60)).text() or "(empty)")
        return shown


class TestGood(Case):
    """The page of a report that is converted."""

    def test_outcome_and_tables(self) -> None:
        """Shows that it is converted, and each table with its file, rows and bytes."""
        done = self.convert("--out", "out.json")
        self.assertEqual((done.stdout, done.stderr), ("", ""))
        top = self.top()
        self.assertEqual(top.all("title")[0].text(), "Converted: report")
        self.assertIn("out.json", top.all("dl")[0].text())
        rows_shown = top.all("table")[0].all("tr")
        lines = [[c.text() for c in it.children if isinstance(c, Element)] for it in rows_shown]
        if has_counts(PROGRAM):  # these columns and the last row are looked at with the summary
            lines = [[*line[:3], *line[8:]] for line in lines[:-1]]
        wanted = [["Table", "File", "Rows", "Bytes", "Faults"]]
        for name in ("FilingIndicators", "l_01", "l_02"):
            text = (self.tables / f"{name}.csv").read_text()
            rows = len(list(csv.reader(io.StringIO(text)))) - 1
            path = f"report/{REPORTS}/{name}.csv"
            wanted.append([name, path, str(rows), str(len(text)), "none"])
        self.assertEqual(lines, wanted)
        self.assertEqual(top.all("article"), [])

    def test_the_document_is_the_same(self) -> None:
        """Leaves the document, the lines and the status as they are without a page."""
        self.convert("--out", "with.json", "--whole", "--layout", "lines")
        words = ["--taxonomy", "taxonomy", "--out", "without.json", "--layout", "lines"]
        self.assertEqual(self.run_filing("report", *words).returncode, 0)
        made = [(self.folder / it).read_bytes() for it in ("with.json", "without.json")]
        self.assertEqual(made[0], made[1])

    def test_standard_output(self) -> None:
        """Leaves the document on standard output."""
        done = self.convert()
        self.assertEqual(done.stdout, (EXAMPLE / "expected.json").read_text())
        self.assertIn("standard output", self.top().all("dl")[0].text())

    def test_a_zip(self) -> None:
        """Shows the files of a ZIP by their names in it."""
        with zipfile.ZipFile(self.folder / "q3.zip", "w") as archive:
            for path in sorted((self.folder / "report").rglob("*")):
                archive.write(path, path.relative_to(self.folder / "report"))
        words = ["--taxonomy", "taxonomy", "--page", "page.html", "--out", "o.json"]
        self.assertEqual(self.run_filing("q3.zip", *words).returncode, 0)
        self.assertIn(f"q3.zip/{REPORTS}/l_01.csv", self.top().text())


class TestRefused(Case):
    """The page of a report with faults."""

    def test_each_fault_of_the_file_of_faults(self) -> None:
        """Shows each record of --faults, with its rows and the cell marked."""
        self.edit("l_01.csv", "datapoint,factValue\ndp1,1250000\ndp2,8x\ndp3,1.3142\ndp1,7\n")
        lines = ["counterparty,due,amount,standing", '"A, B\nC",demand,1,dom:Regular']
        lines += ["", "C-17,term,2,dom:Watched", '"D ""E""",term,x3,dom:Watched', "F,term,4,"]
        self.edit("l_02.csv", "\r\n".join(lines) + "\r\n")
        done = self.convert("--faults", "f.csv", "--out", "o.json", status=1)
        faults = read_faults(str(self.folder / "f.csv"))
        self.assertEqual(len(faults), 2, done.stderr)
        first, second = self.check_agrees(faults)
        self.assertEqual(
            first.lines,
            [["2", "1", "dp1", "1250000"], ["3", "2", "dp2", "8x"], ["4", "3", "dp3", "1.3142"]],
        )
        self.assertEqual(first.marked, "8x")
        self.assertEqual(second.lines[0], ["2", "1", "A, B\\x0aC", "demand", "1", "dom:Regular"])
        self.assertEqual(
            [it[:3] for it in second.lines[1:]],
            [["5", "2", "C-17"], ["6", "3", 'D "E"'], ["7", "4", "F"]],
        )
        self.assertEqual(second.marked, "x3")
        self.assertEqual(self.top().all("title")[0].text(), "Refused: report")

    def test_the_lines_of_explain(self) -> None:
        """Has the sentences of --explain, though only faults are printed without that."""
        self.edit("l_01.csv", "datapoint,factValue\ndp1,1d0.5\n")
        done = self.convert(status=1, *["--out", "o.json"])
        self.assertEqual(done.stderr, "xbrl-json: table l_01, row 1, column 2: BadNumber (40)\n")
        (shown,) = shown_faults(self.top())
        why = "behind the d of a numeral stands neither a whole number of 32 bits nor INF"
        self.assertEqual(shown.sentence, why)
        words = ["--taxonomy", "taxonomy", "--explain", "--out", "o.json"]
        lines = self.run_filing("report", *words).stderr
        self.assertEqual(self.convert("--explain", "--out", "o.json", status=1).stderr, lines)
        self.assertIn(why, lines)

    def test_the_causes(self) -> None:
        """Shows the places that a fault comes from, in the names of the filing."""
        text = (self.tables / "parameters.csv").read_text()
        self.edit("parameters.csv", text.replace("2025Q3", "2025Q9"))
        words = ["--explain", "--faults", "f.csv", "--out", "o.json"]
        done = self.convert(*words, status=1)
        causes = [it.strip() for it in done.stderr.split("\n") if it.startswith("    ")]
        said = [it.text() for it in self.top().all("pre")]
        self.assertTrue(said)
        for it in said[0].split("\n"):
            self.assertIn(it, causes)
        self.assertIn("parameters.csv, line 3, cell 2", said[0])
        same = [it for it in said if it.startswith("the same cause as in table ")]
        faults = read_faults(str(self.folder / "f.csv"))
        own = (f"report/{REPORTS}/parameters.csv", "3", "2", "2025Q9")
        self.assertEqual({it[9:] for it in faults}, {own})
        self.assertEqual(len(said), len(faults))
        place = '{}, line {}, cell {}: "{}"'.format(*own)
        self.assertEqual({it for it in said[1:] if it not in same}, {place})
        firsts = {it.table: it.sentence for it in reversed(shown_faults(self.top()))}
        self.assertEqual(len(set(firsts.values())), 1)
        self.assertNotIn(str(self.temporary), self.page.read_text())

    def test_a_cause_in_the_same_row(self) -> None:
        """Marks the cell that a fault of its row comes from, if no other cell gives it."""
        self.edit("l_01.csv", "datapoint,factValue\ndp1,5\ndp9,5\n,\n")
        text = "counterparty,due,amount,standing\nA,terms,x,dom:Regular\nB,term,y,dom:Regular\n"
        self.edit("l_02.csv", text)
        self.convert("--out", "o.json", status=1)
        seen = [[it.text() for it in fault.all("td", "from")] for fault in self.top().all("article")]
        self.assertEqual(seen, [["dp9"], ["terms"], []])
        marks = [it.text() for it in self.top().all("mark")]
        self.assertEqual(marks, ["5", "x", "y"])

    def test_a_cause_in_another_file(self) -> None:
        """Marks no cell as the cause if that is in another file, though at the same line."""
        text = (self.tables / "parameters.csv").read_text()
        self.edit("parameters.csv", "name,value\nbaseCurrency,EUR\n" + text.replace("baseC", "c")[11:])
        self.convert("--faults", "f.csv", "--out", "o.json", status=1)
        faults = read_faults(str(self.folder / "f.csv"))
        seen = [(it.table, it.column, it.line, it.cause_line, it.cause_cell) for it in faults]
        self.assertIn(("l_02", 3, "2", "2", "2"), seen)
        self.assertEqual(self.top().all("td", "from"), [])

    def test_a_cell_that_the_rows_cut(self) -> None:
        """Shows a cell of some length again, whole."""
        cell = "x" * 100
        self.edit("l_01.csv", f"datapoint,factValue\ndp1,{cell}\n")
        self.convert("--out", "o.json", status=1)
        self.assertIn(f"Found: {cell}", self.top().all("article")[0].text())

    def test_other_faults_are_on_the_page(self) -> None:
        """Leads from no fault to the file of the others of its table."""
        self.edit("l_01.csv", "datapoint,factValue\ndp9,5\ndp8,5\n")
        done = self.convert("--explain", "--out", "o.json", status=1)
        self.assertIn("and 1 more in this table: see page.html\n", done.stderr)
        self.assertNotIn("in this table: see", self.page.read_text())

    def test_of_the_metadata(self) -> None:
        """Shows a fault of the metadata by its place in the filing's own file."""
        report = self.tables / "report.json"
        report.write_text(report.read_text().replace("{", '{"decimals": "x",', 1))
        self.convert("--faults", "f.csv", "--out", "o.json", status=1)
        (fault,) = read_faults(str(self.folder / "f.csv"))
        self.check_agrees([fault])
        title = self.top().all("h3")[0].text()
        self.assertEqual(title, "report/reports/report.json: /decimals BadDecimals (12)")
        self.assertIn('Found: "x"', self.top().text())

    def test_of_the_header_and_of_the_whole_file(self) -> None:
        """Marks the header's cell, and shows no rows of a file that does not exist."""
        self.edit("l_01.csv", "datapoint,factvalue\ndp1,1\n")
        (self.tables / "l_02.csv").unlink()
        done = self.convert("--faults", "f.csv", "--out", "o.json", status=1)
        faults = read_faults(str(self.folder / "f.csv"))
        shown = self.check_agrees(faults)
        self.assertEqual([it.number for it in shown][:1], [23], done.stderr)
        self.assertEqual(shown[0].marked, "factvalue")
        self.assertEqual(shown[0].lines, [["2", "1", "dp1", "1"]])

    def test_a_byte_order_mark(self) -> None:
        """Shows no mark of the bytes' order before the header."""
        self.edit("l_01.csv", "\ufeffdatapoint,factValue\ndp1,x\n")
        self.convert("--faults", "f.csv", "--out", "o.json", status=1)
        self.check_agrees(read_faults(str(self.folder / "f.csv")))
        heads = [it.text() for it in self.top().all("thead")[0].all("th")]
        self.assertEqual(heads, ["Line", "Row", "datapoint", "factValue"])

    def test_a_record_of_another_length(self) -> None:
        """Shows a cell past the header."""
        self.edit("l_01.csv", "datapoint,factValue\ndp1,1,200\ndp2,1\n")
        self.convert("--out", "o.json", status=1)
        (shown,) = shown_faults(self.top())
        self.assertEqual(
            shown.lines, [["2", "1", "dp1", "1", "200"], ["3", "2", "dp2", "1", "(none)"]]
        )

    def test_refused_by_xbrl_filing_itself(self) -> None:
        """Shows the record Refused of the file of faults."""
        self.edit("stray.csv", "a\n")
        self.convert("--faults", "f.csv", status=1)
        (fault,) = read_faults(str(self.folder / "f.csv"))
        (shown,) = self.check_agrees([fault])
        self.assertEqual(shown.sentence, fault.cell)
        self.assertIn(fault.place, self.top().all("h3")[0].text())
        self.assertEqual(self.top().all("title")[0].text(), "Refused: report")

    def test_every_fault(self) -> None:
        """Shows each faulty cell of each row, and what a cut list leaves out."""
        rows = "".join(f"dp{1 + it % 2},{'x' if it % 3 else it}\n" for it in range(20))
        self.edit("l_01.csv", "datapoint,factValue\n" + rows)
        self.edit("l_02.csv", "counterparty,due,amount,standing\nA,term,y,z\n")
        self.convert("--faults", "f.csv", "--out", "o.json", status=1)
        faults = read_faults(str(self.folder / "f.csv"))
        self.assertEqual([it.table for it in faults], ["l_01"] * 13 + ["l_02"] * 2)
        marked = [it.marked for it in self.check_agrees(faults)]
        self.assertEqual(marked, ["x"] * 13 + ["y", "z"])
        words = ["--most-faults", "4", "--faults", "f.csv", "--out", "o.json"]
        self.assertIn("f.csv is cut", self.convert(*words, status=1).stderr)
        self.check_agrees([*faults[:4], *faults[13:]])
        text = self.top().text()
        self.assertIn("6 faults were found.", text)
        self.assertIn("More faults than the list may have are in: l_01.", text)

    def test_without_a_file_of_faults(self) -> None:
        """Names no temporary file, if only the page has all faults."""
        self.edit("l_01.csv", "datapoint,factValue\ndp1,x\ndp2,y\n")
        done = self.convert("--explain", "--out", "o.json", status=1)
        self.assertEqual(len(shown_faults(self.top())), 2)
        self.assertNotIn(str(self.temporary), done.stderr)
        self.assertIn("    and 1 more in this table: see page.html\n", done.stderr)


HOSTILE = [
    "<script>document.title='run'</script>",
    "<img src=x onerror=\"document.title='run'\">",
    "</td></table><style>*{display:none}</style>",
    '"><svg onload=alert(1)>',
    "' & \" &amp; &#x3c;",
    "\u00e9<script>document.title='run'</script><b>\u202e",
    "\u202eevil\u202c \u200b\u2066",
    "nul\0tab\tline\u2028nbsp\u00a0",
    "bytes \udcff\udc80",
    "x" * 10_000,
    "a" + "\u0301" * 50,
    "javascript:alert(1)",
    "]]><!--",
    "{{constructor}}${1}",
    "\U000e0041\ufe0f\u3164",
    "\u05e9\u05dc\u05d5\u05dd",
]


class TestHostile(Case):
    """What a stranger wrote into a report is text on the page, and is seen."""

    def test_cells(self) -> None:
        """Shows each hostile cell as text, cut and with codes."""
        for text in HOSTILE:
            with self.subTest(text=text[:40]):
                quoted = '"' + text.replace('"', '""') + '"'
                self.edit("l_01.csv", f"datapoint,factValue\ndp1,{quoted}\n")
                self.convert("--faults", "f.csv", "--out", "o.json", status=1)
                faults = read_faults(str(self.folder / "f.csv"))
                (shown,) = self.check_agrees(faults)
                self.assertNotIn("run", self.top().all("title")[0].text())
                self.assertEqual(shown.lines[0][3], shown.marked)
                self.assertTrue(shown.marked)

    def test_texts_keep_what_can_be_seen(self) -> None:
        """Shows a text unchanged but for hidden characters, for which it has codes."""
        for text in HOSTILE:
            told = read(markup(text, 20_000)).text()
            codes = re.sub(r"\\x[0-9a-f]{2}|\\u[0-9a-f]{4}|\\U[0-9a-f]{8}", "", told)
            kept = "".join(it for it in text if not is_hidden(it))
            self.assertEqual(codes.replace("\u0301", ""), kept.replace("\u0301", ""))
            self.assertEqual(read(f"<i>{plain(text, 20_000)}</i>").text(), told)

    def test_codes(self) -> None:
        """Writes codes as xbrl-json does."""
        cases = {"\0": "\\x00", "\x7f": "\\x7f", "\u00a0": "\\u00a0", "\u202e": "\\u202e"}
        cases.update({"\udcff": "\\xff", "\U000e0041": "\\U000e0041", "\u3164": "\\u3164"})
        cases.update({"\ufe0f": "\\ufe0f", "\U000e0100": "\\U000e0100"})
        for text, wanted in cases.items():
            self.assertEqual(markup(text, 9), f"<bdi><i>{wanted}</i></bdi>")
        self.assertEqual(markup("a\u0301\u0301\u0301\u0301", 9).count("<i>"), 1)
        self.assertEqual(markup("<&>\"'", 9), "&lt;&amp;&gt;&quot;&#x27;")
        self.assertEqual(markup("a\u20dd\u20dd\u20dd\u20dd", 9).count("<i>"), 1)
        self.assertEqual((markup("abc", 3), plain("abc", 3)), ("abc", "abc"))
        self.assertEqual(markup("abcd", 3), "<bdi>abc\u2026</bdi>")

    def test_letters_one_by_one_or_all_at_once(self) -> None:
        """Shows a text in the same way whether each letter of it is looked at or not."""
        chance = random.Random(5)
        letters = "".join(HOSTILE) + "\u05d0\u0301\u0300\u6f22 1<"
        for _ in range(2000):
            text = "".join(chance.choices(letters, k=chance.randrange(9)))
            parts = [f"<i>{it}</i>" if is_code else escape(it) for it, is_code in seen(text)]
            self.assertIn(markup(text, 9), ("".join(parts), f"<bdi>{''.join(parts)}</bdi>"))

    def test_headers_names_and_places(self) -> None:
        """Shows hostile headers, paths and parameters as text."""
        evil = "<script>alert(1)</script>\u202e"
        self.edit("l_01.csv", f'datapoint,"{evil}"\ndp1,1\n')
        report = self.folder / "<b onclick=x>'&\u202e"
        (self.folder / "report").rename(report)
        words = ["--taxonomy", "taxonomy", "--page", "page.html", "--out", "o.json"]
        done = self.run_filing(report.name, *words)
        self.assertEqual(done.returncode, 1, done.stderr)
        top = self.top()
        self.assertIn("<b onclick=x>'&\\u202e", top.all("title")[0].text())
        self.assertIn("<script>alert(1)</script>\\u202e", top.all("mark")[0].text())

    def test_parameters_and_indicators(self) -> None:
        """Shows hostile values of parameters, and names of templates, as text."""
        evil = "<script>alert(1)</script>\u202e"
        given = (self.tables / "parameters.csv").read_text()
        self.edit("parameters.csv", f"{given}spare,{evil}\n")
        self.edit("FilingIndicators.csv", f"template,filed\n{evil},true\n")
        self.convert("--out", "o.json")
        shown = evil.replace("\u202e", "\\u202e")
        cells = [it.text() for it in self.top().all("td")]
        self.assertIn(shown, cells)
        self.assertIn(shown, [it.text() for it in self.top().all("dd")])

    def test_the_policy(self) -> None:
        """Allows only the style and the script of the page, by their digests."""
        self.convert("--out", "o.json")
        top = self.top()
        (policy,) = [
            it.attributes["content"] or ""
            for it in top.all("meta")
            if it.attributes.get("http-equiv") == "Content-Security-Policy"
        ]
        wanted = ["default-src 'none'"]
        for kind, name in (("style-src", "style"), ("script-src", "script")):
            digest = hashlib.sha256(top.all(name)[0].text().encode()).digest()
            wanted.append(f"{kind} 'sha256-{base64.b64encode(digest).decode()}'")
        wanted += ["base-uri 'none'", "form-action 'none'"]
        self.assertEqual(policy.split("; "), wanted)
        for it in ("innerHTML", "eval", "document.write", "http", "url(", "import"):
            self.assertNotIn(it, SCRIPT + STYLE)


class TestWhere(Case):
    """Where a page is written: whole or not at all, and only over a page."""

    def refused(self, line: str, *words: str) -> None:
        """Fail if a run is not refused with status 3 and this line."""
        done = self.run_filing("report", "--taxonomy", "taxonomy", *words)
        self.assertEqual((done.returncode, done.stderr), (3, f"xbrl-filing: {line}\n"))

    def test_over_a_page_and_an_empty_file(self) -> None:
        """Replaces both, and keeps the permissions."""
        self.page.touch(0o600)
        self.convert("--out", "o.json")
        first = self.page.read_bytes()
        self.convert("--out", "o.json")
        self.assertEqual(self.page.read_bytes(), first)
        self.assertEqual(self.page.stat().st_mode & 0o777, 0o600)

    def test_not_over_another_file(self) -> None:
        """Leaves any other file as it is, and converts nothing."""
        self.page.write_text("<!DOCTYPE html>\nmine\n")
        self.refused(f"page.html: {FOREIGN}", "--page", "page.html", "--out", "o.json")
        self.assertEqual(self.page.read_text(), "<!DOCTYPE html>\nmine\n")
        self.assertFalse((self.folder / "o.json").exists())

    def test_not_over_an_input_or_an_output(self) -> None:
        """Refuses files of the packages, the report, and the other outputs."""
        table = f"report/{REPORTS}/l_01.csv"
        self.refused(f"{table}: {FOREIGN}", "--page", table)
        self.refused(f"taxonomy/new.html: {INSIDE}", "--page", "taxonomy/new.html")
        for words in (["--out", "x"], ["--faults=x"], ["--out", "y", "--whole", "--faults", "./x"]):
            self.refused(f"x: {OUTPUT}", "--page", "x", *words)
        self.refused(f"o.json.new: {OUTPUT}", "--page", "o.json.new", "--out", "o.json", "--whole")
        self.refused("no/p: cannot write (there is no folder to put it in)", "--page", "no/p")
        self.refused(f"report: {FOREIGN}", "--page", "report")
        self.edit("l_01.csv", "")
        self.refused(f"{table}: {INSIDE}", "--page", table)
        self.edit("report.json", "no JSON")
        self.refused(f"taxonomy/new.html: {INSIDE}", "--page", "taxonomy/new.html")
        self.assertEqual(os.listdir(self.folder / "taxonomy"), os.listdir(EXAMPLE / "taxonomy"))

    def test_faults_in_a_pipe(self) -> None:
        """Refuses a file of faults that cannot be read again."""
        os.mkfifo(self.folder / "pipe")
        line = "pipe: cannot read (a page needs its faults in a regular file)"
        self.refused(line, "--page", "page.html", "--faults", "pipe")

    def test_unchanged_at_other_ends(self) -> None:
        """Leaves an earlier page at status 2 and 3."""
        self.convert("--out", "o.json")
        before = self.page.read_bytes()
        self.convert("--out", "no/o.json", status=3)
        self.convert("--ring", "0", status=2)
        self.convert("--types", "t.csv", status=2)
        self.assertEqual(self.page.read_bytes(), before)

    def test_a_folder_without_rights(self) -> None:
        """Refuses with status 3 if the page cannot be made."""
        if os.geteuid() == 0:
            target = "/proc/page.html"
            line = f"{target}: cannot write (No such file or directory)"
        else:
            (self.folder / "closed").mkdir(0o500)
            target, line = "closed/page.html", "closed/page.html: cannot write (Permission denied)"
        self.refused(line, "--page", target, "--out", "o.json")

    def test_words(self) -> None:
        """Refuses command lines in which a page means nothing."""
        nothing = "nothing is converted, so '--page' means nothing"
        cases = {
            "--page needs a value": ["--page"],
            "--page stands twice": ["--page", "a", "--page=b"],
            f"with --parameters {nothing}": ["--page", "a", "--parameters"],
            f"with --prepare {nothing}": ["--page", "a", "--prepare", "b"],
        }
        for line, words in cases.items():
            done = self.run_filing("report", "--taxonomy", "taxonomy", *words)
            wanted = (2, f"xbrl-filing: {line}; try --help\n")
            self.assertEqual((done.returncode, done.stderr), wanted)


class TestBounds(Case):
    """What a page leaves out, and says so."""

    def near(self, text: str, row: int, column: int, line: str = "") -> Near:
        """Return the rows round a fault of a table."""
        self.edit("t.csv", text)
        fault = Fault("t", row, column, 40, "BadNumber", line, "", "", "")
        (near,) = read_table(str(self.tables / "t.csv"), [fault], Budget()).near
        assert near is not None
        return near

    def test_ten_thousand_faults(self) -> None:
        """Shows the first ones, and how many there are."""
        text = page(self.content(MOST + 1))
        self.assertLess(len(text), 12 << 20)
        top = read(text)
        self.assertIn("These are the first 10,000 of 10,001 faults.", top.text())
        faults = shown_faults(top)
        self.assertEqual(len(faults), MOST)
        shown = sum(1 for it in faults if it.lines)
        self.assertIn(f"Rows are shown for {shown:,} faults.", top.text())
        self.assertGreater(shown, 500)

    def test_the_file_of_faults(self) -> None:
        """Reads the first records, cuts long cells, and counts all."""
        path = self.folder / "f.csv"
        header = ",".join(FIELDS)
        more = f'"t,""1""",0,0,0,{MORE},,,,\n'
        text = f"{header}\n" + f't,1,2,40,N,2,h,"{"y" * 9_999}",\n' * (MOST + 7) + more
        path.write_text(text)
        found = faults_of(str(path), MOST)
        self.assertEqual((len(found.faults), found.total), (MOST, MOST + 7))
        self.assertEqual((found.faults[0].cell, found.cut), ("y" * 2_000 + "\u2026", ['t,"1"']))
        self.assertEqual(count_faults(str(path)), (MOST + 7, frozenset({40})))
        path.write_text(f"{header}\n")
        self.assertEqual(faults_of(str(path), MOST), ([], 0, []))
        for text in ("", f"{header}\nt,1\n", f"{header}\nt,x,2,40,N,2,h,c,\n"):
            path.write_text(text)
            self.assertRaises(ValueError, faults_of, str(path), MOST)
            self.assertEqual(count_faults(str(path)), (0, frozenset()))

    def test_wide_tables(self) -> None:
        """Shows the first column and those round the fault."""
        header = ",".join(f"c{it}" for it in range(1, 101))
        text = f"{header}\n{header.replace('c', 'v')}\n"
        for column, first, last in ((1, 2, 12), (7, 2, 12), (50, 44, 54), (100, 90, 100)):
            near = self.near(text, 1, column, "2")
            self.assertEqual(near.columns, [1, *range(first, last + 1)])
            self.assertEqual(len(near.columns), WIDEST)
            self.assertIn(column, near.columns)
            self.assertEqual(near.header, [f"c{it}" for it in near.columns])
            self.assertEqual(near.rows[0].cells, [f"v{it}" for it in near.columns])

    def test_long_cells_and_open_quotes(self) -> None:
        """Cuts a cell, also one whose quote is not closed."""
        near = self.near('a,b\n1,"' + "\u20ac" * 200_000, 1, 2, "2")
        self.assertEqual(near.rows[0].cells, ["1", "\u20ac" * 60 + "\u2026"])
        near = self.near('a,b\n1,"' + "\n" * 3_000_000 + '"\n2,3\n', 2, 1, "3000002")
        self.assertEqual([it.line for it in near.rows], [None, 3_000_002])

    def test_rows_as_another_reader_has_them(self) -> None:
        """Splits rows, cells and lines as Python's own CSV reader does."""
        chance = random.Random(7)
        for _ in range(300):
            quoting, letters = chance.choice(((csv.QUOTE_MINIMAL, ""), (csv.QUOTE_ALL, "\r\n")))
            letters += 'ab," \u00e9'
            rows = [
                ["k" + "".join(chance.choices(letters, k=at)) for at in range(3)] for _ in range(6)
            ]
            end, text, lines = chance.choice(("\n", "\r\n", "\r", "\n\n")), "", []
            for row in rows:
                lines.append(1 + len(re.findall(r"\r\n?|\n", text)))
                out = io.StringIO()
                csv.writer(out, lineterminator=end, quoting=quoting).writerow(row)
                text += out.getvalue()
            with self.subTest(text=text):
                at = chance.randrange(1, 6)
                near = self.near(text, at, 2, str(lines[at]))
                numbers = [it for it in range(max(at - 2, 1), at + 2) if it < 6]
                wanted = [(it, lines[it], rows[it]) for it in numbers]
                self.assertEqual([tuple(it) for it in near.rows], wanted)
                self.assertEqual(near.header, rows[0])

    def test_enough_is_enough(self) -> None:
        """Stops at the budget of bytes, rows and cells."""
        self.edit("t.csv", "a,b\n" + "1,2\n" * 1_000)
        path = str(self.tables / "t.csv")
        fault = Fault("t", 900, 2, 40, "BadNumber", "901", "", "", "")
        for name in ("bytes", "rows", "parsed", "shown"):
            budget = Budget()
            setattr(budget, name, 100 if name in ("bytes", "rows") else -1)
            self.assertEqual(read_table(path, [fault], budget).near, [None], name)
        self.assertEqual(read_table(path, [fault], Budget()).rows, 1_000)
        budget = Budget()
        budget.counted = 98
        self.assertEqual(read_table(path, [fault], budget).rows, None)
        self.assertEqual(
            read_table(path, [fault], budget).near[0], read_table(path, [fault], Budget()).near[0]
        )
        self.assertEqual(read_table(str(self.folder), [fault], Budget()), (None, None, [None]))
        self.assertEqual(read_table("/dev/zero", [fault], Budget()), (None, None, [None]))


class TestRemedies(unittest.TestCase):
    """What a page says to do is what docs/FAULTS.md says."""

    def rows_of(self, part: str) -> List[List[str]]:
        """Return the cells of the tables in a part of docs/FAULTS.md, without links."""
        rows = [it.strip("|").split(" | ") for it in part.splitlines() if it.startswith("| ")]
        links = re.compile(r"see \[\d+\]\(#[^)]*\)| \(\[[^\]]*\]\(#[^)]*\)\)")
        return [[links.sub("", cell.strip()) for cell in row] for row in rows]

    def test_as_in_the_document(self) -> None:
        """Has each fault of a report and each form, word for word."""
        text = (TOP / "docs/FAULTS.md").read_text()
        rows = [row for part in text.split("\n## ") for row in self.rows_of(part)]
        numbered = [(re.match(r"(\d+) \w+$", row[0]), row) for row in rows if len(row) > 2]
        wanted = {int(it[1]): (row[1], row[-1]) for it, row in numbered if it and int(it[1]) < 50}
        self.assertEqual(REMEDIES, wanted)
        parts = re.findall(r"^### (\d+) \w+\n(.*?)(?=^##)", text, re.M | re.S)
        self.assertEqual(
            FORMS, {int(a): [tuple(it) for it in self.rows_of(b)[1:]] for a, b in parts}
        )
        self.assertEqual({it for it in REMEDIES if not REMEDIES[it][1]}, set(FORMS))


class TestMany(Case):
    """Pages of a run over many reports, and their index."""

    def setUp(self) -> None:
        super().setUp()
        (self.folder / "in").mkdir()
        self.out = self.folder / "out"

    def packed(self, name: str, text: str = "") -> str:
        """Pack the report, with another table l_01 if a text is given."""
        path = self.folder / "in" / name
        with zipfile.ZipFile(path, "w") as archive:
            for file in sorted((self.folder / "report").rglob("*")):
                if file.is_file():
                    own = text if text and file.name == "l_01.csv" else file.read_text()
                    archive.writestr(str(file.relative_to(self.folder / "report")), own)
        return f"in/{name}"

    def run_many(self, *words: str, status: int) -> str:
        more = ["--taxonomy", "taxonomy", "--into", "out"]
        done = self.run_filing(*words[: words.index("--")], *more, *words[words.index("--") + 1 :])
        self.assertEqual(done.returncode, status, done.stderr)
        return done.stderr

    def listed(self, path: Path) -> List[Tuple[str, str, str]]:
        """Return the reports of an index: name, outcome and link."""
        text = path.read_text()
        self.check_safe(text)
        found = []
        for it in read(text).all("tbody")[0].all("tr"):
            links = [link.attributes["href"] or "" for link in it.all("a")]
            outcome = it.attributes["data-outcome"] or ""
            found.append((it.all("th")[0].text(), outcome, links[0] if links else ""))
        return found

    def test_pages_and_index(self) -> None:
        """Writes a page for each report, and the index with the refused ones first."""
        good, bad = self.packed("a.zip"), self.packed("b.zip", "datapoint,factValue\ndp1,x\n")
        broken = self.folder / "in/c.zip"
        broken.write_bytes(b"PK\3\4 and no more")
        reports = [good, bad, "in/c.zip"]
        self.run_many(*reports, "--", "--page", "out/index.html", status=1)
        wanted = [("in/b.zip", "refused", "./b.html"), ("in/c.zip", "refused", "./c.html")]
        wanted.append(("in/a.zip", "done", "./a.html"))
        self.assertEqual(self.listed(self.out / "index.html"), wanted)
        titles = {}
        for name in "abc":
            text = (self.out / f"{name}.html").read_text()
            self.check_safe(text)
            titles[name] = read(text).all("title")[0].text()
        self.assertEqual(
            titles, {"a": "Converted: in/a.zip", "b": "Refused: in/b.zip", "c": "Refused: in/c.zip"}
        )
        title = read((self.out / "index.html").read_text()).all("title")[0].text()
        self.assertEqual(title, "Refused: 2 reports of 3")
        faults = read_faults(str(self.out / "b.faults.csv"))
        shown = shown_faults(read((self.out / "b.html").read_text()))
        self.assertEqual([it.table for it in shown], [it.table for it in faults])
        self.assertIn(
            "is damaged", shown_faults(read((self.out / "c.html").read_text()))[0].sentence
        )

    def test_again(self) -> None:
        """Keeps what was done, unless the page is missing; removes a page that is out of date."""
        report = self.packed("a.zip")
        self.assertNotIn("before", self.run_many(report, "--", status=0))
        self.assertFalse((self.out / "a.html").exists())
        self.assertNotIn("before", self.run_many(report, "--", "--page", "i.html", status=0))
        self.assertIn("1 of them before", self.run_many(report, "--", "--page", "i.html", status=0))
        self.assertEqual(self.listed(self.folder / "i.html"), [(report, "done", "./out/a.html")])
        self.packed("a.zip", "datapoint,factValue\ndp1,x\n")
        self.run_many(report, "--", status=1)
        self.assertFalse((self.out / "a.html").exists())

    def test_what_no_run_made(self) -> None:
        """Leaves a foreign file with the name of a page, with and without pages."""
        self.out.mkdir()
        foreign = self.out / "a.html"
        foreign.write_text("mine")
        report = self.packed("a.zip")
        self.run_many(report, "--", status=0)
        self.run_many(report, "--", "--page", "i.html", status=3)
        self.assertEqual(foreign.read_text(), "mine")
        self.assertEqual(self.listed(self.folder / "i.html"), [(report, "failed", "")])

    def test_where_the_index_may_be(self) -> None:
        """Refuses an index at another output or an input."""
        report = self.packed("a.zip")
        for path in ("out/a.html", "out/a.json", "o.csv"):
            line = self.run_many(report, "--", "--page", path, "--outcomes", "o.csv", status=3)
            self.assertEqual(line, f"xbrl-filing: {path}: {OUTPUT}\n")
        line = self.run_many(report, "--", "--page", report, status=3)
        self.assertIn(FOREIGN, line)
        self.assertEqual(os.listdir(self.folder / "in"), ["a.zip"])

    def test_hostile_names(self) -> None:
        """Links no page but by a relative path, whatever the report is called."""
        names = ["javascript:alert(1).zip", "a'\"<b>&.zip", "#?%41 \u202e.zip"]
        reports = [self.packed(it) for it in names]
        self.run_many(*reports, "--", "--page", "out/index.html", status=0)
        links = [it[2] for it in self.listed(self.out / "index.html")]
        wanted = ["./%23%3F%2541%20%E2%80%AE.html", "./a%27%22%3Cb%3E%26.html"]
        wanted.append("./javascript%3Aalert%281%29.html")
        self.assertEqual(links, wanted)

    def test_long_names_in_other_scripts(self) -> None:
        """Links the page of a report whose name has several bytes for each letter."""
        reports = [self.packed(letter * 50 + ".zip") for letter in ("\u6f22", "\U0001f600")]
        self.run_many(*reports, "--", "--page", "i.html", status=0)
        for _, _, link in self.listed(self.folder / "i.html"):
            self.assertTrue((self.folder / unquote(link)).is_file(), link)

    def test_order(self) -> None:
        """Lists refused, failed, those to try again, and done."""
        words = ["done", "memory", "refused", "failed", "busy", "refused"]
        listed = [Listed(Outcome(f"r{at}", outcome=it), "") for at, it in enumerate(words)]
        text = index(listed, "/")
        self.check_safe(text)
        names = [it.all("th")[0].text() for it in read(text).all("tbody")[0].all("tr")]
        self.assertEqual(names, ["r2", "r5", "r3", "r1", "r4", "r0"])
        self.assertEqual(read(text).all("h1")[0].text(), "Refused: 2 reports of 6")
        others = [it for it in listed if it.outcome.outcome != "refused"]
        self.assertEqual(read(index(others, "/")).all("h1")[0].text(), "Failed: 3 reports of 4")


def contrast(one: str, other: str) -> float:
    """Return the contrast of two colours (WCAG 2.1, section 1.4.3)."""
    light, dark = sorted((luminance(one), luminance(other)), reverse=True)
    return (light + 0.05) / (dark + 0.05)


def luminance(colour: str) -> float:
    parts = [int(colour[at : at + 2], 16) / 255 for at in (1, 3, 5)]
    linear = [it / 12.92 if it <= 0.03928 else pow((it + 0.055) / 1.055, 2.4) for it in parts]
    return float(0.2126 * linear[0] + 0.7152 * linear[1] + 0.0722 * linear[2])


class TestLooks(Case):
    """A page is readable in light and dark, by keyboard and by programs that read it aloud."""

    def test_contrast(self) -> None:
        """Has a contrast of at least 4.5 between each text and its ground."""
        parts = STYLE.split("@media (prefers")
        light, dark = (dict(re.findall(r"--([\w-]+): (#\w{6})", it)) for it in parts)
        self.assertEqual(set(light), set(dark))
        inks = ("ink", "soft", "link", "code")
        pairs = [(it, ground) for it in inks for ground in ("paper", "panel")]
        pairs += [(it, f"{it}-paper") for it in ("bad", "good", "wait")]
        grounds = ("bad-paper", "wait-paper")
        pairs += [(it, ground) for it in ("code", "ink", "soft") for ground in grounds]
        for colours in (light, dark):
            for text, ground in pairs:
                seen = contrast(colours[text], colours[ground])
                self.assertGreaterEqual(seen, 4.5, (text, ground))

    def test_tables_have_captions_and_scopes(self) -> None:
        """Gives each table a caption, each header cell a scope, and each select a label."""
        self.edit("l_01.csv", "datapoint,factValue\ndp1,x\n")
        self.edit("l_02.csv", "counterparty,due,amount,standing\nA,term,y,dom:Watched\n")
        self.convert("--out", "o.json", status=1)
        top = self.top()
        self.assertEqual(top.all("html")[0].attributes["lang"], "en")
        for it in top.all("table"):
            self.assertEqual(len(it.all("caption")), 1)
        for it in top.all("th"):
            self.assertIn(it.attributes.get("scope"), ("row", "col"))
        for it in top.all("label"):
            self.assertEqual(len(it.all("select")), 1)
        self.assertEqual(len(top.all("label")), len(top.all("select")))
        self.assertIn("hidden", top.all("form")[0].attributes)
        for it in top.all("div", "rows"):
            self.assertEqual(it.attributes["tabindex"], "0")
            self.assertTrue(it.attributes["aria-label"])


@unittest.skipUnless(BROWSER, "chromium is not installed")
class TestBrowser(Case):
    """Pages in a browser: the filters work, and nothing of a report is run or blocked."""

    def opened(self, address: str) -> Tuple[Element, str]:
        """Return the elements of a page once its script has run, and what the console has."""
        words = "--headless=new --no-sandbox --disable-gpu --enable-logging=stderr --v=0 --dump-dom"
        done = subprocess.run(
            [BROWSER or "", *words.split(), f"--user-data-dir={self.folder}/profile", address],
            stdin=subprocess.DEVNULL,
            stdout=subprocess.PIPE,
            stderr=subprocess.PIPE,
            text=True,
            timeout=PATIENCE,
            check=True,
        )
        console = [it for it in done.stderr.split("\n") if "CONSOLE" in it]
        return read(done.stdout.replace("<!DOCTYPE html>", "")), "\n".join(console)

    def shown(self, top: Element) -> List[str]:
        """Return the titles of the faults that are not hidden."""
        articles = top.all("article")
        return [it.all("h3")[0].text() for it in articles if "hidden" not in it.attributes]

    def test_filters(self) -> None:
        """Shows the faults of a table or of a number, and the filters only with the script."""
        for name, cell in (("l_01", "x"), ("l_02", "")):
            header = (self.tables / f"{name}.csv").read_text().split("\n")[0]
            row = "dp1,x" if cell else "A,term,y,dom:Watched,z"
            self.edit(f"{name}.csv", f"{header}\n{row}\n")
        self.convert("--out", "o.json", status=1)
        one, two = "Table l_01, row 1, column 2 BadNumber (40)", "Table l_02, row 1 Ragged (26)"
        cases = {"": [one, two], "#table=0": [one], "#table=1": [two], "#fault=40": [one]}
        cases.update({"#fault=26&table=0": [], "#table=9": [one, two], "#f2": [one, two]})
        for part, wanted in cases.items():
            with self.subTest(part=part):
                top, console = self.opened(f"file://{self.page}{part}")
                self.assertEqual((self.shown(top), console), (wanted, ""))
                self.assertNotIn("hidden", top.all("form")[0].attributes)
                told = f"{len(wanted)} of 2 shown"
                self.assertEqual(top.all("output")[0].text(), told)

    def hostile_content(self) -> Content:
        """Return faults of hostile cells, places and names, more than are made at once."""
        cells = [it for it in HOSTILE for _ in range(2 * GROUP // len(HOSTILE) + 1)]
        rows = "".join(f'"{it.replace(chr(34), chr(34) * 2)}"\n' for it in cells)
        self.edit("t.csv", "a,b\n" + rows)
        kinds = [("t", 1, 40), ("t", 0, 26), ("t", 2, min(FORMS))]
        faults = []
        for row, cell in enumerate(cells, 1):
            table, column, number = kinds[row % 3] if row < len(cells) - 40 else ("gone", 1, 40)
            place = ("" if row % 5 else table, row if row % 7 else 0, column, number)
            faults.append(Fault(*place, cell, str(row + 1), cell, cell, cell))
        said = {it: (it.place, it.cell, it.cell, it.cell, "more") for it in faults[::2]}
        tables = [TableFile(it, f"{it}.csv", str(self.tables / f"{it}.csv")) for it in ("t", "gone")]
        return filled(Content("Refused", "r", "", [], len(faults)), tables, faults, said)

    def test_as_wide_as_the_window(self) -> None:
        """Is never wider than its window, and shows the tables of a good report whole."""
        self.edit("l_02.csv", "counterparty,due,amount,standing\n" + "A,term,x,dom:Watched\n" * 3)
        self.convert("--out", "o.json", status=1)
        self.page.rename(self.folder / "bad.html")
        shutil.rmtree(self.folder / "report")
        shutil.copytree(EXAMPLE / "report", self.folder / "report")
        self.convert("--out", "o.json")
        wide = "[...document.querySelectorAll('.wide')].every((it) => it.scrollWidth <= it.clientWidth)"
        root = "document.documentElement"
        with Browser(self.folder) as browser:
            for width in (320, 640, 1280):
                size = {"width": width, "height": 900, "deviceScaleFactor": 1, "mobile": False}
                browser.ask("Emulation.setDeviceMetricsOverride", **size)
                for name in ("bad.html", "page.html"):
                    browser.open(f"file://{self.folder}/{name}")
                    own, window = browser.value(f"[{root}.scrollWidth, {root}.clientWidth]")
                    self.assertLessEqual(own, window, (name, width))
            self.assertTrue(browser.value(wide))

    def test_a_long_name_in_the_index(self) -> None:
        """Leaves room for the lines of reports, however long the name of one is."""
        listed = [Listed(Outcome("x" * 250, outcome="refused", line="word " * 40), "")]
        self.page.write_text(index(listed, "/"), encoding="utf-8")
        with Browser(self.folder) as browser:
            size = {"width": 1280, "height": 900, "deviceScaleFactor": 1, "mobile": False}
            browser.ask("Emulation.setDeviceMetricsOverride", **size)
            browser.open(f"file://{self.page}")
            self.assertGreater(browser.value("document.querySelector('.line').offsetWidth"), 400)

    def test_scripts_from_right_to_left(self) -> None:
        """Writes paths and lines from left to right, and cells as their letters want it."""
        self.edit("l_01.csv", 'datapoint,factValue\n\u05d01,"\u05d0 1,5"\n')
        (self.folder / "report").rename(self.folder / "\u05d0")
        words = ["--taxonomy", "taxonomy", "--page", "page.html", "--out", "o.json"]
        self.assertEqual(self.run_filing("\u05d0", *words).returncode, 1)
        seen = """(name) => [...document.querySelectorAll(`${name} bdi`)]
            .map((it) => getComputedStyle(it).direction)"""
        with Browser(self.folder) as browser:
            browser.open(f"file://{self.page}")
            for name in ("h1", "dd", "caption", "pre", ".path"):
                self.assertEqual(set(browser.value(f"({seen})('{name}')")), {"ltr"}, name)
            self.assertEqual(set(browser.value(f"({seen})('.rows td')")), {"rtl"})

    def test_nothing_of_a_report_runs(self) -> None:
        """Has the same elements in a browser as in the file, and a console without a line."""
        self.page.write_text(page(self.hostile_content()), encoding="utf-8")
        before = self.top()
        self.assertGreater(len(before.all("div", "later")), 1)
        with Browser(self.folder) as browser:
            browser.open(f"file://{self.page}")
            browser.wait_for(ALL_MADE)
            after = read(browser.value("document.documentElement.outerHTML"))
            self.assertEqual(browser.console, [])
        for name in ("script", "style", "article", "td", "mark", "i", "a", "title"):
            seen = [it.text() for it in after.all(name)]
            self.assertEqual(seen, [it.text() for it in before.all(name)], name)
        self.assertLessEqual({it.name for it in after.walk()}, ALLOWED)
        for one, other in zip(after.all("article"), before.all("article")):
            self.assertEqual(one, other)

    def test_a_text_that_is_not_escaped(self) -> None:
        """Shows all but the elements of a page as text, even if it is not escaped."""
        text = page(self.content(2 * GROUP))
        for at, raw in enumerate(UNESCAPED, GROUP + 1):
            text = text.replace(f'id="f{at}"><h3>', f'id="f{at}"><h3>{raw}')
        text = text.replace("</noscript>", "<b>no end</noscript>")
        self.page.write_text(text, encoding="utf-8")
        with Browser(self.folder) as browser:
            browser.open(f"file://{self.page}")
            browser.wait_for(ALL_MADE)
            for at, raw in enumerate(UNESCAPED, GROUP + 1):
                with self.subTest(raw=raw):
                    seen = browser.value(f"document.querySelector('#f{at} h3').textContent")
                    self.assertEqual(seen.partition("Table t")[0], UNESCAPED[raw] or raw)
                    self.assertEqual(browser.count(f"#f{at} h3 *"), 1)
            last = browser.value("document.querySelector('.group ~ .group').textContent.trim()")
            self.assertTrue(last.endswith("\n<b>no end"), last[-200:])
            self.assertEqual(browser.count(".group > b"), 0)
            self.assertEqual(browser.value("document.title"), "Refused: r")
            self.assertEqual(browser.console, [])

    def test_the_policy_blocks_what_is_not_the_page(self) -> None:
        """Has a policy that a browser heeds: a foreign script and style do not run."""
        self.convert("--out", "o.json")
        text = self.page.read_text()
        more = "<script>document.title = 'run'</script><p style='color:red'>x</p></body>"
        self.page.write_text(text.replace("</body>", more))
        after, console = self.opened(f"file://{self.page}")
        self.assertEqual(after.all("title")[0].text(), "Converted: report")
        self.assertIn("Content Security Policy", console)

    def file_of_faults(self) -> Tuple[Path, List[TableFile]]:
        """Write a file of the most faults, a hundred of each table, and the tables."""
        tables, records = [], []
        for at in range(MOST // 100):
            name, odd = f"t{at}<i>", ODD_CELLS[at % len(ODD_CELLS)]
            path = self.tables / f"t{at}.csv"
            with open(path, "w", newline="", encoding="utf-8") as file:
                writer = csv.writer(file, lineterminator="\n")
                writer.writerow(["a", "b & c"])
                writer.writerows([f"{row}", f"{odd}{row}"] for row in range(1, 101))
            tables.append(TableFile(name, f"t{at}.csv", str(path)))
            number, kind = [(40, "BadNumber"), (37, "BadPeriod"), (36, "BadValue")][at % 3]
            for row in range(1, 101):
                cell = f"{odd}{row}"
                records.append([name, row, 2, number, kind, row + 1, "b & c", cell, ""])
        faults = self.folder / "f.csv"
        with open(faults, "w", newline="", encoding="utf-8") as file:
            csv.writer(file, lineterminator="\n").writerows([list(FIELDS), *records])
        return faults, tables

    def page_of_the_most(self) -> Path:
        """Write the page of the most faults, and return the file that has them."""
        path, tables = self.file_of_faults()
        found = faults_of(str(path), MOST)
        content = filled(Content("Refused", "r", "", [], found.total), tables, found.faults, {})
        self.page.write_text(page(content), encoding="utf-8")
        return path

    def test_ten_thousand_faults(self) -> None:
        """Opens a page of the most faults soon, shows each as the file has it, and filters them."""
        path = self.page_of_the_most()
        with Browser(self.folder) as browser:
            seconds = browser.open(f"file://{self.page}")
            told = browser.value(TOLD)
            browser.value(PICKED)
            picked = browser.value(TOLD)
            browser.wait_for(ALL_MADE)
            shown = browser.value(SHOWN)
            self.assertEqual(browser.console, [])
        with open(path, newline="", encoding="utf-8") as file:
            records = list(csv.DictReader(file))
        title = "Table {table_id}, row {table_row}, column {table_column} {fault_name} ({fault_number})"
        titles = [title.format(**it) for it in records]
        self.assertEqual([it[0] for it in shown], titles)
        for (_, why, mark, _), record in zip(shown, records):
            sentence = re.sub("[`]", "", REMEDIES[int(record["fault_number"])][0])
            cell = None if mark is None else read(markup(record["row_cell"], 60)).text()
            self.assertEqual((why, mark), (sentence, cell))
        self.assertGreater(sum(it[2] is not None for it in shown), 500)
        periods = [it for it, record in zip(titles, records) if record["fault_number"] == "37"]
        self.assertEqual([it[0] for it in shown if it[3]], periods)
        self.assertEqual((told, picked), ("10,000 of 10,000 shown", f"{len(periods):,} of 10,000 shown"))
        self.assertLess(seconds, MOST_YARDSTICKS * yardstick())

    def test_without_scripts(self) -> None:
        """Has all faults where no script runs, and no filters."""
        self.page.write_text(page(self.content(5 * GROUP // 2)), encoding="utf-8")
        with Browser(self.folder) as browser:
            browser.ask("Emulation.setScriptExecutionDisabled", value=True)
            browser.load(f"file://{self.page}")
            self.assertEqual(browser.count("article.fault"), 5 * GROUP // 2)
            self.assertEqual(browser.count(".filters:not([hidden])"), 0)

    def test_one_fault_that_is_made_later(self) -> None:
        """Says so even of one fault, where a script may be blocked."""
        self.assertIn("it has 1 fault more.", page(self.content(GROUP + 1)))
        self.assertNotIn("blocked: it has", page(self.content(GROUP)))

    def test_a_blocked_script(self) -> None:
        """Says that faults are missing where a browser takes scripts, but not that of the page."""
        text = page(self.content(2 * GROUP))
        self.page.write_text(text.replace("script-src 'sha256-", "script-src 'sha256-x"))
        with Browser(self.folder) as browser:
            browser.open(f"file://{self.page}")
            self.assertEqual(browser.count("article.fault"), GROUP)
            self.assertEqual(browser.count(".blocked:not([hidden])"), 1)
            told = browser.value("document.querySelector('.blocked').textContent")
            self.assertIn("it has 100 faults more", told)

    def test_faults_that_are_not_made_yet(self) -> None:
        """Makes a fault to which the address leads, those scrolled to, and all to print."""
        self.page.write_text(page(self.content(9 * GROUP)), encoding="utf-8")
        cases = {
            "#f876": ("", "#f876"),
            "#fault=40": ("scrollTo(0, document.body.scrollHeight)", "#f801"),
            "": ("dispatchEvent(new Event('beforeprint'))", "#f900"),
        }
        for part, (done, wanted) in cases.items():
            with self.subTest(part=part), Browser(self.folder) as browser:
                browser.ask("Page.addScriptToEvaluateOnNewDocument", source=NEVER_IDLE)
                browser.open(f"file://{self.page}{part}")
                browser.value(done)
                browser.wait_for(f"document.querySelector('{wanted}')?.textContent.length > 9")
                self.assertEqual(browser.count(".blocked:not([hidden])"), 0)
                self.assertEqual(browser.console, [])


if __name__ == "__main__":
    if len(sys.argv) > 1 and os.path.isfile(sys.argv[1]):
        PROGRAM = os.path.abspath(sys.argv.pop(1))
    unittest.main()
