"""Tests `xbrl-filing --summary FILE`: what it has of a run, and where it may be written.

The made-up filing of examples/filing is filed. If xbrl-json has no option `--counts` yet, a script
takes its place: it runs the real one, and counts in the document.
"""

from __future__ import annotations

import csv
import hashlib
import io
import json
import os
import pty
import re
import shutil
import subprocess
import sys
import tempfile
import unittest
import zipfile
from pathlib import Path
from typing import Any, Dict, List, Optional, Tuple

TOP = Path(__file__).resolve().parent.parent
sys.path.insert(0, str(TOP))

from filing.converter_program import has_counts  # noqa: E402
from filing.counts import Numbers  # noqa: E402
from filing.filed import Filed, Table  # noqa: E402
from filing.summary import table_lines  # noqa: E402
from tests.filings import FILING  # noqa: E402
from tests.harness import PATIENCE, PROGRAM  # noqa: E402

EXAMPLE = TOP / "examples/filing"
MEMBERS = ("rows", "facts", "withoutUnit", "withoutDecimals", "withoutEntity", "withoutPeriod")
CACHE = ("--cache", "cache")
FOREIGN = "another file than a summary is there"

# Runs the real program without `--counts FILE`, and writes that file after status 0.
COUNTING = """#!{python}
import csv, json, os, subprocess, sys
words, counts = sys.argv[1:], None
if words == ["--help"]:
    sys.stdout.write("      --counts <FILE>  what a run has counted\\n")
    sys.exit(0)
if "--counts" in words:
    at = words.index("--counts")
    counts = words[at + 1]
    del words[at : at + 2]
out = words[words.index("--out") + 1] if "--out" in words else None
status = subprocess.run([{real!r}, *words], close_fds=False).returncode
if counts and status == 0:
    with open(words[0]) as file:
        meta = json.load(file)
    with open(out) as file:
        facts = json.load(file)["facts"]
    tables = []
    for name in sorted(meta["tables"], key=str.encode):
        url = meta["tables"][name]["url"]
        path = os.path.join(os.path.dirname(words[0]), url)
        own = [it for key, it in facts.items() if key.split(".")[0] == name]
        rows = 0
        if os.path.exists(path):
            with open(path, encoding="utf-8-sig", newline="") as file:
                rows = len([it for it in csv.reader(file) if it]) - 1
        table = dict(table=name, url=url, read=os.path.exists(path), rows=rows, facts=len(own))
        for key in ("Unit", "Entity", "Period"):
            table["without" + key] = sum(key.lower() not in it["dimensions"] for it in own)
        table["withoutDecimals"] = sum("decimals" not in it for it in own)
        tables.append(table)
    with open(counts, "w") as file:
        json.dump({{"tables": tables}}, file)
sys.exit(status if status >= 0 else 128 - status)
"""


def counted(facts: Dict[str, Dict[str, Any]], table: str, rows: int) -> Dict[str, int]:
    """Return the counts of a table by the facts of a document."""
    own = [fact for name, fact in facts.items() if name.startswith(f"{table}.")]
    without = {
        key: len([fact for fact in own if key not in fact["dimensions"]])
        for key in ("unit", "entity", "period")
    }
    exact = len([fact for fact in own if "decimals" not in fact])
    numbers = (rows, len(own), without["unit"], exact, without["entity"], without["period"])
    return dict(zip(MEMBERS, numbers))


class Case(unittest.TestCase):
    """A scratch folder with a report and a taxonomy, as folders."""

    def setUp(self) -> None:
        scratch = tempfile.TemporaryDirectory()
        self.addCleanup(scratch.cleanup)
        self.folder = Path(scratch.name).resolve()
        self.temporary = self.folder / "tmp"
        self.temporary.mkdir()
        shutil.copytree(EXAMPLE / "report", self.folder / "report")
        shutil.copytree(EXAMPLE / "taxonomy", self.folder / "taxonomy")
        self.tables = self.folder / "report/reports"
        self.program = PROGRAM if has_counts(PROGRAM) else self.counting()

    def counting(self) -> str:
        """Return a script that takes the place of a program without counts."""
        return self.script("counting", COUNTING.format(python=sys.executable, real=PROGRAM))

    def script(self, name: str, text: str) -> str:
        path = self.folder / name
        path.write_text(text)
        path.chmod(0o755)
        return str(path)

    def environment(self) -> Dict[str, str]:
        return {**os.environ, "XBRL_JSON": self.program, "TMPDIR": str(self.temporary)}

    def run_filing(self, *words: str, status: int = 0) -> str:
        """Run the command in the folder, and return its lines. It may leave no temporary file."""
        done = subprocess.run(
            [FILING, *words],
            cwd=self.folder,
            env=self.environment(),
            stdin=subprocess.DEVNULL,
            stdout=subprocess.PIPE,
            stderr=subprocess.PIPE,
            text=True,
            timeout=PATIENCE,
        )
        self.assertEqual(done.returncode, status, done.stderr)
        self.assertEqual(os.listdir(self.temporary), [])
        return done.stderr

    def convert(self, *words: str, report: str = "report", status: int = 0) -> str:
        """Convert the report with a summary."""
        more = ["--taxonomy", "taxonomy", "--out", "o.json", "--summary", "s.json", *words]
        return self.run_filing(report, *more, status=status)

    def summary(self, name: str = "s.json") -> Any:
        return json.loads((self.folder / name).read_text())

    def edit(self, table: str, text: str) -> None:
        (self.tables / table).write_text(text)

    def packed(self, name: str) -> str:
        """Pack the report, and return the path of the ZIP."""
        (self.folder / name).parent.mkdir(exist_ok=True)
        with zipfile.ZipFile(self.folder / name, "w") as archive:
            for path in sorted((self.folder / "report").rglob("*")):
                archive.write(path, path.relative_to(self.folder / "report"))
        return name

    def sha256(self, name: str) -> str:
        return hashlib.sha256((self.folder / name).read_bytes()).hexdigest()


class TestContent(Case):
    """What a summary has."""

    def test_counts_agree_with_the_document(self) -> None:
        """Has the counts that the document gives to another reader."""
        self.assertEqual(self.convert(), "")
        facts = json.loads((self.folder / "o.json").read_text())["facts"]
        summary = self.summary()
        wanted: Dict[str, Dict[str, Any]] = {}
        for name in ("FilingIndicators", "l_01", "l_02"):
            text = (self.tables / f"{name}.csv").read_text()
            rows = len(list(csv.reader(io.StringIO(text)))) - 1
            names = {"file": f"report/reports/{name}.csv", "template": name}
            wanted[name] = {**names, **counted(facts, name, rows)}
        seen = {table.pop("table"): table for table in summary["tables"]}
        self.assertEqual(seen, wanted)
        self.assertEqual(list(seen), sorted(wanted))
        self.assertGreater(seen["l_01"]["withoutUnit"], 0)
        self.assertGreater(seen["FilingIndicators"]["withoutDecimals"], 0)
        sums = {name: sum(table[name] for table in wanted.values()) for name in MEMBERS}
        self.assertEqual(summary["total"], sums)
        self.assertEqual(summary["total"]["facts"], len(facts))

    def test_digests(self) -> None:
        """Has the digests of the document and the inputs as sha256sum has them."""
        report = self.packed("q3.zip")
        (self.folder / "taxonomy/a\\b\nc\rd").write_text("a file of an odd name")
        self.convert(report=report)
        summary = self.summary()
        size = (self.folder / "o.json").stat().st_size
        document = {"file": "o.json", "bytes": size, "sha256": self.sha256("o.json")}
        self.assertEqual(summary["document"], document)
        first, second = summary["inputs"]
        size = (self.folder / report).stat().st_size
        self.assertEqual(first, {"file": report, "bytes": size, "sha256": self.sha256(report)})
        tools = "find . -type f -print0 | LC_ALL=C sort -z | xargs -0 sha256sum | sha256sum"
        place = self.folder / "taxonomy"
        done = subprocess.run(["sh", "-c", tools], cwd=place, capture_output=True, check=True)
        wanted = done.stdout.decode().split()[0]
        self.assertEqual((second["folder"], second["sha256"]), ("taxonomy", wanted))

    def test_a_package_that_is_given_twice(self) -> None:
        """Has each input once."""
        self.run_filing(*"report --taxonomy taxonomy taxonomy report --out o --summary s.json".split())
        seen = [it["folder"] for it in self.summary()["inputs"]]
        self.assertEqual(seen, ["report", "taxonomy"])

    def test_a_metadata_file_by_itself(self) -> None:
        """Has each file that a report without a package is in, with its digest."""
        self.convert(report="report/reports/report.json")
        report, taxonomy, *others = self.summary()["inputs"]
        self.assertEqual((report["file"], taxonomy["folder"]), ("report/reports/report.json", "taxonomy"))
        seen = {Path(it["file"]).name: it["sha256"] for it in others}
        names = [f"{name}.csv" for name in ("FilingIndicators", "l_01", "l_02", "parameters")]
        self.assertEqual(seen, {name: self.sha256(f"report/reports/{name}") for name in names})

    def test_versions_and_seconds(self) -> None:
        """Has the version of xbrl-json and of Python, and a time that has passed."""
        self.convert()
        summary = self.summary()
        said = subprocess.run([PROGRAM, "--version"], capture_output=True, text=True).stdout
        self.assertEqual(summary["versions"]["xbrl-json"], said.strip())
        self.assertRegex(summary["versions"]["python"], r"\A3\.\d+\.\d+")
        self.assertGreaterEqual(summary["seconds"]["all"], summary["seconds"]["xbrl-json"])
        self.assertGreater(summary["seconds"]["xbrl-json"], 0)
        self.assertEqual((summary["outcome"], summary["faults"]), ("converted", 0))

    def test_parameters(self) -> None:
        """Has each parameter with its value and the file that gives it."""
        self.convert()
        file = "report/reports/parameters.csv"
        with open(self.folder / file, newline="") as records:
            wanted = sorted(list(csv.reader(records))[1:])
        seen = [[it["name"], it["value"]] for it in self.summary()["parameters"]]
        self.assertEqual(seen, wanted)
        self.assertEqual({it["file"] for it in self.summary()["parameters"]}, {file})

    def test_parameters_of_the_metadata(self) -> None:
        """Has those of the module and of a table too, with and without a cache."""
        module = self.folder / "taxonomy/supervision.example/2025/liq/liq.json"
        value = json.loads(module.read_text())
        value["parameters"] = {"spare": "1"}
        value["tables"]["l_01"]["parameters"] = {"own": "2"}
        module.write_text(json.dumps(value))
        label = "taxonomy/supervision.example/2025/liq/liq.json"
        for words in ((), CACHE, CACHE):
            self.convert(*words)
            seen = [it for it in self.summary()["parameters"] if it["name"] in ("own", "spare")]
            wanted = [("own", "2", label), ("spare", "1", label)]
            self.assertEqual([tuple(it.values()) for it in seen], wanted, words)

    def test_the_same_with_a_cache(self) -> None:
        """Says the same of a module that is kept as of one that is joined."""
        made = []
        for words in ((), CACHE, CACHE):
            self.convert(*words)
            made.append({**self.summary(), "seconds": None})
        self.assertTrue(any(it.endswith(".module") for it in os.listdir(self.folder / "cache")))
        self.assertEqual(made[1:], made[:1] * 2)

    def test_standard_output(self) -> None:
        """Leaves the document on standard output, of which no digest is known."""
        if self.program != PROGRAM:
            self.skipTest("the script counts in a file")
        self.run_filing("report", "--taxonomy", "taxonomy", "--summary", "s.json")
        document = {"file": "standard output", "bytes": None, "sha256": None}
        self.assertEqual(self.summary()["document"], document)
        self.assertEqual(self.summary()["total"]["facts"], 10)


class TestIndicators(Case):
    """Optional tables without a file, and what filing indicators say against the tables."""

    def told(self, text: str) -> Tuple[List[str], List[str]]:
        """Return the contradictions of a table of indicators."""
        self.edit("FilingIndicators.csv", f"template,filed\n{text}")
        self.convert()
        summary = self.summary()
        return summary["trueWithoutFacts"], summary["falseWithFacts"]

    def test_nothing_is_wrong(self) -> None:
        """Lists the indicators, and the table that is not filed."""
        self.convert()
        summary = self.summary()
        absent = [{"table": "l_03", "file": "report/reports/l_03.csv"}]
        self.assertEqual(summary["optionalWithoutFile"], absent)
        self.assertEqual((summary["trueWithoutFacts"], summary["falseWithFacts"]), ([], []))
        facts = {it["template"]: (it["filed"], it["facts"]) for it in summary["indicators"]}
        self.assertEqual(facts, {"l_01": (True, 3), "l_02": (True, 4), "l_03": (False, 0)})
        tables = {it["template"]: it["tables"] for it in summary["indicators"]}
        self.assertEqual(tables, {name: [name] for name in ("l_01", "l_02", "l_03")})

    def module(self) -> Tuple[Path, Any]:
        """Return the module's metadata file and its value."""
        path = self.folder / "taxonomy/supervision.example/2025/liq/liq.json"
        return path, json.loads(path.read_text())

    def test_tables_that_are_not_filed(self) -> None:
        """Lists them by identifier, in whichever order the module has them."""
        path, value = self.module()
        for name in ("z_1", "l_1", "A_1"):
            value["tables"][name] = {"url": f"{name}.csv", "template": "l_03", "optional": True}
        path.write_text(json.dumps(value))
        self.convert()
        seen = [it["table"] for it in self.summary()["optionalWithoutFile"]]
        self.assertEqual(seen, ["A_1", "l_03", "l_1", "z_1"])

    def test_nothing_is_filed(self) -> None:
        """Has no rows and no facts, if no table has a file."""
        common = self.folder / "taxonomy/supervision.example/2025/common.json"
        value = json.loads(common.read_text())
        value["tables"]["FilingIndicators"]["optional"] = True
        common.write_text(json.dumps(value))
        for name in ("FilingIndicators", "l_01", "l_02"):
            (self.tables / f"{name}.csv").unlink()
        self.convert()
        self.assertEqual(self.summary()["total"], dict.fromkeys(MEMBERS, 0))
        self.assertEqual((self.summary()["tables"], self.summary()["indicators"]), ([], []))

    def test_true_without_facts(self) -> None:
        """Names a template of no table, of an absent one, and of one without a row."""
        rows = "l_01,true\nl_02,true\nl_03,true\nl_77,1\n"
        self.edit("l_02.csv", "counterparty,due,amount,standing\n")
        self.assertEqual(self.told(rows), (["l_02", "l_03", "l_77"], []))

    def test_false_with_facts(self) -> None:
        """Names a template that has facts, however it is spelt."""
        self.assertEqual(self.told("L_01,false\nl.02,0\nl_03,false\n"), ([], ["L_01", "l.02"]))
        self.assertEqual(self.told("l_01, false \n"), ([], ["l_01"]))

    def test_tables_of_a_template(self) -> None:
        """Takes the tables whose names go on after a dot as those of the template."""
        self.assertEqual(self.told("l,false\nl_0,true\n"), (["l_0"], ["l"]))

    def test_name_of_the_file(self) -> None:
        """Takes the name of a table's file as that of its template too."""
        path, value = self.module()
        value["tables"]["l_02"]["url"] = "sub/Q_07.01.csv"
        path.write_text(json.dumps(value))
        (self.tables / "sub").mkdir()
        (self.tables / "l_02.csv").rename(self.tables / "sub/Q_07.01.csv")
        self.assertEqual(self.told("q_07_01,false\nq_07,true\nq_07.02,false\n"), ([], ["q_07_01"]))

    def test_not_a_table_of_indicators(self) -> None:
        """Passes over a table of another shape."""
        common = self.folder / "taxonomy/supervision.example/2025/common.json"
        value = json.loads(common.read_text())
        columns = value["tableTemplates"]["FilingIndicators"]["columns"]
        del columns["filed"]["dimensions"]["dim:Template"]
        common.write_text(json.dumps(value))
        self.assertEqual(self.told("l_01,false\n"), ([], []))


class TestRefused(Case):
    """Summaries of reports that are refused, and programs that tell no counts."""

    def test_by_the_converter(self) -> None:
        """Has the number of faults, and no counts."""
        self.edit("l_01.csv", "datapoint,factValue\ndp1,x\n")
        self.convert("--whole", status=1)
        summary = self.summary()
        self.assertEqual((summary["outcome"], summary["faults"]), ("refused", 1))
        self.assertIsNone(summary["document"])
        self.assertEqual(summary["total"], dict.fromkeys(MEMBERS))
        self.assertEqual([it["facts"] for it in summary["tables"]], [None] * 3)
        self.assertEqual(summary["indicators"], [])

    def test_before_the_converter(self) -> None:
        """Has the line of xbrl-filing."""
        (self.tables / "parameters.csv").unlink()
        line = self.convert(status=1)
        summary = self.summary()
        self.assertEqual(f"xbrl-filing: {summary['line']}\n", line)
        self.assertEqual((summary["outcome"], summary["tables"]), ("refused", []))
        self.assertEqual([it["folder"] for it in summary["inputs"]], ["report", "taxonomy"])

    def test_a_program_without_counts(self) -> None:
        """Refuses one in a line before anything is written; a page needs no counts."""
        text = f'#!/bin/sh\ncase $1 in --help) exit 0 ;; esac\nexec {PROGRAM} "$@"\n'
        self.program = self.script("older", text)
        line = self.convert(status=3)
        why = "has no option --counts, which --summary needs: take a newer xbrl-json"
        self.assertEqual(line, f"xbrl-filing: {self.program}: {why}\n")
        self.assertEqual([(self.folder / it).exists() for it in ("o.json", "s.json")], [False] * 2)
        words = ["--into", "many", "--summary", "s.json"]
        given = ["report", "--taxonomy", "taxonomy"]
        self.assertEqual(self.run_filing(*given, *words, status=3), line)
        self.assertEqual(self.run_filing(*given, "--out", "o.json", "--page", "p.html"), "")
        self.assertNotIn("Without unit", (self.folder / "p.html").read_text())

    def test_a_program_that_hangs_or_is_missing(self) -> None:
        """Tells of a program that cannot run by a line."""
        self.program = str(self.folder / "none")
        self.assertIn("has no option --counts", self.convert(status=3))

    def test_counts_that_are_none(self) -> None:
        """Refuses a file of counts that is missing, broken or of another shape."""
        broken = ['{"tables": [{"table": "l_01"}]}', "[]", "{", '{"tables": 1}']
        true = json.dumps({"tables": [{"table": "t", "url": "t", "read": True, **dict.fromkeys(MEMBERS, True)}]})
        for counts in ["", true, *broken]:
            write = f"open(w[w.index('--counts') + 1], 'w').write({counts!r})" if counts else ""
            text = f"#!{sys.executable}\nimport sys\nw = sys.argv\n"
            text += "if '--help' in w: sys.exit(print('--counts'))\n"
            text += f"open(w[w.index('--faults') + 1], 'w').write('table\\n')\n{write}\n"
            self.program = self.script("broken", text)
            line = self.convert(status=3)
            self.assertRegex(line, r"\Axbrl-filing: .*\.json: cannot read \(.*\)\n\Z")
            self.assertFalse((self.folder / "s.json").exists())


class TestWhere(Case):
    """Where a summary may be written."""

    def test_over_a_summary_alone(self) -> None:
        """Replaces a summary and an empty file, and nothing else."""
        path = self.folder / "s.json"
        for before in (b"", None):
            if before is not None:
                path.write_bytes(before)
            self.convert()
            self.assertEqual(self.summary()["kind"], "xbrl-filing summary")
        path.write_text('{"mine": 1}')
        line = f"xbrl-filing: s.json: cannot write ({FOREIGN})\n"
        self.assertEqual(self.convert(status=3), line)
        self.assertEqual(path.read_text(), '{"mine": 1}')

    def test_not_over_another_output_or_an_input(self) -> None:
        """Refuses the document, the page, a file of the report and a folder that is missing."""
        good = ["report", "--taxonomy", "taxonomy", "--out", "o.json", "--page", "p.html"]
        other, inside = "it is another output of this run", "it stands inside of a package"
        cases = [("o.json", other), ("p.html", other), ("o.json.new", other)]
        cases += [("report/s.json", inside), ("no/s.json", "there is no folder")]
        for path, why in cases:
            line = self.run_filing(*good, "--summary", path, status=3)
            self.assertTrue(line.startswith(f"xbrl-filing: {path}: cannot write ({why}"), line)
        self.assertFalse((self.folder / "o.json").exists())

    def test_words(self) -> None:
        """Means nothing in a run that converts nothing, and is given once."""
        for words in (["--prepare", "new"], ["--parameters"]):
            line = self.run_filing("report", "--summary", "s.json", *words, status=2)
            why = f"with {words[0]} nothing is converted, so '--summary' means nothing"
            self.assertEqual(line, f"xbrl-filing: {why}; try --help\n")
        line = self.run_filing("report", "--summary", "a", "--summary", "b", status=2)
        self.assertEqual(line, "xbrl-filing: --summary stands twice; try --help\n")

    def test_on_a_terminal(self) -> None:
        """Prints a table on a terminal, with the tables that are not as they should be."""
        text = "template,filed\nl_01,true\nl_02,true\nl_03,true\n"
        self.edit("FilingIndicators.csv", text)
        controller, terminal = pty.openpty()
        words = ["report", "--taxonomy", "taxonomy", "--out", "o.json", "--summary", "s.json"]
        done = subprocess.run(
            [FILING, *words],
            cwd=self.folder,
            env=self.environment(),
            stdin=subprocess.DEVNULL,
            stderr=terminal,
            timeout=PATIENCE,
        )
        os.close(terminal)
        shown = os.read(controller, 1 << 16).decode()
        os.close(controller)
        self.assertEqual(done.returncode, 0, shown)
        lines = [line.split() for line in shown.rpartition("\x1b[K")[2].split("\r\n")]
        self.assertEqual(lines[0][:3], ["table", "rows", "facts"])
        self.assertIn(["l_01", "3", "3", "1", "0", "0", "0"], lines)
        self.assertIn(["l_02", "2", "4", "2", "2", "0", "0"], lines)
        self.assertIn(["all", "3", "tables", "8", "10"], [line[:5] for line in lines])
        self.assertIn("optional tables without a file: l_03".split(), lines)
        self.assertIn("filing indicators that are true without facts: l_03".split(), lines)


class TestLines(unittest.TestCase):
    """The table of a summary, at several widths of a terminal."""

    def lines(self, names: List[str], columns: int) -> List[str]:
        """Return the lines of tables of these names, each with a million rows and facts."""
        numbers = Numbers(1_000_000, 1_000_000)
        tables = tuple(Table(name, f"{name}.csv", name, numbers) for name in names)
        return table_lines(Filed(tables, (), (), ()), columns)

    def test_as_wide_as_the_terminal(self) -> None:
        """Cuts names so that a line fits, but to no less than they can be told apart by."""
        names = ["short", "n" * 30, "n" * 50]
        for columns, wanted in ((10, 16), (80, 16), (88, 22), (96, 30), (106, 40), (300, 40)):
            lines = self.lines(names, columns)
            front = {line.index("  1,000,000") for line in lines if "1,000,000" in line}
            self.assertEqual(front, {wanted}, columns)
            self.assertEqual({len(line) for line in lines}, {66 + wanted}, columns)
        self.assertIn(f"{'n' * 20}..  1,000,000", self.lines(names, 88)[2])
        self.assertIn(f"{'n' * 30}  1,000,000", self.lines(names, 96)[2])

    def test_other_scripts(self) -> None:
        """Takes two columns for a wide letter, none for a mark, and keeps numbers in order."""
        wide, marked, right = "\u6f22" * 12, "e\u0301" * 12, "\u05d0" * 24
        lines = self.lines([wide, marked, right], 200)
        fronts = [line.partition("  1,000,000")[0] for line in lines[1:4]]
        self.assertEqual(fronts, [wide, marked + " " * 12, right + "\u200e"])
        cut = self.lines([wide * 2, marked * 2], 88)
        self.assertTrue(cut[1].startswith("\u6f22" * 10 + "..  1,000,000"), cut[1])
        self.assertTrue(cut[2].startswith("e\u0301" * 20 + "..  1,000,000"), cut[2])

    def test_many_tables(self) -> None:
        """Has the first tables, how many more there are, and the sum of all."""
        lines = self.lines([f"t{at}" for at in range(1042)], 80)
        self.assertEqual(len(lines), 1 + 40 + 2)
        self.assertEqual(lines[-2].split(), ["..", "1,002", "more"])
        self.assertEqual(lines[-1].split()[:4], ["all", "1,042", "tables", "1,042,000,000"])


class TestPage(Case):
    """The counts in a page of the run."""

    def test_tables_and_parameters(self) -> None:
        """Shows rows, facts and what these are without, and the parameters."""
        self.edit("FilingIndicators.csv", "template,filed\nl_01,false\nl_02,true\nl_09,true\n")
        self.convert("--page", "p.html")
        text = (self.folder / "p.html").read_text()
        for head in ("Facts", "Without unit", "Without decimals", "Without entity"):
            self.assertIn(f'<th scope="col" class="count">{head}</th>', text)
        for name, numbers in (("l_01", (3, 3, 1, 0, 0, 0)), ("l_02", (2, 4, 2, 2, 0, 0))):
            cells = "".join(f'<td class="count">{it}</td>' for it in numbers)
            self.assertIn(f"{name}.csv</td>{cells}", text)
        self.assertIn("All tables</th>", text)
        widths = [len(re.findall("<t[hd]", row)) for row in text.partition("</table>")[0].split("<tr")[1:]]
        self.assertEqual(widths, [10] * 5)
        self.assertIn("Optional tables without a file</dt><dd>l_03<", text)
        self.assertIn("true without facts</dt><dd>l_09<", text)
        self.assertIn("false with facts</dt><dd>l_01<", text)
        self.assertIn('<th scope="row">refPeriod</th>', text)


class TestMany(Case):
    """Summaries of a run over many reports."""

    def run_many(self, *words: str, status: int = 0) -> str:
        reports = [self.packed("in/a.zip"), self.packed("in/b.zip"), "in/c.zip"]
        (self.folder / "in/c.zip").write_bytes(b"PK\3\4 and no more")
        more = ["--taxonomy", "taxonomy", "--into", "out", "--summary", "all.json"]
        return self.run_filing(*reports, *more, *words, status=status)

    def test_each_and_all(self) -> None:
        """Writes a summary for each report, and one of all, also if it was done before."""
        facts = len(json.loads((EXAMPLE / "expected.json").read_text())["facts"])
        for _ in range(2):
            self.run_many(status=1)
            summary = self.summary("all.json")
            self.assertEqual(summary["outcomes"], {"done": 2, "refused": 1})
            self.assertEqual(summary["total"]["facts"], 2 * facts)
            seen = [(it["report"], it["facts"], it["outcome"]) for it in summary["reports"]]
            wanted: List[Tuple[str, Optional[int], str]] = [("in/a.zip", facts, "done")]
            wanted += [("in/b.zip", facts, "done"), ("in/c.zip", None, "refused")]
            self.assertEqual(seen, wanted)
        for name in "ab":
            own = self.summary(f"out/{name}.summary.json")
            self.assertEqual(own["total"]["facts"], facts)
            self.assertEqual(own["document"]["sha256"], self.sha256(f"out/{name}.json"))
        self.assertIn("is damaged", self.summary("out/c.summary.json")["line"])

    def test_contradictions(self) -> None:
        """Has the indicators of each report that do not fit its tables."""
        self.edit("FilingIndicators.csv", "template,filed\nl_01,false\nl_03,true\n")
        self.run_many(status=1)
        names = ("report", "trueWithoutFacts", "falseWithFacts")
        seen = [tuple(it[name] for name in names) for it in self.summary("all.json")["reports"]]
        wanted = [(f"in/{name}.zip", ["l_03"], ["l_01"]) for name in "ab"]
        self.assertEqual(seen, [*wanted, ("in/c.zip", [], [])])

    def test_again_and_foreign_files(self) -> None:
        """Converts again what has no summary, and leaves a file that no run has made."""
        self.run_many(status=1)
        (self.folder / "out/a.summary.json").unlink()
        self.assertIn("(1 of them before)", self.run_many(status=1))
        self.assertEqual(self.summary("out/a.summary.json")["outcome"], "converted")
        (self.folder / "out/b.summary.json").write_text("mine")
        self.run_many("--again", status=3)
        self.assertEqual((self.folder / "out/b.summary.json").read_text(), "mine")

    def test_names(self) -> None:
        """Refuses only a report whose document would be the summary of another, and two outputs."""
        reports = [self.packed("in/a.summary.zip"), self.packed("in/a.zip")]
        words = ["--taxonomy", "taxonomy", "--into", "out"]
        for path in ("out/a.json", "out/a.summary.json"):
            line = self.run_filing(reports[1], *words, "--summary", path, status=3)
            self.assertIn("it is another output of this run", line)
        self.assertFalse((self.folder / "out").exists())
        for given in (reports, reports[::-1]):
            line = self.run_filing(*given, *words, "--summary", "s.json", status=3)
            self.assertIn(f"a.summary.json would be written for {reports[1]} too", line)
            self.assertEqual(self.summary("out/a.summary.json")["outcome"], "converted")
            seen = {it["report"]: (it["outcome"], it["summary"]) for it in self.summary("s.json")["reports"]}
            wanted = {reports[0]: ("failed", None), reports[1]: ("done", "out/a.summary.json")}
            self.assertEqual(seen, wanted)
            self.assertFalse((self.folder / "out/a.summary.outcome").exists())
        other = self.run_filing(*reports, "--taxonomy", "taxonomy", "--into", "more")
        self.assertIn("2 done", other)


if __name__ == "__main__":
    unittest.main()
