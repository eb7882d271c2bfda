#!/usr/bin/env python3
"""Tests `xbrl-filing REPORT.. --into FOLDER`: many reports in one run.

    tests/test_batch.py [PROGRAM] [TEST..]

PROGRAM is the built xbrl-json, by default the one that XBRL_JSON names, or dist/xbrl-json. The
made-up filing of examples/filing is filed by several filers. What the system does to a report (no
memory, no thread, a signal, a long time) is played by a script that takes the place of xbrl-json
for reports of certain names. Needs Linux, a shell and Python 3.9 or later.
"""

from __future__ import annotations

import csv
import json
import os
import pty
import re
import shutil
import signal
import subprocess
import sys
import tempfile
import time
import unittest
import zipfile
from pathlib import Path
from typing import Any, Dict, List, Optional, Tuple

TOP = Path(__file__).resolve().parent.parent
sys.path.insert(0, str(TOP))

from filing.faults import HEADER, faults_of  # noqa: E402

FILING = str(TOP / "xbrl-filing")
EXAMPLE = TOP / "examples/filing"
EXPECTED = (EXAMPLE / "expected.json").read_bytes()
PROGRAM = os.path.abspath(os.environ.get("XBRL_JSON") or TOP / "dist/xbrl-json")
SOON = 600.0  # seconds for what must happen on a loaded machine
# Seconds for a report, of which the first suffice on a quiet machine. A run in which nothing began
# within them is made again with the next ones.
TIME_LIMITS = ("8", "60", "300")
TRY_AGAIN = 75

# Plays xbrl-json by the name of the document. All others are converted.
PLAYED = """#!/bin/sh
for word; do [ "$before" = --out ] && out=$word; before=$word; done
case ${out##*/} in
    slow*) echo begun >> "$PLAYED.slow"; exec sleep 600 ;;
    stubborn*) echo begun >> "$PLAYED.stubborn"; trap '' TERM INT; while :; do sleep 0.1; done ;;
    memory*) echo "xbrl-json: table t: Memory (42)" >&2; exit 1 ;;
    run*) echo "xbrl-json: run: Memory (53)" >&2; exit 3 ;;
    read*) echo "xbrl-json: $1: Read (17)" >&2; exit 1 ;;
    thread*) echo "xbrl-json: output: NoThread (43)" >&2; exit 1 ;;
    killed*) kill -KILL $$ ;;
    disk*) echo "xbrl-json: cannot write $out" >&2; exit 3 ;;
    misused*) echo "xbrl-json: '--ring 0' is wrong" >&2; exit 2 ;;
    data*) ulimit -d >&2; exit 1 ;;
    counted*) ls "$PLAYED.now" | wc -l >> "$PLAYED.most"; touch "$PLAYED.now/$$"
              sleep 0.3; rm "$PLAYED.now/$$" ;;
esac
exec "$REAL" "$@"
"""


def packed(source: Path, target: Path, more: Optional[Dict[str, str]] = None) -> str:
    """Pack a folder, with other contents of some files, and return the path of the ZIP."""
    target.parent.mkdir(parents=True, exist_ok=True)
    with zipfile.ZipFile(target, "w") as archive:
        for path in sorted(source.rglob("*")):
            name = str(path.relative_to(source))
            if path.is_file():
                archive.writestr(name, (more or {}).get(name) or path.read_bytes())
    return str(target)


def setUpModule() -> None:
    """Heed SIGINT, which a shell has programs in the background ignore."""
    signal.signal(signal.SIGINT, signal.default_int_handler)


class Case(unittest.TestCase):
    """A scratch folder with a taxonomy, and runs of many reports into its folder `out`."""

    def setUp(self) -> None:
        self.scratch = tempfile.TemporaryDirectory()
        self.addCleanup(self.scratch.cleanup)
        self.folder = Path(self.scratch.name)
        self.out = self.folder / "out"
        self.temporary = self.folder / "tmp"
        self.temporary.mkdir()
        self.taxonomy = packed(EXAMPLE / "taxonomy", self.folder / "taxonomy.zip")
        self.played = self.folder / "played"
        self.played.write_text(PLAYED)
        self.played.chmod(0o755)
        self.environment = {
            **os.environ,
            "TMPDIR": str(self.temporary),
            "PLAYED": str(self.played),
            "REAL": PROGRAM,
            "XBRL_JSON": PROGRAM,
        }

    def play(self) -> None:
        """Let the script take the place of xbrl-json."""
        self.environment["XBRL_JSON"] = str(self.played)

    def reports(self, *names: str) -> List[str]:
        """Return the paths of report packages of these names."""
        return [packed(EXAMPLE / "report", self.folder / f"in/{it}.zip") for it in names]

    def words(self, reports: List[str], *more: str) -> List[str]:
        return [FILING, *reports, "--taxonomy", self.taxonomy, "--into", str(self.out), *more]

    def run_many(self, reports: List[str], *more: str) -> Tuple[int, str]:
        """Run the command to its end, and return its status and lines."""
        done = subprocess.run(
            self.words(reports, *more),
            cwd=self.folder,
            env=self.environment,
            stdin=subprocess.DEVNULL,
            stdout=subprocess.PIPE,
            stderr=subprocess.PIPE,
            text=True,
            timeout=2 * SOON,
            check=False,
        )
        self.assertEqual(done.stdout, "")
        self.assertEqual(os.listdir(self.temporary), [], "temporary files are left")
        return done.returncode, done.stderr

    def start(self, reports: List[str], *more: str) -> subprocess.Popen[bytes]:
        """Start the command; it is ended with the test."""
        process = subprocess.Popen(
            self.words(reports, *more),
            cwd=self.folder,
            env=self.environment,
            stdin=subprocess.DEVNULL,
            stdout=subprocess.DEVNULL,
            stderr=subprocess.DEVNULL,
        )
        self.addCleanup(process.wait)
        self.addCleanup(process.kill)
        return process

    def wait_for(self, what: str, path: Path, size: int = 1) -> None:
        """Wait until a file has some bytes."""
        until = time.monotonic() + SOON
        while not (path.exists() and path.stat().st_size >= size):
            self.assertLess(time.monotonic(), until, f"{what} never")
            time.sleep(0.02)

    def wait_until_gone(self, text: str) -> None:
        """Wait until no process has this text in its command line."""
        until = time.monotonic() + SOON
        while any(text in it for it in command_lines()):
            self.assertLess(time.monotonic(), until, f"a process goes on: {text}")
            time.sleep(0.05)

    def outcome(self, name: str) -> Dict[str, Any]:
        value: Dict[str, Any] = json.loads((self.out / f"{name}.outcome").read_text())
        return value

    def outcomes(self, *names: str) -> Dict[str, str]:
        """Return the outcome word of each report."""
        return {it: str(self.outcome(it)["outcome"]) for it in names}


def command_lines() -> List[str]:
    """Return the command lines of all processes but this one."""
    found = []
    for path in Path("/proc").glob("[0-9]*/cmdline"):
        try:
            if path.parent.name != str(os.getpid()):
                found.append(path.read_bytes().replace(b"\0", b" ").decode(errors="replace"))
        except OSError:
            pass
    return found


class TestDocuments(Case):
    """What a run writes for each report."""

    def test_each_report_has_its_document_faults_and_log(self) -> None:
        status, err = self.run_many(self.reports("a", "b", "c"), "--jobs", "2")
        self.assertEqual(status, 0)
        self.assertRegex(err, r"\Axbrl-filing: 3 reports: 3 done, 0 refused, 0 failed, 0 to try")
        for name in "abc":
            self.assertEqual((self.out / f"{name}.json").read_bytes(), EXPECTED)
            faults = (self.out / f"{name}.faults.csv").read_text()
            self.assertEqual(faults, HEADER.decode())
            self.assertEqual((self.out / f"{name}.log").read_bytes(), b"")

    def test_a_refused_report_does_not_hurt_the_others(self) -> None:
        wrong = packed(EXAMPLE / "taxonomy", self.folder / "in/wrong.zip")
        broken = self.folder / "in/broken.zip"
        broken.write_bytes(b"PK\3\4 and no more")
        status, err = self.run_many([*self.reports("a", "b"), wrong, str(broken)])
        self.assertEqual(status, 1)
        words = {"a": "done", "b": "done", "wrong": "refused", "broken": "refused"}
        self.assertEqual(self.outcomes(*words), words)
        line = f"xbrl-filing: {wrong}: refused (has no xBRL-CSV report in 'reports'"
        self.assertTrue(any(it.startswith(line) for it in err.split("\n")), err)
        self.assertIn("has no xBRL-CSV report", self.outcome("wrong")["line"])
        self.assertFalse((self.out / "wrong.json").exists())
        for name in ("wrong", "broken"):
            (fault,) = faults_of(str(self.out / f"{name}.faults.csv"), 2).faults
            self.assertEqual((fault.name, self.outcome(name)["faults"]), ("Refused", 1))

    def test_faults_are_counted_and_the_first_is_shown(self) -> None:
        tables = EXAMPLE / "report/reports"
        name = "reports/assets.csv"
        text = (tables / "assets.csv").read_text() if (tables / "assets.csv").exists() else ""
        if not text:
            name = next(
                f"reports/{it.name}"
                for it in sorted(tables.glob("*.csv"))
                if it.name not in ("parameters.csv", "FilingIndicators.csv")
            )
            text = (EXAMPLE / "report" / name).read_text()
        bad = text + text.splitlines()[1] + ",x\n"
        report = packed(EXAMPLE / "report", self.folder / "in/bad.zip", {name: bad})
        status, _ = self.run_many([report])
        self.assertEqual(status, 1)
        seen = self.outcome("bad")
        self.assertEqual((seen["outcome"], seen["status"], seen["faults"]), ("refused", 1, 1))
        self.assertRegex(seen["line"], r"\Axbrl-json: table .*: [A-Za-z]+ \(\d+\)\Z")
        self.assertFalse((self.out / "bad.json").exists())
        self.assertEqual(len((self.out / "bad.faults.csv").read_text().splitlines()), 2)

    def test_a_report_that_was_right_and_is_wrong_loses_its_document(self) -> None:
        report = self.reports("a")
        self.assertEqual(self.run_many(report)[0], 0)
        packed(EXAMPLE / "taxonomy", Path(report[0]))
        self.assertEqual(self.run_many(report)[0], 1)
        self.assertFalse((self.out / "a.json").exists())

    def test_a_folder_and_a_metadata_file_are_reports_too(self) -> None:
        shutil.copytree(EXAMPLE / "report", self.folder / "in/one")
        shutil.copytree(EXAMPLE / "report/reports", self.folder / "in/two")
        meta = next((self.folder / "in/two").glob("*.json"))
        meta.rename(meta.with_name("two.json"))
        status, err = self.run_many([str(self.folder / "in/one"), str(meta.with_name("two.json"))])
        self.assertEqual(status, 0, err)
        for name in ("one", "two"):
            self.assertEqual((self.out / f"{name}.json").read_bytes(), EXPECTED)

    def test_options_go_to_the_converter(self) -> None:
        self.assertEqual(self.run_many(self.reports("a"), "--layout=lines")[0], 0)
        self.assertGreater((self.out / "a.json").read_bytes().count(b"\n"), 5)


class TestOutcomes(Case):
    """The lines of `--outcomes`."""

    def test_csv_has_a_record_for_each_report(self) -> None:
        wrong = packed(EXAMPLE / "taxonomy", self.folder / "in/wrong,1.zip")
        self.run_many([*self.reports("a"), wrong], "--outcomes", "o.csv")
        with open(self.folder / "o.csv", newline="", encoding="utf-8") as file:
            rows = {it["report"]: it for it in csv.DictReader(file)}
        self.assertEqual(set(rows), {str(self.folder / "in/a.zip"), wrong})
        done = rows[str(self.folder / "in/a.zip")]
        self.assertEqual((done["outcome"], done["status"], done["faults"]), ("done", "0", "0"))
        self.assertEqual(done["document"], str(self.out / "a.json"))
        self.assertRegex(done["digest"], r"\A[0-9a-f]{64}\Z")
        self.assertGreater(float(done["seconds"]), 0)
        self.assertGreater(int(done["memory"]), 1 << 20)
        self.assertEqual(rows[wrong]["document"], "")

    def test_json_lines_are_those_of_the_outcome_files(self) -> None:
        self.run_many(self.reports("a", "b"), "--outcomes", "o.jsonl")
        lines = sorted((self.folder / "o.jsonl").read_text().splitlines())
        kept = sorted(it.read_text().strip() for it in self.out.glob("*.outcome"))
        self.assertEqual(lines, kept)

    def test_a_line_is_written_as_its_report_ends(self) -> None:
        self.play()
        process = self.start(self.reports("a", "slow"), "--outcomes", "o.jsonl", "--jobs", "2")
        self.wait_for("the first line", self.folder / "o.jsonl")
        self.wait_for("the slow one", Path(f"{self.played}.slow"))
        self.assertIsNone(process.poll())
        self.assertEqual(len((self.folder / "o.jsonl").read_text().splitlines()), 1)


class TestGoingOn(Case):
    """What is done is not done again, whatever ended the run."""

    def times(self, *names: str) -> List[Tuple[int, int]]:
        """Return which files these are, and when they were written. A number may be used again."""
        found = [(self.out / f"{it}.json").stat() for it in names]
        return [(it.st_ino, it.st_mtime_ns) for it in found]

    def test_what_is_done_is_not_done_again(self) -> None:
        reports = [*self.reports("a", "b"), packed(EXAMPLE / "taxonomy", self.folder / "in/w.zip")]
        self.assertEqual(self.run_many(reports, "--outcomes", "o1.jsonl")[0], 1)
        before = self.times("a", "b")
        self.environment["XBRL_JSON"] = self.copy_of_program()
        status, err = self.run_many(reports, "--outcomes", "o2.jsonl")
        self.assertEqual(status, 1)
        self.assertIn("3 reports (3 of them before): 2 done, 1 refused", err)
        self.assertEqual(self.times("a", "b"), before)
        texts = [(self.folder / f"o{it}.jsonl").read_text() for it in (1, 2)]
        self.assertEqual(*(sorted(it.splitlines()) for it in texts))

    def copy_of_program(self) -> str:
        """Return another path of the same xbrl-json: what counts is its version."""
        return str(shutil.copy2(PROGRAM, self.folder / "copy"))

    def test_a_report_that_has_moved(self) -> None:
        (report,) = self.reports("a")
        self.run_many([report])
        moved = self.folder / "moved/a.zip"
        moved.parent.mkdir()
        Path(report).rename(moved)
        status, err = self.run_many([str(moved)], "--outcomes", "o.jsonl")
        self.assertEqual((status, "(1 of them before)" in err), (0, True), err)
        self.assertEqual(json.loads((self.folder / "o.jsonl").read_text())["report"], str(moved))
        self.assertEqual(self.outcome("a")["report"], str(moved))

    def test_another_unpacked_limit_is_done_again(self) -> None:
        self.run_many(self.reports("a"))
        self.changed("--unpacked-limit", "1000000")

    def test_again_does_all_again(self) -> None:
        reports = self.reports("a")
        self.run_many(reports)
        before = self.times("a")
        self.assertEqual(self.run_many(reports, "--again")[0], 0)
        self.assertNotEqual(self.times("a"), before)

    def changed(self, *more: str) -> None:
        before = self.times("a")
        self.assertEqual(self.run_many([str(self.folder / "in/a.zip")], *more)[0], 0)
        self.assertNotEqual(self.times("a"), before)

    def test_a_changed_report_is_done_again(self) -> None:
        self.run_many(self.reports("a"))
        with zipfile.ZipFile(self.folder / "in/a.zip", "a") as archive:
            archive.writestr("note.txt", "changed")
        self.changed()

    def test_a_changed_taxonomy_is_done_again(self) -> None:
        self.run_many(self.reports("a"))
        with zipfile.ZipFile(self.taxonomy, "a") as archive:
            archive.writestr("note.txt", "changed")
        self.changed()

    def test_another_version_is_done_again(self) -> None:
        self.run_many(self.reports("a"))
        other = self.folder / "other"
        other.write_text(
            f'#!/bin/sh\n[ "$1" = --version ] && exec echo other\nexec {PROGRAM} "$@"\n'
        )
        other.chmod(0o755)
        self.environment["XBRL_JSON"] = str(other)
        self.changed()

    def test_other_options_are_done_again(self) -> None:
        self.run_many(self.reports("a"))
        self.changed("--layout", "lines")

    def test_a_document_that_is_gone_is_done_again(self) -> None:
        self.run_many(self.reports("a"))
        (self.out / "a.json").unlink()
        self.assertEqual(self.run_many([str(self.folder / "in/a.zip")])[0], 0)
        self.assertEqual((self.out / "a.json").read_bytes(), EXPECTED)

    def stopped(self, number: int) -> None:
        """Stop a run by a signal in the middle, and run it again."""
        self.play()
        reports = self.reports("a", "slow")
        process = self.start(reports, "--outcomes", "o.jsonl", "--jobs", "2")
        self.wait_for("the first line", self.folder / "o.jsonl")
        self.wait_for("the slow one", Path(f"{self.played}.slow"))
        process.send_signal(number)
        self.assertEqual(process.wait(SOON), -number)
        self.wait_until_gone(str(self.folder))
        self.assertEqual(self.outcomes("a", "slow"), {"a": "done", "slow": "begun"})
        if number != signal.SIGKILL:
            self.assertEqual(os.listdir(self.temporary), [])
        for it in self.temporary.iterdir():  # a killed run leaves empty folders alone
            self.assertEqual([at for at in it.rglob("*") if not at.is_dir()], [])
            shutil.rmtree(it)
        before = self.times("a")
        self.played.write_text(PLAYED.replace("slow*)", "never*)"))
        status, err = self.run_many(reports, "--outcomes", "o.jsonl")
        self.assertEqual(status, 0, err)
        self.assertEqual(self.times("a"), before)
        self.assertEqual(len((self.folder / "o.jsonl").read_text().splitlines()), 2)

    def test_ctrl_c(self) -> None:
        self.stopped(signal.SIGINT)

    def test_sigterm(self) -> None:
        self.stopped(signal.SIGTERM)

    def test_kill_9(self) -> None:
        self.stopped(signal.SIGKILL)


class TestLimits(Case):
    """Limits, and what the system does to a report."""

    def test_a_time_limit_is_told_apart(self) -> None:
        self.play()
        reports = self.reports("a", "slow")
        for limit in TIME_LIMITS:
            status, _ = self.run_many(reports, "--time-limit", limit, "--jobs", "1")
            self.assertEqual(status, TRY_AGAIN)
            self.assertEqual(self.outcome("slow")["outcome"], "time-limit")
            if self.outcomes("a")["a"] == "done":
                break
        self.assertEqual(self.outcomes("a")["a"], "done")

    def test_a_report_that_does_not_end_is_killed(self) -> None:
        self.play()
        began = Path(f"{self.played}.stubborn")
        for limit in TIME_LIMITS:
            status, _ = self.run_many(self.reports("stubborn"), "--time-limit", limit)
            self.assertEqual(status, TRY_AGAIN)
            if began.exists():
                break
        self.assertTrue(began.exists(), "it never began")
        self.assertEqual(self.outcome("stubborn")["outcome"], "time-limit")
        self.wait_until_gone(str(self.played))

    def test_a_memory_limit_is_told_apart(self) -> None:
        self.play()
        status, _ = self.run_many(self.reports("memory"), "--memory-limit", "1000000000")
        self.assertEqual(status, TRY_AGAIN)
        self.assertEqual(self.outcome("memory")["outcome"], "memory-limit")

    def test_a_memory_limit_holds_for_the_converter(self) -> None:
        self.play()
        self.run_many(self.reports("data"), "--memory-limit", "1024000000")
        self.assertEqual((self.out / "data.log").read_text(), "1000000\n")

    def test_a_memory_limit_holds_for_python(self) -> None:
        large = {"reports/parameters.csv": "name,value\n" + "x" * (100 << 20)}
        report = packed(EXAMPLE / "report", self.folder / "in/large.zip", large)
        status, _ = self.run_many([report], "--memory-limit", str(96 << 20))
        self.assertEqual(status, TRY_AGAIN)
        self.assertEqual(self.outcome("large")["outcome"], "memory-limit")

    def test_a_memory_limit_that_is_too_small_to_start(self) -> None:
        status, err = self.run_many(self.reports("none"), "--memory-limit", "15000000")
        self.assertEqual(status, TRY_AGAIN, err)
        self.assertEqual(self.outcome("none")["outcome"], "memory-limit", err)

    def test_what_the_system_does_has_words_of_its_own(self) -> None:
        self.play()
        words = {
            "memory": "memory",
            "run": "memory",
            "read": "read",
            "thread": "thread",
            "killed": "signal",
            "disk": "failed",
        }
        status, err = self.run_many(self.reports(*words))
        self.assertEqual(status, TRY_AGAIN)
        self.assertEqual(self.outcomes(*words), words)
        self.assertIn("0 done, 0 refused, 1 failed, 5 to try again", err)

    def test_what_is_to_be_tried_again_is_done_by_the_next_run(self) -> None:
        self.play()
        reports = self.reports("memory", "killed")
        self.assertEqual(self.run_many(reports)[0], TRY_AGAIN)
        self.environment["XBRL_JSON"] = PROGRAM
        self.assertEqual(self.run_many(reports)[0], 0)

    def test_a_failed_report_gives_status_3(self) -> None:
        self.play()
        self.assertEqual(self.run_many(self.reports("disk", "a"))[0], 3)

    def test_a_wrong_option_of_the_converter_ends_the_run(self) -> None:
        self.play()
        status, err = self.run_many(self.reports("misused", "a"), "--jobs", "1")
        self.assertEqual((status, err), (2, "xbrl-filing: '--ring 0' is wrong\n"))
        self.assertFalse((self.out / "a.json").exists())

    def test_at_most_so_many_jobs_as_asked_for(self) -> None:
        self.play()
        Path(f"{self.played}.now").mkdir()
        self.run_many(self.reports(*(f"counted{it}" for it in range(8))), "--jobs", "3")
        seen = [int(it) for it in Path(f"{self.played}.most").read_text().split()]
        self.assertEqual((len(seen), max(seen) < 3), (8, True), seen)


class TestRefused(Case):
    """What is refused before any report."""

    def refused(self, status: int, line: str, reports: List[str], *more: str) -> None:
        seen = self.run_many(reports, *more)
        self.assertEqual(seen, (status, f"xbrl-filing: {line}\n"))

    def test_two_reports_of_one_name(self) -> None:
        one, two = self.reports("a/x", "b/x")
        Path(two).write_bytes(b"PK\3\4 and no more")
        for names, wanted in (([one, two], "done"), ([two, one], "refused")):
            line = f"cannot write (x.json would be written for {names[0]} too: rename one of them)"
            status, err = self.run_many(names, "--outcomes", "o.jsonl", "--page", "p.html")
            self.assertEqual(status, 3)
            self.assertIn(f"{names[1]}: failed ({line})\n", err)
            lines = (self.folder / "o.jsonl").read_text().splitlines()
            told = {it["report"]: (it["status"], it["outcome"]) for it in map(json.loads, lines)}
            self.assertEqual(told, {names[0]: (int(wanted != "done"), wanted), names[1]: (3, "failed")})
            self.assertEqual(self.outcome("x")["report"], names[0])
            self.assertEqual((self.folder / "p.html").read_text().count("<a href="), 1)

    def test_a_name_that_is_not_utf_8(self) -> None:
        """Fails the report of such a name, and no other."""
        odd = packed(EXAMPLE / "report", self.folder / os.fsdecode(b"in/a\xff.zip"))
        (good,) = self.reports("b")
        status, err = self.run_many([odd, good], "--page", "p.html", "--outcomes", "o.csv")
        self.assertEqual(status, 3)
        shown = odd.replace("\udcff", "\\udcff")
        self.assertIn(f"{shown}: failed (cannot write (its name is not UTF-8: rename it))\n", err)
        self.assertEqual(self.outcome("b")["outcome"], "done")
        self.assertIn(b"a<i>\\xff</i>.zip", (self.folder / "p.html").read_bytes())

    def test_a_name_that_is_that_of_a_summary(self) -> None:
        names = ("a", "a.summary")
        for reports in (self.reports(*names), self.reports(*names)[::-1]):
            status, err = self.run_many(reports)
            self.assertEqual((status, self.outcomes(*names)), (0, dict.fromkeys(names, "done")))
            shutil.rmtree(self.out)
            status, err = self.run_many(reports, "--summary", "s.json")
            line = f"cannot write (a.summary.json would be written for {self.folder}/in/a.zip too"
            self.assertEqual((status, line in err), (3, True), err)
            self.assertEqual(self.outcomes("a"), {"a": "done"})
            shutil.rmtree(self.out)

    def test_an_input_in_the_folder(self) -> None:
        report = packed(EXAMPLE / "report", self.out / "a.zip")
        why = f"{report} stands in it, and is an input of this run"
        self.refused(3, f"{self.out}: cannot write ({why})", [report])
        self.assertEqual(os.listdir(self.out), ["a.zip"])

    def test_a_folder_in_an_input(self) -> None:
        shutil.copytree(EXAMPLE / "report", self.folder / "r")
        self.out = self.folder / "r/out"
        why = f"it stands inside of {self.folder}/r, an input of this run"
        self.refused(3, f"{self.out}: cannot write ({why})", [str(self.folder / "r")])
        self.assertFalse(self.out.exists())

    def test_outcomes_in_the_place_of_an_input(self) -> None:
        report = self.reports("a")
        before = Path(report[0]).read_bytes()
        line = f"{report[0]}: cannot write (it is an input of this run)"
        self.refused(3, line, report, "--outcomes", report[0])
        self.assertEqual(Path(report[0]).read_bytes(), before)

    def test_files_that_no_run_made(self) -> None:
        self.out.mkdir()
        for name in ("a.json", "b.faults.csv", "c.log"):
            (self.out / name).write_text("mine")
        status, _ = self.run_many(self.reports("a", "b", "c", "d"))
        self.assertEqual(status, 3)
        for name in ("a.json", "b.faults.csv", "c.log"):
            self.assertEqual((self.out / name).read_text(), "mine", name)
        self.assertEqual(self.outcome("d")["outcome"], "done")

    def test_options_that_mean_nothing(self) -> None:
        report = self.reports("a")
        for words in (["--out", "x"], ["--faults=x"], ["--parameters"], ["--prepare", "x"]):
            name = words[0].partition("=")[0]
            why = f"with --into each report has its own files, so {name} means nothing"
            self.refused(2, f"{why}; try --help", report, *words)

    def test_values_that_are_none(self) -> None:
        report = self.reports("a")
        for words in (["--jobs", "0"], ["--jobs", "x"], ["--memory-limit", "0"]):
            status, err = self.run_many(report, *words)
            self.assertEqual((status, f"{words[0]} is a whole number" in err), (2, True), err)
        for text in ("0", "-1", "1e3", "nan", ".", "inf"):
            status, err = self.run_many(report, f"--time-limit={text}")
            self.assertEqual((status, "--time-limit is a number of" in err), (2, True), err)
        self.refused(2, "--jobs is given twice; try --help", report, "--jobs=1", "--jobs=2")
        self.refused(2, "--again has no value; try --help", report, "--again=1")
        self.refused(2, "--outcomes needs a value; try --help", report, "--outcomes")

    def test_no_report(self) -> None:
        line = "there is no REPORT: all reports stand before the first option; try --help"
        self.refused(2, line, [])

    def test_a_program_that_is_not_there(self) -> None:
        self.environment["XBRL_JSON"] = str(self.folder / "nowhere")
        why = "cannot run (No such file or directory)"
        self.refused(3, f"{self.folder}/nowhere: {why}", self.reports("a"))

    def test_a_taxonomy_that_is_not_there(self) -> None:
        report = self.reports("a")
        Path(self.taxonomy).unlink()
        why = "cannot read (No such file or directory)"
        self.refused(3, f"{self.taxonomy}: {why}", report)

    def test_another_run_has_the_report_in_hand(self) -> None:
        self.play()
        reports = self.reports("a", "slow")
        self.start([reports[1]])
        self.wait_for("the slow one", Path(f"{self.played}.slow"))
        done = subprocess.run(
            self.words(reports),
            cwd=self.folder,
            env={**self.environment, "TMPDIR": str(self.folder)},
            capture_output=True,
            text=True,
            check=False,
        )
        self.assertEqual(done.returncode, TRY_AGAIN)
        self.assertIn("slow.zip: busy (another run has it in hand)", done.stderr)
        self.assertEqual(self.outcomes("a", "slow"), {"a": "done", "slow": "begun"})


class TestProgress(Case):
    """The line on a terminal."""

    def test_the_line_counts_and_tells_the_time_left(self) -> None:
        self.play()
        reports = self.reports("a", "b", "slow")
        for limit in TIME_LIMITS:
            text = self.shown(reports, limit)
            if "3 reports: 2 done" in text:
                break
        self.assertRegex(text, r"2 of 3: 2 done, 0 refused, 0 failed, 0 to try again; about \d+ ")
        self.assertRegex(text, r"3 reports: 2 done, 0 refused, 0 failed, 1 to try again; \d+ s\r\n")

    def shown(self, reports: List[str], limit: str) -> str:
        """Convert reports anew, each within a time, and return what a terminal shows."""
        leader, follower = pty.openpty()
        process = subprocess.Popen(
            self.words(reports, "--jobs", "2", "--time-limit", limit, "--again"),
            cwd=self.folder,
            env=self.environment,
            stdin=subprocess.DEVNULL,
            stderr=follower,
        )
        os.close(follower)
        said = b""
        while True:
            try:
                piece = os.read(leader, 1 << 16)
            except OSError:
                break
            if not piece:
                break
            said += piece
        os.close(leader)
        self.assertEqual(process.wait(SOON), TRY_AGAIN)
        return said.decode()


class TestCompletions(unittest.TestCase):
    """The completions of xbrl-filing have all options of its help."""

    def test_each_option_of_the_help_is_offered(self) -> None:
        done = subprocess.run([FILING, "--help"], capture_output=True, text=True, check=True)
        options = set(re.findall(r"(?<![\w-])--[a-z][a-z-]+", done.stdout))
        self.assertIn("--into", options)
        folder = TOP / "dist/completions"
        bash = (folder / "xbrl-filing.bash").read_text()
        offered = "".join(re.findall('-W "(--tax.*?)"', bash)).split()
        self.assertEqual(set(offered) - {"-h", "-V"}, options)
        zsh = set(re.findall(r"--[a-z][a-z-]+(?==?\[|\})", (folder / "_xbrl-filing").read_text()))
        self.assertEqual(zsh, options)
        fish = re.findall(r" -l ([a-z-]+)", (folder / "xbrl-filing.fish").read_text())
        self.assertEqual({f"--{it}" for it in fish}, options)

    def test_bash_completes(self) -> None:
        script = """. xbrl-filing.bash; COMP_WORDS=(xbrl-filing a.zip --into o --mem); COMP_CWORD=4
            _xbrl_filing; printf '%s\\n' "${COMPREPLY[@]}" """
        done = subprocess.run(
            ["bash", "--norc", "-c", script],
            cwd=TOP / "dist/completions",
            capture_output=True,
            text=True,
            check=True,
        )
        self.assertEqual(done.stdout, "--memory-limit\n")


def main(words: List[str]) -> int:
    """Run the tests, and print the line that tests/run reads."""
    global PROGRAM
    if words and os.path.isfile(words[0]):
        PROGRAM = os.path.abspath(words.pop(0))
    program = unittest.main(argv=["test_batch.py", *words], exit=False)
    bad = len(program.result.failures) + len(program.result.errors)
    print(f"many reports in one run: {program.result.testsRun - bad} as they must be, {bad} not")
    return 1 if bad else 0


if __name__ == "__main__":
    sys.exit(main(sys.argv[1:]))
