"""Tests runs over many reports that are ended by force, meet each other, or get too few files."""

from __future__ import annotations

import json
import os
import resource
import signal
import subprocess
import sys
import time
import unittest
from contextlib import suppress
from pathlib import Path
from typing import Dict, List, Tuple

from tests.test_batch import EXPECTED, PLAYED, PROGRAM, SOON, TOP, TRY_AGAIN, Case
from tests.test_batch import setUpModule as setUpModule  # SIGINT is heeded here too

# Runs the command with a part of it replaced.
DRIVER = """
import sys
sys.path.insert(0, {top!r})
{patch}
from filing.command import main
sys.exit(main(sys.argv[2:], sys.argv[1]))
"""
# Says whether the log is locked each time that an outcome is written.
LOOKING = """
import fcntl
from filing import batch, one_report
write = batch.write_outcome
def look(path, outcome):
    with open(path.replace(".outcome", ".log"), "rb") as log:
        try:
            fcntl.flock(log, fcntl.LOCK_EX | fcntl.LOCK_NB)
            print(outcome.outcome, "is free", flush=True)
        except BlockingIOError:
            print(outcome.outcome, "is locked", flush=True)
    write(path, outcome)
batch.write_outcome = look
"""
# Says how many logs are open in the process of each report.
COUNTING = """
import os
from contextlib import suppress
from filing import one_report
attempt = one_report.attempt
def look(*words):
    logs = 0
    for number in os.listdir("/proc/self/fd"):
        with suppress(OSError):
            logs += os.readlink("/proc/self/fd/" + number).endswith(".log")
    os.write(1, b"%d\\n" % logs)
    return attempt(*words)
one_report.attempt = look
"""
# Sends a signal to each process of a report while Python starts it.
SIGNALLED = """
import os, signal
os.register_at_fork(after_in_child=lambda: os.kill(os.getpid(), signal.SIGTERM))
"""
ASIDE = "0123456789abcdef"


class EndsCase(Case):
    """Runs of which a part is replaced, or that are ended by force."""

    def run_patched(self, patch: str, reports: List[str], *more: str) -> Tuple[int, str, str]:
        """Run the command with a part of it replaced; return its status and what it prints."""
        script = DRIVER.format(top=str(TOP), patch=patch)
        words = self.words(reports, *more)[1:]
        done = subprocess.run(
            [sys.executable, "-c", script, self.environment["XBRL_JSON"], *words],
            cwd=self.folder,
            env=self.environment,
            stdin=subprocess.DEVNULL,
            capture_output=True,
            text=True,
            timeout=SOON,
            check=False,
        )
        return done.returncode, done.stdout, done.stderr

    def many_files(self, most: int, reports: List[str], *more: str) -> Tuple[int, str]:
        """Run the command, which may have few files open, and return its status and lines."""
        _, hard = resource.getrlimit(resource.RLIMIT_NOFILE)
        done = subprocess.run(
            self.words(reports, *more),
            cwd=self.folder,
            env=self.environment,
            stdin=subprocess.DEVNULL,
            capture_output=True,
            text=True,
            timeout=SOON,
            check=False,
            preexec_fn=lambda: resource.setrlimit(resource.RLIMIT_NOFILE, (most, hard)),
        )
        return done.returncode, done.stderr


class TestByForce(EndsCase):
    """What a run finds that another has left which was ended by force."""

    def test_a_converter_that_is_left_alone(self) -> None:
        pid = Path(f"{self.played}.slow")
        self.played.write_text(PLAYED.replace("echo begun >>", "echo $$ >"))
        self.environment["XBRL_JSON"] = str(self.played)
        reports = self.reports("slow")
        run = self.start(reports)
        self.wait_for("the slow one", pid)
        python = Path(f"/proc/{run.pid}/task/{run.pid}/children").read_text().split()
        for process in (run.pid, *map(int, python)):
            os.kill(process, signal.SIGKILL)
        run.wait(SOON)
        self.environment.update(XBRL_JSON=PROGRAM, TMPDIR=str(self.folder / "tmp2"))
        self.temporary = self.folder / "tmp2"
        self.temporary.mkdir()
        try:
            status, err = self.run_many(reports)
            self.assertEqual(status, TRY_AGAIN)
            self.assertIn("slow.zip: busy (another run has it in hand)", err)
        finally:
            os.kill(int(pid.read_text()), signal.SIGKILL)
        until = time.monotonic() + SOON
        while self.run_many(reports)[0] == TRY_AGAIN:
            self.assertLess(time.monotonic(), until, "the report is never free")
        self.assertEqual((self.out / "slow.json").read_bytes(), EXPECTED)

    def test_a_report_whose_process_is_killed(self) -> None:
        pid = Path(f"{self.played}.slow")
        self.played.write_text(PLAYED.replace("echo begun >>", "echo $$ >"))
        self.environment["XBRL_JSON"] = str(self.played)
        run = self.start(self.reports("slow"))
        self.wait_for("the slow one", pid)
        (python,) = Path(f"/proc/{run.pid}/task/{run.pid}/children").read_text().split()
        os.kill(int(python), signal.SIGKILL)
        self.assertEqual(run.wait(SOON), TRY_AGAIN)
        self.assertEqual(self.outcomes("slow"), {"slow": "signal"})
        self.addCleanup(self.end, int(pid.read_text()))
        state = Path(f"/proc/{pid.read_text().strip()}/stat")
        until = time.monotonic() + SOON
        while state.exists() and state.read_text().rpartition(")")[2].split()[0] != "Z":
            self.assertLess(time.monotonic(), until, "xbrl-json goes on")
            time.sleep(0.05)

    def end(self, process: int) -> None:
        """End a process, if it is still there."""
        with suppress(ProcessLookupError):
            os.kill(process, signal.SIGKILL)

    def test_files_that_were_not_finished(self) -> None:
        reports = self.reports("a", "b")
        self.assertEqual(self.run_many(reports)[0], 0)
        left = [f"a.outcome.{ASIDE}", f"b.html.{ASIDE}", "a.json.new", "a.faults.csv.new"]
        kept = [f"c.html.{ASIDE}", "b.html.new", f"b.html.{ASIDE}0"]
        for name in (*left, *kept):
            (self.out / name).write_text("half")
        self.assertEqual(self.run_many(reports, "--layout", "lines")[0], 0)
        self.assertEqual([name for name in left if (self.out / name).exists()], [])
        self.assertEqual([name for name in kept if not (self.out / name).exists()], [])

    def test_a_converter_that_does_not_clean_up(self) -> None:
        self.played.write_text(PLAYED.replace("exec sleep", 'touch "$out.new"; exec sleep'))
        self.environment["XBRL_JSON"] = str(self.played)
        run = self.start(self.reports("slow"))
        self.wait_for("the slow one", Path(f"{self.played}.slow"))
        run.send_signal(signal.SIGTERM)
        run.wait(SOON)
        self.assertFalse((self.out / "slow.json.new").exists())

    def test_a_signal_while_a_process_starts(self) -> None:
        status, _, err = self.run_patched(SIGNALLED, self.reports("a", "b"))
        self.assertEqual((status, "Traceback" in err), (TRY_AGAIN, False), err)
        self.assertEqual(err.count(": signal (ended by signal 15)\n"), 2, err)


class TestTwoRuns(EndsCase):
    """Two runs at once."""

    def test_a_report_is_in_hand_until_its_outcome_is_written(self) -> None:
        reports = self.reports("a")
        self.assertEqual(self.run_patched(LOOKING, reports)[:2], (0, "done is locked\n"))

    def test_a_report_is_free_once_it_has_ended(self) -> None:
        self.play()
        reports = self.reports("a", "slow")
        self.start(reports, "--jobs", "2", "--outcomes", "o.jsonl")
        self.wait_for("the first line", self.folder / "o.jsonl")
        self.wait_for("the slow one", Path(f"{self.played}.slow"))
        self.environment["TMPDIR"] = str(self.folder)
        self.temporary = self.folder / "none"
        self.temporary.mkdir()
        self.assertEqual(self.run_many(reports[:1])[0], 0)

    def test_one_file_of_outcomes(self) -> None:
        self.play()
        reports = self.reports("a", "slow")
        self.start(reports, "--jobs", "2", "--outcomes", "o.jsonl")
        self.wait_for("the first line", self.folder / "o.jsonl")
        self.environment["TMPDIR"] = str(self.folder)
        self.temporary = self.folder / "none"
        self.temporary.mkdir()
        status, err = self.run_many(reports[:1], "--outcomes", "o.jsonl")
        line = "xbrl-filing: o.jsonl: cannot write (another run writes it)\n"
        self.assertEqual((status, err), (3, line))
        self.assertEqual(json.loads((self.folder / "o.jsonl").read_text())["outcome"], "done")

    def test_devices_take_the_outcomes_of_several_runs(self) -> None:
        self.play()
        reports = self.reports("a", "slow")
        self.start(reports[1:], "--outcomes", "/dev/null")
        self.wait_for("the slow one", Path(f"{self.played}.slow"))
        self.environment["TMPDIR"] = str(self.folder)
        self.temporary = self.folder / "none"
        self.temporary.mkdir()
        self.assertEqual(self.run_many(reports[:1], "--outcomes", "/dev/null")[0], 0)

    def test_outcomes_in_the_place_of_a_report_s_file(self) -> None:
        path = str(self.out / "a.json")
        status, err = self.run_many(self.reports("a"), "--outcomes", path)
        line = f"xbrl-filing: {path}: cannot write (it is another output of this run)\n"
        self.assertEqual((status, err), (3, line))


class TestFiles(EndsCase):
    """How many files the system opens for a run, and names that xbrl-json does not take."""

    def test_more_jobs_than_files(self) -> None:
        self.played.write_text(PLAYED.replace("slow*)", "wait*) sleep 1 ;;\n    slow*)"))
        self.environment["XBRL_JSON"] = str(self.played)
        reports = self.reports(*(f"wait{number}" for number in range(30)))
        status, err = self.many_files(32, reports, "--jobs", "30")
        self.assertEqual((status, err.count("\n")), (0, 1), err)

    def test_a_process_has_no_files_of_others(self) -> None:
        seen = self.run_patched(COUNTING, self.reports("a", "b", "c"), "--jobs", "3")
        self.assertEqual(seen[:2], (0, "1\n" * 3))

    def test_too_few_files_for_one_report(self) -> None:
        status, err = self.many_files(14, self.reports("a", "b"))
        self.assertEqual(status, TRY_AGAIN, err)
        line = "thread (cannot start a process (Too many open files))\n"
        self.assertEqual((err.count(line), err.count("\n")), (2, 3), err)

    def test_a_name_that_is_not_utf8(self) -> None:
        reports = self.reports("a", os.fsdecode(b"b\xff"), "c")
        status, err = self.run_many(reports, "--outcomes", "o.jsonl")
        self.assertEqual(status, 3)
        self.assertIn("b\\udcff.zip: failed (cannot write (its name is not UTF-8: rename it))", err)
        lines = (self.folder / "o.jsonl").read_text().splitlines()
        words: Dict[str, str] = {it["report"]: it["outcome"] for it in map(json.loads, lines)}
        self.assertEqual(words, dict(zip(reports, ("done", "failed", "done"))))


class TestStreams(EndsCase):
    """What the caller of a run has closed, and reports that wait forever."""

    def test_closed_streams(self) -> None:
        reports = self.reports("a", "b")
        for number, closed in enumerate(("<&-", ">&-", "2>&-", "<&- >&- 2>&-")):
            self.out = self.folder / f"out{number}"
            done = subprocess.run(
                ["sh", "-c", f'exec "$@" {closed}', "sh", *self.words(reports)],
                cwd=self.folder,
                env=self.environment,
                capture_output=True,
                text=True,
                timeout=SOON,
                check=False,
            )
            self.assertEqual(done.returncode, 0, (closed, done.stderr))
            for name in "ab":
                self.assertEqual((self.out / f"{name}.json").read_bytes(), EXPECTED, closed)

    def test_a_log_without_a_line(self) -> None:
        self.played.write_text(PLAYED.replace("disk*)", "quiet*) exit 3 ;;\n    disk*)"))
        self.environment["XBRL_JSON"] = str(self.played)
        status, err = self.run_many(self.reports("quiet"))
        self.assertEqual(status, 3)
        self.assertIn("quiet.zip: failed (ended with status 3, and its log is empty)\n", err)

    def test_a_pipe_among_the_reports(self) -> None:
        pipe = self.folder / "in/pipe.zip"
        reports = [*self.reports("a"), str(pipe)]
        os.mkfifo(pipe)
        status, err = self.run_many(reports, "--time-limit", str(SOON))
        self.assertEqual(status, 3)
        why = "cannot read (it is a pipe or a device: give a file or a folder)"
        self.assertIn(f"pipe.zip: failed ({why})\n", err)


class TestCallersLimit(EndsCase):
    """A limit of memory that the caller has set."""

    def test_it_holds_too(self) -> None:
        self.play()
        os.chmod(self.folder, 0o777)
        self.temporary.chmod(0o777)
        most = 1 << 30

        def limited() -> None:
            """Set a limit that only root may raise."""
            resource.setrlimit(resource.RLIMIT_DATA, (most, most))
            if os.getuid() == 0:
                os.setgid(65534)
                os.setuid(65534)

        done = subprocess.run(
            self.words(self.reports("data"), "--memory-limit", str(4 << 30)),
            cwd=self.folder,
            env=self.environment,
            capture_output=True,
            text=True,
            timeout=SOON,
            check=False,
            preexec_fn=limited,
        )
        self.assertNotIn("fault of the program", done.stderr)
        self.assertEqual((self.out / "data.log").read_text(), f"{most >> 10}\n")


if __name__ == "__main__":
    unittest.main()
