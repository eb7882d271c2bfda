"""Tests two runs of xbrl-filing to one output at once: the second one ends before it writes."""

from __future__ import annotations

import os
import signal
import subprocess
import tempfile
import time
import unittest
from pathlib import Path
from typing import List

from tests.filing_bounds import GOOD, Files, pack

TOP = Path(__file__).resolve().parent.parent
FILING = str(TOP / "xbrl-filing")
PROGRAM = os.path.abspath(os.environ.get("XBRL_JSON") or TOP / "dist/xbrl-json")
# Waits for a file before it converts, and says that it has begun.
PLAYED = """#!/bin/sh
[ -n "$HELD" ] && { touch begun; until [ -e go ]; do sleep 0.05; done; }
exec "$REAL" "$@"
"""
SOON = 60.0  # seconds on a loaded machine
# An amount of money would need a unit.
FILES: Files = {it: str(text).replace("monetaryItem", "decimalItem") for it, text in GOOD.items()}


class TwoRuns(unittest.TestCase):
    """A filing, and a run of it that waits until `go` is there."""

    def setUp(self) -> None:
        scratch = tempfile.TemporaryDirectory()
        self.addCleanup(scratch.cleanup)
        self.folder = Path(scratch.name)
        pack(self.folder / "f.zip", FILES)
        played = self.folder / "played"
        played.write_text(PLAYED)
        played.chmod(0o755)
        self.temporary = self.folder / "tmp"
        self.temporary.mkdir()
        self.env = {
            **os.environ,
            "REAL": PROGRAM,
            "XBRL_JSON": str(played),
            "HELD": "",
            "TMPDIR": str(self.temporary),
        }

    def start(self, words: List[str]) -> subprocess.Popen[bytes]:
        """Start a run that waits, and return once it has begun to convert."""
        child = subprocess.Popen(
            [FILING, "f.zip", *words], cwd=self.folder, env={**self.env, "HELD": "1"}
        )
        self.addCleanup(child.kill)
        self.wait_for("begun")
        return child

    def wait_for(self, name: str) -> None:
        """Wait until a file is there."""
        until = time.monotonic() + SOON
        while not (self.folder / name).exists():
            self.assertLess(time.monotonic(), until, f"{name} is not there")
            time.sleep(0.02)

    def run_beside(self, words: List[str]) -> "subprocess.CompletedProcess[str]":
        """Run to the end without waiting."""
        return subprocess.run(
            [FILING, "f.zip", *words],
            cwd=self.folder,
            env=self.env,
            stdin=subprocess.DEVNULL,
            capture_output=True,
            text=True,
        )

    def refused(self, words: List[str], output: str) -> None:
        """Check that a run ends because another one writes an output."""
        done = self.run_beside(words)
        line = f"xbrl-filing: {output}: cannot write (another run writes it)\n"
        self.assertEqual((done.returncode, done.stdout, done.stderr), (3, "", line))

    def test_second_run(self) -> None:
        """A second run to the same file, by whatever name, ends; one to another file does not."""
        out = self.folder / "out.json"
        out.write_text("before\n")
        os.symlink("out.json", self.folder / "link.json")
        os.link(out, self.folder / "hard.json")
        first = self.start(["--out", "out.json", "--faults", "faults.csv"])
        for words in (["--out", "out.json"], ["--out=out.json", "--whole"]):
            self.refused(words, "out.json")
        self.refused(["--out", str(out)], str(out))
        self.refused(["--out", "link.json"], "link.json")
        self.refused(["--out", "hard.json"], "hard.json")
        self.refused(["--out", "new.json", "--faults", "faults.csv"], "faults.csv")
        self.assertEqual(out.read_text(), "before\n")
        self.assertFalse((self.folder / "new.json").exists())
        self.assertEqual(self.run_beside(["--out", "other.json"]).returncode, 0)
        (self.folder / "go").touch()
        self.assertEqual(first.wait(SOON), 0)
        self.assertEqual(out.read_bytes(), (self.folder / "other.json").read_bytes())
        self.assertEqual(self.run_beside(["--out", "out.json"]).returncode, 0)
        self.assertEqual(list(self.temporary.iterdir()), [])

    def test_other_temporary_folder(self) -> None:
        """A file that exists is claimed from runs with another folder of temporary files, too."""
        (self.folder / "out.json").write_text("before\n")
        first = self.start(["--out", "out.json"])
        self.env["TMPDIR"] = str(self.folder)
        self.refused(["--out", "out.json"], "out.json")
        (self.folder / "go").touch()
        self.assertEqual(first.wait(SOON), 0)

    def test_end_by_force(self) -> None:
        """The file stays claimed while xbrl-json writes, also if the run itself is killed."""
        first = self.start(["--out", "out.json"])
        first.send_signal(signal.SIGKILL)
        first.wait()
        self.refused(["--out", "out.json"], "out.json")
        (self.folder / "go").touch()
        until = time.monotonic() + SOON
        while self.run_beside(["--out", "out.json"]).returncode:
            self.assertLess(time.monotonic(), until, "the claim does not end")

    def test_pipe_and_device(self) -> None:
        """Several runs may write to one device."""
        first = self.start(["--out", "/dev/null"])
        self.assertEqual(self.run_beside(["--out", "/dev/null"]).returncode, 0)
        (self.folder / "go").touch()
        self.assertEqual(first.wait(SOON), 0)


if __name__ == "__main__":
    unittest.main()
