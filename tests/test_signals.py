"""Tests signals: with --whole a run that is ended at any moment leaves the old file or the new one.

The moments are spread by chance, with fixed seeds, over a little more than the time of a run.
"""
from __future__ import annotations

import random
import signal
import subprocess
import time
from pathlib import Path

from tests.harness import PATIENCE, PROGRAM, CaseTest, Done, for_each, metadata

OLD = b"what was there"
ROWS = 60_000
TABLES = ["t1", "t2", "t3"]
MOMENTS = 12
SIGNALS = [signal.SIGTERM, signal.SIGINT, signal.SIGHUP, signal.SIGKILL, signal.SIGQUIT]
EG = "http://example.com/eg"
WORDS = ["meta.json", "--types", "types.csv", "--out", "out.json", "--whole"]
WAYS = [(it, workers) for it in SIGNALS for workers in (1, 4)]


@for_each((f"{it.name} with {workers} workers", (it, workers)) for it, workers in WAYS)
class TestSignals(CaseTest):
    """Ends runs by a signal at moments by chance."""

    def setUp(self) -> None:
        """Writes a report, whose conversion takes some tenths of a second."""
        super().setUp()
        rows = "".join(f"{i},a note of row {i}\n" for i in range(ROWS))
        self.write({f"{it}.csv": "cash,note\n" + rows for it in TABLES})
        self.write({"meta.json": metadata({it: {} for it in TABLES})})
        self.write({"types.csv": f"namespace,name,type\n{EG},Cash,integer\n{EG},Note,text\n"})
        self.out = self.folder / "out.json"

    def ended(self, number: signal.Signals, workers: int, after: float) -> int:
        """Starts a run, sends it a signal after some seconds, and returns its status."""
        run = subprocess.Popen(
            [PROGRAM, *WORDS, "--workers", str(workers)],
            cwd=self.folder,
            stdin=subprocess.DEVNULL,
            stderr=subprocess.DEVNULL,
        )
        time.sleep(after)
        run.send_signal(number)
        return run.wait(PATIENCE)

    def check(self, number: signal.Signals, workers: int) -> None:
        """Sends a signal at some moments of a run, and converts once more after all."""
        before = time.monotonic()
        self.check_run(self.run_program(*WORDS, f"--workers={workers}"), 0, b"", "")
        longest = (time.monotonic() - before) * 1.2
        whole = self.out.read_bytes()
        chance = random.Random(f"{number} {workers}")
        for at in range(MOMENTS):
            with self.subTest(moment=at):
                self.out.write_bytes(OLD)
                status = self.ended(number, workers, chance.random() * longest)
                self.assertIn(status, (0, -number))
                held = self.out.read_bytes()
                if held != OLD:
                    self.check_same(held, whole)
                self.assertTrue(status != 0 or held == whole)
                self.assertLessEqual(set(self.left()), {"out.json.new"} if status else set())
                self.remove_left()
        self.check_run(self.run_program(*WORDS), 0, b"", "")
        self.assertEqual(self.out.read_bytes(), whole)
        self.assertEqual(self.left(), [])

    def left(self) -> list[str]:
        """Returns the names of new files that are left."""
        return sorted(it.name for it in Path(self.folder).glob("out.json.*"))

    def remove_left(self) -> None:
        """Removes new files that are left."""
        for name in self.left():
            (self.folder / name).unlink()
