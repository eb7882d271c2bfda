"""Tests that a run starts no second thread where only one processor is there for it."""
from __future__ import annotations

import os
import subprocess
import sys
import threading
import time
import unittest
from pathlib import Path

from tests.harness import PATIENCE, PROGRAM, TYPES, TestCase, metadata

WORDS = ["meta.json", "--types", "types.csv"]
# How many processors the system offers to this process.
OFFERED = len(os.sched_getaffinity(0))
# A program that only uses a processor.
BUSY = "while True: sum(range(100_000))"


def on_one_processor() -> None:
    """Holds this process to one of its processors."""
    os.sched_setaffinity(0, {min(os.sched_getaffinity(0))})


def threads_of(process: int) -> int:
    """Returns how many threads a process has."""
    for line in Path(f"/proc/{process}/status").read_text(encoding="ascii").splitlines():
        if line.startswith("Threads:"):
            return int(line.split()[1])
    return 0


def running_threads() -> int:
    """Returns how many threads of the system run or want to run."""
    return int(Path("/proc/loadavg").read_text(encoding="ascii").split()[3].split("/")[0])


class TestProcessors(TestCase):
    """Looks at the threads of a run whose tables do not end yet."""

    def setUp(self) -> None:
        """Writes a report with three tables, each of them a named pipe."""
        super().setUp()
        self.names = ["t1", "t2", "t3"]
        self.write({"meta.json": metadata({it: {} for it in self.names}), "types.csv": TYPES})
        for name in self.names:
            os.mkfifo(self.folder / f"{name}.csv")

    def feed(self, ends: threading.Event) -> None:
        """Gives each pipe a table, slowly, until `ends`; then all of it at once."""

        def fill(name: str) -> None:
            with open(self.folder / f"{name}.csv", "wb", buffering=0) as pipe:
                pipe.write(b"cash,note\n")
                for row in range(4_000):
                    pipe.write(b'%d,"a\nb"\n' % row)
                    if row < 100 or not ends.is_set():
                        ends.wait(0.01)

        for name in self.names:
            threading.Thread(target=fill, args=(name,), daemon=True).start()

    def most_threads(self, workers: int, one: bool, few: bool = False) -> tuple[int, bytes]:
        """Runs, and returns the most threads that were seen, and the document.

        With `one` the run has one processor only. With `few` one thread is wanted all the same.
        """
        ends = threading.Event()
        self.feed(ends)
        way = on_one_processor if one else None
        words = [PROGRAM, *WORDS, f"--workers={workers}", "--out", "o.json"]
        # Threads that are wanted are waited for, on a loaded machine too; others for a while.
        many = workers > 1 and not one and not few
        most, until = 0, time.monotonic() + (PATIENCE if many else 2)
        with subprocess.Popen(words, cwd=self.folder, preexec_fn=way) as run:
            while run.poll() is None and time.monotonic() < until:
                most = max(most, threads_of(run.pid))
                if many and most > 1:
                    break
                time.sleep(0.01)
            ends.set()
            self.assertEqual(run.wait(timeout=PATIENCE), 0)
        return most, self.read("o.json") or b""

    def test_one_processor(self) -> None:
        """Starts no thread, whatever the number of workers, and writes the same document."""
        alone = self.most_threads(1, False)
        self.assertEqual(alone[0], 1)
        for workers in (2, 4, 64):
            with self.subTest(workers=workers):
                self.assertEqual(self.most_threads(workers, True), alone)

    @unittest.skipUnless(1 < OFFERED < 64, "there is one processor only, or there are very many")
    def test_more_processors(self) -> None:
        """Starts threads for more workers than processors, however busy these are."""
        most, document = self.most_threads(OFFERED + 1, False)
        self.assertGreater(most, 1)
        self.assertEqual(document, self.most_threads(4, True)[1])

    @unittest.skipIf(OFFERED < 2, "there is one processor only")
    def test_busy_processors(self) -> None:
        """Starts no thread if all processors are busy, and writes the same document."""
        alone = self.most_threads(1, False)
        busy = [subprocess.Popen([sys.executable, "-c", BUSY]) for _ in range(os.cpu_count() or 1)]
        try:
            time.sleep(0.5)
            if running_threads() < len(busy):
                self.skipTest("the system does not count the threads that run")
            self.assertEqual(self.most_threads(2, False, few=True), alone)
        finally:
            for program in busy:
                program.kill()
                program.wait()
