"""Tests a system that refuses memory, reads, writes, opens and threads, one by one.

Each call that the system can refuse is refused, first once, then with all later ones. The program
must end by itself. What it has written must be a prefix of the whole document, cut only where the
lines on standard error allow it: a refused table's line, or the run's own.
"""
from __future__ import annotations

import json
import os

from tests.harness import Done, for_each
from tests.refusing import (
    FAILED_WRITE,
    TABLES,
    Document,
    RefusedTest,
    build_library,
    called,
    in_parallel,
)


# On one processor a table has no threads for its pieces.
ARE_SEVERAL = len(os.sched_getaffinity(0)) > 1


def setUpModule() -> None:
    """Builds the library that refuses."""
    build_library()


@for_each(
    (f"{kind} refused with {workers} workers", (kind, workers, ring))
    for workers, ring in (("1", "1"), ("2", "1"), ("3", "4"))
    for kind in ("memory", "read", "write", "zero", "open", "stat", "thread")
    if (kind, workers) != ("memory", "3")
)
class TestEachCall(RefusedTest):
    """Refuses each call of a kind, once and with all later ones."""

    def check(self, kind: str, workers: str, ring: str) -> None:
        """Refuses the calls of a kind."""
        words = ["--workers", workers, "--ring", ring]
        numbers = range(1, self.calls(words)[kind] + 2)
        todo = [f"{kind}:{n}{more}" for n in numbers for more in ("", "+")]
        for refuse, seen in in_parallel(lambda it: self.refuse(it, words), todo):
            with self.subTest(refuse=refuse):
                self.is_right(seen, kind)


class TestWrongArguments(RefusedTest):
    """Refuses memory of a run with wrong arguments."""

    def test_wrong_arguments_without_memory(self) -> None:
        """Refuses the arguments, or ends because memory runs out before that."""
        words = ["--workers", "65"]
        wrong = self.refuse("", words, counts=self.counts)
        self.assertEqual(wrong[:2], (2, b""))
        self.assertTrue(wrong.err.startswith("error: invalid value '65'"))
        calls = self.calls(words)["memory"]
        self.assertGreater(calls, 20)
        lines = ("error: out of memory\n", "xbrl-json: run: Memory (53)\n", "")
        short = [Done(3, b"", it) for it in lines]
        todo = [f"memory:{n}{more}" for n in range(1, calls + 1) for more in ("", "+")]
        for refuse, seen in in_parallel(lambda it: self.refuse(it, words), todo):
            with self.subTest(refuse=refuse):
                self.assertIn(seen, [wrong, *short])
        with self.subTest("without any memory"):
            self.assertIn(self.refuse("memory:1+", words), short)


class TestThreads(RefusedTest):
    """Refuses threads."""

    def test_some_of_four_workers(self) -> None:
        """Refuses every choice of four workers, over tables of more blocks than the rings take.

        The document is whole unless no worker could start.
        """
        # Two facts each, and a block has at most 256.
        rows = 1300
        large = self.copied("large", {it: it for it in TABLES})
        for table in TABLES:
            text = "".join(f"{table}{i},{i},text\n" for i in range(rows))
            (large / f"{table}.csv").write_text("name,cash,note\n" + text)
        whole = self.refuse("", ["--workers", "1"], large)
        self.assertEqual((whole.status, whole.err), (0, ""))
        columns = ("cash", "note")
        names = [f"{it}.{it}{i}.{to}" for it in TABLES for i in range(rows) for to in columns]
        self.assertEqual(list(json.loads(whole.out)["facts"]), names)
        head = whole.out[: whole.out.index(b'"t1.')]
        lines = (f"xbrl-json: table {it}, row 0, column 0: NoThread (43)\n" for it in TABLES)
        none = Done(1, head, "".join(lines))
        todo = [(mask, ring) for mask in range(1, 16) for ring in ("1", "3")]

        def run(it: tuple[int, str]) -> Done:
            return self.refuse(f"thread:={it[0]}", ["--workers", "4", "--ring", it[1]], large)

        for (mask, ring), seen in in_parallel(run, todo):
            with self.subTest(mask=f"{mask:04b}", ring=ring):
                self.check_run(seen, *(whole if mask != 15 else none))

    def test_pieces(self) -> None:
        """Refuses threads of a table of many pieces, one or all from one on.

        The worker decodes the pieces itself, and the document is whole.
        """
        rows = 40_000
        pieces = self.copied("pieces", {"t1": "t1"})
        text = "".join(f"t1{i},{i},a note of some length\n" for i in range(rows))
        (pieces / "t1.csv").write_text("name,cash,note\n" + text)
        whole = self.refuse("", ["--workers", "1"], pieces)
        self.assertEqual((whole.status, whole.err), (0, ""))
        self.assertEqual(len(json.loads(whole.out)["facts"]), 2 * rows)
        words = ["--workers", "4"]
        self.check_run(self.refuse("", words, pieces), *whole)
        if ARE_SEVERAL:
            self.assertGreater(self.calls(words, pieces)["thread"], 4)
        todo = [f"thread:{k}{more}" for more in ("", "+") for k in range(2, 10)]
        for refuse, seen in in_parallel(lambda it: self.refuse(it, words, pieces), todo):
            with self.subTest(refuse=refuse):
                self.check_run(seen, *whole)

    def test_one_worker_needs_none(self) -> None:
        """Converts with one worker on the program's own thread."""
        for ring in ("1", "1024"):
            with self.subTest(ring=ring):
                seen = self.refuse("thread:1+", ["--workers", "1", "--ring", ring])
                self.check_run(seen, 0, self.document.whole, "")


class TestPieces(RefusedTest):
    """Refuses memory of pieces, and counts what threads do."""

    def test_memory_of_seven_pieces(self) -> None:
        """Refuses memory at many places over a table of seven pieces between two short ones."""
        large = self.copied("seven", {it: it for it in TABLES})
        for table, rows in zip(TABLES, (3, 7_000, 3)):
            text = "".join(f"{table}{i},{i},a note of some length\n" for i in range(rows))
            (large / f"{table}.csv").write_text("name,cash,note\n" + text)
        words = ["--workers", "4", "--ring", "4"]
        status, whole, err = self.refuse("", words, large)
        self.assertEqual((status, err), (0, ""))
        self.assertEqual(len(json.loads(whole)["facts"]), 2 * 7_006)
        document = Document(whole)
        places = range(1, self.calls(words, large)["memory"] + 20, 4)
        todo = [f"memory:{n}{more}" for n in places for more in ("", "+")]
        for refuse, seen in in_parallel(lambda it: self.refuse(it, words, large), todo):
            with self.subTest(refuse=refuse):
                self.is_right(seen, "memory", document)

    def counted(self, name: str, files: dict[str, str], rows: int) -> list[dict[str, int]]:
        """Returns the calls of 3 runs, or up to 12 on a machine whose processors are taken.

        There the threads of a table may have nothing left to do.
        """
        folder = self.copied(name, files)
        text = "".join(f"r{i},{i},a note of some length\n" for i in range(rows))
        for file in set(files.values()):
            (folder / f"{file}.csv").write_text("name,cash,note\n" + text)
        seen: list[dict[str, int]] = []
        while len(seen) < 3 or (len(seen) < 12 and max(it["busy"] for it in seen) < 2 + ARE_SEVERAL):
            words = ["--workers", "4", "--ring", "4"]
            status, _, err = self.refuse("", words, folder, self.counts)
            self.assertEqual((status, err), (0, ""))
            seen.append(called(self.counts))
        return seen

    def test_many_tables_have_threads(self) -> None:
        """Starts threads for each of 24 tables.

        Right: 28 on two processors and 76 on four, with the workers. If threads that ended kept
        their places: 8.
        """
        seen = self.counted("tables", {f"t{i:02}": "t" for i in range(24)}, 6_000)
        threads = max(it["thread"] for it in seen)
        self.assertGreaterEqual(threads, 16 if ARE_SEVERAL else 4)
        self.assertLessEqual(threads, 120)

    def test_threads_of_a_long_table(self) -> None:
        """Keeps the threads of a table, gives them work, and uses their memory again."""
        seen = self.counted("long", {"t1": "t1"}, 150_000)
        # Right: 4 on one processor, 5 on two and 7 on four. With a thread for each piece: 159.
        self.assertLessEqual(max(it["thread"] for it in seen), 20)
        # Right: the program's own, the worker, and one on two processors or three on four.
        self.assertGreaterEqual(max(it["busy"] for it in seen), 2 + ARE_SEVERAL)
        # Right: 250 to 490 times. If no piece took the memory of another: 1,764.
        self.assertLessEqual(min(it["large"] for it in seen), 900)


class TestCutCalls(RefusedTest):
    """Cuts reads and writes short, and interrupts them."""

    def test_short_and_interrupted(self) -> None:
        """Reads and writes the same if each call takes one byte or is stopped by a signal."""
        for refuse in ("read:short", "write:short", "read:again", "write:again"):
            for workers in ("1", "3"):
                with self.subTest(refuse=refuse, workers=workers):
                    seen = self.refuse(refuse, ["--workers", workers])
                    self.check_run(seen, 0, self.document.whole, "")

    def test_a_first_write_that_fails(self) -> None:
        """Writes a prefix, or nothing if no write succeeds, of eight tables of 100 facts."""
        many = self.copied("many", {f"t{i}": "t" for i in range(8)})
        (many / "t.csv").write_text("name,note\n" + "".join(f"r{i},text\n" for i in range(100)))
        whole = self.refuse(folder=many).out
        for workers in ("1", "2", "8"):
            for refuse in ("write:1", "zero:1", "write:1+"):
                with self.subTest(refuse=refuse, workers=workers):
                    words = ["--workers", workers, "--ring", "1"]
                    status, out, err = self.refuse(refuse, words, many)
                    self.assertEqual((status, err), (FAILED_WRITE.status, FAILED_WRITE.err))
                    self.assertTrue(whole.startswith(out) and out != whole)
                    self.assertTrue(out == b"" or refuse != "write:1+")
