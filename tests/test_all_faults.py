"""Tests that the file of `--faults` has each faulty cell of each row of each table.

The tables by hand have the faults that they were given. Those by chance are made of records whose
faults are known, with all that CSV allows, so rows, columns, lines and cells are known in advance.
"""
from __future__ import annotations

import ctypes
import os
import random
import shutil
import subprocess
import sys
from collections.abc import Iterator
from typing import NamedTuple

from tests.fault_files import HEADER, NAMES, NO_CAUSE, FaultsTest, records
from tests.harness import TYPES, metadata

# The files of a table under the header k,cash,note with the row identifiers k, and its records:
# row, column and number.
WORKED: list[tuple[str, list[str]]] = [
    ("a,1,x\nb,2,y\n", []),
    ("a,1x,#foo\nb,2,y\nc,z,#bar\n", ["1,2,40", "1,3,31", "3,2,40", "3,3,31"]),
    ("a,1,x\na,z,y\na,3\n,1,x\na.b,z,y\n", ["2,1,30", "3,0,26", "4,1,28", "5,1,29"]),
    ("a,x,y\na,1,y\n", ["1,2,40", "2,1,30"]),
    ("a,1\na,1,y\n", ["1,0,26"]),
    ("x,1,y\nx,z,y\nx,1,y\n", ["2,1,30", "3,1,30"]),
    ("a,z,#b,\n", ["1,0,26"]),
    ("a,z,\udcff\nb,#y,#z\n", ["1,3,27", "2,2,31", "2,3,31"]),
]
# Events of inotify: a file is opened, a file that is not written is closed.
OPENED, CLOSED = 0x20, 0x10
LIMIT = "xbrl-json: f.csv is cut: more than {} faults in {} of the tables\n"


class Row(NamedTuple):
    """A record without its line end, and its faults: number, column, and the cell there."""

    text: bytes
    faults: tuple[tuple[int, int, str], ...] = ()


GOOD = [
    Row(b"1,x"),
    Row(b'2,"a ""b"" c"'),
    Row(b'"3","one\r\ntwo\nthree\rfour"'),
    Row(b'4,a"b"c'),
    Row(b'5,"a"b'),
    Row(b",\xc3\xa4"),
    Row(b'9,"x"",\n""y"'),
]
BAD = [
    Row(b"1x,y", ((40, 2, "1x"),)),
    Row(b"1x,#y", ((40, 2, "1x"), (31, 3, "#y"))),
    Row(b'"1\n0","a\r\n\r\nb"', ((40, 2, "1\n0"),)),
    Row(b'" 1,0","#\r\n"', ((40, 2, " 1,0"), (31, 3, "#\r\n"))),
    Row(b"1,2,3", ((26, 0, ""),)),
    Row(b"", ((26, 0, ""),)),
    Row(b'1,"\xff"', ((27, 3, "\\xff"),)),
    Row(b'x,"#y"""', ((40, 2, "x"), (31, 3, '#y"'))),
]
FAULT_NAMES = {26: "Ragged", 27: "NotUtf8", 30: "RepeatedRowId", 31: "UnknownSpecial"}
FAULT_NAMES.update({28: "MissingRowId", 29: "BadRowId", 40: "BadNumber"})


def line_ends(text: bytes) -> int:
    """Returns how many lines end in a text: by CR LF, CR or LF."""
    return text.count(b"\n") + text.count(b"\r") - text.count(b"\r\n")


def made(dice: random.Random, count: int, badness: float) -> tuple[bytes, list[list[str]]]:
    """Makes a file of rows, and the fields of its faults after the table's identifier."""
    text = dice.choice([b"", b"\xef\xbb\xbf"]) + b"k,cash,note"
    wanted = []
    for number in range(1, count + 1):
        text += dice.choice([b"\n", b"\r\n", b"\r", b"\n\n", b"\r\n\r\n", b"\n\r"])
        row = dice.choice(BAD if dice.random() < badness else GOOD)
        line = str(line_ends(text) + 1)
        for fault, column, cell in row.faults:
            place = [str(number), str(column), str(fault), FAULT_NAMES[fault], line]
            wanted.append([*place, ["", "k", "cash", "note"][column], cell, "", *NO_CAUSE])
        text += b"%d," % number + row.text
    return text + dice.choice([b"", b"\n", b"\r"]), wanted


class AllFaultsTest(FaultsTest):
    """A test over tables under the header k,cash,note."""

    def tables(self, tables: dict[str, bytes], ids: bool = True) -> None:
        """Writes a report with these tables, with row identifiers or without."""
        meta = metadata({name: {} for name in tables})
        template = meta["tableTemplates"]["p"]
        template["columns"] = {"k": {}, **template["columns"]}
        if ids:
            template["rowIdColumn"] = "k"
        self.write({"r/m.json": meta, "t.csv": TYPES})
        self.write({f"r/{name}.csv": it for name, it in tables.items()})

    def listed(self, *words: str) -> list[list[str]]:
        """Returns the records of a run with the file of faults."""
        seen = self.convert(*words, "--faults", "f.csv", "--out", "/dev/null")
        found = records(self.faults())
        self.assertEqual((found[0], seen.status), (NAMES, 1 if found[1:] else 0), seen)
        return found[1:]

    def ways(self) -> Iterator[tuple[str, ...]]:
        """Yields words that must not change the file."""
        for workers in ("1", "2", "4", "64"):
            yield "--workers", workers
        yield "--ring", "1"
        yield "--explain", "--layout", "lines"


class TestRecords(AllFaultsTest):
    """Writes a record for each faulty cell, in table, row and header order."""

    def test_worked_cases(self) -> None:
        """Writes the records of each table alone, and of all of them in one report."""
        wanted = []
        for at, (rows, numbers) in enumerate(WORKED):
            content = ("k,cash,note\n" + rows).encode("utf-8", "surrogateescape")
            with self.subTest(rows=rows):
                self.tables({"t1": content})
                found = [",".join(it[1:4]) for it in self.listed()]
                self.assertEqual(found, numbers)
            wanted += [f"t{at},{it}" for it in numbers]
            self.write({f"all/{at}": content})
        contents = [self.read(f"all/{at}") or b"" for at in range(len(WORKED))]
        self.tables({f"t{at}": it for at, it in enumerate(contents)})
        for words in self.ways():
            with self.subTest(words=words):
                self.assertEqual([",".join(it[:4]) for it in self.listed(*words)], wanted)

    def test_tables_by_chance(self) -> None:
        """Writes all fields of the faults of tables that are made by chance."""
        for seed in range(8):
            dice = random.Random(seed)
            made_tables = {
                f"t{at}": made(dice, dice.choice([1, 7, 60, 2_000]), dice.choice([0.01, 0.3, 1]))
                for at in range(3)
            }
            self.tables({name: it[0] for name, it in made_tables.items()}, ids=seed % 2 == 0)
            wanted = [[name, *row] for name, it in made_tables.items() for row in it[1]]
            for words in list(self.ways())[seed % 2 :: 2]:
                with self.subTest(seed=seed, words=words):
                    self.assertEqual(self.listed(*words), wanted)

    def test_a_thousand_faults(self) -> None:
        """Writes the 1,000 faults of a table with 100,000 rows, and each cell of a bad column."""
        rows = [f"r{at},{'x' if at % 100 == 7 else at},n\n" for at in range(100_000)]
        self.tables({"t1": ("k,cash,note\n" + "".join(rows)).encode()})
        found = [it[1:6] + it[7:8] for it in self.listed()]
        bad = range(8, 100_000, 100)
        wanted = [[str(it), "2", "40", "BadNumber", str(it + 1), "x"] for it in bad]
        self.assertEqual(found, wanted)
        rows = [f"r{at},x,#\n" for at in range(20_000)]
        self.tables({"t1": ("k,cash,note\n" + "".join(rows)).encode()})
        self.assertEqual(len(self.listed()), 40_000)

    def test_long_cells(self) -> None:
        """Writes lines and cells after records that are longer than a piece of a file."""
        long = "y" * 300_000
        rows = f'a,1,"{long}\n{long}"\nb,x,"{long}"\nc,1,\nd,z,"{long}\r{long}"\n'
        self.tables({"t1": ("k,cash,note\n" + rows).encode()})
        found = [[it[1], it[5], it[7]] for it in self.listed()]
        self.assertEqual(found, [["2", "4", "x"], ["4", "6", "z"]])


class TestLimit(AllFaultsTest):
    """Cuts the list of a table by `--most-faults`, and says so."""

    def setUp(self) -> None:
        """Writes a table with four faults in two rows, and one with a fault."""
        super().setUp()
        rows = b"k,cash,note\na,1x,#foo\nb,2,y\nc,z,#bar\n"
        self.tables({"t1": rows, "t2": b"k,cash,note\na,x,y\n", "t3": rows})

    def check_cut(self, most: str, counts: tuple[int, int, int]) -> str:
        """Checks how many faults each table has, and returns the lines."""
        plain = self.convert("--out", "/dev/null").err
        seen = self.convert("--out", "/dev/null", "--faults", "f.csv", "--most-faults", most)
        self.assertEqual((seen.status, seen.err[: len(plain)]), (1, plain))
        found = records(self.faults())
        for name, count in zip(("t1", "t2", "t3"), counts):
            rows = [it for it in found if it[0] == name]
            ends = [name, "0", "0", "0", "MoreFaults", *[""] * 8]
            self.assertEqual(len([it for it in rows if it != ends]), count)
            self.assertEqual(ends in rows, name != "t2" and count < 4)
            self.assertEqual(rows[-1] == ends, ends in rows)
        return seen.err[len(plain) :]

    def test_cut_lists(self) -> None:
        """Writes as many as are asked for, then the record that says so, and prints a line."""
        self.assertEqual(self.check_cut("1", (1, 1, 1)), LIMIT.format(1, 2))
        self.assertEqual(self.check_cut("2", (2, 1, 2)), LIMIT.format(2, 2))
        self.assertEqual(self.check_cut("3", (3, 1, 3)), LIMIT.format(3, 2))

    def test_whole_lists(self) -> None:
        """Writes all faults if they are not more than that."""
        self.assertEqual(self.check_cut("4", (4, 1, 4)), "")
        self.assertEqual(self.check_cut("4294967295", (4, 1, 4)), "")

    def test_wrong_limits(self) -> None:
        """Refuses a limit that is not a number from 1 on."""
        for most in ("0", "x", "-1", "4294967296", ""):
            with self.subTest(most=most):
                seen = self.convert("--faults", "f.csv", "--most-faults", most)
                self.assertEqual((seen.status, self.faults()), (2, None))

    def test_explained_counts(self) -> None:
        """Prints below a table how many more faults the file has."""
        lines = self.convert("--explain", "--faults", "f.csv").err.splitlines()
        more = [it for it in lines if " in this table" in it]
        self.assertEqual(more, ["    and 3 more in this table: see f.csv"] * 2)
        cut = self.convert("--explain", "--faults", "f.csv", "--most-faults", "3").err.splitlines()
        more = [it for it in cut if " in this table" in it]
        self.assertEqual(more, ["    and more than 2 others in this table: see f.csv"] * 2)
        self.assertEqual(cut[-1] + "\n", LIMIT.format(3, 2))
        plain = self.convert("--explain").err.splitlines()
        self.assertEqual(plain, [it for it in lines if it not in more and "more in" not in it])


class TestSql(AllFaultsTest):
    """Is a table of a database whose columns are written without quotes."""

    def test_a_select(self) -> None:
        """Selects a record by all its columns."""
        program = shutil.which("sqlite3")
        if program is None:
            self.skipTest("sqlite3 is not there")
        self.tables({"t1": b'k,cash,note\na,"1,x",y\nb,1,#z\n'})
        self.listed()
        select = f"select {', '.join(NAMES)} from f where fault_number = 31;"
        words = [program, ":memory:", ".mode csv", ".import f.csv f", select]
        seen = subprocess.run(words, cwd=self.folder, capture_output=True, check=True)
        wanted = ["t1", "2", "3", "31", "UnknownSpecial", "3", "note", "#z", "", *NO_CAUSE]
        self.assertEqual(records(seen.stdout), [wanted])
        self.assertTrue((self.faults() or b"").startswith(HEADER))


class TestOpens(AllFaultsTest):
    """Opens each file at most twice: for the run, and once more for its faults."""

    def opens(self, path: str, *words: str) -> int:
        """Returns how many times a run opens a file, as the system counts."""
        system = ctypes.CDLL(None, use_errno=True)
        seen = system.inotify_init1(os.O_NONBLOCK)
        self.assertGreaterEqual(seen, 0)
        try:
            watched = os.fsencode(self.folder / path)
            self.assertGreaterEqual(system.inotify_add_watch(seen, watched, OPENED | CLOSED), 0)
            self.convert(*words, "--out", "/dev/null")
            events = os.read(seen, 1 << 16)
        finally:
            os.close(seen)
        masks = [events[at + 4 : at + 8] for at in range(0, len(events), 16)]
        return masks.count(OPENED.to_bytes(4, sys.byteorder))

    def test_one_bad_cell(self) -> None:
        """Opens the metadata, the types table and the table once more after a bad cell."""
        for rows in (b"a,x,y\n", b"a,x,y\n" + b"b,#x,#\n" * 9):
            self.tables({"t1": b"k,cash,note\n" + rows})
            for path in ("r/m.json", "t.csv", "r/t1.csv"):
                for words in ("--faults f.csv", "--explain", "--explain --faults f.csv"):
                    with self.subTest(path=path, words=words):
                        self.assertEqual(self.opens(path, *words.split(), "--workers", "1"), 2)

    def test_a_good_report(self) -> None:
        """Opens each file once."""
        self.tables({"t1": b"k,cash,note\na,1,y\n"})
        for path in ("r/m.json", "t.csv", "r/t1.csv"):
            self.assertEqual(self.opens(path, "--explain", "--faults", "f.csv"), 1)
