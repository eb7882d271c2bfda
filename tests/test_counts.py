"""Tests the file of `--counts FILE`, against a count of the document and the tables in Python.

The expected counts come from the document as Python's JSON reader reads it, and from the tables as
its CSV reader does, or they are written here by hand.
"""
from __future__ import annotations

import csv
import json
import os
import resource
import shutil
import signal
import stat
import subprocess
import threading
from collections.abc import Iterator
from pathlib import Path
from typing import Any

from tests.fault_files import WORDS, FaultsTest, cannot_write
from tests.harness import (
    NAMESPACE,
    PATIENCE,
    PROGRAM,
    TOP,
    TYPES,
    CaseTest,
    Content,
    TestCase,
    for_each,
    held,
    metadata,
)

EXAMPLES = TOP / "examples"
COUNTS = ["--counts", "c.json"]
LACKS = {"withoutUnit": "unit", "withoutEntity": "entity", "withoutPeriod": "period"}


def rows_of(file: Path) -> int:
    """Counts the rows of a table: the records that are not blank, without the header."""
    with open(file, encoding="utf-8-sig", errors="surrogateescape", newline="") as text:
        return sum(bool(it) for it in csv.reader(text)) - 1


def counted(folder: Path, meta: str, document: bytes) -> dict[str, Any]:
    """Returns what the file of counts must have, by the metadata, the tables and the document."""
    said = json.loads((folder / meta).read_text(encoding="utf-8-sig"))
    facts = json.loads(document)["facts"]
    tables = []
    for name in sorted(said["tables"], key=str.encode):
        url = said["tables"][name]["url"]
        file = (folder / meta).parent / url
        own = [it for key, it in facts.items() if key.split(".")[0] == name]
        lacks = {
            key: sum(word not in it["dimensions"] for it in own) for key, word in LACKS.items()
        }
        tables.append(
            {
                "table": name,
                "url": url,
                "read": file.exists(),
                "rows": rows_of(file) if file.exists() else 0,
                "facts": len(own),
                "withoutUnit": lacks["withoutUnit"],
                "withoutDecimals": sum("decimals" not in it for it in own),
                "withoutEntity": lacks["withoutEntity"],
                "withoutPeriod": lacks["withoutPeriod"],
            }
        )
    return {"tables": tables}


def text_of(counts: dict[str, Any]) -> bytes:
    """Returns the text of the file with these counts."""
    return json.dumps(counts, separators=(",", ":"), ensure_ascii=False).encode() + b"\n"


class CountsTest(TestCase):
    """A test of the file of counts."""

    def check_counts(self, *words: str, meta: str = "meta.json") -> dict[str, Any]:
        """Runs with several workers, rings and layouts, and compares each file of counts.

        Returns the counts.
        """
        wanted: bytes | None = None
        for workers, ring, layout in ((1, 1, "compact"), (4, 1024, "lines"), (4, 2, "compact")):
            more = [f"--workers={workers}", f"--ring={ring}", f"--layout={layout}"]
            with self.subTest(workers=workers, ring=ring, layout=layout):
                (self.folder / "c.json").unlink(missing_ok=True)
                seen = self.run_program(*words, *more, *COUNTS)
                self.assertEqual((seen.status, seen.err), (0, ""))
                if wanted is None:
                    wanted = text_of(counted(self.folder, meta, seen.out))
                self.check_same(self.read("c.json") or b"", wanted)
        assert wanted is not None
        told: dict[str, Any] = json.loads(wanted)
        return told

    def report(self, tables: dict[str, Content], **more: Any) -> None:
        """Writes a report with these tables, in its folder."""
        self.write({"meta.json": metadata({name: {} for name in tables}, **more)})
        self.write({"types.csv": TYPES, **{f"{name}.csv": it for name, it in tables.items()}})

    def check_report(self, **wanted: int) -> dict[str, Any]:
        """Checks the counts of the report, and the given ones of its first table."""
        told = self.check_counts("meta.json", "--types", "types.csv")
        first = told["tables"][0]
        self.assertEqual({key: first[key] for key in wanted}, wanted)
        return told


def examples() -> Iterator[tuple[str, tuple[Path]]]:
    """Yields the examples without a fault, by their names."""
    for folder in sorted(it for it in EXAMPLES.iterdir() if (it / "words").is_file()):
        if (folder / "words").read_text().split() and not (folder / "expected.err").exists():
            yield folder.name, (folder,)


@for_each(examples())
class TestExamples(CountsTest, CaseTest):
    """Counts each example."""

    def check(self, folder: Path) -> None:
        """Counts an example."""
        shutil.copytree(folder, self.folder, dirs_exist_ok=True)
        told = self.check_counts(*(folder / "words").read_text().split())
        self.assertGreater(sum(it["facts"] for it in told["tables"]), 0)


# Tables of the columns cash and note, each with the number of its rows and of its facts.
TABLES: dict[str, tuple[Content, int, int]] = {
    "two rows": ("cash,note\n1,a\n2,b\n", 2, 4),
    "the last record without a line end": ("cash,note\n1,a\n2,b", 2, 4),
    "CRLF": ("cash,note\r\n1,a\r\n2,b\r\n", 2, 4),
    "CR": ("cash,note\r1,a\r2,b\r", 2, 4),
    "blank lines at any place": ("\n\r\ncash,note\n\n\n1,a\n\r\n2,b\n\n", 2, 4),
    "line ends in quotes": ('cash,note\n1,"a\n\nb\r\n"\n2,b\n', 2, 4),
    "doubled quotes": ('cash,note\n1,"a""\n""b"\n2,"""\n"\n', 2, 4),
    "quotes in a field": ('cash,note\n1,a"b\n2,"c"d"\n3,e\n', 3, 6),
    "a quote that is not closed": ('cash,note\n1,"a\n2,b\n', 1, 2),
    "a byte-order mark": (b"\xef\xbb\xbfcash,note\n1,a\n", 1, 2),
    "a byte-order mark before a blank line": (b"\xef\xbb\xbf\n\ncash,note\n1,a\n", 1, 2),
    "a byte-order mark before quotes": (b'\xef\xbb\xbf"cash","note"\n1,a\n', 1, 2),
    "only a header": ("cash,note\n", 0, 0),
    "only a header, without a line end": ("cash,note", 0, 0),
    "rows without facts": ("cash,note\n,\n#none,\n", 2, 0),
    "one empty cell in quotes": ('note\n""\n""\n', 2, 0),
    "escapes in values": ('cash,note\n1,"\\"\n2,"""},""t9.r"":{""decimals"":"\n3,\\\\"\n', 3, 6),
    "what looks like members": ('note\n"""dimensions"":{""unit"":1}"\n"\\""unit"\n', 2, 2),
    "controls and other letters": ("note\n\x01\t\x1f\nä€😀\n\x7f\n", 3, 3),
    "a value without a text": ("cash,note\n#nil,#empty\n", 1, 2),
    "long texts": ('note\n"' + "a,\n" * 40_000 + '"\nb\n' + "c" * 100_000 + "\n", 3, 3),
    "many rows": ("cash,note\n" + "1,a\n" * 30_000, 30_000, 60_000),
    "many rows in quotes": ("cash,note\n" + '"1","a\n""b"""\n' * 20_000, 20_000, 40_000),
    "many blank lines": ("note\n" + "\n" * 70_000 + "a\n" + "\r\n" * 70_000 + "b", 2, 2),
}


@for_each((name, case) for name, case in TABLES.items())
class TestTables(CountsTest, CaseTest):
    """Counts the rows and facts of a table."""

    def check(self, table: Content, rows: int, facts: int) -> None:
        """Counts a table, alone and between others."""
        for tables in ({"t1": table}, {"t1": table, "a": "cash\n1\n", "z": "note\n1\n"}):
            self.report(tables)
            told = self.check_report()
            found = {it["table"]: (it["rows"], it["facts"]) for it in told["tables"]}
            self.assertEqual(found["t1"], (rows, facts))


class TestProperties(CountsTest):
    """Counts facts that lack something."""

    def templates(self, **columns: Any) -> dict[str, Any]:
        """Returns a template with columns of these dimensions and decimals."""
        return {"tableTemplates": {"p": {"columns": columns}}}

    def test_each_property(self) -> None:
        """Counts facts with and without unit, decimals, entity and period."""
        pure = {"concept": "eg:Cash", "unit": "#none"}
        columns = {
            "cash": {"dimensions": {"concept": "eg:Cash"}, "decimals": 2},
            "pure": {"dimensions": pure},
            "alone": {"dimensions": {**pure, "entity": "#none"}, "decimals": 0},
            "ever": {"dimensions": {"concept": "eg:Cash", "period": "#none"}},
            "note": {"dimensions": {"concept": "eg:Note"}},
        }
        table = "cash,pure,alone,ever,note\n1,2,3,4,5\n1,,3d-1,4dINF,\n"
        self.report({"t1": table, "t2": "note\na\n"}, **self.templates(**columns))
        told = self.check_report(
            rows=2,
            facts=8,
            withoutUnit=4,
            withoutDecimals=4,
            withoutEntity=2,
            withoutPeriod=2,
        )
        self.assertEqual(told["tables"][1]["withoutDecimals"], 1)

    def test_dimensions_with_names_like_these(self) -> None:
        """Counts no dimension of the taxonomy as a unit, and no text that looks like one."""
        types = TYPES + f"{NAMESPACE},unit,typed\n{NAMESPACE},entity,typed\n{NAMESPACE},D,typed\n"
        own = {"eg:unit": "$a", "eg:entity": '"unit":', "eg:D": '\\"entity\\', "unit": "#none"}
        columns = {
            "a": {},
            "cash": {"dimensions": {"concept": "eg:Cash", **own, "entity": "#none"}},
        }
        self.report({"t1": 'a,cash\n"""period"":",1\n,2\n'}, **self.templates(**columns))
        self.write({"types.csv": types})
        self.check_report(facts=2, withoutUnit=2, withoutEntity=2, withoutPeriod=0)

    def test_namespaces_with_names_like_these(self) -> None:
        """Counts nothing of the document's head."""
        self.report({"facts": "note\na\n", "unit": "note\na\n"})
        meta = json.loads(self.read("meta.json") or b"")
        names = {"facts": "http://e.org/facts.x", "unit": 'http://e.org/"facts":{', "entity": "u:e"}
        meta["documentInfo"]["namespaces"].update(names)
        meta["documentInfo"]["baseURL"] = 'http://e.org/"facts":{"t.1":{'
        self.write({"meta.json": meta})
        self.check_report(facts=1, withoutUnit=1)

    def test_decimals_of_the_report(self) -> None:
        """Counts decimals that a property of the template gives."""
        self.report({"t1": "cash,note\n1,a\n2,b\n"}, decimals=2)
        self.check_report(facts=4)


class TestNames(CountsTest):
    """Names each table, whether it has facts or not."""

    def test_order_and_letters(self) -> None:
        """Has the tables in the byte order of their identifiers, as the document."""
        names = ["b", "B", "a1", "a-1", "a_", "ä", "z", "日本", "Ω"]
        self.report({name: "note\nx\n" for name in names})
        told = self.check_report(facts=1)
        found = [it["table"] for it in told["tables"]]
        self.assertEqual(found, sorted(names, key=str.encode))

    def test_escaped_keys(self) -> None:
        """Resolves escapes in the metadata's keys."""
        self.report({"t1": "note\nx\n", "ä": "note\n", "tables": "note\ny\nz\n"})
        text = (self.read("meta.json") or b"").decode()
        self.assertIn('"\\u00e4"', text)
        self.write({"meta.json": text.replace('"tables": {', '"\\u0074abl\\u0065s": {', 1)})
        self.check_report(facts=1)

    def test_keys_that_occur_twice(self) -> None:
        """Takes the last `tables` and the last table of a name, as the document does."""
        self.report({"t1": "note\nx\n", "t2": "note\ny\n"})
        text = json.dumps(metadata({"t1": {}, "t2": {}}))
        old = json.dumps({"old": {"url": "old.csv", "template": "p"}})
        gone = '"t2": {"url": "gone.csv", "template": "p"}, '
        both = text.replace('"tables": {', f'"tables": {old}, "tables": {{{gone}', 1)
        self.write({"meta.json": "\ufeff" + both})
        told = self.check_report(facts=1)
        self.assertEqual([it["url"] for it in told["tables"]], ["t1.csv", "t2.csv"])

    def test_keys_that_look_like_tables(self) -> None:
        """Takes no other object of that name for the tables."""
        inner: dict[str, Any] = {"tables": {"no": {}}}
        more = {"x": inner, "y": ["tables", inner], "z": '"tables":{'}
        self.report({"t1": "note\nx\n"}, **more)
        self.check_report(facts=1)

    def test_urls(self) -> None:
        """Has each URL as the metadata has it, also one of another folder or with quotes."""
        urls = {"t1": "in/t 1.csv", "t2": 'q"uote.csv', "t3": "in/t 1.csv"}
        tables = {name: {"url": url} for name, url in urls.items()}
        self.write({"r/m/meta.json": metadata(tables), "types.csv": TYPES})
        self.write({f"r/m/{url}": "note\nx\n" for url in urls.values()})
        for meta in ("r/m/meta.json", "./r/m/meta.json", f"{self.folder}/r/m/meta.json"):
            told = self.check_counts(meta, "--types", "types.csv", meta=meta)
            self.assertEqual({it["table"]: it["url"] for it in told["tables"]}, urls)

    def test_optional_tables_without_a_file(self) -> None:
        """Has tables without a file as not read."""
        none: dict[str, Any] = {"optional": True}
        tables: dict[str, dict[str, Any]] = {"a": none, "b": {}, "c": none}
        self.write({"meta.json": metadata(tables), "types.csv": TYPES, "b.csv": "note\nx\n"})
        told = self.check_report(facts=0, rows=0)
        self.assertEqual([it["read"] for it in told["tables"]], [False, True, False])

    def test_no_tables(self) -> None:
        """Has an empty list if the report has no table."""
        self.report({})
        self.check_counts("meta.json", "--types", "types.csv")
        self.assertEqual(self.read("c.json"), b'{"tables":[]}\n')

    def test_metadata_from_a_pipe(self) -> None:
        """Names the tables though the metadata can be read only once."""
        self.write({"types.csv": TYPES})
        text = json.dumps(metadata({"t1": {"optional": True}})).encode()
        seen = self.run_program("/dev/stdin", "--types", "types.csv", *COUNTS, input=text)
        self.assertEqual((seen.status, seen.err), (0, ""))
        told = json.loads(self.read("c.json") or b"")
        self.assertEqual([(it["table"], it["read"]) for it in told["tables"]], [("t1", False)])


def limited() -> None:
    """Limits files to 20 bytes, and ignores the signal of that."""
    signal.signal(signal.SIGXFSZ, signal.SIG_IGN)
    resource.setrlimit(resource.RLIMIT_FSIZE, (20, 20))


class TestFile(FaultsTest):
    """Writes the file whole and only at status 0, and never over another file of the run."""

    def setUp(self) -> None:
        """Writes a report and an old file of counts."""
        super().setUp()
        self.report({"t1": b"cash,note\n1,a\n", "t2": b"cash\n2\n"})
        self.write({"c.json": "old"})

    def test_the_shape(self) -> None:
        """Writes this text."""
        self.assertEqual(self.convert(*COUNTS).status, 0)
        rest = '"withoutEntity":0,"withoutPeriod":0}'
        first = f'"rows":1,"facts":2,"withoutUnit":1,"withoutDecimals":2,{rest}'
        second = f'"rows":1,"facts":1,"withoutUnit":0,"withoutDecimals":1,{rest}'
        wanted = (
            f'{{"tables":[{{"table":"t1","url":"t1.csv","read":true,{first},'
            f'{{"table":"t2","url":"t2.csv","read":true,{second}]}}\n'
        )
        self.assertEqual(self.read("c.json"), wanted.encode())

    def test_the_same_document(self) -> None:
        """Writes the same document with and without it, at each kind of output."""
        plain = self.convert().out
        self.assertEqual(self.convert(*COUNTS).out, plain)
        for more in (["--out", "o.json"], ["--out", "o.json", "--whole"]):
            self.assertEqual(self.convert(*COUNTS, *more)[:2], (0, b""))
            self.assertEqual(self.read("o.json"), plain)

    def test_other_statuses(self) -> None:
        """Leaves the file as it is at status 1, 2 and 3."""
        ways: list[list[str]] = [
            ["--out", "o.json"],
            ["--out", "o.json", "--whole"],
            ["--faults", "f.csv"],
            [],
        ]
        self.write({"r/t2.csv": "cash\nx\n"})
        for words in ways:
            self.assertEqual(self.convert(*COUNTS, *words).status, 1)
            self.assertEqual(self.read("c.json"), b"old")
        self.write({"r/t2.csv": "cash\n1\n"})
        with open("/dev/full", "wb") as full:
            self.assertEqual(self.convert(*COUNTS, stdout=full).status, 3)
        self.assertEqual(self.convert(*COUNTS, "--whole").status, 2)
        self.assertEqual(self.convert(*COUNTS, "--types", "no.csv", "--wrong").status, 2)
        self.assertEqual(self.convert(*COUNTS, "--faults", "no/f.csv").status, 3)
        (self.folder / "t.csv").unlink()
        self.assertEqual(self.convert(*COUNTS).status, 3)
        self.write({"t.csv": "no header"})
        self.assertEqual(self.convert(*COUNTS).status, 1)
        self.assertEqual(self.read("c.json"), b"old")
        self.assertFalse((self.folder / "c.json.new").exists())

    def test_files_of_the_run(self) -> None:
        """Refuses files of the report, the document and the file of the faults, by any path."""
        self.report({"t1": b"cash\n1\n", "t2": b"cash\n1\n"}, parameterURL="p.csv")
        self.write({"r/p.csv": "name,value\na,1\n", "o.json": "old", "f.csv": "old"})
        inputs = ["r/m.json", "t.csv", "r/p.csv", "r/t1.csv", "r/t2.csv"]
        for name in (*inputs, "o.json", "f.csv"):
            os.link(self.folder / name, self.folder / f"hard.{Path(name).name}")
            os.symlink(name, self.folder / f"soft.{Path(name).name}")
        before = held(self.folder)
        for name in (*inputs, "o.json", "f.csv"):
            links = f"hard.{Path(name).name}", f"soft.{Path(name).name}"
            for path in (name, f"./{name}", f"{self.folder}/{name}", *links):
                for words in ("--workers=1", "--whole", ""):
                    with self.subTest(path=path, words=words):
                        more = ["--out", "o.json", "--faults", "f.csv", *words.split()]
                        seen = self.convert("--counts", path, *more)
                        self.check_run(seen, *cannot_write(path))
                        self.assertEqual(held(self.folder), before)

    def test_files_that_do_not_exist(self) -> None:
        """Refuses the path of a table that is missing, and those of outputs that are new."""
        self.report({"t1": b"cash\n1\n", "t2": None}, {"optional": True})
        before = held(self.folder)
        for path in ("r/t2.csv", "./r/t2.csv", "o.json", "r/../o.json", "f.csv", "./f.csv"):
            with self.subTest(path=path):
                words = ["--counts", path, "--out", "o.json", "--whole", "--faults", "f.csv"]
                self.check_run(self.convert(*words), *cannot_write(path))
                self.assertEqual(held(self.folder), before)

    def test_standard_output(self) -> None:
        """Refuses the file that is standard output."""
        with open(self.folder / "o.json", "wb") as out:
            seen = self.convert("--counts", "o.json", stdout=out)
        self.check_run(seen, *cannot_write("o.json"))

    def test_files_that_cannot_be_made(self) -> None:
        """Refuses folders, and files in folders that are missing."""
        before = held(self.folder)
        for path in ("no/c.json", "r", "."):
            with self.subTest(path=path):
                self.check_run(self.convert("--counts", path), *cannot_write(path))
                self.assertEqual(held(self.folder), before)

    def test_reasons(self) -> None:
        """Explains why it cannot be written."""
        seen = self.convert("--counts", "r", "--explain")
        self.check_run(seen, 3, b"", "xbrl-json: cannot write r\n    it is a folder\n")

    def test_a_full_disk(self) -> None:
        """Ends with a line of the file and status 3, after a whole document."""
        plain = self.convert().out
        seen = self.convert("--counts", "/dev/full")
        self.check_run(seen, 3, plain, "xbrl-json: cannot write /dev/full\n")

    def test_a_file_that_may_not_be_so_long(self) -> None:
        """Keeps the old file, and leaves no other."""
        seen = self.convert(*COUNTS, preexec_fn=limited)
        self.assertEqual((seen.status, self.read("c.json")), (3, b"old"), seen)
        self.assertFalse((self.folder / "c.json.new").exists())

    def test_links_and_permissions(self) -> None:
        """Writes through a link, and keeps the permissions of the old file."""
        file = self.folder / "c.json"
        file.rename(self.folder / "real.json")
        os.symlink("real.json", file)
        (self.folder / "real.json").chmod(0o640)
        self.assertEqual(self.convert(*COUNTS).status, 0)
        self.assertTrue(file.is_symlink())
        self.assertEqual(stat.S_IMODE((self.folder / "real.json").stat().st_mode), 0o640)
        self.assertEqual(json.loads(self.read("real.json") or b"")["tables"][0]["facts"], 2)

    def test_a_named_pipe(self) -> None:
        """Writes to a named pipe."""
        file = self.folder / "pipe"
        os.mkfifo(file)
        got: list[bytes] = []
        reader = threading.Thread(target=lambda: got.append(file.read_bytes()), daemon=True)
        reader.start()
        self.assertEqual(self.convert("--counts", "pipe").status, 0)
        reader.join(timeout=PATIENCE)
        self.assertEqual(len(json.loads(got[0])["tables"]), 2)

    def test_tables_that_are_read_once(self) -> None:
        """Counts tables and a types table that can be read only once."""
        self.assertEqual(self.convert(*COUNTS).status, 0)
        wanted = self.read("c.json")
        for words in (["--workers=1"], ["--workers=4"]):
            self.report({"t1": b"cash,note\n1,a\n", "t2": b"cash\n2\n"})
            for path in ("r/t1.csv", "r/t2.csv", "t.csv"):
                self.read_once_only(path)
            self.assertEqual(self.convert(*COUNTS, *words).status, 0)
            self.assertEqual(self.read("c.json"), wanted)
            for path in ("r/t1.csv", "r/t2.csv", "t.csv"):
                (self.folder / path).unlink()

    def test_a_long_document_to_a_pipe(self) -> None:
        """Counts the same if the document goes to a pipe, which takes part of a write."""
        self.report({"t1": b"cash,note\n" + b'1,"a\n"\n' * 20_000})
        plain = self.convert("--counts", "c.json")
        wanted = self.read("c.json")
        command = f"'{PROGRAM}' {' '.join(WORDS)} --counts d.json | cat"
        out = subprocess.run(["sh", "-c", command], cwd=self.folder, stdout=subprocess.PIPE)
        self.check_same(out.stdout, plain.out)
        self.assertEqual(self.read("d.json"), wanted)
        self.assertEqual(json.loads(wanted or b"")["tables"][0]["facts"], 40_000)


class TestHelp(TestCase):
    """Has the option where the others are."""

    def test_help(self) -> None:
        """Names the option in the help, in 80 columns."""
        lines = self.run_program("--help").out.decode().splitlines()
        self.assertTrue(any("--counts <FILE>" in it for it in lines))
        self.assertLessEqual(max(map(len, lines)), 80)

    def test_man_page_and_completions(self) -> None:
        """Names the option in the man page and in each completion."""
        for path in ("docs/xbrl-json.1", *(f"dist/completions/{it}" for it in COMPLETIONS)):
            with self.subTest(path=path):
                text = (TOP / path).read_text(encoding="utf-8").replace("\\-", "-")
                self.assertRegex(text, r"(--|-l )counts\b")


COMPLETIONS = ["_xbrl-json", "xbrl-json.bash", "xbrl-json.fish"]
