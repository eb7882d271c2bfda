"""Tests what `--explain` prints of files: unread, unwritten, too large, changed."""
from __future__ import annotations

import json
import os
import subprocess
from pathlib import Path
from typing import Any

from tests.explaining import (
    NO_PATH,
    REPORT,
    UNREAD,
    WORDS,
    ExplainTest,
    edited,
    lines_of,
)
from tests.harness import NOBODY, PATIENCE, PROGRAM, Content, for_each, metadata

WHOLE_FILE = "(the whole file)"
NO_JSON = "this is not JSON in UTF-8, is over 127 levels deep, or a number passes a double"


class TestText(ExplainTest):
    """Explains metadata that is not JSON, or too large."""

    def test_no_json(self) -> None:
        """Gives the line and column."""
        text = '{"a":1,\n "b" 2}'
        self.says({"r/m.json": text}, "report: Syntax (1)", "r/m.json", "line 2, column 6", NO_JSON)

    def test_an_empty_file(self) -> None:
        """Gives the first line."""
        self.says({"r/m.json": ""}, "report: Syntax (1)", "r/m.json", "line 1, column 0", NO_JSON)

    def test_too_many_bytes(self) -> None:
        """Gives the limit."""
        most = "the metadata has more than 67,108,864 bytes"
        many = " " * (64 * 1024 * 1024) + json.dumps(REPORT)
        self.says({"r/m.json": many}, "report: TooLarge (15)", "r/m.json", "(more bytes)", most)


class TestTwoFiles(ExplainTest):
    """Explains a fault that depends on another file than the metadata, and the order of reading."""

    def test_a_name_twice(self) -> None:
        """Names the parameters file too."""
        report = {**REPORT, "parameterURL": "p.csv", "parameters": {"a": "1"}}
        why = "the parameters file has this name too"
        files: dict[str, Content] = {"r/m.json": report, "r/p.csv": "name,value\na,2\n"}
        self.says(files, "report: BadParameter (13)", "/parameters/a", '"1"', why)

    def test_the_name_of_a_file_before_all_else(self) -> None:
        """Names the file's path, though other members have faults."""
        report = {**REPORT, "parameterURL": "/p.csv", "parameters": {"a": "1"}, "decimals": "no"}
        files: dict[str, Content] = {"r/m.json": report, "r/p.csv": "name,value\na,2\n"}
        why = f"parameterURL {NO_PATH}"
        self.says(files, "report: BadParameter (13)", "/parameterURL", '"/p.csv"', why)


URI = "http://example.com/eg"
HEADER = "namespace,name,type\n"
LONGEST = "namespace,name,type3,period,values\n"
NOT_WHOLE = "the record has another number of cells than the header"
NO_HEADER = "the file has no header"
NO_TYPE = "this is not one of the types that the header allows"
NO_PERIOD = "this must be empty, or for a concept instant or duration"
NO_VALUES = "this must be empty, or for a typed dimension a simple type such as integer"
TYPES_HEADER = "the header is not namespace,name, then type, type2 or type3,period,values"
NO_NAME = "this name is not an NCName"
TWO_LINES = f'\ufeff"namespace",name,type\n"{URI}\n\n",Cash,text\n{URI},,text\n'
MANY_TYPES = HEADER + "".join(f"u,a{i},text\n" for i in range(1_048_577))
MANY_PARAMETERS = "name,value\n" + "".join(f"a{i},\n" for i in range(65_537))

# For the types table and the parameters file: the file, the place after its path, and the two other
# lines.
TYPES_FILES: dict[str, tuple[Content, str, str, str]] = {
    "empty": ("", "", "(nothing)", NO_HEADER),
    "another header": ("name,type\n", ", line 1", "name,type", TYPES_HEADER),
    "a short record": (f"{HEADER}{URI},Cash\n", ", line 2", "(a record of 2)", NOT_WHOLE),
    "a bad name": (
        f'\r\n{HEADER}\r\n\n{URI},"Ca""sh\n",text\n{URI},b,text\n',
        ", line 5, cell 2",
        '"Ca"sh\\x0a"',
        NO_NAME,
    ),
    "a name twice": (
        f"{HEADER}{URI},Cash,text\r{URI},Cash,other",
        ", line 3, cell 2",
        '"Cash"',
        "an earlier record has this name in this namespace",
    ),
    "another type": (f"{HEADER}{URI},Cash,date\n", ", line 2, cell 3", '"date"', NO_TYPE),
    "a type with a line end": (
        f'{HEADER}{URI},Cash,"text\n"\n',
        ", line 2, cell 3",
        '"text\\x0a"',
        NO_TYPE,
    ),
    "type3 without period and values": (
        f"namespace,name,type3\n{URI},Cash,text\n",
        ", line 1",
        "namespace,name,type3",
        TYPES_HEADER,
    ),
    "a record of three": (f"{LONGEST}{URI},Cash,text\n", ", line 2", "(a record of 3)", NOT_WHOLE),
    "a type of no table": (
        f"{LONGEST}{URI},Cash,monetary,instant,\n{URI},b,string,ever,x\n",
        ", line 3, cell 3",
        '"string"',
        NO_TYPE,
    ),
    "a period": (
        f"{LONGEST}{URI},Cash,monetary,ever,\n",
        ", line 2, cell 4",
        '"ever"',
        NO_PERIOD,
    ),
    "a dimension's period": (
        f"{LONGEST}{URI},Cash,shares,instant,\n{URI},Dim,explicit,instant,integer\n",
        ", line 3, cell 4",
        '"instant"',
        NO_PERIOD,
    ),
    "a concept's values": (
        f"{LONGEST}{URI},Cash,text,duration,integer\n",
        ", line 2, cell 5",
        '"integer"',
        NO_VALUES,
    ),
    "a typed dimension's values": (
        f"{LONGEST}{URI},a,typed,,\n{URI},b,typed,,gYear\n{URI},c,typed,,monetary\n",
        ", line 4, cell 5",
        '"monetary"',
        NO_VALUES,
    ),
    "a member's values": (
        f"{LONGEST}{URI},Red,member,,\n{URI},Blue,member,,integer\n",
        ", line 3, cell 5",
        '"integer"',
        NO_VALUES,
    ),
    "a name twice under type3": (
        f"{LONGEST}{URI},Cash,text,,\n{URI},Cash,member,,\n",
        ", line 3, cell 2",
        '"Cash"',
        "an earlier record has this name in this namespace",
    ),
    "a record of two lines": (TWO_LINES, ", line 5, cell 2", '""', NO_NAME),
    "no UTF-8": (
        HEADER.encode() + b"u\xe9,Cash,text\n",
        ", line 2, cell 1",
        '"u\\xe9"',
        "this is not UTF-8",
    ),
}
PARAMETERS_FILES: dict[str, tuple[Content, str, str, str]] = {
    "empty": ("", "", "(nothing)", NO_HEADER),
    "another header": (
        "name,value,more\n",
        ", line 1",
        "name,value,more",
        "the header is not name,value",
    ),
    "a short record": ("name,value\na,1\n\nb\n", ", line 4", "(a record of 1)", NOT_WHOLE),
    "a bad name": (
        "name,value\na.b,1\n",
        ", line 2, cell 1",
        '"a.b"',
        "this name is not an identifier",
    ),
    "a name twice": (
        "name,value\na,1\r\n\r\na,2\r\n",
        ", line 4, cell 1",
        '"a"',
        "an earlier record has this name",
    ),
    "no UTF-8": (b"name,value\na,\xff\n", ", line 2, cell 2", '"\\xff"', "this is not UTF-8"),
}


@for_each(TYPES_FILES.items())
class TestTypes(ExplainTest):
    """Explains a bad record of a types table, at its line of the file."""

    def check(self, text: Content, place: str, found: str, why: str) -> None:
        """Explains the fault of a types table."""
        self.says({"t.csv": text}, "types: BadTypes (14)", f"t.csv{place}", found, why)

    def test_many(self) -> None:
        """Gives the record that is one too many."""
        most = "there are more than 1,048,576 records behind the header"
        place = "t.csv, line 1048578"
        self.says({"t.csv": MANY_TYPES}, "types: TooLarge (15)", place, "(a record of 3)", most)


@for_each(PARAMETERS_FILES.items())
class TestParameters(ExplainTest):
    """Explains a bad record of a parameters file, at its line of the file."""

    def check(self, text: Content, place: str, found: str, why: str) -> None:
        """Explains the fault of a parameters file."""
        files = {"r/m.json": {**REPORT, "parameterURL": "p/p.csv"}, "r/p/p.csv": text}
        line = "parameters: BadParameter (13)"
        self.says(files, line, f"r/p/p.csv{place}", found, why)

    def test_many(self) -> None:
        """Gives the record that is one too many."""
        files: dict[str, Content] = {"r/m.json": {**REPORT, "parameterURL": "p/p.csv"}}
        files["r/p/p.csv"] = MANY_PARAMETERS
        most = "there are more than 65,536 records behind the header"
        place = "r/p/p.csv, line 65538"
        self.says(files, "parameters: TooLarge (15)", place, "(a record of 2)", most)


class TestManyTables(ExplainTest):
    """Explains many tables."""

    def test_the_first_hundred(self) -> None:
        """Explains 100 of 103 refused tables, each after its line."""
        ids = sorted(f"u{i}" for i in range(103))
        self.write({"r/m.json": metadata({it: {} for it in ids})})
        lines = [f"xbrl-json: table {it}, row 0, column 0: NoFile (20)\n" for it in ids]
        self.check_same(self.err(), "".join(lines))
        why = "a table that is not optional has no file"
        below = [f"    r/{it}.csv\n    {WHOLE_FILE}\n    {why}\n" for it in ids[:100]]
        wanted = "".join(a + b for a, b in zip(lines, below + [""] * 3))
        self.check_same(self.err("--explain"), wanted + "    (and 3 more)\n")


class TestUnread(ExplainTest):
    """Explains files that can be read only once, and faults that no content of a file has."""

    def err_of(self, meta: str, types: str, given: bytes = b"") -> str:
        """Returns standard error with this metadata, types table and standard input."""
        words = [meta, "--types", types, "--explain", "--out", "o.json"]
        return self.run_program(*words, input=given).err

    def test_types_from_pipes(self) -> None:
        """Explains the metadata though the types table has nothing for a second reader."""
        self.write({"r/m.json": edited(("tables", "t1", "url"), None)})
        places = ["/tables/t1/url", "(nothing)", "url is missing"]
        wanted = lines_of("report: BadTemplate (7)", places)
        types = (self.folder / "t.csv").read_bytes()
        with self.subTest("standard input"):
            self.check_same(self.err_of("r/m.json", "/dev/stdin", types), wanted)
        os.mkfifo(self.folder / "pipe")
        with subprocess.Popen(["sh", "-c", "cat t.csv > pipe"], cwd=self.folder) as pipe:
            with self.subTest("a named pipe"):
                self.check_same(self.err_of("r/m.json", "pipe"), wanted)
            pipe.wait(timeout=PATIENCE)

    def test_a_metadata_from_a_pipe(self) -> None:
        """Explains nothing more if the metadata has nothing for a second reader."""
        self.write({"r/m.json": edited(("tables", "t1", "url"), None)})
        why = "a file of the report cannot be opened again"
        wanted = lines_of("report: BadTemplate (7)", ["/dev/stdin", WHOLE_FILE, why])
        given = (self.folder / "r/m.json").read_bytes()
        self.check_same(self.err_of("/dev/stdin", "t.csv", given), wanted)

    def test_folders(self) -> None:
        """Explains folders instead of files."""
        lines = WHOLE_FILE, UNREAD
        words = ("r/m.json", "--types", "r")
        self.says({}, "types: Read (17)", "r", *lines, words=words)
        filed = "if this folder is a filing, convert it with xbrl-filing"
        self.says({}, "report: Read (17)", "r", *lines, filed, words=("r", "--types", "t.csv"))
        (self.folder / "r/p/p.csv").mkdir(parents=True)
        report = {**REPORT, "parameterURL": "p/p.csv"}
        self.says({"r/m.json": report}, "parameters: Read (17)", "r/p/p.csv", *lines)


NO_FILE = "there is no such file"
NO_FOLDER = "a part of its path is not a folder"
OF_REPORT = "it is a file of the report, which is only read"
TWICE = "the run reads it or writes it twice, or no file can be made beside it"
NO_LOOK = "the system does not let you look into a folder of its path"
NOT_MADE = "no file can be made in its folder, or the run reads it"

# Arguments after `r/m.json --types t.csv`, or all of them; the file that cannot be read or written,
# and the reason.
UNOPENED: list[tuple[tuple[str, ...], str, str]] = [
    (("none.json", "--types", "t.csv"), "read none.json", NO_FILE),
    (("r/m.json", "--types", "none.csv"), "read none.csv", NO_FILE),
    (("t.csv/m.json", "--types", "t.csv"), "read t.csv/m.json", NO_FOLDER),
    ((*WORDS, "--out", "no/o.json"), "write no/o.json", "its folder is not there"),
    ((*WORDS, "--out", "t.csv/o.json"), "write t.csv/o.json", NO_FOLDER),
    ((*WORDS, "--out", "t.csv/x/o.json"), "write t.csv/x/o.json", NO_FOLDER),
    ((*WORDS, "--out", "r"), "write r", "it is a folder"),
    ((*WORDS, "--whole", "--out", "r"), "write r", "it is a folder"),
    ((*WORDS, "--out", "t.csv"), "write t.csv", OF_REPORT),
    ((*WORDS, "--out", "r/../t.csv"), "write r/../t.csv", TWICE),
    ((*WORDS, "--faults", "r/m.json"), "write r/m.json", OF_REPORT),
    ((*WORDS, "--faults", "no/f.csv"), "write no/f.csv", "its folder is not there"),
    ((*WORDS, "--out", "old.json", "--faults", "old.json"), "write old.json", TWICE),
    (("r/url.json", "--types", "t.csv"), "read r/p.csv", NO_FILE),
    (
        ("r/url.json", "--types", "t.csv", "--out", "r/p.csv"),
        "write r/p.csv",
        "no file can be made in its folder, or the run reads it",
    ),
]

# The same for a user who is not root: a file that the system refuses, and which file gets which
# permissions.
FORBIDDEN: list[tuple[str, int, tuple[str, ...], str, str]] = [
    ("r/m.json", 0o000, WORDS, "read r/m.json", "you may not read it"),
    ("t.csv", 0o200, WORDS, "read t.csv", "you may not read it"),
    ("old.json", 0o444, (*WORDS, "--out", "old.json"), "write old.json", "you may not write it"),
    (
        "closed",
        0o000,
        ("closed/m.json", "--types", "t.csv"),
        "read closed/m.json",
        "the system does not let you look into a folder of its path",
    ),
    (
        "closed",
        0o000,
        (*WORDS, "--out", "closed/o.json"),
        "write closed/o.json",
        "the system does not let you look into a folder of its path",
    ),
    (
        "closed",
        0o555,
        (*WORDS, "--out", "closed/o.json"),
        "write closed/o.json",
        "no file can be made in its folder, or the run reads it",
    ),
    (
        "closed",
        0o555,
        (*WORDS, "--whole", "--out", "closed/old.json"),
        "write closed/old.json",
        TWICE,
    ),
]


class UnopenedTest(ExplainTest):
    """A test with files that cannot be opened."""

    def setUp(self) -> None:
        """Writes more files."""
        super().setUp()
        report = {**REPORT, "parameterURL": "p.csv"}
        self.write({"r/url.json": report, "old.json": "old", "closed/old.json": "old"})


@for_each((f"{what} {' '.join(words[2:])}", (words, what, why)) for words, what, why in UNOPENED)
class TestUnopened(UnopenedTest):
    """Explains files that cannot be opened, by the system's reason."""

    def check(self, words: tuple[str, ...], what: str, why: str) -> None:
        """Explains a file that cannot be opened."""
        line = f"xbrl-json: cannot {what}\n"
        self.assertEqual(self.run_program(*words).err, line)
        seen = self.run_program(*words, "--explain")
        self.assertEqual((seen.status, seen.err), (3, f"{line}    {why}\n"))


@for_each((f"{it[3]} {it[1]:03o}", it) for it in FORBIDDEN)
class TestForbidden(UnopenedTest):
    """Explains files that a user who is not root may not open."""

    def check(self, path: str, mode: int, words: tuple[str, ...], what: str, why: str) -> None:
        """Runs a copy of the program with these permissions of a file."""
        program = self.folder / "program"
        program.write_bytes(Path(PROGRAM).read_bytes())
        program.chmod(0o755)
        nobody: dict[str, Any] = {}
        if not os.geteuid():
            nobody = {"user": NOBODY, "group": NOBODY, "extra_groups": []}
            for it in (self.folder, *self.folder.rglob("*")):
                os.chown(it, NOBODY, NOBODY)
        before = (self.folder / path).stat().st_mode
        (self.folder / path).chmod(mode)
        seen = self.run_program(*words, "--explain", executable=str(program), **nobody)
        (self.folder / path).chmod(before)
        said = f"xbrl-json: cannot {what}\n    {why}\n"
        self.assertEqual((seen.status, seen.err), (3, said))


class TestAgain(ExplainTest):
    """Reads the files again for an explanation."""

    def test_a_table_that_has_changed(self) -> None:
        """Explains that the fault is gone, over a named pipe that holds the run until then."""
        self.write({"r/m.json": metadata({"t1": {}, "t2": {}}), "r/t1.csv": "cash\nx\n"})
        os.mkfifo(self.folder / "r/t2.csv")
        words = [*WORDS, "--explain", "--workers", "1", "--out", "o.json"]
        with subprocess.Popen([PROGRAM, *words], cwd=self.folder, stderr=subprocess.PIPE) as run:
            with open(self.folder / "r/t2.csv", "w") as pipe:
                (self.folder / "r/t1.csv").write_text("cash\n1\n")
                pipe.write("cash\n1\n")
            said = run.communicate(timeout=PATIENCE)[1].decode()
        sentence = "read again, the fault is not there: a file has changed meanwhile"
        line = "table t1, row 1, column 1: BadNumber (40)"
        self.check_same(said, lines_of(line, ["r/t1.csv", WHOLE_FILE, sentence]))
        self.assertEqual(run.returncode, 1)

    def seconds(self, *words: str) -> float:
        """Returns the seconds of processors that a run takes, whatever else they work on."""
        command = [PROGRAM, *WORDS, *words, "--out", "o.json"]
        said = self.folder / "said"
        with open(said, "wb") as err:
            with subprocess.Popen(command, cwd=self.folder, stderr=err) as run:
                usage = os.wait4(run.pid, 0)[2]
                run.returncode = 1
        return float(usage.ru_utime + usage.ru_stime)

    def test_a_large_metadata(self) -> None:
        """Explains a fault at the end of 28 MB by one more reading, and not by one per level.

        Right: about twice the time. The bound leaves room for a machine with much other work.
        """
        one = {"dimensions": {"concept": "eg:Cash", "entity": "eg:A1"}}
        columns = {f"c{i:07}": one for i in range(4000)}
        templates = {f"q{i}": {"columns": columns} for i in range(100)}
        templates.update(REPORT["tableTemplates"])
        self.write({"r/m.json": {**REPORT, "tableTemplates": templates, "decimals": "no"}})
        self.assertGreater((self.folder / "r/m.json").stat().st_size, 28_000_000)
        plain, explained = self.seconds(), self.seconds("--explain")
        self.assertEqual((self.folder / "said").read_text().split("\n")[1], "    /decimals")
        self.assertLess(explained, 5 * plain + 2)
