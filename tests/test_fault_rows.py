"""Tests the records of `--faults FILE` against records by hand."""
from __future__ import annotations

import os
import subprocess

from tests.fault_files import HEADER, NAMES, NO_CAUSE, REFUSED, WORDS, FaultsTest, records
from tests.harness import PATIENCE, PROGRAM, TYPES, held

# A table's file (None: it is missing), and the fields of its fault after the table's identifier, or
# nothing.
TABLES: list[tuple[bytes | None, list[str]]] = [
    (b"cash,note\n1,a\n", []),
    (None, ["0", "0", "20", "NoFile", "", "", ""]),
    (b"", ["0", "0", "22", "NoHeader", "", "", ""]),
    (b"\r\ncash,no\x07,note\n1,2,3\n", ["0", "2", "23", "UnknownHeader", "2", "no\x07", ""]),
    (b"cash,n\xe9,note\n", ["0", "2", "23", "UnknownHeader", "1", "n\\xe9", ""]),
    (b'cash,"no,\n""te"\n', ["0", "2", "23", "UnknownHeader", "1", 'no,\n"te', ""]),
    (b"note,cash,note\n", ["0", "3", "24", "RepeatedHeader", "1", "note", ""]),
    (b'cash,note\n1,"a\nb"\n\n1,2,3\n', ["2", "0", "26", "Ragged", "5", "", ""]),
    (b"cash,note\n1,\xff,\n", ["1", "0", "26", "Ragged", "2", "", ""]),
    (b"cash,note\n1,\xe9\x01z\n", ["1", "2", "27", "NotUtf8", "2", "note", "\\xe9\\x01z"]),
    (b"cash,note\n1,#x\n", ["1", "2", "31", "UnknownSpecial", "2", "note", "#x"]),
    (
        b'\xef\xbb\xbf"cash",note\r\n1,"x\r\ny"\r\n"1,200",z\r\n',
        ["2", "1", "40", "BadNumber", "4", "cash", "1,200"],
    ),
    (
        b'cash,note\n"1\r\n""2""\r",\n',
        ["1", "1", "40", "BadNumber", "2", "cash", '1\r\n"2"\r'],
    ),
    (
        b"cash\n" + b"1\n" * 3000 + b"x" * 100_000 + b"\n",
        ["3001", "1", "40", "BadNumber", "3002", "cash", "x" * 100_000],
    ),
    (
        "cash\n\u00bd\u20ac\n".encode(),
        ["1", "1", "40", "BadNumber", "2", "cash", "\u00bd\u20ac"],
    ),
]


class TestRecords(FaultsTest):
    """Writes the records of refused tables, in table order."""

    def setUp(self) -> None:
        """Writes a report with each of TABLES."""
        super().setUp()
        self.report({f"t{at:02}": content for at, (content, _) in enumerate(TABLES)})
        rows = [[f"t{at:02}", *it, "", *NO_CAUSE] for at, (_, it) in enumerate(TABLES) if it]
        self.wanted = [NAMES, *rows]

    def test_each_fault(self) -> None:
        """Writes the records, and prints the same lines as without the file."""
        plain = self.convert()
        whole = ["--out", "o.json", "--whole"]
        for words in (["--workers", "1"], ["--workers", "4"], whole):
            with self.subTest(words=words):
                seen = self.convert(*words, "--faults", "f.csv")
                content = self.faults() or b""
                self.assertEqual(records(content), self.wanted)
                self.assertEqual((seen.status, seen.err), (1, plain.err))
                self.assertIn(seen.out, (plain.out, b""))
                self.assertTrue(content.startswith(HEADER) and content.endswith(b"\n"))

    def test_with_explain(self) -> None:
        """Writes the same records with --explain, which prints the same."""
        plain = self.convert("--explain")
        self.check_run(self.convert("--explain", "--faults", "f.csv"), *plain)
        self.assertEqual(records(self.faults()), self.wanted)

    def test_150_tables(self) -> None:
        """Writes a record for each of 150 tables."""
        ids = [f"u{at:03}" for at in range(150)]
        self.report({it: None for it in ids})
        self.convert("--faults", "f.csv")
        rows = [[it, "0", "0", "20", "NoFile", "", "", "", "", *NO_CAUSE] for it in ids]
        self.assertEqual(records(self.faults()), [NAMES, *rows])

    def test_identifiers(self) -> None:
        """Writes identifiers that are not ASCII, in byte order and byte for byte."""
        self.report({"\u00e9": b'cash\n"x,y"\n', "z": b"cash\ny\n"})
        self.convert("--faults", "f.csv")
        rows = 'z,1,1,40,BadNumber,2,cash,y,,,,,\n\u00e9,1,1,40,BadNumber,2,cash,"x,y",,,,,\n'
        self.assertEqual(self.faults(), HEADER + rows.encode())


class TestEnds(FaultsTest):
    """Writes the file at status 0 and 1, and never at 2 and 3."""

    def ends(self, status: int, content: bytes, *words: str) -> None:
        """Checks the file after a run that ends with this status, and that no other is made."""
        file = self.folder / "f.csv"
        for old in (b"old", None):
            with self.subTest(words=words, old=old):
                file.unlink(missing_ok=True)
                if old is not None:
                    file.write_bytes(old)
                before = held(self.folder).keys() - {"f.csv", "o.json"}
                seen = self.convert(*words, "--faults", "f.csv")
                self.assertEqual(seen.status, status, seen)
                self.assertEqual(self.faults(), content if status < 2 else old)
                self.assertEqual(held(self.folder).keys() - {"f.csv", "o.json"}, before)

    def test_no_refused_table(self) -> None:
        """Writes the header only."""
        self.report({"t1": b"cash\n1\n"})
        self.ends(0, HEADER)
        self.ends(0, HEADER, "--out", "o.json", "--whole")

    def test_wrong_arguments(self) -> None:
        """Leaves the file at status 2."""
        self.report({"t1": b"cash\n1\n"})
        self.ends(2, HEADER, "--workers", "65")
        self.ends(2, HEADER, "--faults", "g.csv")

    def test_documents_that_cannot_be_written(self) -> None:
        """Leaves the file if the document cannot be written."""
        self.report({"t1": b"cash\n1\n"})
        self.ends(3, HEADER, "--out", "no/o.json")
        self.ends(3, HEADER, "--out", "/dev/full")
        self.report({"t1": b"cash\nx\n"})
        self.ends(3, HEADER, "--out", "/dev/full")

    def test_a_refused_table(self) -> None:
        """Writes its record."""
        self.report({"t1": b"cash\nx\n"})
        self.ends(1, REFUSED)

    def test_faults_of_the_report(self) -> None:
        """Writes the fault of the metadata, the parameters file or the types table."""
        self.report({"t1": b"cash\nx\n"}, links={"a": {}})
        self.ends(1, HEADER + b",0,0,5,Unsupported,,,(an object of 1),/links,,,,\n")
        self.report({"t1": b"cash\nx\n"}, parameterURL="p.csv")
        self.write({"r/p.csv": "name\n"})
        self.ends(1, HEADER + b',0,0,13,BadParameter,,,name,"r/p.csv, line 1",,,,\n')
        self.write({"t.csv": "name\n"})
        self.ends(1, HEADER + b',0,0,14,BadTypes,,,name,"t.csv, line 1",,,,\n')

    def test_missing_files(self) -> None:
        """Leaves the file if a file of the report is missing."""
        self.report({"t1": b"cash\nx\n"}, parameterURL="p.csv")
        self.ends(3, HEADER)
        (self.folder / "t.csv").unlink()
        self.ends(3, HEADER)


class TestOfTheReport(FaultsTest):
    """Writes a fault of the report with the place and text that --explain prints."""

    def has(self, number: str, fault: str, found: str, place: str) -> None:
        """Checks the record of a fault, and its explanation."""
        wanted = [NAMES, ["", "0", "0", number, fault, "", "", found, place, *NO_CAUSE]]
        for words in (["--workers", "1"], ["--out", "o.json", "--whole"]):
            with self.subTest(words=words):
                seen = self.convert(*words, "--explain", "--faults", "f.csv")
                self.assertEqual(seen.status, 1, seen)
                self.assertEqual(records(self.faults()), wanted)
                lines = seen.err.splitlines()
                self.assertTrue(lines[0].endswith(f": {fault} ({number})"), lines)
                self.assertEqual(lines[1:3], [f"    {place}", f"    {found}"])

    def test_a_dimension(self) -> None:
        """Writes a text with a line end and quotes."""
        region = 'eg:a,\n"b"'
        self.report({"t1": b"cash\n1\n"}, dimensions={"entity": "eg:A1", "eg:Regoin": region})
        self.has("11", "BadDimension", '"eg:a,\\x0a"b""', "/dimensions/eg:Regoin")

    def test_a_template(self) -> None:
        """Writes the first of two tables."""
        self.report({"t1": b"cash\n1\n", "t2": b"cash\nx\n"}, {"template": "no, p"})
        self.has("9", "UnknownTemplate", '"no, p"', "/tables/t1/template")

    def test_no_json(self) -> None:
        """Writes the line and column."""
        self.report({"t1": b"cash\n1\n"})
        self.write({"r/m.json": '{"a":\n [}'})
        self.has("1", "Syntax", "line 2, column 3", "r/m.json")

    def test_a_parameters_file(self) -> None:
        """Writes the place in the parameters file."""
        self.report({"t1": b"cash\n1\n"}, parameterURL="p.csv")
        self.write({"r/p.csv": b'name,value\n\na,1\n"a,b",2\n'})
        self.has("13", "BadParameter", '"a,b"', "r/p.csv, line 4, cell 1")

    def test_a_types_table(self) -> None:
        """Writes the place in the types table, or that it is a folder."""
        self.report({"t1": b"cash\n1\n"})
        self.write({"t.csv": TYPES + "http://example.com/eg,Cash,integer\n"})
        self.has("14", "BadTypes", '"Cash"', "t.csv, line 4, cell 2")
        (self.folder / "t.csv").unlink()
        (self.folder / "t.csv").mkdir()
        self.has("17", "Read", "(the whole file)", "t.csv")


class TestReadAgain(FaultsTest):
    """Leaves fields empty that a second reading does not give."""

    def check_faults(self, *rows: bytes) -> None:
        """Checks the rows of a run with status 1."""
        self.assertEqual(self.convert("--faults", "f.csv").status, 1)
        self.assertEqual(self.faults(), HEADER + b"".join(rows))

    def test_a_metadata_from_a_pipe_with_a_fault(self) -> None:
        """Names the whole file."""
        self.report({"t1": b"cash\n1\n"}, links={"a": {}})
        self.read_once_only("r/m.json")
        self.check_faults(b",0,0,5,Unsupported,,,(the whole file),r/m.json,,,,\n")

    def test_a_table_from_a_pipe(self) -> None:
        """Leaves the fields of this table empty."""
        self.report({"t1": b"cash\nx\n", "t2": b"cash\nx\n"})
        self.read_once_only("r/t1.csv")
        self.check_faults(b"t1,1,1,40,BadNumber,,,,,,,,\n", b"t2,1,1,40,BadNumber,2,cash,x,,,,,\n")

    def test_a_metadata_from_a_pipe(self) -> None:
        """Leaves the fields of all tables empty."""
        self.report({"t1": b"cash\nx\n", "t2": b"cash\nx\n"})
        self.read_once_only("r/m.json")
        self.check_faults(b"t1,1,1,40,BadNumber,,,,,,,,\n", b"t2,1,1,40,BadNumber,,,,,,,,\n")

    def test_a_table_that_has_changed(self) -> None:
        """Leaves the fields empty, over a named pipe that holds the run until the change."""
        self.report({"t1": b"cash\nx\n", "t2": None})
        os.mkfifo(self.folder / "r/t2.csv")
        words = [*WORDS, "--workers", "1", "--faults", "f.csv", "--out", "o.json"]
        command = [PROGRAM, *words]
        with subprocess.Popen(command, cwd=self.folder, stderr=subprocess.DEVNULL) as run:
            with open(self.folder / "r/t2.csv", "wb") as pipe:
                (self.folder / "r/t1.csv").write_bytes(b"cash\n1\nx\n")
                pipe.write(b"cash\n1\n")
            run.wait(timeout=PATIENCE)
        self.assertEqual(run.returncode, 1)
        self.assertEqual(self.faults(), HEADER + b"t1,1,1,40,BadNumber,,,,,,,,\n")
