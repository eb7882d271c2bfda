"""Tests files that extend files, other files instead of metadata, and keys that occur twice."""
from __future__ import annotations

import json
from collections.abc import Iterator
from contextlib import ExitStack
from typing import Any

from filing import command
from filing.strict_json import RepeatedKey, read_json
from tests.filing_samples import (
    CSV,
    HOST,
    MODULE,
    REPORT,
    TAXONOMY,
    TYPES_HEADER,
    catalog,
    item,
    meta,
    rewrite,
    schema,
)
from tests.filings import Case, FilingTest, cases, makes, run, stops
from tests.harness import for_each, write

# The module with the names that it imports.
whole_command: Any = command


def extending(*names: str, **more: Any) -> dict[str, Any]:
    """Returns the `documentInfo` of a file that extends these."""
    return {"extends": [HOST + it for it in names], **more}


def level(name: str, *extends: str, **more: Any) -> dict[str, str]:
    """Returns a metadata file that extends others, with a schema of its own."""
    info = extending(*extends, taxonomy=[name + ".xsd"], namespaces={name: f"http://{name}/"})
    return {
        f"reg/{name}.json": meta(info, **more),
        f"reg/{name}.xsd": schema(item("C"), f"http://{name}/"),
    }


BASE = {"META-INF/catalog.xml": catalog(rewrite())}


EXTENDS_TWO = {"reports/report.json": meta(extending("a.json", "b.json"), parameters={"r": "1"})}


def chains() -> Iterator[Case]:
    """Tests files that extend files: order, diamonds, rings, and files that are not metadata."""
    report, base = EXTENDS_TWO, BASE
    missing = {**base, **level("a", "none.json"), **level("b")}
    line = f"t0/reg/a.json: no package has {HOST}none.json (extends)"
    yield stops(
        "a file of the second level that no package has", line, report=report, taxonomies=[missing]
    )
    diamond = {
        **base,
        **level("a", "c.json"),
        **level("b", "c.json", "d.json"),
        **level("c", "e.json"),
        **level("d", "e.json"),
        **level("e", parameters={"e": "2"}),
    }
    order = [HOST + f"{it}.xsd" for it in "acebd"]
    yield makes(
        "three levels and a diamond, in one order",
        parts={"documentInfo/taxonomy": order, "parameters": {"r": "1", "e": "2"}},
        report=report,
        taxonomies=[diamond],
    ).then(
        "types of all levels in byte order",
        lambda made: made["types.csv"].decode(),
        TYPES_HEADER + "".join(f"http://{it}/,C,text,,\n" for it in "abcde"),
    )


@for_each(cases(chains()))
class TestChains(FilingTest):
    """The cases of `chains`."""


def long_chains_of_files() -> Iterator[Case]:
    """Many levels, diamonds on diamonds, and rings."""
    report, base = EXTENDS_TWO, BASE
    long = {
        **base,
        **{
            path: text
            for number in range(400)
            for path, text in level(
                f"n{number}", *([f"n{number + 1}.json"] if number < 399 else [])
            ).items()
        },
    }
    yield makes(
        "four hundred levels",
        parts={"documentInfo/taxonomy": [HOST + f"n{it}.xsd" for it in range(400)]},
        report={"reports/report.json": meta(extending("n0.json"))},
        taxonomies=[long],
    )
    pairs = {
        path: text
        for number in range(24)
        for side in "xy"
        for path, text in level(
            f"{side}{number}",
            *([f"x{number + 1}.json", f"y{number + 1}.json"] if number < 23 else []),
        ).items()
    }
    order = [HOST + f"x{it}.xsd" for it in range(24)] + [
        HOST + f"y{it}.xsd" for it in range(23, -1, -1)
    ]
    yield makes(
        "diamonds on diamonds, each file once",
        parts={"documentInfo/taxonomy": order},
        report={"reports/report.json": meta(extending("x0.json", "y0.json"))},
        taxonomies=[{**base, **pairs}],
    )
    ring = {**base, **level("a", "b.json"), **level("b", "c.json"), **level("c", "b.json")}
    yield stops(
        "a ring",
        "t0/reg/c.json: extends itself, by way of t0/reg/b.json",
        report=report,
        taxonomies=[ring],
    )
    itself = {**base, **level("a", "x/../a.json#b"), **level("b")}
    yield stops(
        "a file that extends itself",
        "t0/reg/a.json: extends itself",
        report=report,
        taxonomies=[itself],
    )
    own = {"reports/report.json": meta({"extends": ["./%72eport.json"]})}
    yield stops(
        "a report that extends itself",
        "r/reports/report.json: extends itself",
        report=own,
        taxonomies=[],
    )


@for_each(cases(long_chains_of_files()))
class TestLongChainsOfFiles(FilingTest):
    """The cases of `long_chains_of_files`."""


def what_is_no_metadata() -> Iterator[Case]:
    """Tests files that are not metadata files, and JSON that the converter would refuse."""
    for name, text, what in (
        (
            "another document type",
            '{"documentInfo":{"documentType":"https://xbrl.org/2021/xbrl-json"}}',
            "is no xBRL-CSV metadata file: its document type is 'https://xbrl.org/2021/xbrl-json'",
        ),
        (
            "a longer document type",
            '{"documentInfo":{"documentType":"https://xbrl.org/2021/xbrl-csv/x"}}',
            "is no xBRL-CSV metadata file: its document type is 'https://xbrl.org/2021/xbrl-csv/x'",
        ),
        (
            "a document type of a draft",
            '{"documentInfo":{"documentType":"http://www.xbrl.org/CR/2020-10-14/xbrl-csv"}}',
            (
                "is no xBRL-CSV metadata file: its document type is"
                " 'http://www.xbrl.org/CR/2020-10-14/xbrl-csv', of a draft; that of xBRL-CSV 1.0"
                f" is '{CSV}'"
            ),
        ),
        (
            "no document type",
            '{"documentInfo":{}}',
            "is no xBRL-CSV metadata file: it has no 'documentInfo.documentType'",
        ),
        (
            "no documentInfo",
            "{}",
            "is no xBRL-CSV metadata file: it has no 'documentInfo.documentType'",
        ),
        ("a list", "[]", "is no xBRL-CSV metadata file: it has no 'documentInfo.documentType'"),
        ("nothing", "", "is not JSON: Expecting value (line 1, column 1)"),
        ("NaN", '{"a":NaN}', "is not JSON: NaN is no number of JSON"),
        ("Infinity", '{"a":-Infinity}', "is not JSON: -Infinity is no number of JSON"),
        ("a number past a double", '{"a":1e999}', "is not JSON: the number 1e999 is too large"),
        (
            "a whole number past a double",
            '{"a":1' + "0" * 400 + "}",
            "is not JSON: the number 10000000000000000000 is too large",
        ),
        ("half of a pair", r'{"a":"\ud800"}', "is not JSON: it has half of a surrogate pair"),
        (
            "half of a pair as a name",
            r'{"\uDC00":1}',
            "is not JSON: it has half of a surrogate pair",
        ),
        ("no UTF-8", b'{"a":"\xff"}', "is not UTF-8 (byte 6)"),
        (
            "two marks",
            b"\xef\xbb\xbf\xef\xbb\xbf{}",
            "is not JSON: it begins with two byte-order marks",
        ),
        ("UTF-16", "{}".encode("utf-16"), "is not UTF-8 (byte 0)"),
        (
            "128 levels",
            '{"a":' + "[" * 127 + "]" * 127 + "}",
            "is nested more than 127 levels deep",
        ),
        ("100,000 levels", "[" * 100_000 + "]" * 100_000, "is nested more than 127 levels deep"),
        (
            "a line feed in a text",
            '{"a":"\n"}',
            "is not JSON: Invalid control character at (line 1, column 7)",
        ),
    ):
        yield stops(
            f"a module that is {name}",
            f"t0/reg/mod.json: {what}",
            taxonomies=[{**TAXONOMY, "reg/mod.json": text}],
        )


@for_each(cases(what_is_no_metadata()))
class TestWhatIsNoMetadata(FilingTest):
    """The cases of `what_is_no_metadata`."""


def values_as_they_are_written() -> Iterator[Case]:
    """Levels, texts and numbers that are taken as they are."""
    edge = json.loads(MODULE)
    edge["x:y"] = json.loads("[" * 126 + "]" * 126)
    pair = json.dumps({**edge, "parameters": {"p": "\U0001f600"}})
    yield makes(
        "127 levels, and a whole pair",
        parts={"parameters/p": "\U0001f600"},
        taxonomies=[{**TAXONOMY, "reg/mod.json": pair}],
    ).then(
        "texts are written as UTF-8", lambda made: "\U0001f600".encode() in made["meta.json"], True
    )

    yield makes(
        "numbers stay what they are",
        taxonomies=[
            {
                **TAXONOMY,
                "reg/mod.json": MODULE.replace(
                    '"tables"',
                    (
                        '"decimals": -0, "parameters": {"a": 12345678901234567890123, "b": 1.0},'
                        ' "tables"'
                    ),
                ),
            }
        ],
    ).then(
        "numbers as they are written",
        lambda made: (
            b'"decimals":-0.0' in made["meta.json"],
            b'"a":12345678901234567890123,"b":1.0' in made["meta.json"],
        ),
        (True, True),
    )


@for_each(cases(values_as_they_are_written()))
class TestValuesAsTheyAreWritten(FilingTest):
    """The cases of `values_as_they_are_written`."""


def of_a_key(file: str, key: str) -> str:
    """Returns the line of a repeated key."""
    return (
        f"{file}: has the key '{key}' more than once in one object, and only the last of them would"
        " be read"
    )


def twice_in_the_report() -> dict[str, str]:
    """Returns reports that have a key twice, by the key."""
    own = REPORT["reports/report.json"]
    return {
        "parameters": own[:-1] + ', "parameters": {"a": "1"}, "parameters": {"b": "2"}}',
        "tables": own[:-1] + ', "tables": {}, "tables": {}, "tables": {}}',
        "documentInfo": own[:-1] + ', "documentInfo": {}}',
        "documentType": own.replace(
            "{", '{"documentInfo": {"documentType": "x", "documentType": "x"},', 1
        ),
        "d": own[:-1] + ', "parameters": {"c": [{"d": 1, "e": 2, "d": 1}], "f": 1, "f": 2}}',
        "decimals": own[:-1] + ', "decimals": 1, "\\u0064ecimals": 1}',
        "": own[:-1] + ', "": 1, "": 1}',
        "a'b": own[:-1] + """, "a'b": 1, "a'b": 1}""",
    }


def repeated_keys() -> Iterator[Case]:
    """Checks that a key that one object has twice is refused in each JSON file that is read."""

    own, twice = REPORT["reports/report.json"], twice_in_the_report()
    for key, text in twice.items():
        for form in ("folder", "zip", "top", "file"):
            named = {**REPORT, "reports/report.json": text}
            yield stops(
                f"a report with two of '{key}', {form}",
                of_a_key(f"r/{'top/' if form == 'top' else ''}reports/report.json", key),
                report=named,
                form=form,
            )
    for key in ("tables", "t", "columns", "eg"):
        again = MODULE.replace(f'"{key}"', f'"{key}": {{}}, "{key}"', 1)
        yield stops(
            f"a module with two of '{key}'",
            of_a_key("t0/reg/mod.json", key),
            taxonomies=[{**TAXONOMY, "reg/mod.json": again}],
        )
    deep = {"reports/q/report.json": own, "reports/q/t.csv": REPORT["reports/t.csv"]}
    for key, text in (("a", '{"a": 1, "a": 2}'), ("documentInfo", twice["documentInfo"])):
        yield stops(
            f"another file with two of '{key}'",
            of_a_key("r/reports/a.json", key),
            report={**REPORT, "reports/a.json": text},
        )
        yield stops(
            f"another file with two of '{key}', one folder higher",
            of_a_key("r/reports/a.json", key),
            report={**deep, "reports/a.json": text},
        )
    kind = (
        '{"documentInfo": {"documentType": "https://xbrl.org/report-package/2023"}, "a": 1, "a": 1}'
    )
    yield stops(
        "a package file with a repeated key",
        of_a_key("r/META-INF/reportPackage.json", "a"),
        report={**REPORT, "META-INF/reportPackage.json": kind},
    )
    broken = own[:-1] + ', "a": 1, "a": 1'
    line = (
        "r/reports/report.json: is not JSON: Expecting ',' delimiter (line 1, column"
        f" {len(broken) + 1})"
    )
    yield stops(
        "what is no JSON has no keys", line, report={**REPORT, "reports/report.json": broken}
    )
    once = {"parameters": {"a": "1", "A": "1", "b": "a"}, "dimensions": {"a": "1", "unit": "eg:a"}}
    yield makes(
        "one key in several objects",
        parts=once,
        report={**REPORT, "reports/report.json": own[:-1] + ", " + json.dumps(once)[1:]},
    )


@for_each(cases(repeated_keys()))
class TestRepeatedKeys(FilingTest):
    """The cases of `repeated_keys`."""


class TestRepeatedKeysOfTexts(FilingTest):
    """Texts in which the ends of names are not all that looks like one."""

    TEXTS = (
        ('{"a":1,"a" :2}', "a"),
        ('{"a":1,"a"\n\t\r :2,"b":":"}', "a"),
        ('{"a" : 1, "a" : 2}', "a"),
        ('{"a":1,"\\u0061":2}', "a"),
        ('{"a":"\\":","b":1,"b":2}', "b"),
        ('{"a":{"b":1,"b":2},"c":1,"c":2}', "b"),
        ('[{"a":1},{"a":1,"b":[{"a":{},"c":[{"c":0,"c":0}]}]}]', "c"),
        ('{"a":":","b":"\\":","c":"\\\\","\\"":"\\":\\":"}', None),
        ('[{"a":1},{"a":1,"b":[{"a":{},"c":[]}]},"a","a"]', None),
        ('":"', None),
    )

    def test_texts(self) -> None:
        """A text is refused if an object has a key twice, else it is the value that it is."""
        for text, key in self.TEXTS:
            with self.subTest(text):
                try:
                    self.assertEqual(read_json([text.encode()], "f"), json.loads(text))
                    self.assertIsNone(key)
                except RepeatedKey as refusal:
                    self.assertIn(f"has the key '{key}' more than once", refusal.line)


class TestRuns(FilingTest):
    """Tests that take several runs of one folder."""

    def test_spellings_of_one_file(self) -> None:
        """A file is joined once, by whatever references it is named."""
        folder = self.folder
        spelled = {
            "reports/report.json": meta(
                {"extends": ["../low.json", "x/../../l%6Fw.json", "../%6cow.json", "../mid.json"]}
            )
        }
        spelled.update({"low.json": meta(), "mid.json": meta({"extends": ["lo%77.json"]})})
        write(folder / "spelled", spelled)
        with ExitStack() as opened:
            report_file, packages_given = command.open_inputs(
                whole_command.read_words([str(folder / "spelled")]), opened
            )
            seen = [
                it.found.name
                for it in whole_command.Chain(
                    report_file, whole_command.Finder(report_file.package, packages_given)
                )
            ]
        self.case(
            "a file is one by all its spellings",
            seen,
            ["reports/report.json", "low.json", "mid.json"],
        )

    def test_a_comma_too_many(self) -> None:
        """The words of this refusal are those of the version of Python."""
        status, err, _ = self.prepared(taxonomies=[{**TAXONOMY, "reg/mod.json": '{"a":1,}'}])
        said = err.startswith("xbrl-filing: t0/reg/mod.json: is ")
        self.case(
            "a module that is a comma too many: one line",
            (status, err.count("\n"), said),
            (1, 1, True),
        )

    def test_a_repeated_key_of_a_file(self) -> None:
        """A metadata file that is called as a package."""
        folder = self.folder
        twice = twice_in_the_report()
        write(folder, {"j.zip": twice["tables"]})
        self.case(
            "a metadata file that is called as a package",
            run(["j.zip", "--prepare", "o"], folder),
            (1, f"xbrl-filing: {of_a_key('j.zip', 'tables')}\n"),
        )
