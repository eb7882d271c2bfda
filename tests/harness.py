"""What every test module uses: a folder for each test, runs of the program, the base report.

From the top of the repository, one test runs by its name:

    XBRL_JSON=FILE python3 -m unittest tests.test_reports.TestPeriods.test_iso_week_53

The program is the file that the environment variable XBRL_JSON names, else dist/xbrl-json.
`tests/run PROGRAM` sets it, and runs all modules. Needs Linux and Python 3.9 or later.
"""
from __future__ import annotations

import json
import os
import re
import subprocess
import tempfile
import unittest
from collections.abc import Callable, Iterable, Mapping
from pathlib import Path
from typing import Any, NamedTuple, TypeVar, Union

TOP = Path(__file__).resolve().parent.parent
PROGRAM = os.path.abspath(os.environ.get("XBRL_JSON") or TOP / "dist/xbrl-json")

# Seconds after which a run is one that does not end. A right run takes a few; a machine with much
# other work may need a hundred times as long.
PATIENCE = 600

# The user and group without rights of their own.
NOBODY = 65534

# The content of a file: text, bytes, or a value that is written as JSON. A lone \udcNN in a text is
# a byte that is not UTF-8.
Content = Union[str, bytes, Mapping[str, Any]]

NAMESPACE = "http://example.com/eg"
TYPES = f"namespace,name,type\n{NAMESPACE},Cash,integer\n{NAMESPACE},Note,text\n"
COLUMNS: dict[str, Any] = {
    "cash": {"dimensions": {"concept": "eg:Cash"}},
    "note": {"dimensions": {"concept": "eg:Note"}},
}


def metadata(tables: Mapping[str, Mapping[str, Any]], **more: Any) -> dict[str, Any]:
    """Returns the metadata of the base report.

    Each table is given by its identifier and further members. `more` are members of the metadata.
    """
    return {
        "documentInfo": {
            "documentType": "https://xbrl.org/2021/xbrl-csv",
            "namespaces": {"eg": NAMESPACE, "iso4217": "http://www.xbrl.org/2003/iso4217"},
            "taxonomy": ["http://example.com/eg.xsd"],
        },
        "dimensions": {"entity": "eg:A1", "period": "2021", "unit": "iso4217:EUR"},
        "tableTemplates": {"p": {"columns": COLUMNS}},
        "tables": {
            name: {"url": f"{name}.csv", "template": "p", **members}
            for name, members in tables.items()
        },
        **more,
    }


class Done(NamedTuple):
    """How a run ended: its status, standard output and standard error."""

    status: int
    out: bytes
    err: str


def bytes_of(content: Content) -> bytes:
    """Returns the bytes of a file with this content."""
    if isinstance(content, bytes):
        return content
    text = content if isinstance(content, str) else json.dumps(content)
    return text.encode("utf-8", "surrogateescape")


def write(folder: Path, files: Mapping[str, Content]) -> None:
    """Writes files, given by their paths in a folder."""
    for path, content in files.items():
        (folder / path).parent.mkdir(parents=True, exist_ok=True)
        (folder / path).write_bytes(bytes_of(content))


def held(folder: Path) -> dict[str, str | bytes]:
    """Reads all files below a folder; of a symbolic link, where it leads."""
    return {
        str(it.relative_to(folder)): os.readlink(it) if it.is_symlink() else it.read_bytes()
        for it in folder.rglob("*")
        if it.is_symlink() or it.is_file()
    }


def first_difference(seen: Any, wanted: Any) -> str:
    """Describes where two values differ, with what is next to that place."""
    if isinstance(seen, (str, bytes)) and type(seen) is type(wanted):
        both: list[Any] = [seen, wanted]
        at = len(os.path.commonprefix(both))
        near = slice(max(at - 60, 0), at + 200)
        return f"from place {at}, wanted {wanted[near]!r}, found {seen[near]!r}"
    return f"wanted {wanted!r:.1000}, found {seen!r:.1000}"


class TestCase(unittest.TestCase):
    """A test with a folder of its own, in which the program runs."""

    maxDiff = 4_000
    folder: Path

    def setUp(self) -> None:
        """Makes the folder."""
        made = tempfile.TemporaryDirectory()
        self.addCleanup(made.cleanup)
        self.folder = Path(made.name).resolve()

    def write(self, files: Mapping[str, Content]) -> None:
        """Writes files, given by their paths in the folder."""
        write(self.folder, files)

    def read(self, path: str) -> bytes | None:
        """Returns the content of a file of the folder, or None if it does not exist."""
        file = self.folder / path
        return file.read_bytes() if file.is_file() else None

    def run_program(self, *words: str | bytes, **more: Any) -> Done:
        """Runs the program in the folder, without standard input.

        `more` goes to `subprocess.run`. Fails if the run does not end.
        """
        ways: dict[str, Any] = {"cwd": self.folder, "timeout": PATIENCE}
        ways.update(stdout=subprocess.PIPE, stderr=subprocess.PIPE)
        if "input" not in more:
            ways["stdin"] = subprocess.DEVNULL
        done = subprocess.run([PROGRAM, *words], **{**ways, **more})
        err = (done.stderr or b"").decode("utf-8", "surrogateescape")
        return Done(done.returncode, done.stdout or b"", err)

    def check_run(self, seen: Done, status: int, out: bytes, err: str) -> None:
        """Fails if a run did not end so, with the first difference of each part."""
        wanted = Done(status, out, err)
        if seen != wanted:
            parts = zip(Done._fields, seen, wanted)
            told = [f"{name}: {first_difference(a, b)}" for name, a, b in parts if a != b]
            self.fail("; ".join(told))

    def check_same(self, seen: str | bytes, wanted: str | bytes) -> None:
        """Fails if two long texts differ, with the first difference."""
        if seen != wanted:
            self.fail(first_difference(seen, wanted))


class CaseTest(TestCase):
    """A test class whose tests are the cases of a table, by `for_each`; `check` tests one."""

    check: Callable[..., None]


C = TypeVar("C", bound=CaseTest)


def named(name: str) -> str:
    """Returns the name of the test of a case: its words, and no other characters."""
    return "test_" + re.sub(r"\W+", "_", name).strip("_").lower()


def for_each(cases: Iterable[tuple[str, tuple[Any, ...]]]) -> Callable[[type[C]], type[C]]:
    """Gives a class a test for each case, by its name; the test calls `check` with the case.

    Raises ValueError if two cases have the same words as names.
    """

    def given(test_class: type[C]) -> type[C]:
        for name, case in cases:
            word = named(name)
            if hasattr(test_class, word):
                raise ValueError(f"{test_class.__name__} has two tests {word}")

            def test(self: C, case: tuple[Any, ...] = case) -> None:
                self.check(*case)

            test.__name__, test.__doc__ = word, name
            setattr(test_class, word, test)
        return test_class

    return given
