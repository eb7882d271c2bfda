"""Tests taxonomy packages that are in one ZIP, as supervisors publish them."""

from __future__ import annotations

import io
import os
import subprocess
import sys
import tempfile
import unittest
import zipfile
from pathlib import Path
from typing import Dict, Tuple, Union

from tests.filing_bounds import BROKEN_OFF, GOOD, HOST, asks, catalog, rewrite, schema

TOP = Path(__file__).resolve().parent.parent
FILING = str(TOP / "xbrl-filing")
PROGRAM = os.path.abspath(os.environ.get("XBRL_JSON") or TOP / "dist/xbrl-json")
sys.path.insert(0, str(TOP))

from filing import library, refusals, zip_entries  # noqa: E402

Files = Dict[str, Union[str, bytes]]
CATALOG = "META-INF/catalog.xml"
# An amount of money would need a unit.
ALL = {it: str(text).replace("monetaryItem", "decimalItem") for it, text in GOOD.items()}
REPORT: Files = {name: text for name, text in ALL.items() if name.startswith("reports")}
TAXONOMY: Files = {name: text for name, text in ALL.items() if not name.startswith("reports")}
# A second package, to whose schema that of the first one refers.
OTHER = "http://other.example/"
SECOND: Files = {
    CATALOG: catalog(rewrite(OTHER, "../")),
    "o.xsd": schema("<!-- -->", OTHER + "o"),
}
FIRST: Files = {
    **TAXONOMY,
    "reg/mod.xsd": str(TAXONOMY["reg/mod.xsd"]).replace("<xs:element", asks(OTHER + "o.xsd") + "<xs:element"),
}


def zip_of(files: Files) -> bytes:
    """Return the bytes of a ZIP."""
    made = io.BytesIO()
    with zipfile.ZipFile(made, "w", zipfile.ZIP_DEFLATED) as archive:
        for name, text in files.items():
            archive.writestr(name, text)
    return made.getvalue()


BOTH: Files = {"first.zip": zip_of(FIRST), "more/second.ZIP": zip_of(SECOND), "read me.txt": "x"}


class Nested(unittest.TestCase):
    """A report, and a ZIP that holds its taxonomy packages."""

    def setUp(self) -> None:
        scratch = tempfile.TemporaryDirectory()
        self.addCleanup(scratch.cleanup)
        self.folder = Path(scratch.name)
        self.temporary = self.folder / "tmp"
        self.temporary.mkdir()
        (self.folder / "r.zip").write_bytes(zip_of(REPORT))

    def run_over(self, files: Files, *words: str) -> Tuple[int, str]:
        """Convert the report with a ZIP, and return status and standard error."""
        (self.folder / "all.zip").write_bytes(zip_of(files))
        done = subprocess.run(
            [FILING, "r.zip", "--taxonomy", "all.zip", *words],
            cwd=self.folder,
            env={**os.environ, "XBRL_JSON": PROGRAM, "TMPDIR": str(self.temporary)},
            stdin=subprocess.DEVNULL,
            stdout=subprocess.DEVNULL,
            stderr=subprocess.PIPE,
            text=True,
        )
        self.assertEqual(list(self.temporary.iterdir()), [], "a temporary file is left")
        return done.returncode, done.stderr

    def refused(self, files: Files, line: str, *words: str) -> None:
        """Check the line of a refusal."""
        self.assertEqual(self.run_over(files, *words), (1, f"xbrl-filing: {line}\n"))

    def test_packages_in_a_zip(self) -> None:
        """A ZIP of packages, also in folders, is taken like the packages."""
        wanted = self.folder / "apart"
        for name, text in BOTH.items():
            (self.folder / Path(name).name).write_bytes(text if isinstance(text, bytes) else b"")
        subprocess.run(
            [FILING, "r.zip", "--taxonomy", "first.zip", "second.ZIP", "--prepare", str(wanted)],
            cwd=self.folder,
            env={**os.environ, "XBRL_JSON": PROGRAM},
            check=True,
        )
        for number, front in enumerate(("", "top/", "a b/c/")):
            files = {front + name: text for name, text in BOTH.items()}
            made = self.folder / f"out{number}"
            self.assertEqual(self.run_over(files, "--prepare", str(made)), (0, ""))
            for name in ("meta.json", "types.csv", "t.csv"):
                self.assertEqual((made / name).read_bytes(), (wanted / name).read_bytes())
        for _ in range(2):
            self.assertEqual(self.run_over(BOTH, "--cache", "kept"), (0, ""))
        self.assertEqual(self.run_over(BOTH, "--into", "many")[0], 0)

    def test_names_in_lines(self) -> None:
        """Lines name a file by the ZIP, the package in it and its path there."""
        broken: Files = {**TAXONOMY, CATALOG: BROKEN_OFF}
        line = f"all.zip/in/a.zip/{CATALOG}: is not well-formed XML: no element found (line 1)"
        self.refused({"in/a.zip": zip_of(broken)}, line)
        cut = zip_of(TAXONOMY)[:-40]
        why = "is damaged, or packed in a way that Python does not know (File is not a zip file)"
        self.refused({"a.zip": zip_of(TAXONOMY), "b.zip": cut}, f"all.zip/b.zip: {why}")

    def test_what_is_no_collection(self) -> None:
        """A package that holds ZIPs is one package, and no ZIP deeper inside is looked for."""
        self.assertEqual(self.run_over({**TAXONOMY, "x/b.zip": zip_of(SECOND)}), (0, ""))
        missing = f"r.zip/reports/report.json: no package has {HOST}mod.json (extends; all.zip has no"
        one_by_one = "but packages, which --taxonomy takes one by one"
        deeper: Files = {"b.zip": zip_of({"c.zip": zip_of(TAXONOMY)})}
        self.refused(deeper, f"{missing} {CATALOG}, {one_by_one}: b.zip)")
        left: Files = {it: zip_of(TAXONOMY) for it in ("__MACOSX/b.zip", ".b.zip", "~$b.zip")}
        self.refused(left, f"{missing} {CATALOG}, {one_by_one}: .b.zip, ~$b.zip)")

    def test_bounds(self) -> None:
        """What the ZIP and all packages in it unpack to counts together."""
        files: Files = {"a.zip": zip_of(FIRST), "b.zip": zip_of(SECOND)}
        inside = sum(len(it) for part in (FIRST, SECOND) for it in part.values())
        total = sum(map(len, files.values())) + inside
        why = f"all.zip: unpacks to {total} bytes, more than {total - 1}"
        limit = ("--unpacked-limit", str(total - 1))
        self.refused(files, f"{why} (--unpacked-limit allows more)", *limit)
        self.assertEqual(self.run_over(files, "--unpacked-limit", str(total)), (0, ""))
        many: Files = {f"{it}.zip": zip_of({"x": ""}) for it in range(201)}
        self.refused(many, "all.zip: holds more than 200 packages: give only some")

    def test_ratio(self) -> None:
        """Packages that each unpack to little are refused if all together unpack to much."""
        large = bytes(15 << 20)
        inner = zip_of({**TAXONOMY, "x": large})
        self.assertLess(len(inner) * 3, zip_entries.SMALL_PACKAGE // zip_entries.RATIO)
        files: Files = {f"{it}.zip": inner for it in range(5)}  # not one of them above 16 MiB
        status, line = self.run_over(files)
        self.assertEqual(status, 1)
        self.assertRegex(line, r"^xbrl-filing: all\.zip: unpacks to \d+ bytes from \d+\n$")

    def test_no_room(self) -> None:
        """A folder of temporary files that does not exist is refused as such."""
        self.temporary.rmdir()
        (self.folder / "all.zip").write_bytes(zip_of(BOTH))
        done = subprocess.run(
            [FILING, "r.zip", "--taxonomy", "all.zip"],
            cwd=self.folder,
            env={**os.environ, "XBRL_JSON": PROGRAM, "TMPDIR": str(self.temporary)},
            capture_output=True,
            text=True,
        )
        line = f"xbrl-filing: {self.temporary}: cannot write (No such file or directory)\n"
        self.assertEqual((done.returncode, done.stderr), (3, line))

    def test_from_python(self) -> None:
        """`kinds` takes such a ZIP, and closes all of it."""
        path = self.folder / "all.zip"
        path.write_bytes(zip_of(BOTH))
        before = len(os.listdir("/proc/self/fd"))
        self.assertEqual(
            library.kinds([str(path)], [HOST + "mod.xsd"]), {HOST + "eg": {"Cash": "decimal"}}
        )
        path.write_bytes(zip_of({**BOTH, "z.zip": b"PK\3\4"}))
        with self.assertRaises(refusals.Refusal):
            library.kinds([str(path)], [HOST + "mod.xsd"])
        self.assertEqual(len(os.listdir("/proc/self/fd")), before)


if __name__ == "__main__":
    unittest.main()
