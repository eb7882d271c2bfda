"""Tests the forms of packages: where a report is in one, and what its folders may have."""
from __future__ import annotations

import json
import os
import shutil
import subprocess
import zipfile
from collections.abc import Iterator
from typing import Any

from tests.filing_samples import (
    CSV,
    ELEMENTS,
    HOST,
    INFO,
    MERGED,
    MODULE,
    REPORT,
    TAXONOMY,
    TYPES,
    catalog,
    deeper,
    meta,
    pack,
    rewrite,
    schema,
)
from tests.filings import (
    Case,
    FILING,
    FilingTest,
    cases,
    listing,
    makes,
    on_a_terminal,
    run,
    start,
    stops,
    write_packages,
)
from tests.harness import PATIENCE, PROGRAM, TOP, for_each, write

EXAMPLE = TOP / "examples/filing"


def current_umask() -> int:
    """The permissions that new files do not get."""
    mask = os.umask(0o022)
    os.umask(mask)
    return mask


def forms_of_reports() -> Iterator[Case]:
    """Tests the place of the report in a package, and what its package may declare."""
    for form in ("folder", "zip", "top", "file"):
        yield makes(f"a report as {form}", MERGED, TYPES, form=form)
    yield makes(
        "__MACOSX beside the one folder",
        MERGED,
        report={"__MACOSX/x": "", **{f"top/{it}": text for it, text in REPORT.items()}},
    )
    said = json.dumps({"documentInfo": {"documentType": "https://xbrl.org/report-package/2023"}})
    for top in ("reports", "META-INF", "top"):
        named = {
            f"{top}/{it}": text
            for it, text in {**REPORT, "META-INF/reportPackage.json": said}.items()
        }
        taxonomy = {f"{top}/{it}": text for it, text in TAXONOMY.items()}
        for form in ("folder", "zip"):
            yield makes(
                f"a folder at the top that is called {top}, {form}",
                MERGED,
                report=named,
                taxonomies=[taxonomy],
                form=form,
            )
    for kind in ("", "/xbr", "/xbri"):
        said = json.dumps(
            {"documentInfo": {"documentType": "https://xbrl.org/report-package/2023" + kind}}
        )
        yield makes(
            f"a report package{kind}",
            MERGED,
            report={**REPORT, "META-INF/reportPackage.json": said},
        )
    own = "META-INF/reportPackage.json"
    yield stops(
        "a package file that is no JSON",
        f"r/{own}: is not JSON: Expecting value (line 1, column 1)",
        report={**REPORT, own: "x"},
    )
    yield stops(
        "a package of another kind",
        f"r/{own}: is of no report package: its document type is 'x'",
        report={**REPORT, own: '{"documentInfo":{"documentType":"x"}}'},
    )
    for info, said in (
        ("{}", "it has no 'documentInfo.documentType'"),
        ('{"documentType":null}', "it has no 'documentInfo.documentType'"),
        ('{"documentType":[true]}', "its document type is [true]"),
    ):
        yield stops(
            f"a package file with the info {info}",
            f"r/{own}: is of no report package: {said}",
            report={**REPORT, own: f'{{"documentInfo":{info}}}'},
        )


@for_each(cases(forms_of_reports()))
class TestFormsOfReports(FilingTest):
    """The cases of `forms_of_reports`."""


def files_beside_the_report() -> Iterator[Case]:
    """What else is in the package of a report."""
    other = {
        "reports/other.json": '{"documentInfo":{"documentType":"https://xbrl.org/2021/xbrl-json"}}',
        "reports/list.json": "[1]",
        "reports/a.txt": "x",
    }
    yield makes("other JSON beside the report", MERGED, report={**REPORT, **other})
    yield makes(
        "what is no JSON beside the report",
        MERGED,
        report={**REPORT, "reports/a.json": "x", "reports/b.json": b"\xff"},
    )
    upper = {
        "reports/REPORT.JSON": REPORT["reports/report.json"],
        "reports/t.csv": REPORT["reports/t.csv"],
    }
    yield makes("a report in capitals", MERGED, report=upper)
    near = {
        "reports/a!.json": "{}",
        "reports/q!/x": "",
        "reports/q.b/x": "",
        "reports/q/a/b/c.json": meta(),
        "reports/q-/x.json": "[]",
    }
    deep = deeper(REPORT)
    for form in ("folder", "zip", "top"):
        yield makes(
            f"folders of nearly the same name, {form}", MERGED, report={**deep, **near}, form=form
        )
        two = {
            **near,
            "reports/q!/r.json": meta(),
            "reports/q/r.json": meta(),
            "reports/q-/r.json": meta(),
        }
        line = (
            "r: has several xBRL-CSV reports: reports/q/r.json, reports/q!/r.json,"
            " reports/q-/r.json"
        )
        yield stops(
            f"reports in folders of nearly the same name, {form}", line, report=two, form=form
        )
    yield makes("a report in a folder of reports", MERGED, report=deep).then(
        "its table is the one beside it", lambda made: made.get("t.csv"), b"cash\n1\n"
    )

    odd = {
        "reports/q%41 #?/report.json": meta({"extends": ["deep/low%2541.json"]}),
        "reports/q%41 #?/deep/low%41.json": meta(decimals=7),
    }
    for form in ("folder", "zip"):
        yield makes(
            f"a folder of an odd name, {form}",
            parts={"decimals": 7},
            report=odd,
            taxonomies=[],
            form=form,
        )
    yield makes(
        "a report in reports wins over one in a folder",
        MERGED,
        report={**REPORT, "reports/q/report.json": meta()},
    )


@for_each(cases(files_beside_the_report()))
class TestFilesBesideTheReport(FilingTest):
    """The cases of `files_beside_the_report`."""


def packages_without_one_report() -> Iterator[Case]:
    """Packages that have no report, or several."""
    yield stops(
        "two reports",
        "r: has several xBRL-CSV reports: reports/b.json, reports/report.json",
        report={**REPORT, "reports/b.json": meta()},
    )
    two = {"reports/a/r.json": meta(), "reports/b/r.json": meta()}
    yield stops(
        "two reports in folders",
        "r: has several xBRL-CSV reports: reports/a/r.json, reports/b/r.json",
        report=two,
    )
    apart = {f"top/{it}": text for it, text in REPORT.items()}
    yield stops(
        "two folders at the top",
        "r: has no xBRL-CSV report in 'reports' or a folder of it",
        report={**apart, "z/x": ""},
    )
    line = (
        "r: has no xBRL-CSV report in 'reports' or a folder of it; report.json is one, but does not"
        " stand there"
    )
    for form in ("folder", "zip"):
        yield stops(
            f"a report beside 'reports', {form}",
            line,
            report={"report.json": meta(), "b.json": "{}", "c.json": "x"},
            form=form,
        )
    line = "r: has no xBRL-CSV report in 'reports' or a folder of it"
    yield stops(
        "JSON that says nothing of itself",
        line,
        report={"reports/a.json": "{}", "reports/b.json": "[]"},
    )
    yield stops(
        "no report",
        "r: has no xBRL-CSV report in 'reports' or a folder of it",
        report={"reports/a/b/r.json": meta()},
    )
    line = "r: has no xBRL-CSV report in 'reports' or a folder of it; it is a taxonomy package"
    yield stops(
        "a taxonomy package in the place of a report",
        line,
        report={**TAXONOMY, "META-INF/taxonomyPackage.xml": "<a/>"},
    )
    none = "r: has no xBRL-CSV report in 'reports' or a folder of it; reports/r.json has the document"
    for draft in (
        "http://xbrl.org/PWD/2019-02-06/xbrl-csv",
        "https://www.xbrl.org/WGWD/YYYY-MM-DD/xbrl-csv",
        "http://www.xbrl.org/DPWD/2016-01-13/xbrl-csv",
        "http://www.xbrl.org/IWD/2018-03-07/xbrl-csv",
        "http://xbrl.org/YYYY/xbrl-csv",
        "https://xbrl.org/((~status_date_uri~))/xbrl-csv",
    ):
        yield stops(
            f"a report of a draft, {draft}",
            f"{none} type '{draft}', of a draft; that of xBRL-CSV 1.0 is '{CSV}'",
            report={"reports/r.json": meta().replace(CSV, draft)},
        )
    for kind in ("https://xbrl.org/2021/xbrl-csv/x", "https://xbrl.org/XXXX/xbrl-csv"):
        yield stops(
            f"a report of no draft, {kind}",
            f"{none} type '{kind}'",
            report={"reports/r.json": meta().replace(CSV, kind)},
        )
    yield stops(
        "a broken report",
        "r/reports/r.json: is not JSON: Expecting value (line 1, column 2)",
        report={"reports/r.json": "[x"},
    )


@for_each(cases(packages_without_one_report()))
class TestPackagesWithoutOneReport(FilingTest):
    """The cases of `packages_without_one_report`."""


class TestRuns(FilingTest):
    """Tests that take several runs of one folder."""

    def test_the_example(self) -> None:
        """The example in every form of package gives the document that was written by hand."""
        folder = self.folder
        document = (EXAMPLE / "expected.json").read_bytes()
        report, taxonomy = (
            {
                str(it.relative_to(EXAMPLE / top)): it.read_bytes()
                for it in (EXAMPLE / top).rglob("*")
                if it.is_file()
            }
            for top in ("report", "taxonomy")
        )
        pack(folder / "r.zip", report, "filing-2025/")
        pack(folder / "r.xbr", report)
        pack(folder / "t.zip", taxonomy, "harbour-2025/")
        pack(folder / "t.dat", taxonomy, method=zipfile.ZIP_STORED)
        unpacked, plain, open_taxonomy = (
            EXAMPLE / "report",
            EXAMPLE / "report/reports/report.json",
            EXAMPLE / "taxonomy",
        )
        forms: dict[str, list[Any]] = {
            "folders": [unpacked, "--taxonomy", open_taxonomy],
            "ZIPs with one folder at the top": ["r.zip", "--taxonomy", "t.zip"],
            "ZIPs with META-INF at the top": ["r.xbr", "--taxonomy", "t.dat"],
            "a metadata file": [plain, "--taxonomy", open_taxonomy],
            "a package after an equals sign": ["r.zip", "--taxonomy=t.zip"],
            "options first": ["--cache", "cache", "--workers", "2", "r.zip", "--taxonomy", "t.zip"],
            "the cache": ["r.zip", "--taxonomy", "t.zip", "--cache", "cache"],
        }
        for form, words in forms.items():
            self.case(f"the example: {form}", start(words, folder), (0, document, ""))
        seen = start(
            ["r.zip", "--taxonomy", "t.zip", "--out", "doc.json", "--workers", "1"], folder
        )
        self.case(
            "the example by --out",
            (seen, (folder / "doc.json").read_bytes()),
            ((0, b"", ""), document),
        )
        self.case(
            "the example by --prepare",
            start([unpacked, "--taxonomy", open_taxonomy, "--prepare", "kept"], folder),
            (0, b"", ""),
        )
        done = subprocess.run(
            [PROGRAM, "kept/meta.json", "--types", "kept/types.csv"],
            cwd=folder,
            capture_output=True,
            timeout=PATIENCE,
        )
        self.case(
            "the prepared example stands by itself",
            (done.stdout, any(it.is_symlink() for it in (folder / "kept").rglob("*"))),
            (document, False),
        )
        self.case(
            "the prepared folder may be read by all",
            oct((folder / "kept").stat().st_mode & 0o777),
            oct(0o777 & ~current_umask()),
        )
        (folder / "link").symlink_to(FILING)
        done = subprocess.run(
            ["./link", "r.zip", "--taxonomy", "t.zip"],
            cwd=folder,
            env={**os.environ, "XBRL_JSON": PROGRAM},
            capture_output=True,
            timeout=PATIENCE,
        )
        self.case(
            "the example by a link to the program", (done.returncode, done.stdout), (0, document)
        )

    def test_what_is_no_package(self) -> None:
        """Files that are neither a package nor metadata."""
        seen: Any
        folder = self.folder
        write(folder, {"x.txt": "hello"})
        self.case(
            "neither ZIP nor JSON",
            run(["x.txt", "--prepare", "o"], folder),
            (1, "xbrl-filing: x.txt: is not JSON: Expecting value (line 1, column 1)\n"),
        )
        for ending in ("zip", "ZIP", "xbr", "xbri"):
            write(folder, {f"x.{ending}": "<html>", f"j.{ending}": meta()})
            seen = run([f"x.{ending}", "--prepare", "o"], folder), run(
                [f"j.{ending}", "--prepare", f"o {ending}"], folder
            )
            self.case(
                f"neither ZIP nor JSON, called {ending}",
                seen,
                ((1, f"xbrl-filing: x.{ending}: is neither a ZIP nor JSON\n"), (0, "")),
            )
        write(folder, {"m.json": meta()})
        seen = run(["m.json", "--taxonomy", "x.txt", "--prepare", "o"], folder)
        self.case(
            "a package that is none",
            seen,
            (
                1,
                "xbrl-filing: x.txt: is neither a ZIP nor a folder, so it is no taxonomy package\n",
            ),
        )
        self.case(
            "a report that is not there",
            run(["no.zip", "--prepare", "o"], folder),
            (3, "xbrl-filing: no.zip: cannot read (No such file or directory)\n"),
        )
        seen = run(["m.json", "--taxonomy", "no.zip", "--prepare", "o"], folder)
        self.case(
            "a package that is not there",
            seen,
            (3, "xbrl-filing: no.zip: cannot read (No such file or directory)\n"),
        )

    def test_unpacked_packages(self) -> None:
        """Folders: a link that leads out of one is refused, and one that stays inside is taken."""
        folder = self.folder
        write(folder / "outside", {"mod.json": MODULE, "secret.csv": "cash\n9\n"})
        write(folder / "t0side", {"mod.json": MODULE})
        for name, link, target, line in (
            (
                "a module",
                "t0/reg/mod.json",
                "../../outside/mod.json",
                "t0/reg/mod.json: is a link that leads outside of t0",
            ),
            (
                "a module of a folder of nearly the same name",
                "t0/reg/mod.json",
                "../../t0side/mod.json",
                "t0/reg/mod.json: is a link that leads outside of t0",
            ),
            (
                "a folder",
                "t0/reg",
                "../outside",
                "t0/reg/mod.json: is a link that leads outside of t0",
            ),
            (
                "a table",
                "r/reports/t.csv",
                "../../outside/secret.csv",
                "r/reports/t.csv: is a link that leads outside of r",
            ),
        ):
            for it in ("r", "t0", "o"):
                shutil.rmtree(folder / it, ignore_errors=True)
            write(folder / "r", REPORT)
            write(folder / "t0", TAXONOMY)
            place = folder / link
            shutil.rmtree(place) if place.is_dir() else place.unlink()
            place.symlink_to(target)
            self.case(
                f"{name} by a link that leads outside",
                run(["r", "--taxonomy", "t0", "--prepare", "o"], folder),
                (1, f"xbrl-filing: {line}\n"),
            )
            self.case(
                f"{name} by a link that leads outside: nothing is made",
                (folder / "o").exists(),
                False,
            )

    def test_pipes_in_packages(self) -> None:
        """A pipe in a package is refused, and nobody waits for it."""
        folder = self.folder
        for path in (
            "r/reports/report.json",
            "r/reports/t.csv",
            "t0/META-INF/catalog.xml",
            "t0/reg/mod.xsd",
        ):
            write(folder / "r", REPORT)
            write(folder / "t0", TAXONOMY)
            kept = (folder / path).read_bytes()
            (folder / path).unlink()
            os.mkfifo(folder / path)
            status, out, err = start(["r", "--taxonomy", "t0"], folder)
            self.case(
                f"a pipe in a package, {path}",
                (status, out, err.count("\n")),
                (1, b"", 1),
            )
            (folder / path).unlink()
            (folder / path).write_bytes(kept)

    def test_pipes_as_packages(self) -> None:
        """A pipe or a device as REPORT or as a package is refused by name, without a wait."""
        folder = self.folder
        write_packages(folder)
        os.mkfifo(folder / "pipe")
        line = "cannot read (it is a pipe or a device: give a file or a folder)"
        for path in ("pipe", "/dev/null"):
            for words in ([path, "--taxonomy", "t"], ["r", "--taxonomy", "t", path]):
                self.case(f"words {words}", run(words, folder), (3, f"xbrl-filing: {path}: {line}\n"))

    def test_links_that_stay_inside(self) -> None:
        """A name with a slash after it, and links that lead to no other place."""
        folder = self.folder
        write(folder / "outside", {"secret.csv": "cash\n9\n"})
        write(folder / "r", REPORT)
        write(folder / "t0", TAXONOMY)
        line = f"xbrl-filing: r/reports/report.json: no package has {HOST}mod.json (extends"
        self.case(
            "a folder with a slash behind it",
            run(["r/", "--prepare", "o"], folder),
            (1, f"{line}; there is no --taxonomy)\n"),
        )
        write(folder, {"ring/META-INF/catalog.xml": catalog(rewrite())})
        (folder / "ring/reg").mkdir()
        (folder / "ring/reg/mod.json").symlink_to("mod.json")
        self.case(
            "a link to itself",
            run(["r", "--taxonomy", "ring", "--prepare", "o"], folder),
            (1, f"{line})\n"),
        )
        (folder / "r/reports/t.csv").rename(folder / "r/real.csv")
        (folder / "r/reports/t.csv").symlink_to("../real.csv")
        self.case(
            "a link that stays inside",
            (
                run(["r", "--taxonomy", "t0", "--prepare", "o"], folder),
                (folder / "o/t.csv").read_text(),
            ),
            ((0, ""), "cash\n1\n"),
        )
        write(
            folder,
            {"alone/m.json": meta(INFO, tables={"t": {"url": "t.csv"}}), "alone/mod.xsd": schema()},
        )
        (folder / "alone/t.csv").symlink_to("../outside/secret.csv")
        self.case(
            "a table by a link beside a metadata file",
            (run(["alone/m.json", "--prepare", "o2"], folder), (folder / "o2/t.csv").read_text()),
            ((0, ""), "cash\n9\n"),
        )

    def test_several_packages(self) -> None:
        """Tests several packages, odd names, and equal bytes for equal inputs."""
        folder = self.folder
        write_packages(folder)
        write(
            folder,
            {"t2/META-INF/catalog.xml": catalog(rewrite()), "t2/reg/mod.xsd": schema(ELEMENTS)},
        )
        shutil.move(folder / "t/reg/mod.xsd", folder / "t2/reg/mod.xsd")
        for given in (
            ["r", "--taxonomy", "t", "t2", "--prepare", "o1"],
            ["--taxonomy", "t", "--prepare=o2", "--taxonomy", "t2", "--unpacked-limit=99999", "r"],
        ):
            self.case(f"several packages {given}", run(given, folder), (0, ""))
        shutil.copy(folder / "t2/reg/mod.xsd", folder / "t/reg/mod.xsd")
        status, shown = on_a_terminal(["r", "--taxonomy", "t"], folder)
        self.case(
            "progress on a terminal",
            (status, b"xbrl-filing: preparing the tables" in shown, shown.endswith(b"\r\x1b[K")),
            (0, True, True),
        )
        escaped = folder / "a\nb\x1b.zip"
        escaped.write_text("x")
        self.case(
            "control bytes in a name",
            run([escaped.name, "--prepare", "o"], folder),
            (1, "xbrl-filing: a\\nb\\x1b.zip: is neither a ZIP nor JSON\n"),
        )
        write(folder, {"long.json": json.dumps({"documentInfo": {"documentType": "y" * 100_000}})})
        line = f"long.json: is no xBRL-CSV metadata file: its document type is '{'y' * 100_000}'"
        self.case(
            "a very long line",
            run(["long.json"], folder),
            (1, f"xbrl-filing: {line[:1000]} .. {line[-1000:]}\n"),
        )
        broken = os.fsdecode(b"r\xff")
        write(folder / broken, REPORT)
        seen = start([broken, "--taxonomy", "t"], folder)
        self.case("a name that is not UTF-8", (seen[0], b'"t.r_1.cash"' in seen[1]), (0, True))
        for number in range(2):
            self.case(
                "the same inputs",
                run(["r.zip", "--taxonomy", "t.zip", "--prepare", f"same{number}"], folder),
                (0, ""),
            )
        self.case("give the same bytes", listing(folder / "same0"), listing(folder / "same1"))
        turned = json.dumps(dict(reversed(list(json.loads(MODULE).items()))))
        pack(folder / "turned.zip", {**TAXONOMY, "reg/mod.json": turned})
        self.case(
            "members in another order",
            (
                turned == MODULE,
                run(["r.zip", "--taxonomy", "turned.zip", "--prepare", "turned"], folder),
            ),
            (False, (0, "")),
        )
        self.case("give the same bytes too", listing(folder / "turned"), listing(folder / "same0"))
