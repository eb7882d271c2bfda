"""Tests CSV files that no table names: they are refused, because their facts would be missing."""
from __future__ import annotations

import os
import shutil
import subprocess
from collections.abc import Callable, Iterator
from typing import Any

from tests.filing_samples import (
    INFO,
    MERGED,
    REPORT,
    TAXONOMY,
    TEMPLATE,
    Files,
    deeper,
    meta,
    pack,
)
from tests.filings import Case, FilingTest, cases, makes, run, start, stops
from tests.harness import for_each, write

OPTIONAL = {
    "t": {"url": "t.csv", "optional": True},
    "u": {"url": "sub/u.csv", "template": "t", "optional": True},
}
MAY_BE_MISSING: dict[str, Any] = {
    "taxonomies": [
        {
            **TAXONOMY,
            "reg/mod.json": meta(
                INFO, tableTemplates={"t": TEMPLATE}, tables=OPTIONAL, parameterURL="p.csv"
            ),
        }
    ]
}
BARE = {"reports/report.json": REPORT["reports/report.json"], "reports/p.csv": "name,value\n"}
NOT_READ = "is not read: no table of the joined metadata has this url (names are compared exactly)"
ROWS = "cash\n1\n"


def files_that_nothing_names() -> Iterator[Case]:
    """Checks that a CSV file that no table names is refused, because its facts would be silently
    missing. Other files are skipped.
    """
    bare, said, rows, inputs = BARE, NOT_READ, ROWS, MAY_BE_MISSING
    for form in ("folder", "zip"):
        for name in (
            "T.csv",
            "t.CSV",
            "T.CSV",
            "t2.csv",
            "a/t.csv",
            "Sub/u.csv",
            "sub/t.csv",
            "sub/a/u.csv",
            "P.csv",
            "t csv.csv",
            "-.csv",
        ):
            line = f"r/reports/{name}: {said}"
            yield stops(
                f"{name}, which no table names, {form}",
                line,
                report={**bare, f"reports/{name}": rows},
                form=form,
                **inputs,
            )
            moved = deeper({**bare, f"reports/{name}": rows})
            line = f"r/reports/q/{name}: {said}"
            yield stops(
                f"{name} in a folder of reports, {form}", line, report=moved, form=form, **inputs
            )
        many = {f"reports/{it}.csv": rows for it in ("t", "sub/u", "z", "b/a", "sub/v")}
        yield stops(
            f"the first of several, {form}",
            f"r/reports/b/a.csv: {said}",
            report={**bare, **many},
            form=form,
            **inputs,
        )
        passed = [
            "t.csv",
            "sub/u.csv",
            "t.txt",
            "T.csv.bak",
            "csv",
            "._T.csv",
            "~$t.csv",
            ".x/T.csv",
            "a/.x/T.csv",
            "__MACOSX/T.csv",
        ]
        passed += ["../META-INF/T.csv", "../other/T.csv"]
        named = {f"reports/{it}".replace("reports/../", ""): rows for it in passed}
        yield makes(
            f"what is none of the report, {form}",
            parts={"tables": OPTIONAL},
            report={**bare, **named},
            form=form,
            **inputs,
        ).then(
            f"what is none of the report is not prepared, {form}",
            lambda made: sorted(made),
            ["meta.json", "p.csv", "sub/u.csv", "t.csv", "types.csv"],
        )


@for_each(cases(files_that_nothing_names()))
class TestFilesThatNothingNames(FilingTest):
    """The cases of `files_that_nothing_names`."""


def files_of_other_reports() -> Iterator[Case]:
    """Files next to another report, and what is the converter's fault."""
    optional, bare, said, rows, inputs = OPTIONAL, BARE, NOT_READ, ROWS, MAY_BE_MISSING
    for form in ("folder", "zip"):
        beside = {
            **bare,
            "reports/q/report.json": meta(),
            "reports/q/T.csv": rows,
            "reports/q/a/T.csv": rows,
        }
        yield makes(
            f"files of another report, {form}",
            parts={"tables": {}},
            report=beside,
            form=form,
            **inputs,
        )
        for name, text in (
            ("q/a/report.json", meta()),
            ("q/report.json", meta().replace("xbrl-csv", "xbrl-json")),
            ("q/report.txt", meta()),
        ):
            other = {**bare, f"reports/{name}": text, "reports/q/T.csv": rows}
            yield stops(
                f"files beside {name}, {form}",
                f"r/reports/q/T.csv: {said}",
                report=other,
                form=form,
                **inputs,
            )
        moved = deeper(bare)
        around = {
            "reports/r/T.csv": rows,
            "reports/q2/T.csv": rows,
            "META-INF/T.csv": rows,
            "other/T.csv": rows,
            "reports/T.txt": rows,
        }
        yield makes(
            f"files beside the report's folder, {form}",
            parts={"tables": {}},
            report={**moved, **around},
            form=form,
            **inputs,
        )
        inside: dict[str, Any] = {**moved, "reports/q/a/report.json": meta(), "reports/q/a/T.csv": rows}
        yield stops(
            f"no report stands so deep, {form}",
            f"r/reports/q/a/T.csv: {said}",
            report=inside,
            form=form,
            **inputs,
        )
        none = [{**TAXONOMY, "reg/mod.json": meta(INFO)}]
        yield stops(
            f"no table at all, {form}",
            f"r/reports/T.csv: {said}",
            report={**REPORT, "reports/T.csv": rows},
            taxonomies=none,
            form=form,
        )
        inside = {**bare, "reports/t.csv/x.csv": rows, "reports/T.csv": rows}
        yield stops(
            f"a folder in a table's place, {form}",
            "t0/reg/mod.json: 'tables.t.url' is 't.csv', which is a folder",
            report=inside,
            form=form,
            **inputs,
        )
        bad_tables: list[dict[str, Any]] = [{"tables": {"t": it}} for it in ({"url": "./t.csv"}, 7, {})]
        for part in (*bad_tables, {"tables": {"t": {"url": "t.csv"}}, "parameterURL": "./p.csv"}):
            wrong_url = [{**TAXONOMY, "reg/mod.json": meta(INFO, **part)}]
            yield makes(
                f"a URL that is the converter's fault: {part}, {form}",
                parts=part,
                report={**REPORT, **bare},
                taxonomies=wrong_url,
                form=form,
            )
    lone = {**bare, "reports/T.csv": rows}
    yield makes(
        "a file beside a lone metadata file",
        parts={"tables": {}},
        report=lone,
        form="file",
        **inputs,
    )


@for_each(cases(files_of_other_reports()))
class TestFilesOfOtherReports(FilingTest):
    """The cases of `files_of_other_reports`."""


def stands_above(file: str, place: str) -> str:
    """Returns the line of a file above the folder of the report."""
    return (
        f"{file}: is not read: it stands above '{place}', the folder of the report, in which tables"
        " are looked for"
    )


def files_above_the_report() -> Iterator[Case]:
    """Checks that a CSV file in a folder from the package's root down to the report's is refused.

    Above and next to these nothing is read.
    """
    optional = {"t": {"url": "t.csv", "optional": True}}
    inputs: dict[str, Any] = {
        "taxonomies": [
            {
                **TAXONOMY,
                "reg/mod.json": meta(INFO, tableTemplates={"t": TEMPLATE}, tables=optional),
            }
        ]
    }
    bare = {"reports/report.json": REPORT["reports/report.json"]}
    lower = {"reports/q/report.json": REPORT["reports/report.json"]}
    kind = {
        "META-INF/reportPackage.json": (
            '{"documentInfo": {"documentType": "https://xbrl.org/report-package/2023"}}'
        )
    }

    for form in ("folder", "zip", "top"):
        top = "r/top" if form == "top" else "r"
        for name in ("t.csv", "T.CSV", "other.csv"):
            yield stops(
                f"{name} above the report, {form}",
                stands_above(f"{top}/{name}", "reports"),
                report={**bare, name: "cash\n1\n"},
                form=form,
                **inputs,
            )
            for place in ("", "reports/"):
                file = place + name
                yield stops(
                    f"{file} above a deeper report, {form}",
                    stands_above(f"{top}/{file}", "reports/q"),
                    report={**lower, file: "x"},
                    form=form,
                    **inputs,
                )
        yield stops(
            f"a table that stands in both places, {form}",
            stands_above(f"{top}/t.csv", "reports"),
            report={**REPORT, "t.csv": "x"},
            form=form,
            **inputs,
        )
        both_places = {**bare, "a.csv": "x", "reports/b.csv": "x"}
        line = (
            f"{top}/reports/b.csv: is not read: no table of the joined metadata has this url (names"
            " are compared exactly)"
        )
        yield stops(
            f"what stands in the report's folder comes first, {form}",
            line,
            report=both_places,
            form=form,
            **inputs,
        )
        passed = {
            "._t.csv": "x",
            ".t.csv": "x",
            "t.txt": "x",
            "t.csv.bak": "x",
            "data/t.csv": "x",
            "META-INF/t.csv": "x",
            "t.csv.d/x": "x",
        }
        both: tuple[dict[str, Any], ...] = (dict(REPORT), dict(deeper(REPORT)))
        for files in both:
            yield makes(
                f"what is no table above the report, {form}",
                parts={"tables": optional},
                report={**kind, **files, **passed},
                form=form,
                **inputs,
            )
        wrong_url = [{**TAXONOMY, "reg/mod.json": meta(INFO, tables={"t": {"url": "../t.csv"}})}]
        yield makes(
            f"a URL that leads there, {form}",
            parts={"tables/t/url": "../t.csv"},
            report={**bare, "t.csv": "x"},
            taxonomies=wrong_url,
            form=form,
        )
    yield makes(
        "beside the one folder at the top",
        MERGED,
        report={"t.csv": "x", **{f"one/{it}": text for it, text in REPORT.items()}},
    )
    yield makes("above a lone metadata file", MERGED, report={**REPORT, "t.csv": "x"}, form="file")


@for_each(cases(files_above_the_report()))
class TestFilesAboveTheReport(FilingTest):
    """The cases of `files_above_the_report`."""


class TestRuns(FilingTest):
    """Tests that take several runs of one folder."""

    def test_nothing_is_converted_then(self) -> None:
        """A filing with a file that nothing names is not converted in part."""
        folder = self.folder
        lone, inputs, said = {**BARE, "reports/T.csv": ROWS}, MAY_BE_MISSING, NOT_READ
        pack(folder / "zipped.zip", lone)
        write(folder / "z", inputs["taxonomies"][0])
        for words in ("", "--out kept.json", "--explain"):
            write(folder, {"kept.json": "kept"})
            seen = (
                start(["zipped.zip", "--taxonomy", "z", *words.split()], folder),
                (folder / "kept.json").read_text(),
            )
            self.case(
                f"nothing is converted then: {words}",
                seen,
                ((1, b"", f"xbrl-filing: zipped.zip/reports/T.csv: {said}\n"), "kept"),
            )

    def test_links_above_the_report(self) -> None:
        """Links and folders above the report."""
        folder = self.folder
        write(
            folder,
            {
                **{f"l/{it}": text for it, text in REPORT.items()},
                **{f"t/{it}": text for it, text in TAXONOMY.items()},
                "out.csv": "x",
            },
        )
        (folder / "l/reports/t.csv").rename(folder / "l/data.csv")
        (folder / "l/reports/t.csv").symlink_to("../data.csv")
        self.case(
            "a table by a link to a file above",
            run(["l", "--taxonomy", "t", "--prepare", "o1"], folder),
            (0, ""),
        )
        (folder / "l/a.csv").symlink_to("none.csv")
        (folder / "l/b.csv").mkdir()
        self.case(
            "what is no file above",
            run(["l", "--taxonomy", "t", "--prepare", "o2"], folder),
            (0, ""),
        )
        (folder / "l/c.csv").symlink_to("../out.csv")
        outside = "xbrl-filing: l/c.csv: is a link that leads outside of l\n"
        self.case(
            "a link above that leads outside",
            run(["l", "--taxonomy", "t", "--prepare", "o3"], folder),
            (1, outside),
        )

    def test_links_to_files_that_nothing_names(self) -> None:
        """Knows a file by more than its name; what is not a file was not forgotten."""
        folder = self.folder
        said = (
            "is not read: no table of the joined metadata has this url (names are compared exactly)"
        )
        place = folder / "r/reports"

        def seen(make: Callable[[], object]) -> tuple[int, str]:
            """Status and standard error of a run over packages to which this was done."""
            # folders that are too deep for shutil
            subprocess.run(["rm", "-rf", "r", "t", "o"], cwd=folder, check=True)
            write(folder / "r", REPORT)
            write(folder / "t", TAXONOMY)
            make()
            return run(["r", "--taxonomy", "t", "--prepare", "o"], folder)

        def deep() -> None:
            """Makes 1,500 folders, each in the one before."""
            before = os.getcwd()
            os.chdir(place)
            for _ in range(1500):
                os.mkdir("d")
                os.chdir("d")
            os.chdir(before)

        def linked(name: str, target: str, more: Files | None = None) -> Callable[[], None]:
            """Returns what makes a link in the folder of the reports, after it wrote files."""

            def make() -> None:
                write(folder, more or {})
                (place / name).symlink_to(target)

            return make

        def moved_beside() -> None:
            """Gives the table another name, and makes a link of its own."""
            (place / "t.csv").rename(place / "real.csv")
            (place / "t.csv").symlink_to("real.csv")

        def of_a_linked_folder(more: Files | None = None) -> None:
            """Replaces the folder of the reports by a link to another folder, with more files."""
            report = {
                "r/data/t.csv": "cash\n2\n",
                "r/data/report.json": BARE["reports/report.json"],
            }
            write(folder, {**report, **(more or {})})
            shutil.rmtree(place)
            place.symlink_to("data")

        links: dict[str, Callable[[], object]] = {
            "a link to a table": linked("T.csv", "t.csv"),
            "a hard link to a table": lambda: os.link(place / "t.csv", place / "T.csv"),
            "a table by a link to a file beside it": moved_beside,
            "a link that leads nowhere": linked("T.csv", "none.csv"),
            "a link to itself": linked("a/T.csv", "T.csv", {"r/reports/a/x": ""}),
            "a folder": lambda: (place / "T.csv").mkdir(),
            "a link to a folder of others": linked("other", "../other", {"r/other/T.csv": "x"}),
            "a folder that leads to itself": linked("d", "."),
            "a pipe": lambda: os.mkfifo(place / "T.csv"),
            "deep folders": deep,
            "a report in a folder by a link": of_a_linked_folder,
        }
        for name, make in links.items():
            self.case(f"no file that was forgotten: {name}", seen(make), (0, ""))
        for name, make in {
            "a link to a file that is no table": linked("T.csv", "../u.csv", {"r/u.csv": "x"}),
            "a folder by a link": lambda: of_a_linked_folder({"r/data/T.csv": "x"}),
            "below deep folders": lambda: (
                write(folder, {"r/reports/" + "d/" * 200 + "T.csv": "x"})
            ),
        }.items():
            status, err = seen(make)
            self.case(
                f"a file that was forgotten: {name}",
                (status, err.replace("d/", "")),
                (1, f"xbrl-filing: r/reports/T.csv: {said}\n"),
            )
        outside = "xbrl-filing: r/reports/T.csv: is a link that leads outside of r\n"
        write(folder, {"u.csv": "x"})
        self.case(
            "a file outside, which no table names",
            seen(linked("T.csv", "../../u.csv")),
            (1, outside),
        )
