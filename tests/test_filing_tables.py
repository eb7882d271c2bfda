"""Tests where tables are, by which names they are prepared, and which are left out."""
from __future__ import annotations

from collections.abc import Iterator
from typing import Any

from tests.filing_samples import (
    ELEMENTS,
    INFO,
    MERGED,
    MODULE,
    REPORT,
    TAXONOMY,
    TEMPLATE,
    TYPES,
    catalog,
    deeper,
    meta,
    pack,
    rewrite,
    schema,
)
from tests.filings import Case, FilingTest, cases, listing, makes, run, start, stops
from tests.harness import for_each, write


def names_that_are_taken() -> Iterator[Case]:
    """Tables that are called as what is prepared get another name."""
    for form in ("folder", "zip", "file"):
        taken = {"a": "meta.json", "b": "filed-meta.json/b.csv"}
        named = {it: {"url": url, "template": "t"} for it, url in taken.items()}
        yield makes(
            f"a new name that is a folder's, {form}",
            parts={
                "tables/a/url": "filed-filed-meta.json",
                "tables/b/url": "filed-meta.json/b.csv",
            },
            report={
                "reports/report.json": REPORT["reports/report.json"],
                **{f"reports/{it}": "cash\n1\n" for it in taken.values()},
            },
            taxonomies=[
                {
                    **TAXONOMY,
                    "reg/mod.json": meta(INFO, tableTemplates={"t": TEMPLATE}, tables=named),
                }
            ],
            form=form,
        ).then(
            f"both are there, {form}",
            lambda made: sorted(it for it in made if it.startswith("filed-")),
            ["filed-filed-meta.json", "filed-meta.json/b.csv"],
        )

        renamed = {
            "reports/report.json": REPORT["reports/report.json"],
            "reports/types.csv": "name,value\n",
            "reports/t.csv": "cash\n1\n",
        }
        yield makes(
            f"a parameters file that is called as one of the two, {form}",
            parts={"parameterURL": "filed-types.csv"},
            types=TYPES,
            report=renamed,
            taxonomies=[
                {
                    **TAXONOMY,
                    "reg/mod.json": MODULE.replace(
                        '"tables"', '"parameterURL": "types.csv", "tables"'
                    ),
                }
            ],
            form=form,
        ).then(f"it is there, {form}", lambda made: made.get("filed-types.csv"), b"name,value\n")


@for_each(cases(names_that_are_taken()))
class TestNamesThatAreTaken(FilingTest):
    """The cases of `names_that_are_taken`."""


def tables_at_other_urls() -> Iterator[Case]:
    """URLs of tables that are left to the converter, and files that are missing."""
    for url in (
        "../t.csv",
        "/etc/passwd",
        "a/../../t.csv",
        "a:b.csv",
        "a%20b.csv",
        "a\\b.csv",
        "./t.csv",
        "a//t.csv",
        "",
        "t.csv?x",
        "t.csv#x",
        7,
        None,
    ):
        for form in ("folder", "zip"):
            module = meta(
                INFO, tableTemplates={"t": TEMPLATE}, tables={"t": {"url": url}}, parameterURL=url
            )
            yield makes(
                f"a table at {url}, {form}",
                parts={"tables/t": {"url": url}, "parameterURL": url},
                taxonomies=[{**TAXONOMY, "reg/mod.json": module}],
                report={**REPORT, "reports/a b.csv": "x", "t.csv": "x"},
                form=form,
            ).then(
                f"a table at {url} is not looked at, {form}",
                lambda made: sorted(made),
                ["meta.json", "types.csv"],
            )

    for form in ("folder", "zip"):
        with_file = {
            **TAXONOMY,
            "reg/mod.json": MODULE.replace('"tables"', '"parameterURL": "p.csv", "tables"'),
        }
        line = "r/reports/p.csv: is missing: 'parameterURL' of t0/reg/mod.json names it"
        yield stops(
            f"a parameters file that is not there, {form}", line, taxonomies=[with_file], form=form
        )
    deep: dict[str, Any] = {**deeper(REPORT), "reports/r/t.csv": "cash\n9\n"}
    yield makes("a deep report", MERGED, report=deep).then(
        "tables lie beside the report's own file", lambda made: made.get("t.csv"), b"cash\n1\n"
    )


@for_each(cases(tables_at_other_urls()))
class TestTablesAtOtherUrls(FilingTest):
    """The cases of `tables_at_other_urls`."""


class TestRuns(FilingTest):
    """Tests that take several runs of one folder."""

    def test_tables(self) -> None:
        """Tests where tables are, by which names they are prepared, and what is never read."""
        urls = {
            "a": "sub/a.csv",
            "b": "meta.json",
            "c": "types.csv",
            "d": "meta.json/d.csv",
            "e": "filed-types.csv",
            "f": "none.csv",
        }
        names = {
            **urls,
            "b": "filed-meta.json",
            "c": "filed-filed-types.csv",
            "d": "filed-meta.json/d.csv",
        }
        for form in ("folder", "zip", "file"):
            for left_out in ("b", "d"):
                some = {it: url for it, url in urls.items() if it != left_out}
                module = meta(
                    INFO,
                    tableTemplates={"t": TEMPLATE},
                    tables={
                        it: {"url": url, "template": "t", "optional": True}
                        for it, url in some.items()
                    },
                    parameterURL="p/types.csv",
                )
                report = {
                    "reports/report.json": REPORT["reports/report.json"],
                    "reports/p/types.csv": "name,value\n",
                    **{f"reports/{url}": f"cash\n{it}\n" for it, url in some.items() if it != "f"},
                }
                made = self.see(
                    makes(
                        f"names of tables without {left_out}, {form}",
                        parts={
                            f"tables/{it}": (
                                None
                                if it == "f"
                                else {"url": names[it], "template": "t", "optional": True}
                            )
                            for it in some
                        },
                        types=TYPES,
                        report=report,
                        taxonomies=[{**TAXONOMY, "reg/mod.json": module}],
                        form=form,
                    )
                )
                wanted = {names[it]: f"cash\n{it}\n".encode() for it in some if it != "f"}
                self.case(
                    f"tables as they are without {left_out}, {form}",
                    {
                        it: text
                        for it, text in made.items()
                        if it.endswith((".csv", "filed-meta.json")) and it != "types.csv"
                    },
                    {**wanted, "p/types.csv": b"name,value\n"},
                )

    def test_tables_that_are_none(self) -> None:
        """Refuses a table that is a folder. A missing one is left to the converter."""
        seen: Any
        folder = self.folder
        write(folder / "t", TAXONOMY)
        apart = {"reports/report.json": REPORT["reports/report.json"]}
        write(folder / "nothing", apart)
        pack(folder / "nothing.zip", apart)
        for report in ("nothing", "nothing.zip"):
            seen = start([report, "--taxonomy", "t"], folder)
            said = "xbrl-json: table t, row 0, column 0: NoFile (20)\n"
            self.case(f"a table that is nothing: {report}", (seen[0], seen[2]), (1, said))
            seen = run([report, "--taxonomy", "t", "--prepare", f"o {report}"], folder)
            self.case(
                f"a table that is nothing: {report} prepared",
                (seen, (folder / f"o {report}/t.csv").exists()),
                ((0, ""), False),
            )
        write(folder / "a folder", {**apart, "reports/t.csv/x.csv": "cash\n1\n"})
        pack(folder / "a folder.zip", {**apart, "reports/t.csv/x.csv": "cash\n1\n"})
        write(folder / "an empty one", apart)
        (folder / "an empty one/reports/t.csv").mkdir()
        why = "t/reg/mod.json: 'tables.t.url' is 't.csv', which is a folder"
        for report in ("a folder", "a folder.zip", "an empty one"):
            ways: list[list[str]] = [[], ["--prepare", f"o {report}"], *[["--cache", "c"]] * 2]
            for words in ways:
                seen = run([report, "--taxonomy", "t", *words], folder)
                self.case(f"{report}: {words}", seen, (1, f"xbrl-filing: {why}\n"))
        most = "than a file's path may be (4000 bytes, 255 of a name, 100 folders)"
        for url in ("a" * 300 + ".csv", "a/" * 3000 + "b.csv", "a/" * 101 + "b.csv"):
            write(
                folder,
                {
                    "long/META-INF/catalog.xml": catalog(rewrite()),
                    "long/reg/mod.xsd": schema(ELEMENTS),
                },
            )
            write(
                folder,
                {
                    "long/reg/mod.json": meta(
                        INFO,
                        tableTemplates={"t": TEMPLATE},
                        tables={"t": {"url": url, "optional": True}},
                    )
                },
            )
            for report in ("nothing", "nothing.zip", "nothing/reports/report.json"):
                seen = start([report, "--taxonomy", "long"], folder)
                self.case(
                    f"a table of a name that no file can have: {report}",
                    (seen[0], seen[2]),
                    (1, f"xbrl-filing: long/reg/mod.json: 'tables.t.url' is longer {most}\n"),
                )
        both_tables = {"t": {"url": "t.csv"}, "u": {"url": "t.csv/x.csv", "template": "t"}}
        write(
            folder,
            {"t/reg/mod.json": meta(INFO, tableTemplates={"t": TEMPLATE}, tables=both_tables)},
        )
        for report in ("a folder", "a folder.zip"):
            before = listing(folder / "a folder")
            status, _, err = start([report, "--taxonomy", "t", "--workers", "1"], folder)
            self.case(
                f"a table and the folder that holds it: {report}",
                (status, err, listing(folder / "a folder")),
                (1, f"xbrl-filing: {why}\n", before),
            )
            self.case(
                f"no link in an input: {report}",
                [it for it in (folder / "a folder").rglob("*") if it.is_symlink()],
                [],
            )

    def test_tables_that_are_not_filed(self) -> None:
        """Optional tables without a file are left out, with the templates that only they use.

        A slip in one of these does not stop a filing.
        """
        slips = {
            "concept": {"columns": {"x": {"dimensions": {"concept": "eg:Tuple"}}}},
            "dimension": {
                "columns": {"x": {"dimensions": {"concept": "eg:Cash", "eg:Regoin": "eg:North"}}}
            },
            "column": {"columns": {"x.y": {}}, "rowIdColumn": "none"},
            "parameter": {
                "columns": {"x": {"dimensions": {"concept": "eg:Cash", "unit": "$UNIT"}}}
            },
        }
        tables: dict[str, Any] = {it: {"url": f"sub/{it}.csv", "optional": True} for it in slips}
        tables.update(
            same={"url": "same.csv", "template": "t", "optional": True},
            none={"url": "n.csv", "template": "none", "optional": True},
        )
        tuple_item = '<xs:element name="Tuple" substitutionGroup="xbrli:tuple"/>'

        def module(more: dict[str, Any]) -> str:
            """A module with these tables besides its own."""
            return meta(
                INFO,
                tableTemplates={"t": TEMPLATE, **slips},
                tables={"t": {"url": "t.csv"}, **more},
                parameters={"unit": "eg:e"},
            )

        for form in ("folder", "zip", "file"):
            taxonomy = {
                **TAXONOMY,
                "reg/mod.json": module(tables),
                "reg/mod.xsd": schema(ELEMENTS + tuple_item),
            }
            made = self.see(
                makes(
                    f"tables that are not filed, {form}",
                    {**MERGED, "parameters": {"unit": "eg:e"}},
                    TYPES,
                    taxonomies=[taxonomy],
                    form=form,
                )
            )
            without = {**taxonomy, "reg/mod.json": module({})}
            self.case(
                f"they cost nothing, {form}",
                made,
                self.see(makes(f"the same without them, {form}", taxonomies=[without], form=form)),
            )
        for name, what in (
            ("concept", "names the concept 'eg:Tuple'"),
            ("dimension", "names the dimension 'eg:Regoin'"),
            ("parameter", "nothing refers to"),
        ):
            for form in ("folder", "zip"):
                status, err, _ = self.prepared(
                    report={**REPORT, f"reports/sub/{name}.csv": "x\n"},
                    taxonomies=[taxonomy],
                    form=form,
                )
                self.case(
                    f"the slip of a table that is filed, {name}, {form}",
                    (status, what in err, err.count("\n")),
                    (1, True, 1),
                )
        said: tuple[dict[str, Any], ...] = (
            {},
            {"optional": False},
            {"optional": "true"},
            {"optional": 1},
        )
        for more in said:
            must = {**tables, "concept": {"url": "sub/concept.csv", **more}}
            status, err, _ = self.prepared(taxonomies=[{**taxonomy, "reg/mod.json": module(must)}])
            self.case(
                f"a table that is not optional is not left out, {more}",
                (status, "names the concept 'eg:Tuple'" in err),
                (1, True),
            )
