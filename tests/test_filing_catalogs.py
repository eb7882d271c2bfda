"""Tests which file a URL leads to, by catalogs and by references of the report."""
from __future__ import annotations

import functools
import json
from collections.abc import Iterator, Mapping
from typing import Any

from filing.urls import normal
from tests.filing_samples import (
    EG,
    ELEMENTS,
    Files,
    HOST,
    INFO,
    MERGED,
    MODULE,
    REPORT,
    TAXONOMY,
    TEMPLATE,
    TYPES,
    catalog,
    include,
    item,
    meta,
    records,
    rewrite,
    schema,
)
from tests.filings import Case, FilingTest, at, cases, equal, makes, run, stops
from tests.harness import TOP, for_each, write

OTHER = {
    "other/mod.json": meta(
        {**INFO, "namespaces": {"eg": EG, "two": "http://two.example/"}}, tables=MERGED["tables"]
    ),
    "other/mod.xsd": schema(ELEMENTS),
}


def by(
    name: str, entries: str, taken: str, more: Files | None = None, attributes: str = ""
) -> Case:
    """Returns the case of a catalog with these entries, which leads to the module of a folder."""
    files = {**TAXONOMY, **OTHER, "META-INF/catalog.xml": catalog(entries, attributes)}
    wanted = "http://two.example/" if taken == "other" else None
    case = makes(name, types=TYPES, taxonomies=[{**files, **(more or {})}])
    return case.then(f"{name}: which file", second_prefix, wanted)


def second_prefix(made: Mapping[str, bytes]) -> Any:
    """Returns the namespace that only the second module has, or None."""
    return at(json.loads(made.get("meta.json", "{}")), "documentInfo/namespaces/two")


def catalogs() -> Iterator[Case]:
    """Tests which file a URL leads to."""
    other = OTHER
    yield by("the longest start string", rewrite() + rewrite(HOST + "m", "../other/m"), "other")
    yield by(
        "the longest start string, in the other order",
        rewrite(HOST + "m", "../other/m") + rewrite(),
        "other",
    )
    yield by(
        "a longer start string without the file",
        rewrite() + rewrite(HOST + "mo", "../none/mo"),
        "reg",
    )
    yield by(
        "an exact entry before a start string",
        rewrite() + f'<uri name="{HOST}mod.json" uri="../other/mod.json"/>',
        "other",
    )
    yield by(
        "an exact entry without its file",
        rewrite() + f'<uri name="{HOST}mod.json" uri="../none/mod.json"/>',
        "reg",
    )
    yield by(
        "percent signs in a prefix",
        rewrite(prefix="../o%74%20her/"),
        "other",
        {it.replace("other", "ot her"): text for it, text in other.items()},
    )
    twice = (
        f'<uri name="{HOST}mod.json" uri="../none/mod.json"/><uri name="{HOST}mod.json"'
        ' uri="../other/mod.json"/>'
    )
    yield by("a second exact entry of the same name", rewrite() + twice, "other")
    yield by(
        "a second start string of the same text",
        rewrite(prefix="../none/") + rewrite(prefix="../other/") + rewrite(),
        "other",
    )
    yield by(
        "a start string that is the whole URL",
        rewrite() + rewrite(HOST + "mod.json", "../other/mod.json"),
        "other",
    )
    for kind in ("rewriteURI", "uri"):
        entry = {
            "rewriteURI": rewrite(HOST + "m", "../other/m"),
            "uri": f'<uri name="{HOST}mod.json" uri="../other/mod.json"/>',
        }[kind]
        yield by(
            f"a {kind} of another namespace",
            rewrite() + entry.replace(f"<{kind} ", f'<{kind} xmlns="http://x/" '),
            "reg",
        )
        spaced = (
            entry.replace('="', '=" ')
            .replace('"/>', ' "/>')
            .replace('" ', ' " ')
            .replace('=" ', '="\n ')
        )
        yield by(f"a {kind} with blanks", rewrite() + spaced, "other")
    yield by(
        "a URL that is shorter than a start string",
        rewrite() + rewrite(HOST + "mod.json/and/more", "../other/mod.json"),
        "reg",
    )


@for_each(cases(catalogs()))
class TestCatalogs(FilingTest):
    """The cases of `catalogs`."""


def bases_of_catalogs() -> Iterator[Case]:
    """Bases, entries that are read past, and the order of packages."""
    other = OTHER
    inside = {
        "META-INF/catalog.xml": catalog(rewrite(prefix="reg/")),
        **{f"META-INF/{it}": text for it, text in TAXONOMY.items() if it.startswith("reg/")},
    }
    for form in ("folder", "zip"):
        yield makes(
            f"a package that is all in META-INF, {form}", MERGED, taxonomies=[inside], form=form
        )
    yield by("an entry in a group", f"<group>{rewrite()}</group>", "reg")
    yield by(
        "the base of a group",
        (
            "<group"
            f" xml:base=\"../other/\">{rewrite(prefix='')}</group>{rewrite('http://a/', '../reg/')}"
        ),
        "other",
    )
    yield by(
        "the base of a catalog", rewrite(prefix="./"), "other", attributes='xml:base="../other/"'
    )
    yield by(
        "a base ends with its element", f'<group xml:base="../other/deep/"/>{rewrite()}', "reg"
    )
    yield by(
        "entries that are read past",
        (
            f'<system systemId="{HOST}mod.json" uri="../other/mod.json"/><nextCatalog'
            f' catalog="x"/>{rewrite()}'
        ),
        "reg",
    )
    yield by(
        "a start string that ends within a name",
        rewrite(HOST[:-4], "../re"),
        "reg",
        {"reple/mod.json": MODULE, "reple/mod.xsd": schema(ELEMENTS)},
    )
    yield by(
        "a rewritten URL is not rewritten again",
        rewrite() + rewrite("reg/", "../other/") + rewrite("../reg/", "../other/"),
        "reg",
    )
    yield by(
        "the root as prefix",
        rewrite(HOST, "../"),
        "other",
        {"mod.json": other["other/mod.json"], "mod.xsd": schema(ELEMENTS)},
    )
    yield by(
        "the root without a slash",
        rewrite(HOST[:-1], ".."),
        "other",
        {"mod.json": other["other/mod.json"], "mod.xsd": schema(ELEMENTS)},
    )
    moved = {"META-INF/catalog.xml": catalog(rewrite(prefix="../other/")), **other}
    for number, given, wanted in (
        (1, [TAXONOMY, moved], None),
        (2, [moved, TAXONOMY], "http://two.example/"),
    ):
        yield makes(f"the order of packages, {number}", types=TYPES, taxonomies=given).then(
            f"the first package wins, {number}", lambda made: second_prefix(made), wanted
        )

    yield makes("the report's own catalog first", types=TYPES, report={**REPORT, **moved}).then(
        "the report's own catalog wins", lambda made: second_prefix(made), "http://two.example/"
    )

    dot = {
        **REPORT,
        "reports/report.json": meta(
            {"extends": [HOST + "%2e/mod.json", HOST + "a%2F/../mod.json"]}
        ),
    }
    for form in ("folder", "zip"):
        urls = [HOST + "%2e/mod.xsd"]  # both are one file, which is read by its first URL
        yield makes(
            f"a dot that is decoded, {form}",
            parts={"documentInfo/taxonomy": urls},
            types=TYPES,
            report=dot,
            form=form,
        )


@for_each(cases(bases_of_catalogs()))
class TestBasesOfCatalogs(FilingTest):
    """The cases of `bases_of_catalogs`."""


def normal_forms() -> Iterator[Case]:
    """URLs and start strings that are one by RFC 3986, section 6.2."""
    for url in (
        "HTTP://Reg.EXAMPLE/mod.json",
        "http://reg.example:80/mod.json",
        "http://%72eg.example:/mod.json",
        HOST + "%6dod.js%6Fn",
        HOST + ".%2f../%2e/mod.json",
        HOST + "/mod.json",
    ):
        report = {**REPORT, "reports/report.json": meta({"extends": [url, HOST + "mod.json"]})}
        if "%2f" in url:
            line = f"t0/META-INF/catalog.xml: leads {url} outside of the package"
            yield stops(f"the URL {url}", line, report=report)
        else:
            entries = [url.replace("mod.json", "mod.xsd").replace("%6dod.js%6Fn", "mod.xsd")]
            entries += [HOST + "mod.xsd"] * (
                url == HOST + "/mod.json"
            )  # an empty segment is another URL
            yield makes(
                f"the URL {url}",
                parts={"documentInfo/taxonomy": entries},
                types=TYPES,
                report=report,
            )
    for start in ("HTTP://Reg.Example/", "http://reg.example:80/", "http://reg.example/%6d"):
        prefix = "../reg/m" if start.endswith("d") else "../reg/"
        files = {**TAXONOMY, "META-INF/catalog.xml": catalog(rewrite(start, prefix))}
        yield makes(f"the start string {start}", MERGED, TYPES, taxonomies=[files])
    for text, wanted in (
        ("http://a.example", "http://a.example"),
        ("http://A.example:80", "http://a.example:80"),
        ("https://a.example:443/x", "https://a.example/x"),
        ("https://a.example:80/x", "https://a.example:80/x"),
        ("http://U%41@A.example/%7e%2a%2A%e9", "http://U%41@a.example/~%2A%2A%E9"),
        ("http://a.example/%2E/b/%2e%2e/c", "http://a.example/b/%2E%2E/c"),
        ("http://a.example/a?%7E", "http://a.example/a?%7E"),
        ("http://a.example/x#%41", "http://a.example/x#%41"),
        ("http://a.example:/x", "http://a.example/x"),
        ("http://%41.e%78ample/x", "http://a.example/x"),
        ("http://[::1]/x", "http://[::1]/x"),
        ("urn:A:%41", "urn:A:%41"),
    ):
        yield equal(f"the normal form of {text}", functools.partial(normal, text), wanted)
    percent = meta({"extends": [HOST + "a%20%C3%A9.json#x"]})
    yield makes(
        "percent signs",
        MERGED,
        report={**REPORT, "reports/report.json": percent},
        taxonomies=[{**TAXONOMY, "reg/a é.json": MODULE}],
    )


@for_each(cases(normal_forms()))
class TestNormalForms(FilingTest):
    """The cases of `normal_forms`."""


def catalogs_refused() -> Iterator[Case]:
    """Catalogs and URLs that lead outside."""
    outside = (
        "t0/META-INF/catalog.xml: has an entry that leads outside of the package: '{}' (line 1)"
    )
    for prefix in (
        "../../",
        "/etc/",
        "file:///etc/",
        "..%2F..%2F",
        "%2e%2e/%2e%2e/",
        "a/../../../b/",
        "//host/",
    ):
        yield stops(
            f"a prefix {prefix}",
            outside.format(prefix),
            taxonomies=[
                {
                    **TAXONOMY,
                    "META-INF/catalog.xml": catalog(rewrite() + rewrite("http://b/", prefix)),
                }
            ],
        )
    up = {**REPORT, "reports/report.json": meta({"extends": [HOST + "%2e%2e/%2E%2E/mod.json"]})}
    yield stops(
        "a URL that leads outside",
        f"t0/META-INF/catalog.xml: leads {HOST}%2e%2e/%2E%2E/mod.json outside of the package",
        report=up,
    )
    dots = {**REPORT, "reports/report.json": meta({"extends": [HOST + "a/../../../mod.json"]})}
    yield makes("dots that are written are resolved", MERGED, report=dots)
    for form in ("folder", "zip"):
        line = f"r/reports/report.json: no package has {HOST}a%00.json (extends)"
        yield stops(
            f"a URL with a zero byte, {form}",
            line,
            report={**REPORT, "reports/report.json": meta({"extends": [HOST + "a%00.json"]})},
            form=form,
        )
    for form, beside in (
        ("folder", "r/reports"),
        ("zip", "r/reports"),
        ("top", "r/top/reports"),
        ("file", "r/reports"),
    ):
        for name, shown in (("a%00.json", "a\\x00.json"), ("sub", "sub")):
            own = {**REPORT, "reports/report.json": meta({"extends": [name]}), "reports/sub/x": ""}
            yield stops(
                f"a file beside, {name}, {form}",
                f"{beside}/report.json: there is no {beside}/{shown} (extends)",
                report=own,
                form=form,
            )
    to_folder = {**REPORT, "reports/report.json": meta({"extends": [HOST + "sub"]})}
    for form in ("folder", "zip"):
        line = f"r/reports/report.json: no package has {HOST}sub (extends)"
        yield stops(
            f"a URL of a folder, {form}",
            line,
            report=to_folder,
            taxonomies=[{**TAXONOMY, "reg/sub/mod.json": MODULE}],
            form=form,
        )


@for_each(cases(catalogs_refused()))
class TestCatalogsRefused(FilingTest):
    """The cases of `catalogs_refused`."""


def urls_that_no_package_has() -> Iterator[Case]:
    """URLs that no package has, and what the line then names."""
    line = (
        f"r/reports/report.json: no package has {HOST}mod.json (extends; t0 has no"
        " META-INF/catalog.xml)"
    )
    yield stops("a package without a catalog", line, taxonomies=[{"reg/mod.json": MODULE}])
    many = {"a.zip": "", "B.ZIP": "", "c/META-INF/catalog.xml": "", "d/x": "", "e.txt": ""}
    line = (
        f"r/reports/report.json: no package has {HOST}mod.json (extends; t0 has no"
        " META-INF/catalog.xml, but packages, which --taxonomy takes one by one:"
    )
    for form in ("folder", "zip"):
        yield stops(
            f"a collection of packages, {form}",
            f"{line} B.ZIP, a.zip, c)",
            taxonomies=[many],
            form=form,
        )
    line = f"r/reports/report.json: no package has {HOST}mod.json (extends; there is no --taxonomy)"
    yield stops("no package at all", line, taxonomies=[])
    yield stops(
        "no package but the report's own",
        line,
        report={**REPORT, "META-INF/catalog.xml": catalog("")},
        taxonomies=[],
    )
    for url, entries in (
        (HOST + "Mod.JSON", rewrite()),
        (HOST + "REG/mod.json", rewrite(HOST + "reg/")),
        (HOST + "X", f'<uri name="{HOST}x" uri="../reg/mod.json"/>'),
    ):
        for form in ("folder", "zip"):
            line = (
                f"r/reports/report.json: no package has {url} (extends; t0/reg/mod.json differs in"
                " capitals alone)"
            )
            capitals = {**REPORT, "reports/report.json": meta({"extends": [url]})}
            files = [{**TAXONOMY, "META-INF/catalog.xml": catalog(entries)}]
            yield stops(
                f"{url} for other capitals, {form}",
                line,
                report=capitals,
                taxonomies=files,
                form=form,
            )
    secure = HOST.replace("http:", "https:") + "mod.json"
    line = f"r/reports/report.json: no package has {secure} (extends; one has {HOST}mod.json)"
    yield stops(
        "https for http",
        line,
        report={**REPORT, "reports/report.json": meta({"extends": [secure]})},
    )
    moved = {**TAXONOMY, "META-INF/catalog.xml": catalog(rewrite(HOST.replace("http:", "https:")))}
    line = f"r/reports/report.json: no package has {HOST}mod.json (extends; one has {secure})"
    yield stops("http for https", line, taxonomies=[moved])
    yield stops(
        "a start string that differs",
        f"r/reports/report.json: no package has {HOST}mod.json (extends)",
        taxonomies=[
            {**TAXONOMY, "META-INF/catalog.xml": catalog(rewrite("http://reg.example:81/"))}
        ],
    )


@for_each(cases(urls_that_no_package_has()))
class TestUrlsThatNoPackageHas(FilingTest):
    """The cases of `urls_that_no_package_has`."""


def broken_catalogs() -> Iterator[Case]:
    """Catalogs that are not well-formed, or have a document type."""
    bad = {**TAXONOMY, "META-INF/catalog.xml": "<catalog>"}
    yield stops(
        "a broken catalog",
        "t0/META-INF/catalog.xml: is not well-formed XML: no element found (line 1)",
        taxonomies=[bad],
    )
    doctype = {**TAXONOMY, "META-INF/catalog.xml": "<!DOCTYPE catalog><catalog/>"}
    yield stops(
        "a catalog with a document type",
        "t0/META-INF/catalog.xml: has a document type, which is refused (line 1)",
        taxonomies=[doctype],
    )


@for_each(cases(broken_catalogs()))
class TestBrokenCatalogs(FilingTest):
    """The cases of `broken_catalogs`."""


def places() -> Iterator[Case]:
    """Tests references: relative to the published URL, and those of the report next to it."""
    split = [
        {
            "META-INF/catalog.xml": catalog(rewrite(HOST + "f/", "../f/")),
            "f/m/mod.json": meta(
                {**INFO, "taxonomy": ["../../d/mod.xsd"], "extends": ["../../d/base.json"]}
            ),
        },
        {
            "META-INF/catalog.xml": catalog(rewrite(HOST + "d/", "../x/y/")),
            "x/y/mod.xsd": schema(ELEMENTS),
            "x/y/base.json": meta(tableTemplates={"t": TEMPLATE}, tables={"t": {"url": "t.csv"}}),
        },
    ]
    report = {**REPORT, "reports/report.json": meta({"extends": [HOST + "f/m/mod.json"]})}
    wanted = {
        **MERGED,
        "documentInfo": {**MERGED["documentInfo"], "taxonomy": [HOST + "d/mod.xsd"]},
    }
    yield makes(
        "relative references lead into another package",
        wanted,
        TYPES,
        report=report,
        taxonomies=split,
    )
    same = meta({"extends": [HOST + "mod.json", HOST + "x/../mod.json", HOST + "./mod.json#b"]})
    yield makes(
        "one file by three references", MERGED, report={**REPORT, "reports/report.json": same}
    )
    for form in ("folder", "zip", "file"):
        own = {
            **REPORT,
            "reports/report.json": meta(
                {"extends": ["sub/own%20base.json", "./x/../sub/own base.json#b"]}
            ),
            "reports/sub/own base.json": meta(
                {"extends": [HOST + "mod.json", "../../side/a%2520b.json"]}
            ),
        }
        yield makes(
            f"the report's own files, {form}",
            parts={"decimals": 3},
            types=TYPES,
            report={**own, "side/a%20b.json": meta(decimals=3)},
            form=form,
        )


@for_each(cases(places()))
class TestPlaces(FilingTest):
    """The cases of `places`."""


def places_that_are_refused() -> Iterator[Case]:
    """References that lead outside, or to nothing."""
    up = {**REPORT, "reports/report.json": meta({"extends": ["../../x.json"]})}
    for form in ("folder", "zip"):
        yield stops(
            f"a reference out of the report, {form}",
            "r/reports/report.json: '../x.json' leads outside of r (extends)",
            report=up,
            form=form,
        )
    for reference, shown in (
        ("/etc/x.json", "/etc/x.json"),
        ("%2e%2e/%2e%2e/x.json", "reports/%2e%2e/%2e%2e/x.json"),
    ):
        line = f"r/reports/report.json: '{shown}' leads outside of r (extends)"
        yield stops(
            f"a reference {reference}",
            line,
            report={**REPORT, "reports/report.json": meta({"extends": [reference]})},
        )
    yield stops(
        "a file beside that is not there",
        "r/reports/report.json: there is no r/reports/x.json (extends)",
        report={**REPORT, "reports/report.json": meta({"extends": ["x.json"]})},
    )
    for url in (
        "file:///etc/passwd",
        "ftp://reg.example/mod.json",
        "urn:x:y",
        "//reg.example/mod.json",
    ):
        line = f"r/reports/report.json: no package has {url} (extends)"
        yield stops(
            f"a URL of another kind {url}",
            line,
            report={**REPORT, "reports/report.json": meta({"extends": [url]})},
        )
    mapped = {
        **TAXONOMY,
        "META-INF/catalog.xml": catalog(
            rewrite() + rewrite("file:///") + rewrite("//reg.example/")
        ),
    }
    for url in ("file:///mod.json", "//reg.example/mod.json"):
        line = f"r/reports/report.json: no package has {url} (extends)"
        yield stops(
            f"{url}, though a catalog has it",
            line,
            report={**REPORT, "reports/report.json": meta({"extends": [url]})},
            taxonomies=[mapped],
        )


@for_each(cases(places_that_are_refused()))
class TestPlacesThatAreRefused(FilingTest):
    """The cases of `places_that_are_refused`."""


def schemas_of_the_report() -> Iterator[Case]:
    """Schemas in the package of the report."""
    own = {
        **REPORT,
        "reports/report.json": meta(
            {
                "extends": [HOST + "mod.json"],
                "taxonomy": ["own/own.xsd"],
                "namespaces": {"o": "http://own/"},
            }
        ),
    }
    own["reports/own/own.xsd"] = schema(include("more.xsd") + item("A"), "http://own/")
    own["reports/own/more.xsd"] = schema(
        include(HOST + "mod.xsd") + item("B", "xbrli:dateItemType"), "http://own/"
    )
    yield makes(
        "schemas of the report",
        types=records("A,text", "B,date", namespace="http://own/") + TYPES[len(records()) :],
        report=own,
    ).then(
        "their URLs stand as written",
        lambda made: json.loads(made["meta.json"])["documentInfo"]["taxonomy"],
        ["own/own.xsd", HOST + "mod.xsd"],
    )


@for_each(cases(schemas_of_the_report()))
class TestSchemasOfTheReport(FilingTest):
    """The cases of `schemas_of_the_report`."""


class TestRuns(FilingTest):
    """Tests that take several runs of one folder."""

    def test_nothing_is_fetched(self) -> None:
        """No module of the program can fetch anything."""
        fetching = [
            it.name
            for it in (TOP / "filing").glob("*.py")
            if any(word in it.read_text() for word in ("socket", "urllib.request", "http.client"))
        ]
        self.case("no module can fetch anything", fetching, [])

    def test_places_of_a_metadata_file(self) -> None:
        """A metadata file without a package reaches what is above it by relative paths."""
        folder = self.folder
        write(
            folder / "alone",
            {"a/b/m.json": meta({"extends": ["../up.json"]}), "a/up.json": meta(decimals=1)},
        )
        self.case(
            "a metadata file reaches what lies above it",
            run(["a/b/m.json", "--prepare", "o"], folder / "alone"),
            (0, ""),
        )
        self.case(
            "and that is joined",
            json.loads((folder / "alone/o/meta.json").read_text())["decimals"],
            1,
        )
        write(folder / "alone", {"root.json": meta({"extends": [f"{folder}/alone/a/up.json"]})})
        line = (
            f"xbrl-filing: root.json: '{folder}/alone/a/up.json' leads outside of root.json"
            " (extends)\n"
        )
        self.case(
            "and none by its path from the root",
            run(["root.json", "--prepare", "never"], folder / "alone"),
            (1, line),
        )
