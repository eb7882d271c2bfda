"""Tests filings that are large, deep or endless: each ends soon, and with little memory."""
from __future__ import annotations

import json
import resource
import zipfile
from collections.abc import Callable, Iterator
from typing import Any
from unittest import mock
from xml.parsers import expat

from filing import markup, refusals, strict_json, urls
from filing.allowance import Allowance
from tests.filing_samples import (
    EG,
    ELEMENTS,
    HOST,
    INFO,
    LEAF,
    MERGED,
    MODULE,
    ONE,
    REPORT,
    TAXONOMY,
    TYPES,
    catalog,
    derived,
    headed,
    include,
    item,
    linkbase,
    loc,
    meta,
    pack,
    records,
    rewrite,
    schema,
)
from tests.filings import (
    Case,
    FilingTest,
    cases,
    makes,
    on_a_terminal,
    reads,
    refuses,
    start,
    stops,
    worked,
)
from tests.harness import for_each, write


def long_chains(length: int) -> Iterator[tuple[str, str, str]]:
    """Makes schemas in which each of many elements or types depends on the next, and the kind of
    all of them.
    """
    dated = 'type="xbrli:dateItemType"'
    yield "H", "".join(
        headed(f"H{it} {f'eg:H{it + 1}' if it < length - 1 else 'xbrli:item'}", more=dated)
        for it in range(length)
    ), "date"
    yield "T", "".join(
        item(f"T{it}", f"eg:t{it}")
        + derived(f"t{it}", f"eg:t{it + 1}" if it < length - 1 else "xbrli:dateItemType")
        for it in range(length)
    ), "date"
    yield "N", "".join(headed(f"N{it} eg:N{it + 1}") for it in range(length - 1)) + item(
        f"N{length - 1}", "xbrli:dateItemType"
    ), "date"


def a_bound_of_each() -> Iterator[Case]:
    """What is just within a bound is read; what is just past it is refused."""

    def nested(levels: int) -> str:
        """Elements inside of each other, with a reference in the innermost."""
        return "<a>" * levels + loc("d/leaf.xsd") + "</a>" * levels

    mod = "t0/reg/mod.xsd: "
    roots: dict[str, Callable[[str], str]] = {"schema": schema, "linkbase": linkbase}
    for name, made in roots.items():
        inner = {**LEAF, "reg/mod.xsd": made(nested(998))}
        yield reads(f"a {name} of a thousand levels", inner, ONE)
        past = {**LEAF, "reg/mod.xsd": made("<a></a>" * 70_000 + nested(999))}
        yield refuses(
            f"a {name} of a level more", past, mod + "is nested more than 1000 levels deep (line 1)"
        )
    deep = "<group>" * 998 + rewrite() + "</group>" * 998
    yield makes(
        "a catalog of a thousand levels",
        MERGED,
        taxonomies=[{**TAXONOMY, "META-INF/catalog.xml": catalog(deep)}],
    )
    line = "t0/META-INF/catalog.xml: is nested more than 1000 levels deep (line 1)"
    yield stops(
        "a catalog of a level more",
        line,
        taxonomies=[{**TAXONOMY, "META-INF/catalog.xml": catalog(f"<group>{deep}</group>")}],
    )


@for_each(cases(a_bound_of_each()))
class TestABoundOfEach(FilingTest):
    """The cases of `a_bound_of_each`."""


def bounds_of_references() -> Iterator[Case]:
    """References: by several URLs, to the standards' files, and by many entries."""
    mod = "t0/reg/mod.xsd: "
    for urls in (8, 9):
        starts = "".join(rewrite(f"http://h{it}/") for it in range(9))
        asked = schema("".join(include(f"http://h{it}/d/leaf.xsd") for it in range(urls)))
        files = {**LEAF, "META-INF/catalog.xml": catalog(rewrite() + starts), "reg/mod.xsd": asked}
        if urls == 8:
            yield reads("a schema by eight URLs", files, ONE)
        else:
            yield refuses(
                "a schema by nine URLs",
                files,
                "t0/reg/d/leaf.xsd: is asked for by more than 8 URLs: http://h8/d/leaf.xsd",
            )

    def missing(many: int) -> dict[str, str]:
        """A schema that includes files of the standards."""
        included = (include(f"http://www.w3.org/{it}.xsd") for it in range(many))
        return {"reg/mod.xsd": schema(ELEMENTS + "".join(included))}

    yield reads("a thousand files of the standards", missing(1000), TYPES)
    what = (
        "asks for more than 1000 files of the standards that no package has (import, line 1:"
        " http://www.w3.org/1000.xsd)"
    )
    yield refuses("a file of the standards more", missing(1001), mod + what)

    def tried(many: int) -> dict[str, Any]:
        """A taxonomy with entries that lead nowhere."""
        entries = f'<uri name="{HOST}mod.json" uri="none"/>' * many
        return {**TAXONOMY, "META-INF/catalog.xml": catalog(entries + rewrite())}

    yield makes("a hundred entries that lead nowhere", MERGED, taxonomies=[tried(99)])
    line = f"t0/META-INF/catalog.xml: has more than 100 entries for {HOST}mod.json"
    yield stops("an entry more", line, taxonomies=[tried(101)])


@for_each(cases(bounds_of_references()))
class TestBoundsOfReferences(FilingTest):
    """The cases of `bounds_of_references`."""


class TestRuns(FilingTest):
    """Tests that take several runs of one folder."""

    def test_a_large_taxonomy(self) -> None:
        """Reads 20,000 concepts through a linkbase, in seconds, and at once from the cache."""
        folder = self.folder
        body = "".join(item(f"C{it:05}", "eg:T", 'id="x" nillable="true"') for it in range(20_000))
        files = {
            **TAXONOMY,
            "reg/mod.xsd": schema(loc("l.xml", "linkbaseRef")),
            "reg/d.xsd": schema(body + derived("T", "xbrli:monetaryItemType")),
        }
        files["reg/l.xml"] = linkbase("".join(loc(f"d.xsd#C{it}") for it in range(20_000)))
        files["reg/mod.json"] = meta(
            {**INFO, "namespaces": {"eg": EG, "iso4217": "http://www.xbrl.org/2003/iso4217"}},
            tableTemplates={
                "t": {
                    "columns": {
                        "cash": {"dimensions": {"concept": "eg:C00007", "unit": "iso4217:EUR"}}
                    }
                }
            },
            tables={"t": {"url": "t.csv"}},
        )
        pack(folder / "t.zip", files)
        write(folder / "r", REPORT)
        for turn, most in (("first", 15), ("second", 5)):
            begun = worked()
            status, out, err = start(["r", "--taxonomy", "t.zip", "--cache", "c"], folder)
            self.case(
                f"20,000 concepts, {turn} run",
                (status, list(json.loads(out)["facts"]), err),
                (0, ["t.r_1.cash"], ""),
            )
            self.case(f"20,000 concepts, {turn} run: time", worked() - begun < most, True)
        status, shown = on_a_terminal(["r", "--taxonomy", "t.zip"], folder, at_once=True)
        self.case(
            "20,000 concepts on a terminal",
            (
                status,
                b"xbrl-filing: reading the taxonomy: 3 files, " in shown,
                shown.endswith(b"\r\x1b[K"),
            ),
            (0, True, True),
        )

    def test_endless_schemas(self) -> None:
        """Tests what would take all memory or time: names, bases and tags that grow, many start
        strings. One line each, and soon.
        """
        deep, long = 100_000, "y" * (17 << 20)
        grows = '<a xml:base="aaaaaaaaa/">' * deep + "</a>" * deep
        tag, comment = f'<xs:element name="A" a="{long}"/>', f"<!--{long}-->"
        far, near = include("http://a.example/" + "y" * 5000), include("y" * 5000 + ".xsd")
        has, edge = "t0/reg/mod.xsd: has ", "http://a.example/" + "y" * (4096 - 17)
        url, shown = (
            has + "a URL of {} characters; more than 4096 are not taken (import, line 1: {}..)",
            ("http://a.example/" + "y" * 100)[:100],
        )
        for name, text, line in (
            (
                "bases that grow",
                schema(grows),
                has + "more than 100 elements with 'xml:base' inside of each other (line 1)",
            ),
            (
                "bases of a linkbase that grow",
                linkbase(grows),
                has + "more than 100 elements with 'xml:base' inside of each other (line 1)",
            ),
            (
                "a long base",
                schema(f'<a xml:base="{"y" * 5000}/"/>'),
                has
                + "an 'xml:base' of 5001 characters; more than 4096 are not taken"
                " (line 1)",
            ),
            (
                "a long tag",
                schema(tag),
                has + "a tag or a comment of more than 1048576 bytes, which is refused (line 1)",
            ),
            (
                "a long comment",
                schema(comment),
                has + "a tag or a comment of more than 1048576 bytes, which is refused (line 1)",
            ),
            ("a long URL", schema(far), url.format(5017, shown)),
            (
                "a URL that is nearly too long",
                schema(include(edge)),
                refusals.printable(f"t0/reg/mod.xsd: no package has {edge} (import, line 1)"),
            ),
            (
                "a long relative URL",
                schema(near),
                url.format(5004, "y" * 100),
            ),
        ):
            begun = worked()
            self.see(refuses(f"a schema with {name}", {"reg/mod.xsd": text}, line))
            self.case(f"a schema with {name}: soon", worked() - begun < 20, True)

    def test_deep_types_and_long_chains(self) -> None:
        """Types that are deep, and long chains of elements and types."""
        deep = 100_000
        self.see(
            reads(
                "a hundred bases",
                {
                    "reg/mod.xsd": schema(
                        '<a xml:base="a/">' * 99 + "</a>" * 99 + ELEMENTS,
                        attributes='xml:base="b/"',
                    )
                },
                TYPES,
            )
        )
        way = (
            "<xs:simpleContent>" * 996
            + "<x>"
            + '<xs:restriction base="xbrli:dateItemType"/>' * deep
            + "</x>"
            + "</xs:simpleContent>" * 996
        )
        begun = worked()
        self.see(
            reads(
                "a type that is very deep",
                {
                    "reg/mod.xsd": schema(
                        f'<xs:complexType name="T">{way}</xs:complexType>' + ELEMENTS
                    )
                },
                TYPES,
            )
        )
        self.case("a type that is very deep: soon", worked() - begun < 20, True)
        for name, body, word in long_chains(20_000):
            begun = worked()
            self.see(
                reads(
                    f"a long chain of {name}",
                    {"reg/mod.xsd": schema(body)},
                    records(*sorted(f"{name}{it},{word}" for it in range(20_000))),
                )
            )
            self.case(f"a long chain of {name}: soon", worked() - begun < 20, True)

    def test_many_prefixes_and_levels(self) -> None:
        """Many prefixes, levels that are all final, and names that are very deep."""
        folder = self.folder
        many = {f"p{it}": f"http://p{it}/" for it in range(30_000)}
        begun = worked()
        twice = {"namespaces": {**many, "q": "http://p7/"}}
        self.see(
            makes(
                "many prefixes",
                parts={"documentInfo/namespaces": twice["namespaces"]},
                report={"reports/report.json": meta(twice)},
                taxonomies=[],
            )
        )
        self.case("many prefixes: soon", worked() - begun < 20, True)
        levels = 1500
        chain = {
            f"reg/n{it}.json": meta(
                {"extends": [HOST + f"n{it + 1}.json"], "final": {"parameters": True}}
            )
            for it in range(levels)
        }
        chain[f"reg/n{levels}.json"] = MODULE
        begun = worked()
        report = {**REPORT, "reports/report.json": meta({"extends": [HOST + "n0.json"]})}
        self.see(
            makes(
                "many levels that are all final",
                MERGED,
                report=report,
                taxonomies=[{**TAXONOMY, **chain}],
            )
        )
        self.case("many levels that are all final: soon", worked() - begun < 20, True)
        pack(
            folder / "deep.zip",
            [*REPORT.items(), *((f"{number}/" + "a/" * 32_000 + "x", "x") for number in range(20))],
        )
        write(folder, {f"t/{it}": text for it, text in TAXONOMY.items()})
        little = lambda: resource.setrlimit(resource.RLIMIT_DATA, (200 << 20, 200 << 20))
        seen = start(
            ["deep.zip", "--taxonomy", "t", "--prepare", "o deep"], folder, preexec_fn=little
        )
        self.case("a ZIP of very deep names, in 200 MB", seen, (0, b"", ""))
        starts = "".join(rewrite(f"{HOST}{number}/", "../reg/") for number in range(19_000))
        many = {f"reg/x{number}.xsd": schema() for number in range(4000)}
        imports = "".join(include(f"x{number}.xsd") for number in range(4000))
        many.update(
            {
                "META-INF/catalog.xml": catalog(starts + rewrite()),
                "reg/mod.xsd": schema(imports + ELEMENTS),
            }
        )
        begun = worked()
        self.see(reads("many start strings and many files", many, TYPES))
        self.case("many start strings and many files: soon", worked() - begun < 20, True)

    def test_counted_values(self) -> None:
        """Values are counted alike in pieces of any size, and bounded over all files."""
        for name, value in (
            ("objects", "{}"),
            ("texts", r'"a,{[\\\""'),
            ("rows", r'[{ }, "\\", {"":1}, [2]]'),
        ):
            text = f"[{','.join([value] * 50)}]"
            wanted = strict_json.measured(json.loads(text))[1]
            for size in (1, 2, 3, 7, len(text)):
                counted = strict_json.Text("x")
                for begin in range(0, len(text), size):
                    counted.add(text[begin : begin + size].encode())
                    while counted.look():
                        pass
                cut = (
                    text.count("{}") + text.count("{ }") if size < len(text) else 0
                )  # one in two pieces counts twice
                self.case(
                    f"values of {name}, in pieces of {size}",
                    wanted - 1 <= counted.values <= wanted - 1 + cut,
                    True,
                )
        kept = strict_json.MOST_VALUES
        try:
            chain = {
                **REPORT,
                "reports/report.json": meta({"extends": [HOST + "mod.json"]}, x=["a,b,c,d"] * 5),
            }
            both = [
                strict_json.measured(json.loads(it))[1]
                for it in (chain["reports/report.json"], MODULE)
            ]
            strict_json.MOST_VALUES = sum(both)
            self.see(makes("as many values as a run may have", MERGED, report=chain))
            strict_json.MOST_VALUES -= 1
            line = (
                f"t0/reg/mod.json: has more than {sum(both) - 1} values, with the JSON read"
                " before it"
            )
            self.see(stops("a value more", line, report=chain))
            strict_json.MOST_VALUES = both[0] - 1
            line = (
                f"r/reports/report.json: has more than {both[0] - 1} values, with the JSON read"
                " before it"
            )
            self.see(stops("a value more in one file", line, report=chain))
        finally:
            strict_json.MOST_VALUES = kept

    def test_too_little_memory_for_xml(self) -> None:
        """A want of memory inside of expat is one of the run, and not a fault of the file."""
        error = expat.ExpatError("out of memory")
        error.code, error.lineno = markup.NO_MEMORY, 1
        parser = mock.Mock(Parse=mock.Mock(side_effect=error))
        content = markup.Content(urls.Place("a.xsd", True), "a.xsd")
        with mock.patch.object(expat, "ParserCreate", lambda *_: parser):
            with self.assertRaises(MemoryError):
                markup.parse([b"<a/>"], content, markup.Elements(), Allowance(None))

    def test_a_long_schema(self) -> None:
        """A schema of 64 MB is read as a stream, out of a ZIP and out of a folder."""
        folder = self.folder
        comment = "<!--" + "x" * (1 << 16) + "-->"
        files = {**TAXONOMY, "reg/mod.xsd": schema(ELEMENTS + comment * 1024)}
        write(folder / "r", REPORT)
        write(folder / "folder", files)
        pack(folder / "stored.zip", files, method=zipfile.ZIP_STORED)
        little = lambda: resource.setrlimit(resource.RLIMIT_DATA, (56 << 20, 56 << 20))
        for taxonomy in ("folder", "stored.zip"):
            status, _, err = start(
                ["r", "--taxonomy", taxonomy, "--prepare", f"o {taxonomy}"],
                folder,
                preexec_fn=little,
            )
            self.case(f"64 MB in 56 MB of memory, {taxonomy}", (status, err), (0, ""))
            self.case(f"64 MB, {taxonomy}", (folder / f"o {taxonomy}/types.csv").read_text(), TYPES)
