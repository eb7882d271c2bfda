"""Tests how the metadata of a report is joined with that of the files which it extends."""
from __future__ import annotations

import json
import shutil
from collections.abc import Iterator
from typing import Any

from tests.filing_samples import (
    CSV,
    EG,
    HOST,
    INFO,
    MERGED,
    REPORT,
    TAXONOMY,
    TEMPLATE,
    TYPES,
    catalog,
    include,
    item,
    meta,
    records,
    rewrite,
    schema,
)
from tests.filings import Case, FilingTest, cases, makes, run, stops
from tests.harness import for_each, write

FIRST, SECOND = "r/reports/report.json", "t0/reg/mod.json"


TWO_TEMPLATES = {"p": {"columns": {"x": {}}}, "q": {"columns": {}}}


def both(
    report: dict[str, Any],
    module: dict[str, Any],
    info: dict[str, Any] | None = None,
    module_info: dict[str, Any] | None = None,
) -> dict[str, Any]:
    """Makes a report and the module that it extends, from these parts."""
    return {
        "report": {
            **REPORT,
            "reports/report.json": meta({"extends": [HOST + "mod.json"], **(info or {})}, **report),
        },
        "taxonomies": [
            {**TAXONOMY, "reg/mod.json": meta({**INFO, **(module_info or {})}, **module)}
        ],
    }


def joining() -> Iterator[Case]:
    """Parts of the metadata that are joined by key, or that have one value."""
    first, second, templates = FIRST, SECOND, TWO_TEMPLATES
    tables = {"a": {"url": "a.csv", "template": "p"}, "b": {"url": "b.csv", "template": "q"}}
    for part, one, two, other in [
        (
            "dimensions",
            {"eg:Branch": "x", "entity": "eg:A"},
            {"entity": "eg:A", "period": "2025"},
            {"entity": "eg:B"},
        ),
        ("parameters", {"a": "1", "b": "2"}, {"b": "2", "c": "3"}, {"b": "x"}),
    ]:
        yield makes(
            f"{part} by key", parts={part: {**one, **two}}, **both({part: one}, {part: two})
        )
        key = sorted(set(one) & set(other))[0]
        yield stops(
            f"{part} with two values",
            f"{second}: '{part}.{key}' has another value than in {first}",
            **both({part: one}, {part: other}),
        )
    yield makes(
        "templates by key",
        parts={"tableTemplates": templates},
        **both(
            {"tableTemplates": {"p": templates["p"]}, "tables": tables},
            {"tableTemplates": templates},
        ),
    )
    line = f"{second}: 'tableTemplates.p' has another value than in {first}"
    yield stops(
        "templates with two values",
        line,
        **both({"tableTemplates": {"p": {"columns": {"y": {}}}}}, {"tableTemplates": templates}),
    )
    yield stops(
        "no completed templates",
        line,
        **both({"tableTemplates": {"p": {}}}, {"tableTemplates": templates}),
    )
    names = {"unit": "a:b", "concept": "eg:Cash"}
    turned = dict(reversed(names.items()))
    in_order: dict[str, Any] = {"columns": {"x": {"dimensions": names}}, "decimals": 0}
    other_order: dict[str, Any] = {"decimals": 0, "columns": {"x": {"dimensions": turned}}}
    yield makes(
        "the order of members does not count",
        parts={"tableTemplates/p": in_order},
        **both(
            {"tableTemplates": {"p": in_order}, "tables": tables},
            {"tableTemplates": {"p": other_order, "q": {"columns": {}}}},
        ),
    )
    for a, b in ((0, 0.0), (1, True), (0, "0"), (0, None), (None, 0)):
        yield stops(
            f"{a!r} is not {b!r}",
            f"{second}: 'decimals' has another value than in {first}",
            **both({"decimals": a}, {"decimals": b}),
        )


@for_each(cases(joining()))
class TestJoining(FilingTest):
    """The cases of `joining`."""


def joining_single_values() -> Iterator[Case]:
    """Parts that have one value, and namespaces."""
    first, second = FIRST, SECOND
    yield makes(
        "decimals that are equal",
        parts={"decimals": -3},
        **both({"decimals": -3}, {"decimals": -3}),
    )
    yield makes(
        "parameterURL of the module",
        parts={"parameterURL": "p.csv"},
        report={**REPORT, "reports/p.csv": "name,value\n"},
        taxonomies=both({}, {"parameterURL": "p.csv"})["taxonomies"],
    )
    yield stops(
        "two parameterURLs",
        f"{second}: 'parameterURL' has another value than in {first}",
        **both({"parameterURL": "a.csv"}, {"parameterURL": "b.csv"}),
    )
    three = both(
        {"parameters": {"a": "1"}}, {"parameters": {"a": "1"}}, None, {"extends": ["low.json"]}
    )
    three["taxonomies"][0]["reg/low.json"] = meta(parameters={"a": "2"})
    yield stops(
        "two values in three files",
        f"t0/reg/low.json: 'parameters.a' has another value than in {first}",
        **three,
    )
    namespaces = {"x": "http://x/"}
    yield makes(
        "namespaces by prefix",
        parts={"documentInfo/namespaces": {"eg": EG, "x": "http://x/"}},
        **both({}, {}, {"namespaces": {**namespaces, "eg": EG}}),
    )
    line = f"{second}: 'documentInfo.namespaces.eg' has another value than in {first}"
    yield stops(
        "a prefix of two namespaces", line, **both({}, {}, {"namespaces": {"eg": "http://x/"}})
    )


@for_each(cases(joining_single_values()))
class TestJoiningSingleValues(FilingTest):
    """The cases of `joining_single_values`."""


def joining_tables() -> Iterator[Case]:
    """Tables are joined member by member: what one file leaves open another may give."""
    first, second, templates = FIRST, SECOND, TWO_TEMPLATES
    open_table = both(
        {"tables": {"t": {"optional": True, "parameters": {"a": "1"}}}},
        {
            "tables": {
                "t": {
                    "url": "t.csv",
                    "template": "p",
                    "x:note": 1,
                    "parameters": {"a": "1", "b": "2"},
                }
            },
            "tableTemplates": templates,
        },
    )
    yield makes(
        "a table that is completed",
        parts={
            "tables": {
                "t": {
                    "url": "t.csv",
                    "template": "p",
                    "optional": True,
                    "parameters": {"a": "1", "b": "2"},
                }
            }
        },
        **open_table,
    ).then("tables that are named are taken along", lambda made: made.get("t.csv"), b"cash\n1\n")

    for member, a, b in (
        ("url", "a.csv", "b.csv"),
        ("template", "p", "q"),
        ("optional", True, False),
    ):
        line = f"{second}: 'tables.t.{member}' has another value than in {first}"
        yield stops(
            f"a table with two of {member}",
            line,
            **both({"tables": {"t": {member: a}}}, {"tables": {"t": {member: b}}}),
        )
    line = f"{second}: 'tables.t.parameters.a' has another value than in {first}"
    yield stops(
        "a table with two parameters",
        line,
        **both(
            {"tables": {"t": {"parameters": {"a": "1"}}}},
            {"tables": {"t": {"parameters": {"a": "2"}}}},
        ),
    )
    yield stops(
        "a table that is none",
        f"{second}: 'tables.t' has another value than in {first}",
        **both({"tables": {"t": {}}}, {"tables": {"t": 1}}),
    )
    line = f"{second}: 'tables.t.parameters.a' has another value than in {first}"
    yield stops(
        "parameters of a table that are none",
        line.replace(".parameters.a", ".parameters"),
        **both({"tables": {"t": {"parameters": 1}}}, {"tables": {"t": {"parameters": {"a": "1"}}}}),
    )


@for_each(cases(joining_tables()))
class TestJoiningTables(FilingTest):
    """The cases of `joining_tables`."""


def leaving_out() -> Iterator[Case]:
    """Tests what is left out, and links, which are refused."""
    first, second = FIRST, SECOND
    unused = both(
        {},
        {
            "tables": {"t": {"url": "t.csv"}},
            "tableTemplates": {
                "t": {**TEMPLATE, "x:y": 1},
                "unused": {"dimensions": {"eg:None": "a"}, "columns": {}},
            },
        },
    )
    yield makes("templates that no table uses are left out", MERGED, **unused)
    extra = {
        "features": {"a": 1},
        "linkTypes": {"a": "b"},
        "linkGroups": {},
        "x:y": {"deep": [1]},
        "links": {},
        "other": 2,
    }
    read: dict[str, Any] = {"rowIdColumn": "row", "decimals": 1, "dimensions": {"entity": "eg:x"}}
    long: dict[str, Any] = {
        **read,
        "x:y": 1,
        "columns": {
            "row": {"eurofiling:doc": "x"},
            "cash": {"x:y": 1, "comment": False, "dimensions": {"concept": "eg:Cash"}},
            "g": {
                "propertyGroups": {"a": {"x:y": 1, "decimals": 1, "dimensions": {}}},
                "eurofiling:doc": "x",
            },
        }
    }
    short: dict[str, Any] = {
        **read,
        "columns": {
            "row": {},
            "cash": {"comment": False, "dimensions": {"concept": "eg:Cash"}},
            "g": {"propertyGroups": {"a": {"decimals": 1, "dimensions": {}}}},
        }
    }
    wanted = {**MERGED, "tableTemplates": {"t": short}}
    yield makes(
        "what the converter does not read is left out",
        wanted,
        **both(
            extra, {**extra, "tableTemplates": {"t": long}, "tables": MERGED["tables"]}, {"x:y": 1}
        ),
    )
    for links in ({"a": {}}, {"a": {"b": {"c": ["d"]}}}):
        yield stops(
            f"links {links}",
            f"{second}: has 'links', which cannot be carried over",
            **both({}, {"links": links}),
        )
        yield stops(
            f"links of the report {links}",
            f"{first}: has 'links', which cannot be carried over",
            **both({"links": links}, {}),
        )


@for_each(cases(leaving_out()))
class TestLeavingOut(FilingTest):
    """The cases of `leaving_out`."""


def entry_points() -> Iterator[Case]:
    """The taxonomy's URLs and their base."""
    base = both(
        {},
        {},
        {"baseURL": "http://filer.example/a/", "taxonomy": ["own.xsd", HOST + "mod.xsd"]},
        {"baseURL": "http://reg.example/d/e/", "taxonomy": ["../../mod.xsd", "x.xsd"]},
    )
    base["taxonomies"][0].update({"reg/d/e/x.xsd": schema(item("X"))})
    base["taxonomies"].append(
        {
            "META-INF/catalog.xml": catalog(rewrite("http://filer.example/", "../f/")),
            "f/a/own.xsd": schema(item("O")),
        }
    )
    bare = both({}, {}, {}, {"baseURL": HOST[:-1], "taxonomy": ["mod.xsd"]})
    yield makes(
        "a baseURL without a path",
        parts={"documentInfo/taxonomy": [HOST + "mod.xsd"]},
        types=TYPES,
        **bare,
    )
    below = both({}, {}, {}, {"baseURL": "d/e/", "taxonomy": ["../../mod.xsd"]})
    yield makes(
        "a baseURL that is relative",
        parts={"documentInfo/taxonomy": [HOST + "mod.xsd"]},
        types=TYPES,
        **below,
    )
    spelt = ["HTTP://REG.example:80/m%6Fd.xsd", HOST + "mod.xsd"]
    for first in (spelt, spelt[::-1]):
        yield makes(
            f"one URL in three spellings, {first[0]} first",
            parts={"documentInfo/taxonomy": first[:1]},
            types=TYPES,
            **both({}, {}, {"taxonomy": first}, {"taxonomy": ["./mod.xsd"]}),
        )
    query = both({}, {}, {}, {"taxonomy": ["q.xsd?v=1"]})
    query["taxonomies"][0].update(
        {
            "reg/q.xsd?v=1": schema(include("#a") + include("?v=2") + item("Q")),
            "reg/q.xsd?v=2": schema(item("R")),
        }
    )
    yield makes(
        "URLs with queries",
        parts={"documentInfo/taxonomy": [HOST + "q.xsd?v=1"]},
        types=records("Q,text", "R,text"),
        **query,
    )
    urls = ["http://filer.example/a/own.xsd", HOST + "mod.xsd", HOST + "d/e/x.xsd"]
    yield makes(
        "baseURL is the base of a file's own taxonomy",
        parts={"documentInfo/baseURL": "http://filer.example/a/", "documentInfo/taxonomy": urls},
        **base,
    ).then(
        "all of them are read",
        lambda made: made["types.csv"].decode(),
        records("Branch,typed", "Cash,decimal", "Note,text", "O,text", "Region,explicit", "X,text"),
    )

    yield makes(
        "only the report's baseURL stands",
        parts={"documentInfo/baseURL": None},
        **both({}, {}, {}, {"baseURL": HOST}),
    )
    yield makes(
        "no taxonomy at all is left to the converter",
        {"documentInfo": {"documentType": CSV}},
        report={"reports/report.json": meta()},
        taxonomies=[],
    )


@for_each(cases(entry_points()))
class TestEntryPoints(FilingTest):
    """The cases of `entry_points`."""


def parts_of_a_wrong_shape() -> Iterator[Case]:
    """Parts of the metadata that have a wrong shape."""
    second = SECOND
    text = meta({"extends": [HOST + "mod.json"]}).encode()
    yield makes(
        "a byte-order mark",
        MERGED,
        report={**REPORT, "reports/report.json": b"\xef\xbb\xbf" + text},
    )
    for name in ("tableTemplates", "tables", "dimensions", "parameters", "links"):
        yield stops(
            f"{name} that is a list", f"{second}: '{name}' is not an object", **both({}, {name: []})
        )
    for name in ("namespaces", "final"):
        yield stops(
            f"{name} that is a text",
            f"{second}: '{name}' is not an object",
            **both({}, {}, {}, {name: "x"}),
        )
    for name, value in (("extends", "x"), ("extends", [1]), ("taxonomy", {}), ("taxonomy", [None])):
        yield stops(
            f"{name} {value}",
            f"{second}: 'documentInfo.{name}' is not a list of texts",
            **both({}, {}, {}, {name: value}),
        )
    yield stops(
        "baseURL that is none",
        f"{second}: 'documentInfo.baseURL' is not a text",
        **both({}, {}, {}, {"baseURL": None}),
    )


@for_each(cases(parts_of_a_wrong_shape()))
class TestPartsOfAWrongShape(FilingTest):
    """The cases of `parts_of_a_wrong_shape`."""


class TestRuns(FilingTest):
    """Tests that take several runs of one folder."""

    def test_shapes_that_are_left(self) -> None:
        """Checks that a wrong shape inside a part is merged unchanged and left to the converter."""
        folder = self.folder

        def column(**more: Any) -> dict[str, Any]:
            """Returns templates with one column."""
            return {"t": {"columns": {"c": more}}}

        wrong_parts: tuple[dict[str, Any], ...] = (
            *(
                {"tableTemplates": {"t": it}}
                for it in (
                    1,
                    [],
                    None,
                    "x",
                    {"columns": []},
                    {"columns": 1},
                    {"columns": {"c": 7}},
                    {"columns": {"c": []}},
                )
            ),
            *(
                {"tableTemplates": column(propertyGroups=it)}
                for it in (1, [], {"g": 1}, {"g": []}, {"g": {"dimensions": 1}})
            ),
            *(
                {"tableTemplates": column(dimensions=it)}
                for it in (
                    1,
                    [],
                    None,
                    "x",
                    {"concept": 5},
                    {"concept": ["eg:Cash"]},
                    {"concept": {}},
                    {"unit": 1},
                )
            ),
            *({"dimensions": {"concept": it}} for it in (5, ["x"], {}, None, True)),
            *(
                {"tables": {"t": it}}
                for it in (
                    1,
                    [],
                    None,
                    {"url": [], "template": "t"},
                    {"url": "t.csv", "template": "t", "parameters": []},
                )
            ),
            *(
                {"tables": {"t": {"url": "t.csv", "template": it}}}
                for it in (1, ["t"], {}, None)
            ),
            {"parameters": {"a": 1, "b": []}},
            {"decimals": {}},
            {"parameterURL": []},
        )
        for number, wrong_part in enumerate(wrong_parts):
            info: dict[str, Any] = {
                "namespaces": {"eg": EG, "m": "http://mem/", "odd": 1, "list": []}
            }
            whole: dict[str, Any] = {"tables": {"t": {"url": "t.csv"}}, **wrong_part}
            for own in (info, {**info, "namespaces": {**info["namespaces"], "n": "http://other/"}}):
                above = {
                    "extends": ["low.json"],
                    "namespaces": (
                        {"other": "http://mem/"} if own is info else {"n": "http://other/"}
                    ),
                }
                files = {"r/a.json": meta(above), "r/low.json": meta(own, **whole)}
                shutil.rmtree(folder / "r", ignore_errors=True)
                write(folder, files)
                seen = run(["r/a.json", "--prepare", f"o{number}{own is info}"], folder)
                made = folder / f"o{number}{own is info}/meta.json"
                value = json.loads(made.read_text()) if made.exists() else {}
                self.case(
                    f"the shape of {wrong_part}",
                    (seen, {it: value.get(it) for it in wrong_part}),
                    ((0, ""), wrong_part),
                )
