"""Tests parts of the metadata that are final, and prefixes that are replaced."""
from __future__ import annotations

import json
from collections.abc import Iterator
from typing import Any

from tests.filing_samples import (
    CSV,
    EG,
    HOST,
    INFO,
    REPORT,
    TAXONOMY,
    TEMPLATE,
    TYPES,
    meta,
    schema,
)
from tests.filings import Case, FilingTest, cases, makes, stops
from tests.harness import for_each

FIRST, SECOND = "r/reports/report.json", "t0/reg/mod.json"


FINAL_VALUES = {
    "tables": (
        {"t": {"url": "t.csv", "template": "t"}},
        {"u": {"url": "u.csv", "template": "t"}},
        "u",
    ),
    "tableTemplates": ({"t": TEMPLATE}, {"u": TEMPLATE}, "u"),
    "dimensions": ({"entity": "eg:A"}, {"period": "2025"}, "period"),
    "parameters": ({"a": "1"}, {"b": "1"}, "b"),
}


def chain(
    part: str, above: Any, below: Any, final: dict[str, Any], info: dict[str, Any] | None = None
) -> dict[str, Any]:
    """A report over a middle file over a module, which declares the part final."""
    files = {
        "reg/middle.json": meta({"extends": ["mod.json"]}),
        "reg/mod.json": meta(
            {**INFO, "final": final, "extends": ["low.json"]},
            **({part: below} if below is not None else {}),
        ),
        "reg/low.json": meta(**({part: above} if part == "low" else {})),
    }
    report = {
        **REPORT,
        "reports/report.json": meta(
            {"extends": [HOST + "middle.json"], **(info or {})},
            **({part: above} if above is not None else {}),
        ),
    }
    return {"report": report, "taxonomies": [{**TAXONOMY, **files}]}


def final_parts() -> Iterator[Case]:
    """Tests `final`: files that extend a file add nothing to what it declares final."""
    top, low = FIRST, SECOND
    for part, (below, other, key) in FINAL_VALUES.items():
        line = f"{top}: adds '{key}' to '{part}', which is final in {low}"
        yield stops(
            f"final {part}, and a key more", line, **chain(part, other, below, {part: True})
        )
        yield makes(
            f"final {part}, and the same key",
            **chain(part, below, below, {part: True}),
            parts={"documentInfo/documentType": CSV},
        )
        yield makes(
            f"{part} that is not final",
            **chain(part, other, below, {part: False}),
            parts={"documentInfo/documentType": CSV},
        )
    for part, value in (("decimals", 3), ("parameterURL", "p.csv")):
        line = (
            f"{top}: adds '{value if part == 'parameterURL' else 'decimals'}' to '{part}', which is"
            f" final in {low}"
        )
        yield stops(
            f"final {part} that is not given", line, **chain(part, value, None, {part: True})
        )
    yield makes(
        "final decimals that are given",
        **chain("decimals", 3, 3, {"decimals": True}),
        parts={"decimals": 3},
    )
    line = f"{top}: adds 'x' to 'namespaces', which is final in {low}"
    yield stops(
        "final namespaces",
        line,
        **chain("x:y", None, None, {"namespaces": True}, {"namespaces": {"x": "http://x/"}}),
    )
    line = f"{top}: adds '{HOST}more.xsd' to 'taxonomy', which is final in {low}"
    yield stops(
        "final taxonomy",
        line,
        **chain("x:y", None, None, {"taxonomy": True}, {"taxonomy": [HOST + "more.xsd"]}),
    )
    yield makes(
        "final taxonomy, and the same",
        **chain("x:y", None, None, {"taxonomy": True}, {"taxonomy": [HOST + "mod.xsd"]}),
        parts={"documentInfo/documentType": CSV},
    )
    spelt = "HTTP://REG.example/mod.xsd"
    yield makes(
        "final taxonomy, and the same in another spelling",
        **chain("x:y", None, None, {"taxonomy": True}, {"taxonomy": [spelt]}),
        parts={"documentInfo/taxonomy": [spelt]},
    )
    for part in ("links", "features", "linkTypes", "linkGroups", "later"):
        yield makes(
            f"final {part} says nothing",
            **chain("x:y", None, None, {part: True}),
            parts={"documentInfo/final": None},
        )


@for_each(cases(final_parts()))
class TestFinalParts(FilingTest):
    """The cases of `final_parts`."""


def final_in_several_files() -> Iterator[Case]:
    """Files below, next to and above one that declares a part final."""
    top, low = FIRST, SECOND
    below = {
        **TAXONOMY,
        "reg/mod.json": meta(
            {**INFO, "final": {"parameters": True}, "extends": ["low.json"]}, parameters={"a": "1"}
        ),
        "reg/low.json": meta(parameters={"b": "2"}),
    }
    yield makes(
        "what a final file itself and those below it have",
        taxonomies=[below],
        report={
            **REPORT,
            "reports/report.json": meta({"extends": [HOST + "mod.json"]}, parameters={"b": "2"}),
        },
        parts={"parameters": {"a": "1", "b": "2"}},
    )
    two_below = {
        **below,
        "reg/mod.json": meta(
            {**INFO, "final": {"parameters": True}, "extends": ["side.json", "low.json"]},
            parameters={"a": "1"},
        ),
    }
    two_below["reg/side.json"] = meta()
    restated = {
        **REPORT,
        "reports/report.json": meta({"extends": [HOST + "mod.json"]}, parameters={"b": "2"}),
    }
    wanted = {"parameters": {"a": "1", "b": "2"}}
    yield makes(
        "what the second file below a final one has",
        taxonomies=[two_below],
        report=restated,
        parts=wanted,
    )
    ways = {
        "reg/one.json": meta({"extends": ["mod.json"]}),
        "reg/two.json": meta({"extends": ["mod.json"]}, parameters={"c": "3"}),
    }
    by_two = {
        **REPORT,
        "reports/report.json": meta({"extends": [HOST + "one.json", HOST + "two.json"]}),
    }
    line = f"t0/reg/two.json: adds 'c' to 'parameters', which is final in {low}"
    yield stops(
        "the second file that extends a final one",
        line,
        taxonomies=[{**below, **ways}],
        report=by_two,
    )
    beside = {
        "reports/report.json": meta({"extends": ["sub/base.json"], "taxonomy": ["own.xsd"]}),
        "reports/own.xsd": schema(),
    }
    beside["reports/sub/base.json"] = meta(
        {"taxonomy": ["../own.xsd"], "final": {"taxonomy": True}}
    )
    yield makes(
        "a final taxonomy by another reference",
        report=beside,
        parts={"documentInfo/taxonomy": ["own.xsd", "../own.xsd"]},
    )
    other = {"namespaces": {"g": EG}, "taxonomy": ["mod.xsd"], "final": {"dimensions": True}}
    final = [{**TAXONOMY, "reg/mod.json": meta(other, dimensions={"g:Region": "g:x"})}]
    for dimension, line in (
        ("Region", ""),
        ("Branch", f"{top}: adds 'eg:Branch' to 'dimensions', which is final in {low}"),
    ):
        restated = {
            "reports/report.json": meta(
                {"extends": [HOST + "mod.json"], "namespaces": {"eg": EG}},
                dimensions={f"eg:{dimension}": "eg:x"},
            )
        }
        name = f"a final dimension by another prefix, {dimension}"
        if line:
            yield stops(name, line, report=restated, taxonomies=final)
        else:
            yield makes(
                name, parts={"documentInfo/documentType": CSV}, report=restated, taxonomies=final
            )
    beside_it = {**below, "reg/side.json": meta(parameters={"c": "3"})}
    yield makes(
        "a file beside it adds what it likes",
        taxonomies=[beside_it],
        report={
            **REPORT,
            "reports/report.json": meta({"extends": [HOST + "mod.json", HOST + "side.json"]}),
        },
        parts={"parameters": {"a": "1", "b": "2", "c": "3"}},
    )
    for truth in ("yes", 1, 0, None):
        yield stops(
            f"final that is no truth, {truth}",
            f"{low}: 'documentInfo.final.tables' is neither true nor false",
            **chain("x:y", None, None, {"tables": truth}),
        )


@for_each(cases(final_in_several_files()))
class TestFinalInSeveralFiles(FilingTest):
    """The cases of `final_in_several_files`."""


def two_prefixes(**parts: Any) -> dict[str, str]:
    """Makes a taxonomy with the prefixes `m` and `g`, for a report with `n` and `eg`."""
    return {
        **TAXONOMY,
        "reg/mod.json": meta(
            {"namespaces": {"m": "http://mem/", "g": EG}, "taxonomy": ["mod.xsd"]}, **parts
        ),
    }


def named_report(**parts: Any) -> dict[str, str]:
    """A report that has the prefixes `n` and `eg`."""
    info = {"extends": [HOST + "mod.json"], "namespaces": {"eg": EG, "n": "http://mem/"}}
    return {**REPORT, "reports/report.json": meta(info, **parts)}


def prefixes() -> Iterator[Case]:
    """Tests two prefixes of one namespace: the first is kept, and the other is replaced wherever it
    is a prefix.
    """
    mem = "http://mem/"
    shown = {
        "dimensions": {
            "concept": "eg:Cash",
            "unit": "(m:a*eg:b)/m:c",
            "entity": "m:a:m:b",
            "eg:Region": "m:x",
            "eg:Branch": "m:x",
            "period": "m:x",
            "language": "m:x",
        },
        "decimals": "$m",
    }
    special = {
        "concept": "$m",
        "unit": "$m",
        "entity": "#none",
        "eg:Region": "$m",
        "eg:Branch": "$$m:x",
    }
    template: dict[str, Any] = {
        "rowIdColumn": "m",
        "dimensions": {"g:Region": "m:x", "g:Branch": "m:x"},
        "columns": {
            "m": {},
            "g": {"propertyGroups": {"m:x": shown, "s": {"dimensions": special}}},
            "f": {**shown, "propertiesFrom": ["g"]},
        },
    }
    module = two_prefixes(
        tableTemplates={"t": template},
        tables={"t": {"url": "t.csv"}},
        dimensions={"g:Region": "m:x", "g:Branch": "m:x"},
    )
    report = named_report(dimensions={"eg:Region": "n:x"})
    replaced = {
        "dimensions": {
            "concept": "eg:Cash",
            "unit": "(n:a*eg:b)/n:c",
            "entity": "n:a:m:b",
            "eg:Region": "n:x",
            "eg:Branch": "m:x",
            "period": "m:x",
            "language": "m:x",
        },
        "decimals": "$m",
    }
    wanted: dict[str, Any] = {
        "rowIdColumn": "m",
        "dimensions": {"eg:Region": "n:x", "eg:Branch": "m:x"},
        "columns": {
            "m": {},
            "g": {"propertyGroups": {"m:x": replaced, "s": {"dimensions": special}}},
            "f": {**replaced, "propertiesFrom": ["g"]},
        },
    }
    parts = {
        "documentInfo/namespaces": {"eg": EG, "n": mem},
        "tableTemplates/t": wanted,
        "dimensions": {"eg:Region": "n:x", "eg:Branch": "m:x"},
    }
    name = "a prefix is replaced in all its places and in no others"
    yield makes(name, None, TYPES, parts, report=report, taxonomies=[module])
    for unit, wanted_unit in (
        ("m:a/m:b", "n:a/n:b"),
        ("m:a*m:b*eg:m", "n:a*n:b*eg:m"),
        ("((m:a))", "((n:a))"),
        ("mm:a", "mm:a"),
        ("eg:m", "eg:m"),
    ):
        one = two_prefixes(dimensions={"unit": unit})
        yield makes(
            f"the unit {unit}",
            parts={"dimensions/unit": wanted_unit},
            report=report,
            taxonomies=[one],
        )


@for_each(cases(prefixes()))
class TestPrefixes(FilingTest):
    """The cases of `prefixes`."""


def keys_that_become_one() -> Iterator[Case]:
    """Keys that are one once a prefix is replaced."""
    report = named_report(dimensions={"eg:Region": "n:x"})
    two_values = two_prefixes(dimensions={"g:Region": "m:y"})
    yield stops(
        "two keys that become one",
        "t0/reg/mod.json: 'dimensions.eg:Region' has another value than in r/reports/report.json",
        report=report,
        taxonomies=[two_values],
    )
    columns = {"f": {"dimensions": {"g:Region": "m:x", "eg:Region": "n:y"}}}
    both_keys = two_prefixes(
        tableTemplates={"t": {"columns": columns}}, tables={"t": {"url": "t.csv"}}
    )
    line = (
        "t0/reg/mod.json: gives 'eg:Region' two values under two prefixes (template 't', column"
        " 'f')"
    )
    yield stops("two keys of a column that become one", line, report=report, taxonomies=[both_keys])
    same = json.loads(both_keys["reg/mod.json"].replace("n:y", "n:x"))
    yield makes(
        "with one value",
        parts={"tableTemplates/t/columns/f/dimensions": {"eg:Region": "n:x"}},
        report=report,
        taxonomies=[{**both_keys, "reg/mod.json": json.dumps(same)}],
    )


@for_each(cases(keys_that_become_one()))
class TestKeysThatBecomeOne(FilingTest):
    """The cases of `keys_that_become_one`."""


def prefixes_of_one_namespace() -> Iterator[Case]:
    """Templates that are one by two prefixes, and prefixes that are left."""
    mem, report = "http://mem/", named_report(dimensions={"eg:Region": "n:x"})
    equal = {
        **TAXONOMY,
        "reg/mod.json": meta(
            {"namespaces": {"g": EG}, "taxonomy": ["mod.xsd"]},
            tableTemplates={"t": {"columns": {"f": {"dimensions": {"concept": "g:Cash"}}}}},
            tables={"t": {"url": "t.csv"}},
        ),
    }
    again = {
        **REPORT,
        "reports/report.json": meta(
            {"extends": [HOST + "mod.json"], "namespaces": {"eg": EG}},
            tableTemplates={"t": {"columns": {"f": {"dimensions": {"concept": "eg:Cash"}}}}},
        ),
    }
    yield makes(
        "a template restated with another prefix is equal",
        parts={"documentInfo/namespaces": {"eg": EG}},
        types=TYPES,
        report=again,
        taxonomies=[equal],
    )
    twice = {
        **TAXONOMY,
        "reg/mod.json": meta(
            {"namespaces": {"a": EG, "b": EG}, "taxonomy": ["mod.xsd"]},
            dimensions={"a:Region": "b:x"},
        ),
    }
    yield makes(
        "two prefixes in one file are left",
        parts={
            "documentInfo/namespaces": {"a": EG, "b": EG, "eg": EG, "n": mem},
            "dimensions": {"a:Region": "b:x", "eg:Region": "n:x"},
        },
        report=report,
        taxonomies=[twice],
    )
    third = {
        **TAXONOMY,
        "reg/mod.json": meta(
            {"namespaces": {"m": mem}, "extends": ["low.json"], "taxonomy": ["mod.xsd"]}
        ),
        "reg/low.json": meta({"namespaces": {"k": mem}}, dimensions={"entity": "k:1"}),
    }
    yield makes(
        "three prefixes in three files",
        parts={"documentInfo/namespaces": {"m": mem}, "dimensions/entity": "m:1"},
        taxonomies=[third],
    )


@for_each(cases(prefixes_of_one_namespace()))
class TestPrefixesOfOneNamespace(FilingTest):
    """The cases of `prefixes_of_one_namespace`."""


def lost_prefixes() -> Iterator[Case]:
    """Parameters whose texts need a prefix that the merged metadata does not have."""
    module = two_prefixes()
    lost = (
        "r/reports/{}: the parameter '{}' has the prefix 'm', whose namespace has the prefix 'n'"
        " here: write 'n' ({})"
    )
    for name, text in (("a", "m:x"), ("b", "eg:y/m:x"), ("c", "(m:x)")):
        inside = named_report(parameters={name: text})
        yield stops(
            f"a parameter {text}",
            lost.format("report.json", name, text),
            report=inside,
            taxonomies=[module],
        )
        table = named_report(tables={"t": {"parameters": {name: text}}})
        yield stops(
            f"a table's parameter {text}",
            lost.format("report.json", name, text),
            report=table,
            taxonomies=[module],
        )
        file = {
            **named_report(parameterURL="p.csv"),
            "reports/p.csv": f'\ufeffname,value\nx,n:x\n{name},"{text}"\n',
        }
        for form in ("folder", "zip"):
            line = lost.format("p.csv, line 3, cell 2", name, text)
            yield stops(
                f"a parameter {text} in a file, {form}",
                line,
                report=file,
                taxonomies=[module],
                form=form,
            )
    file = {
        **named_report(parameterURL="p.csv"),
        "reports/p.csv": f'name,value\nlong,{"x" * 200_000}\nz,m:x\n',
    }
    yield stops(
        "a parameter behind a very long one",
        lost.format("p.csv, line 3, cell 2", "z", "m:x"),
        report=file,
        taxonomies=[module],
    )
    for name, content in (
        ("three cells", b"name,value\nx,m:x,y\n"),
        ("bytes that are not UTF-8", b"name,value\nx,\xff\n"),
    ):
        mixed: dict[str, Any] = {**named_report(parameterURL="p.csv"), "reports/p.csv": content}
        yield makes(
            f"a parameters file with {name} is left",
            parts={"parameterURL": "p.csv"},
            report=mixed,
            taxonomies=[module],
        )
    kept = {"a": "n:x", "b": "am:x", "c": "m"}
    yield makes(
        "parameters without it",
        parts={"parameters": kept},
        report=named_report(parameters=kept),
        taxonomies=[module],
    )


@for_each(cases(lost_prefixes()))
class TestLostPrefixes(FilingTest):
    """The cases of `lost_prefixes`."""
