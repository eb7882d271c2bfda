"""Tests parameters: in other letters, without a value, and the list of --parameters."""
from __future__ import annotations

import csv
import io
import json
import shutil
import subprocess
from collections.abc import Iterator
from typing import Any

from tests.filing_samples import (
    INFO,
    MODULE,
    REPORT,
    TABLES,
    TAXONOMY,
    TEMPLATE,
    filed_with,
    meta,
    pack,
)
from tests.filings import Case, FILING, FilingTest, cases, listing, makes, start, stops
from tests.harness import PATIENCE, for_each, write

LEVEL = {"columns": {"cash": {"dimensions": {"concept": "eg:Cash"}}, "Region": {}}}


def filed(name: str, value: str = "1", **parts: Any) -> dict[str, Any]:
    """Returns a filing whose parameters file has this parameter, and a module with these parts."""
    whole = {
        "tableTemplates": {"t": LEVEL},
        "tables": {"t": {"url": "t.csv"}},
        "parameterURL": "p.csv",
        **parts,
    }
    report = {**REPORT, "reports/p.csv": f"name,value\nother,1\n{name},{value}\n"}
    return {"report": report, "taxonomies": [{**TAXONOMY, "reg/mod.json": meta(INFO, **whole)}]}


def other_letters(given: str, wanted: str, file: str = "r/reports/p.csv, line 3, cell 1") -> str:
    """Returns the line that refuses a parameter because another one is wanted."""
    end = "which is no parameter and no column of it (names are compared exactly)"
    return (
        f"{file}: nothing refers to the parameter '{given}', and the template 't' refers to"
        f" '${wanted}', {end}"
    )


def at_column(**column: Any) -> dict[str, Any]:
    """Returns the part of a module that adds to a column."""
    return {
        "tableTemplates": {
            "t": {"columns": {"cash": {"dimensions": {"concept": "eg:Cash"}, **column}}}
        }
    }


def in_group(**group: Any) -> dict[str, Any]:
    """Returns the part of a module that has a property group."""
    cash = {"dimensions": {"concept": "eg:Cash"}, "propertiesFrom": ["k"]}
    return {
        "tableTemplates": {"t": {"columns": {"k": {"propertyGroups": {"g": group}}, "cash": cash}}}
    }


def parameters_in_other_letters() -> Iterator[Case]:
    """Checks that an unused parameter is refused if a missing one differs from it only in capitals.

    Nothing else that is missing is refused.
    """
    for form in ("folder", "zip"):
        for side in ("", "@start", "@end"):
            parts: dict[str, Any] = {"dimensions": {"period": f"$refPeriod{side}"}}
            yield stops(
                f"a period by another name {side}, {form}",
                other_letters("refperiod", "refPeriod"),
                form=form,
                **filed("refperiod", **parts),
            )
            yield makes(
                f"a period by its name {side}, {form}",
                parts=parts,
                form=form,
                **filed("refPeriod", **parts),
            )
    levels: dict[str, dict[str, Any]] = {
        "the report's decimals": {"decimals": "$places"},
        "a template's dimensions": {
            "tableTemplates": {"t": {**LEVEL, "dimensions": {"unit": "$places"}}}
        },
        "a column's decimals": at_column(decimals="$places"),
        "a group's decimals": in_group(decimals="$places"),
        "a group's dimensions": in_group(dimensions={"eg:Region": "$places"}),
    }
    for name, parts in levels.items():
        yield stops(
            f"{name} by another name", other_letters("Places", "places"), **filed("Places", **parts)
        )
        yield makes(f"{name} by its name", parts=parts, **filed("places", **parts))
        yield makes(f"{name}, and no such parameter", parts=parts, **filed("place", **parts))
    unit: dict[str, Any] = {"dimensions": {"unit": "$unit"}}
    own = filed("a", **unit, parameters={"Unit": "x"})
    yield stops(
        "a parameter of the metadata", other_letters("Unit", "unit", "t0/reg/mod.json"), **own
    )
    own = filed("a", **unit, tables={"t": {"url": "t.csv", "parameters": {"UNIT": "x"}}})
    yield stops("a parameter of a table", other_letters("UNIT", "unit", "t0/reg/mod.json"), **own)


@for_each(cases(parameters_in_other_letters()))
class TestParametersInOtherLetters(FilingTest):
    """The cases of `parameters_in_other_letters`."""


def what_is_no_parameter_in_other_letters() -> Iterator[Case]:
    """What only seems to be a parameter in other letters."""
    unit: dict[str, Any] = {"dimensions": {"unit": "$unit"}}
    no_parameters: list[tuple[str, str, dict[str, Any]]] = [
        ("both names are there", "Unit", {**unit, "parameters": {"unit": "x"}}),
        ("the other one is used too", "Unit", {**unit, "decimals": "$Unit"}),
        ("a column has the name", "region", {"dimensions": {"eg:Region": "$Region"}}),
        ("the number of a row", "rownumber", {"dimensions": {"eg:Branch": "$rowNumber"}}),
        ("a text with two marks", "$unit", {"dimensions": {"eg:Branch": "$$Unit"}}),
        ("a side of what is no period", "unit", {"dimensions": {"eg:Branch": "$Unit@end"}}),
        (
            "a template that no table uses",
            "Unit",
            {"tableTemplates": {"t": LEVEL, "u": {**LEVEL, **unit}}},
        ),
        ("the header is no parameter", "a", {"dimensions": {"unit": "$Name"}}),
        ("no parameters", "a", {**unit, "parameterURL": "q.csv"}),
    ]
    for name, given, parts in no_parameters:
        inputs = filed(given, **parts)
        if "parameterURL" in parts:
            inputs["report"].pop("reports/p.csv")
            inputs["report"]["reports/q.csv"] = "name,value\n"
        yield makes(f"no parameter in other letters: {name}", parts={"tables": TABLES}, **inputs)
    broken = filed("Unit", **unit)
    broken["report"]["reports/p.csv"] = b"name,value\n\n\xff\xfe,\nUnit\nunit,1,2\n" + b'"'
    yield makes("a parameters file that is the converter's fault", parts=unit, **broken)


@for_each(cases(what_is_no_parameter_in_other_letters()))
class TestWhatIsNoParameterInOtherLetters(FilingTest):
    """The cases of `what_is_no_parameter_in_other_letters`."""


def parameters_of_each_fact() -> Iterator[Case]:
    """Checks that a parameter for the entity or the period of the report's own level is refused if
    nothing gives it.
    """
    header, both_given = "name,value\n", "name,value\nentityID,lei:x\nrefPeriod,2025Q3\n"

    def told(key: str, name: str, file: str = "r/reports/p.csv", table: str = "t") -> str:
        """The line of a parameter without a value."""
        asker = f"'dimensions.{key}' of t0/reg/mod.json"
        return (
            f"{file}: has no value for the parameter '{name}', to which {asker} refers: facts of"
            f" the table '{table}' would have no {key}"
        )

    for form in ("folder", "zip", "file"):
        for period in ("$refPeriod", "$refPeriod@start", "$refPeriod@end"):
            of_all: dict[str, Any] = {
                "dimensions": {"entity": "$entityID", "period": period, "unit": "$unit"},
                "decimals": "$places",
            }
            yield makes(
                f"entity and period are given {period}, {form}",
                parts=of_all,
                form=form,
                **filed_with(both_given, **of_all),
            )
            for key, name, other in (
                ("entity", "entityID", "entityId2"),
                ("period", "refPeriod", "refPeriot"),
            ):
                less = "".join(it for it in both_given.splitlines(True) if not it.startswith(name))
                line = told(key, name)
                yield stops(
                    f"no parameter for {key} {period}, {form}",
                    line,
                    form=form,
                    **filed_with(less, **of_all),
                )
                yield stops(
                    f"another name for {key} {period}, {form}",
                    line,
                    form=form,
                    **filed_with(both_given.replace(name, other), **of_all),
                )
                yield stops(
                    f"an empty parameter for {key} {period}, {form}",
                    told(key, name, "r/reports/p.csv, line 3, cell 2"),
                    form=form,
                    **filed_with(f"{less}{name},\n", **of_all),
                )
                yield makes(
                    f"a parameter for {key} that says none {period}, {form}",
                    parts=of_all,
                    form=form,
                    **filed_with(f"{less}{name},#none\n", **of_all),
                )
        own: dict[str, Any] = {"parameters": {"refPeriod": "2025"}}
        for where, more in (
            ("the metadata", own),
            ("the table", {"tables": {"t": {"url": "t.csv", **own}}}),
        ):
            yield makes(
                f"{where} gives the period, {form}",
                parts=more,
                form=form,
                **filed_with(header, dimensions={"period": "$refPeriod"}, **more),
            )
    by_period: dict[str, Any] = {"dimensions": {"period": "$refPeriod"}}
    yield stops(
        "an empty parameters file", told("period", "refPeriod"), **filed_with(header, **by_period)
    )
    yield stops(
        "a parameter of the metadata that is empty",
        told("period", "refPeriod"),
        **filed_with(header, parameters={"refPeriod": ""}, **by_period),
    )
    module = [
        {
            **TAXONOMY,
            "reg/mod.json": MODULE.replace(
                '"tables"', '"dimensions": {"entity": "$entityID"}, "tables"'
            ),
        }
    ]
    yield stops(
        "no parameters file", told("entity", "entityID", "r/reports/report.json"), taxonomies=module
    )
    two: dict[str, dict[str, Any]] = {
        "t": {"url": "t.csv", "parameters": {"refPeriod": "2025"}},
        "u": {"url": "u.csv", "template": "t"},
    }
    there = {**REPORT, "reports/u.csv": "cash\n1\n"}
    yield stops(
        "the parameter of another table",
        told("period", "refPeriod", table="u"),
        **filed_with(header, there, tables=two, **by_period),
    )
    two["u"]["optional"] = True
    yield makes(
        "a table that is not filed",
        parts={"tables": {"t": two["t"]}},
        **filed_with(header, tables=two, **by_period),
    )


@for_each(cases(parameters_of_each_fact()))
class TestParametersOfEachFact(FilingTest):
    """The cases of `parameters_of_each_fact`."""


def facts_that_do_without_a_parameter() -> Iterator[Case]:
    """Checks that the report's own entity or period matters only if a fact has none of its own."""
    cash, own = {"concept": "eg:Cash"}, {"concept": "eg:Cash", "period": "2025"}
    said = (
        "to which 'dimensions.period' of t0/reg/mod.json refers: facts of the table 't' would have"
        " no period"
    )
    line = f"r/reports/p.csv: has no value for the parameter 'refPeriod', {said}"
    given, left = {"dimensions": {"period": "2025"}}, {"dimensions": {"unit": "eg:a"}}
    bare: dict[str, Any] = {}

    def grouped(*groups: Any, **column: Any) -> dict[str, Any]:
        """A template whose column of facts takes these property groups."""
        return {
            "columns": {
                "k": {"propertyGroups": dict(zip("abc", groups))},
                "cash": {"dimensions": cash, "propertiesFrom": ["k"], **column},
            }
        }

    for name, template, refused in (
        ("the template has it", {**TEMPLATE, **given}, False),
        ("the template has another", {**TEMPLATE, **left}, True),
        ("the column has it", {"columns": {"cash": {"dimensions": own}}}, False),
        (
            "one of two columns has it",
            {"columns": {"cash": {"dimensions": own}, "b": {"dimensions": cash}}},
            True,
        ),
        (
            "columns without facts",
            {"columns": {"cash": {"dimensions": own}, "b": {}, "c": {"comment": True}}},
            False,
        ),
        ("no column with facts", {"columns": {"cash": {}}}, False),
        (
            "a column of the name",
            {"columns": {"cash": {"dimensions": cash}, "refPeriod": {}}},
            False,
        ),
        ("each group has it", grouped(given, given), False),
        ("one of two groups has it", grouped(given, left), True),
        ("no group has it", grouped(left, bare), True),
        ("no groups", grouped(), True),
        ("groups that nothing takes", grouped(given, propertiesFrom=[]), True),
        ("groups beside a column's own", grouped(bare, dimensions=own), False),
        ("a template that is not there", None, False),
    ):
        parts: dict[str, Any] = {
            "tableTemplates": {"t": template} if template else {"u": TEMPLATE},
            "dimensions": {"period": "$refPeriod"},
        }
        if refused:
            yield stops(name, line, **filed_with("name,value\n", **parts))
        else:
            yield makes(
                name,
                parts={"dimensions": parts["dimensions"]},
                **filed_with("name,value\n", **parts),
            )


@for_each(cases(facts_that_do_without_a_parameter()))
class TestFactsThatDoWithoutAParameter(FilingTest):
    """The cases of `facts_that_do_without_a_parameter`."""


def parameters_that_are_no_loss() -> Iterator[Case]:
    """Tests texts that refer to no parameter, references that do not concern all facts, and faults
    of the converter.
    """
    cash = {"concept": "eg:Cash"}
    for text in ("2025", "$$refPeriod", "$rowNumber", "#none", 7, None):
        yield makes(
            f"a period that is {text}",
            parts={"dimensions": {"period": text}},
            **filed_with("name,value\n", dimensions={"period": text}),
        )
    other = {"unit": "$unit", "eg:Region": "$region", "concept": "$what", "language": "$language"}
    yield makes(
        "references of other dimensions",
        parts={"dimensions": other},
        **filed_with("name,value\n", dimensions=other, decimals="$places"),
    )
    template = {
        "columns": {"cash": {"dimensions": {**cash, "entity": "$entityID"}}},
        "dimensions": {"period": "$refPeriod"},
    }
    yield makes(
        "references that are not the report's",
        parts={"parameterURL": "p.csv"},
        **filed_with("name,value\n", tableTemplates={"t": template}),
    )
    for table in (
        {"url": ["t.csv"]},
        7,
        {"url": "t.csv", "template": ["t"]},
        {"url": "none.csv", "optional": True},
    ):
        made = filed_with("name,value\n", tables={"t": table}, dimensions={"period": "$refPeriod"})
        if "t.csv" not in json.dumps(table):
            made["report"].pop("reports/t.csv")
        yield makes(
            f"a table without facts: {table}",
            parts={
                "tables/t": None if isinstance(table, dict) and table.get("optional") else table
            },
            **made,
        )
    for text in (
        "",
        "name;value\n",
        "Name,value\n",
        "refPeriod,2025\n",
        "name,value\nrefPeriod;2025\n",
        "name,value\na,b,c\n",
        'name,value\n"xxx',
    ):
        faulty = filed_with(text, dimensions={"period": "$refPeriod"})
        yield makes(
            f"a parameters file that is the converter's fault: {text}",
            parts={"parameterURL": "p.csv"},
            **faulty,
        )
    marked = b"\xef\xbb\xbfname,value\r\n\r\nrefPeriod,2025\r\n"
    yield makes(
        "a byte-order mark and lines without a character",
        parts={"parameterURL": "p.csv"},
        **filed_with(marked, dimensions={"period": "$refPeriod"}),
    )


@for_each(cases(parameters_that_are_no_loss()))
class TestParametersThatAreNoLoss(FilingTest):
    """The cases of `parameters_that_are_no_loss`."""


class TestRuns(FilingTest):
    """Tests that take several runs of one folder."""

    def listed(self, inputs: dict[str, Any], form: str) -> tuple[int, list[list[str]], str]:
        """Runs --parameters over a filing, and returns status, the records after the header, and
        standard error.
        """
        folder = self.folder
        shutil.rmtree(folder / "w", ignore_errors=True)
        for label, files in zip(("r", "t0"), (inputs["report"], *inputs["taxonomies"])):
            if form == "folder":
                write(folder / "w" / label, files)
            else:
                (folder / "w").mkdir(exist_ok=True)
                pack(folder / "w" / label, files)
        before = listing(folder / "w")
        status, out, err = start(["r", "--taxonomy", "t0", "--parameters"], folder / "w")
        self.case(f"--parameters makes no file, {form}", listing(folder / "w"), before)
        header, *rows = list(csv.reader(io.StringIO(out.decode(), newline=""), strict=True)) or [[]]
        self.case(
            f"the header of --parameters, {form}",
            (header, out[-1:]),
            (
                ["parameter", "value", "file", "references", "first reference"] if out else [],
                b"\n" if out else b"",
            ),
        )
        return status, rows, err

    def test_list_of_parameters(self) -> None:
        """Tests each parameter with its values and references: also one that nothing gives, and one
        that nothing uses.
        """
        module, file = "t0/reg/mod.json", "r/reports/p.csv"
        columns: dict[str, Any] = {
            "k": {
                "propertyGroups": {"g": {"dimensions": {"unit": "$unit"}, "decimals": "$places"}}
            },
            "cash": {
                "dimensions": {
                    "concept": "eg:Cash",
                    "unit": "$$unit",
                    "eg:Region": "$note",
                    "eg:Branch": "$rowNumber",
                },
                "propertiesFrom": ["k"],
            },
            "note": {},
        }
        of_all: dict[str, Any] = {
            "dimensions": {"entity": "$entityID", "period": "$refPeriod@end"},
            "decimals": "$places",
        }
        parts: dict[str, Any] = {
            "tableTemplates": {"t": {"columns": columns, "decimals": "$note"}},
            **of_all,
        }
        group = f"{module}: tableTemplates.t.columns.k.propertyGroups.g"
        for form in ("folder", "zip"):
            given = filed_with(
                'name,value\nentityID,lei:x\nUnit,"a,b"\nplaces,\n',
                tables={"t": {"url": "t.csv", "parameters": {"places": "2"}}},
                **parts,
            )
            wanted = [
                ["Unit", "a,b", file, "0", ""],
                ["entityID", "lei:x", file, "1", f"{module}: dimensions.entity"],
                ["places", "", file, "2", f"{module}: decimals"],
                ["places", "2", module, "2", f"{module}: decimals"],
                ["refPeriod", "", "", "1", f"{module}: dimensions.period"],
                ["unit", "", "", "1", f"{group}.dimensions.unit"],
            ]
            self.case(f"--parameters, {form}", self.listed(given, form), (0, wanted, ""))
            column = filed_with(
                "name,value\nnote,x\nrowNumber,y\n", tableTemplates={"t": {"columns": columns}}
            )
            rows = [
                [
                    "note",
                    "x",
                    file,
                    "1",
                    f"{module}: tableTemplates.t.columns.cash.dimensions.eg:Region",
                ],
                ["places", "", "", "1", f"{group}.decimals"],
                ["rowNumber", "y", file, "0", ""],
                ["unit", "", "", "1", f"{group}.dimensions.unit"],
            ]
            self.case(
                f"a parameter that a column has the name of, {form}",
                self.listed(column, form),
                (0, rows, ""),
            )
            two: dict[str, dict[str, Any]] = {
                "t": {"columns": columns},
                "u": {"columns": {"cash": {}, "entityID": {}, "refPeriod": {}, "places": {}}},
            }
            some = filed_with(
                "name,value\n", tableTemplates=two, dimensions={"entity": "$entityID"}
            )
            rows = [
                ["entityID", "", "", "1", f"{module}: dimensions.entity"],
                ["places", "", "", "1", f"{group}.decimals"],
                ["unit", "", "", "1", f"{group}.dimensions.unit"],
            ]
            self.case(
                f"a name that is a column of one template alone, {form}",
                self.listed(some, form),
                (0, rows, ""),
            )
            self.case(
                f"a name that is a column of all, {form}",
                self.listed(
                    filed_with("name,value\n", tableTemplates={"u": two["u"]}, **of_all), form
                ),
                (0, [], ""),
            )
            no_schema = {
                **given,
                "taxonomies": [
                    {it: text for it, text in files.items() if not it.endswith(".xsd")}
                    for files in given["taxonomies"]
                ],
            }
            self.case(
                f"--parameters without the schemas, {form}",
                self.listed(no_schema, form),
                (0, wanted, ""),
            )
            self.case(
                f"no parameter at all, {form}",
                self.listed({"report": REPORT, "taxonomies": [TAXONOMY]}, form),
                (0, [], ""),
            )
            lost = self.listed(
                {"report": {**REPORT, "reports/report.json": "{"}, "taxonomies": [TAXONOMY]}, form
            )
            self.case(
                f"--parameters of no report, {form}",
                (lost[0], lost[1], lost[2].startswith("xbrl-filing: r/reports/report.json: ")),
                (1, [], True),
            )

    def test_list_that_is_told(self) -> None:
        """Compares the list of plain metadata, and tests one that cannot be written."""
        folder = self.folder
        self.listed({"report": REPORT, "taxonomies": [TAXONOMY]}, "folder")
        (folder / "w/m.json").write_text(
            meta(
                INFO,
                dimensions={"unit": "$unit"},
                tableTemplates={"t": TEMPLATE},
                tables={"t": {"url": "t.csv"}},
            )
        )
        seen = start(["m.json", "--parameters"], folder / "w")
        self.case(
            "--parameters of a plain metadata",
            seen,
            (
                0,
                (
                    b"parameter,value,file,references,first reference\nunit,,,1,m.json:"
                    b" dimensions.unit\n"
                ),
                "",
            ),
        )
        with open("/dev/full", "wb") as full:
            done = subprocess.run(
                [FILING, "r", "--taxonomy", "t0", "--parameters"],
                cwd=folder / "w",
                stdout=full,
                stderr=subprocess.PIPE,
                timeout=PATIENCE,
            )
        self.case(
            "--parameters that cannot be written",
            (done.returncode, done.stderr),
            (3, b"xbrl-filing: standard output: cannot write (No space left on device)\n"),
        )
