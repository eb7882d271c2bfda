"""Tests whole facts: their dimensions and values as the document has them, member by member."""
from __future__ import annotations

from tests.harness import for_each
from tests.worked_reports import (
    ENDED,
    LANGUAGE,
    SIDED,
    TIMED,
    TWICE_PURE,
    TYPES,
    UNTIMED,
    Edits,
    ReportTest,
    edited,
    lines,
)

# Reports of one table: what is replaced in the metadata, the file, and the whole members of its
# facts, where `@` is the period.
WHOLE_FACTS: dict[str, tuple[Edits, str, list[str]]] = {
    "a language": (
        LANGUAGE,
        'cash,note\n1,"say ""hi"" \\\n\u00e9\x01"\n',
        [
            '"t1.r_1.cash":{"dimensions":{"concept":"eg:Cash","entity":"eg:A1","period":"@",'
            '"unit":"iso4217:EUR"},"value":"1"}',
            '"t1.r_1.note":{"dimensions":{"concept":"eg:Note","entity":"eg:A1",'
            '"language":"en-gb","period":"@"},"value":"say \\"hi\\" \\\\\\n\u00e9\\u0001"}',
        ],
    ),
    "a language of a short text": (
        LANGUAGE,
        "cash,note\n1,n\n",
        [
            '"t1.r_1.cash":{"dimensions":{"concept":"eg:Cash","entity":"eg:A1","period":"@",'
            '"unit":"iso4217:EUR"},"value":"1"}',
            '"t1.r_1.note":{"dimensions":{"concept":"eg:Note","entity":"eg:A1",'
            '"language":"en-gb","period":"@"},"value":"n"}',
        ],
    ),
    "a product of units": (
        TWICE_PURE,
        "cash\n1\n",
        [
            '"t1.r_1.cash":{"dimensions":{"concept":"eg:Cash","entity":"eg:A1","period":"@",'
            '"unit":"xbrli:pure*xbrli:pure"},"value":"1"}',
        ],
    ),
    "a product of units beside no text": (
        TWICE_PURE,
        "cash,note\n1,\n",
        [
            '"t1.r_1.cash":{"dimensions":{"concept":"eg:Cash","entity":"eg:A1","period":"@",'
            '"unit":"xbrli:pure*xbrli:pure"},"value":"1"}',
        ],
    ),
    "a typed dimension by reference": (
        SIDED,
        "cash,b\n1,x\n2,#nil\n",
        [
            '"t1.r_1.cash":{"dimensions":{"concept":"eg:Cash","eg:Branch":"x",'
            '"eg:Region":"eg:North","entity":"eg:A1","period":"@","unit":"iso4217:EUR"},'
            '"value":"1"}',
            '"t1.r_2.cash":{"dimensions":{"concept":"eg:Cash","eg:Branch":null,'
            '"eg:Region":"eg:North","entity":"eg:A1","period":"@","unit":"iso4217:EUR"},'
            '"value":"2"}',
        ],
    ),
    "a typed dimension by an empty reference": (
        SIDED,
        "cash,b\n1,\n2,#empty\n",
        [
            '"t1.r_1.cash":{"dimensions":{"concept":"eg:Cash","eg:Region":"eg:North",'
            '"entity":"eg:A1","period":"@","unit":"iso4217:EUR"},"value":"1"}',
            '"t1.r_2.cash":{"dimensions":{"concept":"eg:Cash","eg:Branch":"",'
            '"eg:Region":"eg:North","entity":"eg:A1","period":"@","unit":"iso4217:EUR"},'
            '"value":"2"}',
        ],
    ),
    "a typed dimension of a text": (
        SIDED,
        "b,cash,note\nx,,n\n#nil,,n\n#empty,,n\n,,n\n",
        [
            '"t1.r_1.note":{"dimensions":{"concept":"eg:Note","eg:Branch":"x",'
            '"eg:Region":"eg:North","entity":"eg:A1","period":"@"},"value":"n"}',
            '"t1.r_2.note":{"dimensions":{"concept":"eg:Note","eg:Branch":null,'
            '"eg:Region":"eg:North","entity":"eg:A1","period":"@"},"value":"n"}',
            '"t1.r_3.note":{"dimensions":{"concept":"eg:Note","eg:Branch":"",'
            '"eg:Region":"eg:North","entity":"eg:A1","period":"@"},"value":"n"}',
            '"t1.r_4.note":{"dimensions":{"concept":"eg:Note","eg:Region":"eg:North",'
            '"entity":"eg:A1","period":"@"},"value":"n"}',
        ],
    ),
    "the end of a quarter": (
        ENDED,
        "cash,b\n1,2021Q4\n",
        [
            '"t1.r_1.cash":{"dimensions":{"concept":"eg:Cash","entity":"eg:A1",'
            '"period":"2022-01-01T00:00:00","unit":"iso4217:EUR"},"value":"1"}',
        ],
    ),
    "the end of a quarter in the first column": (
        ENDED,
        "b,cash,note\n2021Q4,1,\n",
        [
            '"t1.r_1.cash":{"dimensions":{"concept":"eg:Cash","entity":"eg:A1",'
            '"period":"2022-01-01T00:00:00","unit":"iso4217:EUR"},"value":"1"}',
        ],
    ),
    "a week and the end of a day": (
        TIMED,
        "cash,b\n1,2020W53\n2,2021-12-31T24:00:00\n",
        [
            '"t1.r_1.cash":{"dimensions":{"concept":"eg:Cash","entity":"eg:A1",'
            '"period":"2020-12-28T00:00:00/2021-01-04T00:00:00","unit":"iso4217:EUR"},'
            '"value":"1"}',
            '"t1.r_2.cash":{"dimensions":{"concept":"eg:Cash","entity":"eg:A1",'
            '"period":"2022-01-01T00:00:00","unit":"iso4217:EUR"},"value":"2"}',
        ],
    ),
}

# Cells of booleans, dates and names: the concept, the cell, and the value, or None if it is bad.
WIDER: dict[str, tuple[str, str, str | None]] = {
    "true between blanks": ("Open", " true ", "true"),
    "true as a digit": ("Open", "1", "1"),
    "a boolean that is nil": ("Open", "#nil", "null"),
    "true in capitals": ("Open", "TRUE", None),
    "a boolean that is empty": ("Open", "#empty", None),
    "a leap day": ("Due", "2024-02-29", "2024-02-29"),
    "no leap day": ("Due", "2023-02-29", None),
    "a date with a time zone": ("Due", "2024-02-29Z", None),
    "a date of two digits": ("Due", "24-2-29", None),
    "a name": ("Rule", "eg:Cash", "eg:Cash"),
    "a name without a prefix": ("Rule", "Cash", None),
    "a name with an unknown prefix": ("Rule", "zz:a", None),
}
WIDER_TYPES = TYPES.replace("name,type\n", "name,type2\n") + "".join(
    f"http://example.com/eg,{it}\n" for it in ("Open,boolean", "Due,date", "Rule,qname")
)


@for_each(WHOLE_FACTS.items())
class TestFacts(ReportTest):
    """Converts each report of WHOLE_FACTS."""

    def check(self, edits: Edits, file: str, facts: list[str]) -> None:
        """Converts a report."""
        self.write({"m.json": edited(edits), "t.csv": TYPES, "t1.csv": file})
        self.converts(facts)


@for_each(WIDER.items())
class TestWiderTypes(ReportTest):
    """Converts booleans, dates and names, which only a header with `type2` allows.

    None of them has a unit.
    """

    def check(self, concept: str, cell: str, value: str | None) -> None:
        """Converts a cell, which is refused if it has no value."""
        meta = edited([('"eg:Cash"', f'"eg:{concept}"')])
        self.write({"m.json": meta, "t.csv": WIDER_TYPES, "t1.csv": f"cash\n{cell}\n"})
        facts = f"t1.r_1.cash - {concept} - {value}" if value else ""
        self.converts(facts, "" if value else lines("t1, row 1, column 1: BadFactValue (44)"))

    def test_a_bad_period_before_a_bad_boolean(self) -> None:
        """Reports the period, which comes first."""
        meta = edited([*UNTIMED, ('"eg:Cash"', '"eg:Open"')])
        self.write({"m.json": meta, "t.csv": WIDER_TYPES, "t1.csv": "cash\nTRUE\n"})
        self.converts("", lines("t1, row 1, column 1: BadPeriod (37)"))

    def test_a_boolean_under_type(self) -> None:
        """Refuses a types table with a boolean under `type`."""
        types = WIDER_TYPES.replace("name,type2\n", "name,type\n")
        self.write({"m.json": edited([]), "t.csv": types})
        self.stops("types: BadTypes (14)")
