"""Worked reports: a metadata whose texts are replaced, and checks of the whole document.

The wanted results are written by hand, or follow from numbers by a rule of one line; no run of the
program makes them. Each report is converted with several numbers of workers and ring sizes, in both
layouts. The whole document, standard error and the status are compared.
"""
from __future__ import annotations

from collections.abc import Iterable, Sequence
from typing import Optional

from tests.harness import CaseTest

METADATA = """{"documentInfo":{"documentType":"https://xbrl.org/2021/xbrl-csv",
"namespaces":{"eg":"http://example.com/eg",
"iso4217":"http://www.xbrl.org/2003/iso4217",
"xbrli":"http://www.xbrl.org/2003/instance"},
"taxonomy":["http://example.com/eg.xsd"]},
"dimensions":{"entity":"eg:A1",
"period":"2021-01-01T00:00:00/2022-01-01T00:00:00",
"unit":"iso4217:EUR"},
"tableTemplates":{"p":{"columns":{
"cash":{"dimensions":{"concept":"eg:Cash"}},
"note":{"dimensions":{"concept":"eg:Note"}}}}},
"tables":{"t1":{"url":"t1.csv","template":"p"}}}
"""
ON_ONE_LINE = METADATA.replace("\n", "")
TYPES = """namespace,name,type
http://example.com/eg,Cash,integer
http://example.com/eg,Rate,decimal
http://example.com/eg,Mass,double
http://example.com/eg,Note,text
http://example.com/eg,Flag,other
http://example.com/eg,Region,explicit
http://example.com/eg,Branch,typed
"""
PERIOD = "2021-01-01T00:00:00/2022-01-01T00:00:00"
HEAD = (
    '{"documentInfo":{"documentType":"https://xbrl.org/2021/xbrl-json",'
    '"namespaces":{"eg":"http://example.com/eg","iso4217":"http://www.xbrl.org/2003/iso4217",'
    '"xbrli":"http://www.xbrl.org/2003/instance"},"taxonomy":["http://example.com/eg.xsd"]},'
    '"facts":{'
)

# Numbers of workers with ring sizes, where None is the default.
Ways = Sequence[tuple[int, Optional[int]]]
# Texts with their replacements.
Edits = Iterable[tuple[str, str]]

WAYS: Ways = ((1, 1), (1, None), (2, 1), (4, 1), (4, None))
FEW_WAYS: Ways = ((1, 1), (4, None))
ONE_WAY: Ways = ((1, 1),)
WORDS = ("m.json", "--types", "t.csv")

# A reference to a column, and parameters of the report and of the table for it.
BY_NAME = ('"concept":"eg:Cash"}}', '"concept":"$c"}},"c":{}')
OF_REPORT = ('"dimensions":{"entity"', '"parameters":{"c":"eg:Mass"},"dimensions":{"entity"')
OF_TABLE = ('"template":"p"}', '"template":"p","parameters":{"c":"eg:Cash"}}')

TABLE = '"t1":{"url":"t1.csv","template":"p"}'
THREE = [(TABLE, ",".join(TABLE.replace("t1", it) for it in ("t1", "t2", "t3")))]
NO_TABLES = [("{" + TABLE + "}", "{}")]
IDENTIFIED = [('{"columns":{', '{"rowIdColumn":"k","columns":{"k":{},')]
UNTIMED = [(PERIOD, "nope")]
PLAIN = ('"columns":{', '"columns":{"b":{},')
SIDED = [PLAIN, ('"entity":"eg:A1"', '"eg:Branch":"$b","eg:Region":"eg:North","entity":"eg:A1"')]
ENDED = [PLAIN, (PERIOD, "$b@end")]
TIMED = [PLAIN, (PERIOD, "$b")]
TWICE_PURE = [("iso4217:EUR", "xbrli:pure*xbrli:pure")]
LANGUAGE = [('"dimensions":{"entity"', '"dimensions":{"language":"en-GB","entity"')]


def edited(edits: Edits, text: str = METADATA) -> str:
    """Replaces other texts in a text, each of which it must have."""
    for old, new in edits:
        assert old in text, old
        text = text.replace(old, new)
    return text


def once(old: str, new: str) -> str:
    """Returns the metadata on one line with the first occurrence of a text replaced."""
    assert old in ON_ONE_LINE, old
    return ON_ONE_LINE.replace(old, new, 1)


def fact(text: str) -> str:
    """Makes the member of a fact.

    From `ID DECIMALS CONCEPT UNIT VALUE`, where `-` means nothing, or from JSON, where `@` is the
    period.
    """
    if text.startswith('"'):
        return text.replace("@", PERIOD)
    identifier, decimals, concept, unit, value = text.split(" ", 4)
    decimals = "" if decimals == "-" else f'"decimals":{decimals},'
    unit = "" if unit == "-" else f',"unit":"iso4217:{unit}"'
    value = value if value == "null" else f'"{value}"'
    dimensions = f'"concept":"eg:{concept}","entity":"eg:A1","period":"{PERIOD}"{unit}'
    return f'"{identifier}":{{{decimals}"dimensions":{{{dimensions}}},"value":{value}}}'


def members(facts: str | list[str]) -> list[str]:
    """Returns the members of facts, which are in a list or have `; ` between them."""
    return [fact(it) for it in (facts.split("; ") if isinstance(facts, str) else facts) if it]


def cash(identifier: str, value: int | str) -> str:
    """Returns a fact of the concept Cash, as `fact` takes it."""
    return f"{identifier}.cash - Cash EUR {value}"


def document(layout: str, facts: list[str], finished: bool = True, head: str = HEAD) -> bytes:
    """Makes a document with these members. It is finished if no table is refused."""
    if layout == "compact":
        return (head + ",".join(facts) + ("}}\n" if finished else "")).encode()
    lines = "".join("," * (i > 0) + "\n" + it for i, it in enumerate(facts))
    return (head + lines + ("\n}}\n" if finished else "")).encode()


def lines(faults: str) -> str:
    """Returns the lines of faults of tables, which have `; ` between them."""
    return "".join(f"xbrl-json: table {it}\n" for it in faults.split("; ") if it)


class ReportTest(CaseTest):
    """A test that converts worked reports."""

    def converts(
        self,
        facts: str | list[str],
        said: str = "",
        ways: Ways = WAYS,
        words: Sequence[str] = WORDS,
        head: str = HEAD,
    ) -> None:
        """Checks the document of these facts in each way and layout, and these lines.

        The status is 1 if there are lines, else 0.
        """
        made = members(facts)
        for layout in ("compact", "lines"):
            wanted = document(layout, made, not said, head)
            for workers, ring in ways:
                with self.subTest(layout=layout, workers=workers, ring=ring):
                    more = ["--workers", str(workers), *(["--ring", str(ring)] if ring else [])]
                    seen = self.run_program(*words, *more, "--layout", layout)
                    self.check_run(seen, 1 if said else 0, wanted, said)

    def stops(
        self, said: str, status: int = 1, words: Sequence[str] = WORDS, ways: Ways = FEW_WAYS
    ) -> None:
        """Checks in each way that nothing is written and this line is printed."""
        for workers, ring in ways:
            with self.subTest(workers=workers, ring=ring):
                more = ["--workers", str(workers), *(["--ring", str(ring)] if ring else [])]
                seen = self.run_program(*words, *more)
                self.check_run(seen, status, b"", f"xbrl-json: {said}\n")
