"""Tests the kind of each element: base types, derived types, dimensions, and what no fact has."""
from __future__ import annotations

import json
from collections.abc import Iterator

from tests.filing_samples import (
    EG,
    HOST,
    INFO,
    REPORT,
    TAXONOMY,
    TYPES_HEADER,
    Text,
    XBRLI,
    derived,
    headed,
    include,
    item,
    meta,
    records,
    schema,
)
from tests.filings import Case, FilingTest, cases, makes, stops, worked
from tests.harness import for_each

ITEM_TYPES = {
    **{
        it: it
        for it in (
            "monetary shares integer nonPositiveInteger negativeInteger nonNegativeInteger"
            " positiveInteger long int short byte unsignedLong unsignedInt unsignedShort"
            " unsignedByte boolean date dateTime time duration gYear gYearMonth gMonth gMonthDay"
            " gDay language NCName hexBinary"
        ).split()
    },
    "decimal": "decimal pure",
    "double": "float double",
    "text": "string normalizedString token",
    "qname": "QName",
    "other": "Name anyURI base64Binary",
}


DTR = "http://www.xbrl.org/dtr/type/"


KNOWN = [
    ("other", DTR + "non-numeric", "domain noLangString noLangToken"),
    ("other", DTR + "2020-01-21", "domain noLangString noLangToken"),
    ("text", DTR + "non-numeric", "textBlock escaped xml xmlNodes"),
    ("text", DTR + "2022-03-31", "textBlock"),
    ("decimal", DTR + "numeric", "percent perShare area mass anythingAtAll"),
    (
        "decimal",
        DTR + "2022-03-31",
        (
            "percent perShare area volume mass weight energy power length memory force frequency"
            " pressure temperature"
        ),
    ),
    (
        "decimal",
        DTR + "2022-03-31",
        (
            "voltage electricCurrent electricCharge planeAngle ghgEmissions insolation irradiance"
            " speed flow massFlow"
        ),
    ),
    (
        "monetary",
        DTR + "2022-03-31",
        "noDecimalsMonetary nonNegativeMonetary nonNegativeNoDecimalsMonetary",
    ),
    ("monetary", DTR + "numeric", "noDecimalsMonetary nonNegativeMonetary"),
    ("decimal", DTR + "2022-03-31", "monetaryPerLength monetaryPerArea"),
    (
        "decimal",
        DTR + "2022-03-31",
        "monetaryPerVolume monetaryPerDuration monetaryPerEnergy monetaryPerMass energyPerMonetary",
    ),
    ("decimal", DTR + "2022-03-31", "ghgEmissionsPerMonetary volumePerMonetary perUnit"),
    ("other", DTR + "2024-01-31", "SQName SQNames prefixedContent"),
    ("enumeration", "http://xbrl.org/2014/extensible-enumerations", "enumeration"),
    ("enumeration", "http://xbrl.org/PWD/2016-10-12/extensible-enumerations-1.1", "enumeration"),
    ("enumeration", "http://xbrl.org/2020/extensible-enumerations-2.0", "enumeration"),
    ("other", "http://xbrl.org/PWD/2016-10-12/extensible-enumerations-1.1", "enumerations"),
    ("enumerations", "http://xbrl.org/2020/extensible-enumerations-2.0", "enumerationSet"),
]


def kinds_are(name: str, body: str, *lines: str, **files: Text) -> Case:
    """Returns the case of a schema with these elements, which gives these records."""
    own = {"reg/mod.json": meta(INFO), "reg/mod.xsd": schema(body)}
    taxonomy: dict[str, Text] = {**TAXONOMY, **own, **files}
    return makes(name, types=records(*sorted(lines)), taxonomies=[taxonomy])


def kinds() -> Iterator[Case]:
    """Tests the kind of each element: every base type, directly and through four derivations, and
    what no fact can have.
    """
    types = [(name, word) for word, names in ITEM_TYPES.items() for name in names.split()]
    yield kinds_are(
        "each base type",
        "".join(item(f"I_{it}", f"xbrli:{it}ItemType") for it, _ in types),
        *(f"I_{it},{word}" for it, word in types),
    )
    ways = [
        ("restriction", "simpleContent"),
        ("extension", "simpleContent"),
        ("restriction", "complexContent"),
        ("extension", "complexContent"),
    ]
    body = ""
    for name, _ in types:
        base = f"xbrli:{name}ItemType"
        for step, (how, content) in enumerate(ways):
            body += derived(f"T{step}_{name}", base, how, content)
            base = f"eg:T{step}_{name}"
        body += item(f"I_{name}", base)
    yield kinds_are(
        "each base type behind four derivations", body, *(f"I_{it},{word}" for it, word in types)
    )
    for word, namespace, names in KNOWN:
        body = "".join(
            f'<xs:element xmlns:k="{namespace}" name="I_{it}" type="k:{it}ItemType"'
            ' substitutionGroup="xbrli:item"/>'
            for it in names.split()
        )
        yield kinds_are(f"{word} of {namespace}", body, *(f"I_{it},{word}" for it in names.split()))
    own = {
        "reg/dtr.xsd": schema(
            derived("percentItemType", "xbrli:stringItemType")
            + derived("newItemType", "xbrli:dateItemType"),
            DTR + "2030-01-01",
        )
    }
    seen = (
        f'<xs:element xmlns:k="{DTR}2030-01-01" name="{{}}" type="k:{{}}ItemType"'
        ' substitutionGroup="xbrli:item"/>'
    )
    yield kinds_are(
        "a registry type is known whatever a copy says, and others are followed",
        include("dtr.xsd")
        + seen.format("P", "percent")
        + seen.format("N", "new")
        + seen.format("X", "none"),
        "P,decimal",
        "N,date",
        "X,member",
        **own,
    )
    other = (
        f'<xs:element xmlns:k="{DTR[:-1]}s/2022" name="A" type="k:percentItemType"'
        ' substitutionGroup="xbrli:item"/>'
        + item("B")
    )
    yield kinds_are("another namespace is not the registry's", other, "A,member", "B,text")
    yield kinds_are(
        "a copy of the instance schema does not count",
        item("A", "xbrli:dateItemType") + include("x.xsd"),
        "A,date",
        **{"reg/x.xsd": schema(derived("dateItemType", "xbrli:stringItemType"), XBRLI)},
    )


@for_each(cases(kinds()))
class TestKinds(FilingTest):
    """The cases of `kinds`."""


DIMENSIONS = ("X,explicit", "Y,explicit", "Z,explicit", "T,typed", "U,typed")


def kinds_of_elements() -> Iterator[Case]:
    """Types inside of an element."""
    inner = (
        '<xs:complexType><xs:simpleContent><xs:{} base="{}"><xs:enumeration'
        ' value="a"/></xs:{}></xs:simpleContent></xs:complexType>'
    )
    inline = '<xs:element name="{}" substitutionGroup="xbrli:item">' + inner + "</xs:element>"
    yield kinds_are(
        "a type inside of the element",
        inline.format("A", "restriction", "xbrli:dateItemType", "restriction")
        + inline.format("B", "extension", "eg:T", "extension")
        + derived("T", "xbrli:booleanItemType"),
        "A,date",
        "B,boolean",
    )
    simple = (
        '<xs:simpleType name="S"><xs:restriction base="xs:string"/></xs:simpleType>'
        + item("A", "eg:S")
        + item("B")
    )
    yield kinds_are("a simple type is no item type", simple, "A,member", "B,text")
    simple = '<xs:simpleType><xs:restriction base="xbrli:stringItemType"/></xs:simpleType>'
    restricted = (
        "<xs:simpleContent><xs:restriction"
        f' base="xbrli:dateItemType">{simple}</xs:restriction></xs:simpleContent>'
    )
    deep = f'<xs:complexType name="T">{restricted}</xs:complexType>' + item("A", "eg:T")
    yield kinds_are("the first derivation counts", deep, "A,date")
    content = (
        "<xs:complexType><xs:simpleContent><xs:restriction"
        ' base="xbrli:dateItemType"/></xs:simpleContent></xs:complexType>'
    )
    within = (
        '<xs:complexType name="T"><xs:sequence><xs:element'
        f' name="x">{content}</xs:element></xs:sequence></xs:complexType>'
    )
    yield kinds_are(
        "derivations of elements inside of a type do not count",
        within + item("A", "eg:T") + item("B"),
        "A,member",
        "B,text",
    )


@for_each(cases(kinds_of_elements()))
class TestKindsOfElements(FilingTest):
    """The cases of `kinds_of_elements`."""


def heads_of_elements() -> Iterator[Case]:
    """The type of an element's head, abstract items and dimensions."""
    chain = (
        item("H", "xbrli:dateItemType", 'abstract="true"')
        + headed("A eg:H", "B eg:A")
        + headed("D eg:C")
    )
    chain += headed("C eg:B", more='type="xbrli:booleanItemType"')
    types = "A,date", "B,date", "C,boolean", "D,boolean", "H,member"
    yield kinds_are("the type of the head", chain, *types)
    yield kinds_are(
        "abstract items",
        item("A", more='abstract="true"')
        + item("B", more='abstract=" 1 "')
        + item("C", more='abstract="false"')
        + item("D", more='abstract="0"'),
        "A,member",
        "B,member",
        "C,text",
        "D,text",
    )
    typed = 'xbrldt:typedDomainRef="#x"'
    dims = headed("X xbrldt:dimensionItem", more='abstract="true"') + headed("Y eg:X", "Z eg:T")
    dims += headed("T xbrldt:dimensionItem", "U eg:X", more=typed)
    heads = "".join(
        f'<xs:element name="{it}Item" type="xbrli:stringItemType" substitutionGroup="xbrli:item"'
        ' abstract="true"/>'
        for it in ("dimension", "hypercube")
    )
    copy = {"reg/d.xsd": schema(heads, "http://xbrl.org/2005/xbrldt")}
    yield kinds_are(
        "a copy of the schema of dimensions does not count",
        include("d.xsd") + dims + headed("H xbrldt:hypercubeItem"),
        *DIMENSIONS,
        **copy,
    )
    ring = schema(
        (
            '<xs:element name="item" substitutionGroup="xbrli:other"/><xs:element name="other"'
            ' substitutionGroup="xbrli:item"/>'
        ),
        XBRLI,
    )
    yield kinds_are(
        "a ring above the head of all items",
        include("i.xsd") + headed("A xbrli:item") + item("B"),
        "A,member",
        "B,text",
        **{"reg/i.xsd": ring},
    )
    yield kinds_are("dimensions, by their own attribute", dims, *DIMENSIONS)
    yield kinds_are(
        "a typed reference without its namespace",
        headed("X xbrldt:dimensionItem", more='typedDomainRef="#x"'),
        "X,explicit",
    )


@for_each(cases(heads_of_elements()))
class TestHeadsOfElements(FilingTest):
    """The cases of `heads_of_elements`."""


def periods() -> Iterator[Case]:
    """The period of a concept, which is its element's own attribute."""
    attribute = 'xbrli:periodType="{}"'
    texts = {"A": "instant", "B": "duration", "C": " instant ", "D": "forever", "E": ""}
    body = "".join(item(it, more=attribute.format(text)) for it, text in texts.items())
    body += item("F") + item("G", more='periodType="instant"') + headed("H eg:A")
    abstract = attribute.format("instant") + ' abstract="true"'
    body += item("I", more=abstract) + headed("J xbrldt:dimensionItem", more=abstract)
    yield kinds_are(
        "the period of a concept",
        body,
        "A,text,instant",
        "B,text,duration",
        "C,text,instant",
        *(f"{it},text" for it in "DEFGH"),
        "I,member",
        "J,explicit",
    )


@for_each(cases(periods()))
class TestPeriods(FilingTest):
    """The cases of `periods`."""


SIMPLE = {
    **{
        f"xs:{it}": it
        for it in (
            "decimal integer nonPositiveInteger negativeInteger nonNegativeInteger positiveInteger"
            " long int short byte unsignedLong unsignedInt unsignedShort unsignedByte double boolean"
            " date dateTime time duration gYear gYearMonth gMonth gMonthDay gDay language NCName"
            " hexBinary"
        ).split()
    },
    "xs:float": "double",
    "xs:QName": "qname",
    **dict.fromkeys(("xs:ID", "xs:IDREF", "xs:ENTITY"), "NCName"),
    **dict.fromkeys(("xbrli:monetary", "xbrli:shares", "xbrli:pure"), "decimal"),
    **{
        f"xs:{it}": ""
        for it in "string normalizedString token anyURI Name NMTOKEN base64Binary anyType".split()
    },
    "xbrli:dateUnion": "",
    "xbrli:dateItemType": "",
    "eg:None": "",
}
INSIDE = '<xs:element name="b_{0}" id="b_{0}">{1}</xs:element>'
RESTRICTED = '<xs:simpleType{}><xs:restriction base="{}"><xs:minLength value="1"/>{}'
RESTRICTED += "</xs:restriction></xs:simpleType>"
ENDS = "<xs:simpleType{}>{}</xs:simpleType>"


def typed(name: str, reference: str) -> str:
    """Returns the element of a typed dimension."""
    return headed(f"{name} xbrldt:dimensionItem", more=f'xbrldt:typedDomainRef="{reference}"')


def typed_domains() -> Iterator[Case]:
    """The type of the values of a typed dimension, which is that of another element."""
    kinds = list(SIMPLE.items())
    yield kinds_are(
        "the simple types",
        "".join(
            f'<xs:element name="b{it}" id="b{it}" type="{kind}"/>' + typed(f"D{it}", f"#b{it}")
            for it, (kind, _) in enumerate(kinds)
        ),
        *(f"D{it},typed,,{word}" for it, (_, word) in enumerate(kinds)),
    )
    own = RESTRICTED.format("", "xs:date", "")
    of_value = '<xs:simpleContent><xs:extension base="xs:date"/></xs:simpleContent>'
    inner = {
        "A": (own, "date"),
        "B": (RESTRICTED.format("", "eg:twice", ""), "integer"),
        "C": (ENDS.format("", f"<xs:restriction>{own}</xs:restriction>"), "date"),
        "D": (ENDS.format("", '<xs:list itemType="xs:date"/>'), ""),
        "E": (ENDS.format("", '<xs:union memberTypes="xs:date xs:gYear"/>'), ""),
        "F": (ENDS.format("", f"<xs:union>{own}</xs:union>"), ""),
        "G": (ENDS.format("", f"<xs:list>{own}</xs:list>"), ""),
        "H": (f"<xs:complexType>{of_value}</xs:complexType>", ""),
        "I": (RESTRICTED.format("", "eg:complex", ""), ""),
        "J": (RESTRICTED.format("", "eg:ring", ""), ""),
        "K": ("", ""),
    }
    body = (
        RESTRICTED.format(' name="twice"', "eg:once", "")
        + RESTRICTED.format(' name="once"', "xs:integer", "")
        + RESTRICTED.format(' name="ring"', "eg:ring", "")
        + f'<xs:complexType name="complex">{of_value}</xs:complexType>'
    )
    yield kinds_are(
        "derived types, inside of the element and outside",
        body + "".join(INSIDE.format(it, text) + typed(it, f"#b_{it}") for it, (text, _) in inner.items()),
        *(f"{it},typed,,{word}" for it, (_, word) in inner.items()),
    )
    places = {
        "A": ("d/typ.xsd#day", "date"),
        "B": (f" {HOST}d/typ.xsd#day ", "date"),
        "C": ("http://REG.example/x/../d/typ.xsd#day", "date"),
        "D": ("d/typ.xsd#none", ""),
        "E": ("d/none.xsd#day", ""),
        "F": ("#day", ""),
        "G": ("d/typ.xsd", ""),
        "H": ("d/typ.xsd#d%61y", "date"),
        "I": ("http://far.example/typ.xsd#day", ""),
        "J": ("", ""),
        "K": ("d/typ.xsd#" + "x" * 5000, ""),
    }
    yield kinds_are(
        "a domain of another schema",
        include("d/typ.xsd")
        + "".join(typed(it, place) for it, (place, _) in places.items())
        + headed("L xbrldt:dimensionItem", more='xml:base="d/" xbrldt:typedDomainRef="typ.xsd#day"'),
        *(f"{it},typed,,{word}" for it, (_, word) in places.items()),
        "L,typed,,date",
        **{
            "reg/d/typ.xsd": schema(
                '<xs:element name="b" id="day" type="xs:date"/>', "http://reg.example/typ"
            )
        },
    )


@for_each(cases(typed_domains()))
class TestTypedDomains(FilingTest):
    """The cases of `typed_domains`."""


NOTHING = headed("A xbrldt:hypercubeItem", "B eg:A") + '<xs:element name="C" type="xs:string"/>'


NOTHING += headed("D eg:None", more='type="xbrli:dateItemType"')


RING = (
    headed("E eg:F", "F eg:E", "M eg:M")
    + derived("G", "eg:I")
    + derived("I", "eg:G")
    + item("J", "eg:G")
    + item("P", "eg:I")
    + item("L", "eg:L")
)


UNKNOWN = item("K", "xs:date") + headed("N xbrli:item") + item("O", "xbrli:noneItemType")


DEAD = item("F1", "xbrli:fractionItemType") + headed("T1 xbrli:tuple", "T2 eg:T1")


DEAD += derived("FT", "xbrli:fractionItemType", content="complexContent") + item("F2", "eg:FT")


def what_no_fact_can_have() -> Iterator[Case]:
    """Tests elements that are not in the types table or only as members, and those of them that the
    metadata must not name. An item whose type is not known may still be a member.
    """
    yield kinds_are(
        "what no fact can have",
        NOTHING + RING + UNKNOWN + DEAD + item("Z"),
        *(f"{it},member" for it in ("F1", "F2", "J", "K", "L", "N", "O", "P")),
        "Z,text",
    )
    reasons = {
        "T1": "is a tuple, which no table can have",
        "T2": "is a tuple, which no table can have",
        "F1": "is a fraction, which xBRL-JSON cannot have",
        "F2": "is a fraction, which xBRL-JSON cannot have",
        "J": "has a type that leads to none that is known",
        "K": "has a type that leads to none that is known",
        "N": "has a type that leads to none that is known",
        "O": "has a type that leads to none that is known",
    }
    levels = {
        "dimensions.concept": {"dimensions": {"concept": "eg:NAME"}},
        "tableTemplates.t.dimensions.concept": {
            "tableTemplates": {"t": {"columns": {}, "dimensions": {"concept": "eg:NAME"}}}
        },
        "tableTemplates.t.columns.c.dimensions.concept": {
            "tableTemplates": {"t": {"columns": {"c": {"dimensions": {"concept": "eg:NAME"}}}}}
        },
        "tableTemplates.t.columns.c.propertyGroups.g.dimensions.concept": {
            "tableTemplates": {
                "t": {
                    "columns": {
                        "c": {"propertyGroups": {"g": {"dimensions": {"concept": "eg:NAME"}}}}
                    }
                }
            }
        },
    }
    for where, parts in levels.items():
        for name, reason in reasons.items():
            named = json.loads(json.dumps(parts).replace("NAME", name))
            module = meta(INFO, tables={"t": {"url": "t.csv"}}, **named)
            line = f"t0/reg/mod.json: names the concept 'eg:{name}', which {reason} ({where})"
            yield stops(
                f"{name} at {where}",
                line,
                taxonomies=[
                    {
                        **TAXONOMY,
                        "reg/mod.json": module,
                        "reg/mod.xsd": schema(NOTHING + RING + UNKNOWN + DEAD),
                    }
                ],
            )


@for_each(cases(what_no_fact_can_have()))
class TestWhatNoFactCanHave(FilingTest):
    """The cases of `what_no_fact_can_have`."""


def dimensions_that_are_none() -> Iterator[Case]:
    """Names of dimensions that no schema declares, at each place of the metadata."""
    places = {
        "dimensions.{}": {"dimensions": {"NAME": "x"}},
        "tableTemplates.t.dimensions.{}": {
            "tableTemplates": {"t": {"columns": {}, "dimensions": {"NAME": "$c"}}}
        },
        "tableTemplates.t.columns.c.dimensions.{}": {
            "tableTemplates": {"t": {"columns": {"c": {"dimensions": {"NAME": "#none"}}}}}
        },
        "tableTemplates.t.columns.c.propertyGroups.g.dimensions.{}": {
            "tableTemplates": {
                "t": {"columns": {"c": {"propertyGroups": {"g": {"dimensions": {"NAME": "x"}}}}}}
            }
        },
    }
    unknown = "which no schema that the taxonomy reaches has as one"
    for where, parts in places.items():
        for name, reason in (
            ("eg:A", unknown),
            ("eg:Z", unknown),
            ("eg:nowhere", unknown),
            ("no:D", "whose prefix is not among 'namespaces'"),
        ):
            module = meta(
                INFO,
                tables={"t": {"url": "t.csv"}},
                **json.loads(json.dumps(parts).replace("NAME", name)),
            )
            line = f"t0/reg/mod.json: names the dimension '{name}', {reason} ({where.format(name)})"
            taxonomy = {
                **TAXONOMY,
                "reg/mod.json": module,
                "reg/mod.xsd": schema(NOTHING + item("Z")),
            }
            yield stops(f"no dimension {name} at {where}", line, taxonomies=[taxonomy])
    other = {"namespaces": {"g": EG}, "taxonomy": ["mod.xsd"]}
    named = {
        **REPORT,
        "reports/report.json": meta({"extends": [HOST + "mod.json"], "namespaces": {"eg": EG}}),
    }
    displaced = {**TAXONOMY, "reg/mod.json": meta(other, dimensions={"g:None": "x"})}
    line = f"t0/reg/mod.json: names the dimension 'g:None', {unknown} (dimensions.g:None)"
    yield stops(
        "a dimension by the name that the file has for it",
        line,
        report=named,
        taxonomies=[displaced],
    )
    for name in ("A", "B", "C", "D", "E", "M", "nowhere"):
        module = meta(INFO, dimensions={"concept": f"eg:{name}"})
        taxonomy = {**TAXONOMY, "reg/mod.json": module, "reg/mod.xsd": schema(NOTHING + RING)}
        yield makes(
            f"{name} is left to the converter",
            parts={"dimensions/concept": f"eg:{name}"},
            taxonomies=[taxonomy],
        )


@for_each(cases(dimensions_that_are_none()))
class TestDimensionsThatAreNone(FilingTest):
    """The cases of `dimensions_that_are_none`."""


def types_tables() -> Iterator[Case]:
    """The order and the quotes of a types table."""
    quoting = {
        **TAXONOMY,
        "reg/mod.json": meta(
            {
                **INFO,
                "namespaces": {
                    "a": 'http://a,b"c/',
                    "e": "http://e",
                    "d": "http://d",
                    "f": "http://f,g",
                },
            }
        ),
        "reg/mod.xsd": schema(
            include("q.xsd") + include("d.xsd") + include("e.xsd") + include("f.xsd") + item("A")
        ),
    }
    quoting.update(
        {
            "reg/q.xsd": schema(item("A"), "http://a,b&quot;c/"),
            "reg/d.xsd": schema(item("Z") + item("a") + item("É"), "http://d"),
            "reg/e.xsd": schema(item("A"), "http://e"),
            "reg/f.xsd": schema(item("A"), "http://f,g"),
        }
    )
    yield makes(
        "namespaces of the metadata alone, in byte order and quoted",
        types=f'{TYPES_HEADER}"http://a,b""c/",A,text,,\nhttp://d,Z,text,,\nhttp://d,a,text,,\n'
        'http://d,É,text,,\nhttp://e,A,text,,\n"http://f,g",A,text,,\n',
        taxonomies=[quoting],
    )


@for_each(cases(types_tables()))
class TestTypesTables(FilingTest):
    """The cases of `types_tables`."""


class TestRuns(FilingTest):
    """Tests that take several runs of one folder."""

    def test_twenty_thousand_concepts(self) -> None:
        """Reads 20,000 concepts in seconds of the processor."""
        begun = worked()
        elements = "".join(
            item(f"C{it:05}", "eg:T", 'id="x" nillable="true"') for it in range(20_000)
        ) + derived("T", "xbrli:monetaryItemType")
        self.see(
            kinds_are("20,000 concepts", elements, *(f"C{it:05},monetary" for it in range(20_000)))
        )
        self.case("20,000 concepts take seconds", worked() - begun < 20, True)
