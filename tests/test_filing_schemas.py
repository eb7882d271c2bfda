"""Tests which schemas and linkbases are read, by which names, and in which encodings."""
from __future__ import annotations

import codecs
from collections.abc import Iterator

from filing import markup
from tests.filing_samples import (
    EG,
    HOST,
    INFO,
    LEAF,
    ONE,
    TAXONOMY,
    TYPES_HEADER,
    Text,
    XBRLI,
    XS,
    catalog,
    include,
    item,
    linkbase,
    loc,
    meta,
    noted,
    records,
    rewrite,
    schema,
)
from tests.filings import Case, FilingTest, cases, makes, reads, refuses, stops
from tests.harness import for_each


def reading_schemas() -> Iterator[Case]:
    """Which schemas and linkbases are read, and by which names and prefixes."""
    one, leaf = ONE, LEAF
    for name, body in {
        "an import": include("d/leaf.xsd"),
        "an import with a fragment that is a path": include("d/leaf.xsd#element(/1/2)/?#"),
        "an import that is indented": include("  d/leaf.xsd\n "),
        "an include": include("d/leaf.xsd", "include"),
        "an import by its absolute URL": include(HOST + "d/leaf.xsd"),
        "an import without a place": '<xs:import namespace="x"/>' + include("d/leaf.xsd"),
        "the standard's own schemas": (
            include("http://www.xbrl.org/2003/xbrl-instance-2003-12-31.xsd")
            + include("https://xbrl.org/a.xsd")
            + include("http://WWW.w3.org:80/a.xsd")
            + include("d/leaf.xsd")
        ),
        "a base": noted(loc("leaf.xsd#A", "linkbaseRef"), 'xml:base="d/"'),
        "two bases": (
            '<xs:annotation xml:base="x/"><xs:appinfo xml:base="../d/"><a'
            f' xml:base="y/"/>{loc("leaf.xsd", "roleRef")}</xs:appinfo></xs:annotation>'
        ),
        "a base that has ended": f'<xs:annotation xml:base="x/"/>{include("d/leaf.xsd")}',
        "a base inside of a type": (
            '<xs:complexType name="t"'
            f' xml:base="x/">{noted(loc("../d/leaf.xsd", "roleRef"))}<xs:sequence/>'
            "</xs:complexType>"
        ),
    }.items():
        yield reads(name, {**leaf, "reg/mod.xsd": schema(body)}, one)
    yield reads(
        "a namespace with spaces", {**leaf, "reg/mod.xsd": schema(item("A"), f"  {EG} ")}, one
    )
    yield reads(
        "a base with spaces",
        {**leaf, "reg/mod.xsd": schema(include("leaf.xsd"), attributes=f'xml:base=" {HOST}d/ "')},
        one,
    )
    yield reads(
        "the base of a schema",
        {**leaf, "reg/mod.xsd": schema(include("leaf.xsd"), attributes=f'xml:base="{HOST}d/"')},
        one,
    )


@for_each(cases(reading_schemas()))
class TestReadingSchemas(FilingTest):
    """The cases of `reading_schemas`."""


def reading_linkbases() -> Iterator[Case]:
    """Tests where linkbases lead, which of them are read, and their bases."""
    one, leaf = ONE, LEAF
    for kind in ("loc", "linkbaseRef", "roleRef", "arcroleRef"):
        links = {
            **leaf,
            "reg/mod.xsd": schema(
                noted(loc("l.xml", "linkbaseRef"))
            ),
        }
        yield reads(
            f"a {kind} of a linkbase",
            {**links, "reg/l.xml": linkbase(f"<a><b>{loc('d/leaf.xsd#A', kind)}</b></a>")},
            one,
        )
        yield reads(
            f"a {kind} of a schema",
            {
                **leaf,
                "reg/mod.xsd": schema(
                    noted(loc("d/leaf.xsd#A", kind))
                ),
            },
            one,
        )
        yield refuses(
            f"a {kind} that leads nowhere",
            {**links, "reg/l.xml": linkbase("\n" + loc("none.xsd#A", kind))},
            f"t0/reg/l.xml: no package has {HOST}none.xsd ({kind}, line 2)",
        )
        yield reads(
            f"a {kind} of another namespace",
            {
                **links,
                "reg/l.xml": linkbase(
                    f'<x:{kind} xmlns:x="http://x/" xlink:href="none.xsd"/>' + loc("d/leaf.xsd")
                ),
            },
            one,
        )


@for_each(cases(reading_linkbases()))
class TestReadingLinkbases(FilingTest):
    """The cases of `reading_linkbases`."""


def bases_of_linkbases() -> Iterator[Case]:
    """The bases of linkbases, and which linkbases are passed over."""
    one, leaf = ONE, LEAF
    entry = {"reg/mod.xsd": linkbase(loc("d/leaf.xsd#A"))}
    yield reads("an entry point that is a linkbase", {**leaf, **entry}, one)
    inner = {
        **leaf,
        "reg/mod.xsd": linkbase(
            f'<a xml:base="x/">{loc("../d/leaf.xsd")}<b'
            f' xml:base="../d/"><c/>{loc("two.xsd")}</b>{loc("../d/three.xsd")}</a>'
            f'{loc("d/four.xsd")}'
        ),
    }
    inner.update({f"reg/d/{it}.xsd": schema(item(it)) for it in ("two", "three", "four")})
    yield reads(
        "bases of a linkbase", inner, records("A,text", "four,text", "three,text", "two,text")
    )
    twice = {
        **leaf,
        "reg/e/leaf.xsd": schema(item("B")),
        "reg/mod.xsd": linkbase(
            f'<a xml:base="d/">{loc("leaf.xsd")}</a><a xml:base="e/">{loc("leaf.xsd")}</a>'
        ),
    }
    yield reads("one reference under two bases", twice, records("A,text", "B,text"))
    yield reads(
        "the base of a whole linkbase",
        {
            **leaf,
            "reg/mod.xsd": linkbase(
                f'<a xml:base="x/">{loc("../leaf.xsd")}</a>{loc("leaf.xsd")}', 'xml:base="d/"'
            ),
        },
        one,
    )
    for kind in ("label", "reference"):
        role = (
            '<link:linkbaseRef xlink:href="none.xml"'
            f' xlink:role="http://www.xbrl.org/2003/role/{kind}LinkbaseRef"/>'
        )
        yield reads(
            f"{kind} linkbases are passed over", {"reg/mod.xsd": schema(role + item("A"))}, one
        )
        spaced = role.replace('role="', 'role=" ').replace('Ref"/>', 'Ref "/>')
        yield reads(
            f"{kind} linkbases, with spaces", {"reg/mod.xsd": schema(spaced + item("A"))}, one
        )
    role = (
        '<link:linkbaseRef xlink:href="none.xml"'
        ' xlink:role="http://www.xbrl.org/2003/role/presentationLinkbaseRef"/>'
    )
    yield refuses(
        "presentation linkbases are not",
        {"reg/mod.xsd": schema(role)},
        f"t0/reg/mod.xsd: no package has {HOST}none.xml (linkbaseRef, line 1)",
    )


@for_each(cases(bases_of_linkbases()))
class TestBasesOfLinkbases(FilingTest):
    """The cases of `bases_of_linkbases`."""


def reading_once() -> Iterator[Case]:
    """Rings, schemas by two URLs, and schemas that no package has."""
    one, leaf = ONE, LEAF
    yield reads(
        "imports in a ring, each file once",
        {
            "reg/mod.xsd": schema(include("d/leaf.xsd") + item("B")),
            "reg/d/leaf.xsd": schema(include("../mod.xsd") + include("leaf.xsd#x") + item("A")),
        },
        records("A,text", "B,text"),
    )
    two = {
        "reg/mod.xsd": schema(include("a.xsd") + include("b.xsd")),
        "reg/a.xsd": schema(item("A", "xbrli:dateItemType")),
        "reg/b.xsd": schema(item("A") + item("B")),
    }
    yield reads("two declarations of one name", two, records("A,date", "B,text"))
    yield reads(
        "one schema by two URLs",
        {
            **leaf,
            "reg/mod.xsd": schema(
                include("d/leaf.xsd") + include("https://reg.example/d/leaf.xsd")
            ),
            "META-INF/catalog.xml": catalog(rewrite() + rewrite("https://reg.example/")),
        },
        one,
    )


@for_each(cases(reading_once()))
class TestReadingOnce(FilingTest):
    """The cases of `reading_once`."""


def imports_that_no_package_has() -> Iterator[Case]:
    """Imports and entry points that no package has."""
    yield refuses(
        "an import that no package has",
        {"reg/mod.xsd": schema("\n" + include("http://far.example/x.xsd#a"))},
        "t0/reg/mod.xsd: no package has http://far.example/x.xsd (import, line 2)",
    )
    for host in (
        "w3.org/x.xsd",
        "notxbrl.org/x.xsd",
        "www.xbrl.org.far.example/x.xsd",
        "www.xbrl.org@far.example/x.xsd",
        "far.example/www.xbrl.org",
    ):
        url = f"http://{host}"
        line = f"t0/reg/mod.xsd: no package has {url} (import, line 1)"
        yield refuses(f"an import of {url}", {"reg/mod.xsd": schema(include(url))}, line)
    for url in ("file:///etc/passwd", "ftp://www.xbrl.org/x.xsd", "urn:www.xbrl.org"):
        line = f"t0/reg/mod.xsd: no package has {url} (import, line 1)"
        yield refuses(f"an import of {url}", {"reg/mod.xsd": schema(include(url))}, line)
    yield stops(
        "an entry point that no package has",
        f"t0/reg/mod.json: no package has {HOST}none.xsd (taxonomy)",
        taxonomies=[{**TAXONOMY, "reg/mod.json": meta({**INFO, "taxonomy": ["none.xsd"]})}],
    )
    own = {
        **TAXONOMY,
        "META-INF/catalog.xml": catalog(rewrite() + rewrite("http://www.xbrl.org/", "../xbrl/")),
        "xbrl/own.xsd": schema(item("A")),
        "reg/mod.xsd": schema(include("http://www.xbrl.org/own.xsd")),
    }
    yield makes("the standard's own schemas where a package has them", types=ONE, taxonomies=[own])


@for_each(cases(imports_that_no_package_has()))
class TestImportsThatNoPackageHas(FilingTest):
    """The cases of `imports_that_no_package_has`."""


def including() -> Iterator[Case]:
    """Checks that a schema without a namespace takes that of the including schema, for its names
    and for unprefixed ones.
    """
    plain = schema(
        '<xs:complexType name="T"><xs:simpleContent><xs:restriction'
        ' base="xbrli:dateItemType"/></xs:simpleContent></xs:complexType>'
        + item("A", "T"),
        "",
    )
    two = {
        "reg/mod.xsd": schema(include("plain.xsd", "include") + include("two.xsd")),
        "reg/two.xsd": schema(include("plain.xsd", "include") + item("B"), "http://two/"),
        "reg/plain.xsd": plain,
    }
    both = {**two, "reg/mod.json": meta({**INFO, "namespaces": {"eg": EG, "two": "http://two/"}})}
    undeclared = plain.replace(' type="T"', ' xmlns="" type="T"')
    yield reads(
        "one that says that it has no default namespace",
        {**two, "reg/plain.xsd": undeclared},
        records("A,date"),
    )
    yield reads("an included schema without a namespace", two, records("A,date"))
    yield reads(
        "included by two", both, records("A,date") + "http://two/,A,date,,\nhttp://two/,B,text,,\n"
    )
    yield reads(
        "included through another",
        {
            **two,
            "reg/plain.xsd": schema(include("q/inner.xsd", "include"), ""),
            "reg/q/inner.xsd": plain,
        },
        records("A,date"),
    )
    for first, second in (("import", "include"), ("include", "import")):
        again = {
            "reg/mod.xsd": schema(include("plain.xsd", first) + include("plain.xsd", second)),
            "reg/plain.xsd": plain,
        }
        yield reads(f"{first} and {second} of one schema", again, records("A,date"))
    ring = {
        "reg/mod.xsd": schema(include("plain.xsd", "include")),
        "reg/plain.xsd": schema(include("plain.xsd", "include") + item("A"), ""),
    }
    yield reads("included in a ring", ring, records("A,text"))
    yield reads(
        "imported only, it has no namespace",
        {"reg/mod.xsd": schema(include("plain.xsd")), "reg/plain.xsd": plain},
        TYPES_HEADER,
    )
    for kind in ("redefine", "override"):
        yield refuses(
            f"a {kind}",
            {"reg/mod.xsd": schema("\n" + include("d/leaf.xsd", kind))},
            f"t0/reg/mod.xsd: has a '{kind}', which is not taken (line 2)",
        )


@for_each(cases(including()))
class TestIncluding(FilingTest):
    """The cases of `including`."""


def names_in_schemas() -> Iterator[Case]:
    """Checks that prefixes are those in scope at the name, and that only global elements count."""
    inside = (
        f'<xs:element xmlns:i="{XBRLI}" name="A" type="i:dateItemType" substitutionGroup="i:item"/>'
    )
    inside += (
        f'<xs:element xmlns:i="{XBRLI}/other" name="B" type="i:dateItemType"'
        ' substitutionGroup="i:item"/>'
    )
    yield reads(
        "prefixes declared on an element", {"reg/mod.xsd": schema(inside)}, records("A,date")
    )
    same = 'type="xbrli:dateItemType" substitutionGroup="i:item"/>'
    anew = (
        f'<xs:element name="A" {same}<xs:element xmlns:xbrli="http://x/" name="B" {same}<xs:element'
        f' name="C" {same}'
    )
    files = {"reg/mod.xsd": schema(anew, attributes=f'xmlns:i="{XBRLI}"')}
    yield reads("a prefix declared anew", files, records("A,date", "B,member", "C,date"))
    default = f'<xs:element xmlns="{XBRLI}" name="A" type="dateItemType" substitutionGroup="item"/>'
    default += (
        f'<xs:element xmlns="{XBRLI}" xmlns:xbrli="http://x/" name="B" type=" dateItemType "'
        ' substitutionGroup=" item "/>'
    )
    yield reads(
        "the default namespace", {"reg/mod.xsd": schema(default)}, records("A,date", "B,date")
    )
    plain = '<element name="A" type="i:dateItemType" substitutionGroup="i:item"/>'
    yield reads(
        "the default namespace of a schema",
        {
            "reg/mod.xsd": (
                f'<schema xmlns="{XS}" xmlns:i="{XBRLI}" targetNamespace="{EG}">{plain}</schema>'
            )
        },
        records("A,date"),
    )
    yield refuses(
        "a prefix that is not declared",
        {"reg/mod.xsd": schema('<xs:element name="A" type="no:x"/>')},
        "t0/reg/mod.xsd: has the name 'no:x', whose prefix is not declared (line 1)",
    )
    yield refuses(
        "a name that is none",
        {"reg/mod.xsd": schema('<xs:element name="a b"/>')},
        "t0/reg/mod.xsd: declares 'a b', which is no name (line 1)",
    )
    local = (
        "<xs:complexType"
        f" name=\"T\"><xs:sequence>{item('A', 'xbrli:dateItemType')}</xs:sequence></xs:complexType>"
        + item("B")
    )
    yield reads(
        "elements inside of a type are not global",
        {"reg/mod.xsd": schema(local)},
        records("B,text"),
    )


@for_each(cases(names_in_schemas()))
class TestNamesInSchemas(FilingTest):
    """The cases of `names_in_schemas`."""


LONG_DECLARATION = "<?xml version='1.0' encoding='latin-1'" + " " * (1024 - 40) + "?>"


UMLAUT = schema(item("Größe"))


def encodings() -> Iterator[Case]:
    """Schemas in any encoding."""
    umlaut = UMLAUT
    for encoding in (
        "utf-8",
        "utf-16",
        "iso-8859-1",
        "windows-1252",
        "iso-8859-15",
        "utf-32",
        "cp037",
        "utf-16-le",
    ):
        head = f'<?xml version="1.0" encoding="{encoding.replace("utf-16-le", "utf-16")}"?>'
        text = (b"\xff\xfe" if encoding == "utf-16-le" else b"") + (head + umlaut).encode(encoding)
        yield reads(f"a schema in {encoding}", {"reg/mod.xsd": text}, records("Größe,text"))
    for encoding, name in (("shift_jis", "大きさ"), ("gb18030", "尺寸"), ("euc-kr", "크기")):
        yield reads(
            f"a schema in {encoding}",
            {
                "reg/mod.xsd": (
                    f"<?xml version='1.0' encoding='{encoding}' ?>" + schema(item(name))
                ).encode(encoding)
            },
            records(f"{name},text"),
        )
    yield reads(
        "a schema with a byte-order mark",
        {"reg/mod.xsd": b"\xef\xbb\xbf" + umlaut.encode()},
        records("Größe,text"),
    )
    for name, encoding in (
        *(
            (it, "utf-8")
            for it in (
                "UTF8",
                "utf_8",
                "U8",
                "UTF-16",
                "shift_jis",
                "klingon",
                "punycode",
                "utf-32",
            )
        ),
        *(
            (it, "utf-16")
            for it in ("UTF16", "UTF-8", "UTF8", "klingon", "unicode_escape", "utf-16-le")
        ),
        *((it, "utf-32") for it in ("UTF32", "UTF-8", "klingon")),
    ):
        head = f'<?xml version="1.0" encoding="{name}"?>'
        marked = (b"\xef\xbb\xbf" if encoding == "utf-8" else b"") + (head + umlaut).encode(
            encoding
        )
        yield reads(
            f"{encoding} with a mark that declares {name}",
            {"reg/mod.xsd": marked},
            records("Größe,text"),
        )
        for end in ("-le", "-be") if encoding != "utf-8" else ():
            files = {"reg/mod.xsd": (head + umlaut).encode(encoding + end)}
            yield reads(
                f"{encoding}{end} without a mark that declares {name}", files, records("Größe,text")
            )
    for name, encoding in (
        ("UTF8", "utf-8"),
        ("utf_8", "utf-8"),
        ("latin-1", "latin-1"),
        ("L1", "latin-1"),
    ):
        files = {
            "reg/mod.xsd": (
                f"<?xml version='1.0'\n encoding = '{name}' standalone='yes' ?>" + umlaut
            ).encode(encoding)
        }
        yield reads(f"a schema that declares {name}", files, records("Größe,text"))
    yield reads(
        "a declaration of 1,024 bytes",
        {"reg/mod.xsd": (LONG_DECLARATION + umlaut).encode("latin-1")},
        records("Größe,text"),
    )


@for_each(cases(encodings()))
class TestEncodings(FilingTest):
    """The cases of `encodings`."""


def refused_markup() -> Iterator[Case]:
    """XML and encodings that are refused."""
    edge, umlaut = LONG_DECLARATION, UMLAUT
    for name in (
        "punycode",
        "idna",
        "unicode_escape",
        "raw-unicode-escape",
        "UTF-7",
        "undefined",
        "zlib",
        "utf-8-sig",
        "hz",
        "charmap",
    ):
        line = f"t0/reg/mod.xsd: is in an encoding that is not taken: {name}"
        yield refuses(
            f"a schema in {name}",
            {"reg/mod.xsd": f"<?xml version='1.0' encoding='{name}'?>{schema()}"},
            line,
        )
    faulty: list[tuple[str, Text, str]] = [
        (
            "a document type",
            "<!DOCTYPE x>" + schema(),
            "has a document type, which is refused (line 1)",
        ),
        (
            "an entity",
            '<?xml version="1.0"?>\n<!DOCTYPE x [<!ENTITY a "b">]>' + schema("&a;"),
            "has a document type, which is refused (line 2)",
        ),
        (
            "an outer entity",
            '<!DOCTYPE x SYSTEM "file:///etc/passwd">' + schema(),
            "has a document type, which is refused (line 1)",
        ),
        (
            "an entity that is not declared",
            schema("&a;"),
            "is not well-formed XML: undefined entity (line 1)",
        ),
        ("no end", schema()[:-3], "is not well-formed XML: unclosed token (line 1)"),
        ("nothing", "", "is not well-formed XML: no element found (line 1)"),
        (
            "two roots",
            schema() + "<a/>",
            "is not well-formed XML: junk after document element (line 1)",
        ),
        (
            "a prefix without a namespace",
            "<a:b/>",
            "is not well-formed XML: unbound prefix (line 1)",
        ),
        (
            "bytes of another encoding",
            b'<?xml version="1.0"?>\n<a b="\xff"/>',
            "is not well-formed XML: not well-formed (invalid token) (line 2)",
        ),
        (
            "half a letter of shift_jis",
            b'<?xml version="1.0" encoding="shift_jis"?><a b="\x81\xff"/>',
            "is not in its encoding, shift_jis (line 1)",
        ),
        (
            "half a letter at its end",
            f"<?xml version='1.0' encoding='euc-kr'?>{schema()}".encode() + b"\xb0",
            "is not in its encoding, euc-kr (line 1)",
        ),
        (
            "UTF-16 that is none",
            f'<?xml version="1.0" encoding="UTF-16"?>{schema()}',
            "is not in its encoding, UTF-16 (line 1)",
        ),
        (
            "a long declaration",
            edge.replace("?>", " ?>") + schema(),
            "has an XML declaration of more than 1024 bytes",
        ),
        (
            "letters that are not ASCII",
            f'<?xml version="1.0" encoding="us-ascii"?>{umlaut}',
            "is not well-formed XML: not well-formed (invalid token) (line 1)",
        ),
        (
            "an encoding that is not known",
            '<?xml version="1.0" encoding="klingon"?><a/>',
            "is in an encoding that is not known: klingon",
        ),
        (
            "an encoding that is none",
            '<?xml version="1.0" encoding="rot13"?><a/>',
            "is in an encoding that is not taken: rot13",
        ),
        ("another document", "<html/>", "is neither a schema nor a linkbase: its root is 'html'"),
        (
            "a locator alone",
            '<link:loc xmlns:link="http://www.xbrl.org/2003/linkbase"/>',
            "is neither a schema nor a linkbase: its root is 'loc'",
        ),
    ]
    for name, text, what in faulty:
        yield refuses(f"a schema with {name}", {"reg/mod.xsd": text}, f"t0/reg/mod.xsd: {what}")


@for_each(cases(refused_markup()))
class TestRefusedMarkup(FilingTest):
    """The cases of `refused_markup`."""


class TestRuns(FilingTest):
    """Tests that take several runs of one folder."""

    def test_known_encodings(self) -> None:
        """Python has a decoder of each encoding that is taken."""
        unknown = [
            it
            for it in markup.TAKEN
            if codecs.lookup(it).name != it or not codecs.getincrementaldecoder(it)
        ]
        self.case("Python knows all encodings that are taken", unknown, [])
