"""What the schemas of a taxonomy declare.

They are read as a stream from the entry points, through imports and linkbases.
"""

from __future__ import annotations

import re
from collections import deque
from typing import Deque, Dict, List, NamedTuple, Optional, Set, Tuple
from xml.parsers import expat

from .finding import Finder, Found
from .markup import A_REFERENCE, DEEPEST, XML_BASE, Content, Name, parse
from .progress import Progress
from .refusals import wrong
from .urls import LONGEST_URL, Place, joined

XS = "http://www.w3.org/2001/XMLSchema "
LINK = "http://www.xbrl.org/2003/linkbase "
HREF = "http://www.w3.org/1999/xlink href"
ROLE = "http://www.w3.org/1999/xlink role"
TYPED_DOMAIN = "http://xbrl.org/2005/xbrldt typedDomainRef"
PERIOD_TYPE = "http://www.xbrl.org/2003/instance periodType"
PERIODS = ("instant", "duration")

SCHEMA, LINKBASE = XS + "schema", LINK + "linkbase"
ELEMENT, INCLUDE = XS + "element", XS + "include"
COMPLEX = XS + "complexType"
NAMED_TYPES = (COMPLEX, XS + "simpleType")
DERIVATIONS = (XS + "restriction", XS + "extension")
WAY_TO_A_BASE = frozenset([*NAMED_TYPES, *DERIVATIONS, XS + "simpleContent", XS + "complexContent"])
REDEFINITIONS = (XS + "redefine", XS + "override")
LINKBASE_REF = LINK + "linkbaseRef"
FOLLOWED = {
    XS + "import": "schemaLocation",
    INCLUDE: "schemaLocation",
    **{LINK + name: HREF for name in ("linkbaseRef", "loc", "roleRef", "arcroleRef")},
}
PASSED_OVER = frozenset(f"http://www.xbrl.org/2003/role/{role}LinkbaseRef" for role in ("label", "reference"))
A_DECLARATION = 6  # elements that take as long as keeping what one declares
MOST_ENDED = 1 << 16  # elements of a linkbase that are counted together
NCNAME = (
    "[A-Z_a-z\u00c0-\u00d6\u00d8-\u00f6\u00f8-\u02ff\u0370-\u037d\u037f-\u1fff\u200c\u200d\u2070-\u218f\u2c00-\u2fef\u3001-\ud7ff"
    "\uf900-\ufdcf\ufdf0-\ufffd\U00010000-\U000effff]"
    "[-.0-9A-Z_a-z\u00b7\u00c0-\u00d6\u00d8-\u00f6\u00f8-\u037d\u037f-\u1fff\u200c\u200d\u203f\u2040\u2070-\u218f\u2c00-\u2fef"
    "\u3001-\ud7ff\uf900-\ufdcf\ufdf0-\ufffd\U00010000-\U000effff]*"
)


class Element(NamedTuple):
    """What a global element declares.

    The type may be the base of the type inside of it. `domain` is what a typed dimension refers to:
    the base of the reference, and its text.
    """

    head: Optional[Name]
    type: Optional[Name]
    abstract: bool
    period: str  # empty, or one of PERIODS
    domain: Optional[Tuple[Place, str]]


class Declared:
    """The global elements of all schemas, and the base of each global type.

    The elements are by namespace and name. A namespace without an element has a schema too.
    """

    def __init__(self) -> None:
        self.elements: Dict[str, Dict[str, Element]] = {}
        self.types: Dict[Name, Optional[Name]] = {}
        self.complex: Set[Name] = set()  # the types that are not simple
        # The type of each element without a head, by schema and id; None if it is not simple.
        self.domains: Dict[Place, Dict[str, Optional[Name]]] = {}


class Reference(NamedTuple):
    """A file that another one asks for.

    `adopts` is the namespace that an `include` gives to a schema that has none.
    """

    place: Place
    asker: str
    how: str
    adopts: str


class TaxonomyFile(Content):
    """A schema or a linkbase, which its root tells (XBRL 2.1, section 3.2).

    From its root on the file is read by a `SchemaFile` or a `LinkbaseFile`, which is `made`.
    """

    def __init__(self, found: Found, adopts: str, reading: Reading) -> None:
        super().__init__(found.place, found.label)
        self.place = found.place
        self.adopts = adopts
        self.reading = reading
        self.made: Optional[Referring] = None

    def start(self, name: str, attributes: Dict[str, str]) -> None:
        if name == SCHEMA:
            self.made = SchemaFile(self, self.reading, self.adopts, attributes)
        elif name == LINKBASE:
            self.made = LinkbaseFile(self, self.reading)
        else:
            root = name.rpartition(" ")[2]
            raise wrong(self.label, f"is neither a schema nor a linkbase: its root is '{root}'")
        if self.parser:
            self.made.take(self.parser)
        self.made.start(name, attributes)

    def end(self, name: str) -> None:
        """Do nothing: the root's end goes to the content that it made."""

    def elements(self) -> int:
        return self.made.elements() if self.made else super().elements()

    def work(self) -> int:
        return self.made.work() if self.made else super().work()

    def drop(self) -> None:
        super().drop()
        if self.made:
            self.made.drop()

    def has_namespace(self) -> bool:
        """Return whether the file does not adopt the namespace of a schema that includes it."""
        return not isinstance(self.made, SchemaFile) or self.made.has_namespace


class Referring(Content):
    """The content of a file that asks for others, from its root on."""

    adopts = ""  # the namespace that an `include` gives

    def __init__(self, file: TaxonomyFile, reading: Reading) -> None:
        super().__init__(file.base(), file.label)
        self.scope, self.declarations = file.scope, file.declarations
        self.reading = reading
        self.asked: Set[Tuple[Place, str, bool]] = set()

    def follow(self, name: str, attributes: Dict[str, str]) -> None:
        """Ask for the file to which an element refers (XBRL 2.1, section 3.2: discovery)."""
        reference = attributes.get(FOLLOWED[name])
        if reference is None:
            return
        if name == LINKBASE_REF and attributes.get(ROLE, "").strip() in PASSED_OVER:
            return
        includes = name == INCLUDE
        key = (self.base(), reference.partition("#")[0], includes)
        if key in self.asked:
            return
        self.asked.add(key)
        self.started += A_REFERENCE
        place = joined(self.base(), reference.strip())
        adopts = self.adopts if includes else ""
        if self.reading.is_new(place, self.label, adopts):
            how = f"{name.rpartition(' ')[2]}, line {self.line()}"
            self.reading.waiting.append(Reference(place, self.label, how, adopts))


class LinkbaseFile(Referring):
    """A linkbase. Only its references count (XBRL 2.1, section 3.5).

    Linkbases are most of a taxonomy, so no Python code runs at the end of an element: `ended` takes
    the names. Each start learns from their count how many elements are open around it.
    """

    def __init__(self, file: TaxonomyFile, reading: Reading) -> None:
        super().__init__(file, reading)
        self.ended: List[str] = []

    def elements(self) -> int:
        return super().elements() + len(self.ended)

    def take(self, parser: expat.XMLParserType) -> None:
        super().take(parser)
        parser.EndElementHandler = self.ended.append

    def start(self, name: str, attributes: Dict[str, str]) -> None:
        self.attributes += len(attributes)
        depth = self.depth = self.depth + 1
        if depth - len(self.ended) > DEEPEST or len(self.ended) >= MOST_ENDED:
            self.count_ended()
        if len(self.bases) > 1:
            self.leave_bases()
        if XML_BASE in attributes:
            self.count_ended()
            self.rebase(attributes[XML_BASE])
        if name in FOLLOWED:
            self.follow(name, attributes)

    def count_ended(self) -> None:
        """Take the elements that have ended off the depth, and refuse one that is too deep."""
        self.depth -= len(self.ended)
        self.started += len(self.ended)
        self.ended.clear()
        if self.depth > DEEPEST:
            raise self.too_deep()

    def leave_bases(self) -> None:
        """Leave each `xml:base` whose element has ended, before a new element takes its place."""
        self.count_ended()
        while self.bases[-1][0] >= self.depth:
            self.bases.pop()


class SchemaFile(Referring):
    """A schema: its global elements, its types, and what it refers to.

    See XML Schema, part 1, sections 3.3, 3.4 and 4.2.
    """

    def __init__(
        self, file: TaxonomyFile, reading: Reading, adopts: str, attributes: Dict[str, str]
    ) -> None:
        super().__init__(file, reading)
        self.declared, self.shared = reading.declared, reading.shared
        self.place = file.place.known()
        own = attributes.get("targetNamespace", "").strip()
        self.has_namespace: bool = own != ""
        self.namespace = self.adopts = own or adopts
        self.declared.elements.setdefault(self.namespace, {})
        # A global element or type whose content is still to come.
        self.open: Optional[Tuple[bool, str, Dict[str, str]]] = None
        # How many elements are open in it that are not on the way to its base.
        self.astray = 0
        self.derived_from: Optional[Name] = None
        self.is_complex = False  # whether it is, or has, a complex type
        self.kept = 0  # global elements and types
        self.is_ncname = re.compile(NCNAME).fullmatch
        # By what the attributes say, while the prefixes in scope are the same.
        self.made: Dict[object, Element] = {}

    def work(self) -> int:
        return super().work() + A_DECLARATION * self.kept

    def start(self, name: str, attributes: Dict[str, str]) -> None:
        self.started += 1
        self.attributes += len(attributes)
        depth = self.depth = self.depth + 1
        if depth > DEEPEST:
            raise self.too_deep()
        if XML_BASE in attributes:
            self.rebase(attributes[XML_BASE])
        if name in FOLLOWED:
            if self.open is not None and depth > 2:
                self.astray += 1
            self.follow(name, attributes)
        elif depth == 2:
            self.top(name, attributes)
        elif self.open is not None:
            self.inner(name, attributes)

    def end(self, name: str) -> None:
        if self.open is not None:
            if self.depth == 2:
                self.close()
            elif name not in WAY_TO_A_BASE:
                self.astray -= 1
        if self.bases[-1][0] == self.depth:
            self.bases.pop()
        self.depth -= 1

    def top(self, name: str, attributes: Dict[str, str]) -> None:
        """Take a child of `schema`."""
        if name == ELEMENT:
            self.open = (True, self.ncname(attributes), attributes)
            if "type" in attributes:
                self.close()
        elif name in NAMED_TYPES:
            self.open = (False, self.ncname(attributes), attributes)
            self.is_complex = name == COMPLEX
        elif name in REDEFINITIONS:
            raise wrong(self.label, f"has a '{name.rpartition(' ')[2]}', which is not taken (line {self.line()})")

    def inner(self, name: str, attributes: Dict[str, str]) -> None:
        """Take an element inside of a global element or type, and look for the derivation.

        Derivations of elements further inside do not count.
        """
        if name == COMPLEX and not self.astray:
            self.is_complex = True
        if name not in WAY_TO_A_BASE:
            self.astray += 1
        elif name in DERIVATIONS and self.derived_from is None and not self.astray and "base" in attributes:
            self.derived_from = self.name(attributes["base"], self.adopted())

    def close(self) -> None:
        """Keep a global element or type.

        The first one of a name counts: a schema by two URLs gives its names once.
        """
        assert self.open is not None
        self.kept += 1
        is_element, name, attributes = self.open
        if is_element:
            element = self.element(attributes)
            self.declared.elements[self.namespace].setdefault(name, element)
            if "id" in attributes and element.head is None:
                domains = self.declared.domains.setdefault(self.place, {})
                kind = None if self.is_complex else element.type
                domains.setdefault(attributes["id"].strip(), kind)
        elif (self.namespace, name) not in self.declared.types:
            self.declared.types[self.namespace, name] = self.derived_from
            if self.is_complex:
                self.declared.complex.add((self.namespace, name))
        self.open = self.derived_from = None
        self.is_complex = False

    def element(self, attributes: Dict[str, str]) -> Element:
        """Return what an element declares.

        Equal ones share one tuple, so that a large taxonomy takes little memory.
        """
        head, type_name, abstract = attributes.get("substitutionGroup"), attributes.get("type"), attributes.get("abstract")
        period, domain = attributes.get(PERIOD_TYPE, "").strip(), self.domain(attributes)
        key = (head, type_name, abstract, self.derived_from, period, domain, self.declarations)
        made = self.made.get(key)
        if made is None:
            made = Element(
                None if head is None else self.name(head, self.adopted()),
                self.derived_from if type_name is None else self.name(type_name, self.adopted()),
                (abstract or "").strip() in ("true", "1"),
                period if period in PERIODS else "",
                domain,
            )
            made = self.made[key] = self.shared.setdefault(made, made)
        return made

    def domain(self, attributes: Dict[str, str]) -> Optional[Tuple[Place, str]]:
        """Return what a typed dimension refers to (Dimensions 1.0, section 2.5.2.1).

        It is joined to its base later, because bases may be long.
        """
        reference = attributes.get(TYPED_DOMAIN)
        if reference is None:
            return None
        self.started += A_REFERENCE
        return self.base(), reference.strip()[: LONGEST_URL + 1]

    def adopted(self) -> str:
        """Return the namespace of unprefixed names.

        It is that of an including schema if this one has none (XML Schema, part 1, section 4.2.1).
        """
        return "" if self.has_namespace else self.namespace

    def ncname(self, attributes: Dict[str, str]) -> str:
        name = attributes.get("name", "").strip()
        if not self.is_ncname(name):
            raise wrong(self.label, f"declares '{name}', which is no name (line {self.line()})")
        return name


class Reading:
    """The files of a taxonomy that are still to be read, and what those that were read declare."""

    def __init__(self, finder: Finder) -> None:
        self.finder = finder
        self.declared = Declared()
        self.shared: Dict[Element, Element] = {}
        self.waiting: Deque[Reference] = deque()
        self.asked: Set[Tuple[Place, str]] = set()
        self.with_namespace: Set[Place] = set()

    def is_new(self, place: Place, asker: str, adopts: str) -> bool:
        """Count a file that is asked for, unless it was asked for before in the same way."""
        key = (place.known(), adopts)
        if key in self.asked:
            return False
        self.asked.add(key)
        self.finder.count(place, asker)
        return True

    def read(self, reference: Reference, progress: Progress) -> None:
        """Read a file, unless it was read before and adopts no namespace."""
        place, asker, how, adopts = reference
        if place.known() in self.with_namespace:
            return
        found = self.finder.find_schema(place, asker, how)
        if found is None:
            return
        content = TaxonomyFile(found, adopts, self)
        pieces = progress.counted(self.finder.pieces(found))
        parse(pieces, content, self.finder.elements, found.package.allowance)
        if content.has_namespace():
            self.with_namespace.add(place.known())


def read_schemas(entries: List[Reference], finder: Finder, progress: Progress) -> Declared:
    """Read all schemas and linkbases that the entry points reach, in the order of their finding."""
    reading = Reading(finder)
    for entry in entries:
        if reading.is_new(entry.place, entry.asker, entry.adopts):
            reading.waiting.append(entry)
    while reading.waiting:
        reading.read(reading.waiting.popleft(), progress)
    return reading.declared
