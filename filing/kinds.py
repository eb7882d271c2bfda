"""The kind of each concept, dimension and member.

Substitution groups and types are followed to what the standards name.
"""

from __future__ import annotations

from typing import Callable, Dict, Optional, Set, Tuple, TypeVar

from .markup import Name
from .schemas import XS, Declared, Element
from .urls import LONGEST_URL, Place, decoded, joined

XBRLI = "http://www.xbrl.org/2003/instance"
XBRLDT = "http://xbrl.org/2005/xbrldt"
REGISTRY = "http://www.xbrl.org/dtr/type/"
NUMERIC_REGISTRY = REGISTRY + "numeric"

# What no fact can have, though metadata may name it: a refusal has the words of `REASONS`.
TUPLE, FRACTION, UNKNOWN = "!tuple", "!fraction", "!unknown"
MEMBER = "member,,"  # an item that no fact can have: dimensions and enumerations may have it
MOST_DOMAIN_FILES = 1000  # in which values of typed dimensions are looked up; modules have a few
REASONS = {
    TUPLE: "is a tuple, which no table can have",
    FRACTION: "is a fraction, which xBRL-JSON cannot have",
    UNKNOWN: "has a type that leads to none that is known",
}

ITEM, TUPLES = (XBRLI, "item"), (XBRLI, "tuple")
DIMENSION, HYPERCUBE = (XBRLDT, "dimensionItem"), (XBRLDT, "hypercubeItem")
HEADS = {ITEM, TUPLES, DIMENSION, HYPERCUBE}


def item_types(word: str, names: str) -> Dict[str, str]:
    return {f"{name}ItemType": word for name in names.split()}


# The types of XML Schema that the types table has a word for.
SIMPLE_TYPES = {
    **{
        name: name
        for name in (
            *("decimal", "integer", "nonPositiveInteger", "negativeInteger", "nonNegativeInteger"),
            *("positiveInteger", "long", "int", "short", "byte"),
            *("unsignedLong", "unsignedInt", "unsignedShort", "unsignedByte"),
            *("double", "boolean", "date", "dateTime", "time", "duration"),
            *("gYear", "gYearMonth", "gMonth", "gMonthDay", "gDay"),
            *("language", "NCName", "hexBinary"),
        )
    },
    "float": "double",
    "QName": "qname",
}

# XBRL 2.1, section 5.1.1.3.
INSTANCE_TYPES = {
    **{f"{name}ItemType": word for name, word in SIMPLE_TYPES.items()},
    **item_types("decimal", "pure"),
    **item_types("monetary", "monetary"),
    **item_types("shares", "shares"),
    **item_types("text", "string normalizedString token"),
    **item_types("other", "Name anyURI base64Binary"),
    **item_types(FRACTION, "fraction"),
}

# XML Schema, part 2, section 3.3, and XBRL 2.1, section 5.1.1.3: other types of typed domains.
NAMES = dict.fromkeys(("ID", "IDREF", "ENTITY"), "NCName")
INSTANCE_DECIMALS = ("decimal", "monetary", "shares", "pure", "nonZeroDecimal")

# The Data Type Registry: names of its undated and dated namespaces.
REGISTRY_TYPES = {
    **item_types("other", "domain noLangString noLangToken SQName SQNames prefixedContent"),
    **item_types("text", "textBlock escaped xml xmlNodes"),
    **item_types("decimal", "percent perShare area volume mass weight energy power length memory force frequency pressure temperature"),
    **item_types("decimal", "voltage electricCurrent electricCharge planeAngle ghgEmissions insolation irradiance speed flow massFlow"),
    **item_types("monetary", "noDecimalsMonetary nonNegativeMonetary nonNegativeNoDecimalsMonetary"),
    **item_types("decimal", "monetaryPerLength monetaryPerArea"),
    **item_types("decimal", "monetaryPerVolume monetaryPerDuration monetaryPerEnergy monetaryPerMass energyPerMonetary"),
    **item_types("decimal", "ghgEmissionsPerMonetary volumePerMonetary perUnit"),
}

# Extensible Enumerations 1.0, 1.1 and 2.0.
ENUMERATIONS = {
    ("http://xbrl.org/2014/extensible-enumerations", "enumerationItemType"): "enumeration",
    ("http://xbrl.org/PWD/2016-10-12/extensible-enumerations-1.1", "enumerationItemType"): "enumeration",
    ("http://xbrl.org/PWD/2016-10-12/extensible-enumerations-1.1", "enumerationsItemType"): "other",
    ("http://xbrl.org/2020/extensible-enumerations-2.0", "enumerationItemType"): "enumeration",
    ("http://xbrl.org/2020/extensible-enumerations-2.0", "enumerationSetItemType"): "enumerations",
}

# The last three cells of a record of the types table, or one of `REASONS`, by namespace and name.
# A namespace that has a schema is there, even if it has no such element.
Kinds = Dict[str, Dict[str, str]]


def cells_of_kind(kind: str) -> Optional[str]:
    """Return the last three cells of a record of the types table; None if there is no record.

    An item that no fact can have may still be a member (Dimensions 1.0, section 2.5.3).
    """
    if kind == TUPLE:
        return None
    return MEMBER if kind.startswith("!") else kind


def word_of(kind: str) -> str:
    """Return the word of a kind, or the one of `REASONS` that it is."""
    return kind.partition(",")[0]


def known_word(name: Name) -> Optional[str]:
    """Return the word of a type that the standards name, whatever a package's copy declares."""
    namespace, local = name
    if namespace == XBRLI:
        return INSTANCE_TYPES.get(local)
    if namespace.startswith(REGISTRY):
        return REGISTRY_TYPES.get(local) or ("decimal" if namespace == NUMERIC_REGISTRY else None)
    return ENUMERATIONS.get(name)


def simple_word(name: Name) -> Optional[str]:
    """Return the word of a simple type that the standards name; `other` if it has none."""
    namespace, local = name
    if namespace == XS.rstrip():
        return SIMPLE_TYPES.get(local) or NAMES.get(local, "other")
    if namespace == XBRLI:
        return "decimal" if local in INSTANCE_DECIMALS else "other"
    return None


Known = TypeVar("Known")
NOWHERE: Name = ("", "")


def followed(
    start: Optional[Name], kept: Dict[Name, Known], known: Callable[[Name], Optional[Known]], above: Callable[[Name], Optional[Name]], none: Known
) -> Known:
    """Follow `above` from `start` to the first name that `known` knows, and return what it knows.

    Return `none` if the chain ends or loops. Cache the answer in `kept` for each name passed.
    """
    way: Set[Name] = set()
    at, end = start, None
    while at is not None and at not in way:
        end = kept.get(at) or known(at)
        if end:
            break
        way.add(at)
        at = above(at)
    kept.update((name, end or none) for name in way)
    return end or none


class Chains:
    """Follows the chains of substitution groups and of types.

    Answers are cached, because most elements have the same ones and chains may be long.
    """

    def __init__(self, declared: Declared) -> None:
        self.declared = declared
        self.heads: Dict[Name, Name] = {}
        self.types: Dict[Name, Name] = {}
        self.words: Dict[Name, str] = {}
        self.simple: Dict[Name, str] = {}
        self.places: Dict[Tuple[Place, str], Place] = {}
        self.kinds: Dict[Element, Optional[str]] = {}

    def element(self, name: Name) -> Optional[Element]:
        return self.declared.elements.get(name[0], {}).get(name[1])

    def head_of(self, name: Name) -> Optional[Name]:
        element = self.element(name)
        return element.head if element else None

    def own_type(self, name: Name) -> Optional[Name]:
        """Return the type that an element states, if any.

        An element that does not exist ends the chain: nothing is above it.
        """
        element = self.element(name)
        return element.type if element else NOWHERE

    def known_head(self, start: Optional[Name]) -> Name:
        """Return the head that the standards name, at the end of a chain of substitution groups."""
        return followed(start, self.heads, lambda name: name if name in HEADS else None, self.head_of, NOWHERE)

    def type_of(self, element: Element) -> Name:
        """Return an element's own type, else that of the head of its substitution group.

        See XML Schema, part 1, section 3.3.2.
        """
        return element.type or followed(element.head, self.types, self.own_type, self.head_of, NOWHERE)

    def word(self, start: Name) -> str:
        """Return the word of a type: that of the first known type it is derived from."""
        return followed(start, self.words, known_word, self.declared.types.get, UNKNOWN)

    def simple_base(self, name: Name) -> Optional[Name]:
        """Return the base of a simple type, if the name is that of one."""
        return None if name in self.declared.complex else self.declared.types.get(name)

    def values(self, base: Place, reference: str) -> str:
        """Return the word of the values of a typed dimension; empty if any text is one.

        It is that of the type of the element to which the dimension refers, if the type is simple.
        """
        url, _, identifier = reference.partition("#")
        place = self.places.get((base, url))
        if place is None:
            if len(url) > LONGEST_URL or len(self.places) == MOST_DOMAIN_FILES:
                return ""
            place = self.places[base, url] = joined(base, url).known()
        start = self.declared.domains.get(place, {}).get(decoded(identifier))
        word = followed(start, self.simple, simple_word, self.simple_base, "other")
        return "" if word == "other" else word

    def kind(self, element: Element) -> Optional[str]:
        """Return what an element is; None if no fact can have it, and no dimension as a member.

        See Dimensions 1.0, section 2, and XBRL 2.1, section 5.1.1.
        """
        if element not in self.kinds:
            self.kinds[element] = self.found_kind(element)
        return self.kinds[element]

    def found_kind(self, element: Element) -> Optional[str]:
        head = self.known_head(element.head)
        if head == DIMENSION:
            return f"typed,,{self.values(*element.domain)}" if element.domain else "explicit,,"
        if head == TUPLES:
            return TUPLE
        if head != ITEM:
            return None
        if element.abstract:
            return MEMBER
        word = self.word(self.type_of(element))
        return word if word in REASONS else f"{word},{element.period},"


def kinds_of(declared: Declared) -> Kinds:
    """Return the kinds of all elements that have one."""
    chains = Chains(declared)
    found: Kinds = {}
    for namespace, elements in declared.elements.items():
        found[namespace] = {name: kind for name, kind in ((name, chains.kind(element)) for name, element in elements.items()) if kind}
    return found


def kind_of(name: str, namespaces: Dict[str, str], kinds: Kinds) -> Optional[str]:
    """Return the word of a QName of the metadata, or the one of `REASONS` that it is, or None."""
    prefix, _, local = name.partition(":")
    kind = kinds.get(namespaces.get(prefix, ""), {}).get(local)
    return None if kind is None else word_of(kind)
