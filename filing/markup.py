"""XML as a stream: namespaces in scope, `xml:base`, encodings; no document types, no entities."""

from __future__ import annotations

import codecs
import re
from typing import Dict, Iterable, Iterator, List, Optional, Tuple
from xml.parsers import expat

from .allowance import Allowance
from .refusals import Refusal, wrong
from .urls import LONGEST_URL, Place, joined

Name = Tuple[str, str]  # a namespace (`""` for none) and a local name
XML_BASE = "http://www.w3.org/XML/1998/namespace base"
MOST_BASES = 100
DEEPEST = 1000  # elements around one; schemas of supervisors have 20 at most
LARGEST_TOKEN = 1 << 20  # of a tag or a comment, which expat reads again for each piece of it
LONGEST_NAMESPACE = 255  # characters, which expat copies for each name in it
MOST_ELEMENTS = 10_000_000  # of the XML of a run; a module of 200 MB has 1.3 million
FREE_ELEMENTS = 100_000  # of a run, which may be of any length
A_REFERENCE = 10  # elements that take as long as a reference which is followed, or a base
OF_ELEMENT = 4  # attributes that take as long as an element
BYTES_OF_ELEMENT = 64  # that do
SHORTEST = 16  # bytes of each further element on average; those of modules have 130 to 150
NO_MEMORY = expat.errors.codes[expat.errors.XML_ERROR_NO_MEMORY]
# The encodings that are taken, by Python's names: what expat calls those that it reads itself, or
# None. Others are refused: some take quadratic time (punycode), some do not encode text.
TAKEN: Dict[str, Optional[str]] = {
    "utf-8": "utf-8",
    "utf-16": "utf-16",
    "ascii": "us-ascii",
    "iso8859-1": "iso-8859-1",
    **dict.fromkeys(
        [
            *("utf-32", "utf-16-be", "utf-16-le", "utf-32-be", "utf-32-le"),
            *(f"iso8859-{number}" for number in (*range(2, 12), *range(13, 17))),
            *(f"cp{number}" for number in range(1250, 1259)),
            *("cp037", "cp273", "cp437", "cp500", "cp850", "cp852", "cp858", "cp866", "cp1140"),
            *("cp874", "tis-620", "koi8-r", "koi8-u", "mac-roman"),
            *("shift_jis", "cp932", "euc_jp", "iso2022_jp", "gb2312", "gbk", "gb18030"),
            *("big5", "big5hkscs", "cp950", "euc_kr", "cp949", "johab"),
        ]
    ),
}
LONGEST_DECLARATION = 1024
DECLARED = re.compile(
    r"""<\?xml(?:\s[^>]*?)?\sencoding\s*=\s*["']([A-Za-z][A-Za-z0-9._-]*)["'][^>]*\?>"""
)
MARKS = (
    (b"\xff\xfe\0\0", "utf-32"),
    (b"\0\0\xfe\xff", "utf-32"),
    (b"\xff\xfe", "utf-16"),
    (b"\xfe\xff", "utf-16"),
    (b"\xef\xbb\xbf", "utf-8"),
    (b"<\0\0\0", "utf-32-le"),
    (b"\0\0\0<", "utf-32-be"),
    (b"<\0", "utf-16"),
    (b"\0<", "utf-16"),
)


class Elements:
    """Counts the elements of the XML files of a run, and refuses too many.

    Time goes by elements, so a file of very short ones takes as long as a far larger file.
    """

    def __init__(self, most: int = MOST_ELEMENTS, free: int = FREE_ELEMENTS) -> None:
        self.most, self.free = most, free
        self.count = self.size = 0

    def add(self, more: int, size: int, label: str) -> None:
        """Add the elements in `size` bytes of a file."""
        self.count += more
        self.size += size
        before = "with the XML read before it: check where the package is from"
        if self.count > self.most:
            raise wrong(label, f"has more than {self.most} elements, {before}")
        if self.count > self.free + self.size // SHORTEST:
            why = f"has more than {self.free} elements of fewer than {SHORTEST} bytes"
            raise wrong(label, f"{why}, {before}")


class Content:
    """The content of a file: `start` and `end` are called for its elements.

    The names of elements are `namespace local`.
    """

    def __init__(self, place: Place, label: str) -> None:
        self.label = label
        self.depth = self.started = self.attributes = 0
        self.bases: List[Tuple[int, Place]] = [(0, place)]
        self.scope: Dict[str, List[str]] = {"xml": ["http://www.w3.org/XML/1998/namespace"]}
        self.declarations = 0  # how often the prefixes in scope have changed
        self.parser: Optional[expat.XMLParserType] = None

    def take(self, parser: expat.XMLParserType) -> None:
        """Have the parser call this content from here on."""
        self.parser = parser
        parser.StartNamespaceDeclHandler = self.declare
        parser.EndNamespaceDeclHandler = self.forget
        parser.StartElementHandler = self.start
        parser.EndElementHandler = self.end

    def drop(self) -> None:
        """Forget the parser: the two refer to each other, so neither would be freed at once."""
        self.parser = None

    def elements(self) -> int:
        """Return how many elements have come. A prefix that one declares counts as two more."""
        return self.started + self.declarations

    def work(self) -> int:
        """Return how many elements take as long as what has come."""
        return self.elements() + self.attributes // OF_ELEMENT

    def start(self, name: str, attributes: Dict[str, str]) -> None:
        raise NotImplementedError

    def end(self, name: str) -> None:
        raise NotImplementedError

    def declare(self, prefix: Optional[str], uri: Optional[str]) -> None:
        self.declarations += 1
        if uri is not None and len(uri) > LONGEST_NAMESPACE:
            most = f"more than {LONGEST_NAMESPACE} are not taken"
            raise wrong(self.label, f"has a namespace of {len(uri)} characters; {most} (line {self.line()})")
        self.scope.setdefault(prefix or "", []).append(uri or "")

    def forget(self, prefix: Optional[str]) -> None:
        self.declarations += 1
        self.scope[prefix or ""].pop()

    def base(self) -> Place:
        """Return the base of references where the parser is (XML Base)."""
        return self.bases[-1][1]

    def rebase(self, reference: str) -> None:
        """Take the `xml:base` of the element that has just begun.

        Each is joined to the one around it, so their length and their number have bounds.
        """
        self.started += A_REFERENCE
        base = joined(self.base(), reference.strip())
        if len(base.text) > LONGEST_URL:
            raise wrong(self.label, f"has an 'xml:base' of {len(base.text)} characters; more than {LONGEST_URL} are not taken (line {self.line()})")
        if len(self.bases) > MOST_BASES:
            raise wrong(self.label, f"has more than {MOST_BASES} elements with 'xml:base' inside of each other (line {self.line()})")
        self.bases.append((self.depth, base))

    def enter(self) -> None:
        """Enter an element, unless too many are around it."""
        self.started += 1
        self.depth += 1
        if self.depth > DEEPEST:
            raise self.too_deep()

    def too_deep(self) -> Refusal:
        line = f"line {self.line()}"
        return wrong(self.label, f"is nested more than {DEEPEST} levels deep ({line})")

    def leave(self) -> None:
        """Leave an element: its `xml:base` ends with it."""
        if self.bases[-1][0] == self.depth:
            self.bases.pop()
        self.depth -= 1

    def name(self, text: str, unprefixed: str = "") -> Name:
        """Return a QName of an attribute, by the prefixes in scope.

        The default namespace counts (XML Schema, part 2, section 3.2.18). Refuse a prefix that is
        not declared.
        """
        prefix, colon, local = text.strip().partition(":")
        if not colon:
            prefix, local = "", prefix
        bound = self.scope.get(prefix)
        if bound:
            return bound[-1] or unprefixed, local
        if prefix:
            raise wrong(self.label, f"has the name '{text.strip()}', whose prefix is not declared (line {self.line()})")
        return unprefixed, local

    def line(self) -> int:
        return self.parser.CurrentLineNumber if self.parser else 0


def parse(
    pieces: Iterable[bytes], content: Content, elements: Elements, allowance: Allowance
) -> None:
    """Read a file to its end, and add its elements to those of the run and of its package.

    Refuse one that is not well-formed, that is in an encoding that is not taken, that has too many
    elements, or that has a document type, and so any that has an entity of its own.
    """
    pieces = iter(pieces)
    first = start_of(pieces)
    native, encoding = encoding_of(first, content.label)
    parser = expat.ParserCreate(native or "utf-8", " ")
    parser.StartDoctypeDeclHandler = lambda *_: refuse(content, "has a document type")
    content.take(parser)
    try:
        fed = counted = worked = 0
        for piece in chained(first, pieces) if native else recoded(first, pieces, encoding):
            parser.Parse(piece)
            fed += len(piece)
            elements.add(content.elements() - counted, len(piece), content.label)
            counted = content.elements()
            work = content.work() + fed // BYTES_OF_ELEMENT
            allowance.add_work(work - worked, content.label)
            worked = work
            if fed - parser.CurrentByteIndex > LARGEST_TOKEN:
                refuse(content, f"has a tag or a comment of more than {LARGEST_TOKEN} bytes")
        parser.Parse(b"", True)
    except expat.ExpatError as error:
        if error.code == NO_MEMORY:
            raise MemoryError from None
        why = f"{expat.ErrorString(error.code)} (line {error.lineno})"
        raise wrong(content.label, f"is not well-formed XML: {why}") from None
    except UnicodeError:
        where = f"{encoding} (line {content.line()})"
        raise wrong(content.label, f"is not in its encoding, {where}") from None
    finally:
        content.drop()


def start_of(pieces: Iterator[bytes]) -> bytes:
    """Return the first pieces, as many as the longest declaration needs."""
    first = b""
    for piece in pieces:
        first += piece
        if len(first) >= 4 * LONGEST_DECLARATION:
            break
    return first


def refuse(content: Content, what: str) -> None:
    raise wrong(content.label, f"{what}, which is refused (line {content.line()})")


def chained(first: bytes, pieces: Iterator[bytes]) -> Iterator[bytes]:
    yield first
    yield from pieces


def recoded(first: bytes, pieces: Iterator[bytes], encoding: str) -> Iterator[bytes]:
    """Yield the same text in UTF-8."""
    decoder = codecs.getincrementaldecoder(encoding)()
    for piece in chained(first, pieces):
        yield decoder.decode(piece).encode()
    yield decoder.decode(b"", True).encode()


def encoding_of(first: bytes, label: str) -> Tuple[Optional[str], str]:
    """Return what expat is to read a file as, or None and what it is to be recoded from.

    A mark at the file's beginning counts before what the file declares (XML 1.0, section 4.3.3 and
    appendix F). Refuse an encoding that is not taken, and a declaration that is too long.
    """
    known = next((encoding for mark, encoding in MARKS if first.startswith(mark)), None)
    return (TAKEN[known], known) if known else declared_encoding(first, label)


def declared_encoding(first: bytes, label: str) -> Tuple[Optional[str], str]:
    """Return the same for a file without a mark, by what it declares."""
    ebcdic = first.startswith(b"\x4c\x6f\xa7\x94")
    start = first[:LONGEST_DECLARATION].decode("cp037" if ebcdic else "latin-1")
    if start.startswith("<?xml") and "?>" not in start and len(first) > LONGEST_DECLARATION:
        raise wrong(label, f"has an XML declaration of more than {LONGEST_DECLARATION} bytes")
    found = DECLARED.match(start)
    if not found:
        return "utf-8", "utf-8"
    try:
        known = codecs.lookup(found[1]).name
    except LookupError:
        raise wrong(label, f"is in an encoding that is not known: {found[1]}") from None
    if known not in TAKEN:
        raise wrong(label, f"is in an encoding that is not taken: {found[1]}")
    if known.startswith(("utf-16", "utf-32")):
        raise wrong(label, f"is not in its encoding, {found[1]} (line 1)")
    return TAKEN[known], found[1]
