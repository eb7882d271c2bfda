"""JSON as xbrl-json reads it.

What the converter refuses as JSON is refused here too, and so is a repeated key of an object.
"""

from __future__ import annotations

import json
import math
import re
from collections import Counter
from itertools import chain
from typing import Any, Callable, Dict, Iterable, List, NamedTuple, NoReturn, Optional, Tuple, Union

from .allowance import Allowance
from .refusals import WRONG, Refusal, wrong

Json = Any
Object = Dict[str, Any]
Made = Callable[[List[Tuple[str, Json]]], Object]  # an object of its members
CONTAINERS = frozenset((dict, list))
DEEPEST = 127
LARGEST = 256 << 20  # bytes of one file, which is held as a whole
LOOK = 1 << 18  # bytes that are looked at together
MOST_VALUES = 5_000_000  # of the files of a run; the largest modules that were seen have 2 million
# Bytes of memory for each byte of a text, by the widest character in it: Python keeps all
# characters of a text in one, two or four bytes each.
WIDTHS = ((0xF0, 9), (0xC4, 5), (0, 3))
MEMORY_OF_VALUE = 100
SURROGATE = re.compile(rb"\\u[dD][89a-fA-F]")
NAME_END = '":'  # how a name ends, unless there are blanks before its colon
NAME_END_WITH_BLANKS = re.compile('"[ \t\r\n]+:')


class RepeatedKey(Refusal):
    """JSON with an object that has a key more than once.

    Only one of the values could be read.
    """

    def __init__(self, file: str, key: str) -> None:
        super().__init__(WRONG, file, f"has the key '{key}' more than once in one object, and only the last of them would be read")


class Values:
    """Counts the values of the JSON files of a run, and refuses more than `MOST_VALUES`."""

    def __init__(self) -> None:
        self.count = 0

    def add(self, more: int, label: str) -> None:
        """Add the values of a file."""
        self.count += more
        if self.count > MOST_VALUES:
            raise too_many_values(label)


class Text:
    """A JSON text that is read piece by piece, so that one of too many values ends early.

    Each value but the first follows a comma or the bracket of the object or array around it. All
    commas and brackets are counted first, which is fast. Only if they are too many, those in texts
    are left out of the count.
    """

    def __init__(
        self, label: str, before: int = 0, allowance: Optional[Allowance] = None
    ) -> None:
        """Take the number of values before it, and what its package allows."""
        self.label = label
        self.allowance = allowance
        self.memory_left = None if allowance is None else allowance.memory_left(label)
        self.data = bytearray()
        self.size = 0
        self.width = WIDTHS[-1]
        self.before = before
        self.most = before  # as many values the text has at most, with those before it
        self.values = before  # as many it has at least, in the part that was looked at
        self.looked_at = 0
        self.in_text = False

    def add(self, piece: bytes) -> None:
        """Add a piece, or refuse the text."""
        self.data += piece
        self.size += len(piece)
        if self.size > LARGEST:
            raise wrong(self.label, f"has more than {LARGEST} bytes")
        self.most += marks(piece)
        most = self.most_values(piece)
        while self.most > most and self.look():
            if self.values > MOST_VALUES:
                raise too_many_values(self.label)
            if self.values > most:
                break
        if self.allowance is not None and self.values > most:
            raise self.allowance.too_much("JSON", self.label)

    def most_values(self, piece: bytes) -> int:
        """Return how many values the text may have, with those before it. A piece has just come."""
        if self.memory_left is None:
            return MOST_VALUES
        widths = (width for width in WIDTHS if width == self.width or has_from(piece, width[0]))
        self.width = next(widths, self.width)
        left = self.memory_left - self.memory(0)
        return min(MOST_VALUES, self.before + left // MEMORY_OF_VALUE)

    def memory(self, values: int) -> int:
        """Return the memory that the text takes with this number of values."""
        return self.size * self.width[1] + values * MEMORY_OF_VALUE

    def look(self) -> bool:
        """Count the values of the next bytes, and return whether there are any."""
        new = bytes(self.data[self.looked_at : self.looked_at + LOOK])
        if (len(new) - len(new.rstrip(b"\\"))) % 2:
            new = new[:-1]  # what this backslash escapes is still to come
        self.looked_at += len(new)
        parts = new.replace(b"\\\\", b"").replace(b'\\"', b"").split(b'"')
        outside = b'"'.join(parts[1 if self.in_text else 0 :: 2]).translate(None, b" \t\r\n")
        self.values += marks(outside) - outside.count(b"{}") - outside.count(b"[]")
        if len(parts) % 2 == 0:
            self.in_text = not self.in_text
        return len(new) > 0


def has_from(text: bytes, least: int) -> bool:
    """Return whether a text has a byte from this one on."""
    return bool(text.translate(None, bytes(range(least))))


def marks(text: bytes) -> int:
    """Return how many commas and opening brackets there are."""
    return text.count(b",") + text.count(b"{") + text.count(b"[")


def too_many_values(label: str) -> Refusal:
    return wrong(label, f"has more than {MOST_VALUES} values, with the JSON read before it")


def read_json(
    pieces: Iterable[bytes],
    label: str,
    values: Optional[Values] = None,
    allowance: Optional[Allowance] = None,
) -> Json:
    """Return the value of a JSON text in UTF-8, which may begin with a byte-order mark (RFC 8259).

    Refuse what is not JSON for xbrl-json, a repeated key, and a text of too many values, alone or
    with the files that `values` has counted. Refuse one that is more than its package allows.
    """
    values = values or Values()
    text = Text(label, values.count, allowance)
    for piece in pieces:
        text.add(piece)
    has_surrogates = bool(SURROGATE.search(text.data))
    try:
        decoded = taken(text)
        value = parsed(decoded)
        if has_surrogates:
            json.dumps(value, ensure_ascii=False).encode()
    except UnicodeDecodeError as error:
        raise wrong(label, f"is not UTF-8 (byte {error.start})") from None
    except UnicodeEncodeError:
        raise wrong(label, "is not JSON: it has half of a surrogate pair") from None
    except RecursionError:
        raise wrong(label, f"is nested more than {DEEPEST} levels deep") from None
    except json.JSONDecodeError as error:
        why = f"{error.msg} (line {error.lineno}, column {error.colno})"
        raise wrong(label, f"is not JSON: {why}") from None
    except ValueError as error:
        raise wrong(label, f"is not JSON: {error}") from None
    size = measured(value)
    if size.depth > DEEPEST:
        raise wrong(label, f"is nested more than {DEEPEST} levels deep")
    repeated = None if size.members == most_members(decoded) else repeated_key(decoded)
    if repeated is not None:
        raise RepeatedKey(label, repeated)
    values.add(size.values, label)
    if allowance is not None:
        allowance.add_memory(text.memory(size.values), label)
    return value


def taken(text: Text) -> str:
    """Return a text without its byte-order mark. Its bytes are given up for it."""
    decoded = text.data.decode()
    text.data = bytearray()
    if decoded.startswith("\ufeff"):
        decoded = decoded[1:]
        if decoded.startswith("\ufeff"):
            raise ValueError("it begins with two byte-order marks")
    return decoded


def parsed(text: str, made: Optional[Made] = None) -> Json:
    """Return the value of a text. `made` makes each object, if it is given."""
    return json.loads(
        text,
        parse_constant=no_constant,
        parse_float=number,
        parse_int=whole,
        object_pairs_hook=made,
    )


def most_members(text: str) -> int:
    """Return how many members the objects of a JSON text have at most, by the ends of their names.

    Each member has a colon after the quotation mark of its name. A text may have both inside of it,
    so a text without repeated keys may have fewer members, but never more.
    """
    return text.count(NAME_END) + len(NAME_END_WITH_BLANKS.findall(text))


def repeated_key(text: str) -> Optional[str]:
    """Return the first key of a JSON text that one object has more than once, or None.

    It calls Python for each object, which takes as long as all the rest.
    """
    repeated: List[str] = []
    parsed(text, made_by(repeated))
    return repeated[0] if repeated else None


def made_by(repeated: List[str]) -> Made:
    """Return what makes an object of its members.

    It notes a key that one object has more than once: xBRL-CSV 1.0 has none in a metadata file.
    """

    def made(members: List[Tuple[str, Json]]) -> Object:
        value = dict(members)
        if len(value) < len(members):
            times = Counter(key for key, _ in members)
            repeated.append(next(key for key in times if times[key] > 1))
        return value

    return made


def no_constant(text: str) -> NoReturn:
    raise ValueError(f"{text} is no number of JSON")


def number(text: str) -> float:
    value = float(text)
    if math.isinf(value):
        raise ValueError(f"the number {text[:20]} is too large")
    return value


def whole(text: str) -> Union[int, float]:
    """Return a number without point and exponent. `-0` is not whole, as for the converter."""
    return number(text) if text == "-0" or len(text) > 300 else int(text)


class Size(NamedTuple):
    """How deep objects and arrays are, and how many values and members of objects there are."""

    depth: int
    values: int
    members: int


def measured(value: Json) -> Size:
    """Return the size of a value as JSON was read."""
    level: List[Json] = [value]
    depth = members = 0
    values = 1
    while True:
        objects = [value for value in level if type(value) is dict]
        arrays = [value for value in level if type(value) is list]
        if not objects and not arrays:
            return Size(depth, values, members)
        depth += 1
        of_objects = sum(map(len, objects))
        members += of_objects
        values += of_objects + sum(map(len, arrays))
        inner = chain(map(dict.values, objects), arrays)
        level = [value for value in chain.from_iterable(inner) if type(value) in CONTAINERS]


def equal(one: Json, other: Json) -> bool:
    """Return whether two values are equal as JSON.

    The order of members does not count, and `1`, `1.0` and `true` differ.
    """
    return one is other or canonical(one) == canonical(other)


def canonical(value: Json) -> str:
    return json.dumps(value, sort_keys=True)
