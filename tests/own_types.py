"""Reads cells and values of typed dimensions by the words of `type3`, in Python, by the standards.

It shares no code with the program, and no form with it: texts are taken apart by hand. The rules
are those of XML Schema Part 2 (second edition), Namespaces in XML 1.0 with the names of XML 1.0
(fifth edition), Extensible Enumerations 2.0, and xBRL-CSV 1.0 for special values and suffixes.
What the program refuses beyond them: years outside of 0001 to 9999, INF and NaN, decimals above 32
bits, and names without a prefix.
"""
from __future__ import annotations

from collections.abc import Callable, Collection, Mapping
from typing import NamedTuple, Optional

UNKNOWN_SPECIAL, BAD_REFERENCE, BAD_VALUE, BAD_NUMBER = 31, 35, 36, 40
BAD_FORM, BAD_UNIT, UNKNOWN_MEMBER = 44, 45, 47
CURRENCIES = "http://www.xbrl.org/2003/iso4217"
INSTANCE = "http://www.xbrl.org/2003/instance"
BLANKS = "\t\n\r "
DIGITS = "0123456789"
# What a name may have, as pairs of bounds (XML 1.0, fifth edition, productions 4 and 4a).
NAME_STARTS = [
    (0x41, 0x5A), (0x5F, 0x5F), (0x61, 0x7A), (0xC0, 0xD6), (0xD8, 0xF6), (0xF8, 0x2FF),
    (0x370, 0x37D), (0x37F, 0x1FFF), (0x200C, 0x200D), (0x2070, 0x218F), (0x2C00, 0x2FEF),
    (0x3001, 0xD7FF), (0xF900, 0xFDCF), (0xFDF0, 0xFFFD), (0x10000, 0xEFFFF),
]  # fmt: skip
NAME_OTHERS = [
    (0x2D, 0x2E), (0x30, 0x39), (0xB7, 0xB7), (0x300, 0x36F), (0x203F, 0x2040),
]  # fmt: skip

# The least and the greatest value of each type of integers (XML Schema Part 2, section 3.3).
BOUNDS: dict[str, tuple[Optional[int], Optional[int]]] = {
    "integer": (None, None),
    "nonPositiveInteger": (None, 0),
    "negativeInteger": (None, -1),
    "long": (-9223372036854775808, 9223372036854775807),
    "int": (-2147483648, 2147483647),
    "short": (-32768, 32767),
    "byte": (-128, 127),
    "nonNegativeInteger": (0, None),
    "unsignedLong": (0, 18446744073709551615),
    "unsignedInt": (0, 4294967295),
    "unsignedShort": (0, 65535),
    "unsignedByte": (0, 255),
    "positiveInteger": (1, None),
}


class Read(NamedTuple):
    """What a cell is: a fault, no fact, or the value and the decimals of a fact."""

    fault: int = 0
    is_fact: bool = True
    value: Optional[str] = None
    decimals: Optional[int] = None


class Names(NamedTuple):
    """The declared prefixes, and the members that the types table names, if it has any."""

    prefixes: Mapping[str, str]
    members: Collection[tuple[str, str]] = ()


def are_digits(text: str, count: int = 0) -> bool:
    """Returns whether a text is digits, one or more, or as many as given."""
    return all(it in DIGITS for it in text) and (len(text) == count if count else text != "")


def without_sign(text: str) -> str:
    """Returns a text without a sign at its begin."""
    return text[1:] if text[:1] in ("+", "-") else text


def is_integer(text: str) -> bool:
    """Returns whether a text is an integer (section 3.3.13)."""
    return are_digits(without_sign(text))


def is_bounded(word: str, text: str) -> bool:
    """Returns whether an integer is in the lexical and the value space of its type."""
    least, most = BOUNDS[word]
    if not (are_digits(text) if word.startswith("unsigned") else is_integer(text)):
        return False
    value = int(text)
    return (least is None or least <= value) and (most is None or value <= most)


def is_decimal(text: str) -> bool:
    """Returns whether a text is a decimal (section 3.2.3)."""
    whole, _, fraction = without_sign(text).partition(".")
    return are_digits(whole + fraction)


def is_double(text: str) -> bool:
    """Returns whether a text is a double (section 3.2.5) other than INF and NaN."""
    at = max(text.find("e"), text.find("E"))
    if at < 0:
        return is_decimal(text)
    return is_decimal(text[:at]) and is_integer(text[at + 1 :])


def is_in(letter: str, bounds: Collection[tuple[int, int]]) -> bool:
    """Returns whether a letter is within bounds."""
    return any(least <= ord(letter) <= most for least, most in bounds)


def is_ncname(text: str) -> bool:
    """Returns whether a text is an NCName."""
    if not text or not is_in(text[0], NAME_STARTS):
        return False
    return all(is_in(it, NAME_STARTS) or is_in(it, NAME_OTHERS) for it in text[1:])


def name_of(text: str, names: Names) -> Optional[tuple[str, str]]:
    """Returns the URI and the local part of a QName with a declared prefix, or None."""
    prefix, colon, local = text.partition(":")
    if not colon or not is_ncname(prefix) or not is_ncname(local) or prefix not in names.prefixes:
        return None
    return names.prefixes[prefix], local


def without_zone(text: str) -> Optional[str]:
    """Returns a text without the time zone at its end (section 3.2.7.3), None if it is bad."""
    if text.endswith("Z"):
        return text[:-1]
    if len(text) < 6 or text[-6] not in "+-" or text[-3] != ":":
        return text
    hours, minutes = text[-5:-3], text[-2:]
    if not are_digits(hours, 2) or not are_digits(minutes, 2):
        return text
    shift = 60 * int(hours) + int(minutes)
    return text[:-6] if int(minutes) < 60 and shift <= 14 * 60 else None


def days_of(year: int, month: int) -> int:
    """Returns how many days a month has."""
    is_leap = year % 4 == 0 and (year % 100 != 0 or year % 400 == 0)
    return 29 if month == 2 and is_leap else [31, 28, 31, 30, 31, 30, 31, 31, 30, 31, 30, 31][month - 1]


def are_parts(year: str, month: str, day: str) -> bool:
    """Returns whether a year, a month and a day are one each, and exist together."""
    if not (are_digits(year, 4) and are_digits(month, 2) and are_digits(day, 2)):
        return False
    if int(year) < 1 or not 1 <= int(month) <= 12:
        return False
    return 1 <= int(day) <= days_of(int(year), int(month))


def is_date(text: str) -> bool:
    """Returns whether a text is a date without a zone."""
    parts = text.split("-")
    return len(parts) == 3 and are_parts(*parts)


def is_time(text: str) -> bool:
    """Returns whether a text is a time without a zone."""
    parts = text.split(":")
    if len(parts) != 3 or not are_digits(parts[0], 2) or not are_digits(parts[1], 2):
        return False
    seconds, point, fraction = parts[2].partition(".")
    if not are_digits(seconds, 2) or (point and not are_digits(fraction)):
        return False
    if parts[0] == "24":
        return int(parts[1]) == int(seconds) == int(fraction or "0") == 0
    return int(parts[0]) < 24 and int(parts[1]) < 60 and int(seconds) < 60


def is_date_time(text: str) -> bool:
    """Returns whether a text is a date with a time, without a zone."""
    day, mark, time = text.partition("T")
    return bool(mark) and is_date(day) and is_time(time)


# The forms without a zone; 2000 is a leap year, and January has 31 days.
MOMENTS: dict[str, Callable[[str], bool]] = {
    "date": is_date,
    "dateTime": is_date_time,
    "time": is_time,
    "gYear": lambda it: are_parts(it, "01", "01"),
    "gYearMonth": lambda it: it[4:5] == "-" and are_parts(it[:4], it[5:], "01"),
    "gMonth": lambda it: it[:2] == "--" and are_parts("2000", it[2:], "01"),
    "gMonthDay": lambda it: it[:2] == "--" and it[4:5] == "-" and are_parts("2000", it[2:4], it[5:]),
    "gDay": lambda it: it[:3] == "---" and are_parts("2000", "01", it[3:]),
}


def are_amounts(text: str, letters: str) -> bool:
    """Returns whether a text is numbers, each with one of these letters, in their order."""
    at = 0
    number = ""
    for it in text:
        if it in DIGITS or it == ".":
            number += it
            continue
        place = letters.find(it, at)
        whole, point, fraction = number.partition(".")
        if place < 0 or not are_digits(whole) or (point and (it != "S" or not are_digits(fraction))):
            return False
        at, number = place + 1, ""
    return number == ""


def is_duration(text: str) -> bool:
    """Returns whether a text is a duration (section 3.2.6)."""
    text = text[1:] if text.startswith("-") else text
    days, mark, times = text[1:].partition("T")
    if text[:1] != "P" or text == "P" or (mark and not times):
        return False
    return are_amounts(days, "YMD") and are_amounts(times, "HMS")


def is_language(text: str) -> bool:
    """Returns whether a text is a language (section 3.3.3)."""
    first, *others = text.split("-")
    ascii_only = all(it.isascii() and 1 <= len(it) <= 8 for it in (first, *others))
    return ascii_only and first.isalpha() and all(it.isalnum() for it in others)


def is_hex(text: str) -> bool:
    """Returns whether a text is bytes, two digits each (section 3.2.15)."""
    return len(text) % 2 == 0 and all(it in "0123456789abcdefABCDEF" for it in text)


def has_form(word: str, text: str, names: Names) -> bool:
    """Returns whether a text without blanks at its ends is a value of a simple type."""
    if word in BOUNDS:
        return is_bounded(word, text)
    if word in MOMENTS:
        moment = without_zone(text)
        return moment is not None and MOMENTS[word](moment)
    forms: dict[str, Callable[[str], bool]] = {
        "decimal": is_decimal,
        "monetary": is_decimal,
        "shares": is_decimal,
        "double": is_double,
        "boolean": lambda it: it in ("true", "false", "1", "0"),
        "qname": lambda it: name_of(it, names) is not None,
        "duration": is_duration,
        "language": is_language,
        "NCName": is_ncname,
        "hexBinary": is_hex,
    }
    return forms[word](text)


NUMBERS = (*BOUNDS, "decimal", "double", "monetary", "shares")
FREE = ("text", "other")
SETS = ("enumeration", "enumerations")


def special_of(cell: str) -> Read | None:
    """Returns what a cell is that has no text, or None."""
    if cell in ("", "#none"):
        return Read(is_fact=False)
    if cell == "#nil":
        return Read()
    has_text = not cell.startswith("#") or cell.startswith("##") or cell == "#empty"
    return None if has_text else Read(UNKNOWN_SPECIAL)


def text_in(cell: str) -> str:
    """Returns the text of a cell that has one."""
    if cell == "#empty":
        return ""
    return cell[1:] if cell.startswith("##") else cell


def cell_of(word: str, cell: str, names: Names) -> Read:
    """Returns what a cell of a concept of this type is."""
    special = special_of(cell)
    if special is not None:
        return special
    text = text_in(cell)
    if word in FREE:
        return Read(value=text)
    text = text.strip(BLANKS)
    if word in NUMBERS:
        return number_of(word, text)
    if word in SETS:
        return members_of(word, text, names)
    return Read(value=text) if has_form(word, text, names) else Read(BAD_FORM)


def number_of(word: str, text: str) -> Read:
    """Returns what a cell of a number is, which may have decimals as a suffix."""
    numeral, mark, suffix = text.partition("d")
    if not has_form(word, numeral, Names({})):
        return Read(BAD_NUMBER)
    if not mark or suffix == "INF":
        return Read(value=numeral)
    if not is_integer(suffix) or not -(2**31) <= int(suffix) < 2**31:
        return Read(BAD_NUMBER)
    return Read(value=numeral, decimals=int(suffix))


def members_of(word: str, text: str, names: Names) -> Read:
    """Returns what a cell of one member, or of a set of them, is."""
    single = word == "enumeration"
    texts = [text] if single else [it for it in blanks_as_one(text).split(" ") if it]
    named = [name_of(it, names) for it in texts]
    if None in named or len(set(named)) < len(named):
        return Read(BAD_FORM)
    if names.members and any(it not in names.members for it in named):
        return Read(UNKNOWN_MEMBER)
    return Read(value=" ".join(texts))


def blanks_as_one(text: str) -> str:
    """Returns a text in which each blank is a space (XML Schema Part 2, section 4.3.6)."""
    return "".join(" " if it in BLANKS else it for it in text)


def typed_of(word: str, cell: str, names: Names) -> Read:
    """Returns what a cell is to which a typed dimension of this type refers."""
    special = special_of(cell)
    if special is not None:
        return special
    text = text_in(cell).strip(BLANKS)
    return Read(value=text) if has_form(word, text, names) else Read(BAD_VALUE)


def unit_fault(word: str, cell: str, names: Names) -> int:
    """Returns the fault of a cell that gives the unit of an amount of money or of shares, or 0.

    The unit is one measure (XBRL 2.1, section 4.8.2). Codes of currencies are not looked up.
    """
    if cell in ("", "#none"):
        return BAD_UNIT
    if cell in ("#nil", "#empty"):
        return BAD_REFERENCE
    if cell.startswith("#"):
        return BAD_VALUE if cell.startswith("##") else UNKNOWN_SPECIAL
    sides = cell.split("/")
    measures = [name_of(it, names) for side in sides for it in side.split("*")]
    if len(sides) > 2 or None in measures:
        return BAD_VALUE
    uri, local = measures[0] or ("", "")
    if len(measures) > 1:
        return BAD_UNIT
    if word == "shares":
        return 0 if (uri, local) == (INSTANCE, "shares") else BAD_UNIT
    is_code = len(local) == 3 and all("A" <= it <= "Z" for it in local)
    return 0 if uri == CURRENCIES and is_code else BAD_UNIT
