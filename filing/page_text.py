"""Texts of a filing as a page shows them: cut, escaped, hidden characters as codes.

Whatever a stranger wrote into a report, a page has it only as text.
"""

from __future__ import annotations

import re
from html import escape
from typing import Iterator, Tuple
from unicodedata import category

# Letters and marks that print as nothing. `str.isprintable` refuses the others, such as controls,
# overrides of the direction and blanks that are not the keyboard's.
BLANK = frozenset("\u034f\u115f\u1160\u17b4\u17b5\u180b\u180c\u180d\u2800\u3164\uffa0")
SELECTORS = (range(0xFE00, 0xFE10), range(0xE0100, 0xE01F0))
MARKS = ("Mn", "Me")
MOST_MARKS = 3  # more marks on one letter print over the lines above and below
PLAIN = re.compile(r"[ -~]*")
CUT = "\u2026"


def cut(text: str, most: int) -> str:
    """Return the first characters of a text, with a sign if more follow."""
    return text if len(text) <= most else text[:most] + CUT


def plain(text: str, most: int) -> str:
    """Return a text for a title or an attribute."""
    return escape("".join(letter for letter, _ in seen(cut(text, most))))


def markup(text: str, most: int) -> str:
    """Return a text for the body of a page, in which codes look unlike the text round them."""
    short = cut(text, most)
    if PLAIN.fullmatch(short):
        return escape(short)
    if is_seen(short):
        return f"<bdi>{escape(short)}</bdi>"
    parts = (f"<i>{letter}</i>" if is_code else escape(letter) for letter, is_code in seen(short))
    return f"<bdi>{''.join(parts)}</bdi>"


def is_seen(text: str) -> bool:
    """Return whether a reader sees each letter of a text. If it has many marks, return False."""
    return sum(map(MARKS.__contains__, map(category, text))) <= MOST_MARKS and not any(
        map(is_hidden, set(text))
    )


def seen(text: str) -> Iterator[Tuple[str, bool]]:
    """Yield each letter, or its code if a reader would not see it, and whether it is a code."""
    marks = 0
    for letter in text:
        marks = marks + 1 if category(letter) in MARKS else 0
        is_code = marks > MOST_MARKS or is_hidden(letter)
        yield code(letter) if is_code else letter, is_code


def is_hidden(letter: str) -> bool:
    """Return whether a letter prints as nothing, or is a control or a broken byte."""
    if not letter.isprintable() or letter in BLANK:
        return True
    return any(ord(letter) in selectors for selectors in SELECTORS)


def code(letter: str) -> str:
    """Return the code of a letter as xbrl-json writes it: `\\x09`, `\\u202e`."""
    number = ord(letter)
    if 0xDC80 <= number <= 0xDCFF:  # a byte that is not UTF-8
        return f"\\x{number - 0xDC00:02x}"
    if number < 0x80:
        return f"\\x{number:02x}"
    return f"\\u{number:04x}" if number < 0x10000 else f"\\U{number:08x}"
