"""The records of xbrl-json's file of faults, in the names of the filing.

A place is in a prepared file, which is temporary, or in the joined metadata, which is in no file.
"""

from __future__ import annotations

import mmap
import os
import re
from typing import Iterator, List

from .converter_lines import ConverterLines
from .csv_spans import all_spans
from .csv_text import record, records
from .faults import FIELDS, mapped
from .refusals import FILES, Refusal
from .whole_files import write_whole

POINTER = rb',"?/'  # how a field begins that may be a place of the metadata
PLACE, FILE, CELL = map(FIELDS.index, ("place", "cause_file", "cause_cell"))


def name_places(path: str, lines: ConverterLines) -> None:
    """Write the places of a file of faults in the names of the filing, if there are some.

    Refuse a file that cannot be read again or written.
    """
    sought = re.compile(POINTER + b"|" + re.escape(lines.folder.encode()))
    try:
        if os.path.isfile(path) and os.path.getsize(path):
            with mapped(path) as data:
                if sought.search(data):
                    write_whole(path, named(data, sought, lines))
    except (OSError, ValueError) as error:
        raise Refusal(FILES, path, f"cannot write the names of the filing ({error})") from None


def named(data: mmap.mmap, sought: re.Pattern[bytes], lines: ConverterLines) -> Iterator[bytes]:
    """Yield the bytes of a file of faults, in which records with such a place are written anew."""
    done = 0
    for start, end in all_spans(data):
        if sought.search(data, start, end):
            yield data[done:start]
            (fields,) = records(data[start:end].decode("utf-8", "surrogateescape") + "\n")
            text = record(in_filing(fields, lines))[:-1]
            yield text.encode("utf-8", "surrogateescape")
            done = end
    yield data[done:]


def in_filing(fields: List[str], lines: ConverterLines) -> List[str]:
    """Return the fields of a record with the filing's names in its place and its cause."""
    named = [*fields]
    named[PLACE] = lines.place(fields[PLACE])
    if len(fields) > CELL:
        named[FILE], named[CELL] = lines.cause(fields[FILE], fields[CELL])
    return named
