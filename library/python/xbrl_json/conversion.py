"""The conversion of a report, in one call."""
from __future__ import annotations

import ctypes
import mmap
import os
from typing import Literal, Mapping, Union

from .c_library import (Answer, Buffer, File, Text, Views, bytes_of, empty_answer, free_answer,
                        library, nothing)
from .faults import error_of
from .folders import report_files

Layout = Literal["compact", "lines"]
LAYOUTS = ("compact", "lines")


def answer_to(files: Mapping[str, Buffer], meta: str, types: str, layout: int) -> Answer:
    """Calls the library. Returns its answer, whose texts are to be freed."""
    rows = (File * max(len(files), 1))()
    answer, views = empty_answer(), Views()
    try:
        for row, (path, data) in zip(rows, files.items()):
            row.path = views.text(path.encode("utf-8", "surrogateescape"))
            row.bytes = views.text(data)
        places = [views.text(it.encode("utf-8", "surrogateescape")) for it in (meta, types)]
        words = [word for it in places for word in (it.at, it.len)]
        library().xbrl_json_convert(rows, len(files), *words, layout, ctypes.byref(answer))
    finally:
        views.release()
    return answer


def convert(files: Mapping[str, Buffer], meta: str, types: str, layout: Layout = "compact") -> bytes:
    """Converts a report of files in memory. Returns its document, in UTF-8.

    `files` has the bytes of each file by its path: the metadata file at `meta`, the types table at
    `types`, the tables, and the parameters file if the metadata names one. The path of a table is
    the folder of `meta` followed by the table's URL. A file that is not there does not exist.
    `layout` is "compact" for a document on one line, or "lines" for one with a line for each fact.

    Raises Refused if the report has a fault, and ConversionError if `meta` or `types` is not among
    the files or memory runs out; ValueError for another layout, or a path that is not UTF-8;
    OSError if the C library is not installed.
    """
    if layout not in LAYOUTS:
        raise ValueError(f"the layout is compact or lines, not {layout}")
    answer = answer_to(files, meta, types, LAYOUTS.index(layout))
    try:
        if answer.status == 0:
            return bytes_of(answer.document)
        if answer.status == 2:
            raise ValueError(f"a path is not UTF-8: {meta!r}, {types!r}")
        told = (bytes_of(it) for it in (answer.lines, answer.faults))
        lines, records = (it.decode(errors="surrogateescape") for it in told)
        raise error_of(answer.status, lines, records)
    finally:
        free_answer(answer)


def convert_folder(folder: Union[str, "os.PathLike[str]"], meta: str = "meta.json",
                   types: str = "types.csv", layout: Layout = "compact") -> bytes:
    """Converts a report on disk. Returns its document, in UTF-8.

    `meta` and `types` are the paths of the metadata file and the types table in the folder. Files
    from 1 MiB on are mapped, not copied. Do not change them during the call: if one becomes
    shorter, the system ends the process.

    Raises OSError if a file exists but cannot be read, or if `meta` or `types` does not exist;
    otherwise as `convert`.
    """
    meta, types = (os.path.join(os.fspath(folder), it) for it in (meta, types))
    return convert_and_close(report_files(meta, types), meta, types, layout)


def convert_and_close(files: Mapping[str, Buffer], meta: str, types: str, layout: Layout) -> bytes:
    """Converts as `convert`, and closes the files that are mapped."""
    try:
        return convert(files, meta, types, layout)
    finally:
        for data in files.values():
            if isinstance(data, mmap.mmap):
                data.close()


def version() -> str:
    """Returns the version of the library, and the kit that proved it."""
    text: Text = nothing()
    library().xbrl_json_version(ctypes.byref(text))
    return bytes_of(text).decode()
