"""The files of a report on disk. A large one is mapped, so it is not copied."""
from __future__ import annotations

import contextlib
import errno
import json
import mmap
import os
import re
import stat
from typing import Any, Dict, Set

from .c_library import Buffer

# A smaller file is read, because a map keeps a file descriptor. Most tables are smaller.
LEAST_MAPPED = 1 << 20
# What a path in the metadata never has.
BARRED = re.compile(r"[\\:?#%\x00-\x1f]")
DOES_NOT_EXIST = (errno.ENOENT, errno.ENOTDIR)


def content(path: str) -> Buffer:
    """Returns the bytes of a file. Raises OSError if it cannot be read."""
    with open(path, "rb") as file:
        about = os.fstat(file.fileno())
        if stat.S_ISREG(about.st_mode) and about.st_size >= LEAST_MAPPED:
            # No descriptor may be left, and not every file system can map.
            with contextlib.suppress(OSError):
                return mmap.mmap(file.fileno(), 0, access=mmap.ACCESS_READ)
        return file.read()


def is_plain(path: str) -> bool:
    """Whether a path in the metadata is one that the library takes. It stays in its folder."""
    segments = path.split("/")
    return not BARRED.search(path) and not any(it in ("", ".", "..") for it in segments)


def members_of(value: Any) -> Dict[str, Any]:
    """Returns the members of a JSON object, and none of another value."""
    return value if isinstance(value, dict) else {}


def files_named_in(metadata: bytes) -> Set[str]:
    """Returns the paths of the tables and of the parameters file that a metadata file names.

    It returns none for a text that is not JSON, which the library refuses before it opens a table.
    """
    try:
        read = members_of(json.loads(metadata))
    except (ValueError, RecursionError):
        return set()
    tables = members_of(read.get("tables")).values()
    named = [read.get("parameterURL"), *(members_of(it).get("url") for it in tables)]
    return {it for it in named if isinstance(it, str) and is_plain(it)}


def report_files(meta: str, types: str) -> Dict[str, Buffer]:
    """Returns the files of a report by their paths. Raises OSError if one cannot be read.

    A table or parameters file that does not exist is left out; the library says if it is needed.
    """
    with open(meta, "rb") as file:
        metadata = file.read()
    files: Dict[str, Buffer] = {meta: metadata, types: content(types)}
    folder = meta[: meta.rfind("/") + 1]
    for name in files_named_in(metadata):
        try:
            files.setdefault(folder + name, content(folder + name))
        except UnicodeEncodeError:
            continue
        except OSError as error:
            if error.errno not in DOES_NOT_EXIST:
                raise
    return files
