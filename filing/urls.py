"""Places of files: published URLs, and paths next to the report.

`joined` follows a reference from one to another.
"""

from __future__ import annotations

import re
from functools import lru_cache
from typing import List, NamedTuple, Optional, Tuple
from urllib.parse import unquote

# RFC 3986, appendix B, with the scheme's grammar of section 3.1.
PARTS = re.compile(r"(?:([A-Za-z][A-Za-z0-9+.-]*):)?(?://([^/?#]*))?([^?#]*)(\?[^#]*)?(?:#.*)?", re.DOTALL)


ESCAPE = re.compile(r"%([0-9A-Fa-f]{2})")
UNRESERVED = frozenset("ABCDEFGHIJKLMNOPQRSTUVWXYZabcdefghijklmnopqrstuvwxyz0123456789-._~")
NORMAL = re.compile(r"https?://[a-z0-9.-]+/")  # how most URLs begin that are normal already
# A reference to a file in the same folder or below it, as most are.
PLAIN = re.compile(r"[A-Za-z0-9_~-][A-Za-z0-9._~-]*(?:/[A-Za-z0-9_~-][A-Za-z0-9._~-]*)*")
LONGEST_URL = 4096
MOST_FOLDERS = 64  # of the last bases, whose parts are kept
DEFAULT_PORTS = {"http": ":80", "https": ":443"}


class Place(NamedTuple):
    """Where a file is: a URL without fragment, or (`local`) a path relative to the report's root.

    The text is what a document shows. Two places are one if `known` gives them one place.
    """

    text: str
    local: bool = False

    def known(self) -> Place:
        """Return the one place of all spellings of this one (RFC 3986, section 6.2).

        A local place has its percent signs decoded, a URL is in its normal form. A text that is too
        long for a URL has no other spelling here: that takes long, and no file has it.
        """
        if len(self.text) > LONGEST_URL:
            return self
        if self.local:
            return Place(self.path(), True)
        return Place(normal(self.text))

    def host(self) -> str:
        """Return the host of a URL in lower case, without user and port."""
        return (parts(self.text)[1] or "").rpartition("@")[2].partition(":")[0].lower()

    def is_web(self) -> bool:
        """Return whether it is a URL that a package may have: `http` or `https`."""
        return not self.local and (parts(self.text)[0] or "").lower() in ("http", "https")

    def path(self) -> str:
        """Return the path of a local place as names of files.

        Percent signs are decoded, and empty or `.` segments between others left out.
        """
        *folders, name = decoded(self.text).split("/")
        kept = [folder for at, folder in enumerate(folders) if folder not in ("", ".") or folder == "" and at == 0]
        return "/".join([*kept, name])


def parts(reference: str) -> Tuple[Optional[str], Optional[str], str, str]:
    """Return scheme, authority, path and query of a reference (RFC 3986, section 3).

    The fragment is left out.
    """
    found = PARTS.fullmatch(reference)
    assert found is not None  # the expression takes any text
    return found[1], found[2], found[3], found[4] or ""


def normal(url: str) -> str:
    """Return the normal form of a URL, or of its start (RFC 3986, sections 6.2.2 and 6.2.3).

    Scheme and host are in small letters, an empty port or the scheme's own is left out, a needless
    escape is decoded, and `.` segments are removed. A `..` that is written with escapes stays, so
    that the catalogs refuse it.
    """
    if is_plainly_normal(url):
        return url
    scheme, host, path, query = parts(url)
    if scheme is None or host is None or "#" in url:
        return url
    scheme = scheme.lower()
    user, at, host = host.rpartition("@")
    host = ESCAPE.sub(normal_escape, host).lower()
    if path:
        host = host.removesuffix(DEFAULT_PORTS.get(scheme, "\0")).removesuffix(":")
    path = "/".join(map(normal_segment, path.split("/")))
    return f"{scheme}://{user}{at}{host}{without_dots(path)}{query}"


def is_plainly_normal(url: str) -> bool:
    """Return whether a URL is seen at a glance to be in its normal form, as most are."""
    return bool(NORMAL.match(url)) and not ("%" in url or "?" in url or "#" in url or "/." in url)


def normal_segment(segment: str) -> str:
    """Return a segment of a path without needless escapes. One that would be `..` keeps them."""
    made = ESCAPE.sub(normal_escape, segment)
    return made if made != ".." else segment.upper()


def normal_escape(found: re.Match[str]) -> str:
    letter = chr(int(found[1], 16))
    return letter if letter in UNRESERVED else found[0].upper()


def decoded(path: str) -> str:
    """Return a path with its percent signs decoded (RFC 3986, section 2.1).

    Bytes that are not UTF-8 stay as in names of files.
    """
    return unquote(path, errors="surrogateescape") if "%" in path else path


def without_dots(path: str) -> str:
    """Return a path without dot segments (RFC 3986, section 5.2.4).

    One that does not begin with a slash keeps the `..` at its start.
    """
    rooted = path.startswith("/")
    kept: List[str] = []
    for segment in path.split("/"):
        if segment == "..":
            if len(kept) > rooted and kept[-1] != "..":
                kept.pop()
            elif not rooted:
                kept.append("..")
        elif segment != ".":
            kept.append(segment)
    if path.endswith(("/.", "/..")) or path in (".", ".."):
        kept.append("")
    return "/".join(kept)


def joined(base: Place, reference: str) -> Place:
    """Return the place that a reference names in a file at `base` (RFC 3986, section 5.2).

    A reference that is longer than a URL may be is not resolved. `Finder.find` refuses it.
    """
    if len(reference) > LONGEST_URL:
        return Place(reference)
    if PLAIN.fullmatch(reference):
        return Place(folder_of(base) + reference, base.local)
    if is_plainly_normal(reference):
        return Place(reference)
    scheme, host, path, query = parts(reference)
    if scheme is not None:
        return Place(f"{scheme}:{'' if host is None else '//' + host}{without_dots(path)}{query}")
    front, base_host, base_path, base_query = parts_of_base(base)
    if host is not None:
        return Place(f"{front}//{host}{without_dots(path)}{query}")
    if base_host is not None:
        front += "//" + base_host
    if path == "":
        return Place(f"{front}{base_path}{query or base_query}", base.local)
    if not path.startswith("/"):
        path = folder_in(base_host, base_path) + path
    return Place(f"{front}{without_dots(path)}{query}", base.local)


@lru_cache(MOST_FOLDERS)
def parts_of_base(base: Place) -> Tuple[str, Optional[str], str, str]:
    """Return the scheme of a base with its colon, and its authority, path and query."""
    if base.local:
        return "", None, base.text, ""
    scheme, host, path, query = parts(base.text)
    return "" if scheme is None else scheme + ":", host, path, query


def folder_in(host: Optional[str], path: str) -> str:
    """Return the part of a base's path before its last name (RFC 3986, section 5.2.3)."""
    return "/" if host and not path else path[: path.rfind("/") + 1]


@lru_cache(MOST_FOLDERS)
def folder_of(base: Place) -> str:
    """Return the text to which a plain reference in a file at `base` is added."""
    front, host, path, _ = parts_of_base(base)
    authority = "" if host is None else "//" + host
    return front + authority + without_dots(folder_in(host, path))
