"""Filings: reports that extend a module of taxonomy packages.

    from xbrl_json import filings

    document = filings.convert("report.zip", ["taxonomy.zip"])

`convert` returns the document that the command `xbrl-filing` writes. `prepare` makes the plain
files that `xbrl_json.convert_folder` takes, and `kinds` returns the types of concepts and
dimensions. They raise `Refusal` if a file of the filing is wrong: its `status` is that of
`xbrl-filing`, and its `line` says why. The wheel and Debian's package have this module. A checkout
has not.
"""
from __future__ import annotations

import os
import tempfile
from typing import Optional, Sequence

from .conversion import Layout, convert_and_close
from .filing.library import kinds, prepare
from .filing.refusals import Refusal
from .folders import report_files

__all__ = ["Refusal", "convert", "kinds", "prepare"]


def convert(report: str, packages: Sequence[str], layout: Layout = "compact",
            cache: Optional[str] = None) -> bytes:
    """Converts a filing with the taxonomy packages that it extends. Returns its document, in UTF-8.

    `report` and `packages` are paths of ZIPs or folders, `cache` that of a folder that keeps what
    the next filing of the module needs. The plain files are in a temporary folder during the call.

    Raises Refusal as `prepare`, and otherwise as `xbrl_json.convert`. There the files have the
    names that `prepare` gives them, as `meta.json` for the joined metadata.
    """
    with tempfile.TemporaryDirectory() as folder:
        plain = os.path.join(folder, "plain")
        prepare(report, packages, plain, cache)
        found = report_files(os.path.join(plain, "meta.json"), os.path.join(plain, "types.csv"))
        files = {os.path.relpath(path, plain): data for path, data in found.items()}
        return convert_and_close(files, "meta.json", "types.csv", layout)
