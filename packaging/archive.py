#!/usr/bin/env python3
"""Builds the static library over the libraries that `rt ci` proved and left here.

    packaging/archive.py

It writes to crates/xbrl_json_c/out:

    libxbrl_json_c.a            what is shipped, with the bytes that `rt lib` writes there
    libxbrl_json_c.by-rattle.a  the same by Rattle's own compiler, for the tests

The crate itself is proved again, which takes a minute or two, and then compiled twice. If Rattle's
own compiler refuses it, a line says so, as `rt ci` does for a program. `rt lib` would also prove
the libraries below it again, because it takes only those that `rt check` left. Ends with status 1
if a library is not there, or is not as the kit built it. Needs the kit's command `rt` and Python
3.9 or later.
"""
from __future__ import annotations

import importlib
import os
import subprocess
import sys
import tempfile
from pathlib import Path
from typing import Any, Iterable, List

TOP = Path(__file__).resolve().parent.parent
CRATE = "xbrl_json_c"
# What only the proof takes.
OF_PROOF = ("--logic-built", "--jobs")


def kit_module() -> Any:
    """Returns the module with which the kit's command `rt` starts its compiler."""
    words = ["rt", "doc"]
    page = subprocess.run(words, capture_output=True, text=True, check=True).stdout.strip()
    sys.dont_write_bytecode = True
    sys.path.insert(0, str(Path(page).parent / "bin"))
    return importlib.import_module("rtlib")


def without(words: List[str], options: Iterable[str]) -> List[str]:
    """Returns the words without these options and their values."""
    left = list(words)
    for option in options:
        at = left.index(option)
        del left[at:at + 2]
    return left


def prove_and_compile(module: Any, crate: Any, name: str) -> int:
    """Proves a static library in this folder, and compiles it. Returns the status."""
    words = crate.words([], keeps=False)
    shipped, other = f"out/lib{name}.a", f"out/lib{name}.by-rattle.a"
    with tempfile.TemporaryDirectory() as folder:
        checked = os.path.join(folder, "checked")
        status = int(crate.call(module.RATTLE, "check", *words, "-o", checked))
        words = ["build", *without(words, OF_PROOF), "--crate-checked", checked]
        words += ["--toolchain", f"{module.KIT}/toolchain"]
        if status or crate.call(module.RATTLE, *words, "--backend", "llvm", "-o", shipped):
            return status or 1
        if crate.call(module.RATTLE, *words, "--backend", "rattle", "-o", other):
            print("packaging/archive.py: Rattle's own compiler refuses this library")
            Path(other).unlink(missing_ok=True)
    return 0


def build(top: Path, name: str) -> int:
    """Builds a static library over those that are there. Returns the status."""
    module = kit_module()
    folder = top / "crates" / name
    os.chdir(folder)
    crate = module.Crate(str(folder), str(top), {})
    missing = [it.name for it in crate.below() if not os.path.isdir(it.rlib)]
    if missing:
        print(f"packaging/archive.py: not built here: {' '.join(missing)}", file=sys.stderr)
        return 1
    os.makedirs("out", exist_ok=True)
    return prove_and_compile(module, crate, name)


def main(words: List[str]) -> int:
    """Builds the library, and returns the status."""
    if words:
        print(__doc__)
        return 0 if words == ["--help"] else 2
    return build(TOP, CRATE)


if __name__ == "__main__":
    sys.exit(main(sys.argv[1:]))
