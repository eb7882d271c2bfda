#!/usr/bin/env python3
"""Makes the C library from the static library that was proved and built here.

    packaging/library.py [--from ARCHIVE] [FOLDER]

ARCHIVE is crates/xbrl_json_c/out/libxbrl_json_c.a without the option, which packaging/archive.py or
`rt lib` builds. It writes to FOLDER, which is `out/lib` without an argument:

    libxbrl_json.a      the static library: one object, with the public names only
    libxbrl_json.so.0   the shared library, which has the public names and needs the C library only
    xbrl_json.pc        for pkg-config; `make install` puts in the folders

Two runs over the same archive write the same bytes. It needs the kit's command `rt`, because it
takes the kit's linker, and Python 3.9 or later. `tests/dist.py fill-library` runs it for dist/lib.
"""
from __future__ import annotations

import ctypes
import os
import shutil
import subprocess
import sys
import tempfile
from pathlib import Path
from typing import List

TOP = Path(__file__).resolve().parent.parent
ARCHIVE = TOP / "crates/xbrl_json_c/out/libxbrl_json_c.a"
NAMES = ("xbrl_json_convert", "xbrl_json_version")
STATIC, SHARED, DESCRIPTION = FILES = ("libxbrl_json.a", "libxbrl_json.so.0", "xbrl_json.pc")
EXPORTS = "XBRL_JSON_0 {{ global: {names}; local: *; }};\n"
PKG_CONFIG = """prefix=/usr/local
libdir=${{prefix}}/lib
includedir=${{prefix}}/include

Name: xbrl_json
Description: Converts xBRL-CSV reports to xBRL-JSON
Version: {version}
Libs: -L${{libdir}} -lxbrl_json
Cflags: -I${{includedir}}
"""


def kit() -> Path:
    """Returns the folder of the kit."""
    words = ["rt", "doc"]
    page = subprocess.run(words, capture_output=True, text=True, check=True).stdout.strip()
    return Path(page).parent


def run_tool(its_kit: Path, tool: str, *words: str) -> None:
    """Runs a tool of the kit. Its clang is also each of the tools by whose name it is started."""
    own = its_kit / "toolchain/bin" / tool
    program = own if own.exists() else its_kit / "toolchain/bin/clang"
    subprocess.run([tool, *words], executable=str(program), check=True)


def link_object(its_kit: Path, archive: Path, folder: Path) -> str:
    """Links an archive and the kit's calls of `malloc` to one object. Returns its path."""
    whole, single = str(folder / "whole.o"), str(folder / "xbrl_json.o")
    heap = str(its_kit / "c/liblibc_c.a")
    run_tool(its_kit, "ld.lld", "-r", "-o", whole, "--whole-archive", str(archive), heap)
    kept = [f"--keep-global-symbol={name}" for name in NAMES]
    run_tool(its_kit, "llvm-objcopy", "--strip-debug", "--remove-section=.comment", *kept, whole, single)
    return single


def link_shared(its_kit: Path, single: str, folder: Path, to: Path) -> None:
    """Links an object to the shared library."""
    exports = folder / "exports"
    exports.write_text(EXPORTS.format(names="; ".join(NAMES)))
    run_tool(its_kit, "ld.lld", "-shared", "-o", str(to), f"--version-script={exports}",
             "-soname", SHARED, "--gc-sections", "-z", "relro", "-z", "now", "-z", "noexecstack",
             "-z", "defs", "--hash-style=gnu", single, str(its_kit / "toolchain/lib/libc.so.6"))
    run_tool(its_kit, "llvm-strip", "--strip-unneeded", "--remove-section=.comment", str(to))
    to.chmod(0o644)


class Text(ctypes.Structure):
    """A text of the library."""

    _fields_ = [("at", ctypes.c_void_p), ("len", ctypes.c_size_t)]


def version_of(shared: Path) -> str:
    """Returns the version that a library gives, without its kit."""
    text = Text()
    ctypes.CDLL(str(shared.resolve())).xbrl_json_version(ctypes.byref(text))
    return ctypes.string_at(text.at, text.len).decode().split()[0]


def is_shipped(version: str) -> bool:
    """Whether dist/lib has the C library. Ends the script if it is of another version."""
    shared = TOP / "dist/lib" / SHARED
    if shared.exists() and version_of(shared) != version:
        sys.exit(f"dist/lib is {version_of(shared)}, and dist/xbrl-json is {version}: make both anew")
    return shared.exists()


def make(archive: Path, out: Path) -> None:
    """Makes the files of the library in a folder."""
    its_kit = kit()
    out.mkdir(parents=True, exist_ok=True)
    with tempfile.TemporaryDirectory() as name:
        folder = Path(name)
        single = link_object(its_kit, archive, folder)
        run_tool(its_kit, "llvm-ar", "rcsD", str(folder / STATIC), single)
        link_shared(its_kit, single, folder, folder / SHARED)
        version = version_of(folder / SHARED)
        (folder / DESCRIPTION).write_text(PKG_CONFIG.format(version=version))
        for file in FILES:
            shutil.copyfile(folder / file, out / file)


def main(words: List[str]) -> int:
    """Makes the library, and prints its files."""
    archive = ARCHIVE
    if words[:1] == ["--from"] and len(words) > 1:
        archive, words = Path(words[1]), words[2:]
    if len(words) > 1 or words[:1] == ["--help"]:
        print(__doc__)
        return 0 if words == ["--help"] else 2
    if not archive.exists():
        print(f"packaging/library.py: {archive} does not exist: packaging/archive.py makes it", file=sys.stderr)
        return 1
    out = Path(words[0] if words else TOP / "out/lib")
    make(archive, out)
    for file in FILES:
        print(os.path.join(out, file))
    return 0


if __name__ == "__main__":
    sys.exit(main(sys.argv[1:]))
