#!/usr/bin/env python3
"""Makes the wheel of the Python package `xbrl_json`, without network and without a compiler.

    packaging/wheel.py [FOLDER]

It writes `xbrl_json-VERSION-py3-none-manylinux_2_34_x86_64.whl` to FOLDER, which is `out` without
an argument. The wheel has the package of library/python, the C library of dist/lib if it is there,
and the commands `xbrl-json` (the program of dist/) and `xbrl-filing`. `pip install FILE` installs
it.

Two runs with the same Python over the same files write the same bytes. Needs Python 3.9 or later.
"""
from __future__ import annotations

import base64
import hashlib
import re
import subprocess
import sys
import zipfile
from pathlib import Path
from typing import Dict, List

from library import is_shipped

TOP = Path(__file__).resolve().parent.parent
SHARED = TOP / "dist/lib/libxbrl_json.so.0"
PROGRAM = TOP / "dist/xbrl-json"
METADATA = """Metadata-Version: 2.1
Name: xbrl-json
Version: {version}
Summary: Converts xBRL-CSV reports to xBRL-JSON, proved correct
License: MIT OR Apache-2.0
Classifier: Operating System :: POSIX :: Linux
Classifier: Programming Language :: Python :: 3
Classifier: Typing :: Typed
Requires-Python: >=3.9
Description-Content-Type: text/markdown

{description}"""
WHEEL = """Wheel-Version: 1.0
Generator: packaging/wheel.py
Root-Is-Purelib: false
Tag: {tag}
"""
COMMANDS = """[console_scripts]
xbrl-filing = xbrl_json.commands:filing
"""


def version() -> str:
    """Returns the version that the shipped program prints."""
    words = [str(PROGRAM), "--version"]
    return subprocess.run(words, capture_output=True, text=True, check=True).stdout.split()[1]


def tag() -> str:
    """Returns the tag of the wheel, by the oldest C library that has what its files need."""
    files = [it for it in (PROGRAM, SHARED) if it.exists()]
    found = (re.findall(rb"GLIBC_(\d+)\.(\d+)", it.read_bytes()) for it in files)
    major, minor = max((int(a), int(b)) for it in found for a, b in it)
    return f"py3-none-manylinux_{major}_{minor}_x86_64"


def description() -> str:
    """Returns what an index shows: the page on the library, or the README without it."""
    page = TOP / "library/README.md"
    return (page if page.exists() else TOP / "README.md").read_text()


def contents(its_version: str, its_tag: str) -> Dict[str, bytes]:
    """Returns the files of the wheel by their names, without RECORD."""
    found: Dict[str, bytes] = {}
    for folder, below in ((TOP / "library/python/xbrl_json", "xbrl_json"),
                          (TOP / "filing", "xbrl_json/filing")):
        for path in sorted(folder.iterdir()):
            if path.suffix == ".py" or path.name == "py.typed":
                found[f"{below}/{path.name}"] = path.read_bytes()
    if is_shipped(its_version):
        found[f"xbrl_json/{SHARED.name}"] = SHARED.read_bytes()
    found[f"xbrl_json-{its_version}.data/scripts/xbrl-json"] = PROGRAM.read_bytes()
    about = f"xbrl_json-{its_version}.dist-info"
    for name in ("LICENSE-MIT", "LICENSE-APACHE"):
        found[f"{about}/{name}"] = (TOP / name).read_bytes()
    words = METADATA.format(version=its_version, description=description())
    found[f"{about}/METADATA"] = words.encode()
    found[f"{about}/WHEEL"] = WHEEL.format(tag=its_tag).encode()
    found[f"{about}/entry_points.txt"] = COMMANDS.encode()
    return found


def record_of(files: Dict[str, bytes], name: str) -> bytes:
    """Returns RECORD: the digest and the size of each file, and its own name."""
    lines = []
    for file, content in files.items():
        digest = base64.urlsafe_b64encode(hashlib.sha256(content).digest()).rstrip(b"=").decode()
        lines.append(f"{file},sha256={digest},{len(content)}\n")
    return "".join([*lines, f"{name},,\n"]).encode()


def make(out: Path) -> Path:
    """Makes the wheel, and returns its file."""
    its_version, its_tag = version(), tag()
    files = contents(its_version, its_tag)
    record = f"xbrl_json-{its_version}.dist-info/RECORD"
    files[record] = record_of(files, record)
    wheel = out / f"xbrl_json-{its_version}-{its_tag}.whl"
    with zipfile.ZipFile(wheel, "w", zipfile.ZIP_DEFLATED, compresslevel=9) as packed:
        for name, content in files.items():
            entry = zipfile.ZipInfo(name, (1980, 1, 1, 0, 0, 0))
            entry.compress_type = zipfile.ZIP_DEFLATED
            entry.create_system = 3
            entry.external_attr = (0o100755 if "/scripts/" in name else 0o100644) << 16
            packed.writestr(entry, content)
    return wheel


def main(words: List[str]) -> int:
    """Makes the wheel, and prints its file."""
    if len(words) > 1 or words[:1] == ["--help"]:
        print(__doc__)
        return 0 if words == ["--help"] else 2
    out = Path(words[0] if words else TOP / "out")
    out.mkdir(parents=True, exist_ok=True)
    print(make(out))
    return 0


if __name__ == "__main__":
    sys.exit(main(sys.argv[1:]))
