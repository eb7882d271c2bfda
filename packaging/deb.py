#!/usr/bin/env python3
"""Makes the Debian packages of what dist/ has, without network and without root.

    packaging/deb.py [FOLDER]

It writes `xbrl-json_VERSION_amd64.deb` to FOLDER, which is `out` without an argument. The package
has both programs, their man pages and completions, and the manual. If dist/lib has the C library,
it also writes `libxbrl-json0` (what a linked program needs), `libxbrl-json-dev` (what a compiler
needs) and `python3-xbrl-json` (the Python package). Files are placed by `make install`.

Two runs over the same files write the same bytes. The time of each file is SOURCE_DATE_EPOCH, or
1 January 2020. Needs Python 3.9 or later, GNU make and dpkg-deb.
"""
from __future__ import annotations

import gzip
import hashlib
import os
import re
import shutil
import subprocess
import sys
import tempfile
from email.utils import formatdate
from pathlib import Path
from typing import Dict, List, NamedTuple

from library import is_shipped

TOP = Path(__file__).resolve().parent.parent
ARCHITECTURE = "amd64"
LIBRARIES = "/usr/lib/x86_64-linux-gnu"
TIME = int(os.environ.get("SOURCE_DATE_EPOCH", "1577836800"))
MAINTAINER = "Dobelaixo maintainers <maintainers@users.noreply.dobelaixo.example>"
SHARED = "dist/lib/libxbrl_json.so.0"
MANUAL = ("docs/MANUAL.md", "docs/FAULTS.md", "docs/PROVED.md")

# The modules of these packages are compiled at the installation, because a user cannot write next
# to them. Debian's tools find those of dist-packages by the package's name, others by their folder.
MODULES = {"xbrl-json": "/usr/share/xbrl-json",
           "python3-xbrl-json": "/usr/lib/python3/dist-packages/xbrl_json"}
AFTER_INSTALL = """#!/bin/sh
set -e
if [ "$1" = configure ] && command -v py3compile >/dev/null 2>&1; then
    py3compile -p {words}
fi
"""
BEFORE_REMOVAL = """#!/bin/sh
set -e
if command -v py3clean >/dev/null 2>&1; then
    py3clean -p {words}
else
    find {folder} -name __pycache__ -exec rm -rf {{}} +
fi
"""
COPYRIGHT = """Format: https://www.debian.org/doc/packaging-manuals/copyright-format/1.0/
Upstream-Name: xbrl-json

Files: *
Copyright: {owner}
License: Expat or Apache-2.0

License: Expat
{expat}

License: Apache-2.0
 On Debian systems, the text of the Apache License 2.0 is in
 /usr/share/common-licenses/Apache-2.0.
"""
CHANGELOG = """{name} ({version}) unstable; urgency=medium

  * CHANGELOG.md of the sources has the changes.

 -- {maintainer}  {date}
"""


class Package(NamedTuple):
    """A package: its name, the target of make that places its files, and the control fields.

    If `only` has patterns, other files are left out.
    """

    name: str
    target: str
    fields: Dict[str, str]
    only: List[str]


def program_version() -> str:
    """Returns the version that the shipped program prints."""
    words = [str(TOP / "dist/xbrl-json"), "--version"]
    return subprocess.run(words, capture_output=True, text=True, check=True).stdout.split()[1]


def least_c_library(file: Path) -> str:
    """Returns the oldest C library that has all symbols which a program or library needs."""
    found = re.findall(rb"GLIBC_(\d+)\.(\d+)", file.read_bytes())
    major, minor = max((int(a), int(b)) for a, b in found)
    return f"libc6 (>= {major}.{minor})"


def packages(version: str) -> List[Package]:
    """Returns the packages that can be made of dist/."""
    programs = Package("xbrl-json", "install-programs", {
        "Section": "text",
        "Depends": f"{least_c_library(TOP / 'dist/xbrl-json')}, python3:any (>= 3.9)",
        "Description": """converter of xBRL-CSV reports to xBRL-JSON
 Supervisors of banks and insurers collect large reports as xBRL-CSV: CSV
 tables and JSON metadata. xbrl-json writes such a report as one xBRL-JSON
 document, or says what is wrong with it. The conversion is formally proved
 correct.
 .
 xbrl-filing converts a report package with the taxonomy packages of the
 supervisor. It never goes online.
 .
 The processor must have SSE 4.2 and POPCNT (x86-64-v2).""",
    }, [])
    if not is_shipped(version):
        return [programs]
    about = """
 The library converts files in memory, and answers the document or the faults
 of the report. It opens no file and starts no thread."""
    shared = Package("libxbrl-json0", "install-library", {
        "Section": "libs",
        "Multi-Arch": "same",
        "Depends": least_c_library(TOP / SHARED),
        "Description": f"converter of xBRL-CSV reports to xBRL-JSON - library{about}",
    }, ["*.so.0"])
    development = Package("libxbrl-json-dev", "install-library", {
        "Section": "libdevel",
        "Multi-Arch": "same",
        "Depends": f"libxbrl-json0 (= {version})",
        "Description": f"converter of xBRL-CSV reports to xBRL-JSON - development files{about}\n"
                       " .\n This package has the header and the static library.",
    }, ["*.a", "*.so", "*.pc", "*.h"])
    python = Package("python3-xbrl-json", "install-python", {
        "Section": "python",
        "Architecture": "all",
        "Depends": f"libxbrl-json0 (= {version}), python3:any (>= 3.9)",
        "Description": f"converter of xBRL-CSV reports to xBRL-JSON - Python package{about}",
    }, [])
    return [programs, shared, development, python]


def install(package: Package, root: Path) -> None:
    """Places the files of a package below a folder."""
    words = ["make", "-s", "-C", str(TOP), package.target, f"DESTDIR={root}", "PREFIX=/usr"]
    words += [f"LIBDIR={LIBRARIES}", "ZSHDIR=/usr/share/zsh/vendor-completions"]
    subprocess.run(words, check=True)
    for path in sorted(root.rglob("*"), reverse=True):
        if path.is_dir() and not path.is_symlink():
            if not any(path.iterdir()):
                path.rmdir()
        elif package.only and not any(path.match(it) for it in package.only):
            path.unlink()


def write(path: Path, text: str, mode: int = 0o644) -> None:
    """Writes a file, and makes its folder."""
    path.parent.mkdir(parents=True, exist_ok=True)
    path.write_text(text)
    path.chmod(mode)


def compress(path: Path) -> None:
    """Replaces a file by the compressed one, as Debian has man pages and changelogs."""
    packed = path.with_name(f"{path.name}.gz")
    packed.write_bytes(gzip.compress(path.read_bytes(), 9, mtime=0))
    packed.chmod(0o644)
    path.unlink()


def add_documents(package: Package, root: Path, version: str) -> None:
    """Adds the license, the changelog and, for the programs, the manual."""
    folder = root / "usr/share/doc" / package.name
    license_text = (TOP / "LICENSE-MIT").read_text().splitlines()
    expat = "\n".join(f" {it}" if it else " ." for it in license_text[2:])
    owner = license_text[0].replace("Copyright (c) ", "")
    write(folder / "copyright", COPYRIGHT.format(owner=owner, expat=expat))
    words = {"name": package.name, "version": version, "date": formatdate(TIME)}
    write(folder / "changelog", CHANGELOG.format(maintainer=MAINTAINER, **words))
    compress(folder / "changelog")
    for page in (root / "usr/share/man").rglob("*.1"):
        compress(page)
    if package.name == "xbrl-json":
        for file in MANUAL:
            write(folder / Path(file).name, (TOP / file).read_text())


def mend_interpreter(root: Path) -> None:
    """Names Debian's own Python in xbrl-filing, whatever the user's PATH has."""
    script = root / "usr/share/xbrl-json/xbrl-filing"
    text = script.read_text().replace("exec python3 ", "exec /usr/bin/python3 ", 1)
    write(script, text, 0o755)


def add_control(package: Package, root: Path, version: str) -> None:
    """Adds the control files of a package."""
    files = sorted(it for it in root.rglob("*") if it.is_file() and not it.is_symlink())
    size = sum(-(-it.stat().st_size // 1024) for it in files)
    sums = "".join(f"{hashlib.md5(it.read_bytes()).hexdigest()}  {it.relative_to(root)}\n"
                   for it in files)
    fields = {"Package": package.name, "Source": "xbrl-json", "Version": version,
              "Architecture": ARCHITECTURE, "Maintainer": MAINTAINER,
              "Installed-Size": str(size), "Priority": "optional", **package.fields}
    if package.name == fields["Source"]:
        del fields["Source"]
    write(root / "DEBIAN/control", "".join(f"{name}: {it}\n" for name, it in fields.items()))
    write(root / "DEBIAN/md5sums", sums)
    if package.name in MODULES:
        folder = MODULES[package.name]
        words = f"{package.name} {folder}" if package.name == "xbrl-json" else package.name
        write(root / "DEBIAN/postinst", AFTER_INSTALL.format(words=words), 0o755)
        write(root / "DEBIAN/prerm", BEFORE_REMOVAL.format(words=words, folder=folder), 0o755)
    elif package.name == "libxbrl-json0":
        write(root / "DEBIAN/shlibs", f"libxbrl_json 0 libxbrl-json0 (>= {version})\n")
        write(root / "DEBIAN/triggers", "activate-noawait ldconfig\n")


def make(package: Package, version: str, out: Path) -> Path:
    """Makes a package, and returns its file."""
    file = out / f"{package.name}_{version}_{package.fields.get('Architecture', ARCHITECTURE)}.deb"
    with tempfile.TemporaryDirectory() as folder:
        root = Path(folder) / "root"
        root.mkdir(mode=0o755)
        install(package, root)
        if package.name == "xbrl-json":
            mend_interpreter(root)
        add_documents(package, root, version)
        add_control(package, root, version)
        for path in [root, *root.rglob("*")]:
            os.utime(path, (TIME, TIME), follow_symlinks=False)
        environment = {**os.environ, "SOURCE_DATE_EPOCH": str(TIME)}
        words = ["dpkg-deb", "--root-owner-group", "-Zxz", "--build", str(root), str(file)]
        subprocess.run(words, check=True, env=environment, stdout=subprocess.DEVNULL)
    return file


def main(words: List[str]) -> int:
    """Makes all packages, and prints their files."""
    if len(words) > 1 or words[:1] == ["--help"]:
        print(__doc__)
        return 2 - (words == ["--help"]) * 2
    os.umask(0o022)
    missing = [it for it in ("make", "dpkg-deb") if not shutil.which(it)]
    if missing:
        print(f"packaging/deb.py: needed and not found: {', '.join(missing)}", file=sys.stderr)
        return 1
    out = Path(words[0] if words else TOP / "out")
    out.mkdir(parents=True, exist_ok=True)
    version = program_version()
    for package in packages(version):
        print(make(package, version, out))
    return 0


if __name__ == "__main__":
    sys.exit(main(sys.argv[1:]))
