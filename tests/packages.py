#!/usr/bin/env python3
"""Tests how the programs are installed, and the completions of xbrl-filing.

    tests/packages.py PROGRAM

The packages are made in a copy of the repository whose dist/ has PROGRAM, stripped. dist/lib is
left out there if it is of another version.

`make install` puts both programs, their man pages and completions below a folder, where they run,
and the C library, with which the C program of docs/MANUAL.md is compiled by pkg-config; `make
uninstall` leaves no file. packaging/wheel.py and packaging/deb.py write the same bytes
twice. `pip` installs the wheel into a virtual environment, without network, and its commands run.
lintian has no error and no warning. The completions of xbrl-filing offer the options of its
`--help` and those that it passes on.

What needs a tool that is not installed is left out, and a line names the tool. Each case that fails
is printed; the last line counts. Needs Python 3.9 or later, no network, and no root.
"""
from __future__ import annotations

import os
import re
import shutil
import subprocess
import sys
import tempfile
from pathlib import Path
from typing import Dict, List

TOP = Path(__file__).resolve().parent.parent
sys.path.insert(0, str(TOP))

from tests.cases import case, told  # noqa: E402
PARTS = ("Makefile", "LICENSE-*", "*.md", "xbrl-filing", "filing", "library", "packaging", "docs",
         "dist", "examples")
FILING = ["examples/filing/report", "--taxonomy", "examples/filing/taxonomy"]
INSTALLED = """bin/xbrl-filing bin/xbrl-json share/man/man1/xbrl-filing.1 share/man/man1/xbrl-json.1
share/bash-completion/completions/xbrl-filing share/bash-completion/completions/xbrl-json
share/fish/vendor_completions.d/xbrl-filing.fish share/fish/vendor_completions.d/xbrl-json.fish
share/zsh/site-functions/_xbrl-filing share/zsh/site-functions/_xbrl-json""".split()
BASH = """. xbrl-filing.bash; cd "$1"; shift
COMP_WORDS=("$@"); COMP_CWORD=$(($# - 1)); _xbrl_filing; printf '%s\\n' "${COMPREPLY[@]}"
"""
PREPARED = """import sys, xbrl_json, xbrl_json.filings as filings
filings.prepare(sys.argv[2], sys.argv[3:], sys.argv[1])
try:
    filings.prepare("absent.zip", [], sys.argv[1] + "2")
except filings.Refusal as refusal:
    print(xbrl_json.Refused.__name__, refusal.status)
"""
CONVERTED = """import sys, xbrl_json, xbrl_json.filings as filings
document = filings.convert(sys.argv[2], sys.argv[3:])
assert document == xbrl_json.convert_folder(sys.argv[1])
sys.stdout.buffer.write(document)
"""


def ran(top: Path, *words: object, **more: str) -> "subprocess.CompletedProcess[str]":
    """Runs a command at the top of a repository."""
    environment = {**os.environ, **more}
    if not more:
        environment.pop("XBRL_JSON", None)
    return subprocess.run([str(it) for it in words], cwd=top, capture_output=True, text=True,
                          stdin=subprocess.DEVNULL, env=environment)


def lacks(*tools: str) -> bool:
    """Whether a tool is not installed, and then prints what is left out."""
    missing = [it for it in tools if not shutil.which(it)]
    if missing:
        print(f"left out: what needs {', '.join(missing)}")
    return bool(missing)


def copied(program: str, top: Path) -> Path:
    """Copies what packages are made of, with PROGRAM in dist/."""
    top.mkdir()
    for source in sorted(it for part in PARTS for it in TOP.glob(part)):
        if source.is_dir():
            shutil.copytree(source, top / source.name, ignore=shutil.ignore_patterns("__pycache__"))
        else:
            shutil.copy(source, top)
    for script in (top / "xbrl-filing", *(top / "packaging").iterdir()):
        script.chmod(0o755)
    shipped = top / "dist/xbrl-json"
    shutil.copyfile(program, shipped)
    shipped.chmod(0o755)
    if not lacks("strip"):
        ran(top, "strip", "-s", shipped)
    return top


def drop_other_library(top: Path, version: str) -> None:
    """Removes dist/lib if it is of another version than the program."""
    about = top / "dist/lib/xbrl_json.pc"
    if not about.exists():
        print("left out: the packages of the C library: there is no dist/lib")
    elif f"\nVersion: {version.split()[1]}\n" not in about.read_text():
        print("left out: the packages of the C library: dist/lib is of another version")
        shutil.rmtree(about.parent)


def by_make(top: Path, folder: Path, document: str) -> None:
    """Installs by make, runs what is installed, and removes it."""
    if lacks("make"):
        return
    prefix = f"PREFIX={folder}"
    done = ran(top, "make", "-s", "install", prefix)
    case("make install", (done.returncode, done.stderr) == (0, ""), done.stdout, done.stderr)
    missing = [it for it in INSTALLED if not (folder / it).is_file()]
    case("make install: the files", not missing, missing)
    seen = ran(top, folder / "bin/xbrl-filing", *FILING)
    case("make install: xbrl-filing runs", seen.stdout == document != "", seen)
    if (top / "dist/lib").exists():
        by_pkg_config(top, folder)
    done = ran(top, "make", "-s", "uninstall", prefix)
    left = [it for it in folder.rglob("*") if not it.is_dir() or it.is_symlink()]
    case("make uninstall", done.returncode == 0 and not left, done.stderr, left)


def by_pkg_config(top: Path, folder: Path) -> None:
    """Compiles the C program of the manual with the installed library, and runs it."""
    if lacks("cc", "pkg-config"):
        return
    (source,) = re.findall(r"^```c\n(.*?)^```$", (top / "docs/MANUAL.md").read_text(), re.M | re.S)
    program, library = folder.parent / "convert", folder / "lib"
    program.with_suffix(".c").write_text(source)
    asked = ran(top, "pkg-config", "--cflags", "--libs", "xbrl_json", PKG_CONFIG_PATH=f"{library}/pkgconfig")
    report = [f"examples/held/{it}" for it in ("meta.json", "types.csv", "t1.csv")]
    wanted = ran(top, "dist/xbrl-json", report[0], "--types", report[1]).stdout
    for name in ("-lxbrl_json", "-l:libxbrl_json.a"):
        words = asked.stdout.replace("-lxbrl_json", name).split()
        done = ran(top, "cc", "-o", program, program.with_suffix(".c"), *words)
        case(f"make install: cc {name}", done.returncode == 0 and name in words, asked.stderr, done.stderr)
        at = library if name == "-lxbrl_json" else folder / "absent"
        seen = ran(top, program, *report, LD_LIBRARY_PATH=str(at))
        case(f"make install: converts with {name}", seen.stdout == wanted != "", seen)


def made_twice(top: Path, script: str, folder: Path) -> List[Path]:
    """Makes packages twice, and returns the files of the first time."""
    first, second = folder / "first", folder / "second"
    for it in (first, second):
        done = ran(top, sys.executable, top / "packaging" / script, it)
        case(f"{script} runs", done.returncode == 0, done.stderr)
    files = sorted(first.iterdir()) if first.exists() else []
    same = all((second / it.name).read_bytes() == it.read_bytes() for it in files)
    case(f"{script}: the same bytes twice", bool(files) and same, files)
    return files


def by_wheel(top: Path, folder: Path, document: str, version: str) -> None:
    """Makes the wheel, and installs it into a virtual environment."""
    files = made_twice(top, "wheel.py", folder)
    if ran(top, sys.executable, "-m", "venv", folder / "venv").returncode or not files:
        print("left out: pip: no virtual environment can be made")
        return
    commands = folder / "venv/bin"
    done = ran(top, commands / "pip", "install", "-q", "--no-index", "--no-deps", files[0])
    case("pip install", done.returncode == 0, done.stderr)
    seen = ran(top, commands / "xbrl-json", "--version")
    case("the wheel's xbrl-json", seen.stdout == version, seen)
    seen = ran(top, commands / "xbrl-filing", *FILING)
    case("the wheel's xbrl-filing", seen.stdout == document, seen)
    seen = ran(top, commands / "python", "-c", PREPARED, folder / "plain", FILING[0], *FILING[2:])
    case("the wheel's package", seen.stdout == "Refused 3\n", seen)
    if (top / "dist/lib").exists():
        seen = ran(top, commands / "python", "-c", CONVERTED, folder / "plain", FILING[0], *FILING[2:])
        case("the wheel's library", seen.stdout == document, seen)
    plain = [folder / "plain/meta.json", "--types", folder / "plain/types.csv"]
    seen = ran(top, commands / "xbrl-json", *plain)
    case("the wheel's prepare", seen.stdout == document, seen)


def by_debian(top: Path, folder: Path) -> None:
    """Makes the Debian packages, and asks lintian."""
    if lacks("dpkg-deb", "make"):
        return
    files = made_twice(top, "deb.py", folder)
    for file in files:
        listed = ran(top, "dpkg-deb", "-c", file).stdout
        case(f"{file.name}: files of root", set(re.findall(r"^\S+ (\S+)", listed, re.M)) == {"root/root"})
    if not lacks("lintian"):
        found = ran(top, "lintian", "--allow-root", *files).stdout
        case("lintian", found == "", found)


def offered(top: Path, folder: Path, *words: str) -> List[str]:
    """Returns what bash offers for the last argument of xbrl-filing."""
    done = subprocess.run(["bash", "--norc", "-c", BASH, "bash", str(folder), "xbrl-filing", *words],
                          cwd=top / "dist/completions", capture_output=True, text=True)
    return sorted(done.stdout.split())


def completions(top: Path, folder: Path) -> None:
    """Compares the completions of xbrl-filing with its help."""
    text = ran(top, sys.executable, top / "xbrl-filing", "--help").stdout
    known = set(re.findall(r"(?<![\w-])--?\w[\w-]*", text)) - {"-filing", "-json"}
    options = sorted(it for it in known if re.fullmatch(r"--[a-z-]+|-[hV]", it))
    texts: Dict[str, str] = {it.name: it.read_text() for it in (top / "dist/completions").glob("*xbrl-filing*")}
    case("bash offers the options", offered(top, folder, "-") == options, offered(top, folder, "-"), options)
    long = {it for it in options if it.startswith("--")}
    fish = {f"--{it}" for it in re.findall(r" -l ([\w-]+)", texts["xbrl-filing.fish"])}
    case("fish has the options", fish == long, fish, long)
    zsh = set(re.findall(r"(?:'|,)(--[\w-]+)", texts["_xbrl-filing"]))
    case("zsh has the options", zsh == long, zsh, long)
    for name in ("report.zip", "other.csv"):
        (folder / name).touch()
    (folder / "taxonomy").mkdir()
    for words, wanted in (([""], ["other.csv", "report.zip", "taxonomy"]),
                          (["report.zip", "--taxonomy", "t"], ["taxonomy"]),
                          (["report.zip", "--taxonomy", "taxonomy", "r"], ["report.zip"]),
                          (["--prepare", ""], ["taxonomy"]), (["--cache", "="], ["taxonomy"]),
                          (["--layout", "l"], ["lines"]), (["--layout", "=", "c"], ["compact"]),
                          (["--workers", ""], []), (["--faults", "o"], ["other.csv"])):
        case(f"bash: {' '.join(words)}", offered(top, folder, *words) == wanted, offered(top, folder, *words))


def main(program: str) -> int:
    """Returns the status: 1 if a case fails."""
    with tempfile.TemporaryDirectory() as name:
        top = copied(program, Path(name) / "top")
        version = ran(top, program, "--version").stdout
        drop_other_library(top, version)
        wanted = ran(top, sys.executable, top / "xbrl-filing", *FILING, XBRL_JSON=program).stdout
        for part in ("make", "wheel", "deb", "completions"):
            (Path(name) / part).mkdir()
        by_make(top, Path(name) / "make", wanted)
        by_wheel(top, Path(name) / "wheel", wanted, version)
        by_debian(top, Path(name) / "deb")
        completions(top, Path(name) / "completions")
    return told("what is installed")


if __name__ == "__main__":
    if len(sys.argv) != 2:
        sys.exit(__doc__)
    sys.exit(main(os.path.abspath(sys.argv[1])))
