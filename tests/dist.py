#!/usr/bin/env python3
"""Makes dist/, the shipped program, from the one that was proved here, and checks it.

    tests/dist.py fill
    tests/dist.py check [--strict]
    tests/dist.py fill-library
    tests/dist.py check-library [--strict]

`fill` strips the program that `.ci/run` or `./xbrl-json --prove` proved and built from these
sources into dist/xbrl-json. It writes dist/SOURCES, which names what it was built from. It needs
the kit.

`check` fails (status 1) if dist/xbrl-json is not the file that dist/SOURCES names, or if a line of
dist/SOURCES was changed. If dist/SOURCES names these sources and this kit, the program that was
proved here, stripped in the same way, must be the shipped one, byte for byte. If that cannot be
compared (other sources, another kit, no kit, nothing proved here), a line gives the reason, and the
status is 0; with --strict, for releases, it is 1. dist/sources.sh defines the sources of a program.

`fill-library` and `check-library` do the same for the C library in dist/lib, which
packaging/library.py makes. dist/sources.sh says whether a library must be there
(`library_required`).
Needs Python 3.9 or later and bash.
"""
import argparse
import os
import subprocess
import sys
import tempfile
from pathlib import Path
from typing import Callable

TOP = Path(__file__).resolve().parent.parent
BUILT = Path("crates/xbrl_json_cli/out/xbrl_json_cli")
SHIPPED = Path("dist/xbrl-json")
SOURCES = Path("dist/SOURCES")
LIBRARY_CRATE = "xbrl_json_c"
LIBRARY_BUILT = Path("crates/xbrl_json_c/out/libxbrl_json_c.a")
LIBRARY = Path("dist/lib")
LIBRARY_FILES = ("libxbrl_json.a", "libxbrl_json.so.0", "xbrl_json.pc")


class Refused(Exception):
    """Why dist/ is wrong, or cannot be made."""


class NotCompared(Exception):
    """Why the shipped program was not compared with a proved one."""


def asked(top: Path, *words: str) -> str:
    """Returns what a function of dist/sources.sh prints, or an empty text if it fails."""
    done = subprocess.run(["bash", "-c", '. dist/sources.sh && "$@"', "bash", *words], cwd=top, capture_output=True, text=True)
    return done.stdout.strip() if done.returncode == 0 else ""


def holds(top: Path, *words: str) -> bool:
    """Whether a test of dist/sources.sh holds."""
    return subprocess.run(["bash", "-c", '. dist/sources.sh && "$@"', "bash", *words], cwd=top, capture_output=True).returncode == 0


def kit() -> str:
    """Returns the kit's line, or an empty text without a kit."""
    try:
        return subprocess.run(["rt", "version"], capture_output=True, text=True, check=True).stdout.strip()
    except (OSError, subprocess.CalledProcessError):
        return ""


def strip(program: Path, to: Path) -> None:
    """Strips a program by the kit's own clang, which is `llvm-strip` under that name.

    Other tools give other bytes.
    """
    page = subprocess.run(["rt", "doc"], capture_output=True, text=True, check=True).stdout.strip()
    clang = Path(page).parent / "toolchain/bin/clang"
    subprocess.run(["llvm-strip", "-s", "-o", to, program], executable=clang, check=True)


def must_name(program: Path, its_kit: str) -> None:
    """`--version` names the kit by which the program was proved."""
    said = subprocess.run([program, "--version"], capture_output=True, text=True, stdin=subprocess.DEVNULL).stdout.strip()
    if its_kit not in said:
        raise Refused(f"--version says `{said}`, and the kit is `{its_kit}`: mend the version in crates/oim_run/src/settings.rt")


def write(top: Path, program: Path, sources: str, its_kit: str, stripped: Callable[[Path, Path], object]) -> None:
    """Fills the dist/ of a repository from a program."""
    new = top / "dist/xbrl-json.new"
    stripped(program, new)
    new.chmod(0o755)
    os.replace(new, top / SHIPPED)
    sums = asked(top, "sum_of", str(program)), asked(top, "sum_of", str(SHIPPED))
    lines = [f"sources: {sources}", f"kit: {its_kit}", f"program: {sums[0]}", f"xbrl-json: {sums[1]}"]
    asked(top, "write_note", str(SOURCES), *lines)


def fill(top: Path) -> str:
    """Makes dist/ from the program that was proved here."""
    sources, its_kit = asked(top, "sources_sum", "."), kit()
    if not its_kit:
        raise Refused("the kit's command `rt` is needed")
    if not holds(top, "is_built_of", ".", sources):
        raise Refused("no program was proved here from these sources: run .ci/run")
    if asked(top, "noted", "crates/xbrl_json_cli/out/SOURCES", "kit") != its_kit:
        raise Refused("the program here was proved by another kit: run .ci/run")
    must_name(top / BUILT, its_kit)
    write(top, top / BUILT, sources, its_kit, strip)
    return f"{SHIPPED} is the program of these sources, of {its_kit}"


def check(top: Path) -> str:
    """Checks dist/, as far as what is here allows."""
    if not (top / SHIPPED).exists() and not (top / SOURCES).exists():
        raise NotCompared(f"there is no {SHIPPED} yet")
    if not holds(top, "is_shipped_whole", "."):
        raise Refused(f"{SHIPPED} is not the program that {SOURCES} names, or a line of {SOURCES} was changed")
    sources, its_kit, here = asked(top, "sources_sum", "."), asked(top, "noted", str(SOURCES), "kit"), kit()
    if asked(top, "noted", str(SOURCES), "sources") != sources:
        raise NotCompared(f"the sources have moved on since {SHIPPED} was made: tests/dist.py fill makes it anew once they are proved")
    if here != its_kit:
        raise NotCompared(f"{SHIPPED} is of these sources, and of the kit `{its_kit}`; here is {f'`{here}`' if here else 'none'}")
    if not holds(top, "is_built_of", ".", sources):
        raise NotCompared(f"{SHIPPED} is of these sources; nothing was proved here to compare it with")
    must_name(top / SHIPPED, its_kit)
    with tempfile.TemporaryDirectory() as folder:
        stripped = Path(folder) / "stripped"
        strip(top / BUILT, stripped)
        same = stripped.read_bytes() == (top / SHIPPED).read_bytes()
    if not same or asked(top, "noted", str(SOURCES), "program") != asked(top, "sum_of", str(BUILT)):
        raise Refused(f"{SHIPPED} is of these sources and of this kit, but the program that was proved here has other bytes")
    return f"{SHIPPED} is, byte for byte, the program that was proved here"


def make_library(top: Path, out: Path) -> None:
    """Makes the files of the C library from the static library that was proved here."""
    words = [sys.executable, "packaging/library.py", "--from", str(LIBRARY_BUILT), str(out)]
    done = subprocess.run(words, cwd=top, capture_output=True, text=True)
    if done.returncode:
        raise Refused(f"packaging/library.py: {done.stderr.strip()}")


def fill_library(top: Path) -> str:
    """Makes dist/lib from the static library that was proved here."""
    sources, its_kit = asked(top, "sources_sum", ".", LIBRARY_CRATE), kit()
    if not its_kit:
        raise Refused("the kit's command `rt` is needed")
    if not holds(top, "is_library_built_of", ".", sources):
        raise Refused("no library was proved here from these sources: run .ci/run with library_required=yes in dist/sources.sh")
    if asked(top, "noted", f"crates/{LIBRARY_CRATE}/out/SOURCES", "kit") != its_kit:
        raise Refused("the library here was proved by another kit: run .ci/run")
    make_library(top, top / LIBRARY)
    lines = [f"sources: {sources}", f"kit: {its_kit}", f"library: {asked(top, 'sum_of', str(LIBRARY_BUILT))}"]
    lines += [f"{name}: {asked(top, 'sum_of', str(LIBRARY / name))}" for name in LIBRARY_FILES]
    asked(top, "write_note", str(LIBRARY / "SOURCES"), *lines)
    return f"{LIBRARY} is the library of these sources, of {its_kit}"


def check_library(top: Path) -> str:
    """Checks dist/lib, as far as what is here allows."""
    if not (top / LIBRARY).exists():
        if asked(top, "eval", "echo $library_required") == "yes":
            raise Refused(f"there is no {LIBRARY}, which dist/sources.sh requires")
        raise NotCompared(f"there is no {LIBRARY} yet")
    if not holds(top, "is_library_whole", "."):
        raise Refused(f"a file of {LIBRARY} is not the one that {LIBRARY / 'SOURCES'} names, or a line there was changed")
    sources, its_kit = asked(top, "sources_sum", ".", LIBRARY_CRATE), asked(top, "noted", str(LIBRARY / "SOURCES"), "kit")
    if asked(top, "noted", str(LIBRARY / "SOURCES"), "sources") != sources:
        raise NotCompared(f"the sources have moved on since {LIBRARY} was made: tests/dist.py fill-library makes it anew once they are proved")
    if kit() != its_kit:
        raise NotCompared(f"{LIBRARY} is of these sources, and of the kit `{its_kit}`; here is `{kit() or 'none'}`")
    if not holds(top, "is_library_built_of", ".", sources):
        raise NotCompared(f"{LIBRARY} is of these sources; no library was proved here to compare it with")
    with tempfile.TemporaryDirectory() as folder:
        make_library(top, Path(folder))
        same = all((Path(folder) / name).read_bytes() == (top / LIBRARY / name).read_bytes() for name in LIBRARY_FILES)
    if not same or asked(top, "noted", str(LIBRARY / "SOURCES"), "library") != asked(top, "sum_of", str(LIBRARY_BUILT)):
        raise Refused(f"{LIBRARY} is of these sources and of this kit, but the library that was proved here has other bytes")
    return f"{LIBRARY} is, byte for byte, the library that was proved here"


def main() -> int:
    """The status."""
    parser = argparse.ArgumentParser(description=__doc__, formatter_class=argparse.RawDescriptionHelpFormatter)
    runs = {"fill": fill, "check": check, "fill-library": fill_library, "check-library": check_library}
    parser.add_argument("what", choices=runs)
    parser.add_argument("--strict", action="store_true", help="with check and check-library: what was not compared fails too")
    options = parser.parse_args()
    try:
        print("dist/:", runs[options.what](TOP))
    except Refused as why:
        print("dist/: WRONG:", why)
        return 1
    except NotCompared as why:
        print("dist/: not compared:", why)
        return 1 if options.strict else 0
    return 0


if __name__ == "__main__":
    sys.exit(main())
