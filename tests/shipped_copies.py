"""Copies of this repository, in which a program is shipped, changed and proved.

The program is put into the dist/ of a copy, as if it was proved from these sources, so nothing
depends on dist/ here. What runs in the copy finds only bash, the coreutils and, for tests, python3
and cc.
"""
from __future__ import annotations

import os
import pty
import resource
import shutil
import subprocess
import sys
import tempfile
import unittest
from collections.abc import Sequence
from pathlib import Path

from tests import dist
from tests.harness import PATIENCE, PROGRAM, TOP, Done

COREUTILS = "cat chmod cp cut dirname env head mkdir mktemp mv readlink rm sha256sum sort tail tee"
KIT = "a made-up kit"
QUARTERLY = ["examples/quarterly/meta.json", "--types", "examples/quarterly/types.csv"]
BUILT, SHIPPED, SOURCES = "crates/xbrl_json_cli/out/xbrl_json_cli", "dist/xbrl-json", "dist/SOURCES"
NOTE = "crates/xbrl_json_cli/out/SOURCES"
RT = """#!/bin/bash
case $1 in
version) echo "a made-up kit" ;;
doc) echo "${0%/*}/page" ;;
ci)
    [[ -z $RT_FAILS ]] || { echo "rt: told NOT PROVED"; exit 1; }
    cp crates.txt "${0%/*}/seen"
    shopt -s globstar && printf '%s\\n' crates/*/* >"${0%/*}/files"
    while read -r line; do
        echo "== ${line%%[ :]*}"; echo "rt: ${line%%[ :]*} proved"
    done <crates.txt
    mkdir crates/xbrl_json_cli/out && cd crates/xbrl_json_cli/out
    printf '#!/bin/bash\\necho "proved by a made-up kit"\\n' >xbrl_json_cli
    chmod +x xbrl_json_cli ;;
esac
"""
STRIP = '#!/bin/bash\ncp "$4" "$3"\n'


class Copy:
    """A copy of the repository, and folders of commands."""

    def __init__(self, folder: Path, of: Path) -> None:
        """Copies a repository into a folder."""
        self.top, self.tools, self.kit = folder / "copy", folder / "tools", folder / "kit"
        left_out = shutil.ignore_patterns("out", ".git", "bench", "docs", "__pycache__")
        shutil.copytree(of, self.top, ignore=left_out)
        self.tools.mkdir()
        for name in ["bash", *COREUTILS.split(), "wc"]:
            (self.tools / name).symlink_to(str(shutil.which(name)))
        self.script(self.kit / "rt", RT)
        self.script(self.kit / "toolchain/bin/clang", STRIP)

    def script(self, path: Path, text: str) -> None:
        """Writes a script."""
        path.parent.mkdir(parents=True, exist_ok=True)
        path.write_text(text)
        path.chmod(0o755)

    def run(
        self, words: Sequence[str], terminal: bool = True, kit: bool = False, **more: str
    ) -> Done:
        """Runs a command of the copy, with standard error on a terminal or not."""
        path = f"{self.tools}:{self.kit}" if kit else str(self.tools)
        env = {"PATH": path, "TMPDIR": str(self.top.parent), **more}
        if not terminal:
            done = subprocess.run(
                words,
                cwd=self.top,
                env=env,
                stdin=subprocess.DEVNULL,
                capture_output=True,
                timeout=PATIENCE,
            )
            return Done(done.returncode, done.stdout, done.stderr.decode())
        mine, its = pty.openpty()
        done = subprocess.run(
            words,
            cwd=self.top,
            env=env,
            stdin=subprocess.DEVNULL,
            stdout=subprocess.PIPE,
            stderr=its,
            timeout=PATIENCE,
        )
        os.write(its, b"\0")
        os.close(its)
        err = b""
        while not err.endswith(b"\0"):
            err += os.read(mine, 65536)
        os.close(mine)
        return Done(done.returncode, done.stdout, err[:-1].decode().replace("\r\n", "\n"))

    def check(self, *words: str, kit: bool = False) -> Done:
        """Runs tests/dist.py check."""
        return self.run([sys.executable, "tests/dist.py", "check", *words], False, kit)

    def sum(self) -> str:
        """Returns the sum of the copy's sources."""
        return dist.asked(self.top, "sources_sum", ".")

    def cut(self) -> None:
        """Leaves out most of the sources, which makes all that follows faster."""
        for folder in self.top.glob("crates/*/*"):
            if folder.name in ("proofs", "must-fail") and folder.parent.name != "oim_json":
                shutil.rmtree(folder)

    def ship(self, program: Path) -> None:
        """Ships a program as one of these sources."""
        dist.write(self.top, program, self.sum(), KIT, shutil.copyfile)

    def build(self, text: str) -> None:
        """Puts a script, with its note, at the place of the program that was proved here."""
        self.script(self.top / BUILT, text)
        program = dist.asked(self.top, "sum_of", BUILT)
        lines = [f"sources: {self.sum()}", f"kit: {KIT}", f"program: {program}"]
        dist.asked(self.top, "write_note", NOTE, *lines)


class Changed:
    """A file of a copy with another text, for as long as a `with` lasts."""

    def __init__(self, copy: Copy, name: str, text: bytes) -> None:
        """Remembers what the file has."""
        self.path, self.text = copy.top / name, text
        self.before = self.path.read_bytes() if self.path.exists() else None

    def __enter__(self) -> None:
        """Writes the other text."""
        self.path.parent.mkdir(parents=True, exist_ok=True)
        self.path.write_bytes(self.text)

    def __exit__(self, *_: object) -> None:
        """Writes what the file had."""
        if self.before is None:
            self.path.unlink()
        else:
            self.path.write_bytes(self.before)


def longer(copy: Copy, name: str, more: bytes = b"\n// more\n") -> Changed:
    """Adds bytes to a file, which may not exist."""
    path = copy.top / name
    return Changed(copy, name, (path.read_bytes() if path.exists() else b"") + more)


def used() -> float:
    """Returns the seconds of processors that ended runs took, whatever else these worked on."""
    usage = resource.getrusage(resource.RUSAGE_CHILDREN)
    return usage.ru_utime + usage.ru_stime


class CopyTest(unittest.TestCase):
    """A test in a copy of its own, which has most of the proofs only if it is `whole`."""

    whole = False
    master: Copy

    @classmethod
    def setUpClass(cls) -> None:
        """Makes the copy that others are made of, with the program as the shipped one."""
        folder = tempfile.TemporaryDirectory()
        cls.addClassCleanup(folder.cleanup)
        cls.master = Copy(Path(folder.name), TOP)
        if not cls.whole:
            cls.master.cut()
        cls.master.ship(Path(PROGRAM))

    def setUp(self) -> None:
        """Makes the copy."""
        folder = tempfile.TemporaryDirectory()
        self.addCleanup(folder.cleanup)
        self.copy = Copy(Path(folder.name).resolve(), self.master.top)

    def holds(self, name: str, holds: object, *seen: object) -> None:
        """Checks that something holds, in a sub-test, so that those after it run too."""
        with self.subTest(name):
            self.assertTrue(holds, " | ".join(map(str, seen))[:1000])

    def can_test(self) -> None:
        """Gives the copy the commands that tests/run needs; cc only seems to compile."""
        for tool, file in (("python3", sys.executable), ("cc", str(shutil.which("true")))):
            if not (self.copy.tools / tool).exists():
                (self.copy.tools / tool).symlink_to(file)

    def refused_by_tests(self, name: str, why: str) -> None:
        """Checks that tests/run starts nothing, and gives the reason."""
        self.can_test()
        seen = self.copy.run(["tests/run"])
        self.holds(
            f"{name}: tests/run",
            seen.status == 1 and seen.out == b"0 passed, 1 failed\n" and why in seen.err,
            seen,
        )
