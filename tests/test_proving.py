"""Tests the program that was proved here, and what proves and ships one.

These are `./xbrl-json --prove` and tests/dist.py. A made-up `rt` proves in a copy.
"""
from __future__ import annotations

import sys
from pathlib import Path

from tests import dist
from tests.shipped_copies import BUILT, KIT, SHIPPED, SOURCES, CopyTest, longer


class TestProvedHere(CopyTest):
    """Runs the program that was proved here, only if it is of these sources."""

    def test_a_program_proved_here(self) -> None:
        """Runs the program that was proved here only if it is of these sources, and as noted."""
        mine = b"proved here\n"
        self.copy.build("#!/bin/bash\necho proved here\n")
        self.holds(
            "a program proved here",
            self.copy.run(["./xbrl-json"]) == (0, mine, ""),
            self.copy.run(["./xbrl-json"]),
        )
        for name, it in (
            ("an unproved source", longer(self.copy, "crates/oim_names/src/lib.rt")),
            ("other bytes", longer(self.copy, BUILT)),
            ("another note", longer(self.copy, "crates/xbrl_json_cli/out/SOURCES")),
        ):
            with it:
                seen = self.copy.run(["./xbrl-json", "--version"])
                self.holds(
                    f"{name}: the shipped program runs",
                    seen.status == 0 and seen.out.startswith(b"xbrl-json "),
                    seen,
                )
                self.holds(
                    f"{name}: and a line only of other sources",
                    ("other sources" in seen.err) == (name == "an unproved source"),
                    seen,
                )


class TestGate(CopyTest):
    """Fills and checks dist/ with a kit."""

    def test_a_gate(self) -> None:
        """Fills dist/ by tests/dist.py, which fails if another program was proved here."""
        for name in (SHIPPED, SOURCES):
            (self.copy.top / name).unlink()
        seen = self.copy.check(kit=True)
        self.holds(
            "nothing is shipped: check",
            seen.status == 0 and b"no dist/xbrl-json yet" in seen.out,
            seen,
        )
        seen = self.copy.run(["./xbrl-json"])
        self.holds(
            "nothing is shipped: ./xbrl-json",
            seen.status == 3 and "--prove proves and builds one" in seen.err,
            seen,
        )
        self.refused_by_tests("nothing is shipped", "there is no dist/xbrl-json")
        fill = [sys.executable, "tests/dist.py", "fill"]
        seen = self.copy.run(fill, False, True)
        self.holds(
            "fill without a proved program",
            seen.status == 1 and b"no program was proved here" in seen.out,
            seen,
        )
        self.copy.build("#!/bin/bash\necho xbrl-json 9 of another kit\n")
        seen = self.copy.run(fill, False, True)
        self.holds(
            "fill with a program that names another kit",
            seen.status == 1 and b"--version" in seen.out,
            seen,
        )
        self.copy.build(f"#!/bin/bash\necho 'xbrl-json 9 ({KIT})'\n")
        seen = self.copy.run(fill, False, True)
        self.holds(
            "fill",
            seen.status == 0
            and (self.copy.top / SHIPPED).read_bytes() == (self.copy.top / BUILT).read_bytes(),
            seen,
        )
        seen = self.copy.check("--strict", kit=True)
        self.holds(
            "check --strict of what was filled",
            seen.status == 0 and b"byte for byte" in seen.out,
            seen,
        )
        dist.write(
            self.copy.top,
            self.copy.top / BUILT,
            self.copy.sum(),
            KIT,
            lambda built, to: to.write_bytes(built.read_bytes() + b"\n"),
        )
        seen = self.copy.check(kit=True)
        self.holds(
            "something else was shipped, with sums that fit",
            seen.status == 1 and b"has other bytes" in seen.out,
            seen,
        )
        self.copy.run(fill, False, True)
        self.copy.build(f"#!/bin/bash\necho  'xbrl-json 9 ({KIT})'\n")
        seen = self.copy.check(kit=True)
        self.holds(
            "another program was proved here",
            seen.status == 1 and b"has other bytes" in seen.out,
            seen,
        )


class TestProving(CopyTest):
    """Proves with `--prove`."""

    def test_proving(self) -> None:
        """Tests `--prove`: it names what is missing, or proves in a copy with only the program, and
        keeps the program.
        """
        seen = self.copy.run(["./xbrl-json", "--prove"])
        self.holds(
            "--prove without rt",
            seen.status == 3 and f"needs the command rt of {KIT}" in seen.err,
            seen,
        )
        seen = self.copy.run(["./xbrl-json", "--prove"], kit=True, RT_FAILS="1")
        self.holds(
            "--prove that fails",
            seen.status == 3
            and "not proved; what the prover said is in " in seen.err
            and not (self.copy.top / BUILT).exists(),
            seen,
        )
        log = Path(seen.err.split()[-1])
        self.holds(
            "--prove that fails keeps what was said",
            log.exists()
            and "rt: told NOT PROVED" in log.read_text()
            and "xbrl-json: told NOT PROVED\n" in seen.err,
            log,
        )
        with longer(self.copy, "crates/ghost_value/must-fail/a.edit"), longer(
            self.copy, "crates/ghost_value/audit/a.edit"
        ):
            seen = self.copy.run(["./xbrl-json", "--prove"], kit=True)
        crates = [
            line.split()[0].rstrip(":")
            for line in (self.copy.kit / "seen").read_text().splitlines()
        ]
        lines = [
            f"xbrl-json: proved {name}, {at + 1} of {len(crates)} ("
            for at, name in enumerate(crates)
        ]
        self.holds(
            "--prove tells of each crate",
            seen.status == 0 and all(it in seen.err for it in lines),
            seen,
        )
        self.holds(
            "--prove takes the program and what stands below it",
            "xbrl_json_cli" in crates and "oim_names" in crates and "refusals" not in crates,
            crates,
        )
        files = (self.copy.kit / "files").read_text().split()
        self.holds(
            "--prove tries no wrong bodies",
            "crates/ghost_value/src" in files
            and not [it for it in files if it.endswith(("/must-fail", "/gate", "/audit", "/out"))],
            files,
        )
        seen = self.copy.run(["./xbrl-json"])
        self.holds("what was proved runs", seen == (0, b"proved by a made-up kit\n", ""), seen)
        seen = self.copy.run(["./xbrl-json", "--prove", "more"], kit=True)
        self.holds("--prove stands alone", seen.status == 2 and "stands alone" in seen.err, seen)
        self.holds(
            "nothing is left behind",
            not [it for it in self.copy.top.parent.glob("xbrl-json-*") if it.is_dir()],
            list(self.copy.top.parent.iterdir()),
        )
