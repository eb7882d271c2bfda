"""Tests the shipped program, and what runs, tests and checks it.

These are ./xbrl-json, tests/run and tests/dist.py. Sources and bytes of a copy are changed.
"""
from __future__ import annotations

from tests.harness import TOP
from tests.shipped_copies import QUARTERLY, SHIPPED, SOURCES, Changed, CopyTest, longer, used


class TestFreshClone(CopyTest):
    """Runs in a fresh clone."""

    whole = True

    def test_a_fresh_clone(self) -> None:
        """Converts in less than a second of a processor, without `rt`."""
        wanted = (TOP / "examples/quarterly/expected.json").read_bytes()
        took = []
        for _ in range(3):
            began = used()
            seen = self.copy.run(["./xbrl-json", *QUARTERLY])
            took.append(used() - began)
            self.holds("the quarterly example", seen == (0, wanted, ""), seen.status, seen.err)
        self.holds("within a second of a processor", min(took) < 1, took)
        seen = self.copy.run(["./xbrl-json", "--nonsense"], False)
        self.holds(
            "words are handed on, and the status is the program's",
            seen.status == 2 and seen.err.startswith("error: "),
            seen,
        )
        (self.copy.top.parent / "link").symlink_to(self.copy.top / "xbrl-json")
        seen = self.copy.run(["../link", *QUARTERLY])
        self.holds("by a link to the script", seen == (0, wanted, ""), seen.status, seen.err)
        seen = self.copy.check()
        self.holds(
            "dist.py check without a kit", seen.status == 0 and b"here is none" in seen.out, seen
        )
        self.holds("dist.py check --strict without a kit", self.copy.check("--strict").status == 1)

    def test_tests_run(self) -> None:
        """Takes the shipped program for tests/run, or the one that is given."""
        self.can_test()
        for it in (self.copy.top / "tests").glob("*.py"):
            if it.name not in ("__init__.py", "runner.py", "needs.py"):
                it.unlink()
        text = "import unittest\nclass TestOne(unittest.TestCase):\n    def test_one(self):\n"
        (self.copy.top / "tests/test_one.py").write_text(text + "        pass\n")
        for words in ["tests/run"], ["tests/run", "dist/../dist/xbrl-json"]:
            seen = self.copy.run(words, False)
            program = self.copy.top / SHIPPED
            ends = seen.out.splitlines()[:1] + seen.out.splitlines()[-1:]
            wanted = [f"tests of {program}".encode(), b"1 passed, 0 failed"]
            self.holds(f"{words}", (seen.status, ends) == (0, wanted), seen)


class TestSources(CopyTest):
    """Tells sources from other files."""

    def test_what_is_a_source(self) -> None:
        """Which changes change the sum of the sources."""
        before = self.copy.sum()
        self.holds("the sum is one", len(before) == 64, before)
        crates = (self.copy.top / "crates.txt").read_bytes()
        used = crates.replace(
            b"xbrl_json_cli may_wait", b"xbrl_json_cli may_abort=1 may_wait"
        ).replace(b"ghost_value:", b"ghost_value: itoa", 1)
        changes = [
            longer(self.copy, f"crates/{it}")
            for it in (
                "oim_names/src/lib.rt",
                "ghost_value/specs/Lib.antt",
                "oim_json/proofs/Lib.antt",
                "oim_run/src/.hidden",
                "oim_cells/src/a/b.rt",
            )
        ]
        for it in [*changes, longer(self.copy, "HANDLES"), Changed(self.copy, "crates.txt", used)]:
            with it:
                self.holds(
                    f"{it.path.relative_to(self.copy.top)} is a source",
                    self.copy.sum() not in ("", before),
                )
        others = [
            longer(self.copy, "crates/ghost_value/must-fail/a.edit"),
            longer(self.copy, "crates/refusals/src/lib.rt"),
            longer(self.copy, "crates/ghost_value/out/a"),
            longer(self.copy, "README.md"),
        ]
        lines = sorted(crates.splitlines(keepends=True), reverse=True)
        for it in [
            *others,
            longer(self.copy, "crates.txt", b"# more\nother_tests: oim_run\n"),
            Changed(self.copy, "crates.txt", b"".join(lines)),
        ]:
            with it:
                self.holds(
                    f"{it.path.relative_to(self.copy.top)} is no source, or not changed as one",
                    self.copy.sum() == before,
                )
        path = self.copy.top / "crates/oim_names/src/lib.rt"
        path.rename(path.with_name("lob.rt"))
        self.holds("a name is a source", self.copy.sum() not in ("", before))
        path.with_name("lob.rt").rename(path)
        self.holds("and all is as it was", self.copy.sum() == before)


class TestOtherSources(CopyTest):
    """Notices a source that was changed."""

    def test_other_sources(self) -> None:
        """A source that was changed is noticed by all three."""
        with longer(self.copy, "crates/oim_names/src/lib.rt"):
            seen = self.copy.run(["./xbrl-json", *QUARTERLY])
            line = (
                "xbrl-json: runs dist/xbrl-json, which was proved from other sources than these; "
            )
            line += "./xbrl-json --prove proves and builds these\n"
            self.holds(
                "a changed source: a line on a terminal",
                (seen.status, seen.err) == (0, line) and seen.out.endswith(b"}}\n"),
                seen.status,
                seen.err,
            )
            seen = self.copy.run(["./xbrl-json", *QUARTERLY], False)
            self.holds(
                "a changed source: no line elsewhere",
                (seen.status, seen.err) == (0, ""),
                seen.status,
                seen.err,
            )
            self.refused_by_tests("a changed source", "was proved from other sources than these")
            seen = self.copy.check()
            self.holds(
                "a changed source: dist.py check",
                seen.status == 0 and b"have moved on" in seen.out and seen.out.count(b"\n") == 1,
                seen,
            )
            self.holds(
                "a changed source: dist.py check --strict", self.copy.check("--strict").status == 1
            )


class TestOtherBytes(CopyTest):
    """Notices a byte that was changed in dist/."""

    def test_other_bytes(self) -> None:
        """A byte that was changed in dist/ is noticed by all three."""
        program, note = (self.copy.top / SHIPPED).read_bytes(), (
            self.copy.top / SOURCES
        ).read_bytes()
        changes = [
            ("the first byte", SHIPPED, b"\x7e" + program[1:]),
            ("the last byte", SHIPPED, program[:-1] + bytes([program[-1] ^ 1])),
            ("no bytes", SHIPPED, b""),
        ]
        lines = note.splitlines(keepends=True)
        for at, line in enumerate(lines):
            other = line[:-2] + (b"0" if line[-2:-1] != b"0" else b"1") + b"\n"
            changes.append(
                (
                    f"line {at + 1} of SOURCES",
                    SOURCES,
                    b"".join(lines[:at] + [other] + lines[at + 1 :]),
                )
            )
            changes.append(
                (f"SOURCES without line {at + 1}", SOURCES, b"".join(lines[:at] + lines[at + 1 :]))
            )
        for name, file, text in changes:
            with Changed(self.copy, file, text):
                seen = self.copy.run(["./xbrl-json", *QUARTERLY], False)
                self.holds(
                    f"{name}: ./xbrl-json",
                    (seen.status, seen.out) == (3, b"")
                    and "is not the program that dist/SOURCES names" in seen.err,
                    seen,
                )
                self.refused_by_tests(name, "is not the program that dist/SOURCES names")
                seen = self.copy.check()
                self.holds(
                    f"{name}: dist.py check", seen.status == 1 and b"WRONG" in seen.out, seen
                )
