"""Tests packaging/ship.sh, and fill-library and check-library of tests/dist.py.

A made-up `rt` proves in a copy. What builds and makes the C library there is made up too: each of
its files has the text of the archive, and its own name.
"""
from __future__ import annotations

import re
import shutil
import sys
from pathlib import Path

from tests import dist
from tests.harness import Done
from tests.shipped_copies import BUILT, KIT, RT, SHIPPED, CopyTest, longer

ARCHIVE = """#!/bin/bash
[[ -z $ARCHIVE_FAILS ]] || exit 1
[[ -z $ARCHIVE_CHANGES ]] || echo >>crates/xbrl_json_c/src/lib.rt
mkdir -p crates/xbrl_json_c/out && echo "an archive" >crates/xbrl_json_c/out/libxbrl_json_c.a
"""
LIBRARY = f"""import pathlib, sys
archive, out = map(pathlib.Path, sys.argv[2:])
out.mkdir(parents=True, exist_ok=True)
for name in {dist.LIBRARY_FILES}:
    (out / name).write_text(archive.read_text() + name)
"""
NOTE = str(dist.LIBRARY / "SOURCES")


class ShippingTest(CopyTest):
    """A test in a copy that can ship."""

    def setUp(self) -> None:
        """Makes the copy, without a shipped library."""
        super().setUp()
        self.can_test()
        self.top = self.copy.top
        shutil.rmtree(self.top / dist.LIBRARY, ignore_errors=True)
        settings = self.top / "crates/oim_run/src/settings.rt"
        settings.write_text(re.sub(r"rattle-kit-[^)]*", KIT, settings.read_text()))
        self.copy.script(self.top / "packaging/archive.py", ARCHIVE)
        self.copy.script(self.top / "packaging/library.py", LIBRARY)

    def ship(self, **more: str) -> Done:
        """Runs packaging/ship.sh."""
        return self.copy.run(["packaging/ship.sh"], False, True, **more)

    def check_library(self, *words: str) -> Done:
        """Runs tests/dist.py check-library."""
        command = [sys.executable, "tests/dist.py", "check-library", *words]
        return self.copy.run(command, False, True)

    def refused(self, name: str, seen: Done, why: str, before: bytes) -> None:
        """Checks that ship.sh ended with a reason, and shipped nothing."""
        now = (self.top / SHIPPED).read_bytes()
        is_same = now == before and not (self.top / dist.LIBRARY).exists()
        self.holds(name, seen.status == 1 and why in seen.err and is_same, seen)


class TestShip(ShippingTest):
    """Ships what is proved."""

    def test_ship(self) -> None:
        """Proves what is not proved yet, and ships the program and the library."""
        seen = self.ship()
        last = seen.out.splitlines()[-1:]
        wanted = [b"shipped: proved by a made-up kit"]
        self.holds("ships", seen.status == 0 and last == wanted, seen)
        self.holds("both are compared", seen.out.count(b"byte for byte") == 2, seen.out)
        program = (self.top / BUILT).read_bytes()
        self.holds("the program", (self.top / SHIPPED).read_bytes() == program)
        for name in dist.LIBRARY_FILES:
            text = (self.top / dist.LIBRARY / name).read_text()
            self.holds(name, text == f"an archive\n{name}", text)
        seen = self.ship(RT_FAILS="1", ARCHIVE_FAILS="1")
        self.holds("what is proved is not proved again", seen.status == 0, seen)
        with longer(self.copy, "crates/xbrl_json_c/src/lib.rt"):
            seen = self.ship(RT_FAILS="1", ARCHIVE_FAILS="1")
            self.holds("a new library is built", "the C library is not built" in seen.err, seen)
            seen = self.ship(RT_FAILS="1")
            self.holds("by itself", seen.status == 0, seen)

    def test_what_is_not_shipped(self) -> None:
        """Ships nothing that is not proved."""
        before = (self.top / SHIPPED).read_bytes()
        seen = self.ship(RT_FAILS="1")
        self.refused("a proof that fails", seen, "a crate is not proved", before)
        changing = RT.replace("ci)\n", "ci)\n    echo >>crates/oim_cells/src/lib.rt\n")
        self.copy.script(self.copy.kit / "rt", changing)
        self.refused("a change meanwhile", self.ship(), "were changed while they", before)
        self.copy.build("#!/bin/bash\necho a made-up kit\n")
        seen = self.ship(ARCHIVE_CHANGES="1")
        self.refused("a change of the library", seen, "the sources were changed", before)
        seen = self.ship(ARCHIVE_FAILS="1")
        self.refused("no archive", seen, "the C library is not built", before)
        self.copy.script(self.copy.kit / "rt", changing.replace(KIT, "another kit"))
        self.refused("another kit", self.ship(), "does not name the kit: another kit", before)
        (self.copy.kit / "rt").unlink()
        seen = self.ship()
        self.holds("no kit", seen.status != 0 and (self.top / SHIPPED).read_bytes() == before, seen)


class TestCheckLibrary(ShippingTest):
    """Compares the shipped library."""

    def test_check_library(self) -> None:
        """Notices other bytes, other sources, and a library that is missing."""
        self.require("no")
        seen = self.check_library()
        why = b"there is no dist/lib"
        self.holds("none is shipped", seen.status == 0 and why in seen.out, seen)
        self.require("yes")
        seen = self.check_library()
        self.holds("one is required", seen.status == 1 and b"requires" in seen.out, seen)
        self.ship()
        for name in (*(str(dist.LIBRARY / it) for it in dist.LIBRARY_FILES), NOTE):
            with longer(self.copy, name):
                seen = self.check_library()
                why = b"is not the one that"
                self.holds(f"longer {name}", seen.status == 1 and why in seen.out, seen)
        with longer(self.copy, "crates/xbrl_json_c/proofs/Lib.antt"):
            seen = self.check_library()
            self.holds("other sources", seen.status == 0 and b"have moved on" in seen.out, seen)
            self.holds("other sources, --strict", self.check_library("--strict").status == 1)
        with longer(self.copy, str(dist.LIBRARY_BUILT), b"more"):
            seen = self.check_library()
            self.holds("another is built", b"no library was proved here" in seen.out, seen)
            self.note_built()
            seen = self.check_library()
            why = b"has other bytes"
            self.holds("another is proved", seen.status == 1 and why in seen.out, seen)

    def require(self, word: str) -> None:
        """Requires a library in dist/sources.sh, or does not."""
        path: Path = self.top / "dist/sources.sh"
        line = f"library_required={word}"
        text = re.sub("^library_required=.*", line, path.read_text(), flags=re.M)
        path.write_text(text)

    def note_built(self) -> None:
        """Notes that the library here was proved, whatever it is."""
        script = '. dist/sources.sh; note_library . "$(sources_sum . xbrl_json_c)"'
        self.copy.run(["bash", "-c", script], False, True)
