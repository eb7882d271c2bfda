"""Checks the types of filing/, the library's Python package and the tests, if mypy is installed.

The settings are those of pyproject.toml. Other versions of mypy are left out: they may find more.
Names of filing/ that are unused or undefined are found by ruff, or else by pyflakes.
"""
from __future__ import annotations

import shutil
import subprocess

from tests.harness import PATIENCE, TOP, TestCase

TRIED = "1.0"  # the version of Debian 12, the machine of the gate


def why_left_out() -> str:
    """Returns why the types are not checked, or nothing."""
    if shutil.which("mypy") is None:
        return "mypy is not installed"
    words = subprocess.run(["mypy", "--version"], capture_output=True, text=True).stdout.split()
    is_tried = len(words) > 1 and words[1].startswith(f"{TRIED}.")
    return "" if is_tried else f"mypy is not of version {TRIED}"


class TestTypes(TestCase):
    """Runs mypy --strict, and fails with what it prints."""

    def setUp(self) -> None:
        """Leaves the test out without mypy."""
        super().setUp()
        if why := why_left_out():
            self.skipTest(why)

    def check_types(self, *words: str) -> None:
        """Runs mypy at the top, with these words."""
        given = ["mypy", "--cache-dir", str(self.folder / "cache"), *words]
        done = subprocess.run(given, cwd=TOP, capture_output=True, text=True, timeout=5 * PATIENCE)
        self.assertEqual(done.returncode, 0, f"{done.stdout}\n{done.stderr}"[-4000:])

    def test_sources_and_tests(self) -> None:
        """The files that pyproject.toml names."""
        self.check_types()

    def test_library(self) -> None:
        """The package of the wheel, which has filing/ in it."""
        package = self.folder / "xbrl_json"
        shutil.copytree(TOP / "library/python/xbrl_json", package)
        shutil.copytree(TOP / "filing", package / "filing", dirs_exist_ok=True)
        self.check_types(str(package))


class TestNames(TestCase):
    """Runs ruff or pyflakes, and fails with what it prints."""

    def test_filing(self) -> None:
        """The names of filing/."""
        checkers = (["ruff", "check", "--no-cache"], ["pyflakes3"], ["pyflakes"])
        found = next((words for words in checkers if shutil.which(words[0])), None)
        if found is None:
            self.skipTest("neither ruff nor pyflakes is installed")
        given = [*found, "filing"]
        done = subprocess.run(given, cwd=TOP, capture_output=True, text=True, timeout=PATIENCE)
        self.assertEqual(done.returncode, 0, f"{done.stdout}\n{done.stderr}"[-4000:])
