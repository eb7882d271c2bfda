"""Tests the recipes of examples/batch.

GNU parallel is the real one, where it is installed. A script takes the place of Slurm's `sbatch`:
it runs the tasks of an array one after another.
"""
from __future__ import annotations

import functools
import json
import os
import shutil
import subprocess
from pathlib import Path

from tests.filing_bounds import GOOD, Files, pack
from tests.harness import PATIENCE, PROGRAM, TOP, TestCase

RECIPES = TOP / "examples/batch"
# An `ssh` to a host that is this machine.
SSH = """#!/bin/bash
while [[ $1 == -* ]]; do shift; done
echo "$1" >> hosts
shift
[[ $1 == -- ]] && shift
exec bash -c "$*"
"""
# Runs a job array here. The file `cancelled` plays an array that is cancelled before it begins.
SBATCH = """#!/bin/bash
echo "$*" >> submitted
[[ -e cancelled ]] && exit 0
while [[ $1 == --* ]]; do
    [[ $1 == --array=1-* ]] && tasks=${1#--array=1-}
    shift
done
export SLURM_ARRAY_TASK_COUNT=$tasks SLURM_CPUS_PER_TASK=2
for ((task = 1; task <= tasks; task++)); do
    SLURM_ARRAY_TASK_ID=$task bash "$@" || status=1
done
exit ${status:-0}
"""
# The first runs end early: they are killed, or have too little memory for xbrl-json.
COMMAND = """#!/bin/bash
export XBRL_JSON={program}
count=$(($(cat tries 2>/dev/null) + 1))
echo $count > tries
((count > {killed})) || kill -KILL $$
((count > {little})) || set -- "$@" --memory-limit 20000000
exec {filing} "$@"
"""
NOTHING = "#!/bin/bash\ncat > /dev/null\n"
ODD_NAMES = ("a b", "it's", 'two "q"', "line\nbreak", "$HOME", "{}", "-n", "\u00e9", "back\\slash")


@functools.lru_cache(maxsize=None)
def lack_of_parallel() -> str:
    """Returns why GNU parallel starts no program here, or nothing.

    Other programs have its name, and a file of it may be there that is empty.
    """
    if shutil.which("parallel") is None:
        return "GNU parallel is not installed"
    words = ["parallel", "-0", "-j", "1", "echo", "{}"]
    try:
        done = subprocess.run(words, input=b"seen\0", capture_output=True, timeout=PATIENCE)
    except OSError as refused:
        return f"parallel does not start: {refused}"
    if done.stdout == b"seen\n":
        return ""
    return f"parallel starts no program: status {done.returncode}, {done.stderr!r}"


class RecipeTest(TestCase):
    """A folder with four reports, one with a fault, and a taxonomy."""

    def setUp(self) -> None:
        """Makes the packages."""
        super().setUp()
        self.out, self.taxonomy = "out", "taxonomy"
        self.report: Files = {it: GOOD[it] for it in GOOD if it.startswith("reports")}
        for name in ("in", self.taxonomy, "bin"):
            (self.folder / name).mkdir()
        own: Files = {it: GOOD[it] for it in GOOD if not it.startswith("reports")}
        pack(self.folder / self.taxonomy / "t.zip", own)
        for number in range(3):
            pack(self.folder / f"in/{number}.zip", self.report)
        pack(self.folder / "in/bad.zip", {**self.report, "reports/t.csv": "cash\nx\n"})
        self.command()

    def script(self, name: str, text: str) -> Path:
        """Writes a script on the PATH of the recipe."""
        path = self.folder / "bin" / name
        path.write_text(text)
        path.chmod(0o755)
        return path

    def command(self, killed: int = 0, little: int = 0) -> None:
        """Writes the xbrl-filing of the recipe, whose first runs are killed or lack memory."""
        ends = {"program": PROGRAM, "filing": TOP / "xbrl-filing"}
        self.script("xbrl-filing", COMMAND.format(killed=killed, little=little, **ends))

    def run_recipe(self, recipe: str, *more: str, inbox: str = "in", **told: str) -> int:
        """Runs a recipe, and returns its status.

        As in many services, there is no SHELL and no HOME.
        """
        known = {it: os.environ[it] for it in os.environ if it not in ("SHELL", "HOME")}
        known.update(PATH=f"{self.folder / 'bin'}:{os.environ['PATH']}", **told)
        words = [str(RECIPES / recipe), inbox, self.taxonomy, self.out, *more]
        done = subprocess.run(
            words, cwd=self.folder, env=known, capture_output=True, timeout=PATIENCE
        )
        self.said = done.stderr.decode()
        left = list((self.folder / self.out).glob(".night.*"))
        self.assertEqual(left, [], "the folder of the night is left")
        return done.returncode

    def convert(self, *more: str, inbox: str = "in") -> int:
        """Runs the recipe of the class, and returns its status."""
        raise NotImplementedError

    def outcomes(self) -> dict[str, str]:
        """Returns the outcome word of each report of the joined file."""
        lines = (self.folder / f"{self.out}.jsonl").read_text().splitlines()
        return {it["report"]: it["outcome"] for it in map(json.loads, lines)}

    def wanted(self, word: str = "done", bad: str = "refused") -> dict[str, str]:
        """Returns these outcomes of all reports."""
        return {"in/bad.zip": bad, **{f"in/{number}.zip": word for number in range(3)}}

    def lack(self, count: int) -> None:
        """Fails unless the recipe has named how many of four reports have no outcome."""
        line = f"join.sh: {count} of 4 reports have no outcome"
        self.assertIn(line, self.said.splitlines())

    def check_joined(self) -> None:
        """All reports are converted, and a fault gives status 1."""
        self.assertEqual(self.convert(), 1, self.said)
        self.assertEqual(self.outcomes(), self.wanted())
        os.unlink(self.folder / "in/bad.zip")
        self.assertEqual(self.convert(), 0, self.said)
        self.assertEqual(sorted(self.outcomes()), [f"in/{number}.zip" for number in range(3)])

    def check_nothing_to_do(self) -> None:
        """An inbox that is empty or missing gives status 3, because a file system may lack."""
        (self.folder / "empty").mkdir()
        for inbox in ("empty", "none"):
            self.assertEqual(self.convert(inbox=inbox), 3, self.said)
            self.assertIn(f"{inbox} has no report", self.said)

    def check_names(self) -> None:
        """Names of reports may have any character, those of folders blanks and quotes."""
        self.out = "out of 'the' night"
        self.taxonomy = str((self.folder / "taxonomy").rename(self.folder / "tax onomy"))
        names = {f"in/{name}.zip" for name in ODD_NAMES}
        for path in (self.folder / "in").iterdir():
            path.unlink()
        for name in names:
            pack(self.folder / name, self.report)
        self.assertEqual(self.convert(), 0, self.said)
        self.assertEqual(self.outcomes(), dict.fromkeys(names, "done"))
        made = {path.stem for path in (self.folder / self.out).glob("*.json")}
        self.assertEqual(made, set(ODD_NAMES))


class TestParallel(RecipeTest):
    """The recipe of GNU parallel, over two names of this machine."""

    def setUp(self) -> None:
        """Makes the packages, where GNU parallel runs."""
        lack = lack_of_parallel()
        if lack:
            self.skipTest(lack)
        super().setUp()

    def convert(self, *more: str, inbox: str = "in") -> int:
        """Runs the recipe, with all reports in one share."""
        ssh = str(self.script("ssh", SSH))
        return self.run_recipe("night_parallel.sh", "a,b", inbox=inbox, SHARE="4", SSH=ssh)

    def test_joined_outcomes(self) -> None:
        """Joins the outcomes of this night, and of no report that is not in the inbox."""
        self.check_joined()
        self.assertEqual(len((self.folder / "hosts").read_text().split()), 2)

    def test_a_share_without_memory(self) -> None:
        """A share is started again, twice at most."""
        self.command(little=2)
        self.assertEqual(self.convert(), 1, self.said)
        self.assertEqual(self.outcomes(), self.wanted())
        self.assertEqual((self.folder / "tries").read_text(), "3\n")

    def test_too_little_memory(self) -> None:
        """Ends with 75 if memory still lacks then."""
        self.command(little=9)
        self.assertEqual(self.convert(), 75, self.said)
        limit = "memory-limit"
        self.assertEqual(self.outcomes(), self.wanted(limit, limit))

    def test_no_taxonomy(self) -> None:
        """Ends with 3 if nothing could be done."""
        self.taxonomy = "none"
        self.assertEqual(self.convert(), 3, self.said)
        self.lack(4)

    def test_a_share_that_is_killed(self) -> None:
        """A share that is killed is started again, and has no outcome if it always is."""
        self.command(killed=1)
        self.assertEqual(self.convert(), 1, self.said)
        self.assertEqual(self.outcomes(), self.wanted())
        self.command(killed=99)
        self.assertEqual(self.convert(), 3, self.said)
        self.lack(4)

    def test_a_parallel_that_starts_nothing(self) -> None:
        """Outcomes of another night do not count."""
        self.assertEqual(self.convert(), 1, self.said)
        self.script("parallel", NOTHING)
        self.assertEqual(self.convert(), 3, self.said)
        self.lack(4)

    def test_nothing_to_do(self) -> None:
        """Tells of an inbox without a report."""
        self.check_nothing_to_do()

    def test_names(self) -> None:
        """Quotes all names."""
        self.check_names()


class TestSlurm(RecipeTest):
    """The recipe of Slurm."""

    def setUp(self) -> None:
        """Makes the packages and the `sbatch`."""
        super().setUp()
        self.script("sbatch", SBATCH)

    def convert(self, *more: str, inbox: str = "in") -> int:
        """Runs the recipe, by default with three tasks."""
        return self.run_recipe("night_slurm.sh", *(more or ("3",)), inbox=inbox)

    def memories(self) -> list[int]:
        """Returns the MiB of each array that was submitted."""
        lines = (self.folder / "submitted").read_text().splitlines()
        words = [word for line in lines for word in line.split() if word.startswith("--mem=")]
        return [int(word.partition("=")[2]) for word in words]

    def test_joined_outcomes(self) -> None:
        """Joins the outcomes of this night, and of no report that is not in the inbox."""
        self.check_joined()
        self.assertEqual(self.memories(), [1000, 1000])

    def test_more_tasks_than_reports(self) -> None:
        """A task without a report does nothing."""
        self.assertEqual(self.convert("9"), 1, self.said)
        self.assertEqual(self.outcomes(), self.wanted())

    def test_a_task_without_memory(self) -> None:
        """Has twice the memory each time until it is enough."""
        self.assertEqual(self.convert("2", "60"), 1, self.said)
        self.assertEqual(self.outcomes(), self.wanted())
        seen = self.memories()
        self.assertEqual(seen, [60 << number for number in range(len(seen))])
        self.assertIn(len(seen), (2, 3, 4))

    def test_too_little_memory(self) -> None:
        """Ends with 75 if memory still lacks after the fourth array."""
        self.assertEqual(self.convert("2", "4"), 75, self.said)
        self.assertEqual(set(self.outcomes().values()), {"memory-limit"})
        self.assertEqual(self.memories(), [4, 8, 16, 32])

    def test_a_task_that_is_killed(self) -> None:
        """A task that is killed is run again, and has no outcome if it always is."""
        self.command(killed=2)
        self.assertEqual(self.convert(), 1, self.said)
        self.assertEqual(self.outcomes(), self.wanted())
        self.assertEqual(self.memories(), [1000, 2000])
        self.command(killed=99)
        self.assertEqual(self.convert(), 3, self.said)
        self.lack(4)

    def test_an_array_that_is_cancelled(self) -> None:
        """Outcomes of another night do not count, though sbatch ends with 0."""
        self.assertEqual(self.convert(), 1, self.said)
        (self.folder / "cancelled").touch()
        self.assertEqual(self.convert(), 3, self.said)
        self.lack(4)
        self.assertEqual(self.outcomes(), {})

    def test_no_sbatch(self) -> None:
        """Ends with 3 if nothing can be submitted."""
        self.script("sbatch", "#!/bin/bash\nexit 1\n")
        self.assertEqual(self.convert(), 3, self.said)
        self.lack(4)

    def test_nothing_to_do(self) -> None:
        """Tells of an inbox without a report."""
        self.check_nothing_to_do()

    def test_names(self) -> None:
        """Quotes all names."""
        self.check_names()
