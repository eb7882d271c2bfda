#!/usr/bin/env python3
"""Audits the contracts: the prover must refuse every wrong body, for a reason of its own.

    tests/wrong_bodies.py [--alone] [CRATE ..]
    tests/wrong_bodies.py --gate [CRATE ..]
    tests/wrong_bodies.py --gate --beside COMMAND ARGUMENT ..

Wrong bodies are the edits in crates/*/{must-fail,gate,audit}. Run it after the crates and those
below them are checked (`rt check` in each crate's folder, or a first build): it starts from that
kept work, in a copy. First it makes sure that each crate is proved as it is. Its library is built
of these sources, which the kit does only after a proof, or else a check decides.

A round applies as many edits of a crate as change different functions, and checks the crate once.
Each edit needs a reason of its own: an error or a note at a line of a function that it changes, or
in the files of that function's proof. That a function calls another one that is not proved does not
count. An edit of a function that the round already changes waits for the next round. An edit that
changes only a constant is tried by itself, and so is one that showed no reason in company. With
`--alone` each edit is.

With --gate only the edits of crates/*/gate are tried, with nothing kept. A round's check then
proves only the functions that it changes and those that they call. So it is for a repository whose
crates were just proved, as in the gate, and needs only their built libraries. As many crates are
audited at once as processors and memory allow (3 GiB each), the largest first. Each edit has a
line. The last line is 'N refused, M not'; the status is 0 only if all are refused.

With --beside a command such as `rt ci` proves the crates, and its output is passed on. Once it
reports a crate as proved, the crate's edits are tried, at the lowest priority. Their lines follow
the command's last one. If the command fails, no more are tried, and its status is returned. Needs
Python 3.9 or later.
"""
from __future__ import annotations

import functools
import importlib
import io
import os
import re
import shutil
import signal
import subprocess
import sys
import tempfile
import threading
import time
from concurrent.futures import ThreadPoolExecutor
from dataclasses import dataclass
from pathlib import Path
from typing import Any, TextIO

TOP = Path(__file__).resolve().parent.parent
sys.path.insert(0, str(TOP))

from tests.crates import crates_below  # noqa: E402
GATE = "gate"
FOLDERS = "must-fail", GATE, "audit"
FUNCTION = re.compile(r"( *)(?:pub(?:\([a-z]+\))? )?(?:const )?fn (\w+)")
WORK, RLIB = "out/incremental", "out/rlib"
# How many bytes of memory one check may take.
CHECK_MEMORY = 3 << 30
# The type of a block of methods: of a trait, or its own.
OWNER = re.compile(r"impl\b(?:.*? for (?:&\S* ?)?(\w+)|(?:<.*?>)? (\w+))")
AT = re.compile(r"(?:note: )?(?:\./)?((?:src|proofs)/\S+?):(\d+):\d+: (.*)")
NOT_PROVED = r"fn {}::\S+: (not proved|no proof)"
OF_CRATE = re.compile(r"(?:fn|struct|enum|trait|impl) (\w+)::")
# A proof file names what the edit removed: such a refusal shows little about the contract.
LOST = re.compile(r"has no field|is not in scope|has no `|was not admitted|: (?:record|module) `\S+`(?: \(nearest: .*\))?$")
# The line of rt ci for a crate that is proved.
PROVED = re.compile(r"rt: (\w+) (?:proved$|is kept: )")
# The line of a check once each function has its line: the search for additions to proof files.
AFTER = re.compile(r"offer|help: write|`search`|logic=|statements ")
# The text could not be compiled or read, so no contract was tried.
UNREAD = re.compile(r".*\berror(\[[\w-]+\])?: .*")

BUILD = "run `rt check` in the folder of each crate that is to be audited, which builds those below it"
QUIET: dict[str, Any] = {"stdin": subprocess.DEVNULL, "stdout": subprocess.PIPE, "stderr": subprocess.STDOUT, "text": True, "errors": "replace", "start_new_session": True}

Texts = dict[str, str]


class BadEdit(Exception):
    """The edit cannot be applied."""


class Stopped(Exception):
    """Nothing more is to be tried."""


@dataclass(frozen=True)
class Place:
    """A function of a file, with the type of which it is a method, if any, and whether it is a
    trait's. It is None outside of all functions.
    """

    path: str
    function: str | None
    owner: str | None
    of_trait: bool = False


@dataclass(frozen=True)
class Edit:
    """An edit's name, with its folder, and its pairs of old and new text, each in a file."""

    name: str
    pairs: tuple[tuple[str, str, str], ...]

    @staticmethod
    def read(file: Path) -> Edit:
        path, old, pairs = "", "", []
        for line in file.read_text(encoding="utf-8").split("\n"):
            word, _, rest = line.partition(": " if ": " in line else ":")
            if word == "file":
                path = rest.strip()
            elif word == "old":
                old = rest
            elif word == "new":
                pairs.append((path, old, rest))
        return Edit(f"{file.parent.name}/{file.name}", tuple(pairs))

    def apply(self, folder: Path, texts: Texts) -> tuple[Texts, set[Place]]:
        """The texts of the files that it changes, over these, and the functions that it changes."""
        mine: Texts = {}
        places = set()
        for path, old, new in self.pairs:
            text = mine.get(path) or texts.get(path) or text_of(folder / path)
            if text.count(old) != 1:
                raise BadEdit(f"its text stands {text.count(old)} times in {path}: {old}")
            places.add(place_at(path, text, text[: text.index(old)].count("\n") + 1))
            mine[path] = text.replace(old, new)
        if not mine:
            raise BadEdit("it has no pair of texts")
        return mine, places


@dataclass
class Round:
    """Edits of different functions, the texts that they make, and what each changes."""

    texts: Texts
    edits: dict[Edit, set[Place]]


def text_of(file: Path) -> str:
    if not file.is_file():
        raise BadEdit(f"there is no file {file.name}")
    return file.read_text(encoding="utf-8")


@dataclass(frozen=True)
class Way:
    """How edits are tried: only those of the gate or all; each by itself or in company."""

    gate: bool
    alone: bool

    def folders(self) -> tuple[str, ...]:
        return (GATE,) if self.gate else FOLDERS


@dataclass(frozen=True)
class Function:
    """A function of a file.

    Its first line is that of the comments above it, and lines count from 1.
    """

    name: str
    owner: str | None
    of_trait: bool
    first: int
    last: int


def functions(text: str) -> list[Function]:
    """The functions of a file in rt fmt's layout."""
    lines, found = text.split("\n"), []
    owner, of_trait = None, False
    for at, line in enumerate(lines):
        head = OWNER.match(line)
        if head:
            owner, of_trait = head[1] or head[2], bool(head[1])
        start = FUNCTION.match(line)
        if not start:
            continue
        ends = (it for it in range(at, len(lines)) if lines[it] in (start[1] + "}", start[1] + "};"))
        last = at if line.endswith(("}", ";")) else next(ends, len(lines) - 1)
        first = at
        while first and lines[first - 1].strip().startswith(("#[", "///")):
            first -= 1
        found.append(Function(start[2], owner if start[1] else None, of_trait and bool(start[1]), first + 1, last + 1))
    return found


def place_at(path: str, text: str, line: int) -> Place:
    """The innermost function that has this line."""
    inside = [it for it in functions(text) if it.first <= line <= it.last]
    return Place(path, inside[-1].name, inside[-1].owner, inside[-1].of_trait) if inside else Place(path, None, None)


def next_round(folder: Path, left: list[Edit], alone: bool) -> Round:
    """Takes the first edits that change different functions and can be applied together.

    An edit that changes no function is tried by itself.
    """
    made = Round({}, {})
    for edit in left:
        taken: set[Place] = set().union(*made.edits.values())
        try:
            own_texts, places = edit.apply(folder, made.texts)
        except BadEdit:
            continue
        is_lone = alone or any(it.function is None for it in places)
        if taken and (is_lone or places & taken):
            continue
        made.texts.update(own_texts)
        made.edits[edit] = places
        if is_lone:
            break
    return made


def module_of(path: str) -> str:
    """The folder of the proofs of a file's free functions, below proofs/."""
    return "" if path in ("src/lib.rt", "src/main.rt") else path[len("src/") : -len(".rt")] + "/"


def path_of(crate: str, place: Place) -> str:
    """Returns the name of a function as a check takes it.

    For a trait's method, whose name has the trait's types too, it is the module's.
    """
    module = [crate, *module_of(place.path).split("/")[:-1]]
    if place.of_trait:
        return "::".join(module)
    # A method is listed under its type, in whatever file it is.
    return "::".join([*([place.owner] if place.owner else module), place.function or ""])


def names_of(place: Place) -> str:
    """Returns the names for a function's folder of proofs.

    A method is under its type, wherever it is, followed by the trait's name.
    """
    return rf"(\S+/)?{place.owner}\w*/\+?{place.function}" if place.owner else rf"{module_of(place.path)}\+?{place.function}"


def is_own(place: Place, texts: Texts, path: str, line: int) -> bool:
    """Whether a line of a file is in a function or in the files of its proof."""
    if place.function is None:
        return False
    if path == place.path:
        same = [it for it in functions(texts[path]) if (it.name, it.owner) == (place.function, place.owner)]
        return any(it.first <= line <= it.last for it in same)
    return bool(re.fullmatch(rf"proofs/{names_of(place)}/\w+\.antt", path))


def own_line(crate: str, place: Place, said: list[str]) -> str | None:
    """Finds the line that a function itself is not proved, rather than one that it calls."""
    line = re.compile(rf"fn {crate}::{names_of(place).replace('/', '::')}: (not proved(?!; it calls )|no proof: (?!it calls ))")
    return next((it for it in said if line.match(it)), None)


def reason(crate: str, places: set[Place], texts: Texts, said: list[str]) -> str | None:
    """Returns the first reason that the check gives at these functions, preferring one about the
    contract, or None. A note at a line of a proof file is advice, and does not count as a reason.
    """
    weak = None
    for line in said:
        at = AT.match(line)
        if not at or at[3].startswith("note: ") or not any(is_own(it, texts, at[1], int(at[2])) for it in places):
            continue
        found = f"{at[1]}:{at[2]}: {at[3][:120]}"
        if not (at[1].startswith("proofs/") and LOST.search(at[3])):
            return found
        weak = weak or f"(only by a name that the edit took away) {found}"
    return weak or next(filter(None, (own_line(crate, it, said) for it in places if it.function)), None)


def lone_reason(crate: str, said: list[str]) -> str | None:
    """Returns the first function that is not proved, after one edit was tried by itself."""
    return next((it for it in said if re.match(NOT_PROVED.format(crate), it)), None)


class Checks:
    """The running checks, so that all can be ended. With --beside they have the lowest priority."""

    def __init__(self, beside: bool):
        self.words = [*(["nice", "-n", "19"] if beside else []), "rt", "check", "--jobs", "1"]
        self.is_over = False
        self.running: set[int] = set()
        self.lock = threading.Lock()

    def begin(self, flags: list[str], folder: Path) -> subprocess.Popen[str]:
        """A check in a folder, unless nothing more is to be tried."""
        with self.lock:
            if self.is_over:
                raise Stopped
            ran: subprocess.Popen[str] = subprocess.Popen([*self.words, *flags], cwd=folder, **QUIET)
            self.running.add(ran.pid)
        return ran

    def end(self, ran: subprocess.Popen[str]) -> None:
        """Ends a check, with what it runs."""
        with self.lock:
            self.running.discard(ran.pid)
            if ran.poll() is None:
                os.killpg(ran.pid, signal.SIGTERM)

    def end_all(self) -> None:
        with self.lock:
            self.is_over = True
            for it in self.running:
                os.killpg(it, signal.SIGTERM)


class Room:
    """A copy of the repository, in which edits of one crate are applied and checked."""

    def __init__(self, folder: Path, checks: Checks):
        self.checks = checks
        self.known: dict[str, Any] = {}
        self.crates = folder / "crates"
        shutil.copytree(TOP / "crates", self.crates, ignore=lambda at, names: ["out"] if Path(at).parent.name == "crates" else [])
        (folder / ".git").mkdir()
        for name in ("crates.txt", "HANDLES"):
            shutil.copy(TOP / name, folder)

    def seal(self, crate: str) -> None:
        """Marks a copied library as built of these sources, which `rt ci` does not do."""
        folder = self.crates / crate
        made = kit().Crate(str(folder), str(folder.parent.parent), self.known).stamp()
        (folder / RLIB / "stamp").write_text(made, encoding="utf-8")

    def bring(self, crate: str, part: str) -> None:
        """Replaces what the copy has of a crate by its kept work."""
        there = self.crates / crate / part
        shutil.rmtree(there, ignore_errors=True)
        shutil.copytree(TOP / "crates" / crate / part, there, symlinks=True)

    def furnish(self, below: list[str], is_gate: bool) -> None:
        """Brings the libraries below a crate."""
        for it in below:
            self.bring(it, RLIB)
        for it in below if is_gate else []:
            self.seal(it)

    def check(self, crate: str, texts: Texts, only: list[str] | None) -> list[str]:
        """Checks a crate with these texts instead of its own, and returns the output.

        It starts from kept work, or else proves only these functions, if any, and those that they
        call.
        """
        folder = self.crates / crate
        shutil.rmtree(folder / WORK, ignore_errors=True)
        if only is None:
            self.bring(crate, WORK)
        own = {path: text_of(folder / path) for path in texts}
        try:
            for path, text in texts.items():
                (folder / path).write_text(text, encoding="utf-8")
            return self.said(folder, crate, [word for it in only or [] for word in ("--only", it)])
        finally:
            for path, text in own.items():
                (folder / path).write_text(text, encoding="utf-8")

    def said(self, folder: Path, crate: str, flags: list[str]) -> list[str]:
        """Returns a check's output up to the lines of the crate's functions, or up to the first
        line of another crate, which it must prove first.
        """
        lines: list[str] = []
        is_begun = False
        with self.checks.begin(flags, folder) as ran:
            assert ran.stdout is not None  # it is a pipe
            try:
                for line in ran.stdout:
                    lines.append(line.rstrip("\n"))
                    is_begun = is_begun or line.startswith(f"fn {crate}::")
                    other = OF_CRATE.match(line)
                    if (is_begun and AFTER.match(line)) or (other and other[1] != crate):
                        break
            finally:
                self.checks.end(ran)
            ran.stdout.read()
        if self.checks.is_over:
            raise Stopped
        return lines


def is_reached(crate: str, said: list[str]) -> bool:
    return any(it.startswith(f"fn {crate}::") for it in said)


def judge(crate: str, made: Round, said: list[str], before: set[str]) -> dict[Edit, str | None]:
    """Returns the reason of each edit of a round, unless the check without any edit gives it too,
    or None.
    """
    if not is_reached(crate, said):
        if len(made.edits) > 1:
            return dict.fromkeys(made.edits)
        first = next((it for it in said if UNREAD.match(it)), said[-1] if said else "nothing was said")
        raise BadEdit(f"it does not reach the prover: {first[:200]}")
    said = [it for it in said if it not in before]
    reasons = {edit: reason(crate, places, made.texts, said) for edit, places in made.edits.items()}
    if len(reasons) == 1:
        return {edit: why or lone_reason(crate, said) for edit, why in reasons.items()}
    return reasons


def edits_of(crate: str, folders: tuple[str, ...]) -> list[Edit]:
    """The edits of these folders."""
    files = [it for folder in folders for it in sorted((TOP / "crates" / crate / folder).glob("*.edit"))]
    return [Edit.read(it) for it in files]


class Audit:
    """The audit of one crate, and where its lines go."""

    def __init__(self, crate: str, way: Way, checks: Checks, out: TextIO):
        self.crate, self.way, self.running, self.out = crate, way, checks, out
        self.checks = self.refused = self.others = 0
        self.before: set[str] = set()

    def tell(self, edit: Edit, why: str | None, otherwise: str = "NOT REFUSED") -> None:
        self.refused += why is not None
        self.others += why is None
        print(f"{self.crate}/{edit.name}: {f'refused: {why}' if why else otherwise}", file=self.out, flush=True)

    def applied(self, edits: list[Edit]) -> list[Edit]:
        """Keeps the edits that can be applied, and reports the others."""
        good = []
        for edit in edits:
            try:
                edit.apply(TOP / "crates" / self.crate, {})
                good.append(edit)
            except BadEdit as why:
                self.tell(edit, None, f"BAD EDIT: {why}")
        return good

    def run(self) -> None:
        """Tries all edits in a copy, and then by themselves those that showed no reason in company.
        """
        begun = time.time()
        with tempfile.TemporaryDirectory(prefix="wrong-bodies-") as name:
            self.room = Room(Path(name), self.running)
            self.room.furnish(crates_below()[self.crate], self.way.gate)
            if not self.way.gate and not is_proved(self.crate):
                self.stands()
            edits = edits_of(self.crate, self.way.folders())
            again = self.rounds(self.applied(edits), self.way.alone)
            self.rounds(again, True)
        took = time.time() - begun
        print(f"{self.crate}: {len(edits)} edits in {self.checks} checks, {took:.0f} seconds", file=self.out, flush=True)

    def stands(self) -> None:
        """Ends the audit if the crate is not proved without an edit, because a refusal would then
        show nothing.
        """
        said = self.check({}, set())
        why = lone_reason(self.crate, said) if is_reached(self.crate, said) else "\n".join(said[-10:])
        if why:
            sys.exit(f"{self.crate} is not proved as it stands, so nothing was tried: {why}")
        self.before = set(said)

    def check(self, texts: Texts, places: set[Place]) -> list[str]:
        """Checks the crate, and ends the audit if that would first have to prove a library."""
        only = sorted(path_of(self.crate, it) for it in places if it.function) if self.way.gate else None
        self.checks += 1
        said = self.room.check(self.crate, texts, only)
        others = [it[1] for it in map(OF_CRATE.match, said) if it and it[1] != self.crate]
        if others:
            sys.exit(f"{self.crate}: the check begins to prove {others[0]}, which has changed since it was built: {BUILD}")
        return said

    def rounds(self, left: list[Edit], alone: bool) -> list[Edit]:
        """Tries edits, and returns those to try by themselves."""
        again = []
        while left:
            made = next_round(self.room.crates / self.crate, left, alone)
            left = [it for it in left if it not in made.edits]
            again += self.round(made)
        return again

    def round(self, made: Round) -> list[Edit]:
        """Checks one round, reports its results, and returns the edits that showed nothing in
        company.
        """
        said = self.check(made.texts, set().union(*made.edits.values()))
        try:
            reasons = judge(self.crate, made, said, self.before)
        except BadEdit as why:
            for edit in made.edits:
                self.tell(edit, None, f"BAD EDIT: {why}")
            return []
        again = [it for it, reason in reasons.items() if not reason and len(reasons) > 1]
        for edit, reason in reasons.items():
            if edit not in again:
                self.tell(edit, reason)
        return again


@functools.lru_cache(maxsize=None)
def kit() -> Any:
    """Loads the part of the kit that knows the sources of a library.

    Here it sums each crate once. Otherwise it does so for each crate above, which takes half a
    minute for the highest.
    """
    page = subprocess.run(["rt", "doc"], capture_output=True, text=True, check=True).stdout.strip()
    sys.path.insert(0, str(Path(page).parent / "bin"))
    found = importlib.import_module("rtlib")
    found.Crate.stamp = functools.lru_cache(maxsize=None)(found.Crate.stamp)
    return found


def is_proved(crate: str) -> bool:
    """Whether a crate's library is built of its present sources and those below it, so that all are
    proved.
    """
    return bool(kit().Crate(str(TOP / "crates" / crate), str(TOP), {}).is_built())


def is_built(crate: str, way: Way) -> bool:
    built = TOP / "crates" / crate / RLIB
    return (built / f"{crate}.rlib").is_dir() if way.gate else (built / "stamp").is_file()


def lacking(crates: list[str], way: Way) -> list[str]:
    """Lists which of these crates are not built, or are needed and not checked."""
    below = crates_below()
    needed = {it for crate in crates for it in below[crate]}
    lacks = [f"the library {it} is not built" for it in below if it in needed and not is_built(it, way)]
    if way.gate:
        return lacks
    return lacks + [f"the crate {it} is not checked" for it in crates if not (TOP / "crates" / it / WORK).is_dir()]


def chosen(words: list[str], way: Way) -> list[str]:
    """The crates that are to be audited: those that were named, or all that have edits."""
    known = list(crates_below())
    wrong = [it for it in words if it not in known]
    if wrong:
        sys.exit(f"no crate of crates.txt: {' '.join(wrong)}\n{__doc__}")
    return sorted((it for it in words or known if edits_of(it, way.folders())), key=size_of, reverse=True)


def size_of(crate: str) -> int:
    """How many bytes of code a crate has."""
    return sum(it.stat().st_size for it in (TOP / "crates" / crate / "src").rglob("*.rt"))


def at_once() -> int:
    """Returns how many checks may run at once, by the processors for this process, and memory."""
    free = re.search(r"^MemAvailable: +(\d+) kB$", Path("/proc/meminfo").read_text(), re.M)
    return max(1, min(len(os.sched_getaffinity(0)), int(free[1]) * 1024 // CHECK_MEMORY if free else 1))


def run_all(audits: list[Audit]) -> None:
    """Runs the audits, several at once. If one ends all, those that have not begun are left out."""
    with ThreadPoolExecutor(at_once()) as pool:
        begun = [pool.submit(it.run) for it in audits]
        try:
            for it in begun:
                it.result()
        except BaseException:
            pool.shutdown(wait=False, cancel_futures=True)
            raise


def run_beside(audits: list[Audit], checks: Checks, command: list[str]) -> int:
    """Runs a command that proves crates, and each audit once its crate is proved, half as many at
    once as usual. Returns its status; if that is not 0, the audits are ended.
    """
    left = {it.crate: it for it in audits}
    few = (at_once() + 1) // 2
    with ThreadPoolExecutor(few) as pool, subprocess.Popen(command, stdout=subprocess.PIPE, text=True, errors="replace") as ran:
        begun = []
        assert ran.stdout is not None  # it is a pipe
        try:
            for line in ran.stdout:
                print(line, end="", flush=True)
                said = PROVED.match(line)
                if said and said[1] in left:
                    begun.append(pool.submit(left.pop(said[1]).run))
            if ran.wait() == 0:
                begun += [pool.submit(it.run) for it in left.values()]
                for it in begun:
                    it.result()
        finally:
            checks.end_all()
            pool.shutdown(wait=False, cancel_futures=True)
            if ran.poll() is None:
                ran.terminate()
    return ran.returncode


def main(words: list[str]) -> int:
    cut = words.index("--beside") if "--beside" in words else len(words)
    words, command = words[:cut], words[cut + 1 :]
    way = Way("--gate" in words, "--alone" in words)
    crates = chosen([it for it in words if it not in ("--gate", "--alone")], way)
    lacks = [] if command else lacking(crates, way)
    if lacks:
        print(*lacks, f"So nothing was tried: {BUILD}.", sep="\n")
        return 2
    checks = Checks(beside=bool(command))
    audits = [Audit(it, way, checks, io.StringIO() if command else sys.stdout) for it in crates]
    if command:
        signal.signal(signal.SIGTERM, lambda *_: sys.exit(128 + signal.SIGTERM))
        status = run_beside(audits, checks, command)
        if status:
            return status
        print(*(it.out.getvalue() for it in audits if isinstance(it.out, io.StringIO)), sep="", end="")
    else:
        run_all(audits)
    refused, others = sum(it.refused for it in audits), sum(it.others for it in audits)
    print(f"{refused} refused, {others} not")
    return 1 if others else 0


if __name__ == "__main__":
    sys.exit(main(sys.argv[1:]))
