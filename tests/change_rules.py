#!/usr/bin/env python3
"""Changes the rules of a crate's definitions one at a time, and lists changes that no case notices.

    tests/change_rules.py CRATE [--only FILE] [--name NAME] [--every N] [--begin N]
                          [--batch N] [--minutes N] [--list] [--all]

A contract means no more than the definitions that it cites, and a definition that is changed
together with its code can still be proved. So each rule needs a worked case: a theorem by
computation in `proofs/Examples*.antt` of the crate, whose answer comes from the standard. This
script looks for rules that have none.

It changes one thing in the body of one definition of `specs/`: a number by one, a text by its last
character, an operator, a comparison, a truth value, a condition, a constructor, the answer of a
case. It also leaves out a line of a list or a sum, or swaps it with the next. For each change it
copies the definitions that depend on it, and a file of worked cases, under other names into a copy
of the repository, and has them checked. Many changes are checked in one run, so one takes seconds
or less. The files of worked cases are tried in turn, each with the changes still not noticed.

A change is one of these:
- not well-formed: it does not make a definition (shows nothing);
- showed: a worked case is refused;
- not noticed: every case still holds. It is listed, and needs a case, or means the same.
A change with which the checker does not end in time is listed too.

Relations and records (`Type 0`, `data`, `record`) are left out, because a clause ties each relation
to the function of the same meaning. A file whose cases fail in an unchanged copy is named instead.

The crates below must be proved with their work kept (`rt check` and `rt lib` in each), because it
is copied.

--only takes one file of specs/ by its name (`Reads` or `state.Reads`), --name one definition,
--every N each Nth change (from --begin, else the first). --batch is how many changes a run checks
(40), --minutes how long a run may take (10). --list lists the changes and checks nothing; --all
prints the outcome of each. RT names another command for `rt`. The copy is in TMPDIR and is removed
at the end. The status is 0 if every change that is a definition showed, else 1. Needs Python 3.9.
"""
from __future__ import annotations

import argparse
import os
import re
import shutil
import signal
import subprocess
import sys
import tempfile
from pathlib import Path
from typing import List, Optional, Tuple

TOP = Path(__file__).resolve().parent.parent
sys.path.insert(0, str(TOP))

from tests.crates import crate_lines, crates_below  # noqa: E402
PRELUDE = "Rattle.std.specs.Prelude"
TOKEN = re.compile(r'"(?:\\.|[^"\\])*"|--[^\n]*|\.\d+\b|0x[0-9A-Fa-f_]+|\d[\d_]*|[A-Za-z_][\w₀-₉\']*(?:\.[A-Za-z_][\w₀-₉\']*)*|&&|\|\||==|\+\+|[-+*/%]')
OTHER = {
    "&&": "||", "||": "&&", "+": "-", "-": "+", "*": "+", "/": "*", "%": "/", "nat_le": "nat_lt", "nat_lt": "nat_le",
    "true": "false", "false": "true", "is_some": "is_none", "is_none": "is_some", "take": "drop", "drop": "take",
    "list_any": "list_all", "list_all": "list_any",
}
IMPORTS = {"||": "◌||◌", "&&": "◌&&◌", "+": "◌+◌", "-": "◌-◌", "*": "◌*◌", "/": "◌/◌"}
FROM_LIST = {"list_any", "list_all"}
# The errors of a change, each with its file, or None if the checker did not end.
Errors = Optional[List[Tuple[str, str]]]


class Definition:
    """A definition of a file: its name, whether it computes, where the bodies of its cases are."""

    def __init__(self, name: str, type_text: str) -> None:
        """A definition of this name and type, without bodies as yet."""
        self.name = name
        self.type = type_text
        self.bodies: list[tuple[int, int]] = []

    def computes(self) -> bool:
        """Whether it gives a value, so is not a relation."""
        return not re.search(r"Type \d+\s*$", self.type)

    def is_test(self) -> bool:
        """Whether it answers with a truth value."""
        return bool(re.search(r"\bBool\s*$", self.type))


def definitions(text: str) -> list[Definition]:
    """The definitions of a text that compute, with the places of their bodies."""
    found, current, place, heads = [], None, 0, []
    for line in text.splitlines(True):
        if line[0] not in " \t\n":
            heads.append((place, line))
        place += len(line)
    for (begin, line), (end, _) in zip(heads, heads[1:] + [(len(text), "")]):
        part = text[begin:end]
        sign = re.match(r"(?:(?:abbrev|unfoldable|pub)\s+)*([a-z_][\w₀-₉]*)\s*:(.*)", part, re.S)
        if sign and not part.startswith(("use", "--", "module")):
            current = Definition(sign[1], re.sub(r"--[^\n]*", "", sign[2]).rstrip())
            found.append(current)
        elif current and re.match(re.escape(current.name) + r"[\s=]", part):
            equals = re.search(r"(?<![≡=<>:])=(?!=)\s", part)
            if equals:
                current.bodies.append((begin + equals.end(), begin + len(part.rstrip())))
    return [it for it in found if it.computes() and it.bodies]


def constructors(text: str) -> dict[str, str]:
    """For each constructor that a text imports by name, the next one of its type."""
    following = {}
    for names in re.findall(r"\.TheVariants\.\{([^}]*)\}", text):
        names = [it.strip() for it in names.split(",") if " as " not in it]
        for one, after in zip(names, names[1:] + names[:1]):
            if one != after:
                following[one] = after
    for alias in re.findall(r"^use [\w.]+ as (\w+)", text, re.M):
        names = sorted(set(re.findall(rf"\b{alias}\.([A-Z]\w*)", text)))
        for one, after in zip(names, names[1:] + names[:1]):
            if one != after:
                following[f"{alias}.{one}"] = f"{alias}.{after}"
    return following


def other_tokens(token: str, following: dict[str, str]) -> list[str]:
    """The texts that take the place of a token, one at a time."""
    if token.startswith('"'):
        if len(token) > 2:
            end = -2 if token[-3:-2] != "\\" else -3
            return [token[:end] + ("x" if token[end:-1] != "x" else "y") + '"']
    elif re.match(r"\.\d+$", token):
        return [".1" if token == ".0" else ".0"]
    elif token[0].isdigit():
        value = int(token.replace("_", ""), 0)
        return [str(value + 1)] + ([str(value - 1)] if value else [])
    elif token == "not":
        return [""]
    elif token in OTHER:
        return [OTHER[token]]
    elif token in following:
        return [following[token]]
    return []


def conditions(body: str) -> list[tuple[int, int]]:
    """The places of the conditions of `if`."""
    places, begun = [], []
    for it in TOKEN.finditer(body):
        if it[0] == "if":
            begun.append(it.end())
        elif it[0] == "then" and begun:
            places.append((begun.pop(), it.start()))
    return places


def is_balanced(line: str) -> bool:
    """Whether a line has as many opening brackets of each kind as closing ones."""
    return all(line.count(a) == line.count(b) for a, b in (("(", ")"), ("{", "}"), ("[", "]")))


def in_lines(body: str) -> list[tuple[str, str]]:
    """Yields bodies with one line of a list, a sum or a test left out, or swapped with the next."""
    lines, made = body.split("\n"), []
    starts = [re.match(r"\s*(\+\+|∷|&&|\|\||∙)\s", it) for it in lines]
    for i, start in enumerate(starts):
        if not start or not is_balanced(lines[i]):
            continue
        what = lines[i].strip()
        if what != "∷ []":
            made.append((f"left out: {what}", "\n".join(lines[:i] + lines[i + 1:])))
        if i + 1 < len(lines) and starts[i + 1] and is_balanced(lines[i + 1]) and lines[i + 1].strip() != "∷ []" and start[1] in ("∷", "++"):
            made.append((f"behind the next: {what}", "\n".join(lines[:i] + [lines[i + 1], lines[i]] + lines[i + 2:])))
    return made


def changed_bodies(body: str, definition: Definition, following: dict[str, str]) -> list[tuple[str, str]]:
    """Each change of a body: what it is, and the changed body."""
    made = []
    for it in TOKEN.finditer(body):
        if it[0].startswith("--"):
            continue
        for other in other_tokens(it[0], following):
            before, after = body[:it.start()], body[it.end():]
            made.append((f"{it[0]} -> {other} in: {before[-30:]}<{it[0]}>{after[:30]}", before + other + after))
    for begin, end in conditions(body):
        made.append((f"not: {body[begin:end].strip()}", f"{body[:begin]} (if {body[begin:end].strip()} then false else true) {body[end:]}"))
    made += in_lines(body)
    if definition.is_test():
        made.append(("the other truth value", f"(if {body} then false else true)"))
    return made


def with_imports(text: str) -> str:
    """The text with what changed bodies may name."""
    wanted = {"true", "false", "◌||◌", "◌&&◌", "nat_le", "nat_lt", "is_some", "is_none", "if◌then◌else◌", "take", "drop"} | set(IMPORTS.values())
    named = set(re.findall(r"[^\s{},]+", " ".join(re.findall(r"^use [\w.]+\.\{([^}]*)\}", text, re.M))))
    missing = sorted(it for it in wanted if it not in named and not re.search(rf"^(?:\w+ )*{re.escape(it)} :", text, re.M))
    listed = "list_any" in named or "list_all" in named
    more = f"use {PRELUDE}.{{{', '.join(missing)}}}\n" if missing else ""
    for name in FROM_LIST - named if listed else ():
        more += f"use Rattle.std.specs.List.{{{name}}}\n"
    first = re.search(r"^use ", text, re.M)
    return text[:first.start()] + more + text[first.start():] if first and more else text


class Change:
    """A change of one definition: file, definition, kind of change, and the file's changed text."""

    verdict: str | None
    errors: Errors

    def __init__(self, file: str, name: str, what: str, text: str) -> None:
        """A change that has not been tried."""
        self.file, self.name, self.what, self.text = file, name, what, text
        self.verdict, self.errors = None, []

    def __str__(self) -> str:
        """The change as it is listed."""
        return f"{self.file}: {self.name}: {self.what}"


def changes_of(file: str, text: str) -> list[Change]:
    """All changes of a file's text."""
    following, made, seen = constructors(text), [], {text}
    for it in definitions(text):
        cases = [text[a:b] for a, b in it.bodies]
        for at, (begin, end) in enumerate(it.bodies):
            bodies = changed_bodies(text[begin:end], it, following)
            if at + 1 < len(cases):
                bodies.append((f"answer of the next case: {' '.join(cases[at + 1].split())[:60]}", cases[at + 1]))
            for what, body in bodies:
                changed = text[:begin] + body + text[end:]
                if changed not in seen:
                    seen.add(changed)
                    made.append(Change(file, it.name, " ".join(what.split()), changed))
    return made


class Copies:
    """A copy of the repository, with changed definitions next to the crate's own."""

    def __init__(self, crate: str, folder: str, minutes: float) -> None:
        """Reads the definitions and the worked cases of a crate, and makes the copy in a folder."""
        self.crate, self.folder, self.minutes = crate, Path(folder), minutes
        self.at = self.folder / "crates" / crate
        specs = TOP / "crates" / crate / "specs"
        found = [*sorted(specs.glob("*.antt")), *sorted((specs / "state").glob("*.antt"))]
        files = {".".join(it.relative_to(specs).with_suffix("").parts): str(it.relative_to(specs)) for it in found}
        self.files = {name: file for name, file in files.items() if name not in ("Lib", "state")}
        self.specs = {it: (specs / file).read_text() for it, file in self.files.items()}
        self.cases = {it.stem: it.read_text() for it in sorted((TOP / "crates" / crate / "proofs").glob("Examples*.antt"))}
        self.root = "main" if (TOP / "crates" / crate / "src/main.rt").exists() else "lib"
        self.copy()

    def copy(self) -> None:
        """Copies the crate and those below it, with their kept work."""
        kept = [*crates_below()[self.crate], self.crate]
        (self.folder / "crates.txt").write_text("".join(f"{crate_lines()[it]}\n" for it in kept))
        if (TOP / "HANDLES").exists():
            shutil.copy(TOP / "HANDLES", self.folder / "HANDLES")
        subprocess.run(["git", "init", "-q"], cwd=self.folder, check=True)
        for name in kept:
            shutil.copytree(TOP / "crates" / name, self.folder / "crates" / name, symlinks=True)

    def users(self, file: str) -> set[str]:
        """The files of specs/ that rest on a file, with it."""
        found, grows = {file}, True
        while grows:
            more = {name for name, text in self.specs.items() if any(self.names(text, it) for it in found)}
            grows = not more <= found
            found |= more
        return found

    def needed(self, cases: str, file: str) -> set[str]:
        """Lists the files of specs/ that depend on a file and that some worked cases need."""
        found, fresh = set(), {it for it in self.specs if self.names(self.cases[cases], it)}
        while fresh:
            found |= fresh
            fresh = {it for it in self.specs if any(self.names(self.specs[user], it) for user in fresh)} - found
        return self.users(file) & found

    def names(self, text: str, file: str) -> re.Match[str] | None:
        """Finds the name of a file of specs/ in a text, or returns None."""
        return re.search(rf"\bRattle\.{self.crate}\.specs\.{re.escape(file)}\b", text)

    def renamed(self, text: str, mark: str, files: set[str]) -> str:
        """A text that names the copies of these files, under a mark, in their place."""
        for it in files:
            text = re.sub(rf"\bRattle\.{self.crate}\.specs\.{re.escape(it)}\b", f"Rattle.{self.crate}.proofs.{mark}{it.replace('.', '')}", text)
        return text

    def write(self, cases: str, changes: list[Change]) -> None:
        """Writes the copies for some changes and a file of worked cases.

        One function cites all of them, so that one check reads them.
        """
        proofs = self.at / "proofs"
        for it in proofs.glob("Change*.antt"):
            it.unlink()
        for spec in self.specs:
            (self.at / "specs" / self.files[spec]).write_text(self.specs[spec])
        names, cited = [], []
        for number, change in enumerate(changes):
            mark = f"Change{number:03}"
            files = self.needed(cases, change.file)
            for spec in files:
                text = with_imports(change.text) if spec == change.file else self.specs[spec]
                name = mark + spec.replace(".", "")
                (proofs / f"{name}.antt").write_text(self.renamed(text, mark, files))
                names.append(name)
            text = self.renamed(self.cases[cases], mark, files)
            (proofs / f"{mark}{cases}.antt").write_text(MARK + text + "\npub shows : Shown\nshows = 0\n")
            names.append(f"{mark}{cases}")
            cited.append(f"{mark}{cases}")
        own = (TOP / "crates" / self.crate / "proofs/Lib.antt").read_text().rstrip("\n")
        (proofs / "Lib.antt").write_text(own + "".join(f"\npub mod {it}" for it in names) + "\npub mod ChangesAll\n")
        uses = "".join(f"use Rattle.{self.crate}.proofs.{it}.{{shows as shows{i}}}\n" for i, it in enumerate(cited))
        total = " + ".join(["0"] + [f"shows{i}" for i in range(len(cited))])
        (proofs / "ChangesAll.antt").write_text(f"use Rattle.std.proofs.Common.{{ℕ, ◌+◌}}\n{uses}\npub all_cases : ℕ\nall_cases = {total}\n")
        source = (TOP / "crates" / self.crate / f"src/{self.root}.rt").read_text()
        (self.at / f"src/{self.root}.rt").write_text(source.rstrip("\n") + "\n" + CITES)

    def said(self, words: list[str]) -> str | None:
        """Runs a command and returns its output, or None if it does not end in time.

        It is then killed with all that it started.
        """
        with subprocess.Popen(words, cwd=self.at, stdout=subprocess.PIPE, stderr=subprocess.STDOUT, text=True, start_new_session=True) as run:
            try:
                return run.communicate(timeout=60 * self.minutes)[0]
            except subprocess.TimeoutExpired:
                os.killpg(run.pid, signal.SIGKILL)
                return None

    def check(self, cases: str, changes: list[Change]) -> list[Errors]:
        """Checks each change and returns its list of errors, or None if the check did not end."""
        self.write(cases, changes)
        words = os.environ.get("RT", "rt").split() + ["check", "--jobs", "1", "--only", "changes_of_rules"]
        said = self.said(words)
        if said is None and len(changes) == 1:
            return [None]
        if said is None:
            half = len(changes) // 2
            return self.check(cases, changes[:half]) + self.check(cases, changes[half:])
        if not re.search(r"^only=", said, re.M):
            sys.exit(f"the checker stopped:\n{said[-3000:]}")
        errors: List[List[Tuple[str, str]]] = [[] for _ in changes]
        for number, file, what in re.findall(r"^(?:\./)?proofs/Change(\d{3})(\w+)\.antt:\d+:\d+: error: (.*)", said, re.M):
            errors[int(number)].append((file, what))
        return list(errors)


# What a copy of the worked cases needs so that a function can cite it.
MARK = "use Rattle.std.specs.Prelude.{ℕ as Shown}\n"

CITES = """
#[tactic(auto, using(crate::proofs::ChangesAll::all_cases))]
fn changes_of_rules(number: u8) -> u8 {
    number
}
"""


def judged(errors: Errors, cases: str) -> str:
    """Names the outcome of a change by its errors."""
    if errors is None:
        return "no end"
    if any(file != cases for file, _ in errors):
        return "not well-formed"
    if any("not checked" not in what for _, what in errors):
        return "showed"
    return "not well-formed" if errors else "not noticed"


def one_round(copies: Copies, cases: str, changes: list[Change], options: argparse.Namespace) -> None:
    """Tries changes with one file of worked cases; notes at each what came of it."""
    some = [it for it in changes if copies.needed(cases, it.file)]
    unchanged = [Change(it, "", "no change", copies.specs[it]) for it in sorted({it.file for it in some})]
    untried = set()
    for change, errors in zip(unchanged, copies.check(cases, unchanged) if unchanged else []):
        if errors is None or errors:
            untried.add(change.file)
            print(f"{change.file}: {cases} fails without a change, so it was not tried: {errors and errors[0][1][:150]}", flush=True)
    some = [it for it in some if it.file not in untried]
    for at in range(0, len(some), options.batch):
        batch = some[at:at + options.batch]
        for change, errors in zip(batch, copies.check(cases, batch)):
            verdict = judged(errors, cases)
            if change.verdict != "no end" or verdict != "not noticed":
                change.verdict, change.errors = verdict, errors
        print(f"{copies.crate}, {cases}: {at + len(batch)} of {len(some)} tried", file=sys.stderr, flush=True)


def run(options: argparse.Namespace) -> int:
    """Tries the changes that were asked for, or lists them, and gives the status."""
    folder = tempfile.mkdtemp()
    try:
        copies = Copies(options.crate, folder, options.minutes)
        files = [it for it in copies.specs if not options.only or it == options.only]
        changes = [it for file in files for it in changes_of(file, copies.specs[file])]
        changes = [it for it in changes if not options.name or it.name == options.name][options.begin::options.every]
        if options.list:
            print("\n".join(map(str, changes)) + f"\n{len(changes)} changes")
            return 0
        for cases in copies.cases:
            one_round(copies, cases, [it for it in changes if it.verdict in (None, "not noticed", "no end")], options)
    finally:
        shutil.rmtree(folder, ignore_errors=True)
    return told(options, changes)


def told(options: argparse.Namespace, changes: list[Change]) -> int:
    """Prints what came of the changes; 1 if a change did not show."""
    for it in changes:
        if it.verdict in (None, "not noticed", "no end"):
            print(f"{it.verdict or 'no case needs it'}: {it}")
        elif options.all:
            print(f"{it.verdict}: {it}" + (f" [{it.errors[0][1][:80]}]" if it.errors else ""))
    counts = {what: sum(it.verdict == what for it in changes) for what in ("showed", "not well-formed", "not noticed", "no end", None)}
    print(f"{options.crate}: {len(changes)} changes: " + ", ".join(f"{n} {what or 'not tried'}" for what, n in counts.items()), flush=True)
    return 1 if counts["not noticed"] + counts["no end"] + counts[None] else 0


def main() -> None:
    """Reads the command line, and ends with the status of the run."""
    parser = argparse.ArgumentParser(description=__doc__, formatter_class=argparse.RawDescriptionHelpFormatter)
    parser.add_argument("crate")
    parser.add_argument("--only", help="one file of specs/")
    parser.add_argument("--name", help="one definition")
    parser.add_argument("--begin", type=int, default=0, help="with --every, which change is the first, from 0")
    parser.add_argument("--every", type=int, default=1, help="each Nth change")
    parser.add_argument("--batch", type=int, default=40, help="changes in a run of the checker")
    parser.add_argument("--minutes", type=float, default=10, help="for a run of the checker")
    parser.add_argument("--list", action="store_true", help="lists the changes alone")
    parser.add_argument("--all", action="store_true", help="prints each change with what came of it")
    sys.exit(run(parser.parse_args()))


if __name__ == "__main__":
    main()
