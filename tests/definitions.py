#!/usr/bin/env python3
"""Checks that each definition is in the right folder.

    tests/definitions.py [--list]

`specs/` of a crate has the definitions that public contracts cite. `specs/state/` has those of the
program's own shapes, which nobody needs to read a public contract. So a definition of `specs/` does
not cite one of `specs/state/`, and neither does a clause of a public call or trait, nor what
contracts see of a public type. And each definition of `specs/` is needed for one of these, directly
or through others. Laws count as public calls.

A call, trait or type of a library is public if `src/lib.rt` gives its name or the name of its
module; in a program, if it is `pub`; in a static library, if it is an export. `--list` prints each
definition of `specs/` that no public contract needs. Python 3.9 or later.
"""
from __future__ import annotations

import re
import sys
from pathlib import Path
from typing import NamedTuple, TypeVar

CRATES = Path(__file__).resolve().parent.parent / "crates"

IMPORT = re.compile(
    r"\buse (?:pub )?Rattle\.(\w+)\.specs\.(state\.)?(\w+)((?:\.\w+)*)"
    r"(?:\.\{([^}]*)\}| as (\S+?))?;?$",
    re.M,
)
HEAD = re.compile(r"(?:  )?(?:(?:abbrev|unfoldable) (?:pub )?|pub (data|record) )([\w']+)")
# A definition of several that name one another, after `mutual`.
ONE_OF = re.compile(r"  pub ()([\w']+) :")
CASE = re.compile(r"\s+([\w']+) :")
# A word, with the one after its dot. A dot before it would make it a field.
TOKEN = re.compile(r"(?<![\w'.])[A-Za-z_][\w']*(?:\.[A-Za-z_][\w']*)?")
BOUND = re.compile(r"λ ([^.]*)\.|\(([\w' ]+) :")
PATTERN = re.compile(r"(?<![\w'.])[a-z_][\w']*")
CALL = re.compile(r"(\s*)pub (?:const |unsafe )*(extern \"C\" )?fn (\w+)")
METHOD = re.compile(r"\s+(?:const |unsafe )*fn \w+")
CLAUSE = re.compile(r"\s*(?:requires|ensures)\b")
LABEL = re.compile(r"\b(requires|ensures) \w+ \{")
IMPL = re.compile(r"(?:unsafe )?impl(?:<.*?>(?= ))? (?:(\w+).*? for )?&?(?:'\w+ )?(\w+)")
# What contracts see of a public type: the value that its model names. What they see of an impl: the
# ghost values that it gives its trait.
GHOST = re.compile(r"\s+ghost (\w+) = \{")
TRAIT = re.compile(r"^pub trait (\w+).*?^\}", re.M | re.S)
GIVEN = re.compile(r"^pub (?:mod |use (?:[\w:]+::)?)(\{[^}]*\}|\w+);", re.M)

# A file of definitions: its crate, and its name, which begins with `state/` if it is there.
Room = tuple[str, str]
# A definition: its crate, its file, and its name, which is empty if the whole file is meant.
Name = tuple[str, str, str]
Either = TypeVar("Either", Room, Name)


class File(NamedTuple):
    """A file of definitions: what it imports, the text of each definition, and for each case of a
    type the definition that has it."""

    known: dict[str, Name]
    own: dict[str, str]
    cases: dict[str, str]


def imports(text: str) -> dict[str, Name]:
    """Returns the names that a text imports from definitions, by the words it uses for them."""
    found = {}
    for crate, state, file, inner, names, alias in IMPORT.findall(text):
        room, steps = (crate, (state and "state/") + file), inner.split(".")[1:]
        for word in names.split(",") if names else [alias or (steps or [file])[-1]]:
            name, _, other = word.strip().partition(" as ")
            found[other or name] = (*room, steps[0] if steps else name if names else "")
    return found


def file_of(text: str) -> File:
    """Reads a file of definitions from its text."""
    own: dict[str, str] = {}
    cases, name, kind = {}, "", ""
    for line in text.splitlines():
        if head := (kind == "mutual" and ONE_OF.match(line)) or HEAD.match(line):
            kind, name = ("mutual" if kind == "mutual" and line[0] == " " else head[1]), head[2]
            if name == "mutual":
                kind, name = "mutual", ""
            else:
                own[name] = ""
        if name and not line.lstrip().startswith("--"):
            own[name] += line + "\n"
            if kind == "data" and (case := CASE.match(line)):
                cases[case[1]] = name
    return File(imports(text), own, cases)


def files() -> dict[Room, File]:
    """Reads all files of definitions."""
    found = {}
    for file in sorted(CRATES.glob("*/specs/**/*.antt")):
        crate, _, *steps = file.relative_to(CRATES).with_suffix("").parts
        if steps not in (["Lib"], ["state"]):
            found[crate, "/".join(steps)] = file_of(file.read_text(encoding="utf-8"))
    return found


def named(
    text: str,
    known: dict[str, Name],
    all: dict[Room, File],
    room: Room | None = None,
    bound: frozenset[str] = frozenset(),
) -> set[Name]:
    """Returns the definitions that a text names: those of its own file, and those it imports."""
    found = set()
    for token in TOKEN.findall(text):
        word, _, rest = token.partition(".")
        crate, file, name = known.get(word, ("", "", ""))
        if room and (word in all[room].own or word in all[room].cases):
            crate, file, name = *room, word
        if (crate, file) in all and word not in bound:
            found.add((crate, file, all[crate, file].cases.get(name or rest, name or rest)))
    return found


def rests(room: Room, name: str, all: dict[Room, File]) -> set[Name]:
    """Returns the definitions that a definition names, without what its equations bind."""
    found = set()
    for part in re.split(rf"\n(?=\s*{re.escape(name)} )", all[room].own[name]):
        bound = {word for words in BOUND.findall(part) for word in " ".join(words).split()}
        if not HEAD.match(part):
            bound |= set(PATTERN.findall(re.split(r" =\s", part)[0])) - set(all[room].cases)
        found |= named(part, all[room].known, all, room, frozenset(bound))
    return found - {(*room, name)}


def given(crate: str) -> set[str] | None:
    """Returns the names that a library gives out; None for a program."""
    lib = CRATES / crate / "src/lib.rt"
    if not lib.exists():
        return None
    lists = GIVEN.findall(lib.read_text(encoding="utf-8"))
    return {name for names in lists for name in re.findall(r"\w+", names)}


def clauses(source: Path, text: str) -> tuple[str, str]:
    """Returns what callers read in a source file: the clauses of its public calls, what contracts
    see of its public types, and its public traits; and what its public types give their traits."""
    names = given(source.relative_to(CRATES).parts[0])

    def is_public(name: str) -> bool:
        return names is None or name in names

    stated: list[str] = []
    inherited: list[str] = []
    trait, owner, call, is_clause = "", "", "", False
    for line in text.splitlines():
        if impl := IMPL.match(line):
            trait, owner = impl[1] or "", impl[2]
        if line == "}":
            trait = owner = ""
        if it := CALL.match(line):
            open_call = bool(it[2]) or is_public(owner if it[1] else it[3])
            open_call = open_call or (not it[1] and is_public(source.stem))
            call, is_clause = "stated" if open_call and not line.endswith("{") else "", False
        elif METHOD.match(line):
            open_call = bool(trait) and is_public(owner) and not line.endswith("{")
            call, is_clause = "inherited" if open_call else "", False
        if (ghost := GHOST.match(line)) and owner and is_public(owner):
            if trait != "Model" or ghost[1] == "Value":
                (stated if trait == "Model" else inherited).append(line)
        is_clause = bool(call) and (is_clause or bool(CLAUSE.match(line)))
        if line.strip() in ("{", "{}", "}"):
            call, is_clause = "", False
        if is_clause:
            (stated if call == "stated" else inherited).append(line)
    stated += [it[0] for it in TRAIT.finditer(text) if is_public(it[1])]
    return LABEL.sub(r"\1 {", "\n".join(stated)), LABEL.sub(r"\1 {", "\n".join(inherited))


def closed(found: set[Either], below: dict[Either, set[Either]]) -> set[Either]:
    """Returns these, and all that they need, directly or through others."""
    fresh = found
    while fresh:
        fresh = {it for name in fresh for it in below[name] if it in below} - found
        found = found | fresh
    return found


def main() -> None:
    """Prints what is in the wrong folder, and exits with 1 if anything is."""
    all = files()
    below = {(*room, it): rests(room, it, all) for room, file in all.items() for it in file.own}
    wrong, needed = [], set()
    for source in sorted(CRATES.glob("*/src/**/*.rt")):
        text = source.read_text(encoding="utf-8")
        known = imports(text)
        stated, inherited = (named(it, known, all) for it in clauses(source, text))
        needed |= stated | inherited
        state = sorted(it for it in stated if it[1].startswith("state/"))
        at = source.relative_to(CRATES)
        wrong += [f"{at}: a public clause names {c} of {a}/specs/{b}" for a, b, c in state]
    for (crate, file), it in all.items():
        if not file.startswith("state/"):
            rooms = {name[:2] for name in it.known.values() if name[1].startswith("state/")}
            rooms &= set(all)
            wrong += [f"{crate}/specs/{file} cites {a}/specs/{b}" for a, b in sorted(rooms)]
    needed = closed(needed & set(below), below)
    unneeded = [it for it in below if not it[1].startswith("state/") and it not in needed]
    if sys.argv[1:] == ["--list"]:
        for crate, file, name in unneeded:
            print(f"{crate}/specs/{file}: {name}")
        print(f"definitions of specs/ that no public contract needs: {len(unneeded)}")
        sys.exit(0)
    for crate, file, name in unneeded:
        wrong.append(f"{crate}/specs/{file}: no public contract needs {name}")
    for line in wrong:
        print(line)
    count = sum(len(file.own) for file in all.values())
    print(f"definitions: {count} in their folders, {len(wrong)} not")
    sys.exit(1 if wrong or not count else 0)


if __name__ == "__main__":
    main()
