#!/usr/bin/env python3
"""The public calls of a crate, each with its clauses and the first sentence of its docstring.

    tests/proved_tables.py CRATE..    prints a table for each of these crates
    tests/proved_tables.py --write    fills the counts of docs/PROVED.md
    tests/proved_tables.py --check    compares them, and what docs/PROVED.md quotes and cites

The sources are crates/*/src. A call is public if `src/lib.rt` gives its name, the name of its type
or the name of its module. A long clause without a name is shown by the definitions that it cites.
In the tables "What each crate promises" and "Tested instead" of docs/PROVED.md, each name in code
font is a word of that row's crates: of their sources, definitions or proofs. Each clause that the
page quotes is in a source, word for word. Each file of a crate that docs/ARCHITECTURE.md names is
there, and docs/AUDIT.md counts the wrong bodies of each crate. Python 3.9 or later.
"""
from __future__ import annotations

import re
import sys
from pathlib import Path
from typing import NamedTuple

TOP = Path(__file__).resolve().parent.parent
sys.path.insert(0, str(TOP))

from tests.definitions import CRATES, IMPL, given, imports  # noqa: E402
PAGE = TOP / "docs/PROVED.md"
ARCHITECTURE, AUDIT = TOP / "docs/ARCHITECTURE.md", TOP / "docs/AUDIT.md"
BEGIN, END = "<!-- tests/proved_tables.py --write -->\n", "<!-- end -->\n"
CHECKED = "What each crate promises", "Tested instead"
UNTRIED = "Definitions without a worked case"

CALL = re.compile(r"\s*(?:pub )?(?:const |unsafe )*fn (\w+)")
PUBLIC = re.compile(r"\s*pub (?:const |unsafe )*fn ")
TRAIT = re.compile(r"pub trait (\w+)")
CLAUSE = re.compile(r"\s*(requires|ensures)(?: (\w+))? \{")
BODY = re.compile(r"\s*(?:\{|\{\}|where)$")
ROW = re.compile(r"^\| ((?:`\w+`(?:, )?)+) \|(.*)\|$", re.M)
COUNTED = re.compile(r"^\| `(\w+)` \| (\d+) \| (\d+) \| [\d.]+ \|$", re.M)
CODE = re.compile(r"`([^`]+)`")
# A clause without a name is shown whole up to this many characters.
SHORT = 50
# Words of code in a row that are not names of its crates: those of Rust and of the command line.
FOREIGN = {"unsafe", "from_utf8_unchecked", "Ok", "Err", "true", "false", "requires", "pub"}


class Call(NamedTuple):
    """A public call: its name, what it does, and its clauses as they are shown."""

    name: str
    does: str
    needs: list[str]
    promises: list[str]


def first_sentence(comment: list[str]) -> str:
    """Returns the first sentence of a docstring."""
    text = " ".join(comment)
    end = re.search(r"\.(?= |$)", text)
    return (text[: end.start()] if end else text).replace("|", "\\|")


def shown(part: str, known: set[str]) -> str:
    """Returns a clause without a name as it is shown: whole, or by the definitions it cites."""
    text = " ".join(part[part.index("{") + 1 : part.rindex("}")].split())
    words = sorted(set(re.findall(r"(?<![\w'.])[A-Za-z_][\w']*", text)) & known)
    return f"({', '.join(words)})" if words and len(text) > SHORT else f"`{text}`"


def clauses_of(lines: list[str], known: set[str]) -> dict[str, list[str]]:
    """Returns the names of a call's clauses; for those without a name, what is shown of them."""
    found: dict[str, list[str]] = {"requires": [], "ensures": []}
    code = [line for line in lines if not line.lstrip().startswith("//")]
    parts = re.split(r"\n(?=\s*(?:requires|ensures)\b)", "\n" + "\n".join(code))
    for part in parts:
        if it := CLAUSE.match(part):
            found[it[1]].append(f"`{it[2]}`" if it[2] else shown(part, known).replace("|", "\\|"))
    return found


def calls_in(source: Path) -> list[Call]:
    """Returns the public calls of a source file."""
    crate, text = source.relative_to(CRATES).parts[0], source.read_text(encoding="utf-8")
    names, known = given(crate), set(imports(text))
    found: list[Call] = []
    owner, trait, inherited, comment = "", "", False, []
    lines = text.splitlines()
    for at, line in enumerate(lines):
        if it := IMPL.match(line):
            owner, trait, inherited = it[2], "", bool(it[1])
        elif it := TRAIT.match(line):
            owner, trait, inherited = it[1], it[1], False
        elif line == "}":
            owner, trait, inherited = "", "", False
        if line.lstrip().startswith("///"):
            comment.append(line.lstrip()[3:].strip())
        elif not line.lstrip().startswith("#["):
            call = CALL.match(line)
            public = not inherited and (trait or PUBLIC.match(line))
            if call and public and (names is None or (owner or call[1]) in names or source.stem in names):
                end = next((n for n in range(at, len(lines)) if ends(lines[n])), at)
                has_body = end > at and BODY.match(lines[end])
                clauses = clauses_of(lines[at : end if has_body else end + 1], known)
                name = f"{owner}::{call[1]}" if owner else call[1]
                said = comment[: comment.index("")] if "" in comment else comment
                found.append(Call(name, first_sentence(said), *clauses.values()))
            comment = []
    return found


def ends(line: str) -> bool:
    """Whether a line ends a call's contract: with its body, or as a trait's method has none."""
    return bool(BODY.match(line)) or line.endswith((";", "{", "{}"))


def calls_of(crate: str) -> list[Call]:
    """Returns the public calls of a crate, by file and in the file's order."""
    return [it for file in sorted((CRATES / crate / "src").rglob("*.rt")) for it in calls_in(file)]


def libraries() -> list[str]:
    """Returns the crates of the program, lowest first, and the program itself."""
    from tests.crates import crates_below

    return [*crates_below()["xbrl_json_cli"], "xbrl_json_cli"]


def table(crate: str) -> str:
    """Returns the table of a crate's public calls."""
    rows = [f"### {crate}", "", "| Call | What it does | Asks | Promises |", "|---|---|---|---|"]
    for it in calls_of(crate):
        asks, promises = ", ".join(it.needs), ", ".join(it.promises)
        rows.append(f"| `{it.name}` | {it.does} | {asks} | {promises} |")
    return "\n".join(rows) + "\n"


def counts() -> str:
    """Returns the counts of docs/PROVED.md: one line for each crate, and the sum."""
    rows = ["| Crate | Public calls | With a clause | Clauses |", "|---|---|---|---|"]
    sums = [0, 0, 0]
    for crate in libraries():
        calls = calls_of(crate)
        promises = [len(it.promises) for it in calls]
        here = len(calls), sum(it > 0 for it in promises), sum(promises)
        sums = [a + b for a, b in zip(sums, here)]
        rows.append(f"| `{crate}` | {here[0]} | {here[1]} | {here[2]} |")
    rows.append(f"| all | {sums[0]} | {sums[1]} | {sums[2]} |")
    return "\n".join(rows) + "\n"


def unknown_names(page: str) -> list[str]:
    """Returns the names in code font of the checked tables that their crates do not have."""
    found, names = [], {it.name for it in CRATES.iterdir()}
    for section in re.split(r"\n##+ ", page):
        if not section.startswith(CHECKED):
            continue
        for crates, rest in ROW.findall(section):
            words: set[str] = set()
            for crate in CODE.findall(crates):
                files = (it for kind in ("*.rt", "*.antt") for it in (CRATES / crate).rglob(kind))
                words |= {it for file in files for it in re.findall(r"\w+", file.read_text())}
            for code in CODE.findall(rest):
                if not re.search(r"[/-]", code):
                    missing = set(re.findall(r"[A-Za-z_]\w*", code)) - words - names - FOREIGN
                    found += [f"{crates}: {it}" for it in sorted(missing)]
    return found


def unknown_clauses(page: str) -> list[str]:
    """Returns the clauses that a page quotes and no source has. Lines may be broken elsewhere."""
    sources = (it.read_text(encoding="utf-8") for it in sorted(CRATES.glob("*/src/**/*.rt")))
    text = "".join("".join(sources).split())
    quoted = re.findall(r"^    ensures .*(?:\n    +\S.*)*", page, re.M)
    return [it for it in quoted if "".join(it.split()) not in text] or ([] if quoted else ["none"])


def unknown_definitions(page: str) -> list[str]:
    """Returns the definitions without a worked case that no crate has any more."""
    section = next((it for it in re.split(r"\n##+ ", page) if it.startswith(UNTRIED)), "")
    files = (it.read_text(encoding="utf-8") for it in sorted(CRATES.glob("*/specs/**/*.antt")))
    words = {word for text in files for word in re.findall(r"\w+", text)}
    named = [it for it in CODE.findall(section) if re.fullmatch(r"\w+", it)]
    return [it for it in named if it not in words and not (CRATES / it).is_dir()]


def unknown_files(page: str) -> list[str]:
    """Returns the files of crates that a page names and that are not there. Within an item or a row
    a name may be relative: to the crate, as `src/a.rt`, or to the folder before it, as `A.antt`."""
    found, crate, folder = [], Path(), Path()
    for line in page.splitlines():
        if not line.startswith("  "):
            crate = folder = Path()
        for code in CODE.findall(line):
            at, _, name = code.rpartition("/")
            if (CRATES / at.split("/")[0]).is_dir() and at:
                crate = CRATES / at.split("/")[0]
                folder = CRATES / at
            elif at.split("/")[0] in ("src", "specs"):
                folder = crate / at
            elif at or not name.endswith((".antt", ".rt")):
                continue
            stem, dot, kind = name.partition(".")
            names = [f"{it}{dot}{kind}" for it in stem.strip("{}").split(",")]
            found += [str(folder / it) for it in names if crate.name and not (folder / it).exists()]
    return found


def wrong_bodies(crate: str, *folders: str) -> int:
    """Returns how many wrong bodies are in these folders of a crate."""
    return sum(1 for folder in folders for _ in (CRATES / crate / folder).glob("*.edit"))


def wrong_counts(page: str) -> list[str]:
    """Returns the crates whose wrong bodies a page counts wrongly or not at all."""
    told = {crate: (int(a), int(b)) for crate, a, b in COUNTED.findall(page)}
    there = {
        it.name: (wrong_bodies(it.name, "must-fail", "gate"), wrong_bodies(it.name, "audit"))
        for it in CRATES.iterdir()
    }
    there = {crate: count for crate, count in there.items() if any(count)}
    return sorted(it for it in {*told, *there} if told.get(it) != there.get(it))


def main() -> None:
    """Prints tables, writes the counts, or prints what differs and exits with 1."""
    asked = sys.argv[1:]
    page = PAGE.read_text(encoding="utf-8")
    if asked in (["--write"], ["--check"]):
        head, rest = page.split(BEGIN)
        old, tail = rest.split(END)
        if asked == ["--write"]:
            PAGE.write_text(head + BEGIN + counts() + END + tail, encoding="utf-8")
            return
        wrong = [f"not in its crates: {it}" for it in unknown_names(page)]
        wrong += [f"not in a source: {it}" for it in unknown_clauses(page)]
        wrong += [f"not a definition: {it}" for it in unknown_definitions(page)]
        files = unknown_files(ARCHITECTURE.read_text(encoding="utf-8"))
        wrong += [f"docs/ARCHITECTURE.md: not there: {it}" for it in files]
        crates = wrong_counts(AUDIT.read_text(encoding="utf-8"))
        wrong += [f"docs/AUDIT.md: not the wrong bodies of {it}" for it in crates]
        wrong += [] if old == counts() else ["the counts are of other sources: --write"]
        for it in wrong:
            print(it)
        calls = sum(len(calls_of(it)) for it in libraries())
        print(f"docs/PROVED.md: {calls} calls as they must be, {len(wrong)} not")
        sys.exit(1 if wrong else 0)
    if not asked:
        sys.exit(__doc__)
    for crate in asked:
        if not (CRATES / crate / "src").is_dir():
            sys.exit(f"crates/{crate} is not there")
        print(table(crate))


if __name__ == "__main__":
    main()
