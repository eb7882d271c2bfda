#!/usr/bin/env python3
"""Checks the prose of the repository: documents, comments, docstrings, help texts and commands.

    tests/prose.py              checks the text
    tests/prose.py PROGRAM      also checks the help of PROGRAM and runs the documented commands
    tests/prose.py --self-test  shows that planted faults are found

The text: lines over 100 characters in documents and comments (tables, code and link targets do not
count), lines over 80 in a help text, a README over 150 lines, the dialect that `DIALECT` lists, and
links, headings and documents that do not exist.

The commands are those of README.md and docs/MANUAL.md. There each fenced block has a language:

    console  A line that begins with "$ " is a command and is run. The lines up to the next one are
             its output, standard error included. "..." alone stands for any lines; at the end of a
             line it stands for the rest of it. A command that ends with a backslash goes on in the
             next line, after "> ". A command without output must print nothing and end with
             status 0.
    sh       Not run, because it changes the system or is only a form. Its syntax is checked. A
             script whose second line begins with "# NAME.sh" is saved, for later commands.
    c, python  A program with the library, which tests/library.py runs.
    text     Anything else: a drawing, a line of output, a file.

They run one after another in a scratch folder with `examples/`, `dist/xbrl-json` (PROGRAM), the ZIP
`report.zip` of examples/filing/report, and the ZIP of examples/filing/taxonomy in `taxonomy/`.
`xbrl-json` and `xbrl-filing` are on the PATH.

Each finding is a line `FILE:LINE: what`. The last line is `N passed, M failed`: N counts the checks
of a file and the commands that have no finding, M counts the findings.
"""

from __future__ import annotations

import ast
import io
import os
import re
import shutil
import subprocess
import sys
import tempfile
import tokenize
import zipfile
from functools import lru_cache
from pathlib import Path
from typing import Callable, Dict, FrozenSet, Iterator, List, NamedTuple, Optional, Tuple

TOP = Path(__file__).resolve().parent.parent
WIDEST, WIDEST_HELP, LONGEST_README = 100, 80, 150
WITH_COMMANDS = ("README.md", "docs/MANUAL.md")
LANGUAGES = ("console", "sh", "c", "python", "text")
SKIPPED = {".git", ".ci", "out", "target", "__pycache__", "vendor"}
SECONDS = 600

# What is not written here, and what is written instead. Inline code is cut out before.
DIALECT: List[Tuple[str, str]] = [
    (r"(?:^|[.:;,(] |\b(?:for|of|by|to|since|and|or|so|that) )[Ww]ho \w+s\b", "anyone who"),
    (r"(?:^|[.;] )Of (?!course\b|interest\b)\w+", "the subject first"),
    (r"(?<!there )(?<!There )\b(?:is|are|was|were) no (?!longer\b|more\b|less\b|fewer\b|later\b)\w+",
     "is not"),
    (r"(?<!if there )\b(?:is|are|was|were) none\b(?! of)", "does not exist, is not"),
    (r"\bso many\b(?! (?:\w+ )?that\b)", "a count"),
    (r"\bas many again\b", "twice as many"),
    (r"\bin (?:the )?place of\b", "instead of"),
    (r"(?<![-\w])beside\b(?![(.]\w)", "with, next to"),
    (r"(?<![-\w])behind\b", "after"),
    (r"\bin front\b", "before"),
    (r"(?<![-\w])(?:stands?|stood)\b(?!-)(?! alone\b)", "is in, means"),
    (r"\b(?:is|are) over(?= *[.;,:)]|$)", "ends"),
    (r"\bcomes? (?:twice|once|again)\b", "occurs"),
    (r"\bmemory is short\b", "if memory runs out"),
    (r"\bfor want of\b", "if there is not enough"),
    (r"\bsome \d", "about"),
    (r"(?<!let )(?<!leave )(?<!-)(?<!stand )(?<!stands )\balone\b(?!,? (?:and|or|then)\b)", "only"),
    (r"\bwithout a word\b", "without a warning"),
    (r"\bin silence\b", "silently"),
    (r"\b[Tt]he words (?:are|ask|name|say|give)\b", "the command line"),
    (r", (?:a|an|the) \w+ nothing(?=[.,;])", "repeat the verb"),
    (r"\bas it was\b(?= at\b|[.;,]|$)", "unchanged"),
]
PATTERNS = [(re.compile(pattern), better) for pattern, better in DIALECT]


class Line(NamedTuple):
    """A line of prose, and its number in the file."""

    number: int
    text: str


class Finding(NamedTuple):
    """A place, and what is wrong there."""

    file: str
    line: int
    what: str


# ---- what is prose in a file


def fenced(lines: List[str]) -> List[bool]:
    """Whether each line of a document is in a fenced block, its fences included."""
    inside, found = False, []
    for line in lines:
        fence = line.lstrip().startswith("```")
        found.append(inside or fence)
        inside = inside != fence
    return found


def prose_of_document(text: str) -> List[Line]:
    """The lines of a document. Those of code, fenced or indented, are empty."""
    lines = text.splitlines()
    code = fenced(lines)
    found, blank, indented = [], True, False
    for number, line in enumerate(lines, 1):
        indented = line.startswith("    ") and (blank or indented)
        blank = not line.strip()
        found.append(Line(number, "" if code[number - 1] or indented else line))
    return found


def comments_marked(text: str, mark: str) -> List[Line]:
    """The comments that have lines of their own, without the mark. Other lines are empty."""
    found = []
    for number, line in enumerate(text.splitlines(), 1):
        match = re.match(rf"\s*{mark}[/!]*(?: |$)(.*)", line)
        found.append(Line(number, match.group(1) if match else ""))
    return without_code(found)


def without_code(lines: List[Line]) -> List[Line]:
    """The lines of comments without examples: fenced, or indented by four blanks."""
    code = fenced([it.text for it in lines])
    return [Line(number, "" if inside or text.startswith("    ") else text)
            for (number, text), inside in zip(lines, code)]


def prose_of_python(text: str) -> List[Line]:
    """The comments and the docstrings of a Python file."""
    found: Dict[int, str] = {}
    for token in tokenize.generate_tokens(io.StringIO(text).readline):
        if token.type == tokenize.COMMENT and not token.line[: token.start[1]].strip():
            found[token.start[0]] = token.string.lstrip("#!").strip()
    holders = (ast.Module, ast.ClassDef, ast.FunctionDef, ast.AsyncFunctionDef)
    for node in ast.walk(ast.parse(text)):
        if isinstance(node, holders) and ast.get_docstring(node, clean=False) is not None:
            docstring = node.body[0]
            lines = text.splitlines()[docstring.lineno - 1 : docstring.end_lineno]
            for number, line in enumerate(lines, docstring.lineno):
                found[number] = line[getattr(docstring, "col_offset", 0) :].replace('"""', "")
    count = text.count("\n") + 1
    return without_code([Line(number, found.get(number, "")) for number in range(1, count + 1)])


def prose_of(name: str, text: str) -> List[Line]:
    """The prose of a file, by its name."""
    if name.endswith(".md"):
        return prose_of_document(text)
    if name.endswith(".rt"):
        return comments_marked(text, "//")
    if name.endswith(".antt"):
        return comments_marked(text, "--")
    return prose_of_python(text)


# ---- checks of the text


def too_long(name: str, text: str) -> Iterator[Finding]:
    """Lines of prose that are too long. Tables and the targets of links do not count."""
    whole = text.splitlines()
    for number, prose in prose_of(name, text):
        line = whole[number - 1] if number <= len(whole) else ""
        if name.endswith(".md"):
            line = re.sub(r"\]\([^)]*\)", "]", line)
        if prose and len(line) > WIDEST and not prose.startswith("|"):
            yield Finding(name, number, f"{len(line)} characters, more than {WIDEST}")


def paragraphs(lines: List[Line]) -> Iterator[List[Line]]:
    """Lines that follow one another without an empty one. A row of a table is by itself."""
    found: List[Line] = []
    for line in lines:
        if found and (not line.text.strip() or re.match(r"\s*(?:\||- |\d+\. |#)", line.text)):
            yield found
            found = []
        if line.text.strip():
            found.append(line)
    if found:
        yield found


def plain(text: str) -> str:
    """Prose with inline code, quotes and targets of links blotted out. Its length stays."""
    text = re.sub(r"`[^`]*`", lambda it: "x" * len(it.group()), text)
    text = re.sub(r"\]\([^)]*\)", lambda it: "]" + " " * (len(it.group()) - 1), text)
    return re.sub(r'"[^"]*"', lambda it: "x" * len(it.group()), text)


@lru_cache(maxsize=1)
def sentences(top: Path) -> FrozenSet[str]:
    """The texts of the program, which docs/FAULTS.md has word for word."""
    found = (re.findall(r'"([a-z][^"\\\n]{9,})"', it.read_text())
             for it in top.glob("crates/*/src/**/*.rt"))
    return frozenset(sentence for one in found for sentence in one)


def own_words(name: str, text: str, top: Path) -> List[Line]:
    """The prose of a file without what it quotes: sentences of the program in a table of faults,
    and the table `Not | But` of words to avoid."""
    found, in_table = [], False
    for number, line in prose_of(name, text):
        in_table = line.startswith("|") and (in_table or line.startswith("| Not |"))
        if in_table:
            line = ""
        elif name == "docs/FAULTS.md" and line.startswith("|"):
            cells = line.split(" | ")
            line = " | ".join("" if it.strip(" |") in sentences(top) else it for it in cells)
        found.append(Line(number, line))
    return found


def in_dialect(name: str, text: str, top: Path) -> Iterator[Finding]:
    """Words of the dialect, also those that are broken between lines."""
    for paragraph in paragraphs(own_words(name, text, top)):
        numbers: List[int] = []
        joined = ""
        for number, line in paragraph:
            part = re.sub(r"^(?:#+|[-*>]|\d+\.)? *(?:\*\*)?", "", line.strip()) + " "
            joined += part
            numbers += [number] * len(part)
        joined = plain(joined)
        for pattern, better in PATTERNS:
            for match in pattern.finditer(joined):
                said = match.group().strip(" .:;,(")
                yield Finding(name, numbers[match.start()], f"'{said}': write {better}")


def slug(heading: str) -> str:
    """The anchor of a heading."""
    text = re.sub(r"\]\([^)]*\)", "", heading).replace("[", "").replace("`", "")
    return re.sub(r"[^\w\- ]", "", text.strip().lower()).replace(" ", "-")


def anchors(path: Path) -> List[str]:
    """The anchors of a document."""
    lines = prose_of_document(path.read_text())
    return [slug(it.text.lstrip("#")) for it in lines if it.text.startswith("#")]


def dead_links(name: str, text: str, top: Path) -> Iterator[Finding]:
    """Links to files and headings that do not exist, and names of documents that do not exist."""
    here = (top / name).parent
    for number, line in prose_of(name, text):
        if name.endswith(".md"):
            for target in re.findall(r"\]\(([^)\s]+)\)", line):
                if re.match(r"\w+:", target):
                    continue
                path, _, anchor = target.partition("#")
                there = here / path if path else top / name
                if not there.exists():
                    yield Finding(name, number, f"{target} does not exist")
                elif anchor and anchor not in anchors(there):
                    yield Finding(name, number, f"{target}: no such heading")
        if name != "CHANGELOG.md":
            for path in re.findall(r"(?<![\w/.(])((?:[\w-]+/)+[\w-]+\.md)\b", line):
                if not (top / path).exists() and not (here / path).exists():
                    yield Finding(name, number, f"{path} does not exist")


def readme_too_long(name: str, text: str) -> Iterator[Finding]:
    """The README, if it is longer than three screens."""
    count = len(text.splitlines())
    if name == "README.md" and count > LONGEST_README:
        yield Finding(name, count, f"{count} lines, more than {LONGEST_README}")


def unmarked_blocks(name: str, text: str) -> Iterator[Finding]:
    """Blocks of code without a language that says whether they are run."""
    if name not in WITH_COMMANDS:
        return
    for number, language, _ in blocks(text):
        if language not in LANGUAGES:
            yield Finding(name, number, f"a block of '{language}', not {', '.join(LANGUAGES)}")


def files(top: Path) -> Iterator[str]:
    """The names of all files with prose, in order."""
    for folder, names, found in os.walk(top):
        names[:] = sorted(set(names) - SKIPPED)
        for file in sorted(found):
            path = (Path(folder) / file).relative_to(top).as_posix()
            if file.endswith((".md", ".py", ".antt", ".rt")) or path == "xbrl-filing":
                yield path


def text_findings(top: Path) -> Tuple[int, List[Finding]]:
    """How many checks of the text passed, and the findings of the others."""
    checks: List[Callable[[str, str], Iterator[Finding]]] = [
        too_long,
        lambda name, text: in_dialect(name, text, top),
        lambda name, text: dead_links(name, text, top),
        readme_too_long,
        unmarked_blocks,
    ]
    passed, findings = 0, []
    for name in files(top):
        text = (top / name).read_text()
        for check in checks:
            found = list(check(name, text))
            findings += found
            passed += not found
    return passed, findings


# ---- help texts


def help_findings(name: str, command: List[str]) -> List[Finding]:
    """Lines of a help text that are too long."""
    done = subprocess.run([*command, "--help"], capture_output=True, text=True, timeout=SECONDS)
    lines = enumerate(done.stdout.splitlines(), 1)
    found = [Finding(name, n, f"{len(it)} characters, more than {WIDEST_HELP}")
             for n, it in lines if len(it) > WIDEST_HELP]
    if done.returncode or not done.stdout:
        found.append(Finding(name, 0, f"status {done.returncode}"))
    return found


# ---- commands


def blocks(text: str) -> Iterator[Tuple[int, str, List[Line]]]:
    """The fenced blocks of a document: the number of its first line, the language, the lines."""
    start, language = 0, ""
    found: List[Line] = []
    for number, line in enumerate(text.splitlines(), 1):
        if line.startswith("```"):
            if start:
                yield start, language, found
                start = 0
            else:
                start, language, found = number, line[3:].strip(), []
        elif start:
            found.append(Line(number, line))


def shown_commands(lines: List[Line]) -> Iterator[Tuple[Line, List[str]]]:
    """The commands of a block, each with its shown output."""
    command: Optional[Line] = None
    output: List[str] = []
    for line in lines:
        if line.text.startswith("> ") and command and command.text.endswith("\\") and not output:
            command = Line(command.number, command.text[:-1] + line.text[2:])
        elif line.text.startswith("$ "):
            if command:
                yield command, output
            command, output = Line(line.number, line.text[2:]), []
        else:
            output.append(line.text)
    if command:
        yield command, output


def is_shown(real: List[str], shown: List[str]) -> bool:
    """Whether the output is the one that is shown, where '...' is what is left out."""
    if not shown:
        return not real
    if shown[0] == "...":
        return any(is_shown(real[n:], shown[1:]) for n in range(len(real) + 1))
    if not real:
        return False
    first = shown[0]
    same = real[0].startswith(first[:-3]) if first.endswith("...") else real[0] == first
    return same and is_shown(real[1:], shown[1:])


def pack(folder: Path, file: Path) -> None:
    """Makes the ZIP of a folder, with the folder at its top."""
    with zipfile.ZipFile(file, "w") as out:
        for path in sorted(folder.rglob("*")):
            if path.is_file():
                out.write(path, f"{folder.name}/{path.relative_to(folder)}")


def make_scratch(folder: Path, program: str, top: Path) -> Dict[str, str]:
    """Fills the folder in which commands are run. Returns their environment."""
    shutil.copytree(TOP / "examples", folder / "examples")
    for name in ("bin", "dist", "taxonomy"):
        (folder / name).mkdir()
    for name in ("bin/xbrl-json", "dist/xbrl-json"):
        (folder / name).symlink_to(program)
    for name in ("bin/xbrl-filing", "xbrl-filing"):
        (folder / name).symlink_to(top / "xbrl-filing")
    pack(TOP / "examples/filing/report", folder / "report.zip")
    pack(TOP / "examples/filing/taxonomy", folder / "taxonomy/harbour.zip")
    return {**os.environ, "PATH": f"{folder}/bin:{os.environ['PATH']}", "XBRL_JSON": program}


def command_finding(name: str, command: Line, shown: List[str], folder: Path,
                    environment: Dict[str, str]) -> Optional[Finding]:
    """Runs a command. Returns what is not as shown."""
    try:
        done = subprocess.run(["bash", "-c", command.text], cwd=folder, env=environment,
                              stdin=subprocess.DEVNULL, stdout=subprocess.PIPE,
                              stderr=subprocess.STDOUT, timeout=SECONDS)
    except subprocess.TimeoutExpired:
        return Finding(name, command.number, f"`{command.text}` does not end")
    real = done.stdout.decode(errors="replace").splitlines()
    if not shown and done.returncode:
        what = f"`{command.text}` ends with status {done.returncode}: {real}"
        return Finding(name, command.number, what)
    if not is_shown(real, shown):
        return Finding(name, command.number, f"`{command.text}` prints {real}")
    return None


def script_finding(name: str, start: int, lines: List[Line], folder: Path) -> Optional[Finding]:
    """Checks the syntax of a block that is not run, and saves it if it is a script with a name."""
    text = "".join(f"{it.text}\n" for it in lines)
    done = subprocess.run(["sh", "-n"], input=text, capture_output=True, text=True)
    if done.returncode:
        return Finding(name, start, f"sh -n: {done.stderr.strip()}")
    found = re.match(r"#!.*\n# ([\w-]+\.sh)\b", text)
    if found:
        (folder / found.group(1)).write_text(text)
        (folder / found.group(1)).chmod(0o755)
    return None


def command_findings(program: str, top: Path) -> Tuple[int, List[Finding]]:
    """How many commands of the documents are as shown, and the findings of the others."""
    passed, findings = 0, []
    for name in WITH_COMMANDS:
        if not (top / name).exists():
            continue
        with tempfile.TemporaryDirectory() as scratch:
            folder = Path(scratch)
            environment = make_scratch(folder, program, top)
            for start, language, lines in blocks((top / name).read_text()):
                found: List[Optional[Finding]] = []
                if language == "sh":
                    found = [script_finding(name, start, lines, folder)]
                elif language == "console":
                    found = [command_finding(name, command, shown, folder, environment)
                             for command, shown in shown_commands(lines)]
                findings += [it for it in found if it]
                passed += found.count(None)
    return passed, findings


# ---- the self test

PLANTED = [
    "Accepted there too, who tests tables by this program would see another answer.",
    "Of the metadata it is a JSON pointer, and a line of a table.",
    "A path that leads outside is no plain path, and the run ends.",
    "The tables stand in the folder of the report.",
    "The new file is written in place\nof the old one.",
    "Each row takes some 50 bytes of memory.",
    "They are allowed under `type2` alone.",
    "The call fails where memory is short.",
    "The first value is gone without a word.",
    "After so many rows the table is refused.",
]
GOOD = [
    "Accepting them would change the answer for anyone who uses this program to check tables.",
    "For the metadata, the place is a JSON pointer.",
    "A path that leads outside is not a plain path. There is no second file.",
    "The tables are in the folder of the report. It has so many rows that the run takes long.",
    "The new file is written instead of the old one. It is no longer needed.",
    "Each row takes about 50 bytes of memory. Of course pages are shared by `so many` rows.",
    "They are allowed only under `type2`.",
    "The call fails if memory runs out, and is over 100 lines long.",
    "The first value is dropped without a warning. See [the first](#planted).",
    "After `count` rows it is refused. It understands stand-alone reports, for users who ask.",
]
FORMS = {
    "document": ("docs/PLANTED.md", "# Planted\n\n{}\n"),
    "Rattle": ("crates/planted/src/lib.rt", "//! {}\n"),
    "definitions": ("crates/planted/specs/Lib.antt", "-- {}\n"),
    "docstring": ("tests/planted.py", '"""{}"""\n'),
}
MARKS = {"document": "\n", "Rattle": "\n//! ", "definitions": "\n-- ", "docstring": "\n"}
STRUCTURE = {
    "a long line of a document": ("docs/PLANTED.md", "word " * 20 + "words\n"),
    "a long comment": ("crates/planted/src/lib.rt", "// " + "word " * 20 + "\n"),
    "a long docstring": ("tests/planted.py", '"""' + "word " * 20 + '"""\n'),
    "a dead link": ("docs/PLANTED.md", "See [this](MISSING.md).\n"),
    "a dead heading": ("docs/PLANTED.md", "# Planted\n\nSee [this](#plants).\n"),
    "a document that does not exist": ("tests/planted.py", "# as docs/MISSING.md has it\n"),
    "a long README": ("README.md", "line\n\n" * 80),
    "a block without a language": ("README.md", "```\nxbrl-json\n```\n"),
}
WRONG_COMMANDS = ["$ echo one\ntwo\n", "$ false\n", "$ echo one\n", "$ printf 'a\\nb\\n'\na\n"]
RIGHT_COMMANDS = [
    "$ echo one\none\n",
    "$ true\n",
    "$ printf 'a\\nb\\nc\\n'\na\n...\nc\n",
    "$ echo a long line\na lo...\n",
    "$ echo a \\\n> b\na b\n",
    "$ ls report.zip taxonomy\n...\nharbour.zip\n",
]


def findings_of(name: str, text: str) -> List[Finding]:
    """The findings in a repository that has only this file."""
    with tempfile.TemporaryDirectory() as folder:
        path = Path(folder, name)
        path.parent.mkdir(parents=True, exist_ok=True)
        path.write_text(text)
        return text_findings(Path(folder))[1]


def command_is_found(block: str) -> bool:
    """Whether a block of commands in the README gives a finding."""
    with tempfile.TemporaryDirectory() as folder:
        Path(folder, "README.md").write_text(f"```console\n{block}```\n")
        return bool(command_findings("/bin/true", Path(folder))[1])


def self_test() -> Iterator[Tuple[str, bool]]:
    """What was planted, and whether it was found, or a good sentence was not."""
    for form, (name, around) in FORMS.items():
        for sentence in PLANTED:
            text = around.format(sentence.replace("\n", MARKS[form]))
            yield f"{form}: {sentence}", len(findings_of(name, text)) == 1
        for sentence in GOOD:
            yield f"{form}: {sentence}", not findings_of(name, around.format(sentence))
    for what, (name, text) in STRUCTURE.items():
        yield what, len(findings_of(name, text)) == 1
    for block in WRONG_COMMANDS:
        yield block, command_is_found(block)
    for block in RIGHT_COMMANDS:
        yield block, not command_is_found(block)
    yield "a wide help", bool(help_findings("wide", ["bash", "-c", "printf '%090d' 1", "--"]))


def main(words: List[str]) -> int:
    """Returns the status: 1 if there are findings."""
    if words == ["--self-test"]:
        seen = list(self_test())
        for what, good in seen:
            if not good:
                print(f"self test: {what}")
        failed = sum(not good for _, good in seen)
        print(f"{len(seen) - failed} passed, {failed} failed")
        return int(failed > 0)
    passed, findings = text_findings(TOP)
    helps = [("xbrl-filing --help", [str(TOP / "xbrl-filing")])]
    if words:
        program = os.path.abspath(words[0])
        helps.append(("xbrl-json --help", [program]))
        more, found = command_findings(program, TOP)
        passed, findings = passed + more, findings + found
    for name, command in helps:
        found = help_findings(name, command)
        passed, findings = passed + (not found), findings + found
    for it in findings:
        print(f"{it.file}:{it.line}: {it.what}")
    print(f"{passed} passed, {len(findings)} failed")
    return int(len(findings) > 0)


if __name__ == "__main__":
    if len(sys.argv) > 2 or sys.argv[1:] == ["--help"]:
        sys.exit(__doc__)
    sys.exit(main(sys.argv[1:]))
