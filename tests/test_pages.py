"""Compares the man pages, the completions and CHANGELOG.md with `--help` and `--version`.

A man page must have each argument, option and status of `--help`, and no other: with its text, the
name of its value, its default and its possible values. The page of `xbrl-filing` is compared with
the `--help` of `xbrl-filing`. The completions for bash, zsh and fish must offer the same options,
their possible values, and files for an option that takes a file. They are run in their shells;
without zsh and fish these tests are left out.
"""
from __future__ import annotations

import os
import pty
import re
import select
import shutil
import subprocess
import sys
import unittest
from pathlib import Path
from typing import NamedTuple

from tests.harness import PATIENCE, PROGRAM, TOP, TestCase

FOLDER = TOP / "dist/completions"
BASH = """. xbrl-json.bash
complete -p xbrl-json >/dev/null || exit
cd -- "$1"; shift; COMP_WORDS=("$@"); COMP_CWORD=$(($# - 1)); _xbrl_json
printf '%s\\n' "${COMPREPLY[@]}"
"""


class Option(NamedTuple):
    """An argument or option of --help."""

    short: str
    name: str
    value: str
    text: str
    default: str
    values: list[str]

    def words(self) -> list[str]:
        """Returns the forms in which it can be given."""
        return [it for it in (self.short, self.name) if it]


class Help(NamedTuple):
    """The content of --help."""

    usage: str
    meta: Option
    options: list[Option]
    statuses: dict[str, str]


def option_in(line: str) -> Option:
    """Reads a line of --help.

    For example `  -h, --help  Print help` or
    `  --layout <L>  How [default: a] [possible values: a, b]`.
    """
    found = re.fullmatch(r"  +(?:(-\w), )?(--[\w-]+)?(?: ?<(\w+)>)? +(\S.*)", line)
    if not found:
        raise ValueError(f"--help has a line that this script does not read: {line}")
    short, name, value, text = (it or "" for it in found.groups())
    told = dict(re.findall(r" \[([\w ]+): ([^]]*)\]", text))
    values = told.get("possible values", "")
    default, text = told.get("default", ""), re.sub(r" \[[^]]*\]", "", text)
    return Option(short, name, value, text, default, values.split(", ") if values else [])


def joined(text: str) -> str:
    """Returns a --help without the line breaks within the text of an option."""
    return re.sub(r"\n {12,}", " ", text)


def help_in(text: str) -> Help:
    """Reads the --help of xbrl-json, section by section."""
    text = joined(text)
    parts = dict(re.findall(r"^(\w[\w ]*):(.*?)(?=^\w[\w ]*:|\Z)", text, re.M | re.S))
    lines = {
        name: [it for it in part.splitlines() if it.startswith(" ") and it.strip()]
        for name, part in parts.items()
    }
    ends = re.sub(r"\n {3,}", " ", parts["Exit status"]).split("\n")
    pairs = [it.split(None, 1) for it in ends if it.strip()]
    statuses = {status: words for status, words in pairs}
    meta, options = option_in(lines["Arguments"][0]), [option_in(it) for it in lines["Options"]]
    return Help(parts["Usage"].strip(), meta, options, statuses)


def help_of_filings(text: str) -> Help:
    """Reads the --help of xbrl-filing.

    It has lines `-h, --help  text` and `REPORT  text`, and the statuses in one sentence each.
    """
    text = joined(text)
    usage = "\n".join(re.findall(r"^ +(xbrl-filing .*)", text, re.M))
    line = r"^(?:(-\w), )?(--[\w-]+)?(?: ?\b([A-Z]+(?:\.\.)?))?  +(\S.*)"
    found = [
        Option(short, name, value, words[0].upper() + words[1:].replace("`", ""), "", [])
        for short, name, value, words in re.findall(line, text, re.M)
        if name or value
    ]
    said = " ".join(text[text.index("\nStatus 0: ") :].split())
    return Help(usage, found[0], found[1:], dict(re.findall(r"(\d+): (.*?)\.(?= |$)", said)))


def plain(text: str) -> str:
    """Returns a text of a man page without its markup."""
    return re.sub(r"\\f[BIR]", "", text).replace("\\-", "-")


def by_bash(folder: Path, *words: str) -> list[str]:
    """Returns what bash offers for the last argument."""
    command = ["bash", "--norc", "-c", BASH, "bash", str(folder), "xbrl-json", *words]
    done = subprocess.run(command, cwd=FOLDER, capture_output=True, text=True, timeout=PATIENCE)
    return sorted(done.stdout.split()) if done.returncode == 0 else [done.stderr]


def by_fish(folder: Path, *words: str) -> list[str]:
    """Returns what fish offers for the last argument."""
    line = "source $argv[1]; cd $argv[2]; complete -C $argv[3]"
    whole = " ".join(("xbrl-json", *words))
    command = ["fish", "--no-config", "-c", line, str(FOLDER / "xbrl-json.fish"), str(folder)]
    home = {**os.environ, "HOME": str(folder)}
    done = subprocess.run([*command, whole], capture_output=True, text=True, env=home)
    return sorted(it.split("\t")[0] for it in done.stdout.splitlines())


def printed(*command: str) -> str:
    """Returns what a command prints."""
    none = subprocess.DEVNULL
    done = subprocess.run(command, stdin=none, capture_output=True, text=True, timeout=PATIENCE)
    return done.stdout


def version() -> str:
    """Returns the version of the program."""
    return printed(PROGRAM, "--version").split()[1]


class TestVersion(unittest.TestCase):
    """Compares --version."""

    def test_version(self) -> None:
        """Has the version and the kit's line."""
        said = printed(PROGRAM, "--version")
        kit = r"rattle-kit-\w+ logic [0-9a-f]{16}"
        self.assertRegex(said, rf"\Axbrl-json \d+\.\d+\.\d+ \(proved with ({kit})\)\n\Z")

    def test_changelog(self) -> None:
        """Begins with this version."""
        changes = re.findall(r"^## ([\d.]+)", (TOP / "CHANGELOG.md").read_text(), re.M)
        self.assertEqual(changes[:1], [version()])


class TestManPages(unittest.TestCase):
    """Compares the man pages with --help."""

    def is_of(self, program: str, other: str, said: Help) -> None:
        """Compares the page of a program, which must name the other program."""
        page = (TOP / f"docs/{program}.1").read_text()
        parts = re.findall(r"^\.SH (.*)\n((?:(?!\.SH).*\n)*)", page, re.M)
        sections = {name: plain(part) for name, part in parts}
        head = re.findall(r'^\.TH (\S+) 1 "[^"]*" "xbrl\\-json ([\d.]+)"', page, re.M)
        self.assertEqual(head, [(program.upper().replace("-", "\\-"), version())])
        usage = sections["SYNOPSIS"].replace("\n.br", "").strip()
        self.assertEqual(usage, re.sub("[<>]", "", said.usage))
        entries = dict(re.findall(r"^\.TP\n(.*)\n((?:[^.].*\n)*)", sections["OPTIONS"], re.M))
        wanted = {
            " ".join(filter(None, (", ".join(it.words()), it.value))): it
            for it in [said.meta, *said.options]
        }
        self.assertEqual(list(entries), list(wanted))
        for name, it in wanted.items():
            with self.subTest(option=name):
                text = entries[name].replace("\n", " ")
                self.assertTrue(text.startswith(f"{it.text}. "), (text, it.text))
                if it.default:
                    self.assertIn(f"default is {it.default}.", text)
                for value in it.values:
                    self.assertIn(value, text.split(".")[1])
        statuses = re.findall(r"^\.TP\n(\d+)\n(.*)\n", sections["EXIT STATUS"], re.M)
        self.assertEqual(dict(statuses), said.statuses)
        self.assertIn(f"{other}(1), ", sections.get("SEE ALSO", ""))

    def test_xbrl_json(self) -> None:
        """Compares docs/xbrl-json.1."""
        self.is_of("xbrl-json", "xbrl-filing", help_in(printed(PROGRAM, "--help")))

    def test_xbrl_filing(self) -> None:
        """Compares docs/xbrl-filing.1."""
        said = help_of_filings(printed(sys.executable, str(TOP / "xbrl-filing"), "--help"))
        self.is_of("xbrl-filing", "xbrl-json", said)


class CompletionTest(TestCase):
    """A test of completions, in a folder with files to offer."""

    def setUp(self) -> None:
        """Makes the files, and reads --help."""
        super().setUp()
        (self.folder / "sub").mkdir()
        self.write({"meta.json": "", "types.csv": ""})
        self.said = help_in(printed(PROGRAM, "--help"))


class TestBash(CompletionTest):
    """Runs the completions of bash."""

    def offers(self, wanted: list[str], *words: str) -> None:
        """Checks what bash offers for the last argument."""
        with self.subTest(words=words):
            self.assertEqual(by_bash(self.folder, *words), wanted)

    def test_options(self) -> None:
        """Offers the options, and files for META."""
        self.offers(sorted(word for it in self.said.options for word in it.words()), "-")
        self.offers(["meta.json", "sub", "types.csv"], "")

    def test_values(self) -> None:
        """Offers the values of each option, files, or META after an option without a value."""
        for it in self.said.options:
            files = ["types.csv"] if it.value == "FILE" else []
            if it.values:
                self.offers(sorted(it.values), it.name, "")
                self.offers(sorted(it.values), it.name, "=")
            elif it.value:
                self.offers([], it.name, "-")
                self.offers(files, it.name, "t")
                self.offers(files, it.name, "=", "t")
            else:
                self.offers(["meta.json"], it.name, "m")


class TestFish(CompletionTest):
    """Reads and runs the completions of fish."""

    def test_text(self) -> None:
        """Has the options with their texts and values."""
        line = r"^complete -c xbrl-json (?:-s (\w) )?-l ([\w-]+)(.*) -d '([^']*)'$"
        found = []
        text = (FOLDER / "xbrl-json.fish").read_text()
        for short, name, more, words in re.findall(line, text, re.M):
            values = re.findall(r"[\w-]+", "".join(re.findall(r"-a '(.*)'", more)))
            short = f"-{short}" if short else ""
            found.append(Option(short, f"--{name}", "", words, "", values))
        self.assertEqual(found, [it._replace(value="", default="") for it in self.said.options])

    @unittest.skipUnless(shutil.which("fish"), "fish is not installed")
    def test_offers(self) -> None:
        """Offers the options, META, values and files."""
        options = sorted(it.name for it in self.said.options)
        self.assertEqual(by_fish(self.folder, "--"), options)
        self.assertEqual(by_fish(self.folder, "m"), ["meta.json"])
        for it in self.said.options:
            with self.subTest(option=it.name):
                if it.values:
                    values = sorted(it.values)
                    self.assertEqual(by_fish(self.folder, it.name, ""), values)
                    whole = by_fish(self.folder, f"{it.name}=")
                    self.assertEqual([word.split("=")[1] for word in whole], values)
                elif it.value:
                    wanted = ["types.csv"] if it.value == "FILE" else []
                    self.assertEqual(by_fish(self.folder, it.name, "t"), wanted)


class Zsh:
    """A zsh on a terminal where `show` prints its arguments and completes as xbrl-json does."""

    def __init__(self, folder: Path) -> None:
        """Starts it in a folder."""
        setup = "PS1= PS2= RPS1=; unsetopt zle_bracketed_paste prompt_sp; "
        setup += 'show() { print -r -- "<$*>" }; '
        setup += f"fpath=({FOLDER} $fpath); autoload -Uz compinit; compinit -D -u; "
        setup += "compdef _xbrl-json show; show ready\n"
        self.pid, self.mine = pty.fork()
        if self.pid == 0:
            os.chdir(folder)
            told = {"PATH": os.environ["PATH"], "HOME": str(folder), "TERM": "dumb"}
            os.execvpe("zsh", ["zsh", "-f", "-i"], told)
        self.said = ""
        os.write(self.mine, setup.encode())
        self.printed()

    def printed(self) -> str:
        """Returns the next line that `show` prints; after PATIENCE, all that was printed."""
        while not (found := re.search(r"^<(.*)>\r?$", self.said, re.M)):
            if not select.select([self.mine], [], [], PATIENCE)[0]:
                return self.said
            self.said += os.read(self.mine, 65536).decode(errors="replace")
        self.said = self.said[found.end() :]
        return found.group(1)

    def shown(self, line: str) -> str:
        """Returns a line as completed at its tabs."""
        os.write(self.mine, f"show {line}\n".encode())
        return self.printed().strip()

    def end(self) -> None:
        """Ends it."""
        os.write(self.mine, b"exit\n")
        os.close(self.mine)
        os.waitpid(self.pid, 0)


class TestZsh(CompletionTest):
    """Reads and runs the completions of zsh."""

    def test_text(self) -> None:
        """Has the options with their texts and values, and META."""
        text = (FOLDER / "_xbrl-json").read_text()
        line = r"^ +'(?:\(- \*\)'\{(-\w),)?(--[\w-]+)(=|\}')?\[(.*?)\](?::(\w+):(.*?))?' ?\\?$"
        found = []
        for short, name, _, words, value, action in re.findall(line, text, re.M):
            values = re.findall(r"[\w-]+", action) if action.startswith("(") else []
            found.append(Option(short, name, value, words.replace("\\:", ":"), "", values))
        self.assertEqual(found, [it._replace(default="") for it in self.said.options])
        self.assertIn(f"'1:{self.said.meta.value}:_files'", text)

    @unittest.skipUnless(shutil.which("zsh"), "zsh is not installed")
    def test_completes(self) -> None:
        """Completes options, values, files and META."""
        zsh = Zsh(self.folder)
        self.addCleanup(zsh.end)
        cases = {f"{it.name[:-1]}\t": it.name for it in self.said.options}
        for it in self.said.options:
            cases.update({f"{it.name} {value[:2]}\t": f"{it.name} {value}" for value in it.values})
            if it.value == "FILE":
                cases[f"{it.name} typ\t"] = f"{it.name} types.csv"
        cases["met\t --types types.csv"] = "meta.json --types types.csv"
        for line, wanted in cases.items():
            with self.subTest(line=line):
                self.assertEqual(zsh.shown(line), wanted)
