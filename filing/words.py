"""The command line."""

from __future__ import annotations

from argparse import Action, ArgumentError, ArgumentParser, Namespace
from dataclasses import dataclass
from functools import lru_cache
from typing import Any, FrozenSet, Iterator, List, Optional, Sequence, Set, Tuple

from .refusals import WORDS, Refusal
from .zip_entries import DEFAULT_LIMIT

USAGE = "xbrl-filing REPORT --taxonomy PACKAGE.. [--out FILE] [OPTIONS]"
HELP = f"""\
Converts a filing to xBRL-JSON: a report package and its taxonomy packages.

    {USAGE}
    xbrl-filing REPORT --taxonomy PACKAGE.. --prepare FOLDER
    xbrl-filing REPORT --taxonomy PACKAGE.. --parameters
    xbrl-filing REPORT.. --taxonomy PACKAGE.. --into FOLDER [OPTIONS]

It makes two plain files, a metadata file without `extends` and a types table,
and starts xbrl-json on them. It is not proved: the proof of xbrl-json begins
at the two plain files, which anyone can read.

REPORT                  a report package (a ZIP or an unpacked folder), or a
                        metadata file
--taxonomy PACKAGE..    the taxonomy packages (ZIPs, folders, or a ZIP of ZIPs),
                        up to the next option
--prepare FOLDER        only make FOLDER, which is new or empty: meta.json,
                        types.csv, and the report's tables and parameters
--parameters            only print each parameter as CSV: its value, and where
                        the metadata refers to it
--page FILE             write a page for a browser: the outcome, the tables, and
                        each fault with the rows round it; with --into, FILE
                        lists the reports, and each has NAME.html
--summary FILE          write what was filed as JSON: rows and facts by table,
                        what has no unit, parameters, digests; with --into, FILE
                        has all reports, and each has NAME.summary.json
--cache FOLDER          keep there what was read from the taxonomy, for the
                        next filing of it
--unpacked-limit BYTES  how much one ZIP may unpack to ({DEFAULT_LIMIT})
--into FOLDER           convert many reports, each in a process of its own:
                        NAME.json, NAME.faults.csv, NAME.log and NAME.outcome
--jobs N                with --into: how many reports at a time; as many as
                        there are processors
--outcomes FILE         with --into: a line for each report as it ends, as CSV,
                        or as JSON lines if FILE ends with .jsonl
--again                 with --into: also convert what was done before
--time-limit SECONDS    with --into: end a report that takes longer
--memory-limit BYTES    with --into: how much each process of a report may use
-h, --help              print help
-V, --version           print the version of xbrl-json

All other options go to xbrl-json: --out FILE, --whole, --workers N, --ring K,
--layout LAYOUT, --explain, --no-explain, --faults FILE, --most-faults N,
--counts FILE, --progress (see `xbrl-json --help`). FILE of --faults gets every
fault of every row, or why the filing is refused before its rows are read.
Nothing is ever downloaded: a URL that no package has is an error. Inputs are
not changed.

Status 0: the document is written, or there is no fault. 1: the report or its
taxonomy is wrong, or xbrl-json found a fault. 2: the command line is wrong.
3: a file does not exist, or cannot be read or written. 75: with --into, some
reports are to be tried again, by the same command. The variable XBRL_JSON may
name another xbrl-json.
"""
# The options of xbrl-json.
OUTPUTS = ("--out", "--faults", "--counts")
WITH_VALUE = (*OUTPUTS, "--most-faults", "--workers", "--ring", "--layout")
WITHOUT_VALUE = ("--progress", "--explain", "--no-explain", "--whole")
TAXONOMY, LIMIT = "--taxonomy", "--unpacked-limit"
OWN_WITH_VALUE = ("--prepare", "--cache", "--page", "--summary")
PARAMETERS = "--parameters"
# The options that are each a run of its own, in which nothing is converted.
RUNS = ("--prepare", PARAMETERS)
INTO = "--into"
AGAIN = "--again"
# The options that mean nothing without `--into`.
ONLY_OF_MANY = ("--jobs", "--outcomes", "--time-limit", "--memory-limit", AGAIN)
# What is refused, and what to do instead.
INSTEAD = {
    **{name: f"{name} is for many reports, which {INTO} FOLDER converts" for name in ONLY_OF_MANY},
    "--every-fault": "--every-fault is gone: --faults FILE has every fault of every row",
    "--types": "--types is made from the taxonomy, and a plain report is one for xbrl-json",
}
# The options that ask for something instead of a run, and what.
ASKING = {"-h": "--help", "--help": "--help", "-V": "--version", "--version": "--version"}
HIDDEN = "\0"  # before a word that argparse must not take as an option; no word has it


@dataclass(frozen=True)
class Settings:
    """The options of the command line. `rest` goes to xbrl-json unchanged."""

    report: str = ""
    taxonomy: Tuple[str, ...] = ()
    prepare: Optional[str] = None
    parameters: bool = False
    cache: Optional[str] = None
    page: Optional[str] = None
    summary: Optional[str] = None
    limit: int = DEFAULT_LIMIT
    rest: Tuple[str, ...] = ()
    unknown: Tuple[str, ...] = ()  # the options of `rest` that only another xbrl-json may have
    given: FrozenSet[str] = frozenset()  # the options of this program that are given

    def outputs(self, names: Sequence[str] = OUTPUTS) -> Iterator[str]:
        """Yield the files that xbrl-json is told to write, by these options."""
        for word, after in zip(self.rest, (*self.rest[1:], "")):
            name, equals, value = word.partition("=")
            output = value if equals else after
            if name in names and output:
                yield output


def misuse(what: str) -> Refusal:
    """Return the refusal of a command line."""
    return Refusal(WORDS, "", f"{what}; try --help")


def asked(words: List[str]) -> Optional[str]:
    """Return which of `--help` and `--version` the command line asks for first, or None.

    The value of an option does not count.
    """
    left = iter(words)
    for word in left:
        if word in ASKING:
            return ASKING[word]
        if word in (*WITH_VALUE, *OWN_WITH_VALUE, LIMIT, "--types"):
            next(left, None)
    return None


class Parser(ArgumentParser):
    """Reads words of which only some are its own.

    The others are given back in their order. A word with one hyphen is a plain word here.
    """

    def __init__(self, with_value: Sequence[str] = ()) -> None:
        """Take the options of others that are left together with the next word."""
        super().__init__("xbrl-filing", add_help=False, allow_abbrev=False, exit_on_error=False)
        self.own: Set[str] = set()
        self.with_value = with_value

    def option(self, name: str, **more: Any) -> None:
        """Add an option of its own."""
        self.own.add(name)
        self.add_argument(name, **more)

    def read(self, words: Sequence[str]) -> Tuple[Namespace, List[List[str]]]:
        """Return the values of its options, and the words that are left."""
        given: List[List[str]] = []  # the words of others, which argparse gets as numbers
        coded: List[str] = []
        waiting = list(words)[::-1]
        while waiting:
            word = waiting.pop()
            name, equals, value = word.partition("=")
            if not word.startswith("--"):
                coded.append(HIDDEN + word if word.startswith("-") else word)
            elif name in self.own:
                has_more = name == TAXONOMY and equals  # more packages may follow
                coded += [name, HIDDEN + value] if has_more else [word]
            else:
                coded.append(f"--{HIDDEN}{len(given)}")
                has_value = bool(waiting) and word in self.with_value
                given.append([word, waiting.pop()] if has_value else [word])
        try:
            found, left = self.parse_known_args(coded)
        except ArgumentError as error:  # all options take words as they come, so it has a value
            raise misuse(f"{error.argument_name} has no value") from None
        front = f"--{HIDDEN}"
        return found, [
            given[int(word[len(front) :])] if word.startswith(front) else [shown(word)] for word in left
        ]


def shown(word: str) -> str:
    """Return a word as it was given."""
    return word.replace(HIDDEN, "")


class Taken(Action):
    """Takes an option by its name and its values. Refuses one with status 2."""

    def __call__(
        self,
        parser: ArgumentParser,
        namespace: Namespace,
        values: Any,
        option_string: Optional[str] = None,
    ) -> None:
        """Take an option. Without a value, `values` is empty or None."""
        self.take(namespace, str(option_string), values or "")

    def take(self, namespace: Namespace, name: str, values: Sequence[str]) -> None:
        """Set what the option is for."""
        raise NotImplementedError


class Once(Taken):
    """Takes the value of an option, which is given once at most."""

    twice = "{} stands twice"

    def take(self, namespace: Namespace, name: str, values: Sequence[str]) -> None:
        """Take a value. Without one it is the empty text."""
        value = value_of(name, values)
        if getattr(namespace, self.dest) is not None:
            raise misuse(self.twice.format(name))
        setattr(namespace, self.dest, value)


class Packages(Taken):
    """Takes the packages of one --taxonomy."""

    def take(self, namespace: Namespace, name: str, values: Sequence[str]) -> None:
        """Add the packages to those of the options before."""
        packages = list(map(shown, values))
        if not packages or "" in packages:
            raise misuse(f"{name} names no package")
        namespace.taxonomy = [*(namespace.taxonomy or ()), *packages]


class Limit(Taken):
    """Takes a number of bytes. The last one counts."""

    def take(self, namespace: Namespace, name: str, values: Sequence[str]) -> None:
        """Take a value. Without one it is the empty text."""
        value = value_of(name, values)
        if not (value.isascii() and value.isdigit() and len(value) < 20):
            raise misuse(f"{name} is a number of bytes, and '{value}' is none")
        namespace.limit = int(value)


class Instead(Taken):
    """Refuses an option, and says what to do instead."""

    def take(self, namespace: Namespace, name: str, values: Sequence[str]) -> None:
        """Refuse it."""
        raise misuse(INSTEAD[name])


def value_of(name: str, values: Sequence[str]) -> str:
    """Return the value of an option that needs one."""
    value = shown("".join(values))
    if value == "" or value in ASKING:
        raise misuse(f"{name} needs a value")
    return value


@lru_cache(maxsize=1)
def parser_of_words() -> Parser:
    """Return what reads the command line of one report. A run over many reports needs one."""
    parser = Parser(WITH_VALUE)
    parser.add_argument("report", nargs="?")
    parser.option(TAXONOMY, nargs="*", action=Packages)
    for name in OWN_WITH_VALUE:
        parser.option(name, nargs="?", action=Once)
    parser.option(PARAMETERS, action="store_true", default=None)
    parser.option(LIMIT, nargs="?", dest="limit", action=Limit)
    for name in INSTEAD:
        parser.option(name, nargs="?", action=Instead)
    return parser


def read_words(words: Sequence[str]) -> Settings:
    """Return the settings of a command line. Refuse a wrong one with status 2."""
    found, left = parser_of_words().read(words)
    if found.report == "":
        raise misuse("'' is one word too many")
    refuse_more(left)
    own = (TAXONOMY, LIMIT, *OWN_WITH_VALUE, PARAMETERS)
    given = frozenset(name for name in own if getattr(found, dest_of(name)) is not None)
    return checked(
        Settings(
            report=shown(found.report or ""),
            taxonomy=tuple(found.taxonomy or ()),
            prepare=found.prepare,
            parameters=bool(found.parameters),
            cache=found.cache,
            page=found.page,
            summary=found.summary,
            limit=DEFAULT_LIMIT if found.limit is None else found.limit,
            rest=tuple(word for words in left for word in words),
            unknown=tuple(unknown_options(left)),
            given=given,
        )
    )


def dest_of(name: str) -> str:
    """Return the name under which argparse keeps an option."""
    return "limit" if name == LIMIT else name[2:].replace("-", "_")


def refuse_more(left: Sequence[Sequence[str]]) -> None:
    """Refuse a second REPORT. An option that is not known may have a value."""
    may_have_one = False
    for word, *_ in left:
        is_option = word.startswith("--")
        if not is_option and not may_have_one:
            raise misuse(f"'{word}' is one word too many")
        known = word in WITHOUT_VALUE or word in WITH_VALUE
        may_have_one = is_option and not known and "=" not in word


def unknown_options(left: Sequence[Sequence[str]]) -> Iterator[str]:
    """Yield the options that this program does not know."""
    for word, *_ in left:
        name = word.partition("=")[0]
        if name[:2] == "--" != name and name not in (*WITH_VALUE, *WITHOUT_VALUE):
            yield name


def checked(settings: Settings) -> Settings:
    """Return settings, but refuse options that mean nothing together."""
    if not settings.report:
        order = ": all words behind --taxonomy are packages, so it stands before"
        raise misuse(f"there is no REPORT{order if settings.taxonomy else ''}")
    runs = [name for name in RUNS if name in settings.given]
    if len(runs) > 1:
        raise misuse(f"{runs[0]} and {runs[1]} stand together, and each is a run of its own")
    unused = list(settings.rest[:1])
    if settings.page is not None:
        unused.insert(0, "--page")
    if settings.summary is not None:
        unused.insert(0, "--summary")
    if runs and unused:
        raise misuse(f"with {runs[0]} nothing is converted, so '{unused[0]}' means nothing")
    return settings
