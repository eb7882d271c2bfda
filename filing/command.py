"""The run: from the command line to the two plain files, and on to xbrl-json."""

from __future__ import annotations

import gc
import os
import sys
import time
from contextlib import ExitStack, suppress
from dataclasses import dataclass
from typing import List, NamedTuple, Optional, Tuple

from .batch import run_batch
from .batch_words import is_of_many
from .chain import Chain
from .converter_program import require_counts, require_options, version_of
from .fault_names import name_places
from .filed import filed_of
from .finding import Finder, Found
from .joining import join
from .kept_module import Joined
from .marked_output import asked_for, check_asked
from .metadata import check_parts, merge
from .named_members import with_named_members
from .nested import open_taxonomies
from .origins import Origins
from .outputs import claim_outputs, refuse_outputs
from .packages import Opened, Package, open_package
from .page_lines import KeptLines
from .page_run import write_refusal_page, write_run_page
from .parameter_list import parameter_list
from .prefixes import Renaming, lost_prefixes
from .prepared import META, TYPES, Files, Written, move_into, write_files
from .progress import Progress
from .refusals import FILES, WRONG, Refusal, cannot_write, lets_through, printable
from .report import find_report, report_by_itself
from .refused_faults import record_refusal
from .run_notes import RunNotes
from .stopping import (
    Stopped,
    Stopping,
    end_by_signal,
    run_program,
    temporary_folder,
    temporary_place,
)
from .summary import CONVERTED, REFUSED, Summary, is_shown, table_lines, write_refusal_summary
from .words import HELP, Settings, asked, read_words

NAME = "xbrl-filing"
NO_MEMORY = "there is not enough memory"
# How many new objects Python looks for garbage after. Its own 700 cost a tenth of the time of a
# large module, whose values are all kept.
NEW_OBJECTS = 50_000


def main(words: List[str], program: str, opened: Optional[Opened] = None) -> int:
    """Run the command, and return the status. `program` is the path of xbrl-json.

    A run over many reports opens the packages of the taxonomy once, and gives them.
    """
    progress, stopping = Progress(), Stopping()
    gc.set_threshold(NEW_OBJECTS)
    try:
        stopping.heed()
        status, line = attempt(words, program, progress, stopping, opened)
        progress.clear()
        if line:
            tell(f"{NAME}: {printable(line)}")
        stopping.heed_no_more()
        return status
    except Stopped as stopped:
        stopping.clear()
        progress.clear()
        end_by_signal(stopped.number)
        return 128 + stopped.number


def attempt(
    words: List[str],
    program: str,
    progress: Progress,
    stopping: Stopping,
    opened: Optional[Opened] = None,
) -> Tuple[int, str]:
    """Return the status of a run, and the line that says why it ended early, if it did."""
    try:
        wanted = asked(words)
        if wanted == "--help":
            return put_out(HELP), ""
        if wanted is not None:
            return run_program([program, wanted], stopping), ""
        if is_of_many(words):
            convert = lambda given, packages: main(given, program, packages)  # noqa: E731
            return run_batch(words, program, convert, progress, stopping), ""
        settings, began = read_words(words), time.monotonic()
        try:
            return run(settings, program, progress, stopping, opened), ""
        except Refusal as refusal:
            record_refusal(settings, refusal)
            write_refusal_page(settings, refusal)
            write_refusal_summary(settings, refusal, program, time.monotonic() - began)
            raise
    except Refusal as refusal:
        return refusal.status, refusal.line
    except MemoryError:
        return FILES, NO_MEMORY
    except OSError as error:
        if lets_through():
            raise
        where = error.filename or "the run"
        return FILES, f"{where}: cannot read or write ({error.strerror or error})"
    except Exception as error:  # a fault of this program is one line too, and not the report's
        if lets_through():
            raise
        return FILES, f"a fault of the program: {type(error).__name__}: {error}"


def tell(line: str) -> None:
    """Write a line to standard error, if there is one."""
    with suppress(OSError):
        if sys.stderr is not None:
            print(line, file=sys.stderr, flush=True)


def put_out(text: str) -> int:
    """Write a text to standard output, without a buffer.

    Python would write a buffer a second time at the end of the run if this fails.
    """
    left = text.encode(errors="surrogateescape")
    try:
        while left:
            left = left[os.write(1, left) :]
    except OSError as error:
        raise cannot_write("standard output", error) from None
    return 0


@dataclass(frozen=True)
class Run:
    """What the steps of a run have in common."""

    settings: Settings
    program: str
    progress: Progress
    stopping: Stopping
    began: float  # by the clock of time.monotonic
    opened: Optional[Opened]


def run(
    settings: Settings,
    program: str,
    progress: Progress,
    stopping: Stopping,
    opened: Optional[Opened] = None,
) -> int:
    """Make the two plain files and run xbrl-json over them, or print the parameters.

    With `--prepare` the files go into its folder, else into a temporary one. Return the status.
    """
    here = Run(settings, program, progress, stopping, time.monotonic(), opened)
    require_options(program, settings.unknown)
    check_asked(settings)
    if settings.summary is not None:
        require_counts(program)
    open_packages = ExitStack()
    try:
        return run_opened(here, open_packages)
    finally:
        with stopping.held():
            open_packages.close()


def run_opened(here: Run, open_packages: ExitStack) -> int:
    """Run over packages, which `open_packages` closes later."""
    settings, progress, stopping = here.settings, here.progress, here.stopping
    report, packages = open_inputs(settings, open_packages, here.opened)
    refuse_outputs(settings, packages, None)
    with stopping.held():
        claim_outputs(settings, open_packages)
    place = None if settings.prepare is None else place_of(settings.prepare)
    if settings.parameters:
        return tell_parameters(report, packages, progress)
    joined = join(report, packages, settings, progress, stopping.heeds)
    _, files, types = joined
    refuse_outputs(settings, packages, files)
    progress.say("preparing the tables")
    if place is None:
        return convert(here, joined)
    parent, name = place
    with temporary_folder(parent, f".{name}-", stopping) as folder:
        write_files(folder, files, types, copy=True)
        os.chmod(folder, 0o777 & ~umask())
        with stopping.held():
            move_into(os.path.join(parent, name), folder)
    progress.clear()
    return 0


def convert(here: Run, joined: Joined) -> int:
    """Run xbrl-json over a temporary folder, and return its status.

    With `--progress` xbrl-json writes to standard error itself, unless `--explain` is given too.
    """
    settings, (origins, files, types) = here.settings, joined
    fewer = types.fewer(files) if types.fewer else with_named_members(types.text, files)
    types = types if fewer is None else types.with_text(fewer)
    with temporary_folder(temporary_place(), f"{NAME}-", here.stopping) as folder:
        notes = RunNotes(settings, folder, here.program)
        written = write_files(folder, files, types, copy=False)
        names = {**written.names, **notes.names()}
        lines = KeptLines(origins, folder, names, notes.is_explained)
        meta, table = os.path.join(folder, META), os.path.join(folder, TYPES)
        here.progress.clear()
        words = [here.program, meta, "--types", table, *notes.words]
        heard = "--explain" in words or "--progress" not in settings.rest
        hear = lines.hear if heard and (sys.stderr or any(asked_for(settings))) else None
        began = time.monotonic()
        status = run_program(words, here.stopping, hear)
        refuse_unloaded(here.program, status)
        converting = time.monotonic() - began
        more = lines.end()
        if more:
            tell(f"{NAME}: {printable(more)}")
        if status == WRONG:
            with here.stopping.held():
                name_places(notes.faults, lines)
        if status <= WRONG:
            notes.hand_on_faults()
        if any(asked_for(settings)) and status <= WRONG:
            sum_up(here, Converted(status, converting, files, written, lines, notes))
        return status


def refuse_unloaded(program: str, status: int) -> None:
    """Refuse a program that did not run at all: the system's loader may end with status 1 too.

    It does so if the C library is too old. The loader has said why.
    """
    if status == WRONG:
        version_of(program)


class Converted(NamedTuple):
    """What there is of a run of xbrl-json that has ended with status 0 or 1."""

    status: int
    seconds: float
    files: Files
    written: Written
    lines: KeptLines
    notes: RunNotes


def sum_up(here: Run, made: Converted) -> None:
    """Write the page and the summary of a run that has ended, as far as they are asked for."""
    settings = here.settings
    faults = made.notes.read_faults()
    counts = made.notes.read_counts(made.status)
    filed = filed_of(made.files, made.written, counts)
    if settings.page is not None:
        write_run_page(settings, made.status, made.lines, made.written, faults, filed)
    if settings.summary is None:
        return
    summary = Summary(
        settings=settings,
        outcome=REFUSED if made.status else CONVERTED,
        version=version_of(here.program),
        seconds=time.monotonic() - here.began,
        converting=made.seconds,
        faults=faults.total,
        filed=filed,
        files=made.files,
    )
    summary.write()
    if counts is not None and is_shown():
        for line in table_lines(filed):
            tell(line)


def tell_parameters(report: Found, packages: List[Package], progress: Progress) -> int:
    """Print the list of the parameters.

    No schema is read for it. A parameter that is missing or misspelt does not end the run.
    """
    chain = Chain(report, Finder(report.package, packages))
    check_parts(chain)
    renaming = Renaming(lost_prefixes(chain), lambda name: False)
    merged = merge(chain, renaming)
    files = Files.of(report, merged)
    files.require_parameters()
    progress.clear()
    return put_out(parameter_list(Origins(merged, chain, renaming), files))


def open_inputs(
    settings: Settings, open_packages: ExitStack, opened: Optional[Opened] = None
) -> Tuple[Found, List[Package]]:
    """Return the report's own file, and all packages, which may be open already.

    The packages are in the order in which their catalogs count. `open_packages` closes those that
    were not open.
    """
    if opened is None:
        package = open_package(settings.report, settings.limit)
        if package is not None:
            open_packages.callback(package.close)
        packages = open_taxonomies(settings.taxonomy, settings.limit, open_packages)
    else:
        package, packages = opened.report, list(opened.taxonomy)
    if package is None:
        return report_by_itself(settings.report), packages
    return find_report(package), [package, *packages]


def place_of(prepare: str) -> Tuple[str, str]:
    """Return the folder that is to hold a prepared folder, and the name there.

    Refuse a prepared folder that has content, and one whose folder does not exist.
    """
    path = os.path.realpath(prepare)
    if os.path.lexists(path):
        try:
            if os.listdir(path):
                raise cannot_write(prepare, "the folder is not empty")
        except OSError as error:
            raise cannot_write(prepare, error) from None
    parent, name = os.path.split(path)
    if not os.path.isdir(parent):
        raise cannot_write(prepare, "there is no folder to put it in")
    return parent, name


def umask() -> int:
    """Return the mask of new files.

    Without `/proc` the system gives it only in exchange for another, which all threads then have.
    """
    with suppress(OSError, ValueError), open("/proc/self/status", "rb") as file:
        for line in file:
            if line.startswith(b"Umask:"):
                return int(line.split()[1], 8)
    mask = os.umask(0o077)
    os.umask(mask)
    return mask
