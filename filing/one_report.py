"""One report of a run over many: a process of its own, with limits, in which it is converted."""

from __future__ import annotations

import errno
import json
import os
import resource
import signal
import sys
from contextlib import suppress
from dataclasses import dataclass
from typing import Callable, List, Optional, Sequence, Set, Tuple

from .digests import digest_of
from .kept_module import ModuleCache
from .locks import locked
from .marked_output import PAGE, SUMMARY, Kind, is_of_kind
from .outcomes import FINAL, Outcome, read_outcome, write_outcome
from .packages import Package, open_package
from .page_run import write_refusal_page
from .refusals import FILES, Refusal, cannot_write, lets_through, printable
from .refused_faults import record_refusal
from .stopping import c_library, end_with_parent
from .summary import write_refusal_summary
from .words import Settings

LONGEST_PATH = 1000  # of an entry that the run is told of
SCARCE = (errno.EMFILE, errno.ENFILE, errno.ENOMEM, errno.EAGAIN)  # until a process ends
KEPT = "kept"  # the report was converted before
BEGUN = "begun"  # the outcome word while a report is in hand
# Converts a report by the command line; its package is open, if it is in one.
Convert = Callable[[List[str], Optional[Package]], int]


@dataclass(frozen=True)
class Paths:
    """The files that a report gets in the folder of the run."""

    document: str
    faults: str
    log: str
    outcome: str
    page: str
    summary: str

    @staticmethod
    def of(folder: str, name: str) -> Paths:
        """Return the paths for the report of this name."""
        front = os.path.join(folder, name)
        endings = (".json", ".faults.csv", ".log", ".outcome", ".html", ".summary.json")
        return Paths(*(front + ending for ending in endings))

    @staticmethod
    def none() -> Paths:
        """Return the paths for a report that has no files of its own."""
        return Paths("", "", "", "", "", "")

    def begun(self) -> Tuple[str, ...]:
        """Return what xbrl-json writes before it renames it, and leaves if it is ended by force."""
        return f"{self.document}.new", f"{self.faults}.new"

    def all(self) -> Tuple[str, ...]:
        """Return all of them."""
        return self.document, self.faults, self.log, self.outcome, self.page, self.summary


@dataclass(frozen=True)
class Task:
    """What the process of a report is to do."""

    report: str
    why_not: str  # why it is not converted
    paths: Paths
    words: Tuple[str, ...]
    common: str  # the digest of all that the reports have in common
    unpacked_limit: int
    again: bool
    temporary: str  # a folder of its own, for temporary files
    memory_limit: Optional[int]
    has_page: bool  # whether the report gets a page
    has_summary: bool  # and a summary
    program: str  # xbrl-json
    taxonomy: Tuple[str, ...]

    def asked_for(self) -> List[Tuple[str, Kind]]:
        """Return the page and the summary that the report gets."""
        found = [(self.paths.page, PAGE)] if self.has_page else []
        return [*found, (self.paths.summary, SUMMARY)] if self.has_summary else found


@dataclass
class Told:
    """What the process of a report tells the run, besides its status."""

    digest: str = ""
    word: str = ""
    line: str = ""
    module: str = ""  # the path of the module's entry in the cache

    def write(self, pipe: int) -> None:
        """Write all of it at once: it is shorter than what a pipe takes in one piece."""
        module = self.module if len(self.module) <= LONGEST_PATH else ""
        short = Told(self.digest, self.word, self.line[:500], module)
        os.write(pipe, json.dumps(short.__dict__).encode() + b"\n")


def read_told(pipe: int) -> Told:
    """Return the last that a process has told by its end."""
    told = Told()
    with suppress(OSError, ValueError, TypeError):
        *lines, _ = os.read(pipe, 1 << 16).split(b"\n")
        told = Told(**json.loads(lines[-1])) if lines else told
    return told


def begin(
    task: Task,
    log: int,
    pipe: int,
    others: Sequence[int],
    mask: Set[int],
    convert: Convert,
) -> int:
    """Start the process of a report, and return its number.

    Its log is open and locked. It writes to `pipe` what it tells, and closes the files of others.
    Signals are blocked, and the process takes a mask instead.
    """
    parent = os.getpid()
    c_library()
    process = os.fork()
    if process:
        return process
    status = FILES
    try:
        signal.pthread_sigmask(signal.SIG_SETMASK, mask)
        signal.set_wakeup_fd(-1)
        signal.signal(signal.SIGCHLD, signal.SIG_DFL)
        os.setpgid(0, 0)  # Ctrl-C is for the run, which then ends its reports
        end_with_parent(parent)
        for other in others:
            os.close(other)
        status = attempt(task, log, pipe, convert)
    except Exception as error:
        why = printable(f"a fault of the program: {type(error).__name__}: {error}")
        Told(line=f"xbrl-filing: {why}").write(pipe)
        if lets_through():
            import traceback  # takes long, and is seldom needed

            os.write(2, traceback.format_exc().encode(errors="backslashreplace"))
    except BaseException:  # a signal, before the conversion began
        status = 128 + signal.SIGTERM
    finally:
        os._exit(status)


def attempt(task: Task, log: int, pipe: int, convert: Convert) -> int:
    """Convert the report, and return the status. What ends it early is told as a line."""
    told = Told()
    try:
        return work(task, told, log, pipe, convert)
    except Refusal as refusal:
        status, told.line = refusal.status, f"xbrl-filing: {refusal.line}"
    except MemoryError:
        status, told.line = FILES, "xbrl-filing: there is not enough memory"
    except OSError as error:
        why = error.strerror or error
        where = error.filename or task.report
        status, told.line = FILES, f"xbrl-filing: {where}: cannot read or write ({why})"
    told.write(pipe)
    return status


def work(task: Task, told: Told, log: int, pipe: int, convert: Convert) -> int:
    """Convert the report if that was not done before, and return the status."""
    take_streams()
    os.set_inheritable(log, True)  # xbrl-json locks it too, if it alone is left of the run
    if task.memory_limit is not None:
        limit_memory(task.memory_limit)
    try:
        package = open_package(task.report, task.unpacked_limit)
        told.digest = digest_of_report(task, package)
    except Refusal as refusal:
        remove_earlier(task, "", log)
        os.write(2, f"xbrl-filing: {printable(refusal.line)}\n".encode())
        settings = settings_of_refusal(task)
        record_refusal(settings, refusal)
        write_refusal_page(settings, refusal)
        write_refusal_summary(settings, refusal, task.program, 0.0)
        return refusal.status
    if is_kept(task, told.digest):
        told.word = KEPT
        told.write(pipe)
        return 0
    told.write(pipe)
    remove_earlier(task, told.digest, log)
    os.mkdir(task.temporary, 0o700)
    os.environ["TMPDIR"] = task.temporary
    paths = task.paths
    files = ["--out", paths.document, "--whole", "--faults", paths.faults]
    files += ["--page", paths.page] if task.has_page else []
    files += ["--summary", paths.summary] if task.has_summary else []
    status = convert([task.report, *task.words, *files], package)
    told.module = ModuleCache.last_used
    told.write(pipe)
    return status


def settings_of_refusal(task: Task) -> Settings:
    """Return the options of what is written for a report that cannot be opened."""
    return Settings(
        task.report,
        task.taxonomy,
        rest=("--faults", task.paths.faults),
        page=task.paths.page if task.has_page else None,
        summary=task.paths.summary if task.has_summary else None,
    )


def lock_log(path: str) -> Optional[int]:
    """Open the log as it is, and lock it. Return None if another run has the report in hand.

    A run has it in hand until its outcome is written, and unlocks the log only then. Raise OSError
    if the system opens no more files, and refuse a log that cannot be written.
    """
    try:
        log = os.open(path, os.O_RDWR | os.O_CREAT | os.O_APPEND | os.O_CLOEXEC, 0o666)
    except OSError as error:
        if error.errno in SCARCE:
            raise
        raise cannot_write(path, error) from None
    if locked(log):
        return log
    os.close(log)
    return None


def limit_memory(limit: int) -> None:
    """Limit the memory of this process and of each that it starts.

    A limit that the caller has set holds too.
    """
    _, most = resource.getrlimit(resource.RLIMIT_DATA)
    if most != resource.RLIM_INFINITY:
        limit = min(limit, most)
    resource.setrlimit(resource.RLIMIT_DATA, (limit, limit))


def take_streams() -> None:
    """Give the process nothing to read or to print to: the log is not yet its own."""
    nothing = os.open(os.devnull, os.O_RDWR)
    for stream in (0, 1, 2):
        os.dup2(nothing, stream)
    sys.stderr = open(2, "w", encoding="utf-8", errors="backslashreplace", closefd=False)


def digest_of_report(task: Task, package: Optional[Package]) -> str:
    """Return the digest of a report and of what it is converted with.

    It is empty for a metadata file without a package: what it reads is not all known before.
    """
    if package is None:
        return ""
    said = [task.common, package.root, package.digest().hex()]
    return digest_of(json.dumps(said).encode()).hex()


def is_kept(task: Task, digest: str) -> bool:
    """Return whether the report was converted or refused before, with the same digest."""
    if task.again or not digest:
        return False
    outcome = read_outcome(task.paths.outcome)
    if outcome is None or outcome.digest != digest or outcome.outcome not in FINAL:
        return False
    if not all(is_of_kind(path, kind) for path, kind in task.asked_for()):
        return False
    return not outcome.document or os.path.isfile(task.paths.document)


def remove_earlier(task: Task, digest: str, log: int) -> None:
    """Remove what an earlier run left of the report, and note that it is in hand.

    From then on the log, which is emptied, is standard error. Refuse files that no run has made:
    only a report that has an outcome has files of a run.
    """
    paths = task.paths
    made = [paths.document, paths.faults, *paths.begun()]
    if not os.path.lexists(paths.outcome):
        own = [*made, *(path for path, _ in task.asked_for())]
        foreign = [path for path in own if os.path.lexists(path)]
        foreign += [paths.log] if os.path.getsize(paths.log) else []
        if foreign:
            raise cannot_write(foreign[0], "it is there, and no run over many reports made it")
    write_outcome(paths.outcome, Outcome(task.report, digest, FILES, BEGUN))
    os.dup2(log, 2)
    os.ftruncate(log, 0)
    kinds = ((paths.page, PAGE), (paths.summary, SUMMARY))
    for path in [*made, *(path for path, kind in kinds if is_of_kind(path, kind))]:
        with suppress(FileNotFoundError):
            os.unlink(path)
