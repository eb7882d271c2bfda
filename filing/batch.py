"""A run over many reports: each in a process of its own, several at a time."""

from __future__ import annotations

import errno
import gc
import json
import os
import resource
import select
import shutil
import signal
import sys
import time
from collections import Counter
from contextlib import ExitStack, closing, suppress
from dataclasses import dataclass, replace
from typing import Callable, Counter as Counted, Dict, Iterator, List, Optional, Sequence

from .batch_words import Batch, read_batch
from .converter_program import require_counts, require_options, version_of
from .cache import digests_of_program
from .digests import digest_of
from .faults import count_faults
from .held_modules import Holding
from .locks import remove, unlock
from .many_summaries import ManySummaries
from .marked_output import OTHER, PAGE, SUMMARY, check_inputs, check_place
from .nested import open_taxonomies
from .one_report import KEPT, Convert, Paths, Task, Told, begin, lock_log, read_told
from .outcomes import (
    BUSY,
    DONE,
    FAILED,
    FIRST_BYTES,
    REFUSED,
    THREAD,
    TO_RETRY,
    Outcome,
    OutcomeFile,
    first_line,
    limited,
    read_outcome,
    status_of,
    word_of,
    write_outcome,
)
from .outputs import same_file, stands_in
from .packages import Opened, Package
from .page_index import Listed, write_index
from .progress import Progress
from .refusals import FILES, WORDS, Refusal, cannot_write, printable
from .stopping import (
    Stopping,
    blocked_signals,
    temporary_folder,
    temporary_place,
    woken_by_signals,
)
from .sums import sum_of
from .whole_files import asides_in

GRACE = 5.0  # seconds from the asking of a process to end until it is made to
SPARE_FILES = 8  # that the run itself may open, for outcomes and pages
LAST_STREAM = 2
SHOWN_EVERY = 0.5  # seconds between two lines of progress
OWN_CACHE = ".cache"


@dataclass
class Running:
    """The process of a report."""

    task: Task
    process: int
    log: int
    pipe: int
    begun: float
    ends: Optional[float]  # when its time is up
    late: bool = False


def run_batch(
    words: List[str],
    program: str,
    convert: Callable[[List[str], Opened], int],
    progress: Progress,
    stopping: Stopping,
) -> int:
    """Convert all reports of a command line, and return the status of the run.

    `convert` runs the command for one report, over packages that are open. Each report that is
    not converted has a line on standard error, and the last line counts.
    """
    open_streams()
    batch = read_batch(words)
    require_options(program, batch.settings.unknown)
    if batch.summary is not None:
        require_counts(program)
        for label in batch.settings.taxonomy:
            sum_of(label)  # which the processes of all reports then know
    begun = time.monotonic()
    with ExitStack() as at_end:
        taxonomy = open_taxonomies(batch.settings.taxonomy, batch.settings.limit, at_end)
        common = common_digest(batch, program, taxonomy)
        make_folder(batch)
        place = temporary_folder(temporary_place(), "xbrl-filing-", stopping)
        folder = at_end.enter_context(place)
        outcomes = at_end.enter_context(closing(OutcomeFile(batch.outcomes)))
        over = lambda words, report: convert(words, Opened(report, taxonomy))  # noqa: E731
        crew = Crew(batch, program, common, folder, over, progress, outcomes)
        gc.collect()
        gc.freeze()  # so that a report's process does not copy pages only to look for garbage
        with woken_by_signals() as woken:
            try:
                crew.work(woken)
            except BaseException:
                with stopping.held():
                    crew.end_all()
                raise
            finally:
                progress.clear()
    crew.tell_total(time.monotonic() - begun)
    write_index(batch.page, crew.listed)
    crew.summaries.write(time.monotonic() - begun)
    return status_of(crew.words)


def open_streams() -> None:
    """Open the standard streams that the caller has closed, or other files get their numbers.

    The process of a report takes these numbers for streams of its own.
    """
    file = 0
    while file <= LAST_STREAM:
        file = os.open(os.devnull, os.O_RDWR)
    os.close(file)


def common_digest(batch: Batch, program: str, taxonomy: Sequence[Package]) -> str:
    """Return the digest of all that the reports have in common.

    That is the taxonomy packages, both programs, and the options that a document may depend on.
    """
    said = {
        "converter": version_of(program),
        "program": digests_of_program(),
        "packages": [[package.root, package.digest().hex()] for package in taxonomy],
        "limit": batch.settings.limit,
        "options": batch.settings.rest,
    }
    return digest_of(json.dumps(said, sort_keys=True).encode()).hex()


def make_folder(batch: Batch) -> None:
    """Make the folder of the run, if it does not exist; refuse one that has an input."""
    check_marked(batch)
    folder = os.path.realpath(batch.into)
    for label in (*batch.reports, *batch.settings.taxonomy):
        path = os.path.realpath(label)
        if stands_in(path, folder):
            raise cannot_write(batch.into, f"{label} stands in it, and is an input of this run")
        if os.path.isdir(path) and stands_in(folder, path):
            raise cannot_write(batch.into, f"it stands inside of {label}, an input of this run")
        if batch.outcomes is not None and same_file(batch.outcomes, path):
            raise cannot_write(batch.outcomes, "it is an input of this run")
    # The first report makes the cache, others wait for it.
    for place in (batch.into, cache_of(batch)):
        try:
            os.makedirs(place, exist_ok=True)
        except FileExistsError:
            raise cannot_write(place, "it is not a folder") from None
        except OSError as error:
            raise cannot_write(place, error) from None


def check_marked(batch: Batch) -> None:
    """Refuse an index or a summary that cannot be written, or that another file of the run is."""
    folder = os.path.realpath(batch.into)
    taken = {path for name in batch.names for path in Paths.of(folder, name.text).all()}
    if batch.outcomes is not None:
        own = os.path.realpath(batch.outcomes)
        if own in taken:
            raise cannot_write(batch.outcomes, OTHER)
        taken.add(own)
    for path, kind in ((batch.page, PAGE), (batch.summary, SUMMARY)):
        if path is None:
            continue
        check_place(path, kind, folder)
        check_inputs(path, [*batch.reports, *batch.settings.taxonomy])
        own = os.path.realpath(path)
        if own in taken:
            raise cannot_write(path, OTHER)
        taken.add(own)


def cache_of(batch: Batch) -> str:
    """Return the folder of the cache: without `--cache`, one in the folder of the run."""
    return batch.settings.cache or os.path.join(batch.into, OWN_CACHE)


class Crew:
    """The processes that are at work, and what has become of the reports so far."""

    def __init__(
        self,
        batch: Batch,
        program: str,
        common: str,
        folder: str,
        convert: Convert,
        progress: Progress,
        outcomes: OutcomeFile,
    ) -> None:
        self.batch, self.common, self.folder = batch, common, folder
        self.program = program
        self.summaries = ManySummaries(batch.summary)
        self.convert, self.progress, self.outcomes = convert, progress, outcomes
        self.holding = Holding(len(batch.reports))  # modules, for all later reports
        self.running: Dict[int, Running] = {}
        self.words: Counted[str] = Counter()
        self.listed: List[Listed] = []
        self.left = asides_in(batch.into)
        self.kept = 0
        self.began = self.shown = time.monotonic()
        self.stopped_by = ""  # why no more reports are begun

    def work(self, woken: int) -> None:
        """Convert all reports. `woken` can be read once a process may have ended."""
        waiting = self.tasks()
        task = next(waiting, None)
        while task is not None or self.running:
            while task is not None and len(self.running) < self.batch.jobs and self.begin(task):
                task = next(waiting, None)
            is_busy = task is not None and self.holding.go_on()
            if select.select([woken], [], [], 0 if is_busy else self.longest_wait())[0]:
                os.read(woken, 1 << 16)
            self.end_late()
            self.take_ended()
            self.show()
            if self.stopped_by:
                task = None
        if self.stopped_by:
            raise Refusal(WORDS, "", self.stopped_by)

    def tasks(self) -> Iterator[Task]:
        """Yield what is to be done for each report."""
        words = list(self.batch.words)
        if self.batch.settings.cache is None:
            words += ["--cache", cache_of(self.batch)]
        for number, (report, name) in enumerate(zip(self.batch.reports, self.batch.names)):
            yield Task(
                report=report,
                why_not=name.why,
                paths=Paths.none() if name.why else Paths.of(self.batch.into, name.text),
                words=tuple(words),
                common=self.common,
                unpacked_limit=self.batch.settings.limit,
                again=self.batch.again,
                temporary=os.path.join(self.folder, str(number)),
                memory_limit=self.batch.memory_limit,
                has_page=self.batch.page is not None,
                has_summary=self.batch.summary is not None,
                program=self.program,
                taxonomy=self.batch.settings.taxonomy,
            )

    def begin(self, task: Task) -> bool:
        """Start the process of a report, or take the outcome of one that cannot have one.

        Return False if the system starts no more of them until one ends.
        """
        why, word = f"{task.report}: cannot write ({task.why_not})", FAILED
        try:
            if not task.why_not:
                log = lock_log(task.paths.log)
                if log is not None:
                    self.start(task, log)
                    return True
                why, word = f"{task.report}: another run has it in hand", BUSY
        except Refusal as refusal:
            why, word = refusal.line, ""
        except OSError as error:
            if self.running:
                return False
            why, word = f"{task.report}: cannot start a process ({error.strerror})", THREAD
        line = f"xbrl-filing: {why}"
        word = word or word_of(FILES, (), os.fsencode(line), False)
        self.take(task, Outcome(task.report, "", FILES, word, line=line))
        return True

    def start(self, task: Task, log: int) -> None:
        """Start the process of a report. Raise OSError if the system does not."""
        now, limit = time.monotonic(), self.batch.time_limit
        ends = None if limit is None else now + limit
        others = [file for other in self.running.values() for file in (other.log, other.pipe)]
        with ExitStack() as opened:
            opened.callback(unlock, log)
            for path in task.paths.all():
                for aside in self.left.pop(path, ()):
                    remove(aside)
            reader, writer = os.pipe()
            opened.callback(os.close, reader)
            os.set_blocking(reader, False)
            with blocked_signals() as mask:
                try:
                    require_room(writer)
                    process = begin(task, log, writer, others, mask, self.convert)
                finally:
                    os.close(writer)
                self.running[process] = Running(task, process, log, reader, now, ends)
                opened.pop_all()

    def longest_wait(self) -> float:
        """Return how long to wait at most: until a report is late, or the line is shown anew."""
        now = time.monotonic()
        ends = [running.ends - now for running in self.running.values() if running.ends is not None]
        return max(0.0, min([1.0, *ends]))

    def end_late(self) -> None:
        """Ask each report whose time is up to end, and after a while make it end."""
        now = time.monotonic()
        for running in self.running.values():
            if running.ends is not None and now >= running.ends:
                send(running.process, signal.SIGKILL if running.late else signal.SIGTERM)
                running.late, running.ends = True, now + GRACE

    def take_ended(self) -> None:
        """Take the outcome of each report whose process has ended."""
        for running in list(self.running.values()):
            process, waited, usage = os.wait4(running.process, os.WNOHANG)
            if process:
                send(running.process, signal.SIGKILL)  # what it has left in its group
                del self.running[running.process]
                told = read_told(running.pipe)
                if told.module and self.batch.memory_limit is None:
                    self.holding.hold(told.module)  # it would count for a limit of each report
                os.close(running.pipe)
                clear(running.task)
                self.take(running.task, self.outcome_of(running, told, waited, usage.ru_maxrss << 10))
                unlock(running.log)

    def outcome_of(self, running: Running, told: Told, waited: int, memory: int) -> Outcome:
        """Return what has become of a report."""
        task, paths = running.task, running.task.paths
        if told.word == KEPT:
            earlier = read_outcome(paths.outcome)
            if earlier is not None:
                self.kept += 1
                document = paths.document if earlier.document else ""
                return replace(earlier, report=task.report, document=document)
        signaled = os.WIFSIGNALED(waited)
        status = 128 + os.WTERMSIG(waited) if signaled else os.WEXITSTATUS(waited)
        log = told.line.encode() or log_of(paths.log)
        faults, numbers = (0, frozenset()) if told.line else count_faults(paths.faults)
        word = told.word or word_of(status, numbers, log, signaled)
        outcome = Outcome(
            report=task.report,
            digest=told.digest,
            status=status,
            outcome=word,
            seconds=round(time.monotonic() - running.begun, 3),
            memory=memory,
            faults=faults,
            document=paths.document if word == DONE else "",
            line="" if word == DONE else first_line(log) or line_of(status),
        )
        return limited(outcome, running.late and word != DONE, task.memory_limit)

    def take(self, task: Task, outcome: Outcome) -> None:
        """Keep an outcome, and tell of a report that was not converted."""
        self.words[outcome.outcome] += 1
        if outcome.status == WORDS:
            self.stopped_by = outcome.line.partition(": ")[2]
        elif outcome.outcome != BUSY and os.path.lexists(task.paths.outcome):
            write_outcome(task.paths.outcome, outcome)
        self.outcomes.add(outcome)
        if task.has_page:
            self.listed.append(Listed(outcome, task.paths.page))
        self.summaries.add(outcome, task.paths.summary)
        if outcome.outcome != DONE and not self.stopped_by:
            self.progress.clear()
            line = outcome.line.removeprefix("xbrl-filing: ").removeprefix(f"{outcome.report}: ")
            tell(f"{outcome.report}: {outcome.outcome} ({line})")

    def show(self) -> None:
        """Show on a terminal how far the run is."""
        now = time.monotonic()
        if now < self.shown + SHOWN_EVERY:
            return
        self.shown = now
        ended = sum(self.words.values())
        worked = ended - self.kept
        left = len(self.batch.reports) - ended
        line = f"{ended} of {len(self.batch.reports)}: {self.counts()}"
        if worked:
            line += f"; about {spoken((now - self.began) / worked * left)} left"
        self.progress.say(line)

    def counts(self) -> str:
        retry = sum(self.words[word] for word in TO_RETRY)
        other = sum(self.words.values()) - self.words[DONE] - self.words[REFUSED] - retry
        counts = [f"{self.words[DONE]} done", f"{self.words[REFUSED]} refused"]
        return ", ".join([*counts, f"{other} failed", f"{retry} to try again"])

    def tell_total(self, seconds: float) -> None:
        """Write the last line: how many reports have which outcome."""
        kept = f" ({self.kept} of them before)" if self.kept else ""
        total = sum(self.words.values())
        tell(f"{total} reports{kept}: {self.counts()}; {spoken(seconds)}")

    def end_all(self) -> None:
        """Ask all processes to end, and wait until they have; make them after a while."""
        for running in self.running.values():
            send(running.process, signal.SIGTERM)
        until = time.monotonic() + GRACE
        for running in self.running.values():
            while not os.waitpid(running.process, os.WNOHANG)[0]:
                if time.monotonic() > until:
                    send(running.process, signal.SIGKILL)
                time.sleep(0.01)
            send(running.process, signal.SIGKILL)
            clear(running.task)


def require_room(last: int) -> None:
    """Raise OSError if the system will soon open no more files for the run.

    Take the descriptor that was opened last: the system gives the lowest that is free.
    """
    most, _ = resource.getrlimit(resource.RLIMIT_NOFILE)
    if most != resource.RLIM_INFINITY and last >= most - SPARE_FILES:
        raise OSError(errno.EMFILE, os.strerror(errno.EMFILE))


def clear(task: Task) -> None:
    """Remove what the processes of a report have left that were ended by force."""
    shutil.rmtree(task.temporary, ignore_errors=True)
    for path in task.paths.begun():
        remove(path)


def send(process: int, number: int) -> None:
    """Send a signal to a report's process. SIGKILL goes to all that it has started too."""
    with suppress(ProcessLookupError, PermissionError):
        if number == signal.SIGKILL:
            os.killpg(process, number)
        else:
            os.kill(process, number)


def log_of(path: str) -> bytes:
    """Return the first bytes and the last ones of a log."""
    with suppress(OSError), open(path, "rb") as file:
        first = file.read(FIRST_BYTES)
        if len(first) == FIRST_BYTES:
            file.seek(max(FIRST_BYTES, os.path.getsize(path) - FIRST_BYTES))
            first += file.read(FIRST_BYTES)
        return first
    return b""


def line_of(status: int) -> str:
    """Return why a report ended without a line of its own. A full disk takes no line either."""
    if status > 128:
        return f"ended by signal {status - 128}"
    return f"ended with status {status}, and its log is empty"


def spoken(seconds: float) -> str:
    """Return a time as people say it."""
    if seconds < 100:
        return f"{seconds:.0f} s"
    minutes = seconds / 60
    return f"{minutes:.0f} min" if minutes < 100 else f"{minutes / 60:.1f} h"


def tell(line: str) -> None:
    """Write a line to standard error, if there is one."""
    with suppress(OSError):
        if sys.stderr is not None:
            print(f"xbrl-filing: {printable(line)}", file=sys.stderr, flush=True)
