"""An end without leftovers: no temporary folders and no converter, on signals too."""

from __future__ import annotations

import os
import select
import shutil
import signal
import subprocess
from contextlib import contextmanager, suppress
from functools import lru_cache
from typing import Any, Callable, Iterator, List, Optional, Set

from .refusals import FILES, Refusal, cannot_write

PIECE = 1 << 16
LONGEST_WAIT = 1.0  # a caller may have blocked the signal that tells of the child's end
SIGNALS = (signal.SIGINT, signal.SIGTERM, signal.SIGHUP)
PR_SET_PDEATHSIG = 1
NOT_STARTED = (126, 127)  # of the system's loader, which has said why: too old a C library
Hear = Callable[[bytes], None]


class Stopped(BaseException):
    """The run was asked to end by a signal."""

    def __init__(self, number: int) -> None:
        super().__init__(number)
        self.number = number


class Stopping:
    """Turns the first signal into an exception, at a moment when nothing is half done.

    Later signals change nothing.
    """

    def __init__(self) -> None:
        self.holding = 0
        self.asked = 0
        self.told = False
        self.heeds = False  # whether the process is this program's own
        self.folders: List[str] = []  # temporary ones that may be there

    def heed(self) -> None:
        """Begin to take signals, but not those that the caller ignores."""
        self.heeds = True
        for taken in SIGNALS:
            if signal.getsignal(taken) not in (signal.SIG_IGN, None):
                signal.signal(taken, lambda number, _: self.ask(number))

    def heed_no_more(self) -> None:
        """Leave signals to the system, once nothing is left that must be removed."""
        for number in SIGNALS:
            if signal.getsignal(number) not in (signal.SIG_IGN, None):
                signal.signal(number, signal.SIG_DFL)

    def ask(self, number: int) -> None:
        self.asked = self.asked or number
        self.tell()

    def tell(self) -> None:
        if self.asked and not self.holding and not self.told:
            self.told = True
            raise Stopped(self.asked)

    @contextmanager
    def held(self) -> Iterator[None]:
        """Run a step that signals do not cut in two."""
        self.holding += 1
        try:
            yield
        finally:
            self.holding -= 1
        self.tell()

    def clear(self) -> None:
        """Remove the temporary folders.

        If a signal keeps one from being removed at its own end, the end of the run removes it.
        """
        with self.held():
            while self.folders:
                shutil.rmtree(self.folders[-1], ignore_errors=True)
                self.folders.pop()


def temporary_place() -> str:
    """Return the folder of temporary files. If TMPDIR is set, no other is tried."""
    return os.path.abspath(os.environ.get("TMPDIR") or "/tmp")


@contextmanager
def temporary_folder(parent: str, name: str, stopping: Stopping) -> Iterator[str]:
    """Make a new folder, and remove it at every end."""
    path = os.path.join(parent, f"{name}{os.urandom(8).hex()}")
    stopping.folders.append(path)
    try:
        try:
            os.mkdir(path, 0o700)
        except OSError as error:
            raise cannot_write(path, error) from None
        yield path
    finally:
        stopping.clear()


def run_program(words: List[str], stopping: Stopping, hear: Optional[Hear] = None) -> int:
    """Run a program to its end, and return its status. A signal goes on to it.

    `hear` gets what it prints on standard error. Refuse a program that cannot start.
    """
    child: Optional[subprocess.Popen[bytes]] = None
    try:
        with woken_by_signals() as reader:
            try:
                with stopping.held():
                    # A shell's `<(..)` and `>(..)` are descriptors that the program needs;
                    # Python's own do not go on to it.
                    child = subprocess.Popen(words, stderr=subprocess.PIPE if hear else None, close_fds=False)
                listen(child, reader, hear)
            except Stopped as stopped:
                if child is not None:
                    child.send_signal(stopped.number)
                    listen(child, reader, hear)
                raise
    except OSError as error:
        raise Refusal(FILES, words[0], f"cannot run ({error.strerror})") from None
    finally:
        if child is not None and child.returncode is None:  # only after a fault of this program
            child.kill()
            child.wait()
        if child is not None and child.stderr:
            child.stderr.close()
    status = child.wait()  # it has ended
    if status in NOT_STARTED:
        raise Refusal(FILES, words[0], f"cannot run (status {status})")
    return status if status >= 0 else 128 - status


def listen(child: subprocess.Popen[bytes], reader: int, hear: Optional[Hear]) -> None:
    """Wait until a program has ended, and all that it has printed is heard."""
    said = [child.stderr.fileno()] if child.stderr else []
    ended = False
    while not ended:
        ended = child.poll() is not None  # before it is listened to, so that nothing is missed
        for ready in select.select([reader, *said], [], [], 0 if ended else LONGEST_WAIT)[0]:
            piece = os.read(ready, PIECE)
            if ready != reader and hear:
                ended = False
                hear(piece)
                said = said if piece else []


@contextmanager
def woken_by_signals() -> Iterator[int]:
    """Yield a pipe that has something to read after each signal.

    The end of a child is a signal too, so a wait on the pipe misses no end.
    """
    reader, writer = os.pipe()
    os.set_blocking(writer, False)
    child_ends = signal.signal(signal.SIGCHLD, lambda *_: None)
    before = signal.set_wakeup_fd(writer, warn_on_full_buffer=False)
    try:
        yield reader
    finally:
        signal.set_wakeup_fd(before)
        signal.signal(signal.SIGCHLD, child_ends or signal.SIG_DFL)
        os.close(reader)
        os.close(writer)


@contextmanager
def blocked_signals() -> Iterator[Set[int]]:
    """Let signals wait until a step has ended. Yield the mask that holds again then.

    A signal that comes while Python starts a process would be lost in it, with a traceback.
    """
    before = signal.pthread_sigmask(signal.SIG_BLOCK, SIGNALS)
    try:
        yield set(map(int, before))
    finally:
        signal.pthread_sigmask(signal.SIG_SETMASK, before)


def end_by_signal(number: int) -> None:
    """End as a program that does not know the signal, so that the caller sees which it was."""
    signal.signal(number, signal.SIG_DFL)
    os.kill(os.getpid(), number)


@lru_cache(maxsize=1)
def c_library() -> Any:
    """Return the C library with `prctl`, or None. It is loaded before the first process begins."""
    with suppress(ImportError, OSError, AttributeError):
        import ctypes

        libc = ctypes.CDLL(None)
        return libc if libc.prctl else None
    return None


def end_with_parent(parent: int) -> None:
    """Have the system end this process by SIGTERM once its parent is gone, if it can."""
    libc = c_library()
    if libc is not None:
        libc.prctl(PR_SET_PDEATHSIG, int(signal.SIGTERM), 0, 0, 0)
    if os.getppid() != parent:
        os._exit(128 + signal.SIGTERM)
