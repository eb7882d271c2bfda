"""Tests how a run ends: temporary files, signals, full disks, and whose fault it is."""
from __future__ import annotations

import contextlib
import errno
import io
import json
import os
import resource
import shutil
import signal
import subprocess
import sys
from collections.abc import Callable, Iterator
from pathlib import Path
from types import FrameType
from typing import Any

from filing import command, stopping, strict_json
from tests.filing_samples import MERGED, MODULE, REPORT, meta, pack
from tests.filings import FILING, FilingTest, heeded, heeding, run, start, with_fake, write_inputs
from tests.harness import PATIENCE, PROGRAM, TOP, write

# The module with the names that it imports.
whole_stopping: Any = stopping

# The module with the names that it imports.
whole_command: Any = command

SHOWS = (
    'for it in "$@"; do echo "$it"; done; pwd; d=$(dirname "$1"); ls -la "$d" | grep -c -- "->";'
    ' stat -c %a "$d"'
)


@contextlib.contextmanager
def environment(more: dict[str, str]) -> Iterator[None]:
    """Other variables for a while."""
    before = dict(os.environ)
    os.environ.update(more)
    try:
        yield
    finally:
        os.environ.clear()
        os.environ.update(before)


class TestRuns(FilingTest):
    """Tests that take several runs of one folder."""

    def test_temporary_files(self) -> None:
        """Tests the temporary folder under TMPDIR: it has links, and is removed at every end."""
        folder = self.folder
        temporary, fake, settings = with_fake(folder)
        pack(folder / "r.zip", REPORT)
        version = '[ "$1" = --version ] && exit'
        fake.write_text(f"#!/bin/sh\n{version}\n{SHOWS}\necho said >&2\nexit ${{END:-0}}\n")
        for report, links in (("r", "1"), ("r.zip", "0"), ("r/reports/report.json", "1")):
            for end in ("0", "1", "2", "3", "77"):
                status, out, err = start(
                    [report, "--taxonomy", "t", "--out", "doc.json", "--progress", "--ring=7"],
                    folder,
                    env={**settings, "END": end},
                )
                lines = out.decode().splitlines()
                home = os.path.dirname(lines[0])
                wanted = [
                    f"{home}/meta.json",
                    "--types",
                    f"{home}/types.csv",
                    "--out",
                    "doc.json",
                    "--progress",
                    "--ring=7",
                    str(folder),
                    links,
                    "700",
                ]
                self.case(
                    f"the words of xbrl-json, {report}, {end}",
                    (status, lines, err),
                    (int(end), wanted, "said\n"),
                )
                self.case(
                    "the folder stands under TMPDIR, and is gone",
                    (os.path.dirname(home), os.listdir(temporary)),
                    (str(temporary), []),
                )

    def test_arguments_that_go_on(self) -> None:
        """Which arguments xbrl-json gets, and which program it is."""
        folder = self.folder
        temporary, fake, settings = with_fake(folder)
        fake.write_text(f"#!/bin/sh\n{SHOWS}\necho said >&2\n")
        for given in (
            ["--ring", "7"],
            ["--layout", "lines"],
            ["--workers", "1"],
            ["--out", "doc.json"],
            ["--faults", "f.csv"],
            ["--explain", "--whole"],
        ):
            seen = (
                start([*given, "r", "--taxonomy", "t"], folder, env=settings)[1]
                .decode()
                .splitlines()
            )
            self.case(f"words before REPORT {given}", seen[3:5], given)
        for given, passed in (
            (
                ["--new", "x", "--flag", "--progress", "--out", "d"],
                ["--new", "x", "--flag", "--progress", "--out", "d"],
            ),
            (["--out=d", "--layout", "lines"], ["--out=d", "--layout", "lines"]),
            (
                ["--out=", "--workers=1", "--faults", "--out"],
                ["--out=", "--workers=1", "--faults", "--out"],
            ),
        ):
            seen = (
                start(["r", "--taxonomy", "t", *given], folder, env=settings)[1]
                .decode()
                .splitlines()
            )
            self.case(f"words that go on {given}", seen[3 : 3 + len(passed)], passed)
        installed = folder / "installed"
        shutil.copytree(
            TOP / "filing", installed / "filing", ignore=shutil.ignore_patterns("__pycache__")
        )
        shutil.copy(FILING, installed)
        shutil.copy(fake, installed / "xbrl-json")
        (folder / "link").symlink_to("installed/xbrl-filing")
        without = {name: value for name, value in os.environ.items() if name != "XBRL_JSON"}
        done = subprocess.run(
            ["./link", "r", "--taxonomy", "t"],
            cwd=folder,
            env=without,
            capture_output=True,
            timeout=PATIENCE,
        )
        self.case(
            "xbrl-json beside xbrl-filing, by a link",
            (done.returncode, done.stderr),
            (0, b"said\n"),
        )

    def test_a_temporary_folder_elsewhere(self) -> None:
        """Values of TMPDIR, and an xbrl-json that is killed or missing."""
        folder = self.folder
        temporary, fake, settings = with_fake(folder)
        fake.write_text("#!/bin/sh\nkill -9 $$\n")
        self.case(
            "xbrl-json that is killed",
            (start(["r", "--taxonomy", "t"], folder, env=settings)[0], os.listdir(temporary)),
            (137, []),
        )
        status, out, err = start(
            ["r", "--taxonomy", "t"], folder, env={**settings, "TMPDIR": "none"}
        )
        ends = err.startswith(f"xbrl-filing: {folder}/none/xbrl-filing-"), err.endswith(
            ": cannot write (No such file or directory)\n"
        )
        self.case(
            "TMPDIR that is not there",
            (status, out, *ends, os.listdir(temporary)),
            (3, b"", True, True, []),
        )
        fake.write_text('#!/bin/sh\ndirname "$1"\n')
        seen = start(["r", "--taxonomy", "t"], folder, env={**settings, "TMPDIR": ""})
        self.case("TMPDIR that is empty", (seen[0], os.path.dirname(seen[1].decode())), (0, "/tmp"))
        seen = start(["r", "--taxonomy", "t"], folder, env={**settings, "TMPDIR": "tmp"})
        self.case(
            "TMPDIR that is relative",
            (seen[0], os.path.dirname(seen[1].decode())),
            (0, str(temporary)),
        )
        seen = start(
            ["r", "--taxonomy", "t"], folder, env={**settings, "XBRL_JSON": "/nonexistent/x"}
        )
        self.case(
            "xbrl-json that is not there",
            (seen, os.listdir(temporary)),
            ((3, b"", "xbrl-filing: /nonexistent/x: cannot run (No such file or directory)\n"), []),
        )

    def test_signals(self) -> None:
        """Sends signals while xbrl-json runs and while the report is read: nothing is left, and
        xbrl-json gets them.
        """
        folder = self.folder
        temporary, fake, settings = with_fake(folder)
        fake.write_text(
            '#!/bin/sh\ntrap "echo stopped; exit 9" TERM INT HUP\necho ready\nwhile :; do sleep'
            " 0.02; done\n"
        )
        for number in (signal.SIGTERM, signal.SIGINT, signal.SIGHUP):
            done = subprocess.Popen(
                [FILING, "r", "--taxonomy", "t"],
                cwd=folder,
                env={**os.environ, **settings},
                stdout=subprocess.PIPE,
                stderr=subprocess.PIPE,
                preexec_fn=heeding,
            )
            assert done.stdout is not None  # it is a pipe
            ready = done.stdout.readline()
            there = len(os.listdir(temporary))
            done.send_signal(number)
            out, err = done.communicate(timeout=PATIENCE)
            self.case(
                f"{number.name} while xbrl-json runs",
                (ready, there, done.returncode, out, err, os.listdir(temporary)),
                (b"ready\n", 1, -number, b"stopped\n", b"", []),
            )

    def test_signals_while_the_report_is_read(self) -> None:
        """Signals that arrive while the report is read."""
        folder = self.folder
        _, _, settings = with_fake(folder)
        write(folder, {"report.json": meta({"extends": ["pipe.json"]})})
        for number in (signal.SIGTERM, signal.SIGINT):
            os.mkfifo(folder / "pipe.json")
            done = subprocess.Popen(
                [FILING, "report.json", "--prepare", "o"],
                cwd=folder,
                env={**os.environ, **settings},
                stdout=subprocess.PIPE,
                stderr=subprocess.PIPE,
                preexec_fn=heeding,
            )
            with open(folder / "pipe.json", "wb"):
                done.send_signal(number)
                out, err = done.communicate(timeout=PATIENCE)
            (folder / "pipe.json").unlink()
            self.case(
                f"{number.name} while the report is read",
                (done.returncode, out, err, (folder / "o").exists()),
                (-number, b"", b"", False),
            )

    def test_signals_of_the_caller(self) -> None:
        """Signals that the caller of the program ignores or blocks."""
        folder = self.folder
        temporary, fake, settings = with_fake(folder)
        fake.write_text("#!/bin/sh\necho ready\nsleep 0.5\nexit 7\n")
        done = subprocess.Popen(
            [FILING, "r", "--taxonomy", "t"],
            cwd=folder,
            env={**os.environ, **settings},
            stdout=subprocess.PIPE,
            preexec_fn=lambda: signal.signal(signal.SIGTERM, signal.SIG_IGN),
        )
        assert done.stdout is not None  # it is a pipe
        done.stdout.readline()
        done.send_signal(signal.SIGTERM)
        done.communicate(timeout=PATIENCE)
        blocked = lambda: signal.pthread_sigmask(signal.SIG_BLOCK, {signal.SIGCHLD})
        seen = start(
            ["r", "--taxonomy", "t"], folder, env=settings, preexec_fn=blocked, timeout=PATIENCE
        )
        self.case(
            "a caller that has blocked the end of children",
            (seen[0], os.listdir(temporary)),
            (7, []),
        )
        self.case(
            "a signal that the caller ignores", (done.returncode, os.listdir(temporary)), (7, [])
        )

    def test_a_full_disk(self) -> None:
        """Tables that cannot be unpacked: xbrl-json is not run, and the output is not touched."""
        folder = self.folder
        temporary, _, _ = with_fake(folder)
        pack(
            folder / "big.zip",
            dict(REPORT, **{"reports/t.csv": "x" * 200_000}),
        )

        def limited() -> None:
            """Limits the size of files to 100,000 bytes, with the signal of that ignored."""
            signal.signal(signal.SIGXFSZ, signal.SIG_IGN)
            resource.setrlimit(resource.RLIMIT_FSIZE, (100_000, 100_000))

        kept = os.symlink
        try:
            os.symlink = lambda *_: (_ for _ in ()).throw(
                OSError(errno.ENOSPC, os.strerror(errno.ENOSPC))
            )
            status, err = run(["r", "--taxonomy", "t", "--out", "doc.json"], folder)
        finally:
            os.symlink = kept
        self.case(
            "a full disk when a table is linked",
            (
                status,
                err.endswith("/t.csv: cannot write (No space left on device)\n"),
                err.count("\n"),
            ),
            (3, True, 1),
        )
        status, out, err = start(
            ["big.zip", "--taxonomy", "t", "--out", "doc.json"],
            folder,
            env={"TMPDIR": str(temporary)},
            preexec_fn=limited,
        )
        ends = err.startswith(f"xbrl-filing: {temporary}/xbrl-filing-"), err.endswith(
            "/t.csv: cannot write (File too large)\n"
        )
        self.case("a full disk", (status, out, *ends), (3, b"", True, True))
        self.case(
            "a full disk: nothing is left",
            (os.listdir(temporary), (folder / "doc.json").exists()),
            ([], False),
        )

    def test_what_cannot_be_read(self) -> None:
        """Writes one line for a file that is refused or too large, or a fault of the program."""
        folder = self.folder
        write_inputs(folder)
        folder.chmod(0o755)
        as_nobody = {"user": 65534, "group": 65534} if os.getuid() == 0 else {}
        tables = {
            "t": {"url": "t.csv"},
            "u": {"url": "sub/u.csv", "template": "t", "optional": True},
        }
        write(
            folder,
            {
                "t/reg/mod.json": MODULE.replace(json.dumps(MERGED["tables"]), json.dumps(tables)),
                "r/reports/sub/u.csv": "cash\n1\n",
                "r/reports/other.json": "{}",
            },
        )
        for path in (
            "t/reg/mod.xsd",
            "t/reg/mod.json",
            "t/reg",
            "t/META-INF",
            "r/reports/report.json",
            "r/reports/other.json",
            "r/reports/sub",
            "r/reports",
            "r",
        ):
            mode = (folder / path).stat().st_mode
            (folder / path).chmod(0)
            status, out, err = start(["r", "--taxonomy", "t"], folder, **as_nobody)
            (folder / path).chmod(mode)
            said = err.startswith(f"xbrl-filing: {path}") and err.endswith(
                ": cannot read (Permission denied)\n"
            )
            self.case(
                f"{path} without permission",
                (status, out, said, err.count("\n")),
                (3, b"", True, 1),
            )
        kept = strict_json.LARGEST, whole_command.find_report
        try:
            strict_json.LARGEST = len(REPORT["reports/report.json"])
            self.case(
                "a module that is too large",
                run(["r", "--taxonomy", "t"], folder),
                (1, f"xbrl-filing: t/reg/mod.json: has more than {strict_json.LARGEST} bytes\n"),
            )
            whole_command.find_report = lambda _: dict[str, Any]()["a\nb"]
            self.case(
                "a fault of the program",
                run(["r"], folder),
                (3, "xbrl-filing: a fault of the program: KeyError: 'a\\nb'\n"),
            )
            for value, through in (("1", True), ("", False), ("0", False)):
                with environment({"XBRL_FILING_DEBUG": value}):
                    try:
                        seen = run(["r"], folder)[0], False
                    except KeyError:
                        seen = 3, True
                    lines = io.StringIO()
                    with contextlib.redirect_stderr(lines):
                        words = [str(folder / "r"), "--into", str(folder / f"into {value}")]
                        into = command.main(words, PROGRAM)
                self.case(
                    f"its traceback, where XBRL_FILING_DEBUG is '{value}'", seen, (3, through)
                )
                log = (folder / f"into {value}/r.log").read_text()
                self.case(
                    f"its traceback in the log of a report, where it is '{value}'",
                    (into, "(a fault of the program: KeyError: 'a\\nb')\n" in lines.getvalue()),
                    (3, True),
                )
                self.case(
                    f"only then, where it is '{value}'", "\nKeyError: 'a\\nb'\n" in log, through
                )
            whole_command.find_report = lambda _: open("none")
            self.case(
                "a file that is gone",
                run(["r"], folder),
                (3, "xbrl-filing: none: cannot read or write (No such file or directory)\n"),
            )
            whole_command.find_report = lambda _: (_ for _ in ()).throw(MemoryError)
            self.case(
                "too little memory",
                run(["r"], folder),
                (3, "xbrl-filing: there is not enough memory\n"),
            )
        finally:
            strict_json.LARGEST, whole_command.find_report = kept

    def test_too_little_address_space(self) -> None:
        """Where Python could not start, the script says so first, with status 3."""
        write(self.folder, {"r": "{}"})
        for limit in (8000, 10_000, 12_000, 13_500, 15_500, 23_999):
            shell = ["bash", "-c", f'ulimit -v {limit}; exec "$0" r', FILING]
            done = subprocess.run(shell, cwd=self.folder, capture_output=True, text=True)
            said = (3, "xbrl-filing: there is not enough memory\n")
            self.case(f"{limit} KiB", (done.returncode, done.stderr), said)

    def test_whose_fault(self) -> None:
        """What is not the fault of the report has status 3.

        These are a program that cannot start, Python without memory, and unreadable files.
        """
        folder = self.folder
        temporary, fake, settings = with_fake(folder)
        for status, wanted in ((126, 3), (127, 3), (125, 125), (1, 1), (2, 2), (3, 3)):
            runs = '[ "$1" = --version ] && exit'
            fake.write_text(f"#!/bin/sh\n{runs}\necho said >&2\nexit {status}\n")
            seen = start(["r", "--taxonomy", "t"], folder, env=settings)
            said = "said\n" + (
                f"xbrl-filing: {fake}: cannot run (status {status})\n"
                if wanted == 3 != status
                else ""
            )
            self.case(f"a program that ends with {status}", (seen[0], seen[2]), (wanted, said))
        # As the system's loader does for a program that needs a newer C library.
        fake.write_text("#!/bin/sh\necho too old >&2\nexit 1\n")
        line = f"too old\nxbrl-filing: {fake}: cannot run (too old)\n"
        for word in ("--explain", "--whole", "--progress"):
            seen = start(["r", "--taxonomy", "t", word], folder, env=settings)
            self.case(f"a program that does not load, {word}", (seen[0], seen[2]), (3, line))
        copy = folder / "copy"
        shutil.copytree(
            TOP / "filing", copy / "filing", ignore=shutil.ignore_patterns("__pycache__")
        )
        shutil.copy(FILING, copy)
        for raised, line in (
            ("raise MemoryError", "there is not enough memory"),
            ("raise ImportError('a\\nb')", "cannot start: ImportError: a b"),
            ("1 +", "cannot start: SyntaxError: invalid syntax (command.py, line 1)"),
        ):
            (copy / "filing/command.py").write_text(raised + "\n")
            done = subprocess.run(
                [copy / "xbrl-filing", "r"],
                cwd=folder,
                capture_output=True,
                text=True,
                timeout=PATIENCE,
            )
            self.case(
                f"{raised}, as it starts",
                (done.returncode, done.stderr),
                (3, f"xbrl-filing: {line}\n"),
            )
        as_nobody = {"user": 65534, "group": 65534} if os.getuid() == 0 else {}
        (folder / "r/reports/t.csv").chmod(0)
        folder.chmod(0o755)
        seen = start(["r", "--taxonomy", "t"], folder, env={"TMPDIR": "/tmp"}, **as_nobody)
        self.case(
            "a table that may not be read",
            seen,
            (3, b"", "xbrl-filing: r/reports/t.csv: cannot read (Permission denied)\n"),
        )

    def test_a_signal_between_two_steps(self) -> None:
        """Sends a signal while xbrl-json is being started, and one while a folder is removed.

        xbrl-json must get the first; the second must wait.
        """
        status: Any
        folder = self.folder
        seen: list[subprocess.Popen[bytes]] = []

        class Started(subprocess.Popen[bytes]):
            """Starts a program while a signal arrives."""

            def __init__(self, given: list[str], **more: Any) -> None:
                """Starts it, and signals this process before anything else."""
                super().__init__(given, **more)
                seen.append(self)
                os.kill(os.getpid(), signal.SIGTERM)

        class Removing:
            """Removes folders while a signal arrives, instead of `shutil`."""

            def rmtree(self, path: str, ignore_errors: bool) -> None:
                """Signals this process, and removes a folder."""
                os.kill(os.getpid(), signal.SIGTERM)
                shutil.rmtree(path, ignore_errors=ignore_errors)

        kept = whole_stopping.subprocess.Popen, whole_stopping.shutil
        try:
            whole_stopping.subprocess.Popen = Started
            try:
                status = stopping.run_program(["sleep", "30"], heeded())
            except stopping.Stopped as stopped:
                status = stopped
            self.case(
                "a signal while xbrl-json is started",
                (getattr(status, "number", status), seen[0].poll()),
                (signal.SIGTERM, -signal.SIGTERM),
            )
            whole_stopping.shutil = Removing()
            try:
                with stopping.temporary_folder(str(folder), "x-", heeded()) as made:
                    write(Path(made), {"a/b": "c"})
                status = 0
            except stopping.Stopped as stopped:
                status = stopped.number
            self.case(
                "a signal while the folder is removed",
                (status, os.listdir(folder)),
                (signal.SIGTERM, []),
            )
        finally:
            whole_stopping.subprocess.Popen, whole_stopping.shutil = kept
            heeding()

    def test_a_signal_at_each_step(self) -> None:
        """Sends a signal at each line of what starts, waits and removes: nothing is left."""
        folder = self.folder
        temporary, fake, _ = with_fake(folder)
        fake.write_text("#!/bin/sh\n")
        files = {module.__file__ for module in (command, stopping, contextlib)}
        ended: list[object] = []
        wrong: list[object] = []
        number, steps = 0, 0

        def step(frame: FrameType, *_: Any) -> Callable[..., Any] | None:
            """Counts the lines of the watched files, and signals this process at one of them."""
            nonlocal steps
            if frame.f_code.co_filename not in files:
                return None
            steps += 1
            if steps == number and signal.getsignal(signal.SIGTERM) != signal.SIG_DFL:
                os.kill(os.getpid(), signal.SIGTERM)
            return step

        def stepped() -> int:
            """The status of a run whose steps are counted; at one of them it is signalled."""
            nonlocal steps
            steps = 0
            signal.signal(signal.SIGTERM, lambda *_: None)
            sys.settrace(step)
            try:
                return command.main(["r", "--taxonomy", "t"], str(fake))
            finally:
                sys.settrace(None)

        kept, before = (whole_command.end_by_signal, stopping.end_by_signal), os.environ.get("TMPDIR")
        os.environ["TMPDIR"] = str(temporary)
        os.chdir(folder)
        try:
            whole_command.end_by_signal = ended.append
            self.case("steps are counted", stepped(), 0)
            for number in range(1, steps):
                status, left = stepped(), os.listdir(temporary)
                if left or status not in (0, 143):
                    wrong.append((number, status, left))
                    shutil.rmtree(temporary)
                    temporary.mkdir()
            self.case(
                "a signal at each step", (wrong, number > 200, len(ended) > 200), ([], True, True)
            )
        finally:
            whole_command.end_by_signal = kept[0]
            os.chdir(TOP)
            os.environ.pop("TMPDIR")
            if before is not None:
                os.environ["TMPDIR"] = before
            heeding()
