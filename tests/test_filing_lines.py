"""Tests lines of xbrl-json that pass through, faults that are handed in, and calls from Python."""
from __future__ import annotations

import contextlib
import csv
import gc
import io
import os
import re
import signal
import subprocess
import sys
import threading
from collections.abc import Callable, Sequence
from pathlib import Path
from typing import Any, NoReturn

from filing import command, joining, library, refusals, stopping
from filing.converter_lines import ConverterLines
from filing.csv_text import records_of_report
from filing.fault_names import name_places
from filing.faults import FIRST, HEADER, OLD_HEADER
from tests.filing_samples import (
    EG,
    Files,
    HOST,
    INFO,
    REPORT,
    TAXONOMY,
    TYPES,
    filed_with,
    item,
    meta,
    pack,
    schema,
)
from tests.filings import (
    FILING,
    FilingTest,
    heeding,
    listing,
    on_a_terminal,
    run,
    start,
    write_inputs,
)
from tests.harness import PATIENCE, PROGRAM, write

# The module with the names that it imports.
whole_command: Any = command

# The module with the names that it imports.
whole_stopping: Any = stopping

# Seconds that no run may take: one that waits for such a program fails.
ENDLESS = 10 * PATIENCE
# What each program does here that ends with status 1: it tells its version, so it is one that runs.
RUNS = '[ "$1" = --version ] && exit'
HEADER_OF_FAULTS = HEADER.decode()


def joined_of(
    folder: Path, report: Files, taxonomies: Sequence[Files] = (TAXONOMY,)
) -> tuple[Any, Any]:
    """Makes the merged metadata of a filing, with its sources, and the filing's files."""
    labels = ["r"] + [f"t{number}" for number in range(len(taxonomies))]
    for label, files in zip(labels, [report, *taxonomies]):
        write(folder / label, files)
    before = os.getcwd()
    os.chdir(folder)
    try:
        given = whole_command.read_words(["r", "--taxonomy", *labels[1:]])
        progress = whole_command.Progress()
        with contextlib.ExitStack() as opened:
            inputs = command.open_inputs(given, opened)
            origins, made, _ = joining.join(*inputs, given, progress)
    finally:
        os.chdir(before)
    return origins, files


def filed_in_parts() -> tuple[dict[str, str], list[dict[str, str]]]:
    """Makes a report, a module and a file below it, each with parts of the merged metadata.

    The module has other prefixes than the report.
    """
    columns = {
        "cash": {"dimensions": {"g:Region": "m:x", "concept": "g:Cash"}},
        "g": {"propertyGroups": {"a/b~c": {"dimensions": {"g:Branch": "y"}}}},
    }
    module = {
        "namespaces": {"m": "http://mem/", "g": EG},
        "taxonomy": ["mod.xsd", "two.xsd"],
        "extends": ["low.json"],
    }
    files = {
        "reg/mod.json": meta(
            module,
            tableTemplates={"t": {"columns": columns}},
            tables={"t": {"template": "t", "parameters": {"p": "1"}}},
            decimals=0,
        ),
        "reg/low.json": meta(
            {"taxonomy": ["mod.xsd", "low.xsd"]},
            parameters={"low": "2"},
            dimensions={"entity": "m:1"},
        ),
        "reg/two.xsd": schema(item("Two")),
        "reg/low.xsd": schema(item("Low")),
    }
    own = {
        "extends": [HOST + "mod.json"],
        "namespaces": {"eg": EG, "n": "http://mem/"},
        "taxonomy": [HOST + "low.xsd"],
    }
    tables = {
        "t": {"url": "meta.json", "parameters": {"q": "1"}},
        "u": {"url": "filed-meta.json.csv", "template": "t", "optional": True},
    }
    report = {
        "reports/report.json": meta(own, tables=tables, dimensions={"eg:Region": "n:y"}),
        "reports/meta.json": "cash\n1\n",
    }
    return report, [{**TAXONOMY, **files}]


ORIGINS: dict[str, tuple[str, str] | None] = {
    "/tableTemplates/t/columns/cash/dimensions/eg:Region": (
        "t0/reg/mod.json",
        "/tableTemplates/t/columns/cash/dimensions/g:Region",
    ),
    "/tableTemplates/t/columns/cash/dimensions/concept": (
        "t0/reg/mod.json",
        "/tableTemplates/t/columns/cash/dimensions/concept",
    ),
    "/tableTemplates/t/columns/cash/dimensions/eg:None": (
        "t0/reg/mod.json",
        "/tableTemplates/t/columns/cash/dimensions/eg:None",
    ),
    "/tableTemplates/t/columns/g/propertyGroups/a~1b~0c/dimensions/eg:Branch": (
        "t0/reg/mod.json",
        "/tableTemplates/t/columns/g/propertyGroups/a~1b~0c/dimensions/g:Branch",
    ),
    "/tableTemplates/t/columns/g/propertyGroups/a~1b~0c/none/0": (
        "t0/reg/mod.json",
        "/tableTemplates/t/columns/g/propertyGroups/a~1b~0c/none/0",
    ),
    "/tableTemplates/u": ("t0/reg/mod.json", "/tableTemplates/u"),
    "/tables/t": ("r/reports/report.json", "/tables/t"),
    "/tables/t/url": ("r/reports/report.json", "/tables/t/url"),
    "/tables/t/template": ("t0/reg/mod.json", "/tables/t/template"),
    "/tables/t/parameters/p": ("t0/reg/mod.json", "/tables/t/parameters/p"),
    "/tables/t/parameters/q": ("r/reports/report.json", "/tables/t/parameters/q"),
    "/tables/t/parameters/none": ("r/reports/report.json", "/tables/t/parameters/none"),
    "/dimensions/eg:Region": ("r/reports/report.json", "/dimensions/eg:Region"),
    "/dimensions/entity": ("t0/reg/low.json", "/dimensions/entity"),
    "/parameters/low": ("t0/reg/low.json", "/parameters/low"),
    "/decimals": ("t0/reg/mod.json", "/decimals"),
    "/documentInfo": ("r/reports/report.json", "/documentInfo"),
    "/documentInfo/baseURL": ("r/reports/report.json", "/documentInfo/baseURL"),
    "/documentInfo/namespaces/eg": ("r/reports/report.json", "/documentInfo/namespaces/eg"),
    "/documentInfo/taxonomy": ("r/reports/report.json", "/documentInfo/taxonomy"),
    "/documentInfo/taxonomy/0": ("r/reports/report.json", "/documentInfo/taxonomy/0"),
    "/documentInfo/taxonomy/1": ("t0/reg/mod.json", "/documentInfo/taxonomy/0"),
    "/documentInfo/taxonomy/2": ("t0/reg/mod.json", "/documentInfo/taxonomy/1"),
    "/documentInfo/taxonomy/3": ("r/reports/report.json", "/documentInfo/taxonomy/3"),
    "/documentInfo/taxonomy/x": ("r/reports/report.json", "/documentInfo/taxonomy/x"),
    **{
        it: None
        for it in (
            "",
            "x",
            "tables",
            "/",
            "/none",
            "/tables/~2",
            "/tables/~",
            "//tables",
            "/parameterURL",
            "/etc/passwd",
        )
    },
}


def with_words(
    folder: Path,
    said: str,
    words: Sequence[str] = (),
    status: int = 1,
    report: tuple[Files, Sequence[Files]] | None = None,
) -> tuple[int, str]:
    """Runs with an xbrl-json that prints this, and returns status and standard error.

    `HOME` is the folder that it was given.
    """
    fake = folder / "fake"
    fake.write_text(
        f'#!/bin/sh\n{RUNS}\nHOME=$(dirname "$1")\ncat >&2 <<END\n{said}END\nexit {status}\n'
    )
    fake.chmod(0o755)
    joined_of(folder, *(report or filed_in_parts()))
    seen = start(["r", "--taxonomy", "t0", *words], folder, env={"XBRL_JSON": str(fake)})
    return seen[0], seen[2]


def hearing(folder: Path) -> tuple[Path, Callable[[], subprocess.Popen[bytes]], dict[str, str]]:
    """Makes a filing and the file of an xbrl-json; returns this file, what begins a run whose
    standard error is read here, and its environment.
    """
    report, taxonomies = filed_in_parts()
    joined_of(folder, report, taxonomies)
    fake = folder / "fake"
    settings = {**os.environ, "XBRL_JSON": str(fake)}
    fake.touch(0o755)

    def begun() -> subprocess.Popen[bytes]:
        return subprocess.Popen(
            [FILING, "r", "--taxonomy", "t0"],
            cwd=folder,
            env=settings,
            stderr=subprocess.PIPE,
            preexec_fn=heeding,
        )

    return fake, begun, settings


def state_of_process() -> tuple[object, ...]:
    """Returns what a process has as a whole, and a call may change."""
    handlers = [signal.getsignal(number) for number in (*stopping.SIGNALS, signal.SIGCHLD)]
    gc.collect()  # an earlier test may have left a file to be closed
    files = len(os.listdir("/proc/self/fd"))
    mask = os.umask(0o22)
    os.umask(mask)
    return files, handlers, mask, os.getcwd(), csv.field_size_limit(), gc.get_threshold()


class TestRuns(FilingTest):
    """Tests that take several runs of one folder."""

    def test_called_from_python(self) -> None:
        """What another program calls: in a thread, with refusals as exceptions.

        Nothing is left open.
        """
        folder = self.folder
        write(folder, {f"r/{it}": text for it, text in REPORT.items()})
        pack(folder / "t.zip", TAXONOMY)
        pack(folder / "r.zip", REPORT)
        report, taxonomy = str(folder / "r"), str(folder / "t.zip")
        (folder / "short.zip").write_bytes((folder / "t.zip").read_bytes()[:-1])
        packed, short, none = (str(folder / it) for it in ("r.zip", "short.zip", "none"))
        self.case(
            "prepared by the command",
            run([report, "--taxonomy", taxonomy, "--prepare", "by command"], folder),
            (0, ""),
        )
        before = os.listdir("/proc/self/fd")
        made: list[object] = []

        def work() -> None:
            """Calls both."""
            library.prepare(report, [taxonomy], str(folder / "by call"))
            made.append(library.kinds([taxonomy], [HOST + "mod.xsd"]))

        thread = threading.Thread(target=work)
        thread.start()
        thread.join()
        self.case(
            "prepared in a thread", listing(folder / "by call"), listing(folder / "by command")
        )
        words = dict(it.split(",")[1:3] for it in TYPES.split()[1:])
        self.case("kinds in a thread", made, [{EG: words}])
        calls: tuple[tuple[Callable[[], object], int, str], ...] = (
            (
                lambda: library.prepare(report, [], str(folder / "none")),
                1,
                "reports/report.json: no package has",
            ),
            (lambda: library.prepare(report, [taxonomy], str(folder / "r")), 3, "cannot write"),
            (
                lambda: library.kinds([taxonomy], [HOST + "none.xsd"]),
                1,
                f"entry points: no package has {HOST}none.xsd (entry)",
            ),
            (lambda: library.kinds([__file__], []), 1, "is neither a ZIP nor a folder"),
            (lambda: library.kinds(["none"], []), 3, "none: cannot read"),
            (lambda: library.prepare(packed, [taxonomy, short], none), 1, "short.zip: is damaged"),
            (lambda: library.prepare(taxonomy, [taxonomy], none), 1, "t.zip: has no xBRL-CSV"),
            (lambda: library.kinds([taxonomy, short], []), 1, "short.zip: is damaged"),
        )
        kept: list[refusals.Refusal] = []  # with all values of the functions that were left by them
        for call, status, line in calls:
            try:
                call()
                seen = 0, False
            except refusals.Refusal as refusal:
                kept.append(refusal)
                seen = refusal.status, line in refusal.line
            self.case(f"a call that is refused: {line}", seen, (status, True))
        self.case("nothing is left open", len(os.listdir("/proc/self/fd")) <= len(before), True)

    def test_called_from_many_threads(self) -> None:
        """Several threads that call at once, with refusals: each has its own end.

        What the process has as a whole is as before.
        """
        folder = self.folder
        long = "x" * (2 * csv.field_size_limit())
        filing = filed_with(f"name,value\nnote,{long}\n")
        wrong = filed_with("name,value\nper,\n", dimensions={"period": "$per"})
        for name, files in (("r", filing["report"]), ("w", wrong["report"])):
            write(folder, {f"{name}/{it}": text for it, text in files.items()})
        pack(folder / "t.zip", filing["taxonomies"][0])
        pack(folder / "u.zip", wrong["taxonomies"][0])
        at = {name: str(folder / name) for name in ("r", "w", "t.zip", "u.zip")}
        before = state_of_process()
        seen: list[str] = []

        def work(number: int) -> None:
            """Makes both filings. The second one lacks a period."""
            out = folder / f"out{number}"
            library.prepare(at["r"], [at["t.zip"]], str(out))
            seen.append(f"{len((out / 'p.csv').read_text()) > len(long)}")
            try:
                library.prepare(at["w"], [at["u.zip"]], str(folder / f"none{number}"))
            except refusals.Refusal as refusal:
                seen.append(refusal.line.rpartition(": ")[2])

        threads = [threading.Thread(target=work, args=(number,)) for number in range(8)]
        for thread in threads:
            thread.start()
        for thread in threads:
            thread.join()
        why = "facts of the table 't' would have no period"
        self.case("what the calls made", sorted(seen), ["True"] * 8 + [why] * 8)
        self.case("the process as a whole", state_of_process(), before)
        self.case("nothing is made of what is refused", list(folder.glob("none*")), [])

    def test_two_readers_of_csv_at_once(self) -> None:
        """A reader that ends leaves long fields to one that is not at its end."""
        before = csv.field_size_limit()
        long = b"x" * (2 * before)
        first = records_of_report(io.BytesIO(b"a\n" + long + b"\n"))
        self.case("the first record", next(first), ["a"])
        self.case("another reader", list(records_of_report(io.BytesIO(b"b\n"))), [["b"]])
        self.case("the second record", [len(it[0]) for it in first], [len(long)])
        self.case("the limit", csv.field_size_limit(), before)

    def test_no_warning_of_python(self) -> None:
        """Python warns of nothing, as of a file that is not closed: warnings are errors here."""
        folder = self.folder
        write_inputs(folder)
        strict = [sys.executable, "-X", "dev", "-W", "error", FILING]
        env = {**os.environ, "XBRL_JSON": PROGRAM}
        written = ("--faults", "f.csv", "--page", "p.html", "--summary", "s.json")
        total = "xbrl-filing: 1 reports: 1 done, 0 refused, 0 failed, 0 to try again; 0 s\n"
        for words, last in (
            (("--out", "o.json", "--cache", "c", *written), ""),
            (("--prepare", "plain"), ""),
            (("--into", "d", "--outcomes", "o.csv", "--page", "p.html"), total),
        ):
            done = subprocess.run(
                [*strict, "r", "--taxonomy", "t", *words],
                cwd=folder,
                env=env,
                capture_output=True,
                text=True,
                timeout=PATIENCE,
            )
            said = re.sub("[0-9]+ s\n", "0 s\n", done.stderr)
            self.case(f"warnings with {words[0]}", (done.returncode, said), (0, last))
        self.case("warnings in the log of a report", (folder / "d/r.log").read_text(), "")

    def test_faults_in_a_pipe(self) -> None:
        """A pipe gets the same faults as a file, with and without a fault."""
        folder = self.folder
        write_inputs(folder)
        write(folder / "r2", {**REPORT, "reports/t.csv": "cash\nx\n"})
        for name, status in (("r", 0), ("r2", 1)):
            words = [name, "--taxonomy", "t", "--out", "o.json"]
            ended = start([*words, "--faults", "f.csv"], folder)[0]
            wanted = (folder / "f.csv").read_text()
            self.case(f"faults of {name}", (ended, wanted.count("\n")), (status, 1 + status))
            os.mkfifo(folder / "pipe")
            heard: list[str] = []
            reader = threading.Thread(target=lambda: heard.append((folder / "pipe").read_text()))
            reader.start()
            ended = start([*words, "--faults", "pipe"], folder)[0]
            with contextlib.suppress(OSError):  # so that the reader ends in any case
                os.close(os.open(folder / "pipe", os.O_WRONLY | os.O_NONBLOCK))
            reader.join()
            (folder / "pipe").unlink()
            self.case(f"faults of {name} in a pipe", (ended, heard), (status, [wanted]))

    def test_refusals_in_the_faults(self) -> None:
        """The file of --faults has a refusal of this program, and nothing of an earlier run."""
        seen: Any
        folder = self.folder
        write_inputs(folder)
        write(
            folder,
            {
                "bad/reports/report.json": meta({"extends": [HOST + 'a",\n.json']}),
                "bad/reports/f.csv": HEADER_OF_FAULTS,
            },
        )
        (folder / "r2").mkdir()
        write(folder / "r2", {**REPORT, "reports/t.csv": "cash\nx\n"})
        seen = start(["r2", "--taxonomy", "t", "--faults", "f.csv"], folder)
        self.case(
            "the faults of a run", (seen[0], (folder / "f.csv").read_text().count("\n")), (1, 2)
        )
        url = HOST + 'a"",\\n.json'
        refused = (
            f'{HEADER_OF_FAULTS},0,0,0,Refused,,,"no package has'
            f' {url} (extends)",bad/reports/report.json,,,,\n'
        )
        os.chmod(folder / "f.csv", 0o640)
        for words in (
            ["--faults", "f.csv"],
            ["--faults=f.csv"],
            ["--out", "d.json", "--faults", "new.csv"],
        ):
            name = words[-1].rpartition("=")[2]
            status = run(["bad", "--taxonomy", "t", *words], folder)[0]
            self.case(f"a refusal in {words}", (status, (folder / name).read_text()), (1, refused))
        self.case("its mode stays", (folder / "f.csv").stat().st_mode & 0o777, 0o640)
        (folder / "empty.csv").write_text("")
        (folder / "link.csv").symlink_to("empty.csv")
        run(["bad", "--taxonomy", "t", "--faults", "link.csv"], folder)
        self.case(
            "a refusal through a link",
            ((folder / "empty.csv").read_text(), (folder / "link.csv").is_symlink()),
            (refused, True),
        )
        write(folder, {"other.csv": "a,b\n", "own.csv": "a,b\n", "t/f.csv": HEADER_OF_FAULTS})
        for name in (
            "own.csv",
            "other.csv",
            "t/f.csv",
            "bad/reports/f.csv",
            "bad/reports/report.json",
            "bad/new.csv",
        ):
            before = listing(folder)
            status = run(["bad", "--taxonomy", "t", "other.csv", "--faults", name], folder)[0]
            self.case(
                f"what is no file of faults stays: {name}", (status, listing(folder)), (1, before)
            )
        olds = (OLD_HEADER + b"t,1,1,40,BadNumber,2,a,x,\n", FIRST + b"\n", HEADER[:-1] + b",more\n")
        for older in olds:
            (folder / "f.csv").write_bytes(older)
            run(["bad", "--taxonomy", "t", "--faults", "f.csv"], folder)
            self.case(f"over {older!r}", (folder / "f.csv").read_text(), refused)
        for words, status in (
            (["bad", "--faults", "f.csv", "--workers"], 1),
            (["none", "--faults", "f.csv"], 3),
            (["--faults", "f.csv"], 2),
        ):
            (folder / "f.csv").write_text(HEADER_OF_FAULTS)
            seen = run(words, folder)[0], (folder / "f.csv").read_text() == HEADER_OF_FAULTS
            self.case(f"what stays at a status: {words}", seen, (status, status > 1))
        seen = run(["bad", "--taxonomy", "t", "--faults", "no/f.csv"], folder)
        self.case(
            "a file that cannot be written",
            seen,
            (3, "xbrl-filing: no/f.csv: cannot write (No such file or directory)\n"),
        )
        seen = run(["bad", "--taxonomy", "t", "--faults", "/dev/null"], folder)
        self.case("a device", (seen[0], os.path.exists("/dev/null")), (1, True))
        self.case(
            "nothing is left beside",
            [it for it in os.listdir(folder) if it.startswith(("f.csv.", "new.csv."))],
            [],
        )

    def test_where_metadata_came_from(self) -> None:
        """Turns a place of the merged metadata into one of its source file, with its names."""
        folder = self.folder
        origins, _ = joined_of(folder, *filed_in_parts())
        for pointer, wanted in ORIGINS.items():
            self.case(f"where {pointer!r} came from", origins.place(pointer), wanted)
        self.case(
            "the files in their order",
            origins.labels(),
            ["r/reports/report.json", "t0/reg/mod.json", "t0/reg/low.json"],
        )

    def test_causes_of_records(self) -> None:
        """Writes the causes of the file of faults in the names of the filing."""
        path = self.folder / "f.csv"
        origins, _ = joined_of(self.folder, *filed_in_parts())
        names = {"p.csv": "r.zip/reports/parameters.csv", "t.csv": 'r.zip/"t",x.csv'}
        lines = ConverterLines(origins, "/tmp/made", names)
        start, own = 't,1,2,40,BadNumber,2,"a\nb",x,', "t,1,2,40,BadNumber,2,b,x,,,,,\n"
        written, wanted = HEADER_OF_FAULTS + own, HEADER_OF_FAULTS + own
        for pointer, place in ORIGINS.items():
            file, cell = place or ("/tmp/made/meta.json", pointer)
            written += f'{start},/tmp/made/meta.json,,{pointer},"""x"""\n' + own
            wanted += f'{start},{file},,{cell},"""x"""\n' + own
        written += f'{start},/tmp/made/p.csv,3,2,"1\n2"\n{start},/tmp/made/t.csv,4,12,y\n'
        wanted += f'{start},r.zip/reports/parameters.csv,3,2,"1\n2"\n'
        wanted += f'{start},"r.zip/""t"",x.csv",4,12,y\n'
        path.write_text(written)
        name_places(str(path), lines)
        self.case("the causes", path.read_text(), wanted)
        path.write_text(OLD_HEADER.decode() + "t,1,2,40,BadNumber,2,b,x,/decimals\n")
        name_places(str(path), lines)
        self.case("nine fields", path.read_text()[-26:], "t0/reg/mod.json: /decimals\n"[-26:])

    def test_lines_of_the_converter(self) -> None:
        """Passes on the lines of xbrl-json, with the places and names of the filing."""
        folder = self.folder
        place, other = (
            "/tableTemplates/t/columns/cash/dimensions/eg:Region",
            "t0/reg/mod.json: /tableTemplates/t/columns/cash/dimensions/g:Region",
        )
        fault, why = (
            "xbrl-json: report: BadDimension (11)\n",
            "no explicit or typed dimension of this name is in the types table\n",
        )
        files = (
            "xbrl-filing: 'report' is the metadata that was joined of r/reports/report.json,"
            " t0/reg/mod.json, t0/reg/low.json;"
        )
        files += " --prepare FOLDER writes it as one file\n"
        apart = "xbrl-json: table t, row 2, column 1: BadNumber (40)\n"
        for name, said, wanted in (
            (
                "a place",
                f"{fault}    {place}\n    n:x\n    {why}",
                f"{fault}    {other}\n    n:x\n    {why}",
            ),
            ("a place behind a tab", f"{fault}\t{place}\n", f"{fault}\t{other}\n"),
            (
                "two places",
                f"{fault}  {place}\n  /decimals\n",
                f"{fault}  {other}\n  t0/reg/mod.json: /decimals\n",
            ),
            ("a place below a table's fault", f"{apart}  {place}\n", f"{apart}  {other}\n"),
            (
                "a place with its text",
                f'{apart}    {place}: "n: /~x"\n',
                f'{apart}    {other}: "n: /~x"\n',
            ),
            (
                "a place on the way to a fact",
                f'{apart}    by {place}: "\\$p"\n    for "1" in /x of row 1: f.csv\n',
                f'{apart}    by {other}: "$p"\n    for "1" in /x of row 1: f.csv\n',
            ),
            (
                "the place of an earlier table's cause",
                f"{apart}    the same cause as in table t.1: {place}: (nothing)\n",
                f"{apart}    the same cause as in table t.1: {other}: (nothing)\n",
            ),
            (
                "a place that is none",
                f"{fault}  /none\n  x {place}\n{place}\n",
                f"{fault}  /none\n  x {place}\n{place}\n{files}",
            ),
            ("no place", fault, fault + files),
            ("the fault of a table", apart, apart),
            ("a fault of the metadata in a value", f"{apart}  {fault}", f"{apart}  {fault}"),
            (
                "a file",
                "  HOME/filed-meta.json, line 3\n".replace("HOME", "$HOME"),
                "  r/reports/meta.json, line 3\n",
            ),
            (
                "files in one line",
                "  $HOME/filed-meta.json.csv and $HOME/filed-meta.json $HOME\n",
                None,
            ),
            ("a file that was made here", "cannot read $HOME/meta.json\n", None),
            ("no line", "", ""),
        ):
            for words in ("", "--explain", "--explain --progress"):
                status, err = with_words(folder, said, words.split())
                if wanted is None and "line" in name:
                    ends = err.startswith(
                        "  r/reports/filed-meta.json.csv and r/reports/meta.json /"
                    ), err.endswith("\n")
                    self.case(f"{name}, {words}", (status, *ends), (1, True, True))
                elif wanted is None:
                    self.case(
                        f"{name}, {words}",
                        (status, err.startswith("cannot read /"), err.endswith("/meta.json\n")),
                        (1, True, True),
                    )
                else:
                    self.case(f"{name}, {words}", (status, err), (1, wanted))
        self.case(
            "with --progress alone all is as it is",
            with_words(folder, f"{fault}  {place}\n", ["--progress"]),
            (1, f"{fault}  {place}\n"),
        )
        alone = ({"reports/report.json": meta(INFO), "reports/mod.xsd": schema()}, [TAXONOMY])
        self.case(
            "one file is named by nobody", with_words(folder, fault, report=alone), (1, fault)
        )
        (folder / "fake").write_text("#!/bin/sh\ncat said >&2\n")
        for content in (
            b"a line without an end",
            b"one\nanother",
            b"\n\n",
            b"\rh\x1b[2K a\xff\xc3\xa9\0b\n",
            b"x" * 100_000,
        ):
            (folder / "said").write_bytes(content)
            settings = {**os.environ, "XBRL_JSON": str(folder / "fake")}
            done = subprocess.run(
                [FILING, "r", "--taxonomy", "t0"],
                cwd=folder,
                env=settings,
                stderr=subprocess.PIPE,
                timeout=PATIENCE,
            )
            self.case(f"byte for byte: {content[:30]!r}", (done.returncode, done.stderr), (0, content))

    def test_hearing_the_converter(self) -> None:
        """Checks that lines pass at once.

        Many of them, and those of a program that is signalled or stays, block nothing.
        """
        folder = self.folder
        fake, begun, _ = hearing(folder)
        fake.write_text(f"#!/bin/sh\necho ready >&2\nexec sleep {ENDLESS}\n")
        done = begun()
        assert done.stderr is not None  # it is a pipe
        line = done.stderr.readline()
        done.send_signal(signal.SIGTERM)
        done.communicate(timeout=PATIENCE)
        self.case(
            "a line while the program runs",
            (line, done.returncode),
            (b"ready\n", -signal.SIGTERM),
        )
        fake.write_text("#!/bin/sh\nyes 'much to say' | head -100000 >&2\nexit 3\n")
        done = begun()
        self.case(
            "many lines",
            (done.communicate(timeout=PATIENCE)[1] == b"much to say\n" * 100_000, done.returncode),
            (True, 3),
        )
        left = f"sleep {ENDLESS} & echo $! > left"
        fake.write_text(f"#!/bin/sh\n{RUNS}\n{left}\necho said >&2\nexit 1\n")
        done = begun()
        assert done.stderr is not None  # it is a pipe
        ended = done.stderr.readline(), done.wait(timeout=PATIENCE)
        os.kill(int((folder / "left").read_text()), signal.SIGKILL)
        self.case("a program that leaves another behind", ended, (b"said\n", 1))
        done.stderr.close()

    def test_lines_that_nobody_hears(self) -> None:
        """Lines of a program that closes its standard error, and those that cannot be handed on."""
        folder = self.folder
        fake, begun, settings = hearing(folder)
        fake.write_text("#!/bin/sh\nexec 2>&-\nsleep 0.3\nexit 4\n")
        done = begun()
        self.case(
            "a program that closes its standard error",
            (done.communicate(timeout=PATIENCE)[1], done.returncode),
            (b"", 4),
        )
        fake.write_text(
            "#!/bin/sh\ntrap 'yes again | head -100000 >&2; exit 9' TERM\necho ready >&2\nwhile :;"
            " do sleep 0.02; done\n"
        )
        done = begun()
        assert done.stderr is not None  # it is a pipe
        done.stderr.readline()
        done.send_signal(signal.SIGTERM)
        rest = done.communicate(timeout=PATIENCE)[1]
        self.case(
            "much that is said after a signal",
            (rest == b"again\n" * 100_000, done.returncode),
            (True, -signal.SIGTERM),
        )
        fake.write_text("#!/bin/sh\nsleep 0.1\necho said >&2\nexit 5\n")
        ended = subprocess.run(
            [FILING, "r", "--taxonomy", "t0"],
            cwd=folder,
            env=settings,
            preexec_fn=lambda: os.close(2),
            timeout=PATIENCE,
        )
        self.case("nobody hears", ended.returncode, 5)
        with open("/dev/full", "wb") as full:
            ended = subprocess.run(
                [FILING, "r", "--taxonomy", "t0"],
                cwd=folder,
                env=settings,
                stderr=full,
                timeout=PATIENCE,
            )
        self.case("what cannot be handed on", ended.returncode, 5)

    def test_lines_on_a_terminal(self) -> None:
        """Lines and progress on a terminal."""
        folder = self.folder
        fake, _, _ = hearing(folder)
        fake.write_text(
            f"#!/bin/sh\n{RUNS}\nprintf 'xbrl-json: report: X (1)\\n  a\\033[2Jb\\n' >&2\nexit 1\n"
        )
        status, shown = on_a_terminal(["r", "--taxonomy", "t0"], folder, str(fake))
        self.case(
            "lines on a terminal",
            (status, b"X (1)\r\n  a\\x1b[2Jb\r\nxbrl-filing: 'report' is the metadata" in shown),
            (1, True),
        )
        fake.write_text("#!/bin/sh\ntest -t 2 && printf '\\rhow far\\r\\033[K' >&2\n")
        status, shown = on_a_terminal(["r", "--taxonomy", "t0", "--progress"], folder, str(fake))
        self.case(
            "progress on a terminal is the program's own",
            (status, shown.endswith(b"\rhow far\r\x1b[K")),
            (0, True),
        )

    def test_explanations_on_a_terminal(self) -> None:
        """Asks for explanations on a terminal, unless they are turned off or shown past it."""
        folder = self.folder
        fake, begun, _ = hearing(folder)
        told = '#!/bin/sh\n[ "$1" = --help ] && echo "{}" && exit\nshift 3\necho "<$*>" >&2\n'
        for helped in ("", "--no-explain"):
            fake.write_text(told.format(helped))
            asked: tuple[tuple[list[str], str], ...] = (
                ([], "--explain"),
                (["--explain"], "--explain"),
                (["--no-explain"], "--no-explain"),
                (["--no-explain", "--explain"], "--no-explain --explain"),
                (["--progress"], f"{helped} --progress".strip()),
                (["--progress", "--explain"], "--progress --explain"),
            )
            for words, wanted in asked:
                status, shown = on_a_terminal(["r", "--taxonomy", "t0", *words], folder, str(fake))
                seen = re.findall(r"<(.*)>", shown.decode())
                self.case(f"{words} {helped}", (status, seen), (0, [wanted]))
        self.case("a pipe", begun().communicate()[1], b"<>\n")

    def test_a_fault_of_what_hears(self) -> None:
        """A fault of what hears the program leaves it not running."""
        seen: list[subprocess.Popen[bytes]] = []

        class Heard(subprocess.Popen[bytes]):
            """Keeps a program where the case sees it."""

            def __init__(self, *given: Any, **more: Any) -> None:
                """Starts it, and keeps it."""
                super().__init__(*given, **more)
                seen.append(self)

        def fails(_: bytes) -> NoReturn:
            """Takes the output, and fails."""
            raise KeyError("a fault")

        kept = whole_stopping.subprocess.Popen
        try:
            whole_stopping.subprocess.Popen = Heard
            stopping.run_program(
                ["sh", "-c", "echo a >&2; exec sleep 30"], stopping.Stopping(), fails
            )
        except KeyError:
            self.case(
                "a fault of what hears leaves no program behind",
                seen[0].returncode,
                -signal.SIGKILL,
            )
        finally:
            whole_stopping.subprocess.Popen = kept
