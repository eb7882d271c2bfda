#!/usr/bin/env python3
"""Tests the C library and its Python package.

    tests/library.py [[--reports] FOLDER] PROGRAM

FOLDER has libxbrl_json.a and libxbrl_json.so.0; PROGRAM is xbrl-json. Without FOLDER the library
that was proved and built here is tested, if it is of these sources; else dist/lib, if that is; else
nothing, and a line gives the reason. With --reports, and for the library that Rattle's own compiler
makes, only the first three are tested. From C, by tests/library.c, and from Python:

- the reports of the test modules in MODULES, whose results are written there by hand;
- the worked reports of examples/, with the bytes, status, lines and faults of PROGRAM;
- the programs of docs/MANUAL.md, which must compile without a warning and give these bytes;
- each request for memory of a conversion refused in turn: a right answer, and no memory left;
- 10,000 calls of each outcome, at each status: always the same answer, and no memory left;
- eight threads at once, each with a stack of 256 KiB: the same answer, also for deep metadata.

The shared library must have the public names only and need only the C library. valgrind is used if
it is installed. Each case that fails is printed; the last line counts. Needs Linux, Python 3.9 or
later and a C compiler.
"""
from __future__ import annotations

import concurrent.futures
import contextlib
import csv
import errno
import importlib
import io
import json
import os
import re
import shutil
import subprocess
import sys
import tempfile
import unittest
from pathlib import Path
from typing import Any, Dict, List, Optional, Sequence, Tuple

TOP = Path(__file__).resolve().parent.parent
sys.path.insert(0, str(TOP))

from tests import cases, dist  # noqa: E402
from tests.cases import case, told  # noqa: E402
NAME = "the C library and the Python package"
WRAP = "-Wl,--wrap=malloc,--wrap=realloc,--wrap=free"
WARNINGS = ["-Wall", "-Wextra", "-Wcast-qual", "-Werror", "-pedantic"]
STANDARDS = (("cc", "-std=c99"), ("cc", "-std=c17"),
             ("c++", "-std=c++11", "-x", "c++", "-Wold-style-cast"))
EXAMPLES = ("held", "quarterly", "questionnaire", "refused")
CALLS = 10_000
# A program that only compiles with the layouts that library/README.md gives.
HEADER = """#include "xbrl_json.h"
#define MUST(name, holds) typedef char name[(holds) ? 1 : -1]
MUST(text, sizeof(xbrl_json_text) == 16 && offsetof(xbrl_json_text, len) == 8);
MUST(file, sizeof(xbrl_json_file) == 32 && offsetof(xbrl_json_file, bytes) == 16);
MUST(answer, sizeof(xbrl_json_answer) == 56 && offsetof(xbrl_json_answer, document) == 8);
MUST(texts, offsetof(xbrl_json_answer, lines) == 24 && offsetof(xbrl_json_answer, faults) == 40);
int main(void) {
    xbrl_json_answer a = XBRL_JSON_ANSWER;
    xbrl_json_free(&a);
    return a.status != 0;
}
"""
# Outcomes that no report of examples/ has: the status, the layout, and the files of the driver.
OUTCOMES = {
    "metadata that is not JSON": (1, "0", ["examples/held/t1.csv", "examples/held/types.csv"]),
    "an unknown layout": (2, "7", ["examples/held/meta.json", "examples/held/types.csv"]),
    "no metadata": (3, "0", ["-", "examples/held/types.csv"]),
    "no types table": (3, "0", ["examples/held/meta.json", "-"]),
}
# Texts of 2 GiB and more, too large to copy into memory: MemoryError, not a shorter text.
LARGE_TEXTS = """import resource, xbrl_json.c_library as library
resource.setrlimit(resource.RLIMIT_AS, (1 << 31, 1 << 31))
for size in (1 << 31, (1 << 32) + 5):
    try:
        library.bytes_of(library.Text(library.nothing().at, size))
    except MemoryError:
        print(size)
"""
# A table of more bytes than the process may have of its own.
MAPPED = """import resource, sys, xbrl_json
resource.setrlimit(resource.RLIMIT_DATA, (1 << 26, 1 << 26))
print(xbrl_json.convert_folder(sys.argv[1]).count(b"t1.r_"))
"""
# More large tables than the process may have files open.
FEW_DESCRIPTORS = """import json, resource, sys, xbrl_json
resource.setrlimit(resource.RLIMIT_NOFILE, (24, 24))
print(len(json.loads(xbrl_json.convert_folder(sys.argv[1]))["facts"]))
"""
# Bytes by which Python may grow in these calls: less than one short text of each answer.
MOST_GROWTH = 1 << 18
MODULES = ["test_reports", "test_cells", "test_facts", "test_metadata", "test_explained",
           "test_explained_metadata", "test_explained_sentences", "test_explained_sources",
           "test_explained_tables", "test_schema_types"]
Run = Tuple[int, bytes, str]


def example_files(name: str) -> List[str]:
    """Returns the files of a report of examples/: META, the types table, and the others."""
    folder = Path("examples") / name
    first = [folder / "meta.json", folder / "types.csv"]
    others = sorted(it.relative_to(TOP) for it in (TOP / folder).rglob("*.csv"))
    return [str(it) for it in (*first, *(it for it in others if it not in first))]


def by_program(program: str, name: str, *words: str) -> Run:
    """Returns how PROGRAM converts a report of examples/."""
    meta, types = example_files(name)[:2]
    command = [program, meta, "--types", types, "--workers", "1", *words]
    done = subprocess.run(command, cwd=TOP, capture_output=True)
    return done.returncode, done.stdout, done.stderr.decode()


# ---- C


def compiled(source: Path, to: Path, *words: str) -> str:
    """Compiles a C file. Returns what the compiler printed."""
    command = ["cc", "-O1", "-g", *WARNINGS, f"-I{TOP / 'library'}", "-o", str(to), str(source)]
    done = subprocess.run([*command, *words], capture_output=True, text=True)
    return done.stderr if done.returncode or done.stderr else ""


def header_by_itself(folder: Path) -> None:
    """Compiles the header by itself, as C and as C++."""
    source = folder / "header.c"
    source.write_text(HEADER)
    for compiler, *words in STANDARDS:
        if shutil.which(compiler):
            command = [compiler, *words, *WARNINGS, "-fsyntax-only", f"-I{TOP / 'library'}", str(source)]
            done = subprocess.run(command, capture_output=True, text=True)
            case(f"the header, {words[0]}", (done.returncode, done.stderr) == (0, ""), done.stderr)


def names_of_library(shared: Path) -> None:
    """Checks the names that the shared library has and needs."""
    if not (shutil.which("nm") and shutil.which("readelf")):
        return
    listed = subprocess.run(["nm", "-D", "--defined-only", shared], capture_output=True, text=True)
    names = sorted(it.split()[-1].split("@")[0] for it in listed.stdout.splitlines())
    wanted = ["xbrl_json_convert", "xbrl_json_version"]
    case("the public names", [it for it in names if it != "XBRL_JSON_0"] == wanted, names)
    about = subprocess.run(["readelf", "-dW", shared], capture_output=True, text=True).stdout
    needed = re.findall(r"\(NEEDED\).*\[(.*)\]", about)
    case("it needs the C library only", needed == ["libc.so.6"], needed)
    case("its own name", "[libxbrl_json.so.0]" in about, about)


def reports_from_c(driver: Path, program: str, folder: Path) -> None:
    """Runs the modules over a program that calls the library."""
    count = folder / "count"
    count.touch(0o666)
    count.chmod(0o666)
    starter = folder / "xbrl-json"
    starter.write_text(f'#!/bin/sh\nexec "{driver}" run "$@"\n')
    starter.chmod(0o755)
    environment = {**os.environ, "PROGRAM": program, "COUNT": str(count), "XBRL_JSON": str(starter)}
    for module in MODULES:
        command = [sys.executable, "-m", "unittest", f"tests.{module}"]
        done = subprocess.run(command, cwd=TOP, capture_output=True, text=True, env=environment)
        found = re.search(r"^Ran (\d+) tests?", done.stderr, re.M)
        cases.count += int(found.group(1)) if found else 0
        case(f"{module} from C", done.returncode == 0 and found is not None, done.stderr[-2000:])
    runs = count.read_text()
    calls, others = runs.count("L"), runs.count("P")
    print(f"from C: {calls} calls, {others} runs of the program")
    case("from C: most runs are calls", calls > 8 * others, calls, others)


def modes_of_driver(driver: Path) -> None:
    """Makes many calls, refuses memory and starts threads, for each report of examples/."""
    for name in EXAMPLES:
        files = example_files(name)
        for words in (["calls", str(CALLS)], ["refuse"], ["threads", "8"]):
            command = [str(driver), *words, *files]
            done = subprocess.run(command, cwd=TOP, capture_output=True, text=True)
            last = done.stdout.splitlines()[-1:]
            case(f"{name}: {words[0]}", done.returncode == 0, done.stdout[-600:], done.stderr)
            print(f"{name}: {words[0]}: {''.join(last)}")
    for name, (status, layout, files) in OUTCOMES.items():
        command = [str(driver), "calls", str(CALLS), *files]
        done = subprocess.run(command, cwd=TOP, capture_output=True, text=True,
                              env={**os.environ, "LAYOUT": layout})
        case(f"{name}: calls", done.returncode == 0, done.stdout, done.stderr)
        case(f"{name}: status", done.stdout.startswith(f"status {status},"), done.stdout)


def deep_metadata(driver: Path, folder: Path) -> None:
    """Converts metadata that is nested as deeply as it may be, and deeper, on small stacks."""
    files = [str(TOP / it) for it in example_files("held")]
    text, table = Path(files[0]).read_text(), folder / "t1.csv"
    files[0], files[2] = str(folder / "meta.json"), str(table)
    for status, levels, cell in ((0, 126, "100"), (1, 126, "1,0"), (1, 1_000_000, "100")):
        lists, objects = "[" * levels + "]" * levels, '{"a":' * levels + "1" + "}" * levels
        deep = f'{{"eg:a":{lists},"eg:b":{objects},"documentInfo"'
        Path(files[0]).write_text(text.replace('{"documentInfo"', deep, 1))
        table.write_text(f'cash,note\n"{cell}",first\n')
        done = subprocess.run([str(driver), "threads", "8", *files], capture_output=True, text=True)
        case(f"{levels} levels: threads", done.returncode == 0, done.returncode, done.stdout, done.stderr)
        case(f"{levels} levels: status", done.stdout.startswith(f"status {status},"), done.stdout)


def memory_errors(driver: Path) -> None:
    """Runs calls under valgrind, if it is there: no wrong access, and no memory left."""
    if not shutil.which("valgrind"):
        print("valgrind is not installed")
        return
    for name in EXAMPLES:
        words = ["valgrind", "-q", "--error-exitcode=9", "--leak-check=full",
                 "--errors-for-leak-kinds=definite", str(driver), "calls", "3"]
        done = subprocess.run([*words, *example_files(name)], cwd=TOP, capture_output=True, text=True)
        case(f"{name}: valgrind", done.returncode == 0, done.stdout, done.stderr)


# ---- Python


class ByPython:
    """Runs the words of xbrl-json with the Python package, or else with the program."""

    def __init__(self, package: Any, program: str) -> None:
        self.package, self.program = package, program
        self.calls = self.others = 0

    def settings(self, words: Sequence[str]) -> Optional[Dict[str, str]]:
        """Returns the options, or None if these words do not ask for a conversion in memory."""
        found: Dict[str, str] = {}
        left = []
        for word in words:
            left += word.split("=", 1) if word.startswith("--") else [word]
        while left:
            word = left.pop(0)
            if word == "--explain":
                found[word] = ""
            elif word in ("--types", "--layout", "--workers", "--ring", "--out") and left:
                found[word] = left.pop(0)
            elif not word.startswith("-") and "META" not in found:
                found["META"] = word
            else:
                return None
        workers, ring = found.get("--workers", "1"), found.get("--ring", "1")
        fine = workers.isdigit() and 0 < int(workers) <= 64 and ring.isdigit() and 0 < int(ring) <= 65536
        fine = fine and found.get("--layout", "lines") in ("compact", "lines")
        return found if fine and "META" in found and "--types" in found else None

    def files(self, folder: Path, found: Dict[str, str]) -> Optional[Dict[str, bytes]]:
        """Returns the files below META's folder and the types table, or None without these two."""
        meta, types = found["META"], found["--types"]
        if not all((folder / it).is_file() for it in (meta, types)):
            return None
        if "--out" in found and os.path.lexists(folder / found["--out"]):
            return None
        base = os.path.dirname(meta)
        files = {types: (folder / types).read_bytes(), meta: (folder / meta).read_bytes()}
        for path in (folder / base).rglob("*"):
            if path.is_file():
                name = os.path.join(base, path.relative_to(folder / base).as_posix())
                files.setdefault(name, path.read_bytes())
        return files

    def run(self, folder: Path, words: Sequence[str]) -> Run:
        """Returns status, standard output and standard error."""
        found = self.settings(words)
        files = None
        with contextlib.suppress(OSError):
            files = self.files(folder, found) if found else None
        if found is None or files is None:
            return self.by_program(folder, words)
        layout = found.get("--layout", "compact")
        document, status, lines = b"", 0, ""
        try:
            document = self.package.convert(files, found["META"], found["--types"], layout)
        except self.package.ConversionError as error:
            status, lines = error.status, said(error.lines, "--explain" in found)
            about_folder = any((folder / it.split()[-1]).is_dir() for it in error.lines.splitlines()[:2])
            if about_folder or status == 3 and ("--explain" in found or "--out" in found):
                return self.by_program(folder, words)
        if "--out" in found:
            try:
                (folder / found["--out"]).write_bytes(document)
            except OSError:
                return self.by_program(folder, words)
            document = b""
        self.calls += 1
        return status, document, lines

    def by_program(self, folder: Path, words: Sequence[str]) -> Run:
        """Runs the program, for words and files that a library cannot have."""
        self.others += 1
        done = subprocess.run([self.program, *words], cwd=folder, stdin=subprocess.DEVNULL,
                              capture_output=True)
        return done.returncode, done.stdout, done.stderr.decode(errors="replace")


def said(lines: str, explain: bool) -> str:
    """Returns the lines, without those of explanations if they are not wanted."""
    kept = [it for it in lines.splitlines(keepends=True) if explain or not it.startswith("    ")]
    return "".join(kept)


def reports_from_python(by_python: ByPython) -> None:
    """Runs the modules in this process, with calls instead of runs.

    An exception has no unfinished document, so that is not compared.
    """
    os.environ["XBRL_JSON"] = by_python.program
    sys.path.insert(0, str(TOP))
    harness: Any = importlib.import_module("tests.harness")
    run_program, check_run = harness.TestCase.run_program, harness.TestCase.check_run

    def run(test: Any, *words: Any, **more: Any) -> Any:
        """Runs these words in the folder of a test."""
        if more or not all(isinstance(it, str) for it in words):
            by_python.others += 1
            return run_program(test, *words, **more)
        return harness.Done(*by_python.run(test.folder, words))

    def check(test: Any, seen: Any, status: int, out: bytes, err: str) -> None:
        """Compares a run, without the document if it is unfinished."""
        check_run(test, seen, status, seen.out if status else out, err)

    harness.TestCase.run_program, harness.TestCase.check_run = run, check
    for module in MODULES:
        tests = unittest.defaultTestLoader.loadTestsFromName(f"tests.{module}")
        result = unittest.TestResult()
        tests.run(result)
        cases.count += result.testsRun
        wrong = [*result.failures, *result.errors]
        case(f"{module} from Python", not wrong, len(wrong), *(f"{it}: {why[-500:]}" for it, why in wrong[:3]))
    calls, others = by_python.calls, by_python.others
    print(f"from Python: {calls} calls, {others} runs of the program")
    case("from Python: most runs are calls", calls > 8 * others, calls, others)


def examples_from_python(package: Any, program: str) -> None:
    """Compares documents, lines and faults with those of PROGRAM, in both layouts."""
    os.chdir(TOP)
    for name in EXAMPLES:
        files = {it: (TOP / it).read_bytes() for it in example_files(name)}
        meta, types = example_files(name)[:2]
        for layout in ("compact", "lines"):
            with tempfile.NamedTemporaryFile("r") as faults:
                by_program(program, name, "--faults", faults.name)
                records = list(csv.reader(io.StringIO(Path(faults.name).read_text(), newline="")))[1:]
            wanted = by_program(program, name, "--layout", layout, "--explain")
            for way in ("convert", "convert_folder"):
                try:
                    if way == "convert":
                        seen: Run = 0, package.convert(files, meta, types, layout), ""
                    else:
                        seen = 0, package.convert_folder(f"examples/{name}", layout=layout), ""
                    listed: List[List[str]] = []
                except package.Refused as refused:
                    seen = refused.status, wanted[1], refused.lines
                    listed = [["" if value is None else str(value) for value in vars(it).values()]
                              for it in refused.faults]
                case(f"{name}, {layout}, {way}", seen == wanted, seen, wanted)
                case(f"{name}, {layout}, {way}: faults", listed == records, listed, records)


def python_threads(package: Any) -> None:
    """Converts the reports of examples/ in eight threads of Python at once."""

    def ended(number: int) -> object:
        """Converts a report. Returns its document, or its lines and faults."""
        try:
            return package.convert_folder(TOP / "examples" / EXAMPLES[number % len(EXAMPLES)])
        except package.Refused as refused:
            return refused.lines, refused.faults

    wanted = [ended(it) for it in range(len(EXAMPLES))]
    with concurrent.futures.ThreadPoolExecutor(8) as pool:
        seen = list(pool.map(ended, range(100 * len(EXAMPLES))))
    case("threads of Python", seen == 100 * wanted)


def resident() -> int:
    """Returns how many bytes of memory this process uses."""
    pages = Path("/proc/self/statm").read_text().split()[1]
    return int(pages) * os.sysconf("SC_PAGE_SIZE")


def python_memory(package: Any) -> None:
    """Makes many calls of each outcome, and compares the memory before and after them."""
    held, refused = ({it: (TOP / it).read_bytes() for it in example_files(name)} for name in ("held", "refused"))
    kinds = [(held, "examples/held", "types.csv"), (refused, "examples/refused", "types.csv"),
             (held, "examples/held", "t1.csv"), (held, "examples/held", "absent.csv")]
    for files, folder, types in kinds:
        before = 0
        for number in range(CALLS + 1_000):
            if number == 1_000:
                before = resident()
            with contextlib.suppress(package.ConversionError):
                package.convert(files, f"{folder}/meta.json", f"{folder}/{types}")
        case(f"Python, {folder}, {types}: memory", resident() - before < MOST_GROWTH, resident() - before)


def python_errors(package: Any, folder: Path) -> None:
    """Checks the errors for wrong calls, and files that are mapped, missing or outside."""
    def raised(kind: type, call: Any, *words: Any) -> bool:
        """Whether a call raises an error of exactly this kind."""
        try:
            call(*words)
        except Exception as error:
            return bool(type(error) is kind)
        return False

    case("an unknown layout", raised(ValueError, package.convert, {}, "m", "t", "wide"))
    case("a path that is not UTF-8", raised(ValueError, package.convert, {}, "m\udc80", "t"))
    case("no files", raised(package.ConversionError, package.convert, {}, "m", "t"))
    case("not a buffer", raised(TypeError, package.convert, {"m": "text", "t": b""}, "m", "t"))
    case("a buffer with gaps", raised(BufferError, package.convert, {"m": memoryview(b"abcd")[::2]}, "m", "t"))
    case("a folder without a report", raised(FileNotFoundError, package.convert_folder, folder))
    report = TOP / "examples/held"
    files: Dict[str, Any] = {it.name: it.read_bytes() for it in report.iterdir() if it.is_file()}
    wanted = package.convert(files, "meta.json", "types.csv")
    kinds = {name: kind(it) for (name, it), kind in zip(sorted(files.items()), (bytearray, memoryview) * 9)}
    case("bytearray and memoryview", package.convert(kinds, "meta.json", "types.csv") == wanted)
    large = folder / "large"
    shutil.copytree(report, large)
    rows = "".join(f"{it},a note of some length\n" for it in range(60_000))
    (large / "t1.csv").write_text(f"cash,note\n{rows}")
    document = json.loads(package.convert_folder(large))
    case("a mapped table", len(document["facts"]) == 120_000, len(document["facts"]))
    (large / "t1.csv").unlink()
    case("a table that does not exist", raised(package.Refused, package.convert_folder, large))
    metadata = json.loads((large / "meta.json").read_text())
    metadata["tables"]["t1"]["url"] = "../secret.csv"
    (large / "meta.json").write_text(json.dumps(metadata))
    os.mkfifo(folder / "secret.csv")
    case("a path that leads outside", raised(package.Refused, package.convert_folder, large))


def python_folders(package: Any, program: str, folder: Path) -> None:
    """Checks that convert_folder opens the files that the program opens."""
    report = folder / "report"
    shutil.copytree(TOP / "examples/held", report)
    text = (report / "meta.json").read_text()

    def ended(old: str, new: str) -> object:
        """Changes the metadata. Returns how both ended, if they do not agree."""
        (report / "meta.json").write_text(text.replace(old, new, 1))
        words = [program, "meta.json", "--types", "types.csv", "--workers", "1"]
        wanted = subprocess.run(words, cwd=report, capture_output=True)
        try:
            seen = 0, package.convert_folder(report)
        except package.Refused as refused:
            seen = refused.status, wanted.stdout
        except OSError as error:
            return error.errno if b"Read (" in wanted.stderr else wanted.stderr
        return "as the program" if seen == (wanted.returncode, wanted.stdout) else (seen, wanted)

    start, loop = '{"documentInfo"', report / "loop.csv"
    (report / "a folder").mkdir()
    loop.symlink_to(loop)
    for name, more in (("a url that is not a table's", '"eg:a":{"url":"a folder"}'),
                       ("tables twice", '"tables":{"t0":{"url":"a folder"}}'),
                       ("tables that are a list", '"tables":[{"url":"a folder"}]')):
        seen = ended(start, f'{{{more},"documentInfo"')
        case(name, seen == "as the program", seen)
    for name, url in (("a file as a folder", "t1.csv/t1.csv"), ("a colon", "a:b"), ("an empty path", "")):
        seen = ended('"url":"t1.csv"', f'"optional":true,"url":"{url}"')
        case(name, seen == "as the program", seen)
    for name, url, wanted in (("a loop of links", "loop.csv", errno.ELOOP),
                              ("a folder as a table", "a folder", errno.EISDIR),
                              ("a long name", "n" * 300, errno.ENAMETOOLONG)):
        seen = ended('"url":"t1.csv"', f'"optional":true,"url":"{url}"')
        case(name, seen == wanted, seen)


def large_tables(folder: Path) -> None:
    """Converts a table that is too large to copy, and more tables than may be open."""
    report = folder / "tables"
    shutil.copytree(TOP / "examples/held", report)
    metadata = json.loads((report / "meta.json").read_text())

    def printed(script: str) -> str:
        """Runs a script over the report. Returns what it prints."""
        done = subprocess.run([sys.executable, "-c", script, report], capture_output=True, text=True,
                              cwd=TOP / "library/python")
        return done.stdout + done.stderr

    (report / "t1.csv").write_text("cash,note\n1,a\n" + "\n" * (100 << 20))
    seen = printed(MAPPED)
    case("a table is not copied", seen == "2\n", seen)
    for number in range(40):
        metadata["tables"][f"u{number}"] = {"url": f"u{number}.csv", "template": "p"}
        (report / f"u{number}.csv").write_text("cash,note\n1,a\n" + "\n" * (1 << 20))
    (report / "meta.json").write_text(json.dumps(metadata))
    seen = printed(FEW_DESCRIPTORS)
    case("few descriptors", seen == "82\n", seen)


def python_long_texts(package: Any) -> None:
    """Checks long and odd cells of faults, and that a document of any length is returned whole."""
    folder = "examples/held"
    files = {it: (TOP / it).read_bytes() for it in example_files("held")}
    for cell in ("1" * 200_000 + ',"x"\n""', "nul\0", '"', "\r\n", "\u00a0\u00e9"):
        quoted = cell.replace('"', '""')
        files[f"{folder}/t1.csv"] = f'cash,note\n1,a\n"{quoted}",b\n'.encode()
        seen: object = None
        try:
            seen = package.convert(files, f"{folder}/meta.json", f"{folder}/types.csv")
        except package.Refused as refused:
            seen = [(it.row, it.line, it.name, it.header, it.cell) for it in refused.faults]
        case(f"a fault of the cell {cell[-9:]!r}", seen == [(2, 3, "BadNumber", "cash", cell)], seen)
    done = subprocess.run([sys.executable, "-c", LARGE_TEXTS], cwd=TOP / "library/python",
                          capture_output=True, text=True)
    wanted = f"{1 << 31}\n{(1 << 32) + 5}\n"
    case("texts of 2 GiB and more", done.stdout == wanted, done.stdout, done.stderr)


# ---- the examples of the page


def blocks(language: str) -> List[str]:
    """Returns the programs of docs/MANUAL.md in a language."""
    page = (TOP / "docs/MANUAL.md").read_text()
    return re.findall(rf"^```{language}\n(.*?)^```$", page, re.M | re.S)


def page_examples(library: Path, program: str, folder: Path) -> None:
    """Compiles and runs the programs of the page, over each report of examples/."""
    (found,) = blocks("c")
    source = folder / "convert.c"
    source.write_text(found)
    shared = folder / "shared"
    shared.mkdir()
    shutil.copy(library / "libxbrl_json.so.0", shared)
    (shared / "libxbrl_json.so").symlink_to("libxbrl_json.so.0")
    ways = {"static": [str(library / "libxbrl_json.a")], "shared": [f"-L{shared}", "-lxbrl_json"]}
    (script,) = blocks("python")
    (folder / "convert.py").write_text(script)
    environment = {**os.environ, "LD_LIBRARY_PATH": str(shared),
                   "XBRL_JSON_LIBRARY": str(library / "libxbrl_json.so.0"),
                   "PYTHONPATH": str(TOP / "library/python")}
    case("the page's C has at most 40 lines", found.count("\n") <= 40, found.count("\n"))
    case("the page's Python has at most 10 lines", script.count("\n") <= 10, script.count("\n"))
    for way, words in ways.items():
        printed = compiled(source, folder / f"by-{way}", *words)
        case(f"the page's C, {way}", printed == "", printed)
    for name in EXAMPLES:
        wanted = by_program(program, name, "--explain")
        for way in ways:
            done = subprocess.run([str(folder / f"by-{way}"), *example_files(name)], cwd=TOP,
                                  capture_output=True, env=environment)
            seen = done.returncode, done.stdout, done.stderr.decode()
            document = wanted[1] if wanted[0] == 0 else b""
            case(f"the page's C, {way}: {name}", seen == (wanted[0], document, wanted[2]), seen, wanted)
        done = subprocess.run([sys.executable, str(folder / "convert.py"), f"examples/{name}"], cwd=TOP,
                              capture_output=True, env=environment)
        fine = done.returncode == wanted[0] and done.stdout == (wanted[1] if wanted[0] == 0 else b"")
        case(f"the page's Python: {name}", fine, done.returncode, done.stdout, done.stderr)


def tested(library: Path, program: str, is_whole: bool) -> int:
    """Tests a library, or only reports. Returns the status: 1 if a case fails."""
    os.environ["XBRL_JSON_LIBRARY"] = str(library / "libxbrl_json.so.0")
    sys.path.insert(0, str(TOP / "library/python"))
    package = importlib.import_module("xbrl_json")
    version = subprocess.run([program, "--version"], capture_output=True, text=True).stdout
    case("the version", f"xbrl-json {package.version()}\n" == version, package.version(), version)
    names_of_library(library / "libxbrl_json.so.0")
    with tempfile.TemporaryDirectory() as name:
        folder = Path(name)
        folder.chmod(0o755)  # tests/test_explained*.py also runs the driver as another user
        driver, plain = folder / "driver", folder / "plain"
        archive, source = str(library / "libxbrl_json.a"), TOP / "tests/library.c"
        printed = compiled(source, driver, "-std=gnu11", "-DWRAPPED", WRAP, "-pthread", archive)
        printed += compiled(source, plain, "-std=gnu11", "-pthread", archive)
        case("the driver", printed == "", printed)
        page_examples(library, program, folder)
        examples_from_python(package, program)
        if is_whole:
            header_by_itself(folder)
            python_errors(package, folder)
            python_folders(package, program, folder)
            large_tables(folder)
            python_long_texts(package)
            python_threads(package)
            python_memory(package)
            modes_of_driver(driver)
            deep_metadata(driver, folder)
            memory_errors(plain)
        reports_from_c(driver, program, folder)
        reports_from_python(ByPython(package, program))
    return told(NAME)


# ---- which library


def built_here() -> Dict[str, Tuple[Path, List[str]]]:
    """Returns the archives that were built here of these sources, and how each is tested."""
    sources = dist.asked(TOP, "sources_sum", ".", dist.LIBRARY_CRATE)
    if not dist.holds(TOP, "is_library_built_of", ".", sources):
        return {}
    archive = TOP / dist.LIBRARY_BUILT
    found: Dict[str, Tuple[Path, List[str]]] = {"by LLVM": (archive, [])}
    other = archive.with_suffix(".by-rattle.a")
    if other.exists():
        found["by Rattle's own compiler"] = other, ["--reports"]
    return found


def left_out() -> str:
    """Returns why dist/lib is not tested, or an empty text if it is."""
    if not (TOP / dist.LIBRARY).exists():
        return f"there is no {dist.LIBRARY}"
    sources = dist.asked(TOP, "sources_sum", ".", dist.LIBRARY_CRATE)
    if dist.asked(TOP, "noted", str(dist.LIBRARY / "SOURCES"), "sources") != sources:
        return f"{dist.LIBRARY} is of other sources"
    return ""


def tested_apart(name: str, *words: object) -> None:
    """Tests a library in a process of its own, because one process loads one library."""
    command = [sys.executable, str(Path(__file__).resolve()), *map(str, words)]
    done = subprocess.run(command, capture_output=True, text=True)
    *lines, last = done.stdout.splitlines() or [""]
    print("\n".join([f"{name}:", *lines]))
    counts = re.search(r": (\d+) as they must be, (\d+) not$", last)
    if counts is None:
        case(name, False, done.returncode, last, done.stderr[-800:])
        return
    passed, wrong = map(int, counts.groups())
    cases.count += passed + wrong
    cases.failed += [name] * wrong


def main(program: str) -> int:
    """Tests the library of these sources, if it is here. Returns the status: 1 if a case fails."""
    found = built_here()
    with tempfile.TemporaryDirectory() as folder:
        for name, (archive, options) in found.items():
            library = Path(folder) / name
            words = [TOP / "packaging/library.py", "--from", archive, library]
            subprocess.run([sys.executable, *map(str, words)], check=True, stdout=subprocess.DEVNULL)
            tested_apart(name, *options, library, program)
    reason = "" if found else left_out()
    if reason:
        print(f"left out: {reason}")
    elif not found:
        tested_apart(str(dist.LIBRARY), TOP / dist.LIBRARY, program)
    return told(NAME)


if __name__ == "__main__":
    *options, file = sys.argv[1:] or [""]
    *option, folder = options or [""]
    if not file or option not in ([], ["--reports"]):
        sys.exit(__doc__)
    at = os.path.abspath(file)
    sys.exit(tested(Path(folder).resolve(), at, not option) if folder else main(at))
