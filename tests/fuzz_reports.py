#!/usr/bin/env python3
"""Converts reports that are made by chance, and compares each with a second reading.

    tests/fuzz_reports.py PROGRAM [--cases N] [--seconds N] [--seed S] [--jobs J]
    tests/fuzz_reports.py PROGRAM --seed S --case K [--keep FOLDER]

Case K of a seed is the same on every machine with one version of Python. A failed case prints the
command that shows it again; `--keep` leaves its files in a new folder. Without `--seconds` and
`--cases` it judges 600 cases, about a minute.

Two cases of three are reports by the rules, of which every second has faults. Columns, levels,
references, property groups, row identifiers, cells and long texts are chosen by chance. The output,
the lines and the status must be those of `tests/own_reading.py`, with one worker and with several,
and so must be all records of the file of faults.

In each third case bytes of the metadata, the types table or a table are changed. Then the run must
end with status 0 or 1, with one worker as with several, and a document must be JSON. No run may
take 20 seconds of the processor, or 1 GB of memory. Needs Linux and Python 3.9 or later.
"""
from __future__ import annotations

import argparse
import csv
import io
import json
import os
import resource
import subprocess
import sys
import tempfile
import time
from concurrent.futures import ThreadPoolExecutor
from pathlib import Path
from random import Random
from typing import Any, NamedTuple, Optional

TOP = Path(__file__).resolve().parent.parent
sys.path.insert(0, str(TOP))

from tests.fault_files import NAMES, NO_CAUSE  # noqa: E402
from tests.own_reading import Report, Told  # noqa: E402

# Without words for it: cases, and seconds for all of them
CASES, LONGEST_RUN = 600, 3_000
# What a run may take: seconds of the processor, and bytes with the stacks of its threads
MOST_SECONDS, MOST_MEMORY = 20, 1 << 30
EG = "http://example.com/eg"
FAULTS = "faults.csv"
NAMESPACES = {
    "eg": EG,
    "iso4217": "http://www.xbrl.org/2003/iso4217",
    "xbrli": "http://www.xbrl.org/2003/instance",
}
TYPES = {"Cash": "decimal", "Staff": "integer", "Note": "text", "Site": "typed", "Area": "explicit"}
TYPES.update({f"Site{i}": "typed" for i in range(6)})
GOOD = {
    "entity": ["eg:A1", "eg:B", "$who", "$nobody"],
    "period": ["2021-12-31T00:00:00", "2021-01-01T00:00:00/2022-01-01T00:00:00", "$when", "#none"],
    "unit": ["iso4217:EUR", "xbrli:pure", "eg:a*eg:b/eg:c", "$what", "#none"],
    "language": ["en", "de-AT", "$tongue", "#none"],
    "eg:Area": ["eg:North", "$area", "#none"],
    "concept": ["eg:Cash", "eg:Staff", "eg:Note", "$fact"],
}
TEXTS = ["", "x", "a b", '"', "\\", "ü\u2028", "#none", "##x", "$$x", "$who", "$rowNumber", "\x07"]
# What a reference may find in a cell or a parameter, by its name
FOUND = {
    "who": ["eg:A1", "eg:C", "", "#none"],
    "when": ["2020-02-02T02:02:02", "", "#none"],
    "what": ["iso4217:USD", "xbrli:pure", "", "#none"],
    "tongue": ["fr", "EN", "", "#none"],
    "area": ["eg:South", "", "#none"],
    "fact": ["eg:Cash", "eg:Staff", "eg:Note"],
    "places": ["2", "-3", "INF", "", "#none"],
}
BAD = ["#x", "#nil", "#empty", "a b", "zz:x", "2021-13-01T00:00:00", "eg:Nothing", "1,5", "--1"]
NUMBERS = ["1", "-20", "+0", "007", "12345678901234567890", "#nil", "5d2", "6dINF", " 7 ", ""]
FRACTIONS = ["1.5", "-.5", "2.", "0.10d-1"]
NOTES = ["", "a", "#empty", "#nil", "##", "##nil", 'x "y"', "two\nlines", "z" * 300, "ü,;\t"]


class Case(NamedTuple):
    """A case: its files, the ways in which it is converted, and what it must end with, if known.

    `faults` are the records that the file of faults must have, if they are known.
    """

    files: dict[str, bytes]
    ways: list[list[str]]
    told: Optional[Told]
    faults: Optional[list[list[str]]] = None


class Ended(NamedTuple):
    """How a run ended, and the seconds of the processor that it took."""

    status: int
    out: bytes
    err: str
    seconds: float



class Maker:
    """Makes a report by chance."""

    def __init__(self, chance: Random, has_faults: bool) -> None:
        """Decides how often a part is bad."""
        self.chance = chance
        self.badness = chance.choice([0.001, 0.01, 0.1]) if has_faults else 0.0

    def is_bad(self) -> bool:
        """Returns whether the next part is bad."""
        return self.chance.random() < self.badness

    def dimensions(self, most: int) -> dict[str, str]:
        """Makes what a level writes of dimensions."""
        names = self.chance.sample(list(GOOD), self.chance.randrange(most))
        found = {name: self.chance.choice(GOOD[name]) for name in names}
        for name in ("eg:Site", *(f"eg:Site{i}" for i in range(6))):
            if self.chance.random() < 0.2:
                found[name] = self.chance.choice(TEXTS)
        if self.chance.random() < 0.03:
            found["eg:Site"] = self.chance.choice("xü\x01") * self.chance.randrange(2_000)
        return {name: text for name, text in found.items() if text}

    def level(self, most: int) -> dict[str, Any]:
        """Makes a level: dimensions, and perhaps decimals."""
        found: dict[str, Any] = {"dimensions": self.dimensions(most)}
        if self.chance.random() < 0.3:
            found["decimals"] = self.chance.choice([0, 2, -3, "$places", "#none"])
        return found

    def column(self, groups: list[str]) -> dict[str, Any]:
        """Makes a column of facts."""
        found = self.level(3)
        concept = self.chance.choice(GOOD["concept"])
        found["dimensions"]["concept"] = concept
        if groups and self.chance.random() < 0.5:
            count = self.chance.randint(1, len(groups))
            found["propertiesFrom"] = self.chance.sample(groups, count)
        return found

    def template(self) -> dict[str, Any]:
        """Makes a template."""
        groups = [f"g{i}" for i in range(self.chance.choice([0, 0, 1, 2]))]
        columns: dict[str, Any] = {name: {} for name in FOUND if self.chance.random() < 0.5}
        for name in groups:
            count = self.chance.choice([1, 2, 30])
            columns[name] = {"propertyGroups": {f"k{i}": self.level(3) for i in range(count)}}
        count = self.chance.choice([1, 2, 5, 5, 300])
        made = [self.column(groups) for _ in range(min(count, 5))]
        columns.update({f"c{i}": made[i % len(made)] for i in range(count)})
        found: dict[str, Any] = {"columns": columns, **self.level(4)}
        if self.chance.random() < 0.4:
            columns["id"] = {}
            found["rowIdColumn"] = "id"
        return found

    def cell(self, name: str, template: dict[str, Any], number: int) -> str:
        """Makes a cell of a column."""
        column = template["columns"][name]
        if name == "id":
            return self.chance.choice(["", "a.b", "i1"]) if self.is_bad() else f"i{number}"
        if self.is_bad():
            return self.chance.choice(BAD)
        if "propertyGroups" in column:
            named: list[str] = [*column["propertyGroups"], "", "#none"]
            return self.chance.choice(named)
        if name in FOUND:
            return self.chance.choice(FOUND[name])
        return self.value(column)

    def value(self, column: dict[str, Any]) -> str:
        """Makes the cell of a fact."""
        concept = column["dimensions"]["concept"]
        if concept == "eg:Cash":
            return self.chance.choice(NUMBERS + FRACTIONS)
        if concept == "eg:Note":
            if self.chance.random() < 0.001:
                return "y" * self.chance.randrange(3_000_000)
            return self.chance.choice(NOTES)
        return self.chance.choice(NUMBERS)

    def table(self, template: dict[str, Any]) -> list[list[str]]:
        """Makes the records of a table."""
        header = list(template["columns"])
        self.chance.shuffle(header)
        if self.chance.random() < 0.2:
            header.insert(self.chance.randrange(len(header) + 1), "")
        if self.is_bad():
            header[self.chance.randrange(len(header))] = self.chance.choice([*header, "nothing"])
        if "rowIdColumn" in template and "id" not in header:
            header.append("id")
        most = 20_000 // (len(header) * 10)
        count = self.chance.choice([0, 1, 3, 60, most])
        records = [header]
        for number in range(1, count + 1):
            record = [
                self.cell(it, template, number) if it in template["columns"] else "x"
                for it in header
            ]
            if len(record) > 1 and self.is_bad() and self.is_bad():
                record.pop()
            records.append(record)
        return records

    def parameters(self) -> dict[str, str]:
        """Makes parameters of the report or of a table."""
        chosen = [name for name in FOUND if self.chance.random() < 0.6]
        found = {name: self.chance.choice(FOUND[name]) for name in chosen}
        if self.is_bad():
            found["who"] = self.chance.choice(BAD)
        return {name: text for name, text in found.items() if text}

    def report(self) -> Report:
        """Makes a report."""
        templates = {f"p{i}": self.template() for i in range(self.chance.choice([1, 1, 2]))}
        tables: dict[str, Any] = {}
        records = {}
        for i in range(self.chance.choice([1, 2, 2, 9])):
            name = self.chance.choice(list(templates))
            tables[f"t{i}"] = {"url": f"t{i}.csv", "template": name}
            if self.chance.random() < 0.3:
                tables[f"t{i}"]["parameters"] = self.parameters()
            records[f"t{i}"] = self.table(templates[name])
        metadata = {
            "documentInfo": {
                "documentType": "https://xbrl.org/2021/xbrl-csv",
                "namespaces": NAMESPACES,
                "taxonomy": ["http://example.com/eg.xsd"],
            },
            "parameters": self.parameters(),
            **self.level(4),
            "tableTemplates": templates,
            "tables": tables,
        }
        types = {f"{EG} {name}": kind for name, kind in TYPES.items()}
        return Report(metadata, types, records)


def csv_of(chance: Random, records: list[list[str]]) -> bytes:
    """Returns the file of a table: its quotes and line ends are chosen by chance."""
    text = io.StringIO()
    quoting = chance.choice([csv.QUOTE_MINIMAL, csv.QUOTE_ALL])
    if any(record == [""] for record in records):
        quoting = csv.QUOTE_ALL
    ends = chance.choice(["\n", "\r\n"])
    csv.writer(text, quoting=quoting, lineterminator=ends).writerows(records)
    return chance.choice([b"", b"\xef\xbb\xbf"]) + text.getvalue().encode()


def files_of(chance: Random, report: Report) -> dict[str, bytes]:
    """Returns the files of a report."""
    types = "".join(f"{key.replace(' ', ',')},{kind}\n" for key, kind in report.types.items())
    found = {
        "meta.json": json.dumps(report.metadata, ensure_ascii=chance.random() < 0.5).encode(),
        "types.csv": f"namespace,name,type\n{types}".encode(),
    }
    for name, records in report.tables.items():
        found[f"{name}.csv"] = csv_of(chance, records)
    return found


def broken(chance: Random, files: dict[str, bytes]) -> dict[str, bytes]:
    """Changes some bytes of a file."""
    name = chance.choice(["meta.json", "meta.json", "types.csv", *files])
    held = bytearray(files[name])
    for _ in range(chance.choice([1, 1, 2, 8])):
        at = chance.randrange(len(held) + 1)
        to = min(at + chance.choice([0, 1, 1, 30]), len(held))
        piece = chance.choice([b"", b'"', b",", b"\n", b"{", b"}", b"\xff", b"#", b"$", b"eg:"])
        held[at:to] = piece * chance.choice([1, 1, 1, 1000])
    return {**files, name: bytes(held)}


def case_of(seed: int, number: int) -> Case:
    """Makes a case."""
    chance = Random(f"{seed} {number}")
    report = Maker(chance, number % 3 == 1).report()
    files = files_of(chance, report)
    workers, ring = chance.choice([2, 4, 4, 9]), chance.choice([1, 3, 1_024])
    ways = [["--workers", "1"], ["--workers", str(workers), "--ring", str(ring)]]
    for words in ways:
        words += ["--faults", FAULTS]
    if number % 3 == 2:
        return Case(broken(chance, files), ways, None)
    return Case(files, ways, report.told(), report.fault_records(files))


def limit() -> None:
    """Limits the processor time and the memory of a run."""
    resource.setrlimit(resource.RLIMIT_CPU, (MOST_SECONDS, MOST_SECONDS))
    resource.setrlimit(resource.RLIMIT_DATA, (MOST_MEMORY, MOST_MEMORY))


def ended(program: str, folder: Path, words: list[str]) -> Ended:
    """Runs the program in a folder."""
    with open(folder / "out", "w+b") as out, open(folder / "err", "w+b") as err:
        run = subprocess.Popen(
            [program, "meta.json", "--types", "types.csv", *words],
            cwd=folder,
            stdin=subprocess.DEVNULL,
            stdout=out,
            stderr=err,
            preexec_fn=limit,
        )
        _, status, usage = os.wait4(run.pid, 0)
        run.returncode = os.waitstatus_to_exitcode(status)
        out.seek(0)
        err.seek(0)
        seconds = usage.ru_utime + usage.ru_stime
        said = err.read().decode(errors="replace")
        return Ended(run.returncode, out.read(), said, seconds)


def fault_of(run: Ended, told: Told) -> Optional[str]:
    """Returns what is wrong with how a run ended, or None."""
    seen = Told(run.status, run.out, run.err)
    for name, found, wanted in zip(Told._fields, seen, told):
        if found != wanted:
            if isinstance(found, bytes) and isinstance(wanted, bytes):
                at = len(os.path.commonprefix([found, wanted]))
                near = slice(max(at - 60, 0), at + 100)
                return f"out from place {at}: wanted {wanted[near]!r}, found {found[near]!r}"
            return f"{name}: wanted {wanted!r:.400}, found {found!r:.400}"
    return None


def broken_fault_of(run: Ended) -> Optional[str]:
    """Returns what is wrong with how a run over a broken report ended, or None."""
    if run.status not in (0, 1):
        return f"status {run.status}"
    if run.status == 1:
        lines = run.err.splitlines()
        is_said = lines and all(it.startswith("xbrl-json: ") for it in lines)
        return None if is_said else f"lines {run.err!r:.400}"
    try:
        json.loads(run.out)
    except ValueError as why:
        return f"a document that is not JSON: {why}"
    return None if not run.err else f"status 0 with lines {run.err!r:.400}"


def listed_fault_of(folder: Path, wanted: list[list[str]]) -> Optional[str]:
    """Returns what is wrong with the file of faults, or None. Causes are not compared."""
    with open(folder / FAULTS, newline="", encoding="utf-8") as file:
        _, *found = (it[: len(NAMES) - len(NO_CAUSE)] for it in csv.reader(file, strict=True))
    if found == wanted:
        return None
    for at, (one, other) in enumerate(zip(found, wanted)):
        if one != other:
            return f"record {at} of the faults: wanted {other!r:.400}, found {one!r:.400}"
    return f"faults: wanted {len(wanted)} records, found {len(found)}"


def judged(program: str, folder: Path, case: Case) -> Optional[str]:
    """Converts a case in its ways, and returns what is wrong, or None."""
    told = case.told
    for words in case.ways:
        run = ended(program, folder, words)
        if run.seconds >= MOST_SECONDS:
            return f"{' '.join(words)}: {run.seconds:.1f} s"
        why = broken_fault_of(run) if told is None else fault_of(run, told)
        if why is None and case.faults is not None:
            why = listed_fault_of(folder, case.faults)
        if why:
            return f"{' '.join(words)}: {why}"
        told = told or Told(run.status, run.out, run.err)
    return None


def judge(program: str, seed: int, number: int, keep: Optional[Path]) -> Optional[str]:
    """Makes a case and judges it. Returns what is wrong, or None."""
    with tempfile.TemporaryDirectory() as made:
        folder = Path(made)
        if keep is not None:
            keep.mkdir()
            folder = keep
        case = case_of(seed, number)
        for name, held in case.files.items():
            (folder / name).write_bytes(held)
        return judged(program, folder, case)


def judge_all(program: str, seed: int, cases: int, seconds: float, jobs: int) -> tuple[int, int]:
    """Judges cases while there is time, and prints each that fails. Returns how many did not."""
    until = time.monotonic() + seconds
    good = bad = 0

    def one(number: int) -> Optional[str]:
        return judge(program, seed, number, None) if time.monotonic() < until else "late"

    with ThreadPoolExecutor(jobs) as pool:
        for first in range(0, cases, 256):
            numbers = range(first, min(first + 256, cases))
            for number, why in zip(numbers, pool.map(one, numbers)):
                if why == "late":
                    continue
                good, bad = good + (why is None), bad + (why is not None)
                if why is not None:
                    again = f"tests/fuzz_reports.py {program} --seed {seed} --case {number}"
                    print(f"FAILED case {number}: {why}\n  {again}", flush=True)
            if time.monotonic() >= until:
                break
    return good, bad


def main() -> int:
    """Judges one case, or as many as the words allow."""
    parser = argparse.ArgumentParser(
        description=__doc__, formatter_class=argparse.RawDescriptionHelpFormatter
    )
    parser.add_argument("program")
    parser.add_argument("--cases", type=int)
    parser.add_argument("--seconds", type=float)
    parser.add_argument("--seed", type=int, default=1)
    parser.add_argument("--jobs", type=int, default=len(os.sched_getaffinity(0)))
    parser.add_argument("--case", type=int)
    parser.add_argument("--keep", type=Path)
    given = parser.parse_args()
    program = os.path.abspath(given.program)
    if given.case is not None:
        why = judge(program, given.seed, given.case, given.keep)
        print(why or "as it must be")
        return int(why is not None)
    cases = given.cases or (CASES if given.seconds is None else sys.maxsize)
    seconds = given.seconds or LONGEST_RUN
    good, bad = judge_all(program, given.seed, cases, seconds, given.jobs)
    print(f"over reports by chance, seed {given.seed}: {good} as they must be, {bad} not")
    return int(bad > 0)


if __name__ == "__main__":
    sys.exit(main())
