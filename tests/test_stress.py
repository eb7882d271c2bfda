"""Tests stress: many workers, small rings, few processors, slow files and readers.

The reports have 1 to 200 tables: empty, short, or so long that they are decoded in pieces, with
identifiers, quotes and line ends of all kinds where a piece may end, and some with a byte-order
mark before the first quote. Each is converted by 1 to 64 workers with rings of 1 to 4 blocks, and
with rings of 65 and 1,024 for a reader that starts late, so that the most blocks wait. The output
must be the document by the own reading of these tests. In some reports a row has a fault near the
end of a piece, or an identifier from one row, hundreds of rows or many pieces before. Then the
output, the lines and the status must be those of one worker.

A run whose output nobody reads takes only the memory of a few blocks, however large the ring. Rows
from a pipe are written before the next bytes arrive.
"""
from __future__ import annotations

import fcntl
import json
import os
import random
import subprocess
import termios
import threading
import time
from itertools import accumulate, product
from pathlib import Path
from typing import IO, Any, NamedTuple

from tests.harness import PATIENCE, PROGRAM, CaseTest, Done, TestCase, for_each

NAMESPACES = {"eg": "http://example.com/eg"}
TAXONOMY = ["http://example.com/eg.xsd"]
COMMON = {"entity": "eg:A1", "period": "2021-12-31T00:00:00"}
PIECE = 32_768
MARK = b"\xef\xbb\xbf"
# How much memory a table may take whose output nobody reads, in KiB: it took 9,356 with 4 workers,
# and 49,644 without a bound on what waits
MOST_MEMORY = 30_000
# How many bytes a table's pipe is given before it stalls, and how many of them may still wait:
# those of a block of 256 facts and a row
GIVEN = 100_000
HELD_BACK = 4_096
Row = tuple[str, str, str]


class Table(NamedTuple):
    """A table's name, its rows (identifier, amount, note), and the row with a fault, if any."""

    name: str
    rows: list[Row]
    bad: int | None


class Way(NamedTuple):
    """How a report is converted: workers, ring, one processor or all, slow tables, slow reader."""

    workers: int
    ring: int
    on_one: bool
    slow: list[str]
    read_slowly: bool


def table(numbers: random.Random, name: str, size: int, has_fault: bool) -> Table:
    """Makes a table of `size` rows. If it is to have a fault, a row near a cut has one."""
    rows = []
    length = 0
    near = []
    for at in range(size):
        notes = ["", "plain", 'a "quoted" word', "two\nlines", "\r\n", "größer, höher"]
        note = numbers.choice([*notes, "x" * numbers.randrange(60)])
        rows.append((f"i{at}", str(numbers.randrange(10**6)), note))
        length += 14 + len(note.encode())
        if not 2000 < length % PIECE < PIECE - 2000:
            near.append(at)
    bad = numbers.choice(near or range(size)) if has_fault and size else None
    return Table(name, rows, bad)


def record(fields: list[str], end: str) -> str:
    """Returns a record of CSV, each field in quotes."""
    return ",".join('"' + it.replace('"', '""') + '"' for it in fields) + end


def csv_of(numbers: random.Random, it: Table) -> bytes:
    """Returns the file of a table.

    A row with a fault has an amount that is not a number, or the identifier of an earlier row: the
    last, one some hundred before, or the first.
    """
    ends = numbers.choice(["\n", "\r\n", "\r"])
    mark = numbers.choice([b"", MARK])
    lines = [record(["id", "amount", "note"], ends)]
    for at, (name, amount, note) in enumerate(it.rows):
        if at == it.bad:
            earlier = max(at - numbers.choice([1, 400, at]), 0)
            is_repeated = at and numbers.random() < 0.7
            name, amount = (it.rows[earlier][0], amount) if is_repeated else (name, "none")
        lines.append(record([name, amount, note], ends))
    return mark + "".join(lines).encode()


def info_of(form: str) -> dict[str, Any]:
    """Returns the documentInfo of a report or a document."""
    return {
        "documentType": f"https://xbrl.org/2021/xbrl-{form}",
        "namespaces": NAMESPACES,
        "taxonomy": TAXONOMY,
    }


def write_report(folder: Path, numbers: random.Random, tables: list[Table]) -> None:
    """Writes the files of a report."""
    columns = {
        "id": {},
        "amount": {"dimensions": {"concept": "eg:Amount"}},
        "note": {"dimensions": {"concept": "eg:Note"}},
    }
    report = {
        "documentInfo": info_of("csv"),
        "dimensions": COMMON,
        "tableTemplates": {"rows": {"rowIdColumn": "id", "columns": columns}},
        "tables": {it.name: {"template": "rows", "url": f"{it.name}.csv"} for it in tables},
    }
    (folder / "meta.json").write_text(json.dumps(report))
    eg = NAMESPACES["eg"]
    types = f"namespace,name,type\n{eg},Amount,decimal\n{eg},Note,text\n"
    (folder / "types.csv").write_text(types)
    for it in tables:
        (folder / f"{it.name}.csv").write_bytes(csv_of(numbers, it))


def text(value: str) -> str:
    """Returns a text as JSON."""
    return json.dumps(value, ensure_ascii=False)


def compact(value: Any) -> str:
    """Returns a value as JSON without blanks."""
    return json.dumps(value, separators=(",", ":"))


def document(tables: list[Table]) -> bytes:
    """Returns the document by the own reading of these tests."""
    facts = []
    for it in sorted(tables, key=lambda it: it.name):
        for name, amount, note in it.rows:
            cells = ("amount", "eg:Amount", amount), ("note", "eg:Note", note)
            for column, concept, value in cells:
                if value:
                    dimensions = compact({"concept": concept, **COMMON})
                    members = f'{{"dimensions":{dimensions},"value":{text(value)}}}'
                    facts.append(f'"{it.name}.{name}.{column}":{members}')
    head = '{"documentInfo":' + compact(info_of("json")) + ',"facts":{'
    return (head + ",".join(facts) + "}}\n").encode()


def feed(pipe: Path, whole: bytes, step: int) -> None:
    """Gives a pipe these bytes, a few at a time. One whose reader went away is left."""
    try:
        with open(pipe, "wb", buffering=0) as file:
            for at in range(0, len(whole), step):
                file.write(whole[at : at + step])
                time.sleep(0.0005)
    except BrokenPipeError:
        pass


def read_all(stream: IO[bytes], is_slow: bool, into: list[bytes]) -> None:
    """Reads a stream to its end. A slow reader starts late, and pauses now and then."""
    if is_slow:
        time.sleep(0.2)
    while True:
        got = os.read(stream.fileno(), 65_536)
        if not got:
            return
        into.append(got)
        if is_slow:
            time.sleep(0.001)


def words_of(workers: int, ring: int) -> list[str]:
    """Returns the command of a run."""
    words = [PROGRAM, "meta.json", "--types", "types.csv"]
    return [*words, "--workers", str(workers), "--ring", str(ring)]


def on_one_processor() -> None:
    """Lets a run use one processor."""
    os.sched_setaffinity(0, {min(os.sched_getaffinity(0))})


def convert(folder: Path, way: Way) -> Done:
    """Returns how a run ends. Its slow tables are pipes as long as it runs."""
    whole: dict[str, bytes] = {}
    feeders = []
    for name in way.slow:
        path = folder / f"{name}.csv"
        whole[name] = path.read_bytes()
        path.unlink()
        os.mkfifo(path)
        feeders.append(threading.Thread(target=feed, args=(path, whole[name], 20_000), daemon=True))
    wrote: list[bytes] = []
    said: list[bytes] = []
    try:
        with subprocess.Popen(
            words_of(way.workers, way.ring),
            cwd=folder,
            stdin=subprocess.DEVNULL,
            stdout=subprocess.PIPE,
            stderr=subprocess.PIPE,
            preexec_fn=on_one_processor if way.on_one else None,
        ) as run:
            streams = (run.stdout, way.read_slowly, wrote), (run.stderr, False, said)
            readers = [threading.Thread(target=read_all, args=it, daemon=True) for it in streams]
            for it in (*feeders, *readers):
                it.start()
            ended_in_time(run)
            for it in readers:
                it.join(PATIENCE)
        return Done(run.returncode, b"".join(wrote), b"".join(said).decode())
    finally:
        for name, held in whole.items():
            path = folder / f"{name}.csv"
            path.unlink()
            path.write_bytes(held)


def ended_in_time(run: subprocess.Popen[bytes]) -> None:
    """Waits for the end of a run. Raises TimeoutExpired, after it stopped one that does not end."""
    try:
        run.wait(PATIENCE)
    except subprocess.TimeoutExpired:
        run.kill()
        raise


def tables_of(numbers: random.Random, kind: int) -> list[Table]:
    """Makes the tables of a report: one long, a few of all sizes, or many short ones. Every third
    report has faults.
    """
    sizes = [
        [40_000],
        [6, 14_000, 0, 1, 9_000, 3],
        [9_000, 0, 9_000, 12_000],
        [numbers.choice([0, 1, 2, 40]) for _ in range(200)],
    ][kind % 4]
    has_faults = kind % 3 == 2
    return [
        table(numbers, f"t{at:03}", size, has_faults and size > 0 and numbers.random() < 0.5)
        for at, size in enumerate(sizes)
    ]


def ways(numbers: random.Random, tables: list[Table]) -> list[Way]:
    """Returns some ways to convert a report."""
    found = []
    several = (1, 2, 4, numbers.choice([3, 8, 16]), 64)
    small = [(workers, numbers.choice([1, 2, 4]), 0.3) for workers in several]
    large = [(numbers.choice([2, 4, 8]), ring, 1.0) for ring in (65, 1024)]
    for workers, ring, how_often_slowly in small + large:
        few = [it.name for it in tables if it.rows and len(tables) < 10]
        slow = [it for it in few if numbers.random() < 0.3]
        on_one, slowly = numbers.random() < 0.4, numbers.random() < how_often_slowly
        found.append(Way(workers, ring, on_one, slow, slowly))
    return found


def peak(process: int) -> int:
    """Returns the most memory that a process has had so far, in KiB; 0 if it ended."""
    lines = Path(f"/proc/{process}/status").read_text().splitlines()
    return next((int(it.split()[1]) for it in lines if it.startswith("VmHWM:")), 0)


def feed_and_stall(pipe: Path, whole: bytes, step: int, goes_on: threading.Event) -> None:
    """Writes the first GIVEN bytes to a pipe, each part once the one before was read.

    The others follow when it is told to go on.
    """
    try:
        with open(pipe, "wb", buffering=0) as file:
            for at in range(0, GIVEN, step):
                file.write(whole[at : min(at + step, GIVEN)])
                end = time.monotonic() + PATIENCE
                while fcntl.ioctl(file, termios.FIONREAD, bytes(4)) != bytes(4):
                    if time.monotonic() > end:
                        break
                    time.sleep(0.002)
            goes_on.wait()
            file.write(whole[GIVEN:])
    except BrokenPipeError:
        pass


@for_each((str(kind), (kind,)) for kind in range(12))
class TestReports(CaseTest):
    """Converts made-up reports in several ways."""

    def check(self, kind: int) -> None:
        """Converts a report of this kind."""
        numbers = random.Random(20_261_126 + kind)
        tables = tables_of(numbers, kind)
        write_report(self.folder, numbers, tables)
        wanted = Done(0, document(tables), "")
        if any(it.bad is not None for it in tables):
            wanted = convert(self.folder, Way(1, 1024, False, [], False))
            self.assertEqual(wanted.status, 1)
        for way in ways(numbers, tables):
            with self.subTest(way=way):
                self.check_run(convert(self.folder, way), *wanted)


class TestUnreadOutput(TestCase):
    """Takes the memory of a few blocks if nobody reads the output."""

    def test_unread_output(self) -> None:
        """Converts with a ring larger than what may wait, whose output is read two seconds late."""
        rows = [(f"i{at}", str(at), "a note") for at in range(150_000)]
        write_report(self.folder, random.Random(1), [Table("t", rows, None)])
        with subprocess.Popen(
            words_of(4, 1024),
            cwd=self.folder,
            stdin=subprocess.DEVNULL,
            stdout=subprocess.PIPE,
            stderr=subprocess.PIPE,
        ) as run:
            time.sleep(2)
            most = peak(run.pid)
            wrote, said = run.communicate(timeout=PATIENCE)
        self.assertEqual((run.returncode, said), (0, b""))
        self.assertEqual(wrote.count(b'"value":'), 2 * len(rows))
        self.assertGreater(most, 0)
        self.assertLess(most, MOST_MEMORY)


@for_each(
    (f"{workers} workers, a ring of {ring}, {step} bytes at a time", (workers, ring, step))
    for workers, ring, step in product((1, 2, 4), (1, 1024), (20_000, 65_536))
)
class TestStalledPipe(CaseTest):
    """Writes all rows that a pipe gave, except the last few, before more arrive."""

    def check(self, workers: int, ring: int, step: int) -> None:
        """Converts a table that is a pipe that stalls."""
        it = Table("t", [(f"i{at}", str(at), "a") for at in range(6_000)], None)
        records = [record(["id", "amount", "note"], "\n")]
        records += [record(list(row), "\n") for row in it.rows]
        lengths = accumulate(map(len, records))
        must = sum(1 for end in lengths if end <= GIVEN - HELD_BACK) - 1
        goes_on = threading.Event()
        self.addCleanup(goes_on.set)
        write_report(self.folder, random.Random(1), [it])
        pipe = self.folder / "t.csv"
        pipe.unlink()
        os.mkfifo(pipe)
        wrote: list[bytes] = []
        fed = pipe, "".join(records).encode(), step, goes_on
        none, words = subprocess.DEVNULL, words_of(workers, ring)
        with subprocess.Popen(words, cwd=self.folder, stdin=none, stdout=subprocess.PIPE) as run:
            threads = [
                threading.Thread(target=read_all, args=(run.stdout, False, wrote), daemon=True),
                threading.Thread(target=feed_and_stall, args=fed, daemon=True),
            ]
            for thread in threads:
                thread.start()
            end = time.monotonic() + PATIENCE
            rows = 0
            while rows < must and time.monotonic() < end:
                time.sleep(0.02)
                rows = b"".join(wrote).count(b'"value":') // 2
            goes_on.set()
            ended_in_time(run)
            threads[0].join(PATIENCE)
        self.assertGreaterEqual(rows, must)
        self.assertEqual(run.returncode, 0)
        self.check_same(b"".join(wrote), document([it]))
