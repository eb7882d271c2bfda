"""Tests what --cache keeps of a taxonomy, and the digests by which it is found."""
from __future__ import annotations

import json
import os
import resource
import shutil
import signal
import subprocess
import threading
import time
from collections.abc import Callable
from pathlib import Path
from typing import Any

from filing import digests, kinds_reading, packages, refusals, stopping
from tests.filing_samples import (
    EG,
    ELEMENTS,
    HOST,
    INFO,
    MERGED,
    MODULE,
    REPORT,
    TAXONOMY,
    TYPES,
    catalog,
    headed,
    item,
    meta,
    pack,
    records,
    rewrite,
    schema,
)
from tests.filings import FILING, FilingTest, heeded, heeding, run
from tests.harness import PATIENCE, TOP, write

# The module with the names that it imports.
whole_digests: Any = digests

# The module with the names that it imports.
whole_reading: Any = kinds_reading


def cached_runs(
    folder: Path,
) -> tuple[Callable[..., tuple[tuple[int, str], str | None]], Callable[[], list[str]]]:
    """A report and a taxonomy; what runs them with a cache, and what lists the cache."""
    write(folder / "t", TAXONOMY)
    write(folder / "r", REPORT)
    pack(folder / "t.zip", TAXONOMY)

    def made(
        taxonomy: str = "t", report: str = "r", *more: str
    ) -> tuple[tuple[int, str], str | None]:
        """Runs with the cache, and returns status and standard error, and the types table of a good
        run.
        """
        shutil.rmtree(folder / "o", ignore_errors=True)
        for module in (folder / "c").glob("*.module"):  # tests/test_kept_module.py tests these
            module.unlink()
        seen = run(
            [report, "--taxonomy", taxonomy, *more, "--cache", "c", "--prepare", "o"], folder
        )
        return seen, (folder / "o/types.csv").read_text() if seen[0] == 0 else None

    def entries() -> list[str]:
        """The names of what the cache holds."""
        return sorted(it.name for it in (folder / "c").iterdir() if it.suffix != ".module")

    return made, entries


class TestRuns(FilingTest):
    """Tests that take several runs of one folder."""

    def test_caching(self) -> None:
        """Checks that a cache is identified by contents only, and never changes what is made."""
        folder = self.folder
        made, entries = cached_runs(folder)
        self.case("the first run", made(), ((0, ""), TYPES))
        self.case("keeps one entry", len(entries()), 1)
        kept = folder / "c" / entries()[0]
        marked = kept.read_bytes().replace(b"Note text", b"Nota text")
        reader = whole_reading.read_schemas
        try:
            whole_reading.read_schemas = None
            self.case(
                "and the next one reads it, and no schema",
                (made(), len(entries())),
                (((0, ""), TYPES), 1),
            )
        finally:
            whole_reading.read_schemas = reader
        kept.write_bytes(marked)
        self.case("an entry that was changed is not taken", made(), ((0, ""), TYPES))
        self.case("and is made anew", b"Note text" in kept.read_bytes(), True)
        for damage in (
            b"",
            b"x",
            b"[]\n",
            b"{}",
            kept.read_bytes().replace(b"[0,", b"[1,"),
            b"\xff {}",
            b'{"' + EG.encode() + b'":[0,5,"x"]}\n',
            kept.read_bytes()[:-9],
            b"[" * 100_000,
        ):
            kept.write_bytes(damage)
            self.case(f"a damaged entry {damage[:20]!r}", made(), ((0, ""), TYPES))

    def test_refusals_of_the_cache(self) -> None:
        """Checks that what the schemas refuse is refused from the cache too."""
        folder = self.folder
        write(
            folder / "t",
            {
                **TAXONOMY,
                "reg/mod.json": meta(INFO, dimensions={"concept": "eg:T"}),
                "reg/mod.xsd": schema(headed("T xbrli:tuple")),
            },
        )
        write(folder / "r", REPORT)
        line = (
            "xbrl-filing: t/reg/mod.json: names the concept 'eg:T', which is a tuple, which no"
            " table can have (dimensions.concept)\n"
        )
        for turn in ("first", "second"):
            seen = run(["r", "--taxonomy", "t", "--cache", "c", "--prepare", "o"], folder)
            self.case(f"a tuple, {turn} run", (seen, len(os.listdir(folder / "c"))), ((1, line), 1))

    def test_keys_of_the_cache(self) -> None:
        """Tests what identifies a cache: contents, entry points, the order of packages and the
        program's own text.
        """
        folder = self.folder
        made, entries = cached_runs(folder)
        made()
        os.utime(folder / "t/reg/mod.xsd", (1, 1))
        shutil.copytree(folder / "t", folder / "named")
        self.case(
            "neither name nor time counts", (made("named"), len(entries())), (((0, ""), TYPES), 1)
        )
        write(
            folder,
            {
                "r2/reports/report.json": meta(
                    {"extends": [HOST + "mod.json"], "namespaces": {"x": "http://x/"}}, decimals=1
                )
            },
        )
        self.case(
            "another report of the same taxonomy",
            (made("t", "r2"), len(entries())),
            (((0, ""), TYPES), 1),
        )
        size = (folder / "t/reg/mod.xsd").stat().st_size
        write(folder, {"t/reg/mod.xsd": schema(ELEMENTS.replace("Note", "Nope"))})
        os.utime(folder / "t/reg/mod.xsd", (1, 1))
        self.case(
            "another content of the same size and time",
            (made(), (folder / "t/reg/mod.xsd").stat().st_size, len(entries())),
            (((0, ""), TYPES.replace("Note", "Nope")), size, 2),
        )
        self.case(
            "a ZIP is another package", (made("t.zip"), len(entries())), (((0, ""), TYPES), 3)
        )
        write(
            folder,
            {
                "t/reg/mod.json": meta({**INFO, "taxonomy": ["two.xsd"]}, tables=MERGED["tables"]),
                "t/reg/two.xsd": schema(item("Two")),
            },
        )
        self.case("another entry point", made(), ((0, ""), records("Two,text")))
        write(
            folder,
            {
                "t3/META-INF/catalog.xml": catalog(rewrite()),
                "t3/reg/two.xsd": schema(item("Three")),
            },
        )
        write(
            folder,
            {
                "r6/reports/report.json": meta(
                    {"namespaces": {"eg": EG}, "taxonomy": [HOST + "mod.xsd"]}
                )
            },
        )
        self.case(
            "another entry point of the same packages",
            made("t", "r6"),
            ((0, ""), TYPES.replace("Note", "Nope")),
        )
        orders = [[HOST + "x.xsd", HOST + "y.xsd"], [HOST + "y.xsd", HOST + "x.xsd"]]
        twice = {"x": schema(item("A", "xbrli:dateItemType")), "y": schema(item("A"))}
        write(
            folder,
            {
                "t9/META-INF/catalog.xml": catalog(rewrite()),
                **{f"t9/reg/{name}.xsd": text for name, text in twice.items()},
            },
        )
        for number, urls in enumerate(orders):
            write(
                folder,
                {
                    f"r{number + 7}/reports/report.json": meta(
                        {"namespaces": {"eg": EG}, "taxonomy": urls}
                    )
                },
            )
        self.case(
            "the order of entry points counts",
            [made("t9", it)[1] for it in ("r7", "r8")],
            [records("A,date"), records("A,text")],
        )
        self.case(
            "the order of packages counts",
            [made("t", "r", "t3")[1], made("t3", "r", "t")[1]],
            [records("Two,text"), records("Three,text")],
        )

    def test_what_changes_meanwhile(self) -> None:
        """Changes packages while they are read.

        What is kept of them is never taken for their present content.
        """
        folder = self.folder
        made, entries = cached_runs(folder)
        reader, key_of = whole_reading.read_schemas, whole_reading.key_of
        other = {**TAXONOMY, "reg/mod.xsd": schema(ELEMENTS.replace("Note", "Nope"))}

        def and_then_changed(*given: Any) -> Any:
            """Reads the schemas, and changes the folder."""
            declared = reader(*given)
            write(folder / "t", other)
            return declared

        def changed_first(*given: Any) -> Any:
            """Replaces the ZIP, and gives the key."""
            pack(folder / "new.zip", other)
            os.replace(folder / "new.zip", folder / "t.zip")
            return key_of(*given)

        try:
            whole_reading.read_schemas = and_then_changed
            self.case(
                "a folder that is changed while it is read",
                (made(), (folder / "c").exists()),
                (((0, ""), TYPES), False),
            )
            whole_reading.read_schemas, whole_reading.key_of = reader, changed_first
            self.case("a ZIP that is replaced while it is read", made("t.zip"), ((0, ""), TYPES))
        finally:
            whole_reading.read_schemas, whole_reading.key_of = reader, key_of
        new = TYPES.replace("Note", "Nope")
        self.case(
            "what it was is not taken for what it is",
            (made("t.zip"), made("t")),
            (((0, ""), new), ((0, ""), new)),
        )

    def test_links_out_of_a_cached_package(self) -> None:
        """What a link of a package leads to is part of its content."""
        folder = self.folder
        made, _ = cached_runs(folder)
        other = {**TAXONOMY, "reg/mod.xsd": schema(ELEMENTS.replace("Note", "Nope"))}
        new = TYPES.replace("Note", "Nope")
        write(folder, {f"top/pkg/{it}": text for it, text in TAXONOMY.items()})
        shutil.move(folder / "top/pkg/reg/mod.xsd", folder / "top/mod.xsd")
        (folder / "top/pkg/reg/mod.xsd").symlink_to("../../mod.xsd")
        self.case("a link that leads beside the root", made("top"), ((0, ""), TYPES))
        write(folder, {"top/mod.xsd": other["reg/mod.xsd"]})
        self.case("and what it leads to is changed", made("top"), ((0, ""), new))

    def test_digests_of_folders(self) -> None:
        """Names, links and contents each count in the digest of a folder."""
        folder = self.folder
        write(folder / "top/pkg", TAXONOMY)
        shutil.move(folder / "top/pkg/reg/mod.xsd", folder / "top/mod.xsd")
        (folder / "top/pkg/reg/mod.xsd").symlink_to("../../mod.xsd")
        write(folder, {"x/a": "1", "x/b": "2", "y/a": "1"})
        (folder / "y/b").symlink_to("a")
        (folder / "z").mkdir()
        (folder / "z/a").symlink_to("b")
        write(folder, {"z/b": "2"})
        folders = [packages.FolderPackage(str(folder / it)).digest() for it in "xyz"]
        top = packages.FolderPackage(str(folder / "top")).digest()
        (folder / "top/other").mkdir()
        self.case(
            "where the root is counts",
            packages.FolderPackage(str(folder / "top")).digest() == top,
            False,
        )
        write(folder, {"v/a": "1", "v/b": "2", "w/a": "1", "w/c": "2", "u/a": "2", "u/b": "1"})
        for name, target in (("l1", "a"), ("l2", "b"), ("l3", None)):
            write(folder, {f"{name}/a": "1", f"{name}/b": "2"})
            if target:
                (folder / name / "l").symlink_to(target)
        (folder / "l1/out").symlink_to("../l2")
        (folder / "l1/ring").symlink_to(".")
        known = packages.FolderPackage(str(folder / "l1")).digest()
        write(folder, {"l2/a": "3"})
        self.case(
            "what stands behind a link to a folder does not",
            packages.FolderPackage(str(folder / "l1")).digest(),
            known,
        )
        write(folder, {"l2/a": "1"})
        (folder / "l1/out").unlink()
        (folder / "l1/ring").unlink()
        self.case(
            "targets of links count",
            len({packages.FolderPackage(str(folder / it)).digest() for it in ("l1", "l2", "l3")}),
            3,
        )
        self.case(
            "names of files count",
            len({packages.FolderPackage(str(folder / it)).digest() for it in "uvw"}),
            3,
        )
        self.case("files and links are told apart", len(set(folders)), 3)
        zero, one = (os.fsdecode(digests.digest_of(it)) for it in (b"0", b"1"))
        write(folder, {"p/x": "0", "p/y": "1", "p/z": "3", f"q/{one}z": "3"})
        (folder / "q/x").symlink_to(zero + "y")
        self.case(
            "no name runs into the next",
            len({packages.FolderPackage(str(folder / it)).digest() for it in "pq"}),
            2,
        )

    def test_digests_of_contents(self) -> None:
        """The digest of a file is that of the digests of its blocks, on any number of threads."""
        folder = self.folder
        texts = [
            b"",
            b"a",
            b"abcdef",
            b"abcdefg",
            b"abcdefgh",
            b"abcdefgabcdefg",
            b"abcdefgabcdefgh",
            b"x" * 70,
        ]
        write(folder, {str(number): text for number, text in enumerate(texts)})
        files = [
            digests.contents_of_disk(str(folder / str(number)), len(text), str(number))
            for number, text in enumerate(texts)
        ]
        own = digests.digest_of
        wanted = [
            own(b"".join(own(text[at : at + 7]) for at in range(0, len(text) or 1, 7)))
            for text in texts
        ]
        kept = digests.BLOCK, digests.processors, whole_digests.Thread, whole_digests.Blocks.digest
        limit = resource.getrlimit(resource.RLIMIT_DATA)
        workers: set[int] = set()

        def together(blocks: digests.Blocks, *place: Any) -> bytes:
            """The first block of each thread waits for those of all others."""
            if threading.get_ident() not in workers:
                workers.add(threading.get_ident())
                meeting.wait(PATIENCE)
            made: bytes = kept[3](blocks, *place)
            return made

        begun: list[threading.Thread] = []

        class Begun(threading.Thread):
            """A thread that is counted."""

            def start(self) -> None:
                """Counts the thread, and starts it."""
                begun.append(self)
                super().start()

        class NoThread(threading.Thread):
            """A thread that does not start."""

            def start(self) -> None:
                """Fails as a system does that gives no threads."""
                raise RuntimeError("can't start new thread")

        try:
            digests.BLOCK = 7
            for number in (1, 2, 3, 8, 100):
                digests.processors = lambda: number
                self.case(
                    f"digests of blocks on {number} processors", digests.digests_of(files), wanted
                )
            whole_digests.Blocks.digest = together
            for number, used in ((1, 1), (3, 3), (100, digests.MOST_THREADS)):
                workers.clear()
                meeting = threading.Barrier(used)
                digests.processors = lambda: number
                self.case(
                    f"{number} processors",
                    (digests.digests_of(files), len(workers), threading.active_count()),
                    (wanted, used, 1),
                )
            workers.clear()
            meeting = threading.Barrier(2)
            self.case(
                "no more threads than blocks",
                (digests.digests_of(files[4:5]), len(workers)),
                (wanted[4:5], 2),
            )
            workers.clear()
            meeting = threading.Barrier(1)
            whole_digests.Thread = Begun
            digests.digests_of(files)
            self.case("threads without a limit of memory", len(begun) > 1, True)
            begun.clear()
            resource.setrlimit(resource.RLIMIT_DATA, (1 << 40, limit[1]))
            seen = digests.digests_of(files), begun
            self.case("no other thread with a limit of memory", seen, (wanted, []))
            resource.setrlimit(resource.RLIMIT_DATA, limit)
            whole_digests.Thread = NoThread
            self.case("a system that gives no threads", digests.digests_of(files), wanted)
        finally:
            resource.setrlimit(resource.RLIMIT_DATA, limit)
            digests.BLOCK, digests.processors, whole_digests.Thread, whole_digests.Blocks.digest = kept
        self.case("no files", digests.digests_of([]), [])
        self.case(
            "a file that has grown a little counts as it is",
            digests.digests_of([files[3]._replace(size=1)]),
            digests.digests_of(files[3:4]),
        )

    def test_digests_that_fail(self) -> None:
        """Reports the first of several failures, and ends all threads at a signal."""
        folder = self.folder
        names = ["a", "b", "c", "d"]
        write(folder, {"a": "1", "c": "1"})
        files = [digests.contents_of_disk(str(folder / it), 1, it) for it in names] * 20

        def seen(number: int) -> list[bytes] | tuple[int, str] | type[BaseException]:
            """Returns the digests with `number` processors, or the failure that is reported."""
            digests.processors = lambda: number
            try:
                return digests.digests_of(files)
            except refusals.Refusal as refusal:
                return refusal.status, refusal.line
            except (MemoryError, stopping.Stopped) as error:
                return type(error)

        kept, digest = digests.processors, whole_digests.Blocks.digest
        main_thread = threading.get_ident()

        def signalled(blocks: digests.Blocks, *place: Any) -> bytes:
            """Counts a block; one of the main thread signals this process."""
            if threading.get_ident() == main_thread:
                os.kill(os.getpid(), signal.SIGTERM)
            done.append(place)
            time.sleep(0.01)
            return b""

        try:
            for number in (1, 4):
                self.case(
                    f"what cannot be read, on {number} processors",
                    seen(number),
                    (3, "b: cannot read (No such file or directory)"),
                )
            whole_digests.Blocks.digest = lambda *_: (_ for _ in ()).throw(MemoryError)
            self.case("too little memory to digest", seen(4), MemoryError)
            whole_digests.Blocks.digest = signalled
            done: list[object] = []
            heeded()
            self.case(
                "a signal while contents are digested",
                (seen(4), threading.active_count(), len(done) < 40),
                (stopping.Stopped, 1, True),
            )
        finally:
            digests.processors, whole_digests.Blocks.digest = kept, digest
            heeding()

    def test_what_is_not_kept(self) -> None:
        """The report's own schemas are not kept, nor a taxonomy that is refused."""
        folder = self.folder
        made, entries = cached_runs(folder)
        made()
        before = entries()
        own = {
            "r3/reports/report.json": meta({"namespaces": {"eg": EG}, "taxonomy": ["own.xsd"]}),
            "r3/reports/own.xsd": schema(item("Own")),
        }
        write(folder, own)
        self.case(
            "schemas of the report are not kept",
            (made("t", "r3")[1], entries()),
            (records("Own,text"), before),
        )
        write(folder, {"r3/reports/own.xsd": schema(item("New"))})
        self.case("and so are read again", made("t", "r3")[1], records("New,text"))
        write(
            folder,
            {
                "r3/reports/report.json": meta(
                    {"namespaces": {"eg": EG}, "taxonomy": [HOST + "mod.xsd", "own.xsd"]}
                )
            },
        )
        self.case(
            "nor among others",
            (made("t", "r3")[1], entries()),
            (records(*sorted([*TYPES.replace(f"{EG},", "").split()[1:], "New,text"])), before),
        )
        own = {**REPORT, **TAXONOMY, "reg/mod.xsd": schema(item("Mine"))}
        write(folder / "r4", own)
        self.case(
            "nor those of a report with a catalog",
            (made("t", "r4")[1], entries()),
            (records("Mine,text"), before),
        )
        write(
            folder,
            {
                "bad/META-INF/catalog.xml": catalog(rewrite()),
                "bad/reg/mod.json": MODULE,
                "bad/reg/mod.xsd": "<",
            },
        )
        self.case(
            "a taxonomy that is refused is not kept", (made("bad")[0][0], entries()), (1, before)
        )
        (folder / "file").write_text("x")
        shutil.rmtree(folder / "o", ignore_errors=True)
        seen = run(["r", "--taxonomy", "t.zip", "--cache", "file", "--prepare", "o"], folder)
        self.case(
            "a cache that is a file",
            (seen, (folder / "o").exists()),
            ((3, "xbrl-filing: file: cannot write (it is not a folder)\n"), False),
        )

    def test_caches_of_several_runs(self) -> None:
        """Several runs at once, another program, and prefixes that are replaced."""
        folder = self.folder
        made, entries = cached_runs(folder)
        runs = [
            subprocess.Popen(
                [FILING, "r", "--taxonomy", "t.zip", "--cache", "c", "--prepare", f"p{it}"],
                cwd=folder,
                stderr=subprocess.PIPE,
            )
            for it in range(3)
        ]
        self.case(
            "several runs at once",
            [(it.communicate(timeout=PATIENCE)[1], it.returncode) for it in runs],
            [(b"", 0)] * 3,
        )
        self.case(
            "leave one entry",
            ([(folder / f"p{it}/types.csv").read_text() for it in range(3)], len(entries())),
            ([TYPES] * 3, 1),
        )
        shutil.copytree(
            TOP / "filing", folder / "copy/filing", ignore=shutil.ignore_patterns("__pycache__")
        )
        shutil.copy(FILING, folder / "copy/xbrl-filing")
        for text, number in (("", 1), ("# another rule\n", 2)):
            with open(folder / "copy/filing/kinds.py", "a") as module:
                module.write(text)
            done = subprocess.run(
                [
                    folder / "copy/xbrl-filing",
                    "r",
                    "--taxonomy",
                    "t.zip",
                    "--cache",
                    "c",
                    "--prepare",
                    f"q{number}",
                ],
                cwd=folder,
                timeout=PATIENCE,
            )
            self.case(
                f"the program's own text counts, {number}",
                (done.returncode, len(entries())),
                (0, number),
            )
        with_prefixes = {
            "m/META-INF/catalog.xml": catalog(rewrite()),
            "m/reg/mod.xsd": schema(ELEMENTS),
            "m/reg/mod.json": meta(
                {**INFO, "namespaces": {"k": EG, "x": "http://x/"}},
                dimensions={"k:Region": "x:a", "k:Branch": "x:a"},
            ),
        }
        write(
            folder,
            {
                **with_prefixes,
                "r5/reports/report.json": meta(
                    {"extends": [HOST + "mod.json"], "namespaces": {"eg": EG, "y": "http://x/"}}
                ),
            },
        )
        for turn in ("first", "second"):
            made("m", "r5")
            self.case(
                f"kinds of dimensions are known, {turn} run",
                json.loads((folder / "o/meta.json").read_text())["dimensions"],
                {"eg:Region": "y:a", "eg:Branch": "x:a"},
            )
