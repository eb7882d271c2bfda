"""Tests the arguments of xbrl-filing, its help, and outputs that are inputs."""
from __future__ import annotations

import errno
import os
import shutil
import subprocess
from typing import Any

from filing import command
from tests.filing_samples import ELEMENTS, INFO, TEMPLATE, meta, schema
from tests.filings import FILING, FilingTest, listing, run, start, write_packages
from tests.harness import PATIENCE, PROGRAM, write

# The module with the names that it imports.
whole_command: Any = command

GONE = "--every-fault is gone: --faults FILE has every fault of every row"
MADE = "--types is made from the taxonomy, and a plain report is one for xbrl-json"
USAGE: list[tuple[list[str], str]] = [
    ([], "there is no REPORT"),
    (
        ["--taxonomy", "t"],
        "there is no REPORT: all words behind --taxonomy are packages, so it stands before",
    ),
    (
        ["--taxonomy", "t", "r"],
        "there is no REPORT: all words behind --taxonomy are packages, so it stands before",
    ),
    (["r", "--taxonomy"], "--taxonomy names no package"),
    (["r", "--taxonomy", "--out", "x"], "--taxonomy names no package"),
    (["r", "--taxonomy="], "--taxonomy names no package"),
    (["r", "r2", "--taxonomy", "t"], "'r2' is one word too many"),
    (["r", "", "--taxonomy", "t"], "'' is one word too many"),
    (["r", "--progress", "yes"], "'yes' is one word too many"),
    (["r", "--out=x", "yes"], "'yes' is one word too many"),
    (["r", "--explain", "yes"], "'yes' is one word too many"),
    (["r", "--whole", "yes"], "'yes' is one word too many"),
    (["r", "--taxonomy", "t", "--types", "x"], MADE),
    (["r", "--types=x"], MADE),
    (["r", "--types", "x", "--every-fault"], MADE),
    (["r", "--every-fault"], GONE),
    (["r", "--taxonomy", "t", "--every-fault", "--out", "b"], GONE),
    (["r", "--every-fault=b"], GONE),
    (["--every-fault"], GONE),
    (["r", "r2", "--every-fault", "--into", "i"], GONE),
    (["r", "--prepare"], "--prepare needs a value"),
    (["r", "--prepare", "--out", "x"], "--prepare needs a value"),
    (["r", "--prepare", "a", "--prepare", "b"], "--prepare stands twice"),
    (
        ["r", "--prepare", "a", "--out", "b"],
        "with --prepare nothing is converted, so '--out' means nothing",
    ),
    (
        ["r", "--parameters", "--out", "b"],
        "with --parameters nothing is converted, so '--out' means nothing",
    ),
    (
        ["r", "--parameters", "--prepare", "b"],
        "--prepare and --parameters stand together, and each is a run of its own",
    ),
    (["r", "--parameters=b"], "--parameters has no value"),
    (["r", "--parameters", "b"], "'b' is one word too many"),
    (["r", "--cache", ""], "--cache needs a value"),
    (["r", "--unpacked-limit", "8G"], "--unpacked-limit is a number of bytes, and '8G' is none"),
    (["r", "--unpacked-limit=-1"], "--unpacked-limit is a number of bytes, and '-1' is none"),
    *(
        (["r", *given], f"{given[0]} is for many reports, which --into FOLDER converts")
        for given in (
            ["--jobs", "2"],
            ["--outcomes", "o.csv"],
            ["--time-limit", "9"],
            ["--memory-limit", "9"],
            ["--again"],
        )
    ),
]


OWN, INSIDE = (
    "it is an input of this run",
    "it stands inside of a package that is an input of this run",
)


LINKED = "it is a link to a file of a package that is an input of this run"


OUTPUTS = [
    (["r.zip", "--taxonomy", "t.zip"], "r.zip", OWN),
    (["r.zip", "--taxonomy", "t.zip"], "./x/../r.zip", OWN),
    (["r.zip", "--taxonomy", "t.zip"], "t.zip", OWN),
    (["r.zip", "--taxonomy", "t.zip"], "other.zip", OWN),
    (["r.zip", "--taxonomy", "t.zip"], "linked", OWN),
    (["r", "--taxonomy", "t.zip"], "r", OWN),
    (["r", "--taxonomy", "t.zip"], "r/reports/t.csv", INSIDE),
    (["r", "--taxonomy", "t.zip"], "r/reports/report.json", INSIDE),
    (["r", "--taxonomy", "t"], "t/reg/mod.xsd", INSIDE),
    (["r", "--taxonomy", "t"], "r/new.json", INSIDE),
    (["r", "--taxonomy", "t"], "t/META-INF/../new.json", INSIDE),
    (["r", "--taxonomy", "t"], "within/new.json", INSIDE),
    (["alone/m.json"], "alone/m.json", OWN),
    (["alone/m.json"], "alone/low.json", OWN),
    (["alone/m.json"], "alone/t.csv", OWN),
    (["alone/m.json"], "alone/p.csv", OWN),
    (["alone/m.json"], "alone/none.csv", OWN),
    (["alone/m.json"], "alone/mod.xsd", OWN),
    (["alone/m.json"], "hard.xsd", OWN),
    (["alone/m.json"], "soft.xsd", OWN),
    (["r.zip", "--taxonomy", "t"], "hard.json", LINKED),
]


class TestRuns(FilingTest):
    """Tests that take several runs of one folder."""

    def test_wrong_words(self) -> None:
        """Command lines that are wrong: each is refused by one line."""
        folder = self.folder
        write_packages(folder)
        for given, what in USAGE:
            self.case(
                f"words {given}", run(given, folder), (2, f"xbrl-filing: {what}; try --help\n")
            )

    def test_packages_of_the_command_line(self) -> None:
        """All words up to the next option are packages, also after one with an equals sign."""
        for given in (
            ["r", "--taxonomy", "a", "b", "--explain"],
            ["r", "--taxonomy=a", "b", "--explain"],
            ["r", "--taxonomy=a", "--explain", "--taxonomy", "b"],
            ["r", "--taxonomy=a", "--taxonomy=b", "--explain"],
        ):
            seen = whole_command.read_words(given)
            self.case(f"words {given}", (seen.taxonomy, seen.rest), (("a", "b"), ("--explain",)))

    def test_options_that_nobody_has(self) -> None:
        """Such an option is refused before a file is opened, unless xbrl-json has no help."""
        for given in (["--otu", "x"], ["--otu=x"], ["--into", "d", "--otu"]):
            line = "'--otu' is an option of neither xbrl-filing nor xbrl-json; try --help\n"
            status, out, err = start(["none", *given], self.folder)
            self.case(f"words {given}", (status, out, err[-len(line) :]), (2, b"", line))
        line = "xbrl-filing: none: cannot read (No such file or directory)\n"
        self.case("without a help", run(["none", "--otu"], self.folder), (3, line))
        for known in ("--progress", "--layout=lines", "--"):
            self.case(f"words {known}", start(["none", known], self.folder), (3, b"", line))

    def test_version_and_help(self) -> None:
        """--version and --help, after and before other words."""
        folder = self.folder
        write_packages(folder)
        usage = "; try --help\n"
        version = subprocess.run(
            [PROGRAM, "--version"], capture_output=True, timeout=PATIENCE
        ).stdout
        self.case("--version", start(["--version"], folder), (0, version, ""))
        self.case("-h is --help", start(["-h"], folder), start(["--help"], folder))
        help_text = start(["--help"], folder)[1]
        orders: tuple[tuple[list[str], list[str]], ...] = (
            (["r"], []),
            ([], ["r"]),
            (["r", "--taxonomy", "t"], []),
            (["r", "--taxonomy"], ["t"]),
            (["r", "r2"], ["--out", "x"]),
        )
        for before, after in orders:
            for word in ("-V", "--version"):
                self.case(
                    f"{word} after {before} and before {after}",
                    start([*before, word, *after], folder),
                    (0, version, ""),
                )
            for word in ("-h", "--help"):
                self.case(
                    f"{word} after {before} and before {after}",
                    start([*before, word, *after], folder),
                    (0, help_text, ""),
                )
        for given, wanted in (
            (["r", "--every-fault", "-V"], version),
            (["-V", "-h"], version),
            (["-h", "--version"], help_text),
            (["--out", "x", "-V"], version),
            (["--whole", "-h"], help_text),
        ):
            self.case(f"the first of several words: {given}", start(given, folder), (0, wanted, ""))
        for option in ("--prepare", "--cache", "--unpacked-limit"):
            for word in ("-V", "-h", "--help", "--version"):
                self.case(
                    f"{word} is no value of {option}",
                    run(["r", option, word], folder),
                    (2, f"xbrl-filing: {option} needs a value{usage}"),
                )
        for option in ("--out", "--workers"):
            status, out, err = start(["r", "--taxonomy", "t", option, "-V"], folder)
            self.case(
                f"-V is no value of {option}, says xbrl-json",
                (status, out, err.startswith("error: a value is required")),
                (2, b"", True),
            )
        self.case(
            "the help names all four words",
            [it in help_text.decode() for it in ("\n-h, --help ", "\n-V, --version ")],
            [True, True],
        )

    def test_help_and_outputs_that_fail(self) -> None:
        """A help and an output that cannot be written."""
        folder = self.folder
        write_packages(folder)
        status, out, err = start(["r", "--help"], folder)
        self.case(
            "--help",
            (status, b"--taxonomy PACKAGE.." in out, b"It is not proved" in out, err),
            (0, True, True, ""),
        )
        with open("/dev/full", "wb") as full:
            done = subprocess.run(
                [FILING, "--help"], stdout=full, stderr=subprocess.PIPE, timeout=PATIENCE
            )
        self.case(
            "--help that cannot be written",
            (done.returncode, done.stderr),
            (3, b"xbrl-filing: standard output: cannot write (No space left on device)\n"),
        )
        done = subprocess.run(
            [FILING, "none", "--prepare", "o"],
            cwd=folder,
            stdout=subprocess.PIPE,
            preexec_fn=lambda: os.close(2),
            timeout=PATIENCE,
        )
        self.case("a refused run without standard error", (done.returncode, done.stdout), (3, b""))
        status, out, err = start(
            ["r", "--taxonomy", "t", "--workers", "65", "--out", "doc.json"], folder
        )
        self.case(
            "words that xbrl-json refuses",
            (status, out, err.startswith("error: "), (folder / "doc.json").exists()),
            (2, b"", True, False),
        )
        seen = start(["r", "--taxonomy", "t", "--out", "no/doc.json"], folder)
        self.case(
            "an output that xbrl-json cannot make",
            seen,
            (3, b"", "xbrl-json: cannot write no/doc.json\n"),
        )

    def test_outputs_that_are_inputs(self) -> None:
        """--out and --prepare must not be what the run reads."""
        folder = self.folder
        write_packages(folder)
        write(
            folder,
            {
                "alone/m.json": meta(
                    {**INFO, "extends": ["low.json"]},
                    tableTemplates={"t": TEMPLATE},
                    tables={
                        "t": {"url": "t.csv"},
                        "u": {"url": "none.csv", "template": "t", "optional": True},
                    },
                    parameterURL="p.csv",
                ),
                "alone/low.json": meta(),
                "alone/mod.xsd": schema(ELEMENTS),
                "alone/t.csv": "cash\n1\n",
                "alone/p.csv": "name,value\n",
            },
        )
        os.link(folder / "r.zip", folder / "other.zip")
        (folder / "linked").symlink_to("t.zip")
        (folder / "within").symlink_to("r/reports")
        os.link(folder / "t/reg/mod.xsd", folder / "hard.json")
        os.link(folder / "alone/mod.xsd", folder / "hard.xsd")
        (folder / "soft.xsd").symlink_to("alone/mod.xsd")
        for given, out, why in OUTPUTS:
            before = listing(folder)
            line = f"xbrl-filing: {out}: cannot write ({why})\n"
            twice = ["--out", "no/x", "--out", out, "--workers", "1"], [
                "--out",
                out,
                "--out",
                "no/x",
            ]
            for words_of_out in (
                ["--out", out],
                [f"--out={out}"],
                *twice,
                ["--faults", out],
                [f"--faults={out}"],
            ):
                self.case(
                    f"{given} {words_of_out}",
                    (run([*given, *words_of_out], folder), listing(folder) == before),
                    ((3, line), True),
                )
            if given == ["alone/m.json"] and out not in ("alone/m.json", "alone/none.csv"):
                line = f"xbrl-filing: {out}: cannot write (Not a directory)\n"
            self.case(
                f"{given} --prepare {out}",
                (run([*given, "--prepare", out], folder), listing(folder) == before),
                ((3, line), True),
            )

    def test_caches_that_are_inputs(self) -> None:
        """--cache must not be in what the run reads or prepares."""
        folder = self.folder
        write_packages(folder)
        inside = INSIDE
        seen = run(["r", "--taxonomy", "t", "--cache", "t/cache", "--prepare", "o"], folder)
        self.case(
            "a cache inside of a package",
            (seen, (folder / "t/cache").exists()),
            ((3, f"xbrl-filing: t/cache: cannot write ({inside})\n"), False),
        )
        self.case(
            "a folder of nearly the name of a package",
            run(["r", "--taxonomy", "t", "--cache", "t-cache", "--prepare", "r-out"], folder),
            (0, ""),
        )
        for cache in ("o", "o/c", "./o/../o/c", f"{folder}/o/c"):
            seen = run(["r", "--taxonomy", "t", "--cache", cache, "--prepare", "o"], folder)
            line = (
                f"xbrl-filing: {cache}: cannot write (the cache stands inside of the folder to"
                " prepare)\n"
            )
            self.case(
                f"a cache in the prepared folder, {cache}",
                (seen, (folder / "o").exists()),
                ((3, line), False),
            )

    def test_files_as_folders(self) -> None:
        """A file instead of a folder is refused as such."""
        folder = self.folder
        write_packages(folder)
        write(folder, {"file": "x", "into/.cache": "x"})
        line = "xbrl-filing: {}: cannot write (it is not a folder)\n"
        for option, place, refused in (
            ("--cache", "file", "file"),
            ("--into", "file", "file"),
            ("--into", "into", "into/.cache"),
        ):
            words = ["r", "--taxonomy", "t", option, place]
            self.case(f"{option} {place}", start(words, folder), (3, b"", line.format(refused)))

    def test_folders_to_prepare(self) -> None:
        """--prepare takes a new or an empty folder."""
        seen: Any
        folder = self.folder
        write_packages(folder)
        (folder / "full").mkdir()
        (folder / "full/x").write_text("x")
        seen = run(["r", "--prepare", "full"], folder)
        self.case(
            "--prepare is looked at before the taxonomy",
            seen,
            (3, "xbrl-filing: full: cannot write (the folder is not empty)\n"),
        )
        (folder / "empty").mkdir()
        good = ["r", "--taxonomy", "t"]
        self.case(
            "--prepare of a folder that holds something",
            run([*good, "--prepare", "full"], folder),
            (3, "xbrl-filing: full: cannot write (the folder is not empty)\n"),
        )
        self.case(
            "--prepare of a file",
            run([*good, "--prepare", "full/x"], folder),
            (3, "xbrl-filing: full/x: cannot write (Not a directory)\n"),
        )
        seen = run([*good, "--prepare", "full/x/y"], folder)
        self.case(
            "--prepare below a file",
            seen,
            (3, "xbrl-filing: full/x/y: cannot write (there is no folder to put it in)\n"),
        )
        (folder / "elsewhere").mkdir()
        (folder / "to empty").symlink_to("elsewhere")
        (folder / "to none").symlink_to("elsewhere/new")
        for link, made in (("to none", "elsewhere/new"), ("to empty", None)):
            if made is None:
                shutil.rmtree(folder / "elsewhere/new")
            seen = (
                run([*good, "--prepare", link], folder),
                sorted(os.listdir(folder / (made or "elsewhere"))),
                (folder / link).is_symlink(),
            )
            self.case(
                f"--prepare of a link {link}",
                seen,
                ((0, ""), ["meta.json", "t.csv", "types.csv"], True),
            )
        self.case(
            "--prepare where no folder is",
            run([*good, "--prepare", "no/o"], folder),
            (3, "xbrl-filing: no/o: cannot write (there is no folder to put it in)\n"),
        )
        self.case(
            "--prepare of an empty folder",
            (run([*good, "--prepare", "empty"], folder), sorted(os.listdir(folder / "empty"))),
            ((0, ""), ["meta.json", "t.csv", "types.csv"]),
        )
        self.case("--out beside the packages", start([*good, "--out", "free.json"], folder)[0], 0)

    def test_a_prepared_folder_that_fails(self) -> None:
        """A folder that is filled by half, or by another one meanwhile."""
        folder = self.folder
        write_packages(folder)
        good = ["r", "--taxonomy", "t"]
        (folder / "half").mkdir()
        kept: Any = os.rename
        renamed: list[object] = []

        def once(*given: Any) -> None:
            """Renames the first file, and finds the disk full at the second."""
            if renamed:
                raise OSError(errno.ENOSPC, os.strerror(errno.ENOSPC))
            renamed.append(given)
            kept(*given)

        try:
            os.rename = once  # type: ignore[assignment]
            seen = run([*good, "--prepare", "half"], folder)
        finally:
            os.rename = kept
        line = f"xbrl-filing: {folder}/half: cannot write (No space left on device)\n"
        self.case(
            "a folder that is filled by half",
            (seen, len(renamed), os.listdir(folder / "half")),
            ((3, line), 1, []),
        )
        (folder / "late").mkdir()
        kept = whole_command.write_files

        def and_meanwhile(*given: Any, **more: Any) -> None:
            """Lets another one fill the folder, and writes the files then."""
            write(folder, {"late/meta.json": "of another"})
            kept(*given, **more)

        try:
            whole_command.write_files = and_meanwhile
            seen = run([*good, "--prepare", "late"], folder)
        finally:
            whole_command.write_files = kept
        line = f"xbrl-filing: {folder}/late: cannot write (the folder is not empty any more)\n"
        self.case(
            "a folder that is filled meanwhile",
            (seen, listing(folder / "late")),
            ((3, line), {"meta.json": b"of another"}),
        )
