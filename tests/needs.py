"""Checks that all parts are there that the tests need, before they start.

    python3 tests/needs.py

The parts: Python 3.9 with its whole standard library, a C compiler with its headers, and a
pseudo-terminal. Prints a line for each part that is missing, and exits with 1 if one is. So this
file itself needs only modules of the smallest Python.
"""
from __future__ import annotations

import os
import re
import sys
from collections.abc import Iterator

TOP = os.path.dirname(os.path.dirname(os.path.realpath(__file__)))
NAME = r"([A-Za-z_][\w.]*)"
IMPORT = re.compile(rf"^(?:import {NAME}|from {NAME} import ([\w, ]+|\())(?:  #.*)?$", re.M)


def is_own(module: str) -> bool:
    """Returns whether a module is of this repository."""
    first = module.split(".")[0]
    return any(
        os.path.exists(os.path.join(TOP, *place))
        for place in ((first,), ("tests", first), ("tests", first + ".py"))
    )


def imports() -> Iterator[str]:
    """Yields the imports of tests/ and filing/, as statements of one line."""
    for folder in ("tests", "filing"):
        for name in sorted(os.listdir(os.path.join(TOP, folder))):
            if name.endswith(".py"):
                with open(os.path.join(TOP, folder, name), encoding="utf-8") as file:
                    for whole, of, names in IMPORT.findall(file.read()):
                        if not is_own(whole or of):
                            is_listed = names not in ("", "(")
                            plain = f"import {whole or of}"
                            yield f"from {of} import {names}" if is_listed else plain


def missing_modules() -> list[str]:
    """Returns the modules of the standard library that are missing."""
    missing: set[str] = set()
    for statement in sorted(set(imports())):
        try:
            exec(statement, {})
        except ImportError:
            missing.add(statement.split()[1])
    return sorted(missing)


def compiler() -> str | None:
    """Returns what keeps the compiler from compiling what the tests preload, or None."""
    import subprocess
    import tempfile

    with tempfile.TemporaryDirectory() as folder:
        words = ["cc", "-shared", "-fPIC", "-o", os.path.join(folder, "refuse.so")]
        words += [os.path.join(TOP, "tests", "refuse.c"), "-ldl"]
        try:
            done = subprocess.run(words, stdout=subprocess.PIPE, stderr=subprocess.STDOUT)
        except OSError as why:
            return f"a C compiler, cc: {why.strerror}"
        if done.returncode == 0:
            return None
        told = done.stdout.decode(errors="replace").splitlines()
        cause = next((it for it in told if "error" in it), told[0] if told else "no reason")
        return f"a cc with the headers of C (Debian: libc6-dev): {cause}"


def terminal() -> str | None:
    """Returns what keeps a pseudo-terminal from being opened, or None."""
    import pty

    try:
        for descriptor in pty.openpty():
            os.close(descriptor)
    except OSError as why:
        return f"a pseudo-terminal, which is in /dev/pts: {why}"
    return None


def main() -> list[str]:
    """Returns the lines of what is missing."""
    if sys.version_info < (3, 9):  # noqa: UP036
        return [f"Python 3.9 or later: this is {sys.version.split()[0]}"]
    modules = missing_modules()
    if modules:
        whole = "the whole standard library of Python (Debian: python3, not python3-minimal)"
        return [f"{whole}: it has no {', '.join(modules)}"]
    return [it for it in (compiler(), terminal()) if it]


if __name__ == "__main__":
    lines = main()
    for line in lines:
        sys.stderr.write(f"tests/run: needed and not found: {line}\n")
    sys.exit(1 if lines else 0)
