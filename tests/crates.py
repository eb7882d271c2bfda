"""Reads crates.txt for the scripts of this folder: which crates use which.

A line names the libraries that the crate's own files name. Their libraries are on their own lines.
"""
from __future__ import annotations

from pathlib import Path

TOP = Path(__file__).resolve().parent.parent


def crate_lines() -> dict[str, str]:
    """Reads the line of each crate, without its comment, in file order.

    A crate is after those below it.
    """
    rows = [it.split("#")[0].strip() for it in (TOP / "crates.txt").read_text(encoding="utf-8").splitlines()]
    return {it.partition(":")[0].split()[0]: it for it in rows if it}


def crates_below() -> dict[str, list[str]]:
    """Returns the crates, lowest first, each with all crates of this repository that it uses."""
    found: dict[str, set[str]] = {}
    for crate, line in crate_lines().items():
        named = [it for it in line.partition(":")[2].split() if it in found]
        found[crate] = set(named).union(*(found[it] for it in named))
    return {crate: [it for it in found if it in under] for crate, under in found.items()}
