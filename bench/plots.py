#!/usr/bin/env python3
"""Draws the figures that measure.py wrote with --json, as two pictures (SVG).

    plots.py RESULTS FOLDER

FOLDER gets `times.svg` and `memory.svg`. `times.svg` has the seconds of each run on each report
whose name is one word, as `positions`. `memory.svg` has the largest memory of each run against the
size of the report, with one line for all reports of one name and different sizes, as
`positions-6`, `positions-24`. `cat` is left out. Needs only Python 3.9 or later.
"""
from __future__ import annotations

import json
import math
import sys
from pathlib import Path
from typing import Any, Dict, Iterable, List, NamedTuple, Tuple
from xml.sax.saxutils import escape

Json = Dict[str, Any]
# Fill of the bars and colour of the lines: blue, darker with more workers, and orange for plain
# Rust. They differ in lightness too, so they print in black and white.
COLOURS = {"1 worker": "#9ecae1", "2 workers": "#4292c6", "4 workers": "#08306b", "plain Rust": "#e6842a"}
OTHER = "#777777"
DASHES = ("", "7 4", "2 3", "10 3 2 3")
WIDTH = 820
LEFT, RIGHT, TOP = 170, 130, 92
BAR, HEADING, GAP = 17, 16, 10


class Line(NamedTuple):
    """The memory of one run on the reports of one name: points of MB of CSV and MiB."""

    name: str
    run: str
    points: List[Tuple[float, float]]


class Picture:
    """An SVG picture that grows by elements."""

    def __init__(self, height: float, title: str, subtitle: str) -> None:
        self.height = height
        size = f'width="{WIDTH}" height="{height:g}" viewBox="0 0 {WIDTH} {height:g}"'
        self.parts = [f'<svg xmlns="http://www.w3.org/2000/svg" {size} font-family="Helvetica, Arial, sans-serif" font-size="13">']
        self.parts.append(f"<title>{escape(title)}</title>")
        self.parts.append(f'<rect width="{WIDTH}" height="{height:g}" fill="white"/>')
        self.text(16, 26, title, size=18, weight="bold")
        self.text(16, 46, subtitle, size=12, colour="#444444")

    def text(self, x: float, y: float, text: str, anchor: str = "start", size: int = 13, weight: str = "normal", colour: str = "#111111") -> None:
        """Adds a text at its baseline."""
        style = f'text-anchor="{anchor}" font-size="{size}" font-weight="{weight}" fill="{colour}"'
        self.parts.append(f'<text x="{x:.1f}" y="{y:.1f}" {style}>{escape(text)}</text>')

    def line(self, x1: float, y1: float, x2: float, y2: float, colour: str = "#dddddd") -> None:
        """Adds a straight line."""
        self.parts.append(f'<line x1="{x1:.1f}" y1="{y1:.1f}" x2="{x2:.1f}" y2="{y2:.1f}" stroke="{colour}"/>')

    def bar(self, x: float, y: float, width: float, height: float, colour: str) -> None:
        """Adds a filled bar with a thin edge."""
        self.parts.append(f'<rect x="{x:.1f}" y="{y:.1f}" width="{width:.1f}" height="{height:.1f}" fill="{colour}" stroke="#333333" stroke-width="0.6"/>')

    def path(self, points: Iterable[Tuple[float, float]], colour: str, dashes: str) -> None:
        """Adds a line through points, with a dot at each."""
        points = list(points)
        along = " ".join(f"{x:.1f},{y:.1f}" for x, y in points)
        self.parts.append(f'<polyline points="{along}" fill="none" stroke="{colour}" stroke-width="2.2" stroke-dasharray="{dashes}"/>')
        for x, y in points:
            self.parts.append(f'<circle cx="{x:.1f}" cy="{y:.1f}" r="3.6" fill="{colour}"/>')

    def write(self, file: Path) -> None:
        """Writes the picture to a file."""
        file.write_text("\n".join([*self.parts, "</svg>"]) + "\n")


def steps(most: float) -> List[float]:
    """Returns about five round numbers from 0 to at least `most`, for an axis."""
    rough = most / 5
    power = 10 ** math.floor(math.log10(rough))
    step = next(it * power for it in (1, 2, 2.5, 5, 10) if it * power >= rough)
    return [step * i for i in range(math.ceil(most / step - 1e-9) + 1)]


def subtitle(results: Json) -> str:
    """Names the program and the machine."""
    machine = results["machine"]
    return f"{machine['program'].split(' (')[0]} on {machine['cores']} processors, {machine['processor']}"


def runs_of(report: Json) -> Json:
    """Returns the figures of all runs but `cat`."""
    return {name: it for name, it in report["runs"].items() if not name.startswith("`cat`")}


def times(results: Json) -> Picture:
    """Draws the seconds of each run on each report of one size."""
    reports = {name: it for name, it in results["reports"].items() if "-" not in name}
    most = max(run["seconds"] for it in reports.values() for run in runs_of(it).values())
    axis = steps(most)
    bars = sum(len(runs_of(it)) for it in reports.values())
    bottom = TOP + bars * BAR + len(reports) * (6 + HEADING + GAP) - HEADING - GAP
    picture = Picture(bottom + 52, "Seconds to convert a report (shorter is better)", subtitle(results))
    scale = (WIDTH - LEFT - RIGHT) / axis[-1]
    y = float(TOP)
    for name, report in reports.items():
        picture.text(16, y - 2, f"{name}: {report['bytes'] / 1e6:.0f} MB of CSV, {report['facts']:,} facts", weight="bold")
        y += 6
        runs = runs_of(report)
        for at in axis:
            picture.line(LEFT + at * scale, y - 2, LEFT + at * scale, y + len(runs) * BAR + 2, "#333333" if at == 0 else "#dddddd")
        for run, it in runs.items():
            picture.text(LEFT - 8, y + 13, run, "end")
            picture.bar(LEFT, y + 1, it["seconds"] * scale, BAR - 3, COLOURS.get(run, OTHER))
            picture.text(LEFT + it["seconds"] * scale + 6, y + 13, f"{it['seconds']:.3f}")
            y += BAR
        y += HEADING + GAP
    for at in axis:
        picture.text(LEFT + at * scale, bottom + 18, f"{at:g}", "middle")
    picture.text(LEFT + axis[-1] * scale / 2, bottom + 40, "seconds by the clock, median", "middle")
    return picture


def memory_lines(results: Json) -> List[Line]:
    """Returns a line for each name of reports and each run, with points in order of size."""
    lines: Dict[Tuple[str, str], List[Tuple[float, float]]] = {}
    for name, report in results["reports"].items():
        base, dash, _ = name.rpartition("-")
        for run, it in runs_of(report).items() if dash else ():
            lines.setdefault((base, run), []).append((report["bytes"] / 1e6, it["peak"]))
    return [Line(base, run, sorted(points)) for (base, run), points in lines.items()]


def memory(results: Json) -> Picture:
    """Draws the largest memory of each run against the size of the report."""
    lines = memory_lines(results)
    names = list(dict.fromkeys(it.name for it in lines))
    left, right, bottom = 66, 210, 440
    across = steps(max(x for it in lines for x, _ in it.points))
    up = steps(max(y for it in lines for _, y in it.points))
    picture = Picture(bottom + 56, "Memory against the size of a report", subtitle(results))
    wide, high = (WIDTH - left - right) / across[-1], (bottom - TOP) / up[-1]
    for at in up:
        picture.line(left, bottom - at * high, WIDTH - right, bottom - at * high)
        picture.text(left - 8, bottom - at * high + 4, f"{at:g}", "end")
    for at in across:
        picture.line(left + at * wide, TOP, left + at * wide, bottom)
        picture.text(left + at * wide, bottom + 18, f"{at:g}", "middle")
    picture.text(left + across[-1] * wide / 2, bottom + 42, "MB of CSV", "middle")
    picture.text(16, TOP - 12, "largest resident memory, MiB")
    picture.line(left, bottom, WIDTH - right, bottom, "#333333")
    picture.line(left, TOP, left, bottom, "#333333")
    floor = bottom + 6.0
    for it in sorted(lines, key=lambda it: it.points[-1][1]):
        places = [(left + x * wide, bottom - y * high) for x, y in it.points]
        colour = COLOURS.get(it.run, OTHER)
        picture.path(places, colour, DASHES[names.index(it.name) % len(DASHES)])
        # From the lowest line up, each label is at least 16 above the one before.
        floor = min(places[-1][1] + 4, floor - 16)
        picture.line(*places[-1], WIDTH - right + 14, floor - 4, colour)
        picture.text(WIDTH - right + 18, floor, f"{it.name}, {it.run}")
    return picture


def main() -> None:
    """Draws both pictures."""
    if len(sys.argv) != 3:
        sys.exit(__doc__)
    results, folder = json.loads(Path(sys.argv[1]).read_text()), Path(sys.argv[2])
    times(results).write(folder / "times.svg")
    memory(results).write(folder / "memory.svg")


if __name__ == "__main__":
    main()
