"""The page that lists the reports of a run over many, those that were refused first."""

from __future__ import annotations

import os
from typing import Dict, List, NamedTuple, Optional, Sequence, Tuple
from urllib.parse import quote

from .marked_output import PAGE, is_of_kind, write_marked
from .outcomes import DONE, FAILED, REFUSED, TO_RETRY, Outcome
from .page_markup import LINE, NAME, choice, counted, framed, outcome_word
from .page_text import markup, plain

ORDER = (REFUSED, FAILED, *TO_RETRY, DONE)


class Listed(NamedTuple):
    """A report that has ended, and the path of its page."""

    outcome: Outcome
    page: str


def write_index(path: Optional[str], listed: Sequence[Listed]) -> None:
    """Write the index, if there is to be one."""
    if path is not None:
        write_marked(path, PAGE, index(listed, os.path.dirname(os.path.realpath(path))))


def index(listed: Sequence[Listed], folder: str) -> str:
    """Return an index that will be in a folder."""
    ordered = sorted(listed, key=lambda report: (place_in_order(report), report.outcome.report))
    words = [report.outcome.outcome for report in ordered]
    counts = {word: words.count(word) for word in dict.fromkeys(words)}
    others = len(words) - counts.get(DONE, 0)
    refused = counts.get(REFUSED, 0)
    word = "Converted" if not others else "Refused" if refused else "Failed"
    title = f"{word}: {counted(refused or others or len(words), 'report')}"
    title += f" of {len(words):,}" if others else ""
    told = ", ".join(f"{number:,} {name}" for name, number in counts.items())
    lines = "".join(line(report, folder) for report in ordered)
    return framed(
        title,
        f'<header class="top">\n{outcome_word(word)}\n<h1>{plain(title, NAME)}</h1>\n'
        f'<p class="lead">{markup(told, LINE)}</p>\n</header>\n<main id="main">\n'
        f"<section>\n<h2>Reports</h2>\n{outcome_filter(counts)}"
        '<div class="wide"><table class="plain">\n'
        f"<caption>{counted(len(words), 'report')}, the refused ones first</caption>\n"
        '<thead><tr><th scope="col">Report</th><th scope="col">Outcome</th>'
        '<th scope="col" class="count">Faults</th><th scope="col">First line</th></tr></thead>\n'
        f'<tbody class="group">\n{lines}</tbody></table></div>\n</section>\n</main>\n',
    )


def place_in_order(report: Listed) -> int:
    """Return the place of a report's outcome in the list."""
    word = report.outcome.outcome
    return ORDER.index(word) if word in ORDER else len(ORDER)


def outcome_filter(counts: Dict[str, int]) -> str:
    """Return the form that picks an outcome, if there are several."""
    if len(counts) < 2:
        return ""
    values: List[Tuple[str, str]] = [(word, f"{word} ({counts[word]:,})") for word in counts]
    return (
        f'<form class="filters" hidden>\n{choice("outcome", "Outcome", values)}'
        '<button type="reset">Show all</button>\n<output></output>\n</form>\n'
    )


def line(report: Listed, folder: str) -> str:
    """Return the line of a report, with a link to its page if that exists."""
    name = markup(report.outcome.report, LINE)
    if is_of_kind(report.page, PAGE):
        name = f'<a href="{address(report.page, folder)}">{name}</a>'
    faults = f"{report.outcome.faults:,}" if report.outcome.faults else "\u2013"
    word = plain(report.outcome.outcome, NAME)
    told = report.outcome.line.removeprefix("xbrl-filing: ").removeprefix(f"{report.outcome.report}: ")
    return (
        f'<tr data-outcome="{word}"><th scope="row" class="path">{name}</th>'
        f'<td>{outcome_word(report.outcome.outcome)}</td><td class="count">{faults}</td>'
        f'<td class="line">{markup(told, LINE)}</td></tr>\n'
    )


def address(page: str, folder: str) -> str:
    """Return the relative address of a page. It has no colon, so it is never a script's."""
    path = os.path.relpath(os.path.realpath(page), folder)
    return "./" + quote(os.fsencode(path), safe="/")
