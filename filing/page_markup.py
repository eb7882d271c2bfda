"""The HTML of a page: its frame, the tables, and each fault with the rows round it."""

from __future__ import annotations

import re
from itertools import groupby
from typing import Dict, Iterable, Iterator, List, Optional, Sequence, Tuple

from .counts import Numbers
from .faults import LONGEST, Fault
from .filed import Filed
from .page_content import Content, Item, TableLine
from .page_remedies import FORMS, REMEDIES
from .page_rows import LONGEST as SHORT
from .page_rows import Near, Row
from .page_script import SCRIPT
from .page_style import MARK, POLICY, STYLE
from .page_text import markup, plain
from .refused_faults import NAME as REFUSED_BY

WHOLE_FILE = "(the whole file)"  # what `--explain` has for a place without a text
NAME, CELL, LINE = 200, 400, 600  # characters of a name, a cell, a line that are shown
MOST_NAMES = 10_000  # characters of a list of tables
MOST_PARAMETERS = 1_000
GROUP = 100  # faults that a browser makes elements of at a time
COUNTS = ("Facts", "Without unit", "Without decimals", "Without entity", "Without period")
NONE: Tuple[Optional[int], ...] = (None,) * len(Numbers._fields)
COLOURS = {
    **dict.fromkeys(("refused", "failed"), " bad-word"),
    **dict.fromkeys(("converted", "done", "no fault"), " good-word"),
}
FAULTY, CAUSE = "here", "from"  # the classes of a cell with a fault, and of one that causes it
TICKED = re.compile(r"`([^`]*)`")


def page(content: Content) -> str:
    """Return the page of a report."""
    numbers = {name: at for at, (name, _) in enumerate(groups(content.items))}
    parts = [head(content), *faults_part(content, numbers), *tables_part(content, numbers)]
    return framed(f"{content.word}: {content.report}", "".join(parts))


def framed(title: str, body: str) -> str:
    """Return a whole page round the HTML of its body."""
    return (
        f'{MARK}<html lang="en">\n<head>\n<meta charset="utf-8">\n'
        f'<meta http-equiv="Content-Security-Policy" content="{POLICY}">\n'
        '<meta name="viewport" content="width=device-width, initial-scale=1">\n'
        '<meta name="referrer" content="no-referrer">\n<meta name="robots" content="noindex">\n'
        f"<title>{plain(title, NAME)}</title>\n<style>{STYLE}</style>\n</head>\n<body>\n{body}"
        "<footer>Made by xbrl-filing. This page needs no network. It has cells of the report, "
        f"so keep it as you keep the report.</footer>\n<script>{SCRIPT}</script>\n"
        "</body>\n</html>\n"
    )


def head(content: Content) -> str:
    """Return the outcome and what it means."""
    notes = "".join(f'<p class="lead">{markup(note, LINE)}</p>\n' for note in content.notes)
    name = content.report.rstrip("/").rpartition("/")[2]
    facts = [("Report", content.report), ("Document", content.document)]
    lines = "".join(f"<dt>{a}</dt><dd>{markup(b, LINE)}</dd>\n" for a, b in facts if b)
    return (
        '<a class="skip" href="#main">Skip to the faults and tables</a>\n<header class="top">\n'
        f"{outcome_word(content.word)}\n<h1>{markup(name, NAME)}</h1>\n"
        f'{notes}<dl>\n{lines}</dl>\n</header>\n<main id="main">\n'
    )


def outcome_word(word: str) -> str:
    """Return an outcome in its colours."""
    kind = COLOURS.get(word.lower(), "")
    return f'<span class="word{kind}">{markup(word, NAME)}</span>'


def counted(number: int, thing: str) -> str:
    """Return a number with what it counts."""
    return f"{number:,} {thing}{'' if number == 1 else 's'}"


def groups(items: Iterable[Item]) -> Iterator[Tuple[str, List[Item]]]:
    """Yield the items of each table together."""
    for table, found in groupby(items, lambda item: item.fault.table):
        yield table, list(found)


def faults_part(content: Content, numbers: Dict[str, int]) -> Iterator[str]:
    """Yield the faults, with filters if there are several."""
    if not content.items:
        return
    yield '<section id="faults">\n<h2>Faults</h2>\n'
    if content.found > len(content.items):
        first = f"These are the first {len(content.items):,} of {counted(content.found, 'fault')}."
        yield f"<p>{first}</p>\n"
    if any(item.fault.row and not item.near for item in content.items):
        shown = sum(1 for item in content.items if item.near)
        yield f"<p>Rows are shown for {counted(shown, 'fault')}.</p>\n"
    if len(content.items) > 1:
        yield filters(content.items, numbers)
    yield group_of(0, content.items[:GROUP], numbers)
    yield blocked(len(content.items) - GROUP)
    for at in range(GROUP, len(content.items), GROUP):
        yield group_of(at, content.items[at : at + GROUP], numbers)
    yield "</section>\n"
    yield from forms_part(content.items)


def filters(items: Sequence[Item], numbers: Dict[str, int]) -> str:
    """Return the form that picks faults, which the script shows."""
    tables = [(str(at), name or "(no table)") for name, at in numbers.items()]
    names = {item.fault.number: item.fault.name for item in items}
    kinds = [(str(number), f"{names[number]} ({number})") for number in sorted(names)]
    return (
        '<form class="filters" hidden>\n'
        f"{choice('table', 'Table', tables)}{choice('fault', 'Fault', kinds)}"
        '<button type="reset">Show all</button>\n<output></output>\n</form>\n'
    )


def choice(name: str, label: str, values: List[Tuple[str, str]]) -> str:
    """Return a list to choose from. The first choice is everything."""
    options = "".join(f'<option value="{a}">{plain(b, NAME)}</option>' for a, b in values)
    return (
        f'<label>{label}<select name="{name}"><option value="">All</option>{options}</select>'
        "</label>\n"
    )


def group_of(first: int, items: Sequence[Item], numbers: Dict[str, int]) -> str:
    """Return faults that a browser makes elements of together; `first` are before them.

    Later groups are in a `noscript`, which shows them where scripts are off. Else a browser takes
    it as one text, which the script makes elements of: only those that `page_script` lists.
    `data-keys` is what the filters compare.
    """
    faults = "".join(one_fault(at, item) for at, item in enumerate(items, first + 1))
    told = ",".join(f"{numbers[item.fault.table]} {item.fault.number}" for item in items)
    if first:
        faults = f"<noscript>\n{faults}</noscript>"
    kind = "group later" if first else "group"
    return f'<div class="{kind}" data-keys="{told}">\n{faults}</div>\n'


def blocked(later: int) -> str:
    """Return what a reader sees if a browser takes scripts, but not the one of the page."""
    more = f"{counted(later, 'fault')} more"
    note = f"If no fault follows, the script of this page is blocked: it has {more}."
    return f'<p class="blocked">{note}</p>\n' if later > 0 else ""


def one_fault(at: int, item: Item) -> str:
    """Return a fault: its place, what is wrong, the rows round it, and what to do."""
    fault = item.fault
    name = f'<span class="name">{markup(fault.name, NAME)} ({fault.number})</span>'
    parts = [f"<h3>{place_of(fault)} {name}</h3>", f'<p class="why">{why(item)}</p>']
    if item.near:
        parts.append(rows(at, item, item.near))
    elif item.file:
        parts.append(f'<p class="none">{file_of(item)}</p>')
    parts.append(found(item))
    if len(item.said) > 3:
        parts.append(causes(item.said[3:]))
    elif fault.cause_file:
        parts.append(causes([cause_of(fault)]))
    parts.append(remedy(fault.number))
    return f'<article class="fault" id="f{at}">{"".join(parts)}</article>\n'


def place_of(fault: Fault) -> str:
    """Return where a fault is, as its line has it."""
    if not fault.table:
        return markup(fault.place, NAME) if fault.place else "The run"
    place = f"Table {markup(fault.table, NAME)}"
    place += f", row {fault.row}" if fault.row else ""
    return place + (f", column {fault.column}" if fault.column else "")


def why(item: Item) -> str:
    """Return what is wrong, in a sentence: of `--explain`, of xbrl-filing, or of the fault."""
    if item.fault.name == REFUSED_BY:
        return markup(item.fault.cell, LINE)
    if len(item.said) > 2:
        return markup(item.said[2], LINE)
    return ticked(REMEDIES.get(item.fault.number, ("", ""))[0])


def found(item: Item) -> str:
    """Return the text at the place, unless the rows show all of it."""
    fault = item.fault
    is_shown = item.near is not None and fault.column > 0 and len(fault.cell) <= SHORT
    if fault.name == REFUSED_BY or is_shown:
        return ""
    text = f"<code>{markup(fault.cell, CELL)}</code>" if fault.cell else ""
    if not text and len(item.said) > 1 and item.said[1] != WHOLE_FILE:
        text = markup(item.said[1], LINE)
    return f"<p>Found: {text}{length_of(fault.cell)}</p>" if text else ""


def length_of(text: str) -> str:
    """Return how long a text is that is not shown whole."""
    if len(text) <= CELL:
        return ""
    return f" ({counted(len(text), 'character')})" if len(text) <= LONGEST else " (longer)"


def file_of(item: Item) -> str:
    """Return the file of a fault of a table, and the line there."""
    line = f", line {markup(item.fault.line, NAME)}" if item.fault.line else ""
    return markup(item.file, LINE) + line


def cause_of(fault: Fault) -> str:
    """Return the place that a fault comes from and the text there, as `--explain` has them."""
    if fault.cause_cell.startswith("/"):
        return f"{fault.cause_file}: {fault.cause_cell}: {fault.cause_text}"
    line = f", line {fault.cause_line}" if fault.cause_line else ""
    cell = f", cell {fault.cause_cell}" if fault.cause_cell else ""
    text = f'"{fault.cause_text}"' if cell else fault.cause_text
    return f"{fault.cause_file}{line}{cell}: {text}"


def causes(said: Sequence[str]) -> str:
    """Return the places that the cause comes from."""
    lines = "\n".join(markup(line, LINE) for line in said)
    return f"<p>It comes from:</p><pre>{lines}</pre>"


def remedy(number: int) -> str:
    """Return what to do about a fault."""
    text = ticked(REMEDIES.get(number, ("", ""))[1])
    if number in FORMS:
        text = f'<a href="#n{number}">what filers often write, and what is right</a>'
    return f'<p class="do"><b>What to do:</b> {text}</p>' if text else ""


def ticked(text: str) -> str:
    """Return a text of `page_remedies`, whose backticks are code."""
    return TICKED.sub(r"<code>\1</code>", markup(text, 1000))


def rows(at: int, item: Item, near: Near) -> str:
    """Return the rows round a fault as a table, in which the cell with the fault is marked."""
    fault = item.fault
    heads = "".join(header_cell(*column, fault) for column in zip(near.columns, near.header))
    lines = "".join(row(near_row, near.columns, item) for near_row in near.rows)
    return (
        f'<div class="wide rows" tabindex="0" role="group" aria-label="Rows of fault {at}">'
        f"<table><caption>{file_of(item)}</caption>"
        f'<thead><tr><th scope="col">Line</th><th scope="col">Row</th>{heads}</tr></thead>'
        f"<tbody>{lines}</tbody></table></div>"
    )


def header_cell(column: int, text: Optional[str], fault: Fault) -> str:
    """Return the header cell of a column."""
    shown = '<span class="none">(none)</span>' if not text else markup(text, CELL)
    if fault.row == 0 and fault.column == column:
        return f'<th scope="col" class="{FAULTY}"><mark>{shown}</mark></th>'
    return f'<th scope="col">{shown}</th>'


def row(shown: Row, columns: List[int], item: Item) -> str:
    """Return a row. The row with the fault is marked if no cell of it is."""
    fault = item.fault
    is_bad = shown.number == fault.row
    marks = {cause_column(item): CAUSE, fault.column: FAULTY} if is_bad else {}
    cells = "".join(cell(a, marks.get(b, "")) for a, b in zip(shown.cells, columns))
    start = '<tr class="bad">' if is_bad and not fault.column else "<tr>"
    line = f'<th scope="row">{number_or_not(shown.line)}</th><td>{shown.number:,}</td>'
    return f"{start}{line}{cells}</tr>"


def cause_column(item: Item) -> int:
    """Return the column of the cell in the fault's own row that causes it; 0 for another place."""
    fault = item.fault
    is_near = fault.cause_file == item.file and fault.cause_line == fault.line
    return int(fault.cause_cell) if is_near and fault.cause_cell.isdecimal() else 0


def cell(text: Optional[str], mark: str) -> str:
    """Return a cell of a row."""
    shown = markup(text, CELL) if text is not None else '<span class="none">(none)</span>'
    if not mark:
        return f"<td>{shown}</td>"
    shown = shown or '<span class="none">(empty)</span>'
    if mark == CAUSE:
        return f'<td class="{CAUSE}">{shown}</td>'
    return f'<td class="{FAULTY}"><mark>{shown}</mark><span class="hide"> (the fault)</span></td>'


def forms_part(items: Sequence[Item]) -> Iterator[str]:
    """Yield the forms in which filers meet the faults of the page."""
    numbers = {item.fault.number: item.fault.name for item in items if item.fault.number in FORMS}
    if not numbers:
        return
    yield '<section id="forms">\n<h2>What filers often write</h2>\n'
    for number in sorted(numbers):
        lines = "".join(
            f'<tr><th scope="row">{ticked(seen)}</th><td>{ticked(reason)}</td>'
            f"<td>{ticked(right)}</td></tr>\n"
            for seen, reason, right in FORMS[number]
        )
        yield (
            f'<div class="wide"><table class="plain" id="n{number}">\n'
            f"<caption>{markup(numbers[number], NAME)} ({number}): {ticked(REMEDIES[number][0])}"
            "</caption>\n"
            '<thead><tr><th scope="col">You see</th><th scope="col">Why</th>'
            '<th scope="col">Do, or write</th></tr></thead>\n'
            f"<tbody>\n{lines}</tbody></table></div>\n"
        )
    yield "</section>\n"


def tables_part(content: Content, numbers: Dict[str, int]) -> Iterator[str]:
    """Yield the list of the tables."""
    if content.tables:
        firsts: Dict[str, int] = {}
        counts: Dict[str, int] = {}
        for at, item in enumerate(content.items, 1):
            firsts.setdefault(item.fault.table, at)
            counts[item.fault.table] = counts.get(item.fault.table, 0) + 1
        total = content.filed.total() if content.filed else None
        heads = ("Rows", *(COUNTS if total else ()), "Bytes")
        yield '<section id="tables">\n<h2>Tables</h2>\n<div class="wide"><table class="plain">\n'
        yield f"<caption>{counted(len(content.tables), 'table')}, by identifier</caption>\n"
        yield '<thead><tr><th scope="col">Table</th><th scope="col">File</th>'
        yield "".join(f'<th scope="col" class="count">{head}</th>' for head in heads)
        yield '<th scope="col">Faults</th></tr></thead>\n<tbody>\n'
        for table in content.tables:
            yield table_line(table, counts.get(table.table, 0), firsts.get(table.table, 0), total)
        if total and len(content.tables) > 1:
            yield total_line(total)
        yield "</tbody></table></div>\n</section>\n"
    if content.filed:
        yield from filed_part(content.filed)
    yield "</main>\n"


def table_line(table: TableLine, faults: int, first: int, total: Optional[Numbers]) -> str:
    """Return a line of the list of tables, with a link to the table's first fault."""
    told = f'<a href="#f{first}">{counted(faults, "fault")}</a>' if faults else "none"
    facts: Sequence[Optional[int]] = (table.numbers or NONE)[1:] if total else ()
    cells = "".join(count_cell(number) for number in (table.rows, *facts, table.size))
    return (
        f'<tr><th scope="row">{markup(table.table, NAME)}</th>'
        f'<td class="path">{markup(table.file, LINE)}</td>{cells}<td>{told}</td></tr>\n'
    )


def total_line(total: Numbers) -> str:
    """Return the last line of the list, which has the sums of all tables."""
    cells = "".join(map(count_cell, total))
    return f'<tr><th scope="row">All tables</th><td></td>{cells}<td></td><td></td></tr>\n'


def count_cell(number: Optional[int]) -> str:
    """Return a cell with a number for people; a dash if it is not known."""
    return f'<td class="count">{number_or_not(number)}</td>'


def filed_part(filed: Filed) -> Iterator[str]:
    """Yield what is not filed, what filing indicators say against the tables, and parameters."""
    lists = [
        ("Optional tables without a file", [absent.table for absent in filed.absent]),
        ("Filing indicators that are true without facts", filed.without_facts()),
        ("Filing indicators that are false with facts", filed.not_announced()),
    ]
    told = [(title, names) for title, names in lists if names]
    if told:
        yield '<section id="filed">\n<h2>What is filed</h2>\n<dl>\n'
        for title, names in told:
            yield f"<dt>{title}</dt><dd>{markup(', '.join(names), MOST_NAMES)}</dd>\n"
        yield "</dl>\n</section>\n"
    if filed.parameters:
        yield '<section id="parameters">\n<h2>Parameters</h2>\n'
        yield '<div class="wide"><table class="plain">\n'
        yield f"<caption>{counted(len(filed.parameters), 'value')}, by name</caption>\n"
        yield '<thead><tr><th scope="col">Parameter</th><th scope="col">Value</th>'
        yield '<th scope="col">File</th></tr></thead>\n<tbody>\n'
        for name, value, file in filed.parameters[:MOST_PARAMETERS]:
            yield f'<tr><th scope="row">{markup(name, NAME)}</th><td>{markup(value, CELL)}</td>'
            yield f'<td class="path">{markup(file, LINE)}</td></tr>\n'
        yield "</tbody></table></div>\n</section>\n"


def number_or_not(number: Optional[int]) -> str:
    """Return a number for people; a dash if it is not known."""
    return "\u2013" if number is None else f"{number:,}"
