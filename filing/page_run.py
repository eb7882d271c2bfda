"""The page of a run over one report: `--page FILE`."""

from __future__ import annotations

from typing import List, Mapping, Sequence

from .faults import Fault, Found
from .filed import Filed
from .marked_output import PAGE, check_inputs, write_marked
from .page_content import Content, Item, TableFile, filled, tables_of
from .page_lines import KeptLines
from .page_markup import page
from .prepared import Written
from .refusals import WRONG, Refusal
from .refused_faults import fault_of_refusal
from .words import Settings

CONVERTED, REFUSED = "Converted", "Refused"
MOST_NAMES = 20  # of tables whose lists are cut


def write_run_page(
    settings: Settings,
    status: int,
    lines: KeptLines,
    written: Written,
    faults: Found,
    filed: Filed,
) -> None:
    """Write the page of a run over a report that has ended with status 0 or 1."""
    said = {fault: lines.of(fault) for fault in faults.faults}
    out = next(settings.outputs(["--out"]), "standard output")
    content = Content(CONVERTED, settings.report, out, ["No fault was found."], faults.total, filed=filed)
    if status:
        content = content._replace(word=REFUSED, document="", notes=notes_of(faults))
    tables = tables_of(written.merged.value, lines.folder, lines.names)
    finish(settings, content, tables, list(said), said)


def notes_of(found: Found) -> List[str]:
    """Return what to do with the faults of a run."""
    names = ", ".join(found.cut[:MOST_NAMES]) + (" .." if len(found.cut) > MOST_NAMES else "")
    cut = [f"More faults than the list may have are in: {names}."] if names else []
    if found.total == 1:
        return ["One fault was found. Mend it, then run again: there may be more behind it.", *cut]
    more = "Mend them, then run again: there may be more behind them."
    return [f"{found.total:,} faults were found. {more}", *cut]


def write_refusal_page(settings: Settings, refusal: Refusal) -> None:
    """Write the page of a report that xbrl-filing itself refuses."""
    if settings.page is None or refusal.status != WRONG:
        return
    items = [Item(fault_of_refusal(refusal), "", (), None)]
    notes = ["The filing is refused before its tables are read."]
    write_marked(settings.page, PAGE, page(Content(REFUSED, settings.report, "", notes, 1, items)))


def finish(
    settings: Settings,
    content: Content,
    tables: Sequence[TableFile],
    faults: Sequence[Fault],
    said: Mapping[Fault, Sequence[str]],
) -> None:
    """Write the page of a run that has read its tables."""
    if settings.page is not None:
        check_inputs(settings.page, [table.path for table in tables])
        write_marked(settings.page, PAGE, page(filled(content, tables, faults, said)))
