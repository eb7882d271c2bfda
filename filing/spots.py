"""Where the cells of a report's CSV files are: their lines and numbers, for a refusal."""

from __future__ import annotations

import csv
import io
from contextlib import suppress
from itertools import islice
from typing import Optional

from .csv_text import numbered_records
from .prepared import Files
from .refusals import Spot
from .table_cells import Pieces, pieces_of


def spot_of(files: Files, url: str, row: int, column: str) -> Optional[Spot]:
    """Return where the cell of a row and a column of a table is; None if it is not found again.

    Row 1 is the record after the header.
    """
    with suppress(csv.Error, StopIteration, ValueError):
        records = numbered_records(io.BufferedReader(Pieces(pieces_of(files, url))))
        cell = next(records)[1].index(column) + 1
        line, _ = next(islice(records, row - 1, None))
        return Spot(line, cell)
    return None


def spot_of_parameter(files: Files, label: str, name: str, cell: int) -> Optional[Spot]:
    """Return where a cell of a parameter is; None if the parameters file does not have it.

    `label` is what lines call the file that gives the parameter.
    """
    if files.parameters is None or label != files.package.shown(files.name(files.parameters)):
        return None
    text = io.BytesIO(files.package.text(files.name(files.parameters)))
    with suppress(csv.Error):
        for line, record in islice(numbered_records(text), 1, None):
            if record[0] == name:
                return Spot(line, cell)
    return None
