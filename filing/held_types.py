"""The records of a types table that a report can look up, found once for many reports.

A run over many reports holds the table of their module. Which records a template names is found
once, while reports are converted with the whole table. From then on only the tables and parameters
of each report are searched.
"""

from __future__ import annotations

import re
from array import array
from typing import Dict, Iterator, List, Mapping, Optional, Set

from .metadata import compact
from .named_members import (
    MEMBER_END,
    MOST,
    TEXT,
    cells_of_namespaces,
    front_of,
    names_of_files,
)
from .prepared import Files
from .strict_json import Object

# A text of JSON that may be a QName. A colon outside of texts follows a quotation mark.
QNAME = re.compile(rb'"([^"\\:]+:[^"\\]+)"')
LINE_END = re.compile(rb"[\r\n]")
LEAST_LEFT_OUT = 2  # of so many records one: else the table serves as it is
NOWHERE = -1  # the number of a record that the table does not have


class HeldTypes:
    """A types table, and the numbers of the records that each template names."""

    def __init__(self, text: bytes, templates: Mapping[str, bytes], namespaces: Object) -> None:
        """Take a table, the templates of its module as JSON, and the prefixes of both.

        The table is of no use before `look` has looked at the templates.
        """
        self.text = text
        self.templates = templates
        self.namespaces = cells_of_namespaces(namespaces)
        self.starts = array("L", [0])
        self.numbers: Dict[bytes, int] = {}  # by the first two cells
        members: List[int] = []
        for number, line in enumerate(text.splitlines(keepends=True)):
            self.starts.append(self.starts[-1] + len(line))
            self.numbers[line.rsplit(b",", 3)[0]] = number
            if not members and line.endswith(MEMBER_END):
                members.append(number)  # without one, xbrl-json would look none up
        self.always = [0, *members]  # the header is record 0
        self.of_template: Dict[str, array[int]] = {}

    def look(self) -> Iterator[None]:
        """Look at the templates, and yield after each. Templates have many names in common."""
        known: Dict[bytes, int] = {}
        for name, template in self.templates.items():
            names = set(QNAME.findall(template))
            for new in names.difference(known):
                front = front_of(new, self.namespaces)
                known[new] = NOWHERE if front is None else self.numbers.get(front, NOWHERE)
            numbers = set(map(known.__getitem__, names))
            numbers.discard(NOWHERE)
            self.of_template[name] = array("L", numbers)
            yield

    def found(self, names: Set[bytes]) -> Set[int]:
        """Return the numbers of the records that have one of these names."""
        fronts = (front_of(name, self.namespaces) for name in names)
        return {self.numbers[front] for front in fronts if front in self.numbers}

    def table(self, files: Files) -> Optional[bytes]:
        """Return the table with only the records that a report can look up.

        None if its tables are too large to be searched, or if few records would be left out. So it
        is if a namespace has an end of a line, because a record is then several lines.
        """
        if any(LINE_END.search(cell) for cell in self.namespaces.values()):
            return None
        value = files.merged.value
        rest = compact({name: part for name, part in value.items() if name != "tableTemplates"})
        names = names_of_files(files, MOST - len(rest))
        if names is None:
            return None
        names.update(TEXT.findall(rest))
        numbers = self.found(names).union(self.always)
        for template in value.get("tableTemplates", {}):
            numbers.update(self.of_template[template])
        if len(numbers) * LEAST_LEFT_OUT > len(self.numbers):
            return None
        text, starts = self.text, self.starts
        return b"".join([text[starts[at] : starts[at + 1]] for at in sorted(numbers)])
