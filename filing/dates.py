"""The types of concepts whose values are dates with or without a time.

XBRL 2.1 (section 5.1.1.3) lets a value of `dateTimeItemType` be either, and no type of the types
table does. So the cells of a filing choose: such a concept is a `date` if its cells are dates, else
a `dateTime`. If it has cells of both it is `other`, and its cells are checked here.
"""

from __future__ import annotations

import re
from datetime import date
from functools import lru_cache
from typing import Callable, Dict, Iterator, List, NamedTuple, Optional, Set, Tuple

from .metadata import objects
from .named import reference
from .parameters import parameters_of_file
from .prepared import Files
from .refusals import wrong
from .spots import spot_of
from .strict_json import Object
from .table_cells import is_pipe, pieces_of, rows_of
from .types_table import quoted

KindOf = Callable[[str], Optional[str]]  # the word of a name of the metadata
DATE, DATE_TIME, OTHER = "date", "dateTime", "other"
RECORD_ENDS = re.compile(rb",dateTime,(?:instant|duration)?,\n")  # a typed dimension's ends otherwise
BARE_DATE = re.compile(rb"-[0-9][0-9]-[0-9][0-9](?!T)")
LONGEST_END = 6  # bytes of a piece that may begin a date of the next one
ZONE = "(?:Z|[+-](?:(?:0[0-9]|1[0-3]):[0-5][0-9]|14:00))?"
TIME = r"(?:(?:[01][0-9]|2[0-3]):[0-5][0-9]:[0-5][0-9](?:\.[0-9]+)?|24:00:00(?:\.0+)?)"
FORM = re.compile(f"([0-9]{{4}})-([0-9]{{2}})-([0-9]{{2}})(T{TIME})?{ZONE}")
BLANKS = " \t\r\n"


class DateColumn(NamedTuple):
    """Where the facts of a column get their concept from.

    It is that of the first group that gives one, else `concept`, which may be empty. The groups are
    those of the columns that `givers` names.
    """

    concept: str
    givers: List[str]


class DateTemplate(NamedTuple):
    """The columns of a template whose facts may have such a concept.

    The concepts of groups are by the column that has the groups, and whose cell names one.
    """

    columns: Dict[str, DateColumn]
    groups: Dict[str, Dict[str, str]]


DatePlaces = Dict[str, DateTemplate]  # by template


class Cell(NamedTuple):
    """A cell, and the url of its table."""

    url: str
    row: int
    column: str
    text: str


UNSEEN = Cell("", 0, "", "")


def form_of(text: str) -> str:
    """Return whether a text is a `date` or a `dateTime`; empty if it is neither.

    See XML Schema, part 2, sections 3.2.7 and 3.2.9. Years are 0001 to 9999, seconds up to 59.
    """
    found = FORM.fullmatch(text.strip(BLANKS))
    if found is None:
        return ""
    try:
        date(int(found[1]), int(found[2]), int(found[3]))
    except ValueError:
        return ""
    return DATE_TIME if found[4] else DATE


def date_places(report: Object, kind_of: KindOf) -> DatePlaces:
    """Return the columns whose facts may have a concept of dates with or without a time."""

    @lru_cache(maxsize=None)  # many groups have the same concept
    def is_sought(concept: str) -> bool:
        return reference("concept", concept) is not None or kind_of(concept) == DATE_TIME

    places: DatePlaces = {}
    for name, template in objects(report, "tableTemplates"):
        outer = concept_at(template) or concept_at(report) or ""
        found = date_template(template, outer, is_sought)
        if found.columns:
            places[name] = found
    return places


def date_template(
    template: Object, outer: str, is_sought: Callable[[str], bool]
) -> DateTemplate:
    """Return where the columns of a template get their concepts from.

    Columns that never get one that is sought are left out. So are other concepts of groups, unless
    something after the groups may give one.
    """
    columns = dict(objects(template, "columns"))
    groups = {name: dict(concepts_of_groups(column)) for name, column in columns.items()}
    sought = {name for name, given in groups.items() if any(map(is_sought, given.values()))}
    found: Dict[str, DateColumn] = {}
    whole: Set[str] = set()
    for name, column in columns.items():
        own = concept_at(column)
        givers = givers_of(column) if own is None else []
        concept = outer if own is None else own
        if "dimensions" in column and (is_sought(concept) or not sought.isdisjoint(givers)):
            found[name] = DateColumn(concept, givers)
            whole.update(givers if len(givers) > 1 or is_sought(concept) else ())
    for name in {giver for column in found.values() for giver in column.givers} - whole:
        given = groups.get(name, {})
        groups[name] = {key: concept for key, concept in given.items() if is_sought(concept)}
    used = {giver for column in found.values() for giver in column.givers}
    return DateTemplate(found, {name: groups[name] for name in groups if name in used})


def givers_of(column: Object) -> List[str]:
    """Return the columns from which a column takes property groups, each once, in order."""
    named = column.get("propertiesFrom")
    texts = [name for name in named if isinstance(name, str)] if isinstance(named, list) else []
    return list(dict.fromkeys(texts))


def concepts_of_groups(column: Object) -> Iterator[Tuple[str, str]]:
    """Yield each property group of a column that gives a concept, with this concept."""
    for name, group in objects(column, "propertyGroups"):
        concept = concept_at(group)
        if concept is not None:
            yield name, concept


def concept_at(level: Object) -> Optional[str]:
    """Return the concept that a level of the metadata gives itself."""
    dimensions = level.get("dimensions")
    concept = dimensions.get("concept") if isinstance(dimensions, dict) else None
    return concept if isinstance(concept, str) else None


def with_types_of_dates(types: bytes, places: DatePlaces, files: Files) -> bytes:
    """Return a types table in which the cells have chosen the types of their concepts.

    Refuse a cell that is neither form, if its concept has cells of both. A table that is a pipe is
    left to xbrl-json, so a concept that it may have is not checked.
    """
    tables: List[Tuple[str, Object, DateTemplate]] = []
    for name, table in objects(files.merged.value, "tables"):
        used, url = table.get("template", name), table.get("url")
        if isinstance(used, str) and used in places and isinstance(url, str) and url in files.tables:
            tables.append((url, table, places[used]))
    if not any(is_pipe(files, url) or has_bare_date(files, url) for url, _, _ in tables):
        return types
    seen = SeenDates(types, files)
    for url, table, template in tables:
        if is_pipe(files, url):
            seen.pass_over(template)
        else:
            seen.look_at(url, template, {**seen.given, **parameters_of(table)})
    return seen.types_table()


def has_bare_date(files: Files, url: str) -> bool:
    """Return whether a table may have a date without a time."""
    end = b""
    for piece in pieces_of(files, url):
        if BARE_DATE.search(end + piece):
            return True
        end = piece[-LONGEST_END:]
    return False


def parameters_of(owner: Object) -> Dict[str, str]:
    """Return the parameters that metadata or a table has itself."""
    given = owner.get("parameters")
    items = given.items() if isinstance(given, dict) else ()
    return {name: text for name, text in items if isinstance(text, str)}


class SeenDates:
    """The forms of the cells of each concept that may have both."""

    def __init__(self, types: bytes, files: Files) -> None:
        self.types, self.files = types, files
        self.namespaces: Object = files.merged.value["documentInfo"].get("namespaces", {})
        self.given = parameters_of(files.merged.value)
        self.given.update((name, text) for name, text, _ in parameters_of_file(files))
        # By the first two cells of the record of such a concept: where its type begins.
        self.places: Dict[bytes, int] = {}
        for found in RECORD_ENDS.finditer(types):
            begin = types.rfind(b"\n", 0, found.start()) + 1
            self.places[types[begin : found.start()]] = found.start() + 1
        self.records: Dict[str, bytes] = {}  # these cells by the concept; empty for any other
        self.forms: Dict[bytes, Dict[str, Cell]] = {}  # the first cell of each form

    def record(self, concept: str) -> bytes:
        """Return the first two cells of the record of such a concept; empty of any other."""
        if concept not in self.records:
            prefix, _, name = concept.partition(":")
            uri = self.namespaces.get(prefix)
            front = f"{quoted(uri)},{name}" if isinstance(uri, str) else ""
            record = front.encode(errors="replace")
            self.records[concept] = record if record in self.places else b""
        return self.records[concept]

    def look_at(self, url: str, template: DateTemplate, given: Dict[str, str]) -> None:
        """Note the forms of the cells of a table."""
        rows = rows_of(self.files, url)
        header: List[str] = next(rows, [])
        columns, groups = template
        places = [(at, name, columns[name]) for at, name in enumerate(header) if name in columns]
        for number, row in enumerate(rows, 1):
            cells = dict(zip(header, row))
            for at, name, column in places:
                if at < len(row) and row[at]:
                    record = self.record(concept_of(column, groups, cells, given))
                    if record:
                        self.note(record, Cell(url, number, name, row[at]))

    def note(self, record: bytes, cell: Cell) -> None:
        """Note the form of a cell, unless it is a special value other than the empty text."""
        text = cell.text
        if text.startswith("##"):
            text = text[1:]
        elif text.startswith("#") and text != "#empty":
            return
        self.forms.setdefault(record, {}).setdefault(form_of(text), cell)

    def pass_over(self, template: DateTemplate) -> None:
        """Let each concept that the metadata names for these columns have both forms."""
        own = (column.concept for column in template.columns.values())
        given = (concept for group in template.groups.values() for concept in group.values())
        for concept in (*own, *given):
            record = self.record(concept)
            if record:
                self.forms.setdefault(record, {}).update({DATE: UNSEEN, DATE_TIME: UNSEEN})

    def types_table(self) -> bytes:
        """Return the types table with the types that the cells choose."""
        pieces: List[bytes] = []
        done = 0
        for record, forms in sorted(self.forms.items(), key=lambda item: self.places[item[0]]):
            word = self.chosen(forms)
            if word != DATE_TIME:
                at = self.places[record]
                pieces += [self.types[done:at], word.encode()]
                done = at + len(DATE_TIME)
        return b"".join([*pieces, self.types[done:]])

    def chosen(self, forms: Dict[str, Cell]) -> str:
        """Return the type of a concept with cells of these forms. Refuse a cell with neither."""
        if DATE not in forms:
            return DATE_TIME
        if DATE_TIME not in forms:
            return DATE
        if "" in forms:
            url, row, column, text = forms[""]
            label = self.files.package.shown(self.files.name(url))
            why = f"'{text}' is neither a date nor a date with a time"
            raise wrong(label, why, spot_of(self.files, url, row, column))
        return OTHER


def concept_of(
    column: DateColumn,
    groups: Dict[str, Dict[str, str]],
    cells: Dict[str, str],
    given: Dict[str, str],
) -> str:
    """Return the concept of a fact; empty if it has none. `given` are the parameters."""
    concept = column.concept
    for giver in column.givers:
        named = groups.get(giver, {}).get(cells.get(giver, ""))
        if named is not None:
            concept = named
            break
    name = reference("concept", concept)
    return concept if name is None else cells.get(name, "") or given.get(name, "")
