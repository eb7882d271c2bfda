"""When each fault of a report occurs, and what to do: the words of docs/FAULTS.md.

tests/test_page.py compares them. A page has them because it is read without the repository.
"""

from __future__ import annotations

from typing import Dict, List, Tuple

# By the fault's number: when it occurs, and what to do. Where that is empty, see FORMS.
REMEDIES: Dict[int, Tuple[str, str]] = {
    1: (
        (
            "META is not JSON in UTF-8, is over 127 levels deep, has a number past a double or "
            "half a surrogate pair"
        ),
        "for a ZIP use `xbrl-filing`; else run a JSON checker (no comments, no trailing commas)",
    ),
    2: (
        (
            "META is not an object with `documentInfo`, or its `documentType` is not "
            "`https://xbrl.org/2021/xbrl-csv`"
        ),
        "give the metadata file of an xBRL-CSV 1.0 report",
    ),
    3: (
        "`namespaces`, a prefix or a URI is malformed or repeated",
        "keep one prefix for each URI; a prefix begins with a letter or `_`",
    ),
    4: ("`taxonomy` or `baseURL` is missing or malformed", ""),
    5: ("`extends` or `links` is not empty", ""),
    6: (
        "this name is not an identifier (a name without colon and point)",
        "rename it: a letter or `_`, then letters, digits, `-` and `_`",
    ),
    7: (
        "a template, table, property group or `url` is malformed",
        "correct the place that `--explain` names; a path has no control characters",
    ),
    8: (
        "a column has one of dimensions, propertyGroups and comment alone",
        "keep one of the three, or split the column",
    ),
    9: (
        "a table's template is not in `tableTemplates`",
        "correct `template`; its default is the table's own name",
    ),
    10: (
        (
            "`rowIdColumn` or `propertiesFrom` names a column that the template lacks, or one "
            "without `propertyGroups`"
        ),
        "correct the name, or add the column",
    ),
    11: ("the name or the value of a dimension is wrong", ""),
    12: (
        "decimals is not a whole number, INF, #none or a reference",
        'write `2` (not `2.0`), `-3`, `"INF"` or `"$name"`, within 32 bits',
    ),
    13: (
        "a parameter, `parameterURL` or the parameters file is malformed",
        "save as UTF-8 with commas; quote a value that has a comma; keep each name once",
    ),
    14: (
        "the types table is malformed",
        (
            "save as UTF-8 with commas; use the manual's types that the header "
            "allows (`boolean`, `date` and `qname` need `type2`); under `type3` write five cells "
            "a record"
        ),
    ),
    15: ("a file passes a limit", "split the report; delete unused types"),
    16: ("memory ran out", "run again, with more memory"),
    17: (
        "the file cannot be opened or read to its end, or is a folder",
        "for a folder use `xbrl-filing`; else run again",
    ),
    20: ("a table that is not optional has no file", ""),
    21: (
        "the file cannot be opened or read to its end, or is a folder",
        "check permissions and the limit of open files, then run again",
    ),
    22: ("the file has no record at all", "write the header"),
    23: ("a header cell does not name a column of the template", ""),
    24: ("a column stands twice in the header", "delete or rename one of the two"),
    25: (
        "the column of row identifiers is not in the header",
        "add the column that `rowIdColumn` names to the file",
    ),
    26: (
        "a record has another length than the header",
        "quote a cell that has a comma; close each quote",
    ),
    27: ("a cell is not UTF-8", "save the file as UTF-8"),
    28: (
        "the cell of the row identifier is empty",
        "give the row an identifier, or delete the row",
    ),
    29: ("the cell of the row identifier is not well-formed", "use letters, digits, `-` and `_`"),
    30: (
        "an earlier row of the table has the same row identifier",
        "change one of the two (`--explain` names both lines)",
    ),
    31: (
        "a text begins with # and is not a special value",
        "write `#none`, `#nil`, `#empty`, or `##..` for a text; mend a spreadsheet's `#N/A`",
    ),
    32: (
        "a cell names no property group of its column",
        "use a name of `propertyGroups`, without blanks",
    ),
    33: ("no concept is given", ""),
    34: (
        "the types table has no concept of this name, or its prefix is not declared",
        "correct it, or add it to the types table, or its package to `--taxonomy`",
    ),
    35: (
        "a dimension that is not typed is nil or empty",
        "write a value, or `#none` to leave the dimension out",
    ),
    36: (
        (
            "an entity, unit, language or explicit member is not well-formed, or its prefix is "
            "not declared"
        ),
        "",
    ),
    37: (
        "a period is not well-formed",
        (
            "write `2025`, `2025H1`, `2025Q3`, `2025-09`, `2025W36`, `2025-09-30` or "
            "`2025-07-01..2025-09-30`; for an instant `2025-09-30T00:00:00`; the date must exist"
        ),
    ),
    38: (
        "the start or end of an instant is asked for",
        "give a duration, as `2025Q3`, or drop `@start` or `@end`",
    ),
    39: (
        "decimals are neither a whole number of 32 bits nor INF",
        "write `2`, `-3` or `INF` in that cell or parameter",
    ),
    40: ("a numeric concept's cell is not a numeral of its type", ""),
    41: ("the table has more rows than the limit", "split it: 100,000,000 rows at most"),
    42: ("memory ran out", "run again, with fewer `--workers` or a `--ring` below 32"),
    43: ("no worker could be started", "run again with `--workers 1`"),
    44: (
        "the cell of a boolean, date or name is not well-formed, or its prefix is not declared",
        "",
    ),
    45: (
        "the unit is not the one that the concept wants, or is missing",
        "write `iso4217:EUR` for `monetary`, `xbrli:shares` for `shares`, also for `#nil`",
    ),
    46: (
        "the period is not of the type that the concept wants, or is missing",
        (
            "for `instant` write `2025-09-30T00:00:00` or `2025Q3@end`; for `duration` `2025Q3`, "
            "or nothing for ever"
        ),
    ),
    47: (
        "the types table names no such member",
        (
            "correct the name, or add it as a `member` to the types table, or its package to "
            "`--taxonomy`"
        ),
    ),
}

# The forms in which filers meet some faults: what they see, why, and what to do or to write.
FORMS: Dict[int, List[Tuple[str, str, str]]] = {
    4: [
        ("`taxonomy is missing`, and META has `extends`", "this is a filing", "use `xbrl-filing`"),
        (
            "`taxonomy is missing`, without `extends`",
            "a plain report names its taxonomy",
            'add `"taxonomy": ["http://.."]` to `documentInfo`',
        ),
        ("`taxonomy is not a list of texts`", "one text is not a list", 'write `["http://.."]`'),
        (
            "`baseURL is not a text`",
            "a number, `null` or a list",
            'write `"http://../"`, or delete it',
        ),
    ],
    5: [
        ("`extends is not empty`", "this is a filing", "use `xbrl-filing`"),
        ("`links is not empty`", "links and footnotes cannot be carried over", "delete `links`"),
    ],
    11: [
        (
            "`/dimensions/eg:Regoin`",
            "misspelt, or not in the types table",
            "`eg:Region`; for a filing, add the missing package",
        ),
        ("`/dimensions/Entity`", "the standard's names have small letters", "`entity`"),
        (
            "`/dimensions/Region`, `/xx:Region`",
            "the prefix is missing or not declared",
            "`eg:Region`, with `eg` in `namespaces`",
        ),
        ("`/dimensions/eg:Cash`", "a concept is not a dimension", '`"concept": "eg:Cash"`'),
        ("`2021` without quotes", "the value is not a text", '`"2021"`'),
        (
            '`"$a b"`, `"$p@begin"`',
            "not a name after `$`",
            '`"$p"`, `"$p@start"`, `"$p@end"`; `"$$.."` for a text',
        ),
        ('`"#x"`', "not a special value", '`"##x"` for a text, `"#none"` for no value'),
        ('`"#nil"` for a unit', "only a typed dimension may be nil", '`"#none"`'),
    ],
    20: [
        ("`T1.csv`, but the file is `t1.csv`", "case counts", "use the same case in both"),
        ("`data/t2.csv`", "the path begins at META's folder", "move the file, or change `url`"),
        (
            "a table that you do not report",
            "it is not `optional`",
            'set `"optional": true`, or delete the table',
        ),
    ],
    23: [
        ('`"Cash"`', "case counts", "`cash`"),
        ('`"cash "`, `" note"`', "blanks belong to the name", "`cash,note`"),
        (
            '`"cash;note"`, `"cash\\x09note"`',
            "semicolons or tabs between the cells",
            "save with commas",
        ),
        ('`"sep="`', "a spreadsheet's own first line", "delete that line"),
        ('`"\\xff\\xfec\\x00a.."`', "the file is UTF-16", "save as UTF-8"),
        ('`"My table"`', "a title above the header", "delete it"),
        ('`"comment"`', "the template has no such column", "delete it, or empty its header cell"),
    ],
    33: [
        (
            "`.../concept: (nothing)`",
            "nothing gives the concept",
            "add `concept` to the column's dimensions",
        ),
        (
            '`.../concept: "$conept"`',
            "not a column of the file or a parameter",
            "correct the name, or add the column",
        ),
        (
            '`cell 3: ""`, then by `"$what"`',
            "the cell that names the concept is empty",
            "fill it, or empty the value's cell",
        ),
        (
            '`cell 1: ""`, then by `(nothing)`',
            "the row names no property group",
            "name one, as `dp1`",
        ),
        (
            '`the header has no column "dp"`',
            "the column of group names is missing",
            "add it to the file",
        ),
    ],
    36: [
        ('`"EUR"`', "the prefix is missing", "`iso4217:EUR`, with `iso4217` in `namespaces`"),
        ('`"ISO4217:EUR"`', "case counts", "`iso4217:EUR`"),
        ('`"iso4217:EUR / xbrli:shares"`', "blanks in a unit", "`iso4217:EUR/xbrli:shares`"),
        (
            '`"A1"`, `"http://x/A1"`',
            "an entity needs a declared prefix",
            "`lei:5299..`, with `lei` in `namespaces`",
        ),
        ('`"en_GB"`', "not a language tag", "`en-GB`"),
        ('`"North"`, `"xx:North"`', "a member needs a declared prefix", "`eg:North`"),
        (
            '`"7d0"`, `"x"`',
            "a typed dimension has a type under `type3`",
            "a value of that type; numbers have no suffix here",
        ),
    ],
    40: [
        (
            '`"1,200"`, `"1,5"`',
            "thousands are not separated; the decimal sign is a point",
            "`1200`, `1.5`",
        ),
        ('`"1 200"`, `"1\\u00a0200"`', "a blank within the number", "`1200`"),
        ('`"1200.50"`, `"100."`', "the concept is an integer", "`1200`, `100`"),
        ('`"1e3"`', "only a double has an exponent", "`1000`"),
        (
            '`"5%"`, `"EUR 5"`',
            "signs and currencies do not belong here",
            "`0.05`, `5`; the unit is a dimension",
        ),
        ('`"(5)"`, `"−5"` (U+2212)', "the minus is the hyphen of the keyboard", "`-5`"),
        ('`"5d"`, `"5d2.5"`', "after `d` are the decimals: a whole number or `INF`", "`5d2`"),
        ('`"INF"`, `"NaN"`', "cannot be carried over", "empty the cell"),
        (
            '`"300"`, `"-1"`, `"+1"`',
            (
                "the number is out of the bounds of its type under `type3`; the unsigned ones "
                "take no sign"
            ),
            "a number of that type",
        ),
    ],
    44: [
        (
            "`boolean`, `qname`",
            "yes or no; a name with a declared prefix",
            "`true`, `false`, `1` or `0`; `eg:Name`",
        ),
        (
            "`date`, `dateTime`, `time`",
            "with or without `Z` or `+02:00`",
            "`2025-09-30`; `2025-09-30T12:00:00.5`; `24:00:00`",
        ),
        (
            "`gYear`, `gYearMonth`, `gMonth`, `gMonthDay`, `gDay`",
            "the same",
            "`2025`, `2025-09`, `--09`, `--09-30`, `---30`",
        ),
        ("`duration`", "any of its parts, in this order", "`P1Y2M3DT4H5M6.7S`; `-P1D`"),
        (
            "`language`, `NCName`, `hexBinary`",
            "a tag; a name without a colon; pairs of digits",
            "`en-GB`; `North`; `0FB7`",
        ),
        ("`enumeration`", "one member", "`eg:North`"),
        (
            "`enumerations`",
            "members with blanks between them, none twice",
            "`eg:North eg:South`; `#empty` for none",
        ),
    ],
}
