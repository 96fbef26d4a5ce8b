"""The columns of each kind of record. Columns that no field has are spare."""
from __future__ import annotations

from typing import Dict, List, NamedTuple, Tuple

from . import values
from .dates import Window, from_ddmmyy, from_yymmdd
from .faults import Reader, Refusal

WIDTH = 80

# The columns of the fields of a line by the fields' names, and the readers that stand for others.
Fields = Dict[str, str]
Readers = Dict[Reader, Reader]


class Field(NamedTuple):
    """A field stands in the columns from first to last, which are counted from 1 and both included."""

    first: int
    last: int
    name: str
    read: Reader


def layout(*rows: Tuple[int, int, str, Reader]) -> List[Field]:
    return [Field(*row) for row in rows]


# The texts that BS has of a train, and CR anew for the rest of its journey, with their widths.
TRAIN_TEXTS = [
    ("category", 2),
    ("identity", 4),
    ("headcode", 4),
    ("course", 1),
    ("service_code", 8),
    ("sector", 1),
    ("power", 3),
    ("timing_load", 4),
    ("speed", 3),
    ("characteristics", 6),
    ("class", 1),
    ("sleepers", 1),
    ("reservations", 1),
    ("connection", 1),
    ("catering", 4),
    ("branding", 4),
]


def texts(first: int, widths: List[Tuple[str, int]]) -> List[Tuple[int, int, str, Reader]]:
    """Rows of texts that stand one behind the other."""
    rows: List[Tuple[int, int, str, Reader]] = []
    for name, width in widths:
        rows.append((first, first + width - 1, name, values.text))
        first += width
    return rows


LAYOUTS = {
    "HD": layout(
        (3, 22, "mainframe", values.as_it_stands),
        (23, 28, "date_of_extract", values.as_it_stands),
        (29, 32, "time_of_extract", values.as_it_stands),
        (33, 39, "current_file", values.as_it_stands),
        (40, 46, "last_file", values.as_it_stands),
        (47, 47, "update", values.full),
        (48, 48, "version", values.as_it_stands),
        (49, 54, "first", values.header_date),
        (55, 60, "last", values.header_date),
    ),
    "TI": layout((3, 72, "tiploc", values.as_it_stands)),
    "TA": layout(
        (1, 2, "identity", values.of_update),
        (3, 72, "tiploc", values.as_it_stands),
        (73, 79, "new_tiploc", values.as_it_stands),
    ),
    "TD": layout((1, 2, "identity", values.of_update), (3, 9, "tiploc", values.as_it_stands)),
    "AA": layout(
        (3, 3, "transaction", values.new),
        (4, 9, "base", values.as_it_stands),
        (10, 15, "associated", values.as_it_stands),
        (16, 21, "first", values.first_date),
        (22, 27, "last", values.last_date),
        (28, 34, "days", values.days_run),
        (35, 36, "category", values.text),
        (37, 37, "date_indicator", values.text),
        (38, 44, "location", values.text),
        (45, 45, "base_suffix", values.text),
        (46, 46, "associated_suffix", values.text),
        (47, 47, "diagram", values.text),
        (48, 48, "type", values.text),
        (80, 80, "letter", values.letter),
    ),
    "BS": layout(
        (3, 3, "transaction", values.new),
        (4, 9, "uid", values.as_it_stands),
        (10, 15, "first", values.first_date),
        (16, 21, "last", values.last_date),
        (22, 28, "days", values.days_run),
        (29, 29, "bank_holiday", values.bank_holiday),
        (30, 30, "status", values.text),
        *texts(31, TRAIN_TEXTS),
        (80, 80, "letter", values.letter),
    ),
    "BX": layout(
        (3, 6, "traction", values.text),
        (7, 11, "uic", values.text),
        (12, 13, "operator_code", values.text),
        (14, 14, "timetable_code", values.text),
        (15, 22, "reserved_a", values.text),
        (23, 23, "reserved_b", values.text),
    ),
    "LO": layout(
        (3, 9, "location", values.text),
        (10, 10, "suffix", values.text),
        (11, 15, "departure", values.working_time),
        (16, 19, "public_departure", values.public_time),
        (20, 22, "platform", values.text),
        (23, 25, "line", values.text),
        (26, 27, "engineering", values.text),
        (28, 29, "pathing", values.text),
        (30, 41, "activities", values.activities),
        (42, 43, "performance", values.text),
    ),
    "LI": layout(
        (3, 9, "location", values.text),
        (10, 10, "suffix", values.text),
        (11, 15, "arrival", values.working_time),
        (16, 20, "departure", values.working_time),
        (21, 25, "pass", values.working_time),
        (26, 29, "public_arrival", values.public_time),
        (30, 33, "public_departure", values.public_time),
        (34, 36, "platform", values.text),
        (37, 39, "line", values.text),
        (40, 42, "path", values.text),
        (43, 54, "activities", values.activities),
        (55, 56, "engineering", values.text),
        (57, 58, "pathing", values.text),
        (59, 60, "performance", values.text),
    ),
    "CR": layout(
        (3, 9, "location", values.text),
        (10, 10, "suffix", values.text),
        *texts(11, [*TRAIN_TEXTS, ("traction", 4), ("uic", 5), ("reserved_a", 8)]),
    ),
    "LT": layout(
        (3, 9, "location", values.text),
        (10, 10, "suffix", values.text),
        (11, 15, "arrival", values.working_time),
        (16, 19, "public_arrival", values.public_time),
        (20, 22, "platform", values.text),
        (23, 25, "path", values.text),
        (26, 37, "activities", values.activities),
    ),
    "ZZ": layout(),
    "TN": layout(),
    "LN": layout(),
}

ASSOCIATION_KEY = ("base", "associated", "location", "base_suffix", "associated_suffix")
ASSOCIATION_BODY = ("category", "date_indicator", "diagram", "type")
TRAIN_KEY = ("uid",)
TRAIN_BODY = ("status", *(name for name, _ in TRAIN_TEXTS))
KEYS = {"AA": ASSOCIATION_KEY, "BS": TRAIN_KEY}
BODIES = {"AA": ASSOCIATION_BODY, "BS": TRAIN_BODY}

# The fields that are read of a deleted record.
OF_DELETED = {
    kind: [
        field for field in LAYOUTS[kind] if field.name in ("transaction", "first", "letter", *names)
    ]
    for kind, names in KEYS.items()
}


def columns_of(line: str, field: Field) -> str:
    return line[field.first - 1 : field.last]


def read_fields(kind: str, line: str) -> List[Field]:
    """The fields that are read of a line."""
    return OF_DELETED[kind] if kind in OF_DELETED and line[2] == "D" else LAYOUTS[kind]


def read(kind: str, line: str, instead: Readers) -> Fields:
    """The fields of a line by their names, as they are written; raises the first refusal in the order of columns.

    Instead has the readers that stand for some of those of the layouts.
    """
    fields, begins = {}, {}
    for field in read_fields(kind, line):
        begins[field.name] = field.first
        try:
            fields[field.name] = instead.get(field.read, field.read)(columns_of(line, field))
        except Refusal as refusal:
            raise Refusal(refusal.name, field.first, field.last, field.read) from None
        if field.name == "last" and is_reversed(kind, fields):
            raise Refusal("DatesReversed", begins["first"], field.last)
    return fields


def is_reversed(kind: str, fields: Fields) -> bool:
    """Whether the first date of a record is after its last date, if it has one."""
    return (
        fields["last"] != values.OPEN_END
        and window_of(kind, fields)[0] > window_of(kind, fields)[1]
    )


def window_of(kind: str, fields: Fields) -> Window:
    """The first and the last date of a record."""
    from_columns = from_ddmmyy if kind == "HD" else from_yymmdd
    first, last = from_columns(fields["first"]), from_columns(fields["last"])
    assert first is not None and last is not None
    return first, last


def plain(kind: str, fields: Fields) -> str:
    """The line that has these fields, and spaces in all other columns."""
    line = kind.ljust(WIDTH)
    for field in LAYOUTS[kind]:
        line = line[: field.first - 1] + fields[field.name] + line[field.last :]
    return line
