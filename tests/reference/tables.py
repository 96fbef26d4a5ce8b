"""Tables: a line of field names, then a line for each row. A tab stands between fields, and a field has no spaces at its end."""
from __future__ import annotations

from datetime import date
from typing import List, Optional, Sequence, Tuple

from . import values
from .calendars import CLASH, NO_RECORD, signs
from .dates import Window, day_of
from .explanation import explained
from .extracts import Body, Extract, Running
from .layouts import (
    ASSOCIATION_KEY,
    LAYOUTS,
    TRAIN_KEY,
    TRAIN_TEXTS,
    columns_of,
    layout,
    plain,
    window_of,
)
from .meaning import Meaning, clash_dates
from .public import Call, public_calls
from .texts import of_one_side, record_lines
from .weeks import joined

CALLS = ("LO", "LI", "LT")
UIDS = ("uid", "base", "associated")
DATES = ("first", "last")

# What columns 3-72 of a TI have.
TIPLOC = layout(
    (3, 9, "tiploc", values.as_it_stands),
    (10, 11, "capitals", values.as_it_stands),
    (12, 17, "nalco", values.as_it_stands),
    (18, 18, "nlc_check", values.as_it_stands),
    (19, 44, "tps_description", values.as_it_stands),
    (45, 49, "stanox", values.as_it_stands),
    (50, 53, "po_mcp_code", values.as_it_stands),
    (54, 56, "crs_code", values.as_it_stands),
    (57, 72, "description", values.as_it_stands),
)

# The fields of tables by their names in the layouts, where a table gives some of them other names.
HEADER = (
    "mainframe",
    "date_of_extract",
    "time_of_extract",
    "current_file",
    "last_file",
    "update",
    "version",
    "first",
    "last",
)
RECORD = ("first", "last", "days")
OF_KEY = ("location", "base_suffix", "associated_suffix")
ASSOCIATION = (
    "base",
    "associated",
    *RECORD,
    "category",
    "date_indicator",
    *OF_KEY,
    "diagram",
    "type",
)
ASSOCIATION_BODY = ("category", "date_indicator", "diagram", "type")
TRAIN = ("status", *(name for name, _ in TRAIN_TEXTS))
EXTRA = ("traction", "uic", "operator_code", "timetable_code", "reserved_a", "reserved_b")
TIMES = ("arrival", "departure", "pass", "public_arrival", "public_departure")
CALL = (*TIMES, "platform", "line", "path", "activities", "engineering", "pathing", "performance")
CHANGE = (*(name for name, _ in TRAIN_TEXTS), "traction", "uic", "reserved_a")
PUBLIC = ["schedule", "call", "location", "platform", "arrival", "departure", "set_down", "pick_up"]
OTHER_NAMES = {
    "mainframe": "mainframe_identity",
    "date_of_extract": "extract_date",
    "time_of_extract": "extract_time",
    "current_file": "current_reference",
    "last_file": "last_reference",
    "update": "update_indicator",
    "first": "first_date",
    "last": "last_date",
    "days": "days_run",
    "base": "base_uid",
    "associated": "associated_uid",
    "diagram": "diagram_type",
    "type": "association_type",
}


def named(*names: str) -> List[str]:
    return [OTHER_NAMES.get(name, name) for name in names]


def lines_of(heading: List[str], rows: List[List[str]]) -> List[str]:
    return ["\t".join(row) for row in [heading, *rows]]


def cell(name: str, columns: str) -> str:
    """The cell that has these columns: of a UID all six, and of a date YYYY-MM-DD."""
    if name in UIDS:
        return columns
    return day_of(columns).isoformat() if name in DATES else columns.rstrip(" ")


def cells(line: str, names: Tuple[str, ...]) -> List[str]:
    """The cells of a plain line; those of fields that its kind doesn't have are empty."""
    columns = {field.name: columns_of(line, field) for field in LAYOUTS[line[:2]]}
    return [cell(name, columns[name]) if name in columns else "" for name in names]


# ---- of a whole extract


def schedules_of(lines: List[str]) -> List[List[str]]:
    """The lines of each schedule of a canonical extract."""
    found: List[List[str]] = []
    for line in lines:
        if line[:2] == "BS":
            found.append([])
        if line[:2] in ("BS", "BX", "LO", "LI", "CR", "LT"):
            found[-1].append(line)
    return found


def extra_of(lines: List[str]) -> List[str]:
    """The cells that a schedule has of its BX: `BX` and its fields, all of them empty where it has none."""
    return next(
        (["BX", *cells(line, EXTRA)] for line in lines if line[:2] == "BX"), [""] * (1 + len(EXTRA))
    )


def numbered(lines: Sequence[str]) -> List[Tuple[str, str]]:
    """The lines of a journey, each with the number of its call; a CR has that of the call behind it."""
    found, call = [], 1
    for line in lines:
        if line[:2] in (*CALLS, "CR"):
            found.append((str(call), line))
        call += line[:2] in CALLS
    return found


def header_rows(lines: List[str]) -> List[List[str]]:
    fields = {field.name: columns_of(lines[0], field).rstrip(" ") for field in LAYOUTS["HD"]}
    first, last = window_of("HD", fields)
    fields |= {"first": first.isoformat(), "last": last.isoformat()}
    return [[fields[name] for name in HEADER]]


def tiploc_cells(line: str) -> List[str]:
    return [columns_of(line, field).rstrip(" ") for field in TIPLOC]


def tiploc_rows(lines: List[str]) -> List[List[str]]:
    return [tiploc_cells(line) for line in lines if line[:2] == "TI"]


def association_rows(lines: List[str]) -> List[List[str]]:
    return [cells(line, ASSOCIATION) for line in lines if line[:2] == "AA"]


def schedule_rows(lines: List[str]) -> List[List[str]]:
    return [
        [str(number), *cells(schedule[0], ("uid", *RECORD, *TRAIN)), *extra_of(schedule)]
        for number, schedule in enumerate(schedules_of(lines), 1)
    ]


def call_rows(lines: List[str]) -> List[List[str]]:
    return [
        [str(number), call, line[:2], *cells(line, ("location", "suffix", *CALL))]
        for number, schedule in enumerate(schedules_of(lines), 1)
        for call, line in numbered(schedule)
        if line[:2] in CALLS
    ]


def change_rows(lines: List[str]) -> List[List[str]]:
    return [
        [str(number), call, *cells(line, ("location", "suffix", *CHANGE))]
        for number, schedule in enumerate(schedules_of(lines), 1)
        for call, line in numbered(schedule)
        if line[:2] == "CR"
    ]


def public_rows(lines: List[str]) -> List[List[str]]:
    rows = []
    for number, schedule in enumerate(schedules_of(lines), 1):
        names = ("location", *CALL)
        calls = [
            Call(call, dict(zip(names, cells(line, names))))
            for call, line in numbered(schedule)
            if line[:2] in CALLS
        ]
        rows += [[str(number), *row] for row in public_calls(calls)]
    return rows


TABLES = {
    "header": (named(*HEADER), header_rows),
    "tiplocs": ([field.name for field in TIPLOC], tiploc_rows),
    "associations": (named(*ASSOCIATION), association_rows),
    "schedules": (named("schedule", "uid", *RECORD, *TRAIN, "extra", *EXTRA), schedule_rows),
    "calls": (named("schedule", "call", "record", "location", "suffix", *CALL), call_rows),
    "changes": (named("schedule", "call", "location", "suffix", *CHANGE), change_rows),
    "public": (PUBLIC, public_rows),
}


def table(name: str, lines: List[str]) -> List[str]:
    """A table of the canonical extract that has these lines."""
    heading, rows = TABLES[name]
    return lines_of(heading, rows(lines))


# ---- of days, trains and explanations

OF_JOURNEY = ["identity", "origin", "origin_suffix", "departure", "origin_platform"]
OF_JOURNEY += ["terminus", "terminus_suffix", "arrival", "terminus_platform"]
OF_ASSOCIATION = [
    "base_uid",
    "associated_uid",
    "association_category",
    "date_indicator",
    "association_location",
]
OF_ASSOCIATION += ["base_suffix", "associated_suffix", "diagram_type", "association_type"]
LISTED_OF_CALL = ("location", "suffix", *TIMES, "platform", "path", "line", "activities")
OF_CALL = ["call", *(f"call_{name}" for name in LISTED_OF_CALL)]


def nothing(names: List[str]) -> List[str]:
    return [""] * len(names)


def journey_cells(body: Body) -> List[str]:
    origin, terminus = (
        next(line for line in body.lines if line.startswith(kind)) for kind in ("LO", "LT")
    )
    ends = cells(origin, ("location", "suffix", "departure", "platform"))
    ends += cells(terminus, ("location", "suffix", "arrival", "platform"))
    return [dict(body.fields)["identity"].rstrip(" "), *ends]


def association_cells(key: Tuple[str, ...], body: Optional[Body]) -> List[str]:
    """The fields of an association; a cancellation has those of the key alone."""
    fields = dict(zip(ASSOCIATION_KEY, key)) | dict(body.fields if body else ())
    names = ("base", "associated", "category", "date_indicator", *OF_KEY, "diagram", "type")
    return [cell(name, fields.get(name, "")) for name in names]


def rows_of_train(row: List[str], body: Body, stops: bool) -> List[List[str]]:
    """The row of a train; with stops one row for each of its calls, which begins with it."""
    if not stops:
        return [row]
    return [
        [*row, line[:2], *cells(line, LISTED_OF_CALL)] for line in body.lines if line[:2] in CALLS
    ]


def day_table(meaning: Meaning, day: date, stops: bool) -> List[str]:
    """What holds and runs on a date."""
    calls, rows = OF_CALL if stops else [], []
    for key, bodies in meaning.associations.items():
        if day in bodies:
            row = [
                day.isoformat(),
                "AA",
                "",
                *nothing(OF_JOURNEY),
                *association_cells(key, bodies[day]),
            ]
            rows.append(row + nothing(calls))
    for (uid,), bodies in meaning.trains.items():
        if day in bodies:
            row = [
                day.isoformat(),
                "BS",
                uid,
                *journey_cells(bodies[day]),
                *nothing(OF_ASSOCIATION),
            ]
            rows += rows_of_train(row, bodies[day], stops)
    return lines_of(["date", "kind", "uid", *OF_JOURNEY, *OF_ASSOCIATION, *calls], rows)


def train_table(meaning: Meaning, uid: str, form: str, stops: bool) -> List[str]:
    """The records that a train has in the canonical extract."""
    rows = []
    for record in joined(meaning.trains.get((uid,), {}), meaning.window, form):
        dates = [record.first.isoformat(), record.last.isoformat(), record.days]
        rows += rows_of_train([uid, *dates, *journey_cells(record.body)], record.body, stops)
    return lines_of(["uid", *named(*RECORD), *OF_JOURNEY, *(OF_CALL if stops else ())], rows)


def explanation_table(extract: Extract, uid: str, day: date) -> List[str]:
    """The records that apply on a date, each with its mark."""
    rows = []
    for mark, kind, entry in explained(extract, uid, day):
        row = [day.isoformat(), mark.rstrip(" "), kind, entry.letter]
        row += [entry.first.isoformat(), entry.last.isoformat(), entry.days]
        if kind == "AA":
            row += ["", *nothing(OF_JOURNEY), *association_cells(entry.key, entry.body)]
        else:
            row += [
                uid,
                *(journey_cells(entry.body) if entry.body else nothing(OF_JOURNEY)),
                *nothing(OF_ASSOCIATION),
            ]
        rows.append(row)
    heading = [
        "date",
        "mark",
        "kind",
        "stp_indicator",
        *named(*RECORD),
        "uid",
        *OF_JOURNEY,
        *OF_ASSOCIATION,
    ]
    return lines_of(heading, rows)


# ---- of differences

OF_PAIR = ["call", "record", "place", "field", "left", "right"]
OF_DIFFERENCE = [
    "change",
    "kind",
    "tiploc",
    *named("uid", "associated", *OF_KEY, *RECORD),
    *OF_PAIR,
]


def unequal(
    where: List[str], names: Sequence[str], ours: List[str], theirs: List[str]
) -> List[List[str]]:
    """For each field whose cells differ: where it is, its name and both cells."""
    return [
        [*where, name, our, their] for name, our, their in zip(names, ours, theirs) if our != their
    ]


def unequal_associations(ours: List[str], theirs: List[str]) -> List[List[str]]:
    both = (cells(lines[0], ASSOCIATION_BODY) for lines in (ours, theirs))
    return unequal(["", "AA", ""], named(*ASSOCIATION_BODY), *both)


def unequal_journeys(ours: List[str], theirs: List[str]) -> List[List[str]]:
    """Call by call, where both journeys have the same calls and changes at the same places; else how many calls they have."""
    both = [numbered(lines) for lines in (ours, theirs)]
    ways = [
        [(line[:2], *cells(line, ("location", "suffix"))) for _, line in journey]
        for journey in both
    ]
    if ways[0] != ways[1]:
        return [
            [
                "",
                "",
                "",
                "journey",
                *(str(sum(line[:2] in CALLS for _, line in journey)) for journey in both),
            ]
        ]
    rows = []
    for (call, our), (_, their) in zip(*both):
        kind, names = our[:2], CHANGE if our[:2] == "CR" else CALL
        rows += unequal(
            [call, kind, *cells(our, ("location",))], names, cells(our, names), cells(their, names)
        )
    return rows


def unequal_schedules(ours: List[str], theirs: List[str]) -> List[List[str]]:
    trains = (cells(lines[0], TRAIN) for lines in (ours, theirs))
    (our_extra, *our_fields), (their_extra, *their_fields) = extra_of(ours), extra_of(theirs)
    rows = unequal(["", "BS", ""], TRAIN, *trains)
    rows += unequal(["", "BS", ""], ["extra"], [our_extra], [their_extra])
    rows += unequal(["", "BX", ""], EXTRA, our_fields, their_fields)
    return rows + unequal_journeys(ours, theirs)


UNEQUAL = {"AA": unequal_associations, "BS": unequal_schedules}


def place_cells(kind: str, line: str) -> List[str]:
    """From `tiploc` to `days_run`: what the record is about and its dates; what its kind doesn't have is empty."""
    return ["", *cells(line, ("base" if kind == "AA" else "uid", "associated", *OF_KEY, *RECORD))]


def rows_of_kind(
    kind: str,
    names: Tuple[str, ...],
    left: Running,
    right: Running,
    window: Window,
) -> List[List[str]]:
    """A row for each record that only one side has at its dates, and for a pair one for each field that differs."""
    records = [
        (mark, record_lines(kind, names, key, record))
        for key, mark, record in of_one_side(left, right, window)
    ]
    sides = {(mark, *place_cells(kind, lines[0])): lines for mark, lines in records}
    rows = []
    for mark, lines in records:
        place = place_cells(kind, lines[0])
        partner = sides.get((">" if mark == "<" else "<", *place))
        if partner is None:
            rows.append([mark, kind, *place, *nothing(OF_PAIR)])
        elif mark == "<":
            rows += [["<>", kind, *place, *row] for row in UNEQUAL[kind](lines, partner)]
    return rows


def difference_table(left: Meaning, right: Meaning) -> List[str]:
    """Everything in which two meanings with one window differ, field by field."""
    rows = []
    for tiploc in sorted(set(left.tiplocs) ^ set(right.tiplocs)):
        name = tiploc_cells(plain("TI", {"tiploc": tiploc}))[0]
        rows.append(
            ["<" if tiploc in left.tiplocs else ">", "TI", name, *nothing(OF_DIFFERENCE[3:])]
        )
    rows += rows_of_kind("AA", ASSOCIATION_KEY, left.associations, right.associations, left.window)
    rows += rows_of_kind("BS", TRAIN_KEY, left.trains, right.trains, left.window)
    return lines_of(OF_DIFFERENCE, rows)


# ---- of clashes and calendars

OF_CLASH_KEY = ["base_uid", "associated_uid", "location", "base_suffix", "associated_suffix"]
CLASHING = ["kind", "uid", *OF_CLASH_KEY, "date"]
DATED = ["uid", "date", "mark", "runs"]


def clash_table(extract: Extract) -> List[str]:
    """A row for each key that has a clash, with its first date."""
    rows = []
    for key, days in clash_dates(extract).items():
        if len(key) == 1:
            row = ["BS", *key, *nothing(OF_CLASH_KEY)]
        else:
            row = ["AA", "", *key[:2], *(text.rstrip(" ") for text in key[2:])]
        rows.append([*row, days[0].isoformat()])
    return lines_of(CLASHING, rows)


def calendar_table(extract: Extract, uid: str) -> List[str]:
    """A row for each date of the window, with what stands there, and whether the train runs."""
    rows = []
    for day, mark in signs(extract, uid):
        runs = "" if mark == CLASH else str(int(mark not in (NO_RECORD, "C")))
        rows.append([uid, day.isoformat(), mark, runs])
    return lines_of(DATED, rows)
