"""Which published schedule decides on each date of each train, date by date."""
from __future__ import annotations

from datetime import date
from typing import Dict, List, Set, Tuple

from . import values
from .dates import DAY, day_of
from .extracts import Record, key_of, of_kind
from .layouts import BODIES
from .meaning import Clash
from .published import holidays_of, window_in
from .weeks import fewest_rows

NAMES = (
    "uid",
    "first_date",
    "last_date",
    "stp_indicator",
    "wins_from",
    "wins_to",
    "days_run",
)


def is_on(record: Record, day: date, holidays: Dict[str, Set[date]]) -> bool:
    """Whether the schedule applies on the date, as it was published."""
    fields = record.fields
    return (
        day_of(fields["first"]) <= day
        and (fields["last"] == values.OPEN_END or day <= day_of(fields["last"]))
        and fields["days"][day.weekday()] == "1"
        and day not in holidays_of(record, holidays)
    )


def what_runs(record: Record) -> object:
    """What a schedule says of the train; a cancellation says nothing."""
    if record.fields["letter"] == "C":
        return None
    return [record.fields[name] for name in BODIES[record.kind]], record.lines


def decider(
    schedules: List[Record], day: date, holidays: Dict[str, Set[date]], drop_clashes: bool
) -> List[int]:
    """The number of the one of a train's schedules, in their order, that decides on the date, if one does."""
    letters = {
        number: record.fields["letter"]
        for number, record in enumerate(schedules)
        if is_on(record, day, holidays)
    }
    winning = [number for number, letter in letters.items() if letter == min(letters.values())]
    if any(what_runs(schedules[number]) != what_runs(schedules[winning[0]]) for number in winning):
        if not drop_clashes:
            raise Clash
        return []
    return winning[:1]


def long_date(day: date) -> str:
    return day.isoformat()


def winner_table(
    records: List[Record], holidays: Dict[str, Set[date]], drop_clashes: bool
) -> List[str]:
    """The lines of the table."""
    first, last = window_in(records)
    by_uid: Dict[Tuple[str, ...], List[Record]] = {}
    for record in of_kind(records, "BS"):
        by_uid.setdefault(key_of(record), []).append(record)
    lines = ["\t".join(NAMES)]
    for key in sorted(by_uid):
        deciding: Dict[int, List[date]] = {}
        for number in range((last - first).days + 1):
            day = first + number * DAY
            for found in decider(by_uid[key], day, holidays, drop_clashes):
                deciding.setdefault(found, []).append(day)
        rows = []
        for found, days in deciding.items():
            fields = by_uid[key][found].fields
            end = fields["last"]
            for row in fewest_rows(days):
                weekdays = {day.weekday() for day in row}
                rows.append(
                    (
                        row[0],
                        [
                            key[0],
                            long_date(day_of(fields["first"])),
                            "" if end == values.OPEN_END else long_date(day_of(end)),
                            fields["letter"],
                            long_date(row[0]),
                            long_date(row[-1]),
                            "".join("01"[weekday in weekdays] for weekday in range(7)),
                        ],
                    )
                )
        lines += ["\t".join(cells) for _, cells in sorted(rows)]
    return lines
