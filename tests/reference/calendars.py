"""The calendar of a train: a line for each week, with the letter of what wins on each date."""
from __future__ import annotations

from datetime import date
from typing import List, Tuple

from .dates import DAY, FIRST_OF_ALL, WEEK, Window, dates_of, monday_of, yymmdd
from .extracts import Entry, Extract, window_of
from .meaning import winners

HEADING = " " * 7 + "MTWTFSS"
OUTSIDE, NO_RECORD, CLASH = " ", ".", "!"


def sign_on(entries: List[Entry], day: date, window: Window) -> str:
    """What stands for a date."""
    if not window[0] <= day <= window[1]:
        return OUTSIDE
    winning = winners(entries, day)
    if not winning:
        return NO_RECORD
    return winning[0].letter if len({entry.body for entry in winning}) == 1 else CLASH


def of_train(extract: Extract, uid: str) -> List[Entry]:
    return [entry for entry in extract.schedules if entry.key == (uid,)]


def signs(extract: Extract, uid: str) -> List[Tuple[date, str]]:
    """The dates of the window, each with what stands for it."""
    entries, window = of_train(extract, uid), window_of(extract)
    return [(day, sign_on(entries, day, window)) for day in dates_of(window)]


def calendar(extract: Extract, uid: str) -> List[str]:
    """The lines of each week that has a date of the window."""
    entries, window = of_train(extract, uid), window_of(extract)
    lines, monday = [HEADING], monday_of(window[0])
    while monday <= window[1]:
        name = " " * 6 if monday < FIRST_OF_ALL else yymmdd(monday)
        weekdays = (sign_on(entries, monday + number * DAY, window) for number in range(7))
        lines.append(f"{name} {''.join(weekdays)}")
        monday += WEEK
    return lines
