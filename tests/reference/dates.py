"""Dates as CIF writes them: six digits, of the years 1960 to 2059; and as words. Weeks run from Monday to Sunday."""
from __future__ import annotations

import re
from datetime import date, timedelta
from typing import List, Optional, Tuple

DAY = timedelta(days=1)
WEEK = timedelta(days=7)
FIRST_OF_ALL = date(1960, 1, 1)
LAST_OF_ALL = date(2059, 12, 31)
# A first and a last date.
Window = Tuple[date, date]
SIX_DIGITS = re.compile(r"[0-9]{6}")
LONG_DATE = re.compile(r"[0-9]{4}-[0-9]{2}-[0-9]{2}")


def named(year: int, month: int, day: int) -> Optional[date]:
    """The date that has these numbers, the year without its century, or None where the calendar has none."""
    try:
        return date(1900 + year if year >= 60 else 2000 + year, month, day)
    except ValueError:
        return None


def from_yymmdd(text: str) -> Optional[date]:
    """The date of six digits yymmdd, or None."""
    return (
        named(int(text[:2]), int(text[2:4]), int(text[4:])) if SIX_DIGITS.fullmatch(text) else None
    )


def from_ddmmyy(text: str) -> Optional[date]:
    """The date of six digits ddmmyy, or None."""
    return (
        named(int(text[4:]), int(text[2:4]), int(text[:2])) if SIX_DIGITS.fullmatch(text) else None
    )


def from_word(text: str) -> Optional[date]:
    """The date of six digits yymmdd, or of YYYY-MM-DD, or None."""
    if not LONG_DATE.fullmatch(text):
        return from_yymmdd(text)
    try:
        day = date.fromisoformat(text)
    except ValueError:
        return None
    return day if FIRST_OF_ALL <= day <= LAST_OF_ALL else None


def day_of(text: str) -> date:
    """The date of six digits yymmdd that name one."""
    day = from_yymmdd(text)
    assert day is not None
    return day


def yymmdd(day: date) -> str:
    return f"{day:%y%m%d}"


def ddmmyy(day: date) -> str:
    return f"{day:%d%m%y}"


def dates_of(window: Window) -> List[date]:
    """All dates from the first to the last."""
    first, last = window
    return [first + number * DAY for number in range((last - first).days + 1)]


def monday_of(day: date) -> date:
    """The Monday of the week of a date."""
    return day - day.weekday() * DAY
