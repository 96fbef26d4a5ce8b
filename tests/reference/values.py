"""How the columns of one field are read. Each function takes the columns and gives them as they are written in a plain
line, which tells the value, or raises the refusal of the field.
"""
from __future__ import annotations

import re
from datetime import date
from typing import Iterable, Match, Optional, Union

from .dates import from_ddmmyy, from_yymmdd
from .faults import Reader, Refusal

HOUR_AND_MINUTE = r"([01][0-9]|2[0-3])[0-5][0-9]"
WORKING_TIME = re.compile(rf" {{5}}|{HOUR_AND_MINUTE}[ H]")
PUBLIC_TIME = re.compile(rf" {{4}}|{HOUR_AND_MINUTE}")
DAYS_RUN = re.compile(r"[01]{7}")
OPEN_END = "999999"
HOLIDAY_CODES = ("X", "E", "G")


def as_it_stands(columns: str) -> str:
    return columns


def text(columns: str) -> str:
    """A text has no space at either end, and is written at the left."""
    return columns.strip(" ").ljust(len(columns))


def activities(columns: str) -> str:
    """The pairs that aren't two spaces, in order, are written at the left."""
    pairs = [columns[at : at + 2] for at in range(0, len(columns), 2)]
    return "".join(pair for pair in pairs if pair != "  ").ljust(len(columns))


def wanted(columns: str, right: Optional[Union[Match[str], bool, date]], name: str) -> str:
    """The columns as they stand, if they are right."""
    if not right:
        raise Refusal(name)
    return columns


def working_time(columns: str) -> str:
    return wanted(columns, WORKING_TIME.fullmatch(columns), "BadTime")


def public_time(columns: str) -> str:
    return wanted(columns, PUBLIC_TIME.fullmatch(columns), "BadTime")


def header_date(columns: str) -> str:
    return wanted(columns, from_ddmmyy(columns), "BadDate")


def first_date(columns: str) -> str:
    return wanted(columns, from_yymmdd(columns), "BadDate")


def last_date(columns: str) -> str:
    wanted(columns, columns != OPEN_END, "OpenEnd")
    return wanted(columns, from_yymmdd(columns), "BadDate")


def days_run(columns: str) -> str:
    return wanted(columns, DAYS_RUN.fullmatch(columns), "BadDays")


def letter(columns: str) -> str:
    return wanted(columns, columns in ("P", "N", "O", "C"), "BadStp")


def full(columns: str) -> str:
    """The update indicator of a full extract."""
    return wanted(columns, columns == "F", "NotFull")


def new(columns: str) -> str:
    """The transaction type of a full extract."""
    return wanted(columns, columns == "N", "NotFull")


def bank_holiday(columns: str) -> str:
    return wanted(columns, columns == " ", "BankHoliday")


def of_update(columns: str) -> str:
    """The identity of a record that only update extracts have."""
    return wanted(columns, False, "NotFull")


# ---- of published extracts


def last_date_or_open_end(columns: str) -> str:
    return columns if columns == OPEN_END else last_date(columns)


def holiday_code(codes: Iterable[str]) -> Reader:
    """A reader of column 29 where these codes may stand."""
    return lambda columns: wanted(columns, columns in (" ", *codes), "BankHoliday")


def update(columns: str) -> str:
    """The update indicator of an update extract."""
    return wanted(columns, columns == "U", "NotUpdate")


def transaction(columns: str) -> str:
    """The transaction type in an update extract."""
    return wanted(columns, columns in ("N", "R", "D"), "BadTransaction")
