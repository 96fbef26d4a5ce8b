"""Published extracts, and the holidays of their codes."""
from __future__ import annotations

from datetime import date
from random import Random
from typing import List, Tuple

from reference.dates import DAY, day_of, from_yymmdd, yymmdd
from reference.layouts import LAYOUTS, Field, columns_of
from reference.values import HOLIDAY_CODES, OPEN_END

from .fields import PRINTABLE, of_width
from .spelling import some_habits, spelled, with_columns
from .windows import Odds, bounded, some_day

NO_CODES = ("x", "Y", "e", "0", "1", "~")
NO_COMMENTS = (
    "/!!" + "~" * 998,
    "/!!" + "\t" * 999,
    "/!",
    "//!",
    " /!!",
    "/!x".ljust(80),
    "/! !".ljust(80),
    "",
)

# How likely each line has such a thing, in one extract.
ODDS_OF_LINES = (0, 0, 0.05, 0.3)


def field_of(kind: str, name: str) -> Field:
    return next(field for field in LAYOUTS[kind] if field.name == name)


def with_field(line: str, name: str, columns: str) -> str:
    return with_columns(line, field_of(line[:2], name), columns)


def field_text(line: str, name: str) -> str:
    return columns_of(line, field_of(line[:2], name))


def some_comment(rng: Random) -> str:
    signs = PRINTABLE if rng.random() < 0.7 else PRINTABLE + "\t\0\r\x1b\x7f"
    return "/!!" + of_width(rng, rng.choice([0, 1, 20, 76, 77, 78, 79, 500, 996, 997]), signs)


def some_note(rng: Random) -> str:
    return rng.choice(["TN", "LN"]) + of_width(rng, 78, rng.choice([" ", PRINTABLE]))


def with_stray_line(rng: Random, lines: List[str]) -> List[str]:
    """The lines with one that may not stand there, or only by chance."""
    at = rng.randint(0, len(lines))
    return [
        *lines[:at],
        rng.choice([some_note(rng), some_note(rng), rng.choice(NO_COMMENTS)]),
        *lines[at:],
    ]


def published(rng: Random, lines: List[str], odds: Odds) -> List[str]:
    """The lines with comments, notes, open ends and holiday codes."""
    open_ends, codes = rng.choice((0, 0.1, 0.5)), rng.choice((0, 0.2, 0.7))
    comments, notes = rng.choice(ODDS_OF_LINES), rng.choice(ODDS_OF_LINES)
    found, scheduled = [], False
    for line in lines:
        kind = line[:2]
        if kind in ("AA", "BS") and rng.random() < open_ends:
            line = with_field(line, "last", OPEN_END)
        if kind == "BS" and rng.random() < codes:
            code = rng.choice(NO_CODES if rng.random() < odds["no code"] / 4 else "XXXEG")
            line = with_field(line, "bank_holiday", code)
        while rng.random() < comments:
            found.append(some_comment(rng))
        while scheduled and rng.random() < notes:
            found.append(some_note(rng))
        found.append(line)
        scheduled = scheduled or kind == "BS"
    while rng.random() < comments:
        found.append(some_comment(rng))
    return with_stray_line(rng, found) if rng.random() < odds["stray line"] else found


def spelled_as_published(rng: Random, lines: List[str], odds: Odds) -> bytes:
    return spelled(rng, published(rng, lines, odds), some_habits(rng))


# ---- holidays

NO_HOLIDAYS: Tuple[bytes, ...] = (
    b"Y 260406",
    b"X260406",
    b"X 260230",
    b"X 999999",
    b"X E 260406",
    b"x 260406",
    b"X\t260406",
    b"\tX",
    b"\t",
)
NO_HOLIDAYS += (
    b"X 26040",
    b"X 2604061",
    b"X 260406,260504",
    b"X 26 406",
    b"XE",
    b"260406",
    b"X ; remark",
    b"/!! made by hand",
)
NO_HOLIDAYS += (b"X 2026-04-31", b"E 260406 2026-4-6", b"G 2060-01-01", b"X 26-04-06")
NO_HOLIDAYS += (b"X 260406\r", b"X 260406\x00", b"\xa0", b"X \xc2\xa0")
NO_HOLIDAYS += (
    b"X" + b" 260406" * 11 + b" 26040",
    b"E" + b" 260406" * 11 + b"  260431#",
    b"G".rjust(79) + b" 260406 ~" + b"!" * 90,
)
NO_HOLIDAYS += tuple(
    said.ljust(1001, sign)
    for said, sign in ((b"#", b"#"), (b"", b" "), (b"X", b" "), (b"X 260406 #", b"\xff"))
)


def some_holiday(rng: Random, lines: List[str], days: List[date]) -> date:
    """A date: often the day after one of these, or of a record with a code, at its ends or between them."""
    if days and rng.random() < 0.25:
        return bounded(rng.choice(days) + DAY)
    begins, ends = (field_text(rng.choice(lines), name) for name in ("first", "last"))
    first = day_of(begins)
    last = max(first, from_yymmdd(ends) or bounded(first + rng.choice([7, 90, 900]) * DAY))
    return rng.choice([first, last, some_day(rng, (first, last)), some_day(rng, (first, last))])


def holiday_lines(rng: Random, code: str, days: List[date]) -> List[bytes]:
    """Lines that name a code and say its dates, in whatever order, some of them twice."""
    found = [b""] * rng.choice([1, 1, 1, 2, 3])
    for day in rng.sample(days, len(days)):
        at = rng.randrange(len(found))
        word = day.isoformat() if rng.random() < 0.2 else yymmdd(day)
        found[at] += b" " * rng.choice([1, 1, 1, 2, 5]) + word.encode()
    return [
        b" " * rng.choice([0, 0, 0, 2]) + code.encode() + said + b" " * rng.choice([0, 0, 0, 1, 3])
        for said in found
    ]


def some_remark(rng: Random) -> bytes:
    signs = (
        [byte for byte in range(256) if byte != 0x0A]
        if rng.random() < 0.5
        else list(PRINTABLE.encode())
    )
    return b"#" + bytes(rng.choices(signs, k=rng.choice([0, 1, 5, 40])))


def some_holidays(rng: Random, lines: List[str], odds: Odds) -> bytes:
    """A text of holidays, which names most codes of these lines."""
    found = [rng.choice([b"", b"", b"   "]) for _ in range(rng.choice([0, 0, 1, 3]))]
    for code in HOLIDAY_CODES:
        of_code = [
            line for line in lines if line[:2] == "BS" and field_text(line, "bank_holiday") == code
        ]
        days: List[date] = []
        for _ in range(rng.choice([0, 1, 2, 4, 12]) if of_code else 0):
            days.append(some_holiday(rng, of_code, days))
        if rng.random() < 0.2:
            far = rng.choice([-365, -251, -250, 250, 251, 365]) * DAY
            days = [bounded(day + far) for day in days]
        if rng.random() < (1 - odds["no code"] if of_code else 0.5):
            found += holiday_lines(rng, code, days)
    if rng.random() < odds["no holidays"]:
        found.append(rng.choice(NO_HOLIDAYS))
    rng.shuffle(found)
    remarks, carriage_returns = rng.choice([0, 0.2, 0.6]), rng.choice([0, 0, 0.5, 1])
    text = b""
    for line in found:
        if rng.random() < remarks:
            line += some_remark(rng)
        if rng.random() < 0.02 and len(line) < 1000:
            line = line.ljust(1000)
        text += line + (b"\r\n" if rng.random() < carriage_returns else b"\n")
    return text if rng.random() < 0.8 else text.removesuffix(b"\n").removesuffix(b"\r")
