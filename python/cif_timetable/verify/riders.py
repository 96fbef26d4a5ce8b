"""At which calls a train is for riders, by its category and status.

From memory, as docs/GTFS.md lists them: not for riders are empty stock (EE, EL, ES), staff trains (OS),
unadvertised ones (OU, XU), post and parcels (JJ, PM, PP, PV), departmental trains (DD, DH, DI, DQ, DT,
DY), light locomotives (ZB, ZZ), each category with a digit, and by their status freight (F, T, 2, 3).
"""
from __future__ import annotations

import re
from collections.abc import Sequence

NO_RIDERS = re.compile(r"E[ELS]|O[SU]|XU|JJ|P[MPV]|D[DHIQTY]|Z[BZ]|.*[0-9].*")
FREIGHT = ("F", "T", "2", "3")
# How `table public` says that riders can't get on, or off.
NEVER = "1"

# The categories that a train gets en route, each with the number of the call from which it has it.
Changes = Sequence[tuple[int, str]]


def is_for_riders(status: str, category: str) -> bool:
    return status not in FREIGHT and not NO_RIDERS.fullmatch(category)


def category_before(category: str, changes: Changes, call: int) -> str:
    """The category with which a train arrives at a call."""
    return [category, *(new for number, new in changes if number < call)][-1]


def category_from(category: str, changes: Changes, call: int) -> str:
    """The category with which it leaves."""
    return [category, *(new for number, new in changes if number <= call)][-1]


def off_and_on(status: str, category: str, changes: Changes, call: int) -> tuple[bool, bool]:
    """Whether a train is for riders when it arrives at a call, and when it leaves."""
    return (
        is_for_riders(status, category_before(category, changes, call)),
        is_for_riders(status, category_from(category, changes, call)),
    )
