"""Which trains are for riders, and at which of their calls."""
from __future__ import annotations

from collections.abc import Iterable, Sequence
from functools import lru_cache
from typing import NamedTuple

# What has public times now and then, though it isn't for riders, from memory: empty stock, staff
# trains, post and parcels, departmental trains, light locomotives, unadvertised trains; and by their
# status freight and trips of freight. A category of freight has a digit.
NOT_FOR_RIDERS = set("EE EL ES OS OU XU JJ PM PP PV DD DH DI DQ DT DY ZB ZZ".split())
FREIGHT = set("FT23")
DIGITS = set("0123456789")


@lru_cache(maxsize=4096)
def is_for_riders(status: str, category: str) -> bool:
    is_freight = status in FREIGHT or bool(DIGITS & set(category))
    return not is_freight and category not in NOT_FOR_RIDERS


class Change(NamedTuple):
    """From the call with this number on, a train is for riders or isn't. At this call it arrives as
    it was before."""

    number: int
    is_for_riders: bool


# The changes of a train, of which the first is at its first call, and each differs from the one before.
Sort = tuple[Change, ...]


def sort_of(status: str, category: str, changes: Iterable[tuple[int, str]]) -> Sort:
    """Where a train is for riders, by the category that it begins with, and those that it gets en
    route, each with the number of the call that follows."""
    found = [Change(1, is_for_riders(status, category))]
    for number, other in changes:
        now = is_for_riders(status, other)
        if now != found[-1].is_for_riders:
            found.append(Change(number, now))
    return tuple(found)


def at_arrival(sort: Sort, number: int) -> bool:
    """Whether a train is for riders when it arrives at the call with this number."""
    found = sort[0].is_for_riders
    for change in sort:
        if change.number >= number:
            break
        found = change.is_for_riders
    return found


def at_departure(sort: Sort, number: int) -> bool:
    """Whether it is when it leaves."""
    return at_arrival(sort, number + 1)


def is_ever(sort: Sequence[Change]) -> bool:
    return any(change.is_for_riders for change in sort)
