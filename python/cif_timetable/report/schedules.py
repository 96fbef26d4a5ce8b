"""How many trains an extract has on each date, by operator, and the schedules that only it has."""
from __future__ import annotations

from collections.abc import Container, Mapping
from typing import NamedTuple

from .._extract import Extract
from ..days import Dates, TrainsPerDay, Window
from ..errors import Unexpected
from .journeys import BASIC_FIELDS, TERMS_FIELDS, OwnSchedule

IDENTITY = BASIC_FIELDS.index("identity")


class Schedules(NamedTuple):
    """The trains of each operator on each date, how many trains there are, of those that were asked
    for the ones that run, each with its identity, and the schedules on own dates of a train."""

    trains_per_day: dict[str, list[int]]
    trains: int
    found: dict[bytes, str]
    own: list[OwnSchedule]


def read_schedules(
    extract: Extract, window: Window, wanted: Container[bytes], own_dates: Mapping[bytes, Dates]
) -> Schedules:
    """Reads the schedules of an extract. Of some trains there are dates on which it alone says what
    they do."""
    counter: TrainsPerDay[bytes] = TrainsPerDay(window)
    found: dict[bytes, str] = {}
    own: list[OwnSchedule] = []
    uids = 0
    before = b""
    with extract.table("schedules") as table:
        if table.names[: len(TERMS_FIELDS)] != TERMS_FIELDS:
            raise Unexpected("cif writes another table of schedules: is it another release?")
        operator_at = table.names.index("operator_code") - len(TERMS_FIELDS)
        for line in table.lines:
            number, uid, first, last, days_run, *cells = line.split(b"\t")
            counter.add(cells[operator_at], first, last, days_run)
            if uid != before:
                before = uid
                uids += 1
                if uid in wanted:
                    found[uid] = cells[IDENTITY].decode()
            if uid in own_dates:
                dates = window.dates(first, last, days_run) & own_dates[uid]
                if dates:
                    about = b"\t".join(cells).rstrip(b"\n")
                    own.append(OwnSchedule(number, uid, dates, about))
    by_operator = {operator.decode(): counts for operator, counts in sorted(counter.counts())}
    return Schedules(by_operator, uids, found, own)
