"""Reads British railway timetables in CIF, by the program `cif`.

    import datetime as dt
    import cif_timetable as cif

    timetable = cif.open("full.cif.gz", holidays="holidays.txt")
    for train in timetable.on(dt.date(2026, 6, 5)):
        print(train.identity, train.origin.tiploc, train.calls[0].departure)

`open` gives a Timetable, of which `cif` has resolved overlays, new schedules and cancellations. The
rows that it iterates over are frozen dataclasses with the names of CIF's fields. Dates are `date`,
times of day `time`, moments past midnight `timedelta`, numbers `int`, and all codes `str`; a blank is
None. Times are those of the clocks in Britain, without a zone, which `when` adds. Whatever `cif`
refuses is a CifError.

docs/PYTHON.md shows more.
"""
from __future__ import annotations

__version__ = "0.4.0"

# pylint: disable=wrong-import-position, redefined-builtin
from .errors import CifError
from .exports import GtfsResult, to_gtfs, to_sqlite
from .model import (
    Arrival,
    Association,
    Call,
    ChangeCounts,
    ChangeEnRoute,
    Changes,
    Counts,
    Departure,
    Difference,
    Header,
    Location,
    PublicCall,
    Schedule,
    Train,
    Winner,
)
from .timetable import Timetable, changes, counts, diff, open, when

__all__ = [
    "Arrival",
    "Association",
    "Call",
    "ChangeCounts",
    "ChangeEnRoute",
    "Changes",
    "CifError",
    "Counts",
    "Departure",
    "Difference",
    "GtfsResult",
    "Header",
    "Location",
    "PublicCall",
    "Schedule",
    "Timetable",
    "Train",
    "Winner",
    "changes",
    "counts",
    "diff",
    "open",
    "to_gtfs",
    "to_sqlite",
    "when",
]
