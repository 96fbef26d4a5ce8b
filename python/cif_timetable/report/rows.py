"""REPORT.csv: every change in rows."""
from __future__ import annotations

import csv
from collections.abc import Iterator
from typing import IO, NamedTuple

from .comparison import Comparison
from .days import Calendar
from .words import Names

# What a formula begins with in a spreadsheet.
FORMULA = ("=", "+", "-", "@")


class Row(NamedTuple):
    """A change of a train, an association or a place. A train has a row for each kind of change,
    and for each span of weeks with the same days."""

    subject: str
    kind: str
    change: str
    first_date: str = ""
    last_date: str = ""
    days_run: str = ""
    uid: str = ""
    identity: str = ""
    operator_code: str = ""
    operator: str = ""
    origin: str = ""
    origin_name: str = ""
    destination: str = ""
    destination_name: str = ""
    departure: str = ""
    associated_uid: str = ""
    location: str = ""
    location_name: str = ""


def rows_of(comparison: Comparison, names: Names) -> Iterator[Row]:
    calendar = Calendar(comparison.window)

    def dated(row: Row, dates: int) -> Iterator[Row]:
        for span in calendar.spans(dates):
            first, last = span.first.isoformat(), span.last.isoformat()
            yield row._replace(first_date=first, last_date=last, days_run=span.days)

    for train in comparison.trains:
        face = train.face
        row = Row(
            "train",
            "",
            "",
            uid=train.uid,
            identity=face.identity,
            operator_code=face.operator,
            operator=names.operator(face.operator),
            origin=face.origin,
            origin_name=names.place(face.origin),
            destination=face.destination,
            destination_name=names.place(face.destination),
            departure=face.departure,
        )
        for change in train.changes:
            for phrase in change.phrases:
                own = row._replace(kind=phrase.kind, change=phrase.whole())
                yield from dated(own, change.dates)
    for association in comparison.associations:
        row = Row(
            "association",
            association.kind,
            f"{association.category} {association.text}".strip(),
            uid=association.base,
            associated_uid=association.associated,
            location=association.location,
            location_name=names.place(association.location),
        )
        yield from dated(row, association.dates)
    for location in comparison.locations:
        yield Row(
            "place",
            location.kind,
            location.text,
            location=location.tiploc,
            location_name=names.place(location.tiploc),
        )


def plain(cell: str) -> str:
    """A cell that no spreadsheet takes for a formula."""
    return f"'{cell}" if cell.startswith(FORMULA) else cell


def write_rows(file: IO[str], rows: Iterator[Row]) -> None:
    writer = csv.writer(file, lineterminator="\n")
    writer.writerow(Row._fields)
    writer.writerows(map(plain, row) for row in rows)
