"""A database against an extract."""
from __future__ import annotations

from collections.abc import Iterator, Mapping, Sequence
from contextlib import AbstractContextManager, contextmanager
from dataclasses import replace
from datetime import date
from typing import NamedTuple

from .._extract import Extract, Request, open_extract
from .._process import Cif
from .._progress import Progress
from ..errors import CifEnded, Failed, Refused
from ..operators import OperatorRow
from ..places import PlaceRow
from ..user_csv import Key
from .database import Database
from .days import check_commands, compare_day, compare_places, compare_stops
from .derived import compare_derived
from .difference import Different, compare_rows
from .stations import compare_operators, compare_stations
from .schedules import text_lines
from .tables import Loaded, compare_tables, loaded_in


class Asked(NamedTuple):
    """What is compared besides the tables: views on dates, and at places on these."""

    dates: Sequence[date]
    places: Sequence[str]


class Given(NamedTuple):
    """What the files of the user have, by their keys."""

    places: Mapping[Key, PlaceRow]
    operators: Mapping[Key, OperatorRow]


def what_is_loaded(database: Database) -> Loaded:
    loaded = loaded_in(database)
    if loaded is None:
        raise Refused("the database has not one row in its table extract")
    return loaded


@contextmanager
def extract_as_loaded(cif: Cif, request: Request, loaded: Loaded) -> Iterator[Extract]:
    """The extract on the dates that were loaded, unless others are asked for."""
    first, last = request.first or loaded.first, request.last or loaded.last
    try:
        with open_extract(cif, replace(request, first=first, last=last)) as extract:
            if extract.refused:
                raise extract.refused
            yield extract
    except CifEnded as refusal:
        if refusal.name != "OutsideWindow":
            raise
        dates = f"the dates from {loaded.first} to {loaded.last}"
        raise Different(
            f"table extract: the database has {dates}, not those of the extract"
        ) from None


def compare_published(database: Database, extract: Extract) -> None:
    """Compares which published schedule decides on each date, of an extract that says so."""
    with extract.winners() as winners:
        if winners is None:
            return
        wanted = sorted(text_lines(winners))
        names = winners.names
    found = sorted(database.rows(names, "FROM published"))
    compare_rows("table published, in order", names, found, wanted)


def verify_database(
    opened: AbstractContextManager[Database],
    cif: Cif,
    request: Request,
    given: Given,
    asked: Asked,
    progress: Progress,
) -> str:
    """What was compared, in words, if the database says what the extract says."""
    with opened as database:
        loaded = what_is_loaded(database)
        with extract_as_loaded(cif, request, loaded) as extract:
            if asked.places:
                check_commands(extract)
            header = extract.header()
            progress.show("comparing tables")
            counts = compare_tables(database, extract, loaded.form)
            progress.show("comparing stations")
            compare_stations(database, extract, given.places)
            compare_operators(database, given.operators)
            progress.show("comparing what follows of tables")
            compare_derived(database, extract, loaded.form, header)
            compare_published(database, extract)
            for day in asked.dates:
                progress.show(f"comparing {day}")
                if not header.first_date <= day <= header.last_date:
                    dates = f"{header.first_date} to {header.last_date}"
                    raise Refused(f"{day} isn't a date of the database, which has {dates}")
                compare_day(database, extract, day)
            if asked.dates:
                compare_stops(database, extract, loaded.form, asked.dates)
            if asked.places:
                compare_places(database, extract, loaded.form, asked.dates, asked.places)
        if what_is_loaded(database) != loaded:
            raise Failed("the database has been replaced while it was read")
    rows = ", ".join(f"{count} {name}" for name, count in counts.items())
    return f"the same: rows of {rows}"
