"""A timetable as other programs take it."""
from __future__ import annotations

import os
from collections.abc import Sequence
from dataclasses import dataclass
from pathlib import Path

from ._files import check_inputs_stay, output_path
from ._progress import Progress
from .timetable import AnyPath, Timetable, extract_of, opened


@dataclass(frozen=True, slots=True)
class GtfsResult:
    """What a GTFS feed lacks: how many of its stations have no coordinates, which GTFS requires, and
    how many dates of trains that aren't for riders, and of associations, are left out. docs/GTFS.md
    says when an association is left out."""

    stations_without_coordinates: int
    trains_left_out: int
    associations_left_out: dict[str, int]


# One file, or several of one kind.
AnyPaths = AnyPath | Sequence[AnyPath]


def text_of(path: AnyPath | None) -> str | None:
    return os.fspath(path) if path is not None else None


def texts_of(paths: AnyPaths | None) -> list[str]:
    if paths is None:
        return []
    several = [paths] if isinstance(paths, (str, os.PathLike)) else paths
    return [os.fspath(path) for path in several]


def place_of(path: AnyPath, timetable: Timetable, *others: str | None) -> Path:
    """The place of an output. One in the place of an input is refused."""
    place = output_path(os.fspath(path))
    check_inputs_stay([place], [timetable.path], others)
    return place


def to_sqlite(
    timetable: Timetable | AnyPath,
    path: AnyPath,
    *,
    places: AnyPaths | None = None,
    operators: AnyPath | None = None,
    force: bool = False,
) -> None:
    """Makes an SQLite database of a timetable, as `cif-sql` does: docs/SQL.md describes its tables,
    and the files `places` and `operators`.

    The file takes its place once it is complete. Raises CifError if something else than a database
    of `cif-sql` is there, or one of a later extract, which `force` replaces.
    """
    # pylint: disable-next=import-outside-toplevel,cyclic-import
    from .sql import database, sqlite_file

    files = texts_of(places), text_of(operators)
    with opened(timetable) as found:
        place = place_of(path, found, *files[0], files[1])
        sqlite_file.check_place(place)
        given = database.user_files(*files)
        database.make_database(extract_of(found), place, given, force, Progress(visible=False))


def to_gtfs(
    timetable: Timetable | AnyPath,
    path: AnyPath,
    *,
    places: AnyPaths | None = None,
    operators: AnyPath | None = None,
    interchange: AnyPath | None = None,
    links: AnyPath | None = None,
    extended_types: bool = False,
    whole_trains: bool = False,
    publisher: str | None = None,
    url: str | None = None,
    email: str | None = None,
    attributions: Sequence[str] = (),
) -> GtfsResult:
    """Makes a GTFS feed of a timetable, as `cif-gtfs` does: docs/GTFS.md says what becomes of what,
    and describes the files and the options. Each of the attributions is a name, or a name, `=` and the
    address of a licence. The zip takes its place once it is complete."""
    # pylint: disable-next=import-outside-toplevel,cyclic-import
    from .gtfs import command_line, conversion, trains

    of_places = texts_of(places)
    files = text_of(operators), text_of(interchange), text_of(links)
    types = trains.EXTENDED_TYPES if extended_types else trains.TYPES
    about = command_line.publisher_of(publisher, url, email)
    given_by = [command_line.attribution_of(text) for text in attributions]
    wishes = conversion.Wishes(types, whole_trains, about, given_by)
    with opened(timetable) as found:
        outputs = conversion.Outputs(place_of(path, found, *of_places, *files), None, None)
        given = conversion.user_files(of_places, *files)
        progress = Progress(visible=False)
        outcome = conversion.convert(extract_of(found), given, wishes, outputs, progress)
    left_out = outcome.left_out
    reasons = {reason.value: count for reason, count in left_out.associations.items() if count}
    return GtfsResult(outcome.wanted, left_out.trains, reasons)
