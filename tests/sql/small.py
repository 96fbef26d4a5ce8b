"""Small generated extracts: the boards of their databases are those of `cif departures` and `cif arrivals`, their rides are those
that follow date by date, and nothing differs by --verify."""
from __future__ import annotations

import json
import os
import random
from collections import Counter
from datetime import date
from pathlib import Path
from typing import Callable, Dict, Iterable, List, Optional, Sequence, Tuple

from gtfs import generated
from gtfs.checks import Counts
from gtfs.checks import Maker as FeedMaker
from gtfs.checks import Source
from gtfs.stations import EXAMPLE, FEEDS
from gtfs.verified import OPTIONS

from . import postgres
from .checks import Maker, Query, same_rows, sqlite_rows
from .definition import Expected, SqlRow, or_none
from .rides import rides

SCHEDULES = 60
# So many TIPLOCs are asked for.
MOST_PLACES = 14
# A train that calls after so many midnights that no database takes it.
TOO_LATE = "midnights"
BOARD = "date, time, train_date, uid, location, platform, number"
RIDES = "from_crs, to_crs, date, departure, arrival_date, arrival, train_date, uid, portion, number"
# The two boards, each with what a call has to be for riders.
BOARDS = ("departures", "arrivals")


def riders_rows(expected: Expected, board: str, day: date, place: str) -> Counter[SqlRow]:
    """What `cif` lists at a place on a date, of trains that are for riders there."""
    found: Counter[SqlRow] = Counter()
    for line in expected.source.lines(board, "--format", "json", place, f"{day:%y%m%d}"):
        row = json.loads(line)
        number = expected.running[row["uid"], date.fromisoformat(row["train_date"])]
        calls = expected.of_schedule["public"][number]
        [call] = [each for each in calls if each["call"] == str(row["call"])]
        if expected.is_passenger(number) and expected.riders(number, call)[board == "departures"]:
            names = "date time train_date uid location platform call".split()
            found[tuple(or_none(str(row[name] or "")) for name in names)] += 1
    return found


def places_of(expected: Expected) -> Dict[str, str]:
    """Each code, and the TIPLOCs at which most trains call, with the column that has it. No place with
    a space or a small letter in it can be asked for."""
    codes = {crs: "crs" for crs in expected.crs.values() if crs}
    found = Counter(row["location"] for row in expected.tables["public"] if row["location"])
    locations = [location for location, _ in found.most_common(MOST_PLACES)]
    return {
        place: column
        for place, column in (codes | dict.fromkeys(locations, "location")).items()
        if " " not in place and place == place.upper()
    }


def check_boards(
    counts: Counts, name: str, expected: Expected, rows: Query, dates: Sequence[date]
) -> int:
    """Both boards of each place on some dates. Returns how many rows there are."""
    wanted = {
        (board, day, place): riders_rows(expected, board, day, place)
        for board in BOARDS
        for day in dates
        for place in places_of(expected)
    }
    words = ", ".join(f"'{day}'" for day in dates)
    for board in BOARDS:
        got = rows(f"SELECT crs, {BOARD} FROM {board} WHERE date IN ({words})")
        for place, column in places_of(expected).items():
            here = Counter(row[1:] for row in got if place == row[0 if column == "crs" else 5])
            want: Counter[SqlRow] = sum((wanted[board, day, place] for day in dates), Counter())
            same_rows(counts, f"{name}, {board} at {place} are those of cif", want, here.elements())
    return sum(found.total() for found in wanted.values())


def check_rides(counts: Counts, name: str, expected: Expected, rows: Query) -> int:
    """All rides. Returns how many of them end in another train."""
    wanted = rides(expected)
    same_rows(counts, f"{name}, rides", wanted, rows(f"SELECT {RIDES} FROM rides"))
    return sum(count for row, count in wanted.items() if row[8])


def some_dates(expected: Expected, most: int) -> List[date]:
    step = max(len(expected.dates) // most, 1)
    return expected.dates[::step]


def check_extract(
    counts: Counts, maker: Maker, path: Path, most: int, with_postgres: bool
) -> Tuple[int, int]:
    """The database of an extract, with boards on so many dates at most. Returns how many rows of boards
    and how many rides in another train there are; none if a database doesn't take the extract."""
    done = maker.run("-o", "many.db", "--force", path)
    if TOO_LATE in done.stderr:
        return 0, 0
    counts.same(f"{path.name} is loaded", (0, ""), (done.returncode, done.stderr))
    made, expected = maker.folder / "many.db", Expected(Source(maker.cif, path))
    databases: List[Tuple[str, Query]] = [("SQLite", lambda query: sqlite_rows(made, query))]
    if with_postgres:
        postgres.load(maker, "--force", path)
        databases.append(("PostgreSQL", postgres.rows_of))
    for kind, rows in databases:
        found = (
            check_boards(
                counts, f"{path.name} in {kind}", expected, rows, some_dates(expected, most)
            ),
            check_rides(counts, f"{path.name} in {kind}", expected, rows),
        )
    words = ["--date", f"{expected.dates[3]:%y%m%d}", "--place", next(iter(places_of(expected)))]
    done = maker.run("--verify", made.name, *words, path)
    counts.test(f"{path.name}, --verify", done.returncode == 0, done.stdout + done.stderr)
    made.unlink()
    return found


def check_feed(counts: Counts, maker: FeedMaker, path: Path, options: Sequence[str]) -> None:
    """The feed of an extract, if its trains give one."""
    made = maker.folder / "small.zip"
    done = maker.run("-o", made, *options, path)
    if made.exists():
        done = maker.run("--verify", made, *options, path)
        said = done.stdout + done.stderr
        counts.test(f"{path.name}, --verify of the feed", done.returncode == 0, said)
        made.unlink()
    else:
        counts.same(f"{path.name} has no feed", 3, done.returncode)


def check_seeds(
    counts: Counts,
    maker: Maker,
    seeds: Iterable[int],
    most: int,
    with_postgres: Callable[[int], bool],
    feeds: Optional[FeedMaker] = None,
) -> None:
    """An extract of each seed, and also its feed where there is what makes feeds."""
    rows = ends = 0
    for seed in seeds:
        path = maker.folder / f"generated-{seed}.cif"
        path.write_bytes(generated.extract(random.Random(seed), SCHEDULES))
        found = check_extract(counts, maker, path, most, with_postgres(seed))
        rows, ends = rows + found[0], ends + found[1]
        if feeds:
            check_feed(counts, feeds, path, OPTIONS[seed % len(OPTIONS)])
        path.unlink()
    counts.test("boards have rows", rows > 0)
    counts.test("rides end in other trains", ends > 0)


def check(counts: Counts, maker: Maker) -> None:
    """The example, samples, and a few in the suite; run_small takes more."""
    has_postgres = "PGHOST" in os.environ
    for path in EXAMPLE, *sorted((FEEDS / "probes").glob("*.cif")):
        check_extract(counts, maker, path, 4, has_postgres)
    check_seeds(counts, maker, (2, 3), 2, lambda seed: has_postgres and seed == 2)
