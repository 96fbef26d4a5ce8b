"""cif-sql --verify: faults that are planted in a database, each of which has to be found and named."""
from __future__ import annotations

import os
import random
import shutil
import sqlite3
from contextlib import closing
from pathlib import Path
from typing import Tuple

from cif_timetable._extract import Request
from cif_timetable._process import find_cif
from cif_timetable._progress import Progress
from cif_timetable.errors import CifError
from cif_timetable.operators import read_operators
from cif_timetable.verify.database import sqlite_database
from cif_timetable.verify.whole_database import Asked, Given, verify_database
from gtfs import generated
from gtfs.checks import TOP, Counts

from .by_hand import BLANK, EXAMPLE
from .checks import Maker
from .postgres import load, psql

SAMPLES = TOP / "tests" / "feeds"
# Small generated extracts in this suite; many more have been tried outside of it.
GENERATED = 2
SCHEDULES = 60

# Statements that plant a fault, and what of it the difference names. The example's train W20347 leaves late in the evening.
JOURNEY = "(SELECT journey FROM schedules WHERE uid = '{}' ORDER BY id LIMIT 1)"
LATE, EARLY = JOURNEY.format("W20347"), JOURNEY.format("W20101")
PLANTED: Tuple[Tuple[str, str, Tuple[str, ...]], ...] = (
    (
        "a call lost",
        f"DELETE FROM calls WHERE journey = {EARLY} AND number = 3",
        ("table calls", "GTWK"),
    ),
    (
        "a public call lost",
        f"DELETE FROM public_calls WHERE journey = {EARLY} AND number = 2",
        ("table public", "HYWRDSH"),
    ),
    (
        "a schedule lost",
        "DELETE FROM schedules WHERE uid = 'W20503'",
        ("table schedules", "W20503"),
    ),
    (
        "a schedule twice",
        "INSERT INTO schedules SELECT id + 1000, uid, '2026-07-01', last_date, {} FROM schedules WHERE uid = 'W20503'",
        ("table schedules, row 21", "W20503"),
    ),
    ("a change en route lost", "DELETE FROM changes", ("table changes", "THBDGS")),
    (
        "a change en route twice",
        "INSERT INTO changes SELECT * FROM changes",
        ("table changes, row 2", "THBDGS"),
    ),
    (
        "an association lost",
        "DELETE FROM associations WHERE id = 2",
        ("table associations, row 2", "W20113"),
    ),
    (
        "an association at another place",
        "UPDATE associations SET location = 'GTWK' WHERE id = 1",
        ("location is `GTWK` and not `HYWRDSH`",),
    ),
    (
        "an association of another train",
        "UPDATE associations SET associated_uid = 'W20232' WHERE id = 1",
        ("associated_uid", "W20232"),
    ),
    (
        "a working time a minute off",
        f"UPDATE calls SET arrival = '2347' WHERE journey = {LATE} AND number = 3",
        ("table calls", "arrival is `2347`"),
    ),
    (
        "a public time a minute off",
        f"UPDATE calls SET public_departure = '2333' WHERE journey = {LATE} AND number = 1",
        ("public_departure is `2333` and not `2332`",),
    ),
    (
        "a moment a minute off",
        f"UPDATE public_calls SET arrival_seconds = arrival_seconds + 60 WHERE journey = {EARLY} AND number = 3",
        ("table public", "arrival is `06:14:00`"),
    ),
    (
        "the evening before on the wrong date",
        f"UPDATE public_calls SET departure_seconds = departure_seconds - 86400 WHERE journey = {LATE} AND departure_seconds > 86400",
        ("table public", "departure is `00:05:00`"),
    ),
    (
        "the time by the clock",
        f"UPDATE public_calls SET departure_time = '06:02:00' WHERE journey = {EARLY} AND number = 2",
        ("departure_time is `06:02:00` and not `06:01:00`",),
    ),
    (
        "a first date earlier",
        "UPDATE schedules SET first_date = '2026-05-17' WHERE id = 2",
        ("first_date is `2026-05-17`",),
    ),
    (
        "a last date later",
        "UPDATE schedules SET last_date = '2026-06-13' WHERE id = 1",
        ("last_date is `2026-06-13`",),
    ),
    (
        "a mask a day later",
        "UPDATE schedules SET days_run = substr(days_run, 7) || substr(days_run, 1, 6) WHERE id = 2",
        ("days_run is `0111110` and not `1111100`",),
    ),
    (
        "a date of the window lost",
        "DELETE FROM clock_days WHERE date = '2026-05-20'; DELETE FROM days WHERE date = '2026-05-20'",
        ("table days", "2026-05-20"),
    ),
    ("a date more", "INSERT INTO days VALUES ('2026-06-14', 7)", ("table days", "2026-06-14")),
    (
        "a weekday of a mask",
        "INSERT INTO weekdays VALUES ('1111100', 6)",
        ("table weekdays", "1111100"),
    ),
    (
        "the date by the clock",
        "UPDATE clock_days SET date = '2026-07-05' WHERE train_date = '2026-06-05' AND midnights = 1",
        ("table clock_days", "2026-06-05"),
    ),
    (
        "the date of an associated train",
        "UPDATE associated_days SET associated_date = '2027-01-01' WHERE date = '2026-06-05' AND date_indicator = 'N'",
        ("table associated_days", "2026-06-05"),
    ),
    (
        "a platform",
        f"UPDATE public_calls SET platform = '9' WHERE journey = {EARLY} AND number = 1",
        ("platform is `9` and not `5`",),
    ),
    (
        "a platform of a working call",
        f"UPDATE calls SET platform = '9' WHERE journey = {EARLY} AND number = 1",
        ("table calls", "platform is `9` and not `5`"),
    ),
    (
        "riders get on where they can't",
        f"UPDATE public_calls SET pick_up = 0 WHERE journey = {EARLY} AND number = 5",
        ("pick_up is `0` and not `1`",),
    ),
    (
        "a call for riders that isn't one",
        f"UPDATE public_calls SET get_on = 1 WHERE journey = {EARLY} AND number = 5",
        ("get_on is `1` and not `0`",),
    ),
    (
        "riders can't get off where they can",
        f"UPDATE public_calls SET get_off = 0 WHERE journey = {EARLY} AND number = 5",
        ("get_off is `0` and not `1`",),
    ),
    (
        "freight that is for passengers",
        "UPDATE schedules SET passenger = 1 WHERE uid = 'G31845'",
        ("passenger is `1` and not `0`",),
    ),
    (
        "a train that may run",
        "UPDATE schedules SET as_required = 1 WHERE id = 3",
        ("as_required is `1` and not `0`",),
    ),
    (
        "a train's end for riders",
        "UPDATE schedules SET riders_destination = 'GTWK' WHERE id = 2",
        ("riders_destination is `GTWK` and not `VICTRIC`",),
    ),
    ("another journey", f"UPDATE schedules SET journey = {LATE} WHERE id = 2", ("table calls",)),
    (
        "an operator",
        "UPDATE schedules SET operator = 'GX' WHERE id = 2",
        ("operator_code is `GX` and not `SN`",),
    ),
    (
        "an operator's name",
        "UPDATE schedules SET operator_name = 'Northern' WHERE id = 2",
        ("`SN` is `Northern`",),
    ),
    (
        "an operator lost",
        "DELETE FROM operators WHERE operator = 'GX'",
        ("table operators", "GX"),
    ),
    (
        "an operator's name in their table",
        "UPDATE operators SET operator_name = 'Northern' WHERE operator = 'SN'",
        ("table operators", "operator_name is `Northern` and not `Southern`"),
    ),
    (
        "a station's name",
        "UPDATE stations SET name = 'London Victory' WHERE crs = 'VIC'",
        ("table stations", "London Victory"),
    ),
    (
        "a location's name",
        "UPDATE locations SET name = 'Hover' WHERE tiploc = 'HOVE'",
        ("table locations", "Hover"),
    ),
    (
        "a name that is searched",
        "DELETE FROM station_names WHERE station_crs = 'VIC'",
        ("table station_names", "VIC"),
    ),
    (
        "coordinates",
        "UPDATE stations SET latitude = 50.8 WHERE crs = 'VIC'",
        ("table stations", "VIC"),
    ),
    (
        "the code of a place",
        "UPDATE tiplocs SET crs_code = 'HOW' WHERE tiploc = 'HOVE'",
        ("crs_code is `HOW` and not `HOV`",),
    ),
    ("a place lost", "DELETE FROM tiplocs WHERE tiploc = 'HOVE'", ("table tiplocs", "HOVE")),
    (
        "a portion lost",
        "DELETE FROM portions WHERE rowid = 1",
        ("table portions", "row 1: `2|5|4|"),
    ),
    (
        "a portion twice",
        "INSERT INTO portions SELECT * FROM portions WHERE rowid = 2",
        ("table portions, in order, row 3",),
    ),
    (
        "where a train divides",
        "UPDATE portions SET before_call = 5 WHERE rowid = 1",
        ("before_call is `5` and not `4`",),
    ),
    (
        "where a train is joined",
        "UPDATE portions SET after_call = 2 WHERE rowid = 3",
        ("after_call is `2` and not `3`",),
    ),
    (
        "a portion on another date",
        "UPDATE portions SET first_date = '2026-05-19' WHERE rowid = 1",
        ("portions.first_date is `2026-05-19`",),
    ),
    (
        "a portion on another weekday",
        "UPDATE portions SET days_run = '1111110' WHERE rowid = 1",
        ("portions.days_run is `1111110`",),
    ),
    (
        "a portion a day later",
        "UPDATE portions SET date_indicator = 'N' WHERE rowid = 1",
        ("date_indicator is `N` and not `S`",),
    ),
    (
        "the journey of a portion",
        "UPDATE portions SET portion_journey = journey WHERE rowid = 1",
        ("table portions, in order, row 1",),
    ),
    (
        "another portion",
        "UPDATE portions SET portion_schedule = 7, portion_journey = (SELECT journey FROM schedules WHERE id = 7) WHERE rowid = 1",
        ("portion_schedule is `7` and not `6`",),
    ),
    (
        "the header",
        "UPDATE extract SET current_reference = 'X'",
        ("table header", "current_reference is `X`"),
    ),
    (
        "how many trains run",
        "UPDATE trains_per_day SET trains = trains + 1 WHERE date = '2026-06-05' AND operator = 'SN'",
        ("table trains_per_day", "2026-06-05"),
    ),
)
# Of views, which are compared on dates and at places.
VIEWS: Tuple[Tuple[str, str, str, Tuple[str, ...]], ...] = (
    (
        "runs",
        "view",
        "SELECT days.date, schedules.* FROM days JOIN schedules ON days.date BETWEEN first_date AND last_date",
        ("runs on 2026-06-05", "no row"),
    ),
    (
        "associations_on",
        "view",
        "SELECT days.date, days.date AS associated_date, associations.* FROM days, associations",
        ("associations_on on 2026-06-05",),
    ),
    (
        "calls_on",
        "view",
        "SELECT date, uid, number, record, location, suffix, arrival, departure, pass, public_arrival, public_departure, '1' AS platform,"
        " path, line, activities FROM old_calls_on",
        ("calls_on on 2026-06-05", "platform is `1` and not"),
    ),
    (
        "stops_of",
        "view",
        "SELECT * FROM old_stops_of WHERE get_on = 1",
        ("stops_of on 2026-06-05", "and not `W20101|5|VICTRIC"),
    ),
    (
        "stops_of",
        "view after midnight",
        "SELECT train_date, uid, number, location, platform, train_date AS arrival_date, arrival, departure_date, departure, set_down,"
        " pick_up, get_off, get_on FROM old_stops_of",
        ("stops_of on 2026-06-05", "arrival_date is `2026-06-05` and not `2026-06-06`"),
    ),
    (
        "departures",
        "view",
        "SELECT train_date AS date, * FROM old_departures",
        ("departures at HHE on 2026-06-05", "00:32:00"),
    ),
)


def verify(maker: Maker, *words: object) -> Tuple[int, str]:
    done = maker.run("--verify", *map(str, words))
    return done.returncode, done.stdout + done.stderr


def verified(maker: Maker, path: Path) -> Tuple[int, str]:
    """How --verify ends for a database of the example, without a program that has to start."""
    opened, cif = sqlite_database(str(path)), find_cif(str(maker.cif))
    request, given = Request(str(EXAMPLE)), Given({}, read_operators(None))
    try:
        return 0, verify_database(opened, cif, request, given, Asked((), ()), Progress())
    except CifError as ending:
        return ending.status, str(ending)


def columns_after_dates(path: Path) -> str:
    """The columns of schedules after the dates."""
    with closing(sqlite3.connect(path)) as connection:
        names = [row[1] for row in connection.execute("PRAGMA table_info(schedules)")]
    return ", ".join(names[4:])


def check_planted(counts: Counts, maker: Maker) -> None:
    """Each planted fault is found, and named."""
    made = maker.database(EXAMPLE)
    others = columns_after_dates(made)

    planted = maker.folder / "planted.db"
    for name, statements, words in PLANTED:
        shutil.copyfile(made, planted)
        with closing(sqlite3.connect(planted)) as connection:
            connection.executescript(statements.replace("{}", others))
            connection.commit()
        status, said = verified(maker, planted)
        found = status == 1 and all(word in said for word in words)
        counts.test(f"planted in a database: {name}", found, (status, said))
    ended = verify(maker, planted, EXAMPLE)
    counts.same("the last one, by the program", (status, f"cif-sql: {said}\n"), ended)


def check_views(counts: Counts, maker: Maker) -> None:
    """Views are compared on dates, and at places."""
    made = maker.database(EXAMPLE)
    places = [
        word for place in ("HHE", "HYWRDSH", "GTW", "LTLHMPT", "ZZZ") for word in ("--place", place)
    ]
    dates = "--date", "260605", "--date", "2026-06-06"
    status, said = verify(maker, made, *dates, *places, EXAMPLE)
    counts.test("views at places", status == 0, said)
    planted = maker.folder / "planted.db"
    for name, _, query, words in VIEWS:
        shutil.copyfile(made, planted)
        with closing(sqlite3.connect(planted)) as connection:
            [(old,)] = connection.execute("SELECT sql FROM sqlite_master WHERE name = ?", (name,))
            connection.execute(old.replace(f"VIEW {name}", f"VIEW old_{name}"))
            connection.executescript(f"DROP VIEW {name}; CREATE VIEW {name} AS {query}")
            connection.commit()
        status, said = verify(maker, planted, *dates, *places, EXAMPLE)
        counts.test(
            f"the view {name}", status == 1 and all(word in said for word in words), (status, said)
        )
    older = Maker(maker.folder / "cif-without-departures", maker.folder)
    older.cif.write_text(f'#!/bin/sh\n[ "$1" != --help ] || exit 0\nexec {maker.cif} "$@"\n')
    older.cif.chmod(0o755)
    status, said = verify(older, made, *dates, "--place", "HHE", EXAMPLE)
    counts.test("--place by an older cif", (status, said.count("\n")) == (2, 1), (status, said))


def check_same(counts: Counts, maker: Maker) -> None:
    """No difference in what cif-sql makes."""
    blank, many = maker.folder / "blank.cif", maker.folder / "verified.cif"
    blank.write_text(BLANK)
    holidays = ("--holidays", str(SAMPLES / "holidays.txt"))
    samples = [
        (str(blank),),
        (str(TOP / "examples" / "changed.cif"),),
        (*holidays, str(SAMPLES / "nrod" / "toc-full.CIF")),
        (*holidays, str(SAMPLES / "rsp" / "RJTTF512.MCA")),
        *((str(path),) for path in sorted((SAMPLES / "probes").glob("*.cif"))),
    ]
    for words in samples:
        made = maker.database(*words)
        status, said = verify(maker, made, *words)
        counts.test(f"the database of {words[-1]}", status == 0, said)
    for seed in range(1, GENERATED + 1):
        many.write_bytes(generated.extract(random.Random(seed), SCHEDULES))
        made = maker.database(many)
        status, said = verify(maker, made, "--date", "260401", many)
        counts.test(f"the database of the generated extract {seed}", status == 0, said)
    made = maker.database("--from", "260601", "--to", "260605", EXAMPLE)
    counts.same("a part of the window", 0, verify(maker, made, EXAMPLE)[0])
    counts.same("another part", 1, verify(maker, made, "--to", "260604", EXAMPLE)[0])


def check_refused(counts: Counts, maker: Maker) -> None:
    """What isn't a database of cif-sql is refused."""
    (maker.folder / "none.db").write_text("no database\n")
    made = maker.database(EXAMPLE)
    for words, wanted in (
        (("none.db", EXAMPLE), 3),
        (("absent.db", EXAMPLE), 4),
        ((made, "--force", EXAMPLE), 2),
        ((made, "--date", "260230", EXAMPLE), 2),
        ((made, "--date", "270101", EXAMPLE), 3),
        ((made, "--place", "HHE", EXAMPLE), 2),
    ):
        status, said = verify(maker, *words)
        counts.test(f"--verify {words}", status == wanted and said.count("\n") == 1, (status, said))
    done = maker.run("--date", "260605", EXAMPLE)
    counts.same("--date without --verify", 2, done.returncode)


def check_postgres(counts: Counts, maker: Maker) -> None:
    """The same of PostgreSQL."""
    load(maker, "--force", EXAMPLE)
    words = "--postgres", "--date", "260605", EXAMPLE
    status, said = verify(maker, os.environ["PGDATABASE"], *words)
    counts.test("PostgreSQL", status == 0, said)
    psql(
        "-q",
        "-c",
        "UPDATE cif.calls SET platform = '9' WHERE number = 1 AND location = 'BRGHTN' AND platform = '5'",
    )
    status, said = verify(maker, os.environ["PGDATABASE"], *words)
    counts.test("PostgreSQL, a platform", status == 1 and "platform is `9`" in said, (status, said))
    status, said = verify(maker, "no_such_database", *words)
    counts.test("PostgreSQL, no database", status == 4 and said.count("\n") == 1, (status, said))
    status, said = verify(maker, os.environ["PGDATABASE"], "--schema", "none", *words)
    counts.test("PostgreSQL, no schema", status == 3 and said.count("\n") == 1, (status, said))


def check(counts: Counts, maker: Maker) -> None:
    check_planted(counts, maker)
    check_views(counts, maker)
    check_same(counts, maker)
    check_refused(counts, maker)
    if "PGHOST" in os.environ:
        check_postgres(counts, maker)
