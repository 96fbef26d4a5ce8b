"""The questions of docs/SQL.md in PostgreSQL."""
from __future__ import annotations

import os
import re
from pathlib import Path

from gtfs.checks import TOP, Counts

from .by_hand import EXAMPLE
from .checks import Maker, sqlite_rows
from .postgres import load, psql

QUESTION = re.compile(r'^\$ sqlite3 timetable\.db "([^"]*)"\n((?:[^`$\n].*\n)*)', re.MULTILINE)
QUESTIONS = 12
# The trains of a hub all go to one other station, each day of three weeks, and there are others elsewhere. A question has to be answered
# in a few seconds.
HUB_TRAINS = 1000
OTHER_TRAINS = 6000
HUB_HEADER = "HDTPS.UTEST01.PD2601040401262130DFTEST1       FA050126250126"
HUB_TIME = "5s"
OTHER_PLACES = 300


def check_questions(counts: Counts, maker: Maker) -> None:
    """Each question has the answer that the document shows, which tests/tour looks for in SQLite."""
    found = QUESTION.findall((TOP / "docs" / "SQL.md").read_text())
    counts.test("questions of docs/SQL.md", len(found) >= QUESTIONS, len(found))
    load(maker, "--force", EXAMPLE)
    load(maker, "--force", "--schema", "new", TOP / "examples" / "changed.cif")
    for query, answer in found:
        done = psql("-A", "-t", "-c", query.replace("ATTACH 'changed.db' AS new;", ""))
        counts.same(f"{query} in PostgreSQL", (answer, ""), (done.stdout, done.stderr))


def hub() -> str:
    """An extract of a hub. What is rare in it, as it is in a country, is looked for in an index."""
    lines = [HUB_HEADER, "TIHUB".ljust(18) + "HUB".ljust(35) + "HHE", "TIFAR".ljust(53) + "VIC"]
    lines += [
        f"TIP{number:05}".ljust(18) + f"PLACE {number}".ljust(35) + f"{number:03}"
        for number in range(OTHER_PLACES)
    ]
    lines += [
        f"AAN{number:06}{number + 1:06}2601052601251111111NPSFAR      TP".ljust(79) + "P"
        for number in range(0, OTHER_PLACES, 2)
    ]
    for number in range(HUB_TRAINS + OTHER_TRAINS):
        others = (f"P{number % OTHER_PLACES:05}", f"P{number * 7 % OTHER_PLACES + 1:05}")
        start, end = ("HUB", "FAR") if number < HUB_TRAINS else others
        leaves, arrives = (
            f"{minute // 60:02}{minute % 60:02}"
            for minute in (300 + number % 900, 330 + number % 900)
        )
        identity = f"{number % 10}A{number // 10 % 100:02}"
        terms = f"2601052601251111111 PXX{identity}    122104000 DMU    090      B"
        lines.append(f"BSN{number:06}{terms}".ljust(79) + "P")
        lines.append(f"BX         SRYSR{number:06}")
        lines.append(f"LO{start:8}{leaves} {leaves}1".ljust(29) + "TB")
        lines.append(f"LT{end:8}{arrives} {arrives}1".ljust(25) + "TF")
    return "".join(line.ljust(80) + "\n" for line in [*lines, "ZZ"])


# The plans that SQLite has to have for questions, as patterns of their lines: all of these, and none of those of which a search
# looks at a whole table or sorts what stands in an index in order.
BOARD = (
    r"SEARCH public_calls USING COVERING INDEX public_calls_station \(station_crs=\?",
    r"SEARCH applied USING COVERING INDEX schedules_journey",
)
SCAN = r"SCAN (?!\(|CONSTANT)"
SORT = r"TEMP B-TREE"
NEXT_TEN = "SELECT time, identity, platform, destination_name FROM departures WHERE station_crs = 'HHE' AND date = '2026-01-06' "
NEXT_TEN += "AND time >= '12:00' ORDER BY time LIMIT 10"
RIDES = "SELECT departure, arrival, identity, portion FROM rides WHERE from_crs = 'HHE' AND to_crs = 'VIC' AND date = '2026-01-06' "
RIDES += "ORDER BY departure"
HUB_QUESTIONS = (
    (
        "SELECT time, identity, platform, destination_name, pick_up, number FROM departures"
        " WHERE station_crs = 'HHE' AND date = '2026-01-06' ORDER BY time",
        HUB_TRAINS,
        BOARD,
        (SCAN, SORT),
    ),
    (
        "SELECT time, identity, platform, origin_name FROM arrivals"
        " WHERE station_crs = 'VIC' AND date = '2026-01-06' ORDER BY time",
        HUB_TRAINS,
        BOARD,
        (SCAN,),
    ),
    (NEXT_TEN, 10, (BOARD[0] + " AND departure_time>", BOARD[1]), (SCAN, SORT)),
    (
        RIDES,
        HUB_TRAINS,
        (
            "SEARCH boarded USING COVERING INDEX public_calls_station",
            r"SEARCH reached USING INDEX public_calls_journey \(station_crs=\? AND journey=\?",
            "SEARCH portions USING INDEX portions_journey",
            "SEARCH applied USING COVERING INDEX schedules_journey",
        ),
        (SCAN,),
    ),
    (
        "SELECT uid FROM runs WHERE date = '2026-01-06'",
        HUB_TRAINS + OTHER_TRAINS,
        ("SEARCH schedules USING INDEX schedules_dates",),
        (SCAN,),
    ),
    (
        "SELECT count(*) FROM runs WHERE date = '2026-01-06'",
        1,
        ("SEARCH schedules USING COVERING INDEX schedules_dates",),
        (SCAN,),
    ),
    (
        "SELECT * FROM associations_on WHERE date = '2026-01-06'",
        OTHER_PLACES // 2,
        ("SEARCH associations USING INDEX associations_dates",),
        (SCAN,),
    ),
    (
        "SELECT station, arrival FROM stops_of WHERE uid = '000001' AND train_date = '2026-01-06'",
        2,
        ("schedules_uid", "SEARCH public_calls USING PRIMARY KEY"),
        (SCAN,),
    ),
    ("SELECT uid FROM schedules WHERE identity = '2B22'", 0, ("schedules_identity",), (SCAN,)),
    (
        "SELECT uid FROM schedules WHERE reserved_a = 'SR000042'",
        1,
        ("schedules_reserved_a",),
        (SCAN,),
    ),
    ("SELECT crs FROM stations WHERE name = 'Hub'", 1, ("stations_name",), (SCAN,)),
    (
        "SELECT name FROM station_names WHERE search = 'hub'",
        1,
        ("station_names_search",),
        (SCAN,),
    ),
)


def check_plans(counts: Counts, maker: Maker, path: Path) -> None:
    """SQLite answers the questions of a hub by indexes."""
    made = maker.database(path)
    for query, rows, wanted, unwanted in HUB_QUESTIONS:
        counts.same(f"{query} at a hub, in SQLite", rows, len(sqlite_rows(made, query)))
        plan = "\n".join(str(row[3]) for row in sqlite_rows(made, f"EXPLAIN QUERY PLAN {query}"))
        lacking = [each for each in wanted if not re.search(each, plan)]
        found = [each for each in unwanted if re.search(each, plan)]
        counts.test(f"the plan of {query}", not lacking and not found, (lacking, found, plan))


# What PostgreSQL reads in an index alone, even where it takes a small table to be read faster.
ONLY_INDEXES = (
    (NEXT_TEN, ("public_calls_station", "schedules_journey")),
    ("SELECT count(*) FROM runs WHERE date = '2026-01-06'", ("schedules_dates",)),
    (RIDES, ("public_calls_station", "schedules_journey")),
)


def check_hub(counts: Counts, maker: Maker) -> None:
    """The questions of stations, where thousands of trains go from one to the other."""
    path = maker.folder / "hub.cif"
    path.write_text(hub())
    check_plans(counts, maker, path)
    if "PGHOST" in os.environ:
        load(maker, "--force", path)
        for query, rows, _, _ in HUB_QUESTIONS:
            done = psql("-A", "-t", "-c", f"SET statement_timeout = '{HUB_TIME}'; {query}")
            got = len(done.stdout.splitlines())
            counts.same(f"{query} at a hub", (rows, ""), (got, done.stderr))
        for query, indexes in ONLY_INDEXES:
            plan = psql("-A", "-t", "-c", f"SET enable_seqscan = off; EXPLAIN {query}").stdout
            for index in indexes:
                counts.test(f"{index} for {query}", f"Only Scan using {index} " in plan, plan)
    path.unlink()
