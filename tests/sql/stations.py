"""Stations, trains and rides of extracts as they are published, which tests/feeds has samples of: rows by hand."""
from __future__ import annotations

import re
from functools import partial
from typing import Dict, List, Tuple

from gtfs.checks import Counts, Word
from gtfs.stations import FEEDS, LINKED, PARTS, PUBLISHED, published_train

from .by_hand import Queries, check_queries
from .checks import Maker, sqlite_rows
from .definition import SqlRow

# Each extract or its words, with its queries.
PUBLISHED_QUERIES: Queries = {
    "trains that may run": (
        "SELECT DISTINCT uid, as_required FROM runs WHERE characteristics IN ('Q', 'Y') ORDER BY uid",
        [("G90123", "1"), ("G90124", "1"), ("G90125", "1"), ("Z20001", "1")],
    ),
    "how many may run": (
        "SELECT passenger, as_required, trains FROM trains_per_day"
        " WHERE date = '2026-12-15' AND operator = 'ZZ' ORDER BY passenger, as_required",
        [("0", "0", "1"), ("0", "1", "2"), ("1", "0", "1")],
    ),
    "a train that becomes empty stock": (
        "SELECT DISTINCT uid, time, location, origin, destination FROM departures WHERE uid = 'W12014' ORDER BY time",
        [
            ("W12014", "09:00:00", "BRGHTN", "BRGHTN", "HYWRDSH"),
            ("W12014", "09:20:00", "HYWRDSH", "BRGHTN", "HYWRDSH"),
        ],
    ),
    "both portions of a sleeper": (
        "SELECT to_crs, departure, arrival, arrival_date, uid, portion FROM rides"
        " WHERE from_crs = 'EUS' AND date = '2026-12-21' ORDER BY arrival",
        [
            ("ABD", "21:15:00", "07:39:00", "2026-12-22", "C50001", "C50002"),
            ("CNR", "21:15:00", "07:43:00", "2026-12-22", "C50001", "C50003"),
            ("INV", "21:15:00", "08:42:00", "2026-12-22", "C50001", None),
            ("FTW", "21:15:00", "09:57:00", "2026-12-22", "C50001", "C50003"),
        ],
    ),
    "a portion from where the train divides": (
        "SELECT uid, portion, departure FROM rides WHERE from_crs = 'HHE' AND to_crs = 'LWS' AND date = '2026-12-21'",
        [("W12004", None, "11:46:00")],
    ),
    "a train that joins another": (
        "SELECT uid, portion, departure, arrival FROM rides"
        " WHERE from_crs = 'BTN' AND to_crs = 'VIC' AND date = '2026-12-21' ORDER BY departure",
        [("W12006", "W12005", "17:30:00", "18:47:00"), ("W12007", None, "22:50:00", "23:59:00")],
    ),
    "no ride by an association for operating": (
        "SELECT count(*) FROM rides WHERE portion = 'W12002' OR uid = 'W12002'",
        [("0",)],
    ),
    "calls that have no TI": (
        "SELECT DISTINCT location FROM calls LEFT JOIN locations ON tiploc = location WHERE tiploc IS NULL",
        [("PRST",)],
    ),
    "the dates of associated trains": (
        "SELECT associated_uid, date_indicator, associated_date FROM associations_on"
        " WHERE date = '2026-12-21' AND category IS NOT NULL AND base_uid LIKE 'W1200%' ORDER BY associated_uid, date_indicator",
        [
            ("W12001", "P", "2026-12-20"),
            ("W12002", "S", "2026-12-21"),
            ("W12004", "S", "2026-12-21"),
            ("W12006", "S", "2026-12-21"),
            ("W12008", "N", "2026-12-22"),
        ],
    ),
    "where a train stops": (
        "SELECT number, station, arrival, departure, arrival_date FROM stops_of"
        " WHERE uid = 'W12008' AND train_date = '2026-12-22' ORDER BY number",
        [
            ("2", "East Croydon", "00:21:00", "00:22:00", "2026-12-22"),
            ("3", "Gatwick Airport", "00:50:00", "00:50:00", "2026-12-22"),
        ],
    ),
}
OF_PROBES: Dict[str, Queries] = {
    "term.cif": {
        "the last public call is the destination": (
            "SELECT DISTINCT time, destination, destination_name FROM departures ORDER BY time",
            [("08:00:00", "HYWRDSH", "Hywrdsh"), ("08:50:00", "HYWRDSH", "Hywrdsh")],
        ),
        "its ends": (
            "SELECT origin, destination, riders_origin, riders_destination FROM schedules",
            [("VICTRIC", "GTWK", "VICTRIC", "HYWRDSH")],
        ),
    },
    "ee.cif": {
        "a train for riders from a place on": (
            "SELECT location, get_off, get_on, passenger FROM public_calls ORDER BY number",
            [("ECROYDN", "0", "1", "1"), ("GTWK", "1", "1", "1"), ("BRGHTN", "1", "0", "1")],
        ),
        "its departures": (
            "SELECT DISTINCT time, origin FROM departures ORDER BY time",
            [("08:20:00", "ECROYDN"), ("08:37:00", "ECROYDN")],
        ),
    },
    "stp.cif": {
        "one station of two codes": (
            "SELECT crs, name, latitude FROM stations WHERE crs IN ('STP', 'SPL')",
            [("STP", "St Pancras (Midland)", "51.53")],
        ),
        "arrivals there": (
            "SELECT DISTINCT uid, crs, station, location FROM arrivals WHERE station_crs = 'STP'",
            [("T00001", "SPL", "St Pancras (Midland)", "STPXBOX")],
        ),
        "departures there": (
            "SELECT DISTINCT uid, crs, station, location FROM departures WHERE station_crs = 'STP'",
            [("T00002", "STP", "St Pancras (Midland)", "STPX")],
        ),
        "its names": (
            "SELECT name, search FROM station_names WHERE station_crs = 'STP' ORDER BY search",
            [
                ("St Pancras (Midl", "st pancras midl"),
                ("St Pancras (Midland)", "st pancras midland"),
                ("St Pancras (Tham", "st pancras tham"),
                ("St Pancras (Thameslink)", "st pancras thameslink"),
            ],
        ),
    },
}
LINKED_QUERIES: Queries = {
    "rides over midnight": (
        "SELECT date, departure, arrival_date, arrival, uid, portion FROM rides"
        " WHERE from_crs = 'ALP' AND to_crs = 'GAM' AND date >= '2026-01-10' ORDER BY date",
        [("2026-01-10", "23:30:00", "2026-01-11", "00:30:00", "N00001", "N00002")],
    ),
}


def samples(maker: Maker) -> List[Tuple[str, Tuple[Word, ...], Queries]]:
    """The name of each extract, the words that name it, and its queries."""
    (maker.folder / "parts.csv").write_text(PARTS)
    (maker.folder / "linked.cif").write_text(LINKED)
    probes = [
        (name, ("--places", "parts.csv", FEEDS / "probes" / name), queries)
        for name, queries in OF_PROBES.items()
    ]
    linked = ("linked.cif", (maker.folder / "linked.cif",), LINKED_QUERIES)
    return [("toc-full.CIF", PUBLISHED, PUBLISHED_QUERIES), *probes, linked]


def check(counts: Counts, maker: Maker) -> None:
    for name, words, queries in samples(maker):
        path = maker.database(*words)
        check_queries(counts, queries, partial(sqlite_rows, path), name)
        wrong = sqlite_rows(path, "PRAGMA foreign_key_check")
        counts.same(f"{name}, foreign keys", [], wrong)
    [(keys,)] = sqlite_rows(
        path, "SELECT count(*) FROM sqlite_master WHERE sql LIKE '%FOREIGN KEY%'"
    )
    counts.same("tables with foreign keys", "10", keys)
    done = maker.run("--verbose", "-o", "made.db", "--force", *PUBLISHED)
    told = re.findall(r"^cif-sql: calls whose location has no TI: (.*)$", done.stderr, re.MULTILINE)
    counts.same("calls without a TI are counted", ["1 (PRST)"], told)
    extract, program = published_train(maker.cif, maker.folder)
    path = maker.database("--cif", program, extract)
    query = "SELECT count(*), min(date), max(date), first_date, last_date, stp_indicator FROM published_runs GROUP BY first_date"
    want: List[SqlRow] = [("14", "2026-01-05", "2026-01-23", "2026-01-05", None, "P")]
    counts.same("the published schedules of runs", want, sqlite_rows(path, query))
    query = "SELECT wins_from, wins_to, stp_indicator FROM published ORDER BY wins_from"
    want = [
        ("2026-01-05", "2026-01-13", "P"),
        ("2026-01-14", "2026-01-14", "C"),
        ("2026-01-15", "2026-01-23", "P"),
    ]
    counts.same("the published schedules", want, sqlite_rows(path, query))
    for used in extract, program, maker.folder / "winners":
        used.unlink()
    for name in "parts.csv", "linked.cif", "made.db":
        (maker.folder / name).unlink()
