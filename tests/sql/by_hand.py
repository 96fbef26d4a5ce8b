"""Rows by hand: of an extract whose trains show a rule each, and of examples/timetable.cif."""
from __future__ import annotations

from functools import partial
from pathlib import Path
from typing import Dict, List, Tuple

from gtfs.checks import TOP, Counts

from .checks import Maker, Query, sqlite_rows
from .definition import SqlRow

EXAMPLE = TOP / "examples" / "timetable.cif"

# From Monday 5 to Sunday 11 January 2026. M00001 runs over midnight on Mondays to Fridays, but on the Wednesday with another platform
# at Beta; the rest of its calls is the same. Q00001 has quotes and backslashes, and divides: Q00002 leaves it on the Saturday. E00001 is
# empty stock with public times, and F00001 a freight train that changes en route. Z00001 and Z00002 are of no
# operator, and have the same calls.
LINES = r"""
HDTPS.UTEST01.PD2601040401262130DFTEST1       FA050126110126
TIALPHA  00890500AALPHA JUNCTION            032010000ALPALPHA
TIBETA   00890501B"Q\                       032021234BETBETA
TIBETAE  00890502C"BOTH ENDS QUOTED"        032020000BET\N
TIGAMMA  00890503DC:\TEMP\N 100% 'A'        03203   0   \.
AANQ00001Q000022601102601100000010VVSBETA     TP                               P
BSNE000012601052601111111111 PEE5E01    122104000 EMU    090      B            P
BX         SRY
LOALPHA   0500 05001         TB
LTBETA    0530 05302     TF
BSNF000012601052601081111000 FB46F01    155345013 D      060                   P
BX         ZZN
LOALPHA   0100 0000          TB
CRBETA    B46F02    155345013 D      075
LIBETA              0130H00000000
LTGAMMA   0200 0000      TF
BSNM000012601052601091101100 PXX1M01    122104000 EMU    090      B            P
BX         SRY
LOALPHA   2340 23401         TB
LIBETA    2358H0002      000000022        T
LTGAMMA   0030 00305     TF
BSNM000012601072601070010000 PXX1M01    122104000 EMU    090      B            P
BX         SRY
LOALPHA   2340 23401         TB
LIBETA    2358H0002      000000027        T
LTGAMMA   0030 00305     TF
BSNQ000012601102601100000010 PXX1Q\N    122104000 EMU    090      B            P
BX         SRY
LOALPHA   1000 1000"\        TB
LIBETA    1030 1035      10301035\N       T -D
LTGAMMA   1100 1100\.    TF
BSNQ000022601102601100000010 PXX"Q02"   122104000 EMU    090      B            P
BX         SRY
LOBETAE   1040 1040%'        TB
LTGAMMA   1130 1130"     TF
BSNZ000012601112601110000001 POO2Z01    122104000 EMU    090      B            P
LOGAMMA   0900 0900          TB
LTALPHA   1000 1000      TF
BSNZ000022601112601110000001 POO2Z02    122104000 EMU    090      B            P
LOGAMMA   0900 0900          TB
LTALPHA   1000 1000      TF
ZZ
"""


def text_of(lines: str) -> str:
    return "".join(line.ljust(80) + "\n" for line in lines.strip().split("\n"))


EXTRACT = text_of(LINES)

# Two trains of a day: one from the place whose TIPLOC is blank, and one to it.
BLANK = text_of(
    r"""
HDTPS.UTEST01.PD2601040401262130DFTEST1       FA050126050126
TI       00890500ABLANK HALT                032010000BLKBLANK
TIALPHA  00890501AALPHA                     032010000ALPALPHA
BSNB000012601052601051000000 POO2B01    122104000 EMU    090      B            P
LO        0900 09001         TB
LTALPHA   1000 10002     TF
BSNB000022601052601051000000 POO2B02    122104000 EMU    090      B            P
LOALPHA   1100 11003         TB
LT        1200 12004     TF
ZZ
"""
)

# Queries by what they are about, each with its rows.
Queries = Dict[str, Tuple[str, List[SqlRow]]]
QUERIES: Queries = {
    "departures of a station": (
        "SELECT date, time, train_date, uid, platform, destination FROM departures"
        " WHERE crs = 'BET' AND date BETWEEN '2026-01-08' AND '2026-01-10' ORDER BY date, time",
        [
            ("2026-01-08", "00:02:00", "2026-01-07", "M00001", "7", "GAMMA"),
            ("2026-01-09", "00:02:00", "2026-01-08", "M00001", "2", "GAMMA"),
            ("2026-01-10", "00:02:00", "2026-01-09", "M00001", "2", "GAMMA"),
            ("2026-01-10", "10:35:00", "2026-01-10", "Q00001", "\\N", "GAMMA"),
            ("2026-01-10", "10:40:00", "2026-01-10", "Q00002", "%'", "GAMMA"),
        ],
    ),
    "arrivals of a station": (
        "SELECT date, time, train_date, uid, origin_name FROM arrivals"
        " WHERE crs = 'BET' AND date <= '2026-01-07' ORDER BY date, time",
        [
            ("2026-01-06", "00:02:00", "2026-01-05", "M00001", "Alpha Junction"),
            ("2026-01-07", "00:02:00", "2026-01-06", "M00001", "Alpha Junction"),
        ],
    ),
    "arrivals of a place that is no station": (
        "SELECT crs, date, time, uid FROM arrivals WHERE location = 'GAMMA' AND date = '2026-01-06'",
        [(None, "2026-01-06", "00:30:00", "M00001")],
    ),
    "descriptions": (
        "SELECT tiploc, crs, description FROM locations ORDER BY tiploc",
        [
            ("ALPHA", "ALP", "ALPHA JUNCTION"),
            ("BETA", "BET", '"Q\\'),
            ("BETAE", "BET", '"BOTH ENDS QUOTED"'),
            ("GAMMA", None, "C:\\TEMP\\N 100% 'A'"),
        ],
    ),
    "journeys of a train that differ in a platform": (
        "SELECT first_date, last_date, days_run, platform FROM schedules"
        " JOIN calls ON calls.journey = schedules.journey WHERE uid = 'M00001' AND number = 2 ORDER BY first_date",
        [
            ("2026-01-05", "2026-01-09", "1101100", "2"),
            ("2026-01-07", "2026-01-07", "0010000", "7"),
        ],
    ),
    "codes that look like numbers": (
        "SELECT typeof(identity), identity, typeof(days_run), typeof(service_code) FROM schedules WHERE uid = 'E00001'",
        [("text", "5E01", "text", "text")],
    ),
    "the trains of a date": (
        "SELECT uid, passenger, operator, operator_name FROM runs WHERE date = '2026-01-11' ORDER BY uid",
        [
            ("E00001", "0", "SR", "ScotRail"),
            ("Z00001", "1", None, None),
            ("Z00002", "1", None, None),
        ],
    ),
    "trains a day": (
        "SELECT date, operator, passenger, trains FROM trains_per_day"
        " WHERE date IN ('2026-01-08', '2026-01-10') ORDER BY date, operator, passenger",
        [
            ("2026-01-08", "SR", "0", "1"),
            ("2026-01-08", "SR", "1", "1"),
            ("2026-01-08", "ZZ", "0", "1"),
            ("2026-01-10", "SR", "0", "1"),
            ("2026-01-10", "SR", "1", "2"),
        ],
    ),
    "changes en route": (
        "SELECT uid, number, location, changes.category, changes.identity, changes.speed FROM changes"
        " JOIN schedules ON schedules.journey = changes.journey",
        [("F00001", "2", "BETA", "B4", "6F02", "075")],
    ),
    "associations": (
        "SELECT date, base_uid, associated_uid, base_suffix FROM associations_on",
        [("2026-01-10", "Q00001", "Q00002", None)],
    ),
    "the extract": (
        "SELECT mainframe_identity, current_reference, extracted_at, first_date, last_date FROM extract",
        [("TPS.UTEST01.PD260104", "DFTEST1", "2026-01-04T21:30", "2026-01-05", "2026-01-11")],
    ),
}
BLANK_QUERIES: Queries = {
    "departures from the blank TIPLOC": (
        "SELECT station, time, uid, destination_name FROM departures WHERE crs = 'BLK'",
        [("Blank Halt", "09:00:00", "B00001", "Alpha")],
    ),
    "arrivals at the blank TIPLOC": (
        "SELECT station, time, uid, origin_name FROM arrivals WHERE crs = 'BLK'",
        [("Blank Halt", "12:00:00", "B00002", "Alpha")],
    ),
    "trains to and from the blank TIPLOC": (
        "SELECT uid, destination_name FROM departures WHERE crs = 'ALP' UNION ALL"
        " SELECT uid, origin_name FROM arrivals WHERE crs = 'ALP' ORDER BY uid",
        [("B00001", "Blank Halt"), ("B00002", "Blank Halt")],
    ),
}
EXAMPLE_QUERIES: Queries = {
    "a train that joins another goes on with it alone": (
        "SELECT DISTINCT to_crs FROM rides WHERE portion = 'W20231' AND date = '2026-06-05' ORDER BY to_crs",
        [("ECR",), ("GTW",), ("VIC",)],
    ),
    "portions": (
        "SELECT uid, before_call, category, location, portion, after_call, destination FROM portions_on"
        " WHERE train_date = '2026-06-05' ORDER BY uid",
        [
            ("W20113", "4", "VV", "HYWRDSH", "W20114", "1", "LTLHMPT"),
            ("W20232", "3", "JJ", "HYWRDSH", "W20231", "3", "VICTRIC"),
        ],
    ),
    "after midnight the date is that of the clock": (
        "SELECT station, time, train_date, uid, destination_name FROM departures"
        " WHERE crs = 'HHE' AND date = '2026-06-06' ORDER BY time LIMIT 1",
        [("Haywards Heath", "00:19:00", "2026-06-05", "W20347", "Brighton")],
    ),
}


def check_queries(
    counts: Counts,
    queries: Queries,
    rows: Query,
    name: str,
) -> None:
    """Each of the queries. `rows` gives the rows of one."""
    for about, (query, want) in queries.items():
        counts.same(f"{about}, in {name}", want, rows(query))


def check(counts: Counts, maker: Maker, special: Path, blank: Path) -> None:
    for path, queries in (special, QUERIES), (blank, BLANK_QUERIES), (EXAMPLE, EXAMPLE_QUERIES):
        check_queries(counts, queries, partial(sqlite_rows, maker.database(path)), path.name)
