"""Many linked trains: what finds them by their dates, and a long chain of them."""
from __future__ import annotations

import csv
import random
import subprocess
import sys
import zipfile
from collections import Counter
from typing import Dict, List, Tuple

from cif_timetable.gtfs.associations import Association, Terms
from cif_timetable.gtfs.compositions import Edge, told_apart
from cif_timetable.days import Dated, Dates

from .checks import PACKAGES, Counts, Maker, Word
from .feeds import rows_of

SEED = 1
DAYS = 12
ROUNDS = 300
# More trains than functions can call each other here, each of which leaves the one before at its end.
CHAIN = 260
CALLS_OF_FUNCTIONS = 200
LIMITED = """\
import sys
sys.path[0] = sys.argv.pop(1)
from cif_timetable.gtfs.command_line import main
sys.setrecursionlimit(int(sys.argv.pop(1)))
sys.exit(main())
"""


def days_in(dates: Dates) -> List[int]:
    return [day for day in range(DAYS) if dates >> day & 1]


def some_dates(rng: random.Random) -> Dates:
    """Few dates or many, at times none."""
    return rng.getrandbits(DAYS) & rng.choice((-1, rng.getrandbits(DAYS), 1 << rng.randrange(DAYS)))


def check_dated(counts: Counts, rng: random.Random) -> None:
    """Items are found by their dates, as by looking at each."""
    for size in (*range(10), 33):
        items = [(some_dates(rng), number) for number in range(size)]
        found: Dated[int] = Dated(items)
        every = {day for dates, _ in items for day in days_in(dates)}
        counts.same(f"all dates of {size} items", sorted(every), days_in(found.dates()))
        for _ in range(ROUNDS // 10):
            asked = some_dates(rng)
            want = [(asked & dates, number) for dates, number in items if asked & dates]
            counts.same(f"{size} items on {asked:b}", want, list(found.on(asked)))


def check_told_apart(counts: Counts, rng: random.Random) -> None:
    """On each date the edges are those of one part, and no two parts have the same edges."""
    edges = [Edge(Association(Terms("VV", "S", "A", str(n), "X", "", "")), 0) for n in range(9)]
    for _ in range(ROUNDS):
        some = edges[: rng.randrange(1, len(edges) + 1)]
        given = [(some_dates(rng) or 1, edge) for edge in some]
        want: Dict[int, List[Edge]] = {}
        for dates, edge in given:
            for day in days_in(dates):
                want.setdefault(day, []).append(edge)
        parts = told_apart(given)
        got: Dict[int, List[Edge]] = {}
        for dates, of_part in parts:
            for day in days_in(dates):
                counts.test("a date is of one part", day not in got, parts)
                got[day] = of_part
        counts.test("the edges of each date", want == got, (given, parts))
        least = len({tuple(map(id, of_day)) for of_day in want.values()})
        counts.test("no more parts than there have to be", len(parts) == least, (given, parts))


def chain(category: str) -> List[str]:
    """Trains of which each goes on as the next."""
    places = [f"P{number:05}" for number in range(CHAIN + 1)]
    lines = ["HDTPS.UTEST01.PD2601040401262000DFTEST1       FA050126250126"]
    for number in range(CHAIN - 1):
        uids = f"A{number:05}A{number + 1:05}"
        days = "2601052601251111111"
        lines.append(f"AAN{uids}{days}{category}S{places[number + 1]:7}  TP".ljust(79) + "P")
    for number in range(CHAIN):
        lines += [
            f"BSNA{number:05}2601052601251111111 PXX1A23    122104000 DMU    090".ljust(79) + "P",
            "BX         SRY",
            f"LO{places[number]:7} 1000 10001".ljust(29) + "TB",
            f"LT{places[number + 1]:7} 1000 10001".ljust(25) + "TF",
        ]
    return [line.ljust(80) for line in (*lines, "ZZ")]


def check_chain(counts: Counts, maker: Maker) -> None:
    """The last train of a long chain has the calls of all."""
    extract = maker.folder / "chain.cif"
    extract.write_text("".join(f"{line}\n" for line in chain("NP")))
    words: List[Word] = [sys.executable, "-B", "-c", LIMITED, PACKAGES, str(CALLS_OF_FUNCTIONS)]
    words += ["--cif", maker.cif, "--whole-trains", "-o", "chain.zip", extract]
    done = subprocess.run(words, cwd=maker.folder, capture_output=True, text=True, check=False)
    counts.same("a long chain of whole trains, status", 1, done.returncode)
    counts.test("a long chain of whole trains", "Traceback" not in done.stderr, done.stderr[-500:])
    if done.returncode != 1:
        return
    with zipfile.ZipFile(maker.folder / "chain.zip") as archive:
        rows = rows_of(archive.read("stop_times.txt").decode())
    lengths = Counter(Counter(row["trip_id"] for row in rows).values())
    counts.same("calls of whole trains", Counter(range(2, CHAIN + 2)), lengths)
    [last] = [
        name for name, number in Counter(row["trip_id"] for row in rows).items() if number > CHAIN
    ]
    stops = [row["stop_id"] for row in rows if row["trip_id"] == last]
    counts.same("the stops of the last train", [f"P{n:05}" for n in range(CHAIN + 1)], stops)


# Two trains each of which goes on as the other one, all in one minute.
CIRCLE = """\
HDTPS.UTEST01.PD2601040401262000DFTEST1       FA050126250126
AANA00001A000022601052601251111111NPSHERE     TP
AANA00002A000012601052601251111111NPSTHERE    TP
BSNA000012601052601251111111 PXX1A23    122104000 DMU    090
BX         SRY
LOTHERE   1000 10001         TB
LTHERE    1000 10001     TF
BSNA000022601052601251111111 PXX1A23    122104000 DMU    090
BX         SRY
LOHERE    1000 10001         TB
LTTHERE   1000 10001     TF
ZZ
"""


def check_circle(counts: Counts, maker: Maker) -> None:
    """Of trains that go on in a circle each has the calls of the other one before, and each once."""
    extract = maker.folder / "circle.cif"
    lines = [f"{line:79}{'P' * (line[:2] in ('AA', 'BS')):1}" for line in CIRCLE.splitlines()]
    extract.write_text("".join(f"{line}\n" for line in lines))
    _, files = maker.feed("--whole-trains", extract)
    stops: Dict[str, List[str]] = {}
    for row in rows_of(files["stop_times"]):
        stops.setdefault(row["trip_id"].partition("-")[0], []).append(row["stop_id"])
    want = {"A00001": ["HERE", "THERE", "HERE"], "A00002": ["THERE", "HERE", "THERE"]}
    counts.same("whole trains in a circle", want, stops)


# ---- routes between stations of one name

TIPLOCS = (
    ("NWPT", "NEWPORT", "NWP"),
    ("NWPTE", "NEWPORT", "NWE"),
    ("LEEDS", "LEEDS", "LDS"),
    ("NEWP", "NEWPORT", "   "),
)
# From, to, operator, category.
TRAINS = (
    ("NWPT", "LEEDS", "SR", "XX"),
    ("LEEDS", "NWPTE", "SR", "XX"),
    ("NEWP", "NWPT", "SR", "XX"),
    ("NWPTE", "LEEDS", "SN", "XX"),
    ("LEEDS", "NWPT", "SR", "BR"),
)
ROUTES = """\
SN-2-station:LDS-station:NWE,Leeds - Newport
SR-2-NEWP-station:NWP,Newport - Newport
SR-2-station:LDS-station:NWE,Leeds - Newport (NWE)
SR-2-station:LDS-station:NWP,Leeds - Newport (NWP)
SR-3-station:LDS-station:NWP,Leeds - Newport
"""


def check_namesakes(counts: Counts, maker: Maker) -> None:
    """Two routes of one operator and type have one name only if their stations have none that differ."""
    lines = ["HDTPS.UTEST01.PD2601040401262000DFTEST1       FA050126250126"]
    lines += [
        f"TI{tiploc:7}00890500A{name:26}032010000{code}{name}" for tiploc, name, code in TIPLOCS
    ]
    for number, (first, last, operator, category) in enumerate(TRAINS):
        lines += [
            f"BSNA{number:05}2601052601251111111 P{category}1A23    122104000 DMU    090".ljust(79)
            + "P",
            f"BX         {operator}Y",
            f"LO{first:7} 1000 10001".ljust(29) + "TB",
            f"LT{last:7} 1100 11001".ljust(25) + "TF",
        ]
    extract = maker.folder / "namesakes.cif"
    extract.write_text("".join(f"{line:80}\n" for line in (*lines, "ZZ")))
    _, files = maker.feed(extract)
    rows: List[Tuple[str, str]] = [
        (row["route_id"], row["route_long_name"]) for row in rows_of(files["routes"])
    ]
    want = [tuple(row) for row in csv.reader(ROUTES.splitlines())]
    counts.same("the names of routes between stations of one name", want, rows)


def check(counts: Counts, maker: Maker) -> None:
    rng = random.Random(SEED)
    check_dated(counts, rng)
    check_told_apart(counts, rng)
    check_chain(counts, maker)
    check_circle(counts, maker)
    check_namesakes(counts, maker)
