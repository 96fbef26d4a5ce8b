"""cif-gtfs --verify: faults that are planted in a feed, each of which has to be found and named, and feeds that other tools have
written anew."""
from __future__ import annotations

import csv
import io
import random
import zipfile
from pathlib import Path
from typing import Callable, Dict, List, Sequence, Tuple

from cif_timetable._extract import Request, open_extract
from cif_timetable._process import find_cif
from cif_timetable._progress import Progress
from cif_timetable.errors import CifError
from cif_timetable.verify.feed import Wishes, verify_feed

from . import generated
from .stations import LINKED
from .checks import TOP, Counts, Maker

EXAMPLE = TOP / "examples" / "timetable.cif"
SAMPLES = TOP / "tests" / "feeds"
# Small generated extracts in this suite; many more have been tried outside of it.
GENERATED = 3
SCHEDULES = 60
OPTIONS: Tuple[Tuple[str, ...], ...] = ((), ("--whole-trains",), ("--extended-types",))

Rows = List[List[str]]
Files = Dict[str, Rows]
Edit = Callable[[Files], None]


def rows_of(text: str) -> Rows:
    return list(csv.reader(io.StringIO(text, newline="")))


def write_zip(path: Path, files: Files, **how: object) -> None:
    with zipfile.ZipFile(path, "w") as archive:
        for name, rows in files.items():
            text = io.StringIO(newline="")
            csv.writer(text, **how).writerows(rows)  # type: ignore[arg-type]
            archive.writestr(f"{name}.txt", text.getvalue())


def row_with(rows: Rows, *cells: str) -> List[str]:
    """The first row that has these cells."""
    return next(row for row in rows if set(cells) <= set(row))


def lost(name: str, *cells: str) -> Edit:
    return lambda files: files[name].remove(row_with(files[name], *cells))


def twice(name: str, *cells: str) -> Edit:
    return lambda files: files[name].append(list(row_with(files[name], *cells)))


def added(name: str, *cells: str) -> Edit:
    return lambda files: files[name].append(list(cells))


def changed(name: str, cells: Sequence[str], field: str, value: str) -> Edit:
    """Sets a field of the first row that has these cells."""

    def edit(files: Files) -> None:
        row_with(files[name], *cells)[files[name][0].index(field)] = value

    return edit


def shifted(service: str) -> Edit:
    """The mask of a service a day later."""

    def edit(files: Files) -> None:
        row = row_with(files["calendar"], service)
        row[1:8] = row[7:8] + row[1:7]

    return edit


def swapped(name: str, cells: Sequence[str], others: Sequence[str], field: str) -> Edit:
    def edit(files: Files) -> None:
        at = files[name][0].index(field)
        one, other = row_with(files[name], *cells), row_with(files[name], *others)
        one[at], other[at] = other[at], one[at]

    return edit


def a_day_earlier(trip: str) -> Edit:
    """A trip with a call after midnight as one of the next date by the clock: the evening before on the wrong date."""

    def edit(files: Files) -> None:
        for row in files["stop_times"]:
            if row[0] == trip:
                row[3:5] = [
                    f"{int(time[:2]) - 24:02}{time[2:]}" if time[:2] >= "24" else time
                    for time in row[3:5]
                ]

    return edit


# Trips, services and stops of the example.
EVENING, DIVIDING, FIRST, SECOND = (
    "W20347-0fc4eb81ff",
    "W20113",
    "W20113-c8eb4ede4e",
    "W20113-15ddf75545",
)
PORTION = "W20114-90fa3669ef"
WEEKDAYS, FRIDAYS, SUNDAYS = "5830635349", "20324c6ae9", "6802c0792b"

# What is planted, how, and what of it the difference names.
PLANTED: Tuple[Tuple[str, Edit, Tuple[str, ...]], ...] = (
    (
        "a call lost",
        lost("stop_times", "W20101-0eca05cca4", "3"),
        ("W20101 on 2026-05-18", "call 3"),
    ),
    (
        "the last call lost",
        lost("stop_times", "W20101-0eca05cca4", "5"),
        ("W20101", "4 calls and not 5"),
    ),
    (
        "a call twice",
        twice("stop_times", "W20101-0eca05cca4", "3"),
        ("W20101-0eca05cca4", "stop_sequence 3"),
    ),
    (
        "a call more",
        added("stop_times", PORTION, "9", "LTLHMPT/3", "11:40:00", "11:40:00", "0", "1"),
        ("W20114", "4 calls and not 3"),
    ),
    (
        "an arrival a minute off",
        changed("stop_times", (EVENING, "3"), "arrival_time", "23:49:00"),
        ("W20347", "ECROYDN/2", "`23:49:00` and not `23:48:00`"),
    ),
    (
        "a departure a minute off",
        changed("stop_times", (PORTION, "1"), "departure_time", "10:44:00"),
        ("W20114", "departure_time", "10:44:00"),
    ),
    (
        "another platform",
        changed("stop_times", (EVENING, "2"), "stop_id", "CLPHMJC/14"),
        ("W20347", "`CLPHMJC/14` and not `CLPHMJC/13`"),
    ),
    (
        "riders get on where they can't",
        changed("stop_times", ("W20101-0eca05cca4", "5"), "pickup_type", "0"),
        ("W20101", "pickup_type is `0` and not `1`"),
    ),
    (
        "riders can't get off where they can",
        changed("stop_times", ("W20503-7d69bae75f", "2"), "drop_off_type", "1"),
        ("W20503", "drop_off_type is `1` and not `0`"),
    ),
    (
        "riders get on where a part ends",
        changed("stop_times", (FIRST, "4"), "pickup_type", "0"),
        (FIRST, "get on", "HYWRDSH/4"),
    ),
    (
        "calls in another order",
        swapped("stop_times", (PORTION, "1"), (PORTION, "2"), "stop_sequence"),
        ("W20114", "call 1"),
    ),
    (
        "the evening before on the wrong date",
        a_day_earlier(EVENING),
        ("W20347", "`00:04:00` and not `24:04:00`"),
    ),
    ("a trip lost", lost("trips", "W20402-39ccbabeae"), ("W20402-39ccbabeae", "no such trip")),
    (
        "a train lost",
        lambda files: (
            lost("trips", "W20503-7d69bae75f")(files),
            files.update(
                stop_times=[row for row in files["stop_times"] if row[0] != "W20503-7d69bae75f"]
            ),
        )[0],
        ("W20503 on 2026-05-17", "no such train"),
    ),
    ("a trip twice", twice("trips", EVENING), (EVENING, "two rows")),
    (
        "a trip of another service",
        changed("trips", ("W80071-38036b74e7",), "service_id", SUNDAYS),
        ("W80071 on 2026-05-17", "has this train"),
    ),
    (
        "another train identity",
        changed("trips", (EVENING,), "trip_short_name", "1A95"),
        ("W20347", "identity is `1A95` and not `1A94`"),
    ),
    (
        "another headsign",
        changed("trips", (PORTION,), "trip_headsign", "Hove"),
        ("W20114", "headsign is `Hove`"),
    ),
    (
        "a route of another type",
        changed("routes", ("GX",), "route_type", "3"),
        ("W20121", "route_type is `3` and not `2`"),
    ),
    (
        "a route of another operator",
        changed("routes", ("GX",), "agency_id", "SN"),
        ("W20121", "agency is `SN` and not `GX`"),
    ),
    (
        "a date added in calendar_dates.txt",
        added("calendar_dates", SUNDAYS, "20260520", "1"),
        ("W20503 on 2026-05-20", "has this train"),
    ),
    (
        "a date taken out in calendar_dates.txt",
        added("calendar_dates", "3c4e97ffbe", "20260525", "2"),
        ("W8007", "3c4e97ffbe"),
    ),
    (
        "one of several dates taken out",
        added("calendar_dates", SUNDAYS, "20260524", "2"),
        ("W20503 on 2026-05-24", "no such train"),
    ),
    (
        "an exception lost",
        lost("calendar_dates", FRIDAYS, "20260526"),
        ("W20347 on 2026-05-26", "no such train"),
    ),
    (
        "an exception twice",
        twice("calendar_dates", FRIDAYS, "20260526"),
        (FRIDAYS, "20260526", "two rows"),
    ),
    (
        "a service that ends later",
        changed("calendar", (SUNDAYS,), "end_date", "20260614"),
        (SUNDAYS, "2026-06-14", "outside"),
    ),
    (
        "a service that ends earlier",
        changed("calendar", (SUNDAYS,), "end_date", "20260531"),
        ("W20503 on 2026-06-07", "no such train"),
    ),
    ("a mask a day later", shifted(SUNDAYS), ("W20503 on 2026-05-17", "no such train")),
    ("a link lost", lost("transfers", FIRST, PORTION), ("lacks a link", "W20113", "W20114")),
    ("a link twice", twice("transfers", FIRST, PORTION), ("two rows", FIRST, PORTION)),
    (
        "a link from the wrong part",
        changed("transfers", (FIRST, PORTION), "from_trip_id", SECOND),
        (SECOND, PORTION),
    ),
    (
        "a link that isn't one",
        changed("transfers", (FIRST, SECOND), "transfer_type", "2"),
        (FIRST, SECOND, "aren't linked"),
    ),
    (
        "a station's name",
        changed("stops", ("station:VIC",), "stop_name", "London Victory"),
        ("station:VIC", "`London Victory` and not `London Victoria`"),
    ),
    (
        "a stop of another station",
        changed("stops", ("HOVE/1",), "parent_station", "station:BTN"),
        ("HOVE/1", "station:BTN"),
    ),
    (
        "the platform of a stop",
        changed("stops", ("HOVE/1",), "platform_code", "2"),
        ("HOVE/1", "platform is `2` and not `1`"),
    ),
    ("a stop lost", lost("stops", "HOVE/1"), ("HOVE/1",)),
    ("coordinates", changed("stops", ("HOVE/1",), "stop_lat", "50.8"), ("HOVE/1", "50.8")),
    (
        "the first date of the feed",
        changed(
            "feed_info", ("Made by cif-gtfs, publisher not named",), "feed_start_date", "20260518"
        ),
        ("feed_info.txt", "feed_start_date is `20260518` and not `20260517`"),
    ),
    (
        "the last date of the feed",
        changed(
            "feed_info", ("Made by cif-gtfs, publisher not named",), "feed_end_date", "20260614"
        ),
        ("feed_info.txt", "feed_end_date is `20260614` and not `20260613`"),
    ),
    ("an agency lost", lost("agency", "GX"), ("agency.txt", "GX")),
)


def verify(maker: Maker, *words: object) -> Tuple[int, str]:
    done = maker.run("--verify", *map(str, words))
    return done.returncode, done.stdout + done.stderr


def verified(maker: Maker, path: Path) -> Tuple[int, str]:
    """How --verify ends for a feed of the example, without a program that has to start."""
    try:
        with open_extract(find_cif(str(maker.cif)), Request(str(EXAMPLE))) as extract:
            wishes = Wishes(extended_types=False, whole_trains=False)
            return 0, verify_feed(str(path), extract, {}, wishes, Progress()).text
    except CifError as ending:
        return ending.status, str(ending)


def check_planted(counts: Counts, maker: Maker) -> None:
    """Each planted fault is found, and named."""
    _, texts = maker.feed(EXAMPLE)

    planted = maker.folder / "planted.zip"
    for name, plant, words in PLANTED:
        files = {file: rows_of(text) for file, text in texts.items()}
        plant(files)
        write_zip(planted, files)
        status, said = verified(maker, planted)
        found = status == 1 and all(word in said for word in words)
        counts.test(f"planted in a feed: {name}", found, (status, said))
    ended = verify(maker, planted, EXAMPLE)
    counts.same("the last one, by the program", (status, f"cif-gtfs: {said}\n"), ended)


def anew(files: Files, rng: random.Random) -> Files:
    """The same with columns and rows in another order."""
    found = {}
    for name, (heading, *rows) in files.items():
        order = rng.sample(range(len(heading)), len(heading))
        rng.shuffle(rows)
        found[name] = [[row[at] for at in order] for row in (heading, *rows)]
    return found


def check_anew(counts: Counts, maker: Maker) -> None:
    """A feed that a tool has written anew is the same."""
    _, texts = maker.feed(EXAMPLE)
    files = anew({name: rows_of(text) for name, text in texts.items()}, random.Random(1))
    for rows in files.values():
        rows[0][0] = f"\ufeff{rows[0][0]}"
    written = maker.folder / "anew.zip"
    write_zip(written, files, quoting=csv.QUOTE_ALL, lineterminator="\r\n")
    # the byte order mark stands before the quotes
    with zipfile.ZipFile(written) as archive:
        texts = {name: archive.read(name).decode() for name in archive.namelist()}
    with zipfile.ZipFile(written, "w") as archive:
        for name, text in texts.items():
            archive.writestr(name, "\ufeff" + text.replace("\ufeff", "", 1))
    status, said = verify(maker, written, EXAMPLE)
    counts.test("a feed written anew", status == 0, said)


def check_same(counts: Counts, maker: Maker) -> None:
    """No difference in what cif-gtfs makes."""
    many = maker.folder / "verified.cif"
    holidays = ("--holidays", str(SAMPLES / "holidays.txt"))
    samples: List[Tuple[str, ...]] = [
        (str(EXAMPLE),),
        (str(TOP / "examples" / "changed.cif"),),
        (*holidays, str(SAMPLES / "nrod" / "toc-full.CIF")),
        (*holidays, str(SAMPLES / "rsp" / "RJTTF512.MCA")),
        *((str(path),) for path in sorted((SAMPLES / "probes").glob("*.cif"))),
    ]
    for words in samples:
        maker.feed(*words)
        status, said = verify(maker, "feed.zip", *words)
        counts.test(f"the feed of {words[-1]}", status == 0, said)
    # a train that goes on after midnight has the calls of the evening's before its own
    many.write_text(LINKED)
    maker.feed("--whole-trains", many)
    status, said = verify(maker, "feed.zip", "--whole-trains", many)
    counts.test("a whole train of two dates", status == 0, said)
    for seed in range(GENERATED):
        many.write_bytes(generated.extract(random.Random(seed), SCHEDULES))
        options = OPTIONS[seed % len(OPTIONS)]
        maker.feed(*options, many)
        status, said = verify(maker, "feed.zip", *options, many)
        counts.test(f"the feed of the generated extract {seed}", status == 0, said)


def check_refused(counts: Counts, maker: Maker) -> None:
    """What isn't a feed is refused, and nothing is written."""
    (maker.folder / "none.zip").write_text("no zip\n")
    for words, wanted in (
        (("none.zip", EXAMPLE), 3),
        (("absent.zip", EXAMPLE), 4),
        (("feed.zip", "--trips", "t.csv", EXAMPLE), 2),
    ):
        status, said = verify(maker, *words)
        counts.test(f"--verify {words}", status == wanted and said.count("\n") == 1, (status, said))


def check(counts: Counts, maker: Maker) -> None:
    check_planted(counts, maker)
    check_anew(counts, maker)
    check_same(counts, maker)
    check_refused(counts, maker)
