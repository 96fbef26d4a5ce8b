"""Stations, links and trains of extracts and files as they are published, which tests/feeds has samples of."""
from __future__ import annotations

import subprocess
from pathlib import Path
from typing import Dict, List, Set, Tuple

from .checks import KNOWN_WARNINGS, Counts, Maker
from .validator import ERROR, notices, rows_of

FEEDS = Path(__file__).resolve().parents[1] / "feeds"
EXAMPLE = FEEDS.parents[1] / "examples" / "timetable.cif"
FULL, HOLIDAYS = FEEDS / "nrod" / "toc-full.CIF", FEEDS / "holidays.txt"
PUBLISHED = ("--holidays", HOLIDAYS, FULL)
# Two TIPLOCs of one station, of which one has another code than the station.
PARTS = """\
tiploc,name,latitude,longitude,station_crs
STPXBOX,,51.532,-0.127,STP
STPX,,51.53,-0.126,STP
"""
# What comes first counts first, cell by cell.
FIRST = "tiploc,name,latitude,longitude\nSTPX,St Pancras International,,\nECROYDN,,51.375,-0.093\n"
SECOND = """\
tiploc,name,latitude,longitude,station_crs
STPX,Another name,51.53,-0.126,STP
STPXBOX,,,,STP
ECROYDN,East Croydon Station,50,-1,
"""
STATIONS = ("--places", "parts.csv")
# Two trains over midnight: N00001 goes on as N00002 on the next day, O00001 as O00002 in operation alone.
LINKED = "".join(
    line.ljust(80) + "\n"
    for line in """\
HDTPS.UTEST01.PD2601040401262130DFTEST1       FA050126110126
TIALPHA  00890500AALPHA                     032010000ALPALPHA
TIBETA   00890501BBETA                      032020000BETBETA
TIGAMMA  00890502CGAMMA                     032030000GAMGAMMA
AANN00001N000022601052601111111111NPNBETA     TP                               P
AANO00001O000022601052601111111111NPSBETA     TO                               P
BSNN000012601052601111111111 POO1N01    122104000 EMU    090      B            P
LOALPHA   2330 23301         TB
LTBETA    2355 23552     TF
BSNN000022601052601111111111 POO1N02    122104000 EMU    090      B            P
LOBETA    0005 00052         TB
LTGAMMA   0030 00303     TF
BSNO000012601052601111111111 POO1O01    122104000 EMU    090      B            P
LOALPHA   1000 10001         TB
LTBETA    1030 10302     TF
BSNO000022601052601111111111 POO1O02    122104000 EMU    090      B            P
LOBETA    1040 10402         TB
LTGAMMA   1100 11003     TF
ZZ
""".splitlines()
)
# The calls of each trip.
Calls = Set[Tuple[Tuple[str, ...], ...]]


def rows(files: Dict[str, str], name: str, *fields: str) -> List[Tuple[str, ...]]:
    """Some fields of all rows of a file."""
    return [tuple(row[field] for field in fields) for row in rows_of(files[name])]


def calls_of(files: Dict[str, str], uid: str) -> Calls:
    """The calls of each trip of a train."""
    trips: Dict[str, List[Tuple[str, ...]]] = {}
    names = ("stop_id", "arrival_time", "departure_time", "drop_off_type", "pickup_type")
    for row in rows_of(files["stop_times"]):
        if row["trip_id"].startswith(f"{uid}-"):
            trips.setdefault(row["trip_id"], []).append(tuple(row[name] for name in names))
    return {tuple(calls) for calls in trips.values()}


def changes_of(files: Dict[str, str]) -> Dict[Tuple[str, str], int]:
    """The seconds of changes and links, by the codes of the stations."""
    return {
        (row["from_stop_id"][-3:], row["to_stop_id"][-3:]): int(row["min_transfer_time"])
        for row in rows_of(files["transfers"])
        if row["transfer_type"] == "2"
    }


def check_stations(counts: Counts, maker: Maker) -> None:
    extract = FEEDS / "probes" / "stp.cif"
    _, files = maker.feed(extract)
    codes = {
        code for code, kind in rows(files, "stops", "stop_code", "location_type") if kind == "1"
    }
    counts.same("a minor code by itself", {"ECR", "LEI", "SPL", "STP"}, codes)
    (maker.folder / "parts.csv").write_text(PARTS)
    (maker.folder / "interchange.csv").write_text("crs,minutes\nSPL,5\n")
    (maker.folder / "links.csv").write_text(
        "from,to,minutes,last_date\nSPL,ECR,9,\nSTP,LEI,8,\nSPL,LEI,7,\nSPL,STP,3,\nSTP,ECR,1,2020-12-31\n"
    )
    changes = ("--interchange", "interchange.csv", "--links", "links.csv")
    _, files = maker.feed(*STATIONS, *changes, extract)
    names = ("stop_id", "stop_code", "stop_name", "parent_station")
    found = [row for row in rows(files, "stops", *names) if "STP" in row[0]]
    name = "St Pancras (Midland)"
    want = [
        ("station:STP", "STP", name, ""),
        ("STPX/3", "STP", name, "station:STP"),
        ("STPXBOX/A", "SPL", name, "station:STP"),
    ]
    counts.same("one station of two codes", want, found)
    routes = {"EM-2-station:LEI-station:STP", "TL-2-station:ECR-station:STP"}
    counts.same("routes to it", routes, {route for route, in rows(files, "routes", "route_id")})
    want_changes = {("STP", "STP"): 300, ("STP", "ECR"): 540, ("STP", "LEI"): 480}
    counts.same("changes by another code of a station", want_changes, changes_of(files))
    for number, text in enumerate((FIRST, SECOND)):
        (maker.folder / f"{number}.csv").write_text(text)
    done, files = maker.feed("--places", "0.csv", "--places", "1.csv", extract)
    found = [
        row
        for row in rows(files, "stops", "stop_id", "stop_name", "stop_lat")
        if row[0][:8] == "station:"
    ]
    want_names = [
        ("station:ECR", "East Croydon Station", "51.375"),
        ("station:LEI", "Leicester", ""),
        ("station:STP", "St Pancras International", "51.53"),
    ]
    counts.same("of two files the first filled cell", (1, want_names), (done.returncode, found))


def check_riders(counts: Counts, maker: Maker) -> None:
    done, files = maker.feed(FEEDS / "probes" / "ee.cif")
    want: Calls = {
        (
            ("ECROYDN/1", "08:20:00", "08:20:00", "1", "0"),
            ("GTWK/1", "08:35:00", "08:37:00", "0", "0"),
            ("BRGHTN/1", "09:00:00", "09:00:00", "0", "1"),
        )
    }
    counts.same("a train for riders from a place on", want, calls_of(files, "X00001"))
    counts.test("it isn't counted as another", "riders" not in done.stderr, done.stderr)
    text = (FEEDS / "probes" / "ee.cif").read_text()
    for category in "OU", "XU":
        path = maker.folder / "unadvertised.cif"
        path.write_text(text.replace("CRECROYDN OO", f"CRECROYDN {category}"))
        done = maker.run("-o", "none.zip", path)
        counts.same(f"a train of category {category}", 3, done.returncode)
    # it begins as a train for riders, and becomes empty where they get off
    path.write_text(
        text.replace("PEE5C50", "POO5C50")
        .replace("LOVICTRIC 0800 0000", "LOVICTRIC 0800 0800")
        .replace("LIECROYDN 0815 0820      00000820", "LIECROYDN 0815 0820      08150820")
        .replace("TB T", "T   ")
        .replace("CRECROYDN OO", "CRECROYDN EE")
    )
    _, files = maker.feed(path)
    want_before: Calls = {
        (
            ("VICTRIC", "08:00:00", "08:00:00", "1", "0"),
            ("ECROYDN/1", "08:15:00", "08:20:00", "0", "1"),
        )
    }
    counts.same("a train for riders up to a place", want_before, calls_of(files, "X00001"))


def check_links(counts: Counts, maker: Maker) -> None:
    """Of several links the shortest that always holds counts, or else the longest, and none that is gone."""
    link_files = ("probes/a.alf", "rsp/RJTTF512.ALF")
    for name, want, told in (
        (link_files[0], {("EUS", "VIC"): 1800, ("VIC", "EUS"): 1800}, 2),
        (
            link_files[1],
            {
                **{("CLJ", "VIC"): 5400, ("VIC", "CLJ"): 5400},
                **{("GTW", "HHE"): 2400, ("HHE", "GTW"): 2400},
            },
            0,
        ),
    ):
        made = maker.run("alf-links", FEEDS / name, program="cif-gtfs-csv")
        (maker.folder / "alf.csv").write_text(made.stdout)
        done, files = maker.feed("--links", "alf.csv", *PUBLISHED)
        counts.same(f"links of {name}", want, changes_of(files))
        line = f"cif-gtfs: links left out: they are there on no date of the window: {told}\n"
        counts.same(f"links that are gone of {name}", told > 0, line in done.stderr)
    always = "from,to,minutes,first_date,last_date,days_run,first_time,last_time\n"
    (maker.folder / "alf.csv").write_text(always + "EUS,VIC,9,,,,,\nEUS,VIC,8,,,,,\n")
    done = maker.run("--links", "alf.csv", *PUBLISHED)
    reported = "alf.csv: line 3: EUS, VIC is a duplicate: line 2 has it too"
    counts.same("a link twice", (3, True), (done.returncode, reported in done.stderr))


def check_published(counts: Counts, maker: Maker) -> None:
    """A full extract with the public files: no errors, and the warnings that are listed."""
    options: List[str] = []
    for kind, path in (
        ("naptan-places", "naptan/Stops.csv"),
        ("msn-places", "rsp/RJTTF512.MSN"),
        ("msn-interchange", "rsp/RJTTF512.MSN"),
        ("alf-links", "rsp/RJTTF512.ALF"),
    ):
        done = maker.run(kind, FEEDS / path, program="cif-gtfs-csv")
        counts.same(f"{kind} of {path}", 0, done.returncode)
        part = "\nSTPANCI,St Pancras International,51.5291,-0.1259,STP\n"
        counts.same(f"{kind}, a part of a station", kind == "msn-places", part in done.stdout)
        (maker.folder / f"{kind}.csv").write_text(done.stdout)
        options += [f"--{kind.partition('-')[2]}", f"{kind}.csv"]
    given = (
        "--attribution",
        "Network Rail=https://www.networkrail.co.uk/",
        "--attribution",
        "RDG & others",
    )
    (maker.folder / "operators.csv").write_text(
        "operator_code,name,url,email,phone\nSN,Southern,,help@southern.example,+44 345 127 2920\n"
    )
    done, files = maker.feed(*options, "--operators", "operators.csv", *given, *PUBLISHED)
    found = notices(files)
    errors = {notice.rule for notice in found if notice.severity == ERROR}
    counts.same("errors of a published extract", {"stop_without_location"}, errors)
    warnings = {notice.rule for notice in found if notice.severity != ERROR}
    allowed = KNOWN_WARNINGS | {
        "transfer_distance_too_large",
        "fast_travel_between_consecutive_stops",
    }
    counts.same("warnings of a published extract", set(), warnings - allowed)
    want = [
        ("1", "Network Rail", "0", "1", "https://www.networkrail.co.uk/"),
        ("2", "RDG & others", "0", "1", ""),
    ]
    names = (
        "attribution_id",
        "organization_name",
        "is_producer",
        "is_authority",
        "attribution_url",
    )
    counts.same("attributions", want, rows(files, "attributions", *names))
    agencies = rows(files, "agency", "agency_id", "agency_name", "agency_phone", "agency_email")
    southern = ("SN", "Southern", "+44 345 127 2920", "help@southern.example")
    counts.test("numbers of an operator", southern in agencies, agencies)
    counts.test(
        "ships of no known operator", ("ZZ", "Freight and others", "", "") in agencies, agencies
    )
    stations = {
        stop: (name, latitude)
        for stop, name, latitude in rows(files, "stops", "stop_id", "stop_name", "stop_lat")
    }
    counts.same("a station of NaPTAN", ("Brighton", "50.82906"), stations.get("station:BTN"))
    counts.same("a time of change of MSN", 600, changes_of(files).get(("CLJ", "CLJ")))
    [version] = rows(files, "feed_info", "feed_version")
    counts.same("the version of the feed", ("2026-12-04 19:35 DFROC1S",), version)
    for bad in "=https://a.example/", "Network Rail=https://a", "Network\tRail":
        done = maker.run("--attribution", bad, *PUBLISHED)
        counts.same(f"the attribution {bad!r}", (2, ""), (done.returncode, done.stdout))


def check_bicycles(counts: Counts, maker: Maker) -> None:
    """A train for which bicycles need a reservation takes them; of others nothing is known."""
    text = (FEEDS / "probes" / "stp.cif").read_text()
    path = maker.folder / "bicycles.cif"
    path.write_text(
        "".join(
            line[:68] + "E" + line[69:] if line.startswith("BSNT00002") else line
            for line in text.splitlines(keepends=True)
        )
    )
    _, plain = maker.feed(FEEDS / "probes" / "stp.cif")
    _, files = maker.feed(path)
    found = set(rows(files, "trips", "trip_short_name", "bikes_allowed"))
    counts.same("bicycles", {("9T01", ""), ("1D20", "1")}, found)
    counts.same(
        "routes of trains with bicycles",
        rows(plain, "trips", "trip_short_name", "route_id"),
        rows(files, "trips", "trip_short_name", "route_id"),
    )


# A published train without an end, that is cancelled on a Wednesday, and the published schedules that decide on each date.
TRAIN = """\
HDTPS.UTEST01.PD2601040401262130DFTEST1       FA050126250126
BSNP000012601059999991111100 POO1P01    122104000 EMU    090      B            P
BX         SRYSR000100
LOALPHA   0900 09001         TB
LTBETA    1000 10002     TF
BSNP000012601142601140010000                                                   C
ZZ
"""
WINNERS = """\
uid first_date last_date stp_indicator wins_from wins_to days_run
P00001 2026-01-05  P 2026-01-05 2026-01-13 1111100
P00001 2026-01-14 2026-01-14 C 2026-01-14 2026-01-14 0010000
P00001 2026-01-05  P 2026-01-15 2026-01-23 1111100
"""


def published_train(cif: Path, folder: Path) -> Tuple[Path, Path]:
    """The extract, and a program that says which of its schedules decide, as `cif prepare --winners` does."""
    extract, program, table = (
        folder / name for name in ("published-train.cif", "cif-with-winners", "winners")
    )
    extract.write_text("".join(f"{line:80}\n" for line in TRAIN.splitlines()))
    table.write_text(WINNERS.replace(" ", "\t"))
    program.write_text(
        f"""#!/bin/sh
case "$*" in
'prepare --verbose --help') echo '--winners' ;;
'prepare --verbose --winners '*) cat '{table}' ;;
*) exec '{cif}' "$@" ;;
esac
"""
    )
    program.chmod(0o755)
    return extract, program


def check_published_trips(counts: Counts, maker: Maker) -> None:
    """Of each trip and range of dates the first date and the letter that were published."""
    extract, program = published_train(maker.cif, maker.folder)
    maker.run("--cif", program, "--trips", "trips.csv", "-o", "feed.zip", extract)
    got = rows({"trips": (maker.folder / "trips.csv").read_text()}, "trips", *TRIP_FIELDS)
    first = ("P00001", "2026-01-05", "2026-01-13", "1111100", "SR000100", "2026-01-05", "P")
    counts.same(
        "published schedules of trips",
        [first, (*first[:1], "2026-01-15", "2026-01-23", *first[3:])],
        got,
    )


TRIP_FIELDS = (
    *("uid", "first_date", "last_date", "days_run", "retail_service_id"),
    *("published_first_date", "stp_indicator"),
)


def check_samples(counts: Counts) -> None:
    """The samples are those that their descriptions make."""
    done = subprocess.run([FEEDS / "make", "--check"], capture_output=True, text=True, check=False)
    counts.same("the samples", (0, "17 samples\n", ""), (done.returncode, done.stdout, done.stderr))


def check_next_run(counts: Counts, maker: Maker) -> None:
    """A run after one description has changed, of a place that no list has: nothing of the run before
    is in its way."""
    (maker.folder / "few.csv").write_text("tiploc,name,latitude,longitude\nBRGHTN,,50.829,-0.141\n")
    changed = maker.folder / "changed.cif"
    changed.write_text(EXAMPLE.read_text().replace("HAYWARDS HEATH", "HAYWARDS HEATX"))
    for extract in EXAMPLE, changed:
        (maker.folder / "feed.zip").unlink(missing_ok=True)
        done = maker.run("--places", "few.csv", "-o", "feed.zip", extract)
        counts.same(f"a feed of {extract.name} with a few places", 1, done.returncode)
        counts.test(f"it is there, of {extract.name}", (maker.folder / "feed.zip").exists())
    for name in "few.csv", "changed.cif", "feed.zip":
        (maker.folder / name).unlink()


def check(counts: Counts, maker: Maker) -> None:
    check_samples(counts)
    check_next_run(counts, maker)
    check_published_trips(counts, maker)
    check_stations(counts, maker)
    check_riders(counts, maker)
    check_links(counts, maker)
    check_published(counts, maker)
    check_bicycles(counts, maker)
