"""What special.cif becomes, against expected.txt, with and without files of the user."""
from __future__ import annotations

import csv
import io
import re
from datetime import date
from pathlib import Path
from typing import Dict, List, Tuple

from .checks import Counts, Maker
from .feeds import Feed, Shown
from .validator import ERROR, notices

HERE = Path(__file__).resolve().parent

PLACES = """\
longitude,tiploc,name,more,latitude
-0.1,ALPHA,Alpha,x,51.5
-1.0, BETAE ,Beta,,52.25
,GAMMA,,,

0.5,OMEGA,,,+53
2,NOWHERE,Nowhere,,1.
"""
OPERATORS = (
    'url,operator_code,name\n,SR,"Southern, Rails"\nhttps://ships.example/,XX,Ships\n,YY,Another\n'
)
INTERCHANGE = "minutes,crs\n5,ALP\n0,BET\n7,ZZZ\n"
LINKS = "from,to,minutes\nBET,GAM,12\nALP,ZZZ,1\nUNU,ALP,2\n"


def sections() -> Dict[str, List[str]]:
    """The sections of expected.txt by their names."""
    found: Dict[str, List[str]] = {}
    for line in (HERE / "expected.txt").read_text().splitlines():
        if line.startswith("== "):
            lines = found[line[3:]] = []
        elif not line.startswith("#"):
            lines.append(line)
    return found


def clock(seconds: int) -> str:
    return f"{seconds // 3600:02}:{seconds // 60 % 60:02}"


def call_text(call: Tuple[str, int, int, str, str]) -> str:
    stop, arrival, departure, set_down, pick_up = call
    times = clock(arrival) if arrival == departure else f"{clock(arrival)}>{clock(departure)}"
    sign = {"00": "", "10": "+", "01": "-", "11": "x"}[set_down + pick_up]
    return f"{stop} {times}{sign}"


def trip_text(trip: Shown) -> str:
    return " ".join([trip.uid, *map(call_text, trip.calls)])


def link_text(link: Tuple[Shown, ...]) -> str:
    one, other = link
    return " ".join((one.uid, one.calls[-1][0], other.uid, other.calls[0][0]))


def check_dates(counts: Counts, want: Dict[str, List[str]], feed: Feed) -> None:
    for name in want:
        if found := re.fullmatch(r"(trips|links) on (\d\d)(\d\d)(\d\d)", name):
            on_date = feed.on(date(2000 + int(found[2]), int(found[3]), int(found[4])))
            got = (
                map(trip_text, on_date.trips.elements())
                if found[1] == "trips"
                else map(link_text, on_date.links)
            )
            counts.same(f"special.cif by hand, {name}", want[name], sorted(got))


def uids_of(files: Dict[str, str]) -> Dict[str, str]:
    """The UIDs of special.cif, by what ids have of them."""
    names = {
        row["trip_id"].rpartition("-")[0]
        for row in csv.DictReader(io.StringIO(files["trips"], newline=""))
    }
    return {name: name.replace("_", " ") for name in names}


def check_named(counts: Counts, want: Dict[str, List[str]], maker: Maker, special: Path) -> None:
    for name, text in (
        ("places", PLACES),
        ("operators", OPERATORS),
        ("interchange", INTERCHANGE),
        ("links", LINKS),
    ):
        (maker.folder / f"{name}.csv").write_text("\ufeff" + text, encoding="utf-8")
    options = [
        word
        for name in ("places", "operators", "interchange", "links")
        for word in (f"--{name}", f"{name}.csv")
    ]
    options += ["--extended-types", "--places-wanted", "wanted.csv"]
    done, files = maker.feed(*options, special)
    counts.same("special.cif with names, status", 1, done.returncode)
    wanted = (maker.folder / "wanted.csv").read_text()
    for name in "agency", "stops", "routes", "transfers", "wanted":
        lines = (wanted if name == "wanted" else files[name]).splitlines()
        missing = [line for line in want[f"{name} with names"] if line not in lines]
        counts.test(
            f"special.cif with names, {name}", not missing, f"lacks {missing}, has {lines[:12]}"
        )
    for name, text in ("transfers", ",2,"), ("wanted", ",,"):
        got = [
            line
            for line in (wanted if name == "wanted" else files[name]).splitlines()
            if text in line
        ]
        counts.same(f"special.cif with names, all {name}", want[f"{name} with names"], got)


def check(counts: Counts, maker: Maker, special: Path) -> None:
    want = sections()
    done, files = maker.feed(special)
    counts.same("special.cif by hand, status", 1, done.returncode)
    counts.same("special.cif by hand, told", want["told"], done.stderr.splitlines())
    done, _ = maker.feed("--places-wanted", "wanted.csv", special)
    told = "cif-gtfs: stations without coordinates: 5, listed in wanted.csv"
    counts.same("special.cif by hand, the list is told", told, done.stderr.splitlines()[-1])
    wanted = (maker.folder / "wanted.csv").read_text().splitlines()
    counts.same("special.cif by hand, places wanted", want["places-wanted"], wanted)
    for name in "agency", "stops", "routes", "feed_info":
        counts.same(
            f"special.cif by hand, {name}", sorted(want[name]), sorted(files[name].splitlines())
        )
    check_dates(counts, want, Feed(files, uids_of(files)))
    errors = [notice for notice in notices(files) if notice.severity == ERROR]
    stops = {notice.place for notice in errors}
    counts.same(
        "special.cif by hand, errors", {"stop_without_location"}, {notice.rule for notice in errors}
    )
    counts.same(
        "special.cif by hand, stops without coordinates", len(want["stops"]) - 1, len(stops)
    )
    check_named(counts, want, maker, special)
