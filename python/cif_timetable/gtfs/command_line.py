"""The arguments of cif-gtfs, what it reports, and its status."""
from __future__ import annotations

import argparse
import sys
from collections.abc import Sequence

from .._arguments import (
    add_cif,
    add_help,
    add_names,
    add_processes,
    add_reading,
    new_parser,
    request_of,
)
from .._extract import open_extract
from .._files import check_inputs_stay, output_path
from .._process import find_cif
from .._progress import Progress
from .._running import leave_cycles, run, standard_output
from ..errors import SUCCESS, Misused
from ..places import read_places
from ..user_csv import Mistake, mail_address, name_of_publisher, shown, web_address
from ..verify import feed as verified
from .conversion import Outputs, Wishes, convert, user_files
from .feed import Attribution, Publisher
from .trains import EXTENDED_TYPES, TYPES
from .wanted import ListPlace

PROGRAM = "cif-gtfs"
# The status of a feed with stations that have no coordinates.
WANTING = 1
# What stands for a publisher that isn't named. GTFS requires a name and an address.
PUBLISHER = "Made by cif-gtfs, publisher not named"
NO_WEB = "https://example.com/"

ABOUT = """\
Makes a GTFS feed of a CIF timetable extract, as it is published or as
`cif prepare` writes it. It may be compressed by gzip, or the only one in a zip.
"""
STATUSES = """\
statuses:
  0  success; for --verify: the same
  1  for --verify: a difference, which is named; else success, but stations
     have no coordinates, which GTFS requires: --places-wanted lists them
  2  a usage error
  3  a file is refused: the same file will be refused again
  4  a file can't be read or written, or memory ran out
"""


def arguments_of(words: Sequence[str] | None) -> argparse.Namespace:
    parser = new_parser(PROGRAM, ABOUT, STATUSES)
    add = parser.add_argument
    add_names(parser)
    add("--interchange", metavar="FILE", help="minimum times of change: crs, minutes")
    add("--links", metavar="FILE", help="links between stations: from, to, minutes")
    add_reading(parser)
    add(
        "--extended-types",
        action="store_true",
        help="route types 105 for sleepers and 714 for replacement buses",
    )
    add(
        "--whole-trains",
        action="store_true",
        help="no linked trips: portions have the calls that they share with another train",
    )
    add_processes(parser)
    add("--publisher", metavar="NAME", help="who publishes the feed")
    add("--url", metavar="URL", help="the address of the publisher on the web")
    add("--email", metavar="ADDRESS", help="the address of the publisher for mail")
    add(
        "--attribution",
        action="append",
        default=[],
        metavar="NAME[=URL]",
        help="whose data the feed is made of, and the address of the licence; for each an option",
    )
    add(
        "--trips",
        metavar="TRIPS.csv",
        help="a further file to write: of each trip the UID, dates and retail service id",
    )
    add(
        "--places-wanted",
        metavar="FILE",
        help="a further file to write: places without coordinates, to fill in for --places",
    )
    add(
        "--verify",
        metavar="ZIP",
        help="compare a feed with the extract that it was made of, with the same options, and write"
        " nothing",
    )
    add(
        "-o",
        "--output",
        default="gtfs.zip",
        metavar="GTFS.zip",
        help="the zip to write, gtfs.zip by default",
    )
    add_cif(parser)
    add_help(parser)
    add("extract", metavar="EXTRACT", help="the extract, or - for standard input")
    return parser.parse_args(words)


def outputs_of(asked: argparse.Namespace) -> Outputs:
    """The places of the outputs. One in the place of an input is refused."""
    feed = output_path(asked.output)
    trips = output_path(asked.trips) if asked.trips is not None else None
    wanted = None
    if asked.places_wanted is not None:
        wanted = ListPlace(output_path(asked.places_wanted), asked.places_wanted)
    outputs = [place for place in (feed, wanted and wanted.place, trips) if place]
    others = (*asked.places, asked.operators, asked.interchange, asked.links, asked.holidays)
    check_inputs_stay(outputs, [asked.extract], others)
    if len(set(outputs)) < len(outputs):
        raise Misused("two outputs have one place")
    if wanted:
        wanted.check()
    return Outputs(feed, wanted, trips)


def publisher_of(name: str | None, url: str | None, email: str | None) -> Publisher:
    """Who answers for the feed, as the user says."""
    for option, value, read in (
        ("--publisher", name, name_of_publisher),
        ("--url", url, web_address),
        ("--email", email, mail_address),
    ):
        if value is None:
            continue
        try:
            read(value)
        except Mistake as mistake:
            raise Misused(f"{option} {shown(value)} {mistake}") from None
    return Publisher(name or PUBLISHER, url or NO_WEB, email or "")


def attribution_of(text: str) -> Attribution:
    """Who is named, and the address of the licence, which stands after `=`, or nothing."""
    name, equals, url = text.partition("=http")
    address = f"http{url}" if equals else ""
    try:
        name_of_publisher(name)
        if address:
            web_address(address)
    except Mistake as mistake:
        raise Misused(f"--attribution {shown(text)} {mistake}") from None
    return Attribution(name, address)


def make_feed(asked: argparse.Namespace, progress: Progress) -> int:
    """The status, after the zip is written."""
    outputs = outputs_of(asked)
    types = EXTENDED_TYPES if asked.extended_types else TYPES
    publisher = publisher_of(asked.publisher, asked.url, asked.email)
    attributions = [attribution_of(text) for text in asked.attribution]
    wishes = Wishes(types, asked.whole_trains, publisher, attributions, asked.processes)
    given = user_files(asked.places, asked.operators, asked.interchange, asked.links)
    with open_extract(find_cif(asked.cif), request_of(asked, asked.extract)) as extract:
        outcome = convert(extract, given, wishes, outputs, progress)
    progress.clear()
    for line in outcome.left_out.lines():
        print(f"{PROGRAM}: {line}", file=sys.stderr)
    if not outcome.wanted:
        return SUCCESS
    listed = (
        f", listed in {outputs.wanted.name}"
        if outputs.wanted
        else "; --places-wanted FILE lists them"
    )
    print(f"{PROGRAM}: stations without coordinates: {outcome.wanted}{listed}", file=sys.stderr)
    return WANTING


def verify(asked: argparse.Namespace, progress: Progress) -> int:
    """The status, after a feed is compared with the extract."""
    for option, value in ("--trips", asked.trips), ("--places-wanted", asked.places_wanted):
        if value is not None:
            raise Misused(f"{option} is for a feed that is made, and --verify makes none")
    wishes = verified.Wishes(asked.extended_types, asked.whole_trains)
    given = read_places(asked.places)
    with open_extract(find_cif(asked.cif), request_of(asked, asked.extract)) as extract:
        same = verified.verify_feed(asked.verify, extract, given, wishes, progress)
    progress.clear()
    for line in same.left_out:
        print(f"{PROGRAM}: {line}", file=sys.stderr)
    with standard_output() as output:
        output.write(f"{same.text}\n".encode())
    return SUCCESS


def main(words: Sequence[str] | None = None) -> int:
    asked = arguments_of(words)
    leave_cycles()
    work = make_feed if asked.verify is None else verify
    return run(PROGRAM, lambda progress: work(asked, progress))
