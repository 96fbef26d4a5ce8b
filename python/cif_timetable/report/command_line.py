"""The arguments of cif-report, and its status."""
from __future__ import annotations

import argparse
import io
from collections.abc import Sequence
from pathlib import Path

from .._arguments import (
    add_cif,
    add_help,
    add_names,
    add_reading,
    new_parser,
    preparing_of,
    request_of,
)
from .._files import check_inputs_stay, new_files, output_path, scratch_file
from .._process import find_cif
from .._progress import Progress
from .._running import leave_cycles, run
from ..errors import SUCCESS, Misused, Refused
from ..operators import operator_name, read_operators
from ..places import Places, read_places
from .comparison import compare, numbers_of
from .days import Calendar
from .differences import Bodies
from .page import page_of
from .pair import Asked, Pair, open_pair
from .report import Report
from .rows import Row, rows_of, write_rows
from .words import Names

PROGRAM = "cif-report"
DEFAULT_OUTPUT = "REPORT.html"
DEFAULT_MOST = 200
# Longer names of places and operators are shortened. CIF has at most 26 characters.
LONGEST_NAME = 100

ABOUT = """\
Shows on one HTML page how two CIF timetable extracts differ on the dates that
both have. Beside it, a CSV file has every change in rows. Each extract is as it
is published or as `cif prepare` writes it. It may be compressed by gzip, or the
only one in a zip.
"""
STATUSES = """\
statuses:
  0  success, also where the extracts differ
  2  a usage error
  3  a file is refused, or the extracts have no date in common
  4  a file can't be read or written, or memory ran out
"""


def number_of_trains(text: str) -> int:
    if not (text.isascii() and text.isdigit() and len(text) < 7):
        raise argparse.ArgumentTypeError(f"`{text}` isn't a number of trains from 0 to 999999")
    return int(text)


def title(text: str) -> str:
    if not text.strip():
        raise argparse.ArgumentTypeError("the title is empty")
    return text


def arguments_of(words: Sequence[str] | None) -> argparse.Namespace:
    parser = new_parser(PROGRAM, ABOUT, STATUSES)
    add = parser.add_argument
    add_reading(parser)
    add_names(parser)
    add("--title", type=title, metavar="TEXT", help="the title of the page")
    add(
        "--most",
        type=number_of_trains,
        metavar="NUMBER",
        default=DEFAULT_MOST,
        help=f"how many changed trains the page has at most, {DEFAULT_MOST} by default",
    )
    add(
        "-o",
        "--output",
        metavar="PAGE",
        default=DEFAULT_OUTPUT,
        help=f"the page to write, by default {DEFAULT_OUTPUT}; the CSV file has its name with .csv",
    )
    add_cif(parser)
    add_help(parser)
    add("old", metavar="OLD", help="the earlier extract, or - for standard input")
    add("new", metavar="NEW", help="the later extract, or - for standard input")
    return parser.parse_args(words)


def check_rows(place: Path) -> None:
    """Refuses to replace what nobody has named, unless it is a CSV file of this program."""
    if place.exists():
        with open(place, encoding="utf-8", errors="replace") as file:
            heading = file.readline().rstrip("\n")
        if heading != ",".join(Row._fields):
            raise Refused(f"{place} isn't a CSV file of {PROGRAM}, so it isn't replaced")


def shortened(name: str) -> str:
    """A name as it is shown, since it stands all over the page."""
    return name if len(name) <= LONGEST_NAME else f"{name[:LONGEST_NAME - 1]}…"


class Outputs:
    """The places of the page and of the CSV file. Neither may be that of an input."""

    def __init__(self, asked: argparse.Namespace) -> None:
        self.page = output_path(asked.output)
        self.rows = output_path(str(self.page.with_suffix(".csv")))
        if self.rows == self.page:
            raise Misused(f"{asked.output}: the CSV file would take the place of the page")
        others = (*asked.places, asked.operators, asked.holidays)
        check_inputs_stay((self.page, self.rows), (asked.old, asked.new), others)
        check_rows(self.rows)


def names_of(asked: argparse.Namespace, pair: Pair) -> Names:
    """The names of places, those of the later extract first, and of operators."""
    given, operators = read_places(asked.places), read_operators(asked.operators)
    places = Places([*pair.new.tiplocs, *pair.old.tiplocs], given)
    return Names(
        lambda tiploc: shortened(places.station_name(tiploc)),
        lambda tiploc: places.tiploc(tiploc).crs,
        lambda code: shortened(operator_name(code, operators)),
    )


def write_report(asked: argparse.Namespace, progress: Progress) -> int:
    """The status, after the page and the CSV file are written."""
    outputs = Outputs(asked)
    cif = find_cif(asked.cif)
    old, new = (preparing_of(asked, name) for name in (asked.old, asked.new))
    extracts = Asked(old, new, request_of(asked, asked.old).window())
    with open_pair(cif, extracts) as pair, scratch_file() as file:
        names, bodies = names_of(asked, pair), Bodies(file)
        comparison = compare(pair, names, bodies, progress)
        calendar, numbers = Calendar(pair.window), numbers_of(comparison)
        report = Report(pair, comparison, numbers, calendar, names, bodies, outputs.rows.name)
        progress.show("writing")
        with new_files() as files:
            page = files.create(outputs.page)
            page.write(page_of(report, asked.title, asked.most).encode(errors="replace"))
            rows = io.TextIOWrapper(files.create(outputs.rows), encoding="utf-8", newline="")
            write_rows(rows, rows_of(comparison, names))
            rows.flush()
            rows.detach()
    return SUCCESS


def main(words: Sequence[str] | None = None) -> int:
    asked = arguments_of(words)
    leave_cycles()
    return run(PROGRAM, lambda progress: write_report(asked, progress))
