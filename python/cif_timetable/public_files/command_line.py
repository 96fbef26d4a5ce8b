"""The arguments of cif-gtfs-csv, and what it writes."""
from __future__ import annotations

import csv
import io
import sys
from collections.abc import Callable, Sequence

from .._arguments import add_help, new_parser
from .._running import run, standard_output
from ..errors import SUCCESS
from . import alf, msn, naptan
from .public_file import Notes, Row

PROGRAM = "cif-gtfs-csv"
ABOUT = """\
Makes a file for cif-gtfs of a public one, and writes it to standard output. The
layouts of the public files are from memory.

  naptan-places    places.csv of NaPTAN's stops, a CSV file
  msn-places       places.csv of RSP's master station names
  msn-interchange  interchange.csv of the same
  alf-links        links.csv of RSP's additional fixed links
"""
KINDS: dict[str, Callable[[str, Notes], list[Row]]] = {
    "naptan-places": naptan.places,
    "msn-places": msn.places,
    "msn-interchange": msn.interchange,
    "alf-links": alf.links,
}


def make(kind: str, path: str) -> int:
    """Writes the file. What can't be read is told once that is done."""
    notes = Notes()
    rows = KINDS[kind](path, notes)
    with standard_output() as output, io.TextIOWrapper(
        output, encoding="utf-8", newline=""
    ) as text:
        csv.writer(text, lineterminator="\n").writerows(rows)
    for line in notes.lines(path):
        print(f"{PROGRAM}: {line}", file=sys.stderr)
    return SUCCESS


def main(words: Sequence[str] | None = None) -> int:
    parser = new_parser(PROGRAM, ABOUT)
    add_help(parser)
    parser.add_argument("kind", metavar="KIND", choices=KINDS, help="one of those above")
    parser.add_argument("file", metavar="FILE", help="the public file")
    asked = parser.parse_args(words)
    return run(PROGRAM, lambda _: make(asked.kind, asked.file))
