"""The arguments of cif-sql, and its status."""
from __future__ import annotations

import argparse
import os
import re
import sys
from collections.abc import Sequence
from contextlib import AbstractContextManager, ExitStack, nullcontext
from datetime import date, datetime
from pathlib import Path

from .._arguments import add_cif, add_help, add_names, add_reading, new_parser, request_of
from .._extract import is_stream, open_extract
from .._files import check_inputs_stay, output_path
from .._process import find_cif
from .._progress import Progress
from .._running import leave_cycles, run, standard_output
from ..errors import SUCCESS, Misused
from ..verify.database import Database as VerifiedDatabase, PostgresDatabase, sqlite_database
from ..verify.whole_database import Asked, Given, verify_database
from ..user_csv import CONTROL
from .database import make_database, reading_source, user_files
from .loading import Loaded, UserFiles, load
from .postgres import PostgresScript, check_schema
from .sqlite_file import check_place

PROGRAM = "cif-sql"
# What the name of a compressed extract has after that of the extract.
PACKED = re.compile(r"\.(gz|zip)$", re.IGNORECASE)

ABOUT = """\
Loads a CIF timetable extract into an SQLite database, or writes a script for
psql that loads it into PostgreSQL. The extract is as it is published or as
`cif prepare` writes it. It may be compressed by gzip, or the only one in a zip.
"""
STATUSES = """\
statuses:
  0  success; for --verify: the same
  1  for --verify: a difference, which is named
  2  a usage error
  3  a file is refused, or the database is of a later extract, or isn't one of
     cif-sql
  4  a file can't be read or written, or memory ran out
"""


def arguments_of(words: Sequence[str] | None) -> argparse.Namespace:
    parser = new_parser(PROGRAM, ABOUT, STATUSES)
    add = parser.add_argument
    add_reading(parser)
    add_names(parser)
    add(
        "--postgres",
        action="store_true",
        help="write a script for psql to standard output instead",
    )
    add("--schema", metavar="NAME", help="the schema in PostgreSQL, cif by default")
    add("--force", action="store_true", help="replace a database of a later extract")
    add(
        "-o",
        "--output",
        metavar="DATABASE",
        help="the database to write, by default EXTRACT's name with .db",
    )
    add(
        "-v",
        "--verbose",
        action="store_true",
        help="count the calls whose location has no TI",
    )
    add(
        "--verify",
        metavar="DATABASE",
        help="compare a database with the extract that was loaded into it, and write nothing;"
        " with --postgres a database of PostgreSQL, by its name or its connection string",
    )
    add(
        "--date",
        action="append",
        default=[],
        metavar="DATE",
        help="for --verify: compare what runs on this date, too; for each an option",
    )
    add(
        "--place",
        action="append",
        default=[],
        metavar="PLACE",
        help="for --verify: compare departures and arrivals at this TIPLOC or CRS code on these"
        " dates, too; for each an option",
    )
    add_cif(parser)
    add_help(parser)
    add("extract", metavar="EXTRACT", help="the extract, or - for standard input")
    return parser.parse_args(words)


def place_of(asked: argparse.Namespace) -> Path:
    """The place of the database. One in the place of an input is refused."""
    name = asked.output
    if name is None:
        if is_stream(asked.extract):
            raise Misused("the extract has no name: -o says which database to write")
        name = PACKED.sub("", asked.extract)
        name = os.path.splitext(name)[0] + ".db"
    place = output_path(name)
    others = (*asked.places, asked.operators, asked.holidays)
    check_inputs_stay([place], [asked.extract], others)
    return place


def given_files(asked: argparse.Namespace) -> UserFiles:
    return user_files(asked.places, asked.operators)


def tell(asked: argparse.Namespace, loaded: Loaded, progress: Progress) -> None:
    """Says what is odd, if that is asked for."""
    progress.clear()
    if asked.verbose:
        print(f"{PROGRAM}: calls whose location has no TI: {loaded.text()}", file=sys.stderr)


def make_file(asked: argparse.Namespace, progress: Progress) -> int:
    """The status, after the SQLite file is written."""
    if asked.schema is not None:
        raise Misused("--schema is for --postgres")
    place = place_of(asked)
    check_place(place)
    given = given_files(asked)
    with open_extract(find_cif(asked.cif), request_of(asked, asked.extract)) as extract:
        loaded = make_database(extract, place, given, asked.force, progress)
    tell(asked, loaded, progress)
    return SUCCESS


def write_script(asked: argparse.Namespace, progress: Progress) -> int:
    """The status, after the script for psql is written."""
    if asked.output is not None:
        raise Misused("-o is for an SQLite database: --postgres writes to standard output")
    schema = asked.schema if asked.schema is not None else "cif"
    check_schema(schema)
    given = given_files(asked)
    request = request_of(asked, asked.extract)
    with open_extract(find_cif(asked.cif), request) as extract, ExitStack() as stack:
        script = PostgresScript(stack)
        with reading_source(extract) as source:
            loaded = load(extract, source, given, script, progress)
        progress.show("writing the script")
        with standard_output() as output:
            script.write(output, schema, extract.header(), asked.force)
    tell(asked, loaded, progress)
    return SUCCESS


def date_of(text: str) -> date:
    """A date as `cif` takes it: 260114 or 2026-01-14."""
    try:
        if len(text) == 6 and text.isascii() and text.isdigit():
            century = "19" if text >= "60" else "20"
            return datetime.strptime(century + text, "%Y%m%d").date()
        if len(text) == 10 and text.isascii():
            return datetime.strptime(text, "%Y-%m-%d").date()
    except ValueError:
        pass
    raise Misused(f"--date {CONTROL.sub('?', text)}: a date is 260114 or 2026-01-14")


def verify(asked: argparse.Namespace, progress: Progress) -> int:
    """The status, after a database is compared with the extract."""
    for option, value in ("-o", asked.output), ("--force", asked.force), ("-v", asked.verbose):
        if value:
            raise Misused(f"{option} is for a database that is written, and --verify writes none")
    if asked.place and not asked.date:
        raise Misused("--place compares on dates: --date says on which")
    if asked.schema is not None and not asked.postgres:
        raise Misused("--schema is for --postgres")
    dates = [date_of(text) for text in asked.date]
    given = Given(*given_files(asked))
    request = request_of(asked, asked.extract)
    opened: AbstractContextManager[VerifiedDatabase] = sqlite_database(asked.verify)
    if asked.postgres:
        schema = asked.schema if asked.schema is not None else "cif"
        check_schema(schema)
        opened = nullcontext(PostgresDatabase(asked.verify, schema))
    wanted = Asked(dates, asked.place)
    same = verify_database(opened, find_cif(asked.cif), request, given, wanted, progress)
    progress.clear()
    with standard_output() as output:
        output.write(f"{same}\n".encode())
    return SUCCESS


def make_or_verify(asked: argparse.Namespace, progress: Progress) -> int:
    if asked.verify is not None:
        return verify(asked, progress)
    if asked.date or asked.place:
        raise Misused("--date and --place are for --verify")
    return write_script(asked, progress) if asked.postgres else make_file(asked, progress)


def main(words: Sequence[str] | None = None) -> int:
    asked = arguments_of(words)
    leave_cycles()
    return run(PROGRAM, lambda progress: make_or_verify(asked, progress))
