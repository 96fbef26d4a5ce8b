"""The arguments of cif-feed, and its status."""
from __future__ import annotations

import argparse
import sys
import tempfile
from collections.abc import Sequence
from contextlib import suppress
from pathlib import Path

from .._arguments import add_cif, add_help, new_parser
from .._process import find_cif
from .._progress import Progress
from .._running import printable, run, standard_output
from ..errors import SUCCESS, CifError, Misused
from .credentials import take_from_environment
from .holidays import holidays_of, listed_holidays
from .raw import RawFiles
from .run import bring_up_to_date, write_log
from .settings import SOURCES, read_settings
from .status import json_of, status_of, text_of
from .versions import check_folder

PROGRAM = "cif-feed"
# The status of a folder in which something is missing.
MISSING = 1

ABOUT = """\
Brings a folder up to date with a published timetable feed, once: fetches what
is new, applies updates, begins again with a full extract where one is missing,
and makes an extract, a database, a GTFS feed and a report. FOLDER/feed.toml has
the settings; FOLDER/current has the outputs, all of one version.
"""
STATUSES = """\
User and password are those of CIF_FEED_USER and CIF_FEED_PASSWORD, or of
~/.netrc. It is silent if all is well; else it prints one line.

statuses:
  0  success
  1  for --status: nothing was fetched yet, or something is missing
  2  a usage error, or one in feed.toml
  3  a file is refused, or the user and the password are
  4  something can't be fetched, read or written, or another run is at work
"""


def arguments_of(words: Sequence[str] | None) -> argparse.Namespace:
    parser = new_parser(PROGRAM, ABOUT, STATUSES)
    add = parser.add_argument
    add("--status", action="store_true", help="say what is there, and what is missing")
    add("--json", action="store_true", help="for --status: as JSON")
    add("--holidays", action="store_true", help="list the holidays that would be taken, and why")
    add(
        "--example",
        choices=SOURCES,
        metavar="SOURCE",
        help=f"print settings to fill in: {', '.join(SOURCES[:-1])} or {SOURCES[-1]}",
    )
    add_cif(parser)
    add_help(parser)
    add("folder", metavar="FOLDER", nargs="?", help="the folder")
    asked = parser.parse_args(words)
    if asked.example:
        if asked.folder or asked.status or asked.holidays or asked.json:
            parser.error("--example stands alone")
    elif asked.folder is None:
        parser.error("the following arguments are required: FOLDER")
    if asked.json and not asked.status:
        parser.error("--json is for --status")
    if asked.status and asked.holidays:
        parser.error("--status and --holidays are two questions")
    return asked


def print_text(text: str) -> None:
    with standard_output() as output:
        output.write(text.encode(errors="replace"))


def print_example(asked: argparse.Namespace) -> int:
    print_text(Path(__file__).with_name(f"{asked.example}.toml").read_text(encoding="utf-8"))
    return SUCCESS


def folder_of(asked: argparse.Namespace) -> Path:
    folder = Path(asked.folder)
    check_folder(folder)
    return folder.resolve()


def print_status(asked: argparse.Namespace) -> int:
    status = status_of(read_settings(folder_of(asked)))
    print_text(json_of(status) if asked.json else text_of(status))
    return MISSING if status["missing"] else SUCCESS


def print_holidays(asked: argparse.Namespace) -> int:
    """Nothing of the folder changes."""
    settings = read_settings(folder_of(asked))
    if settings.holidays.file:
        raise Misused(f"the holidays are those of {settings.holidays.file}")
    warnings: list[str] = []
    with tempfile.TemporaryDirectory(prefix="cif-feed-") as work:
        raw = RawFiles(Path(work, "raw"), Path(work))
        listed = listed_holidays(settings.holidays, raw, warnings)
    print_text("".join(f"{holiday}\n" for holiday in holidays_of(settings.holidays, listed)))
    return SUCCESS


def update_folder(asked: argparse.Namespace, progress: Progress) -> int:
    user = take_from_environment()
    folder = folder_of(asked)
    try:
        status, text = bring_up_to_date(read_settings(folder), find_cif(asked.cif), user, progress)
    except CifError as problem:
        with suppress(OSError):
            write_log(folder, f"failed: {problem}")
        raise
    progress.clear()
    if text:
        print(printable(f"{PROGRAM}: {folder}: {text}".replace("\n", " ")), file=sys.stderr)
    return status


def main(words: Sequence[str] | None = None) -> int:
    asked = arguments_of(words)

    def work(progress: Progress) -> int:
        if asked.example:
            return print_example(asked)
        if asked.status:
            return print_status(asked)
        if asked.holidays:
            return print_holidays(asked)
        return update_folder(asked, progress)

    return run(PROGRAM, work)
