"""The arguments that all programs have."""
from __future__ import annotations

import argparse
import re
import sys
from collections.abc import Sequence
from dataclasses import replace
from itertools import takewhile
from typing import IO

from . import __version__  # pylint: disable=cyclic-import
from ._extract import Request
from ._running import open_streams, printable, run, standard_output
from .errors import SUCCESS

MOST_PROCESSES = 64
# An option with the value `--`, which argparse takes away in some releases of Python.
WITHOUT_VALUE = re.compile(r"(--[a-z-]+)=--|(-[a-z])--")


class Parser(argparse.ArgumentParser):
    """Reads arguments. If the help or the version can't be written, the run ends as any other."""

    def parse_known_args(
        self, args: Sequence[str] | None = None, namespace: argparse.Namespace | None = None
    ) -> tuple[argparse.Namespace, list[str]]:
        words = sys.argv[1:] if args is None else args
        for word in takewhile(lambda word: word != "--", words):
            found = WITHOUT_VALUE.fullmatch(word)
            if found:
                self.error(f"argument {found[1] or found[2]}: expected one argument")
        return super().parse_known_args(words, namespace)

    def _print_message(self, message: str, file: IO[str] | None = None) -> None:
        if file is not sys.stdout:
            super()._print_message(printable(message), file)
            return

        def write(_: object) -> int:
            with standard_output() as output:
                output.write(message.encode())
            return SUCCESS

        status = run(self.prog, write)
        if status != SUCCESS:
            sys.exit(status)


def new_parser(program: str, about: str, epilog: str = "") -> argparse.ArgumentParser:
    """The parser of a program that starts."""
    open_streams()
    return Parser(
        program,
        description=about,
        epilog=epilog,
        add_help=False,
        allow_abbrev=False,
        formatter_class=argparse.RawDescriptionHelpFormatter,
    )


def add_reading(parser: argparse.ArgumentParser) -> None:
    """How an extract is read."""
    parser.add_argument("--from", dest="first", metavar="YYMMDD", help="first date of the window")
    parser.add_argument("--to", dest="last", metavar="YYMMDD", help="last date of the window")
    parser.add_argument(
        "--holidays", metavar="FILE", help="the dates of the holiday codes of a published extract"
    )
    parser.add_argument(
        "--drop-clashes",
        action="store_true",
        help="leave out what has a clash, on the dates of the clash",
    )


def add_names(parser: argparse.ArgumentParser) -> None:
    parser.add_argument(
        "--places",
        action="append",
        default=[],
        metavar="FILE",
        help="names and coordinates: a CSV file with tiploc, name, latitude, longitude,"
        " and perhaps station_crs; of several files the first filled cell counts",
    )
    parser.add_argument(
        "--operators", metavar="FILE", help="names of operators: operator_code, name, url"
    )


def preparing_of(asked: argparse.Namespace, name: str) -> Request:
    """An extract by its name, and what prepares it."""
    return Request(name, holidays=asked.holidays, drop_clashes=asked.drop_clashes)


def request_of(asked: argparse.Namespace, name: str) -> Request:
    """Likewise, with the part of its window that is asked for."""
    return replace(preparing_of(asked, name), first=asked.first, last=asked.last)


def number_of_processes(text: str) -> int:
    if not (text.isascii() and text.isdigit() and 0 < int(text[:4]) <= MOST_PROCESSES):
        number = f"isn't a number of processes from 1 to {MOST_PROCESSES}"
        raise argparse.ArgumentTypeError(f"`{text}` {number}")
    return int(text)


def add_processes(parser: argparse.ArgumentParser) -> None:
    parser.add_argument(
        "--processes",
        type=number_of_processes,
        metavar="NUMBER",
        help="how many processes work side by side, by default as many as fit",
    )


def add_cif(parser: argparse.ArgumentParser) -> None:
    parser.add_argument(
        "--cif",
        metavar="PROGRAM",
        help="the program cif, by default that of CIF, or the one beside this, or on the PATH",
    )


def add_help(parser: argparse.ArgumentParser) -> None:
    parser.add_argument("-h", "--help", action="help", help="print help")
    parser.add_argument(
        "-V", "--version", action="version", version=f"%(prog)s {__version__}", help="print version"
    )
