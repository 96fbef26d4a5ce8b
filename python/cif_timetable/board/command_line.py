"""The arguments of cif-board, and its status."""
from __future__ import annotations

import argparse
import errno
import logging
import signal
import sys
import webbrowser
from collections.abc import Sequence
from pathlib import Path
from types import FrameType
from typing import TYPE_CHECKING

from .._arguments import add_help, new_parser
from .._progress import Progress
from .._running import INTERRUPTS, run
from ..errors import SUCCESS, Failed
from . import LOOPBACK, create_app

if TYPE_CHECKING:
    from flask import Flask

PROGRAM = "cif-board"
DEFAULT_ADDRESS = "127.0.0.1"
DEFAULT_PORT = 8080
THREADS = 8
WITHOUT = "Flask and waitress are missing: `apt install python3-flask python3-waitress`, or `pip install '.[board]'` in a clone"

ABOUT = """\
Shows the database of cif-sql on pages for a browser on this machine: departures
and arrivals of a station, a train and its dates, trains from one station to
another, operators. It only reads the database, which can be replaced meanwhile.
"""
STATUSES = """\
statuses:
  0  it was ended, by an interrupt or SIGTERM
  2  a usage error
  3  the file isn't a database of this release of cif-sql
  4  the file can't be read, the port is taken, or Flask or waitress is missing
"""


def port(text: str) -> int:
    if not (text.isascii() and text.isdigit() and int(text[:6]) < 1 << 16):
        raise argparse.ArgumentTypeError(f"`{text}` isn't a port from 0 to 65535")
    return int(text)


def host(text: str) -> str:
    if not text or any(letter in text for letter in "/:@ ") and not text.startswith("["):
        raise argparse.ArgumentTypeError(f"`{text}` isn't the name of a host, without a port")
    return text


def arguments_of(words: Sequence[str] | None) -> argparse.Namespace:
    parser = new_parser(PROGRAM, ABOUT, STATUSES)
    add = parser.add_argument
    add(
        "--port",
        type=port,
        default=DEFAULT_PORT,
        metavar="PORT",
        help=f"the port, {DEFAULT_PORT} by default; 0 takes a free one",
    )
    add(
        "--listen",
        default=DEFAULT_ADDRESS,
        metavar="ADDRESS",
        help=f"the address to listen on, by default {DEFAULT_ADDRESS}, for this machine alone",
    )
    add(
        "--host",
        type=host,
        action="append",
        default=[],
        metavar="NAME",
        help="a further name that browsers may use for this machine",
    )
    add("--open", action="store_true", help="open the first page in a browser")
    add_help(parser)
    add("database", metavar="DATABASE", help="the database that cif-sql has made")
    return parser.parse_args(words)


def stop(_number: int, _frame: FrameType | None) -> None:
    """Ends the server, which takes this for its end and not for a fault."""
    raise KeyboardInterrupt


def host_of(address: str) -> str:
    """An address as it stands in a URL."""
    return f"[{address}]" if ":" in address else address


def application_of(asked: argparse.Namespace) -> Flask:
    hosts = (*LOOPBACK, host_of(asked.listen), *asked.host)
    try:
        return create_app(Path(asked.database), hosts)
    except ModuleNotFoundError:
        raise Failed(WITHOUT) from None


def serve(asked: argparse.Namespace) -> int:
    """The status, once the server is ended."""
    app = application_of(asked)
    try:
        import waitress  # pylint: disable=import-outside-toplevel
    except ModuleNotFoundError:
        raise Failed(WITHOUT) from None
    try:
        server = waitress.create_server(
            app, host=asked.listen, port=asked.port, threads=THREADS, ident=PROGRAM
        )
    except OSError as problem:
        if problem.errno == errno.EADDRINUSE:
            raise Failed(f"port {asked.port} is taken: --port names another") from None
        raise Failed(f"{asked.listen}: {problem.strerror or problem}") from None
    # many requests at once are no fault
    logging.getLogger("waitress.queue").setLevel(logging.ERROR)
    for number in INTERRUPTS:
        if signal.getsignal(number) != signal.SIG_IGN:
            signal.signal(number, stop)
    address = f"http://{host_of(asked.listen)}:{server.effective_port}/"
    try:
        print(address, flush=True)
        if asked.open:
            webbrowser.open(address)
        server.run()
    except KeyboardInterrupt:
        pass
    finally:
        server.close()
    return SUCCESS


def main(words: Sequence[str] | None = None) -> int:
    asked = arguments_of(words)

    def work(_: Progress) -> int:
        return serve(asked)

    return run(PROGRAM, work)


if __name__ == "__main__":
    sys.exit(main())
