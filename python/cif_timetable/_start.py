"""_start.py PROGRAM [WORD..]: starts a program of this package.

What ends it before its run begins, such as too little memory for its modules, is reported with the
status of a failure: Python's own, 1, may mean something else. Older releases of Python can read this.
"""
from __future__ import annotations

import os
import sys

FAILED = 4
OLDEST = (3, 11)
PACKAGES = {
    "cif-board": "board",
    "cif-feed": "feed",
    "cif-gtfs": "gtfs",
    "cif-gtfs-csv": "public_files",
    "cif-report": "report",
    "cif-sql": "sql",
}


def status_of(program: str) -> int:
    """The status of a program, once it has run."""
    if sys.version_info < OLDEST:
        raise ImportError("it needs Python %d.%d or later" % OLDEST)
    package = "cif_timetable." + PACKAGES[program]
    command_line = __import__(package + ".command_line", fromlist=["main"])
    status: int = command_line.main()
    return status


def run(program: str) -> None:
    """Ends this process by a run of a program."""
    try:
        status = status_of(program)
    except MemoryError:
        reason = "memory ran out"
    except ImportError as problem:
        reason = "it can't be started: %s" % problem
    except (Exception, KeyboardInterrupt) as problem:  # pylint: disable=broad-except
        reason = "it can't be started: %s: %s" % (type(problem).__name__, problem)
    else:
        sys.exit(status)
    try:
        os.write(2, ("%s: %s\n" % (program, reason)).encode(errors="replace"))
    finally:
        # whatever else fails as Python ends
        os._exit(FAILED)  # pylint: disable=protected-access


def board() -> None:
    """cif-board, where it is installed by pip."""
    run("cif-board")


def feed() -> None:
    """cif-feed, likewise."""
    run("cif-feed")


def gtfs() -> None:
    """cif-gtfs, likewise."""
    run("cif-gtfs")


def gtfs_csv() -> None:
    """cif-gtfs-csv, likewise."""
    run("cif-gtfs-csv")


def report() -> None:
    """cif-report, likewise."""
    run("cif-report")


def sql() -> None:
    """cif-sql, likewise."""
    run("cif-sql")


if __name__ == "__main__":
    # what is imported depends on no file of the current folder, nor on one of this
    sys.path[0] = os.path.dirname(os.path.dirname(os.path.realpath(__file__)))
    run(sys.argv.pop(1))
