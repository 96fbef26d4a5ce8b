"""The frame of a run: standard streams, interrupts, whatever ends it, and its status."""
from __future__ import annotations

import gc
import os
import re
import signal
import sys
import traceback
from collections.abc import Callable, Iterator
from contextlib import contextmanager
from types import FrameType
from typing import IO

from ._progress import Progress
from .errors import FAILED, CifError, Failed

INTERRUPTS = (signal.SIGINT, signal.SIGTERM, signal.SIGHUP)
# What a terminal would act on, as it can stand in the name of a file; all but the line break.
CONTROL = re.compile(r"[\x00-\x09\x0b-\x1f\x7f-\x9f]")


def printable(text: str) -> str:
    """A text as it is reported."""
    return CONTROL.sub("?", text)


def open_streams() -> None:
    """Opens those standard streams that are closed, so that no other file gets their numbers. They
    can't be read or written, but a report goes nowhere. Each one gets the least number that is free.
    """
    if sys.stdin is None:
        sys.stdin = open(os.open(os.devnull, os.O_WRONLY), encoding="utf-8")
    if sys.stdout is None:
        sys.stdout = open(os.open(os.devnull, os.O_RDONLY), "w", encoding="utf-8")
    if sys.stderr is None:
        sys.stderr = open(os.open(os.devnull, os.O_WRONLY), "w", encoding="utf-8")


@contextmanager
def standard_output() -> Iterator[IO[bytes]]:
    """Standard output, which has all that is written when the block ends. `sys.stdout` may be
    unbuffered, and then drops the rest of what is written in part."""
    with open(sys.stdout.fileno(), "wb", closefd=False) as output:
        yield output


def nothing(_number: int, _frame: FrameType | None) -> None:
    """Does nothing. Where Python itself ignores a signal, it reports one that has just come."""


def ignore_interrupts() -> None:
    for number in INTERRUPTS:
        signal.signal(number, nothing)


def ends_by_interrupts() -> bool:
    """Whether this is the run of a program, which interrupts end. What imports this package decides
    itself what they do."""
    return any(signal.getsignal(number) == interrupt for number in INTERRUPTS)


def interrupt(number: int, _frame: FrameType | None) -> None:
    """Ends the run. A further interrupt would come between what cleans up, so it is ignored."""
    ignore_interrupts()
    raise Failed(f"interrupted by {signal.Signals(number).name}")


def catch_interrupts() -> None:
    """An interrupt that is ignored stays so, as under nohup."""
    for number in INTERRUPTS:
        if signal.getsignal(number) != signal.SIG_IGN:
            signal.signal(number, interrupt)


def description_of(problem: OSError) -> str:
    """The file and the reason of a fault of the system."""
    reason = problem.strerror or str(problem)
    if problem.filename is None:
        return reason
    return f"{os.fspath(problem.filename) or repr('')}: {reason}"


def is_want_of_memory(problem: Exception) -> bool:
    """Whether memory ran out, of which Python says so in several ways."""
    if isinstance(problem, RuntimeError):
        return "start new thread" in str(problem)
    no_room = isinstance(problem, ImportError) and "failed to map" in str(problem)
    return no_room or isinstance(problem, MemoryError)


def leave_cycles() -> None:
    """Ends Python's looking for cycles: nothing that is kept has any, and it takes a tenth of the
    time."""
    gc.disable()


def run(program: str, work: Callable[[Progress], int]) -> int:
    """The status of a run: that of its work, or of what ended it, which is printed."""
    progress = Progress()
    catch_interrupts()
    text = ""
    try:
        status = work(progress)
    except CifError as ending:
        text = ending.text(program)
        status = ending.status
    except BrokenPipeError:
        text = f"{program}: standard output can't be written: nobody reads it"
        status = FAILED
    except OSError as problem:
        text = f"{program}: {description_of(problem)}"
        status = FAILED
    except Exception as problem:  # pylint: disable=broad-except
        # Python's own status, 1, may mean something else
        text = f"{program}: memory ran out"
        if not is_want_of_memory(problem):
            fault = f"{program}: this is a fault of {program}, or its cif is another program"
            text = f"{traceback.format_exc()}{fault}"
        status = FAILED
    for number in INTERRUPTS:
        signal.signal(number, signal.SIG_IGN)
    try:
        progress.clear()
        if text:
            print(printable(text), file=sys.stderr, flush=True)
    except OSError:
        # nobody can be told, and what is left in the buffer goes nowhere
        os.dup2(os.open(os.devnull, os.O_WRONLY), sys.stderr.fileno())
    return status
