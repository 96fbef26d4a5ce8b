"""Parts of the public calls, which processes turn into trips side by side."""
from __future__ import annotations

import os
from array import array
from collections.abc import Callable, Iterator
from contextlib import contextmanager
from queue import Queue
from threading import Thread
from typing import IO, NamedTuple, TypeVar

from .._files import BLOCK
from .._tables import Table

# An extract with fewer schedules is read by one process.
MANY_SCHEDULES = 20_000

Item = TypeVar("Item")


def processes_for(asked: int | None, schedules: int) -> int:
    """How many processes turn the calls of so many schedules into trips."""
    if asked is not None:
        return asked
    return len(os.sched_getaffinity(0)) if schedules >= MANY_SCHEDULES else 1


class Schedules:
    """The rows of `schedules`, in a temporary file."""

    def __init__(self, names: list[str], file: IO[bytes]) -> None:
        self.names = names
        self.file = file
        self.count = 0

    def fill(self, table: Table) -> None:
        for block in iter(lambda: table.lines.read(BLOCK), b""):
            self.count += block.count(b"\n")
            self.file.write(block)
        self.file.flush()

    def lines(self) -> IO[bytes]:
        """All rows, from the first on."""
        self.file.seek(0)
        return self.file

    def lines_in(self, first: int, last: int) -> list[bytes]:
        """The rows from one byte of the file to another."""
        return os.pread(self.file.fileno(), last - first, first).splitlines(keepends=True)


class Part(NamedTuple):
    """The rows of `public` of some trains, and where the rows of their schedules begin and end."""

    text: bytes
    first: int
    last: int
    # the number of the next schedule
    number: int


class Index:
    """Of each schedule by its number, which rises by one: where its row begins, and the number of the
    first schedule of its train."""

    def __init__(self, schedules: Schedules) -> None:
        self.starts = array("q", [0])
        self.firsts = array("q", [0])
        at = 0
        before = b""
        for number, line in enumerate(schedules.lines(), 1):
            uid = line.split(b"\t", 2)[1]
            self.firsts.append(self.firsts[-1] if uid == before else number)
            self.starts.append(at)
            at += len(line)
            before = uid
        self.starts.append(at)


def parts_of(index: Index, table: Table) -> Iterator[Part]:
    """The parts of the table, each with all rows of its trains. The parts of a table are always the
    same."""
    rest = b""
    done = 1
    for block in iter(lambda: table.lines.read(BLOCK), b""):
        text = rest + block
        number = first_of_last_train(text, index)
        cut = start_of(number, text, index)
        if cut:
            yield Part(text[:cut], index.starts[done], index.starts[number], number)
            done = number
        rest = text[cut:]
    if rest:
        yield Part(rest, index.starts[done], index.starts[-1], len(index.starts) - 1)


def first_of_last_train(text: bytes, index: Index) -> int:
    """The number of the first schedule of the train of the last whole row."""
    row = text.rfind(b"\n", 0, max(text.rfind(b"\n"), 0)) + 1
    return index.firsts[int(text[row : text.index(b"\t", row)])]


def start_of(number: int, text: bytes, index: Index) -> int:
    """Where the rows of a train begin, by the number of its first schedule, which needn't have one."""
    first = index.firsts[number]
    while index.firsts[number] == first:
        start = b"%d\t" % number
        if text.startswith(start):
            return 0
        at = text.find(b"\n" + start)
        if at >= 0:
            return at + 1
        number += 1
    return 0


@contextmanager
def in_thread(work: Callable[[Item], None]) -> Iterator[Callable[[Item], None]]:
    """Hands items on to a thread, which works on them in their order. All is done when the block
    ends."""
    queue: Queue[Item | None] = Queue(4)
    problems: list[BaseException] = []

    def work_on_all() -> None:
        for item in iter(queue.get, None):
            try:
                if not problems:
                    work(item)
            except BaseException as problem:  # pylint: disable=broad-except
                problems.append(problem)

    def hand_on(item: Item) -> None:
        if problems:
            raise problems[0]
        queue.put(item)

    thread = Thread(target=work_on_all, daemon=True)
    thread.start()
    try:
        yield hand_on
    finally:
        queue.put(None)
        thread.join()
    if problems:
        raise problems[0]
