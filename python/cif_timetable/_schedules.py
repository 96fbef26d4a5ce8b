"""The rows that a table has of each schedule."""
from __future__ import annotations

import re
from collections.abc import Iterator
from itertools import chain

from ._files import BLOCK
from ._tables import Table

# The number of a schedule, and its rows as they stand.
Calls = tuple[bytes, bytes]

# The rows of a schedule, before the number of another one, and what a row of calls has after its
# number and that of the call.
ROWS_OF_SCHEDULE = re.compile(rb"([0-9]+)\t.*\n(?:\1\t.*\n)*(?=(?!\1\t)[0-9]+\t)")
ROW = re.compile(rb"\t[0-9]+\t(.*\n)")
NUMBER = re.compile(rb"^[0-9]+\t([0-9]+)", re.MULTILINE)
# Where the rows of a schedule end in most cases.
NEAR = 4096
# Stands for another schedule after the last one.
END = b"0\t"


def numbered(schedule: bytes, text: bytes) -> bytes:
    """The rows of a schedule from the number of the call on."""
    start = schedule + b"\t"
    return text[len(start) :].replace(b"\n" + start, b"\n")


def rows_of(text: bytes) -> list[bytes]:
    """The rows from the location on."""
    return ROW.findall(text)


def numbers_of(text: bytes) -> list[int]:
    """The numbers of the calls."""
    return list(map(int, NUMBER.findall(text)))


def calls_by_schedule(table: Table) -> Iterator[Calls]:
    """The rows of a table of calls, schedule by schedule, cut from blocks. The last ones of a block
    may go on in the next. The next schedule mostly has the next number, which is looked for first,
    since that takes less time than looking at each row."""
    rest = b""
    for block in chain(iter(lambda: table.lines.read(BLOCK), b""), (END,)):
        text = rest + block
        at = 0
        found = ROWS_OF_SCHEDULE.match(text)
        while found:
            yield found[1], text[at : found.end()]
            at = found.end()
            schedule = text[at : text.find(b"\t", at)]
            number = int(schedule) + 1
            following = b"\n%d\t" % number
            end = text.find(following, at, at + NEAR) + 1
            while end:
                yield schedule, text[at:end]
                at = end
                schedule = following[1:-1]
                number += 1
                following = b"\n%d\t" % number
                end = text.find(following, at, at + NEAR) + 1
            found = ROWS_OF_SCHEDULE.match(text, at)
        rest = text[at:]
