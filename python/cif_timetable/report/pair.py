"""The two extracts, and the dates that both have."""
from __future__ import annotations

from collections.abc import Iterator
from contextlib import ExitStack, contextmanager
from typing import NamedTuple

from .._extract import Extract, Request, difference_of, open_extract, yymmdd
from .._process import Cif
from .._tables import Table, heading_of
from ..days import Window
from ..errors import Failed, Misused
from ..model import Header, Location


class Asked(NamedTuple):
    """Both extracts, and the dates that were asked for."""

    old: Request
    new: Request
    window: list[str]


class Side(NamedTuple):
    """An extract, its name, its header, and its places."""

    extract: Extract
    name: str
    header: Header
    tiplocs: list[Location]


class Pair(NamedTuple):
    """Two extracts, and the dates that both have."""

    old: Side
    new: Side
    asked: Asked
    window: Window

    @contextmanager
    def difference(self) -> Iterator[Table]:
        """The table that `cif diff` writes."""
        words = ["--format", "tsv", *self.asked.window]
        with difference_of(self.old.extract, self.new.extract, words) as lines:
            yield heading_of(lines)


def common_window(old: Extract, new: Extract, asked: Asked) -> Window:
    """The dates that both have, and that are asked for; `cif` refuses what can't be."""
    for extract in old, new:
        extract.words = asked.window
    headers = old.header(), new.header()
    first = max(header.first_date for header in headers)
    last = min(header.last_date for header in headers)
    if first > last:
        with difference_of(old, new, asked.window) as lines:
            lines.read()
        raise Failed("the extracts have no date in common")
    for extract in old, new:
        extract.words = ["--from", yymmdd(first), "--to", yymmdd(last)]
    return Window(first, last)


@contextmanager
def open_pair(cif: Cif, asked: Asked) -> Iterator[Pair]:
    if asked.old.name == asked.new.name == "-":
        raise Misused("only one of the extracts can be standard input")
    with ExitStack() as stack:
        old, new = (stack.enter_context(open_extract(cif, each)) for each in (asked.old, asked.new))
        headers = old.header(), new.header()
        window = common_window(old, new, asked)
        before, after = (
            Side(extract, extract.request.name, header, extract.rows("tiplocs", Location))
            for extract, header in zip((old, new), headers)
        )
        yield Pair(before, after, asked, window)
