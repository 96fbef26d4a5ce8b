"""How a difference ends a run, and rows held against rows."""
from __future__ import annotations

from collections.abc import Iterable, Sequence
from itertools import zip_longest

from ..errors import CifError

# The status of a run that finds a difference.
DIFFERENT = 1


class Different(CifError):
    """Something isn't as the extract says."""

    status = DIFFERENT


def shown(row: str | None) -> str:
    """A row as a difference names it: its cells with a bar between two."""
    return "no row" if row is None else f"`{row.rstrip(chr(10)).replace(chr(9), '|')}`"


def differing(names: Sequence[str], found: str | None, wanted: str | None) -> str:
    """What the one field is that two rows have differently, if it is one, and else both rows."""
    if found is not None and wanted is not None:
        cells = zip(names, found.rstrip("\n").split("\t"), wanted.rstrip("\n").split("\t"))
        others = [(name, one, other) for name, one, other in cells if one != other]
        if len(others) == 1:
            name, one, other = others[0]
            return f"{name} is `{one}` and not `{other}`, in {shown(found)}"
    return f"{shown(found)} and not {shown(wanted)}"


def compare_rows(
    what: str, names: Sequence[str], found: Iterable[str], wanted: Iterable[str]
) -> int:
    """How many rows there are, if both have the same rows in the same order."""
    number = 0
    for number, (one, other) in enumerate(zip_longest(found, wanted), 1):
        if one != other:
            raise Different(f"{what}, row {number}: {differing(names, one, other)}")
    return number
