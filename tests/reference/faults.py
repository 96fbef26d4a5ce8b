"""The faults that the program can answer, each with its text and its status."""
from __future__ import annotations

from contextlib import contextmanager
from datetime import date
from typing import TYPE_CHECKING, Callable, Iterator, List, Optional, Tuple

if TYPE_CHECKING:
    from .extracts import Entry

WORDS, REFUSED, FAILED = 2, 3, 4

# How the columns of a field are read: each gives them as they are written, or raises a refusal.
Reader = Callable[[str], str]


class Fault(Exception):
    """A fault: its text stands behind `cif: ` in the fault line. What `--verbose` says more of is there where it is known:
    the name; the number of the line and its refusal; the word that is mistaken; the records of a key and the date of their
    clash; and the number of the input that it is about.
    """

    def __init__(
        self,
        text: str,
        status: int,
        name: Optional[str] = None,
        line: Optional[int] = None,
        refusal: Optional[Refusal] = None,
        word: Optional[str] = None,
        clash: Optional[Tuple[List[Entry], date]] = None,
    ) -> None:
        super().__init__(text)
        self.text, self.status, self.name = text, status, name or text
        self.line, self.refusal, self.word, self.clash = line, refusal, word, clash
        self.at: Optional[int] = None


class Refusal(Exception):
    """A reason for which a line is refused, by its name; the first and the last refused column, and how they are read."""

    def __init__(
        self,
        name: str,
        first: Optional[int] = None,
        last: Optional[int] = None,
        read: Optional[Reader] = None,
    ) -> None:
        super().__init__(name)
        self.name, self.first, self.last, self.read = name, first, last, read


def of_line(number: int, refusal: Refusal) -> Fault:
    return Fault(f"line {number}: {refusal.name}", REFUSED, refusal.name, number, refusal)


@contextmanager
def of_input(at: int) -> Iterator[None]:
    """A fault in here is about the input of this number."""
    try:
        yield
    except Fault as fault:
        fault.at = at
        raise
