"""What ends a run, or a question, early: words for people, and a status. The statuses are those of
`cif`."""
from __future__ import annotations

import re

SUCCESS = 0
USAGE = 2
REFUSED = 3
FAILED = 4


class CifError(Exception):
    """A file is refused, or can't be read or written.

    `name` is the reason in one word, such as `BadDays` or `OutsideWindow`, or None where the words
    are all that there is; `line` the number of the line that is refused, from 1, or None; `status`
    2 for a mistake of the caller, 3 where the same files will be refused again, 4 where another try
    may succeed; `advice` what else is known, and what helps, as lines, or nothing.
    """

    status = FAILED
    name: str | None = None
    line: int | None = None
    advice = ""

    def __init__(self, *lines: str) -> None:
        super().__init__(*lines)
        self.lines = lines

    def __str__(self) -> str:
        return "\n".join(self.lines)

    def text(self, program: str) -> str:
        """What a program of this name prints that ends with it."""
        return "\n".join(f"{program}: {line}" for line in self.lines)


class Misused(CifError):
    """The arguments ask for something that can't be done."""

    status = USAGE


class Refused(CifError):
    """A file is refused: the same file will be refused again."""

    status = REFUSED


class Failed(CifError):
    """A file can't be read or written, or another program fails."""

    status = FAILED


class Unexpected(Failed):
    """`cif` writes what makes no sense, perhaps since it fails."""


class OutsideWindow(Refused):
    """A date that no extract has."""

    name = "OutsideWindow"


class Damaged(Failed):
    """A compressed file is damaged."""

    name = "ReadFault"


# Where what helps names standard input.
STANDARD_INPUT = re.compile(r"^(  (?:in )?)standard input(?=$| has )", re.MULTILINE)
# Of the line of a fault: the number of the refused line, if there is one, and the reason.
FAULT = re.compile(r"cif: (?:holidays: )?(?:line ([0-9]+): )?(\w+)(?![\w ])")


# What helps, as words of the command line and as arguments of `open`.
ARGUMENTS = (
    ("--holidays FILE", "holidays=FILE"),
    ("a line of --holidays", "a line of it"),
    ("cif prepare --drop-clashes", "drop_clashes=True"),
)


class CifEnded(CifError):
    """`cif` ended with a fault. What it printed is printed as it is."""

    def __init__(self, status: int, report: str) -> None:
        super().__init__(report)
        self.status = status
        first, _, self.advice = report.partition("\n")
        found = FAULT.match(first)
        if found:
            self.name = found[2]
            self.line = int(found[1]) if found[1] else None

    def of(self, name: str) -> CifEnded:
        """The same of a file of this name, of which standard input was a copy."""
        return CifEnded(
            self.status, STANDARD_INPUT.sub(lambda found: found[1] + name, self.lines[0])
        )

    def for_callers(self) -> CifEnded:
        """The same, where the words of the command line are those of `open`."""
        text = self.lines[0]
        for words, argument in ARGUMENTS:
            text = text.replace(words, argument)
        return CifEnded(self.status, text)

    def __reduce__(self) -> tuple[type[CifEnded], tuple[int, str]]:
        return CifEnded, (self.status, self.lines[0])

    def text(self, program: str) -> str:
        return "\n".join(self.lines)
