"""An extract in a file, which is unpacked and prepared if need be, and what `cif` says of it."""
from __future__ import annotations

import os
import stat
import sys
from collections.abc import Callable, Iterator, Sequence
from contextlib import ExitStack, contextmanager
from dataclasses import dataclass
from datetime import date
from pathlib import Path
from typing import IO, NamedTuple, TypeVar

from ._files import BLOCK, scratch_file_with_path
from ._process import Cif, ignored
from ._tables import Table, heading_of
from ._unpack import LONGEST, ZIP, copy_extract, is_packed, unpack
from .errors import REFUSED, SUCCESS, CifEnded, Failed, Misused, OutsideWindow
from .model import Header

Value = TypeVar("Value")

# The status of `cif diff` where it finds a difference.
DIFFERENT = 1
# How records are joined over weeks: what `cif` takes by default.
FORM = "3"
# The years of extracts, of which two digits are written.
YEARS = range(1960, 2060)
# What is said of dates, and not of lines.
AMBIGUOUS = "Ambiguous"
OF_DATES = (AMBIGUOUS, "OutsideWindow")


def yymmdd(day: date) -> str:
    """A date as `cif` takes it."""
    if day.year not in YEARS:
        raise OutsideWindow(
            f"{day:%Y-%m-%d} isn't a date from 1960 to 2059, as those of extracts are"
        )
    return f"{day:%y%m%d}"


@dataclass(frozen=True)
class Request:
    """An extract by its name, the part of its window that is asked for, as `cif` takes dates, and
    what helps to prepare a published one."""

    name: str
    first: str | None = None
    last: str | None = None
    holidays: str | None = None
    drop_clashes: bool = False

    def window(self) -> list[str]:
        """The words for the part of the window."""
        words = ["--from", self.first] if self.first is not None else []
        return words + (["--to", self.last] if self.last is not None else [])

    def preparing(self) -> list[str]:
        """The words that prepare it."""
        words = [f"--holidays={self.holidays}"] if self.holidays is not None else []
        return words + (["--drop-clashes"] if self.drop_clashes else [])

    def prepares(self, refusal: CifEnded) -> bool:
        """Whether to prepare an extract that is refused so."""
        if refusal.name == AMBIGUOUS:
            return self.drop_clashes
        return refusal.name not in OF_DATES


class State(NamedTuple):
    """What tells a file from one that has taken its place, or that has changed."""

    device: int
    number: int
    size: int
    changed: int


def state_of(path: Path) -> State | None:
    """The state of a file, or None where there is none."""
    try:
        found = path.stat()
    except OSError:
        return None
    return State(found.st_dev, found.st_ino, found.st_size, found.st_mtime_ns)


class Extract:
    """An extract in a file, with the words that ask for a part of its window. All of its tables are
    of the same bytes, or the run ends."""

    def __init__(self, cif: Cif, path: Path, request: Request, source: Path | None = None) -> None:
        self.cif = cif
        self.path = path
        self.request = request
        # the file with the bytes that the user gave, of which this is a copy unless it is the same
        self.source = source or path
        self.copied = source is not None
        self.words: Sequence[str] = request.window()
        self.state = state_of(path)
        # a file with the records before the schedules, of which alone small tables are made
        self.head: Path | None = None
        # why its dates are refused
        self.refused: CifEnded | None = None
        # the published one that this was prepared from
        self.published: Extract | None = None

    @property
    def name(self) -> str:
        """What to call it."""
        return "standard input" if self.request.name == "-" else self.request.name

    @property
    def word(self) -> str:
        """The path as an argument. `-` would be standard input."""
        return "./-" if str(self.path) == "-" else str(self.path)

    def check_state(self) -> None:
        if state_of(self.path) != self.state:
            raise Failed(f"{self.name} has changed while it was read")

    @contextmanager
    def answer(
        self,
        words: Sequence[str],
        values: Sequence[str] = (),
        tell: Callable[[str], None] = ignored,
    ) -> Iterator[IO[bytes]]:
        """What a command says of the extract, as it comes. The values stand before the extract, which
        is standard input to it if it is a copy."""
        file = "-" if self.copied else self.word
        with open(self.path if self.copied else os.devnull, "rb") as stdin:
            try:
                with self.cif.output([*words, "--", *values, file], stdin, tell=tell) as lines:
                    yield lines
            except CifEnded as ended:
                raise (ended.of(self.name) if self.copied else ended) from None
            finally:
                self.check_state()

    @contextmanager
    def rows_of(self, words: Sequence[str], values: Sequence[str] = ()) -> Iterator[Table]:
        """The table that a command writes, as it comes."""
        with self.answer(words, values) as lines:
            yield heading_of(lines)

    @contextmanager
    def table(self, name: str, window: Sequence[str] | None = None) -> Iterator[Table]:
        """A table as it comes, of the window of the extract or of another part."""
        words = self.words if window is None else window
        with self.rows_of(["table", "--form", FORM, *words], [name]) as table:
            yield table

    def refusal(self) -> CifEnded | None:
        """Why `cif` refuses the extract, or None."""
        try:
            with self.answer(["check", *self.words]):
                return None
        except CifEnded as refusal:
            if refusal.status != REFUSED:
                raise
            return refusal

    def rows(self, name: str, kind: type[Value]) -> list[Value]:
        """All rows of a table of header, places or associations. Nothing of these depends on the
        schedules, after which none of them stands; so what is before the schedules is enough. What
        is refused is read whole, so that it is reported as a part of the whole."""
        if self.head:
            try:
                with open(self.head, "rb") as stdin:
                    words = ["table", "--form", FORM, *self.words, "--", name, "-"]
                    with self.cif.output(words, stdin) as lines:
                        return list(heading_of(lines).values(kind))
            except CifEnded:
                pass
        with self.table(name) as table:
            return list(table.values(kind))

    def header(self) -> Header:
        [header] = self.rows("header", Header)
        return header

    @contextmanager
    def deciding(self) -> Iterator[Table]:
        """Which schedule of the extract as it was given decides on each date of its window."""
        given = self.published or self
        with given.rows_of(["prepare", "--winners", *self.request.preparing()]) as table:
            yield table

    @contextmanager
    def winners(self) -> Iterator[Table | None]:
        """Which published schedule decides on each date, or None if it wasn't prepared from a published
        one, or by a `cif` that doesn't say."""
        if self.published is None or not says_winners(self.cif):
            yield None
            return
        with self.deciding() as table:
            yield table


def says_winners(cif: Cif) -> bool:
    """Whether a program says which published schedule decides."""
    with cif.output(["prepare", "--help"]) as lines:
        return b"--winners" in lines.read()


def tell_user(report: str) -> None:
    """Prints what `cif` says beside its answer, as `cif` does."""
    print(report, file=sys.stderr, flush=True)


# ---- parts of extracts

SCHEDULE = b"BS"
TRAILER = b"ZZ".ljust(80) + b"\n"


def write_head(extract: IO[bytes], head: IO[bytes]) -> bool:
    """Writes what stands before the first schedule. Returns whether there is a schedule."""
    for line in iter(lambda: extract.readline(LONGEST), b""):
        if line.startswith(SCHEDULE):
            head.write(TRAILER)
            return True
        if not line.endswith(b"\n"):
            return False
        head.write(line)
    return False


@contextmanager
def with_head(extract: Extract) -> Iterator[Extract]:
    """The extract with a file of what stands before its schedules."""
    with scratch_file_with_path() as (head, path):
        with open(extract.path, "rb") as whole:
            found = write_head(whole, head)
        head.flush()
        extract.head = path if found else None
        yield extract


# ---- two extracts


@contextmanager
def difference_of(old: Extract, new: Extract, words: Sequence[str]) -> Iterator[IO[bytes]]:
    """What `cif diff` writes. Of the files that are copies one is its standard input."""
    copied = next((each.path for each in (old, new) if each.copied), None)
    files = ["-" if each.path == copied else each.word for each in (old, new)]
    with open(copied or os.devnull, "rb") as stdin:
        call = ["diff", "--common", *words, "--", *files]
        with old.cif.output(call, stdin, (SUCCESS, DIFFERENT)) as lines:
            yield lines
    for extract in old, new:
        extract.check_state()


# ---- opening


def is_stream(name: str) -> bool:
    """Whether an extract can be read once alone: standard input, `-`, a pipe, or what is open already,
    as `/dev/stdin` is, whose name means another file to another program."""
    if name == "-":
        return True
    mode = os.stat(name).st_mode
    if not (stat.S_ISREG(mode) or stat.S_ISFIFO(mode)):
        raise Misused(f"{name} has to be a file, a pipe, or - for standard input")
    return stat.S_ISFIFO(mode) or os.path.abspath(name).startswith(("/dev/", "/proc/"))


@contextmanager
def open_extract(
    cif: Cif, request: Request, tell: Callable[[str], None] = tell_user
) -> Iterator[Extract]:
    """The extract of a file, unpacked and prepared if need be. What `cif` refuses because of its
    lines is prepared; what it refuses because of dates is for what asks for these. `tell` gets what
    `cif prepare` says beside its answer."""
    with ExitStack() as stack:
        extract = stack.enter_context(unpacked(cif, request))
        extract.refused = extract.refusal()
        if extract.refused and request.prepares(extract.refused):
            extract = stack.enter_context(prepared(extract, tell))
            extract.refused = extract.refusal()
        yield stack.enter_context(with_head(extract))


@contextmanager
def unpacked(cif: Cif, request: Request) -> Iterator[Extract]:
    """The extract as it is, unless it is compressed. A stream is copied first, since an extract is
    read several times."""
    name, path = request.name, Path(request.name)
    with ExitStack() as stack:
        is_copied = is_stream(name)
        if is_copied:
            stream = sys.stdin.buffer if name == "-" else stack.enter_context(open(name, "rb"))
            path = stack.enter_context(copy_by(lambda copy: copy_extract(stream, copy)))
        extract = Extract(cif, path, request, path if is_copied else None)
        with open(path, "rb") as packed:
            if is_packed(packed.read(len(ZIP))):
                packed.seek(0)
                copy = copy_by(lambda copy: unpack(packed, extract.name, copy))
                copied = Extract(cif, stack.enter_context(copy), request, path)
                extract.check_state()
                extract = copied
        yield extract


@contextmanager
def prepared(extract: Extract, tell: Callable[[str], None]) -> Iterator[Extract]:
    """What `cif prepare` makes of an extract."""

    def write(copy: IO[bytes]) -> None:
        with extract.answer(["prepare", *extract.request.preparing()], tell=tell) as lines:
            for block in iter(lambda: lines.read(BLOCK), b""):
                copy.write(block)

    with copy_by(write) as path:
        found = Extract(extract.cif, path, extract.request, extract.source)
        found.published = extract
        yield found


@contextmanager
def copy_by(write: Callable[[IO[bytes]], None]) -> Iterator[Path]:
    """The path of a temporary file with what is written into it."""
    with scratch_file_with_path() as (copy, path):
        write(copy)
        copy.flush()
        yield path
