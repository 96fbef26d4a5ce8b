"""The program `cif`: where it is, and what it writes."""
from __future__ import annotations

import os
import shutil
import signal
import subprocess
import sysconfig
from collections.abc import Callable, Collection, Iterator, Sequence
from contextlib import contextmanager
from pathlib import Path
from typing import IO

from ._files import BLOCK, scratch_file
from .errors import FAILED, REFUSED, SUCCESS, USAGE, CifEnded, CifError, Failed, Unexpected

# How cif begins a line of what it reports.
SAID = "cif: "
# The statuses of cif that say of themselves why it ended.
FAULTS = (USAGE, REFUSED, FAILED)


def own_places() -> Iterator[Path]:
    """Where the program is that belongs to this package: in the `bin` of the installation, by pip or
    by install.sh, or in a clone's `dist`, or in the folder of an unpacked archive."""
    packages = Path(__file__).resolve().parent.parent
    above = packages.parent
    if packages.name in ("site-packages", "dist-packages"):
        yield above.parent.parent / "bin" / "cif"
    elif packages.name == "python":
        yield above / "dist" / "cif"
        yield above / "cif"
    elif packages.name == "cif":
        yield above.parent / "bin" / "cif"
    yield Path(sysconfig.get_path("scripts")) / "cif"


def find_cif(asked: str | None = None) -> Cif:
    """The program that is asked for, or else that of the variable CIF, or the one that belongs to
    this package, or one on the PATH."""
    asked = asked if asked is not None else os.environ.get("CIF") or None
    if asked is not None:
        return Cif(asked)
    # a path is looked at as it stands, and isn't split at its colons
    found = next(filter(None, (shutil.which(str(place)) for place in own_places())), None)
    found = found or shutil.which("cif")
    if found is None:
        raise Failed("cif isn't found: --cif, or the variable CIF, says which program it is")
    return Cif(found)


def ignored(_report: str) -> None:
    """Does nothing with what `cif` reports."""


def read_rest(stream: IO[bytes]) -> None:
    while stream.read(BLOCK):
        pass


def is_own(problem: Exception) -> bool:
    """Whether what ends a run has nothing to do with what `cif` writes."""
    own = isinstance(problem, (CifError, OSError, MemoryError))
    return own and not isinstance(problem, Unexpected)


def name_of_signal(number: int) -> str:
    """Python knows no name of some signals."""
    try:
        return signal.Signals(number).name
    except ValueError:
        return f"signal {number}"


class Cif:
    """The program `cif` by its path."""

    def __init__(self, path: str) -> None:
        self.path = path

    @contextmanager
    def output(
        self,
        words: Sequence[str],
        stdin: IO[bytes] | None = None,
        good: Collection[int] = (SUCCESS,),
        tell: Callable[[str], None] = ignored,
    ) -> Iterator[IO[bytes]]:
        """What a call writes, as it comes. What the block leaves is read too, since `cif` fails if it
        can't write all. If the block fails, `cif` ends with it. If its status isn't a good one, the
        run ends with what it reported and what would help; else `tell` gets each line of what it
        reported."""
        with scratch_file() as report:
            call = [self.path, *words[:1], "--verbose", *words[1:]]
            try:
                process = subprocess.Popen(
                    call, stdin=stdin or subprocess.DEVNULL, stdout=subprocess.PIPE, stderr=report
                )
            except OSError as problem:
                raise Failed(f"{self.path} can't be run: {problem.strerror}") from None
            with process:
                assert process.stdout is not None
                try:
                    yield process.stdout
                    read_rest(process.stdout)
                except Exception as problem:  # pylint: disable=broad-except
                    if is_own(problem):
                        process.kill()
                        raise
                    read_rest(process.stdout)
                    if process.wait() in good:
                        raise
                except BaseException:
                    process.kill()
                    raise
            report.seek(0)
            reported = report.read().decode(errors="replace")
            if process.returncode not in good:
                raise self.ending(process.returncode, reported)
            for line in reported.splitlines():
                # the others are what is said to the verbose
                if line.startswith(SAID):
                    tell(line)

    def ending(self, status: int, report: str) -> CifEnded:
        """How the run ends after a call that ended so."""
        lines = report.splitlines()
        if status < 0:
            lines.append(f"cif was killed by {name_of_signal(-status)}: {self.path}")
        elif status not in FAULTS:
            lines.append(
                f"cif ended with status {status}, which isn't one of its faults: {self.path}"
            )
        elif not lines:
            lines.append(f"cif ended with status {status}, and doesn't say why: {self.path}")
        return CifEnded(status if status in FAULTS else FAILED, "\n".join(lines))
