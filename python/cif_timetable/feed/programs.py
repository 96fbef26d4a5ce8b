"""The programs that make the outputs: those of this package, and psql."""
from __future__ import annotations

import re
import subprocess
import sys
from collections.abc import Sequence
from pathlib import Path

from ..errors import REFUSED, USAGE, CifError, Failed, Misused, Refused

START = Path(__file__).resolve().parent.parent / "_start.py"
PSQL = "psql"
# cif-gtfs has this status if stations have no coordinates.
WANTING = 1
# What `cif` says of lines and clashes, which the run knows already.
KNOWN = re.compile(r"cif: (?:dropped|holidays of [A-Z]|line \d+): ")


def call_of(program: str, words: Sequence[str]) -> list[str]:
    """The words that start a program of this package."""
    return [sys.executable, "-B", str(START), program, *words]


def reason_of(said: Sequence[str], status: int, program: str) -> str:
    """Why a program fails: the first line that it says."""
    reason = next(iter(said), f"it ended with status {status}, and doesn't say why")
    is_named = reason.startswith((f"{program}: ", f"{program}:<stdin>:", "cif: "))
    return reason if is_named else f"{program}: {reason}"


def ending(status: int, said: Sequence[str], program: str) -> CifError:
    """How the run ends after a program of this package that fails."""
    kinds = {USAGE: Misused, REFUSED: Refused}
    return kinds.get(status, Failed)(reason_of(said, status, program))


def run_program(
    program: str, words: Sequence[str], folder: Path, output: Path | None = None
) -> list[str]:
    """Runs a program of this package in a folder. Returns what it says beside its answer."""
    with open(output or "/dev/null", "wb") as stdout:
        done = subprocess.run(
            call_of(program, words),
            cwd=folder,
            stdin=subprocess.DEVNULL,
            stdout=stdout,
            stderr=subprocess.PIPE,
            check=False,
        )
    said = done.stderr.decode(errors="replace").splitlines()
    if done.returncode not in (0, WANTING if program == "cif-gtfs" else 0):
        raise ending(done.returncode, said, program)
    return [line for line in said if not KNOWN.match(line)]


def load_postgresql(words: Sequence[str], connection: str, folder: Path) -> None:
    """Loads an extract into PostgreSQL. Its last transaction does it: before that, nothing changes."""
    psql = [PSQL, "-X", "-q", "-w", "-v", "ON_ERROR_STOP=1", "-d", connection]
    try:
        loader = subprocess.Popen(
            psql, stdin=subprocess.PIPE, stdout=subprocess.DEVNULL, stderr=subprocess.PIPE
        )
    except OSError as problem:
        raise Failed(f"{PSQL} can't be run: {problem.strerror}") from None
    with loader:
        try:
            writer = subprocess.run(
                call_of("cif-sql", ["--postgres", *words]),
                cwd=folder,
                stdin=subprocess.DEVNULL,
                stdout=loader.stdin,
                stderr=subprocess.PIPE,
                check=False,
            )
            said = loader.communicate()[1].decode(errors="replace").splitlines()
        except BaseException:
            loader.kill()
            raise
    if loader.returncode:
        raise Failed(reason_of(said, loader.returncode, "psql"))
    if writer.returncode:
        raise ending(
            writer.returncode, writer.stderr.decode(errors="replace").splitlines(), "cif-sql"
        )
