"""What the runners of tests/memory share: rows, and a program that runs on one with an allocation refused."""
from __future__ import annotations

import os
import subprocess
import sys
import tempfile
from pathlib import Path
from typing import Callable, Iterable, List, NamedTuple

HERE = Path(__file__).resolve().parent
sys.path.append(str(HERE.parent))

from row_files import Row, make_folder, read_rows

TOLD = 9
INPUT = 2**64 - 1


class Answer(NamedTuple):
    """What a run of the program gave, and what the library reported."""

    status: int
    stdout: bytes
    stderr: bytes
    told: List[int]

    @property
    def refused(self) -> bool:
        """Whether an allocation was refused."""
        return len(self.told) > 0

    def said(self) -> str:
        """What is printed of a run that isn't right."""
        was = "refused" if self.refused else "not reached"
        return f"{was}: status {self.status}, {len(self.stdout)} bytes of output, {self.stderr!r}"


def library(work: Path) -> Path:
    """Builds the library that refuses, with the compiler of the kit that proves the program."""
    kit = Path(
        subprocess.run(["rt", "doc"], stdout=subprocess.PIPE, text=True, check=True).stdout.strip()
    ).parent
    tools = kit / "toolchain" / "bin"
    built = work / "refuse_nth.so"
    flags = ["-shared", "-fPIC", "-O1", "-nostdlib", f"--ld-path={tools / 'ld.lld'}"]
    subprocess.run([tools / "clang", *flags, "-o", built, HERE / "refuse_nth.c"], check=True)
    return built


class Refusing:
    """The program of a test, the rows for it, and how many runs passed."""

    def __init__(self, work: Path, program: str, files: Iterable[Path]) -> None:
        os.dup2(os.open(work / "told", os.O_CREAT | os.O_RDWR), TOLD)
        self.program = Path(program).resolve()
        self.work = work
        self.outputs = [
            os.open(work / name, os.O_CREAT | os.O_RDWR) for name in ("stdout", "stderr")
        ] + [TOLD]
        self.environment = {**os.environ, "LD_PRELOAD": str(library(work))}
        self.rows = read_rows(files)
        self.passed = self.failed = 0
        for row in self.rows.values():
            make_folder(self.folder(row), row.words, row.status, row.whole)

    def folder(self, row: Row) -> Path:
        return self.work / "rows" / row.name

    def run(self, row: Row, nth: int) -> Answer:
        """Runs the program on the row with this allocation refused; with none for 0."""
        for output in self.outputs:
            os.ftruncate(output, 0)
            os.lseek(output, 0, os.SEEK_SET)
        words = [word.encode("latin-1") for word in row.words]
        given = self.folder(row) / "stdin"
        with open(given if given.exists() else os.devnull, "rb") as stdin:
            status = subprocess.call(
                [self.program, *words],
                cwd=self.folder(row),
                env={**self.environment, "REFUSE_NTH": str(nth)},
                stdin=stdin,
                stdout=self.outputs[0],
                stderr=self.outputs[1],
                pass_fds=[TOLD],
            )
        stdout, stderr, told = (
            os.pread(output, os.fstat(output).st_size, 0) for output in self.outputs
        )
        sizes = [int.from_bytes(told[at : at + 8], "little") for at in range(0, len(told), 8)]
        return Answer(status, stdout, stderr, sizes)

    def count(self, is_right: bool, what: str) -> None:
        """Counts a run; what it was of is printed if it isn't right."""
        self.passed += is_right
        self.failed += not is_right
        if not is_right:
            print(what, flush=True)


def main(program: str, files: Iterable[Path], test: Callable[[Refusing], None]) -> int:
    """Runs the test, prints the counts, and gives the status: 0 if all passed and some ran."""
    if len(sys.argv) != 2:
        print(f"usage: {Path(sys.argv[0]).name} {program}", file=sys.stderr)
        return 2
    if not os.access(sys.argv[1], os.X_OK):
        print(f"{sys.argv[1]} can't be run", file=sys.stderr)
        return 2
    with tempfile.TemporaryDirectory(prefix="cif-memory-") as work:
        refusing = Refusing(Path(work), sys.argv[1], files)
        test(refusing)
    print(f"{refusing.passed} passed, {refusing.failed} failed")
    return 0 if refusing.passed and not refusing.failed else 1
