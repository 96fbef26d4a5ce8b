"""Runs the program on a job, in a folder of its own with the inputs of the job."""
from __future__ import annotations

import subprocess
from pathlib import Path
from typing import List

from reference.answers import Answer, Inputs, Job, names_of

SECONDS = 60
NO_END = Answer(b"", b"", f"none after {SECONDS} seconds")


def words_of(job: Job) -> List[str]:
    """The words of a command: its options come first, and then its places."""
    words = [job.command]
    for option, word in (
        ("--from", job.first),
        ("--to", job.last),
        ("--form", job.form),
        ("--format", job.format),
        ("--calling-at", job.calling_at),
    ):
        words += [] if word is None else [option, word]
    words += ["--common"] if job.common else []
    words += ["--stops"] if job.stops else []
    words += ["--all"] if job.all else []
    words += [] if job.holidays is None else ["--holidays", job.holidays]
    words += ["--drop-clashes"] if job.drop_clashes else []
    words += ["--winners"] if job.winners else []
    words += ["--lenient"] if job.lenient else []
    words += ["--in-sequence"] if job.in_sequence else []
    words += ["--verbose"] if job.verbose else []
    return (
        words
        + [word for word in (job.table, job.uid, job.place, job.day) if word is not None]
        + list(job.files)
    )


def written(folder: Path, job: Job, inputs: Inputs) -> None:
    """Writes the inputs into a new folder; one that is None isn't there."""
    folder.mkdir()
    for name, data in zip(names_of(job), inputs):
        if data is not None:
            (folder / ("stdin" if name == "-" else name)).write_bytes(data)


def answer_of(cif: Path, folder: Path, job: Job) -> Answer:
    """What the program prints and ends with in that folder."""
    piped = (folder / "stdin").read_bytes() if "-" in names_of(job) else b""
    try:
        done = subprocess.run(
            [cif, *words_of(job)],
            cwd=folder,
            input=piped,
            capture_output=True,
            timeout=SECONDS,
            check=False,
        )
    except subprocess.TimeoutExpired:
        return NO_END
    return Answer(done.stdout, done.stderr, done.returncode)
