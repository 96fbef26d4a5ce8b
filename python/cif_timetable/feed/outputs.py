"""The outputs that are made of a full extract."""
from __future__ import annotations

import hashlib
import json
import os
import re
from collections.abc import Sequence
from dataclasses import asdict
from datetime import timedelta
from pathlib import Path

from .._extract import yymmdd
from .._process import Cif
from .._progress import Progress
from ..errors import CifError, Refused
from . import clock
from .full_extract import first_line, write_answer
from .header import Header
from .holidays import holidays_of, listed_holidays, text_of
from .programs import load_postgresql, run_program
from .raw import RawFiles
from .settings import FACTS, HOLIDAYS, LINKS, STATE, STATIONS, Settings
from .versions import Facts, Version
from .whole import link_or_copy, write_whole

# What `cif` says of what clashes, and of holidays that don't reach.
DROPPED = "cif: dropped: "
REACH = re.compile(r"cif: (holidays of [XEG]: .*)")
# What says of a database in PostgreSQL which extract it was last given.
POSTGRESQL = "postgresql"


def digest_of(settings: Settings, version: str) -> str:
    """Tells the settings that outputs depend on, and what is in the files that they name."""
    digest = hashlib.sha256(version.encode())
    kept = asdict(settings)
    for name in ("folder", "source", "address", "update", "keep_days", "late_days", "one_chain"):
        del kept[name]

    def named(value: object) -> str:
        """A date, or a path from the folder on, which may be moved."""
        is_path = isinstance(value, Path)
        return os.path.relpath(str(value), settings.folder) if is_path else str(value)

    digest.update(json.dumps(kept, default=named, sort_keys=True).encode())
    for path in settings.paths():
        digest.update(hashlib.sha256(path.read_bytes()).digest())
    return digest.hexdigest()


class Maker:
    """Makes the outputs of a version."""

    def __init__(
        self, settings: Settings, cif: Cif, raw: RawFiles, facts: Facts, progress: Progress
    ) -> None:
        self.settings = settings
        self.cif = cif
        self.raw = raw
        self.progress = progress
        self.facts = facts
        # what the user should know though the outputs are made
        self.warnings: list[str] = []

    def write_holidays(self, path: Path) -> None:
        """Writes the holidays that all programs of this run read, if there are any."""
        asked = self.settings.holidays
        if asked.file:
            write_whole(path / HOLIDAYS, asked.file.read_text(encoding="utf-8", errors="replace"))
        elif not asked.is_empty():
            found = holidays_of(asked, listed_holidays(asked, self.raw, self.warnings))
            write_whole(path / HOLIDAYS, text_of(asked, found))

    def write_prepared(self, path: Path) -> Path:
        """Writes the prepared extract, from which all that `cif` says of it comes."""
        prepared = self.raw.work / "prepared.cif"
        holidays = self.preparing(path)
        words = ["prepare", "--drop-clashes", *holidays, "--", str(path / STATE)]
        write_answer(self.cif, words, prepared, self.hear_prepare)
        return prepared

    def hear_prepare(self, line: str) -> None:
        reach = REACH.fullmatch(line)
        if reach:
            self.warnings.append(f"{reach[1]}: renew the holidays of feed.toml")
        elif line.startswith(DROPPED):
            self.facts.dropped += 1
            self.facts.said.append(line)

    def preparing(self, path: Path) -> list[str]:
        there = (path / HOLIDAYS).exists()
        return [f"--holidays={path / HOLIDAYS}"] if there else []

    def window(self, header: Header) -> list[str]:
        """The words for the first date of the outputs, if that isn't the window's."""
        if self.settings.past_days is None:
            return []
        first = clock.today() - timedelta(days=self.settings.past_days)
        is_inside = header.first_date < first <= header.last_date
        return ["--from", yymmdd(first)] if is_inside else []

    def names(self) -> list[str]:
        """The words for the names of places and operators: the user's first, which count."""
        files, beside = self.settings.files, self.beside()
        words = [f"--places={path}" for path in (files.places, beside.get("msn-places")) if path]
        return words + ([f"--operators={files.operators}"] if files.operators else [])

    def beside(self) -> dict[str, Path]:
        """The files that were made of MSN and ALF."""
        kinds = ("msn-places", "msn-interchange", "alf-links")
        paths = {kind: self.raw.work / f"{kind}.csv" for kind in kinds}
        return {kind: path for kind, path in paths.items() if path.exists()}

    def read_beside(self, path: Path) -> None:
        """Makes files for the programs of MSN and ALF, if the feed has them. One that is refused is
        reported, and does without."""
        for kind, name in (
            ("msn-places", STATIONS),
            ("msn-interchange", STATIONS),
            ("alf-links", LINKS),
        ):
            if (path / name).exists():
                target = self.raw.work / f"{kind}.csv"
                try:
                    self.hear(run_program("cif-gtfs-csv", [kind, name], path, target))
                except Refused as problem:
                    target.unlink(missing_ok=True)
                    self.warnings.append(f"{first_line(problem)}: the outputs do without {kind}")

    def hear(self, said: Sequence[str]) -> None:
        self.facts.said += said

    def make_outputs(self, header: Header, path: Path, older: Version | None) -> None:
        """Makes all outputs but the database of PostgreSQL."""
        outputs, window = self.settings.outputs, self.window(header)
        common = ["--cif", self.cif.path, "--drop-clashes"]
        common += ["--holidays", HOLIDAYS] if (path / HOLIDAYS).exists() else []
        prepared = self.write_prepared(path)
        if outputs.have_names():
            self.read_beside(path)
        if outputs.extract:
            self.progress.show("the extract")
            self.write_cut(prepared, window, path / outputs.extract)
        if outputs.database:
            self.progress.show("the database")
            words = [*common, *window, *self.names(), "-o", outputs.database, "--", STATE]
            self.hear(run_program("cif-sql", words, path))
        if outputs.gtfs:
            self.progress.show("the GTFS feed")
            words = [*common, *window, *self.gtfs_words(), "-o", outputs.gtfs, "--", STATE]
            self.hear(run_program("cif-gtfs", words, path))
        if outputs.report and older:
            self.progress.show("the report")
            self.make_report(older, header, [*common, *window, *self.names()], path)

    def write_cut(self, prepared: Path, window: Sequence[str], path: Path) -> None:
        """The prepared extract; from a later date on it is a canonical one."""
        if window:
            write_answer(self.cif, ["normalise", *window, "--", str(prepared)], path)
        else:
            link_or_copy(prepared, path)

    def gtfs_words(self) -> list[str]:
        files, beside = self.settings.files, self.beside()
        named = {
            "interchange": files.interchange or beside.get("msn-interchange"),
            "links": files.links or beside.get("alf-links"),
            "publisher": files.publisher,
            "url": files.url,
            "email": files.email,
        }
        return self.names() + [f"--{name}={value}" for name, value in named.items() if value]

    def make_report(self, older: Version, header: Header, words: Sequence[str], path: Path) -> None:
        name = self.settings.outputs.report
        assert name is not None
        if older.header.last_date < header.first_date or header.last_date < older.header.first_date:
            self.facts.said.append("no report: the version before has no date in common")
            return
        earlier = os.path.relpath(older.extract, path)
        self.hear(run_program("cif-report", [*words, "-o", name, "--", earlier, STATE], path))

    def load_postgresql(self, header: Header, path: Path) -> None:
        """Loads the database of PostgreSQL, and notes before that it may have the new extract."""
        connection = self.settings.outputs.postgresql
        if not connection:
            return
        self.progress.show("PostgreSQL")
        words = ["--cif", self.cif.path, "--drop-clashes", *self.window(header), *self.names()]
        words += ["--holidays", HOLIDAYS] if (path / HOLIDAYS).exists() else []
        note = self.settings.folder / POSTGRESQL
        before = note.read_text(encoding="utf-8") if note.exists() else None
        write_whole(note, f"{header}\n")
        try:
            load_postgresql([*words, "--", STATE], connection, path)
        except CifError:
            # its transaction has not ended
            if before is None:
                note.unlink()
            else:
                write_whole(note, before)
            raise

    def write_facts(self, path: Path, digest: str) -> None:
        outputs = self.settings.outputs.names()
        self.facts.outputs = [name for name in outputs if (path / name).exists()]
        self.facts.settings = digest
        self.facts.write(path / FACTS)
