"""The full extract of a version: another one with updates, or one that was fetched."""
from __future__ import annotations

import re
import zipfile
from collections.abc import Callable, Sequence
from pathlib import Path

from .._process import Cif, ignored
from ..errors import CifError, Damaged, Refused
from .chain import Plan
from .header import Header, header_of
from .raw import Raw, RawFiles, opened_zip_of
from .settings import LINKS, STATE, STATIONS
from .versions import Facts, Version
from .whole import copy_to, link_or_copy

# What `cif` says of a line that is waived, and where a line is that it refuses.
WAIVED = re.compile(r"cif: line \d+: \w+ \(waived\)")
PLACE = re.compile(r"^  in (?:UPDATE|FULL) \((.*)\)$", re.MULTILINE)
# The members of RDG's zip that are read beside the extract, and those that aren't: trains that other
# operators run, in the extract's own layout.
BESIDE = {".msn": STATIONS, ".alf": LINKS}
NOT_READ = ".ztr"
SCHEDULE = b"BS"


class Bad(Refused):
    """`cif` refuses a file that was fetched, or the extract of the current version where the file is
    None."""

    def __init__(self, raw: Raw | None, reason: str) -> None:
        name = str(raw) if raw else "the current extract"
        super().__init__(f"{name}: {reason}")
        self.raw = raw


def first_line(problem: CifError) -> str:
    return str(problem).partition("\n")[0]


def write_answer(
    cif: Cif, words: Sequence[str], path: Path, tell: Callable[[str], None] = ignored
) -> None:
    """Writes what a call of `cif` writes into a file."""
    with cif.output(words, tell=tell) as lines:
        copy_to(lines, path)


class FullExtract:
    """Writes the full extract that a plan comes to."""

    def __init__(self, cif: Cif, raw: RawFiles, facts: Facts) -> None:
        self.cif = cif
        self.raw = raw
        self.facts = facts

    def write(self, plan: Plan, state: Version | None, path: Path) -> Header:
        """Writes it into the folder of a version, with what came beside it. If `cif` refuses a file of
        the plan, it ends with `Bad`, which names it."""
        target = path / STATE
        base = self.unpacked(plan.full) if plan.full else state.extract if state else None
        assert base is not None
        self.facts.base = plan.full.path.name if plan.full else str(plan.base)
        self.facts.updates = [raw.path.name for raw in plan.updates]
        self.facts.is_updated = bool(plan.updates) or not (plan.full or is_plain(state))
        if plan.updates:
            try:
                self.apply(plan, base, target)
            except CifError as problem:
                raise self.of_file(problem, plan) from None
        else:
            link_or_copy(base, target)
        self.keep_beside(plan, state, path)
        return header_of(target, str(target))

    def apply(self, plan: Plan, base: Path, target: Path) -> None:
        """Applies the updates. One that follows by its date is refused by its references, so this one
        alone is applied whatever they are."""
        updates = [str(self.unpacked(raw)) for raw in plan.updates]
        if plan.begins_by_date:
            first = target if len(updates) == 1 else self.raw.work / "first.cif"
            words = ["update", "--lenient", "--", str(base), updates.pop(0)]
            write_answer(self.cif, words, first, self.count_waived)
            base = first
        if updates:
            words = ["update", "--lenient", "--in-sequence", "--", str(base), *updates]
            write_answer(self.cif, words, target, self.count_waived)

    def unpacked(self, raw: Raw) -> Path:
        """A fetched file without compression. One that is damaged by now is removed."""
        try:
            return self.raw.unpacked(raw)
        except Damaged:
            self.raw.remove(raw)
            raise Bad(raw, "it is damaged on the disk") from None

    def of_file(self, problem: CifError, plan: Plan) -> CifError:
        """A refusal with the file of which it is."""
        if problem.status != Refused.status or isinstance(problem, Bad):
            return problem
        updates = {str(self.raw.unpacked_path(raw.header)): raw for raw in plan.updates}
        found = PLACE.search(str(problem))
        raw = updates.get(found[1]) if found else None
        return Bad(raw or plan.full, first_line(problem))

    def count_waived(self, line: str) -> None:
        if WAIVED.fullmatch(line):
            self.facts.waived += 1

    def keep_beside(self, plan: Plan, state: Version | None, path: Path) -> None:
        """Keeps the stations and links that came with the full extract."""
        if plan.full is None:
            for name in BESIDE.values():
                if state and (state.path / name).exists():
                    link_or_copy(state.path / name, path / name)
            self.facts.not_read = state.facts.not_read if state else {}
        elif plan.full.path.suffix == ".zip":
            with opened_zip_of(plan.full.path, str(plan.full)) as archive:
                self.keep_members(archive, path)

    def keep_members(self, archive: zipfile.ZipFile, path: Path) -> None:
        for member in sorted(archive.namelist()):
            suffix = Path(member).suffix.lower()
            if suffix in BESIDE:
                with archive.open(member) as source:
                    copy_to(source, path / BESIDE[suffix])
            elif suffix == NOT_READ:
                with archive.open(member) as source:
                    count = sum(line.startswith(SCHEDULE) for line in source)
                self.facts.not_read[Path(member).name] = count


def is_plain(version: Version | None) -> bool:
    """Whether a version has a full extract as it was fetched."""
    return version is not None and not version.facts.is_updated
