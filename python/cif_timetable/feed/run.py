"""A run: from what the folder has, and what the feed has, to a new version."""
from __future__ import annotations

import os
import shutil
import time
from collections.abc import Callable
from datetime import timedelta
from pathlib import Path
from typing import TypeVar

from .._process import Cif
from .._progress import Progress
from .._running import description_of, printable
from ..errors import FAILED, SUCCESS, CifError, Damaged, Failed, Refused
from ..sql.database import version_of
from . import clock
from .chain import Plan, State, best_plan
from .credentials import WHERE, Credentials
from .full_extract import Bad, FullExtract, first_line, is_plain
from .header import Header
from .net import Denied, Unreachable
from .outputs import Maker, digest_of
from .raw import Raw, RawFiles
from .settings import Settings
from .sources import Source, source_of
from .versions import Facts, Version, Versions, only_run

Value = TypeVar("Value")

LOG = "feed.log"
WORK = ".work"
# An update can be had for a week.
WEEK = 7
# What `cif prepare` says of the settings, and not of an extract.
OF_SETTINGS = ("BankHoliday", "BadHoliday")
HOLIDAYS_ADVICE = "name the dates of this code in feed.toml (cif-feed --holidays shows them)"


def advice_of(problem: CifError) -> str:
    """What helps, if that isn't plain."""
    if isinstance(problem, Denied):
        return f"check {WHERE}"
    if isinstance(problem, Bad):
        return "a newer full extract heals this"
    if isinstance(problem, (Damaged, Late, Unreachable)):
        return "the next run tries again"
    return ""


def state_of(version: Version) -> State:
    return State(version.header, is_plain(version))


def gap_between(end: Header, beyond: Raw) -> str:
    """What is missing between an extract and an update that doesn't follow it."""
    last = beyond.header.last_reference or "no other"
    return f"an update after {end} is missing, as {beyond} follows {last}"


class Late(Failed):
    """The newest extract is older than it should be."""


class Run:
    """One run in a folder whose lock it holds."""

    def __init__(
        self, settings: Settings, cif: Cif, user: Credentials | None, progress: Progress
    ) -> None:
        self.settings = settings
        self.cif = cif
        self.progress = progress
        self.versions = Versions(settings.folder)
        self.work = settings.folder / WORK
        self.clean_up()
        self.raw = RawFiles(settings.folder / "raw", self.work)
        self.source: Source = source_of(settings, self.raw, user)
        self.bad: set[Path] = set()
        # what is wrong though the run goes on
        self.problems: list[CifError] = []
        # what the log says of it
        self.notes: list[str] = []
        self.version: Version | None = None
        try:
            self.version = self.versions.current()
        except CifError as problem:
            self.problems.append(problem)

    def clean_up(self) -> None:
        """Leaves nothing of a run that was killed."""
        shutil.rmtree(self.work, ignore_errors=True)
        self.work.mkdir(exist_ok=True)
        self.versions.clean(self.work)

    @property
    def state(self) -> Header | None:
        return self.version.header if self.version else None

    # ---- what to do

    def is_good(self, raw: Raw) -> bool:
        return raw.path not in self.bad

    def plan_of(self, fulls: list[Raw], with_state: bool) -> Plan | None:
        state = state_of(self.version) if self.version and with_state else None
        updates, one_chain = self.raw.updates(), self.settings.one_chain
        return best_plan(state, fulls, updates, self.is_good, one_chain)

    def best(self) -> Plan | None:
        """The best plan, unless that comes to something older than the current version."""
        usable = self.version and self.version.extract not in self.bad
        plan = self.plan_of(self.raw.fulls(), with_state=bool(usable))
        if plan and self.state and plan.end.made < self.state.made:
            return None
        return plan

    def catch_up(self) -> Plan | None:
        """Fetches what is needed, and returns the best plan."""
        source, today = self.source, clock.today()
        self.progress.show("fetching")
        base = self.state
        is_old = base is None or (today - base.made.date()).days > WEEK
        if is_old or source.wants_full or self.bad:
            source.fetch_full()
        plan = self.best()
        if plan is None or not source.has_updates:
            return plan
        source.fetch_updates(plan.base.made.date(), today)
        plan = self.best()
        if plan and plan.next_unreached(self.raw.updates()):
            source.fetch_full()
            plan = self.best()
            if plan:
                source.fetch_updates(plan.base.made.date(), today)
                plan = self.best()
        return plan

    def broken_chain(self, plan: Plan) -> str | None:
        """What is said of updates that don't follow the current version: that they are healed, or
        that they can't be."""
        if self.state is None:
            return None
        own = self.plan_of([], with_state=True)
        assert own is not None
        beyond = own.next_unreached(self.raw.updates())
        if beyond is None:
            return None
        if plan.full is None or plan.end.made < beyond.header.made:
            return None
        count = len(plan.updates)
        more = f" and {count} update{'s' if count > 1 else ''}" if count else ""
        return f"{gap_between(own.end, beyond)}: began again with {plan.full}{more}"

    def missing(self, plan: Plan) -> str | None:
        """What is said of an update that can't be reached from anything that is here."""
        beyond = plan.next_unreached(self.raw.updates())
        if beyond is None or not self.is_good(beyond):
            return None
        return f"{gap_between(plan.end, beyond)}: the next full extract heals this"

    # ---- doing it

    def build(self, plan: Plan, digest: str) -> tuple[Version, list[str]]:
        """Makes a version, and makes it the current one. Returns it, and what is to be said."""
        path = self.versions.new(clock.now())
        try:
            facts = Facts()
            maker = Maker(self.settings, self.cif, self.raw, facts, self.progress)
            self.progress.show("applying updates")
            header = FullExtract(self.cif, self.raw, facts).write(plan, self.version, path)
            maker.write_holidays(path)
            self.make_outputs(maker, plan, header, path)
            facts.fetched_at = clock.now().isoformat()
            maker.write_facts(path, digest)
            self.versions.synchronise(path)
            maker.load_postgresql(header, path)
            self.versions.commit(path)
        except BaseException:
            if self.versions.current_name() != path.name:
                shutil.rmtree(path, ignore_errors=True)
            raise
        self.notes.append(f"made {header} from {', '.join([facts.base, *facts.updates])}")
        self.notes += [f"waived {facts.waived}, dropped {facts.dropped}", *facts.said]
        self.notes += [
            f"{name} not read: {count} schedules" for name, count in facts.not_read.items()
        ]
        return Version(path, header, facts), maker.warnings

    def make_outputs(self, maker: Maker, plan: Plan, header: Header, path: Path) -> None:
        """What `cif` refuses of a full extract is a fault of its file, but for the holidays."""
        try:
            maker.make_outputs(header, path, self.versions.before(header))
        except CifError as problem:
            if problem.name in OF_SETTINGS:
                raise Refused(f"{header}: {first_line(problem)}: {HOLIDAYS_ADVICE}") from None
            if problem.status == Refused.status and plan.full and problem.name:
                raise Bad(plan.full, first_line(problem)) from None
            raise

    def is_made(self, digest: str) -> bool:
        """Whether the current version is what the settings ask for."""
        return self.version is not None and self.version.facts.settings == digest

    def go(self) -> list[str]:
        """Brings the folder up to date. Returns what is to be said though all is well."""
        digest = digest_of(self.settings, version_of(self.cif))
        while True:
            plan = self.catch_up()
            if plan is None:
                return []
            healed = self.broken_chain(plan)
            missing = self.missing(plan)
            said: list[str] = [healed] if healed else []
            try:
                if plan.is_new or not self.is_made(digest):
                    self.version, warnings = self.build(plan, digest)
                    said += warnings
                else:
                    self.notes.append(f"nothing new: {self.state}")
            except Bad as bad:
                self.set_aside(bad)
                continue
            if missing:
                self.problems.append(Failed(missing))
            return said + self.take_healed()

    def set_aside(self, bad: Bad) -> None:
        """Does without a file that `cif` refuses."""
        path = bad.raw.path if bad.raw else self.version.extract if self.version else None
        if path is None or path in self.bad:
            raise bad
        self.bad.add(path)
        self.problems.append(bad)

    def take_healed(self) -> list[str]:
        """What is said of files that `cif` refused, where the run did as well without them."""
        healed = [problem for problem in self.problems if self.is_healed(problem)]
        self.problems = [problem for problem in self.problems if problem not in healed]
        return list(map(first_line, healed))

    def is_healed(self, problem: CifError) -> bool:
        if not isinstance(problem, Bad) or self.version is None:
            return False
        if problem.raw is None:
            return self.version.extract not in self.bad
        return problem.raw.header.made <= self.version.header.made

    # ---- the end

    def check_late(self) -> None:
        """Says so if the newest extract is older than it should be, and nothing else explains it."""
        if self.problems:
            return
        late = "no full extract could be fetched"
        if self.state:
            age = (clock.today() - self.state.made.date()).days
            if age <= self.settings.late_days:
                return
            late = f"{self.state} is {age} days old, and nothing newer could be fetched"
        absent = ", ".join(self.source.absent)
        self.problems.append(Late(f"{late} (not there: {absent})" if absent else late))

    def finish(self) -> None:
        """Removes what isn't needed any more."""
        today = clock.today()
        self.raw.keep_since(today, self.settings.keep_days)
        self.versions.prune(today - timedelta(days=self.settings.keep_days))
        shutil.rmtree(self.work, ignore_errors=True)

    def outcome(self) -> list[str]:
        """What is said of problems that kept everything as it was: so, and what helps."""
        stays = f"{self.state} stays" if self.state else "there is no extract yet"
        advice = advice_of(self.problems[0])
        return [stays, advice] if advice else [stays]


def write_log(folder: Path, text: str) -> None:
    """Adds a line to the log."""
    line = printable(text.replace("\n", " "))
    descriptor = os.open(folder / LOG, os.O_WRONLY | os.O_CREAT | os.O_APPEND, 0o666)
    try:
        os.write(descriptor, f"{clock.now().isoformat()} {line}\n".encode(errors="replace"))
    finally:
        os.close(descriptor)


def guarded(run: Run, work: Callable[[], Value], otherwise: Value) -> Value:
    """What a part of a run returns. What ends it is one of the run's problems."""
    try:
        return work()
    except CifError as problem:
        run.problems.append(problem)
    except OSError as problem:
        run.problems.append(Failed(description_of(problem)))
    return otherwise


def bring_up_to_date(
    settings: Settings, cif: Cif, user: Credentials | None, progress: Progress
) -> tuple[int, str]:
    """One run. Returns its status, and the one line that is to be said, or nothing."""
    started = time.monotonic()
    with only_run(settings.folder):
        run = Run(settings, cif, user, progress)
        before = run.state
        said: list[str] = guarded(run, run.go, [])
        run.problems += run.source.problems
        run.check_late()
        guarded(run, run.finish, None)
        lines = [*said, *map(first_line, run.problems)]
        if run.problems and run.state == before:
            lines += run.outcome()
        status = run.problems[0].status if run.problems else SUCCESS
        took = f"{run.source.fetched} fetched, {time.monotonic() - started:.0f} s"
        outcome = "failed: " if status else ""
        try:
            write_log(settings.folder, outcome + "; ".join([*run.notes, *lines, took]))
        except OSError as problem:
            lines.append(description_of(problem))
            status = status or FAILED
    return status, "; ".join(lines)
