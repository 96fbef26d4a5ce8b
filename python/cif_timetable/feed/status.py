"""What a folder has: for people, and as JSON."""
from __future__ import annotations

import json
from contextlib import suppress
from pathlib import Path

from . import clock
from .chain import best_plan
from .outputs import POSTGRESQL
from .raw import RawFiles
from .run import LOG, WORK, state_of
from .settings import Settings
from .versions import Version, Versions

Status = dict[str, object]


def last_line(path: Path) -> str | None:
    """The last line of the log, if there is one."""
    with suppress(OSError):
        lines = path.read_text(encoding="utf-8", errors="replace").splitlines()
        return lines[-1] if lines else None
    return None


def missing_of(settings: Settings, version: Version | None) -> list[str]:
    """What is missing, as far as it can be told by what was fetched."""
    if version is None:
        return ["nothing was fetched yet"]
    raw = RawFiles(settings.folder / "raw", settings.folder / WORK)
    found = []
    plan = best_plan(state_of(version), [], raw.updates(), one_chain=settings.one_chain)
    beyond = plan.next_unreached(raw.updates()) if plan else None
    if plan and beyond:
        found.append(f"an update between {plan.end} and {beyond.header}")
    age = (clock.today() - version.header.made.date()).days
    if age > settings.late_days:
        found.append(f"what is newer than {version.header}, which is {age} days old")
    return found


def status_of(settings: Settings) -> Status:
    """All that is known of a folder. Nothing is fetched, and nothing is changed."""
    version = Versions(settings.folder).current()
    found: Status = {"folder": str(settings.folder), "source": settings.source}
    if version:
        header, facts = version.header, version.facts
        found |= {
            "extract": str(version.extract.relative_to(settings.folder)),
            "reference": header.reference,
            "extracted_at": header.made.isoformat(timespec="minutes"),
            "first_date": header.first_date.isoformat(),
            "last_date": header.last_date.isoformat(),
            "base": facts.base,
            "updates": facts.updates,
            "fetched_at": facts.fetched_at,
            "waived": facts.waived,
            "dropped": facts.dropped,
            "not_read": facts.not_read,
            "outputs": facts.outputs,
        }
    if settings.outputs.postgresql:
        note = settings.folder / POSTGRESQL
        given = note.read_text(encoding="utf-8").strip() if note.exists() else None
        found["postgresql"] = given
        found["postgresql_ahead"] = given is not None and not (
            version and given == str(version.header)
        )
    found["missing"] = missing_of(settings, version)
    found["last_run"] = last_line(settings.folder / LOG)
    return found


def shown(value: object) -> str:
    if isinstance(value, dict):
        return ", ".join(f"{name}: {count}" for name, count in value.items())
    if isinstance(value, list):
        return ", ".join(map(str, value))
    if isinstance(value, bool):
        return "yes" if value else "no"
    return "" if value is None else str(value)


def text_of(status: Status) -> str:
    """The status for people: a line for each fact that there is."""
    rows = [(name.replace("_", " "), shown(value)) for name, value in status.items()]
    return "".join(f"{name:<17} {text or '-'}\n" for name, text in rows)


def json_of(status: Status) -> str:
    return json.dumps(status, indent=1) + "\n"
