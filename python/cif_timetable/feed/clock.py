"""What time it is. Nothing else of cif-feed asks for it."""
from __future__ import annotations

from datetime import date, datetime, timezone


def now() -> datetime:
    """The time in UTC, to the second."""
    return datetime.now(timezone.utc).replace(microsecond=0)


def today() -> date:
    """The date where the machine is, by which feeds are made and trains run."""
    return now().astimezone().date()
