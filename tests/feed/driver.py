"""driver.py YYYY-MM-DDTHH PACKAGES WORD..: runs cif-feed as a process, at another time and with short pauses."""
from __future__ import annotations

import sys
from datetime import datetime, timezone
from pathlib import Path

DRIVER = Path(__file__).resolve()
PACKAGES = DRIVER.parents[2] / "python"


def words_of(now: datetime, *words: str) -> list[str]:
    """The words of a process that runs cif-feed."""
    return [sys.executable, "-B", str(DRIVER), now.isoformat(), str(PACKAGES), *words]


if __name__ == "__main__":
    moment, sys.path[0] = datetime.fromisoformat(sys.argv[1]).astimezone(timezone.utc), sys.argv[2]
    from cif_timetable.feed import clock, net
    from cif_timetable.feed.command_line import main

    clock.now = lambda: moment
    clock.today = moment.date
    net.PAUSES = (0.001, 0.002, 0.004)
    sys.exit(main(sys.argv[3:]))
