"""What `run` says, in Python."""
from __future__ import annotations

import random
import sys
import tempfile
from datetime import date
from pathlib import Path

sys.dont_write_bytecode = True
HERE = Path(__file__).resolve().parent
TOP = HERE.parents[1]
sys.path[:1] = [str(HERE.parent), str(TOP / "python")]

from gtfs import generated
from gtfs.checks import Counts
from report import browser, by_hand, failures, timetables, words
from report.checks import Maker, check_page, check_size, check_trains_and_days
from report.definition import Expected

SCHEDULES = 2000
CHANGES = 20
SEED = 1
PART = date(2026, 6, 8), date(2026, 7, 19)
# So many trains has the page that the browser shows.
SHOWN = 60


def check_generated(counts: Counts, cif: Path, maker: Maker) -> Path:
    """A pair of extracts with changes of each kind. Returns the path of a page of it with fewer trains."""
    old, new = maker.folder / "old.cif", maker.folder / "new.cif"
    for path, text in zip((old, new), timetables.pair(random.Random(SEED), SCHEDULES, CHANGES)):
        path.write_text(text)
    window = [f"--from={PART[0]:%y%m%d}", f"--to={PART[1]:%y%m%d}"]
    expected = Expected(cif, old, new, PART)
    page = maker.page(*window, "--most", "1000", old, new)
    check_page(counts, "the generated pair", expected, page)
    check_size(counts, maker, expected, *window, "--most", "1000", old, new)
    maker.run(*window, "--most", str(SHOWN), "-o", "shown.html", old, new)
    return maker.folder / "shown.html"


def check_by_chance(counts: Counts, cif: Path, maker: Maker) -> None:
    """A pair of extracts whose records are made by chance: odd journeys, changes en route, no operators."""
    old, new = maker.folder / "odd-old.cif", maker.folder / "odd-new.cif"
    for number, path in enumerate((old, new)):
        path.write_bytes(generated.extract(random.Random(SEED + number), 200))
    page = maker.page("--most", "1000", old, new)
    check_trains_and_days(counts, "a pair by chance", Expected(cif, old, new), page)


def main() -> int:
    counts, cif = Counts(), Path(sys.argv[1]).resolve()
    with tempfile.TemporaryDirectory(prefix="cif-report-") as work:
        maker = Maker(cif, Path(work))
        examples = TOP / "examples" / "timetable.cif", TOP / "examples" / "changed.cif"
        check_page(counts, "the examples", Expected(cif, *examples), maker.page(*examples))
        shown = check_generated(counts, cif, maker)
        check_by_chance(counts, cif, maker)
        by_hand.check(counts, maker)
        failures.check(counts, maker)
        words.check(counts)
        has_browser = browser.check(counts, shown)
    if not has_browser:
        print("Chromium isn't there, or doesn't start: how the page looks is skipped")
    skipped = "" if has_browser else ", 1 skipped"
    print(f"{counts.passed} passed, {counts.failed} failed{skipped}")
    return 0 if counts.failed == 0 and counts.passed > 0 else 1


sys.exit(main())
