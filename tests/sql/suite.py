"""What `run` says, in Python."""
from __future__ import annotations

import os
import random
import sys
import tempfile
from functools import partial
from pathlib import Path

sys.dont_write_bytecode = True
HERE = Path(__file__).resolve().parent
TOP = HERE.parents[1]
sys.path[:1] = [str(HERE.parent), str(TOP / "python")]

from gtfs import generated
from gtfs.checks import Counts, Source
from sql import by_hand, documents, failures, postgres, small, stations, verified, words
from sql.checks import Maker, check_database, sqlite_rows
from sql.definition import Expected

SCHEDULES = 500
SEED = 1


def main() -> int:
    counts, cif = Counts(), Path(sys.argv[1]).resolve()
    with tempfile.TemporaryDirectory(prefix="cif-sql-") as work:
        folder = Path(work)
        maker = Maker(cif, folder)
        special, many = folder / "special.cif", folder / "generated.cif"
        special.write_text(by_hand.EXTRACT)
        blank = folder / "blank.cif"
        blank.write_text(by_hand.BLANK)
        many.write_bytes(generated.extract(random.Random(SEED), SCHEDULES))
        for path in special, TOP / "examples" / "timetable.cif", many:
            expected = Expected(Source(cif, path))
            check_database(counts, expected, partial(sqlite_rows, maker.database(path)))
            if "PGHOST" in os.environ:
                postgres.check_database(counts, maker, expected)
        by_hand.check(counts, maker, special, blank)
        stations.check(counts, maker)
        if "PGHOST" in os.environ:
            postgres.check(counts, maker, special, blank)
            postgres.check_stations(counts, maker)
            documents.check_questions(counts, maker)
        documents.check_hub(counts, maker)
        failures.check(counts, maker, special)
        verified.check(counts, maker)
        small.check(counts, maker)
        words.check(counts)
    skipped = "" if "PGHOST" in os.environ else ", 1 skipped"
    print(f"{counts.passed} passed, {counts.failed} failed{skipped}")
    return 0 if counts.failed == 0 and counts.passed > 0 else 1


sys.exit(main())
