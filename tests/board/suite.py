"""What `run` says, in Python."""
from __future__ import annotations

import sys
import tempfile
from importlib.util import find_spec
from pathlib import Path

sys.dont_write_bytecode = True
HERE = Path(__file__).resolve().parent
TOP = HERE.parents[1]
sys.path[:1] = [str(HERE.parent), str(TOP / "python")]

from board import words
from gtfs.checks import Counts


def main() -> int:
    counts, cif, skipped = Counts(), Path(sys.argv[1]).resolve(), 0
    words.check(counts)
    if find_spec("flask") and find_spec("waitress"):
        # pylint: disable=import-outside-toplevel
        from board import boards, look, refusals, running, searches, trains
        from board.pages import Made

        with tempfile.TemporaryDirectory(prefix="cif-board-") as work:
            made = Made(cif, Path(work))
            boards.check(counts, made)
            trains.check(counts, made)
            searches.check(counts, made)
            refusals.check(counts, made)
            running.check(counts, made)
            if not look.check(counts, made):
                print("Chromium isn't there, or doesn't start: how the pages look is skipped")
                skipped = 1
    else:
        print("Flask or waitress isn't there: the pages are skipped")
        skipped = 1
    ending = f", {skipped} skipped" if skipped else ""
    print(f"{counts.passed} passed, {counts.failed} failed{ending}")
    return 0 if counts.failed == 0 and counts.passed > 0 else 1


sys.exit(main())
