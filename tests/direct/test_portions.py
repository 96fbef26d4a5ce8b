"""Which portions riders reach, as cif-sql works it out."""
from __future__ import annotations

import unittest
from datetime import date

from cif_timetable.days import Window
from cif_timetable.model import Association
from cif_timetable.sql.portions import Portions
from cif_timetable.sql.schema import Row

# From Monday 5 to Sunday 18 January 2026.
FIRST, LAST = date(2026, 1, 5), date(2026, 1, 18)
CALLS = ["call", "record", "location", "suffix", "arrival", "departure"]


def association(
    category: str, location: str, indicator: str | None = "S", suffix: str | None = None
) -> Association:
    ends = ("BASE", "PART", FIRST, LAST)
    return Association(*ends, "1111111", category, indicator, location, suffix, None, "T", "P")


def calls(*places: str) -> bytes:
    """Calls at places, of which some have a suffix, and those that are passes a `p` after a space."""
    rows = []
    for number, place in enumerate(places, 1):
        name, _, passes = place.partition(" ")
        times = "\t" if passes else "1000\t1001"
        rows.append(f"{number}\tLI\t{name[:1]}\t{name[1:]}\t{times}\n")
    return "".join(rows).encode()


class PortionsOfTrains(unittest.TestCase):
    """Rows of the table `portions`."""

    def rows(
        self,
        asked: Association,
        base: bytes,
        part: bytes,
        days_run: tuple[str, str] = ("1111111", "1111111"),
        passenger: bool = True,
    ) -> list[Row]:
        portions = Portions(Window(FIRST, LAST), [asked], CALLS)
        for number, (uid, text) in enumerate((("BASE", base), ("PART", part), ("NONE", part)), 1):
            mask = days_run[min(number, 2) - 1]
            schedule = [str(number), uid, str(FIRST), str(LAST), mask]
            portions.add(schedule, 10 * number, passenger, text)
        return list(portions.rows())

    def test_divides_at_the_first_stop_there(self) -> None:
        dates = (FIRST, LAST, "1111111", "S")
        base, part = calls("A", "B p", "B", "C", "B", "D"), calls("B", "E")
        self.assertEqual(
            [(1, 1, 10, 3, 2, 20, 1, *dates)], self.rows(association("VV", "B"), base, part)
        )
        # with a suffix it is another call
        with_suffix = calls("A", "B", "C", "B2", "D")
        found = self.rows(association("VV", "B", suffix="2"), with_suffix, part)
        self.assertEqual([(1, 1, 10, 4, 2, 20, 1, *dates)], found)
        self.assertEqual([], self.rows(association("VV", "C"), base, part))
        self.assertEqual([], self.rows(association("VV", "B"), base, part, passenger=False))

    def test_dates(self) -> None:
        base, part = calls("A", "B", "C"), calls("B", "E")
        found = self.rows(association("VV", "B", "N"), base, part, ("1111100", "0111111"))
        self.assertEqual([(FIRST, date(2026, 1, 16), "1111100", "N")], [row[7:] for row in found])
        found = self.rows(association("VV", "B", "P"), base, part, ("1000000", "0000001"))
        self.assertEqual(
            [(date(2026, 1, 12), date(2026, 1, 12), "1000000", "P")], [row[7:] for row in found]
        )
        none = self.rows(association("VV", "B"), base, part, ("1111100", "0000011"))
        self.assertEqual([], none)

    def test_joins(self) -> None:
        base, part = calls("A", "B", "C"), calls("E", "F", "B")
        found = self.rows(association("JJ", "B", "N"), base, part, ("1000000", "0111111"))
        # the dates are those of the train that joins, a day after those of its base train
        dates = (date(2026, 1, 6), date(2026, 1, 13), "0100000", "P")
        self.assertEqual([(1, 2, 20, 3, 1, 10, 2, *dates)], found)
        self.assertEqual([], self.rows(association("JJ", "B"), base, calls("B", "E")))

    def test_goes_on(self) -> None:
        dates = (FIRST, LAST, "1111111", "S")
        found = self.rows(association("NP", "C", None), calls("A", "B", "C"), calls("C", "E"))
        self.assertEqual([(1, 1, 10, 3, 2, 20, 1, *dates)], found)
        self.assertEqual(
            [], self.rows(association("NP", "B"), calls("A", "B", "C"), calls("B", "E"))
        )
