"""What holds a database and a feed against an extract, function by function."""
from __future__ import annotations

import unittest
from datetime import date

from cif_timetable.verify.difference import Different, compare_rows, differing
from cif_timetable.verify.feed import joined, later_text, parts_in_order
from cif_timetable.verify.links import first_from, last_until, moved, rounded_up
from cif_timetable.verify.portions import Association, Call, dates_of, days_of, wanted_rows
from cif_timetable.verify.riders import off_and_on
from cif_timetable.verify.schedules import Schedule
from cif_timetable.verify.zipped import Window

# From Monday 5 to Sunday 18 January 2026.
FIRST, LAST = "2026-01-05", "2026-01-18"


def schedule(
    number: int, uid: str, first: str = FIRST, last: str = LAST, days_run: str = "1111111"
) -> Schedule:
    of_train = ("P", "OO", "", "SN", "1A00", "", "")
    return Schedule(str(number), uid, first, last, days_run, *of_train, [])


def call(number: int, schedule_number: int, location: str, suffix: str = "") -> Call:
    return Call(str(schedule_number), str(number), location, suffix, "1000", "1001")


class Rows(unittest.TestCase):
    """Rows held against rows."""

    def test_equal_rows(self) -> None:
        self.assertEqual(2, compare_rows("rows", ["a"], ["1\n", "2\n"], ["1\n", "2\n"]))
        self.assertEqual(0, compare_rows("rows", ["a"], [], []))

    def test_first_difference(self) -> None:
        rows = ["1\tx\n", "2\ty\n"]
        for others, words in (
            (["1\tx\n"], "rows, row 2: `2|y` and not no row"),
            ([*rows, "3\tz\n"], "rows, row 3: no row and not `3|z`"),
            (["1\tx\n", "2\tz\n"], "rows, row 2: b is `y` and not `z`, in `2|y`"),
            (["0\tw\n", "2\ty\n"], "rows, row 1: `1|x` and not `0|w`"),
        ):
            with self.assertRaises(Different) as found:
                compare_rows("rows", ["a", "b"], rows, others)
            self.assertEqual(words, str(found.exception))
            self.assertEqual(1, found.exception.status)

    def test_one_field(self) -> None:
        self.assertEqual("b is `` and not `2`, in `1|`", differing(["a", "b"], "1\t\n", "1\t2\n"))


class Riders(unittest.TestCase):
    """For whom a train is at its calls."""

    def test_category_of_a_call(self) -> None:
        # empty stock that becomes a train for riders at its third call, and ceases to be one at its fifth
        changes = [(3, "OO"), (5, "EE")]
        found = [off_and_on("P", "EE", changes, number) for number in range(1, 7)]
        on = [False, False, True, True, False, False]
        off = [False, False, False, True, True, False]
        self.assertEqual(list(zip(off, on)), found)

    def test_unadvertised(self) -> None:
        for category in "OU", "XU", "EE":
            self.assertEqual((False, False), off_and_on("P", category, [], 1), category)
        self.assertEqual((True, True), off_and_on("P", "OO", [], 1))
        self.assertEqual((False, False), off_and_on("F", "OO", [], 1))


class Times(unittest.TestCase):
    """Moments of feeds."""

    def test_later(self) -> None:
        text = "A\t24:10:00\t24:11:00\t0\t0\nB\t25:00:00\t25:00:00\t0\t1"
        moved_text = "A\t00:10:00\t00:11:00\t0\t0\nB\t01:00:00\t01:00:00\t0\t1"
        self.assertEqual(moved_text, later_text(text, -1))
        self.assertEqual(text, later_text(moved_text, 1))

    def test_working_times(self) -> None:
        self.assertEqual(5 * 3600 + 60, rounded_up("0500H"))
        self.assertEqual(5 * 3600, rounded_up("0500"))
        self.assertEqual(86400 + 60, first_from(120, 60))
        self.assertEqual(120, first_from(120, 120))
        self.assertEqual(60, last_until(120, 60))
        self.assertEqual(180 - 86400, last_until(120, 180))

    def test_dates(self) -> None:
        self.assertEqual((0b1010, 0b10), (moved(0b101, 1), moved(0b101, -1)))
        window = Window(date(2026, 1, 5), date(2026, 1, 18))
        dates = window.masked(date(2026, 1, 6), date(2026, 1, 13), "1000001")
        found = [str(window.day(number)) for number in window.each(dates)]
        self.assertEqual(["2026-01-11", "2026-01-12"], found)


class Parts(unittest.TestCase):
    """The trips of a train that is cut."""

    def test_order(self) -> None:
        self.assertEqual(
            ["b", "c", "a"], parts_in_order("x", ["a", "b", "c"], {"b": ["c"], "c": ["a"]})
        )
        wrong: list[dict[str, list[str]]] = [{}, {"b": ["c"]}, {"b": ["c", "a"]}]
        for following in wrong:
            with self.assertRaises(Different):
                parts_in_order("x", ["a", "b", "c"], following)

    def test_joined(self) -> None:
        first = ["A\t1:00\t1:00\t1\t0", "B\t1:10\t1:10\t0\t1"]
        second = ["B\t1:12\t1:12\t1\t0", "C\t1:30\t1:30\t0\t1"]
        self.assertEqual([first[0], "B\t1:10\t1:12\t0\t0", second[1]], joined("x", first, second))
        for other in (
            ["C\t1:12\t1:12\t1\t0", second[1]],
            ["B\t1:11\t1:12\t1\t0", second[1]],
            ["B\t1:12\t1:12\t0\t0", second[1]],
        ):
            with self.assertRaises(Different):
                joined("x", first, other)


class Portions(unittest.TestCase):
    """Which trains riders reach without a change."""

    CALLS = {
        "1": [call(1, 1, "A"), call(2, 1, "B"), call(3, 1, "C")],
        "2": [call(1, 2, "B"), call(2, 2, "D")],
        "3": [call(1, 3, "D"), call(2, 3, "B")],
        "4": [call(1, 4, "C"), call(2, 4, "E")],
    }
    TRAINS = {
        "BASE": [schedule(1, "BASE", last="2026-01-11")],
        "PART": [schedule(2, "PART", days_run="1111100")],
        "JOIN": [schedule(3, "JOIN")],
        "NEXT": [schedule(4, "NEXT")],
    }

    def rows(self, passengers: str = "1234", **fields: str) -> list[tuple[int | str, ...]]:
        """The rows of an association, whose other fields are those of a train that divides."""
        usual = {
            "base_uid": "BASE",
            "associated_uid": "PART",
            "first_date": FIRST,
            "last_date": LAST,
        }
        usual |= {"days_run": "1111111", "category": "VV", "date_indicator": "S", "location": "B"}
        usual |= {"base_suffix": "", "association_type": "P"}
        association = Association(**(usual | fields))
        return list(wanted_rows([association], self.TRAINS, self.CALLS, passengers))

    def test_divides(self) -> None:
        want = (1, 1, 2, 2, 1, "2026-01-05", "2026-01-09", "1111100", "S")
        self.assertEqual([want], self.rows())
        self.assertEqual([want], self.rows(date_indicator="", association_type=""))
        for fields in (
            {"location": "C"},
            {"base_suffix": "2"},
            {"association_type": "O"},
            {"date_indicator": "X"},
            {"category": "XX"},
            {"first_date": "2026-01-12"},
            {"passengers": "234"},
            {"associated_uid": "JOIN"},
        ):
            self.assertEqual([], self.rows(**fields), fields)

    def test_a_day_later(self) -> None:
        # the portion runs on weekdays, the day after its base train, which runs for a week
        want = (1, 1, 2, 2, 1, "2026-01-05", "2026-01-11", "1111001", "N")
        self.assertEqual([want], self.rows(date_indicator="N"))

    def test_joins(self) -> None:
        want = (1, 3, 2, 1, 2, "2026-01-05", "2026-01-11", "1111111", "S")
        self.assertEqual([want], self.rows(category="JJ", associated_uid="JOIN"))
        # the train that joins runs the day before, so its base train runs the day after it
        want = (1, 3, 2, 1, 2, "2026-01-05", "2026-01-10", "1111110", "N")
        rows = self.rows(category="JJ", associated_uid="JOIN", date_indicator="P")
        self.assertEqual([want], rows)

    def test_goes_on(self) -> None:
        want = (1, 1, 3, 4, 1, "2026-01-05", "2026-01-11", "1111111", "S")
        self.assertEqual([want], self.rows(category="NP", associated_uid="NEXT", location="C"))
        self.assertEqual([], self.rows(category="NP"))

    def test_days(self) -> None:
        found = dates_of("2026-01-05", "2026-01-12", "1000001")
        wanted = {date(2026, 1, 5), date(2026, 1, 11), date(2026, 1, 12)}
        self.assertEqual(wanted, found)
        self.assertEqual(("2026-01-05", "2026-01-12", "1000001"), days_of(list(found)))
