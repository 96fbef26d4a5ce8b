"""Functions of cif-gtfs."""
from __future__ import annotations

import io
import tempfile
import unittest
from datetime import date

from cif_timetable._tables import Table
from cif_timetable.days import Window
from cif_timetable.gtfs.calls import Stop, row_at, rounded_up
from cif_timetable.gtfs.feed import Winner
from cif_timetable.gtfs.parts import Index, Part, Schedules, parts_of
from cif_timetable.gtfs.services import Services
from cif_timetable.gtfs.trains import (
    EXTENDED_TYPES,
    Fields,
    Kind,
    calls_for_riders,
    kind_of,
    read_changes,
)
from cif_timetable.gtfs.user_files import LinkRow, minutes_of
from cif_timetable.riders import is_for_riders, sort_of

# 28 days from a Monday on.
WINDOW = Window(date(2026, 6, 1), date(2026, 6, 28))


class ServicesOfDates(unittest.TestCase):
    """How calendar.txt and calendar_dates.txt say dates."""

    def rows(self, *days: int) -> list[str]:
        """The rows of a service on these days of June, without its id."""
        services = Services(WINDOW)
        services.id_of(sum(1 << day - 1 for day in days))
        [rows] = services.rows()
        return [line.partition(",")[2] for line in (rows.calendar + rows.exceptions).splitlines()]

    def test_weekdays_to_the_end(self) -> None:
        self.assertEqual(["1,1,0,0,0,0,0,20260601,20260609"], self.rows(1, 2, 8, 9))

    def test_a_date_that_is_missing(self) -> None:
        """Two Mondays of three: more than half."""
        wanted = ["1,0,0,0,0,0,0,20260601,20260615", "20260608,2"]
        self.assertEqual(wanted, self.rows(1, 15))

    def test_half_of_a_weekday(self) -> None:
        """Each Monday, and two Tuesdays of four between the ends: these are no usual day."""
        wanted = ["1,0,0,0,0,0,0,20260601,20260623", "20260609,1", "20260623,1"]
        self.assertEqual(wanted, self.rows(1, 8, 9, 15, 22, 23))

    def test_nothing_usual(self) -> None:
        """Of no weekday more than half: there are no rows but those of the dates."""
        self.assertEqual(["20260601,1", "20260622,1"], self.rows(1, 22))


class Small(io.BytesIO):
    """A stream that gives few bytes at once."""

    def __init__(self, text: bytes, size: int) -> None:
        super().__init__(text)
        self.size = size

    def read(self, _size: int | None = None) -> bytes:
        return super().read(self.size)


class PartsOfATable(unittest.TestCase):
    """The public calls of trains, for processes."""

    # the schedules of four trains; the second has no public call, and the third none in its first one
    UIDS = "A A B C C C C D".split()
    CALLS = {1: 3, 2: 2, 5: 3, 6: 9, 7: 2, 8: 4}

    def test_whole_trains(self) -> None:
        lines = [f"{number}\t{uid}\trest\n" for number, uid in enumerate(self.UIDS, 1)]
        rows = [
            f"{number}\t{call}\tX\n"
            for number, count in self.CALLS.items()
            for call in range(count)
        ]
        text = "".join(rows).encode()
        with tempfile.TemporaryFile() as file:
            schedules = Schedules([], file)
            schedules.fill(Table([], io.BytesIO("".join(lines).encode())))
            for size in (*range(8, 40), 1000):
                with self.subTest(size):
                    parts = list(parts_of(Index(schedules), Table([], Small(text, size))))
                    self.assertEqual(text, b"".join(part.text for part in parts))
                    self.assertEqual(
                        "".join(lines), b"".join(self.lines(schedules, parts)).decode()
                    )
                    for part in parts:
                        numbers = {int(row.split(b"\t")[0]) for row in part.text.splitlines()}
                        uids = {self.UIDS[number - 1] for number in numbers}
                        others = {
                            self.UIDS[number - 1] for number in self.CALLS if number not in numbers
                        }
                        self.assertFalse(uids & others)
                        found = {
                            int(line.split(b"\t")[0]) for line in self.lines(schedules, [part])
                        }
                        self.assertLessEqual(numbers, found)

    def lines(self, schedules: Schedules, parts: list[Part]) -> list[bytes]:
        return [line for part in parts for line in schedules.lines_in(part.first, part.last)]


class KindsOfTrains(unittest.TestCase):
    """The route type of a train."""

    def test_sleepers(self) -> None:
        for sleepers in "BFS":
            kind = kind_of(Fields("P", "XX", sleepers, ""))
            self.assertEqual((Kind.SLEEPER, 105), (kind, EXTENDED_TYPES[kind]), sleepers)
        self.assertEqual(Kind.SLEEPER, kind_of(Fields("P", "XZ", "", "")))
        self.assertEqual(Kind.RAIL, kind_of(Fields("P", "XX", "", "")))

    def test_others(self) -> None:
        self.assertEqual(714, EXTENDED_TYPES[kind_of(Fields("B", "BR", "", ""))])
        self.assertEqual(Kind.BUS, kind_of(Fields("5", "BS", "", "")))
        self.assertEqual(Kind.SHIP, kind_of(Fields("S", "SS", "", "")))
        self.assertEqual(Kind.METRO, kind_of(Fields("P", "OL", "", "")))

    def test_who_may_ride(self) -> None:
        self.assertTrue(is_for_riders("P", "OO"))
        for status, category in (
            ("F", "XX"),
            ("P", "EE"),
            ("P", "OU"),
            ("P", "XU"),
            ("P", "H2"),
            ("T", ""),
        ):
            self.assertFalse(is_for_riders(status, category), (status, category))


class ChangesEnRoute(unittest.TestCase):
    """A train that is for riders on a part of its way."""

    def test_read(self) -> None:
        rows = b"1\t3\tA\t\tOO\tx\n1\t5\tB\t\tEE\tx\n2\t3\tA\t\tOO\tx\n"
        names = "schedule call location suffix category identity".split()
        want = {b"1": ((3, "OO"), (5, "EE")), b"2": ((3, "OO"),)}
        self.assertEqual(want, read_changes(Table(names, io.BytesIO(rows))))

    def test_calls(self) -> None:
        """Riders get on at the third call and off at the fifth, and don't ride before or after. The
        fourth sets down only, and where the change makes it a call for nobody it is none."""
        flags = ["0\t0"] * 3 + ["0\t1"] + ["0\t0"] * 2
        rows = [f"7\t{at}\tA\t1\t1\t1\t{each}\n" for at, each in enumerate(flags, 1)]
        sort = sort_of("P", "EE", [(3, "OO"), (5, "EE")])
        third, fifth = "7\t3\tA\t1\t1\t1\t1\t0\n", "7\t5\tA\t1\t1\t1\t0\t1\n"
        found = calls_for_riders("".join(rows).encode(), sort)
        self.assertEqual(f"{third}{rows[3]}{fifth}", found.decode())
        sort = sort_of("P", "EE", [(4, "OO")])
        self.assertEqual("".join(rows[4:]), calls_for_riders("".join(rows).encode(), sort).decode())


class TimesOfStops(unittest.TestCase):
    """Stops that aren't public get the day that is nearest."""

    def test_rounded_up(self) -> None:
        self.assertEqual(23 * 3600 + 5 * 60, rounded_up("2304H"))
        self.assertEqual(24 * 3600, rounded_up("2359H"))

    def test_after_midnight(self) -> None:
        before = b"A\t1\t23:50:00\t23:55:00\t0\t0\n"
        row = row_at(Stop("2", "LI", "B", "", "", "0005", "0010"), before, None)
        self.assertEqual(b"B\t\t24:05:00\t24:10:00\t1\t1\n", row)

    def test_before_the_first_call(self) -> None:
        after = b"B\t1\t00:10:00\t00:12:00\t0\t0\n"
        row = row_at(Stop("1", "LO", "A", "", "2", "", "0005"), None, after)
        self.assertEqual(b"A\t2\t00:05:00\t00:05:00\t1\t1\n", row)


def link(
    minutes: int,
    first: str | None = None,
    last: str | None = None,
    days_run: str | None = None,
    begins: str | None = None,
    ends: str | None = None,
) -> LinkRow:
    first_date, last_date = (date.fromisoformat(day) if day else None for day in (first, last))
    return LinkRow("EUS", "VIC", minutes, first_date, last_date, days_run, begins, ends)


class Links(unittest.TestCase):
    """Which link of several counts, from 4 December 2026 to 4 December 2027."""

    WINDOW = (date(2026, 12, 4), date(2027, 12, 4))

    def test_minutes(self) -> None:
        """The shortest of those that hold, or else the longest."""
        for links, wanted in (
            ([link(9, days_run="1111110"), link(12, begins="0700", ends="2200"), link(20)], 12),
            ([link(7, begins="0701"), link(8, days_run="1111110")], 8),
            ([link(7, ends="2159"), link(8, days_run="1111110")], 8),
            ([link(5, "2026-12-05"), link(7, last="2027-12-03")], 7),
            ([link(5, "2026-12-04", "2027-12-04"), link(7)], 5),
            ([link(5), link(7, days_run="0000001")], 5),
            ([link(7, days_run="0000001"), link(6, "2027-01-01")], 7),
        ):
            with self.subTest(links):
                self.assertEqual(wanted, minutes_of(links, *self.WINDOW))

    def test_window(self) -> None:
        for when, wanted in (
            ((None, "2026-12-03"), False),
            ((None, "2026-12-04"), True),
            (("2027-12-04", None), True),
            (("2027-12-05", None), False),
        ):
            with self.subTest(when):
                self.assertEqual(wanted, link(5, *when).is_in(*self.WINDOW))


class PublishedSchedules(unittest.TestCase):
    """The dates that a canonical schedule and a published one share."""

    def test_shared(self) -> None:
        winner = Winner("2026-01-01", "P", "2026-01-05", "2026-01-18", "1100011")
        for first, last, days_run, wanted in (
            ("2026-01-01", "2026-01-31", "1111111", ("2026-01-05", "2026-01-18", "1100011")),
            ("2026-01-07", "2026-01-13", "0110001", ("2026-01-07", "2026-01-13", "0100001")),
            ("2026-01-05", "2026-01-18", "0011100", None),
            ("2026-01-07", "2026-01-08", "1111111", None),
        ):
            with self.subTest(first):
                self.assertEqual(wanted, winner.shared(first, last, days_run))
