"""Functions of cif-report."""
from __future__ import annotations

import re
import unittest
from datetime import date, timedelta

from cif_timetable.days import Window, numbers_of
from cif_timetable.report.charts import (
    MOST_TICKS,
    Reach,
    Series,
    bars_of_weeks,
    marks_at,
    nice_step,
    share,
    tick_days,
    weeks_of,
)
from cif_timetable.report.comparison import Change, Face, Train
from cif_timetable.report.groups import all_groups, groups_of
from cif_timetable.report.peaks import Peak, peaks_of, usual_of
from cif_timetable.report.words import Phrase, amount, near, new_for_old, shift_words


# The first ones before the second ones, which count half as much.
KINDS_BY_WEIGHT = ["cancelled", "runs", "places", "times", "platforms", "numbers", "data"]


def train(uid: str, operator: str, departure: str, dates: int, kind: str = "times") -> Train:
    phrase = Phrase(kind, f"other {kind}")
    face = Face("1A01", operator, "A", "B", departure)
    return Train(uid, face, (Change((phrase,), dates, (), ()),))


class Words(unittest.TestCase):
    """Differences of times, which are in half minutes."""

    def test_amounts(self) -> None:
        wanted = {
            1: "½ min",
            5: "2½ min",
            24: "12 min",
            240: "120 min",
            242: "2 h 1 min",
            360: "3 h",
        }
        self.assertEqual(wanted, {halves: amount(halves) for halves in wanted})

    def test_shifts(self) -> None:
        self.assertEqual("5 min later", shift_words([10, 10]))
        self.assertEqual("2 to 5 min earlier", shift_words([-4, -10]))
        self.assertEqual("up to 5 min later", shift_words([0, 10]))
        self.assertEqual("up to 2 min earlier and 5 min later", shift_words([-4, 10]))

    def test_midnight_between(self) -> None:
        """From 23:55 to 00:05 are ten minutes, and not a day less."""
        self.assertEqual(20, near(10 - 2870, 0))
        self.assertEqual(-20, near(2870 - 10, 0))

    def test_new_for_old(self) -> None:
        self.assertEqual("platform 4 for 5 at Hove", new_for_old("platform", "4", "5", " at Hove"))
        self.assertEqual("platform 4, none before", new_for_old("platform", "4", ""))
        self.assertEqual("no platform, 5 before", new_for_old("platform", "", "5"))


class Groups(unittest.TestCase):
    """Trains with the same changes."""

    def test_order_within_a_group(self) -> None:
        """By operator, then by departure, then by UID."""
        trains = [
            train("W3", "SN", "09:00", 1),
            train("W2", "GX", "12:00", 1),
            train("W5", "SN", "08:00", 1),
            train("W1", "SN", "09:00", 1),
        ]
        [group] = groups_of(all_groups(trains), [], 10)
        self.assertEqual(["W2", "W5", "W1", "W3"], [each.uid for each in group.trains])

    def test_most(self) -> None:
        trains = [train(f"W{number}", "SN", "09:00", 1) for number in range(30)]
        [group] = groups_of(all_groups(trains), [], 20)
        self.assertEqual((12, 18), (len(group.trains), group.others))

    def test_rank(self) -> None:
        """A cancelled train counts as much as one with other platforms on four dates."""
        by_kind = [
            train(f"W{at}", "SN", "09:00", 1, kind) for at, kind in enumerate(KINDS_BY_WEIGHT)
        ]
        found = [group[0].changes[0].phrases[0].kind for group in all_groups(by_kind)]
        self.assertEqual(KINDS_BY_WEIGHT, found)
        few, more = train("W1", "SN", "09:00", 1, "cancelled"), train(
            "W2", "SN", "09:00", 31, "platforms"
        )
        self.assertEqual([[more], [few]], all_groups([few, more]))

    def test_peaks_share_half(self) -> None:
        """Two peaks of 30 trains and 30 others, of which 40 are shown."""
        trains = [train(f"W{at:02}", "SN", "09:00", 1 << at // 30, "cancelled") for at in range(60)]
        trains += [train(f"Z{at:02}", "SN", f"{at:02}:00", 7, "data") for at in range(30)]
        peaks = [Peak(2, "cancelled", 1), Peak(1, "cancelled", 0)]
        found = groups_of(all_groups(trains), peaks, 40)
        shown = [(group.peak, len(group.trains), group.others) for group in found]
        self.assertEqual([(0, 10, 20), (1, 10, 20), (None, 12, 18)], shown)
        found = groups_of(all_groups(trains), peaks, 90)
        self.assertEqual([(0, 30), (1, 30), (None, 30)], [(g.peak, len(g.trains)) for g in found])


class Peaks(unittest.TestCase):
    """Dates that stand out, of four weeks from a Monday on."""

    window = Window(date(2026, 6, 1), date(2026, 6, 28))

    def found(self, changed: int, **of_kind: dict[int, int]) -> list[tuple[str, list[int], int]]:
        counts = {kind: [dates.get(at, 5) for at in range(28)] for kind, dates in of_kind.items()}
        peaks = peaks_of(counts, self.window, changed)
        return [(peak.kind, numbers_of(peak.dates), peak.highest) for peak in peaks]

    def test_usual(self) -> None:
        """At most so many on three of four dates, and on all but one of three."""
        self.assertEqual(
            [3, 2, 1, 1], [usual_of(each) for each in ([1, 2, 3, 9], [9, 2, 1], [9, 1], [1])]
        )

    def test_half_as_many_again_and_ten_more(self) -> None:
        self.assertEqual([], self.found(200, times={4: 14}))
        self.assertEqual([("times", [4], 4)], self.found(200, times={4: 15}))
        many = {at: 40 for at in range(28)}
        self.assertEqual([], self.found(200, times={**many, 4: 59}))
        self.assertEqual([("times", [4], 4)], self.found(200, times={**many, 4: 60}))

    def test_few_trains(self) -> None:
        self.assertEqual([("times", [4], 4)], self.found(30, times={4: 8}))
        self.assertEqual([], self.found(31, times={4: 8}))

    def test_on_most_dates_of_a_weekday(self) -> None:
        """On two of four Fridays it is usual."""
        self.assertEqual([], self.found(200, times={4: 90, 11: 90}))

    def test_dates_that_follow_one_another(self) -> None:
        """From a Friday to the Monday after the weekend, with the kind that counts most."""
        self.assertEqual([("runs", [4, 7], 7)], self.found(200, runs={4: 80, 7: 90}, data={4: 500}))
        self.assertEqual([("runs", [8], 8), ("runs", [4], 4)], self.found(200, runs={4: 80, 8: 90}))

    def test_less_than_a_quarter_of_the_first(self) -> None:
        self.assertEqual([("runs", [4], 4)], self.found(200, runs={4: 105, 15: 29}))
        self.assertEqual(
            [("runs", [4], 4), ("runs", [15], 15)], self.found(200, runs={4: 105, 15: 30})
        )


class Charts(unittest.TestCase):
    """The axis and the grid."""

    def ticks(self, first: date, count: int) -> list[str]:
        return [
            text for _, text in tick_days([first + timedelta(days=day) for day in range(count)])
        ]

    def test_a_tick_for_each_day_monday_month_or_year(self) -> None:
        monday = date(2026, 6, 1)
        self.assertEqual(["1 Jun", "2 Jun", "3 Jun"], self.ticks(monday, 3))
        self.assertEqual(["1 Jun", "8 Jun", "15 Jun", "22 Jun"], self.ticks(monday, 28))
        self.assertEqual(["Jun", "Jul", "Aug", "Sep"], self.ticks(monday, 100))
        self.assertEqual(["2027", "2028", "2029"], self.ticks(monday, 1200))

    def test_no_more_than_there_is_room_for(self) -> None:
        self.assertEqual(14, MOST_TICKS)
        for count in (98, 99, 105, 400, 4000, 30000):
            with self.subTest(count):
                ticks = self.ticks(date(2026, 6, 1), count)
                self.assertTrue(3 < len(ticks) <= MOST_TICKS, ticks)

    def test_marks_near_one_another(self) -> None:
        """They stand above one another: less than 8 per cent of the width apart."""
        found, levels = marks_at({40: "1", 12: "3", 5: "2", 0: "4"}, 100)
        self.assertEqual(3, levels)
        marks = re.findall(r"level-of-(\d).*?<b>(\d)</b>", found)
        self.assertEqual([("0", "4"), ("1", "2"), ("2", "3"), ("0", "1")], marks)
        self.assertEqual(("", 0), marks_at({}, 100))

    def test_weeks(self) -> None:
        """From a Friday on: three days, seven, and two; bars of -5, 10 and 0 trains, 15 high together."""
        days = [date(2026, 6, 5) + timedelta(days=number) for number in range(12)]
        series = Series([10] * 12, [10, 10, 5, 20, *[10] * 8])
        weeks = weeks_of(series, days)
        self.assertEqual(
            [(0, 2, 30, 25), (3, 9, 70, 80), (10, 11, 20, 20)], [tuple(week) for week in weeks]
        )
        reach = Reach(10, 5)
        self.assertEqual("M3.2,667V0h6.6V667z", bars_of_weeks(weeks, 1, reach))
        self.assertEqual("M0.2,667V1000h2.6V667z", bars_of_weeks(weeks, -1, reach))

    def test_per_cent(self) -> None:
        wanted = {
            (1000, 1000): "as many trains",
            (0, 3): "no trains before",
            (3, 0): "no trains any more",
            (1000, 969): "3.1% fewer trains",
            (1000, 1100): "10% more trains",
            (10000, 9999): "<0.1% fewer trains",
        }
        self.assertEqual(wanted, {each: share(*each) for each in wanted})

    def test_steps(self) -> None:
        self.assertEqual([1, 1, 2, 5, 50], [nice_step(most) for most in (1, 3, 4, 12, 199)])
