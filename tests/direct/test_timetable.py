"""The module that programs import."""
from __future__ import annotations

import gzip
import importlib.util
import os
import pickle
import signal
import subprocess
import sys
import threading
import unittest
import warnings
import zipfile
from datetime import date, time, timedelta
from pathlib import Path
from unittest import mock

import cif_timetable as cif
from cif_timetable import _process, _tables

from .test_files import InFolder

TOP = Path(__file__).resolve().parents[2]
EXAMPLES = TOP / "examples"
EXTRACT = EXAMPLES / "timetable.cif"
PUBLISHED = EXAMPLES / "published.cif"
HOLIDAYS = EXAMPLES / "holidays.txt"
FRIDAY = date(2026, 6, 5)


def record(text: str) -> str:
    return f"{text:80}\n"


# A train at midnight, which has a public time of noughts; in the second extract with another body on one date.
HEADER = record("HDTPS.UDXXXX1.PD2605151505262107DXXXX1A       FA010626070626")
TRAIN = (
    record(f"{'BSNW000012606012606071111111 POO2A01    124745000 EMU377 100D':79}P")
    + record("LOHOVE    0000 00001")
    + record("LIBRGHTN  0004H0006      00050006 2")
    + record("LTLEWES   0010 00101     TF")
)
CLASH = TRAIN.replace("2606012606071111111", "2606032606030010000").replace(
    "0010 00101", "0011 00111"
)


# A train that leaves before midnight, calls after it, and where riders may only get off before the end.
NIGHT = (
    record(f"{'BSNN000012606012606071111111 POO2N01    124745000 EMU377 100D':79}P")
    + record("BX         SNY")
    + record("LOHOVE    2350 23503        TB")
    + record("LIBRGHTN  0010H0012      001100122        T")
    + record("LISEAFORD 0020 0021      002000211        D")
    + record("LTLEWES   0030 00301     TF")
)
PLACE_NAMES = "HOVE", "BRGHTN", "SEAFORD", "LEWES", "NOWHERE"
PLACES = record(f"TIHOVE   00000000 {'HOVE':26}000000000HOV{'HOVE':16}")


class OneTrain(InFolder):
    """An extract with one train."""

    def path(self, *trains: str) -> Path:
        path = self.folder / "one.cif"
        path.write_text("".join((HEADER, *trains, record("ZZ"))), encoding="ascii")
        return path

    def test_times(self) -> None:
        """A working 0000 is midnight, a public one none."""
        with cif.open(self.path(TRAIN)) as timetable:
            first, second, last = timetable.calls()
            self.assertEqual((time(0), None), (first.departure, first.public_departure))
            self.assertEqual(time(0, 4, 30), second.arrival)
            self.assertEqual(
                (time(0, 5), time(0, 6)), (second.public_arrival, second.public_departure)
            )
            self.assertEqual((None, None, "TF"), (last.departure, last.pass_, last.activities))

    def test_trains_of_a_date(self) -> None:
        with cif.open(self.path(TRAIN)) as timetable:
            [train] = timetable.on(date(2026, 6, 3))
            self.assertEqual(("W00001", "2A01"), (train.uid, train.identity))
            self.assertEqual(("HOVE", "LEWES"), (train.origin.tiploc, train.terminus.tiploc))
            self.assertEqual(date(2026, 6, 3), train.last_date)
            [whole] = timetable.train("W00001")
            self.assertTrue(whole.runs_on(date(2026, 6, 7)) and not whole.runs_on(date(2026, 6, 8)))
            self.assertEqual((whole.calls, []), (train.calls, timetable.train("W00002")))

    def test_departures_and_arrivals(self) -> None:
        """By the clock: what leaves on 2 June at 23:50 calls on 3 June."""
        with cif.open(self.path(PLACES, NIGHT)) as timetable:
            [found] = timetable.departures("hov", date(2026, 6, 2), calling_at="LEWES")
            want = cif.Departure(
                date=date(2026, 6, 2),
                time=time(23, 50),
                train_date=date(2026, 6, 2),
                uid="N00001",
                identity="2N01",
                operator_code="SN",
                category="OO",
                status="P",
                tiploc="HOVE",
                platform="3",
                call=1,
                origin="HOVE",
                origin_name="HOVE",
                destination="LEWES",
                destination_name=None,
                calling_at="LEWES",
                calling_at_date=date(2026, 6, 3),
                calling_at_time=time(0, 30),
            )
            self.assertEqual(want, found)
            [found] = timetable.departures("BRGHTN", date(2026, 6, 3))
            moment = (found.date, found.time, found.train_date, found.calling_at)
            self.assertEqual((date(2026, 6, 3), time(0, 12), date(2026, 6, 2), None), moment)
            [came] = timetable.arrivals("BRGHTN", date(2026, 6, 3))
            self.assertEqual((time(0, 11), 2), (came.time, came.call))
            counts = [
                len(list(timetable.departures(place, date(2026, 6, 3)))) for place in PLACE_NAMES
            ]
            self.assertEqual([1, 1, 0, 0, 0], counts)
            counts = [
                len(list(timetable.arrivals(place, date(2026, 6, 3)))) for place in PLACE_NAMES
            ]
            self.assertEqual([0, 1, 1, 1, 0], counts)
            with self.assertRaises(cif.CifError) as caught:
                list(timetable.departures("HOVE", date(2026, 6, 8)))
            self.assertEqual("OutsideWindow", caught.exception.name)

    def test_bad_places(self) -> None:
        """They are refused before anything is read."""
        with cif.open(self.path(NIGHT)) as timetable:
            for bad in "", "TOOLONGX", "A B", "\x7f", "é":
                with self.subTest(bad), self.assertRaises(ValueError):
                    timetable.departures(bad, date(2026, 6, 3))
                with self.subTest(bad), self.assertRaises(ValueError):
                    timetable.arrivals(bad, date(2026, 6, 3))
                with self.assertRaises(ValueError):
                    timetable.departures("HOVE", date(2026, 6, 3), calling_at=bad)
            self.assertEqual(
                [], list(timetable.departures("-HOV", date(2026, 6, 3), calling_at="-"))
            )

    def test_winners(self) -> None:
        """A permanent schedule with an open end, of which an overlay takes one date."""
        permanent = NIGHT.replace("260601260607", "260601999999")
        overlay = NIGHT.replace("2606012606071111111", "2606032606030010000").replace(
            "P\n", "O\n", 1
        )
        with cif.open(self.path(permanent, overlay), first=date(2026, 6, 3)) as timetable:
            found = [
                (
                    each.stp_indicator,
                    each.last_date,
                    each.wins_from.day,
                    each.wins_to.day,
                    each.days_run,
                )
                for each in timetable.winners()
            ]
        # the only Wednesday is that of the overlay
        want = [("P", None, 1, 7, "1101111"), ("O", date(2026, 6, 3), 3, 3, "0010000")]
        self.assertEqual(want, found)
        with cif.open(self.path(NIGHT)) as timetable:
            days = (date(2026, 6, 1), date(2026, 6, 7))
            want_all = [cif.Winner("N00001", *days, "P", *days, "1111111")]
            self.assertEqual(want_all, list(timetable.winners()))
        # 25 May is a holiday, on which this one doesn't run
        with cif.open(PUBLISHED, holidays=HOLIDAYS) as timetable:
            ends = [each.wins_to for each in timetable.winners() if each.uid == "W20101"]
        self.assertEqual(date(2026, 5, 22), ends[0])

    @unittest.skipUnless(importlib.util.find_spec("pandas"), "pandas isn't there")
    def test_frame_of_departures(self) -> None:
        with cif.open(self.path(PLACES, NIGHT)) as timetable:
            frame = timetable.frame("departures", "HOV", date(2026, 6, 2), calling_at="LEWES")
            self.assertEqual(timedelta(hours=23, minutes=50), frame.time[0])
            self.assertEqual(date(2026, 6, 3), frame.calling_at_date[0].date())
            self.assertEqual("SN", frame.operator_code[0])
            frame = timetable.frame("arrivals", "HOV", date(2026, 6, 2))
            self.assertEqual((0, 15), frame.shape)
            self.assertEqual(["N00001"], list(timetable.frame("winners").uid))
            with self.assertRaises(TypeError):
                timetable.frame("departures")

    def test_clash(self) -> None:
        """It is refused, or dropped with a warning at the line of the caller."""
        path = self.path(TRAIN, CLASH)
        with self.assertRaises(cif.CifError) as caught:
            cif.open(path)
        self.assertEqual(
            ("Ambiguous", None, 3),
            (caught.exception.name, caught.exception.line, caught.exception.status),
        )
        self.assertIn("drop_clashes=True", caught.exception.advice)
        with self.assertWarnsRegex(UserWarning, r"dropped: train \[W00001\] on 260603$") as warned:
            timetable = cif.open(path, drop_clashes=True)
        self.assertEqual(__file__, warned.filename)
        self.assertEqual([1, 2, 4, 5, 6, 7], [day.day for day in timetable.calendar("W00001")])

    def test_changed_file(self) -> None:
        """What changes between two questions isn't mixed."""
        timetable = cif.open(self.path(TRAIN))
        self.path(TRAIN, TRAIN.replace("W00001", "W00002"))
        with self.assertRaisesRegex(cif.CifError, "has changed"):
            list(timetable.schedules())

    def test_changed_locations(self) -> None:
        old = self.folder / "old.cif"
        old.write_text(self.path(f"{'TIHOVE   00000000 HOVE':80}\n", TRAIN).read_text())
        new = self.path(
            f"{'TIHOVE   00000000 HOVE B':80}\n", f"{'TILEWES  00000000 LEWES':80}\n", TRAIN
        )
        self.assertEqual(cif.ChangeCounts(0, 1, 1), cif.changes(old, new).locations)

    @unittest.skipUnless(importlib.util.find_spec("pandas"), "pandas isn't there")
    def test_quotation_marks_in_a_frame(self) -> None:
        path = self.path(TRAIN.replace("0010 00101  ", '0010 0010"1 '))
        platforms = cif.open(path).frame("calls").platform
        self.assertEqual('"1', platforms[2])

    def test_line_of_a_refusal(self) -> None:
        with self.assertRaises(cif.CifError) as caught:
            cif.open(self.path(TRAIN.replace("1111111", "1112111")))
        error = pickle.loads(pickle.dumps(caught.exception))
        self.assertEqual(("BadDays", 2, 3), (error.name, error.line, error.status))
        self.assertIn("columns 22-28", error.advice)


class Opening(InFolder):
    """What can be opened."""

    def refused(self, path: Path, status: int, name: str | None, text: str) -> None:
        with self.assertRaisesRegex(cif.CifError, text) as caught:
            cif.open(path, holidays=HOLIDAYS)
        self.assertEqual((status, name), (caught.exception.status, caught.exception.name))

    def test_published_and_packed(self) -> None:
        packed, archive = self.folder / "published.gz", self.folder / "feed.zip"
        packed.write_bytes(gzip.compress(PUBLISHED.read_bytes()))
        with zipfile.ZipFile(archive, "w") as members:
            members.write(PUBLISHED, "RJTTF001.MCA")
            members.writestr("RJTTF001.MSN", "x")
        wanted = cif.counts(EXTRACT)
        # nothing is left out, so nothing is said
        self.enterContext(warnings.catch_warnings())
        warnings.simplefilter("error", UserWarning)
        for path in PUBLISHED, packed, archive:
            with self.subTest(path.name), cif.open(path, holidays=HOLIDAYS) as timetable:
                self.assertEqual(wanted, cif.counts(timetable))
                found = cif.changes(timetable, EXTRACT)
                self.assertEqual(
                    {cif.ChangeCounts(0, 0, 0)},
                    {found.locations, found.associations, found.schedules},
                )
        with self.assertRaises(cif.CifError) as caught:
            cif.open(packed)
        self.assertEqual(("BankHoliday", 36), (caught.exception.name, caught.exception.line))
        self.assertIn(f"in {packed}", caught.exception.advice)
        self.assertIn("holidays=FILE", caught.exception.advice)

    def test_damaged(self) -> None:
        path = self.folder / "damaged.gz"
        packed = gzip.compress(EXTRACT.read_bytes())
        for bad in (
            packed[: len(packed) // 2],
            packed[:-8] + b"00000000",
            packed[:60] + b"\xff" * 20 + packed[80:],
        ):
            path.write_bytes(bad)
            self.refused(path, 4, "ReadFault", "damaged.gz is damaged")
        path.write_bytes(b"PK\x03\x04" + bytes(40))
        self.refused(path, 4, "ReadFault", "damaged.gz is damaged")

    def test_zip_with_several(self) -> None:
        path = self.folder / "several.zip"
        with zipfile.ZipFile(path, "w") as members:
            members.write(EXTRACT, "a.cif")
            members.write(EXTRACT, "b.CIF")
        self.refused(path, 3, None, "has 2 files")

    def test_no_such_file(self) -> None:
        with self.assertRaises(FileNotFoundError):
            cif.open("missing")
        with self.assertRaises(FileNotFoundError):
            cif.open(EXTRACT, holidays="missing")
        with self.assertRaises(IsADirectoryError):
            cif.open(self.folder)

    def test_a_part_of_the_window(self) -> None:
        with cif.open(EXTRACT, first=date(2026, 6, 1), last=FRIDAY) as timetable:
            self.assertEqual(
                (date(2026, 6, 1), FRIDAY),
                (timetable.header.first_date, timetable.header.last_date),
            )
            self.assertEqual(5, len(timetable.calendar("W20347")))
            # what changes is on the days after
            changed = cif.changes(timetable, EXAMPLES / "changed.cif")
            self.assertEqual(cif.ChangeCounts(0, 0, 0), changed.schedules)
        with cif.open(EXTRACT, first=date(2026, 6, 7)) as timetable:
            changed = cif.changes(timetable, EXAMPLES / "changed.cif")
            self.assertEqual(cif.ChangeCounts(0, 0, 1), changed.schedules)
        for day in date(2026, 7, 1), date(1926, 6, 1), date(2126, 6, 1):
            with self.subTest(day), self.assertRaises(cif.CifError) as caught:
                cif.open(EXTRACT, first=day)
            self.assertEqual(("OutsideWindow", 3), (caught.exception.name, caught.exception.status))


class Asking(unittest.TestCase):
    """What a timetable answers."""

    def setUp(self) -> None:
        self.timetable = cif.open(EXTRACT)

    def children(self) -> list[str]:
        return (
            Path(f"/proc/self/task/{threading.get_native_id()}/children").read_text("ascii").split()
        )

    def test_dropped_iterator(self) -> None:
        """It ends its cif."""
        calls = self.timetable.calls()
        next(calls)
        self.assertEqual(1, len(self.children()))
        del calls
        self.assertEqual([], self.children())

    def test_pickled(self) -> None:
        with cif.open(PUBLISHED, holidays=HOLIDAYS) as timetable:
            again = pickle.loads(pickle.dumps(timetable))
            self.assertEqual(list(timetable.schedules()), list(again.schedules()))
            [train] = again.train("W20402")
            self.assertEqual(train, pickle.loads(pickle.dumps(train)))

    def test_threads(self) -> None:
        found: list[int] = []
        threads = [
            threading.Thread(target=lambda: found.append(sum(1 for _ in self.timetable.calls())))
            for _ in range(4)
        ]
        for thread in threads:
            thread.start()
        for thread in threads:
            thread.join()
        self.assertEqual([96] * 4, found)

    def test_uids(self) -> None:
        self.assertEqual({}, self.timetable.calendar("-xxxxx"))
        for uid in "W2034", "W203477", "W2034é":
            with self.assertRaises(ValueError):
                self.timetable.calendar(uid)
            with self.assertRaises(ValueError):
                self.timetable.train(uid)

    def test_cancelled_dates(self) -> None:
        """The calendar has them, and no others on which nothing runs."""
        marks = self.timetable.calendar("W20101")
        want = subprocess.run(
            [os.environ["CIF"], "calendar", "W20101", EXTRACT],
            capture_output=True,
            check=True,
            text=True,
        ).stdout
        letters = "".join(line[7:] for line in want.splitlines()[1:])
        self.assertEqual(letters.replace(".", "").replace(" ", ""), "".join(marks.values()))

    def test_a_date_that_isnt_there(self) -> None:
        for day in date(2026, 7, 1), date(1926, 6, 5), date(2126, 6, 5):
            with self.subTest(day), self.assertRaises(cif.CifError) as caught:
                list(self.timetable.on(day))
            self.assertEqual("OutsideWindow", caught.exception.name)

    def test_associations(self) -> None:
        found = list(self.timetable.associations_on(FRIDAY))
        self.assertEqual(
            [("W20113", "VV"), ("W20231", "JJ")], [(each.base_uid, each.category) for each in found]
        )
        self.assertEqual({FRIDAY}, {each.first_date for each in found})
        self.assertTrue(
            all(any(each.runs_on(FRIDAY) for each in self.timetable.associations()) for _ in found)
        )

    def test_when(self) -> None:
        """The clocks go back in the night of 25 October."""
        self.assertEqual(
            "2026-06-06T00:19:00+01:00",
            cif.when(FRIDAY, timedelta(hours=24, minutes=19)).isoformat(),
        )
        self.assertEqual(
            "2026-10-26T09:00:00+00:00", cif.when(date(2026, 10, 26), time(9)).isoformat()
        )

    def test_changes(self) -> None:
        found = cif.changes(self.timetable, EXAMPLES / "changed.cif")
        self.assertEqual(cif.ChangeCounts(1, 0, 1), found.schedules)
        fields = {each.field for each in cif.diff(EXTRACT, EXAMPLES / "changed.cif")}
        self.assertIn("public_arrival", fields)

    @unittest.skipUnless(importlib.util.find_spec("pandas"), "pandas isn't there")
    def test_frames(self) -> None:
        """The same rows as those of the iterators."""
        for name in ("schedules", "calls", "public_calls", "associations", "locations", "winners"):
            frame = self.timetable.frame(name)
            values = list(getattr(self.timetable, name)())
            self.assertEqual(len(values), len(frame))
            for field in set(frame.columns) & {"uid", "tiploc", "platform", "crs_code"}:
                wanted = [getattr(value, field) or "" for value in values]
                self.assertEqual(wanted, frame[field].fillna("").tolist())
        calls = self.timetable.frame("calls")
        self.assertEqual(timedelta(hours=23, minutes=5), calls.departure[0])
        self.assertTrue(calls.public_departure[:1].isna().all())
        with self.assertRaises(ValueError):
            self.timetable.frame("public")


class Exports(InFolder):
    """Databases and feeds."""

    def test_signals_stay(self) -> None:
        """Only programs decide what interrupts do."""
        signal.signal(signal.SIGINT, signal.default_int_handler)
        before = [signal.getsignal(number) for number in (signal.SIGINT, signal.SIGTERM)]
        cif.to_sqlite(EXTRACT, self.folder / "made.db")
        result = cif.to_gtfs(EXTRACT, self.folder / "made.zip")
        self.assertEqual(10, result.stations_without_coordinates)
        self.assertEqual(
            before, [signal.getsignal(number) for number in (signal.SIGINT, signal.SIGTERM)]
        )
        self.assertEqual(
            ["made.db", "made.zip"], sorted(path.name for path in self.folder.iterdir())
        )

    def test_no_input_is_replaced(self) -> None:
        copy = self.folder / "copy.cif"
        copy.write_bytes(EXTRACT.read_bytes())
        with self.assertRaises(cif.CifError):
            cif.to_gtfs(copy, copy)
        self.assertEqual(EXTRACT.read_bytes(), copy.read_bytes())


class Finding(InFolder):
    """Where the program is looked for."""

    def test_order(self) -> None:
        """What is asked for, then CIF, then the clone's, and then the PATH."""
        own = _process.find_cif("/somewhere/cif").path
        self.assertEqual("/somewhere/cif", own)
        with mock.patch.dict(os.environ, {"CIF": "/elsewhere/cif"}):
            self.assertEqual("/elsewhere/cif", _process.find_cif().path)
        program = self.folder / "cif"
        program.symlink_to(os.environ["CIF"])
        environment = {"PATH": str(self.folder), "PYTHONPATH": str(TOP / "python")}
        call = "from cif_timetable._process import find_cif, own_places; print(find_cif().path, *own_places())"
        done = subprocess.run(
            [sys.executable, "-B", "-c", call],
            env=environment,
            capture_output=True,
            check=True,
            text=True,
        )
        found, first, *_ = done.stdout.split()
        self.assertEqual(str(TOP / "dist" / "cif"), first)
        self.assertEqual(first if os.access(first, os.X_OK) else str(program), found)


class Cells(unittest.TestCase):
    """What becomes of cells."""

    def test_times(self) -> None:
        self.assertEqual(
            (time(23, 4, 30), time(0), None),
            tuple(map(_tables.working_time, ("2304H", "0000", ""))),
        )
        self.assertEqual((None, time(0, 1)), tuple(map(_tables.public_time, ("0000", "0001"))))
        self.assertEqual(timedelta(days=1, minutes=19), _tables.since_midnight("24:19:00"))
