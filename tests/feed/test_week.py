"""From an empty folder through a week of updates, against a server that redirects as Network Rail's
does."""
from __future__ import annotations

import json
import sqlite3
import zipfile
from datetime import date

from cif_timetable.feed.settings import read_settings
from cif_timetable.feed.status import json_of, status_of, text_of

from . import extracts
from .extracts import FULL, MON, SAT, SUN, as_full, by_hand, packed, padded, update
from .folders import PASSWORD, USER, WithServer
from .server import Answer, redirect

SIGNED = "X-Amz-Signature=5igned"
FULL_PATH = "/ntrod/CifFileAuthenticate?type=CIF_ALL_FULL_DAILY&day=toc-full.CIF.gz"
UPDATE_PATH = "/ntrod/CifFileAuthenticate?type=CIF_ALL_UPDATE_DAILY&day=toc-update-{}.CIF.gz"
TUE, WED, THU, FRI = (
    update(date(2026, 12, day), f"DFROC1{letter}", f"DFROC1{last}")
    for day, letter, last in ((8, "W", "V"), (9, "X", "W"), (10, "Y", "X"), (11, "Z", "Y"))
)
NEXT_SAT = update(date(2026, 12, 12), "DFROC2A", "DFROC1Z")
WEEK = {"sat": SAT, "sun": SUN, "mon": MON, "tue": TUE, "wed": WED, "thu": THU, "fri": FRI}


class NetworkRail(WithServer):
    """A server that asks for user and password, and redirects to another one."""

    def setUp(self) -> None:
        super().setUp()
        self.store = self.new_server()
        self.settings("nrod", self.server.address)

    def publish(self, path: str, extract: bytes) -> None:
        name = f"/store{path.rpartition('=')[2]}?{SIGNED}"
        self.server.put(path, redirect(self.store.address + name))
        self.store.put(name, packed(extract))

    def publish_full(self, extract: bytes) -> None:
        self.publish(FULL_PATH, extract)

    def publish_update(self, weekday: str, extract: bytes) -> None:
        self.publish(UPDATE_PATH.format(weekday), extract)

    def start(self) -> None:
        """The full extract of Friday 4 December, on the morning of the 5th."""
        self.publish_full(FULL)
        self.assert_silent(self.run_feed())


class Week(NetworkRail):
    """What comes day by day."""

    def test_week_with_a_missing_day(self) -> None:
        """On the evening of Tuesday the 8th no update is made."""
        self.start()
        self.assertEqual(FULL, self.state())
        kept = [FULL]
        for day, (weekday, extract) in zip(range(6, 9), list(WEEK.items())[:3]):
            self.at(day)
            self.publish_update(weekday, extract)
            kept.append(extract)
            self.assert_silent(self.run_feed())
            self.assertEqual(by_hand(self.base, kept[0], kept[1:]), self.state(), weekday)
        monday = self.state()
        self.at(9)
        done = self.run_feed()
        said = (
            "DFROC1V of 2026-12-07 19:30 is 2 days old, and nothing newer",
            "toc-update-tue.CIF.gz",
            "stays",
        )
        self.assert_says(done, 4, *said)
        for day, weekday in (10, "wed"), (11, "thu"):
            self.at(day)
            self.publish_update(weekday, WEEK[weekday])
            done = self.run_feed()
            self.assert_says(done, 4, "DFROC1X", "follows DFROC1W", "missing", "DFROC1V", "stays")
            self.assertEqual(monday, self.state())
        self.at(12)
        whole = by_hand(self.base, FULL, [SAT, SUN, MON, TUE, WED, THU, FRI])
        self.publish_update("fri", FRI)
        self.publish_full(as_full(whole))
        done = self.run_feed()
        self.assert_says(
            done, 0, "follows DFROC1W", "began again with", "20261211-1935-DFROC1Z-full"
        )
        self.assertNotIn("stays", done.said)
        self.assertEqual(as_full(whole), self.state())
        self.at(13)
        self.publish_update("sat", NEXT_SAT)
        self.assert_silent(self.run_feed())
        self.assertEqual(by_hand(self.base, as_full(whole), [NEXT_SAT]), self.state())

    def test_healed_by_kept_updates(self) -> None:
        """The full extract is made before the gap's end, and updates since are kept or fetched."""
        self.start()
        self.at(8)
        for weekday in ("sun", "mon"):
            self.publish_update(weekday, WEEK[weekday])
        self.assert_says(self.run_feed(), 4, "DFROC1U", "follows DFROC1T", "DFROC1S", "stays")
        sunday = by_hand(self.base, FULL, [SAT, SUN])
        self.publish_full(as_full(sunday))
        self.at(8, hour=8)
        done = self.run_feed()
        self.assert_says(
            done,
            0,
            "follows DFROC1T",
            "began again",
            "-full.cif.gz (DFROC1U of 2026-12-06 19:35) and 1 update\n",
        )
        self.assertEqual(by_hand(self.base, as_full(sunday), [MON]), self.state())

    def test_late_update_heals(self) -> None:
        """An update that comes a day late is fetched by its weekday."""
        self.start()
        self.at(8)
        for weekday in ("sun", "mon"):
            self.publish_update(weekday, WEEK[weekday])
        self.run_feed()
        self.publish_update("sat", SAT)
        self.at(8, hour=12)
        self.assert_silent(self.run_feed())
        self.assertEqual(by_hand(self.base, FULL, [SAT, SUN, MON]), self.state())

    def test_after_weeks(self) -> None:
        """After more than a week the updates since are gone, so a full extract is fetched."""
        self.start()
        self.at(29)
        newer = extracts.full(date(2026, 12, 25), "DFROC2N", "A00001")
        self.publish_full(newer)
        last = update(date(2026, 12, 28), "DFROC2O", "DFROC2N")
        self.publish_update("mon", last)
        done = self.run_feed()
        self.assert_says(done, 0, "DFROC2O", "follows DFROC2N", "began again with")
        self.assertEqual(by_hand(self.base, newer, [last]), self.state())

    def test_older_full_extract(self) -> None:
        """A full extract that is older than the state, on a server that has been set back."""
        self.start()
        self.at(6)
        self.publish_update("sat", SAT)
        self.run_feed()
        before = self.state()
        self.publish_full(extracts.full(date(2026, 11, 27), "DFROC1L", "A00001"))
        self.publish_update("mon", MON)
        self.at(8)
        done = self.run_feed()
        self.assert_says(done, 4, "DFROC1V", "follows DFROC1U", "DFROC1T of 2026-12-05 19:33 stays")
        self.assertEqual(before, self.state())

    def test_files_of_yesterday_again(self) -> None:
        """What is there already is no reason to do or to say anything, on the same day."""
        self.start()
        self.publish_update("sat", SAT)
        self.at(6)
        self.run_feed()
        names = self.version_names()
        self.publish_update("sun", SAT)
        self.at(6, hour=9)
        self.assert_silent(self.run_feed())
        self.assertEqual(names, self.version_names())
        self.assertIn("nothing new: DFROC1T of 2026-12-05 19:33", self.log()[-1])

    def test_each_night_little_is_fetched(self) -> None:
        """The full extract once; of updates those since the state, and a file that is the same isn't
        sent again."""
        self.start()
        for weekday, extract in WEEK.items():
            self.publish_update(weekday, extract if weekday in ("sat", "sun") else SAT)
        self.at(6)
        self.run_feed()
        asked = len(self.store.asked)
        self.at(7)
        self.run_feed()
        names = [path.partition("?")[0] for path in self.store.paths()[asked:]]
        self.assertEqual([f"/storetoc-update-{day}.CIF.gz" for day in ("sun", "mon", "tue")], names)
        self.assertEqual([304, 304, 200], [each.status for each in self.store.asked[asked:]])


class Secrets(NetworkRail):
    """User and password go to one host, and nowhere else."""

    def test_redirect(self) -> None:
        self.start()
        self.assertTrue(all("Authorization" in asked.headers for asked in self.server.asked))
        self.assertTrue(self.store.asked)
        for asked in self.store.asked:
            self.assertNotIn("Authorization", asked.headers)
            self.assertNotIn(PASSWORD, f"{asked}")
        self.assert_hidden(PASSWORD, self.server.asked[0].headers["Authorization"], SIGNED)

    def test_redirect_to_the_same_host(self) -> None:
        self.server.put(FULL_PATH, redirect(f"{self.server.address}/here"))
        self.server.put("/here", packed(FULL))
        self.assert_silent(self.run_feed())
        [asked] = [asked for asked in self.server.asked if asked.path == "/here"]
        self.assertIn("Authorization", asked.headers)

    def test_refused(self) -> None:
        self.server.put(FULL_PATH, Answer(b"who are you", 401))
        done = self.run_feed()
        self.assert_says(done, 3, "toc-full.CIF.gz", "401", "there is no extract yet")
        self.assertEqual(1, len(self.server.asked))
        self.assert_hidden(PASSWORD)
        self.assertNotIn(PASSWORD, done.said)

    def test_store_refuses(self) -> None:
        """What is behind the redirect fails: its address isn't shown."""
        for status in 403, 500:
            with self.subTest(status):
                name = f"/store?{SIGNED}"
                self.server.put(FULL_PATH, redirect(self.store.address + name))
                self.store.put(name, Answer(b"", status))
                done = self.run_feed()
                self.assertNotIn(SIGNED, done.said)
                self.assertNotIn("/store", done.said)
                self.assert_hidden(SIGNED)

    def test_no_user(self) -> None:
        self.has_user = False
        done = self.run_feed()
        self.assertEqual(2, done.status)
        self.assertIn("CIF_FEED_USER", done.said)
        self.assertEqual([], self.server.asked)

    def test_netrc(self) -> None:
        self.has_user = False
        netrc = self.base / ".netrc"
        netrc.touch(0o600)
        netrc.write_text(f"machine 127.0.0.1 login {USER} password {PASSWORD}\n", encoding="utf-8")
        self.start()
        self.assertIn("Authorization", self.server.asked[0].headers)
        netrc.chmod(0o644)
        self.assertIn("chmod 600", self.run_feed().said)
        netrc.chmod(0o600)
        netrc.write_text(f"machine 127.0.0.1 login {USER}\n{PASSWORD}\n", encoding="utf-8")
        done = self.run_feed()
        self.assertEqual(2, done.status)
        self.assertIn("~/.netrc: line", done.said)
        self.assertNotIn(PASSWORD, done.said)

    def test_other_programs(self) -> None:
        """What cif-feed starts gets neither by its words nor by its environment."""
        seen = self.base / "seen"
        program = self.base / "cif"
        program.write_text(
            f"#!/bin/sh\n{{ tr '\\0' '\\n' < /proc/$$/environ; echo; tr '\\0' ' ' < /proc/$$/cmdline;"
            f" tr '\\0' ' ' < /proc/$PPID/cmdline; }} >> {seen}\nexec {extracts.CIF} \"$@\"\n",
            encoding="utf-8",
        )
        program.chmod(0o755)
        self.settings("nrod", self.server.address, outputs='database = "timetable.db"')
        self.publish_full(FULL)
        self.assert_silent(self.run_feed("--cif", str(program), str(self.folder)))
        text = seen.read_text(encoding="utf-8", errors="replace")
        self.assertIn("prepare", text)
        self.assertNotIn(PASSWORD, text)
        self.assertNotIn(USER, text)
        seen.unlink()


class Made(NetworkRail):
    """Outputs of a version."""

    ALL = "\n".join(
        (
            'extract = "timetable.cif"',
            'database = "timetable.db"',
            'gtfs = "gtfs.zip"',
            'report = "changes.html"',
        )
    )

    def test_all_outputs(self) -> None:
        self.settings("nrod", self.server.address, "past_days = 0", outputs=self.ALL)
        self.start()
        self.assertNotIn("changes.html", self.facts()["outputs"])  # type: ignore[arg-type]
        # a train that ended in November stays in the full extract, and the outputs begin today
        self.assertIn(b"\nBSNW12013261128261129", self.state())
        self.assertNotIn(b"W12013", (self.current / "timetable.cif").read_bytes())
        self.publish_update("sat", SAT)
        self.at(8)
        self.run_feed()
        outputs = ["timetable.cif", "timetable.db", "gtfs.zip", "changes.html", "changes.csv"]
        self.assertEqual(outputs, self.facts()["outputs"])
        for name in outputs:
            self.assertTrue((self.current / name).stat().st_size, name)
        self.assertEqual(b"081226", (self.current / "timetable.cif").read_bytes()[48:54])
        with sqlite3.connect(self.current / "timetable.db") as database:
            [row] = database.execute("SELECT extracted_at, first_date FROM extract")
        database.close()
        self.assertEqual(("2026-12-05T19:33", "2026-12-08"), row)
        with zipfile.ZipFile(self.current / "gtfs.zip") as archive:
            self.assertIn("20261208", archive.read("feed_info.txt").decode())
        self.assertEqual(2, len(self.version_names()))
        changes = (self.current / "changes.csv").read_bytes()
        self.assertGreater(changes.count(b"\n"), 2)
        # what is made anew of the same extract says what changed since the one before that
        (self.folder / "holidays.txt").write_text(f"{extracts.HOLIDAYS}\nE\n", encoding="utf-8")
        self.settings(
            "nrod", self.server.address, "past_days = 0", outputs='report = "changes.html"'
        )
        self.run_feed()
        self.assertEqual(3, len(self.version_names()))
        self.assertEqual(changes, (self.current / "changes.csv").read_bytes())

    def test_waived_and_dropped(self) -> None:
        self.start()
        for day, weekday in (6, "sat"), (7, "sun"):
            self.at(day)
            self.publish_update(weekday, WEEK[weekday])
            self.run_feed()
        self.assertEqual((2, 0), (self.facts()["waived"], self.facts()["dropped"]))
        overlay = extracts.train("W12001", date(2026, 12, 7), "O")
        again = extracts.train("W12001", date(2026, 12, 6), "O", platform="2")
        head = extracts.header(date(2026, 12, 7), "DFROC1V", "DFROC1U", "U")
        self.publish_update("mon", padded(head, *overlay, *again, "ZZ"))
        self.at(8)
        self.assert_silent(self.run_feed())
        self.assertEqual((0, 1), (self.facts()["waived"], self.facts()["dropped"]))
        self.assertIn("cif: dropped: train [W12001] on 261207", self.log()[-1])

    def test_settings_change(self) -> None:
        """New settings and new holidays make new outputs of the same extract; other runs don't."""
        self.start()
        first = self.version_names()
        self.folder = self.folder.rename(self.base / "moved")
        self.run_feed()
        self.assertEqual(first, self.version_names())
        with open(self.folder / "holidays.txt", "a", encoding="utf-8") as file:
            file.write("X 270104\n")
        self.at(5, hour=9)
        self.assert_silent(self.run_feed())
        self.assertEqual(2, len(self.version_names()))
        self.assertEqual(FULL, self.state())
        text = (self.current / "holidays.txt").read_text(encoding="utf-8")
        self.assertIn("X 270104", text)

    def test_words_of_cif(self) -> None:
        """It is `cif` that says whether an update follows, and that prepares."""
        self.start()
        self.publish_update("sat", SAT)
        self.at(6)
        program = self.base / "cif"
        program.write_text(
            f'#!/bin/sh\necho "$*" >> "{self.base}/words"\nexec {extracts.CIF} "$@"\n',
            encoding="utf-8",
        )
        program.chmod(0o755)
        self.assert_silent(self.run_feed("--cif", str(program), str(self.folder)))
        words = (self.base / "words").read_text(encoding="utf-8")
        self.assertIn("\nupdate --verbose --lenient --in-sequence -- ", words)
        self.assertIn("\nprepare --verbose --drop-clashes --holidays=", words)

    def test_holidays_that_do_not_reach(self) -> None:
        self.settings("nrod", self.server.address)
        (self.folder / "holidays.txt").write_text("X 250505\nE\nG\n", encoding="utf-8")
        self.publish_full(FULL)
        self.assert_says(self.run_feed(), 0, "holidays of X: 250505 to 250505", "renew")
        self.assertEqual(FULL, self.state())

    def test_holidays_that_are_not_named(self) -> None:
        (self.folder / "holidays.txt").write_text("X 261228\n", encoding="utf-8")
        self.publish_full(FULL)
        said = "DFROC1S", "BankHoliday", "feed.toml", "there is no extract yet"
        self.assert_says(self.run_feed(), 3, *said)
        self.assertEqual([], self.version_names())

    def test_old_files_go(self) -> None:
        """Versions and raw files are kept for so many days; what heals a chain is kept."""
        self.settings("nrod", self.server.address, "keep_days = 2")
        self.start()
        for day, (weekday, extract) in zip(range(6, 13), WEEK.items()):
            self.at(day)
            self.publish_update(weekday, extract)
            self.assert_silent(self.run_feed())
        self.assertEqual(
            ["20261210", "20261211", "20261212"], [n[:8] for n in self.version_names()]
        )
        self.assertEqual(9, len(self.raw_names()))
        self.publish_full(as_full(self.state()))
        self.at(25)
        self.run_feed()
        names = ["20261211-1935-DFROC1Z-full.cif.gz", "fetched.json"]
        self.assertEqual(names, self.raw_names())
        state, versions = self.state(), self.version_names()
        self.at(31)
        self.assert_says(self.run_feed(), 4, "is 20 days old", "stays")
        self.assertEqual((state, versions), (self.state(), self.version_names()))

    def test_status(self) -> None:
        self.assertEqual(1, self.run_status()[0])
        self.start()
        status, found = self.run_status()
        self.assertEqual((0, "DFROC1S", []), (status, found["reference"], found["missing"]))
        self.assertEqual(("2026-12-04", "2027-12-04"), (found["first_date"], found["last_date"]))
        self.assertEqual("2026-12-05T07:00:00+00:00", found["fetched_at"])
        self.at(8)
        self.publish_update("mon", MON)
        self.run_feed()
        status, found = self.run_status()
        self.assertEqual(1, status)
        self.assertIn("DFROC1V of 2026-12-07", str(found["missing"]))
        self.assertIn("failed: ", str(found["last_run"]))

    def run_status(self) -> tuple[int, dict[str, object]]:
        found = status_of(read_settings(self.folder))
        self.assertIn("missing", text_of(found))
        return (1 if found["missing"] else 0), json.loads(json_of(found))
