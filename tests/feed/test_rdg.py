"""The zip of the Rail Delivery Group, behind a token."""
from __future__ import annotations

import csv
import io
import sqlite3
import zipfile
from datetime import date

from . import extracts
from .extracts import sample, zipped
from .folders import PASSWORD, USER, WithServer
from .server import Answer, redirect

TOKEN = "nobody@example.com:1796000000000:tOkEn-5ecret"
FULL_PATH = "/api/staticfeeds/3.0/timetable"
# Lines of the sample for which a northing has to be guessed, and its fillers.
ODD = (b"A    LERWICK", b"A    DUBLIN", b"-", b"0")
MSN = b"".join(line for line in sample("RJTTF512.MSN").splitlines(True) if not line.startswith(ODD))
MEMBERS = {
    "RJTTF512.DAT": b"RJTTF512.MCA\n",
    "RJTTF512.MCA": sample("RJTTF512.MCA"),
    "RJTTF512.ZTR": sample("RJTTF512.ZTR"),
    "RJTTF512.MSN": MSN,
    "RJTTF512.ALF": sample("RJTTF512.ALF"),
}
ALL = 'database = "timetable.db"\ngtfs = "gtfs.zip"'
DATABASE = 'database = "timetable.db"'


class RailDeliveryGroup(WithServer):
    """A server that gives a token for user and password, and the zip for the token."""

    def setUp(self) -> None:
        super().setUp()
        self.settings("rdg", self.server.address)
        self.server.put("/authenticate", f'{{"username":"x","token":"{TOKEN}"}}'.encode())
        self.server.put(FULL_PATH, zipped(MEMBERS))

    def rows(self, name: str) -> list[dict[str, str]]:
        with zipfile.ZipFile(self.current / "gtfs.zip") as archive:
            text = archive.read(name).decode()
        return list(csv.DictReader(io.StringIO(text)))

    def test_places_changes_and_links(self) -> None:
        """With nothing else to name."""
        self.settings("rdg", self.server.address, outputs=ALL)
        self.assert_silent(self.run_feed())
        stations = {row["stop_name"]: row for row in self.rows("stops.txt") if row["stop_lat"]}
        self.assertIn("Brighton", stations)
        self.assertAlmostEqual(50.829, float(stations["Brighton"]["stop_lat"]), 2)
        transfers = [
            (r["from_stop_id"], r["min_transfer_time"]) for r in self.rows("transfers.txt")
        ]
        self.assertIn("600", [seconds for _, seconds in transfers])
        with sqlite3.connect(self.current / "timetable.db") as database:
            query = "SELECT count(*) FROM locations WHERE latitude IS NOT NULL"
            [(count,)] = database.execute(query)
        database.close()
        self.assertGreater(count, 5)
        self.assertEqual({"RJTTF512.ZTR": 1}, self.facts()["not_read"])
        self.assertIn("RJTTF512.ZTR not read: 1 schedules", self.log()[-1])

    def test_kept_for_new_settings(self) -> None:
        """Stations and links stay though the zip isn't sent again."""
        self.assert_silent(self.run_feed())
        with open(self.folder / "holidays.txt", "a", encoding="utf-8") as file:
            file.write("X 270104\n")
        self.at(5, hour=9)
        self.assert_silent(self.run_feed())
        self.assertEqual(304, self.server.asked[-1].status)
        self.assertEqual(2, len(self.version_names()))
        self.assertEqual(MSN, (self.current / "stations.msn").read_bytes())
        self.assertEqual(sample("RJTTF512.ALF"), (self.current / "links.alf").read_bytes())
        self.assertEqual({"RJTTF512.ZTR": 1}, self.facts()["not_read"])

    def test_next_full_extract(self) -> None:
        self.assert_silent(self.run_feed())
        newer = extracts.full(date(2026, 12, 6), "DFTTISY", "A00001")
        self.server.put(FULL_PATH, zipped({**MEMBERS, "RJTTF512.MCA": newer}))
        self.at(7)
        self.assert_silent(self.run_feed())
        self.assertEqual(newer, self.state())

    def test_secrets(self) -> None:
        other = self.new_server()
        other.put("/there", zipped(MEMBERS))
        self.server.put(FULL_PATH, redirect(f"{other.address}/there"))
        self.assert_silent(self.run_feed())
        token, timetable = self.server.asked
        self.assertEqual(("POST", "GET"), (token.method, timetable.method))
        self.assertIn(PASSWORD.encode(), token.body)
        self.assertEqual(TOKEN, timetable.headers["X-Auth-Token"])
        self.assertNotIn("X-Auth-Token", {name.title() for name in other.asked[0].headers})
        self.assertNotIn(TOKEN, f"{other.asked}")
        self.assert_hidden(TOKEN, PASSWORD, USER)

    def test_redirected_authentication(self) -> None:
        """A form with a password isn't sent on."""
        other = self.new_server()
        for status in 302, 307, 308:
            with self.subTest(status):
                self.server.put("/authenticate", redirect(f"{other.address}/there", status))
                done = self.run_feed()
                self.assertNotEqual(0, done.status)
                self.assertNotIn(PASSWORD, f"{other.asked}{done.said}")

    def test_no_token(self) -> None:
        for answer in b"{}", b'["tok"]', b"\xff", b'{"token":"a\\nb"}', TOKEN.encode():
            with self.subTest(answer):
                self.server.put("/authenticate", answer)
                done = self.run_feed()
                self.assert_says(done, 4, "the token of 127.0.0.1: the answer has none")
                self.assertNotIn("5ecret", done.said)

    def test_refused(self) -> None:
        self.server.put("/authenticate", Answer(b"{}", 401))
        self.assert_says(self.run_feed(), 3, "the token of 127.0.0.1", "401")

    def test_damaged_zip(self) -> None:
        good = zipped(MEMBERS)
        middle = len(good) // 3
        for wrong in good[:-30], good[:middle] + b"\0" * 40 + good[middle + 40 :], b"PK\x03\x04":
            with self.subTest(len(wrong)):
                self.server.put(FULL_PATH, wrong)
                done = self.run_feed()
                self.assert_says(done, 4, "the timetable of 127.0.0.1", "damaged")
                self.assertFalse(self.current.exists())

    def test_zip_without_an_extract(self) -> None:
        self.server.put(FULL_PATH, zipped({"RJTTF512.MSN": MSN}))
        self.assert_says(self.run_feed(), 3, "has 0 files whose names end in .CIF or .MCA")

    def test_odd_stations(self) -> None:
        """What can't be read of MSN is no reason to have no timetable."""
        self.settings("rdg", self.server.address, outputs=DATABASE)
        self.server.put(FULL_PATH, zipped({**MEMBERS, "RJTTF512.MSN": b"nothing\n"}))
        self.assert_says(self.run_feed(), 0, "stations.msn", "the outputs do without")
        self.assertTrue((self.current / "timetable.db").exists())
