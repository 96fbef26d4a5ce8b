"""Functions of cif-feed, one by one."""
from __future__ import annotations

import json
import os
import tempfile
import unittest
import urllib.request
from datetime import date, datetime
from email.message import Message
from pathlib import Path
from unittest import mock

from cif_timetable.errors import CifError, Misused, Refused
from cif_timetable.feed import credentials, net, versions
from cif_timetable.feed.chain import State, best_plan, chain_from
from cif_timetable.feed.header import Header, read_header
from cif_timetable.feed.holidays import holidays_of, read_list, text_of
from cif_timetable.feed.raw import Raw
from cif_timetable.feed.settings import SOURCES, Holidays, read_settings

from . import extracts
from .folders import InFolder, WithServer


def raw(made: int, reference: str, last: str = "", is_full: bool = False) -> Raw:
    """A file that was made on a day of December 2026."""
    first, end = date(2026, 12, 1), date(2027, 12, 1)
    header = Header(datetime(2026, 12, made, 19), reference, last, is_full, first, end)
    return Raw(Path(f"/{header.name}"), header)


def references(found: list[Raw]) -> list[str]:
    return [each.header.reference for each in found]


class Chains(unittest.TestCase):
    """Which update follows which extract."""

    STATE = raw(4, "S", is_full=True).header
    SAT, SUN, MON = raw(5, "T", "S"), raw(6, "U", "T"), raw(7, "V", "U")

    def test_order_does_not_matter(self) -> None:
        found = chain_from(self.STATE, [self.MON, self.SAT, self.SUN])
        self.assertEqual(["T", "U", "V"], references(found))

    def test_gap(self) -> None:
        plan = best_plan(State(self.STATE), [], [self.SAT, self.MON])
        assert plan
        self.assertEqual(
            (["T"], self.MON), (references(list(plan.updates)), plan.next_unreached([self.MON]))
        )

    def test_same_reference_months_ago(self) -> None:
        """Letters come again: an update that is older than the extract doesn't follow it."""
        self.assertEqual([], chain_from(self.STATE, [raw(2, "T", "S")]))

    def test_no_reference(self) -> None:
        """An update that names no other one follows what is older, one after the other."""
        found = chain_from(self.STATE, [raw(6, "U"), raw(5, "T")])
        self.assertEqual(["T", "U"], references(found))

    def test_many_without_references(self) -> None:
        updates = [raw(day, f"R{day}") for day in range(5, 31)]
        self.assertEqual(26, len(chain_from(self.STATE, updates)))

    def test_state_before_full(self) -> None:
        """If both come to the same, the state is taken; if the full one comes further, that is."""
        same = raw(4, "S", is_full=True)
        plan = best_plan(State(self.STATE), [same], [self.SAT])
        assert plan
        self.assertIsNone(plan.full)
        later = raw(6, "U", is_full=True)
        plan = best_plan(State(self.STATE), [same, later], [self.SAT, self.MON])
        assert plan
        self.assertEqual((later, ["V"]), (plan.full, references(list(plan.updates))))

    def test_newest_full(self) -> None:
        """Of two full ones that come to the same, the newer one, with fewer updates."""
        older, newer = raw(3, "R", is_full=True), raw(4, "S", is_full=True)
        plan = best_plan(None, [older, newer], [raw(4, "S", "R"), self.SAT])
        assert plan
        self.assertEqual((newer, ["T"]), (plan.full, references(list(plan.updates))))

    def test_bad_files(self) -> None:
        plan = best_plan(
            State(self.STATE), [], [self.SAT, self.SUN], lambda found: found is not self.SUN
        )
        assert plan
        self.assertEqual(["T"], references(list(plan.updates)))

    def test_by_date(self) -> None:
        """Where full extracts have references of their own, the update of the next night is the first
        one after them, and no other night's."""
        full = raw(4, "F1", is_full=True)
        for updates, want in (
            ([self.SAT, self.SUN], ["T", "U"]),
            ([raw(4, "S", "R"), self.SUN], []),
            ([raw(3, "R", "Q"), self.SAT], ["T"]),
        ):
            bases: list[tuple[State | None, list[Raw]]]
            bases = [(State(full.header, True), []), (None, [full])]
            for state, fulls in bases:
                plan = best_plan(state, fulls, updates, one_chain=False)
                assert plan
                self.assertEqual(
                    (want, bool(want)), (references(list(plan.updates)), plan.begins_by_date)
                )
                plan = best_plan(state, fulls, updates)
                assert plan
                self.assertEqual([], list(plan.updates))
        updated = best_plan(State(full.header, False), [], [self.SAT], one_chain=False)
        assert updated
        self.assertEqual([], list(updated.updates))


class Headers(unittest.TestCase):
    """HD."""

    def test_sample(self) -> None:
        found = read_header(extracts.SAT.splitlines(True), "x")
        want = (datetime(2026, 12, 5, 19, 33), "DFROC1T", "DFROC1S", False)
        self.assertEqual(want, (found.made, found.reference, found.last_reference, found.is_full))
        self.assertEqual(
            (date(2026, 12, 5), date(2027, 12, 5)), (found.first_date, found.last_date)
        )
        self.assertEqual("20261205-1933-DFROC1T-update", found.name)

    def test_comments_before(self) -> None:
        lines = [b"/!! " + b"x" * 900 + b"\n", *extracts.FULL.splitlines(True)]
        self.assertEqual("DFROC1S", read_header(lines, "x").reference)

    def test_last_century(self) -> None:
        line = extracts.header(date(1999, 12, 31), "A", "", "F").encode()
        self.assertEqual(datetime(1999, 12, 31, 19, 30), read_header([line], "x").made)

    def test_others(self) -> None:
        head = extracts.FULL[:81]
        for line in b"", b"ZZ\n", head[:40], head.replace(b"041226", b"311126"), b"<html>\n":
            with self.subTest(line), self.assertRaisesRegex(Refused, "x isn't an extract"):
                read_header([line], "x")

    def test_name_of_a_file(self) -> None:
        """No reference leads into another folder."""
        line = extracts.header(date(2026, 12, 4), "../A", "", "F").encode()
        self.assertEqual("20261204-1930-___A-full", read_header([line], "x").name)


class SettingsFile(InFolder):
    """feed.toml."""

    has_user = False

    def refusal(self, text: str) -> str:
        (self.folder / "feed.toml").write_text(text, encoding="utf-8")
        with self.assertRaises(CifError) as caught:
            read_settings(self.folder)
        return str(caught.exception)

    def test_mistakes(self) -> None:
        url = 'source = "url"\naddress = "https://a/f"\n'
        (self.folder / "h").touch()
        for text, told in {
            "source = ": "feed.toml: ",
            'source = "ftp"\naddress = "x"': "source has to be one of nrod, rdg, folder, url",
            'source = "url"': "address is missing",
            'source = "folder"\naddress = "nowhere"': "names nowhere",
            'source = "url"\naddress = "ftp://a/f"': "address has to be an address",
            'source = "url"\naddress = "https://u:p@a/f"': "they belong in ~/.netrc",
            'source = "url"\naddress = "https://a:x/"': "address has to be an address",
            f"{url}keepdays = 1": "keepdays isn't a setting; keep_days is",
            f"{url}[outputs]\ndatabse = 'x'": "outputs.databse isn't a setting; outputs.database is",
            f"{url}[gtfs]\nplace = 'x'": "gtfs.place isn't a setting; gtfs.places is",
            f"{url}[holidays]\nmonday = true": "holidays.monday isn't a setting; holidays.mondays is",
            f"{url}keep_days = 0": "keep_days has to be a number of days",
            f"{url}keep_days = true": "keep_days has to be a number of days",
            f"{url}past_days = 'x'": "past_days has to be a number of days",
            f"{url}holidays = 'none.txt'": "holidays names none.txt, which isn't there",
            f"{url}holidays = '.'": "holidays names ., which isn't a file",
            f"{url}[gtfs]\nplaces = 'p.csv'": "gtfs.places names p.csv, which isn't there",
            f"{url}[outputs]\nextract = '../x'": "outputs.extract has to be a name",
            f"{url}[outputs]\nextract = '.x'": "outputs.extract has to be a name",
            f"{url}[outputs]\nextract = 'full.cif'": "full.cif twice, or it is a file of cif-feed",
            f"{url}[outputs]\nextract = 'x'\ndatabase = 'x'": "x twice",
            f"{url}[outputs]\nextract = 'c.csv'\nreport = 'c.html'": "c.csv twice",
            f"{url}[outputs]\npostgresql = 'host=a password=b'": "it belongs in ~/.pgpass",
            f"{url}[outputs]\npostgresql = 'postgresql://u:p@h/d'": "it belongs in ~/.pgpass",
            f"{url}update = 'https://a/u'": "update has no {weekday}",
            'source = "nrod"\naddress = "https://a"\nupdate = "x"': 'update is for source = "url"',
            f"{url}[holidays]\nglasgow = ['2026-02-30']": "`2026-02-30`, which isn't a date",
            f"{url}[holidays]\nmondays = true": "holidays.list, which isn't there",
            f"{url}[holidays]\nlist = 'l.json'": "holidays.list names l.json",
            f"{url}outputs = 1": "outputs has to be a table",
            f"{url}[outputs]\nextract = 1": "outputs.extract has to be a text",
        }.items():
            with self.subTest(text):
                self.assertIn(told, self.refusal(text))

    def test_status_of_a_mistake(self) -> None:
        for text in "sorce = 'nrod'\n", "source = nrod\n":
            (self.folder / "feed.toml").write_text(text, encoding="utf-8")
            self.assertEqual(2, self.run_feed().status)
        (self.folder / "feed.toml").unlink()
        done = self.run_feed()
        self.assertEqual(2, done.status)
        self.assertIn("cif-feed --example nrod > ", done.said)
        self.assertEqual(2, self.run_feed(str(self.folder / "nowhere")).status)

    def test_examples(self) -> None:
        """Each is complete, and names all settings."""
        for name in "holidays.txt", "places.csv", "operators.csv", "interchange.csv":
            (self.folder / name).touch()
        (self.folder / "incoming").mkdir()
        for source in SOURCES:
            with self.subTest(source), mock.patch(
                "cif_timetable.feed.command_line.print_text"
            ) as printed:
                self.assertEqual(0, self.run_feed("--example", source).status)
                text = printed.call_args.args[0]
                (self.folder / "feed.toml").write_text(text, encoding="utf-8")
                self.assertEqual(source, read_settings(self.folder).source)
                again = text.replace("\n# ", "\n").partition("\n[outputs]")[2]
                again = again.partition("In place of")[0].replace("\n[gtfs]", "\n[gtfs]")
                head = text.partition("[outputs]")[0]
                (self.folder / "feed.toml").write_text(f"{head}[outputs]{again}", encoding="utf-8")
                settings = read_settings(self.folder)
                self.assertEqual("changes.html", settings.outputs.report)
                self.assertEqual("service=timetable", settings.outputs.postgresql)

    def test_example_of_holidays(self) -> None:
        """The table that stands in the example of nrod."""
        text = (Path(net.__file__).with_name("nrod.toml")).read_text(encoding="utf-8")
        lines = text.partition("# [holidays]\n")[2].splitlines()
        table = "\n".join(line.removeprefix("# ") for line in lines)
        (self.folder / "feed.toml").write_text(
            f'source = "nrod"\naddress = "https://a"\n[holidays]\n{table}', encoding="utf-8"
        )
        found = read_settings(self.folder).holidays
        self.assertEqual((True, False, ()), (found.mondays, found.substitutes, found.glasgow))

    def test_password_needs_https(self) -> None:
        """But for this machine itself."""
        self.has_user = True
        for address in "http://feeds.example", "http://127.0.0.1.example":
            self.settings("nrod", address)
            done = self.run_feed()
            self.assertEqual(2, done.status)
            self.assertIn("has to begin with https://", done.said)

    def test_usage(self) -> None:
        for words in (
            ["--status"],
            ["--json", "x"],
            ["--example", "ftp"],
            ["--example", "nrod", "x"],
            ["--status", "--holidays", "x"],
            ["x", "y"],
        ):
            with self.subTest(words):
                self.assertEqual(2, self.run_feed(*words).status)


LISTED = {
    "england-and-wales": {
        "events": [
            {"title": "Good Friday", "date": "2027-03-26", "notes": ""},
            {"title": "Easter Monday", "date": "2027-03-29", "notes": ""},
            {"title": "Boxing Day", "date": "2026-12-28", "notes": "Substitute day"},
        ]
    }
}


class HolidayDates(WithServer):
    """The government's list."""

    has_user = False

    def lines(self, asked: Holidays) -> list[str]:
        path = self.base / "list.json"
        path.write_text(json.dumps(LISTED), encoding="utf-8")
        found = holidays_of(asked, read_list(path, "list"))
        return [line.partition("  #")[0] for line in text_of(asked, found).splitlines()]

    def test_what_is_taken(self) -> None:
        """Mondays, and substitutes of them, each only if the settings say so."""
        self.assertEqual([], self.lines(Holidays()))
        self.assertEqual(["X 2027-03-29"], self.lines(Holidays(mondays=True)))
        self.assertEqual(["X 2026-12-28"], self.lines(Holidays(substitutes=True)))
        both = self.lines(Holidays(mondays=True, substitutes=True))
        self.assertEqual(["X 2026-12-28", "X 2027-03-29"], both)

    def test_local_holidays(self) -> None:
        """A code that isn't named isn't in the file, and one without a date is."""
        glasgow = Holidays(glasgow=(date(2027, 7, 19),), edinburgh=())
        self.assertEqual(["G 2027-07-19", "E"], self.lines(glasgow))
        self.assertEqual(["X 2027-05-31"], self.lines(Holidays(further=(date(2027, 5, 31),))))

    def test_other_files(self) -> None:
        path = self.base / "list.json"
        for text in "", "[]", '{"england-and-wales": {"events": [{"date": "x"}]}}', "<html>":
            path.write_text(text, encoding="utf-8")
            with self.subTest(text), self.assertRaisesRegex(Refused, "isn't the government's list"):
                list(read_list(path, "it"))

    def table(self, *lines: str) -> None:
        address = f'list = "{self.server.address}/bank-holidays.json"'
        rows = "\n".join(["[holidays]", address, "edinburgh = []", "glasgow = []", *lines])
        self.settings("url", f"{self.server.address}/full", rows)

    def test_listed(self) -> None:
        """Each with its weekday, and whether it is taken; nothing changes."""
        self.server.put("/bank-holidays.json", json.dumps(LISTED).encode())
        self.table("mondays = true")
        before = sorted(self.folder.rglob("*"))
        with mock.patch("cif_timetable.feed.command_line.print_text") as printed:
            self.assertEqual(0, self.run_feed("--holidays", str(self.folder)).status)
        want = (
            "X 2026-12-28 Monday  Boxing Day, Substitute day: not taken: a substitute day, and"
            " substitutes = false\n"
            "X 2027-03-26 Friday  Good Friday: not taken: no Monday\n"
            "X 2027-03-29 Monday  Easter Monday: taken\n"
        )
        self.assertEqual(want, printed.call_args.args[0])
        self.assertEqual(before, sorted(self.folder.rglob("*")))

    def test_run(self) -> None:
        """The dates are fetched for a new version, and kept for a day on which they can't be."""
        self.server.put("/full", extracts.FULL)
        self.server.put("/bank-holidays.json", json.dumps(LISTED).encode())
        self.table()
        self.assert_says(self.run_feed(), 3, "BankHoliday", "cif-feed --holidays")
        self.table("mondays = true")
        self.assert_silent(self.run_feed())
        text = (self.current / "holidays.txt").read_text(encoding="utf-8")
        self.assertEqual("X 2027-03-29  # Monday, Easter Monday\nE\nG\n", text)
        self.server.put("/bank-holidays.json", b"<html>")
        self.table("mondays = true", "substitutes = true")
        self.at(5, hour=9)
        self.assert_says(self.run_feed(), 0, "the list of bank holidays", "of an earlier run")
        self.assertIn("X 2026-12-28", (self.current / "holidays.txt").read_text(encoding="utf-8"))


class Commits(InFolder):
    """How a version becomes the current one."""

    has_user = False

    def test_all_is_on_the_disk_before(self) -> None:
        """When the link is replaced, each file of the version has been waited for, and each folder;
        after that the folder of the link."""
        (self.folder / "incoming").mkdir()
        (self.folder / "incoming" / "full.cif").write_bytes(extracts.FULL)
        self.settings("folder", "incoming")
        done: list[Path] = []
        real = os.replace

        def replace(new: Path, place: Path) -> None:
            if place.name == "current":
                found = {*self.folder.rglob("versions"), *self.folder.rglob("versions/**/*")}
                self.assertGreater(len(found), 4)
                self.assertEqual(found, found & set(done))
                done.append(place)
            real(new, place)

        with mock.patch.object(versions, "synchronise", done.append):
            with mock.patch.object(os, "replace", replace):
                self.assert_silent(self.run_feed())
        self.assertEqual([self.folder / "current", self.folder], done[-2:])

    def test_names(self) -> None:
        """Each comes after all others, also when the clock was set back."""
        found = versions.Versions(self.folder)
        names = [found.new(self.now).name for _ in range(2)]
        self.at(1)
        names.append(found.new(self.now).name)
        want = ["20261205T070000Z", "20261205T070001Z", "20261205T070002Z"]
        self.assertEqual(want, names)


class Requests(unittest.TestCase):
    """Redirects and credentials, without a server."""

    def redirected(self, start: str, end: str) -> urllib.request.Request | None:
        request = urllib.request.Request(start)
        request.add_unredirected_header("Authorization", "Basic x")
        request.add_unredirected_header("Host", "a")
        return net.Redirects().redirect_request(request, None, 302, "", Message(), end)

    def test_origins(self) -> None:
        """Another host, port or scheme is another machine."""
        for end, keeps in {
            "https://a/y": True,
            "https://a:443/y": True,
            "https://A/y": True,
            "https://a:444/y": False,
            "https://b/y": False,
            "https://a.b/y": False,
        }.items():
            with self.subTest(end):
                found = self.redirected("https://a/x", end)
                assert found is not None
                self.assertEqual(keeps, found.has_header("Authorization"))

    def test_no_way_back_to_http(self) -> None:
        with self.assertRaises(net.Misdirected):
            self.redirected("https://a/x", "http://a/x")

    def test_addresses_and_secrets_are_not_shown(self) -> None:
        found = net.Address("https://a/?key=5ecret", "a", {"Authorization": "5ecret"}, b"5ecret")
        self.assertNotIn("'5ecret'", repr(found))
        self.assertNotIn("b'5ecret'", repr(found))
        self.assertNotIn("5ecret", repr(credentials.Credentials("5ecret", "5ecret")))

    def test_one_of_two(self) -> None:
        with mock.patch.dict(os.environ, {"CIF_FEED_USER": "x"}):
            os.environ.pop("CIF_FEED_PASSWORD", None)
            with self.assertRaisesRegex(Misused, "only one is set"):
                credentials.take_from_environment()

    def test_basic(self) -> None:
        """As RFC 7617 has it."""
        found = credentials.Credentials("Aladdin", "open sesame").basic()
        self.assertEqual("Basic QWxhZGRpbjpvcGVuIHNlc2FtZQ==", found)

    def test_colon(self) -> None:
        with tempfile.TemporaryDirectory() as home, mock.patch.dict(os.environ, {"HOME": home}):
            with self.assertRaisesRegex(Misused, "colon"):
                credentials.credentials_for("a", credentials.Credentials("a:b", "c"))
