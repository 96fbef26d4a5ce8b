"""Servers, connections and files that are not as they should be."""
from __future__ import annotations

import fcntl
import json
import os
import resource
import socket
import subprocess
import sys
import time
from datetime import date
from unittest import mock

from cif_timetable.feed import net

from . import extracts
from .extracts import FULL, SAT, SUN, packed, padded, update
from .driver import words_of
from .folders import InFolder, WithServer
from .server import Answer, redirect


class OneServer(WithServer):
    """A full extract and updates at plain addresses, of which nobody asks for a user."""

    has_user = False

    def setUp(self) -> None:
        super().setUp()
        update_line = f'update = "{self.server.address}/{{weekday}}.gz"'
        self.settings("url", f"{self.server.address}/full.gz", update_line)

    def start(self) -> None:
        self.server.put("/full.gz", packed(FULL))
        self.assert_silent(self.run_feed())
        self.at(6)

    def assert_stays(self) -> None:
        self.assertEqual(FULL, self.state())


class Connections(OneServer):
    """What fails between here and the server."""

    def test_twice_busy_and_then_the_file(self) -> None:
        for status in 503, 429, 500:
            with self.subTest(status):
                self.server.put("/full.gz", *[Answer(b"", status)] * 2, packed(FULL))
                self.forget()
                self.assert_silent(self.run_feed())
                self.assert_stays()

    def forget(self) -> None:
        """Forgets what was fetched."""
        for name in "current", "feed.log":
            (self.folder / name).unlink(missing_ok=True)
        for path in self.folder.glob("raw/*"):
            path.unlink()

    def test_always_busy(self) -> None:
        self.server.put("/full.gz", Answer(b"", 503, {"Retry-After": "0"}))
        self.assert_says(self.run_feed(), 4, "full.gz of 127.0.0.1", "503", "no extract yet")
        # and no update is asked for
        self.assertEqual(["/full.gz"] * 4, self.server.paths())

    def test_pauses(self) -> None:
        """They grow, and a server may ask for longer ones, within a bound."""
        pauses: list[float] = []
        self.server.put(
            "/full.gz", *[Answer(b"", 503)] * 2, Answer(b"", 503, {"Retry-After": "7200"})
        )
        with mock.patch.object(time, "sleep", pauses.append):
            self.run_feed()
        self.assertEqual([0.001, 0.002, net.LONGEST_PAUSE], pauses)

    def test_cut_in_the_middle(self) -> None:
        """The connection ends early: what announces its length is seen, and a gz without it."""
        body = packed(FULL)
        for has_length in True, False:
            with self.subTest(has_length=has_length):
                cut = Answer(body, cut=len(body) // 2, has_length=has_length)
                self.server.put("/full.gz", cut, cut, body)
                self.forget()
                self.assert_silent(self.run_feed())
                self.assert_stays()
                self.server.put("/full.gz", cut)
                self.forget()
                self.assert_says(self.run_feed(), 4, "full.gz of 127.0.0.1")
                self.assertFalse(self.current.exists())

    def test_plain_extract_that_is_cut_early(self) -> None:
        """An extract that isn't compressed, of an announced length."""
        cut = Answer(FULL, cut=81 * 100)
        self.server.put("/full.gz", cut, FULL)
        self.assert_silent(self.run_feed())
        self.assert_stays()
        self.forget()
        self.server.put("/full.gz", cut)
        self.assert_says(self.run_feed(), 4, "connection broke after 8100 of", "tries again")
        self.assertEqual([], self.raw_names())

    def test_plain_extract_that_is_cut(self) -> None:
        """Without compression and without a length nothing but `cif` can tell."""
        self.start()
        self.server.put("/sat.gz", Answer(SAT[: 81 * 20], has_length=False))
        said = (
            "20261205-1933-DFROC1T-update.cif (DFROC1T of 2026-12-05 19:33)",
            "Truncated",
            "stays",
        )
        self.assert_says(self.run_feed(), 3, *said)
        self.assert_stays()
        self.server.put("/sat.gz", SAT)
        self.assert_silent(self.run_feed())
        self.assertEqual("DFROC1T", self.reference())

    def test_circle(self) -> None:
        self.server.put("/full.gz", redirect("/there"))
        self.server.put("/there", redirect("/full.gz"))
        self.assert_says(self.run_feed(), 4, "full.gz of 127.0.0.1", "redirects in a circle")

    def test_redirects_elsewhere(self) -> None:
        """No file of this machine is read."""
        for address in "file:///etc/passwd", "ftp://127.0.0.1/x", "gopher://127.0.0.1":
            with self.subTest(address):
                self.server.put("/full.gz", redirect(address))
                self.assert_says(self.run_feed(), 4, "full.gz of 127.0.0.1", "redirects")

    def test_nobody_listens(self) -> None:
        with socket.socket() as unused:
            unused.bind(("127.0.0.1", 0))
            self.settings("url", f"http://127.0.0.1:{unused.getsockname()[1]}/full.gz")
            self.assert_says(self.run_feed(), 4, "Connection refused", "no extract yet")

    def test_silent_server(self) -> None:
        with socket.socket() as silent, mock.patch.object(net, "SILENCE", 0.05):
            silent.bind(("127.0.0.1", 0))
            silent.listen()
            self.settings("url", f"http://127.0.0.1:{silent.getsockname()[1]}/full.gz")
            self.assert_says(self.run_feed(), 4, "doesn't answer")

    def test_endless_file(self) -> None:
        self.server.put("/full.gz", b"x" * 100_000)
        with mock.patch.object(net, "MOST_BYTES", 50_000):
            self.assert_says(self.run_feed(), 4, "doesn't end")


class Files(OneServer):
    """What a server gives that isn't what it should be."""

    def test_one_day_is_not_there(self) -> None:
        """The update of Saturday isn't there: on that day it is said, and nothing changes."""
        self.start()
        self.at(5, hour=23)
        self.assert_silent(self.run_feed())
        said = (
            "DFROC1S of 2026-12-04 19:35 is 2 days old, and nothing newer",
            "not there",
            "sat.gz",
            "stays",
        )
        self.at(6)
        self.assert_says(self.run_feed(), 4, *said)
        self.assert_stays()

    def test_truncated_gz(self) -> None:
        """All bytes come, but they aren't all of the gz; nor is one with a wrong sum a file."""
        self.start()
        body = packed(SAT)
        for wrong in body[:-4], body[: len(body) // 2], body[:-8] + b"\0" * 8:
            with self.subTest(len(wrong)):
                self.server.put("/sat.gz", wrong)
                self.assert_says(self.run_feed(), 4, "sat.gz of 127.0.0.1 is damaged", "stays")
                self.assert_stays()
        self.assertFalse([name for name in self.raw_names() if "DFROC1T" in name])
        self.server.put("/sat.gz", body)
        self.assert_silent(self.run_feed())

    def test_gz_of_another_file(self) -> None:
        self.start()
        for other in b"<html>maintenance</html>", extracts.sample("RJTTF512.MSN"), b"":
            with self.subTest(other[:10]):
                self.server.put("/sat.gz", packed(other))
                self.assert_says(
                    self.run_feed(), 3, "sat.gz of 127.0.0.1 isn't an extract", "stays"
                )
                self.assert_stays()

    def test_wrong_kind(self) -> None:
        """An update where the full extract should be, and the other way round."""
        self.start()
        self.server.put("/sat.gz", packed(extracts.full(date(2026, 12, 5), "DFROC9A", "A00001")))
        self.assert_says(self.run_feed(), 3, "sat.gz of 127.0.0.1 is a full extract, DFROC9A")
        self.assert_stays()

    def test_refused_update_is_healed(self) -> None:
        """An update with a line that `cif` refuses, and the full extract of the next evening."""
        self.start()
        bad = SAT.replace(b"BSN", b"BSQ", 1)
        self.server.put("/sat.gz", packed(bad))
        self.assert_says(self.run_feed(), 3, "DFROC1T", "BadTransaction", "stays")
        self.at(7)
        self.server.put("/full.gz", packed(extracts.full(date(2026, 12, 6), "DFROC1U", "A00001")))
        done = self.run_feed()
        self.assertEqual("DFROC1U", self.reference())
        self.assert_says(done, 0, "DFROC1T", "BadTransaction")
        self.at(7, hour=9)
        self.assert_silent(self.run_feed())

    def test_refused_full_extract(self) -> None:
        bad = FULL.replace(b"BSN", b"BSQ", 1)
        self.server.put("/full.gz", packed(bad))
        said = "20261204-1935-DFROC1S-full.cif.gz", "DFROC1S", "NotFull", "no extract yet"
        self.assert_says(self.run_feed(), 3, *said)
        self.assertEqual([], self.version_names())

    def test_state_that_was_changed(self) -> None:
        """The current extract is damaged on the disk: it is made again of what was fetched."""
        self.start()
        self.server.put("/sat.gz", packed(SAT))
        state = self.current / "full.cif"
        content = state.read_bytes()
        state.unlink()
        state.write_bytes(content.replace(b"BSN", b"BSQ", 1))
        done = self.run_feed()
        self.assert_says(done, 0, "the current extract")
        self.assertEqual(extracts.by_hand(self.base, FULL, [SAT]), self.state())

    def test_kept_file_that_is_damaged(self) -> None:
        """A fetched file is damaged on the disk before it is needed again: it is fetched again."""
        self.server.put("/full.gz", packed(FULL))
        self.server.put("/sun.gz", packed(SUN))
        self.at(7)
        self.run_feed()
        [kept] = self.folder.glob("raw/*DFROC1U*")
        content = kept.read_bytes()
        kept.write_bytes(content[:-8] + bytes(8))
        self.server.put("/sat.gz", packed(SAT))
        self.at(7, hour=9)
        done = self.run_feed()
        self.assertIn("raw/20261206-1931-DFROC1U-update.cif.gz", done.said)
        self.assertIn("damaged on the disk", done.said)
        self.assert_silent(self.run_feed())
        self.assertEqual(extracts.by_hand(self.base, FULL, [SAT, SUN]), self.state())

    def test_state_that_can_not_be_made_again(self) -> None:
        """An older extract doesn't take its place."""
        self.start()
        self.server.put("/sat.gz", packed(SAT))
        self.assert_silent(self.run_feed())
        names = self.version_names()
        for path in self.folder.glob("raw/*update*"):
            path.unlink()
        self.server.put("/sat.gz", Answer(b"", 404))
        self.server.put("/sun.gz", packed(SUN))
        state = self.current / "full.cif"
        state.write_bytes(state.read_bytes().replace(b"BSN", b"BSQ", 1))
        self.at(7)
        self.assert_says(
            self.run_feed(), 3, "the current extract", "DFROC1T of 2026-12-05", "stays"
        )
        self.assertEqual(names, self.version_names())

    def test_server_without_tags(self) -> None:
        """Files come again and again; nothing is made of them twice."""
        self.server.put("/full.gz", Answer(packed(FULL), is_tagged=False))
        self.server.put("/sat.gz", Answer(packed(SAT), is_tagged=False))
        self.assert_silent(self.run_feed())
        self.assert_silent(self.run_feed())
        self.assertEqual(1, len(self.version_names()))

    def test_two_chains_of_references(self) -> None:
        """A full extract with references of its own, and updates day by day; a day isn't skipped."""
        update_line = f'update = "{self.server.address}/{{weekday}}.gz"'
        self.settings("url", f"{self.server.address}/full.gz", update_line, "one_chain = false")
        self.server.put("/full.gz", packed(FULL.replace(b"DFROC1S", b"DFROC9K", 1)))
        self.at(5)
        self.assert_silent(self.run_feed())
        self.server.put("/sat.gz", packed(SAT))
        self.at(6)
        self.assert_silent(self.run_feed())
        self.assertEqual(extracts.by_hand(self.base, FULL, [SAT]), self.state())
        self.assertEqual(1, self.facts()["waived"])
        self.server.put("/mon.gz", packed(extracts.MON))
        self.at(8)
        self.assert_says(self.run_feed(), 4, "DFROC1V", "follows DFROC1U", "DFROC1T", "stays")
        self.server.put("/sun.gz", packed(SUN))
        self.assert_silent(self.run_feed())
        self.assertEqual("DFROC1V", self.reference())

    def test_references_of_another_feed(self) -> None:
        self.start()
        other = update(date(2026, 12, 5), "DXXXX2B", "DXXXX2A")
        self.server.put("/sat.gz", packed(other))
        self.assert_says(self.run_feed(), 4, "DXXXX2B", "follows DXXXX2A", "DFROC1S", "stays")
        self.assert_stays()


class Machines(OneServer):
    """What fails here."""

    def test_disk_without_space(self) -> None:
        """At each size that a file may have at most: all of yesterday or all of today."""
        self.start()
        self.server.put("/sat.gz", packed(SAT))
        before = self.folder_files()
        words = words_of(self.now, "--cif", str(extracts.CIF), str(self.folder))
        for size in 0, 1000, 15000:

            def limit(size: int = size) -> None:
                resource.setrlimit(resource.RLIMIT_FSIZE, (size, size))

            done = subprocess.run(
                words, capture_output=True, text=True, check=False, preexec_fn=limit
            )
            with self.subTest(size):
                self.assertEqual(4, done.returncode, done.stderr)
                self.assertNotIn("Traceback", done.stderr)
                self.assertEqual(1, done.stderr.count("\n"), done.stderr)
                self.assert_stays()
                self.assertEqual(before, self.folder_files())
        self.assert_silent(self.run_feed())
        self.assertEqual("DFROC1T", self.reference())

    def folder_files(self) -> list[str]:
        """What there is, but for raw files, which may have come whole."""
        paths = self.folder.rglob("*")
        return sorted(str(p) for p in paths if p.parent.name != "raw" and p.name != "feed.log")

    def test_output_that_fails(self) -> None:
        """No output of a version is there if one of them fails."""
        self.settings(
            "url",
            f"{self.server.address}/full.gz",
            outputs='extract = "timetable.cif"\ndatabase = "timetable.db"',
        )
        self.server.put("/full.gz", packed(FULL))
        program = self.base / "cif"
        program.write_text(
            f'#!/bin/sh\ncase " $* " in *" calls "*) echo "cif: memory ran out" >&2; exit 4 ;; esac\n'
            f'exec {extracts.CIF} "$@"\n',
            encoding="utf-8",
        )
        program.chmod(0o755)
        done = self.run_feed("--cif", str(program), str(self.folder))
        self.assert_says(done, 4, "memory ran out", "no extract yet")
        self.assertFalse(self.current.exists())
        self.assertEqual([], self.version_names())

    def test_what_was_left(self) -> None:
        """Versions that never became current, and unfinished files, go."""
        self.start()
        self.at(5)
        names = self.version_names()
        (self.folder / "versions" / "20270101T000000Z").mkdir()
        (self.folder / ".work").mkdir()
        (self.folder / ".work" / "x").touch()
        (self.folder / ".current.new").symlink_to("versions/20270101T000000Z")
        self.assert_silent(self.run_feed())
        self.assertEqual(names, self.version_names())
        there = {path.name for path in self.folder.iterdir()}
        self.assertFalse(there & {".work", ".current.new"}, there)

    def test_other_link(self) -> None:
        self.start()
        self.current.unlink()
        self.current.mkdir()
        done = self.run_feed()
        self.assertEqual(3, done.status)
        self.assertIn("isn't a link of cif-feed", done.said)

    def test_log_that_can_not_be_written(self) -> None:
        (self.folder / "feed.log").mkdir()
        self.server.put("/full.gz", packed(FULL))
        self.assert_says(self.run_feed(), 4, "feed.log")
        self.assert_stays()


class Locks(OneServer):
    """One run at a time."""

    def test_second_run(self) -> None:
        with open(self.folder / "lock", "w", encoding="utf-8") as lock:
            fcntl.flock(lock, fcntl.LOCK_EX)
            done = self.run_feed()
            self.assertEqual(4, done.status)
            self.assertIn("another run is at work", done.said)
            self.assertEqual([], self.server.asked)
        self.server.put("/full.gz", packed(FULL))
        self.assert_silent(self.run_feed())

    def test_lock_goes_with_its_process(self) -> None:
        """Also while something that the process has started goes on."""
        script = (
            "import subprocess, sys\nfrom pathlib import Path\n"
            f"sys.path.insert(0, {str(extracts.TOP / 'python')!r})\n"
            "from cif_timetable.feed.versions import only_run\n"
            f"with only_run(Path({str(self.folder)!r})):\n"
            "    other = subprocess.Popen(['sleep', '30'])\n"
            "    print(other.pid, flush=True)\n    other.wait()\n"
        )
        with subprocess.Popen(
            [sys.executable, "-B", "-c", script], stdout=subprocess.PIPE, text=True
        ) as process:
            assert process.stdout
            other = int(process.stdout.readline())
            self.addCleanup(os.kill, other, 9)
            self.assertEqual(4, self.run_feed().status)
            process.kill()
        self.server.put("/full.gz", packed(FULL))
        self.assert_silent(self.run_feed())

    def test_killed_while_a_program_writes(self) -> None:
        """What it has started goes on for a while, and is in nobody's way."""
        self.settings("url", f"{self.server.address}/full.gz", outputs='database = "timetable.db"')
        self.server.put("/full.gz", packed(FULL))
        program = self.base / "cif"
        program.write_text(
            f'#!/bin/sh\ncase " $* " in *" calls "*) echo > "{self.base}/waits"; sleep 0.5 ;; esac\n'
            f'exec {extracts.CIF} "$@"\n',
            encoding="utf-8",
        )
        program.chmod(0o755)
        with subprocess.Popen(
            words_of(self.now, "--cif", str(program), str(self.folder))
        ) as process:
            while not (self.base / "waits").exists():
                time.sleep(0.01)
            process.kill()
        self.assert_silent(self.run_feed())
        time.sleep(0.5)
        self.assertEqual(1, len(self.version_names()))
        self.assertEqual(FULL, self.state())

    def test_interrupted(self) -> None:
        """As by systemd: it says so, and leaves nothing that is unfinished."""
        self.settings("url", f"{self.server.address}/full.gz", outputs='database = "timetable.db"')
        self.server.put("/full.gz", packed(FULL))
        program = self.base / "cif"
        program.write_text(
            f'#!/bin/sh\ncase " $* " in *" calls "*) echo > "{self.base}/waits"; sleep 0.3 ;; esac\n'
            f'exec {extracts.CIF} "$@"\n',
            encoding="utf-8",
        )
        program.chmod(0o755)
        words = words_of(self.now, "--cif", str(program), str(self.folder))
        with subprocess.Popen(words, stderr=subprocess.PIPE, text=True) as process:
            while not (self.base / "waits").exists():
                time.sleep(0.01)
            process.terminate()
            said = process.communicate()[1]
        self.assertEqual(4, process.returncode)
        self.assertIn("interrupted by SIGTERM; there is no extract yet", said)
        self.assertEqual([], self.version_names())
        self.assertFalse((self.folder / ".work").exists())
        self.assert_silent(self.run_feed())

    def test_status_needs_no_lock(self) -> None:
        self.start()
        self.at(5)
        with open(self.folder / "lock", "w", encoding="utf-8") as lock:
            fcntl.flock(lock, fcntl.LOCK_EX)
            with mock.patch("cif_timetable.feed.command_line.print_text") as printed:
                done = self.run_feed("--status", "--json", str(self.folder))
        self.assertEqual(0, done.status)
        self.assertEqual("DFROC1S", json.loads(printed.call_args.args[0])["reference"])


class Folders(InFolder):
    """A folder in which somebody else puts files."""

    has_user = False

    def setUp(self) -> None:
        super().setUp()
        self.incoming = self.folder / "incoming"
        self.incoming.mkdir()
        self.settings("folder", "incoming", "late_days = 1")

    def test_from_nothing_to_a_week(self) -> None:
        self.assert_says(self.run_feed(), 4, "not there: any extract in incoming", "no extract yet")
        for name, content in (
            ("toc-full.CIF.gz", packed(FULL)),
            ("toc-update-sat.CIF", SAT),
            ("toc-update-sun.CIF.gz", packed(SUN)),
            ("readme.txt", b"nothing\n"),
            (".toc-update-mon.CIF.part", b"HD"),
        ):
            (self.incoming / name).write_bytes(content)
        self.at(7)
        self.assert_silent(self.run_feed())
        self.assertEqual(extracts.by_hand(self.base, FULL, [SAT, SUN]), self.state())
        self.assertIn("3 fetched", self.log()[-1])
        self.assert_silent(self.run_feed())
        self.assertIn("0 fetched", self.log()[-1])
        # a week later they are all gone
        for path in self.incoming.iterdir():
            path.unlink()
        self.assert_silent(self.run_feed())

    def test_full_extracts_alone(self) -> None:
        (self.incoming / "a.cif").write_bytes(FULL)
        self.assert_silent(self.run_feed())
        newer = extracts.full(date(2026, 12, 5), "DFROC1T", "A00001")
        (self.incoming / "b.cif").write_bytes(newer)
        self.at(6)
        self.assert_silent(self.run_feed())
        self.assertEqual(newer, self.state())

    def test_file_that_is_still_written(self) -> None:
        (self.incoming / "a.cif").write_bytes(FULL)
        (self.incoming / "b.cif.gz").write_bytes(packed(SAT)[:-20])
        self.at(6)
        self.assert_says(self.run_feed(), 4, "incoming/b.cif.gz", "damaged")
        self.assertEqual(FULL, self.state())
        (self.incoming / "b.cif.gz").write_bytes(packed(SAT))
        self.assert_silent(self.run_feed())

    def test_empty_update(self) -> None:
        (self.incoming / "a.cif").write_bytes(FULL)
        (self.incoming / "b.cif").write_bytes(
            padded(extracts.header(date(2026, 12, 5), "DFROC1T", "", "U"), "ZZ")
        )
        self.at(6)
        self.assert_silent(self.run_feed())
        self.assertEqual("DFROC1T", self.reference())
