"""A database of PostgreSQL, with a program in place of psql."""
from __future__ import annotations

import json
import os
from datetime import date
from unittest import mock

from cif_timetable.errors import Failed
from cif_timetable.feed import programs, versions

from . import extracts
from .folders import InFolder

# Notes its words, which version is the current one, and what it reads.
PSQL = """\
#!/bin/sh
printf '%s\\n' "$*" >> "{base}/words"
readlink "{folder}/current" >> "{base}/before" || echo none >> "{base}/before"
cat > "{base}/script"
{end}
"""


class PostgreSql(InFolder):
    """It is loaded just before the new version becomes the current one."""

    has_user = False

    def setUp(self) -> None:
        super().setUp()
        (self.folder / "incoming").mkdir()
        (self.folder / "incoming" / "full.cif").write_bytes(extracts.FULL)
        self.settings("folder", "incoming", outputs='postgresql = "service=timetable"')
        patched = mock.patch.object(programs, "PSQL", str(self.base / "psql"))
        patched.start()
        self.addCleanup(patched.stop)
        self.psql("exit 0")

    def psql(self, end: str) -> None:
        path = self.base / "psql"
        path.write_text(PSQL.format(base=self.base, folder=self.folder, end=end), encoding="utf-8")
        path.chmod(0o755)

    def ahead(self) -> bool:
        with mock.patch("cif_timetable.feed.command_line.print_text") as printed:
            self.run_feed("--status", "--json", str(self.folder))
        found = json.loads(printed.call_args.args[0])["postgresql_ahead"]
        assert isinstance(found, bool)
        return found

    def next_day(self) -> None:
        newer = extracts.full(date(2026, 12, 5), "DFROC1T", "A00001")
        (self.folder / "incoming" / "next.cif").write_bytes(newer)
        self.at(6)

    def test_loaded(self) -> None:
        self.assert_silent(self.run_feed())
        words = (self.base / "words").read_text(encoding="utf-8")
        self.assertEqual("-X -q -w -v ON_ERROR_STOP=1 -d service=timetable\n", words)
        self.assertEqual("none\n", (self.base / "before").read_text(encoding="utf-8"))
        script = (self.base / "script").read_text(encoding="utf-8")
        self.assertIn("COPY calls", script)
        self.assertTrue(script.endswith("COMMIT;\n"), script[-100:])
        self.assertFalse(self.ahead())

    def test_refused(self) -> None:
        """What psql says is said, and nothing changes."""
        self.assert_silent(self.run_feed())
        self.next_day()
        self.psql("echo 'psql: error: connection failed' >&2; exit 2")
        self.assert_says(self.run_feed(), 4, "psql: error: connection failed", "DFROC1S", "stays")
        self.assertEqual(extracts.FULL, self.state())
        self.assertFalse(self.ahead())
        self.psql("exit 0")
        self.assert_silent(self.run_feed())
        self.assertEqual("DFROC1T", self.reference())

    def test_half_a_script(self) -> None:
        """psql that reads no more ends the run, also where it says nothing."""
        (self.base / "psql").write_text("#!/bin/sh\nexit 1\n", encoding="utf-8")
        self.assert_says(self.run_feed(), 4, "psql: it ended with status 1", "no extract yet")
        self.assertFalse((self.folder / "postgresql").exists())
        os.unlink(self.base / "psql")
        self.assert_says(self.run_feed(), 4, "psql can't be run", "no extract yet")

    def test_ahead(self) -> None:
        """A run that ends between the two: the next one makes them equal."""
        self.assert_silent(self.run_feed())
        self.next_day()
        failing = mock.Mock(side_effect=Failed("the machine stops"))
        with mock.patch.object(versions.Versions, "commit", failing):
            self.assert_says(self.run_feed(), 4, "the machine stops", "DFROC1S", "stays")
        self.assertTrue(self.ahead())
        self.assert_silent(self.run_feed())
        self.assertFalse(self.ahead())
        self.assertEqual("DFROC1T", self.reference())
