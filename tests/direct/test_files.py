"""The files of the user, and those that are written."""
from __future__ import annotations

import os
import stat
import tempfile
import unittest
from pathlib import Path

from cif_timetable._files import new_files
from cif_timetable.errors import Failed, Refused
from cif_timetable.places import PLACES
from cif_timetable.sql.sqlite_file import check_place
from cif_timetable.user_csv import read_file


class InFolder(unittest.TestCase):
    """Tests in a folder of their own."""

    def setUp(self) -> None:
        work = tempfile.TemporaryDirectory(prefix="cif-direct-")
        self.addCleanup(work.cleanup)
        self.folder = Path(work.name).resolve()


class Outputs(InFolder):
    """Files that take their places."""

    def mode(self, mask: int) -> str:
        before = os.umask(mask)
        try:
            with new_files() as files:
                files.create(self.folder / "made").write(b"x")
        finally:
            os.umask(before)
        return stat.filemode((self.folder / "made").stat().st_mode)

    def test_umask(self) -> None:
        self.assertEqual("-rw-r-----", self.mode(0o027))

    def test_mode_of_what_is_replaced(self) -> None:
        (self.folder / "made").touch(0o600)
        self.assertEqual("-rw-------", self.mode(0o022))

    def test_journal_beside_a_database(self) -> None:
        place = self.folder / "timetable.db"
        check_place(place)
        for suffix in "-wal", "-journal":
            beside = Path(f"{place}{suffix}")
            beside.touch()
            check_place(place)
            beside.write_bytes(b"x")
            with self.assertRaisesRegex(Failed, f"{suffix} is there"):
                check_place(place)
            beside.unlink()


class UserFiles(InFolder):
    """CSV files."""

    def read(self, text: str) -> list[object]:
        path = self.folder / "places.csv"
        path.write_text(text, encoding="utf-8")
        return list(read_file(PLACES, str(path)).values())

    def test_rows(self) -> None:
        rows = self.read("name,further,tiploc,latitude,longitude\nHove,x,HOVE,50.8,-0.1\n")
        self.assertEqual([("HOVE", "Hove", 50.8, -0.1, None)], rows)

    def test_mistakes_have_lines(self) -> None:
        heading = "tiploc,name,latitude,longitude\n"
        for row, told in {
            '"A\nB",x,,\n': "line 2: tiploc",
            "A,,50.8,\n": "line 2: longitude is missing",
            "A,,,\nA,,,\n": "line 3: ",
            "A,,0.1,0.1\n": "near 0, 0",
        }.items():
            with self.subTest(row), self.assertRaisesRegex(Refused, told):
                self.read(heading + row)
