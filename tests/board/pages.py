"""The extracts, their databases, and what a page of cif-board has."""
from __future__ import annotations

import json
import random
import re
import subprocess
from dataclasses import dataclass, field
from datetime import date
from html.parser import HTMLParser
from pathlib import Path
from typing import Any, Dict, List, Optional, Tuple

from flask.testing import FlaskClient

from cif_timetable.board import create_app
from gtfs import generated
from gtfs.checks import PROGRAMS, TOP, Source, Word
from sql.definition import Expected

EXAMPLES = TOP / "examples" / "timetable.cif"
FEEDS = TOP / "tests" / "feeds"
GENERATED, SEED = 150, 5

# From Monday 5 to Sunday 11 January 2026. F00001 is freight over midnight, with a pass before it and one after it, which isn't for riders;
# Q00001 runs as required; E00001 is unadvertised, with public times; N00001 stops for picking up, on request; and names are
# HTML. S00001 and S00002 have a time before the one before it: by less than an hour, so that no midnight is between them. V00001 gets
# another identity on the Thursday. R00001 calls twice at Alpha, the second time after midnight. " 00001" begins with a blank.
SPECIAL = r"""
HDTPS.UTEST01.PD2601040401262130DFTEST1       FA050126110126
TIALPHA  00890500AALPHA <B>JUNCTION</B>     032010000ALPALPHA
TIALPHAE 00890500AALPHA EAST                032010000ALPALPHA EAST
TIBETA   00890501B"BETA" & SONS             032021234BETBETA
TIGAMMA  00890503D<SCRIPT>ALERT(1)</SCRIPT> 03203   0GAMGAMMA
TIYARD   00890503D'YARD' %_                 03203   0   YARD
BSN 000012601052601111111111 POO1<B>    122104000 EMU    090      B            P
BX         SRY
LOALPHA   0800 08001         TB
LTBETA    0830 08302     TF
BSNE000012601052601111111111 POU5E01    122104000 EMU    090      B            P
BX         SRY
LOALPHA   0500 05001         TB
LTBETA    0530 05302     TF
BSNF000012601052601081111000 F  6F01    155345013 D      060                   P
BX         ZZN
LOYARD    2330 0000          TB
LIALPHAE            2359H00000000
LIALPHA             0000H00000000
LIBETA    0010 0020      00000000         A
LTGAMMA   0200 0000      TF
BSNN000012601052601111111111 POO1N01    122104000 EMU    090      B            P
BX         SRY
LOGAMMA   0900 09001         TB
LIALPHAE  0910 0912      09100912         T R
LIBETA    0920 0922      00000922         U
LTALPHA   0930 0930      TF
BSNQ000012601052601111111111 POO1Q01    122104000 EMU    090Q     B            P
BX         SRY
LOALPHA   1000 10001         TB
LTBETA    1030 10302     TF
BSNR000012601052601111111111 POO1R01    122104000 EMU    090      B            P
BX         SRY
LOALPHA   2350 23501         TB
LIBETA    2355 2356      23552356         T
LTALPHA   0005 0005      TF
BSNS000012601052601111111111 POO1S01    122104000 EMU    090      B            P
BX         SRY
LOALPHA   0010 00101         TB
LIBETA    2350 2352      23502352         T
LTGAMMA   0030 0030      TF
BSNS000022601052601111111111 POO1S02    122104000 EMU    090      B            P
BX         SRY
LOALPHA   1000 10001         TB
LIBETA    0930 0932      09300932         T
LTGAMMA   1030 1030      TF
BSNV000012601052601071110000 POO1V01    122104000 EMU    090      B            P
BX         SRY
LOALPHA   1100 11001         TB
LTBETA    1130 1130      TF
BSNV000012601082601110001111 POO1V02    122104000 EMU    090      B            P
BX         SRY
LOALPHA   1100 11001         TB
LTBETA    1130 1130      TF
ZZ
"""


@dataclass
class Element:
    """What is read of a table or a list: the text of each cell, and where its links lead."""

    text: str = ""
    links: List[str] = field(default_factory=list)


class Reader(HTMLParser):
    """The rows of the tables of a page by the first class of each, its title, its links, and its attributes and scripts that the
    policy forbids."""

    def __init__(self) -> None:
        super().__init__()
        self.tables: Dict[str, List[List[Element]]] = {}
        self.months: Dict[str, str] = {}
        self.links: List[str] = []
        self.forbidden: List[str] = []
        self.heading = ""
        self.table: Optional[str] = None
        self.cells: Optional[List[Element]] = None
        self.cell: Optional[Element] = None
        self.inside: List[str] = []

    def handle_starttag(self, tag: str, attrs: List[Tuple[str, Optional[str]]]) -> None:
        found = dict(attrs)
        self.forbidden += [name for name in found if name == "style" or name.startswith("on")]
        if tag == "style" or tag == "script" and not found.get("src"):
            self.forbidden.append(tag)
        addresses = [found[name] or "" for name in ("src", "href", "action") if name in found]
        self.forbidden += [each for each in addresses if not each.startswith(("/", "#"))]
        if tag == "a":
            self.links.append(found["href"] or "")
            if self.cell:
                self.cell.links.append(found["href"] or "")
        if tag == "table":
            self.table = found.get("class") or ""
            self.tables.setdefault(self.table, [])
        elif tag == "tr":
            self.cells = []
        elif tag in ("td", "th") and self.cells is not None:
            self.cell = Element()
            self.cells.append(self.cell)
        self.inside.append(tag)

    def handle_endtag(self, tag: str) -> None:
        if tag == "tr" and self.table is not None and self.cells is not None:
            self.tables[self.table].append(self.cells)
        elif tag in ("td", "th"):
            self.cell = None
        while self.inside and self.inside.pop() != tag:
            pass

    def handle_data(self, data: str) -> None:
        if self.cell:
            self.cell.text += data
        if "h1" in self.inside:
            self.heading += data


def squeezed(text: str) -> str:
    return " ".join(text.split())


class Board:
    """The pages of a database."""

    def __init__(self, path: Path, source: Source) -> None:
        self.path, self.source = path, source
        self.client: FlaskClient = create_app(path).test_client()
        self.expected = Expected(source)

    def get(self, address: str, status: int = 200) -> str:
        answer = self.client.get(address)
        if answer.status_code != status:
            raise AssertionError(f"{address} has the status {answer.status_code}: {answer.text}")
        return answer.text

    def data(self, address: str) -> Any:
        return json.loads(self.get(address))

    def page(self, address: str, status: int = 200) -> Reader:
        reader = Reader()
        reader.feed(self.get(address, status))
        return reader

    def cif(self, *words: str) -> List[Any]:
        """The rows of JSON that cif writes."""
        return [json.loads(line) for line in self.source.lines(*words, "--format", "json")]

    @property
    def dates(self) -> List[date]:
        return self.expected.dates


class Made:
    """The databases that are tested, by their names."""

    def __init__(self, cif: Path, folder: Path) -> None:
        self.program, self.folder = cif, folder
        special, many, sample = (folder / f"{name}.cif" for name in ("special", "many", "sample"))
        special.write_text("".join(f"{line:80}\n" for line in SPECIAL.strip().split("\n")))
        many.write_bytes(generated.extract(random.Random(SEED), GENERATED))
        words: List[Word] = [
            cif,
            "prepare",
            "--holidays",
            FEEDS / "holidays.txt",
            FEEDS / "nrod/toc-full.CIF",
        ]
        sample.write_bytes(subprocess.run(words, check=True, capture_output=True).stdout)
        self.boards = {
            path.stem: Board(self.database(path), Source(cif, path))
            for path in (EXAMPLES, special, many, sample)
        }
        text = subprocess.run([cif, "--help"], check=True, capture_output=True, text=True).stdout
        self.has_departures = bool(re.search("^  departures ", text, re.MULTILINE))

    def database(self, extract: Path, name: str = "") -> Path:
        path = self.folder / (name or f"{extract.stem}.db")
        words: List[Word] = [
            PROGRAMS / "cif-sql",
            "--force",
            "--cif",
            self.program,
            "-o",
            path,
            extract,
        ]
        subprocess.run(words, check=True, capture_output=True)
        return path

    @property
    def examples(self) -> Board:
        return self.boards["timetable"]

    @property
    def special(self) -> Board:
        return self.boards["special"]
