"""The files that cif-gtfs-csv makes of made-up public ones, whose layouts are those of python/cif_timetable/public_files."""
from __future__ import annotations

import csv
import io
from math import degrees
from pathlib import Path
from typing import Dict, Optional, Tuple, Union

from cif_timetable.public_files.grid import latitude_and_longitude, on_airy

from .checks import Counts, Maker

NAPTAN = """\
ATCOCode,NaptanCode,CommonName,Street,GridType,Easting,Northing,Longitude,Latitude,StopType
0100BRP90310,bstgwpa,Temple Meads Stn,Redcliffe Way,,,,-2.58569,51.44902,BCT
9100VICTRIC,,London Victoria Rail Station,"Terminus Place, Victoria",UKOS,1,1,-0.14453,51.49520,RLY
9100CLPHMJC,,Clapham Junction Rail Station,,,,,-0.17040,51.46421,RLY
9100NOWHERE,,Nowhere Rail Station,,,,,,,RLY
9100BRGHTN,,"Brighton, the Station",,,,,-0.14102,50.82906,RLY
9100VICTRIC,,Again,,,,,1,1,RLY
9100CAISTER,,Caister,,UKOS,651410,313177,,,RLY
9100BELFAST,,Belfast,,IrishOS,333700,374000,,,RLY
"""
OF_NAPTAN = """\
tiploc,name,latitude,longitude
BELFAST,Belfast,,
BRGHTN,"Brighton, the Station",50.82906,-0.14102
CAISTER,Caister,52.65798,1.71605
CLPHMJC,Clapham Junction,51.46421,-0.17040
NOWHERE,Nowhere,,
VICTRIC,London Victoria,51.49520,-0.14453
"""


def master(
    name: str, tiploc: str, crs: str, easting: str, northing: str, minutes: Union[int, str]
) -> str:
    """A record A of MSN."""
    line = f"A    {name:30}2{tiploc:7}{crs:3}   {crs:3}{easting:5} {northing:5}{minutes:>2}"
    return f"{line:80}"


MSN = [
    "A                             FILE-SPEC=05 1.00 01/01/26 18.09.21   1",
    master("CLAPHAM JUNCTION", "CLPHMJC", "CLJ", "15273", "61755", 10),
    master("LONDON VICTORIA", "VICTRIC", "VIC", "15289", "61790", 15),
    master("LONDON VICTORIA", "VICTRIE", "VIC", "15289", "61790", 12),
    master("STRATFORD-UPON-AVON", "STFDAVN", "SAV", "00000", "00000", 5),
    "L    CLAPHAM JCN                        CLAPHAM JUNCTION",
    "Z    ",
]
# The points are 527.3 km east and 175.5 km north of the grid's origin, and 528.9 and 179.0 km.
OF_MSN: Dict[str, Tuple[str, Optional[float], Optional[float]]] = {
    "CLPHMJC": ("Clapham Junction", 51.4642, -0.1689),
    "VICTRIC": ("London Victoria", 51.4953, -0.1446),
}
OF_MSN |= {"VICTRIE": OF_MSN["VICTRIC"], "STFDAVN": ("Stratford-upon-Avon", None, None)}
INTERCHANGE = "crs,minutes\nCLJ,10\nSAV,5\nVIC,15\n"
# The first lines of an extract.
HEADER = "HDTPS.UDFROC1.PD2601011101262000DFROC1A       FA010126010227\n"
ASSOCIATION = "AANP00001P000022601012602011111111NPSEDINBUR  TO                               P\n"
ALF = """\
/!! a remark
M=WALK,O=EUS,D=KGX,T=10,S=0001,E=2359,P=4,R=1111111
M=TUBE,O=EUS,D=KGX,T=12,S=0600,E=2359,P=5,R=1111100,F=01/02/2026,U=02/03/2026
M=WALK,O=KGX,D=EUS,T=10,S=0001,E=2359,P=4,R=1111111
M=WALK,O=KGX,D=KGX,T=3,S=0001,E=2359,P=4,R=1111111
M=TUBE,O=WAT,D=EUS,T=25,S=0600,E=2359,P=5,R=1111100
"""
# Stations whose place is unknown, though it is written as 0, and one that only the grid has.
UNKNOWN = """\
ATCOCode,CommonName,Easting,Northing,Longitude,Latitude
9100ZERO,Zero,,,0,0.000
9100ONGRID,On the grid,651410,313177,0.0,-0
9100ZEROS,Zeros,0,00.0,0,0
9100GRID,Grid,0,0,,
"""
OF_UNKNOWN = """\
tiploc,name,latitude,longitude
GRID,Grid,,
ONGRID,On the grid,52.65798,1.71605
ZERO,Zero,,
ZEROS,Zeros,,
"""
LINKS = """\
from,to,minutes,first_date,last_date,days_run,first_time,last_time
EUS,KGX,10,,,1111111,0001,2359
EUS,KGX,12,2026-02-01,2026-03-02,1111100,0600,2359
EUS,WAT,25,,,1111100,0600,2359
KGX,EUS,10,,,1111111,0001,2359
WAT,EUS,25,,,1111100,0600,2359
"""

# A point whose coordinates the Ordnance Survey's guide to its grid has, from memory: on the grid, and on the grid's datum.
POINT, ON_AIRY = (651409.903, 313177.270), (
    52 + 39 / 60 + 27.2531 / 3600,
    1 + 43 / 60 + 4.5177 / 3600,
)
# The same point in WGS 84, and how near that is reached, in degrees.
IN_WGS_84, NEAR = (52 + 39 / 60 + 28.8282 / 3600, 1 + 42 / 60 + 57.8663 / 3600), 0.00007


def with_record(
    tiploc: str, crs: str, easting: str, northing: str, minutes: Union[int, str]
) -> str:
    """The text of MSN with a further record."""
    return "\n".join([*MSN, master("HOVE", tiploc, crs, easting, northing, minutes)])


NO_COORDINATES = "places without coordinates, as these can't be read"
LEFT_OUT = "lines left out, as they can't be read"

# What has a line, or several, that can't be read: the place of a station, which it is without, or all of it, so it is left out.
ODD: Dict[str, Tuple[Tuple[str, str, str], ...]] = {
    "naptan-places": (
        *(
            (
                NAPTAN + f"9100HOVE,,Hove,,UKOS,{row},RLY\n",
                f"{NO_COORDINATES}: 1 (line 10)",
                "HOVE,Hove,,",
            )
            for row in (
                ",,-0.2,ninety",
                ",,-0.2,",
                "1,east,,",
                ",,-.5,0.5",
                ",,3,-89",
                "700000,1,,",
                "1,1300000,,",
                "9999999,9999999,,",
                "0,1,,",
                "1,0.0,,",
            )
        ),
        *(
            (NAPTAN + row, f"{LEFT_OUT}: 1 (line 10)", "")
            for row in (
                "9100HOVE,,Hove\n",
                '9100HOVE,,"Ho\nve",,,,,,,RLY\n',
                "9100HOVE,,Ho\tve,,,,,,,RLY\n",
                "9100HO\tVE,,Hove,,,,,,,RLY\n",
                "9100,,Hove,,,,,,,RLY\n",
            )
        ),
        (
            NAPTAN + '0100BRP1,,"A\nstop",,,,,,,\n9100HOVE,,Hove,"1\n2",,,,-0.2,ninety,RLY\n',
            f"{NO_COORDINATES}: 1 (line 12)",
            "HOVE,Hove,,",
        ),
        (
            NAPTAN + "9100HOVE,,Hove\n" * 22,
            f"{LEFT_OUT}: 22 (lines {', '.join(map(str, range(10, 30)))} and 2 more)",
            "",
        ),
    ),
    "msn-places": (
        (with_record("", "HOV", "15288", "61055", 5), f"{LEFT_OUT}: 1 (line 8)", ""),
        (
            with_record("HOVE", "HOV", "15288", "61055", 5).replace("HOVE ", "HO\tVE", 1),
            f"{LEFT_OUT}: 1 (line 8)",
            "",
        ),
        (
            with_record("-", "HOV", "00000", "00000", 5) + "\n-\n0",
            f"{LEFT_OUT}: 2 (lines 9, 10)",
            "-,Hove,,,HOV",
        ),
        *(
            (
                with_record("HOVE", "HOV", easting, northing, minutes),
                f"{NO_COORDINATES}: 1 (line 8)",
                "HOVE,Hove,,,HOV",
            )
            for easting, northing, minutes in (
                ("25288", "61055", ""),
                ("15288", "6105", "5"),
                ("15288", "73001", "5"),
                ("00000", "69999", "5"),
                ("15288", "60000", "5"),
            )
        ),
        (with_record("HOVE", "H", "00000", "00000", ""), "", "HOVE,Hove,,,"),
        (
            with_record("LERWICK", "LWH", "14460", "71425", 30),
            "",
            "LERWICK,Hove,60.1644,-1.1730,LWH",
        ),
    ),
    "msn-interchange": (
        (with_record("HOVE", "H", "15288", "61055", 5), f"{LEFT_OUT}: 1 (line 8)", ""),
        (with_record("HOVE", "HOV", "15288", "61055", ""), f"{LEFT_OUT}: 1 (line 8)", ""),
        (with_record("", "HOV", "00000", "69999", 5), "", "HOV,5"),
    ),
    "alf-links": (),
}

BAD = {
    "naptan-places": (
        (
            "ATCOCode,CommonName,Longitude\n",
            "line 1: the field Latitude is missing or a duplicate",
        ),
        (
            NAPTAN + '0100BRP1,,"A stop,,,,,,,\n9100HOVE,,Hove,,,,,,,RLY\n',
            "line 10: this is no CSV: unexpected end of data",
        ),
        (
            NAPTAN + '0100BRP1,,"A stop,,,,,,,\n' + "0100BRP2,,A stop,,,,,,,\n" * 6000,
            "line 10: this is no CSV: field larger than field limit (131072)",
        ),
    ),
    "msn-places": (
        (NAPTAN, "this is no MSN: it has no record A"),
        (HEADER + ASSOCIATION, "this is no MSN: it has no record A"),
        (HEADER, "this is no MSN: it has no record A"),
    ),
    "msn-interchange": ((HEADER, "this is no MSN: it has no record A"),),
    "alf-links": (
        (ALF + "M=WALK,O=EUS,T=10\n", "line 7: D= isn't a CRS code"),
        (ALF + "M=WALK,O=EUS,D=KGX,T=ten\n", "line 7: T= isn't minutes"),
        (ALF + "M=WALK,O=EUS,D=KGX,T=10,S=2460\n", "line 7: S= isn't a time HHMM"),
        (ALF + "M=WALK,O=EUS,D=KGX,T=10,R=11111\n", "line 7: R= isn't seven weekdays"),
        (ALF + "M=WALK,O=EUS,D=KGX,T=10,U=31/02/2026\n", "line 7: U= isn't a date DD/MM/YYYY"),
        ("", "this is no ALF: it has no link"),
        ("/!! a remark\n\n", "this is no ALF: it has no link"),
    ),
}


def check_odd(counts: Counts, maker: Maker, kind: str, plain: str) -> None:
    """What can't be read of a file is told by its line, and the rest is as it is without."""
    for text, told, row in ODD[kind]:
        (maker.folder / "odd").write_text(text)
        done = maker.run(kind, "odd", program="cif-gtfs-csv")
        further = set(done.stdout.splitlines()) - set(plain.splitlines())
        counts.same(f"{kind}, {text[-40:]!r}, status", 0, done.returncode)
        want = f"cif-gtfs-csv: odd: {told}\n" if told else ""
        counts.same(f"{kind}, {text[-40:]!r}, told", want, done.stderr)
        counts.same(f"{kind}, {text[-40:]!r}, rows", {row} - {""}, further)
        lacking = set(plain.splitlines()) - set(done.stdout.splitlines())
        counts.same(f"{kind}, {text[-40:]!r}, what is lost", set(), lacking)


def check_places_of_master(counts: Counts, text: str) -> None:
    rows = list(csv.DictReader(io.StringIO(text, newline="")))
    counts.same("msn-places, TIPLOCs", sorted(OF_MSN), [row["tiploc"] for row in rows])
    for row in rows:
        name, *place = OF_MSN[row["tiploc"]]
        got = [float(row[field]) if row[field] else None for field in ("latitude", "longitude")]
        near = all(
            one == other if one is None or other is None else abs(one - other) < 0.001
            for one, other in zip(place, got)
        )
        counts.test(f"msn-places, {row['tiploc']}", row["name"] == name and near, row)


def check_grid(counts: Counts) -> None:
    for name, want, got, near in (
        ("on the grid's datum", ON_AIRY, tuple(map(degrees, on_airy(*POINT))), 0.00000001),
        ("in WGS 84", IN_WGS_84, latitude_and_longitude(*POINT), NEAR),
    ):
        counts.test(
            f"a point {name}", all(abs(one - other) < near for one, other in zip(want, got)), got
        )


def check(counts: Counts, maker: Maker) -> None:
    inputs = {
        "naptan-places": NAPTAN,
        "msn-places": "\r\n".join(MSN) + "\r\n",
        "msn-interchange": "\n".join(MSN),
    }
    inputs["alf-links"] = ALF
    outputs = {}
    for kind, text in inputs.items():
        (maker.folder / kind).write_bytes(text.encode())
        done = maker.run(kind, kind, program="cif-gtfs-csv")
        counts.same(f"{kind}, status and told", (0, ""), (done.returncode, done.stderr))
        outputs[kind] = done.stdout
        check_odd(counts, maker, kind, done.stdout)
        for bad, told in BAD[kind]:
            (maker.folder / "bad").write_text(bad)
            done = maker.run(kind, "bad", program="cif-gtfs-csv")
            counts.same(
                f"{kind}, {told}",
                (3, "", f"cif-gtfs-csv: bad: {told}\n"),
                (done.returncode, done.stdout, done.stderr),
            )
    for kind, want in (
        ("naptan-places", OF_NAPTAN),
        ("msn-interchange", INTERCHANGE),
        ("alf-links", LINKS),
    ):
        counts.same(kind, want, outputs[kind])
    (maker.folder / "unknown").write_text(UNKNOWN)
    done = maker.run("naptan-places", "unknown", program="cif-gtfs-csv")
    counts.same("unknown places", (0, OF_UNKNOWN), (done.returncode, done.stdout))
    check_places_of_master(counts, outputs["msn-places"])
    check_grid(counts)
    for words, status in (
        (("alf-links", "missing"), 4),
        (("alf-links",), 2),
        (("alf", "alf-links"), 2),
    ):
        done = maker.run(*words, program="cif-gtfs-csv")
        counts.test(
            f"cif-gtfs-csv {' '.join(words)}",
            done.returncode == status and done.stderr and not done.stdout,
            done,
        )
    check_taken(counts, maker, outputs)


def check_taken(counts: Counts, maker: Maker, outputs: Dict[str, str]) -> None:
    """cif-gtfs takes what cif-gtfs-csv makes."""
    options = []
    for kind, text in outputs.items():
        (maker.folder / f"{kind}.csv").write_text(text)
        options.append((kind.partition("-")[2], f"{kind}.csv"))
    example = Path(__file__).resolve().parents[2] / "examples" / "timetable.cif"
    for name, path in options:
        done = maker.run(f"--{name}", path, example)
        counts.test(
            f"cif-gtfs with {path}", done.returncode == 1 and "line" not in done.stderr, done.stderr
        )
