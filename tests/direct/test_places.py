"""The names of places and stations."""
from __future__ import annotations

import unittest

from cif_timetable.model import Location
from cif_timetable.places import (
    PlaceRow,
    Places,
    better_name,
    both,
    in_small_letters,
    search_text,
)
from cif_timetable.riders import at_arrival, at_departure, sort_of
from cif_timetable.user_csv import Key


def location(tiploc: str, crs: str | None, name: str | None, short: str | None = None) -> Location:
    return Location(tiploc, None, None, None, name, None, None, crs, short)


class Names(unittest.TestCase):
    """Names that CIF has in capitals."""

    def test_small_letters(self) -> None:
        for capitals, wanted in {
            "HAYWARDS HEATH": "Haywards Heath",
            "STOKE-ON-TRENT": "Stoke-on-Trent",
            "KING'S CROSS": "King's Cross",
            "BAT AND BALL": "Bat and Ball",
            "BRIGHTON C.S.": "Brighton C.S.",
            "ST. PANCRAS (THE ARCHES)": "St. Pancras (The Arches)",
            "THE HAWTHORNS": "The Hawthorns",
        }.items():
            self.assertEqual(wanted, in_small_letters(capitals))


class Stations(unittest.TestCase):
    """Stations are the TIPLOCs with one CRS code."""

    def test_name_of_the_first_tiploc(self) -> None:
        places = Places(
            [
                location("VICTRIC", "VIC", "LONDON VICTORIA"),
                location("VICTRIE", "VIC", "VICTORIA EAST"),
            ],
            {},
        )
        self.assertEqual("London Victoria", places.station_name("VICTRIE"))

    def test_short_description_and_no_record(self) -> None:
        places = Places([location("HOVE", None, None, "HOVE B")], {})
        self.assertEqual("Hove B", places.station_name("HOVE"))
        self.assertEqual("Unknown", places.station_name("UNKNOWN"))

    def test_given_names_and_coordinates(self) -> None:
        """A name, or coordinates, of one TIPLOC are those of its station."""
        given: dict[Key, PlaceRow] = {
            ("B",): PlaceRow("B", "Given", None, None),
            ("C",): PlaceRow("C", None, 51.5, -0.1),
        }
        places = Places([location(each, "XYZ", "A PLACE") for each in "ABC"], given)
        self.assertEqual("Given", places.station_name("A"))
        self.assertEqual((51.5, -0.1), places.coordinates("A"))
        given["B",] = PlaceRow("B", None, 50.0, -1.0)
        places = Places([location(each, "XYZ", "A PLACE") for each in "ABC"], given)
        self.assertEqual((51.5, -0.1), places.coordinates("C"))
        self.assertEqual((None, None), places.coordinates("ELSEWHERE"))

    def test_stations_of_other_codes(self) -> None:
        """The station has the name of the TIPLOC whose own code it has, and all of its TIPLOCs."""
        given: dict[Key, PlaceRow] = {
            (tiploc,): PlaceRow(tiploc, None, None, None, "STP") for tiploc in ("LOW", "HIGH")
        }
        places = Places([location("LOW", "SPL", "LOW"), location("HIGH", "STP", "HIGH")], given)
        self.assertEqual("High", places.station_name("LOW"))
        self.assertEqual("STP", places.station_of("SPL"))
        self.assertEqual("ABC", places.station_of("ABC"))
        self.assertEqual(["High", "Low"], places.names_of_station("STP"))


class BetterNames(unittest.TestCase):
    """The short name of a TI counts if it has a word before the town of the long one."""

    def test_names(self) -> None:
        for long, short, wanted in (
            ("VICTORIA (CENTRAL)", "LONDON VICTORIA", "LONDON VICTORIA"),
            ("NEWPORT (SOUTH WALES)", "NEWPORT S WALES", "NEWPORT (SOUTH WALES)"),
            ("LONDON EUSTON", "LONDON EUSTON", "LONDON EUSTON"),
            ("CLAPHAM JUNCTION CENTRAL", "CLAPHAM JUNC", "CLAPHAM JUNCTION CENTRAL"),
            ("VICTORIA", "XVICTORIA", "VICTORIA"),
            ("(CENTRAL)", "LONDON", "(CENTRAL)"),
            ("", "HOVE B", "HOVE B"),
        ):
            with self.subTest(long):
                self.assertEqual(wanted, better_name(long, short))

    def test_search(self) -> None:
        for name, wanted in {
            "St. Pancras (International)": "st pancras international",
            "King's Cross": "kings cross",
            "Harrow & Wealdstone": "harrow and wealdstone",
        }.items():
            self.assertEqual(wanted, search_text(name))


class SeveralFiles(unittest.TestCase):
    """What several files of places say."""

    def test_first_filled_cell(self) -> None:
        coded = PlaceRow("A", None, None, None, "ABC")
        full = PlaceRow("A", "Name", 51.0, -1.0, "XYZ")
        self.assertEqual(PlaceRow("A", "Name", 51.0, -1.0, "ABC"), both(coded, full))
        self.assertEqual(PlaceRow("A", "Name", 51.0, -1.0, "XYZ"), both(full, coded))


class CallsForRiders(unittest.TestCase):
    """A train arrives as what it was before a change, and leaves as what it is after it."""

    def test_changes(self) -> None:
        sort = sort_of("P", "EE", [(3, "OO"), (4, "XX"), (5, "EE")])
        self.assertEqual(((1, False), (3, True), (5, False)), sort)
        self.assertEqual(
            [False, False, False, True, True, False],
            [at_arrival(sort, number) for number in range(1, 7)],
        )
        self.assertEqual(
            [False, False, True, True, False, False],
            [at_departure(sort, number) for number in range(1, 7)],
        )
        self.assertEqual(((1, False),), sort_of("F", "OO", [(2, "XX")]))
