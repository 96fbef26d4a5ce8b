"""Latitude and longitude (WGS 84) of a point on the Ordnance Survey's grid, by its published
formulas, from memory.

The change from the grid's own datum to WGS 84 is seven numbers for all Great Britain, so the result
is good to some 5 m.
"""
from __future__ import annotations

from math import atan2, cos, degrees, hypot, radians, sin, sqrt, tan
from typing import NamedTuple


class Ellipsoid(NamedTuple):
    """The axes of an ellipsoid, in metres."""

    a: float
    b: float

    @property
    def eccentricity_squared(self) -> float:
        return 1 - (self.b / self.a) ** 2

    def across(self, latitude: float) -> float:
        """The radius of its curve from west to east."""
        return self.a / sqrt(1 - self.eccentricity_squared * sin(latitude) ** 2)


AIRY_1830 = Ellipsoid(6377563.396, 6356256.909)
WGS_84 = Ellipsoid(6378137.0, 6356752.314245)
# The true origin of the grid: scale there, degrees, and metres.
SCALE = 0.9996012717
LATITUDE = radians(49)
LONGITUDE = radians(-2)
EASTING = 400000
NORTHING = -100000
# From Airy to WGS 84: metres, a part of one, and seconds of arc.
SHIFT = (446.448, -125.157, 542.060)
GROWTH = -20.4894e-6
TURN = (0.1502, 0.2470, 0.8421)


class Point(NamedTuple):
    """A point on an ellipsoid, in radians."""

    latitude: float
    longitude: float


def meridian(latitude: float) -> float:
    """The distance along the grid's true meridian."""
    a, b = AIRY_1830
    n = (a - b) / (a + b)
    less = latitude - LATITUDE
    more = latitude + LATITUDE
    terms = (1 + n + 5 / 4 * n**2 + 5 / 4 * n**3) * less
    terms -= (3 * n + 3 * n**2 + 21 / 8 * n**3) * sin(less) * cos(more)
    terms += (15 / 8 * n**2 + 15 / 8 * n**3) * sin(2 * less) * cos(2 * more)
    terms -= 35 / 24 * n**3 * sin(3 * less) * cos(3 * more)
    return b * SCALE * terms


def latitude_of(northing: float) -> float:
    """The latitude on the true meridian that has this northing."""
    latitude = LATITUDE
    rest = northing - NORTHING - meridian(latitude)
    while abs(rest) >= 0.00001:
        latitude += rest / (AIRY_1830.a * SCALE)
        rest = northing - NORTHING - meridian(latitude)
    return latitude


def on_airy(easting: float, northing: float) -> Point:
    """A point of the grid on the grid's own datum."""
    latitude = latitude_of(northing)
    squared = AIRY_1830.eccentricity_squared
    nu = AIRY_1830.across(latitude) * SCALE
    rho = nu * (1 - squared) / (1 - squared * sin(latitude) ** 2)
    eta = nu / rho - 1
    t = tan(latitude)
    sec = 1 / cos(latitude)
    east = easting - EASTING
    seven = t / (2 * rho * nu)
    eight = t / (24 * rho * nu**3) * (5 + 3 * t**2 + eta - 9 * t**2 * eta)
    nine = t / (720 * rho * nu**5) * (61 + 90 * t**2 + 45 * t**4)
    ten = sec / nu
    eleven = sec / (6 * nu**3) * (nu / rho + 2 * t**2)
    twelve = sec / (120 * nu**5) * (5 + 28 * t**2 + 24 * t**4)
    more = sec / (5040 * nu**7) * (61 + 662 * t**2 + 1320 * t**4 + 720 * t**6)
    longitude = LONGITUDE + ten * east - eleven * east**3 + twelve * east**5 - more * east**7
    return Point(latitude - seven * east**2 + eight * east**4 - nine * east**6, longitude)


def cartesian(point: Point) -> tuple[float, float, float]:
    """A point on Airy's ellipsoid in metres from its middle."""
    nu = AIRY_1830.across(point.latitude)
    flat = nu * cos(point.latitude)
    height = (1 - AIRY_1830.eccentricity_squared) * nu * sin(point.latitude)
    return flat * cos(point.longitude), flat * sin(point.longitude), height


def to_wgs_84(point: Point) -> Point:
    """The same point of the other datum."""
    x, y, z = cartesian(point)
    turn_x, turn_y, turn_z = (radians(seconds / 3600) for seconds in TURN)
    size = 1 + GROWTH
    moved_x = SHIFT[0] + size * x - turn_z * y + turn_y * z
    moved_y = SHIFT[1] + turn_z * x + size * y - turn_x * z
    moved_z = SHIFT[2] - turn_y * x + turn_x * y + size * z
    squared = WGS_84.eccentricity_squared
    flat = hypot(moved_x, moved_y)
    latitude = atan2(moved_z, flat * (1 - squared))
    for _ in range(10):
        latitude = atan2(moved_z + squared * WGS_84.across(latitude) * sin(latitude), flat)
    return Point(latitude, atan2(moved_y, moved_x))


def latitude_and_longitude(easting: float, northing: float) -> tuple[float, float]:
    """In degrees, of metres on the grid."""
    point = to_wgs_84(on_airy(easting, northing))
    return degrees(point.latitude), degrees(point.longitude)
