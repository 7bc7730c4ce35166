"""Metres east and north of a point of the globe: a transverse Mercator of its own, whose scale is 1 at that point's meridian.

Within 50 km lengths are true to 1 in 30,000, and angles to what floats hold (Snyder, "Map Projections", 8-9 to 8-15).
"""
import math

AXIS = 6378137.0  # of WGS84
FLATTENING = 1 / 298.257223563
E2 = FLATTENING * (2 - FLATTENING)
SECOND = E2 / (1 - E2)


def meridian(latitude):
    """The length of the meridian from the equator."""
    parts = (
        1 - E2 / 4 - 3 * E2**2 / 64 - 5 * E2**3 / 256,
        -(3 * E2 / 8 + 3 * E2**2 / 32 + 45 * E2**3 / 1024),
        15 * E2**2 / 256 + 45 * E2**3 / 1024,
        -35 * E2**3 / 3072,
    )
    waves = (latitude, math.sin(2 * latitude), math.sin(4 * latitude), math.sin(6 * latitude))
    return AXIS * sum(part * wave for part, wave in zip(parts, waves))


def metres(longitude, latitude, middle):
    """How far a point, in degrees, lies to the east and to the north of `middle`, a longitude and a latitude in degrees."""
    up = math.radians(latitude)
    sine, cosine, slope = math.sin(up), math.cos(up), math.tan(up) ** 2
    normal = AXIS / math.sqrt(1 - E2 * sine**2)
    a, c = math.radians(longitude - middle[0]) * cosine, SECOND * cosine**2
    east = a + (1 - slope + c) * a**3 / 6 + (5 - 18 * slope + slope**2 + 72 * c - 58 * SECOND) * a**5 / 120
    north = a**2 / 2 + (5 - slope + 9 * c + 4 * c**2) * a**4 / 24
    return normal * east, meridian(up) - meridian(math.radians(middle[1])) + normal * math.tan(up) * north


def turn_of(degrees):
    """A difference of longitudes, from -180 and below 180."""
    return (degrees + 180) % 360 - 180


def degrees(east, north, middle):
    """The longitude and latitude of a point so far to the east and to the north of `middle`, by going nearer to it."""
    longitude, latitude = middle
    for _ in range(9):
        x, y = metres(longitude, latitude, middle)
        if abs(north - y) + abs(east - x) < 1e-9:
            break
        up = math.radians(latitude)
        latitude += (north - y) / 111132.0
        longitude += (east - x) / (111320.0 * math.cos(up))
    return longitude, latitude
