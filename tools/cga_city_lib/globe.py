"""Where a town stands on the globe: its places in the map's reference system, in degrees, and in metres from the Earth's middle."""
import math
from typing import Any, Dict, List, NamedTuple, Optional, Sequence, Tuple

from .call import Refused
from .ground_file import Place
from .mercator import AXIS, E2, degrees
from .rectangle import turned
from .reference_system import METRES, PLAIN, units_of

Point = Tuple[float, float]
Matrix = List[float]
WGS84 = (PLAIN, "EPSG:4979", "EPSG:4258", "EPSG:4269", "EPSG:7844", "EPSG:4171", "EPSG:6668", "EPSG:4490")  # near to it


class Globe(NamedTuple):
    """`middle` is (0, 0) of the town in the map's numbers; `factor` how many metres one of its units has."""

    code: str
    is_degrees: bool
    middle: Point
    factor: float
    angle: float

    def plane(self, x: float, z: float) -> Point:
        """Metres to the east and to the north of the middle."""
        east, south = turned((x, z), -self.angle)
        return east, -south

    def place(self, x: float, z: float) -> Point:
        """The numbers that the map has for a place of the town."""
        east, north = self.plane(x, z)
        if self.is_degrees:
            return degrees(east, north, self.middle)
        return self.middle[0] + east / self.factor, self.middle[1] + north / self.factor

    def address(self) -> str:
        """The reference system as an address; longitude stands before latitude in all that is written."""
        if self.code == PLAIN:
            return "https://www.opengis.net/def/crs/OGC/0/CRS84h"
        authority, _, number = self.code.partition(":")
        return f"https://www.opengis.net/def/crs/{authority}/0/{number}" if number else ""

    def longitude_latitude(self) -> Optional[Point]:
        """The middle in degrees of WGS84; of a projected system PROJ is asked, where it is there."""
        if self.is_degrees:
            return self.middle if not self.code or self.code in WGS84 else asked(self.code, self.middle) or self.middle
        return asked(self.code, self.middle) if self.code else None


def globe_of(place: Place) -> Globe:
    is_degrees = place.units == "degrees"
    factor = float(METRES.get(place.units, METRES["metres"]))
    return Globe(place.system, is_degrees, (float(place.origin[0]), float(place.origin[1])), factor, float(place.angle))


def place_told(place: Place) -> Dict[str, Any]:
    """Where a town stands, as files tell it beside the town."""
    globe = globe_of(place)
    middle = globe.longitude_latitude()
    degrees_told = {"longitude": middle[0], "latitude": middle[1]} if middle else {}
    return {
        "system": globe.code,
        "origin": list(globe.middle),
        "units": place.units,
        "angle": globe.angle,
        **degrees_told,
    }


def asked(code: str, point: Point) -> Optional[Point]:
    """A point of a system in degrees of WGS84, by gdaltransform or cs2cs."""
    import shutil
    import subprocess

    text = f"{point[0]:.9f} {point[1]:.9f}\n".encode()
    commands = (["gdaltransform", "-s_srs", code, "-t_srs", PLAIN, "-output_xy"],)
    for command in commands:
        if shutil.which(command[0]) and units_of(code) is not None:
            done = subprocess.run(command, input=text, stdout=subprocess.PIPE, stderr=subprocess.DEVNULL, check=False)
            words = done.stdout.split()
            if done.returncode == 0 and len(words) >= 2:
                return float(words[0]), float(words[1])
    return None


def from_middle(longitude: float, latitude: float) -> Tuple[float, float, float]:
    """Metres from the Earth's middle of a place at sea level."""
    along, up = math.radians(longitude), math.radians(latitude)
    normal = AXIS / math.sqrt(1 - E2 * math.sin(up) ** 2)
    flat = normal * math.cos(up)
    return flat * math.cos(along), flat * math.sin(along), normal * (1 - E2) * math.sin(up)


def standing(globe: Globe) -> Matrix:
    """The matrix, column by column, that takes the town's (x, -z, y) to metres from the Earth's middle: east, north and up at
    the town's middle, turned by the town's angle."""
    found = globe.longitude_latitude()
    if found is None:
        raise Refused(
            f"where {globe.code or 'the map'} lies on the globe isn't known: install GDAL (Debian: gdal-bin), or export the map in degrees"
        )
    along, up = map(math.radians, found)
    east = (-math.sin(along), math.cos(along), 0.0)
    north = (-math.sin(up) * math.cos(along), -math.sin(up) * math.sin(along), math.cos(up))
    out = (math.cos(up) * math.cos(along), math.cos(up) * math.sin(along), math.sin(up))
    s, c = math.sin(math.radians(globe.angle)), math.cos(math.radians(globe.angle))
    # the script's X goes by the angle from the east to the south, and its -Z as far from the north to the east
    right = combined((c, -s), (east, north))
    ahead = combined((s, c), (east, north))
    return [*right, 0.0, *ahead, 0.0, *out, 0.0, *from_middle(*found), 1.0]


def combined(parts: Sequence[float], ways: Sequence[Sequence[float]]) -> List[float]:
    return [sum(part * way[k] for part, way in zip(parts, ways)) for k in range(3)]
