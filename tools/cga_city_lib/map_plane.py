"""The plane of a map: X to the east and Z to the south, in metres from an origin that is said."""
from decimal import Decimal
from typing import List, Optional, Sequence, Tuple

from .call import Refused
from .geojson import Feature, Map, positions
from .geometry import Position
from .mercator import metres, turn_of
from .rectangle import skew
from .reference_system import CONVERT, METRES, PLAIN, bounds, said_system
from .skipped import Skips

WIDEST = 100_000
FEW = 10  # of so many parcels one may lie far away, and be skipped
SPAN = 3  # degrees, and no metres
LOOKED_AT = 300  # parcels whose corners are looked at
SKEWED, RIGHT = (
    4.0,
    0.5,
)  # degrees by which corners are off a right angle, in the middle, where a map is swapped or isn't
Point = Tuple[float, float]


def middle_of(some: Sequence[Position], places: int) -> Position:
    """The middle of what is there, as decimals of so many places."""
    step = Decimal(1).scaleb(-places)
    east, north = (((min(part) + max(part)) / 2).quantize(step) for part in zip(*some))
    return east, north


def flipped(some: Sequence[Position]) -> List[Position]:
    return [(y, x) for x, y in some]


def is_on_globe(some: Sequence[Position]) -> bool:
    return all(abs(x) <= 180 and abs(y) <= 90 for x, y in some)


def is_small(some: Sequence[Position]) -> bool:
    """Whether it spans few units, as a town does in degrees."""
    return all(max(part) - min(part) < SPAN for part in zip(*some))


def within(some: Sequence[Position], box: Tuple[float, float, float, float]) -> int:
    west, south, east, north = box
    return sum(west <= x <= east and south <= y <= north for x, y in some)


class Plane:
    """Where a map's positions lie in the town. `swap` takes the first number of each for the north."""

    def __init__(self, town: Map, units: Optional[str], origin: Optional[Position], swap: bool, skips: Skips):
        self.system = said_system(town.crs, units)
        if self.system and self.system.units == "stretched":
            raise Refused(
                f"the map is in {self.system.code}, whose lengths are too long away from the equator, as those of Web Mercator are: "
                f"turn it into degrees by `{CONVERT} MAP`, or take it as it is by --units metres"
            )
        self.sentences: List[str] = []
        self.swap = swap
        some = positions(list(town.features()))
        self.is_degrees = self.are_degrees(some)
        self.swap = swap or self.is_swapped(some)
        self.crosses = self.is_degrees and self.is_over_the_date_line(some)
        self.factor = float(METRES[self.system.units]) if self.system else 1.0
        self.leave_far_ones(town, skips)
        some = self.straight(positions(list(town.features())))
        self.origin = self.wrapped(origin or middle_of(some, 5 if self.is_degrees else 0))
        self.check(some)
        self.warn(town)

    def are_degrees(self, some: List[Position]) -> bool:
        """What the words or the file say; else what positions on the globe can be, as GeoJSON has them."""
        if self.system is None:
            return is_on_globe(some) or (is_on_globe(flipped(some)) and is_small(some))
        if self.system.units != "degrees" and self.system.code and is_on_globe(some) and is_small(some):
            raise Refused(
                f"the map says that it is in {self.system.code}, in {self.system.units}, and its numbers are such as degrees: "
                f"say --units degrees, or --units {self.system.units} to take them as they are"
            )
        return self.system.units == "degrees"

    def is_swapped(self, some: List[Position]) -> bool:
        """Whether the numbers can't be meant as they stand, and can the other way round."""
        box = bounds(self.system)
        if self.is_degrees and not is_on_globe(some):
            found = is_on_globe(flipped(some))
        else:
            found = box is not None and not within(some, box) and within(flipped(some), box) == len(some)
        if found:
            self.sentences.append(
                "the map has the north before the east, as latitude before longitude, and is read so; --swap says it beforehand"
            )
        return found

    def is_over_the_date_line(self, some: List[Position]) -> bool:
        east = [at[self.swap] for at in some]
        over = max(east) - min(east) > 180
        if over:
            self.sentences.append(
                "the map lies over the line of 180 degrees: its longitudes are taken around the globe"
            )
        return over

    def straight(self, some: Sequence[Position]) -> List[Position]:
        """The positions with the east before the north, and longitudes that go on over the date line."""
        return [(x % 360 + 360 * (x < 0) if self.crosses else x, y) for x, y in (flipped(some) if self.swap else some)]

    def wrapped(self, at: Position) -> Position:
        return (at[0] - 360 if self.is_degrees and at[0] > 180 else at[0]), at[1]

    def leave_far_ones(self, town: Map, skips: Skips) -> None:
        """Skips features that lie far away from most, where they are few."""
        some = list(town.features())
        firsts = self.straight([feature.lines[0][0] for feature in some])
        east, north = (sorted(part)[len(firsts) // 2] for part in zip(*firsts))
        far = [
            feature
            for feature, at in zip(some, firsts)
            if max(map(abs, self.plane(at, (east, north)))) > WIDEST or self.is_beyond(at)
        ]
        if not far or len(far) * FEW > len(some):
            return
        for feature in far:
            x, y = feature.lines[0][0]
            skips.leave(feature.number, feature.text, f"lies at ({x:f}, {y:f}), far away from the other features")
        town.keep([feature for feature in some if all(feature is not one for one in far)])

    def is_beyond(self, at: Position) -> bool:
        return self.is_degrees and (abs(at[0]) > 360 or abs(at[1]) >= 90)

    def check(self, some: List[Position]) -> None:
        if any(map(self.is_beyond, some)):
            raise Refused(
                "a position lies beyond 180 degrees of longitude or 90 of latitude: say --units metres where the map is in metres"
            )
        far = max(max(map(abs, self.plane(at, self.origin))) for at in corners_of(some))
        if far > WIDEST:
            units = "degrees; where they are metres, say --units metres" if self.is_degrees else "metres"
            raise Refused(
                f"the map reaches {far / 1000:,.0f} km away from {self.told()}, where its numbers are {units}; "
                f"cut it into towns of less than {2 * WIDEST // 1000} km"
            )

    def warn(self, town: Map) -> None:
        """Tells where parcels have right angles if each position is turned round, and haven't as they stand."""
        if not self.is_degrees or self.swap:
            return
        rings = [feature.lines[0] for feature in town.parcels[:LOOKED_AT]]
        here, there = self.skew_of(rings), self.skew_of([flipped(ring) for ring in rings])
        if here > SKEWED and there < RIGHT:
            self.sentences.append(
                f"corners of parcels are {here:.0f} degrees off a right angle, and wouldn't be if latitude stood before longitude: "
                "if it does, say --swap"
            )

    def skew_of(self, rings: List[List[Position]]) -> float:
        """How far corners are off a right angle, in the middle of all parcels."""
        if not all(map(is_on_globe, rings)):
            return SKEWED
        found = sorted(skew([self.plane(at, rings[0][0]) for at in ring]) for ring in rings)
        return found[len(found) // 2]

    def plane(self, at: Position, origin: Position) -> Point:
        """Metres to the east and to the north of an origin."""
        if self.is_degrees:
            here, longitude = (float(origin[0]), float(origin[1])), float(at[0])
            over = turn_of(longitude - here[0]) + here[0] if abs(longitude - here[0]) > 180 else longitude
            return metres(over, float(at[1]), here)
        east, north = (float(part - start) * self.factor for part, start in zip(at, origin))
        return east, north

    def place(self, at: Position) -> Point:
        east, north = self.plane(self.straight([at])[0], self.origin)
        return east, -north

    def placed(self, feature: Feature) -> Feature:
        return feature._replace(lines=[[self.place(at) for at in line] for line in feature.lines])

    def code(self) -> str:
        """The code of the reference system, as far as it is known: a map in degrees that names none is in WGS84."""
        if self.system and self.system.code:
            return str(self.system.code)
        return PLAIN if self.is_degrees else ""

    def units(self) -> str:
        return str(self.system.units) if self.system else "degrees" if self.is_degrees else "metres"

    def told(self) -> str:
        if self.is_degrees:
            return f"longitude {self.origin[0]}, latitude {self.origin[1]}"
        units = f", in {self.system.units}" if self.system and self.factor != 1 else ""
        return f"({self.origin[0]}, {self.origin[1]}{units})"


def corners_of(some: List[Position]) -> List[Position]:
    east, north = (sorted((min(part), max(part))) for part in zip(*some))
    return [(x, y) for x in east for y in north]
