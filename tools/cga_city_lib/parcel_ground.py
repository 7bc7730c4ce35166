"""The ground of a map, put beside the lots that were made of its parcels."""
from typing import Any, Iterator, List

from .call import Refused
from .fitting import front_line
from .ground_file import Area, Ground, Place, Plot, Point, Way
from .ground_kinds import area_kind, line_kind, width_of
from .lots_found import Found
from .rectangle import area, corners, turned


def turned_line(line: List[Point], angle: float) -> List[Point]:
    return [turned(at, angle) for at in line] if angle else list(line)


def plots_of(found: Found, angle: float) -> Iterator[Plot]:
    for group in found.groups:
        for parcel, box, lot in zip(group.parcels, group.boxes, group.lots):
            ring, *holes = (turned_line(line, angle) for line in [parcel.ring, *parcel.holes])
            front = turned_line(front_line(corners(box, group.angle), lot.turns), angle)
            own = area(ring) - sum(map(area, holes))
            yield Plot(lot.name, parcel.number, parcel.text, own, ring, holes, front, parcel.properties)


def ways_of(found: Found, angle: float) -> Iterator[Way]:
    for feature in map(found.plane.placed, found.town.streets + found.town.ways):
        kind = line_kind(feature.properties) or "street"
        for line in feature.lines:
            yield Way(kind, feature.text, width_of(feature.properties, kind), turned_line(line, angle))


def areas_of(found: Found, angle: float) -> Iterator[Area]:
    for feature in map(found.plane.placed, found.town.areas):
        ring, *holes = (turned_line(line, angle) for line in feature.lines)
        yield Area(area_kind(feature.properties) or "park", feature.text, ring, holes)


def ground_beside(found: Found, angle: float) -> Ground:
    """The ground in the coordinates of a script that is turned by the angle, or of a town, whose angle is 0."""
    plane: Any = found.plane
    if plane is None:
        raise Refused("a table of lots has no ground: --ground is for a map")
    place = Place(plane.code(), plane.units(), tuple(map(str, plane.origin)), angle)
    plots = sorted(plots_of(found, angle), key=lambda plot: plot.feature)
    return Ground(place, plots, list(ways_of(found, angle)), list(areas_of(found, angle)))
