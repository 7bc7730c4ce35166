"""The ground of a map as flat faces beside a town, for pictures, pages and tiles: no shape of the town is made of them."""
from typing import Dict, Iterator, List, Optional, Sequence, Tuple

from .flat import Box, Point, band, cut_line, cut_ring, grown, triangles
from .ground_file import Ground, read_ground
from .instances import Lots
from .obj import Solid, Town
from .obj_instances import from_town

LOT = "ground"
MARGIN = 15.0  # so far beyond the parcels the ground is drawn
HEIGHTS = {"border": 0.14, "street": 0.08, "rail": 0.06, "pavement": 0.05}
LOWEST = 0.03
KERB, BORDER = 0.3, 0.12
Corner = Tuple[float, float, float]
Flat = Tuple[str, float, List[List[Point]]]  # symbol, height, faces


def box_of(ground: Ground, margin: float = MARGIN) -> Box:
    """The parcels with a margin; streets and water beyond aren't drawn."""
    points = ground.points() or [at for way in ground.ways for at in way.line] or [(0.0, 0.0)]
    return grown(points, margin)


def flats(ground: Ground, margin: float = MARGIN) -> Iterator[Flat]:
    """All of the ground as faces at a height, the lowest first."""
    box = box_of(ground, margin)
    for area in ground.areas:
        ring, holes = cut_ring(area.ring, box), [cut_ring(hole, box) for hole in area.holes]
        if len(ring) > 2:
            yield area.kind, HEIGHTS.get(area.kind, LOWEST), triangles(ring, [hole for hole in holes if len(hole) > 2])
    for way in ground.ways:
        for line in cut_line(way.line, box):
            height = HEIGHTS.get(way.kind, LOWEST + 0.005)
            if way.kind == "street":
                yield "kerb", height - 0.01, band(line, way.width + 2 * KERB)
            yield way.kind, height, band(line, way.width)
    for plot in ground.plots:
        yield "border", HEIGHTS["border"], band([*plot.ring, plot.ring[0]], BORDER)


def upward(face: Sequence[Point], height: float) -> List[Corner]:
    """The corners of a face so that it looks up: counter-clockwise from above, where Z goes down."""
    area = sum(a[0] * b[1] - b[0] * a[1] for a, b in zip(face, [*face[1:], face[0]]))
    ring = list(face)[::-1] if area > 0 else list(face)
    return [(x, height, z) for x, z in ring]


def solids_of(ground: Ground) -> List[Tuple[str, List[Corner], List[List[int]]]]:
    """For each symbol its corners, and its faces by their places among these."""
    found: Dict[str, Tuple[List[Corner], List[List[int]]]] = {}
    for symbol, height, faces in flats(ground):
        corners, places = found.setdefault(symbol, ([], []))
        for face in faces:
            places.append(list(range(len(corners), len(corners) + len(face))))
            corners += upward(face, height)
    return [(symbol, corners, places) for symbol, (corners, places) in found.items()]


def put(town: Town, ground: Ground) -> Town:
    """The town with a lot of the ground's faces in front of its own."""
    solids = []
    for symbol, corners, faces in solids_of(ground):
        first = len(town.points)
        town.points += corners
        town.texts += [tuple(f"{part:.3f}" for part in point) for point in corners]
        solids += [Solid(symbol, [[first + at for at in face]]) for face in faces]
    town.lots = {LOT: solids, **town.lots}
    return town


def lots_of(ground: Ground) -> Lots:
    """The ground as a lot of instances."""
    return from_town(put(Town([]), ground)).lots


def with_ground(town: Town, path: Optional[str]) -> Town:
    """The town, with the ground of the file where one is said."""
    return put(town, read_ground(path)) if path else town
