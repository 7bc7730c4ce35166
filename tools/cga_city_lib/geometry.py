"""The polygons and the lines of a GeoJSON geometry. What is wrong with one is told without its place, which the caller knows."""
from collections import namedtuple
from decimal import Decimal
from typing import Any, Dict, Iterator, List, Tuple

from .call import Refused
from .strangers_text import told

Position = Tuple[Decimal, Decimal]
Ring = List[Position]
# a ring outside, and the rings of its holes
Polygon = namedtuple("Polygon", "ring holes")
KINDS = "Point MultiPoint LineString MultiLineString Polygon MultiPolygon GeometryCollection".split()
DEEPEST, NOWHERE = 8, 10**9


def is_number(part: Any) -> bool:
    return isinstance(part, (int, float, Decimal)) and not isinstance(part, bool)


def position(at: Any) -> Position:
    if not (isinstance(at, list) and len(at) >= 2 and all(map(is_number, at[:2]))):
        raise Refused("a position isn't a list of two numbers")
    if not all(abs(part) < NOWHERE for part in at[:2]):
        raise Refused(f"a position is ({told(at[0])}, {told(at[1])}), which lies nowhere on a map")
    return Decimal(at[0]), Decimal(at[1])


def line(positions: Any) -> Ring:
    if not isinstance(positions, list):
        raise Refused("the coordinates aren't lists of positions")
    return [position(at) for at in positions]


def ring(positions: Any) -> Ring:
    """A ring without the position that closes it, and without one that follows itself."""
    points = line(positions)
    points = [at for at, after in zip(points, points[1:] + points[:1]) if at != after] or points[:1]
    if len(set(points)) < 3:
        raise Refused(f"the polygon has {len(set(points))} corners, and at least three are needed")
    return points


def polygon(rings: Any) -> Polygon:
    if not isinstance(rings, list) or not rings:
        raise Refused("the polygon has no ring")
    return Polygon(ring(rings[0]), [ring(hole) for hole in rings[1:]])


def parts(at: Any, what: str) -> List[Any]:
    if not isinstance(at, list):
        raise Refused(f"the coordinates aren't lists of {what}")
    return at


def pieces(geometry: Any, depth: int = 0) -> Iterator[Tuple[str, Any]]:
    """The polygons and lines of a geometry, each with its kind; of points nothing."""
    kind = geometry.get("type") if isinstance(geometry, dict) else None
    at = geometry.get("coordinates") if isinstance(geometry, dict) else None
    if kind == "GeometryCollection":
        if depth == DEEPEST:
            raise Refused(f"collections of geometries are nested more than {DEEPEST} deep")
        for inner in parts(geometry.get("geometries"), "geometries"):
            yield from pieces(inner, depth + 1)
    elif kind == "Polygon":
        yield kind, at
    elif kind == "MultiPolygon":
        yield from (("Polygon", one) for one in parts(at, "polygons"))
    elif kind == "LineString":
        yield kind, at
    elif kind == "MultiLineString":
        yield from (("LineString", one) for one in parts(at, "lines"))


def is_geometry(data: Dict[str, Any]) -> bool:
    return data.get("type") in KINDS
