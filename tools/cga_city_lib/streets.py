"""The streets of a map, kept by squares of the ground so that the nearest ones are found among few."""
import math
from collections import defaultdict
from typing import Any, Iterable, List, Optional, Tuple

from .rectangle import away

Point = Tuple[float, float]
Segment = Tuple[Point, Point]
SQUARE = 50.0
WIDEST = 16  # squares on each side of a point; beyond, all streets are looked at


class Streets:
    def __init__(self, features: Iterable[Any]):
        self.segments = [segment for feature in features for line in feature.lines for segment in zip(line, line[1:])]
        self.squares = defaultdict(set)
        for a, b in self.segments:
            pieces = math.ceil(math.hypot(b[0] - a[0], b[1] - a[1]) / SQUARE) or 1
            for k in range(pieces):
                part = (k + 0.5) / pieces
                self.squares[square((a[0] + (b[0] - a[0]) * part, a[1] + (b[1] - a[1]) * part))].add((a, b))

    def near(self, point: Point, half: float) -> List[Segment]:
        """The segments that can be the nearest to a place at most `half` away from the point."""
        u, v = square(point)
        wide = 2
        while wide <= WIDEST:
            around = [(x, z) for x in range(u - wide, u + wide + 1) for z in range(v - wide, v + wide + 1)]
            some = set().union(*(self.squares[at] for at in around if at in self.squares))
            found = nearest(point, half, some)
            # a piece that isn't in these squares has its middle at least `wide` of them away, and half a square is its own
            if found and found[0] <= (wide - 0.5) * SQUARE:
                return found[1]
            wide *= 2
        return nearest(point, half, self.segments)[1]


def square(point: Point) -> Tuple[int, int]:
    return math.floor(point[0] / SQUARE), math.floor(point[1] / SQUARE)


def nearest(point: Point, half: float, segments: Iterable[Segment]) -> Optional[Tuple[float, List[Segment]]]:
    """How far the farthest of them can be, and those that are as near."""
    far = [(away(point, *segment), segment) for segment in segments]
    if not far:
        return None
    most = min(far)[0] + 2 * half
    return most, [segment for distance, segment in far if distance <= most]
