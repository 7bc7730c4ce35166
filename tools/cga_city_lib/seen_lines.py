"""The lines of faces as far as they are seen, for drawings without fills: what a nearer face hides is left out.

A grid of depths tells what is hidden, so the end of a line behind an edge is off by a cell of that grid at most; an end that
nothing hides is exact.
"""
import math
from array import array
from typing import Iterator, List, Sequence, Tuple

from .eye import NOTHING, fill
from .hidden import extent
from .projection import Face

Point = Tuple[float, float]
Segment = Tuple[Point, Point]
NEAREST = -1e30
SLACK = 0.6  # cells by which a face may lie before a line of its own


class Depths:
    """How near the nearest face is in each cell of a grid with so many cells along its longer side."""

    def __init__(self, faces: Sequence[Face], cells: int):
        self.low_u, self.low_v, high_u, high_v = extent(faces)
        self.scale = cells / max(high_u - self.low_u, high_v - self.low_v, 1e-6)
        self.width, self.height = (
            math.ceil(self.scale * size) + 1 for size in (high_u - self.low_u, high_v - self.low_v)
        )
        number = self.width * self.height
        self.near, seen = [NEAREST] * number, array("l", [NOTHING]) * number
        for face in faces:
            corners = [
                ((u - self.low_u) * self.scale, (v - self.low_v) * self.scale, d * self.scale)
                for u, v, d in face.corners
            ]
            for k in range(1, len(corners) - 1):
                three = sorted((corners[0], corners[k], corners[k + 1]), key=lambda p: p[1])
                fill(0, three, seen, self.near, self.width, self.height)

    def is_seen(self, u: float, v: float, d: float) -> bool:
        """Whether in a cell of the place or beside it nothing is nearer."""
        x, y = int((u - self.low_u) * self.scale), int((v - self.low_v) * self.scale)
        most = d * self.scale + SLACK
        for row in range(max(0, y - 1), min(self.height, y + 2)):
            begin = row * self.width
            if min(self.near[begin + max(0, x - 1) : begin + min(self.width, x + 2)], default=NEAREST) <= most:
                return True
        return False


def depth_on(face: Face, u: float, v: float) -> float:
    """How near a place of a face's plane is."""
    u0, v0, d0 = face.corners[0]
    a, b, c = face.normal
    return float(d0 - (a * (u - u0) + b * (v - v0)) / c)


def parts(depths: Depths, face: Face, segment: Segment) -> Iterator[Segment]:
    (u, v), (s, t) = segment
    steps = max(1, math.ceil(math.dist(*segment) * depths.scale))
    run: List[int] = []
    for k in range(steps + 1):
        part = k / steps
        x, y = u + (s - u) * part, v + (t - v) * part
        if depths.is_seen(x, y, depth_on(face, x, y)):
            run.append(k)
        if run and (run[-1] != k or k == steps):
            if run[-1] > run[0]:
                yield tuple((u + (s - u) * at / steps, v + (t - v) * at / steps) for at in (run[0], run[-1]))  # type: ignore
            run = []


def seen_lines(faces: Sequence[Face], lines: Sequence[Sequence[Segment]], cells: int) -> Iterator[Tuple[str, Segment]]:
    """The symbol of each line with its parts that are seen."""
    if not faces:
        return
    depths = Depths(faces, cells)
    for face, some in zip(faces, lines):
        for segment in some:
            for part in parts(depths, face, segment):
                yield face.symbol.strip(), part
