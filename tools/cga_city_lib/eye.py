"""Where the points of a town come on a grid of cells, and which triangle is the nearest for each cell."""
import math
from array import array
from typing import Iterable, List, Sequence, Tuple

from .progress import counted

Point = Tuple[float, float, float]
NOTHING = -1


def dot(a: Point, b: Point) -> float:
    return a[0] * b[0] + a[1] * b[1] + a[2] * b[2]


def cross(a: Point, b: Point) -> Point:
    return (a[1] * b[2] - a[2] * b[1], a[2] * b[0] - a[0] * b[2], a[0] * b[1] - a[1] * b[0])


def unit(a: Point) -> Point:
    size = math.sqrt(dot(a, a)) or 1.0
    return (a[0] / size, a[1] / size, a[2] / size)


def normal(a: Point, b: Point, c: Point) -> Point:
    """Of the face that goes on through these three corners."""
    (x, y, z), (u, v, w), (r, s, t) = a, b, c
    return unit(cross((u - x, v - y, w - z), (r - x, s - y, t - z)))


class Eye:
    """Where points come on a grid of cells: right and down in cells, and nearer with a greater third number."""

    def __init__(self, direction: Point, points: Sequence[Point], width: int, height: int, filled: float):
        self.near = unit(direction)
        self.right = unit(cross((0.0, 1.0, 0.0), self.near))
        self.up = cross(self.near, self.right)
        across, upright = [dot(p, self.right) for p in points], [dot(p, self.up) for p in points]
        wide, high = max(across) - min(across), max(upright) - min(upright)
        self.scale = filled * min(width / max(wide, 1e-9), height / max(high, 1e-9))
        self.left = width / 2 - self.scale * (max(across) + min(across)) / 2
        self.top = height / 2 + self.scale * (max(upright) + min(upright)) / 2
        self.width, self.height = width, height

    def see(self, point: Point) -> Point:
        return (
            self.left + self.scale * dot(point, self.right),
            self.top - self.scale * dot(point, self.up),
            self.scale * dot(point, self.near),
        )

    def onto(self, other: "Eye") -> List[Tuple[float, float, float, float]]:
        """How a cell (x, y, z) comes to one of another eye: for each axis there the factors of x, y and z, and what is added."""
        rows, zoom = [], other.scale / self.scale
        for axis, base in (
            (other.right, other.left),
            (tuple(-part for part in other.up), other.top),
            (other.near, 0.0),
        ):
            x, y, z = zoom * dot(axis, self.right), -zoom * dot(axis, self.up), zoom * dot(axis, self.near)
            rows.append((x, y, z, base - x * self.left - y * self.top))
        return rows

    def draw(self, triangles: Sequence[Sequence[Point]]) -> Tuple["array[int]", List[float]]:
        """The nearest triangle for each cell, and how near it is."""
        seen, near = array("l", [NOTHING]) * (self.width * self.height), [-1e30] * (self.width * self.height)
        for number, corners in enumerate(counted(triangles, "faces")):
            fill(number, sorted(map(self.see, corners), key=lambda p: p[1]), seen, near, self.width, self.height)
        return seen, near


def fill(number: int, corners: Iterable[Point], seen: "array[int]", near: List[float], width: int, height: int) -> None:
    (x0, y0, z0), (x1, y1, z1), (x2, y2, z2) = corners
    if y2 - y0 < 1e-9:
        return
    for y in range(max(0, math.ceil(y0 - 0.5)), min(height - 1, math.floor(y2 - 0.5)) + 1):
        at = y + 0.5
        part = (at - y0) / (y2 - y0)
        xa, za = x0 + (x2 - x0) * part, z0 + (z2 - z0) * part
        if at < y1:
            part = (at - y0) / (y1 - y0)
            xb, zb = x0 + (x1 - x0) * part, z0 + (z1 - z0) * part
        else:
            part = (at - y1) / (y2 - y1) if y2 - y1 > 1e-9 else 0.0
            xb, zb = x1 + (x2 - x1) * part, z1 + (z2 - z1) * part
        if xa > xb:
            xa, xb, za, zb = xb, xa, zb, za
        step = (zb - za) / (xb - xa) if xb - xa > 1e-9 else 0.0
        first = max(0, math.ceil(xa - 0.5))
        z, row = za + (first + 0.5 - xa) * step, y * width
        for place in range(row + first, row + min(width - 1, math.floor(xb - 0.5)) + 1):
            if z > near[place]:
                near[place] = z
                seen[place] = number
            z += step
