"""Flat shapes on the ground: bands along lines, polygons in triangles, and lines and polygons cut to a box."""
import math
from typing import Callable, List, Sequence, Tuple

from .rectangle import turn

Point = Tuple[float, float]
Box = Tuple[float, float, float, float]  # least X and Z, greatest X and Z
LONGEST_MITRE = 2.0


def distinct(line: Sequence[Point]) -> List[Point]:
    return [at for k, at in enumerate(line) if k == 0 or math.dist(at, line[k - 1]) > 1e-6]


def mitre(before: Point, at: Point, after: Point, half: float) -> Point:
    """From a corner of a line to the left edge of its band."""
    first = math.hypot(at[0] - before[0], at[1] - before[1]) or 1.0
    second = math.hypot(after[0] - at[0], after[1] - at[1]) or 1.0
    one = ((at[1] - before[1]) / first, (before[0] - at[0]) / first)
    two = ((after[1] - at[1]) / second, (at[0] - after[0]) / second)
    x, z = one[0] + two[0], one[1] + two[1]
    size = math.hypot(x, z)
    if size < 1e-6:
        return one[0] * half, one[1] * half
    long = min(LONGEST_MITRE, 2 / size)
    return x / size * half * long, z / size * half * long


def band(line: Sequence[Point], width: float) -> List[List[Point]]:
    """The quads of a band along a line; those that follow each other share an edge."""
    line = distinct(line)
    if len(line) < 2:
        return []
    first, last = line[0], line[-1]
    before = (2 * first[0] - line[1][0], 2 * first[1] - line[1][1])
    after = (2 * last[0] - line[-2][0], 2 * last[1] - line[-2][1])
    spread = [before, *line, after]
    edges = []
    for p, at, q in zip(spread, line, spread[2:]):
        x, z = mitre(p, at, q, width / 2)
        edges.append(((at[0] + x, at[1] + z), (at[0] - x, at[1] - z)))
    return [[a, c, d, b] for (a, b), (c, d) in zip(edges, edges[1:])]


def signed(ring: Sequence[Point]) -> float:
    return sum(a[0] * b[1] - b[0] * a[1] for a, b in zip(ring, [*ring[1:], ring[0]])) / 2


def with_hole(ring: List[Point], hole: Sequence[Point]) -> List[Point]:
    """One ring that goes round the hole on its way, over the shortest bridge from a corner to a corner."""
    hole = list(hole) if signed(hole) < 0 else list(hole)[::-1]
    at, k = min(
        ((at, k) for at in range(len(ring)) for k in range(len(hole))),
        key=lambda pair: math.dist(ring[pair[0]], hole[pair[1]]),
    )
    return ring[: at + 1] + hole[k:] + hole[: k + 1] + ring[at:]


def is_inside(p: Point, a: Point, b: Point, c: Point) -> bool:
    return p not in (a, b, c) and turn(a, b, p) >= 0 and turn(b, c, p) >= 0 and turn(c, a, p) >= 0


def triangles(ring: Sequence[Point], holes: Sequence[Sequence[Point]] = ()) -> List[List[Point]]:
    """A polygon in triangles, by cutting off ears; what crosses itself comes out as well as it can."""
    left = list(ring) if signed(ring) > 0 else list(ring)[::-1]
    for hole in holes:
        left = with_hole(left, hole)
    found: List[List[Point]] = []
    while len(left) > 3:
        at = next((k for k in range(len(left)) if is_ear(left, k)), 0)
        a, b, c = left[at - 1], left[at], left[(at + 1) % len(left)]
        if abs(turn(a, b, c)) > 1e-9:
            found.append([a, b, c])
        del left[at]
    return [*found, left]


def is_ear(ring: List[Point], k: int) -> bool:
    a, b, c = ring[k - 1], ring[k], ring[(k + 1) % len(ring)]
    return turn(a, b, c) > 0 and not any(is_inside(p, a, b, c) for p in ring)


def grown(points: Sequence[Point], by: float) -> Box:
    xs, zs = zip(*points)
    return min(xs) - by, min(zs) - by, max(xs) + by, max(zs) + by


def half_planes(box: Box) -> List[Callable[[Point], float]]:
    """How far a point lies within each side of a box."""
    low_x, low_z, high_x, high_z = box
    return [lambda p: p[0] - low_x, lambda p: high_x - p[0], lambda p: p[1] - low_z, lambda p: high_z - p[1]]


def between(p: Point, q: Point, a: float, b: float) -> Point:
    part = a / (a - b)
    return p[0] + (q[0] - p[0]) * part, p[1] + (q[1] - p[1]) * part


def cut_ring(ring: Sequence[Point], box: Box) -> List[Point]:
    """The part of a polygon within a box."""
    kept = list(ring)
    for depth in half_planes(box):
        some: List[Point] = []
        for p, q in zip(kept, kept[1:] + kept[:1]):
            a, b = depth(p), depth(q)
            if a >= 0:
                some.append(p)
            if (a >= 0) != (b >= 0):
                some.append(between(p, q, a, b))
        kept = some
    return kept


def cut_line(line: Sequence[Point], box: Box) -> List[List[Point]]:
    """The parts of a line within a box."""
    parts = [list(line)]
    for depth in half_planes(box):
        parts = [some for part in parts for some in cut_by(part, depth)]
    return parts


def cut_by(line: List[Point], depth: Callable[[Point], float]) -> List[List[Point]]:
    found: List[List[Point]] = [[]]
    for k, p in enumerate(line):
        a = depth(p)
        if a >= 0:
            found[-1].append(p)
        if k + 1 < len(line) and (a >= 0) != (depth(line[k + 1]) >= 0):
            found[-1].append(between(p, line[k + 1], a, depth(line[k + 1])))
            found += [[]] * 0 if a < 0 else [[]]
    return [part for part in found if len(part) > 1]
