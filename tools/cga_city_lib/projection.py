"""A parallel view of a town, from above or from a side, on paper: U goes to the right, V down, and D to the eye."""
import math
from collections import namedtuple


SIDES = {
    "front": (1, 0),
    "right": (0, -1),
    "back": (-1, 0),
    "left": (0, 1),
}  # what goes to the right as the side is seen
INSIDE = " inside"  # in the place of a symbol: of a wall that is seen from inside
HAIR = 1e-7  # a plane that goes along faces lies just in front of them

# what is drawn of a face: the corners as (u, v, d), the symbol, and the way that it looks
Face = namedtuple("Face", "corners symbol normal")
Cut = namedtuple("Cut", "points symbol is_area")


def from_above(p):
    return p[0], p[2], p[1]


def across(right):
    """The view in which this direction on the ground goes to the right."""
    x, z = right
    return lambda p: (p[0] * x + p[2] * z, -p[1], p[2] * x - p[0] * z)


def normal(corners):
    """Across the face: D is above 0 where it looks to the eye, since V goes down."""
    parts = [0.0, 0.0, 0.0]
    for p, q in zip(corners, corners[1:] + corners[:1]):
        for k in range(3):
            a, b = (k + 1) % 3, (k + 2) % 3
            parts[k] -= (p[a] - q[a]) * (p[b] + q[b]) / 2
    size = math.sqrt(sum(part * part for part in parts))
    return tuple(part / size for part in parts) if size else (0.0, 0.0, 0.0)


def crossing(p, q, depth):
    part = (depth - p[2]) / (q[2] - p[2])
    return p[0] + (q[0] - p[0]) * part, p[1] + (q[1] - p[1]) * part, depth


def behind(corners, depth):
    """The part of a face that lies behind the plane."""
    kept = []
    for p, q in zip(corners, corners[1:] + corners[:1]):
        if p[2] <= depth:
            kept.append(p)
        if (p[2] <= depth) != (q[2] <= depth):
            kept.append(crossing(p, q, depth))
    return kept


def met(corners, depth):
    """Where a face meets the plane: two points, or none."""
    points = [
        crossing(p, q, depth) for p, q in zip(corners, corners[1:] + corners[:1]) if (p[2] <= depth) != (q[2] <= depth)
    ]
    return [(u, v) for u, v, _ in points] if len(points) == 2 else []


def loops(segments):
    """Segments that follow each other, as rings; nothing where one has no end to go on from."""

    def key(p):
        return round(p[0], 6), round(p[1], 6)

    ends = {}
    for p, q in segments:
        ends.setdefault(key(p), []).append(q)
        ends.setdefault(key(q), []).append(p)
    if any(len(some) != 2 for some in ends.values()):
        return []
    rings = []
    while ends:
        at = next(iter(ends))
        ring = []
        while at in ends:
            ring.append(at)
            at = next((key(q) for q in ends.pop(at) if key(q) in ends), None)
        rings.append(ring)
    return [ring for ring in rings if len(ring) > 2]


def cuts_of(faces, symbol, depth):
    """What a plane cuts of a solid: areas where it is closed, else lines."""
    segments = [points for points in (met(corners, depth) for corners in faces) if points]
    rings = loops(segments) if len(faces) > 3 else []
    return [Cut(ring, symbol, True) for ring in rings] or [Cut(points, symbol, False) for points in segments]


def seen(faces, symbol, depth, is_closed):
    """What of a solid's faces lies behind the plane and looks to the eye; both sides of a sheet do."""
    for corners in faces:
        kept = behind(corners, depth)
        if len(kept) < 3:
            continue
        up = normal(kept)
        if up[2] > 1e-6:
            yield Face(kept, symbol, up)
        elif up[2] < -1e-6 and not is_closed:  # all go round one way, so that none makes a hole in another
            yield Face(kept[::-1], symbol, tuple(-part for part in up))
