"""The rectangle of a parcel: the least one around it, or the largest one within it, along its front if that costs little."""
import math
from typing import List, Optional, Sequence, Tuple

from .inner import Box, Point, angles_of, coarse, edges_of, within
from .rectangle import away, least_angle, room, sides, turned
from .streets import Streets

FITS = ("around", "inside")
LITTLE = 0.95  # of the largest rectangle, which the one along the front has at least
MOST_SIDES = 8  # of a ring whose every side is tried


def angle_of(first: Point, second: Point) -> float:
    return math.degrees(math.atan2(second[1] - first[1], second[0] - first[0])) % 90 % 90


def front_angle(ring: Sequence[Point], streets: Streets) -> Optional[float]:
    """The angle of the side whose middle is the nearest to a street."""
    if not streets.segments:
        return None
    pairs = [(p, q) for p, q in zip(ring, [*ring[1:], ring[0]]) if math.dist(p, q) > 1]
    if not pairs:
        return None
    middle = tuple(sum(part) / len(ring) for part in zip(*ring))
    near = streets.near(middle, max(math.dist(middle, at) for at in ring))

    def far(pair: Tuple[Point, Point]) -> float:
        x, z = ((a + b) / 2 for a, b in zip(*pair))
        return float(min(away((x, z), *segment) for segment in near))

    return angle_of(*min(pairs, key=lambda pair: round(far(pair), 6)))


def size_at(ring: Sequence[Point], angle: float) -> float:
    return room(coarse(edges_of([turned(p, angle) for p in ring]))[0])


def inside_angle(ring: Sequence[Point], streets: Streets) -> float:
    """Where the largest rectangle within lies, or one that goes along the front and is little smaller."""
    angles = angles_of(ring)
    if len(angles) == 1:
        return angles[0]
    front = front_angle(ring, streets)
    tried = angles[:MOST_SIDES] + ([front] if front is not None else [])
    found = {angle: size_at(ring, angle) for angle in tried}
    best = max(found.values())
    if front is not None and found[front] >= LITTLE * best:
        return front
    return max(found, key=lambda angle: found[angle])


def angle_for(ring: Sequence[Point], fit: str, streets: Streets) -> float:
    return inside_angle(ring, streets) if fit == "inside" else least_angle(ring)


def box_for(ring: Sequence[Point], angle: float, fit: str, places: int) -> Box:
    """The rectangle in the frame that is turned by the angle. One inside is smaller by half a step of the grid on each side,
    so that rounding doesn't bring it out of the parcel."""
    around = sides(ring, angle)
    box = within(ring, angle) if fit == "inside" else around
    if box == around:
        return box
    inset = 0.5 * 10**-places
    return box[0] + inset, box[1] + inset, box[2] - inset, box[3] - inset


def front_line(ring: List[Point], turns: int) -> List[Point]:
    """The front of a rectangle by its corners, where so many quarter turns bring it to high Z."""
    return [(ring[2], ring[3]), (ring[1], ring[2]), (ring[0], ring[1]), (ring[3], ring[0])][turns]  # type: ignore
