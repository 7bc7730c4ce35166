"""The largest rectangle within a polygon, whose sides lie at a given angle."""
from typing import Iterator, List, Sequence, Tuple

from .rectangle import area, least_angle, room, sides, turned

Point = Tuple[float, float]
Box = Tuple[float, float, float, float]  # least X and Z, greatest X and Z
Edge = Tuple[float, float, float, float]  # from the end of least X to that of greatest
COLUMNS = 14
FINEST = 0.002
RECTANGULAR = 1.001  # the rectangle around is no more than this larger


def edges_of(ring: Sequence[Point]) -> List[Edge]:
    pairs = (sorted((p, q)) for p, q in zip(ring, [*ring[1:], ring[0]]))
    return [(p[0], p[1], q[0], q[1]) for p, q in pairs]


def at(edge: Edge, x: float) -> float:
    low_x, low, high_x, high = edge
    return low + (high - low) * (x - low_x) / (high_x - low_x)


def in_the_way(edges: List[Edge], left: float, right: float) -> List[Tuple[float, float]]:
    """What each edge takes of a strip, from its least Z to its greatest."""
    found = []
    for edge in edges:
        low, high = max(edge[0], left), min(edge[2], right)
        if low < high:
            found.append((min(at(edge, low), at(edge, high)), max(at(edge, low), at(edge, high))))
        elif edge[0] == edge[2] and left < edge[0] < right:
            found.append((edge[1], edge[3]) if edge[1] <= edge[3] else (edge[3], edge[1]))
    return sorted(found)


def gaps(edges: List[Edge], left: float, right: float) -> Iterator[Tuple[float, float]]:
    """The parts of a strip that no edge crosses, between its edges."""
    taken = in_the_way(edges, left, right)
    if not taken:
        return
    end = taken[0][1]
    for low, high in taken[1:]:
        if low > end:
            yield end, low
        end = max(end, high)


def is_within(edges: List[Edge], x: float, z: float) -> bool:
    return sum(edge[0] <= x < edge[2] and at(edge, x) < z for edge in edges) % 2 == 1


def best_of(edges: List[Edge], left: float, right: float) -> Box:
    """The largest rectangle that is as wide as a strip."""
    best, middle = (left, 0.0, left, 0.0), (left + right) / 2
    for low, high in gaps(edges, left, right):
        if (high - low) * (right - left) > room(best) and is_within(edges, middle, (low + high) / 2):
            best = left, low, right, high
    return best


def coarse(edges: List[Edge]) -> Tuple[Box, float]:
    """The largest rectangle between columns, and how far columns are apart."""
    corners = sorted({edge[0] for edge in edges} | {edge[2] for edge in edges})
    step = (corners[-1] - corners[0]) / COLUMNS
    columns = sorted({*corners, *(corners[0] + k * step for k in range(1, COLUMNS))})
    found = [
        best_of(edges, left, right)
        for k, left in enumerate(columns)
        for right in columns[k + 1 :]
        if right - left > FINEST
    ]
    return max(found, key=room, default=(0.0, 0.0, 0.0, 0.0)), step


def refined(edges: List[Edge], box: Box, step: float) -> Box:
    """The rectangle with its left and right side moved as long as it grows, by smaller and smaller steps."""
    while step > FINEST:
        moves = [(a * step, b * step) for a in (-1, 0, 1) for b in (-1, 0, 1)]
        tried = [best_of(edges, box[0] + a, box[2] + b) for a, b in moves if box[2] + b - box[0] - a > FINEST]
        best = max(tried, key=room)
        if room(best) <= room(box):
            step /= 2
        else:
            box = best
    return box


def within(ring: Sequence[Point], angle: float) -> Box:
    """The largest rectangle within the ring, in the frame that is turned by the angle; the one around, where that is it."""
    around = sides(ring, angle)
    if room(around) <= RECTANGULAR * area(ring):
        return around
    edges = edges_of([turned(p, angle) for p in ring])
    return refined(edges, *coarse(edges))


def angles_of(ring: Sequence[Point]) -> List[float]:
    """The angles of the sides of a ring, from 0 and below 90, and that of the least rectangle around it."""
    found = [least_angle(ring)]
    for p, q in zip(ring, [*ring[1:], ring[0]]):
        angle = least_angle([p, q, (p[0] + 1e-3 * (p[1] - q[1]), p[1] + 1e-3 * (q[0] - p[0]))])
        if all(min(abs(angle - one), 90 - abs(angle - one)) > 0.05 for one in found):
            found.append(angle)
    return found
