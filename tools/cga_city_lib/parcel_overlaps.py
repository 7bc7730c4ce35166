"""Which rectangles of parcels overlap, and by how much: their area together, and the pair that does so the most."""
from typing import Dict, Iterator, List, Sequence, Tuple

from .apart import touching
from .parcels import Group
from .rectangle import area, corners, turn

Point = Tuple[float, float]
LEAST = 0.05  # square metres; less comes of rounding
STEPS = 1000  # of a metre, in which boxes are told


def cut_by_ring(ring: Sequence[Point], other: Sequence[Point]) -> List[Point]:
    """What two convex rings have in common; both turn the same way, clockwise as drawn."""
    kept = list(ring)
    for a, b in zip(other, [*other[1:], other[0]]):
        some: List[Point] = []
        for p, q in zip(kept, kept[1:] + kept[:1]):
            here, there = turn(a, b, p), turn(a, b, q)
            if here >= 0:
                some.append(p)
            if (here >= 0) != (there >= 0):
                part = here / (here - there)
                some.append((p[0] + (q[0] - p[0]) * part, p[1] + (q[1] - p[1]) * part))
        kept = some
    return kept


def box_of(ring: Sequence[Point]) -> Tuple[int, int, int, int]:
    xs, zs = zip(*ring)
    return tuple(round(f(some) * STEPS) for some in (xs, zs) for f in (min, max))  # type: ignore


def overlaps(groups: List[Group]) -> Iterator[Tuple[float, str, str]]:
    """Pairs of lots whose rectangles overlap, each with the area."""
    rings = [corners(box, group.angle) for group in groups for box in group.boxes]
    names = [lot.name for group in groups for lot in group.lots]
    for one, other in touching([box_of(ring) for ring in rings]):
        common = cut_by_ring(rings[one], rings[other])
        size = area(common) if len(common) > 2 else 0.0
        if size > LEAST:
            yield size, names[one], names[other]


def by_lot(pairs: List[Tuple[float, str, str]]) -> Dict[str, float]:
    """For each lot the area that others lie over."""
    found: Dict[str, float] = {}
    for size, *names in pairs:
        for name in names:
            found[name] = found.get(name, 0.0) + size
    return found


def sentence(pairs: List[Tuple[float, str, str]], fit: str) -> List[str]:
    if not pairs:
        return []
    size, one, other = max(pairs)
    help_ = "; --fit inside takes the largest rectangle within each parcel" if fit == "around" else ""
    return [
        f"rectangles overlap in {len(pairs):,} place{'s' * (len(pairs) > 1)}, by {sum(pair[0] for pair in pairs):,.2f} square metres "
        f"together; the most is {size:,.2f} of `{one}` and `{other}`{help_}"
    ]
