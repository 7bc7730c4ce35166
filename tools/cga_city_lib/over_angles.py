"""Lots at two angles that no question is asked between: each angle is derived by itself, and the boxes that the program told
of its lots say where that matters."""
import math
from typing import Any, Iterator, List, NamedTuple, Sequence, Tuple

from .apart import touching
from .rectangle import distance, turned

FINE = 1000  # bounds are compared in so many parts of a unit, rounded outwards


class Turned(NamedTuple):
    """A lot's box as it lies in the town: its corners in a ring, and how high it stands."""

    lot: str
    angle: float
    ring: List[Tuple[float, float]]
    low: float
    high: float

    def bounds(self) -> Tuple[int, ...]:
        (west, north), (east, south) = (tuple(map(end, zip(*self.ring))) for end in (min, max))
        down, up = math.floor, math.ceil
        ends = (down, west), (up, east), (down, north), (up, south), (down, self.low), (up, self.high)
        return tuple(rounded(number * FINE) for rounded, number in ends)


class Pair(NamedTuple):
    one: Turned
    other: Turned

    def place(self) -> Tuple[float, float]:
        """Where it is, for somebody who looks at a plan: between the middles of the two."""
        corners = self.one.ring + self.other.ring
        return sum(x for x, _ in corners) / 8, sum(z for _, z in corners) / 8


def boxes_in_town(plan: Any, told: Sequence[Any]) -> Iterator[Tuple[int, Turned]]:
    """The boxes of all lots by their places, of each by its own job."""
    jobs = plan.drawn()
    places = plan.places(range(len(jobs)))
    for number, (job, some) in enumerate(zip(jobs, told)):
        for at, name, box in zip(places[number], plan.own(job), some.boxes):
            x, far_x, z, far_z, low, high = (number / some.one for number in box)
            ring = [turned(place, -job.angle) for place in ((x, z), (far_x, z), (far_x, far_z), (x, far_z))]
            yield at, Turned(name, job.angle, ring, low, high)


def unseen_pairs(plan: Any, told: Sequence[Any]) -> List[Pair]:
    """The pairs of lots at two angles whose boxes touch, in the script's order."""
    found = [box for _, box in sorted(boxes_in_town(plan, told))]
    near = sorted(tuple(sorted(pair)) for pair in touching([box.bounds() for box in found]))
    pairs = [Pair(found[one], found[other]) for one, other in near if found[one].angle != found[other].angle]
    return [pair for pair in pairs if distance(pair.one.ring, pair.other.ring) == 0]


def unseen_text(pairs: Sequence[Pair]) -> str:
    lines = [f"# unseen {len(pairs)}\n"]
    for pair in pairs:
        lots = f"{pair.one.lot} {pair.one.angle:g} {pair.other.lot} {pair.other.angle:g}"
        lines.append(f"# unseen {lots} {pair.place()[0]:.2f} {pair.place()[1]:.2f}\n")
    return "".join(lines)


def sentence(pairs: Sequence[Pair], path: Any) -> str:
    (one, other), (x, z) = pairs[0], pairs[0].place()
    return (
        f"pairs of lots at two angles that touch, and between which no question by Scope.occ is asked: {len(pairs):,}, the first "
        f"is `{one.lot}` at {one.angle:g} and `{other.lot}` at {other.angle:g} degrees, near {x:.2f},{z:.2f}; {path} has all"
    )
