"""Deals the lots of a region to jobs by place and by angle: each job has the lots of one angle in a square of a quadtree."""
import math
from collections import defaultdict, namedtuple
from itertools import chain
from typing import Any, Dict, Iterable, Iterator, List, Sequence, Set, Tuple, Union

from .apart import Members, Ones, Sets, around, touching_alike
from .call import Refused
from .program import MOST_LOTS
from .quadtree import Quadtree
from .rectangle import turned
from .region import Region

Pair = Tuple[int, int]  # two lots by their places
Bounds = Tuple[int, int, int, int]
Groups = Sequence[Sequence[int]]

# places of lots: those that the job is for, and the neighbours that it derives with them; all lie at the angle, and the corner
# is the least of the own ones in its frame, as the bounds are the numbers between which these stand; of a coarser level the
# parts are the numbers of the shares that it has
Share = namedtuple("Share", "own ring square angle corner bounds parts", defaults=[()])


def by_place(region: Region, groups: Groups, most: int) -> Iterator[Share]:
    """Groups of lots in squares of at most so many lots, or of one group, each with its places in the script's order. Lots of
    a group lie at one angle, and those of a square are apart by it."""
    one, boxes = region.grounds()
    points = (in_town(least(one, [boxes[at] for at in group]), region.angles[group[0]]) for group in groups)
    for square, items in Quadtree(points, weights_of(groups), most).leaves():
        for angle, some in by_angle(items, [region.angles[groups[item][0]] for item in items]):
            own = sorted(at for item in some for at in groups[item])
            yield Share(own, [], square, angle, *ends(one, [boxes[at] for at in own]))


def ends(one: int, boxes: Sequence[Any]) -> Tuple[Pair, Bounds]:
    """The least corner of some lots, and the numbers between which they stand, all whole."""
    x, x_end, z, z_end = around(boxes)
    return (x // one, z // one), (x // one, -(-x_end // one), z // one, -(-z_end // one))


def bounds_of(region: Region, places: Sequence[int]) -> Bounds:
    one, boxes = region.grounds()
    return ends(one, [boxes[at] for at in places])[1]


def least(one: int, boxes: Sequence[Any]) -> Pair:
    """The least corner of some lots, whole."""
    if len(boxes) == 1:
        return boxes[0][0] // one, boxes[0][2] // one
    return ends(one, boxes)[0]


def weights_of(groups: Groups) -> Sequence[int]:
    return groups.weights() if isinstance(groups, (Members, Singly)) else list(map(len, groups))


class Singly(Sequence[Sequence[int]]):
    """Each of so many lots by itself."""

    def __init__(self, number: int):
        self.number = number

    def __len__(self) -> int:
        return self.number

    def weights(self) -> Sequence[int]:
        return Ones(self.number)

    def __getitem__(self, at: Union[int, slice]) -> Sequence[int]:  # type: ignore[override]
        if at >= self.number:  # type: ignore[operator]
            raise IndexError(at)
        return (at,)  # type: ignore[return-value]


def in_town(corner: Pair, angle: float) -> Pair:
    """Where a corner of the frame of that angle lies in the town, whole."""
    if not angle:
        return corner
    x, z = map(math.floor, turned(corner, -angle))
    return x, z


def by_angle(items: Sequence[Any], angles: Sequence[float]) -> List[Tuple[float, List[Any]]]:
    found = defaultdict(list)
    for item, angle in zip(items, angles):
        found[angle].append(item)
    return sorted(found.items())


def singly(region: Region, options: Any) -> Iterator[Share]:
    """Where no rule asks, each lot by itself."""
    return by_place(region, Singly(len(region.lots)), options.most)


def near_grounds(region: Region, options: Any) -> Iterator[Pair]:
    """Lots of one angle whose grounds touch."""
    return touching_alike(region.grounds(options.reach)[1], region.angles)


def districts(region: Any, options: Any, together: Iterable[Pair], are_near: bool = True) -> Members:
    """Lots whose grounds touch, or that a check has put together, stay in one job; or only the latter."""
    sets = Sets(len(region.lots))
    for one, other in chain(near_grounds(region, options) if are_near else (), together):
        sets.join(one, other)
    return sets.members()


def whole_districts(region: Region, options: Any, together: Iterable[Pair]) -> Tuple[int, Iterator[Share]]:
    groups = districts(region, options, together)
    weights = groups.weights()
    largest = groups[max(range(len(groups)), key=weights.__getitem__)]
    if len(largest) > MOST_LOTS:
        raise Refused(
            f"{region.path}: the district of the lot `{name(region, largest)}` has {len(largest)} lots that touch, and a run "
            f"takes {MOST_LOTS}: put a street through it, or cut with --rings 2, which derives squares with their neighbours"
        )
    return len(groups), by_place(region, groups, options.most)


def name(region: Region, places: Sequence[int]) -> str:
    return str(region.lots[places[0]].split()[1])


def neighbours(region: Region, options: Any, seen: Iterable[Pair]) -> Dict[int, Set[int]]:
    """Of each lot those whose grounds touch its own, or that see it from afar."""
    near = defaultdict(set)
    for one, other in chain(near_grounds(region, options), seen):
        near[one].add(other)
        near[other].add(one)
    return near


def ring_of(own: Sequence[int], near: Dict[int, Set[int]], rings: int, more: Dict[int, int]) -> List[int]:
    """The lots that are at most so many steps from their own, more from some."""
    left = {at: more.get(at, rings) for at in own}  # the steps that may still be taken from a lot
    todo = list(own)
    while todo:
        at = todo.pop()
        for other in near[at] if left[at] else ():
            if left.get(other, -1) < left[at] - 1:
                left[other] = left[at] - 1
                todo.append(other)
    return sorted(left.keys() - set(own))


def with_rings(
    region: Region, options: Any, together: Iterable[Pair], seen: Iterable[Pair], more: Dict[int, int]
) -> Iterator[Share]:
    """Squares with their neighbours; what a check has put together stays in one job."""
    groups = districts(region, options, together, are_near=False)
    near = neighbours(region, options, seen)
    for share in by_place(region, groups, options.most):
        ring = ring_of(share.own, near, options.rings, more)
        if len(share.own) + len(ring) > MOST_LOTS:
            raise Refused(
                f"{region.path}: the job of the lot `{name(region, share.own)}` has {len(share.own)} lots and {len(ring)} "
                f"neighbours, and a run takes {MOST_LOTS}: cut with fewer lots a job (--lots) or fewer --rings; where that "
                "was tried, what these lots ask goes too far for jobs"
            )
        yield share._replace(ring=ring)


def coarser(shares: Sequence[Any], sizes: Sequence[int], most: int) -> Iterator[Share]:
    """Shares of one square put together, as far as they have at most so many lots: the tiles of a coarser level. Their lots are
    those of their parts."""
    tree = Quadtree([share.square[:2] for share in shares], sizes, min(most, MOST_LOTS))
    for square, items in tree.leaves():
        squares = [square, *(tuple(shares[item].square) for item in items)]
        largest = max(squares, key=lambda found: found[2])
        for angle, some in by_angle(items, [shares[item].angle for item in items]):
            x, z = (min(shares[item].corner[axis] for item in some) for axis in (0, 1))
            bounds = around([shares[item].bounds for item in some])
            yield Share([], [], largest, angle, (x, z), bounds, some)
