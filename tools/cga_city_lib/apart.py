"""Which boxes touch, found by a sweep. A box is its least and its greatest number on each axis, one axis behind the other,
as whole numbers over one denominator: never floats, which would tell boxes apart that touch."""
from array import array
from collections import defaultdict
from typing import Any, Dict, Iterator, List, Sequence, Set, Tuple, Union

from .quadtree import Quadtree

Box = Sequence[int]
MOST_STRIPS = 32  # a box over more strips than that is compared with all others
FEW = 1 << 16  # boxes that are held at once


def touch(one: Box, other: Box) -> bool:
    """Whether two closed boxes of two or three axes share a point."""
    if one[0] > other[1] or other[0] > one[1] or one[2] > other[3] or other[2] > one[3]:
        return False
    return len(one) == 4 or one[4] <= other[5] and other[4] <= one[5]


def longer_axis(boxes: Sequence[Box]) -> Tuple[int, int]:
    """Where the axis begins along which the boxes reach further, of the first two, and where the other one does."""
    x, z = (max(box[at + 1] for box in boxes) - min(box[at] for box in boxes) for at in (0, 2))
    return (0, 2) if x >= z else (2, 0)


def touching(boxes: Sequence[Box]) -> Iterator[Tuple[int, int]]:
    """The pairs of places in the list whose closed boxes share a point, each pair once.

    The sweep goes along the longer axis, and compares what stands in the same strips across it.
    """
    if len(boxes) < 2:
        return
    along, across = longer_axis(boxes)
    width = 1 + 2 * sum(abs(box[across + 1] - box[across]) for box in boxes) // len(boxes)
    strips = [(box[across] // width, box[across + 1] // width) for box in boxes]
    wide = {at for at, (first, last) in enumerate(strips) if last - first >= MOST_STRIPS}
    yield from swept(boxes, along, strips, wide)
    for at in wide:
        yield from (
            (at, other)
            for other in range(len(boxes))
            if (other not in wide or other > at) and touch(boxes[at], boxes[other])
        )


def touching_alike(boxes: Sequence[Box], kinds: Sequence[Any]) -> Iterator[Tuple[int, int]]:
    """The same of boxes of one kind, as are those that are told in one frame."""
    places: Dict[Any, Any] = defaultdict(lambda: array("I"))
    for at, kind in enumerate(kinds):
        places[kind].append(at)
    for some in places.values():
        yield from touching_in_groups(boxes, some)


def touching_in_groups(boxes: Sequence[Box], places: Sequence[int]) -> Iterator[Tuple[int, int]]:
    """The same of some boxes. Where these are many, those of a square are compared, and then those at the squares' edges, so that
    few are held at once."""
    if len(places) <= FEW:
        yield from touching_of(boxes, places)
        return
    wholes, groups = [], []
    for _, items in Quadtree((boxes[at][::2][:2] for at in places), Ones(len(places)), FEW // 8).leaves():
        groups.append(array("I", [places[item] for item in items]))
        found = [boxes[at] for at in groups[-1]]
        yield from ((groups[-1][one], groups[-1][other]) for one, other in touching(found))
        wholes.append(around(found))
    edges: List[Set[int]] = [set() for _ in groups]
    for one, other in touching(wholes):
        edges[one].update(at for at in groups[one] if touch(boxes[at], wholes[other]))
        edges[other].update(at for at in groups[other] if touch(boxes[at], wholes[one]))
    home = {at: number for number, some in enumerate(edges) for at in some}
    for one, other in touching_of(boxes, sorted(home)):
        if home[one] != home[other]:
            yield one, other


def touching_of(boxes: Sequence[Box], places: Sequence[int]) -> Iterator[Tuple[int, int]]:
    yield from ((places[one], places[other]) for one, other in touching([boxes[at] for at in places]))


def around(boxes: Sequence[Box]) -> Box:
    """The least box that holds all of these."""
    columns = list(zip(*boxes))
    return tuple((max if at % 2 else min)(column) for at, column in enumerate(columns))


class Ones(Sequence[int]):
    """So many numbers 1."""

    def __init__(self, number: int):
        self.number = number

    def __len__(self) -> int:
        return self.number

    def __getitem__(self, _: Union[int, slice]) -> int:  # type: ignore[override]
        return 1


def swept(boxes: Sequence[Box], along: int, strips: List[Tuple[int, int]], wide: Set[int]) -> Iterator[Tuple[int, int]]:
    """The pairs of boxes that aren't wide. Two of them are compared in the first strip that both stand in."""
    waiting, end = defaultdict(list), along + 1
    for at in sorted(set(range(len(boxes))) - wide, key=lambda at: boxes[at][along]):
        box, (first, last) = boxes[at], strips[at]
        low = box[along]
        for strip in range(first, last + 1):
            here = waiting[strip] = [other for other in waiting[strip] if boxes[other][end] >= low]
            for other in here:
                if strip == max(first, strips[other][0]) and touch(box, boxes[other]):
                    yield other, at
            here.append(at)


class Members(Sequence[Sequence[int]]):
    """The places of each set, in the order of their least ones; made as they are asked for."""

    def __init__(self, sets: "Sets"):
        number = len(sets.above)
        self.first, self.next = array("I"), array("I", bytes(4 * number))  # a place that none follows names itself
        self.sizes = array("I", bytes(4 * number))
        last = array("I", bytes(4 * number))
        for at in range(number):
            least = sets.of(at)
            if least == at:
                self.first.append(at)
            else:
                self.next[last[least]] = at
            self.next[at] = last[least] = at
            self.sizes[least] += 1

    def __len__(self) -> int:
        return len(self.first)

    def weights(self) -> Sequence[int]:
        return array("I", map(self.sizes.__getitem__, self.first))

    def __getitem__(self, number: Union[int, slice]) -> List[int]:  # type: ignore[override]
        at = self.first[number]  # type: ignore[index]
        found = [at]
        while self.next[at] != at:
            at = self.next[at]
            found.append(at)
        return found


class Sets:
    """Places from 0 in sets that can be joined; each set goes by its least place."""

    def __init__(self, number: int):
        self.above = array("I", range(number))

    def of(self, at: int) -> int:
        above = self.above
        while above[at] != at:
            above[at] = above[above[at]]
            at = above[at]
        return at

    def join(self, one: int, other: int) -> bool:
        """Whether these were two sets."""
        one, other = self.of(one), self.of(other)
        self.above[max(one, other)] = min(one, other)
        return one != other

    def members(self) -> Members:
        return Members(self)
