"""Places fall into squares of a quadtree. All squares lie on one grid: each side is a power of two, and each corner is a
multiple of its side. So what lies elsewhere never moves the squares here."""
from array import array
from bisect import bisect_left
from collections import namedtuple
from itertools import accumulate
from typing import Iterable, Iterator, MutableSequence, Sequence, Tuple, Union

Point = Tuple[int, int]
Column = MutableSequence[int]  # an array; a list where a number is too large for one
EDGE = 1 << 60  # beyond each number that a script can spell
MANY = 1 << 20  # points whose numbers are sorted at once

Leaf = namedtuple("Leaf", "square items")  # a square is its least corner and its side


def spread(number: int) -> int:
    """The number's binary digits, each followed by a 0 but the last."""
    return int(f"{number:b}", 4)


class Codes(Sequence[int]):
    """Of each point a number that sorts points square by square, made as it is asked for; in the order of these numbers."""

    def __init__(self, points: Iterable[Point]):
        self.x: Column = array("q")
        self.z: Column = array("q")
        for x, z in points:
            self.take(x, z)
        known = set(self.x), set(self.z)
        self.edge = max(
            [EDGE, *(1 << abs(end).bit_length() for some in known if some for end in (min(some), max(some)))]
        )
        self.of_x, self.of_z = ({number: spread(number + self.edge) for number in some} for some in known)
        self.order = array("I", range(len(self.x)))  # the places of the points
        self.sort(0, len(self.x))

    def take(self, x: int, z: int) -> None:
        try:
            self.x.append(x)
            self.z.append(z)
        except OverflowError:
            number = len(self.z)
            self.x, self.z = [*self.x[:number], x], [*self.z, z]

    def code(self, at: int) -> int:
        return 2 * self.of_x[self.x[at]] + self.of_z[self.z[at]]

    def sort(self, first: int, last: int) -> None:
        """Sorts a part of the order; where it is long, the quarters of its square one by one, so that few numbers are held."""
        part = self.order[first:last]
        bit = self.highest(part) if len(part) > MANY else -1
        if bit < 0:
            self.order[first:last] = array("I", sorted(part, key=self.code))
            return
        quarters = [array("I") for _ in range(4)]
        for at in part:
            quarters[2 * (self.x[at] + self.edge >> bit & 1) + (self.z[at] + self.edge >> bit & 1)].append(at)
        for quarter in quarters:
            self.order[first : first + len(quarter)] = quarter
            self.sort(first, first + len(quarter))
            first += len(quarter)

    def highest(self, part: Sequence[int]) -> int:
        """The highest binary digit in which two of the points differ; below 0 where they are one."""
        ends = [[end(column[at] for at in part) + self.edge for end in (min, max)] for column in (self.x, self.z)]
        return max((low ^ high).bit_length() for low, high in ends) - 1

    def point(self, place: int) -> Point:
        """The point at a place of the order."""
        return self.x[self.order[place]], self.z[self.order[place]]

    def __len__(self) -> int:
        return len(self.order)

    def __getitem__(self, place: Union[int, slice]) -> int:  # type: ignore[override]
        return self.code(self.order[place])  # type: ignore[index]


def square_of(point: Point, level: int) -> Tuple[int, ...]:
    """The square of side 2 ** level that holds the point."""
    return tuple([(number >> level) << level for number in point] + [1 << level])


class Quadtree:
    """Points with whole coordinates, each with a weight."""

    def __init__(self, points: Iterable[Point], weights: Sequence[int], most: int):
        self.codes, self.most = Codes(points), most
        self.order = self.codes.order
        self.sums = array("Q", [0])
        self.sums.extend(accumulate(weights[at] for at in self.order))

    def leaves(self) -> Iterator[Leaf]:
        """The least number of squares, by halving, that hold at most so much weight each, or one point."""
        todo = [(0, len(self.order))] if self.order else []
        while todo:
            first, last = todo.pop()
            level = ((self.codes[first] ^ self.codes[last - 1]).bit_length() + 1) // 2
            if self.sums[last] - self.sums[first] <= self.most or last - first == 1:
                yield self.leaf(first, last, level)
            elif level == 0:
                yield from self.dealt(first, last)
            else:
                todo += reversed(list(self.quarters(first, last, level - 1)))

    def leaf(self, first: int, last: int, level: int) -> Leaf:
        return Leaf(square_of(self.codes.point(first), level), self.order[first:last])

    def quarters(self, first: int, last: int, level: int) -> Iterator[Tuple[int, int]]:
        """The parts of a square that hold points, each a square of half the side."""
        begin = (self.codes[first] >> 2 * (level + 1)) << 2
        ends = [bisect_left(self.codes, (begin + part) << 2 * level, first, last) for part in range(5)]
        return ((low, high) for low, high in zip(ends, ends[1:]) if low < high)

    def dealt(self, first: int, last: int) -> Iterator[Leaf]:
        """Points of one place, some at a time."""
        begin = first
        for at in range(first, last):
            if at > begin and self.sums[at + 1] - self.sums[begin] > self.most:
                yield self.leaf(begin, at, 0)
                begin = at
        yield self.leaf(begin, last, 0)
