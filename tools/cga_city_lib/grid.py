"""Boxes that come and go, and which of them touch another one: only what stands in the same squares of a grid is compared."""
from collections import defaultdict
from fractions import Fraction
from functools import lru_cache
from typing import Dict, List, Optional, Set, Tuple, Union

from .apart import touch
from .exact import parted

Number = Union[int, Fraction]
Box = Tuple[Number, ...]  # the least and the greatest number on each axis, X before Z before Y
Square = Tuple[int, int]
MOST_SQUARES = 64  # a box over more squares than that is compared with all others
ONE = 2**6 * 3**2 * 5**6 * 7  # all numbers are told over it, so that most are whole


@lru_cache(maxsize=1 << 16)
def number(text: str) -> Number:
    """A number as it is spelt, exactly, over `ONE`."""
    numerator, denominator = parted(text)
    if ONE % denominator:
        return Fraction(numerator * ONE, denominator)
    return numerator * (ONE // denominator)


class Grid:
    """Boxes by name, over squares of this side."""

    def __init__(self, side: int) -> None:
        self.side = side
        self.boxes: Dict[str, Box] = {}
        self.squares: Dict[Square, Set[str]] = defaultdict(set)
        self.wide: Set[str] = set()

    def cover(self, box: Box) -> Optional[List[Square]]:
        """The squares in which a box stands; None where these are too many."""
        x, x_end, z, z_end = (int(at // self.side) for at in box[:4])
        if (x_end - x + 1) * (z_end - z + 1) > MOST_SQUARES:
            return None
        return [(at, across) for at in range(x, x_end + 1) for across in range(z, z_end + 1)]

    def put(self, name: str, box: Box) -> None:
        if self.boxes.get(name) == box:
            return
        self.drop(name)
        self.boxes[name], squares = box, self.cover(box)
        if squares is None:
            self.wide.add(name)
        for square in squares or ():
            self.squares[square].add(name)

    def drop(self, name: str) -> None:
        box = self.boxes.pop(name, None)
        if box is None:
            return
        self.wide.discard(name)
        for square in self.cover(box) or ():
            self.squares[square].discard(name)
            if not self.squares[square]:
                del self.squares[square]

    def touching(self, box: Box) -> List[str]:
        """The names of the boxes that share a point with this one."""
        squares = self.cover(box)
        if squares is None:
            near = set(self.boxes)
        else:
            near = self.wide.union(*(self.squares[square] for square in squares if square in self.squares))
        return [name for name in near if touch(box, self.boxes[name])]
