"""A solid but for where it stands: its corners from the first one on, exactly, its faces, and the scope that it was drawn into."""
from fractions import Fraction
from functools import lru_cache
from math import gcd
from typing import List, NamedTuple, Optional, Sequence, Tuple

from .solids import FACES, corners, ridge_of

Whole = Tuple[int, int, int]
Point = Tuple[float, float, float]
Faces = Tuple[Tuple[int, ...], ...]
FACES_FROM_0 = {solid: tuple(tuple(at - 1 for at in face) for face in faces) for solid, faces in FACES.items()}


class Scope(NamedTuple):
    """Where a solid of the program was drawn into; the axes are the scope's X, Y and Z in the world."""

    kind: str
    ridge: str
    word: str  # of the axes, as `+X+Y+Z`
    axes: Tuple[Whole, Whole, Whole]
    size: Tuple[Fraction, Fraction, Fraction]
    told: str  # the axes and the size, as a program tells them


class Form:
    """Corners are whole numbers over `one`; the first corner is (0, 0, 0). Equal forms are one object."""

    def __init__(self, faces: Faces, corners: Tuple[Whole, ...], one: int, scope: Optional[Scope] = None) -> None:
        self.faces, self.corners, self.one, self.scope = faces, corners, one, scope
        self._points: Optional[List[Point]] = None
        self._ends: Optional[Tuple[Point, Point]] = None

    def points(self) -> List[Point]:
        """The corners as floats."""
        if self._points is None:
            self._points = [(x / self.one, y / self.one, z / self.one) for x, y, z in self.corners]
        return self._points

    def ends(self) -> Tuple[Point, Point]:
        """The least and the greatest coordinate along each axis."""
        if self._ends is None:
            xs, ys, zs = zip(*self.points())
            self._ends = (min(xs), min(ys), min(zs)), (max(xs), max(ys), max(zs))
        return self._ends


def axes_of(word: str) -> Tuple[Whole, Whole, Whole]:
    """The axes that a word such as `-Z+Y+X` names."""
    found = [
        tuple((1 if sign == "+" else -1) * (axis == name) for name in "XYZ")
        for sign, axis in zip(word[::2], word[1::2])
    ]
    return found[0], found[1], found[2]  # type: ignore[return-value]


def over_one(numbers: Sequence[Fraction]) -> int:
    """The least denominator of all."""
    one = 1
    for number in numbers:
        one = one * number.denominator // gcd(one, number.denominator)
    return one


@lru_cache(maxsize=None)
def form_of(kind: str, word: str, *sizes: str) -> Form:
    """The form of a solid in a scope, by the words that tell it."""
    size = Fraction(sizes[0]), Fraction(sizes[1]), Fraction(sizes[2])
    ridge, axes = ridge_of(kind, size), axes_of(word)
    local = [tuple(map(Fraction, corner)) for corner in corners(kind, ridge, size)]
    one = over_one([part for corner in local for part in corner])
    turned = tuple(turn([int(part * one) for part in corner], axes) for corner in local)
    return Form(FACES_FROM_0[kind, ridge], turned, one, Scope(kind, ridge, word, axes, size, " ".join((word, *sizes))))


def turn(corner: Sequence[int], axes: Sequence[Whole]) -> Whole:
    """A corner told along the axes, as the world has it."""
    x, y, z = (sum(part * axis[k] for part, axis in zip(corner, axes)) for k in range(3))
    return x, y, z
