"""Where each solid of a town stands: its corner, the turn of its scope, and its sizes, as exact as they were told."""
import math
from fractions import Fraction
from functools import lru_cache
from typing import Iterator, List, NamedTuple, Sequence, Tuple

from .call import Refused
from .eye import cross, dot, unit
from .forms import FACES_FROM_0, Form
from .instances import Instance, Lots

SOLIDS = {faces: solid for solid, faces in reversed(list(FACES_FROM_0.items()))}
Vector = Tuple[float, float, float]
Exact = Tuple[Fraction, Fraction, Fraction]


class Stand(NamedTuple):
    """The scope of a form: the axes are its X, Y and Z in the world."""

    kind: str
    ridge: str
    axes: Tuple[Vector, Vector, Vector]
    size: Exact


class Place(NamedTuple):
    lot: str
    number: int
    symbol: str
    kind: str
    ridge: str
    corner: Exact
    axes: Tuple[Vector, Vector, Vector]
    size: Exact


class NoScope(Exception):
    """The form was drawn into no scope, with what it is."""


def places(lots: Lots) -> Iterator[Place]:
    """The place of each solid, lot by lot, in the order in which they are drawn."""
    for lot, instances in lots.items():
        for number, instance in enumerate(instances):
            yield place(lot, number, instance)


def place(lot: str, number: int, instance: Instance) -> Place:
    stand, (x, y, z) = stand_of(lot, number, instance.form), instance.corner
    corner = Fraction(x), Fraction(y), Fraction(z)
    return Place(lot, number, instance.symbol, stand.kind, stand.ridge, corner, stand.axes, stand.size)


def stand_of(lot: str, number: int, form: Form) -> Stand:
    try:
        return stand(form)
    except NoScope as why:
        raise Refused(f"solid {number} of lot `{lot}` is {why}") from None


@lru_cache(maxsize=None)
def stand(form: Form) -> Stand:
    if form.scope:
        return Stand(form.scope.kind, form.scope.ridge, form.scope.axes, form.scope.size)
    found = SOLIDS.get(form.faces)
    if found is None:
        raise NoScope(
            "none that `print` draws, so it has no scope: "
            "take what a run printed by `print`, not by `model`, and not what tools/merge wrote"
        )
    kind, ridge = found
    edges = edges_of(form, kind)
    axes = axes_of(edges, kind)
    w, h, d = (along(edge, axis) for edge, axis in zip(edges, axes))
    if kind == "quad":
        d = Fraction(0)
    if min(w, h, d) < 0:
        raise NoScope("a mirror image of one that `print` draws")
    if kind in ("gable", "hip") and ridge:
        over = along(edges[1], axes[2 if ridge == "z" else 0])
        kind = "hip" if 4 * over > (w if ridge == "z" else d) else "gable"
    return Stand(kind, ridge, axes, (w, h, d))


def edges_of(form: Form, kind: str) -> List[Exact]:
    """From the first corner the edges along X, up to the height, and along Z; a quad has none along Z."""
    ends = [form.corners[at] for at in ((1, 3) if kind == "quad" else (1, 4, 3))]
    edges = [(Fraction(x, form.one), Fraction(y, form.one), Fraction(z, form.one)) for x, y, z in ends]
    return [*edges, (Fraction(0), Fraction(0), Fraction(0))][:3]


def axes_of(edges: Sequence[Exact], kind: str) -> Tuple[Vector, Vector, Vector]:
    """Three axes upright on each other, by the longer two of the edges; the second edge of a roof leans, and counts last."""
    floats = [tuple(map(float, edge)) for edge in edges]
    is_last = [dot(edge, edge) == 0 or axis == 1 and kind not in ("cube", "quad") for axis, edge in enumerate(floats)]
    first, second, third = sorted(range(3), key=lambda axis: (is_last[axis], -dot(floats[axis], floats[axis])))
    axes = {first: unit(floats[first])}
    axes[second] = upright(floats[second], axes[first])
    axes[third] = cross(axes[(third + 1) % 3], axes[(third + 2) % 3])
    return axes[0], axes[1], axes[2]


def upright(edge: Sequence[float], axis: Vector) -> Vector:
    """The direction of an edge without its part along an axis; any, where the edge is so short that it was printed as a point."""
    for direction in (edge, (0.0, 1.0, 0.0), (0.0, 0.0, 1.0)):
        part = dot(direction, axis)
        rest = tuple(a - part * b for a, b in zip(direction, axis))
        if dot(rest, rest) > 0:
            return unit(rest)
    raise AssertionError("two directions can't both lie along one axis")


def along(edge: Exact, axis: Vector) -> Fraction:
    """How far an edge goes along an axis: exact where that is one of the world's."""
    if all(part in (-1, 0, 1) for part in axis):
        return sum((int(part) * step for part, step in zip(axis, edge)), Fraction(0))
    return Fraction(f"{dot(tuple(map(float, edge)), axis):.9f}")


def quaternion(axes: Sequence[Vector]) -> Tuple[float, ...]:
    """The turn that takes the world's axes to these, as (x, y, z, w) with w at least 0."""
    (a, d, g), (b, e, h), (c, f, i) = axes
    if a + e + i > 0:
        s = 2 * math.sqrt(a + e + i + 1)
        turn = (h - f) / s, (c - g) / s, (d - b) / s, s / 4
    elif a >= e and a >= i:
        s = 2 * math.sqrt(1 + a - e - i)
        turn = s / 4, (b + d) / s, (c + g) / s, (h - f) / s
    elif e >= i:
        s = 2 * math.sqrt(1 + e - a - i)
        turn = (b + d) / s, s / 4, (f + h) / s, (c - g) / s
    else:
        s = 2 * math.sqrt(1 + i - a - e)
        turn = (c + g) / s, (f + h) / s, s / 4, (d - b) / s
    return tuple(-part for part in turn) if turn[3] < 0 else turn
