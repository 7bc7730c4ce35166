"""Scopes, which are oriented boxes, and their boxes in the world."""
from dataclasses import dataclass
from functools import cached_property
from typing import Tuple

from .fault import Fault
from .fraction import in_range

X, Y, Z = 0, 1, 2
AXES = (X, Y, Z)
# a direction is a world axis and 1, or -1 where it goes against it; a frame is the directions of X, Y and Z
BASE_FRAME = ((X, 1), (Y, 1), (Z, 1))


def opposite(direction):
    return (direction[0], -direction[1])


def quarter(frame, axis):
    """A turn by 90 degrees about an own axis."""
    x, y, z = frame
    if axis == X:
        return (x, z, opposite(y))
    if axis == Y:
        return (opposite(z), y, x)
    return (y, opposite(x), z)


def turned(frame, axis, by):
    """A turn by 0, 90, 180 or 270 degrees."""
    for _ in range(by // 90):
        frame = quarter(frame, axis)
    return frame


def moved_along(at, direction, by):
    """A point moved along one direction."""
    if not by:
        return at
    axis, sign = direction
    world = list(at)
    world[axis] = world[axis] + by if sign == 1 else world[axis] - by
    return tuple(world)


def world_point(at, frame, local):
    """The world point of local coordinates."""
    for direction, by in zip(frame, local):
        at = moved_along(at, direction, by)
    return at


def point_in_range(point):
    return all(in_range(coordinate) for coordinate in point)


def checked_point(point):
    if not point_in_range(point):
        raise Fault("Overflow")
    return point


@dataclass(frozen=True)
class Box:
    low: Tuple
    high: Tuple


@dataclass(frozen=True)
class Scope:
    """A position, a frame, and a size along each axis of the frame."""

    at: Tuple
    frame: Tuple
    size: Tuple

    @cached_property
    def far(self):
        return far_of(self)

    @cached_property
    def box(self):
        return box_of(self)


def far_of(scope):
    """The corner opposite to the position."""
    return world_point(scope.at, scope.frame, scope.size)


def box_of(scope):
    return Box(tuple(map(min, scope.at, scope.far)), tuple(map(max, scope.at, scope.far)))


def existing(scope):
    """The scope, or Overflow where a coordinate of its box leaves the range."""
    if not (point_in_range(scope.at) and point_in_range(scope.far)):
        raise Fault("Overflow")
    return scope


def scope_of(at, frame, size):
    if any(extent < 0 for extent in size):
        raise Fault("NegativeSize")
    return existing(Scope(at, frame, size))


def translated(scope, by):
    return existing(Scope(world_point(scope.at, scope.frame, by), scope.frame, scope.size))


def turned_scope(scope, axis, by):
    return existing(Scope(scope.at, turned(scope.frame, axis, by), scope.size))


def part_of(scope, axis, start, length):
    """Moved along an axis, with that length along it."""
    size = tuple(length if each == axis else scope.size[each] for each in AXES)
    return existing(Scope(moved_along(scope.at, scope.frame[axis], start), scope.frame, size))


def along_meets(low, high, lower, upper):
    """The relative interiors share a point: they overlap, or they are one, as where both are flat."""
    return low < upper and lower < high or low == lower and high == upper


def along_holds(low, high, lower, upper):
    return low <= lower and upper <= high


def meets(a, b):
    return (
        along_meets(a.low[X], a.high[X], b.low[X], b.high[X])
        and along_meets(a.low[Y], a.high[Y], b.low[Y], b.high[Y])
        and along_meets(a.low[Z], a.high[Z], b.low[Z], b.high[Z])
    )


def holds(a, b):
    """Each point of b lies in a."""
    return (
        along_holds(a.low[X], a.high[X], b.low[X], b.high[X])
        and along_holds(a.low[Y], a.high[Y], b.low[Y], b.high[Y])
        and along_holds(a.low[Z], a.high[Z], b.low[Z], b.high[Z])
    )
