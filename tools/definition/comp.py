"""Faces, edges and vertices of a scope, as scopes."""
from .fault import Fault
from .fraction import ZERO
from .frame import X, Y, Z, Scope, opposite, world_point

SIDES = ("front", "right", "back", "left", "top", "bottom")


def face_of(scope, side):
    """The third size is 0, and Z points outwards."""
    x, y, z = scope.frame
    w, h, d = scope.size
    at, frame, size = {
        "front": ((0, 0, d), (x, y, z), (w, h)),
        "right": ((w, 0, d), (opposite(z), y, x), (d, h)),
        "back": ((w, 0, 0), (opposite(x), y, opposite(z)), (w, h)),
        "left": ((0, 0, 0), (z, y, opposite(x)), (d, h)),
        "top": ((0, h, d), (x, opposite(z), y), (w, d)),
        "bottom": ((0, 0, 0), (x, z, opposite(y)), (w, d)),
    }[side]
    return Scope(world_point(scope.at, scope.frame, at), frame, (*size, ZERO))


def ends(size):
    """The offsets along an axis: low and high, or low alone where it is flat."""
    return (0,) if size == 0 else (0, size)


def edges_along(scope, axis):
    """For each pair of offsets of the two other axes; none along a flat axis."""
    if scope.size[axis] == 0:
        return []
    x, y, z = scope.frame
    w, h, d = map(ends, scope.size)
    if axis == X:
        places, frame = [(0, b, c) for b in h for c in d], (x, y, z)
    elif axis == Y:
        places, frame = [(a, 0, c) for a in w for c in d], (y, opposite(x), z)
    else:
        places, frame = [(a, b, 0) for a in w for b in h], (z, y, opposite(x))
    return [Scope(world_point(scope.at, scope.frame, at), frame, (scope.size[axis], ZERO, ZERO)) for at in places]


def edges(scope):
    return edges_along(scope, X) + edges_along(scope, Y) + edges_along(scope, Z)


def vertices(scope):
    w, h, d = map(ends, scope.size)
    places = [(a, b, c) for a in w for b in h for c in d]
    return [Scope(world_point(scope.at, scope.frame, at), scope.frame, (ZERO, ZERO, ZERO)) for at in places]


def components_of(scope, selector):
    """By a kind, and a side or a number where the kind wants one; FlatScope where the scope lacks it."""
    kind, which = selector
    flat = sum(size == 0 for size in scope.size)
    if flat > (0 if kind in ("faces", "sidefaces", "face") else 1):
        raise Fault("FlatScope")
    if kind == "faces":
        return [face_of(scope, side) for side in SIDES]
    if kind == "sidefaces":
        return [face_of(scope, side) for side in SIDES[:4]]
    if kind == "face":
        return [face_of(scope, which)]
    if kind == "vertices":
        return vertices(scope)
    if kind == "edges":
        return edges(scope)
    if which > len(edges(scope)):
        raise Fault("FlatScope")
    return [edges(scope)[which - 1]]
