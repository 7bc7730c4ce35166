"""The solids that rules draw: the corners and faces of each, as docs/LANGUAGE.md lists them.

A solid is a kind and the way of its ridge: `x` or `z`, along the scope's own axis, and else "". A hip without a ridge ends
in a point. The way is told beside the sizes, since sizes that were rounded don't tell the longer one.
"""
from typing import Tuple

Point = Tuple[float, float, float]

FACES = {  # corners from 1, counter-clockwise as seen from outside
    ("cube", ""): ((4, 3, 7, 8), (3, 2, 6, 7), (2, 1, 5, 6), (1, 4, 8, 5), (8, 7, 6, 5), (1, 2, 3, 4)),
    ("shed", ""): ((4, 3, 5, 6), (3, 2, 5), (2, 1, 6, 5), (1, 4, 6), (1, 2, 3, 4)),
    ("gable", "x"): ((4, 3, 6, 5), (3, 2, 6), (2, 1, 5, 6), (1, 4, 5), (1, 2, 3, 4)),
    ("gable", "z"): ((4, 3, 6), (3, 2, 5, 6), (2, 1, 5), (1, 4, 6, 5), (1, 2, 3, 4)),
    ("hip", "x"): ((4, 3, 6, 5), (3, 2, 6), (2, 1, 5, 6), (1, 4, 5), (1, 2, 3, 4)),
    ("hip", "z"): ((4, 3, 6), (3, 2, 5, 6), (2, 1, 5), (1, 4, 6, 5), (1, 2, 3, 4)),
    ("hip", ""): ((4, 3, 5), (3, 2, 5), (2, 1, 5), (1, 4, 5), (1, 2, 3, 4)),
    ("quad", ""): ((1, 2, 3, 4),),
}
# which solid has these faces; a gable and a hip share theirs, and are told apart by where the ridge begins
SOLIDS = {faces: solid for solid, faces in reversed(list(FACES.items()))}


def top(kind: str, ridge: str, size: Point) -> Tuple[Point, ...]:
    """The corners above the base."""
    w, h, d = size
    if kind == "cube":
        return (0, h, 0), (w, h, 0), (w, h, d), (0, h, d)
    if kind == "shed":
        return (w, h, d), (0, h, d)
    inset = 0 if kind == "gable" else (d if ridge == "x" else w) / 2
    if ridge == "x":
        return (inset, h, d / 2), (w - inset, h, d / 2)
    if ridge == "z":
        return (w / 2, h, inset), (w / 2, h, d - inset)
    return ((w / 2, h, d / 2),)


def corners(kind: str, ridge: str, size: Point) -> Tuple[Point, ...]:
    """The corners in a scope of this size, in the order in which `print` writes them."""
    w, h, d = size
    if kind == "quad":
        return (0, 0, 0), (w, 0, 0), (w, h, 0), (0, h, 0)
    return ((0, 0, 0), (w, 0, 0), (w, 0, d), (0, 0, d), *top(kind, ridge, size))


def ridge_of(kind: str, size: Point) -> str:
    """The way of the ridge of a solid whose sizes are exact."""
    w, _, d = size
    if kind == "gable":
        return "x" if w >= d else "z"
    if kind == "hip":
        return "x" if w > d else "z" if w < d else ""
    return ""
