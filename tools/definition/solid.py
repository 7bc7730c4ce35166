"""Vertices and faces of the solids."""
from dataclasses import dataclass
from typing import Tuple

from .fault import Fault
from .fraction import checked
from .frame import checked_point, world_point

RIDGE_ALONG_X = ((4, 3, 6, 5), (3, 2, 6), (2, 1, 5, 6), (1, 4, 5), (1, 2, 3, 4))
RIDGE_ALONG_Z = ((4, 3, 6), (3, 2, 5, 6), (2, 1, 5), (1, 4, 6, 5), (1, 2, 3, 4))
FACES = {
    "cube": ((4, 3, 7, 8), (3, 2, 6, 7), (2, 1, 5, 6), (1, 4, 8, 5), (8, 7, 6, 5), (1, 2, 3, 4)),
    "shed": ((4, 3, 5, 6), (3, 2, 5), (2, 1, 6, 5), (1, 4, 6), (1, 2, 3, 4)),
    "gable along x": RIDGE_ALONG_X,
    "gable along z": RIDGE_ALONG_Z,
    "hip along x": RIDGE_ALONG_X,
    "hip along z": RIDGE_ALONG_Z,
    "pyramid": ((4, 3, 5), (3, 2, 5), (2, 1, 5), (1, 4, 5), (1, 2, 3, 4)),
    "quad": ((1, 2, 3, 4),),
}


@dataclass(frozen=True)
class SolidMesh:
    """Vertices, and faces by the numbers of their vertices, from 1."""

    vertices: Tuple
    faces: Tuple


def form_of(primitive, size):
    w, _, d = size
    if primitive == "gable":
        return "gable along x" if w >= d else "gable along z"
    if primitive == "hip":
        return "hip along x" if w > d else "hip along z" if w < d else "pyramid"
    return primitive


def half_of(a):
    return checked(a / 2)


def further_corners_of(form, size):
    """The corners above the base."""
    w, h, d = size
    if form == "cube":
        return [(0, h, 0), (w, h, 0), (w, h, d), (0, h, d)]
    if form == "shed":
        return [(w, h, d), (0, h, d)]
    half = half_of(d if form.endswith("along x") else w)
    if form == "gable along x":
        return [(0, h, half), (w, h, half)]
    if form == "gable along z":
        return [(half, h, 0), (half, h, d)]
    if form == "hip along x":
        return [(half, h, half), (checked(w - half), h, half)]
    if form == "hip along z":
        return [(half, h, half), (half, h, checked(d - half))]
    return [(half, h, half)]


def corners_of(form, size):
    w, h, d = size
    if form == "quad":
        return [(0, 0, 0), (w, 0, 0), (w, h, 0), (0, h, 0)]
    return [(0, 0, 0), (w, 0, 0), (w, 0, d), (0, 0, d)] + further_corners_of(form, size)


def lacks_size(primitive, size):
    """A size that the solid needs is 0: a quad needs no depth."""
    return any(extent == 0 for extent in (size[:2] if primitive == "quad" else size))


def mesh_of(primitive, scope):
    if lacks_size(primitive, scope.size):
        raise Fault("FlatScope")
    form = form_of(primitive, scope.size)
    corners = corners_of(form, scope.size)
    return SolidMesh(tuple(checked_point(world_point(scope.at, scope.frame, at)) for at in corners), FACES[form])


def check_solid_of(primitive, scope):
    """Refused as its mesh is."""
    mesh_of(primitive, scope)
