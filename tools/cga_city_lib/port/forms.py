"""The form that a shape is drawn as, and the items that draw it.

A CGA shape has a geometry, which a leaf draws. Here it is one of these forms, of which a rule of a script draws one by `I`:

    ground   a rectangle on the ground: the scope is flat along Y
    face     a side of a box: the scope is flat along Z, which points outwards
    top      the same with Z upwards
    edge     a line
    box      a box
    gable, hip, shed   a roof, with its rise
    mesh     the mesh of a file
"""
from typing import NamedTuple

from .look import PLAIN, Look


class State(NamedTuple):
    """The form of a shape, how it rises and which mesh it is; whether a flat one has a depth; and its look."""

    form: str
    rise: str = ""
    is_deep: bool = False
    look: Look = PLAIN


ROOFS = ("gable", "hip", "shed")
FLAT = ("face", "top")
TO_GROUND = "T(0, Scope.sy, 0) Rx(90) S(1r, 0, Scope.sy)"  # from a face: Y is upwards then
TO_FACE = "T(0, 0, Scope.sz) Rx(-90) S(1r, Scope.sz, 0)"  # from the ground: Z is upwards then
DEPTH = "S(1r, 1r, 0.1)"
AREAS = {"ground": "(Scope.sx * Scope.sz)", **dict.fromkeys(FLAT, "(Scope.sx * Scope.sy)")}


def drawn(state: State) -> str:
    """The items that draw a shape of a form, but a roof's and a mesh's, which have symbols of their own."""
    if state.form == "ground":
        return f'{TO_FACE} I("quad")'
    return 'I("quad")' if state.form in FLAT else "" if state.form == "edge" else 'I("cube")'
