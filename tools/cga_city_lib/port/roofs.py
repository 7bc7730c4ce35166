"""Roofs: an angle in the file, a height in a script, which follows from the shorter side."""
import math
from fractions import Fraction
from typing import List, Tuple

from .forms import FLAT, TO_GROUND
from .lost import Lost
from .tree import Name, Number, Operation, Value
from .values import ATOM, six
from .walk import Walk

ON_TOP = ["T(0, Scope.sy, 0)", "S(1r, 0, 1r)"]


def tangent(walk: Walk, angle: Value, part: Fraction) -> str:
    """A part of the angle's tangent, as an attribute of its own where the angle is one."""
    known = walk.context.port.known
    degrees = known.settled(angle, True)
    if not isinstance(degrees, Fraction) or not 0 < degrees < 90:
        raise Lost("the angle isn't known before a run")
    value = six(float(part) * math.tan(math.radians(degrees)))
    if not isinstance(angle, Name) or known.attributes[angle.name].is_constant:
        return walk.writer.number(Number(value))
    return walk.context.port.rise(f"{angle.name}_rise", value, f"{angle.name} is {float(degrees):g} degrees")


def grown(walk: Walk, overhang: List[Value]) -> None:
    """The base of the roof, level and with its overhangs."""
    if walk.state.form in FLAT:
        walk.move(TO_GROUND)
    elif walk.state.form == "box" and walk.moves[-2:] != ON_TOP:
        walk.move(*ON_TOP)
    known = walk.context.port.known
    out = [known.settled(value) for value in overhang]
    if not overhang or all(part == 0 for part in out):
        return
    written = [walk.writer.written(value) for value in (overhang * 2)[:2]]
    once = [part.at(ATOM) for part in written]
    walk.move(f"T(-{once[0]}, 0, -{once[1]})", f"S(Scope.sx + 2 * {once[0]}, 1r, Scope.sz + 2 * {once[1]})")


def roof(walk: Walk, item: Operation) -> None:
    """roofGable(angle, overhang, overhang) and roofHip(angle, overhang)."""
    if not item.args:
        raise Lost("it has no angle")
    form, most = ("gable", 2) if item.name == "roofGable" else ("hip", 1)
    by, args = measured(item.args)
    rise = "" if by == "byHeight" else tangent(walk, args[0], Fraction(1, 2))
    overhang = [arg for arg in args[1 : 1 + most] if not is_flag(arg)]
    grown(walk, overhang)
    if by == "byHeight":
        walk.move(f"S(1r, {walk.writer.number(args[0])}, 1r)")
    made(walk, form, rise)
    if any(not is_flag(arg) for arg in args[1 + most :]):
        walk.nearly(item, "the ridge runs along the longer side")


def measured(args: List[Value]) -> Tuple[str, List[Value]]:
    """How a roof is measured, `byAngle` or `byHeight`, and the other values."""
    name = args[0].name if isinstance(args[0], Name) else ""
    return (name, args[1:]) if name in ("byAngle", "byHeight") and args[1:] else ("byAngle", args)


def is_flag(value: Value) -> bool:
    return isinstance(value, Name) and value.name in ("true", "false")


def pyramid(walk: Walk, item: Operation) -> None:
    rise = tangent(walk, item.args[0], Fraction(1, 2)) if item.args else "0.5"
    grown(walk, [])
    made(walk, "hip", rise)
    walk.nearly(item, "a hip roof, which has a ridge where the sides differ")


def shed(walk: Walk, item: Operation) -> None:
    if not item.args:
        raise Lost("it has no angle")
    rise = tangent(walk, item.args[0], Fraction(1))
    grown(walk, [])
    made(walk, "shed", rise)
    walk.nearly(item, "a shed rises towards the front")


def taper(walk: Walk, item: Operation) -> None:
    """A pyramid of that height."""
    if len(item.args) != 1:
        raise Lost("a solid here narrows to a point or to a ridge")
    height = walk.writer.number(item.args[0])
    grown(walk, [])
    walk.move(f"S(1r, {height}, 1r)")
    made(walk, "hip", "")
    walk.nearly(item, "a hip roof, which has a ridge where the sides differ")


def made(walk: Walk, form: str, rise: str) -> None:
    walk.state, walk.is_due = walk.state._replace(form=form, rise=rise, is_deep=False), True
