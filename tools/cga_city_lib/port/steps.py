"""An operation each: moves, sizes, turns, extrusions, colours, meshes."""
from fractions import Fraction
from typing import Callable, Dict, List, Tuple

from .forms import DEPTH, FLAT, TO_GROUND
from .look import PLAIN, colour_of, picture_of
from .lost import Lost
from .reports import report
from .roofs import pyramid, roof, shed, taper
from .sizes import length_of
from .tree import Item, Name, Number, Operation, Unary, Value
from .values import PRODUCT
from .walk import Walk

AXES = "xyz"
TURNED = {  # about the middle, by the turn
    90: "T((Scope.sx - Scope.sz) / 2, 0, (Scope.sx + Scope.sz) / 2) Ry(90)",
    180: "T(Scope.sx, 0, Scope.sz) Ry(180)",
    270: "T((Scope.sx + Scope.sz) / 2, 0, (Scope.sz - Scope.sx) / 2) Ry(270)",
}
NOTHING_TO_DO = {
    **dict.fromkeys(("print", "label"), "tools/lint and `trace` tell what is done"),
    **dict.fromkeys(
        ("setupProjection", "projectUV", "tileUV", "deleteUV", "normalizeUV", "translateUV", "scaleUV", "rotateUV"),
        "a texture runs on over each face by its own size",
    ),
    **dict.fromkeys(
        ("cleanupGeometry", "convexify", "rectify", "reduceGeometry", "setNormals", "softenNormals", "deleteHoles"),
        "each solid is clean",
    ),
    **dict.fromkeys(("alignScopeToAxes", "alignScopeToGeometry"), "a lot lies level, with Y upwards"),
    **dict.fromkeys(("setPivot", "trim", "envelope", "inline"), "nothing here corresponds to it"),
    **dict.fromkeys(("innerRect", "innerRectangle"), "a lot is a rectangle"),
}
NO_COUNTERPART = {
    "scatter": "put some shapes by T(rand(0, Scope.sx, 100), 0, rand(0, Scope.sz, 100))",
    "mirror": "turn the shape, or write its splits in the other order",
    "insertAlongUV": "put the mesh by a split",
    "shapeL": "cut the lot by two Subdivs",
    "shapeU": "cut the lot by Subdivs",
}


def no_step(walk: Walk, item: Operation) -> None:
    if item.name.startswith("primitive"):
        return primitive(walk, item)
    raise Lost(reason_of(item.name))


def reason_of(name: str) -> str:
    """Why an operation has no counterpart, or what comes near to it."""
    return NOTHING_TO_DO.get(name) or NO_COUNTERPART.get(name) or "a script has no such operation"


def sized(walk: Walk, args: List[Value]) -> List[str]:
    """Three sizes of S: a share of the scope by an `r`."""
    found = []
    for axis, arg in zip(AXES, args):
        inner = arg.value if isinstance(arg, Unary) and arg.sign in "'~" else None
        share = None if inner is None else walk.context.port.known.settled(inner)
        is_short = isinstance(share, Fraction) and share >= 0 and (share * 10**6).denominator == 1
        found.append(f"{walk.writer.number(Number(share))}r" if is_short else walk.writer.number(length_of(arg, axis)))
    return found


def deep(walk: Walk, sizes: List[str]) -> bool:
    """Whether a flat shape has a depth after these sizes."""
    at = 1 if walk.state.form == "ground" else 2
    return walk.state.is_deep or sizes[at] not in ("0", "0r") and not sizes[at].endswith("r")


def resize(walk: Walk, item: Operation) -> None:
    need(item, 3)
    sizes = proportioned(walk, sized(walk, item.args))
    walk.state = walk.state._replace(is_deep=deep(walk, sizes))
    if sizes != ["1r", "1r", "1r"]:
        walk.move(f"S({', '.join(sizes)})")


def proportioned(walk: Walk, sizes: List[str]) -> List[str]:
    """Sizes of 0, by which CityEngine takes the proportions of what is inserted: here those of a cube."""
    some = [size for size in sizes if size != "0"]
    return [some[0] if size == "0" else size for size in sizes] if len(some) == 1 else sizes


def need(item: Operation, number: int) -> None:
    if len(item.args) != number:
        raise Lost(f"it takes {number} values")


def move(walk: Walk, item: Operation) -> None:
    need(item, 3)
    by = [walk.writer.number(length_of(arg, axis)) for axis, arg in zip(AXES, item.args)]
    if by != ["0", "0", "0"]:
        walk.move(f"T({', '.join(by)})")


def centred(walk: Walk, item: Item, rest: List[Item]) -> bool:
    """Does `s(..) center(..)`: the move comes first, since it needs the size from before."""
    follows = rest[0] if rest else None
    if not (isinstance(item, Operation) and item.name == "s" and isinstance(follows, Operation)):
        return False
    if follows.name != "center" or len(follows.args) != 1 or not isinstance(follows.args[0], Name):
        return False
    by = [gap(walk, axis, arg) if axis in follows.args[0].name else "0" for axis, arg in zip(AXES, item.args)]
    walk.move(f"T({', '.join(by)})")
    resize(walk, item)
    return True


def gap(walk: Walk, axis: str, size: Value) -> str:
    """Half of what a size leaves of the scope along an axis."""
    inner = size.value if isinstance(size, Unary) and size.sign == "'" else None
    share = None if inner is None else walk.context.port.known.settled(inner)
    if isinstance(share, Fraction):
        half = (1 - share) / 2
        return "0" if half == 0 else f"{walk.writer.number(Number(half))} * Scope.s{axis}"
    return f"(Scope.s{axis} - {walk.writer.written(length_of(size, axis)).at(PRODUCT)}) / 2"


def turn(walk: Walk, item: Operation) -> None:
    about = item.args[0].name if item.args and isinstance(item.args[0], Name) else ""
    angles = [
        walk.context.port.known.settled(arg, True) for arg in item.args[about in ("scopeCenter", "scopeOrigin") :]
    ]
    if len(angles) != 3 or not all(isinstance(angle, Fraction) and angle % 90 == 0 for angle in angles):
        raise Lost("a turn is by 90, 180 or 270 degrees")
    turns = [(axis, int(angle) % 360) for axis, angle in zip(AXES, angles) if angle % 360]
    if len(turns) > 1 or about == "scopeCenter" and turns and turns[0][0] != "y":
        raise Lost("write one turn after the other, each by Rx, Ry or Rz")
    for axis, angle in turns:
        walk.move(TURNED[angle] if about == "scopeCenter" else f"R{axis}({angle})")


def extrude(walk: Walk, item: Operation) -> None:
    """A ground or a top rises along Y, any other side along its Z."""
    height = walk.context.port.known.settled(item.args[-1]) if item.args else None
    if not item.args:
        raise Lost("it has no height")
    text = walk.writer.number(item.args[-1])
    is_back = isinstance(height, Fraction) and height < 0
    size = text[1:] if is_back else text
    if walk.state.form == "top":
        turned = TO_GROUND.replace("S(1r, 0,", f"S(1r, {size},")
        walk.move(turned.replace(" S(", f" T(0, {text}, 0) S(") if is_back else turned)
    elif walk.state.form == "ground":
        walk.move(*[f"T(0, {text}, 0)"] * is_back, f"S(1r, {size}, 1r)")
    elif walk.state.form == "face":
        walk.move(*[f"T(0, 0, {text})"] * is_back, f"S(1r, 1r, {size})")
    else:
        walk.move(f"S(1r, Scope.sy + {text}, 1r)")
        walk.nearly(item, "a solid grows upwards alone")
    walk.state, walk.is_due = walk.state._replace(form="box", is_deep=False), True


def colour(walk: Walk, item: Operation) -> None:
    walk.state = walk.state._replace(
        look=walk.state.look._replace(colour=colour_of(walk.context.port.known, item.args))
    )


def texture(walk: Walk, item: Operation) -> None:
    if not item.args:
        raise Lost("it names no picture")
    picture = picture_of(walk.context.port.known, item.args[0])
    walk.state = walk.state._replace(look=walk.state.look._replace(texture=picture))


def setting(walk: Walk, item: Operation) -> None:
    """`set` of a colour or a texture, or of an attribute that is handed on from here."""
    need(item, 2)
    name = item.args[0].name if isinstance(item.args[0], Name) else ""
    if name == "material.colormap":
        return texture(walk, Operation("texture", item.args[1:], item.line))
    if name.startswith("material."):
        raise Lost("materials go by symbol, outside of a script")
    if name not in walk.context.port.carried.names:
        raise Lost("a text or a value that is set has no effect on what stands below")
    walk.here = {**walk.here, name: walk.writer.written(item.args[1]).at(PRODUCT)}


def primitive(walk: Walk, item: Operation) -> None:
    if item.name not in ("primitiveCube", "primitiveQuad"):
        walk.nearly(item, "a box stands for it")
    form = "face" if item.name == "primitiveQuad" else "box"
    filled(walk, form)


def filled(walk: Walk, form: str) -> None:
    """The shape is a box from here on, which needs a depth."""
    if form == "box" and walk.state.form in (*FLAT, "ground") and not walk.state.is_deep:
        walk.move("S(1r, 0.1, 1r)" if walk.state.form == "ground" else DEPTH)
    walk.state, walk.is_due = walk.state._replace(form=form, is_deep=False, rise=""), True


def insert(walk: Walk, item: Operation) -> None:
    name = walk.writer.named_text(item.args[0]) if item.args else None
    if name is None:
        raise Lost("the name of the file isn't known before a run")
    if name.startswith("builtin:"):
        return filled(walk, "face" if "quad" in name else "box")
    try:
        mesh, depth = walk.context.port.meshes.named(name)
    except Lost as fault:
        walk.nearly(item, f"{fault}: a box stands for it")
        return filled(walk, "box")
    if walk.state.form in FLAT and not walk.state.is_deep:
        walk.move(f"S(1r, 1r, {depth} * Scope.sx)")
    # a mesh has looks of its own
    walk.state, walk.is_due = walk.state._replace(form="mesh", rise=mesh, is_deep=False, look=PLAIN), True


def offset(walk: Walk, item: Operation) -> None:
    """`offset(-d)`: the shape without a border."""
    by = walk.context.port.known.settled(item.args[0]) if item.args else None
    if not item.args or isinstance(by, Fraction) and by > 0:
        raise Lost("a shape grows by T and S: T(-d, 0, -d) S(Scope.sx + 2 * d, 1r, Scope.sz + 2 * d)")
    out, twice = inset(walk, item.args[0])
    walk.move(*shrunk(walk.state.form, out, twice))


def inset(walk: Walk, value: Value) -> Tuple[str, str]:
    """How far a border reaches inwards, once and twice."""
    inner = value.value if isinstance(value, Unary) and value.sign == "-" else Unary("-", value)
    settled = walk.context.port.known.settled(inner)
    if isinstance(settled, Fraction):
        return walk.writer.number(Number(settled)), walk.writer.number(Number(2 * settled))
    written = walk.writer.written(inner)
    return written.text, f"2 * {written.at(PRODUCT + 1)}"


def shrunk(form: str, out: str, twice: str) -> List[str]:
    if form in FLAT:
        return [f"T({out}, {out}, 0)", f"S(Scope.sx - {twice}, Scope.sy - {twice}, 1r)"]
    return [f"T({out}, 0, {out})", f"S(Scope.sx - {twice}, 1r, Scope.sz - {twice})"]


STEPS: Dict[str, Callable] = {
    "s": resize,
    "t": move,
    "r": turn,
    "translate": lambda walk, item: move(walk, Operation("t", item.args[-3:], item.line, item.written)),
    "extrude": extrude,
    "color": colour,
    "texture": texture,
    "set": setting,
    "report": report,
    "i": insert,
    "offset": offset,
    "roofGable": roof,
    "roofHip": roof,
    "roofPyramid": pyramid,
    "roofShed": shed,
    "taper": taper,
}
