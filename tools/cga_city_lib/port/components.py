"""Operations with bodies for what they make: faces and edges, borders and setbacks."""
from typing import Callable, Dict, List, Tuple

from .forms import FLAT, ROOFS, TO_FACE
from .lost import Lost
from .steps import inset, reason_of, shrunk
from .tree import Body, Name, Selected, Taken
from .walk import Walk

SIDES = ["front", "right", "back", "left"]
FACES = [*SIDES, "top", "bottom"]
SELECTED = {
    **{face: [face] for face in FACES},
    "side": SIDES,
    "vertical": SIDES,
    "all": FACES,
    "horizontal": ["top", "bottom"],
    "south": ["front"],
    "east": ["right"],
    "north": ["back"],
    "west": ["left"],
}
PREFIXES = ("object.", "scope.", "world.", "street.")
ROOF_PLANES = ("aslant", "nutant", "top", "all", "side", "vertical")
STRIPS = {"front": ["front"], "back": ["back"], "left": ["left"], "right": ["right"], "side": ["left", "right"]}
STRIPS["all"] = SIDES
STRIPS["border"] = SIDES


def plain(selector: str) -> str:
    """The selector without the coordinates that it is meant in."""
    for prefix in PREFIXES:
        if selector.startswith(prefix):
            return selector[len(prefix) :]
    return selector


def no_taken(walk: Walk, item: Taken) -> None:
    raise Lost(reason_of(item.name))


def comp(walk: Walk, item: Taken) -> None:
    kind = item.args[0].name if item.args and isinstance(item.args[0], Name) else ""
    if kind in ("e", "v") and walk.state.form == "box":
        return lines(walk, item, kind)
    if any(selected.is_joined for selected in item.selected):
        walk.nearly(item, "faces that are joined by = are taken one by one")
    if kind not in ("f", "fe"):
        raise Lost("a scope has faces, edges and vertices alone")
    if walk.state.form in ROOFS:
        return roof_planes(walk, item)
    if walk.state.form == "box":
        return faces(walk, item)
    if walk.state.form not in (*FLAT, "ground"):
        raise Lost("a mesh and a line have no faces here")
    return only_face(walk, item)


def lines(walk: Walk, item: Taken, kind: str) -> None:
    """All edges or vertices of a box."""
    for selected in item.selected:
        if selected.selector != "all":
            raise Lost('of edges and vertices there are all, or Comp("edge", 1) to 12')
        text = walk.inner(selected.body, walk.state._replace(form="edge"))
        name = "edges" if kind == "e" else "vertices"
        walk.make(f'Comp("{name}") {{ {text} }}')


def dealt(walk: Walk, item: Taken) -> List[Tuple[Selected, List[str]]]:
    """The faces of each selector: a face goes to the first one that has it."""
    left, found = set(FACES), []
    for selected in item.selected:
        name = plain(selected.selector)
        if name not in SELECTED:
            walk.context.port.remarks.lost(item.line, f"{selected.selector} : ..", lost_selector(name))
            continue
        own = [face for face in SELECTED[name] if face in left]
        left -= set(own)
        found.append((selected, own))
    return found


def lost_selector(name: str) -> str:
    if name in ("aslant", "nutant"):
        return "a box has no slanting faces"
    return "a face is front, right, back, left, top or bottom" if name.isdigit() else "no face of a box is selected so"


def faces(walk: Walk, item: Taken) -> None:
    for selected, own in dealt(walk, item):
        upright = [face for face in own if face in SIDES]
        if upright:
            text = walk.inner(selected.body, walk.state._replace(form="face"))
            walk.make(*of_faces(upright, text))
        for face in own[len(upright) :]:
            text = walk.inner(selected.body, walk.state._replace(form="top" if face == "top" else "face"))
            walk.make(*of_faces([face], text))


def of_faces(own: List[str], text: str) -> List[str]:
    if text == "NIL":
        return []
    if own == SIDES:
        return [f'Comp("sidefaces") {{ {text} }}']
    return [f'Comp("face", "{face}") {{ {text} }}' for face in own]


def only_face(walk: Walk, item: Taken) -> None:
    """The one face of a flat shape."""
    fitting = ("side", "vertical", "front", "all") if walk.state.form == "face" else ("top", "horizontal", "all")
    fits = [selected for selected in item.selected if plain(selected.selector) in (*fitting, "0")]
    if not fits:
        raise Lost("a flat shape has one face")
    is_ground = walk.state.form == "ground"
    text = walk.inner(fits[0].body, walk.state._replace(form="top") if is_ground else walk.state)
    walk.make("NIL" if text == "NIL" else f"[ {TO_FACE} {text} ]" if is_ground else f"[ {text} ]")


def roof_planes(walk: Walk, item: Taken) -> None:
    """A roof is one solid, drawn as what its slopes are."""
    ranked = [selected for name in ROOF_PLANES for selected in item.selected if plain(selected.selector) == name]
    if not ranked:
        raise Lost("a roof is one solid, and has no faces of its own")
    walk.make(walk.inner(ranked[0].body, walk.state))
    others = [selected.selector for selected in item.selected if selected is not ranked[0]]
    if others:
        walk.nearly(
            item, f"a roof is one solid, drawn as what `{ranked[0].selector}` has; {', '.join(others)} left out"
        )


def strips(walk: Walk, item: Taken) -> None:
    """setback(d) { front : border | remainder : rest }, and offset(-d) { border : a | inside : b }."""
    if walk.state.form not in ("ground", "box"):
        raise Lost("a border is cut from a lot or a box alone")
    inner = [one.body for one in item.selected if one.selector in ("remainder", "inside")]
    named = [(STRIPS.get(plain(one.selector)), one.body) for one in item.selected]
    sides: Dict[str, Body] = {}
    for faces_of, body in named:
        for face in faces_of or []:
            sides.setdefault(face, body)
    value = item.args[0] if item.args else None
    if value is None:
        raise Lost("it has no depth")
    depth = inset(walk, value)[0] if item.name == "offset" else walk.writer.number(value)
    rest = walk.inner(inner[0], walk.state) if inner else "NIL"
    walk.make(cut(walk, sides, depth, rest))


def cut(walk: Walk, sides: Dict[str, Body], depth: str, rest: str) -> str:
    """The rest, with strips at these sides: those along Z between those along X."""
    texts = {side: walk.inner(body, walk.state) for side, body in sides.items()}
    text = strip("Z", texts.get("back"), rest, texts.get("front"), depth)
    return strip("X", texts.get("left"), text, texts.get("right"), depth)


def strip(axis: str, low, rest: str, high, depth: str) -> str:
    parts = [(depth, low)] * (low is not None) + [("1r", rest)] + [(depth, high)] * (high is not None)
    if len(parts) == 1:
        return rest
    return f'Subdiv("{axis}", {", ".join(size for size, _ in parts)}) {{ {" | ".join(body for _, body in parts)} }}'


def offset(walk: Walk, item: Taken) -> None:
    """A border and what is inside of it; of the inside alone, a move and a size."""
    inside = [one.body for one in item.selected if one.selector == "inside"]
    if walk.state.form in FLAT and inside:
        if len(item.selected) > 1:
            walk.nearly(item, "of a face the inside is made alone")
        texts = shrunk(walk.state.form, *inset(walk, item.args[0]))
        walk.make(f"[ {' '.join(texts)} {walk.inner(inside[0], walk.state)} ]")
        return
    strips(walk, item)


def inner_rectangle(walk: Walk, item: Taken) -> None:
    """A lot is a rectangle itself."""
    shape = [one.body for one in item.selected if one.selector == "shape"]
    if not shape:
        raise Lost("a lot is a rectangle, and leaves no remainder")
    walk.make(walk.inner(shape[0], walk.state))


def shape_l(walk: Walk, item: Taken) -> None:
    """shapeL(front, left): a wing along the front, and one along the left."""
    shape = [one.body for one in item.selected if one.selector == "shape"]
    rest = [one.body for one in item.selected if one.selector == "remainder"]
    if len(item.args) != 2 or not shape or walk.state.form not in ("ground", "box"):
        raise Lost("cut the lot by two Subdivs")
    wing, left = walk.inner(shape[0], walk.state), walk.inner(rest[0], walk.state) if rest else "NIL"
    front, side = (walk.writer.number(arg) for arg in item.args)
    behind = f'Subdiv("X", {side}, 1r) {{ {wing} | {left} }}'
    walk.make(f'Subdiv("Z", 1r, {front}) {{ {behind} | {wing} }}')
    walk.nearly(item, "the shape is two shapes, one for each wing")


TAKEN: Dict[str, Callable] = {
    "comp": comp,
    "setback": strips,
    "offset": offset,
    "shapeL": shape_l,
    "innerRectangle": inner_rectangle,
    "innerRect": inner_rectangle,
}
