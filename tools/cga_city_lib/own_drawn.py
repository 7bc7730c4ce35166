"""Solids of an OBJ text that meshes of one's own stand for, as a page or a picture draws them."""
from itertools import chain
from typing import Any, Dict, List, Mapping, NamedTuple, Tuple

from .instances import Lots, Reals
from .obj import Solid, Town
from .own_mesh import Colour, OwnMesh, Point, placed
from .places import Stand, stand_of

DIGITS = 9


class OwnForm(NamedTuple):
    """Words as a program tells them, `AXES W H D`, where the axes are the world's. Else a mesh in a box of size 1, whose axes are
    the world's, with the low corner and the size of that box."""

    kind: str
    words: str
    corners: Tuple[Tuple[float, ...], ...] = ()
    faces: Tuple[Tuple[int, ...], ...] = ()
    tones: Tuple[Tuple[int, ...], ...] = ()
    low: Tuple[float, ...] = ()
    size: Tuple[float, ...] = ()


def way_of(axis: Point) -> str:
    """The axis of the world that this is, as `-Z`, or nothing."""
    found = [round(part, DIGITS) for part in axis]
    named = [sign + name for name, part in zip("XYZ", found) for sign, one in (("+", 1), ("-", -1)) if part == one]
    return named[0] if named else ""


def own_form(stand: Stand, own: OwnMesh) -> OwnForm:
    ways = [way_of(axis) for axis in stand.axes]
    if all(ways):
        sizes = [str(part) for part in stand.size]
        return OwnForm(stand.kind, " ".join(["".join(ways), *sizes]))
    size = [float(part) for part in stand.size]
    points = list(chain.from_iterable(placed(part, stand.axes, size) for part in own.parts))
    low, high = ([bound(axis) for axis in zip(*points)] for bound in (min, max))
    spans = [most - least for least, most in zip(low, high)]
    corners = tuple(
        tuple(round((part - least) / span, DIGITS) if span else 0.0 for part, least, span in zip(point, low, spans))
        for point in points
    )
    told: Dict[str, Any] = own.told()[1]
    faces, tones = (tuple(map(tuple, told[name])) for name in ("faces", "tones"))
    return OwnForm(stand.kind, "", corners, faces, tones, tuple(low), tuple(spans))


def put_on(town: Town, lots: Lots, own: Mapping[str, OwnMesh]) -> Tuple[Town, Dict[str, Colour]]:
    """A town of corners and faces in which meshes of one's own stand for their symbols' solids, and the colours of the parts by
    their symbols' names, which have a blank."""
    colours: Dict[str, Colour] = {}
    for lot, solids in town.lots.items():
        found: List[Solid] = []
        for number, solid in enumerate(solids):
            mesh = own.get(solid.symbol)
            found += parts_on(town, lots, lot, number, mesh, colours) if mesh else [solid]
        town.lots[lot] = found
    return town, colours


def parts_on(town: Town, lots: Lots, lot: str, number: int, mesh: OwnMesh, colours: Dict[str, Colour]) -> List[Solid]:
    symbol, form, corner = lots[lot][number]
    stand, reals = stand_of(lot, number, form), Reals()
    place, found = [reals[text] for text in corner], []
    for at, part in enumerate(mesh.parts):
        colour = part.surface.shown()
        name = f"{symbol} {at}" if colour else symbol
        if colour:
            colours[name] = colour
        first = len(town.points)
        points = placed(part, stand.axes, [float(size) for size in stand.size])
        town.points += [tuple(a + b for a, b in zip(point, place)) for point in points]
        found.append(Solid(name, [[first + one for one in face] for face in part.faces]))
    return found
