"""Which solids of a town are instances of a mesh in the unit box: of the solid's own kind, or one of one's own; and their turns and
sizes."""
from typing import Callable, Dict, List, Mapping, NamedTuple, Optional, Tuple

from .forms import FACES_FROM_0, Faces, Form
from .instances import Instance
from .own_mesh import OwnMesh
from .places import Stand, quaternion, stand_of
from .solids import corners

FINEST = 1e-6  # the least share of a hip's length that its slope takes
OWN = "own"  # the kind of an instance of a mesh of one's own
Point = Tuple[float, float, float]
Kind = Tuple[str, str, float]  # of a mesh: the kind of its solid, the way of a ridge, and a hip's share of slope


class Unit(NamedTuple):
    """A form as an instance: its mesh, a quaternion, three sizes."""

    mesh: Kind
    turn: Tuple[float, ...]
    scale: Point


class Found(NamedTuple):
    """An instance: its id, what it is, and its corner."""

    name: str
    unit: Unit
    corner: Point


class Units:
    """`is_instance` says of a symbol whether each of its solids is an instance; `meshes` has those of one's own, by symbol, whose
    solids always are. A solid with a size of 0 is none, since its matrix couldn't be inverted."""

    def __init__(self, is_instance: Callable[[str], bool], meshes: Mapping[str, OwnMesh]) -> None:
        self.is_instance, self.meshes = is_instance, meshes
        self.known: Dict[Tuple[Form, Optional[int]], Unit] = {}

    def of(self, lot: str, number: int, solid: Instance) -> Optional[Unit]:
        """What a solid is as an instance, if it is one."""
        symbol, form, _ = solid
        own = self.meshes.get(symbol)
        if own is None and not self.is_instance(symbol):
            return None
        key = form, None if own is None else id(own)
        if key not in self.known:
            self.known[key] = unit_of(stand_of(lot, number, form), own)
        return self.known[key] if all(self.known[key].scale) else None


def unit_of(found: Stand, own: Optional[OwnMesh]) -> Unit:
    """Along an axis in which a mesh is flat, no size changes it, so that 1 leaves it as it is; a quad has no depth."""
    x, y, z = map(float, found.size)
    if own is None:
        mesh, scale = (found.kind, found.ridge, slope_of(found)), (x, y, 1.0 if found.kind == "quad" else z)
    else:
        x, y, z = (1.0 if is_flat else size for is_flat, size in zip(own.is_flat, (x, y, z)))
        mesh, scale = (OWN, "", 1.0), (x, y, z)
    return Unit(mesh, quaternion(found.axes), scale)


def slope_of(found: Stand) -> float:
    """How wide a hip with a ridge is in parts of its length; 1 for all other solids, whatever their sizes."""
    if found.kind != "hip" or not found.ridge:
        return 1
    w, _, d = map(float, found.size)
    return max(FINEST, round(w / d if found.ridge == "z" else d / w, 6)) if max(w, d) > 0 else 1


def unit_solid(kind: str, ridge: str, slope: float) -> Tuple[Faces, List[Point]]:
    """The faces and the corners of a solid in the unit box."""
    size = (slope, 1, 1) if ridge == "z" else (1, 1, slope)
    points = [(x / size[0], y / size[1], z / size[2]) for x, y, z in corners(kind, ridge, size)]
    return FACES_FROM_0[kind, ridge], points
