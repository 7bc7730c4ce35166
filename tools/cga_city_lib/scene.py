"""A town as a glTF file: a node for each lot, with a mesh of what stands there once, and nodes for its instances.

A lot's node is moved by whole units, which floats of 32 bits hold exactly up to 16 million; what is in it lies near it. An
instance is a node of its own, of core glTF, or one entry of EXT_mesh_gpu_instancing.
"""
from array import array
from operator import sub
from typing import Any, Callable, Dict, Iterable, List, Mapping, Optional, Sequence, Tuple

from .corners import Corners, Pattern, pattern_of
from .forms import Form
from .glb import INSTANCING, Glb
from .instanced import Instanced, whole_low
from .instances import Instance
from .materials import Materials
from .own_corners import corners_of, moved
from .own_mesh import OwnMesh, placed
from .places import Stand, stand_of
from .setting import Setting
from .units import OWN, Found, Point, unit_solid


class Scene(Instanced):
    def __init__(
        self,
        names: Mapping[str, Sequence[str]],
        setting: Setting,
        is_instance: Callable[[str], bool],
        meshes: Optional[Mapping[str, OwnMesh]] = None,
        is_packed: bool = False,
    ) -> None:
        super().__init__(names, setting, is_instance, meshes or {})
        self.is_packed, self.glb = is_packed, Glb()
        self.extras: Dict[str, Any] = {}
        self.materials = Materials(self.glb)
        self.numbers: Dict[Tuple[Any, ...], int] = {}  # of the meshes that instances share
        self.patterns: Dict[Form, Pattern] = {}

    def pieces(self, lots: Iterable[Tuple[str, List[Instance]]]) -> List[bytes]:
        """The bytes of the file of these lots, as pairs of a name and instances; one piece after the other."""
        nodes = [self.lot(name, instances) for name, instances in lots if instances]
        extras = {"offset": list(self.offset), "metres": self.metres, **self.extras}
        root = {"name": "town", "children": nodes, "extras": extras}
        if self.metres != 1:
            root["scale"] = [self.metres] * 3
        return self.glb.pieces([self.glb.add("nodes", root)])

    def lot(self, name: str, solids: List[Instance]) -> int:
        low = self.low(solids)
        once: Dict[Tuple[Any, ...], Corners] = {}
        instances: Dict[Tuple[Any, ...], List[Found]] = {}
        for number, solid in enumerate(solids):
            found = self.found(name, number, solid)
            if found:
                instances.setdefault((solid.symbol, *found.unit.mesh), []).append(found)
            elif solid.symbol in self.meshes:
                self.bake(once, stand_of(name, number, solid.form), solid, low)
            else:
                kept = once.get((solid.symbol,))
                if kept is None:
                    kept = once[(solid.symbol,)] = Corners(low)
                kept.add(pattern_of(solid.form, self.patterns), self.corner(solid.corner))
        node: Dict[str, Any] = {"name": name, "translation": list(low)}
        parts = [made.primitive(self.glb, self.material(*key)) for key, made in once.items() if made.tell()]
        if parts:
            node["mesh"] = self.glb.add("meshes", {"name": name, "primitives": parts})
        if instances:
            node["children"] = [self.kind(name, kind, some, low) for kind, some in instances.items()]
        return self.glb.add("nodes", node)

    def low(self, solids: List[Instance]) -> Point:
        """A lot's low corner in whole units."""
        corners: Dict[Form, List[Sequence[str]]] = {}
        for _, form, corner in solids:
            corners.setdefault(form, []).append(corner)
        return whole_low(zip(*[self.least(form, some) for form, some in corners.items()]))

    def least(self, form: Form, corners: Sequence[Sequence[str]]) -> List[float]:
        """The least coordinate along each axis of a form at some corners."""
        texts, reals = [set(some) for some in zip(*corners)], self.reals
        numbers = [min([reals[text] for text in some]) for some in texts]
        return [at - offset + least for at, offset, least in zip(numbers, self.offset, form.ends()[0])]

    def material(self, symbol: str, part: Optional[int] = None) -> int:
        if part is None:
            return int(self.materials.of(symbol))
        return self.materials.own(self.meshes[symbol].parts[part].surface, symbol)

    def bake(self, once: Dict[Tuple[Any, ...], Corners], stand: Stand, solid: Instance, low: Point) -> None:
        """Puts a mesh of one's own into what stands once: a size of 0 has no matrix that could be inverted."""
        size = tuple(map(float, stand.size))
        by = tuple(map(sub, self.corner(solid.corner), low))
        for number, part in enumerate(self.meshes[solid.symbol].parts):
            found = moved(corners_of(part, placed(part, stand.axes, size)), by)
            if (solid.symbol, number) in once:
                once[solid.symbol, number].take(found)
            else:
                once[solid.symbol, number] = found

    # ---- instances

    def kind(self, lot: str, kind: Tuple[Any, ...], found: List[Found], low: Point) -> int:
        """The node of a lot's instances of one mesh."""
        name, mesh = f"{lot}.{kind[0]}", self.mesh(*kind)
        if self.is_packed:
            return self.packed(name, mesh, found, low)
        children = [self.node(each, mesh, low) for each in found]
        return self.glb.add("nodes", {"name": name, "children": children})

    def node(self, each: Found, mesh: int, low: Point) -> int:
        told: Dict[str, Any] = {"name": each.name, "mesh": mesh}
        told["translation"] = [part + 0.0 for part in map(sub, each.corner, low)]
        if each.unit.turn != (0.0, 0.0, 0.0, 1.0):
            told["rotation"] = [part + 0.0 for part in each.unit.turn]
        return self.glb.add("nodes", {**told, "scale": list(each.unit.scale)})

    def packed(self, name: str, mesh: int, found: List[Found], low: Point) -> int:
        moves, turns, sizes = array("f"), array("f"), array("f")
        for _, unit, corner in found:
            moves.extend(map(sub, corner, low))
            turns.extend(unit.turn)
            sizes.extend(unit.scale)
        self.glb.required.add(INSTANCING)
        attributes = {
            "TRANSLATION": self.glb.accessor(moves, "VEC3"),
            "ROTATION": self.glb.accessor(turns, "VEC4"),
            "SCALE": self.glb.accessor(sizes, "VEC3"),
        }
        told = {"name": name, "mesh": mesh, "extensions": {INSTANCING: {"attributes": attributes}}}
        return self.glb.add("nodes", {**told, "extras": {"ids": [name for name, _, _ in found]}})

    def mesh(self, symbol: str, kind: str, ridge: str, slope: float) -> int:
        """The mesh of a solid in the unit box, made once for each symbol and kind, and of hips for each share of slope."""
        key = symbol, kind, ridge, slope
        if key not in self.numbers:
            parts = self.own_parts(symbol) if kind == OWN else [self.solid_part(symbol, kind, ridge, slope)]
            name = symbol if kind == OWN else ".".join(filter(None, (symbol, kind, ridge)))
            self.numbers[key] = self.glb.add("meshes", {"name": name, "primitives": parts})
        return self.numbers[key]

    def solid_part(self, symbol: str, kind: str, ridge: str, slope: float) -> Dict[str, Any]:
        found = Corners()
        found.add(Pattern(*unit_solid(kind, ridge, slope)))
        return found.primitive(self.glb, self.material(symbol))

    def own_parts(self, symbol: str) -> List[Dict[str, Any]]:
        parts = self.meshes[symbol].parts
        found = [(number, corners_of(part, part.corners)) for number, part in enumerate(parts)]
        return [made.primitive(self.glb, self.material(symbol, number)) for number, made in found if made.number]
