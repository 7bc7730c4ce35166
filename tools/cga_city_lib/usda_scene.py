"""A town as USD: an Xform for each lot with a mesh for each symbol, and a point instancer for each symbol that is drawn by instances.

Places are told from the offset; the unit is told by metersPerUnit. A quaternion is written with its real part first.
"""
from typing import Any, Callable, Dict, Iterable, Iterator, List, Mapping, NamedTuple, Sequence, Tuple

from .colours import look_of
from .instanced import Instanced, whole_low
from .instances import Instance
from .materials import linear
from .own_mesh import OwnMesh, Part, Surface, placed
from .places import stand_of
from .setting import Setting
from .units import OWN, Found, Kind, Point, unit_solid
from .usda import Names, Prim, array_of, box_of, dictionary, number, quoted, text_of, tuple_of

BINDING = 'prepend apiSchemas = ["MaterialBindingAPI"]'
Faces = Sequence[Sequence[int]]


class Flat(NamedTuple):
    """Corners and faces of one material."""

    points: List[Point]
    faces: List[Tuple[int, ...]]

    def add(self, points: Iterable[Point], faces: Faces, by: Point) -> None:
        first = len(self.points)
        self.points.extend((x + by[0], y + by[1], z + by[2]) for x, y, z in points)
        self.faces.extend(tuple(first + at for at in face) for face in faces)


class Town(Instanced):
    """The prims of a town."""

    def __init__(
        self,
        names: Mapping[str, Sequence[str]],
        setting: Setting,
        is_instance: Callable[[str], bool],
        meshes: Mapping[str, OwnMesh],
        place: Mapping[str, Any],
    ) -> None:
        super().__init__(names, setting, is_instance, meshes)
        self.place, self.materials = place, Materials()
        self.instances: Dict[str, Dict[Kind, List[Found]]] = {}  # by symbol

    def lines(self, lots: Iterable[Tuple[str, List[Instance]]]) -> Iterator[str]:
        """The lines of the file. What instances and materials there are is known when all lots are told."""
        names = Names()
        children = (self.lot(names.of(lot or "lot"), lot, solids) for lot, solids in lots if solids)
        parts = (part for parts in (self.parts(children), self.instancers(), self.shaders()) for part in parts)
        told = {"offset": list(self.offset), "metres": self.metres, **self.place}
        head = ['kind = "assembly"', "customData = {", *("    " + line for line in dictionary(told)), "}"]
        yield from ("#usda 1.0", "(", '    defaultPrim = "town"', f"    metersPerUnit = {number(self.metres)}")
        yield from ('    upAxis = "Y"', ")", "")
        yield from text_of(Prim("Xform", "town", [], parts, head))

    @staticmethod
    def parts(lots: Iterable[Prim]) -> Iterator[Prim]:
        yield Prim("Xform", "lots", [], lots)

    def instancers(self) -> Iterator[Prim]:
        if self.instances:
            names, above = Names(), "/town/instances"
            some = (
                self.instancer(f"{above}/{names.of(symbol)}", symbol, found) for symbol, found in self.instances.items()
            )
            yield Prim("Xform", "instances", [], some)

    def shaders(self) -> Iterator[Prim]:
        yield Prim("Scope", "materials", [], self.materials.prims())

    # ---- what stands once

    def lot(self, name: str, lot: str, solids: List[Instance]) -> Prim:
        low = self.low(solids)
        once: Dict[str, Flat] = {}
        for at, solid in enumerate(solids):
            found = self.found(lot, at, solid)
            if found:
                self.instances.setdefault(solid.symbol, {}).setdefault(found.unit.mesh, []).append(found)
                continue
            by = self.corner(solid.corner)
            for material, points, faces in self.pieces(lot, at, solid):
                moved = by[0] - low[0], by[1] - low[1], by[2] - low[2]
                once.setdefault(material, Flat([], [])).add(points, faces, moved)
        lines = [f"double3 xformOp:translate = {tuple_of(low)}"]
        lines.append('uniform token[] xformOpOrder = ["xformOp:translate"]')
        return Prim("Xform", name, lines, (self.mesh(material, material, flat) for material, flat in once.items()))

    def pieces(self, lot: str, at: int, solid: Instance) -> Iterator[Tuple[str, List[Point], Faces]]:
        """The material, the corners and the faces of a solid, or of each part of the mesh that stands for it."""
        own = self.meshes.get(solid.symbol)
        if own is None:
            yield self.materials.of_symbol(solid.symbol), solid.form.points(), solid.form.faces
            return
        stand = stand_of(lot, at, solid.form)
        for part in own.parts:
            points = placed(part, stand.axes, list(map(float, stand.size)))
            yield self.materials.of(part.surface, solid.symbol), points, part.faces

    def low(self, solids: List[Instance]) -> Point:
        """A lot's low corner in whole units."""
        return whole_low(zip(*(self.corner(solid.corner) for solid in solids)))

    @staticmethod
    def mesh(name: str, material: str, flat: Flat, more: Sequence[str] = ()) -> Prim:
        lines = [
            "uniform bool doubleSided = 1",
            f"float3[] extent = {box_of(flat.points)}",
            f"int[] faceVertexCounts = {array_of([str(len(face)) for face in flat.faces])}",
            f"int[] faceVertexIndices = {array_of([str(at) for face in flat.faces for at in face])}",
            f"rel material:binding = </town/materials/{material}>",
            f"point3f[] points = {array_of(list(map(tuple_of, flat.points)))}",
            *more,
            'uniform token subdivisionScheme = "none"',
        ]
        return Prim("Mesh", name, lines, (), [BINDING])

    # ---- instances

    def instancer(self, path: str, symbol: str, found: Dict[Kind, List[Found]]) -> Prim:
        """The instances of a symbol; each kind of mesh is a prototype."""
        all_, names = [each for some in found.values() for each in some], list(map(name_of, found))
        prototypes = [self.prototype(name, symbol, kind) for name, kind in zip(names, found)]
        paths = ", ".join(f"<{path}/prototypes/{name}>" for name in names)
        indices = [str(at) for at, some in enumerate(found.values()) for _ in some]
        turns = [(each.unit.turn[3], *each.unit.turn[:3]) for each in all_]
        lines = [
            f"quath[] orientations = {array_of(list(map(tuple_of, turns)))}",
            f"point3f[] positions = {array_of([tuple_of(each.corner) for each in all_])}",
            f"string[] primvars:id = {array_of([quoted(each.name) for each in all_])} (",
            '    interpolation = "vertex"',
            ")",
            f"int[] protoIndices = {array_of(indices)}",
            f"rel prototypes = [{paths}]",
            f"float3[] scales = {array_of([tuple_of(each.unit.scale) for each in all_])}",
        ]
        return Prim("PointInstancer", path.rpartition("/")[2], lines, [Prim("Scope", "prototypes", [], prototypes)])

    def prototype(self, name: str, symbol: str, kind: Kind) -> Prim:
        if kind[0] != OWN:
            faces, points = unit_solid(*kind)
            mesh = self.mesh("solid", self.materials.of_symbol(symbol), Flat(points, list(faces)))
            return Prim("Xform", name, [], [mesh])
        return Prim("Xform", name, [], list(self.own_parts(symbol)))

    def own_parts(self, symbol: str) -> Iterator[Prim]:
        for at, part in enumerate(self.meshes[symbol].parts):
            material = self.materials.of(part.surface, symbol)
            yield self.mesh(f"part{at}", material, Flat(part.corners, part.faces), list(of_corners(part)))


def name_of(kind: Kind) -> str:
    """The name of a prototype, such as `cube`, `hip_x_0_5`, or of a mesh of one's own `own`."""
    solid, ridge, slope = kind
    return "_".join(filter(None, (solid, ridge, "" if slope == 1 else str(slope).replace(".", "_").replace("-", "_"))))


def of_corners(part: Part) -> Iterator[str]:
    """The normals and the places in a texture that a part has; v counts up."""
    if part.normals:
        yield f"normal3f[] normals = {array_of(list(map(tuple_of, part.normals)))} ("
        yield from ('    interpolation = "vertex"', ")")
    if part.maps:
        yield f"texCoord2f[] primvars:st = {array_of([tuple_of((u, 1 - v)) for u, v in part.maps])} ("
        yield from ('    interpolation = "vertex"', ")")


class Materials:
    """The materials that are asked for, by their names."""

    def __init__(self) -> None:
        self.names, self.looks = Names(), {}  # type: Names, Dict[str, Surface]
        self.owns: Dict[int, Tuple[Surface, str]] = {}

    def of_symbol(self, symbol: str) -> str:
        name = self.names.of(symbol or "none")
        if name not in self.looks:
            red, green, blue = (linear(part / 255) for part in look_of(symbol).colour)
            self.looks[name] = Surface(symbol, (red, green, blue))
        return name

    def of(self, surface: Surface, symbol: str) -> str:
        shown = surface.shown()
        if shown is None:
            return self.of_symbol(symbol)
        if id(surface) not in self.owns:
            name = self.names.of(f"{symbol} {surface.name} {len(self.owns)}")
            red, green, blue = (linear(part / 255) for part in shown)
            self.looks[name] = surface._replace(colour=surface.colour or (red, green, blue))
            self.owns[id(surface)] = surface, name
        return self.owns[id(surface)][1]

    def prims(self) -> Iterator[Prim]:
        for name, look in self.looks.items():
            shader = [
                'uniform token info:id = "UsdPreviewSurface"',
                f"color3f inputs:diffuseColor = {tuple_of(look.colour or ())}",
                f"float inputs:metallic = {number(look.metallic)}",
                f"float inputs:opacity = {number(look.opacity)}",
                f"float inputs:roughness = {number(look.roughness)}",
                "token outputs:surface",
            ]
            path = f"/town/materials/{name}/surface.outputs:surface"
            lines = [f"token outputs:surface.connect = <{path}>"]
            yield Prim("Material", name, lines, [Prim("Shader", "surface", shader)])
