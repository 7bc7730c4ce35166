"""A mesh of one's own in a glTF file in one piece: the triangles of the meshes in its scene, where its nodes put them."""
import json
import struct
from pathlib import Path
from typing import Any, Dict, Iterator, List, NamedTuple, Optional, Sequence, Tuple

from .call import Refused
from .eye import unit
from .own_mesh import OwnMesh, Part, Point, Surface

Matrix = List[float]  # column by column
WIDTHS = {"SCALAR": 1, "VEC2": 2, "VEC3": 3, "VEC4": 4}
KINDS = {5120: "b", 5121: "B", 5122: "h", 5123: "H", 5125: "I", 5126: "f"}
MOST = {5120: 127, 5121: 255, 5122: 32767, 5123: 65535}  # what is 1 where a number is a share
TAKEN = {
    "KHR_mesh_quantization",
    "KHR_texture_transform",
    "KHR_materials_unlit",
}  # of the extensions that a file may need
TRIANGLES, STRIP, FAN = 4, 5, 6
SAME = [1.0, 0.0, 0.0, 0.0, 0.0, 1.0, 0.0, 0.0, 0.0, 0.0, 1.0, 0.0, 0.0, 0.0, 0.0, 1.0]
DEEPEST = 100  # nodes below each other
FAR = 1e30


class Wrong(Exception):
    """What is wrong with a file."""


class Pictures:
    """The textures of a file, with the bytes of each picture."""

    def __init__(self, told: Dict[str, Any], file: "File") -> None:
        self.told, self.file = told, file

    def of(self, number: int) -> Tuple[bytes, str, Dict[str, Any]]:
        """The bytes and the kind of a texture's picture, and how it is sampled."""
        texture = self.told["textures"][number]
        image = self.told["images"][texture["source"]]
        sampler = self.told["samplers"][texture["sampler"]] if "sampler" in texture else {}
        return self.file.view(image["bufferView"]), image["mimeType"], sampler


class File:
    """The JSON and the bytes of a file."""

    def __init__(self, data: bytes) -> None:
        if data[:4] != b"glTF" or len(data) < 20:
            raise Wrong("isn't a glTF file in one piece: export as .glb")
        version, _, size, kind = struct.unpack_from("<IIII", data, 4)
        if version != 2 or kind != 0x4E4F534A or 20 + size > len(data):
            raise Wrong(f"is glTF {version}, or is cut off: export it as glTF 2.0")
        self.told = json.loads(data[20 : 20 + size].decode("utf-8"))
        self.bytes = data[28 + size :]
        self.surfaces: Dict[Optional[int], Surface] = {}
        needed = set(self.told.get("extensionsRequired", [])) - TAKEN
        if needed:
            raise Wrong(f"needs {min(needed)}, which isn't read: export it without compression")

    def list(self, name: str) -> List[Dict[str, Any]]:
        return self.told.get(name, [])  # type: ignore[no-any-return]

    def view(self, number: int) -> bytes:
        told = self.list("bufferViews")[number]
        if told.get("buffer", 0) or "uri" in self.list("buffers")[0]:
            raise Wrong("has its bytes in another file: export as .glb")
        first = told.get("byteOffset", 0)
        return self.bytes[first : first + told["byteLength"]]

    def values(self, number: int) -> List[Tuple[float, ...]]:
        told = self.list("accessors")[number]
        if "sparse" in told or "bufferView" not in told:
            raise Wrong("has a sparse accessor, which isn't read")
        kind, width = told["componentType"], WIDTHS[told["type"]]
        form = struct.Struct(f"<{width}{KINDS[kind]}")
        step = self.list("bufferViews")[told["bufferView"]].get("byteStride", form.size)
        data, first = self.view(told["bufferView"]), told.get("byteOffset", 0)
        found = [form.unpack_from(data, first + step * at) for at in range(told["count"])]
        if not told.get("normalized"):
            return found
        return [tuple(max(-1.0, part / MOST[kind]) for part in entry) for entry in found]


class Place(NamedTuple):
    """A mesh's number and the matrix of its node."""

    mesh: int
    matrix: Matrix


def places(file: File) -> Iterator[Place]:
    """The meshes of the scene's nodes."""
    nodes, scenes = file.list("nodes"), file.list("scenes")
    roots = scenes[file.told.get("scene", 0)].get("nodes", []) if scenes else list(range(len(nodes)))
    waiting = [(number, SAME, 0) for number in reversed(roots)]
    while waiting:
        number, above, depth = waiting.pop()
        node, matrix = nodes[number], times(above, matrix_of(nodes[number]))
        if depth > DEEPEST:
            raise Wrong("has nodes that stand below themselves")
        if "mesh" in node:
            yield Place(node["mesh"], matrix)
        waiting += [(child, matrix, depth + 1) for child in reversed(node.get("children", []))]


def matrix_of(node: Dict[str, Any]) -> Matrix:
    if "matrix" in node:
        return [float(part) for part in node["matrix"]]
    x, y, z, w = node.get("rotation", (0.0, 0.0, 0.0, 1.0))
    columns = (
        (1 - 2 * (y * y + z * z), 2 * (x * y + z * w), 2 * (x * z - y * w)),
        (2 * (x * y - z * w), 1 - 2 * (x * x + z * z), 2 * (y * z + x * w)),
        (2 * (x * z + y * w), 2 * (y * z - x * w), 1 - 2 * (x * x + y * y)),
    )
    scaled = [[part * by for part in column] for column, by in zip(columns, node.get("scale", (1.0, 1.0, 1.0)))]
    return [*scaled[0], 0.0, *scaled[1], 0.0, *scaled[2], 0.0, *node.get("translation", (0.0, 0.0, 0.0)), 1.0]


def times(one: Matrix, other: Matrix) -> Matrix:
    return [sum(one[4 * k + row] * other[4 * column + k] for k in range(4)) for column in range(4) for row in range(4)]


def moved(m: Matrix, points: Sequence[Sequence[float]]) -> List[Point]:
    return [
        (
            m[0] * x + m[4] * y + m[8] * z + m[12],
            m[1] * x + m[5] * y + m[9] * z + m[13],
            m[2] * x + m[6] * y + m[10] * z + m[14],
        )
        for x, y, z in points
    ]


def upright(m: Matrix) -> Matrix:
    """What normals are turned by: the cofactors of the matrix."""
    a, b, c, d, e, f, g, h, i = m[0], m[1], m[2], m[4], m[5], m[6], m[8], m[9], m[10]
    return [e * i - f * h, f * g - d * i, d * h - e * g, 0.0, h * c - i * b, i * a - g * c, g * b - h * a, 0.0] + [
        b * f - c * e,
        c * d - a * f,
        a * e - b * d,
        0.0,
        0.0,
        0.0,
        0.0,
        1.0,
    ]


def is_mirrored(m: Matrix) -> bool:
    cofactors = upright(m)
    return m[0] * cofactors[0] + m[1] * cofactors[1] + m[2] * cofactors[2] < 0


def triangles(numbers: Sequence[int], mode: int) -> List[Tuple[int, ...]]:
    if mode == TRIANGLES:
        return list(zip(numbers[::3], numbers[1::3], numbers[2::3]))
    if mode == FAN:
        return [(numbers[0], numbers[k], numbers[k + 1]) for k in range(1, len(numbers) - 1)]
    if mode == STRIP:
        return [(numbers[k], numbers[k + 1 + k % 2], numbers[k + 2 - k % 2]) for k in range(len(numbers) - 2)]
    return []  # points and lines


def part_of(file: File, primitive: Dict[str, Any], matrix: Matrix) -> Part:
    attributes = primitive["attributes"]
    read = {name: file.values(attributes[name]) for name in ("POSITION", "NORMAL", "TEXCOORD_0") if name in attributes}
    points = moved(matrix, read.get("POSITION", []))
    if not all(abs(part) < FAR for point in points for part in point):
        raise Wrong("has a corner that lies nowhere: apply the transforms of its nodes, and export it again")
    numbers = [int(at) for at, in file.values(primitive["indices"])] if "indices" in primitive else range(len(points))
    faces = triangles(numbers, primitive.get("mode", TRIANGLES))
    if any(at >= len(points) for face in faces for at in face):
        raise Wrong("has a triangle whose corner isn't there")
    faces = [face[::-1] for face in faces] if is_mirrored(matrix) else faces
    normals = [unit(normal) for normal in moved(upright(matrix), read.get("NORMAL", []))]
    maps = [(u, v) for u, v in read.get("TEXCOORD_0", [])]
    number = primitive.get("material")
    surface = file.surfaces.setdefault(number, surface_of(file, number))
    return Part(surface, points, faces, normals, maps)


def surface_of(file: File, number: Optional[int]) -> Surface:
    if number is None:
        return Surface("")
    told = file.list("materials")[number]
    rough = told.get("pbrMetallicRoughness", {})
    red, green, blue, opacity = rough.get("baseColorFactor", (1.0, 1.0, 1.0, 1.0))
    return Surface(
        told.get("name", f"material{number}"),
        (red, green, blue),
        opacity if told.get("alphaMode") == "BLEND" else 1.0,
        rough.get("metallicFactor", 1.0),
        rough.get("roughnessFactor", 1.0),
        told.get("doubleSided", False),
        None,
        told,
        Pictures(file.told, file),
    )


def read_glb(path: Path) -> OwnMesh:
    try:
        file = File(path.read_bytes())
        parts = [
            part_of(file, primitive, place.matrix)
            for place in places(file)
            for primitive in file.list("meshes")[place.mesh]["primitives"]
        ]
    except Wrong as fault:
        raise Refused(f"{path} {fault}") from None
    except (ValueError, KeyError, IndexError, TypeError, OverflowError, struct.error):
        raise Refused(f"{path} isn't a sound glTF file: something that it names isn't there") from None
    if not any(part.faces for part in parts):
        raise Refused(f"{path}: its scene has no triangle")
    return OwnMesh(parts, [corner for part in parts if part.faces for corner in part.corners])
