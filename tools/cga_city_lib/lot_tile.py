"""Some lots of a town as a glTF file of 3D Tiles: flat normals, 16-bit indices where they suffice, and of each vertex its lot and
symbol, with the lots' names and properties (EXT_mesh_features, EXT_structural_metadata)."""
import re
from array import array
from typing import Any, Dict, Iterable, List, NamedTuple, Sequence, Tuple

from .colours import MATERIALS, shade_of
from .eye import normal
from .glb import INDICES, VERTICES, Glb, short
from .materials import linear
from .property_text import shown

FEATURES, METADATA = "EXT_mesh_features", "EXT_structural_metadata"
Corner = Tuple[float, float, float]


class Face(NamedTuple):
    lot: int  # its place in the table of lots
    symbol: int
    corners: Sequence[Corner]


class Mesh:
    """The triangles of one colour and kind of surface; a face has corners of its own, which share its normal."""

    def __init__(self) -> None:
        self.places, self.normals = array("f"), array("f")
        self.lots, self.symbols, self.triangles = array("f"), array("f"), array("I")

    def add(self, face: Face, origin: Corner) -> None:
        first, number, (x, y, z) = len(self.lots), len(face.corners), origin
        self.places.extend([part for a, b, c in face.corners for part in (a - x, b - y, c - z)])
        self.normals.extend(normal(*face.corners[:3]) * number)
        self.lots.extend([face.lot] * number)
        self.symbols.extend([face.symbol] * number)
        for k in range(first + 1, first + number - 1):
            self.triangles.extend((first, k, k + 1))

    def primitive(self, made: Glb, shade: Sequence[int], counts: Sequence[int]) -> Dict[str, Any]:
        ids = [{"featureCount": count, "attribute": at, "propertyTable": at} for at, count in enumerate(counts)]
        return {
            "attributes": {
                "POSITION": made.accessor(self.places, "VEC3", VERTICES, [self.places[axis::3] for axis in range(3)]),
                "NORMAL": made.accessor(self.normals, "VEC3", VERTICES),
                "_FEATURE_ID_0": made.accessor(self.lots, "SCALAR", VERTICES),
                "_FEATURE_ID_1": made.accessor(self.symbols, "SCALAR", VERTICES),
            },
            "indices": made.accessor(short(self.triangles, len(self.lots)), "SCALAR", INDICES),
            "material": material(made, *shade),
            "extensions": {FEATURES: {"featureIds": ids}},
        }


def material(made: Glb, red: int, green: int, blue: int, kind: int) -> int:
    """A colour; its name is the kind of surface, by which the page draws it."""
    factor = [*(linear(part / 255) for part in (red, green, blue)), 1.0]
    rough = {"baseColorFactor": factor, "metallicFactor": 0.0, "roughnessFactor": 1.0}
    return int(made.add("materials", {"name": MATERIALS[kind], "pbrMetallicRoughness": rough}))


def property_id(word: str, taken: Iterable[str]) -> str:
    """An identifier as the schema takes it."""
    plain = re.sub(r"\W", "_", word, flags=re.ASCII)
    plain = plain if re.match(r"[A-Za-z_]", plain) else f"_{plain}"
    number, found = 1, plain
    while found in taken:
        number += 1
        found = f"{plain}_{number}"
    return found


def aligned(made: Glb, data: bytes) -> int:
    """A view that begins at a whole number of eight bytes, as property tables want it."""
    made.bytes += bytes(-len(made.bytes) % 8)
    return int(made.view(data))


def texts(made: Glb, values: Sequence[str]) -> Dict[str, Any]:
    """A column of texts: their bytes, and where each begins."""
    raw = [value.encode("utf-8", "replace") for value in values]
    offsets = [0]
    for one in raw:
        offsets.append(offsets[-1] + len(one))
    held = b"".join(part.to_bytes(4, "little") for part in offsets)
    return {
        "values": aligned(made, b"".join(raw) or b"\0"),
        "stringOffsets": aligned(made, held),
        "stringOffsetType": "UINT32",
    }


class Table(NamedTuple):
    """A property table: the class's name, and its columns by their names."""

    name: str
    columns: Dict[str, List[str]]

    def count(self) -> int:
        return len(next(iter(self.columns.values()), []))

    def told(self, made: Glb) -> Tuple[Dict[str, Any], Dict[str, Any]]:
        """The class of the schema, and the table."""
        ids: Dict[str, str] = {}
        for word in self.columns:
            ids[word] = property_id(word, ids.values())
        kind = {"properties": {ids[word]: {"name": word, "type": "STRING"} for word in self.columns}}
        columns = {ids[word]: texts(made, values) for word, values in self.columns.items()}
        return kind, {"class": self.name, "count": self.count(), "properties": columns}


def lot_table(names: Sequence[Tuple[str, str, Dict[str, Any]]]) -> Table:
    """Lots with their names by the map and its properties."""
    words = dict.fromkeys(word for *_, properties in names for word in properties if word not in ("lot", "name"))
    columns = {"lot": [lot for lot, *_ in names], "name": [name for _, name, _ in names]}
    columns.update({word: [shown(properties.get(word)) for *_, properties in names] for word in words})
    return Table("lot", columns)


def lot_tile(faces: Sequence[Face], tables: Sequence[Table], origin: Corner, extras: Dict[str, Any]) -> bytes:
    """The bytes of the file; places are told from the origin."""
    made, meshes = Glb(), {}  # type: Glb, Dict[Any, Mesh]
    by_symbol = [meshes.setdefault(tuple(shade_of(symbol)), Mesh()) for symbol in tables[1].columns["symbol"]]
    for face in faces:
        by_symbol[face.symbol].add(face, origin)
    if not faces:
        return bytes(made.file([]))
    counts = [table.count() for table in tables]
    primitives = [mesh.primitive(made, shade, counts) for shade, mesh in meshes.items()]
    told = [table.told(made) for table in tables]
    classes = {table.name: kind for table, (kind, _) in zip(tables, told)}
    made.used |= {FEATURES, METADATA}
    made.extensions[METADATA] = {
        "schema": {"id": "cga_city", "classes": classes},
        "propertyTables": [table for _, table in told],
    }
    node = {"mesh": made.add("meshes", {"primitives": primitives}), **({"extras": extras} if extras else {})}
    return bytes(made.file([made.add("nodes", node)]))
