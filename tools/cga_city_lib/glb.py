"""A glTF 2.0 file in one piece: its lists, and the bytes that they are views of."""
import json
import struct
from array import array
from typing import Any, Dict, List, Optional, Sequence, Set

FLOAT, INDEX = 5126, 5125  # of 32 bits, as arrays of kind f and I hold them
KINDS = {"f": FLOAT, "I": INDEX, "H": 5123}
VERTICES, INDICES = 34962, 34963
MOST_SHORT = 65_535  # corners up to which 16 bits number them
SIZES = {"SCALAR": 1, "VEC2": 2, "VEC3": 3, "VEC4": 4}
INSTANCING, TRANSFORM = "EXT_mesh_gpu_instancing", "KHR_texture_transform"


class Glb:
    def __init__(self):
        self.bytes = bytearray()
        self.lists = {
            name: [] for name in "nodes meshes materials textures images samplers accessors bufferViews".split()
        }
        self.required: Set[str] = set()
        self.used: Set[str] = set()
        self.extensions: Dict[str, Any] = {}  # of the file as a whole

    def add(self, name: str, entry: Dict[str, Any]) -> int:
        """Puts an entry at a list's end, and tells its number there."""
        self.lists[name].append(entry)
        return len(self.lists[name]) - 1

    def view(self, data: bytes, **target: int) -> int:
        self.bytes += bytes(-len(self.bytes) % 4)
        number = self.add(
            "bufferViews", {"buffer": 0, "byteOffset": len(self.bytes), "byteLength": len(data), **target}
        )
        self.bytes += data
        return number

    def accessor(
        self,
        values: "array[Any]",
        form: str,
        target: Optional[int] = None,
        bounds: "Sequence[array[Any]]" = (),
    ) -> int:
        """The numbers of an array as a list of this form, little-endian on every machine; with the least and the greatest of
        each of some bounds."""
        view = self.view(little(values), **({"target": target} if target else {}))
        width = SIZES[form]
        entry = {
            "bufferView": view,
            "componentType": KINDS[values.typecode],
            "count": len(values) // width,
            "type": form,
        }
        if bounds:
            entry.update(min=[min(numbers) for numbers in bounds], max=[max(numbers) for numbers in bounds])
        return self.add("accessors", entry)

    def text(self, roots: List[int]) -> bytes:
        told = {
            "asset": {"version": "2.0", "generator": "cga_city"},
            "scene": 0,
            "scenes": [{"nodes": roots} if roots else {}],
            **{name: entries for name, entries in self.lists.items() if entries},
        }
        if self.extensions:
            told["extensions"] = self.extensions
        if self.bytes:
            told["buffers"] = [{"byteLength": len(self.bytes)}]
        for name, names in (("extensionsUsed", self.used | self.required), ("extensionsRequired", self.required)):
            if names:
                told[name] = sorted(names)
        return json.dumps(told, separators=(",", ":")).encode()

    def file(self, roots: List[int]) -> bytes:
        return b"".join(self.pieces(roots))

    def pieces(self, roots: List[int]) -> List[bytes]:
        """The bytes of the file, whose scene has these nodes, one piece after the other."""
        self.bytes += bytes(-len(self.bytes) % 4)
        told = self.text(roots)
        told += b" " * (-len(told) % 4)
        parts = [struct.pack("<I4s", len(told), b"JSON"), told]
        if self.bytes:
            parts += [struct.pack("<I4s", len(self.bytes), b"BIN\0"), self.bytes]
        return [struct.pack("<4sII", b"glTF", 2, 12 + sum(map(len, parts))), *parts]


def short(numbers: "array[Any]", count: int) -> "array[Any]":
    """Numbers of so many corners, in 16 bits each where these hold them."""
    return array("H", numbers) if count <= MOST_SHORT else numbers


def little(values: "array[Any]") -> bytes:
    if struct.pack("=I", 1) != struct.pack("<I", 1):
        values = array(values.typecode, values)
        values.byteswap()
    return values.tobytes()
