"""Reads a glTF file in one piece by the words of its specification, and sets the faces of its nodes where they stand."""
import json
import struct

FORMS = {"SCALAR": 1, "VEC2": 2, "VEC3": 3, "VEC4": 4}
KINDS = {5126: "f", 5125: "I", 5123: "H"}


class Reader:
    def __init__(self, data):
        mark, version, size = struct.unpack("<4sII", data[:12])
        assert (mark, version, size) == (b"glTF", 2, len(data)) and size % 4 == 0
        long, kind = struct.unpack("<I4s", data[12:20])
        assert kind == b"JSON" and long % 4 == 0
        self.told = json.loads(data[20 : 20 + long])
        self.bytes = data[28 + long :]
        assert struct.unpack("<I4s", data[20 + long : 28 + long]) == (len(self.bytes), b"BIN\0")
        assert self.told["buffers"] == [{"byteLength": len(self.bytes)}]

    def view(self, number):
        view = self.told["bufferViews"][number]
        assert view["byteOffset"] % 4 == 0 and view["byteOffset"] + view["byteLength"] <= len(self.bytes)
        return self.bytes[view["byteOffset"] : view["byteOffset"] + view["byteLength"]]

    def values(self, number):
        """The entries of an accessor, checked against its bounds."""
        told = self.told["accessors"][number]
        width, kind = FORMS[told["type"]], KINDS[told["componentType"]]
        data, form = self.view(told["bufferView"]), struct.Struct(f"<{width * told['count']}{kind}")
        assert len(data) == form.size
        flat = form.unpack(data)
        assert (
            kind == "f" or max(flat) < (1 << 8 * form.size // len(flat)) - 1
        )  # the greatest number begins a strip anew
        entries = list(zip(*[iter(flat)] * width))
        if "min" in told:
            assert [list(map(bound, zip(*entries))) for bound in (min, max)] == [told["min"], told["max"]]
        return entries

    def triangles(self, mesh):
        """Each as a material's name and three corners, each a place, a normal and u and v."""
        for part in self.told["meshes"][mesh]["primitives"]:
            fields = [self.values(part["attributes"][name]) for name in ("POSITION", "NORMAL", "TEXCOORD_0")]
            assert len({len(field) for field in fields}) == 1
            corners, at = list(zip(*fields)), [number for number, in self.values(part["indices"])]
            for k in range(0, len(at), 3):
                yield self.told["materials"][part["material"]]["name"], [corners[number] for number in at[k : k + 3]]

    def world(self):
        """Each triangle where it stands: the lot's name, the symbol, three corners, and what was at them before."""
        (root,) = self.told["scenes"][self.told["scene"]]["nodes"]
        offset, metres = (
            self.told["nodes"][root]["extras"]["offset"],
            self.told["nodes"][root].get("scale", [1, 1, 1])[0],
        )
        assert metres == self.told["nodes"][root]["extras"]["metres"]
        for lot in self.told["nodes"][root]["children"]:
            node = self.told["nodes"][lot]
            low = [a + b for a, b in zip(node["translation"], offset)]
            if "mesh" in node:
                yield from self.placed(node["name"], node["mesh"], lambda point, low=low: add(point, low))
            for child in node.get("children", []):
                yield from self.instances(node["name"], self.told["nodes"][child], low)

    def instances(self, lot, node, low):
        """Of a node that has a child for each, or tells them by the extension."""
        for child in node.get("children", []):
            told = self.told["nodes"][child]
            entry = told["translation"], told.get("rotation", (0, 0, 0, 1)), told["scale"]
            yield from self.instance(lot, told["mesh"], entry, low)
        if "extensions" in node:
            yield from self.packed(lot, node, low)

    def packed(self, lot, node, low):
        told = node["extensions"]["EXT_mesh_gpu_instancing"]["attributes"]
        found = list(zip(*(self.values(told[name]) for name in ("TRANSLATION", "ROTATION", "SCALE"))))
        assert len(found) == len(node["extras"]["ids"])
        for entry in found:
            yield from self.instance(lot, node["mesh"], entry, low)

    def instance(self, lot, mesh, entry, low):
        move, turn, size = entry
        assert all(size)
        yield from self.placed(
            lot, mesh, lambda point: add(add(turned(turn, [a * b for a, b in zip(point, size)]), move), low)
        )

    def placed(self, lot, mesh, place):
        for symbol, corners in self.triangles(mesh):
            yield lot, symbol, [place(point) for point, _, _ in corners], corners


def add(a, b):
    return tuple(p + q for p, q in zip(a, b))


def turned(turn, point):
    """By the matrix of a quaternion."""
    x, y, z, w = turn
    rows = (
        (1 - 2 * (y * y + z * z), 2 * (x * y - z * w), 2 * (x * z + y * w)),
        (2 * (x * y + z * w), 1 - 2 * (x * x + z * z), 2 * (y * z - x * w)),
        (2 * (x * z - y * w), 2 * (y * z + x * w), 1 - 2 * (x * x + y * y)),
    )
    return [sum(a * b for a, b in zip(row, point)) for row in rows]
