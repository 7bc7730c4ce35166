"""Reads 3D Tiles 1.1 and glTF 2.0 as their specifications say, field by field, and complains of what they don't allow."""
import json
import struct
from itertools import product

COMPONENTS = {"SCALAR": 1, "VEC3": 3}
KINDS = {5126: "f", 5125: "I", 5123: "H"}
STILL = [1, 0, 0, 0, 0, 1, 0, 0, 0, 0, 1, 0, 0, 0, 0, 1]


def demand(is_so, what):
    if not is_so:
        raise AssertionError(what)


def is_number(value):
    return isinstance(value, (int, float)) and not isinstance(value, bool)


def read_glb(data):
    """The triangles of a file, each three points."""
    magic, version, length = struct.unpack_from("<4sII", data)
    demand((magic, version, length) == (b"glTF", 2, len(data)), "the header of a glb")
    chunks, at = [], 12
    while at < length:
        size, kind = struct.unpack_from("<I4s", data, at)
        demand(size % 4 == 0 and at + 8 + size <= length, "a chunk is aligned and within the file")
        chunks.append((kind, data[at + 8 : at + 8 + size]))
        at += 8 + size
    demand([kind for kind, _ in chunks] in ([b"JSON"], [b"JSON", b"BIN\0"]), "the chunks in order")
    scene = json.loads(chunks[0][1])
    demand(scene["asset"]["version"] == "2.0", "the version of glTF")
    return [
        corner
        for node in scene["scenes"][scene["scene"]].get("nodes", [])
        for corner in read_node(scene, node, chunks[-1][1])
    ]


def read_node(scene, node, binary):
    demand(
        scene["buffers"] == [{"byteLength": len(binary)}] or 0 <= len(binary) - scene["buffers"][0]["byteLength"] < 4,
        "the buffer is the chunk",
    )
    for primitive in scene["meshes"][scene["nodes"][node]["mesh"]]["primitives"]:
        colour = scene["materials"][primitive["material"]]["pbrMetallicRoughness"]["baseColorFactor"]
        demand(len(colour) == 4 and all(0 <= part <= 1 for part in colour), "a colour is four numbers from 0 to 1")
        points = read_accessor(scene, binary, primitive["attributes"]["POSITION"], 34962)
        indices = read_accessor(scene, binary, primitive["indices"], 34963)
        demand(len(indices) % 3 == 0 and max(indices) < len(points) // 3, "triangles name vertices that are there")
        read_normals(points, indices, read_accessor(scene, binary, primitive["attributes"]["NORMAL"], 34962))
        for features in primitive["extensions"]["EXT_mesh_features"]["featureIds"]:
            ids = read_accessor(scene, binary, primitive["attributes"][f"_FEATURE_ID_{features['attribute']}"], 34962)
            demand(len(ids) == len(points) // 3 and max(ids) < features["featureCount"], "each vertex has its feature")
        yield from (
            tuple(tuple(points[3 * at : 3 * at + 3]) for at in indices[k : k + 3]) for k in range(0, len(indices), 3)
        )


def read_normals(points, indices, normals):
    """The normal of a triangle, counter-clockwise as it is seen, is that of its corners."""
    for k in range(0, len(indices), 3):
        a, b, c = (points[3 * at : 3 * at + 3] for at in indices[k : k + 3])
        one, other = ([q - p for p, q in zip(a, end)] for end in (b, c))
        way = [one[axis - 2] * other[axis - 1] - one[axis - 1] * other[axis - 2] for axis in range(3)]
        size = sum(part * part for part in way) ** 0.5
        for at in indices[k : k + 3]:
            told = normals[3 * at : 3 * at + 3]
            demand(all(abs(part - size * its) <= 1e-3 * size for part, its in zip(way, told)), "a normal")


def read_table(data, number):
    """The rows of a property table of texts, by the names that its schema has."""
    size = struct.unpack_from("<I", data, 12)[0]
    scene, binary = json.loads(data[20 : 20 + size]), data[28 + size :]
    demand("EXT_structural_metadata" in scene["extensionsUsed"], "the extension is named")
    held = scene["extensions"]["EXT_structural_metadata"]
    table = held["propertyTables"][number]
    names = held["schema"]["classes"][table["class"]]["properties"]
    rows = [{} for _ in range(table["count"])]
    for word, column in table["properties"].items():
        ends, values = (scene["bufferViews"][column[kind]] for kind in ("stringOffsets", "values"))
        demand(ends["byteOffset"] % 8 == values["byteOffset"] % 8 == 0, "views of tables begin at eight bytes")
        at = struct.unpack_from(f"<{table['count'] + 1}I", binary, ends["byteOffset"])
        for row, begin, end in zip(rows, at, at[1:]):
            row[names[word]["name"]] = binary[values["byteOffset"] + begin : values["byteOffset"] + end].decode()
    return rows


def read_accessor(scene, binary, number, target):
    accessor = scene["accessors"][number]
    view = scene["bufferViews"][accessor["bufferView"]]
    count = accessor["count"] * COMPONENTS[accessor["type"]]
    demand(view["buffer"] == 0 and view["target"] == target and view["byteOffset"] % 4 == 0, "a view")
    form = f"<{count}{KINDS[accessor['componentType']]}"
    demand(
        struct.calcsize(form) <= view["byteLength"] and view["byteOffset"] + view["byteLength"] <= len(binary),
        "a view within the buffer",
    )
    numbers = struct.unpack_from(form, binary, view["byteOffset"])
    if "min" in accessor:
        ends = [[end(numbers[axis::3]) for axis in range(3)] for end in (min, max)]
        demand([accessor["min"], accessor["max"]] == ends, "least and greatest places")
    return numbers


def read_tileset(path):
    """Each tile with content as the depth, the error and the triangles in the tileset's own axes."""
    held = json.loads(path.read_text())
    demand(held["asset"]["version"] == "1.1" and is_number(held["geometricError"]), "the head of a tileset")
    demand(held["geometricError"] >= held["root"]["geometricError"], "the error of all is the greatest")
    return list(read_tile(path.parent, held["root"], STILL, 0))


def read_tile(folder, tile, above, depth):
    demand(
        is_number(tile["geometricError"]) and tile["geometricError"] >= 0 and tile["refine"] in ("ADD", "REPLACE"),
        "error and refine",
    )
    here = times(above, read_transform(tile))
    low, high = read_box(tile, here)
    if "content" in tile:
        triangles = read_glb((folder / tile["content"]["uri"]).read_bytes())
        own_low, own_high = read_box(tile, STILL)
        for x, y, z in (point for triangle in triangles for point in triangle):
            demand(
                all(least - 1e-5 <= at <= most + 1e-5 for least, at, most in zip(own_low, (x, -z, y), own_high)),
                "content within its box",
            )
        yield depth, tile["geometricError"], placed(triangles, here)
    for child in tile.get("children", []):
        demand(child["geometricError"] <= tile["geometricError"], "the error of a child is no greater")
        child_low, child_high = read_box(child, times(here, read_transform(child)))
        demand(
            all(low[axis] - 1e-5 <= child_low[axis] and child_high[axis] <= high[axis] + 1e-5 for axis in range(3)),
            "a child within its parent",
        )
        yield from read_tile(folder, child, here, depth + 1)


def read_transform(tile):
    matrix = tile.get("transform", STILL)
    demand(len(matrix) == 16 and all(map(is_number, matrix)), "sixteen numbers, column by column")
    demand(matrix[3::4] == [0, 0, 0, 1] and matrix[2:11:4] == [0, 0, 1], "here tiles are moved, and turned about Z")
    demand(abs(matrix[0] ** 2 + matrix[1] ** 2 - 1) < 1e-9, "and not made larger")
    return matrix


def times(one, other):
    return [sum(one[4 * k + row] * other[4 * column + k] for k in range(4)) for column in range(4) for row in range(4)]


def seen(matrix, point):
    return tuple(sum(matrix[4 * k + row] * part for k, part in enumerate((*point, 1))) for row in range(3))


def read_box(tile, here):
    box = tile["boundingVolume"]["box"]
    demand(len(box) == 12 and all(map(is_number, box)), "twelve numbers")
    corners = [
        seen(here, [box[axis] + sum(side * box[3 * k + axis] for k, side in enumerate(sides, 1)) for axis in range(3)])
        for sides in product((-1, 1), repeat=3)
    ]
    return [min(axis) for axis in zip(*corners)], [max(axis) for axis in zip(*corners)]


def placed(triangles, here):
    """Y is up in glTF, and Z in tiles."""
    return [tuple(seen(here, (x, -z, y)) for x, y, z in triangle) for triangle in triangles]
