"""Puts meshes of one's own into a town's places: each solid of a symbol gives way to an instance that is fitted into its box.

usage: blender --background --factory-startup --python-exit-code 1 --python place.py -- TOWN.merged.obj PLACES.csv TOWN.blend SYMBOL=MESH.obj ..

The first is what tools/merge made of a town, and the second what tools/places made, both with the same offset and metres. The
X of a mesh goes along the width of a place, Y up, and Z outwards; its least and greatest coordinates come to the box's ends.
"""
import csv
import os
import sys

import bmesh
import bpy
from mathutils import Matrix, Quaternion, Vector

TURN = Matrix(((1, 0, 0, 0), (0, 0, -1, 0), (0, 1, 0, 0), (0, 0, 0, 1)))  # from Y up to Z up
FLAT = 1e-9


def imported(path):
    """The objects of an OBJ file, with Z up."""
    before = set(bpy.data.objects)
    bpy.ops.wm.obj_import(filepath=os.path.abspath(path), forward_axis="NEGATIVE_Z", up_axis="Y")
    return [thing for thing in bpy.data.objects if thing not in before]


def without(thing, symbols):
    """Takes the faces of these symbols, which are the names of their materials, out of a mesh."""
    taken = {at for at, slot in enumerate(thing.material_slots) if slot.name in symbols}
    mesh = bmesh.new()
    mesh.from_mesh(thing.data)
    bmesh.ops.delete(mesh, geom=[face for face in mesh.faces if face.material_index in taken], context="FACES")
    mesh.to_mesh(thing.data)
    mesh.free()


def joined(parts):
    """One mesh of all parts, each where it stands, with their materials."""
    made, whole = bpy.data.meshes.new(parts[0].name), bmesh.new()
    for part in parts:
        part.data.transform(part.matrix_world)
        first = len(whole.faces)
        whole.from_mesh(part.data)
        whole.faces.ensure_lookup_table()
        for face in whole.faces[first:]:
            face.material_index = slot_of(made, part.data.materials, face.material_index)
        bpy.data.meshes.remove(part.data)  # and the part with it
    whole.to_mesh(made)
    whole.free()
    return made


def slot_of(mesh, materials, at):
    material = materials[at] if materials else None
    if material is not None and material.name not in mesh.materials:
        mesh.materials.append(material)
    return mesh.materials.find(material.name) if material is not None else 0


def asset(path):
    """The mesh of a file, with Z up, and the matrix that fits it into the unit box with Y up."""
    mesh = joined(imported(path))
    corners = [TURN.inverted() @ vertex.co for vertex in mesh.vertices]
    low, high = (Vector(map(bound, zip(*corners))) for bound in (min, max))
    scale = Matrix.Diagonal([1 / (b - a) if b - a > FLAT else 1 for a, b in zip(low, high)]).to_4x4()
    return mesh, scale @ Matrix.Translation(-low) @ TURN.inverted()


def matrix_of(row, fit):
    x, y, z, qx, qy, qz, qw, w, h, d = (float(row[name]) for name in "x y z qx qy qz qw w h d".split())
    box = (
        Matrix.Translation((x, y, z))
        @ Quaternion((qw, qx, qy, qz)).to_matrix().to_4x4()
        @ Matrix.Diagonal((w, h, d, 1))
    )
    return TURN @ box @ fit


def place(rows, meshes):
    """An object of its own for each place, in a collection for each symbol, all with one mesh."""
    collections = {symbol: bpy.data.collections.new(symbol) for symbol in meshes}
    for collection in collections.values():
        bpy.context.scene.collection.children.link(collection)
    number = 0
    for row in rows:
        if row["symbol"] in meshes:
            mesh, fit = meshes[row["symbol"]]
            thing = bpy.data.objects.new(row["id"], mesh)
            thing.matrix_world = matrix_of(row, fit)
            thing["cga_id"] = row["id"]
            collections[row["symbol"]].objects.link(thing)
            number += 1
    return number


def main(words):
    if len(words) < 4 or not all("=" in word for word in words[3:]):
        sys.exit(__doc__)
    town, table, target, *pairs = words
    bpy.ops.wm.read_factory_settings(use_empty=True)
    files = dict(pair.split("=", 1) for pair in pairs)
    for thing in imported(town):
        without(thing, files)
    with open(table, newline="", encoding="utf-8") as file:
        rows = list(csv.DictReader(file))
    meshes = {symbol: asset(path) for symbol, path in files.items()}
    print(f"{place(rows, meshes)} places of {', '.join(files)}")
    bpy.ops.wm.save_as_mainfile(filepath=os.path.abspath(target))


main(sys.argv[sys.argv.index("--") + 1 :] if "--" in sys.argv else [])
