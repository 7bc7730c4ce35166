"""Looks, inside Blender, at what tools/blender/place.py made; in_blender.py runs it.

A window of size (10, 6, 8) at (0, 0, 0), turned by Ry(90), whose X, Y and Z point along -Z, Y and X of the world: (x, y, z) of
its box is (8 z, 6 y, -10 x) there, and in Blender, where (x, y, z) is (x, -z, y), (8 z, 10 x, 6 y).
"""
import bpy

(thing,) = [thing for thing in bpy.data.objects if "cga_id" in thing]
found = [tuple(round(part, 4) for part in thing.matrix_world @ vertex.co) for vertex in thing.data.vertices]
# the mesh's corners are, of the part `frame`, (0, 0, 1), (2, 0, 1), (0, 4, 1), and of `pane` (0, 0, 0), (2, 0, 0), (0, 4, 0)
assert found == [(8, 0, 0), (8, 10, 0), (8, 0, 6), (0, 0, 0), (0, 10, 0), (0, 0, 6)], found
assert [material.name for material in thing.data.materials] == ["frame", "pane"]
assert [face.material_index for face in thing.data.polygons] == [0, 1]
(town,) = [thing for thing in bpy.data.objects if thing.name == "a"]
assert len(town.data.polygons) == 1  # the wall's, and none of the window's six
assert thing.name == "a#0"
print("the places are taken")
