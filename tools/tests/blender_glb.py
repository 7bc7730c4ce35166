"""Looks, inside Blender, at what tools/glb and tools/usda made of a window of one's own, and at a tile; in_blender.py runs it.

In Blender (x, y, z) of a glTF file is (x, -z, y). own_window.py has where the corners come.
"""
import sys
from pathlib import Path

import bpy
import numpy

if not hasattr(numpy, "bool"):
    numpy.bool = bool  # which Blender 3.4 asks for, and newer numpy hasn't
sys.path.insert(0, str(Path(__file__).resolve().parent))
import own_window  # noqa: E402

folder = Path(sys.argv[sys.argv.index("--") + 1]).parent
bpy.ops.wm.read_factory_settings(use_empty=True)
bpy.ops.import_scene.gltf(filepath=str(folder / "town.glb"))
thing = bpy.data.objects["a#0"]
found = {}
for face in thing.data.polygons:
    name = thing.data.materials[face.material_index].name
    corners = [thing.matrix_world @ thing.data.vertices[at].co for at in face.vertices]
    found[name] = sorted(tuple(round(part, 4) + 0.0 for part in corner) for corner in corners)
wanted = {name: sorted((x, -z, y) for x, y, z in corners) for name, corners in own_window.STANDS.items()}
assert found == wanted, found
assert bpy.data.materials["pane"].blend_method == "BLEND"
assert "wall" in bpy.data.materials
print("the glTF file is taken")

bpy.ops.wm.read_factory_settings(use_empty=True)
bpy.ops.import_scene.gltf(filepath=str(folder / "tile.glb"))
corners = {
    tuple(round(part, 4) + 0.0 for part in thing.matrix_world @ corner.co)
    for thing in bpy.data.objects
    if thing.type == "MESH"
    for corner in thing.data.vertices
}
assert corners == {(x, -z, y) for x in (0, 3) for y in (0, 4) for z in (0, 2)}, corners
assert "plaster" in bpy.data.materials
print("the tile is taken")

if bpy.app.build_options.usd:
    bpy.ops.wm.read_factory_settings(use_empty=True)
    bpy.ops.wm.usd_import(filepath=str(folder / "town.usda"))
    assert any(thing.type == "MESH" for thing in bpy.data.objects)
else:
    print("SKIPPED: USD isn't read in Blender, since this Blender is built without it")
