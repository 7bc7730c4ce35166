"""Makes of a town a Blender file with an object for each lot and a material for each symbol.

usage: blender --background --factory-startup --python-exit-code 1 --python to_blender.py -- TOWN.merged.obj TOWN.blend

The town is what tools/merge made, whose .mtl lies beside it.
"""
import os
import sys

import bpy


def main(words):
    if len(words) != 2:
        sys.exit(__doc__)
    source, target = map(os.path.abspath, words)
    bpy.ops.wm.read_factory_settings(use_empty=True)
    bpy.ops.wm.obj_import(filepath=source, forward_axis="NEGATIVE_Z", up_axis="Y")
    for thing in bpy.data.objects:
        print(
            f"{thing.name}: {len(thing.data.polygons)} faces of {', '.join(slot.name for slot in thing.material_slots)}"
        )
    bpy.ops.wm.save_as_mainfile(filepath=target)


main(sys.argv[sys.argv.index("--") + 1 :] if "--" in sys.argv else [])
