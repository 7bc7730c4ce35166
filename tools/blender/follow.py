"""Begins Blender with the add-on, without installing it, follows a script, and looks at its first town as a whole.

usage: blender --python tools/blender/follow.py -- SCRIPT [GROUND.json]

GROUND.json is what tools/parcels --ground wrote beside the script: streets, water, parks and borders are an object more.
"""
import os
import sys
from pathlib import Path

HERE = Path(__file__).resolve().parent
sys.path[:0] = [str(HERE), str(HERE.parent)]

import bpy  # noqa: E402
import cga_city_link  # noqa: E402

from cga_city_lib.call import Refused  # noqa: E402


def look_at(window, area):
    """All that is there comes into the view at once, however large it is, and the sidebar with the sliders is open."""
    space, region = area.spaces.active, next(part for part in area.regions if part.type == "WINDOW")
    space.show_region_ui = True
    chosen = bpy.context.preferences.view
    smooth, chosen.smooth_view = chosen.smooth_view, 0
    with bpy.context.temp_override(window=window, area=area, region=region):
        bpy.ops.view3d.view_all()
    chosen.smooth_view = smooth
    space.clip_end = max(space.clip_end, 10 * space.region_3d.view_distance)


def look():
    """Waits for the first town."""
    town = bpy.data.collections.get("cga_city")
    if town is None or not town.objects:
        return 0.2
    for window in bpy.context.window_manager.windows:
        for area in window.screen.areas:
            if area.type == "VIEW_3D":
                look_at(window, area)
    return None


words = sys.argv[sys.argv.index("--") + 1 :] if "--" in sys.argv else []
if len(words) not in (1, 2):
    sys.exit(__doc__)
cga_city_link.register()
bpy.context.scene.cga_city_script = os.path.abspath(words[0])
try:
    cga_city_link.follow(os.path.abspath(words[0]), ground=words[1] if len(words) > 1 else None)
except (Refused, OSError) as fault:
    sys.exit(str(fault))
if not bpy.app.background:
    bpy.app.timers.register(look)
