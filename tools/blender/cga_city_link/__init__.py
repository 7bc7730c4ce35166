"""An add-on for Blender that follows a script of cga_city: an object for each lot, and a slider for each attribute."""
import sys
from pathlib import Path

import bpy

bl_info = {
    "name": "cga_city link",
    "author": "cga_city",
    "version": (1, 0, 0),
    "blender": (3, 4, 0),
    "category": "Import-Export",
    "location": "View3D > Sidebar > cga_city",
    "description": "Shows the town of a script, again at each save and each move of a slider",
}

HERE = Path(__file__).resolve().parents[3]
following = []  # the one that is followed, if any


def take_tools(folder):
    """Puts the tools of cga_city on Python's path; whether they are there."""
    tools = Path(bpy.path.abspath(folder)) / "tools"
    if not (tools / "cga_city.py").exists():
        return False
    if str(tools) not in sys.path:
        sys.path.insert(0, str(tools))
    return True


def follow(path, folder=str(HERE), program=None, live=False, ground=None):
    """Begins to follow a script, in the place of the one that is followed; `ground` is a file of tools/parcels --ground."""
    if not take_tools(folder):
        raise FileNotFoundError(f"{folder} isn't the folder of cga_city")
    from .link import Link, ground_update
    from .scene import Follower

    told = ground_update(ground) if ground else None
    stop()
    following.append(Follower(Link(path, program, live)))
    if told:
        following[0].link.updates.put(told)
    if not bpy.app.timers.is_registered(tick):
        bpy.app.timers.register(tick, persistent=True)
    return following[0]


def stop():
    while following:
        following.pop().link.stop()


def tick():
    if not following:
        return None  # Blender asks no more
    if following[0].tick():
        for window in bpy.context.window_manager.windows:
            for area in window.screen.areas:
                area.tag_redraw()
    return 0.1


class Preferences(bpy.types.AddonPreferences):
    bl_idname = __name__
    __annotations__ = {
        "folder": bpy.props.StringProperty(name="Folder of cga_city", subtype="DIR_PATH", default=str(HERE))
    }

    def draw(self, _):
        self.layout.prop(self, "folder")


class Follow(bpy.types.Operator):
    """Shows the town of the script, again at each save"""

    bl_idname, bl_label = "cga_city.follow", "Follow"

    def execute(self, context):
        added = context.preferences.addons.get(__name__)
        try:
            follow(bpy.path.abspath(context.scene.cga_city_script), added.preferences.folder if added else str(HERE))
        except OSError as fault:
            self.report({"ERROR"}, str(fault))
            return {"CANCELLED"}
        return {"FINISHED"}


class Stop(bpy.types.Operator):
    """Leaves the town as it is"""

    bl_idname, bl_label = "cga_city.stop", "Stop"

    def execute(self, _):
        stop()
        return {"FINISHED"}


class Panel(bpy.types.Panel):
    bl_idname, bl_label = "CGA_CITY_PT_link", "cga_city"
    bl_space_type, bl_region_type, bl_category = "VIEW_3D", "UI", "cga_city"

    def draw(self, context):
        self.layout.prop(context.scene, "cga_city_script")
        self.layout.operator(Stop.bl_idname if following else Follow.bl_idname)
        holder = bpy.data.collections.get("cga_city")
        for follower in following:
            for name in follower.known if holder else ():
                self.layout.prop(holder, f'["{name}"]', text=name, slider=True)
            for line in follower.said.split("\n"):
                self.layout.label(text=line)


CLASSES = (Preferences, Follow, Stop, Panel)


def register():
    for kind in CLASSES:
        bpy.utils.register_class(kind)
    bpy.types.Scene.cga_city_script = bpy.props.StringProperty(name="Script", subtype="FILE_PATH")


def unregister():
    stop()
    del bpy.types.Scene.cga_city_script
    for kind in reversed(CLASSES):
        bpy.utils.unregister_class(kind)
