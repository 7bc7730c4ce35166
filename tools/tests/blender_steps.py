"""What a user of the add-on does, step by step inside Blender, with a stand-in for the program; in_blender.py runs it."""
import os
import sys
import tempfile
import time
from pathlib import Path
from types import SimpleNamespace

TESTS = Path(__file__).resolve().parent
sys.path[:0] = [str(TESTS), str(TESTS.parent), str(TESTS.parent / "blender")]

import bpy  # noqa: E402
import cga_city_link  # noqa: E402
import solid_table  # noqa: E402

UPRIGHT = [(1, 0, 0), (0, 1, 0), (0, 0, 1)]
FAR = (2683141, 0, 1247942)
RULES = 'rules\nattr h = 3\n1: a -> I("cube")\nend\n'


class Layout:
    """What a panel puts, one after the other."""

    def __init__(self):
        self.put = []

    def prop(self, _, name, text=None, **more):
        self.put.append(text or name)

    def operator(self, name):
        self.put.append(name)

    def label(self, text):
        self.put.append(text)


def panel():
    """What the panel of the sidebar shows."""
    shown = SimpleNamespace(layout=Layout())
    cga_city_link.Panel.draw(shown, bpy.context)
    return shown.layout.put


def printed(height, has_b):
    solids = [
        ("a", "wall", "cube", FAR, UPRIGHT, (4, height, 2)),
        ("a", "roof", "gable", (FAR[0], height, FAR[2]), UPRIGHT, (4, 1, 2)),
    ]
    return solid_table.text(solids + [("b", "wall", "cube", (FAR[0] + 10, 0, FAR[2]), UPRIGHT, (1, 1, 1))] * has_b)


def told():
    grammar = ["> grammar\nrules\nattr h = 3\nend\n"] * 2 + ["> grammar\nrules\nattr h = 9/2\nend\n"]
    towns = [(3, False), (3, True), (4.5, True), (4.5, False), (4.5, False)]
    return "".join(
        [
            "> rules\n# ok\n> lot a 1 0 0 1 1 a\n# ok\n> lot b 1 0 0 1 1 a\n# ok\n> unlot b\n# ok\n> attr h = 4.5\n# ok\n",
            "> lot c 1 0 0 0 1 a\n# refused BadLot c\n> stats\n# stats lots 2 shapes 9 instances 3 faults 0 expanded 2\n",
            *grammar,
            *("> print\n" + printed(*town) for town in towns),
        ]
    )


def main():
    bpy.ops.wm.read_factory_settings()
    folder = Path(tempfile.mkdtemp())
    script, replies = folder / "town.cga", folder / "told"
    replies.write_text(told(), encoding="utf-8")
    os.environ["TOLD"] = str(replies)
    cga_city_link.register()

    def save(text):
        other = folder / "new"
        other.write_text(text, encoding="utf-8")
        os.replace(other, script)

    save(RULES + "lot a 1 0 0 1 1 a\n")
    follower = cga_city_link.follow(str(script), program=str(TESTS / "told"))

    def wait():
        for _ in range(3000):
            if follower.tick():
                return
            time.sleep(0.1)
        raise AssertionError(f"nothing came: {follower.said}")

    def objects():
        return {thing.name: thing for thing in bpy.data.collections["cga_city"].objects}

    def box(thing):
        """In whole thousandths."""
        return [
            (round(1000 * min(parts)), round(1000 * max(parts)))
            for parts in zip(*((thing.matrix_world @ v.co)[:] for v in thing.data.vertices))
        ]

    wait()
    bpy.context.view_layer.update()
    a = objects()["a"]
    assert list(objects()) == ["a"], objects()
    assert list(bpy.context.scene["cga_offset"]) == [2683000, 0, 1247000]
    # the town's Y is Blender's Z, and its Z goes to the front
    assert box(a) == [(141000, 145000), (-944000, -942000), (0, 4000)], box(a)
    assert [slot.name for slot in a.material_slots] == ["wall", "roof"] and len(a.data.polygons) == 11
    layer = a.data.uv_layers["UVMap"].data
    for face in a.data.polygons:
        for one, other in zip(face.loop_indices, face.loop_indices[1:]):
            ends = [a.data.vertices[a.data.loops[at].vertex_index].co for at in (one, other)]
            assert abs((layer[one].uv - layer[other].uv).length - (ends[0] - ends[1]).length) < 1e-3
        assert face.normal.length > 0.99

    # a renamed and changed material, one of the user's own in a slot, and an object that was turned into something else's place
    walls = bpy.data.materials["wall"]
    walls.name, walls.diffuse_color = "my walls", (1, 0, 0, 1)
    a.material_slots[1].material = bpy.data.materials.new("my roof")
    a.location.z += 5
    save(RULES + "lot a 1 0 0 1 1 a\nlot b 1 0 0 1 1 a\n")
    wait()
    assert sorted(objects()) == ["a", "b"]
    assert objects()["b"].material_slots[0].material == walls

    # a slider
    holder = bpy.data.collections["cga_city"]
    assert holder["h"] == 3 and holder.id_properties_ui("h").as_dict()["soft_max"] == 6
    holder["h"] = 4.5
    wait()
    bpy.context.view_layer.update()
    assert objects()["a"] == a and box(a)[2] == (5000, 10500), box(a)
    assert [slot.name for slot in a.material_slots] == ["my walls", "my roof"] and tuple(walls.diffuse_color) == (
        1,
        0,
        0,
        1,
    )
    assert holder["h"] == 4.5

    # a lot that goes, and then a line that is refused
    save(RULES + "lot a 1 0 0 1 1 a\n")
    wait()
    assert list(objects()) == ["a"]
    save(RULES + "lot a 1 0 0 1 1 a\nlot c 1 0 0 0 1 a\n")
    wait()
    assert "BadLot c" in follower.said and list(objects()) == ["a"], follower.said
    script_, button, slider, counts, *refused = panel()
    assert (script_, button, slider) == ("cga_city_script", "cga_city.stop", "h") and counts.startswith(
        "2 lots, 3 solids, 2 shapes"
    ), counts
    assert len(refused) == 1 and "BadLot c" in refused[0], refused
    cga_city_link.unregister()
    print("the add-on follows")


main()
