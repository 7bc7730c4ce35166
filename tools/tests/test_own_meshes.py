"""Meshes of one's own: files that are read, and where their corners come in what is written."""
import base64
import json
import math
import re
import shutil
import subprocess
import sys
import tempfile
import unittest
import zlib
from array import array
from pathlib import Path

TESTS = Path(__file__).resolve().parent
sys.path[:0] = [str(TESTS), str(TESTS.parent)]

import own_window  # noqa: E402
import solid_table  # noqa: E402
from answers import State  # noqa: E402
from browser import CHROMIUM  # noqa: E402
from glb_reader import Reader  # noqa: E402
from in_process import called  # noqa: E402
from test_picture import unpacked  # noqa: E402
from usda_reader import Reader as UsdaReader  # noqa: E402
from cga_city_lib.colours import MATERIALS  # noqa: E402
from cga_city_lib.glb import INDICES, VERTICES, Glb  # noqa: E402
from cga_city_lib.obj import read_town  # noqa: E402
from cga_city_lib.own_mesh_glb import read_glb  # noqa: E402
from cga_city_lib.own_mesh_obj import read_obj  # noqa: E402
from cga_city_lib.png import png  # noqa: E402

ASSIMP = shutil.which("assimp")
if not ASSIMP:
    print("SKIPPED: glTF isn't read by assimp, since that isn't there (apt-get install assimp-utils)", file=sys.stderr)


class Files(unittest.TestCase):
    def setUp(self):
        folder = tempfile.TemporaryDirectory()
        self.addCleanup(folder.cleanup)
        self.folder = Path(folder.name)
        own_window.put(self.folder)

    def write(self, name, text):
        (self.folder / name).write_text(text, encoding="utf-8")
        return self.folder / name

    def glb(self, *words, town="town.obj"):
        status, said, fault = called("glb", *words, town, "town.glb", folder=self.folder)
        self.assertEqual((status, fault), (0, ""))
        return Reader((self.folder / "town.glb").read_bytes())


def rounded(corners):
    return [tuple(round(part, 4) + 0.0 for part in corner) for corner in corners]


class Obj(Files):
    def test_corners_come_to_the_ends_of_the_box(self):
        mesh = read_obj(self.folder / "window.obj")
        pane, frame = mesh.parts
        self.assertEqual(pane.corners, [(0, 0, 0), (1, 0, 0), (0, 1, 0)])
        self.assertEqual(frame.corners, [(0, 0, 1), (1, 0, 1), (0, 1, 1)])
        self.assertEqual((pane.surface.opacity, frame.surface.shown()), (0.25, (255, 0, 0)))
        self.assertEqual([part.surface.material() for part in mesh.parts], ["glass", "plain"])

    def test_a_flat_mesh_lies_at_the_beginning_and_a_line_may_go_on(self):
        path = self.write("flat.obj", "v 1 1 5\nv 3 1 5\nv 1 2 \\\n5\nvt 0 0\nvt 1 0\nvt 0 1\nf 1/1 2/2 3/3\n")
        (part,) = read_obj(path).parts
        self.assertEqual(part.corners, [(0, 0, 0), (1, 0, 0), (0, 1, 0)])
        self.assertEqual(part.maps, [(0, 1), (1, 1), (0, 0)])  # v of an OBJ counts up, and of a glTF file down

    def test_what_cannot_be_read_is_told_by_its_line(self):
        for text, told in (
            ("v 0 0\n", "bad.obj:1: `v 0 0` is no line of an OBJ file"),
            ("v 0 0 0\nf 1 0 1\n", "bad.obj:2: `f 1 0 1` is no line"),
            ("v 0 0 0\nf 1 1 7\n", "bad.obj: a face names vertex 7, and 1 are there"),
            ("v 0 0 0\n", "bad.obj: the mesh has no face"),
            ("mtllib no.mtl\n", "no.mtl: no such file is there"),
            ("v 0 nan 0\n", "bad.obj:1: `v 0 nan 0` is no line"),
        ):
            with self.subTest(text):
                self.write("bad.obj", text)
                status, out, fault = called("glb", "--mesh", "window=bad.obj", "town.obj", "x.glb", folder=self.folder)
                self.assertEqual((status, out, fault.count("\n")), (2 if "no.mtl" in told else 1, "", 1))
                self.assertIn(told, fault)
                self.assertFalse((self.folder / "x.glb").exists())


def a_glb(places=(0, 0, 0, 2, 0, 0, 0, 4, 0), **more):
    """A triangle in a node that is turned by 90 degrees about Y and twice as large, below one that is moved."""
    made = Glb()
    view = made.view(png([b"\x80\x40\x20" * 2] * 2))
    image = made.add("images", {"bufferView": view, "mimeType": "image/png"})
    texture = made.add("textures", {"source": image, "sampler": made.add("samplers", {"wrapS": 33071})})
    rough = {"baseColorFactor": [0.1, 0.2, 0.3, 0.5], "baseColorTexture": {"index": texture}, "roughnessFactor": 0}
    made.add("materials", {"name": "pane", "alphaMode": "BLEND", "pbrMetallicRoughness": rough})
    flat = array("f", places)
    part = {
        "attributes": {
            "POSITION": made.accessor(flat, "VEC3", VERTICES, [flat[axis::3] for axis in range(3)]),
            "TEXCOORD_0": made.accessor(array("f", [0, 0, 1, 0, 0, 1]), "VEC2", VERTICES),
        },
        "indices": made.accessor(array("H", [0, 1, 2]), "SCALAR", INDICES),
        "material": 0,
        **more,
    }
    s = math.sqrt(0.5)
    turned = {"rotation": [0, s, 0, s], "scale": [2, 2, 2], "mesh": made.add("meshes", {"primitives": [part]})}
    return made.file([made.add("nodes", {"translation": [7, 8, 9], "children": [made.add("nodes", turned)]})])


class OfGlb(Files):
    def test_nodes_and_materials_are_kept(self):
        """Ry(90) takes (x, y, z) to (z, y, -x): the triangle is flat along X, and its (2, 0, 0) lies at -4 along Z."""
        (self.folder / "window.glb").write_bytes(a_glb())
        mesh = read_glb(self.folder / "window.glb")
        self.assertEqual([round(part, 6) for part in mesh.low], [7, 8, 5])
        self.assertEqual([round(part, 6) for part in mesh.span], [0, 8, 4])
        self.assertEqual(rounded(mesh.parts[0].corners), [(0, 0, 1), (0, 0, 0), (0, 1, 1)])
        reader = self.glb("--mesh", "window=window.glb")
        pane = next(told for told in reader.told["materials"] if told["name"] == "pane")
        self.assertEqual(pane["alphaMode"], "BLEND")
        self.assertEqual(pane["pbrMetallicRoughness"]["baseColorFactor"], [0.1, 0.2, 0.3, 0.5])
        texture = reader.told["textures"][pane["pbrMetallicRoughness"]["baseColorTexture"]["index"]]
        self.assertEqual(reader.told["samplers"][texture["sampler"]], {"wrapS": 33071})
        picture = reader.view(reader.told["images"][texture["source"]]["bufferView"])
        self.assertEqual(picture, png([b"\x80\x40\x20" * 2] * 2))
        # (0, 0, 1) of the box stands at (2 + 8, 1, 3), (0, 0, 0) at (2, 1, 3), (0, 1, 1) at (10, 7, 3)
        ((_, _, corners, told),) = [found for found in reader.world() if found[1] == "pane"]
        self.assertEqual(rounded(corners), [(10, 1, 3), (2, 1, 3), (10, 7, 3)])
        self.assertEqual([uv for _, _, uv in told], [(0, 0), (1, 0), (0, 1)])

    def test_what_cannot_be_read_is_told(self):
        sound = a_glb()
        for data, told in (
            (b"solid", "isn't a glTF file in one piece"),
            (sound[:60], "is cut off"),
            (sound.replace(b'"version":"2.0"', b'"version":"2.0","extensionsRequired":["KHR_draco"]'), "isn't a"),
            (a_glb(indices=99), "isn't a sound glTF file"),
            (a_glb(mode=1), "its scene has no triangle"),
            (a_glb(places=(0, 0, 0, 1, 0, 0)), "a triangle whose corner isn't there"),
        ):
            with self.subTest(told):
                (self.folder / "bad.glb").write_bytes(data)
                status, _, fault = called("glb", "--mesh", "window=bad.glb", "town.obj", "x.glb", folder=self.folder)
                self.assertEqual((status, fault.count("\n")), (1, 1))
                self.assertIn(told, fault)


class InGlb(Files):
    def test_corners_come_to_known_places(self):
        for words in ((), ("--gpu-instancing",)):
            with self.subTest(words):
                reader = self.glb("--mesh", "window=window.obj", *words)
                found = {name: corners for _, name, corners, _ in reader.world() if name != "wall"}
                self.assertEqual({name: rounded(corners) for name, corners in found.items()}, own_window.STANDS)
                self.assertEqual("extensionsUsed" in reader.told, bool(words))

    def test_materials_and_nodes(self):
        told = self.glb("--mesh", "window=window.obj").told
        materials = {material["name"]: material for material in told["materials"]}
        self.assertEqual(set(materials), {"wall", "pane", "frame"})
        pane = materials["pane"]
        self.assertEqual(pane["alphaMode"], "BLEND")
        for part, wanted in zip(pane["pbrMetallicRoughness"]["baseColorFactor"], [own_window.HALF] * 3 + [0.25]):
            self.assertAlmostEqual(part, wanted)
        self.assertNotIn("alphaMode", materials["frame"])
        shared = next(number for number, mesh in enumerate(told["meshes"]) if mesh["name"] == "window")
        self.assertEqual([node["name"] for node in told["nodes"] if node.get("mesh") == shared], ["a#0"])
        kinds = {
            told["accessors"][part["indices"]]["componentType"]
            for mesh in told["meshes"]
            for part in mesh["primitives"]
        }
        self.assertEqual(kinds, {5123})

    @unittest.skipUnless(ASSIMP, "assimp isn't there")
    def test_assimp_has_it_where_it_stands(self):
        self.glb("--mesh", "window=window.obj")
        words = [ASSIMP, "dump", self.folder / "town.glb", self.folder / "out.assxml"]
        subprocess.run(words, stdout=subprocess.DEVNULL, stderr=subprocess.DEVNULL, check=True)
        text = (self.folder / "out.assxml").read_text(encoding="utf-8", errors="replace")
        matrices = dict(re.findall(r'<Node name="([^"]*)">\s*<Matrix4>([^<]*)', text))
        found = [round(float(word), 4) + 0.0 for word in matrices["a#0"].split()]
        # X, Y and Z of the box point along -Z, Y and X of the world; the lot's node is moved to its low corner, (0, 0, -7)
        self.assertEqual(found, [0, 0, 8, 2, 0, 6, 0, 1, -10, 0, 0, 10, 0, 0, 0, 1])
        self.assertEqual([float(word) for word in matrices["a"].split()[3::4]], [0, 0, -7, 1])

    def test_a_solid_without_depth_has_the_mesh_pressed_flat(self):
        """The quad's box has no depth: all corners of the window lie in the plane of the wall, in the lot's own mesh."""
        reader = self.glb("--mesh", "wall=window.obj")
        found = [rounded(corners) for _, name, corners, _ in reader.world() if name in ("pane", "frame")]
        self.assertEqual(found, [[(0, 0, 0), (1, 0, 0), (0, 1, 0)]] * 2)
        self.assertEqual([node["name"] for node in reader.told["nodes"]], ["a", "town"])

    def test_a_symbol_that_draws_nothing_and_a_wrong_word(self):
        wrong = (("wndow=window.obj", 1, "nothing is drawn by `wndow`"), ("window", 2, "isn't SYMBOL=FILE"))
        for word, status, told in (
            *wrong,
            ("window=window.fbx", 2, "`window.fbx` is no mesh: a mesh is a file that ends in .obj or .glb"),
        ):
            found = called("glb", "--mesh", word, "town.obj", "x.glb", folder=self.folder)
            self.assertEqual(found[0], status)
            self.assertIn(told, found[2])


class OnPage(Files):
    def state(self, *words, town="town.obj"):
        self.assertEqual(called("view", *words, town, "town.html", folder=self.folder), (0, "", ""))
        text = (self.folder / "town.html").read_text(encoding="utf-8")
        (given,) = re.findall(r"^const given = (.*);$", text, re.MULTILINE)
        state = State()
        state.take(zlib.decompress(base64.b64decode(json.loads(given)["packed"])))
        return state

    def stands(self, state, mesh, floats):
        """Where the corners of a mesh come, by the tone of their part: the place, and each coordinate along an axis."""
        told, found = state.head["meshes"][mesh], {}
        place, size, code = floats[:3], floats[4:7], int(floats[7])
        ways = [code % 6, code // 6 % 6, code // 36]
        tones = [tuple(tone[1:]) for tone in told["tones"] for _ in range(tone[0])]
        for corner, tone in zip(told["corners"], tones):
            at = [a + b for a, b in zip(place, state.head["offset"])]
            for part, long, way in zip(corner, size, ways):
                at[way // 2] += part * long * (-1 if way % 2 else 1)
            found.setdefault(tone, []).append(tuple(at))
        return found

    def test_corners_come_to_known_places(self):
        """The corners and the tones that the page is given; each instance is told once, and the mesh once."""
        state = self.state("--mesh", "window=window.obj")
        (mesh,) = [name for name in state.tables if name.startswith("own_")]
        (floats,) = state.tables[mesh].values()
        grey, glass = round(255 * 0.5), MATERIALS.index("glass")
        self.assertEqual(
            self.stands(state, mesh, floats),
            {(grey, grey, grey, glass): own_window.STANDS["pane"], (255, 0, 0, 0): own_window.STANDS["frame"]},
        )

    def test_a_solid_at_another_angle_has_a_mesh_along_the_worlds_axes(self):
        """By 30 degrees, X points to (c, 0, -s): the corner at (1, 0, 0) of the box comes to (10 c, 0, -10 s) of it."""
        c, s = math.cos(math.radians(30)), math.sin(math.radians(30))
        solid = ("a", "window", "cube", (2, 1, 3), [(c, 0, -s), (0, 1, 0), (s, 0, c)], (10, 6, 8))
        self.write("turned.obj", solid_table.text([solid]))
        state = self.state("--mesh", "window=window.obj", town="turned.obj")
        ((mesh, slots),) = state.tables.items()
        found = [rounded(some) for some in self.stands(state, mesh, slots[0]).values()]
        wanted = [(0, 0, 0), (10 * c, 0, -10 * s), (0, 6, 0)], [
            (8 * s, 0, 8 * c),
            (10 * c + 8 * s, 0, 8 * c - 10 * s),
            (8 * s, 6, 8 * c),
        ]
        for some, other in zip(found, wanted):
            for one, two in zip(some, other):
                self.assertLess(math.dist(one, [a + b for a, b in zip(two, (2, 1, 3))]), 1e-3)


class InUsda(Files):
    def usda(self, *words, town="town.obj"):
        status, said, fault = called("usda", *words, town, "town.usda", folder=self.folder)
        self.assertEqual((status, fault), (0, ""))
        return UsdaReader((self.folder / "town.usda").read_text(encoding="utf-8"))

    def test_corners_come_to_known_places(self):
        reader = self.usda("--mesh", "window=window.obj")
        self.assertEqual(reader.head, {"defaultPrim": '"town"', "metersPerUnit": 1, "upAxis": '"Y"'})
        found = {name: rounded(corners) for name, corners in reader.world()}
        self.assertEqual(found.pop("wall"), [(0, 0, 0), (1, 0, 0), (1, 1, 0), (0, 1, 0)])
        self.assertEqual({name.split("_")[1]: corners for name, corners in found.items()}, own_window.STANDS)
        (pane,) = [name for name in found if "pane" in name]
        shader = reader.at(f"town/materials/{pane}/surface").values
        self.assertEqual((shader["info:id"], shader["inputs:opacity"]), ('"UsdPreviewSurface"', 0.25))
        for part in shader["inputs:diffuseColor"]:
            self.assertAlmostEqual(part, own_window.HALF)
        window = reader.at("town/instances/window").values
        self.assertEqual(window["primvars:id"], ['"a#0"'])

    def test_solids_stand_where_they_were_printed_in_feet_and_far_out(self):
        """Each kind of solid, at an angle: the corners are those of the OBJ text, from the offset on."""
        axes = [(0.8, 0, -0.6), (0, 1, 0), (0.6, 0, 0.8)]
        solids = [
            (lot, f'{kind} of\n"{lot}"' if lot == "1" else kind, kind, (20000 + 12 * at, 1, 5), axes, (10, 6, 8))
            for lot in ("a", "1")
            for at, kind in enumerate(solid_table.SOLIDS)
        ]
        self.write("solids.obj", solid_table.text(solids))
        town = read_town(self.folder / "solids.obj")
        for words in ((), ("--instances",)):
            reader = self.usda("--metres", "0.3048", *words, town="solids.obj")
            self.assertEqual(reader.head["metersPerUnit"], 0.3048)
            offset = reader.stage["town"].head["customData"]["offset"]
            self.assertEqual(offset, [20000, 0, 0])
            found = sorted(rounded(corners) for _, corners in reader.world())
            faces = (face for solid in town.solids() for face in solid.faces)
            wanted = sorted([[tuple(a - b for a, b in zip(town.points[at], offset)) for at in face] for face in faces])
            self.assertEqual(len(found), len(wanted))
            for some in wanted:
                near = min(
                    max(math.dist(a, b) for a, b in zip(some, other)) for other in found if len(other) == len(some)
                )
                self.assertLess(near, 1e-3)

    def test_another_ending_is_refused(self):
        status, _, fault = called("usda", "town.obj", "town.usdz", folder=self.folder)
        self.assertEqual(status, 2)
        self.assertIn("town.usdz has to end in .usda", fault)


PLATES = (
    "mtllib plates.mtl\nusemtl grey\nv 0 0 0\nv 4 0 0\nv 4 0 4\nv 0 0 4\nf 4 3 2 1\n"
    "usemtl red\nv 2 1 0\nv 4 1 0\nv 4 1 2\nv 2 1 2\nf 8 7 6 5\n"
)


class InPictures(Files):
    def place(self, by):
        """The middle of what is red in a picture from above, as parts of the picture."""
        words = ("--by", by, "--mesh", "block=plates.obj", "block.obj", "p.png", "top", "120x90")
        status, _, fault = called("picture", *words, folder=self.folder)
        self.assertEqual(status, 0, fault)
        rows, found = unpacked((self.folder / "p.png").read_bytes(), 120, 90), []
        for y, row in enumerate(rows):
            for x in range(120):
                red, green, blue = row[3 * x : 3 * x + 3]
                found += [(x + 0.5, y + 0.5)] if red > 1.5 * max(green, blue) else []
        return [sum(axis) / len(axis) for axis in zip(*found)]

    def test_a_plate_is_seen_where_it_lies(self):
        """The block of 12 by 12 fills nine tenths of the height of 90: 6.75 pixels a unit. The red quarter has its middle 3 units
        to the right of the block's and 3 behind, at (60 + 20.25, 45 - 20.25)."""
        self.write("plates.obj", PLATES)
        self.write("plates.mtl", "newmtl grey\nKd .5 .5 .5\nnewmtl red\nKd .8 .05 .05\n")
        upright = own_window.UPRIGHT
        self.write("block.obj", solid_table.text([("a", "block", "cube", (40, 0, 7), upright, (12, 2, 12))]))
        for axis, wanted in zip(self.place("python"), (80.25, 24.75)):
            self.assertLess(abs(axis - wanted), 1.5)
        if CHROMIUM:  # whose view from above leaves another margin
            x, y = self.place("chromium")
            self.assertTrue(68 < x < 85 and 22 < y < 38 and abs((x - 60) - (45 - y)) < 2, (x, y))


if __name__ == "__main__":
    unittest.main()
