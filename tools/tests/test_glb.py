"""glTF files of towns, read again by their specification and compared with the OBJ."""
import json
import math
import sys
import tempfile
import time
import unittest
from collections import Counter
from pathlib import Path

TESTS = Path(__file__).resolve().parent
TOP = TESTS.parent.parent
sys.path[:0] = [str(TESTS), str(TESTS.parent)]

import solid_table  # noqa: E402
from glb_reader import Reader  # noqa: E402
from in_process import called  # noqa: E402
from cga_city_lib.glb import Glb  # noqa: E402
from cga_city_lib.obj import read_town  # noqa: E402
from cga_city_lib.png import png  # noqa: E402

UPRIGHT = [(1, 0, 0), (0, 1, 0), (0, 0, 1)]
MAP = (2683141, 402, 1247942)


def turned(angle):
    c, s = math.cos(angle), math.sin(angle)
    return [(c, 0, -s), (0, 1, 0), (s, 0, c)]


def a_town(at, angle):
    """A lot with each kind of solid, some of them twice, and a lot beside it."""
    sizes = [(10, 6, 8), (3, 2, 7.5), (4, 2.5, 4), (9, 2, 6)]
    solids = [
        ("a", f"{kind}{number % 2}", kind, (at[0] + 12 * number, at[1], at[2] - 9 * row), turned(angle), size)
        for row, kind in enumerate(solid_table.SOLIDS)
        for number, size in enumerate(sizes)
    ]
    return solid_table.text(solids + [("b", "cube0", "cube", (at[0], at[1], at[2] + 20), UPRIGHT, (0.9, 1.2, 0.06))])


class Files(unittest.TestCase):
    def setUp(self):
        folder = tempfile.TemporaryDirectory()
        self.addCleanup(folder.cleanup)
        self.folder = Path(folder.name)
        self.source, self.target = self.folder / "town.obj", self.folder / "town.glb"

    def call(self, *words):
        return called(TOP / "tools/glb", *words, self.source, self.target)

    def read(self, *words):
        status, self.said, fault = self.call(*words)
        self.assertEqual((status, fault), (0, ""))
        return Reader(self.target.read_bytes())


class Geometry(Files):
    def compare(self, reader, metres=1):
        """Each triangle of the OBJ stands in the file, and nothing else does, within 5e-4; it faces the same way."""
        town, wanted = read_town(self.source), {}
        for lot, solids in town.lots.items():
            for solid in solids:
                for face in solid.faces:
                    for k in range(1, len(face) - 1):
                        corners = [town.points[at] for at in (face[0], face[k], face[k + 1])]
                        wanted.setdefault((lot, solid.symbol), []).append(corners)
        found = {}
        for lot, symbol, corners, _ in reader.world():
            found.setdefault((lot, symbol), []).append(corners)
        self.assertEqual(
            Counter({key: len(some) for key, some in found.items()}),
            Counter({key: len(some) for key, some in wanted.items()}),
        )
        for key, some in wanted.items():
            for corners in some:
                near = min((max(math.dist(a, b) for a, b in zip(corners, other)) for other in found[key]))
                self.assertLess(near, 5e-4)

    def test_towns_stand_where_they_were_printed(self):
        for at, angle in (((0, 0, 0), 0), (MAP, 0.4)):
            self.source.write_text(a_town(at, angle), encoding="utf-8")
            two = ("--instance", "hip0", "--instance", "gable1")
            for words in ((), ("--instances",), two, (*two, "--gpu-instancing")):
                with self.subTest((at, angle, words)):
                    self.compare(self.read(*words))

    def test_what_floats_hold_is_near(self):
        """Far from the origin as well no number in the file is so large that a float of 32 bits is a thousandth off."""
        self.source.write_text(a_town(MAP, 0.4), encoding="utf-8")
        for words in ((), ("--instances", "--gpu-instancing")):
            reader = self.read(*words)
            (root,) = reader.told["scenes"][0]["nodes"]
            self.assertEqual(reader.told["nodes"][root]["extras"], {"offset": [2683000, 0, 1247000], "metres": 1})
            self.assertIn("offset 2683000 0 1247000, 1 unit = 1 m", self.said)
            for lot in reader.told["nodes"][root]["children"]:
                for part in reader.told["nodes"][lot]["translation"]:
                    self.assertEqual(part, int(part))
                    self.assertLess(abs(part), 2000)
            for _, _, _, corners in reader.world():
                self.assertLess(max(abs(part) for point, _, _ in corners for part in point), 100)

    def test_an_offset_and_metres_that_are_said(self):
        self.source.write_text(a_town((5, 0, 7), 0), encoding="utf-8")
        reader = self.read("--offset", "1", "2.5", "-3", "--metres", "0.3048")
        root = reader.told["nodes"][reader.told["scenes"][0]["nodes"][0]]
        self.assertEqual((root["scale"], root["extras"]), ([0.3048] * 3, {"offset": [1, 2.5, -3], "metres": 0.3048}))
        self.compare(reader)

    def test_nodes_and_extensions(self):
        self.source.write_text(a_town((0, 0, 0), 0), encoding="utf-8")
        self.assertNotIn("extensionsUsed", self.read().told)
        self.assertNotIn("extensionsUsed", self.read("--instances").told)
        told = self.read("--instances", "--gpu-instancing").told
        self.assertEqual(told["extensionsRequired"], ["EXT_mesh_gpu_instancing"])
        self.assertEqual([node["name"] for node in told["nodes"] if "translation" in node], ["a", "b"])
        # two symbols for each kind; gables by the way of their ridge, hips by their share of slope as well
        names = Counter(mesh["name"] for mesh in told["meshes"])
        self.assertEqual({name for name in names if name.startswith("cube")}, {"cube0.cube", "cube1.cube"})
        self.assertEqual(
            {name for name in names if name.startswith("gable")}, {"gable0.gable.x", "gable1.gable.z", "gable1.gable.x"}
        )
        told = self.read("--instance", "cube0").told
        self.assertEqual([mesh["name"] for mesh in told["meshes"]], ["a", "cube0.cube"])
        shared = [node["name"] for node in told["nodes"] if node.get("mesh") == 1]
        self.assertEqual(shared, ["a#0", "a#2", "b#0"])
        told = self.read("--instance", "cube0", "--gpu-instancing").told
        ids = [
            node["extras"]["ids"] for node in told["nodes"] if "EXT_mesh_gpu_instancing" in node.get("extensions", {})
        ]
        self.assertEqual(ids, [["a#0", "a#2"], ["b#0"]])

    def test_no_instance_has_a_scale_of_0(self):
        """Quads get a scale of 1 along their own Z; a cube without depth stands in the lot's mesh."""
        solids = [
            ("a", "wall", "quad", (0, 0, 0), UPRIGHT, (4, 3, 0)),
            ("a", "pane", "cube", (5, 0, 0), UPRIGHT, (1, 2, 0)),
        ]
        self.source.write_text(solid_table.text(solids), encoding="utf-8")
        reader = self.read("--instances", "--gpu-instancing")
        self.compare(reader)
        names = [mesh["name"] for mesh in reader.told["meshes"]]
        self.assertEqual(sorted(names), ["a", "wall.quad"])
        for node in reader.told["nodes"]:
            told = node.get("extensions", {}).get("EXT_mesh_gpu_instancing", {}).get("attributes", {})
            if told:
                self.assertEqual(reader.values(told["SCALE"]), [(4, 3, 1)])

    def test_normals_are_of_length_1_and_face_outwards(self):
        self.source.write_text(a_town((0, 0, 0), 0.4), encoding="utf-8")
        for _, _, world, corners in self.read().world():
            for _, normal, _ in corners:
                self.assertAlmostEqual(math.hypot(*normal), 1, 5)
                a, b = ([q - p for p, q in zip(world[0], world[k])] for k in (1, 2))
                area = (a[1] * b[2] - a[2] * b[1], a[2] * b[0] - a[0] * b[2], a[0] * b[1] - a[1] * b[0])
                self.assertGreater(sum(p * q for p, q in zip(area, normal)), 0)


class Maps(Files):
    def test_one_uv_is_one_unit_on_every_face(self):
        self.source.write_text(a_town((3, 0, 5), 0.4), encoding="utf-8")
        for _, _, world, corners in self.read().world():
            for k in range(3):
                uv = math.dist(corners[k][2], corners[k - 1][2])
                self.assertAlmostEqual(uv, math.dist(world[k], world[k - 1]), 3)

    def test_a_texture_runs_on_from_wall_to_wall(self):
        """Walls in one plane, of two lots, have the same u and v where they meet."""
        walls = [
            ("a", "wall", "quad", (0, 0, 5), UPRIGHT, (2.5, 3, 0)),
            ("a", "wall", "quad", (2.5, 0, 5), UPRIGHT, (4, 3, 0)),
            ("a", "wall", "quad", (0, 3, 5), UPRIGHT, (6.5, 2, 0)),
            ("b", "wall", "quad", (6.5, 0, 5), UPRIGHT, (3, 3, 0)),
        ]
        self.source.write_text(solid_table.text(walls), encoding="utf-8")
        found = {}
        for _, _, world, corners in self.read().world():
            for point, (_, _, uv) in zip(world, corners):
                found.setdefault(point, set()).add(uv)
        self.assertEqual({len(uvs) for uvs in found.values()}, {1})
        # u to the right, and v, which glTF counts downwards, up
        self.assertEqual((found[6.5, 0, 5], found[6.5, 3, 5]), ({(6.5, 0)}, {(6.5, -3)}))

    def test_which_way_is_up(self):
        """On each side of a cube u goes to the right as seen from outside, and v down."""
        self.source.write_text(solid_table.text([("a", "s", "cube", (0, 0, 0), UPRIGHT, (1, 1, 1))]), encoding="utf-8")
        rights = {
            (0, 0, 1): (1, 0, 0),
            (1, 0, 0): (0, 0, -1),
            (0, 0, -1): (-1, 0, 0),
            (-1, 0, 0): (0, 0, 1),
            (0, 1, 0): (1, 0, 0),
            (0, -1, 0): (1, 0, 0),
        }
        for _, _, _, corners in self.read().world():
            for point, normal, (u, _) in corners:
                self.assertAlmostEqual(u, sum(a * b for a, b in zip(point, rights[tuple(map(round, normal))])))


class Looks(Files):
    def setUp(self):
        super().setUp()
        self.source.write_text(
            solid_table.text(
                [
                    ("a", "brick_wall", "quad", (0, 0, 0), UPRIGHT, (1, 1, 0)),
                    ("a", "brick", "quad", (1, 0, 0), UPRIGHT, (1, 1, 0)),
                ]
            ),
            encoding="utf-8",
        )
        self.colours = self.folder / "colours.json"

    def test_textures_come_into_the_file_once(self):
        picture = png([b"\x80\x40\x20" * 2] * 2)
        (self.folder / "brick.png").write_bytes(picture)
        look = {"colour": "ffffff", "texture": "brick.png", "size": [2, 0.5]}
        self.colours.write_text(json.dumps({"brick": look, "brick_wall": look}), encoding="utf-8")
        reader = self.read("--colours", self.colours)
        (image,) = reader.told["images"]
        self.assertEqual((image["mimeType"], reader.view(image["bufferView"])), ("image/png", picture))
        self.assertEqual(reader.told["extensionsUsed"], ["KHR_texture_transform"])
        self.assertEqual(
            [material["pbrMetallicRoughness"]["baseColorTexture"] for material in reader.told["materials"]],
            [{"index": 0, "extensions": {"KHR_texture_transform": {"scale": [0.5, 2]}}}] * 2,
        )

    def test_a_texture_that_cannot_be_taken(self):
        self.colours.write_text('{"brick": {"texture": "brick.png"}}', encoding="utf-8")
        self.assertEqual(
            self.call("--colours", self.colours),
            (
                2,
                "",
                f"glb: {self.folder / 'brick.png'}: no such file is there: look at its name, and from which folder the call goes out\n",
            ),
        )
        (self.folder / "brick.png").write_bytes(b"GIF89a")
        status, _, fault = self.call("--colours", self.colours)
        self.assertEqual((status, fault.count("\n")), (1, 1))
        self.assertIn("has to be a PNG or a JPEG", fault)
        self.assertFalse(self.target.exists())

    def test_a_symbol_that_draws_nothing(self):
        status, _, fault = self.call("--instance", "window")
        self.assertEqual(
            (status, fault), (1, "glb: nothing is drawn by `window`; symbols that draw are brick_wall, brick\n")
        )


class Growth(unittest.TestCase):
    def test_a_file_grows_in_place(self):
        """2,000 views of 20 KB; where each copies what was there before, they move 40 GB."""
        begun, glb = time.process_time(), Glb()
        for _ in range(2000):
            glb.view(bytes(20_000))
        self.assertEqual(len(glb.bytes), 40_000_000)
        self.assertLess(time.process_time() - begun, 2)


if __name__ == "__main__":
    unittest.main()
