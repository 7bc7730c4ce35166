"""Files of glTF as others read them: assimp and gltfpack, where they are installed. in_blender.py has the same for Blender."""
import json
import re
import shutil
import subprocess
import sys
import tempfile
import unittest
from pathlib import Path

TESTS = Path(__file__).resolve().parent
sys.path[:0] = [str(TESTS), str(TESTS.parent)]

import own_window  # noqa: E402
from in_process import called  # noqa: E402
from cga_city_lib.tile_glb import ends_of, glb  # noqa: E402

READERS = {"assimp": "assimp-utils", "gltfpack": "gltfpack"}
HERE = {name: shutil.which(name) for name in READERS}
for name, package in READERS.items():
    if not HERE[name]:
        print(
            f"SKIPPED: glTF isn't read by {name}, since that isn't there (apt-get install {package})", file=sys.stderr
        )
CORNERS = [(x, y, z) for x in (2, 5) for y in (0, 4) for z in (7, 9)]  # of a box in a town
FACES = ["1 2 4 3", "5 7 8 6", "1 5 6 2", "3 4 8 7", "1 3 7 5", "2 6 8 4"]
TILE = "\n".join(
    ["# cga_city obj", "o a", "g wall", *("v %d %d %d" % one for one in CORNERS), *(f"f {face}" for face in FACES), ""]
)
STANDS = {(x - 2, y, z - 7) for x, y, z in CORNERS}  # beside the tile's origin


class Readers(unittest.TestCase):
    def setUp(self):
        folder = tempfile.TemporaryDirectory()
        self.addCleanup(folder.cleanup)
        self.folder = Path(folder.name)
        (self.folder / "tile.glb").write_bytes(glb(TILE.encode(), (2, 0, 7), {"a": ("A", {"zone": "W2"})}))

    def town(self):
        own_window.put(self.folder)
        found = called("glb", "--mesh", "window=window.obj", "town.obj", "town.glb", folder=self.folder)
        self.assertEqual(found[::2], (0, ""))

    def run_(self, name, *words):
        done = subprocess.run([HERE[name], *words], cwd=self.folder, stdout=subprocess.PIPE, stderr=subprocess.STDOUT)
        self.assertEqual(done.returncode, 0, done.stdout)


@unittest.skipUnless(HERE["assimp"], "assimp isn't there")
class Assimp(Readers):
    def test_a_tile_has_its_corners(self):
        self.run_("assimp", "export", "tile.glb", "out.obj")
        text = (self.folder / "out.obj").read_text(encoding="utf-8")
        found = {tuple(map(float, line)) for line in re.findall(r"^v +(\S+) (\S+) (\S+)", text, re.MULTILINE)}
        self.assertEqual(found, STANDS)


@unittest.skipUnless(HERE["gltfpack"], "gltfpack isn't there")
class Gltfpack(Readers):
    def packed(self, name):
        self.run_("gltfpack", "-i", name, "-o", "packed.glb", "-noq", "-kn", "-km")
        data = (self.folder / "packed.glb").read_bytes()
        size = int.from_bytes(data[12:16], "little")
        return data, json.loads(data[20 : 20 + size])

    def test_a_mesh_of_ones_own_has_its_place(self):
        """The window's box is turned by Ry(90) and as large as its cube; the lot's node is moved to its low corner."""
        self.town()
        _, told = self.packed("town.glb")
        nodes = {node["name"]: node for node in told["nodes"] if "name" in node}
        window, half = nodes["a#0"], 0.5**0.5
        self.assertEqual((window["translation"], window["scale"]), ([2, 1, 10], [10, 6, 8]))
        for part, wanted in zip(window["rotation"], (0, half, 0, half)):
            self.assertAlmostEqual(part, wanted, places=6)
        self.assertEqual(nodes["a"]["translation"], [0, 0, -7])
        (below,) = window["children"]
        parts = told["meshes"][told["nodes"][below]["mesh"]]["primitives"]
        self.assertEqual({told["materials"][part["material"]]["name"] for part in parts}, {"pane", "frame"})

    def test_a_tile_has_its_box(self):
        data, _ = self.packed("tile.glb")
        self.assertEqual(ends_of(data), ([0, 0, 0], [3, 4, 2]))


if __name__ == "__main__":
    unittest.main()
