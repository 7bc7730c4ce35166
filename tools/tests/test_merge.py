"""Merged towns: the same faces by lot and symbol, an offset, textures that run on, and materials."""
import json
import math
import re
import sys
import tempfile
import unittest
from pathlib import Path

TESTS = Path(__file__).resolve().parent
sys.path[:0] = [str(TESTS), str(TESTS.parent)]

import solid_table  # noqa: E402
from in_process import called  # noqa: E402
from cga_city_lib.obj import read_town  # noqa: E402

UPRIGHT = [(1, 0, 0), (0, 1, 0), (0, 0, 1)]


class Merge(unittest.TestCase):
    def setUp(self):
        folder = tempfile.TemporaryDirectory()
        self.addCleanup(folder.cleanup)
        self.folder = Path(folder.name)
        self.source, self.merged = self.folder / "town.obj", self.folder / "merged.obj"

    def call(self, *words):
        return called("merge", *words)

    def test_the_same_faces(self):
        old = TESTS / "old.obj"
        self.assertEqual(
            self.call(old, self.merged), (0, f"{self.merged}: 4 meshes of 5 solids, offset 0 0 0, 1 unit = 1 m\n", "")
        )
        before, after = read_town(old), read_town(self.merged)
        self.assertEqual(before.texts, after.texts)
        for lot in before.lots:
            faces = [
                sorted((solid.symbol, face) for solid in town.lots[lot] for face in solid.faces)
                for town in (before, after)
            ]
            self.assertEqual(*faces)
        materials = re.findall(
            "^newmtl (.*)", self.merged.with_suffix(".mtl").read_text(encoding="utf-8"), re.MULTILINE
        )
        self.assertEqual(
            set(materials), set(re.findall("^usemtl (.*)", self.merged.read_text(encoding="utf-8"), re.MULTILINE))
        )

    def test_a_town_on_a_map_loses_no_digit(self):
        """What is left of it is small, and as exact as it was printed."""
        self.source.write_text(
            solid_table.text([("a", "s", "quad", (2683141.125, 402, 1247942.5), UPRIGHT, (0.06, 3, 0))]),
            encoding="utf-8",
        )
        status, said, _ = self.call(self.source, self.merged)
        self.assertEqual((status, said.split(", ", 1)[1]), (0, "offset 2683000 0 1247000, 1 unit = 1 m\n"))
        self.assertEqual(read_town(self.merged).texts[:2], [("141.125", "402", "942.5"), ("141.185", "402", "942.5")])
        self.assertIn(
            "# cga_city, merged, offset 2683000 0 1247000, 1 unit = 1 m\n", self.merged.read_text(encoding="utf-8")
        )

    def test_feet(self):
        self.source.write_text(solid_table.text([("a", "s", "quad", (10, 0, 0), UPRIGHT, (1, 1, 0))]), encoding="utf-8")
        self.assertEqual(self.call("--metres", "0.3048", "--offset", "4", "0", "0", self.source, self.merged)[0], 0)
        self.assertEqual(read_town(self.merged).texts[0], ("1.8288", "0", "0"))

    def test_one_uv_is_one_unit(self):
        c, s = math.cos(0.4), math.sin(0.4)
        self.source.write_text(
            solid_table.text(
                [
                    ("a", "s", kind, (0, 9 * row, 0), [(c, 0, -s), (0, 1, 0), (s, 0, c)], (4, 2, 7))
                    for row, kind in enumerate(solid_table.SOLIDS)
                ]
            ),
            encoding="utf-8",
        )
        self.assertEqual(self.call(self.source, self.merged)[0], 0)
        lines = [line.split() for line in self.merged.read_text(encoding="utf-8").split("\n") if line]
        points, maps = ([tuple(map(float, words[1:])) for words in lines if words[0] == kind] for kind in ("v", "vt"))
        faces = [
            [tuple(int(at) - 1 for at in word.split("/")) for word in words[1:]] for words in lines if words[0] == "f"
        ]
        self.assertEqual(len(faces), 22)
        for face in faces:
            for (a, p), (b, q) in zip(face, face[1:]):
                self.assertAlmostEqual(math.dist(points[a], points[b]), math.dist(maps[p], maps[q]), 3)

    def test_walls_that_meet_share_u_and_v(self):
        self.source.write_text(
            solid_table.text(
                [
                    ("a", "wall", "quad", (0, 0, 5), UPRIGHT, (2.5, 3, 0)),
                    ("b", "wall", "quad", (2.5, 0, 5), UPRIGHT, (4, 3, 0)),
                ]
            ),
            encoding="utf-8",
        )
        self.call(self.source, self.merged)
        self.assertEqual(
            re.findall("^vt (.*)", self.merged.read_text(encoding="utf-8"), re.MULTILINE),
            ["0.0000 0.0000", "2.5000 0.0000", "2.5000 3.0000", "0.0000 3.0000", "6.5000 0.0000", "6.5000 3.0000"],
        )

    def test_colours_and_textures_of_ones_own(self):
        self.source.write_text(
            solid_table.text([("a", "brick", "quad", (0, 0, 0), UPRIGHT, (1, 1, 0))]), encoding="utf-8"
        )
        (self.folder / "own").mkdir()
        colours = self.folder / "own" / "colours.json"
        colours.write_text(
            json.dumps({"brick": {"colour": "ff0000", "texture": "a brick.jpg", "size": [2, 0.5]}}), encoding="utf-8"
        )
        self.assertEqual(self.call("--colours", colours, self.source, self.merged)[0], 0)
        self.assertEqual(
            (self.folder / "merged.mtl").read_text(encoding="utf-8"),
            "newmtl brick\nKd 1.0000 0.0000 0.0000\nmap_Kd -s 0.5 2 1 own/a brick.jpg\n",
        )

    def test_what_cannot_be_taken(self):
        self.assertEqual(
            self.call(self.folder / "nowhere"),
            (
                2,
                "",
                f"merge: {self.folder / 'nowhere'}: no such file is there: look at its name, and from which folder the call goes out\n",
            ),
        )
        self.source.write_text("# ok\n", encoding="utf-8")
        self.assertEqual(self.call(self.source)[0], 1)
        self.assertEqual(self.call(self.source, self.source)[0], 2)
        self.assertEqual(self.call()[0], 2)


if __name__ == "__main__":
    unittest.main()
