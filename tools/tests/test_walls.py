"""Walls with a thickness, dimensions, heights and DXF of drawings. Expected numbers are by hand."""
import re
import tempfile
import shutil
import subprocess
import unittest
import xml.etree.ElementTree as tree
from pathlib import Path

import solid_table
from in_process import called

from cga_city_lib.dxf import layer_name, number, plain
from cga_city_lib.projection import INSIDE, Face
from cga_city_lib.seen_lines import seen_lines
from cga_city_lib.walls import cut_wall, looks_away, seen_from_inside

SVG = "{http://www.w3.org/2000/svg}"
UPRIGHT, BACK = [(1, 0, 0), (0, 1, 0), (0, 0, 1)], [(-1, 0, 0), (0, 1, 0), (0, 0, -1)]
RIGHT, LEFT = [(0, 0, -1), (0, 1, 0), (1, 0, 0)], [(0, 0, 1), (0, 1, 0), (-1, 0, 0)]
# a room of 10 by 6 and 3 high, of sheets that look outwards; in a gap of the back is a window; and a slab
ROOM = solid_table.text(
    [
        ("a", "wall", "quad", (0, 0, 6), UPRIGHT, (10, 3, 0)),
        ("a", "wall", "quad", (10, 0, 0), BACK, (4, 3, 0)),
        ("a", "wall", "quad", (4, 0, 0), BACK, (4, 3, 0)),
        ("a", "wall", "quad", (10, 0, 6), RIGHT, (6, 3, 0)),
        ("a", "wall", "quad", (0, 0, 0), LEFT, (6, 3, 0)),
        ("a", "window", "cube", (6, 1, 0), BACK, (2, 1, 0.1)),
        ("a", "slab", "cube", (0, 0, 0), UPRIGHT, (10, 0.2, 6)),
    ]
)


def area(ring):
    return abs(sum(a[0] * b[1] - b[0] * a[1] for a, b in zip(ring, ring[1:] + ring[:1]))) / 2


def corners_of(path):
    return [tuple(map(float, pair.split(","))) for pair in re.findall(r"-?[\d.]+,-?[\d.]+", path.get("d"))]


class Room(unittest.TestCase):
    def setUp(self):
        folder = tempfile.TemporaryDirectory()
        self.addCleanup(folder.cleanup)
        self.town = Path(folder.name) / "room.obj"
        self.town.write_text(ROOM)

    def root(self, *words):
        status, out, said = called("plan", self.town, "--scale", "100", *words)
        self.assertEqual((status, said), (0, ""))
        return tree.fromstring(out)

    def part(self, root, name):
        return next(part for part in root.iter(f"{SVG}g") if part.get("id") == name)


class Drawings(Room):
    def test_a_plan_cuts_walls_of_their_thickness(self):
        # 10 mm for each metre: bands of 3 mm along 100, 60, 60, 40 and 40 mm, all within the room
        walls = self.part(self.root("--plan", "0.5", "--wall", "wall=0.3"), "cut.wall")
        rings = [corners_of(path) for path in walls]
        self.assertEqual(sorted(round(area(ring)) for ring in rings), [120, 120, 180, 180, 300])
        xs, ys = zip(*(at for ring in rings for at in ring))
        self.assertEqual((round(max(xs) - min(xs), 2), round(max(ys) - min(ys), 2)), (100, 60))
        self.assertTrue(all(path.get("fill") != "none" for path in walls))

    def test_without_a_thickness_a_wall_is_a_line(self):
        walls = self.part(self.root("--plan", "0.5"), "cut.wall")
        self.assertEqual([path.get("fill") for path in walls], ["none"] * 5)

    def test_the_far_side_is_plain_as_seen_from_inside(self):
        words = ("--section=-1,3,11,3", "--wall", "wall=0.3")
        seen = self.part(self.root(*words, "--wall", "window=0.3"), "seen")
        self.assertNotIn("window", {path.get("class") for path in seen})
        self.assertIn("window", {path.get("class") for path in self.part(self.root("--section=-1,3,11,3"), "seen")})
        rings = [corners_of(path) for path in self.part(self.root(*words), "cut.wall")]
        self.assertEqual([round(area(ring)) for ring in rings], [90, 90])  # 0.3 by 3

    def test_a_wall_that_is_cut_aslant_is_wider(self):
        # along 3, 4, 5: a wall of 0.3 takes 0.5 of the section's line
        quad = [[(0.0, 0.0, -2.0), (0.0, -3.0, -2.0), (8.0, -3.0, 4.0), (8.0, 0.0, 4.0)]]
        (cut,) = cut_wall(quad, "wall", 1.0, 0.3)
        us = [u for u, _ in cut.points]
        self.assertAlmostEqual(max(us) - min(us), 0.5)

    def test_which_walls_look_away(self):
        near = [[(0.0, 0.0, 0.0), (4.0, 0.0, 0.0), (4.0, -3.0, 0.0), (0.0, -3.0, 0.0)]]
        self.assertFalse(looks_away(near))
        self.assertTrue(looks_away([near[0][::-1]]))
        (face,) = seen_from_inside([near[0][::-1]], 1.0)
        self.assertEqual((face.symbol, face.normal), (INSIDE, (0.0, 0.0, 1.0)))

    def test_dimensions(self):
        root = self.root("--dimension", "0,0,3,4")
        (line, *_), texts = self.part(root, "dimensions"), self.part(root, "dimensions").iter(f"{SVG}text")
        (x, y), (u, v) = corners_of(line)
        self.assertEqual((round(u - x, 2), round(v - y, 2), [text.text for text in texts]), (30, 40, ["5.00"]))
        root = self.root(
            "--section=-1,3,11,3", "--dimension", "1,0,11,0"
        )  # from the left wall's face to the right one's
        ((x, _), (u, _)) = corners_of(self.part(root, "dimensions")[0])
        left = min(at[0] for path in self.part(root, "cut.slab") for at in corners_of(path))
        self.assertEqual((round(x - left, 2), round(u - x, 2)), (0, 100))

    def test_heights(self):
        root = self.root("--elevation", "front", "--heights", "window")
        texts = [text.text for text in self.part(root, "heights").iter(f"{SVG}text")]
        self.assertEqual(texts, ["±0.00", "+1.00", "+3.00"])

    def test_wrong_words(self):
        for words in (("--wall", "wall"), ("--wall", "=1"), ("--wall", "wall=-1"), ("--dimension", "1,1,1,1")):
            self.assertEqual(called("plan", self.town, *words)[0], 2)


class Files(Room):
    def entities(self, *words):
        """Pairs of a code and a value, off the file, in entities."""
        path = self.town.with_suffix(".dxf")
        self.root("--dxf", path, *words)
        lines = path.read_bytes().decode("ascii").split("\r\n")
        pairs = [(int(code), value) for code, value in zip(lines[::2], lines[1::2])]
        self.assertEqual((pairs[1], pairs[-1]), ((2, "HEADER"), (0, "EOF")))
        self.assertIn((1, "AC1009"), pairs)
        found, is_open = [], False
        for code, value in pairs:
            is_open = is_open and (code, value) != (0, "ENDSEC") or (code, value) == (2, "ENTITIES")
            if is_open and code == 0:
                found.append([value, {}])
            elif is_open and found:
                found[-1][1].setdefault(code, value)
        return found, [value for code, value in pairs if code == 2]

    @unittest.skipUnless(shutil.which("ogrinfo"), "ogrinfo isn't there (Debian: gdal-bin)")
    def test_gdal_reads_each_line_and_text(self):
        found, _ = self.entities()
        told = subprocess.run(
            ["ogrinfo", "-so", self.town.with_suffix(".dxf"), "entities"], check=True, capture_output=True, text=True
        ).stdout
        self.assertIn(f"Feature Count: {sum(kind in ('LINE', 'TEXT') for kind, _ in found)}\n", told)

    def test_layers(self):
        found, names = self.entities("--plan", "0.5", "--wall", "wall=0.3", "--names", "--dimension", "0,0,3,4")
        self.assertEqual({one[1][8] for one in found}, {"CUT_WALL", "SEEN_SLAB", "NAMES", "DIMENSIONS"})
        self.assertTrue({one[1][8] for one in found} <= set(names))
        (name,) = [one[1] for one in found if one[1][8] == "NAMES"]
        self.assertEqual((name[1], float(name[11]), float(name[21])), ("a", 5, -2.95))  # the window stands 0.1 out

    def test_lengths_are_the_towns(self):
        found, _ = self.entities("--plan", "0.5", "--wall", "wall=0.3")
        ends = [(float(one[1][10]), float(one[1][20])) for one in found if one[0] == "VERTEX"]
        xs, ys = zip(*ends)
        self.assertEqual((min(xs), max(xs), min(ys), max(ys)), (0, 10, -6, 0))

    def test_what_is_hidden_is_left_out(self):
        # of a far square that a near one hides the right half of, half of its lines are left
        far = Face([(0, 0, 0), (4, 0, 0), (4, 4, 0), (0, 4, 0)], "far", (0.0, 0.0, 1.0))
        near = Face([(2, -1, 3), (6, -1, 3), (6, 5, 3), (2, 5, 3)], "near", (0.0, 0.0, 1.0))
        lines = [[((0, 0), (4, 0)), ((4, 0), (4, 4)), ((4, 4), (0, 4)), ((0, 4), (0, 0))], []]
        found = list(seen_lines([far, near], lines, 700))
        self.assertEqual(len(found), 3)
        self.assertAlmostEqual(sum(abs(p[0] - q[0]) + abs(p[1] - q[1]) for _, (p, q) in found), 8, delta=0.1)

    def test_texts_and_names(self):
        self.assertEqual(
            (plain("Höhe 2"), layer_name("cut", "a.b ü"), number(-0.0)), ("H\\U+00F6he 2", "CUT_A_B__", "0")
        )


if __name__ == "__main__":
    unittest.main()
