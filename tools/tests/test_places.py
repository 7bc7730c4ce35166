"""The places of solids, put together again and compared with the OBJ; ids from traces; what is written."""
import csv
import json
import math
import random
import sys
import tempfile
import unittest
from fractions import Fraction
from itertools import product
from pathlib import Path

TESTS = Path(__file__).resolve().parent
TOP = TESTS.parent.parent
sys.path[:0] = [str(TESTS), str(TESTS.parent)]

import solid_table  # noqa: E402
from in_process import called  # noqa: E402
from cga_city_lib.call import Refused  # noqa: E402
from cga_city_lib.ids import ids, steps_in  # noqa: E402
from cga_city_lib.obj import Town, read_town  # noqa: E402
from cga_city_lib.obj_instances import from_town  # noqa: E402
from cga_city_lib.places import places, quaternion  # noqa: E402

UPRIGHT = [(1, 0, 0), (0, 1, 0), (0, 0, 1)]
SIZES = [(10.0, 6.0, 8.0), (0.9, 1.2, 0.06), (3.0, 2.0, 7.5), (4.0, 2.5, 4.0)]


def by_quaternion(turn, point):
    """The point turned, as v + 2w (q x v) + 2 q x (q x v)."""
    x, y, z, w = turn

    def times(a, b):
        return (a[1] * b[2] - a[2] * b[1], a[2] * b[0] - a[0] * b[2], a[0] * b[1] - a[1] * b[0])

    once = times((x, y, z), point)
    twice = times((x, y, z), once)
    return tuple(p + 2 * w * a + 2 * b for p, a, b in zip(point, once, twice))


def places_in(lines):
    return list(places(from_town(Town(lines)).lots))


def apart(kind, corner, turn, size, points):
    """How far the solid of a place is from the corners that were printed."""
    again, _ = solid_table.local(kind, size)
    return max(
        math.dist([a + b for a, b in zip(by_quaternion(turn, point), corner)], other)
        for point, other in zip(again, points)
    )


def corners_of(town):
    for solids in town.lots.values():
        for solid in solids:
            yield [town.points[at] for at in sorted({at for face in solid.faces for at in face})]


class PutTogether(unittest.TestCase):
    def check(self, town):
        far, found = 0.0, list(places(from_town(town).lots))
        for place, points in zip(found, corners_of(town)):
            size = tuple(map(float, place.size))
            far = max(far, apart(place.kind, tuple(map(float, place.corner)), quaternion(place.axes), size, points))
        self.assertLess(far, 5e-4)
        return found

    def test_each_kind_in_each_frame(self):
        """In the 24 frames, in others, and far from the origin."""
        draw = random.Random(1)
        for angle in (0, 2.0):
            c, s = math.cos(angle), math.sin(angle)
            made = [
                (
                    "a",
                    "s",
                    kind,
                    [draw.uniform(-50, 50) + draw.choice((0, 2683141)) for _ in range(3)],
                    [(c * x + s * z, y, c * z - s * x) for x, y, z in frame],
                    size,
                )
                for frame in solid_table.frames()
                for kind in solid_table.SOLIDS
                for size in SIZES
            ]
            town = Town(solid_table.text(made).split("\n"))
            found = self.check(town)
            self.assertEqual(
                [(place.kind, place.ridge) for place in found],
                [(kind, solid_table.ridge(kind, size)) for _, _, kind, _, _, size in made],
            )
            for place, (*_, axes, size) in zip(found, made):
                for axis, other in zip(place.axes, axes):
                    self.assertLess(math.dist(axis, other), 1e-4)

    def test_stored_towns(self):
        self.check(read_town(TOP / "examples" / "shops.out"))

    def test_the_example_of_the_language(self):
        """After Ry(90) a scope of size (10, 6, 8) reaches from (0, 0, -10) to (8, 6, 0)."""
        (place,) = places_in(
            solid_table.text([("a", "s", "cube", (0, 0, 0), [(0, 0, -1), (0, 1, 0), (1, 0, 0)], (10, 6, 8))]).split(
                "\n"
            )
        )
        self.assertEqual((place.corner, place.size), ((0, 0, 0), (10, 6, 8)))
        for part, wanted in zip(quaternion(place.axes), (0, math.sqrt(0.5), 0, math.sqrt(0.5))):
            self.assertAlmostEqual(part, wanted)

    def test_numbers_are_exact(self):
        """A float of 64 bits can't hold them."""
        lines = solid_table.text([("a", "s", "quad", (0, 0, 0), UPRIGHT, (0.1, 3, 0))]).split("\n")
        lines = [
            line.replace("v 0.000000", "v 268314100000.100000").replace("v 0.100000", "v 268314100000.200001")
            for line in lines
        ]
        (place,) = places_in(lines)
        self.assertEqual((place.corner[0], place.size[0]), (Fraction("268314100000.1"), Fraction("0.100001")))

    def test_a_size_that_was_rounded_away(self):
        for kind in ("cube", "shed", "gable", "hip"):
            self.check(Town(solid_table.text([("a", "s", kind, (1, 2, 3), UPRIGHT, (4, 5, 1e-8))]).split("\n")))

    def test_what_print_does_not_draw(self):
        with self.assertRaisesRegex(Refused, "solid 0 of lot `a` is none that `print` draws"):
            places_in("o a\ng b\nv 0 0 0\nv 1 0 0\nv 0 1 0\nf 1 2 3\n".split("\n"))
        with self.assertRaisesRegex(Refused, "mirror image"):
            places_in(
                solid_table.text([("a", "s", "shed", (0, 0, 0), [(1, 0, 0), (0, 1, 0), (0, 0, -1)], (4, 5, 3))]).split(
                    "\n"
                )
            )


class OtherPrograms(unittest.TestCase):
    """The table "Axes" of docs/ENGINES.md: each program's box, scaled, turned and moved, is the place's in its own axes."""

    ROWS = {  # how a point comes over, and from the place's numbers the corner, the quaternion, the sizes, and where its box begins
        "Blender": (
            lambda x, y, z: (x, -z, y),
            lambda x, y, z, w: (x, -z, y, w),
            lambda w, h, d: (w, d, h),
            (0, -1, 0),
        ),
        "Unity": (lambda x, y, z: (-x, y, z), lambda x, y, z, w: (x, -y, -z, w), lambda w, h, d: (w, h, d), (-1, 0, 0)),
        "Unreal": (
            lambda x, y, z: (100 * x, 100 * z, 100 * y),
            lambda x, y, z, w: (-x, -z, -y, w),
            lambda w, h, d: (100 * w, 100 * d, 100 * h),
            (0, 0, 0),
        ),
    }

    def test_each_program_has_the_same_box(self):
        corner, size = (3, 4, 5), (2, 7, 0.5)
        for over, turned, sized, low in self.ROWS.values():
            for frame in solid_table.frames():
                turn = quaternion([tuple(map(float, axis)) for axis in frame])
                box = [tuple(part * share for part, share in zip(size, shares)) for shares in product((0, 1), repeat=3)]
                wanted = {
                    tuple(
                        round(part, 6) + 0.0
                        for part in over(*(a + b for a, b in zip(by_quaternion(turn, point), corner)))
                    )
                    for point in box
                }
                there = [
                    tuple((a + b) * part for a, b, part in zip(low, shares, sized(*size)))
                    for shares in product((0, 1), repeat=3)
                ]
                found = {
                    tuple(round(a + b, 6) + 0.0 for a, b in zip(by_quaternion(turned(*turn), point), over(*corner)))
                    for point in there
                }
                self.assertEqual(found, wanted)


# rules: house -> wall gap roof; wall -> I("cube") I("cube"); gap -> NIL; roof -> ridge I("quad"); ridge -> I("gable")
TRACE = """# trace 5
# step b / house - - 3
# step b /0 wall - - 2
# step b /1 gap none - 0
# step b /2 roof - - 2
# step b /2/0 ridge - - 1
"""
DRAWN = [
    ("b", "wall", "cube", (0, 0, 0), UPRIGHT, (2, 3, 1)),
    ("b", "wall", "cube", (0, 3, 0), UPRIGHT, (2, 3, 1)),
    ("b", "ridge", "gable", (0, 6, 0), UPRIGHT, (2, 1, 1)),
    ("b", "roof", "quad", (0, 6, 0), UPRIGHT, (2, 1, 0)),
]


class Ids(unittest.TestCase):
    def setUp(self):
        folder = tempfile.TemporaryDirectory()
        self.addCleanup(folder.cleanup)
        self.folder = Path(folder.name)
        self.town = Town(solid_table.text(DRAWN).split("\n")).lots

    def steps(self, text):
        return steps_in(text)

    def test_solids_are_what_was_never_expanded(self):
        self.assertEqual(ids(self.town, self.steps("# ok\n" + TRACE)), {"b": ["b/0/0", "b/0/1", "b/2/0/0", "b/2/1"]})

    def test_the_last_trace_counts(self):
        self.assertEqual(
            ids(self.town, self.steps("# trace 1\n# step a / house - - 1\n# ok\n" + TRACE))["b"][0], "b/0/0"
        )

    def test_paths_go_by_numbers(self):
        steps = self.steps("# trace 1\n# step a / wall - - 11\n")
        town = Town(solid_table.text([("a", "wall", "quad", (0, 0, 0), UPRIGHT, (1, 1, 0))] * 11).split("\n")).lots
        self.assertEqual(ids(town, steps)["a"], [f"a/{number}" for number in range(11)])

    def test_without_a_trace(self):
        self.assertIsNone(self.steps("# ok\n"))
        self.assertEqual(ids(self.town, None), {"b": ["b#0", "b#1", "b#2", "b#3"]})

    def test_a_trace_of_another_town(self):
        with self.assertRaisesRegex(Refused, "other solids of lot `b`"):
            ids(self.town, self.steps("# trace 1\n# step b / wall - - 4\n"))
        with self.assertRaisesRegex(Refused, "other solids of lot `b`"):
            ids(self.town, self.steps("# trace 0\n"))


class Tool(unittest.TestCase):
    def setUp(self):
        folder = tempfile.TemporaryDirectory()
        self.addCleanup(folder.cleanup)
        self.folder = Path(folder.name)
        self.source = self.folder / "town.obj"

    def call(self, target, *words):
        return called("places", *words, self.source, self.folder / target)

    def test_a_table(self):
        self.source.write_text(solid_table.text(DRAWN) + TRACE, encoding="utf-8")
        status, said, _ = self.call("places.csv")
        self.assertEqual(
            (status, said.split(": ")[1]), (0, "4 places, offset 0 0 0, 1 unit = 1 m; ids stay over edits\n")
        )
        with open(self.folder / "places.csv", newline="", encoding="utf-8") as file:
            rows = list(csv.reader(file))
        self.assertEqual(rows[0], "id lot symbol kind ridge x y z qx qy qz qw w h d".split())
        self.assertEqual(rows[3], "b/2/0/0 b ridge gable x 0 6 0 0 0 0 1 2 1 1".split())
        self.assertEqual(rows[4], ["b/2/1", "b", "roof", "quad", "", *"0 6 0 0 0 0 1 2 1 0".split()])

    def test_metres_and_an_offset(self):
        self.source.write_text(
            solid_table.text([("a", "s", "cube", (10, 20, 30), UPRIGHT, (1, 2, 3))]), encoding="utf-8"
        )
        self.assertEqual(self.call("p.json", "--offset", "8", "-1", "0.5", "--metres", "0.3048")[0], 0)
        told = json.loads((self.folder / "p.json").read_text(encoding="utf-8"), parse_float=str, parse_int=str)
        self.assertEqual((told["metres"], told["offset"]), ("0.3048", ["8", "-1", "0.5"]))
        (place,) = told["places"]
        self.assertEqual(
            (place["corner"], place["size"]), (["0.6096", "6.4008", "8.9916"], ["0.3048", "0.6096", "0.9144"])
        )
        self.assertEqual((place["id"], place["turn"]), ("a#0", ["0", "0", "0", "1"]))

    def test_a_town_on_a_map_has_an_offset(self):
        self.source.write_text(
            solid_table.text([("a", "s", "cube", (2683141, 400, -1247942), UPRIGHT, (1, 2, 3))]), encoding="utf-8"
        )
        self.assertIn("offset 2683000 0 -1248000", self.call("places.csv")[1])

    def test_names_are_data(self):
        """A lot and a symbol with signs that mean something elsewhere."""
        names = ["a b", '"', "=1+1", "$(x)", "<&>", "a,b"]
        self.source.write_text(
            solid_table.text([(name, name, "quad", (0, 0, 0), UPRIGHT, (1, 1, 0)) for name in names]), encoding="utf-8"
        )
        self.assertEqual([self.call(target)[0] for target in ("p.csv", "p.json")], [0, 0])
        with open(self.folder / "p.csv", newline="", encoding="utf-8") as file:
            self.assertEqual([row[1:3] for row in csv.reader(file)][1:], [[name, name] for name in names])
        told = json.loads((self.folder / "p.json").read_text(encoding="utf-8"))
        self.assertEqual([place["symbol"] for place in told["places"]], names)

    def test_what_cannot_be_taken(self):
        self.source.write_text("o a\ng b\nv 0 0 0\nv 1 0 0\nv 0 1 0\nf 1 2 3\n", encoding="utf-8")
        status, said, fault = self.call("places.csv")
        self.assertEqual((status, said, fault.count("\n")), (1, "", 1))
        self.assertFalse((self.folder / "places.csv").exists())
        for bad, why in (
            ("v nan 0 0\nf 1 1 1", "three numbers below"),
            ("v 0 0\nf 1 1 1", "three numbers below"),
            ("v 0 0 0\nf 1 1", "three vertices or more"),
            ("v a 0 0\nf 1 1 1", "three numbers below"),
            ("v 0 0 0\nf 1 2 1", "vertex 2"),
            ("", "nothing is drawn"),
        ):
            self.source.write_text(f"o a\ng b\n{bad}\n", encoding="utf-8")
            status, _, said = self.call("places.csv")
            self.assertEqual(status, 1)
            self.assertIn(why, said)
        self.assertEqual(self.call("places.txt")[0], 2)
        self.assertEqual(self.call("places.csv", "--metres", "0")[0], 1)
        self.assertEqual(self.call("places.csv", "--offset", "a", "b", "c")[0], 2)


if __name__ == "__main__":
    unittest.main()
