"""The rectangle of a parcel that isn't one: around it or within it, its front, and what overlaps. Expected numbers are by hand."""
import unittest

from parcel_maps import Called, box, polygon, street

from cga_city_lib import inner
from cga_city_lib.fitting import angle_for, box_for, front_line
from cga_city_lib.rectangle import area, corners, room, turn, turned
from cga_city_lib.streets import Streets

TRIANGLE = [(0, 0), (20, 0), (0, 10)]  # half of its 100 is in the largest rectangle
BEND = [(0, 0), (10, 0), (10, 5), (5, 5), (5, 10), (0, 10)]  # 10 by 5
WEDGE = [(0, 0), (20, 0), (15, 10), (5, 10)]  # w (20 - w) is 100 where w is 10
NOTCHED = [(0, 0), (12, 0), (12, 6), (7, 6), (7, 4), (5, 4), (5, 6), (0, 6)]  # 12 by 4


class Within(unittest.TestCase):
    def test_by_hand(self):
        for ring, size in (
            (TRIANGLE, 50),
            (BEND, 50),
            (WEDGE, 100),
            (NOTCHED, 48),
            ([(0, 0), (9, 0), (9, 4), (0, 4)], 36),
        ):
            for angle in (0, 30, 71.5):
                for some in (ring, ring[::-1]):
                    with self.subTest((size, angle)):
                        found = inner.within([turned(p, -angle) for p in some], angle)
                        self.assertAlmostEqual(room(found), size, delta=0.05)

    def test_it_is_within(self):
        for ring in (TRIANGLE, BEND, WEDGE, NOTCHED):
            found = box_for(ring, 0, "inside", 2)
            edges = inner.edges_of(ring)
            for x, z in corners(tuple(part + sign for part, sign in zip(found, (0.01, 0.01, -0.01, -0.01))), 0):
                self.assertTrue(inner.is_within(edges, x, z))

    def test_along_the_front_where_it_costs_little(self):
        # a side that is off a right angle by a little: along either side the rectangle is nearly as large
        ring = [(0, 0), (20, 0), (20, 15), (0, 14.6)]
        self.assertEqual(angle_for(ring, "inside", Streets([])), 0)
        self.assertAlmostEqual(angle_for(ring, "inside", at_street((0, 17), (20, 17.4))), 1.146, places=3)

    def test_fronts(self):
        ring = corners((0, 0, 8, 5), 0)
        sides = [{(0, 5), (8, 5)}, {(8, 0), (8, 5)}, {(0, 0), (8, 0)}, {(0, 0), (0, 5)}]
        self.assertEqual([set(front_line(ring, turns)) for turns in range(4)], sides)


def at_street(*points):
    class Line:
        lines = [points]

    return Streets([Line])


class Maps(Called):
    def metres(self, *features):
        self.write(*features, crs={"type": "name", "properties": {"name": "EPSG:25832"}})

    def test_the_word(self):
        # at its south the wedge is 20 wide, and inside of it 10 by 10 stand
        self.metres(polygon([1000, 2000], [1020, 2000], [1015, 2010], [1005, 2010], symbol="yard", name="w"))
        self.assertEqual([line.split()[5:7] for line in self.lots()], [["20", "10"]])
        found = [tuple(map(float, line.split()[5:7])) for line in self.lots("--fit", "inside")]
        for one, other in zip(found[0], (10, 10)):
            self.assertAlmostEqual(one, other, delta=0.1)
        self.assertIn(
            "a tenth smaller than their parcels: 1 of 1; that of feature 1 (`w`) is the most, by 33%",
            self.call("--fit", "inside")[2],
        )
        self.assertEqual(self.call("--fit", "middle")[0], 2)

    def test_overlaps_are_told_with_their_area(self):
        # the triangle's rectangle, of 20 by 10, lies over 6 by 6 of its neighbour, which only touches the triangle
        self.metres(
            polygon([1000, 2000], [1020, 2000], [1000, 2010], symbol="yard", name="t"),
            box(1014, 2004, 10, 8, symbol="yard", name="b"),
        )
        listed = self.top / "list.csv"
        said = self.call("--list", listed)[2]
        self.assertIn(
            "rectangles overlap in 1 place, by 36.00 square metres together; the most is 36.00 of `t` and `b`; --fit inside takes",
            said,
        )
        self.assertEqual(
            listed.read_text().split("\n")[:3],
            [
                "lot,feature,name,root,angle,area,rectangle,limit,symbol,overlap",
                "t,1,t,yard,0,100.00,200.00,,yard,36.00",
                "b,2,b,yard,0,80.00,80.00,,yard,36.00",
            ],
        )
        self.assertNotIn("overlap", self.call("--fit", "inside")[2])

    def test_neighbours_that_touch_do_not_overlap(self):
        self.metres(*[box(1000 + 10 * k, 2000, 10, 8, symbol="yard") for k in range(5)])
        self.assertEqual(self.call()[2], "")

    def test_party_walls_stay(self):
        # rectangles are taken as they are, so that neighbours still touch
        self.metres(*[box(1000 + 10 * k, 2000, 10, 8, symbol="yard") for k in range(5)])
        self.assertEqual(self.lots("--fit", "inside"), self.lots())

    def test_the_front_lies_at_the_street(self):
        self.metres(
            street([1000, 1995], [1020, 1995]),
            polygon([1000, 2000], [1020, 2000], [1015, 2010], [1005, 2010], symbol="yard", name="w"),
        )
        (line,) = self.lots("--fit", "inside")
        x, z, width, depth = map(float, line.split()[3:7])
        self.assertEqual(line.split()[7], "yard")  # no turn: its front is at high Z, the south
        ring = [(x, z), (x + width, z), (x + width, z + depth), (x, z + depth)]
        self.assertTrue(turn(*ring[:3]) > 0 and area(ring) > 95)


if __name__ == "__main__":
    unittest.main()
