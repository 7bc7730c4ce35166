"""What parcels are measured by: angles, rectangles, distances and streets, names and numerals. Expected numbers are by hand."""
import math
import sys
import unittest
from decimal import Decimal
from pathlib import Path

sys.path.insert(0, str(Path(__file__).resolve().parent.parent))

from cga_city_lib.geojson import Feature  # noqa: E402
from cga_city_lib.lot_names import lot_names  # noqa: E402
from cga_city_lib.mercator import metres  # noqa: E402
from cga_city_lib.numerals import numeral  # noqa: E402
from cga_city_lib.parcels import clusters, shared_angles  # noqa: E402
from cga_city_lib.rectangle import area, corners, distance, least_angle, sides, turned  # noqa: E402
from cga_city_lib.streets import Streets  # noqa: E402


class Plane(unittest.TestCase):
    def test_metres_of_a_known_place(self):
        # the CN Tower in Toronto, published as 630,084 m east and 4,833,438 m north in zone 17, which has the scale 0.9996
        east, north = metres(-(79 + 23 / 60 + 13.7 / 3600), 43 + 38 / 60 + 33.24 / 3600, (-81, 0))
        self.assertLess(abs(500000 + 0.9996 * east - 630084), 1)
        self.assertLess(abs(0.9996 * north - 4833438), 1)

    def test_the_least_rectangle_lies_along_a_side(self):
        ring = [turned(p, -30) for p in ((0, 0), (20, 0), (20, 10), (0, 8))]
        self.assertAlmostEqual(least_angle(ring), 30)
        low_x, low_z, x, z = sides(ring, 30)
        for found, known in ((low_x, 0), (low_z, 0), (x, 20), (z, 10), (area(ring), 180)):
            self.assertAlmostEqual(found, known)

    def test_distances_of_turned_rectangles(self):
        # a square of side 10, and one turned by 45 degrees, whose corner points at it from 3 away
        half = 5 * math.sqrt(2)
        diamond = [(13, 5), (13 + half, 5 - half), (13 + 2 * half, 5), (13 + half, 5 + half)]
        self.assertAlmostEqual(distance(corners((0, 0, 10, 10), 0), diamond), 3)
        self.assertEqual(distance(corners((0, 0, 10, 10), 0), corners((5, 5, 15, 15), 0)), 0)

    def test_clusters_begin_at_their_least(self):
        self.assertEqual(clusters([0, 1, 2, 3], 1), {0: 0.5, 1: 0.5, 2: 2.5, 3: 2.5})

    def test_angles_on_both_sides_of_a_quarter_turn_are_one(self):
        self.assertEqual(shared_angles([89.97, 0.03, 45], 0.1), [0, 0, 45])

    def test_near_streets_are_those_of_all_that_can_be_the_nearest(self):
        streets = Streets(
            [
                Feature(
                    1,
                    "",
                    "",
                    [[(0.0, 0.0), (0.0, 3000.0)], [(40.0, -20.0), (40.0, -90.0)], [(9000.0, 0.0), (9000.0, 9.0)]],
                    {},
                )
            ]
        )
        for point, half, known in (
            ((10.0, 5.0), 8, 1),
            ((30.0, -30.0), 20, 2),
            ((8990.0, 5.0), 5, 1),
            ((500.0, 1500.0), 5, 1),
            ((4500.0, 1500.0), 5, 1),
            ((4500.0, 1500.0), 150, 3),
        ):
            self.assertEqual(len(streets.near(point, half)), known, point)

    def test_names(self):
        self.assertEqual(
            lot_names(["a b", "a_b", "a_b", "12/4", "Zürich", "T", "日本", "x" * 40, "x" * 40]),
            ["a_b_2", "a_b", "a_b_3", "p12_4", "Zurich", "T_", "parcel", "x" * 31, "x" * 30 + "_2"],
        )

    def test_numerals_are_exact_or_none(self):
        for given, known in (
            ("7", "7"),
            (".5", "0.5"),
            ("1e3", "1000"),
            ("-0", "0"),
            (Decimal("1.2300"), "1.23"),
            ("5/2", "5/2"),
            (10**17, "1" + 17 * "0"),
            (10**18, None),
            ("1.0000000000000000000000000000000001", None),
            ("5/0", None),
            ("NaN", None),
            ("1_0", None),
            (True, None),
        ):
            self.assertEqual(numeral(given), known, given)


if __name__ == "__main__":
    unittest.main()
