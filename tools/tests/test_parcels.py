"""Parcels of maps and rows of tables become lots; towns of turned parcels are joined. Expected numbers are by hand."""
import math
import unittest
from decimal import Decimal
from unittest import mock

from parcel_maps import ASKING, CUBES, Called, RULES, box, polygon, street, turned_box

from cga_city_lib import lots_found


class Maps(Called):
    def test_a_script(self):
        self.write(
            box(1000, 2000, 10, 8, name="a", floors=2),
            box(1010, 2000, 10.5, 8, name="b", floors=2, seed=7),
            box(1000, 2020, 20, 6, name="c", symbol="yard"),
        )
        status, out, said = self.call()
        self.assertEqual((status, said), (0, ""))
        lines = out.split("\n")
        self.assertEqual(
            (lines[0], lines[2:5], lines[7:]),
            (
                "version 2",
                ["quiet", "rules", "attr storey = 3"],
                [
                    "PRIORITY 0:",
                    "999999: parcel_1 -> house(2)",
                    "end",
                    "attr storey = 3.5",
                    "lot a 1 -10 5 10 8 parcel_1  # feature 1",
                    "lot b 7 0 5 10.5 8 parcel_1  # feature 2",
                    "lot c 3 -10 -13 20 6 yard  # feature 3",
                    "bill",
                    "print",
                    "",
                ],
            ),
        )
        self.assertIn("(0, 0) is (1010, 2013); coordinates are exact multiples of 0.01", lines[1])

    def test_the_front_is_at_the_nearest_street(self):
        self.write(
            street([1000, 2000], [1100, 2000]),
            *[box(1000 + 30 * k, 2000 + (2 if k < 2 else -12), 20, 10, name=f"p{k}", symbol="yard") for k in range(3)],
        )
        self.assertEqual([line.split()[-1] for line in self.lots()], ["yard", "yard", "parcel_1"])
        self.assertIn("999999: parcel_1 -> T(Scope.sx, 0, Scope.sz) Ry(180) yard\n", self.call()[1])
        self.write(
            street([1022, 2000], [1022, 2100]),
            box(1000, 2010, 20, 10, symbol="yard"),
            box(1024, 2010, 20, 10, symbol="yard"),
        )
        out = self.call()[1]
        self.assertIn("T(0, 0, Scope.sz) Ry(90) S(Scope.sz, 1r, Scope.sx) yard", out)
        self.assertIn("T(Scope.sx, 0, 0) Ry(270) S(Scope.sz, 1r, Scope.sx) yard", out)

    def test_a_named_side(self):
        self.write(
            street([1000, 2000], [1100, 2000]),
            box(1000, 2010, 20, 10, symbol="yard", front="west"),
            box(1030, 2010, 20, 10, symbol="yard"),
        )
        self.assertEqual([line.split()[-1] for line in self.lots("--front", "south")], ["parcel_1", "yard"])
        self.assertIn("Ry(270)", self.call("--front", "south")[1])

    def test_degrees(self):
        # 0.001 degrees of longitude and of latitude at 45 degrees are 78.847 m and 111.132 m by published tables
        self.write(box(8, 45, 0.001, 0.001, name="a", symbol="yard"))
        self.assertEqual(self.lots("--origin", "8,45", "--decimals", "1"), ["lot a 1 0 -111.1 78.8 111.1 yard"])

    def test_parcels_of_one_slant_are_one_script(self):
        self.write(
            *[
                turned_box(
                    1000 + 10 * k * math.cos(math.radians(20)),
                    2000 - 10 * k * math.sin(math.radians(20)),
                    10,
                    8,
                    20,
                    name=f"p{k}",
                    symbol="yard",
                )
                for k in range(3)
            ]
        )
        found = [line.split() for line in self.lots()]
        self.assertEqual([lot[5:7] for lot in found], [["10", "8"]] * 3)
        self.assertEqual(len({lot[4] for lot in found}), 1)
        for before, after in zip(found, found[1:]):
            self.assertEqual(Decimal(before[3]) + 10, Decimal(after[3]))
        self.assertIn("turned by 20 degrees, so say --north -20 to tools/plan", self.call()[1])

    def test_sides_that_nearly_meet_do(self):
        self.write(box(1000, 2000, 10.004, 8, symbol="yard"), box(1010.011, 2000, 10, 8, symbol="yard"))
        (_, _, _, x, _, width, *_), (_, _, _, other, *_) = map(str.split, self.lots())
        self.assertEqual(Decimal(x) + Decimal(width), Decimal(other))

    def test_names_and_what_is_passed_over(self):
        self.write(
            box(0, 1000, 9, 9, name="12/4 <&>", symbol="yard"),
            box(10, 1000, 9, 9, name="12_4", symbol="yard"),
            {"type": "Feature", "properties": None, "geometry": {"type": "Point", "coordinates": [0, 0]}},
            box(20, 1000, 9, 9, name="ü\n\x1b", symbol="yard"),
        )
        status, out, said = self.call()
        self.assertEqual(status, 0)
        self.assertIn("lot p12_4 1", out)
        self.assertIn("  # feature 1, 12/4 <&>\n", out)
        self.assertIn("  # feature 4, ü<0A><1B>\n", out)
        self.assertEqual(
            said.split("\n")[:2],
            [
                "parcels: features that are neither polygons nor lines are passed over: 1, the first is feature 3",
                "parcels: feature 1, 12/4 <&>: lot `p12_4`",
            ],
        )

    def test_many_names_are_told_in_part(self):
        self.write(*[box(1000 + 20 * k, 2000, 9, 9, name=f"{k}/a", symbol="yard") for k in range(100)])
        self.assertEqual(
            self.call()[2],
            "parcels: names that a script doesn't take are changed: 100, the first is feature 1, 0/a: lot `p0_a`; "
            "--list LIST.csv has all\n",
        )

    def test_a_rectangle_much_larger_than_its_parcel_is_told(self):
        self.write(polygon([1000, 2000], [1020, 2000], [1000, 2010], name="wedge", symbol="yard"))
        self.assertIn("1 of 1; that of feature 1 (`wedge`) is the most, by 100%", self.call()[2])

    def test_numbers_that_are_not_there(self):
        self.write(box(1000, 2000, 9, 9), box(1010, 2000, 9, 9, floors="4"))
        self.refused("feature 1: has no `floors`, which `house` takes", words=("--strict",))
        self.assertIn("house(3/2)", self.call("--default", "floors=3/2")[1])
        self.write(box(1000, 2000, 9, 9, floors="many"))
        self.refused("feature 1: its `floors`, many, isn't a number")
        self.assertIn("house(2)", self.call("--default", "floors=2")[1])

    def test_numbers_of_each_lot_need_no_more_than_512_rules(self):
        self.write(*[box(1000 + 10 * k, 2000, 10, 8, floors=k) for k in range(511)])
        self.refused("511 kinds of parcels", "at most 512: round the numbers")

    def test_more_lots_than_a_run_takes(self):
        self.assertEqual(lots_found.MOST_LOTS, 4096)
        self.write(*[box(10 * (k % 100), 2000 + 10 * (k // 100), 10, 8, symbol="yard") for k in range(1001)])
        with mock.patch.object(lots_found, "MOST_LOTS", 1000):
            self.refused("feature 1001: is lot 1,001 at 0 degrees, and a run takes 1,000", "--region")
            self.assertEqual(len(self.lots("--region")), 1001)

    def test_what_is_no_map(self):
        for text, told in (
            ("", "is empty"),
            ("  \n", "is empty"),
            ("<!DOCTYPE html><p>", "is HTML or XML"),
            ("{", "isn't JSON: Expecting property name"),
            ("[1]", "no GeoJSON"),
            ('{"features": 3}', "no GeoJSON"),
            ('{"type": "FeatureCollection", "features": {}}', "no GeoJSON"),
            ("[" * 100000, "nested too deeply"),
            ('{"type": "FeatureCollection", "features": []}', "no feature is a polygon"),
            ('{"type": "FeatureCollection", "features": [3]}', "feature 1: isn't an object"),
            ("9" * 5000, "thousands of digits"),
            ('{"type": "Feature", "geometry": 3}', "feature 1: its geometry"),
        ):
            with self.subTest(told):
                self.map.write_text(text)
                self.refused(told)
        self.map.write_bytes(b"\xff\xfe{\x00")
        self.refused("isn't text in UTF-8 (byte 1)")

    def test_features_that_are_no_parcels(self):
        ring = [[0, 0], [9, 0], [9, 9], [0, 0]]
        for kind, at, told in (
            ("MultiPolygon", [], "its geometry is empty"),
            ("MultiPolygon", 3, "aren't lists of polygons"),
            ("Polygon", [ring, [[1, 1], [2, 1]]], "has 2 corners"),
            ("Polygon", [[[0, 0], [9, 9], [9, 0], [0, 8], [0, 0]]], "sides cross each other"),
            ("Polygon", [], "has no ring"),
            ("Polygon", None, "has no ring"),
            ("Polygon", [[[0, 0], [1, 1], [0, 0]]], "has 2 corners"),
            ("Polygon", [[[0, 0], [1, 1], [2, 2], [0, 0]]], "no area"),
            ("Polygon", [[[0, "a"], [1, 1]]], "isn't a list of two numbers"),
            ("Polygon", [[[0, 0], [1e300, 1], [2, 2]]], "lies nowhere"),
            ("Polygon", [[3]], "isn't a list of two"),
            ("Polygon", [3], "aren't lists of positions"),
            ("Polygon", [[[0, float("nan")], [1, 1], [2, 2]]], "(0, nan), which lies nowhere"),
            ("LineString", 3, "aren't lists of positions"),
            ("MultiLineString", 3, "aren't lists of lines"),
        ):
            with self.subTest(told):
                self.write(
                    box(1000, 2000, 9, 9, symbol="yard"),
                    {
                        "type": "Feature",
                        "properties": {"symbol": "yard"},
                        "geometry": {"type": kind, "coordinates": at},
                    },
                )
                self.refused("feature 2: ", told, words=("--units", "metres", "--strict"))
                status, out, said = self.call("--units", "metres")
                self.assertEqual((status, out.count("\nlot ")), (3, 1))
                self.assertIn(told, said)
        self.write(
            {
                "type": "Feature",
                "properties": {"symbol": "yard"},
                "geometry": {"type": "MultiPolygon", "coordinates": [[ring]]},
            }
        )
        self.assertEqual(len(self.lots("--units", "metres")), 1)

    def test_units(self):
        self.write(box(0, 0, 90, 80, symbol="yard"))
        self.refused("reaches", "say --units metres")
        self.assertEqual(self.lots("--units", "metres"), ["lot parcel_1 1 -45 -40 90 80 yard"])
        self.write(
            box(0, 0, 90, 80, symbol="yard"), crs={"type": "name", "properties": {"name": "urn:ogc:def:crs:EPSG::2056"}}
        )
        self.assertEqual(len(self.lots()), 1)
        self.write(box(1e6, 6e6, 90, 80, symbol="yard"), crs={"type": "name", "properties": {"name": "EPSG:3857"}})
        self.refused("Web Mercator")
        self.write(box(0, 0, 90, 80, symbol="yard"), box(300000, 0, 90, 80, symbol="yard"))
        self.refused("km away from")

    def test_words(self):
        self.write(box(1000, 2000, 9, 9, symbol="hut"))
        self.refused("no rule of", "has the symbol `hut`")
        for words, told in (
            (["--front", "up"], "--front takes south, east, north or west, and not `up`"),
            (["--decimals", "7"], "`7` isn't a whole number from 0 to 6"),
            (["--snap", "nan"], "isn't a number"),
            (["--default", "x"], "--default"),
            (["--origin", "1"], "--origin"),
            (["--what"], "`--what` is none of its words"),
            (["--dec", "2"], "`--dec` is none of its words"),
        ):
            status, out, said = self.call(*words)
            self.assertEqual((status, out), (2, ""))
            self.assertIn(told, said)
            self.assertIn("--help tells the words", said)

    def test_rules_that_can_not_be_taken(self):
        self.write(box(1000, 2000, 9, 9, symbol="yard"))
        for text, told in (
            ("", "no block"),
            ("rules\n", ":1: no line `end`"),
            ("rules\nend\nrules\nend\n", ":3: a second block"),
            ("version 2\ncity\nend\n", ":2: write the rules as"),
            ("rules\nend\nundo\n", ":3: `undo` can't stand"),
            ("rules\nend\n\x1b\n", ":3: `<1B>` can't"),
        ):
            with self.subTest(told):
                self.rules.write_text(text)
                self.refused(told)
        self.rules.unlink()
        self.refused("rules.cga: no such file is there", refusal=2)

    def test_files_are_not_overwritten(self):
        self.write(box(1000, 2000, 9, 9, symbol="yard"))
        self.refused("would be overwritten", words=("--town", self.map), refusal=2)
        self.refused("would be overwritten", words=("--list", self.rules), refusal=2)
        self.refused("nowhere", words=("--list", self.top / "nowhere" / "list.csv"), refusal=2)

    def test_a_list_of_parcels(self):
        self.write(
            box(1000, 2000, 10, 8, name="1/2", floors=3, limit=12.5),
            polygon([1020, 2000], [1040, 2000], [1020, 2010], name="=b", symbol="yard"),
        )
        self.lots("--list", self.top / "list.csv")
        self.assertEqual(
            (self.top / "list.csv").read_text().split("\n"),
            [
                "lot,feature,name,root,angle,area,rectangle,limit,floors,symbol",
                "p1_2,1,1/2,house(3),0,80.00,80.00,12.5,3,",
                "b,2,'=b,yard,0,100.00,200.00,,,yard",
                "",
            ],
        )


class Towns(Called):
    def test_turned_parcels_are_turned_back(self):
        self.write(
            turned_box(1000, 2000, 10, 8, 30, name="a", symbol="yard"), box(1050, 2000, 10, 8, name="b", symbol="yard")
        )
        self.refused("2 angles, and a script has one", "0 (1), 30 (1) degrees")
        self.assertEqual(
            self.call("--town", self.town, "--program", CUBES, "--origin", "1000,2000"),
            (0, f"{self.town}: 2 lots at 2 angles\n", ""),
        )
        lines = self.town.read_text().split("\n")
        found = [[float(word) for word in line.split()[1:]] for line in lines if line.startswith("v ")]
        c, s = math.cos(math.radians(30)), math.sin(math.radians(30))
        known = {(round(a * c + b * s, 2), y, round(a * s - b * c, 2)) for a in (0, 10) for b in (0, 8) for y in (0, 3)}
        for x, y, z in found[8:]:
            self.assertTrue(min(abs(x - a) + abs(y - b) + abs(z - d) for a, b, d in known) < 0.03, (x, y, z))
        self.assertEqual({(x, z) for x, _, z in found[:8]}, {(50, -8), (60, -8), (50, 0), (60, 0)})
        self.assertEqual([line for line in lines if line.startswith("o ")], ["o b", "o a"])
        self.assertIn("f 12 11 15 16", lines)
        self.assertNotIn("-0.000000", self.town.read_text())

    def test_groups_that_come_near_are_told_where_a_rule_asks(self):
        self.write(
            turned_box(1000, 2000, 10, 10, 45, name="a", symbol="yard"),
            box(1000 + 10 * math.sqrt(2) + 3, 1990, 20, 20, name="b", symbol="yard"),
            box(1060, 2000, 9, 9, name="c", symbol="yard"),
        )
        words = ("--town", self.town, "--program", CUBES)
        self.assertEqual(self.call(*words)[2], "")
        self.rules.write_text(ASKING)
        self.assertEqual(
            self.call(*words)[2],
            "parcels: parcels at 0 and at 45 degrees come as near as 3.00 (`b`, `a`), and don't see each other by Scope.occ\n",
        )
        self.assertEqual(self.call(*words, "--reach", "1.4")[2], "")

    def test_one_angle_is_chosen(self):
        self.write(
            turned_box(1000, 2000, 10, 8, 30, name="a", symbol="yard"), box(1050, 2000, 10, 8, name="b", symbol="yard")
        )
        self.assertEqual([line.split()[1] for line in self.lots("--angle", "30")], ["a"])
        self.refused("no parcel lies at 20 degrees; the nearest are 1 at 30", words=("--angle", "20"))

    def test_a_town_that_is_refused_leaves_no_file(self):
        self.write(box(1000, 2000, 9, 9, symbol="yard"), box(1010, 2000, 13, 9, name="big", symbol="yard"))
        self.refused(
            "feature 2 (lot `big`): OverBudget: a run takes 400,000 shapes",
            words=("--town", self.town, "--program", CUBES),
        )
        self.rules.write_text(RULES.replace("2: yard", "2: die -> NIL\n3: yard"))
        self.refused("no answer: the program ended with status 6", words=("--town", self.town, "--program", CUBES))
        self.assertEqual(sorted(path.name for path in self.top.iterdir()), ["map.geojson", "rules.cga"])
        self.refused("nowhere", words=("--town", self.town, "--program", self.top / "nowhere"), refusal=2)

    def test_shapes_that_come_to_nothing_are_told(self):
        self.write(box(1000, 2000, 9, 1, name="flat", symbol="yard"))
        status, _, said = self.call("--town", self.town, "--program", CUBES)
        self.assertEqual(status, 0)
        self.assertIn("1 shapes came to nothing, the first: fault flat / yard Unmatched", said)


class Tables(Called):
    def setUp(self):
        super().setUp()
        self.map = self.top / "lots.csv"

    def test_what_a_spreadsheet_writes(self):
        self.map.write_text(
            '\ufeffName;X;Z;Width;Depth;floors;note\r\n"a; ""b""";0;7,5;8;10;3;\r\n ; ;;;;;\r\nb;8;0,25;7.5;10;2;x\r\n',
            encoding="utf-8",
        )
        self.assertEqual(self.lots(), ["lot a_b 1 0 7.5 8 10 parcel_1", "lot b 2 8 0.25 7.5 10 parcel_2"])
        self.assertEqual(self.call()[2], 'parcels: line 2, a; "b": lot `a_b`\n')

    def test_numbers_stay_as_they_are(self):
        self.map.write_text("name,x,z,width,depth,symbol,front,seed\na,1/3,-2.50,5/2,1e1,yard,north,9\n")
        self.assertEqual(self.lots(), ["lot a 9 1/3 -2.5 5/2 10 parcel_1"])

    def test_a_list_of_lots(self):
        self.map.write_text("name,x,z,width,depth,symbol\na,0,0,5/2,10,yard\n")
        self.lots("--list", self.top / "list.csv")
        self.assertEqual((self.top / "list.csv").read_text().split("\n")[1], "a,1,a,yard,0,25.00,25.00,,yard")

    def test_what_is_no_table(self):
        for text, told in (
            ("", "is empty"),
            ("name,x\n", "has no `z`"),
            ("name,x,z,width,depth\n", "has a header and no lots"),
            ("name,x,z,width,depth,x\n", "has `x` twice"),
            ("name,x,z,width,depth,symbol\na,0,0,1,2,yard,3\n", "line 2 (a): has 7 cells, and the header 6"),
            ("name,x,z,width,depth,symbol\na,0,0,w,2,yard\n", "its `width`, w, isn't"),
            ("name,x,z,width,depth,symbol\na,0,0,0,2,yard\n", "line 2 (a): its `width` is 0"),
            ("name,x,z,width,depth,symbol\na,0\n", "line 2 (a): its `z`, , isn't"),
            ('name,x,z,width,depth\n"a', "isn't a table"),
            ("name,x,z,width,depth,symbol\na,0,nan,1,2,yard\n", "its `z`, nan"),
        ):
            with self.subTest(told):
                self.map.write_text(text)
                self.refused(told)


if __name__ == "__main__":
    unittest.main()
