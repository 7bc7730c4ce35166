"""Sixty maps as cadastres export them, each with an oddity: what tools/parcels makes of it. Expected numbers are by hand."""
import json
import unittest
from unittest import mock

from parcel_maps import Called, box, polygon, street

from cga_city_lib import geojson, reference_system

RING = [[1000, 2000], [1009, 2000], [1009, 2008], [1000, 2008], [1000, 2000]]
FEET = [[990000, 200000], [990050, 200000], [990050, 200100], [990000, 200100], [990000, 200000]]
# a box of 0.0002 by 0.0001 degrees at 45 degrees north: 15.77 m by 11.11 m, as 78,847 m and 111,132 m are one degree there
DEGREES = [[8, 45], [8.0002, 45], [8.0002, 45.0001], [8, 45.0001], [8, 45]]
GOOD = box(1020, 2000, 9, 8, name="good", symbol="yard")


def crs(name):
    return {"type": "name", "properties": {"name": name}}


def area(kind, coordinates, **properties):
    return {
        "type": "Feature",
        "properties": {"symbol": "yard", **properties},
        "geometry": {"type": kind, "coordinates": coordinates},
    }


def moved(ring, x, y):
    return [[east + x, north + y] for east, north in ring]


class Odd(Called):
    def map_of(self, *features, name=None):
        self.write(*features, **({"crs": crs(name)} if name else {}))

    def sizes(self, *words):
        """Status, width and depth of each lot, and what is said."""
        status, out, said = self.call(*words)
        lots = [line.split("  #")[0].split() for line in out.split("\n") if line.startswith("lot ")]
        return status, [tuple(map(float, lot[5:7])) for lot in lots], said

    def lots_are(self, sizes, *words, told=""):
        """All is taken, and sides are off by a step of the grid at most."""
        status, found, said = self.sizes(*words)
        self.assertEqual((status, len(found)), (0, len(sizes)), said)
        for lot, known in zip(found, sizes):
            for one, other in zip(lot, known):
                self.assertAlmostEqual(one, other, delta=0.011)
        self.assertIn(told, said) if told else self.assertEqual(said, "")

    def names(self, *words):
        return [line.split()[1] for line in self.lots(*words)]


class Codes(Odd):
    def test_degrees_by_any_geographic_code(self):
        for name in (
            "urn:ogc:def:crs:OGC:1.3:CRS84",
            "EPSG:4326",
            "urn:ogc:def:crs:EPSG::4171",
            "http://www.opengis.net/def/crs/EPSG/0/4612",
            "EPSG:4490",
            "urn:ogc:def:crs:EPSG::7844",
            "urn:ogc:def:crs:EPSG:6.9:4269",
            "urn:ogc:def:crs:OGC::CRS83",
        ):
            with self.subTest(name):
                self.map_of(area("Polygon", [DEGREES]), name=name)
                self.lots_are([(15.77, 11.11)])

    def test_metres_by_codes_that_are_projected_in_metres(self):
        for name in ("EPSG:25832", "urn:ogc:def:crs:EPSG::2056", "EPSG:31466", "EPSG:3035", "EPSG:2154"):
            with self.subTest(name):
                self.map_of(area("Polygon", [moved(RING, 499000, 5e6)]), name=name)
                self.lots_are([(9, 8)])

    def test_feet_by_their_codes(self):
        # 50 by 100 survey feet are 15.24 by 30.48 m; the two feet differ by 2 millionths
        for name in ("EPSG:2263", "EPSG:2225", "EPSG:2222"):
            with self.subTest(name):
                self.map_of(area("Polygon", [FEET]), name=name)
                self.lots_are([(15.24, 30.48)])
        self.map_of(area("Polygon", [FEET]))
        for units in ("feet", "us-feet"):
            self.lots_are([(15.24, 30.48)], "--units", units)

    def test_other_codes_are_refused_by_name(self):
        with mock.patch.object(reference_system, "ASKED", ()):
            for name in ("EPSG:4807", "EPSG:99999", "EPSG:3141592", "ESRI:102003", "my own grid", "EPSG:2048"):
                with self.subTest(name):
                    self.map_of(area("Polygon", [RING]), name=name)
                    self.refused(
                        f"reference system is {name}, which",
                        "ogr2ogr -f GeoJSON -t_srs EPSG:4326 new.geojson MAP",
                        "--units",
                    )
                    self.lots_are([(9, 8)], "--units", "metres")

    def test_codes_whose_lengths_are_not_true(self):
        for name in ("EPSG:3857", "EPSG:3395", "ESRI:102100", "EPSG:900913", "EPSG:32662"):
            with self.subTest(name):
                self.map_of(area("Polygon", [RING]), name=name)
                self.refused(name, "lengths are too long away from the equator", "ogr2ogr")

    def test_proj_is_asked(self):
        for answer, sizes in (
            ("+proj=tmerc +lat_0=0 +units=m +no_defs", [(9, 8)]),
            ("+proj=lcc +units=us-ft", [(2.74, 2.44)]),
        ):
            with mock.patch.object(reference_system, "answer_of", return_value=answer), mock.patch.object(
                reference_system.shutil, "which", return_value="/bin/true"
            ):
                self.map_of(area("Polygon", [RING]), name="EPSG:99998")
                self.lots_are(sizes)
        for answer, units in (
            ("+proj=longlat +pm=paris", None),
            ("+proj=longlat", "degrees"),
            ("+proj=merc +units=m", "stretched"),
        ):
            words = dict(part[1:].split("=") for part in answer.split())
            self.assertEqual(reference_system.units_in(words), units)

    def test_degrees_under_a_code_of_metres(self):
        self.map_of(area("Polygon", [DEGREES]), name="EPSG:25832")
        self.refused("EPSG:25832, in metres, and its numbers are such as degrees", "--units degrees")
        self.lots_are([(15.77, 11.11)], "--units", "degrees")

    def test_forms_of_the_member_crs(self):
        for member, code in (
            (None, None),
            ({"type": "EPSG", "properties": {"code": 2056}}, "EPSG:2056"),
            (
                {"type": "link", "properties": {"href": "http://spatialreference.org/ref/epsg/26915/proj4/"}},
                "EPSG:26915",
            ),
            ("EPSG:31287", "EPSG:31287"),
            (crs("urn:ogc:def:crs:OGC:1.3:CRS84h"), "EPSG:4326"),
            (crs("NAD83 / something"), "NAD83 / something"),
        ):
            with self.subTest(code):
                self.assertEqual(reference_system.code_in(member), code)

    def test_the_table_is_that_of_the_registry(self):
        for code, units in ((2056, "metres"), (32633, "metres"), (4258, "degrees"), (2263, "us-feet"), (2222, "feet")):
            self.assertEqual(reference_system.units_of(f"EPSG:{code}"), units)
        for code in (
            4807,
            2046,
            5513,
            32600,
            4978,
            7405,
        ):  # grads, to the south and west, none, from the Earth's middle
            self.assertEqual(reference_system.units_of(f"EPSG:{code}"), None)


class Places(Odd):
    def test_latitude_before_longitude(self):
        told = "has the north before the east, as latitude before longitude, and is read so"
        east = [[y, x + 130] for x, y in DEGREES]
        for ring, name in (
            (east, None),  # 138 is no latitude
            ([[y, x] for x, y in DEGREES], "EPSG:4258"),  # 8 degrees north aren't in Europe
            ([[y + 5e6, x + 4e5] for x, y in RING], "EPSG:25832"),  # 5,000 km east aren't in a zone
        ):
            with self.subTest(name):
                self.map_of(area("Polygon", [ring]), name=name)
                self.lots_are([(9, 8) if name == "EPSG:25832" else (15.77, 11.11)], told=told)
        self.map_of(area("Polygon", [[[y, x] for x, y in DEGREES]]))
        self.lots_are([(15.77, 11.11)], "--swap")

    def test_corners_that_are_right_the_other_way_round(self):
        # a square of 20 m that is turned by 30 degrees, at 60 degrees north, where a degree of longitude is half as long
        ring = [[10, 60], [10.0003109, 60.0000897], [10.0001314, 60.0002453], [9.9998206, 60.0001556]]
        self.map_of(polygon(*ring, symbol="yard"))
        self.assertEqual(self.sizes()[2], "")
        self.map_of(polygon(*([y, x] for x, y in ring), symbol="yard"))
        self.assertIn("wouldn't be if latitude stood before longitude: if it does, say --swap", self.sizes()[2])
        self.assertEqual(self.sizes("--swap")[2], "")

    def test_over_the_date_line(self):
        ring = [[179.9999, 45], [-179.9999, 45], [-179.9999, 45.0001], [179.9999, 45.0001]]
        self.map_of(polygon(*ring, symbol="yard"))
        self.lots_are([(15.77, 11.11)], told="over the line of 180 degrees")
        self.map_of(polygon(*([x % 360, y] for x, y in ring), symbol="yard"), name="EPSG:4326")
        self.lots_are([(15.77, 11.11)])

    def test_a_feature_far_away_is_skipped(self):
        near = [box(500000 + 20 * k, 5e6, 9, 8, symbol="yard") for k in range(10)]
        self.map_of(*near, box(0, 0, 9, 8, symbol="yard", name="null island"), name="EPSG:25832")
        status, sizes, said = self.sizes()
        self.assertEqual((status, len(sizes)), (3, 10))
        self.assertIn("skipped: feature 11 (null island): lies at (0, 0), far away from the other features", said)
        self.refused("feature 11 (null island): lies at", words=("--strict",))

    def test_metres_that_are_small(self):
        self.map_of(box(0, 0, 90, 80, symbol="yard"))
        self.refused("say --units metres")
        self.map_of(box(0, 0, 90, 80, symbol="yard"), name="EPSG:2056")
        self.assertEqual(self.sizes()[:2], (0, [(90, 80)]))


class Geometries(Odd):
    def test_a_bare_geometry(self):
        for data, lots in (
            ({"type": "Polygon", "coordinates": [RING]}, 1),
            ({"type": "MultiPolygon", "coordinates": [[RING], [moved(RING, 20, 0)]]}, 2),
            (
                {
                    "type": "GeometryCollection",
                    "geometries": [
                        {"type": "Polygon", "coordinates": [RING]},
                        {"type": "Point", "coordinates": [0, 0]},
                    ],
                },
                1,
            ),
            (area("Polygon", [RING]), 1),
        ):
            with self.subTest(data["type"]):
                self.map.write_text(json.dumps(data))
                self.assertEqual(len(self.lots("--symbol", "yard")), lots)

    def test_a_lot_for_each_part(self):
        parts = [[RING], [moved(RING, 20, 0)], [moved(RING, 40, 0)]]
        self.map_of(area("MultiPolygon", parts, name="1201/1"), area("MultiPolygon", [[moved(RING, 60, 0)]]))
        self.assertEqual(self.names(), ["p1201_1", "p1201_1_2", "p1201_1_3", "parcel_2"])
        self.assertIn("features of several polygons have a lot for each: 1, the first is feature 1", self.call()[2])
        self.assertIn("# feature 1, 1201/1 (2)\n", self.call()[1])

    def test_a_part_that_is_bad(self):
        self.map_of(area("MultiPolygon", [[RING], [RING[:2]], [moved(RING, 40, 0)]], name="a"), GOOD)
        status, sizes, said = self.sizes()
        self.assertEqual((status, len(sizes)), (3, 3))
        self.assertIn("skipped: feature 1 (a): the polygon has 2 corners, and at least three are needed", said)

    def test_holes(self):
        hole = [[1002, 2002], [1004, 2002], [1004, 2005], [1002, 2005], [1002, 2002]]
        self.map_of(area("Polygon", [RING, hole], name="a"), GOOD)
        status, sizes, said = self.sizes("--list", self.top / "list.csv")
        self.assertEqual((status, sizes), (0, [(9, 8), (9, 8)]))
        self.assertIn("parcels with holes are taken by their outer ring: 1, the first is feature 1", said)
        self.assertIn("\na,1,a,yard,0,66.00,72.00,,yard\n", (self.top / "list.csv").read_text())  # 72 without 2 x 3

    def test_three_coordinates(self):
        self.map_of(area("Polygon", [[[*at, 431.5] for at in RING]]))
        self.lots_are([(9, 8)])

    def test_no_geometry(self):
        for geometry in (None, {}, {"type": "Point", "coordinates": [0, 0]}, {"type": "MultiPoint", "coordinates": []}):
            with self.subTest(geometry):
                self.map_of({"type": "Feature", "properties": {}, "geometry": geometry}, GOOD)
                status, sizes, said = self.sizes()
                self.assertEqual((status, len(sizes)), (0, 1))
                self.assertIn("are passed over: 1, the first is feature 1", said)

    def test_empty_geometries(self):
        for kind in ("MultiPolygon", "GeometryCollection"):
            with self.subTest(kind):
                empty = {"type": kind, "coordinates": [], "geometries": []}
                self.map_of({"type": "Feature", "properties": {"name": "e"}, "geometry": empty}, GOOD)
                self.assertIn("skipped: feature 1 (e): its geometry is empty", self.sizes()[2])

    def test_rings_as_they_come(self):
        for ring in (RING[:-1], RING[::-1], [*RING[:2], RING[1], *RING[2:]], [RING[0], [1004, 2000], *RING[1:]]):
            with self.subTest(ring):
                self.map_of(area("Polygon", [ring]))
                self.lots_are([(9, 8)])

    def test_rings_that_are_none(self):
        bow = [RING[0], RING[2], [1009, 2000], [1000, 2007], RING[0]]
        for ring, told in ((bow, "sides cross each other"), ([*RING[:2], RING[0]], "has 2 corners"), ([], "0 corners")):
            with self.subTest(told):
                self.map_of(area("Polygon", [ring], name="bow"), GOOD)
                status, sizes, said = self.sizes()
                self.assertEqual((status, sizes), (3, [(9, 8)]))
                self.assertIn("skipped: feature 1 (bow): ", said)
                self.assertIn(told, said)
                self.refused("feature 1 (bow): ", told, words=("--strict",))

    def test_parcels_over_each_other(self):
        turned = RING[2:-1] + RING[:3]
        self.map_of(area("Polygon", [RING], name="7"), area("Polygon", [turned], name="8"), GOOD)
        status, sizes, said = self.sizes()
        self.assertEqual((status, len(sizes)), (3, 2))
        self.assertIn("skipped: feature 2 (8): is the same polygon as feature 1 (7), and lies over it", said)


class Properties(Odd):
    def test_names(self):
        self.map_of(
            *[
                area("Polygon", [moved(RING, 20 * k, 0)], name=name)
                for k, name in enumerate(("Häuschen", "東京", "12/4", "12/4", "Scope", "", None, 7, "a" * 40, "<&>"))
            ]
        )
        self.assertEqual(
            self.names(),
            ["Hauschen", "parcel", "p12_4", "p12_4_2", "Scope_", "parcel_6", "parcel_7", "p7", "a" * 31, "parcel_2"],
        )

    def test_a_name_by_another_property(self):
        self.map_of(area("Polygon", [RING], parcel_id="x1", name="no"))
        self.assertEqual(self.names("--name", "parcel_id"), ["x1"])

    def test_a_number_that_is_none(self):
        for given in ("II+D", None, [], {}, "2,5"):
            with self.subTest(given):
                self.map_of(box(1000, 2000, 9, 8, floors=given, name="a"), box(1020, 2000, 9, 8, floors=2))
                status, sizes, said = self.sizes()
                self.assertEqual((status, len(sizes)), (3, 1))
                self.assertIn("skipped: feature 1 (a): ", said)
                self.assertEqual(self.sizes("--default", "floors=1")[0], 0)

    def test_other_values_that_are_wrong(self):
        for property, given, told in (
            ("symbol", "castle", "has the symbol `castle`"),
            ("symbol", 3, "has the symbol `3`"),
            ("seed", 1.5, "its `seed`, 1.5, isn't"),
            ("front", "up", "its `front`, up, isn't one of"),
            ("front", 4, "its `front`, 4, isn't one of"),
        ):
            with self.subTest(told):
                self.map_of(area("Polygon", [RING], **{"name": "a", property: given}), GOOD)
                status, sizes, said = self.sizes()
                self.assertEqual((status, len(sizes)), (3, 1))
                self.assertIn("skipped: feature 1 (a): ", said)
                self.assertIn(told, said)

    def test_properties_are_kept(self):
        self.map_of(
            area("Polygon", [RING], name="1/1", zone="W3", area=71, heritage=True, owners=[1], note="=1+1"),
            area("Polygon", [RING[:2]], name="1/2"),
            street([1000, 1990], [1100, 1990]),
        )
        self.assertEqual(self.sizes("--list", self.top / "list.csv")[0], 3)
        self.assertEqual(
            (self.top / "list.csv").read_text().split("\n"),
            [
                "lot,feature,name,root,angle,area,rectangle,limit,symbol,zone,map_area,heritage,owners,note,skipped",
                "p1_1,1,1/1,yard,0,72.00,72.00,,yard,W3,71,true,(list),'=1+1,",
                '"",2,1/2,"",""'.replace('""', "")
                + ',,,,,,,,,,"the polygon has 2 corners, and at least three are needed"',
                "",
            ],
        )

    def test_many_bad_features_are_told_in_part(self):
        self.map_of(GOOD, *[area("Polygon", [RING[:2]], name=f"b{k}") for k in range(50)])
        said = self.sizes()[2].split("\n")
        self.assertEqual(len(said), 43)
        self.assertEqual(
            said[40:42],
            [
                "parcels: and 10 more, which --list LIST.csv has",
                "parcels: 50 features skipped; --strict refuses the map instead",
            ],
        )

    def test_nothing_that_can_be_taken(self):
        self.map_of(*[area("Polygon", [RING[:2]]) for _ in range(3)])
        self.refused("none of 3 can be taken; feature 1: the polygon has 2 corners")
        self.assertEqual([path.name for path in self.top.iterdir() if path.suffix == ".csv"], [])


class Files(Odd):
    def test_formats_of_gdal(self):
        shape = self.top / "map.shp"
        shape.write_bytes(b"\x00\x00\x27\x0a")
        self.map = shape
        with mock.patch.object(geojson.shutil, "which", return_value=None):
            self.refused("isn't GeoJSON, and `ogr2ogr` (Debian: gdal-bin)", "ogr2ogr -f GeoJSON -t_srs EPSG:4326")
        self.map = self.top / "none.gpkg"
        self.refused("none.gpkg: no such file is there", refusal=2)

    def test_other_json(self):
        self.map.write_text('{"type": "Topology", "objects": {}, "arcs": []}')
        self.refused("is TopoJSON, which `ogr2ogr -f GeoJSON new.geojson` turns")


if __name__ == "__main__":
    unittest.main()
