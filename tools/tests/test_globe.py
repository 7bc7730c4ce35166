"""A town back on the globe: places, matrices, CityJSON and KML. Expected numbers are by hand or of published tables."""
import json
import math
import struct
import unittest
from unittest import mock
from xml.etree import ElementTree

import cityjson_reader
from in_process import called
from parcel_maps import CUBES, Called, box, polygon, street

from cga_city_lib import globe
from cga_city_lib.cityjson import surface_of
from cga_city_lib.ground_file import Place, read_ground
from cga_city_lib.mercator import degrees, metres

KML = "{http://www.opengis.net/kml/2.2}"
DEGREES = [[8, 45], [8.0002, 45], [8.0002, 45.0001], [8, 45.0001]]
ZERO = Place("EPSG:4326", "degrees", ("0", "0"), 0)


class Places(unittest.TestCase):
    def test_back_to_degrees(self):
        for latitude in (-60, 0, 47.37, 70):
            middle = (8.5, latitude)
            for east, north in ((0, 0), (1500, -700), (-20000, 30000)):
                x, y = metres(*degrees(east, north, middle), middle)
                self.assertAlmostEqual(x, east, places=6)
                self.assertAlmostEqual(y, north, places=6)

    def test_metres_and_feet(self):
        found = globe.globe_of(Place("EPSG:25832", "metres", ("500000", "5000000"), 0))
        self.assertEqual(found.place(10, -20), (500010, 5000020))
        found = globe.globe_of(Place("EPSG:2222", "feet", ("1000", "2000"), 0))
        for one, other in zip(found.place(3.048, -30.48), (1010, 2100)):
            self.assertAlmostEqual(one, other)

    def test_a_script_that_is_turned(self):
        # 30 degrees: the script's X goes by cosine to the east and by sine to the south
        found = globe.globe_of(Place("", "metres", ("0", "0"), 30))
        for one, other in zip(found.place(10, 0), (10 * math.cos(math.radians(30)), -5)):
            self.assertAlmostEqual(one, other)

    def test_from_the_middle_of_the_earth(self):
        # the radii of WGS84, and the pole
        self.assertEqual([round(part, 3) for part in globe.from_middle(0, 0)], [6378137, 0, 0])
        self.assertEqual([round(part, 3) for part in globe.from_middle(90, 0)], [0, 6378137, 0])
        self.assertEqual([round(part, 3) for part in globe.from_middle(0, 90)], [0, 0, 6356752.314])

    def test_the_matrix(self):
        # at longitude 0 on the equator east is Y, north is Z and up is X
        for one, other in zip(
            globe.standing(globe.globe_of(ZERO)), [0, 1, 0, 0, 0, 0, 1, 0, 1, 0, 0, 0, 6378137, 0, 0, 1]
        ):
            self.assertAlmostEqual(one, other)
        turned = globe.standing(globe.globe_of(ZERO._replace(angle=90)))  # then X goes to the south
        for one, other in zip(turned[:8], [0, 0, -1, 0, 0, 1, 0, 0]):
            self.assertAlmostEqual(one, other)

    def test_addresses(self):
        self.assertEqual(globe.globe_of(ZERO).address(), "https://www.opengis.net/def/crs/OGC/0/CRS84h")
        self.assertEqual(
            globe.globe_of(Place("EPSG:2056", "metres", ("0", "0"), 0)).address(),
            "https://www.opengis.net/def/crs/EPSG/0/2056",
        )

    def test_surfaces(self):
        for symbol, upright, up, kind in (
            ("roof", False, True, "RoofSurface"),
            ("roof", True, False, "WallSurface"),
            ("wall", True, False, "WallSurface"),
            ("shop_window", True, False, "Window"),
            ("slab", False, False, "FloorSurface"),
            ("mass", False, True, "RoofSurface"),
            ("mass", False, False, "OuterFloorSurface"),
        ):
            self.assertEqual(surface_of(symbol, upright, up), kind)


class Towns(Called):
    def made(self, end, *features, name=None):
        self.write(*features, **({"crs": {"type": "name", "properties": {"name": name}}} if name else {}))
        self.ground, self.out = self.top / "ground.json", self.top / f"town{end}"
        status, _, said = self.call("--ground", self.ground, "--town", self.town, "--program", CUBES)
        self.assertEqual(status, 0, said)
        return called("globe", self.town, self.ground, self.out)

    def features(self):
        ring = [[x + 0.0005, y + 0.0003] for x, y in DEGREES]
        return (
            polygon(*DEGREES, name="1/1", symbol="yard", zone="W2", storeys=2),
            polygon(*ring, name="1/2", symbol="yard"),
            {**street([8, 44.9999], [8.001, 45.0002]), "properties": {"name": "Long Street", "width": 6}},
            polygon([8.001, 45], [8.0012, 45], [8.0012, 45.0001], name="Pond", natural="water"),
        )

    def test_cityjson(self):
        self.assertEqual(self.made(".city.json", *self.features()), (0, "", ""))
        data = json.loads(self.out.read_text())
        self.assertEqual((data["type"], data["version"]), ("CityJSON", "2.0"))
        self.assertEqual(
            [one["type"] for one in data["CityObjects"].values()], ["Building", "Building", "Road", "WaterBody"]
        )
        one = data["CityObjects"]["p1_1"]
        self.assertEqual(
            (one["attributes"]["name"], one["attributes"]["zone"], one["attributes"]["measuredHeight"]),
            ("1/1", "W2", 3),
        )
        ground, solid = one["geometry"]
        scale, shift = data["transform"]["scale"], data["transform"]["translate"]
        ring = [[n * a + b for n, a, b in zip(data["vertices"][at], scale, shift)] for at in ground["boundaries"][0][0]]
        for (x, y, z), known in zip(sorted(ring), sorted(DEGREES)):
            self.assertAlmostEqual(x, known[0], places=10)
            self.assertAlmostEqual(y, known[1], places=10)
            self.assertEqual(z, 0)
        # a cube has four walls, and looks up once and down once
        kinds = [solid["semantics"]["surfaces"][at]["type"] for at in solid["semantics"]["values"]]
        self.assertEqual(sorted(kinds), ["OuterFloorSurface", "RoofSurface", *["WallSurface"] * 4])
        self.assertEqual(len(solid["boundaries"]), len(kinds))
        self.assertTrue(all(isinstance(n, int) for at in data["vertices"] for n in at))

    def test_cityjson_by_the_rules_of_its_schemas(self):
        """And the reader refuses what these don't allow."""
        self.made(".city.json", *self.features())
        text = self.out.read_text()
        self.assertGreater(cityjson_reader.read(json.loads(text)), 2 * 7 * 4)
        for old, new, told in (
            ('"2.0"', '"1.1"', "type and version"),
            ('"lod":"0"', '"lod":0', "a level of detail is a text"),
            ("/CRS84h", "", "an address of a system"),
            ('"MultiLineString"', '"Solid"', "a form of Road"),
            ('"WallSurface"', '"Wall"', "Wall of a Building"),
            ('"values":[', '"values":[0,', "a value for each surface"),
            ('"vertices":[', '"vertices":[[0,0,1.5],', "vertices of whole numbers"),
            ('"vertices":[', '"vertices":[[9,9,9],', "each vertex is there and used"),
        ):
            self.assertIn(old, text)
            with self.assertRaisesRegex(AssertionError, told):
                cityjson_reader.read(json.loads(text.replace(old, new)))

    def test_what_is_out_goes_in_again(self):
        self.made(".city.json", *self.features())
        before = self.lots()
        self.map = self.out
        self.assertEqual(self.lots(), before)

    def test_in_metres_it_goes_in_again(self):
        self.made(
            ".city.json",
            box(500000, 5000000, 9.5, 8, name="a", symbol="yard"),
            street([500000, 4999990], [500020, 4999990]),
            name="EPSG:25832",
        )
        before = self.lots()
        self.map = self.out
        self.assertEqual(self.lots(), before)

    def test_kml(self):
        self.assertEqual(self.made(".kml", *self.features()), (0, "", ""))
        root = ElementTree.fromstring(self.out.read_text(encoding="utf-8"))
        self.assertEqual([one.find(f"{KML}name").text for one in root.iter(f"{KML}Folder")], ["1/1", "1/2"])
        places = [tuple(map(float, part.split(","))) for part in next(root.iter(f"{KML}coordinates")).text.split()]
        self.assertEqual((len(places), places[0]), (5, places[-1]))
        for longitude, latitude, height in places:
            self.assertTrue(
                8 - 1e-6 < longitude < 8.0002 + 1e-6 and 45 - 1e-6 < latitude < 45.0001 + 1e-6 and height in (0, 3)
            )

    def tile(self, path):
        """The head of a glTF file, and a function that gives an accessor's numbers, by the words of the specification."""
        data = path.read_bytes()
        size = struct.unpack_from("<I", data, 12)[0]
        told, raw = json.loads(data[20 : 20 + size]), data[28 + size :]

        def numbers(at):
            one = told["accessors"][at]
            view, kind = told["bufferViews"][one["bufferView"]], {5126: "f", 5125: "I", 5123: "H"}[one["componentType"]]
            many = one["count"] * {"SCALAR": 1, "VEC3": 3}[one["type"]]
            return struct.unpack_from(f"<{many}{kind}", raw, view["byteOffset"])

        def text(column, row):
            ends, values = (told["bufferViews"][column[word]] for word in ("stringOffsets", "values"))
            self.assertEqual((ends["byteOffset"] % 8, values["byteOffset"] % 8), (0, 0))
            a, b = struct.unpack_from("<II", raw, ends["byteOffset"] + 4 * row)
            return raw[values["byteOffset"] + a : values["byteOffset"] + b].decode()

        return told, numbers, text

    def test_tiles_stand_on_the_globe(self):
        self.made(".kml", *self.features())
        path = self.top / "tiles" / "tileset.json"
        self.assertEqual(called("globe", self.town, self.ground, path), (0, "", ""))
        root = json.loads(path.read_text())["root"]
        # the middle of both ends of the street and of the parcels, on the surface of the Earth
        x, y, z = root["transform"][12:15]
        self.assertAlmostEqual((x * x + y * y) / 6378137**2 + z * z / 6356752.314245**2, 1, places=9)
        self.assertEqual([child["content"]["uri"] for child in root["children"]], ["ground.glb", "lots_1.glb"])
        told, numbers, text = self.tile(path.parent / "lots_1.glb")
        (part,) = told["meshes"][0]["primitives"]
        ids = numbers(part["attributes"]["_FEATURE_ID_0"])
        self.assertEqual((len(ids), set(ids)), (2 * 6 * 4, {0, 1}))
        normals = list(zip(*[iter(numbers(part["attributes"]["NORMAL"]))] * 3))
        self.assertEqual(len(set(normals)), 6)
        indices = part["indices"]
        self.assertEqual((told["accessors"][indices]["componentType"], len(numbers(indices))), (5123, 2 * 12 * 3))
        data = told["extensions"]["EXT_structural_metadata"]
        names = data["schema"]["classes"]["lot"]["properties"]
        columns = data["propertyTables"][0]["properties"]
        found = {names[word]["name"]: [text(column, row) for row in (0, 1)] for word, column in columns.items()}
        self.assertEqual((found["name"], found["zone"], found["storeys"]), (["1/1", "1/2"], ["W2", ""], ["2", ""]))
        self.assertEqual(sorted(told["extensionsUsed"]), ["EXT_mesh_features", "EXT_structural_metadata"])

    def test_boxes_hold_what_is_drawn(self):
        self.made(".kml", *self.features())
        path = self.top / "tileset.json"
        called("globe", self.town, self.ground, path)
        for child in json.loads(path.read_text())["root"]["children"]:
            told, _, _ = self.tile(self.top / child["content"]["uri"])
            box = child["boundingVolume"]["box"]
            for one in (one for one in told["accessors"] if "min" in one):
                # a place (x, y, z) of the file is (x, -z, y) in the tile
                for k, axis, sign in ((0, 0, 1), (1, 2, -1), (2, 1, 1)):
                    ends = sorted(sign * one[word][axis] for word in ("min", "max"))
                    half = box[3 + 4 * k]
                    self.assertTrue(box[k] - half - 1e-4 <= ends[0] and ends[1] <= box[k] + half + 1e-4)

    def test_a_glb_has_its_place(self):
        self.assertEqual(self.made(".glb", *self.features()), (0, "", ""))
        told, _, _ = self.tile(self.out)
        place = told["nodes"][0]["extras"]["place"]
        status, _, fault = called("glb", "--ground", self.ground, self.town, self.top / "own.glb")
        self.assertEqual((status, fault), (0, ""))
        nodes = self.tile(self.top / "own.glb")[0]["nodes"]
        self.assertEqual((nodes[0]["name"], nodes[-1]["extras"]["place"]), ("ground", place))
        self.assertEqual(
            (place["system"], place["angle"], place["origin"]),
            ("EPSG:4326", 0, [place["longitude"], place["latitude"]]),
        )

    def test_a_set_of_a_region_is_placed(self):
        self.made(".kml", *self.features())
        source, other = self.top / "tileset.json", self.top / "globe.json"
        source.write_text(json.dumps({"root": {"transform": [1, 0, 0, 0, 0, 1, 0, 0, 0, 0, 1, 0, 7, -8, 9, 1]}}))
        self.assertEqual(called("globe", source, self.ground, other), (0, "", ""))
        matrix = json.loads(other.read_text())["root"]["transform"]
        plain = globe.standing(globe.globe_of(read_ground(self.ground).place))
        for k in range(3):
            known = plain[12 + k] + 7 * plain[k] - 8 * plain[4 + k] + 9 * plain[8 + k]
            self.assertAlmostEqual(matrix[12 + k], known, places=6)
        self.assertIn(
            "a set names the files beside it", called("globe", source, self.ground, self.top / "x" / "a.json")[2]
        )
        source.write_text("[]")
        self.assertIn("is no tileset.json", called("globe", source, self.ground, other)[2])

    def test_where_the_place_is_not_known(self):
        with mock.patch.object(globe, "asked", return_value=None):
            status, _, said = self.made(".place.json", box(1000, 2000, 9, 8, symbol="yard"))
            self.assertEqual(status, 1)
            self.assertIn("where the map lies on the globe isn't known: install GDAL", said)
            self.assertFalse(self.out.exists())

    def test_wrong_words(self):
        self.assertIn("its ending says nothing that is written here", self.made(".dwg", *self.features())[2])
        self.ground.write_text("{}")
        self.assertIn("is no ground", called("globe", self.town, self.ground, self.top / "a.kml")[2])
        self.map.write_text('{"type": "CityJSON", "CityObjects": {"a": 3}, "vertices": []}')
        self.refused("is no whole CityJSON")


if __name__ == "__main__":
    unittest.main()
