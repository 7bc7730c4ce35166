"""The ground of a map beside a town: what is drawn, where, and how wide. Expected numbers are by hand."""
import base64
import re
import unittest
import zlib
from xml.etree import ElementTree

from in_process import called
from parcel_maps import CUBES, Called, box, polygon, street

from cga_city_lib import flat
from cga_city_lib.ground_file import read_ground
from cga_city_lib.ground_solids import flats, put
from cga_city_lib.obj import Town

SVG = "{http://www.w3.org/2000/svg}"


def line(*points, **properties):
    return {**street(*points), "properties": properties}


class Grounds(Called):
    def setUp(self):
        super().setUp()
        self.ground = self.top / "ground.json"

    def made(self, *features, words=()):
        self.write(*features, crs={"type": "name", "properties": {"name": "EPSG:25832"}})
        status, _, said = self.call(
            "--ground", self.ground, "--town", self.town, "--program", CUBES, "--origin", "500000,5000000", *words
        )
        self.assertEqual(status, 0, said)
        return read_ground(self.ground)

    def street_town(self):
        return self.made(
            box(500000, 5000010, 20, 10, name="1/1", symbol="yard", zone="W2"),
            line([500000, 5000004], [500020, 5000004], name="Long Street", width=6),
            polygon(
                [500000, 5000000], [500020, 5000000], [500020, 4999990], [500000, 4999990], natural="water", name="Pond"
            ),
        )


class Files(Grounds):
    def test_what_is_ground_and_what_a_parcel(self):
        ring = [[500000, 5000000], [500009, 5000000], [500009, 5000008]]
        far = [[x + 20, y] for x, y in ring]
        ground = self.made(
            polygon(*ring, symbol="yard", landuse="forest", name="wood lot"),
            polygon(*far, landuse="forest"),
            polygon(*far, leisure="park"),
            polygon(*far, water="pond"),
            polygon(*far, ground="pavement"),
            polygon(*far, highway="pedestrian", area="yes"),
            line(*ring, highway="primary"),
            line(*ring, waterway="river", width=30),
            line(*ring, railway="rail"),
            line(*ring, barrier="fence"),
            line(*ring, highway="footway", barrier="kerb"),
        )
        self.assertEqual([(plot.lot, plot.name) for plot in ground.plots], [("wood_lot", "wood lot")])
        self.assertEqual([area.kind for area in ground.areas], ["wood", "park", "water", "pavement", "pavement"])
        self.assertEqual(
            sorted((way.kind, way.width) for way in ground.ways),
            [("rail", 4), ("street", 3), ("street", 12), ("water", 30)],
        )

    def test_it_is_in_the_coordinates_of_the_town(self):
        ground = self.street_town()
        (plot,), (way,), (area,) = ground.plots, ground.ways, ground.areas
        self.assertEqual((plot.name, plot.properties["zone"], plot.area), ("1/1", "W2", 200))
        self.assertEqual(sorted(plot.ring), [(0, -20), (0, -10), (20, -20), (20, -10)])
        self.assertEqual((way.name, way.line), ("Long Street", [(0, -4), (20, -4)]))
        self.assertEqual(sorted(area.ring), [(0, 0), (0, 10), (20, 0), (20, 10)])
        place = ground.place
        self.assertEqual(
            (place.system, place.units, place.origin, place.angle), ("EPSG:25832", "metres", ("500000", "5000000"), 0)
        )

    def test_a_script_that_is_turned_has_its_ground_turned(self):
        # 3, 4, 5: the parcel lies along (4, 3), which the script has along X
        self.write(
            polygon([1000, 2000], [1040, 2030], [1034, 2038], [994, 2008], symbol="yard"),
            street([1000, 2000], [1040, 2030]),
        )
        self.assertEqual(self.call("--ground", self.ground, "--origin", "1000,2000")[0], 0)
        ((x, z), (far_x, far_z)) = read_ground(self.ground).ways[0].line
        self.assertAlmostEqual(x, 0) or self.assertAlmostEqual(z, 0)
        self.assertAlmostEqual(abs(far_x) + abs(far_z), 50, places=2)

    def test_what_is_no_ground(self):
        self.street_town()
        for text in ("", "{}", "[]", '{"format": "cga_city ground 1"}', '{"format": 3}', "\ufeff{"):
            self.ground.write_text(text)
            for words in (
                ("plan", self.town),
                ("picture", self.town, self.top / "p.png", "40x30", "--by", "python"),
                ("view", self.town, self.top / "p.html"),
            ):
                status, out, said = called(*words, "--ground", self.ground)
                self.assertEqual((status, out, said.count("\n")), (1, "", 1))
                self.assertIn("--ground", said)

    def test_a_table_has_none(self):
        self.map = self.top / "lots.csv"
        self.map.write_text("name,x,z,width,depth,symbol\na,0,0,9,9,yard\n")
        self.refused("a table of lots has no ground", words=("--ground", self.ground))

    def test_no_file_is_overwritten(self):
        self.write(box(1000, 2000, 9, 9, symbol="yard"))
        self.refused("would be overwritten", words=("--ground", self.map), refusal=2)


class Drawn(Grounds):
    def drawing(self, *words):
        status, out, said = called("plan", self.town, "--ground", self.ground, "--scale", "500", *words)
        self.assertEqual((status, said), (0, ""))
        return ElementTree.fromstring(out), out

    def test_a_plan_at_scale(self):
        # at 1:500 a metre has 2 mm: a street of 6 m is 12 mm wide and 40 mm long, with kerbs of 0.3 m on either side
        self.street_town()
        root, _ = self.drawing()
        (ground,) = [part for part in root.iter(f"{SVG}g") if part.get("id") == "ground"]
        widths = [float(path.get("stroke-width")) for path in ground.iter(f"{SVG}path") if path.get("stroke-width")]
        self.assertEqual(widths, [13.2, 12.0])
        (border,) = [part for part in root.iter(f"{SVG}path") if part.get("id") == "border.p1_1"]
        numbers = [tuple(map(float, pair.split(","))) for pair in re.findall(r"[\d.]+,[\d.]+", border.get("d"))]
        self.assertEqual({round(max(axis) - min(axis), 2) for axis in zip(*numbers)}, {40.0, 20.0})
        self.assertEqual(border.find(f"{SVG}title").text, "1/1")

    def test_names_are_those_of_the_map(self):
        self.street_town()
        _, out = self.drawing("--names")
        for name in (">1/1</text>", ">Long Street</text>", ">Pond</text>"):
            self.assertIn(name, out)
        _, out = self.drawing("--section=-5,-15,25,-15")
        self.assertNotIn("Long Street", out)

    def test_no_shape_of_the_town_is_made_of_it(self):
        ground = self.street_town()
        town = Town(self.town.read_text().split("\n"))
        lots = dict(town.lots)
        put(town, ground)
        self.assertEqual({lot: town.lots[lot] for lot in lots}, lots)
        self.assertEqual(set(town.lots) - set(lots), {"ground"})
        self.assertEqual({solid.symbol for solid in town.lots["ground"]}, {"water", "kerb", "street", "border"})
        for solid in town.lots["ground"]:
            for face in solid.faces:
                (x, _, z), (u, _, v), (s, _, t) = (town.points[at] for at in face[:3])
                self.assertGreaterEqual((v - z) * (s - x) - (u - x) * (t - z), 0)  # it looks up

    def test_page_and_picture(self):
        self.street_town()
        page = self.top / "page.html"
        self.assertEqual(called("view", self.town, page, "--ground", self.ground)[0], 0)
        packed = re.search(r'"packed": "([^"]+)"', page.read_text()).group(1)
        self.assertIn(b'"street"', zlib.decompress(base64.b64decode(packed)))
        status, _, said = called(
            "picture", self.town, self.top / "p.png", "60x40", "--by", "python", "--ground", self.ground
        )
        self.assertEqual((status, said), (0, f"picture: {self.top / 'p.png'}: drawn by Python\n"))

    def test_far_streets_are_cut(self):
        ground = self.made(box(500000, 5000010, 20, 10, symbol="yard"), line([490000, 5000000], [510000, 5000000]))
        reach = [x for _, _, faces in flats(ground) for face in faces for x, _ in face]
        self.assertEqual((round(min(reach), 6), round(max(reach), 6)), (-15, 35))


class Shapes(unittest.TestCase):
    def test_bands(self):
        # 10 by 2 and 5 by 2 that meet in a mitre: it takes 1 of each and adds 1
        faces = [
            [tuple(round(part, 6) for part in at) for at in face] for face in flat.band([(0, 0), (10, 0), (10, 5)], 2)
        ]
        self.assertEqual(
            [sorted(face) for face in faces], [[(0, -1), (0, 1), (9, 1), (11, -1)], [(9, 1), (9, 5), (11, -1), (11, 5)]]
        )
        self.assertEqual(flat.band([(0, 0), (0, 0)], 2), [])

    def test_polygons_in_triangles(self):
        bend = [(0, 0), (10, 0), (10, 10), (6, 10), (6, 4), (0, 4)]
        hole = [(7, 1), (9, 1), (9, 3), (7, 3)]
        for ring in (bend, bend[::-1]):
            self.assertAlmostEqual(sum(abs(flat.signed(face)) for face in flat.triangles(ring)), 64)
            self.assertAlmostEqual(sum(abs(flat.signed(face)) for face in flat.triangles(ring, [hole])), 60)

    def test_cuts(self):
        self.assertEqual(
            flat.cut_line([(-5, 0), (5, 0), (5, 20), (-5, 20), (-5, 5)], (0, -1, 9, 9)), [[(0, 0), (5, 0), (5, 9)]]
        )
        self.assertEqual(flat.cut_line([(-5, 1), (20, 1)], (0, 0, 9, 9)), [[(0, 1), (9, 1)]])
        self.assertEqual(
            sorted(flat.cut_ring([(-5, -5), (5, -5), (5, 5), (-5, 5)], (0, 0, 9, 9))), [(0, 0), (0, 5), (5, 0), (5, 5)]
        )


if __name__ == "__main__":
    unittest.main()
