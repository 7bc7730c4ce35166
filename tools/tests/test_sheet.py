"""The sheet of a map: its table, its drawings at scale, its sums, and what is refused. Expected numbers are by hand."""
import math
import re
import unittest
from unittest import mock
from xml.etree import ElementTree

from in_process import TESTS, called
from parcel_maps import CUBES, RULES, Called, box, polygon, street, turned_box

from cga_city_lib import by_browser, pdf, perspective, sheet_views
from cga_city_lib.frame import fitting
from cga_city_lib.labels import box_of, overlap
from cga_city_lib.sheet_layout import PAPERS, places
from cga_city_lib.sheet_parts import read_block

TOP = TESTS.parent.parent
SVG, LINK = "{http://www.w3.org/2000/svg}", "{http://www.w3.org/1999/xlink}"


class Sheets(Called):
    """Two yards and a street: the stand-in draws each as a cube 3 high."""

    def setUp(self):
        super().setUp()
        self.sheet, self.csv = self.top / "sheet.svg", self.top / "table.csv"
        self.write(
            box(500000, 5000010, 20, 10, name="1/1", symbol="yard", zone="W2", address="Long Street 1"),
            box(500020, 5000010, 20, 20, name="1/2", symbol="yard", zone="W3", limit=2.5),
            street([500000, 5000004], [500040, 5000004]),
            crs={"type": "name", "properties": {"name": "EPSG:25832"}},
        )

    def made(self, *words, program=CUBES):
        picture = mock.patch.object(sheet_views, "picture", return_value=(b"\x89PNG", "Perspective"))
        with picture, mock.patch.object(pdf, "command", return_value=None):
            return called("sheet", self.map, self.rules, self.sheet, "--program", program, *words)

    def parts(self, *words):
        status, _, said = self.made(*words)
        self.assertEqual(status, 0, said)
        root = ElementTree.fromstring(self.sheet.read_text(encoding="utf-8"))
        return root, {part.get("id"): part for part in root.iter() if part.get("id")}


class Tables(Sheets):
    def test_floor_areas_and_limits(self):
        # each cube is 3 high: one storey of 3, and two of 1.5; the zone W2 may have 2 m, so that 1 is above
        status, _, said = self.made("--floor", "yard=3", "--table", self.csv, "--limit", "zone=W2:2")
        self.assertEqual(status, 0, said)
        self.assertEqual(
            self.csv.read_text(encoding="utf-8").split("\n"),
            [
                "lot,address,plot m²,floors,GFA m²,ratio,height,limit,above",
                "1/1,Long Street 1,200.0,1,200.0,1.00,3.00,2.00,+1.00",
                "1/2,,400.0,1,400.0,1.00,3.00,2.50,+0.50",
                "",
            ],
        )
        self.made("--floor", "yard=1.5", "--table", self.csv)
        self.assertIn("1/2,,400.0,2,800.0,2.00,3.00,2.50,+0.50\n", self.csv.read_text(encoding="utf-8"))
        self.assertIn("1/1,Long Street 1,200.0,2,400.0,2.00,3.00,,\n", self.csv.read_text(encoding="utf-8"))

    def test_floor_areas_of_ten_parcels(self):
        """By the rules of examples/maps/street.cga a house stands 3.5 from its sides, 8 from its front and 4 from behind, a
        block 4 from both; where a parcel isn't more than 10.5 by 12 it is a garden. The definition in Python derives them.
        """
        text = (TOP / "examples" / "maps" / "street.cga").read_text(encoding="utf-8")
        plain = re.sub(r"(?m)^(8|9|10|11): .*\n", "", text).replace("12: wall", "8: facade -> wall\n12: wall")
        self.rules.write_text(plain, encoding="utf-8")
        parcels = (
            ("house", 20, 30, 2, "468.0"),  # 13 x 18 x 2
            ("house", 18.5, 26, 3, "483.0"),  # 11.5 x 14 x 3
            ("block", 25, 28, 6, "2,160.0"),  # 18 x 20 x 6
            ("block", 30, 26.5, 4, "1,702.0"),  # 23 x 18.5 x 4
            ("house", 10.4, 30, 2, "0.0"),
            ("house", 16, 12, 2, "0.0"),
            ("block", 12.2, 13, 5, "130.0"),  # 5.2 x 5 x 5
            ("house", 14, 24, 1, "84.0"),  # 7 x 12
            ("block", 22, 20, 3, "540.0"),  # 15 x 12 x 3
            ("house", 24, 33.3, 2, "724.2"),  # 17 x 21.3 x 2
        )
        features = [
            turned_box(5e5 + 50 * k, 5e6, wide, deep, 30 * (k > 7), name=f"{k}", symbol=kind, storeys=storeys)
            for k, (kind, wide, deep, storeys, _) in enumerate(parcels)
        ]
        self.write(*features, crs={"type": "name", "properties": {"name": "EPSG:25832"}})
        status, _, said = self.made("--front", "south", "--table", self.csv, program=str(TOP / "tools" / "define"))
        self.assertEqual(status, 0, said)
        rows = [line.split(",") for line in self.csv.read_text(encoding="utf-8").split("\n")[1:-1]]
        self.assertEqual([row[4] for row in rows], [area.replace(",", "") for *_, area in parcels])
        told = "".join(ElementTree.fromstring(self.sheet.read_text(encoding="utf-8")).itertext())
        self.assertIn("gross floor area, m²6,291.20", told.replace("\n", ""))

    def test_what_is_proved_and_what_tested(self):
        _, parts = self.parts("--floor", "yard=3")
        told = ["".join(one.itertext()) for one in parts["table"].iter(f"{SVG}text")]
        at = told.index("□ gross floor area, m²")
        self.assertEqual(told[at + 1], "600.00")
        at = told.index("□ volume of floors by the bills, m³")  # 3 times 600, and no proof of another program is known
        self.assertEqual((told[at + 1], told[at + 3]), ("1,800.00", "1,800.00"))
        self.assertIn("■ no sum here is proved: the program was run unproved", told)

    def test_no_floors(self):
        status, _, said = self.made("--floor", "slab")
        self.assertEqual(
            (status, said), (1, "sheet: nothing is drawn by `slab`: name behind --floor a symbol that draws floors\n")
        )
        self.assertFalse(self.sheet.exists())

    def test_skipped_features_are_told(self):
        self.write(
            box(500000, 5000010, 20, 10, name="a", symbol="yard"),
            polygon([1, 2], [3, 4], name="b"),
            crs={"type": "name", "properties": {"name": "EPSG:25832"}},
        )
        status, _, said = self.made()
        self.assertEqual(status, 3)
        self.assertIn("skipped: feature 2 (b)", said)
        self.assertTrue(self.sheet.exists())


class Drawings(Sheets):
    def test_all_parts_are_there(self):
        root, parts = self.parts()
        for name in (
            "plan",
            "section.A",
            "section.B",
            "elevation.south",
            "elevation.north",
            "perspective",
            "table",
            "legend",
            "block",
            "north",
        ):
            self.assertIn(name, parts)
        self.assertEqual((root.get("width"), root.get("height")), ("420mm", "297mm"))
        self.assertTrue(parts["perspective"].get(f"{LINK}href").startswith("data:image/png;base64,iVBO"))

    def test_parcels_at_scale(self):
        # the plan's scale stands below it: at 1:200 a parcel 20 m wide has 100 mm
        _, parts = self.parts("--paper", "A1")
        caption = [
            "".join(one.itertext()) for one in parts["plan"].iter(f"{SVG}text") if "1:" in "".join(one.itertext())
        ][0]
        scale = int(re.search(r"1:([\d,]+)", caption).group(1).replace(",", ""))
        numbers = [
            tuple(map(float, pair.split(",")))
            for pair in re.findall(r"[\d.]+,[\d.]+", parts["plan.border.p1_1"].get("d"))
        ]
        wide, high = (max(axis) - min(axis) for axis in zip(*numbers))
        self.assertAlmostEqual(wide, 20000 / scale, places=1)
        self.assertAlmostEqual(high, 10000 / scale, places=1)

    def lengths(self, layer, scale):
        """The told lengths of a layer, beside those that are drawn, in metres."""
        paths = [
            one.get("d") for one in layer.iter(f"{SVG}path") if " " in one.get("d") and one.get("stroke-width") is None
        ]
        ends = [[tuple(map(float, pair.split(","))) for pair in path[1:].split()] for path in paths]
        drawn = [math.dist(*pair) * scale / 1000 for pair in ends]
        return list(zip([float(one.text) for one in layer.iter(f"{SVG}text")], drawn))

    def scale(self, part):
        told = next("".join(one.itertext()) for one in part.iter(f"{SVG}text") if "1:" in "".join(one.itertext()))
        return int(re.search(r"1:([\d,]+)", told).group(1).replace(",", ""))

    def test_dimensions_are_drawn_at_scale(self):
        # both fronts are 20 m long; a section along both cuts two cubes that touch, 40 m in all
        _, parts = self.parts("--dimension=-20,-10,20,20", "--dimension=A:0,0,30,3", "--section=-25,0,25,0")
        found = self.lengths(parts["plan.dimensions"], self.scale(parts["plan"]))
        self.assertEqual(sorted(told for told, _ in found), [20, 20, 50])
        cut = self.lengths(parts["section.A.dimensions"], self.scale(parts["section.A"]))
        self.assertEqual(sorted(told for told, _ in cut), [30.15, 40])
        for told, drawn in found + cut:
            self.assertAlmostEqual(told, drawn, delta=0.02)
        self.assertEqual(self.made("--dimension=C:0,0,1,1")[0], 2)

    def test_a_section_where_it_is_said(self):
        _, parts = self.parts("--section=-20,-15,45,-15", "--section=10,0,10,-30")
        self.assertIn("plan.border.p1_2", parts)
        status, _, said = self.made(*["--section=0,0,1,1"] * 3)
        self.assertEqual(status, 2)
        self.assertIn("--section twice at most", said)

    def test_frames_do_not_overlap(self):
        for paper, (width, height) in PAPERS.items():
            boxes = [(x, y, x + w, y + h) for x, y, w, h in places(paper).values()]
            for k, one in enumerate(boxes):
                self.assertTrue(0 < one[0] < one[2] < width and 0 < one[1] < one[3] < height)
                self.assertFalse(any(overlap(one, other) for other in boxes[k + 1 :]))

    def test_a_round_scale(self):
        # 130 m on 280 mm need 1:464
        self.assertEqual(fitting((0, 0, 130, 10), 280, 100), 500)
        self.assertEqual(fitting((0, 0, 130, 60), 280, 100), 1000)

    def test_names_do_not_overlap(self):
        _, parts = self.parts()
        names = [one for one in parts["plan.names"].iter(f"{SVG}text")]
        boxes = [
            box_of(float(one.get("x")), float(one.get("y")), one.text, float(one.get("font-size"))) for one in names
        ]
        self.assertEqual(sorted(one.text for one in names), ["1/1", "1/2"])
        self.assertFalse(overlap(*boxes))


class Words(Sheets):
    def test_the_title_block(self):
        block = self.top / "block"
        block.write_text("\n# a comment\nProject: Bend: the street\nNumber:\n", encoding="utf-8")
        self.assertEqual(read_block(str(block)), [("Project", "Bend: the street"), ("Number", "")])
        _, parts = self.parts("--block", block)
        self.assertIn("Bend: the street", "".join(parts["block"].itertext()))
        for text, told in (
            ("no colon\n", ":1: `no colon` isn't a word, a colon and a text"),
            ("a: b\n" * 13, "has 13 lines, and a title block takes 12"),
        ):
            block.write_text(text, encoding="utf-8")
            status, _, said = self.made("--block", block)
            self.assertEqual(status, 1)
            self.assertIn(told, said)
        block.write_bytes(b"\xff: a")
        self.assertIn("isn't text in UTF-8", self.made("--block", block)[2])

    def test_files(self):
        self.sheet = self.top / "sheet.png"
        self.assertIn("sheet.png has to end in .svg", self.made()[2])
        self.sheet = self.map.with_suffix(".svg")
        self.assertIn("would be overwritten", self.made("--table", self.map)[2])
        self.map = self.top / "lots.csv"
        self.map.write_text("name,x,z,width,depth,symbol\na,0,0,9,9,yard\n")
        self.assertIn("a table of lots has no ground", self.made()[2])

    def test_wrong_words(self):
        for words in (
            ("--paper", "A4"),
            ("--limit", "zone=W2"),
            ("--limit", "W2:11"),
            ("--wall", "wall"),
            ("--wall", "wall=0"),
            ("--section", "1,2"),
        ):
            self.assertEqual(self.made(*words)[0], 2)

    def test_nothing_is_half_written(self):
        self.rules.write_text(RULES.replace("2: yard", "2: die -> NIL\n3: yard"))
        self.assertEqual(self.made()[0], 1)
        self.assertEqual(sorted(path.name for path in self.top.iterdir()), ["map.geojson", "rules.cga"])

    def test_programs_that_are_not_there(self):
        status, out, said = self.made()
        self.assertEqual((status, out), (0, f"{self.sheet}: A3, 2 lots\n"))
        self.assertIn("no PDF is written: install rsvg-convert", said)
        with mock.patch.object(by_browser, "CHROMIUM", None):
            self.assertEqual(perspective.by_page(None, "", 1, 1), None)
        with mock.patch.object(pdf.shutil, "which", return_value=None), mock.patch.object(
            pdf, "chromium", return_value=None
        ):
            self.assertEqual(pdf.command(self.sheet, self.sheet, (420, 297), self.top), None)


if __name__ == "__main__":
    unittest.main()
