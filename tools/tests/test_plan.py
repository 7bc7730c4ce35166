"""Drawings of towns: what is drawn where on paper, by hand, and what is hidden."""
import re
import tempfile
import unittest
import xml.etree.ElementTree as tree
from fractions import Fraction
from pathlib import Path

from drawn import Drawn
from in_process import called

from cga_city_lib.colours import colour_of
from cga_city_lib.hidden import ordered, split, visible
from cga_city_lib.outline import outlines
from cga_city_lib.projection import Face, across, behind, loops, normal, seen

SVG = "{http://www.w3.org/2000/svg}"


def flat(depth, low, high, symbol="wall"):
    (a, b), (c, d) = low, high
    return Face([(a, b, depth), (a, d, depth), (c, d, depth), (c, b, depth)], symbol, (0.0, 0.0, 1.0))


class Views(unittest.TestCase):
    def test_each_side_has_its_left(self):
        # the corner (0, 0, 0) of a house lies at the left as seen from the left side and the front
        for right, known in (
            ((1, 0), (3, -5, 7)),
            ((0, -1), (-7, -5, 3)),
            ((-1, 0), (-3, -5, -7)),
            ((0, 1), (7, -5, -3)),
        ):
            self.assertEqual(across(right)((3, 5, 7)), known)

    def test_a_face_that_looks_to_the_eye(self):
        # the front of a cube, as LANGUAGE has it, seen from the front
        view = across((1, 0))
        self.assertEqual(normal([view(p) for p in ((0, 0, 1), (1, 0, 1), (1, 1, 1), (0, 1, 1))]), (0, 0, 1))

    def test_what_lies_behind_a_plane(self):
        self.assertEqual(behind([(0, 0, 0), (4, 0, 0), (4, 0, 4)], 1), [(0, 0, 0), (4, 0, 0), (4, 0, 1), (1, 0, 1)])
        self.assertEqual(behind([(0, 0, 2), (4, 0, 2), (4, 1, 2)], 1), [])

    def test_both_sides_of_a_sheet_go_round_one_way(self):
        # fills of one path that go round in two ways would make a hole where they overlap
        ring = [(0, 0, 0), (4, 0, 0), (4, 3, 0), (0, 3, 0)]
        faces = [face for corners in (ring, ring[::-1]) for face in seen([corners], "wall", 1, False)]
        self.assertEqual([face.normal for face in faces], [(0, 0, 1)] * 2)
        self.assertEqual([normal(face.corners) for face in faces], [(0, 0, 1)] * 2)

    def test_rings_of_segments(self):
        self.assertEqual(len(loops([((0, 0), (1, 0)), ((1, 1), (1, 0)), ((0, 0), (1, 1))])[0]), 3)
        self.assertEqual(loops([((0, 0), (1, 0)), ((1, 0), (1, 1))]), [])


class Hidden(unittest.TestCase):
    def test_what_is_wholly_behind_is_not_drawn(self):
        near, far, beside = flat(5, (0, 0), (4, 4)), flat(1, (1, 1), (3, 3)), flat(1, (5, 0), (6, 1))
        self.assertEqual(visible([far, near, beside], 100), [near, beside])

    def test_the_nearer_is_drawn_later(self):
        near, far = flat(5, (0, 0), (4, 4)), flat(1, (2, 2), (6, 6))
        self.assertEqual(ordered([near, far]), [far, near])

    def test_a_slope_goes_before_what_stands_in_front_of_its_lower_end(self):
        # a roof that falls towards the eye, and a dormer that stands on it: its depth lies between the roof's ends
        slope = Face([(0, 0, 0), (0, 4, 4), (8, 4, 4), (8, 0, 0)], "roof", (0.0, -(0.5**0.5), 0.5**0.5))
        dormer = flat(3, (2, 1), (4, 2.9), "dormer")
        self.assertEqual([face.symbol for face in ordered([dormer, slope])], ["roof", "dormer"])

    def test_faces_that_cross_are_drawn_in_parts(self):
        slope = Face([(0, 0, 0), (0, 4, 4), (8, 4, 4), (8, 0, 0)], "roof", (0.0, -(0.5**0.5), 0.5**0.5))
        chimney = flat(2, (3, 1), (4, 3), "chimney")
        parts = ordered([chimney, slope])
        self.assertEqual(len(parts), 3)
        at = [face.symbol for face in parts].index("roof")
        hidden, shown = [face for face in parts if face.symbol == "chimney"]
        # above the slope, where V is below 2, the chimney is the nearer one
        self.assertEqual(
            (
                parts.index(hidden) < at < parts.index(shown),
                {p[1] for p in hidden.corners},
                {p[1] for p in shown.corners},
            ),
            (True, {2, 3}, {1, 2}),
        )

    def test_both_parts_of_a_face(self):
        by = Face([(1, 0, 0), (1, 1, 0), (1, 1, 1)], "x", (1.0, 0.0, 0.0))
        left, right = split(flat(0, (0, 0), (3, 1)), by)
        self.assertEqual(({p[0] for p in left.corners}, {p[0] for p in right.corners}), ({0, 1}, {1, 3}))

    def test_no_line_between_parts_of_a_turned_wall(self):
        # two tiles of a wall that is turned by 3, 4, 5, with corners that are off by the last decimal that is printed
        def tile(start, end, off):
            corners = [
                (0.8 * start + off, 0, 0.6 * start),
                (0.8 * start, 3, 0.6 * start - off),
                (0.8 * end, 3, 0.6 * end),
                (0.8 * end + off, 0, 0.6 * end),
            ]
            return Face(corners, "wall", normal(corners))

        lines = outlines([tile(100, 102, 1e-6), tile(102, 104, -1e-6)])
        self.assertEqual([len(some) for some in lines], [3, 3])

    def test_no_line_between_parts_of_a_wall(self):
        # two tiles of one wall, beside each other, of which one is higher
        lines = [line for some in outlines([flat(0, (0, 0), (2, 2)), flat(0, (2, 0), (4, 3))]) for line in some]
        self.assertAlmostEqual(sum(abs(p[0] - q[0]) + abs(p[1] - q[1]) for p, q in lines), 4 + 2 + 3 + 2 + 2 + 1)
        self.assertEqual(len(outlines([flat(0, (0, 0), (2, 2)), flat(0, (2, 0), (4, 2), "door")])[0]), 4)

    def test_no_line_where_a_wall_ends_within_another(self):
        # the right end of the one lies within the other, and so does the left end of the other within the one
        counts = [
            len(some)
            for some in outlines([flat(0, (0, 0), (3, 2)), flat(0, (2, 0), (5, 2)), flat(0, (4, 0), (9, 2), "door")])
        ]
        self.assertEqual(counts, [3, 3, 4])


class Drawings(unittest.TestCase):
    def setUp(self):
        folder = tempfile.TemporaryDirectory()
        self.addCleanup(folder.cleanup)
        self.top = Path(folder.name)
        self.town = self.top / "town.obj"

    def draw(self, drawn, *words):
        self.town.write_text("\n".join([*drawn.lines, ""]))
        status, out, said = called("plan", self.town, *words)
        self.assertEqual((status, said), (0, ""))
        self.svg = tree.fromstring(out)
        return self.svg

    def paths(self, width):
        """The corners of the paths in the group of lines of this width."""
        for group in self.svg.iter(SVG + "g"):
            if group.get("stroke-width") == width:
                for path in group.iter(SVG + "path"):
                    for part in re.findall(r"M([^MZ]*)", path.get("d")):
                        yield path.get("fill"), [tuple(map(float, point.split(","))) for point in part.split()]

    def size(self, points):
        return tuple(round(max(some) - min(some), 2) for some in zip(*points))

    def texts(self):
        return [text.text for text in self.svg.iter(SVG + "text")]

    def test_a_plan_is_to_scale(self):
        self.draw(Drawn().lot("a").solid("wall", "cube", (3, 0, 5), (12, 6, 9)), "--scale", "100")
        (_, points), *_ = self.paths("0.08")
        self.assertEqual(self.size(points), (120, 90))
        self.assertTrue(self.svg.get("width").endswith("mm"))
        self.assertIn("Plan from above, 1:100", self.texts())
        self.assertIn("N", self.texts())

    def test_the_scale_that_fits_on_a3(self):
        self.draw(Drawn().lot("a").solid("wall", "cube", (0, 0, 0), (100, 6, 9)))
        self.assertIn("Plan from above, 1:500", self.texts())

    def test_a_bar_is_as_long_as_it_says(self):
        self.draw(Drawn().lot("a").solid("wall", "cube", (0, 0, 0), (12, 6, 9)), "--scale", "200")
        bar = [float(part.get("width")) for part in self.svg.iter(SVG + "rect") if part.get("height") == "1.6"]
        self.assertEqual((sum(bar), [text for text in self.texts() if text.endswith(" m")]), (25, ["5 m"]))

    def test_what_a_plan_cuts(self):
        drawn = (
            Drawn()
            .lot("a")
            .solid("wall", "cube", (0, 0, 0), (10, 3, 1))
            .solid("low", "cube", (0, 0, 4), (10, 1, 1))
            .solid("high", "cube", (0, 2, 8), (10, 1, 1))
        )
        drawn.solid("sheet", "quad", (0, 0, 6), (10, 3, 0))
        self.draw(drawn, "--plan", "1.5", "--scale", "100")
        cut = list(self.paths("0.35"))
        self.assertEqual(
            [(fill == "none", self.size(points)) for fill, points in cut], [(False, (100, 10)), (True, (100, 0))]
        )
        self.assertEqual([self.size(points) for fill, points in self.paths("0.08") if fill != "none"], [(100, 10)])

    def test_a_section_is_seen_from_the_side_of_its_right_hand(self):
        # from west to east one looks to the north: what stands there is drawn, what stands in the south isn't
        drawn = (
            Drawn()
            .lot("a")
            .solid("cut", "cube", (0, 0, 0), (10, 5, 10))
            .solid("north", "cube", (12, 0, 2), (2, 2, 1))
            .solid("south", "cube", (16, 0, 8), (3, 3, 1))
        )
        self.draw(drawn, "--section", "0,5,10,5", "--scale", "100")
        self.assertEqual([self.size(points) for _, points in self.paths("0.35")], [(100, 50)])
        self.assertEqual({self.size(points) for fill, points in self.paths("0.08") if fill != "none"}, {(20, 20)})
        self.draw(drawn, "--section", "10,5,0,5", "--scale", "100")
        self.assertIn((30, 30), {self.size(points) for fill, points in self.paths("0.08") if fill != "none"})

    def test_a_plane_along_a_floor_lies_just_above_it(self):
        self.draw(
            Drawn().lot("a").solid("slab", "cube", (0, 0, 0), (10, 3, 8)).solid("wall", "cube", (2, 3, 2), (1, 3, 1)),
            "--plan",
            "3",
            "--scale",
            "100",
        )
        self.assertEqual([self.size(points) for _, points in self.paths("0.35")], [(10, 10)])

    def test_elevations(self):
        drawn = Drawn().lot("a").solid("wall", "cube", (0, 0, 0), (12, 6, 9))
        for side, known in (("front", (120, 60)), ("right", (90, 60)), ("back", (120, 60)), ("left", (90, 60))):
            self.draw(drawn, "--elevation", side, "--scale", "100")
            self.assertEqual([self.size(points) for fill, points in self.paths("0.08") if fill != "none"], [known])
            self.assertNotIn("N", self.texts())

    def test_a_gable_is_cut_as_a_triangle(self):
        self.draw(
            Drawn().lot("a").solid("roof", "gable", (0, 0, 0), (12, 4, 8)), "--section=6,-5,6,20", "--scale", "100"
        )
        ((fill, points),) = self.paths("0.35")
        self.assertEqual((len(points), self.size(points)), (3, (80, 40)))
        self.assertEqual(fill, "#{:02x}{:02x}{:02x}".format(*(part * 3 // 4 for part in colour_of("roof"))))

    def test_names_are_only_data(self):
        name = '<script>&"\x1b'
        self.draw(
            Drawn().lot(name).solid("<b>", "cube", (0, 0, 0), (1, 1, 1)),
            "--names",
            "--title",
            "A & B <i>\x07",
            "--lot",
            name,
        )
        self.assertIn('<script>&"', self.texts())
        self.assertIn("A & B <i>", self.texts())
        self.assertEqual([part for part in self.svg.iter() if part.tag.endswith("script")], [])

    def test_one_lot_of_several(self):
        drawn = (
            Drawn()
            .lot("a")
            .solid("wall", "cube", (0, 0, 0), (1, 1, 1))
            .lot("b")
            .solid("wall", "cube", (50, 0, 0), (2, 2, 2))
        )
        self.draw(drawn, "--lot", "b", "--scale", "100")
        self.assertEqual({self.size(points) for fill, points in self.paths("0.08") if fill != "none"}, {(20, 20)})

    def test_the_mark_of_a_section(self):
        self.draw(
            Drawn().lot("a").solid("wall", "cube", (0, 0, 0), (10, 5, 10)),
            "--mark",
            "-2,5,12,5",
            "--scale",
            "100",
            "--north",
            "-30",
        )
        marks = [text for text in self.svg.iter(SVG + "text") if text.text in "AB"]
        self.assertEqual([text.text for text in marks], ["A", "B"])
        self.assertAlmostEqual(float(marks[1].get("x")) - float(marks[0].get("x")), 140)
        for text in marks:
            self.assertTrue(3 < float(text.get("x")) < float(self.svg.get("width")[:-2]) - 3)
        self.assertIn("rotate(-30)", tree.tostring(self.svg, encoding="unicode"))

    def test_what_can_not_be_drawn(self):
        self.town.write_text("\n".join(Drawn().lot("a").solid("x", "cube", (0, 0, 0), (Fraction(1, 10),) * 3).lines))
        for words, told in (
            (["--lot", "b"], "no lot `b`"),
            (["--plan", "-1"], "nothing lies on the plane or behind it"),
            (["--lot", "a", "--scale", "1"], None),
        ):
            status, out, said = called("plan", self.town, *words)
            self.assertEqual((status, said.count("\n")), (1, 1) if told else (0, 0))
            self.assertIn(told or "", said)
        self.town.write_text("\n".join(Drawn().lot("a").solid("x", "cube", (0, 0, 0), (900, 1, 1)).lines))
        self.assertIn("9.0 metres of paper", called("plan", self.town, "--scale", "100")[2])
        for text in ("", "<html>", "o a\ng b\nv 0 nan 0\nv 1 0 0\nv 0 1 0\nf 1 2 3\n"):
            self.town.write_text(text)
            self.assertEqual(called("plan", self.town)[0], 1)

    def test_words(self):
        for words, told in (
            (["--section", "1,2,3"], "--section"),
            (["--section", "1,2,1,2"], "--section"),
            (["--plan", "1", "--elevation", "front"], "doesn't go with"),
            (["--elevation", "top"], "front, right, back or left, and not `top`"),
            (["--scale", "0"], "from 1 to"),
        ):
            status, out, said = called("plan", self.town, *words)
            self.assertEqual((status, out), (2, ""))
            self.assertIn(told, said)


if __name__ == "__main__":
    unittest.main()
