"""The tools with a script in the place of an OBJ text: what was given, the same replies, and attributes for one call."""
import base64
import csv
import json
import re
import sys
import tempfile
import unittest
import zlib
from fractions import Fraction
from pathlib import Path

TESTS = Path(__file__).resolve().parent
TOP = TESTS.parent.parent
sys.path[:0] = [str(TESTS), str(TESTS.parent)]

from drawn import Drawn  # noqa: E402
from in_process import called  # noqa: E402
from cga_city_lib.call import Words  # noqa: E402
from cga_city_lib.door import add_words, opened  # noqa: E402
from cga_city_lib.forms import form_of  # noqa: E402
from cga_city_lib.numerals import fixed  # noqa: E402
from cga_city_lib.obj import Town  # noqa: E402
from cga_city_lib.program import is_here  # noqa: E402
from cga_city_lib.traced import Traced  # noqa: E402

TELLER = TESTS / "live_stand_in"
SCRIPT = """rules
attr storey = 3
1: house -> S(1r, storey, 1r) I("cube")
2: house -> I("gable")
end
lot b 1 0 0 12 9 house
lot a 1 20 0 4 5/2 house
print
"""


def box(drawn, name, x, size, gable):
    return drawn.lot(name).solid("house", "cube", (x, 0, 0), size).solid("house", "gable", (x, 0, 0), gable)


def of_script(storey):
    """What `print` draws of the script with that storey, by hand."""
    drawn = box(Drawn(), "b", 0, (12, storey, 9), (12, 1, 9))
    return box(drawn, "a", 20, (4, storey, 2.5), (4, 1, 2.5))


class Given(unittest.TestCase):
    def setUp(self):
        folder = tempfile.TemporaryDirectory()
        self.addCleanup(folder.cleanup)
        self.top = Path(folder.name)
        self.script, self.town = self.top / "town.cga", self.top / "town.obj"
        self.script.write_text(SCRIPT)

    def call(self, tool, *words, status=0):
        ended, out, said = called(tool, *words)
        self.assertEqual(ended, status, said)
        return out, said

    def refused(self, data, told):
        file = self.top / "given"
        file.write_bytes(data)
        out, said = self.call("table", file, status=1)
        self.assertEqual((out, said.count("\n")), ("", 1))
        self.assertIn(told, said)


class WhatWasGiven(Given):
    def test_what_is_neither(self):
        for data, told in (
            (b"", "given is empty: give a script, or the OBJ text that"),
            (b"\n \n", "is empty"),
            (b"glTF\x02\0\0\0", "is a glTF file"),
            (b"\x89PNG\r\n\x1a\n", "is a PNG picture"),
            (b"\xff\xfer\0u\0l\0e\0s\0", "is text in UTF-16"),
            (b"\x7fELF\x02\0", "is a binary file"),
            (b"<svg>", "is HTML, SVG or XML"),
            (b'{"a": 1}', "is JSON"),
            (b'1: house -> I("cube")\n', "has rules without a block: write a line `rules` before them"),
            (
                b"# ok\n# refused BadLot a\n",
                "has replies and no town: give the script itself, or end it by a line `print`",
            ),
            (b"# a town\n", "has comments alone"),
            (b"lot,area\na,40\n", "is no script and no OBJ text, since its first line is `lot,area`"),
            (b"\x1b]0;x\x07", "its first line is `<1B>]0;x<07>`"),
        ):
            with self.subTest(told):
                self.refused(data, told)

    def test_words_that_go_with_a_script(self):
        self.town.write_text("\n".join(of_script(3).lines))
        for words in (["--set", "storey=3"], ["--program", TELLER]):
            _, said = self.call("table", self.town, *words, status=1)
            self.assertIn(f"{self.town} is an OBJ text, and {words[0]} goes with a script", said)

    def test_a_script_whose_replies_have_a_dump_before_the_town(self):
        self.town.write_text("version 2\ncity\nend\n" + "\n".join(of_script(3).lines))
        self.assertEqual(len(self.call("table", self.town)[0].split()), 3)


class Forms(unittest.TestCase):
    def test_corners_of_a_turned_scope(self):
        """As the matrix of docs/LIVE.md has them: X points along -Z, Z along +X."""
        form = form_of("cube", "-Z+Y+X", "1/2", "3", "1/3")
        wanted = [(0, 0, 0), (0, 0, -3), (2, 0, -3), (2, 0, 0), (0, 18, 0), (0, 18, -3), (2, 18, -3), (2, 18, 0)]
        self.assertEqual((form.one, list(form.corners)), (6, wanted))

    def test_the_ridge_of_a_hip(self):
        """A hip of 6 by 4 has its ridge from (2, H, 2) to (4, H, 2)."""
        form = form_of("hip", "+X+Y+Z", "6", "5", "4")
        self.assertEqual(form.corners[4:], ((2, 5, 2), (4, 5, 2)))

    def test_decimals(self):
        for upper, lower, text in (
            (1, 3, "0.333333"),
            (-2, 3, "-0.666667"),
            (1, 2 * 10**6, "0.000001"),
            (-1, 2 * 10**6, "-0.000001"),
            (-1, 10**7, "0.000000"),
        ):
            self.assertEqual(fixed(upper, lower, 6), text)


class Traces(unittest.TestCase):
    def test_solids_are_children_that_were_not_expanded(self):
        steps = ["# step b / house - - FlatScope", "# step a / house - - 3", "# step a /1 roof - - 1"]
        traced = Traced(steps)
        self.assertEqual(traced.ids, ["a/0", "a/2", "a/1/0"])
        self.assertEqual(list(traced.in_order(["b", "a", "c"])), [("b", []), ("a", [0, 2, 1]), ("c", [])])


class ByStandIn(Given):
    """A program that tells changes stands in for cga_live."""

    def both(self, tool, *words):
        """What a tool says of the script, and what it says of the OBJ text."""
        self.town.write_text("\n".join(of_script(3).lines))
        return (
            self.call(tool, "--program", TELLER, self.script, *words),
            self.call(tool, self.town, *words),
        )

    def test_tables(self):
        for by in ("lot", "both"):
            one, other = self.both("table", "--by", by, "--floor", "house")
            self.assertEqual(one, other)

    def test_a_table_with_a_bill(self):
        """Fronts of 36, 12, 12 and 4, and boxes of 324, 108, 30 and 10."""
        drawn = of_script(3)
        drawn.lines[:0] = ["# bill 1", "# bill house 4 64.000000 472.000000 0"]
        self.town.write_text("\n".join(drawn.lines))
        one = self.call("table", "--program", TELLER, self.script, "--by", "symbol")
        self.assertEqual(one, self.call("table", self.town, "--by", "symbol"))
        self.assertIn(",64,472,", one[0])

    def test_sums_of_a_script_are_exact(self):
        """A third of a unit times 3 is 1, and as printed it is 0.999999."""
        self.script.write_text(SCRIPT.replace("12 9 house", "1/3 3 house"))
        out, _ = self.call("table", "--program", TELLER, self.script)
        row = next(csv.DictReader(out.split("\n")))
        # a cube of a third by 3 by 3 and a gable as wide of height 1: volumes 3 and 1/2, fronts 1 and a third
        self.assertEqual((row["plan"], row["volume"], row["front"]), ("2", "3.5", "1.333333"))
        out, _ = self.call("table", "--program", TELLER, self.script, "--by", "symbol")
        (row,) = csv.DictReader(out.split("\n"))
        # with the lot of 4 by 2.5: boxes of 3, 1, 30 and 10
        self.assertEqual(row["box"], "44")
        self.town.write_text("\n".join(box(Drawn(), "b", 0, (Fraction(1, 3), 3, 3), (Fraction(1, 3), 1, 3)).lines))
        out, _ = self.call("table", self.town)
        self.assertEqual(next(csv.DictReader(out.split("\n")))["plan"], "1.999998")

    def test_places(self):
        targets = self.top / "script.csv", self.top / "obj.csv"
        for source, target in zip(([self.script, "--program", TELLER], [self.town]), targets):
            self.town.write_text("\n".join(of_script(3).lines))
            self.call("places", *source, target)
        one, other = (list(csv.reader(target.read_text().split("\n"))) for target in targets)
        self.assertEqual([row[1:] for row in one], [row[1:] for row in other])
        self.assertEqual([row[:1] for row in one], [["id"], ["b/0"], ["b/1"], ["a/0"], ["a/1"], []])

    def test_drawings_and_pictures(self):
        one, other = self.both("plan", "--title", "x")
        self.assertEqual(one, other)
        targets = self.top / "script.png", self.top / "obj.png"
        self.call("picture", "--program", TELLER, self.script, targets[0], "20x15", "--by", "python")
        self.call("picture", self.town, targets[1], "20x15", "--by", "python")
        self.assertEqual(*(target.read_bytes() for target in targets))

    def test_a_picture_is_a_png(self):
        _, said = self.call("picture", "--program", TELLER, self.script, self.top / "town.jpg", status=2)
        self.assertIn("town.jpg has to end in .png", said)

    def test_merged_towns_and_glb(self):
        self.town.write_text("\n".join(of_script(3).lines))
        for tool, ending in (("merge", "obj"), ("glb", "glb")):
            targets = [self.top / f"{name}.{ending}" for name in ("script", "obj")]
            self.call(tool, "--program", TELLER, self.script, targets[0])
            self.call(tool, self.town, targets[1])
            one, other = (target.read_bytes().replace(b"script.mtl", b"obj.mtl") for target in targets)
            self.assertEqual(one, other)

    def test_pages(self):
        page = self.top / "page.html"
        self.call("view", "--program", TELLER, self.script, page)
        packed = re.search(r'\{"packed": "(.*?)"\}', page.read_text(encoding="utf-8")).group(1)
        data = zlib.decompress(base64.b64decode(packed))
        head = json.loads(data[4 : 4 + int.from_bytes(data[:4], "little")])
        self.assertEqual((head["title"], head["lots"], head["symbols"]), ("town", ["b", "a"], ["house"]))

    def test_the_same_town(self):
        self.town.write_text("\n".join(of_script(3).lines))
        for files in ((self.script, self.town), (self.town, self.script), (self.script, self.script)):
            out, _ = self.call("diff", "--program", TELLER, *files)
            self.assertEqual(out, "2 lots before, 2 after; no solid differs\n")


class Attributes(Given):
    def test_an_attribute_for_one_call(self):
        words = ["table", "--program", TELLER, self.script, "--set"]
        rows = list(csv.DictReader(self.call(*words, "storey=7/2")[0].split("\n")))
        # a cube of 12 by 3.5 by 9 and a gable of 12 by 1 by 9
        self.assertEqual((rows[0]["volume"], rows[0]["top"]), ("432", "3.5"))
        self.assertEqual(self.script.read_text(), SCRIPT)

    def test_a_difference(self):
        out, _ = self.call("diff", "--program", TELLER, self.script, self.script, "--set", "storey=4", status=1)
        self.assertIn("~ b: went 1 house; came 1 house; stayed 1 house\n", out)

    def test_settings_that_cannot_be_taken(self):
        for setting, status, told in (
            ("storey", 2, "`storey` isn't NAME=NUMBER, such as storey=3"),
            ("storey=high", 2, "isn't NAME=NUMBER"),
            ("2=3", 2, "isn't NAME=NUMBER"),
            ("storey=3;print", 2, "isn't NAME=NUMBER"),
            ("floors=3", 1, "--set floors=3 is refused (Unexpected at 1): the attributes are storey"),
        ):
            out, said = self.call("table", "--program", TELLER, self.script, "--set", setting, status=status)
            self.assertEqual((out, said.count("\n")), ("", 1))
            self.assertIn(told, said)


class Refusals(Given):
    def test_a_refused_line_is_told_and_the_town_taken(self):
        self.script.write_text(SCRIPT + "lot c 1 0 0 0 8 house\nlot d 1 0 0 0 8 house\n")
        out, said = self.call("table", "--program", TELLER, self.script)
        self.assertEqual(len(out.split()), 3)
        self.assertEqual(said.count("\n"), 1)
        self.assertIn(f"table: {self.script}:9:5: BadLot: the width and depth of lot `c`", said)
        self.assertIn(f"; 2 lines are refused, and tools/lint {self.script} tells all", said)

    def test_a_block_that_is_left_open(self):
        self.script.write_text(SCRIPT + "rules\n")
        out, said = self.call("table", "--program", TELLER, self.script)
        self.assertEqual(len(out.split()), 3)
        self.assertIn("OpenBlock: no line `end` ends the last block", said)

    def test_nothing_is_drawn(self):
        self.script.write_text("rules\nend\n")
        _, said = self.call("table", "--program", TELLER, self.script, status=1)
        told = f"table: nothing is drawn in {self.script}: tools/lint {self.script} tells what comes to nothing\n"
        self.assertEqual(said, told)

    def test_shapes_that_come_to_nothing_are_told(self):
        """Of two lots with a cube and a gable each, the cubes have no height."""
        told = f"{self.script}: 2 shapes come to nothing: tools/lint {self.script} tells which and why"
        more = ", once the values of --set stand in it"
        for tool, ending in (("view", "html"), ("glb", "glb"), ("usda", "usda"), ("places", "csv"), ("merge", "obj")):
            words = (tool, "--program", TELLER, self.script, self.top / f"x.{ending}")
            self.assertEqual(self.call(*words)[1], "")
            self.assertEqual(self.call(*words, "--set", "storey=0")[1], f"{tool}: {told}{more}\n")
        for tool in ("table", "plan"):
            words = (tool, "--program", TELLER, self.script)
            self.assertEqual(self.call(*words, "--set", "storey=-4")[1], f"{tool}: {told}{more}\n")
        self.script.write_text(SCRIPT.replace("storey = 3", "storey = 0"))
        self.assertEqual(self.call("table", "--program", TELLER, self.script)[1], f"table: {told}\n")
        picture = ("picture", "--program", TELLER, self.script, self.top / "x.png", "20x15", "--by", "python")
        self.assertIn(f"picture: {told}\n", self.call(*picture)[1])

    def test_a_program_that_tells_no_changes_tells_faults_as_well(self):
        self.script.write_text("rules\nend\nlot a 3 5 0 1 1 house\nlot flat 0 5 0 1 1 house\n")
        _, said = self.call("table", "--program", TESTS / "stand_in", self.script)
        self.assertEqual(
            said, f"table: {self.script}: 1 shape comes to nothing: tools/lint {self.script} tells which and why\n"
        )

    def test_a_program_that_tells_no_changes(self):
        """Its town is what it prints: three cubes of a lot, by its seed."""
        self.script.write_text("rules\nend\nlot a 3 5 0 1 1 house\n")
        out, _ = self.call("table", "--program", TESTS / "stand_in", self.script)
        self.assertEqual(out.split("\n")[1].split(",")[:2], ["a", "3"])

    def test_a_program_that_ends(self):
        self.script.write_text("rules\nend\nlot a 3 5 0 1 1 house\ndie\n")
        _, said = self.call("table", "--program", TESTS / "stand_in", self.script, status=1)
        self.assertIn("there is no answer: the program ended with status 6", said)


@unittest.skipUnless(is_here("cga_live"), "cga_live isn't built")
class ByTheProgram(Given):
    def test_examples_are_what_their_runs_printed(self):
        known = Words()
        add_words(known)
        for name in ("first_box", "gable_house", "tower", "shops", "town", "village", "assets"):
            with self.subTest(name):
                script = TOP / "examples" / f"{name}.cga"
                printed = Town(script.with_suffix(".out").read_text().split("\n"))
                found = opened(str(script), known.parse_args([])).town
                self.assertEqual((found.texts, found.lots), (printed.texts, printed.lots))

    def test_ids_are_those_of_a_trace(self):
        script = TOP / "examples" / "shops.cga"
        self.call("places", script, self.top / "p.json")
        places = json.loads((self.top / "p.json").read_text())["places"]
        self.assertEqual(len({place["id"] for place in places}), len(places))
        self.assertTrue(all(place["id"].startswith(place["lot"] + "/") for place in places))


if __name__ == "__main__":
    unittest.main()
