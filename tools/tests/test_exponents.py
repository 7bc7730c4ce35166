"""Numbers with an exponent: what each word, comment and file does with one."""
import json
import struct
import sys
import tempfile
import unittest
from decimal import Decimal
from fractions import Fraction
from pathlib import Path

TESTS = Path(__file__).resolve().parent
sys.path[:0] = [str(TESTS), str(TESTS.parent)]

from in_process import called  # noqa: E402
from cga_city_lib import kept_views, panel_words, variants  # noqa: E402
from cga_city_lib.advice import Place, advice  # noqa: E402
from cga_city_lib.call import Refused, WrongValue, number_in  # noqa: E402
from cga_city_lib.districts import length  # noqa: E402
from cga_city_lib.door import setting  # noqa: E402
from cga_city_lib.drawing_words import line, wall  # noqa: E402
from cga_city_lib.geojson import parsed  # noqa: E402
from cga_city_lib.ground_file import plain, points_of  # noqa: E402
from cga_city_lib.map_words import pair, point  # noqa: E402
from cga_city_lib.numerals import is_too_long, numeral, on_exponent  # noqa: E402
from cga_city_lib.obj import Town  # noqa: E402
from cga_city_lib.obj_instances import from_obj  # noqa: E402
from cga_city_lib.own_mesh_glb import read_glb  # noqa: E402
from cga_city_lib.own_mesh_obj import read_obj  # noqa: E402
from cga_city_lib.port.lost import Lost  # noqa: E402
from cga_city_lib.port.meshes import coordinate  # noqa: E402
from cga_city_lib.port.values_read import Unreadable, number_of  # noqa: E402
from cga_city_lib.setting import number  # noqa: E402
from cga_city_lib.sweep import values_word  # noqa: E402
from cga_city_lib.table_reports import read_report  # noqa: E402
from cga_city_lib.table_rows import floor_word, fraction_word  # noqa: E402
from cga_city_lib.table_zones import limit_word  # noqa: E402

HUGE = ("1e18", "1E+400", "-1e999999999", "1e-30")  # of more digits than a script's numbers have
TRIANGLE = "o a\ng wall\nv {} 0 0\nv 1 0 0\nv 0 1 0\nf 1 2 3\n"


class Words(unittest.TestCase):
    def test_a_word_takes_an_exponent_and_a_script_gets_none(self):
        self.assertEqual(setting("storey=1e3"), "storey = 1000")
        self.assertEqual(setting("storey=-2.5E-1"), "storey = -0.25")
        self.assertEqual(pair("floors=1e+12"), ("floors", "1000000000000"))
        self.assertEqual(length("1e3"), "1000")
        self.assertEqual(values_word("storey=0..1e3/3").values, [0, 500, 1000])
        self.assertEqual(fraction_word("1e+12"), 10**12)
        self.assertEqual(floor_word("slab=3e0"), ("slab", 3))
        self.assertEqual(limit_word("zone=W2:1.1e1"), ("zone", "W2", 11))
        self.assertEqual(number("1e3"), 1000)
        self.assertEqual(point("8.5e0,4.7e1"), (Decimal("8.5"), Decimal(47)))
        self.assertEqual(line("0,4e0,2e1,4"), ((0, 4), (20, 4)))
        self.assertEqual(wall("wall=3e-1"), ("wall", 0.3))
        self.assertEqual(number_in(0, 90)("4.5e1"), 45)
        self.assertEqual(read_report("# report cost wall area * 1e3").times, 1000)

    def test_a_number_that_no_script_can_have_is_out_of_range(self):
        for text in HUGE:
            for kind, form in (
                (setting, "storey={}"),
                (pair, "floors={}"),
                (length, "{}"),
                (values_word, "storey=0..{}/3"),
                (values_word, "storey=3,{}"),
                (fraction_word, "{}"),
                (floor_word, "slab={}"),
                (limit_word, "zone=W2:{}"),
                (number, "{}"),
                (wall, "wall={}"),
            ):
                with self.subTest(form, text=text), self.assertRaisesRegex(WrongValue, "is out of range: a script's"):
                    kind(form.format(text))

    def test_what_is_too_far_out_is_told_so(self):
        for kind, word, part in (
            (line, "0,1e+12,3,4", "lies too far out: each of its numbers is below 1,000,000,000"),
            (line, "0,nan,3,4", "isn't X,Z,X,Z"),
            (point, "1e+12,47", "lies nowhere on a map: each of its numbers is below 1,000,000,000"),
            (number_in(0, 9, int), "1e0", "isn't a whole number from 0 to 9 in digits, without an exponent"),
            (number_in(0, 9, int), "x", "isn't a whole number from 0 to 9$"),
            (number_in(0, 90), "1e3", "isn't a number from 0 to 90$"),
        ):
            with self.subTest(word), self.assertRaisesRegex(WrongValue, part):
                kind(word)

    def test_tools_end_with_a_sentence(self):
        with tempfile.TemporaryDirectory() as folder:
            Path(folder, "v.obj").write_text(TRIANGLE.format(0))
            Path(folder, "rules.cga").write_text("1: a -> NIL\n")
            Path(folder, "map.json").write_text("[]")
            for use, part in (
                ("glb --offset 1e400 0 0 v.obj x.glb", "`1e400` is out of range"),
                ("usda --metres 1e-400 v.obj x.usda", "`1e-400` is out of range"),
                ("picture --then storey=1e18 v.obj x.png", "`storey=1e18` is out of range"),
                ("port --lot 1e18 2 rules.cga", "`1e18` is out of range"),
                ("sheet map.json rules.cga x.svg --limit zone=W2:1e18", "`zone=W2:1e18` is out of range"),
                ("parcels map.json rules.cga --decimals 1e0", "`1e0` isn't a whole number from 0 to 6 in digits"),
            ):
                tool, *words = use.split()
                with self.subTest(use):
                    ended, out, said = called(tool, *words, folder=folder)
                    self.assertEqual((ended, out, said.count("\n")), (2, "", 1), said)
                    self.assertIn(part, said)


class Texts(unittest.TestCase):
    def test_a_numeral_has_no_exponent(self):
        self.assertEqual(
            [numeral(text) for text in ("1e3", "-1.50e1", "0e99", "1e18", "1e", "e3")][:3], ["1000", "-15", "0"]
        )
        self.assertEqual([numeral(text) for text in ("1e18", "1e", "e3", "1/2e1")], [None] * 4)
        self.assertEqual([is_too_long(text) for text in (*HUGE, "1" * 19, "1/" + "3" * 19)], [True] * 6)
        self.assertEqual([is_too_long(text) for text in ("1e17", "1/0", "x", "1e", "")], [False] * 5)

    def test_a_line_of_a_script_is_told_what_to_write(self):
        self.assertEqual(on_exponent("1.5e-3, 1r"), "`1.5e-3` has an exponent: write 0.0015")
        self.assertEqual(on_exponent("1e3r"), "`1e3` has an exponent: write 1000")
        self.assertEqual(on_exponent("1e30"), "`1e30` has an exponent, and a number has 18 digits at most")
        for text in ("a1e3", "1e3a", "1e", "3 e3", "12345678901234567890"):
            self.assertEqual(on_exponent(text), "", text)
        told = advice("BadNumber", [], Place("attr h = 1e+3", 10, True))
        self.assertEqual(told, "`1e+3` has an exponent: write 1000")
        self.assertEqual(advice("BadNumber", [], Place("attr h = 3m", 10, True)), "")

    def test_comments_are_told_what_to_write(self):
        for kind, comment, told in (
            (panel_words, "# slider h 0..1e1", "`1e1` has an exponent: write 10"),
            (panel_words, "# choice h 1 2e1", "`2e1` has an exponent: write 20"),
            (kept_views, "# camera a 1 2 3 4 5 1e+12", "`1e+12` has an exponent: write 1000000000000"),
            (kept_views, "# sun 4.7e1 8 2026-06-21T15:00Z", "`4.7e1` has an exponent: write 47"),
            (variants, "# variant a h=1e3", "`1e3` has an exponent: write 1000"),
            (variants, "# floor slab=3e0", "`3e0` has an exponent: write 3"),
        ):
            self.assertEqual(list(kind.unread(["stats", comment])), [(2, told)], comment)


class Files(unittest.TestCase):
    def setUp(self):
        folder = tempfile.TemporaryDirectory()
        self.addCleanup(folder.cleanup)
        self.folder = Path(folder.name)

    def test_coordinates_of_an_obj_text(self):
        for word, text in (
            ("1e1", "10"),
            ("-1.5E-3", "-0.0015"),
            ("6.1e-17", "0.000000000000000061"),
            ("1e-999999999", "0"),
        ):
            with self.subTest(word):
                read = from_obj(TRIANGLE.format(word))
                self.assertEqual(read.lots["a"][0].corner, (text, "0", "0"))
                self.assertEqual(Town(TRIANGLE.format(word).split("\n")).points[0][0], float(word))
        for word in ("1e12", "1e400", "1e999999999", "1e"):
            with self.subTest(word), self.assertRaisesRegex(Refused, "a vertex has three numbers below"):
                from_obj(TRIANGLE.format(word))

    def test_tools_read_such_a_text(self):
        cube = [f"v {x} {y} {z}" for x in ("0", "1e1") for y in ("0", "3e0") for z in ("0", "5E-1")]
        faces = ("1 3 7 5", "2 6 8 4", "1 5 6 2", "3 4 8 7", "1 2 4 3", "5 7 8 6")
        lines = ["o a", "g wall", *cube, *(f"f {face}" for face in faces)]
        (self.folder / "e.obj").write_text("\n".join(lines) + "\n")
        status, out, said = called("table", "e.obj", folder=self.folder)
        self.assertEqual((status, out.split("\n")[1].split(",")[5:7]), (0, ["15", "3"]), said)
        for use in ("glb e.obj x.glb", "usda e.obj x.usda", "view e.obj x.html", "plan e.obj", "merge e.obj x.obj"):
            tool, *words = use.split()
            with self.subTest(use):
                self.assertEqual(called(tool, *words, folder=self.folder)[::2], (0, ""))

    def test_a_mesh_of_ones_own(self):
        path = self.folder / "m.obj"
        path.write_text("v 1e1 0 0\nv 1 0 0\nv 0 1 0\nvt 5e-1 0\nf 1/1 2/1 3/1\n")
        self.assertEqual(read_obj(path).parts[0].maps[0], (0.5, 1.0))
        for wrong in ("v 1e400 0 0", "vt 1e400 0", "vt 0 nan", "vn 0 1e31 0"):
            path.write_text(f"v 1 0 0\n{wrong}\n")
            with self.subTest(wrong), self.assertRaisesRegex(Refused, f"m.obj:2: `{wrong}` is no line of an OBJ file"):
                read_obj(path)

    def glb(self, move):
        """A file with a triangle, in a node that is moved by a text."""
        text = (
            '{"asset": {"version": "2.0"}, "nodes": [{"mesh": 0, "translation": [%s, 0, 0]}],'
            '"meshes": [{"primitives": [{"attributes": {"POSITION": 0}}]}], "buffers": [{"byteLength": 36}],'
            '"accessors": [{"bufferView": 0, "componentType": 5126, "type": "VEC3", "count": 3}],'
            '"bufferViews": [{"buffer": 0, "byteLength": 36}]}' % move
        ).encode()
        text += b" " * (-len(text) % 4)
        data = struct.pack("<9f", 0, 0, 0, 1, 0, 0, 0, 1, 0)
        head = struct.pack("<IIII", 2, 28 + len(text) + len(data), len(text), 0x4E4F534A)
        path = self.folder / "m.glb"
        path.write_bytes(b"glTF" + head + text + struct.pack("<II", len(data), 0x004E4942) + data)
        return path

    def test_numbers_of_a_gltf_file(self):
        self.assertEqual(read_glb(self.glb("1e+3")).parts[0].faces, [(0, 1, 2)])
        for move, part in (("1e400", "has a corner that lies nowhere"), ("1" * 400, "isn't a sound glTF file")):
            with self.subTest(move[:5]), self.assertRaisesRegex(Refused, part):
                read_glb(self.glb(move))

    def test_numbers_of_a_map(self):
        path = self.folder / "map.json"
        path.write_text('{"floors": 1e3}')
        self.assertEqual(numeral(parsed(str(path))["floors"]), "1000")
        path.write_text('{"floors": 1e9999999999999999999}')
        with self.assertRaisesRegex(Refused, "map.json: a number has thousands of digits, or too large an exponent"):
            parsed(str(path))

    def test_properties_of_a_ground_are_json(self):
        self.assertEqual(plain(Decimal("1E+3")), 1000)
        self.assertEqual(plain(Decimal("1E+400")), "1E+400")
        self.assertEqual(plain({"a": [Decimal("1E+400"), Decimal("2.5")]}), {"a": ["1E+400", 2.5]})
        with self.assertRaises(ValueError):
            points_of(json.loads("[[1e400, 0]]"))

    def test_numbers_of_cga(self):
        self.assertEqual(number_of("1e3"), 1000)
        self.assertEqual(number_of("2.5e1cm"), Fraction(1, 4))
        for text in ("1e999999999", "1e-400m", "1e9999999999999999999"):
            with self.subTest(text), self.assertRaisesRegex(Unreadable, f"`{text}` is out of range"):
                number_of(text)
        self.assertEqual(coordinate(Path("m.obj"), "1.5e-3"), "0.0015")
        for word in ("1e999999999", "1e18", "inf", "x"):
            with self.subTest(word), self.assertRaisesRegex(Lost, f"m.obj: {word} is no coordinate"):
                coordinate(Path("m.obj"), word)


if __name__ == "__main__":
    unittest.main()
