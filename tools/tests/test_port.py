"""CGA files as scripts: what each form of CGA becomes, and whole files that the definition replies to."""
import json
import re
import sys
import tempfile
import unittest
from fractions import Fraction
from pathlib import Path
from typing import Dict, List, Tuple

TESTS = Path(__file__).resolve().parent
TOP = TESTS.parent.parent
sys.path[:0] = [str(TESTS), str(TESTS.parent)]

from cga_city_lib.obj import Solid, Town  # noqa: E402
from cga_city_lib.port.reader import declarations  # noqa: E402
from cga_city_lib.port.script import Script  # noqa: E402
from cga_city_lib.port.tokens import tokens_of  # noqa: E402
from defined import defined_run  # noqa: E402
from in_process import called  # noqa: E402

DEFINE = str(TOP / "tools" / "define")
CGA = TOP / "examples" / "cga"
HEAD = "Lot --> extrude(9) comp(f) { front : A }\n"  # A is a face
ROWS = [
    (
        "attr big = geometry.area > 90\nattr h = case big : 9 else : 3\nLot --> extrude(h) A",
        [
            "Lot_lot : (Scope.sx * Scope.sz) > 90 -> Lot_big(1)",
            "Lot_lot -> Lot_big(0)",
            "Lot_big(big) : big == 1 -> Lot_h(big, 9)",
            "Lot_big(big) -> Lot_h(big, 3)",
            "Lot_h(big, h) -> Lot(h)",
            "Lot(h) -> S(1r, h, 1r) A",
        ],
    ),
    ("Lot --> case geometry.isRectangular(5) : A else : B", ["Lot -> A"]),
    (
        "Lot --> offset(-1) comp(f) { inside : A | border : B }",
        ['Lot -> Subdiv("X", 1, 1r, 1) { B | Subdiv("Z", 1, 1r, 1) { B | A | B } | B }'],
    ),
    ("Lot --> roofHip(byHeight, 3) A", ["Lot -> S(1r, 3, 1r) A", 'A -> I("hip")']),
    (
        "Lot --> extrude(9) comp(f) { top : extrude(-1) A }",
        ['Lot -> S(1r, 9, 1r) Comp("face", "top") { T(0, Scope.sy, 0) Rx(90) T(0, -1, 0) S(1r, 1, Scope.sy) A }'],
    ),
    (
        "high = 4\nLot --> extrude(high) A",
        ["Lot -> S(1r, 4, 1r) A"],
    ),  # CGA, and rules of the script without their numbers
    ("Lot --> extrude(9) Mass", ["Lot -> S(1r, 9, 1r) Mass", 'Mass -> I("cube")']),
    (HEAD + "A --> split(x) { 2 : B | ~1 : C }", ['A -> Subdiv("X", 2, 1r) { B | C }', "A : Scope.sx <= 2 -> B"]),
    (
        HEAD + "A --> split(x) { ~1 : B | '0.4 : C | ~1 : B }",
        ['A -> Subdiv("X", 1r, 0.4 * Scope.sx, 1r) { B | C | B }'],
    ),
    (HEAD + "A --> split(x) { ~1 : B | ~2.5 : C }", ['A -> Subdiv("X", 1r, 2.5r) { B | C }']),
    (HEAD + "A --> split(x) { '0.25 : B | '0.75 : C }", ['A -> Subdiv("X", 0.25 * Scope.sx, 1r) { B | C }']),
    (
        HEAD + "A --> split(y) { ~3 : B }*",
        ["A : Scope.sy < 1.5 -> B", 'A -> Repeat("Y", Scope.sy / floor(Scope.sy / 3 + 0.5)) { B }'],
    ),
    (
        HEAD + "A --> split(x) { { ~2 : B | 0.5 : C }* }",
        ['A -> Repeat("X", Scope.sx / floor(Scope.sx / 2.5 + 0.5)) { Subdiv("X", 1r, 0.5) { B | C } }'],
    ),
    (
        HEAD + "A --> split(y) { { ~3 : B(split.index) }* }\nB(n) --> case n == 0 : C else : D",
        [
            'A_parts(at, length) : Scope.sy > length -> Subdiv("Y", length, 1r) { B(at) | A_parts(at + 1, length) }',
            "A_parts(at, length) -> B(at)",
            "B(n) : n == 0 -> C",
            "B(n) -> D",
        ],
    ),
    (
        HEAD + "A --> split(y) { { ~3 : B }* }\nB --> case split.index > 0 : C else : D",
        ["B(split_index) : split_index > 0 -> C", "A_parts(at, length) -> B(at)"],
    ),
    (HEAD + "A --> 50% : B 30% : C else : NIL", ["A -> B : 0.5 -> C : 0.3 -> NIL : 0.2"]),
    (
        HEAD + "A --> case scope.sx > 4 && !(scope.sy < 2 || touches) : B case inside : C else : D",
        [
            'A : Scope.sx > 4 and not [ Scope.sy < 2 or Scope.occ("noparent") != "none" ] -> B',
            'A : Scope.occ("noparent") == "full" -> C',
            "A -> D",
        ],
    ),
    (
        "Lot --> extrude(9) comp(f) { front : A | side : B | top : C }",
        [
            'Lot -> S(1r, 9, 1r) Comp("face", "front") { A } Comp("face", "right") { B } Comp("face", "back") { B } '
            'Comp("face", "left") { B } Comp("face", "top") { C }'
        ],
    ),
    ("Lot --> extrude(9) comp(f) { side : A }", ['Lot -> S(1r, 9, 1r) Comp("sidefaces") { A }']),
    (
        HEAD + "A --> s('0.5, '1, 0.2) center(x) t(0, '0.5, -1) [ r(0, 90, 0) B ] C",
        ["A -> T(0.25 * Scope.sx, 0, 0) S(0.5r, 1r, 0.2) T(0, 0.5 * Scope.sy, -1) [ Ry(90) B ] C"],
    ),
    ("Lot --> setback(2) { front : A | remainder : B }", ['Lot -> Subdiv("Z", 1r, 2) { B | A }']),
    (
        "Lot --> offset(-2) { inside : A | border : B }",
        ['Lot -> Subdiv("X", 2, 1r, 2) { B | Subdiv("Z", 2, 1r, 2) { B | A | B } | B }'],
    ),
    ("Lot --> offset(-2, inside) A", ["Lot -> T(2, 0, 2) S(Scope.sx - 4, 1r, Scope.sz - 4) A"]),
    (
        "Lot --> roofGable(45, 1) Roof",
        [
            "Lot -> T(-1, 0, -1) S(Scope.sx + 2 * 1, 1r, Scope.sz + 2 * 1) Roof",
            'Roof : Scope.sx >= Scope.sz -> S(1r, 0.5 * Scope.sz, 1r) I("gable")',
            'Roof -> S(1r, 0.5 * Scope.sx, 1r) I("gable")',
        ],
    ),
    (
        "const a = 2\nattr b = 3cm\nattr c = a * b + d\nattr d = b / 2\nLot --> extrude(c) A",
        ["attr a = 2", "attr b = 0.03", "Lot -> S(1r, a * b + b / 2, 1r) A"],
    ),
    (
        'attr kind = "hip"\nLot --> case kind == "flat" : A else : B',
        ["attr kind = 1  # 1 hip, 2 flat", "Lot : kind == 2 -> A", "Lot -> B"],
    ),
    (
        "attr high = rand(3, 9)\nattr many = 30% : 2 else : 4\nLot --> extrude(high * many) A",
        [
            "Lot_lot -> Lot_many(2) : 0.3 -> Lot_many(4) : 0.7",
            "Lot_many(many) -> Lot(rand(3, 9, 100), many)",
            "Lot(high, many) -> S(1r, high * many, 1r) A",
        ],
    ),
    (
        "attr w = 1\nLot --> set(w, 2) A\nA --> extrude(w) B",
        ["Lot_lot -> Lot(1)", "Lot(w) -> A(2)", "A(w) -> S(1r, w, 1r) B"],
    ),
    ("f(x) = x * 2 + 1\nLot --> extrude(f(scope.sx)) A", ["Lot -> S(1r, Scope.sx * 2 + 1, 1r) A"]),
    ("Lot --> extrude(floor) floor\nattr floor = 3", ["attr floor_ = 3", "Lot -> S(1r, floor_, 1r) floor_"]),
]
LOST = [  # CGA, and the comment that tells what was left out or written nearly so
    ("Lot --> extrude(9) r(0, 45, 0) A", "# left out, line 1: r(0, 45, 0): a turn is by 90, 180 or 270 degrees"),
    ("Lot --> A\nB --> C", "# left out, line 2: B --> C: no lot comes to it"),
    ("Lot --> A(1)\nA --> C", "# left out, line 1: A: A has 0 parameters"),
    ('import f : "f.cga"\nLot --> A', '# left out, line 1: import f : "f.cga": the file isn\'t there'),
    ("Lot --> A B --> ]", "# left out, line 1: B --> ]: `]` in line 1 can't stand there"),
    ("Lot --> set(material.opacity, 0.5) A", "materials go by symbol"),
    ('Lot --> i("a.fbx")', '# nearly, line 1: i("a.fbx"): a.fbx is no OBJ file: a box stands for it'),
    ('Lot --> extrude(3) report("m2", geometry.area)', "tools/table --by symbol has the column plan or side of Lot"),
    ("Lot --> extrude(9) comp(f) { 3 : A | top : B }", "# left out, line 1: 3 : ..: a face is front, right, back"),
    ("Lot --> case touches : A else : B", "# nearly, line 1: touches: a flat shape that only touches a box"),
    ("Lot --> primitiveSphere(9)", "# nearly, line 1: primitiveSphere(9): a box stands for it"),
]


def script(text: str, folder: Path = CGA) -> Script:
    tokens, comments = tokens_of("rules.cga", text)
    return Script(folder / "rules.cga", declarations(tokens), comments, (Fraction(12), Fraction(10)))


def rules(text: str) -> List[str]:
    """The lines of a port, without the numbers of rules."""
    return [re.sub(r"^\d+: ", "", line) for line in script(text).text().split("\n")]


def box(town: Town, solid: Solid) -> Tuple[List[float], List[float]]:
    """The least and the greatest coordinate of a solid along each axis."""
    axes = list(zip(*(town.points[at] for face in solid.faces for at in face)))
    return [min(axis) for axis in axes], [max(axis) for axis in axes]


class Forms(unittest.TestCase):
    def test_each_form(self) -> None:
        for cga, wanted in ROWS:
            with self.subTest(cga):
                found = rules(cga)
                for line in wanted:
                    self.assertIn(line, found)

    def test_what_has_no_counterpart(self) -> None:
        for cga, wanted in LOST:
            with self.subTest(cga):
                told = [line for line in rules(cga) if line.startswith("# ")]
                self.assertTrue(any(wanted in line for line in told), told)

    def test_comments_stay(self) -> None:
        text = (
            "/* A house.\n * By hand. */\nattr a = 3\n// tall\nLot --> extrude(a) // and more\n  A\n# below\nA --> B\n"
        )
        comments = [line for line in rules(text) if line.startswith("# ")]
        self.assertEqual(comments[1:], ["# A house.", "# By hand.", "# tall", "# and more", "# below"])

    def test_reports_of_what_is_drawn(self) -> None:
        """A report whose number a solid has is a column of tools/table, under the symbol that draws."""
        for body, wanted in (
            ('report("m 2", geometry.area) color("#ff0000")', "# report m_2 A area"),
            ('report("n", 2)', "# report n A solids * 2"),
            (
                's(\'1, \'1, 0.5) i("builtin:cube") report("volume", 0.5 * geometry.volume)',
                "# report report_volume A volume * 0.5",
            ),
            ('report("m2", geometry.area) extrude(1)', ""),  # another shape is drawn
            ('report("m2", geometry.area) B', ""),
            ('case scope.sx > 2 : report("m2", geometry.area) else : NIL', ""),
            ('report("m2", geometry.area * high)', ""),
        ):
            with self.subTest(body):
                told = [line for line in rules(f"attr high = 3\n{HEAD}A --> {body}") if "report" in line]
                self.assertEqual([line for line in told if line.startswith("# report")], [wanted] * bool(wanted))
                self.assertEqual([line[:16] for line in told if line != wanted], ["# nearly, line 3"] * (not wanted))

    def test_colours_go_by_symbol(self) -> None:
        """A colour reaches all below that has none of its own; a symbol that is met in two has two symbols."""
        made = script(
            'Lot --> extrude(3) color("#ff0000") comp(f) { front : A | back : color(0, 0, 1) A | top : texture("t.jpg") B }'
        )
        made.text()
        colours = json.loads(made.colours() or b"{}")
        self.assertEqual(colours, {"A": "ff0000", "A_2": "0000ff", "B": {"colour": "ff0000", "texture": "t.jpg"}})


class Files(unittest.TestCase):
    def ported(self, name: str, *words: str) -> Tuple[int, str, List[str]]:
        """The status, the script and what was said, of an example on lots that the definition replies to soon."""
        with tempfile.TemporaryDirectory() as folder:
            path = Path(folder) / "town.cga"
            status, _, said = called("port", "--program", DEFINE, "--lot", "9", "14", *words, CGA / name, path)
            self.assertTrue(path.with_suffix(".json").exists())
            return status, path.read_text(encoding="utf-8"), said.split("\n")

    def test_examples_are_taken(self) -> None:
        for name, left_out in (("haussmann.cga", 2), ("setback_tower.cga", 2), ("garage_house.cga", 5)):
            with self.subTest(name):
                status, text, said = self.ported(name)
                self.assertEqual(status, 0, said)
                self.assertIn(f" {left_out} things left out", said[1])
                self.assertIn("# left out, line ", text)
                self.assertIn("0 refused, 0 shapes came to nothing", said[-2])

    def test_railings_stand_on_slabs_and_dormers_have_windows(self) -> None:
        """A front of 9 has four bays: their windows in five storeys and a mansard, and their balconies in two storeys."""
        script = self.ported("haussmann.cga")[1].replace("\nquiet\n", "\n").replace("\nmodel\n", "\nprint\n")
        town = Town(defined_run("", script.encode())[1])
        lot = [(solid.symbol, box(town, solid)) for solid in town.lots["lot_1"]]
        slabs, bars = ([ends for symbol, ends in lot if symbol == name] for name in ("Slab", "Bar"))
        self.assertEqual(([symbol for symbol, _ in lot].count("Window_mesh"), len(slabs)), (4 * 6, 4 * 2))
        for low, high in bars:
            self.assertTrue(any(all(a[i] <= low[i] and high[i] <= b[i] for i in (0, 2)) for a, b in slabs), (low, high))

    def test_other_tools_name_this_one(self) -> None:
        for tool, status in (("lint", 2), ("table", 1), ("explain", 1), ("format", 2)):
            words = [CGA / "haussmann.cga", *["a"] * (tool == "explain")]
            found = called(tool, *words)
            self.assertEqual((found[0], found[2].count("\n")), (status, 1))
            self.assertIn("has rules of CityEngine's CGA, of which tools/port makes a script", found[2])

    def test_a_mesh_becomes_an_asset(self) -> None:
        text = script(CGA.joinpath("haussmann.cga").read_text(encoding="utf-8")).text()
        mesh = (CGA / "assets" / "window.obj").read_text(encoding="utf-8")
        self.assertEqual(text.count("\nv "), mesh.count("\nv "))
        self.assertIn("\ndress Window_mesh window\nmodel\n", text)

    def test_a_file_that_is_imported(self) -> None:
        """Its names get that of the import before them, and its lines are told as those of an import."""
        with tempfile.TemporaryDirectory() as name:
            (Path(name) / "f.cga").write_text(
                'attr w = 2\nF --> split(x) { ~w : Tile }* print("x")\nTile --> G(w)\nG(w) --> s(w, 1, 1) H\n'
            )
            (Path(name) / "rules.cga").write_text('import f : "f.cga"\nLot --> extrude(9) comp(f) { side : f.F }\n')
            status, out, said = called("port", "--program", DEFINE, Path(name) / "rules.cga")
        lines = re.sub(r"(?m)^\d+: ", "", out).split("\n")
        for line in (
            'Lot -> S(1r, 9, 1r) Comp("sidefaces") { f_F }',
            "attr f_w = 2",
            "f_Tile -> f_G(f_w)",
            "f_G(w) -> S(w, 1, 1) H",
        ):
            self.assertIn(line, lines)
        self.assertIn('# left out, line 2 of import 1: print("x")', out)
        self.assertEqual(status, 0, said)

    def test_wrong_words(self) -> None:
        with tempfile.TemporaryDirectory() as name:
            folder = Path(name)
            files: Dict[str, bytes] = {
                "none.cga": b"attr a = 3\n",
                "odd.cga": b"Lot --> A \\ B\n",
                "raw.cga": b"\xff\xfe",
            }
            for file, data in files.items():
                (folder / file).write_bytes(data)
            for words, status, why in (
                (["none.cga"], 1, "none.cga has no rule"),
                (["odd.cga"], 1, "odd.cga:1: `\\` begins no word, number, text or sign of CGA"),
                (["raw.cga"], 1, "raw.cga isn't text in UTF-8"),
                (["gone.cga"], 2, "gone.cga: no such file is there"),
                (["none.cga", "none.cga"], 2, "none.cga would be overwritten"),
                ([], 2, "RULES is missing"),
                (["none.cga", "--lot", "0", "3"], 2, "`0` isn't a length above 0"),
            ):
                with self.subTest(words):
                    found = called("port", "--program", "false", *words, folder=folder)
                    self.assertEqual((found[0], found[2].count("\n")), (status, 1), found)
                    self.assertIn(why, found[2])


if __name__ == "__main__":
    unittest.main()
