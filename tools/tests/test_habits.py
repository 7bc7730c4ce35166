"""Habits of CityEngine's CGA and other slips: all in one block, and lint tells of each line what to write."""
import re
import sys
import tempfile
import unittest
from pathlib import Path

TESTS = Path(__file__).resolve().parent
sys.path[:0] = [str(TESTS), str(TESTS.parent)]

from defined import by_definition  # noqa: E402
from in_process import called  # noqa: E402

HABITS = [  # a line, and a part of what is told; in a rule, N stands for its number
    ("const ledge = 0.3", "attr ledge = 0.3"),
    ("const deep = 2 * ledge", "attr deep = NUMBER"),
    ("attr h = 2 * storey", "write `2 * storey` where the rules use it"),
    ("attr w = rand(2, 3)", "lot -> e(rand(2, 3, 10)) and e(w) -> .."),
    ("attr tall = true", "tall == 1 in a condition"),
    ("attr short = false", "attr short = 0"),
    ('attr c = "#ff0000"', "a colour goes by symbol, in a JSON file"),
    ('attr kind = "brick"', "ask for one by kind == 1"),
    ("@Range(1, 10)", "leave annotations out"),
    ("@StartRule", "a lot names its first symbol"),
    ('@Group("Facade")', "leave annotations out"),
    ('import walls : "walls.cga"', "put the files together"),
    ('version "2021.1"', "leave it out: `version 2`"),
    ('N: aN -> i("door.obj")', "a mesh takes its place by `asset` and `dress`"),
    (
        "N: aN -> shapeL(6, 6) { shape : b | remainder : b }",
        'Subdiv("Z", 1r, 6) { Subdiv("X", 6, 1r) { shape | remainder } | shape }',
    ),
    ("N: aN -> NIL primitiveCube()", 'write I("cube")'),
    ("N: aN -> primitiveQuad()", 'write I("quad")'),
    ("N: aN : inside(intra) -> b", 'Scope.occ("noparent") == "full"'),
    ("N: aN : overlaps -> b", 'Scope.occ("noparent") != "none"'),
    ("N: aN : touches -> b", "with a little depth before the symbol that asks"),
    ('N: aN -> report("GFA", 3) b', "tools/table --floor SYMBOL"),
    ("N: aN -> center(xz) b", "move before you size: T(0.15 * Scope.sx"),
    ("N: aN -> alignScopeToAxes(y) b", "lies level, with Y up"),
    ("N: aN -> roofShed(8)", 'S(1r, height, 1r) I("shed"): a height, and no angle'),
    ("N: aN -> roofGable(30, 1) b", 'I("gable")'),
    ("N: aN -> roofHip(30) b", 'I("hip")'),
    ("N: aN -> set(material.opacity, 0.5) b", "colours and materials go by symbol"),
    ("N: aN -> S(scope.sx, 1, 1) b", "Scope.sx, with a capital S"),
    ("N: aN : scope.sy > 3 -> b", "Scope.sy, with a capital S"),
    ('N: aN -> label("hi") b', "the line `trace`"),
    ('N: aN -> print("hi") b', "leave it out"),
    ("N: aN -> facade.brick", "call it facade_brick"),
    ("N: aN -> comp(f) { side : b | top : b }", 'Comp("sidefaces") { facade } Comp("face", "top") { roof }'),
    ("N: aN -> offset(-2, inside) b", "T(2, 0, 2) S(Scope.sx - 4, 1r, Scope.sz - 4)"),
    ("N: aN -> setback(5) { front : b | remainder : b }", 'Subdiv("Z", 1r, 5) { rest | front }'),
    ("N: aN -> split(y) { ~3 : b }*", 'Repeat("Y", 3) { body }'),
    ("N: aN -> split(x) { 2 : b | ~1 : b }", "`'0.4` is 0.4 * Scope.sy"),
    ('N: aN -> Subdiv("Y", 3, ~1) { b | b }', "1r in Subdiv"),
    ("N: aN -> r(0, 45, 0) b", "quarter turns alone"),
    ("N: aN -> Ry(45) b", "0, 90, 180, 270 or -90"),
    ('N: aN -> Repeat("X", ~3) { b }', 'Repeat("X", 3), without `~`'),
    ("N: aN : Scope.sx > 2 && Scope.sy > 2 -> b", "joined by `and`"),
    ("N: aN : Scope.sx > 2 || Scope.sy > 2 -> b", "joined by `or`"),
    ("N: aN -> S('1, 3, '1) b", "S(1r, 6, 1r)"),
    ("N: aN -> extrude(3) b", "S(1r, 3, 1r) on a lot"),
    ("N: aN -> b;", "leave it out: a rule ends"),
    ("N: aN -> 50% : b else : b", "a probability stands behind its body"),
    ("N: aN -> color(1, 0, 0) b", "leave it out: colours go by symbol"),
    ('N: aN -> texture("a.png") b', "leave it out: colours and textures"),
    ("N: aN -> s(1, 1, 1) b", "S(x, y, z)"),
    ("N: aN -> [ t(0, 0, 1) b ]", "T(x, y, z)"),
    ("N: aN --> b", "an arrow is written ->"),
    ("Lot --> b", "a rule begins with its number"),
    ("N: aN -> envelope(30) b", "there is no such operation"),
    ("N: aN -> case ledge > 1 : b else : b", "1: a : x > 1 -> b and 2: a -> c"),
    ("N: aN -> b // a remark", "a comment begins with #"),
    ("N: aN : ledge = 3 -> b", "equality is written =="),
]


class Habits(unittest.TestCase):
    def test_each_is_told(self):
        lines = [re.sub("N:", f"{at + 9}:", line.replace("aN", f"a{at}")) for at, (line, _) in enumerate(HABITS)]
        with tempfile.TemporaryDirectory() as folder:
            path = Path(folder, "a.cga")
            path.write_text("\n".join(["rules", *lines, "1: b -> NIL", "end", ""]))
            with by_definition():
                status, out, err = called("lint", path)
        self.assertEqual((status, err), (1, ""))
        told = {int(head.split(":")[1]): head for head in out.split("\n") if re.match(r"[^ ].*:\d+:\d+: ", head)}
        for at, (line, part) in enumerate(HABITS):
            self.assertIn(part, told.get(at + 2, "nothing"), line)


if __name__ == "__main__":
    unittest.main()
