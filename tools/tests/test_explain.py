"""Why shapes are as they are, told by the definition with the answers of a trace."""
import sys
import tempfile
import unittest
from pathlib import Path

TESTS = Path(__file__).resolve().parent
TOP = TESTS.parent.parent
sys.path[:0] = [str(TESTS), str(TESTS.parent)]

from cga_city_lib.explain.page import Page  # noqa: E402
from cga_city_lib.explain.town import Town, path_of  # noqa: E402
from cga_city_lib.script import lines_of  # noqa: E402
from in_process import called  # noqa: E402

DEFINE = str(TOP / "tools" / "define")
# two shops wall to wall, the second one lower and less deep; each facade asks, and so does each window
SHOPS = """rules
attr high = 4
PRIORITY 1:
1: shop(n) : n > 2 and not [ Scope.sx < 9 ] -> NIL
2: shop(n) -> S(1r, high * n, 1r) mass
3: mass -> Comp("sidefaces") { facade }
4: tall -> shop(2)
5: low -> shop(1)
PRIORITY 2:
7: facade : Scope.occ("noparent") == "full" -> party
8: facade -> Repeat("Y", high) { window }
9: party -> I("quad")
PRIORITY 3:
10: window : Scope.occ("noparent") == "none" or Scope.sx > 90 -> I("cube")
11: window : Scope.sx < high / 8 -> NIL
12: window -> I("quad") : 0.5 -> I("quad") : 0.5
end
lot a 1 0 0 8 10 tall
lot b 2 8 2 8 8 low
"""


def page(text: str) -> Page:
    return Page(Town(DEFINE, lines_of(text.encode())))


class Explained(unittest.TestCase):
    page: Page

    @classmethod
    def setUpClass(cls) -> None:
        cls.page = page(SHOPS)

    def about(self, lot: str, path: str) -> list:
        return [line.strip() for line in self.page.shape(lot, path_of(path))]

    def test_rules_that_were_tried(self) -> None:
        told = self.about("a", "/0")
        self.assertEqual(told[:2], ["a /0 shop(2)", "scope: 8 x 0 x 10 at (0, 0, 0)"])
        at = told.index("rule 1, line 4: shop(n) : n > 2 and not [ Scope.sx < 9 ] -> NIL")
        self.assertEqual(told[at + 1], "isn't taken: n > 2 doesn't hold, of 2 and 2")
        self.assertEqual(told[at + 3], "is taken, n = 2")
        self.assertEqual(told[-2:], ["1 child:", "/0/0 mass 8 x 8 x 10 at (0, 0, 0)"])

    def test_who_answered(self) -> None:
        """The left facade of `b` lies in the right one of `a`, which is longer and higher; that one lies in no box."""
        self.assertIn(
            "noparent is full: a /0/0/1 facade, X 8 to 8, Y 0 to 8, Z 0 to 10, meets and holds it",
            self.about("b", "/0/0/3"),
        )
        right = self.about("a", "/0/0/1")
        self.assertIn(
            "noparent is part: b /0/0/3 facade, X 8 to 8, Y 0 to 4, Z 2 to 10, meets it, and none that does holds it",
            right,
        )
        self.assertIn('isn\'t taken: Scope.occ("noparent") == "full" doesn\'t hold, the answer is part', right)

    def test_alternatives_and_chains_of_tests(self) -> None:
        told = self.about("a", "/0/0/1/0")
        self.assertIn(
            'isn\'t taken: Scope.occ("noparent") == "none" doesn\'t hold, the answer is part; '
            "Scope.sx > 90 doesn't hold, of 10 and 90",
            told,
        )
        self.assertIn("isn't taken: Scope.sx < high / 8 doesn't hold, of 10 and 0.5", told)
        self.assertTrue(
            any(line.startswith("is taken, alternative ") and line.endswith(" of 2") for line in told), told
        )

    def test_what_came_to_nothing(self) -> None:
        told = self.about("a", "/0/0/0/0")
        self.assertIn(
            "it came to nothing: FlatScope, the scope is flat where a solid, a split or a component needs a size above 0",
            told,
        )

    def test_the_tree_is_that_of_the_trace(self) -> None:
        for lot in self.page.town.lots:
            for path, node in self.page.trees.of(lot).items():
                if node.step is not None and node.step.outcome.isdigit():
                    self.assertEqual(node.children, int(node.step.outcome), path)
        lines = list(self.page.tree("b", 1))
        self.assertEqual(lines[0], "b: 8 by 8 at (8, 2), seed 2, 12 shapes, 1 of them solids")
        self.assertEqual(
            lines[1:], ["/ low 8 x 0 x 8 at (8, 0, 2): rule 5", f"  /0 shop(1) 8 x 0 x 8 at (8, 0, 2): rule 2; {NOT}"]
        )

    def test_edits_count(self) -> None:
        town = page(SHOPS + "put 1 5: low -> shop(2)\nattr high = 3\nunlot a\n")
        self.assertEqual(list(town.tree("b", 0))[1], "/ low 8 x 0 x 8 at (8, 0, 2): rule 5")
        told = [line.strip() for line in town.shape("b", ())]
        self.assertIn("rule 5, line 20: low -> shop(2)", told)

    def test_wrong_words(self) -> None:
        with tempfile.TemporaryDirectory() as folder:
            path = Path(folder) / "town.cga"
            path.write_text(SHOPS)
            for words, status, why in (
                (["c"], 1, "no lot has the name c; there are a, b"),
                (["a", "/0/4"], 1, "no shape stands at /0/4 in a: /0 has 1 child"),
                (["a", "0"], 1, "0 is no path"),
                (["a", "--depth", "x"], 2, "`x` isn't a whole number"),
                ([], 2, "LOT is missing"),
            ):
                with self.subTest(words):
                    found = called("explain", "--program", DEFINE, path, *words)
                    self.assertEqual((found[0], found[1], found[2].count("\n")), (status, "", 1))
                    self.assertIn(why, found[2])
            path.write_text("rules\n1: a -> NIL\n")
            self.assertIn("no line `end` ends the last block", called("explain", path, "a")[2])


NOT = "not 1: n > 2 doesn't hold, of 1 and 2"

if __name__ == "__main__":
    unittest.main()
