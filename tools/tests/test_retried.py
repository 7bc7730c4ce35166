"""All refused lines of a block in one run, by the definition in Python in the place of the program."""
import sys
import tempfile
import unittest
from pathlib import Path

TESTS = Path(__file__).resolve().parent
sys.path[:0] = [str(TESTS), str(TESTS.parent)]

from defined import by_definition  # noqa: E402
from in_process import called  # noqa: E402

from cga_city_lib.retried import replaced, stub  # noqa: E402

SHOP = """rules
const ledge = 0.3
attr storey = 3.5
PRIORITY 1:
1: shop -> S(1r, storey * rnd(2, 4, 2), 1r) mass
2: mass -> comp(f) { side : facade | top : roof }
PRIORITY 2:
3: facade -> split(y) { ~storey : level }*
4: level -> bay(1) door window2 bay(tall) window2
5: bay(n) : n > ledge -> wall
6: wall -> I("quad")
6: roof -> I("quad")
7: door -> window2
attic --> wall
end
lot baker 1 0 0 8 10 shop
lot grocer 2 8 0 0 10 shop
lot tailor 2 8 0 1 10 shap
attr q = 3
"""


class Retried(unittest.TestCase):
    def lint(self, text):
        """The heads of what lint says of a script: lines and causes, in order; and all that it says."""
        with tempfile.TemporaryDirectory() as folder:
            path = Path(folder, "a.cga")
            path.write_bytes(text if isinstance(text, bytes) else text.encode())
            with by_definition():
                _, out, err = called("lint", path)
        heads = [
            line.split(":")[1:4] for line in out.splitlines() if line.startswith(str(path)) and line.count(":") > 2
        ]
        return [f"{line}{cause}" for line, _, cause in heads], out + err

    def test_each_line_is_told(self):
        heads, said = self.lint(SHOP)
        self.assertEqual(
            heads,
            [
                *("2 Unexpected", "5 Unexpected", "6 Unexpected", "8 BadByte", "9 UnknownName", "9 UnknownSymbol"),
                *("12 DoubleId", "14 Unexpected", "17 BadLot", "18 NoSymbol", "19 NoAttribute"),
            ],
        )
        self.assertIn("1 further line of the block is refused for want of it", said)
        self.assertIn("a further refusal follows from it, in line 16", said)
        self.assertIn(": 13 refused (2 of them only follow), 0 shapes", said)

    def test_a_block_that_is_mended_is_accepted(self):
        """What is left when all told lines are right: nothing."""
        lines = SHOP.splitlines()
        for at, line in {
            2: "attr ledge = 0.3",
            5: "1: shop -> S(1r, storey * rand(2, 4, 2), 1r) mass",
            6: '2: mass -> Comp("sidefaces") { facade } Comp("face", "top") { roof }',
            8: '3: facade -> Repeat("Y", storey) { level }',
            9: "4: level -> bay(1) door",
            12: '8: roof -> I("quad")',
            13: "7: door -> wall",
            14: "9: attic -> wall",
            17: "lot grocer 2 8 0 3 10 shop",
            18: "lot tailor 2 12 0 1 10 shop",
            19: "attr storey = 3",
        }.items():
            lines[at - 1] = line
        heads, said = self.lint("\n".join(lines) + "\n")
        self.assertEqual([head for head in heads if "note" not in head], [], said)

    def test_a_block_that_is_left_open(self):
        heads, _ = self.lint("rules\n1: a -> b\n2: c -> d\nlot x 1 0 0 1 1 a\nprint\n")
        self.assertEqual(heads, ["1 OpenBlock", "2 UnknownSymbol", "3 UnknownSymbol"])

    def test_rules_without_a_block(self):
        heads, said = self.lint("# mine\nattr h = 3\n1: a -> S(1r, k, 1r) b\n2: c -> d\nlot x 1 0 0 1 1 a\nprint\n")
        self.assertEqual(heads[1:], ["3 UnknownName", "3 UnknownSymbol", "4 UnknownSymbol"])
        self.assertIn(":2:1: rules stand in a block: write a line `rules` before this one", said)

    def test_what_cannot_be_mended(self):
        heads, _ = self.lint("rules\n1: a -> NIL\nend\nlot x 1 0 0 1 1 a\nrules\n1: b -> NIL\nend\n")
        self.assertEqual(heads, ["5 NoSymbol"])
        heads, _ = self.lint("rules\n" + "".join(f"{at}: a{at} -> NIL\n" for at in range(1, 514)) + "end\n")
        self.assertEqual([head.split()[1] for head in heads], ["TooManyRules"])

    def test_a_line_in_the_place_of_a_refused_one(self):
        for line, new in (
            ("  3: facade(n, m) : n > 2 --> x", "3: facade(stub0, stub1) -> NIL"),
            ("Lot --> extrude(9) Mass", "1000000007: Lot -> NIL"),
            ("const ledge = 0.3", "attr ledge = 1"),
            ("attr h = 2 * storey", "attr h = 1"),
            ("@Range(1, 10)", "#"),
            ("lot a 1 0 0 0 1 b", "#"),
        ):
            self.assertEqual(stub(line, "Unexpected", 7), new)
        self.assertEqual(replaced("4: a -> b(1, (2)) a b", "b", "T"), "4: a -> T a T")
        self.assertEqual(replaced("4: a -> S(h, Scope.h, h)", "h", "1"), "4: a -> S(1, Scope.h, 1)")

    def test_strange_bytes(self):
        _, said = self.lint(b"rules\n1: a -> \x1b]0;evil\x07\xff\nend\n")
        self.assertIn("1: a -> <1B>]0;evil<07>", said)
        self.assertFalse({"\x1b", "\x07"} & set(said))
        for data, kind in (
            ("rules\n".encode("utf-16"), "text in UTF-16"),
            (b"\x7fELF\0\0", "a binary file"),
            (b"# cga_city obj\no a\nv 0 0 0\n", "an OBJ text"),
        ):
            self.assertIn(f"is {kind}: lint takes a script", self.lint(data)[1])


if __name__ == "__main__":
    unittest.main()
