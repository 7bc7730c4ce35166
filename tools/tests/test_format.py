"""Scripts laid out, and their rules numbered again."""
import sys
import tempfile
import unittest
from pathlib import Path

TESTS = Path(__file__).resolve().parent
TOP = TESTS.parent.parent
sys.path[:0] = [str(TESTS), str(TESTS.parent)]

from cga_city_lib.layout import laid_out, layout, numbered  # noqa: E402
from cga_city_lib.script import lines_of, words_of  # noqa: E402
from in_process import called  # noqa: E402

LAID = [  # a line, and the line as docs/LANGUAGE.md prints it
    (
        "2:a(n):n>2.50 and Scope.sx>=1->T(0,-n,0)a(n-1):0.25->NIL:0.75",
        "2: a(n) : n > 2.50 and Scope.sx >= 1 -> T(0, -n, 0) a(n - 1) : 0.25 -> NIL : 0.75",
    ),
    ("1: a -> Rx(90) Rx(- 90) a", "1: a -> Rx(90) Rx(-90) a"),
    ("1: a : not[h==0]and(1)>0->NIL", "1: a : not [ h == 0 ] and(1) > 0 -> NIL"),
    (
        '3 :f->Subdiv("X",1r,2){a|[T(0,1,0)b]}#  two parts  ',
        '3: f -> Subdiv("X", 1r, 2) { a | [ T(0, 1, 0) b ] }  #  two parts',
    ),
    ("lot   a 1 -3 5/2 10  8 house", "lot a 1 -3 5/2 10 8 house"),
    ("attr h=-5 / 2", "attr h = -5/2"),
    ("PRIORITY 2 :", "PRIORITY 2:"),
    ("put 3 8:a->b", "put 3 8: a -> b"),
    ("1: a -> S('1, 6, '1)", "1: a -> S('1, 6, '1)"),
    ("  # a  comment\t", "# a  comment"),
]


class Layout(unittest.TestCase):
    def test_a_line(self) -> None:
        for line, wanted in LAID:
            with self.subTest(line):
                self.assertEqual(laid_out(line), wanted)
                self.assertEqual(laid_out(wanted), wanted)
                self.assertEqual(words_of(wanted), words_of(line))

    def test_blank_lines_and_assets(self) -> None:
        self.assertEqual(layout(["", "", "quiet", "", "", "print", "", ""]), ["quiet", "", "print"])
        asset = ["version 2", "asset t", "v  0 0 0", "", "", "f 1/1 2/2", "end"]
        self.assertEqual(layout(asset), asset)

    def test_examples_are_laid_out(self) -> None:
        for path in (TOP / "examples").glob("*.cga"):
            with self.subTest(path.name):
                self.assertEqual(called("format", "--check", "--keep-numbers", path), (0, "", ""))


class Numbers(unittest.TestCase):
    def test_one_block(self) -> None:
        lines = ["rules", "1: a -> b", "7: b -> NIL", "3: c -> NIL", "end"]
        self.assertEqual(numbered(lines), ["rules", "10: a -> b", "20: b -> NIL", "30: c -> NIL", "end"])

    def test_the_rules_of_a_symbol_keep_their_order(self) -> None:
        """Rule 2 of `a` is tried before rule 5, wherever the lines stand."""
        lines = ["rules", "5: a -> b", "2: a : b > 1 -> NIL", "9: b -> NIL", "end"]
        self.assertEqual(numbered(lines), ["rules", "20: a -> b", "10: a : b > 1 -> NIL", "30: b -> NIL", "end"])

    def test_edits_mean_the_same_rules(self) -> None:
        lines = ["rules", "8: a -> b", "2: b -> NIL", "end", "put 1 5: a : 1 > 0 -> NIL", "drop 8  # gone", "drop 99"]
        self.assertEqual(
            numbered(lines, 5),
            ["rules", "15: a -> b", "5: b -> NIL", "end", "put 1 10: a : 1 > 0 -> NIL", "drop 15  # gone", "drop 20"],
        )

    def test_a_number_that_stands_twice_stays_so(self) -> None:
        lines = ["rules", "3: a -> NIL", "3: a -> NIL", "end"]
        self.assertEqual(numbered(lines), ["rules", "10: a -> NIL", "10: a -> NIL", "end"])

    def test_small_steps_where_there_is_no_room(self) -> None:
        self.assertEqual(numbered(["rules", "1: a -> NIL", "2: a -> NIL", "end"], 999999)[2], "2: a -> NIL")


class Call(unittest.TestCase):
    def test_a_file(self) -> None:
        with tempfile.TemporaryDirectory() as folder:
            path = Path(folder) / "town.cga"
            path.write_bytes(b"rules\r\n4:a->NIL\r\nend\r\n\r\n")
            self.assertEqual(called("format", "--check", path)[0], 1)
            self.assertEqual(called("format", path), (0, "", ""))
            self.assertEqual(path.read_bytes(), b"rules\n10: a -> NIL\nend\n")
            self.assertEqual(called("format", "--check", path), (0, "", ""))

    def test_wrong_files(self) -> None:
        with tempfile.TemporaryDirectory() as folder:
            for data, why in ((b"Lot --> A\n", "of which tools/port makes a script"), (b"\0\1", "is a binary file")):
                path = Path(folder) / "x.cga"
                path.write_bytes(data)
                status, out, said = called("format", path)
                self.assertEqual((status, out, said.count("\n"), path.read_bytes()), (2, "", 1, data))
                self.assertIn(why, said)
            self.assertEqual(called("format", Path(folder) / "gone.cga")[0], 2)
            self.assertEqual(len(lines_of(b"a\n")), 1)


if __name__ == "__main__":
    unittest.main()
