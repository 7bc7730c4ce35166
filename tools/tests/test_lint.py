"""What the linter works out before it speaks: rules, what stands at the end, what follows from what, and advice."""
import sys
import unittest
from pathlib import Path

sys.path.insert(0, str(Path(__file__).resolve().parent.parent))

from cga_city_lib.advice import Place, advice  # noqa: E402
from cga_city_lib.causes import CODES, HELPS, help_for  # noqa: E402
from cga_city_lib.notes import notes  # noqa: E402
from cga_city_lib.report import Report  # noqa: E402
from cga_city_lib.script import commands, lines_of, rule_in  # noqa: E402
from cga_city_lib.standing import standing  # noqa: E402
from cga_city_lib.ways import places_above  # noqa: E402

HABITS = [  # a line, the column at which it is refused, and a part of the advice
    ("put 1 2: f -> comp(f) { side : w }", 23, 'Comp("sidefaces")'),
    ('put 1 2: f -> color("#ff0000")', 22, "colours go by symbol"),
    ('put 1 2: f -> Subdiv("X", 1r 2) { a | b }', 30, "a comma stands between values"),
    ("put 1 2: f -> T(1, 2) a", 21, "T takes three values"),
    ("put 1 2: f -> S(1r, 1r, 1) { a }", 28, "no body in braces"),
    ("PRIORITY high:", 10, "a priority is a whole number"),
    ("put 1 2: f -> w { a }", 17, "braces belong to"),
    ("rules {", 7, "`rules` stands alone"),
    ("Rules", 1, "small letters: rules"),
    ("PRIORITY 2:", 1, "stands in a block"),
]


class Habits(unittest.TestCase):
    def test_of_other_dialects(self):
        for line, column, text in HABITS:
            with self.subTest(line):
                cause = "BadByte" if line[column - 1] == "#" else "Unexpected"
                self.assertIn(text, advice(cause, [], Place(line, column, False)))

    def test_a_percentage(self):
        line = "put 1 2: f -> 50% : a else : b"
        self.assertIn("a probability stands behind its body", advice("BadByte", [], Place(line, 17, False)))

    def test_single_quotes(self):
        self.assertIn("double", advice("BadByte", [], Place("put 1 2: f -> I('quad')", 17, False)))
        self.assertIn("S(1r, 6, 1r)", advice("BadByte", [], Place("put 1 2: f -> S('1, 6, '1) a", 17, False)))

    def test_each_code_has_help(self):
        self.assertEqual(set(HELPS), set(CODES))
        self.assertIn("T(0, 0, -d) S(1r, 1r, d)", help_for("NegativeSize", ["1: pane -> S(1r, 1r, -0.1) a"]))
        self.assertNotIn("T(0, 0, -d)", help_for("NegativeSize", ["1: pane -> S(Scope.sx - 9, 1r, 1r) a"]))


class Worked(unittest.TestCase):
    def test_a_rule_in_a_line(self):
        self.assertEqual(
            rule_in('put 2 7: a(n, m) : n > Scope.sx -> T(n, 0, k) b(m) I("cube")'),
            (7, "a", ["n", "m"], ["n", ">", "Scope", ".", "sx"], {"n", "k", "b", "m"}),
        )

    def test_a_rule_that_is_dropped_is_not_noted(self):
        lines = lines_of(b"rules\n1: a -> NIL\n2: a -> b\n3: b -> NIL\nend\nlot x 1 0 0 1 1 a\ndrop 2\n")
        told = [text for _, text in notes(standing(lines, [(command, ["# ok"]) for command in commands(lines)]))]
        self.assertEqual([text.split(":")[0] for text in told], ["nothing reaches `b`"])

    def test_a_block_that_was_not_opened(self):
        lines = lines_of(b"Rules\n1: a -> NIL\nend\nlot x 1 0 0 1 1 a\nlot y 1 0 0 1 1 b\n")
        answers = [["# refused Unexpected at 1"]] * 3 + [["# refused NoSymbol a"], ["# refused NoSymbol b"]]
        told = [
            line
            for line in Report("x.cga", lines, commands(lines), answers).lines_for([])
            if not line.startswith("    ")
        ]
        self.assertEqual(
            [line.split(":")[1] for line in told],
            ["1", "5", " 5 refused (3 of them only follow), 0 shapes came to nothing"],
        )

    def test_without_lots_nothing_is_out_of_reach(self):
        lines = lines_of(b"rules\n1: a -> NIL\n3: b -> NIL\nend\n")
        self.assertEqual(notes(standing(lines, [(command, ["# ok"]) for command in commands(lines)])), [])

    def test_what_follows_is_folded(self):
        """A slip in a rule, and 200 lots that are refused for it: some lines, and not three for each lot."""
        lines = lines_of(b"rules\n1: house -> I('cube')\nend\n" + b"lot a 1 0 0 10 8 house\n" * 200)
        answers = [["# refused BadByte at 1:13"]] + [["# refused NoSymbol house"]] * 200
        self.assertEqual(
            [*Report("x.cga", lines, commands(lines), answers).lines_for([])][3:],
            [
                "    200 further refusals follow from it, from line 4 on",
                "x.cga: 201 refused (200 of them only follow), 0 shapes came to nothing",
            ],
        )

    def test_what_stands_after_undo(self):
        lines = lines_of(
            b"version 2\ncity\nattr h=3\n1: a -> S(1r, h, 1r) b\n2: b -> NIL\nlot x 1 0 0 1 1 a\nend\n"
            b"lot y 1 0 0 1 -1 b\ndrop 2.0\nunlot x\nundo\nredo\nundo\nput 2 7: b -> NIL\n"
        )
        answers = [["# ok"]] * 2 + [["# refused BadLot y"], ["# refused UnknownSymbol 1 b"]] + [["# ok"]] * 5
        now = standing(lines, list(zip(commands(lines), answers)))
        self.assertEqual(
            {number: (rule.symbol, at) for number, (rule, at) in now.rules.items()},
            {1: ("a", 3), 2: ("b", 4), 7: ("b", 13)},
        )
        self.assertEqual((now.attributes, now.lots), ({"h": 2}, {"x": ("a", 5)}))

    def test_places_above_a_path(self):
        self.assertEqual([places_above(path) for path in ("/", "/3", "/3/0/2")], [[], ["/"], ["/", "/3", "/3/0"]])


if __name__ == "__main__":
    unittest.main()
