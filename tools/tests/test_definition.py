"""The definition in Python and the judge. What is expected comes from the specification's rows, or was worked out by hand."""
import sys
import tempfile
import unittest
from fractions import Fraction
from pathlib import Path
from unittest.mock import patch

TESTS = Path(__file__).resolve().parent
TOOLS = TESTS.parent
sys.path[:0] = [str(TESTS), str(TOOLS)]

from in_process import called  # noqa: E402

from definition import judge  # noqa: E402
from definition.clock import Clock  # noqa: E402
from definition.command import VERSION_1, VERSION_2  # noqa: E402
from definition.comp import SIDES, face_of  # noqa: E402
from definition.fault import Fault  # noqa: E402
from definition.fraction import checked, decimal_text_of, quotient_of  # noqa: E402
from definition.frame import BASE_FRAME, Y, Scope, scope_of, turned_scope  # noqa: E402
from definition.lexer import RESERVED  # noqa: E402
from definition.output import output_of  # noqa: E402
from definition.split import repeat_of, subdiv_of  # noqa: E402
from definition.word import word_of  # noqa: E402
from cga_city_lib import script as tools_script  # noqa: E402

BOX = 'rules\n1: house -> S(1r, 6, 1r) I("cube")\nend\nlot a 1 0 0 10 8 house\n'
WINDOW = """rules
PRIORITY 1:
1: early -> S(1r, 6, 1r) mass
PRIORITY 2:
2: mass -> Comp("face", "front") { facade }
PRIORITY 3:
3: facade -> Subdiv("X", 1r, 2, 1r) { NIL | window | NIL }
PRIORITY 4:
4: window : Scope.occ("noparent") == "none" -> I("quad")
5: window : Scope.occ("noparent") == "full" -> NIL
6: window -> S(1r, 1r, 0.5) I("cube")
PRIORITY 9:
7: late -> S(1r, 6, 1r) mass
end
lot a 1 0 0 10 8 early
"""
FOUR = """version 2
rules
PRIORITY 1:
1: a -> b c
4: d -> NIL
PRIORITY 2:
3: c -> d
PRIORITY 3:
2: b -> NIL
end
lot p 1 0 0 1 1 a
"""
TRACE = "# trace 4\n# step p / a - - 2\n# step p /1 c - - 1\n# step p /1/0 d - - 0\n# step p /0 b - - 0\n"


def last(script):
    """The last line of the replies."""
    return output_of(6, script).split("\n")[-2]


def point(*numbers):
    return tuple(map(Fraction, numbers))


def fault_of(call, *given):
    """The code of the fault that a call raises; None where it raises none."""
    try:
        call(*given)
    except Fault as fault:
        return fault.code
    return None


class Numbers(unittest.TestCase):
    def test_range(self):
        self.assertEqual(checked(Fraction(2**61, 3) * Fraction(3, 2)), 2**60)
        self.assertEqual(fault_of(checked, Fraction(2**62) + 1), "Overflow")
        self.assertEqual(fault_of(quotient_of, Fraction(1), Fraction(0)), "ZeroDivide")

    def test_decimals(self):
        for number, places, text in [
            ("1/3", 6, "0.333333"),
            ("-1/3", 6, "-0.333333"),
            ("5/10000000", 6, "0.000001"),
            ("-4/10000000", 6, "0.000000"),
            ("5/2", 0, "3"),
            ("-1/2", 0, "-1"),
        ]:
            self.assertEqual(decimal_text_of(Fraction(number), places), text)

    def test_words(self):
        """The words that the generator's authors print for the seed 42 and the stream 54."""
        words = [0xA15C02B7, 0x7B47F409, 0xBA1D3330, 0x83D2F293, 0xBFA4784B, 0xCBED606E]
        self.assertEqual([word_of(42, 54, n) for n in range(6)], words)


class Parts(unittest.TestCase):
    def setUp(self):
        self.scope = Scope(point(0, 0, 0), BASE_FRAME, point(10, 0, 8))

    def sizes(self, parts):
        return [part.size[0] for part in parts]

    def test_subdiv(self):
        parts = subdiv_of(
            self.scope, 0, [(False, Fraction(2)), (True, Fraction(1)), (True, Fraction(1)), (False, Fraction(2))]
        )
        self.assertEqual(self.sizes(parts), [2, 3, 3, 2])
        self.assertEqual([part.at[0] for part in parts], [0, 2, 5, 8])

    def test_sums(self):
        for sizes, code in [
            ([(False, 4), (False, 6)], None),
            ([(False, 4), (False, 5)], "SubdivSum"),
            ([(False, 4), (False, 6), (True, 1)], "SubdivSum"),
            ([(False, 0), (True, 1)], "PartNotPositive"),
        ]:
            sizes = [(is_relative, Fraction(number)) for is_relative, number in sizes]
            self.assertEqual(fault_of(subdiv_of, self.scope, 0, sizes), code)

    def test_repeat(self):
        for length, count in [(3, 4), (5, 2), (11, 1)]:
            self.assertEqual(self.sizes(repeat_of(self.scope, 0, Fraction(length))), [Fraction(10, count)] * count)
        for axis, length, code in [(0, "0", "PartNotPositive"), (0, "1/1001", "RepeatCount"), (1, "3", "FlatScope")]:
            self.assertEqual(fault_of(repeat_of, self.scope, axis, Fraction(length)), code)

    def test_turned_faces(self):
        scope = turned_scope(scope_of(point(0, 0, 0), BASE_FRAME, point(10, 6, 8)), Y, 90)
        faces = {
            "front": ((8, 0, 0), "-Z+Y+X", (10, 6, 0)),
            "right": ((8, 0, -10), "-X+Y-Z", (8, 6, 0)),
            "back": ((0, 0, -10), "+Z+Y-X", (10, 6, 0)),
            "left": ((0, 0, 0), "+X+Y+Z", (8, 6, 0)),
            "top": ((8, 6, 0), "-Z-X+Y", (10, 8, 0)),
            "bottom": ((0, 0, 0), "-Z+X-Y", (10, 8, 0)),
        }
        for side in SIDES:
            face = face_of(scope, side)
            axes = "".join(("+" if sign == 1 else "-") + "XYZ"[axis] for axis, sign in face.frame)
            self.assertEqual((face.at, axes, face.size), faces[side])


class Lines(unittest.TestCase):
    def test_words(self):
        """They are those of the other tools, which are compared with the crates and the documents."""
        self.assertEqual(RESERVED, tools_script.RESERVED)
        self.assertEqual(set(VERSION_1), set(tools_script.COMMANDS))
        self.assertEqual(set(VERSION_2), {*tools_script.COMMANDS, *tools_script.COMMANDS_2})

    def test_refused(self):
        for line, reply in [
            ("drop 9", "NoRule 9"),
            ("x" * 4097, "LineTooLong"),
            ("put 1 2: a -> \x07", "BadByte at 15"),
            ("put 1 3: a -> T(1,2) a", "Unexpected at 20"),
            ("put 1 4: a -> NIL a", "Unexpected at 19"),
            ("lot a 1", "Unexpected at 8"),
            ("lot a 1   # c", "Unexpected at 14"),
            ("lot q 1 0 0 0 8 a", "NoSymbol a"),
            ("attr h = 1", "NoAttribute h"),
            ('put 1 1: a -> I("' + "x" * 33 + '")', "LongName at 18"),
            ('put 1 2: a -> I("ab$', "BadByte at 20"),
            ('put 1 2: a -> I("ab', "OpenText at 17"),
            ("put 1 1: a -> T(1.x, 0, 0)", "Unexpected at 18"),
            ("attr h = 1.5 / 2", "Unexpected at 14"),
            ("  version 3", "Unexpected at 3"),
            ("put 1 1: a -> T" + "(" * 40, "TooNested at 48"),
            ("put 1 1: a " + "(" * 40, "Unexpected at 13"),
            ("put 1 1: a : " + "(" * 33 + "1" + ")" * 33 + " > 0 -> NIL", "TooNested at 46"),
        ]:
            self.assertEqual(last(line + "\n"), "# refused " + reply, line)

    def test_accepted(self):
        self.assertEqual(last("put 1 1: a : " + "(" * 32 + "1" + ")" * 32 + " > 0 -> NIL\n"), "# ok")
        self.assertEqual(last("put 1 1: a -> NIL\r\n"), "# ok")
        script = "put 1.0 1.00: a -> Rx(90.0) Rx(- 90) a\ngrammar\n"
        self.assertIn("\n1: a -> Rx(90) Rx(270) a\n", output_of(6, script))

    def test_blocks(self):
        for script, reply in [
            ("rules\n1: a -> b\nend\n", "UnknownSymbol 1 b"),
            ("rules\n", "OpenBlock"),
            ("rules\nend\r", "OpenBlock"),
            ("rules\n1: a -> T(1,2) a\nend\n", "Unexpected at 1:14"),
            ("rules\nend x\nend\n", "Unexpected at 1:5"),
            ("rules\n1: a -> NIL : 0.5 -> NIL : 0.4\nend\n", "BadProbability 1"),
        ]:
            self.assertEqual(last(script), "# refused " + reply, script)

    def test_spelling(self):
        line = "2:a(n):n>2.50 and Scope.sx>=1->T(0,-n,0)a(n-1):0.25->NIL:0.75"
        spelled = "2: a(n) : n > 2.5 and Scope.sx >= 1 -> T(0, -n, 0) a(n - 1) : 0.25 -> NIL : 0.75"
        self.assertEqual(output_of(6, f"rules\n{line}\nend\ngrammar\n"), f"# ok\nrules\nPRIORITY 1:\n{spelled}\nend\n")
        self.assertEqual(last(f"rules\n{line}\nend\nlot p 1 0 0 1 1 a\n"), "# refused NoSymbol a")


class Towns(unittest.TestCase):
    def stats(self, script, numbers):
        words = zip(("lots", "shapes", "instances", "faults", "expanded"), numbers.split())
        self.assertEqual(last(script + "stats\n"), "# stats " + " ".join(f"{word} {number}" for word, number in words))

    def test_window_and_neighbour(self):
        for lot, numbers in [
            ("0 8 10 8 early", "2 10 2 0 4"),
            ("5 6 10 8 early", "2 10 2 0 5"),
            ("0 6 10 8 early", "2 9 1 0 5"),
            ("0 6 10 8 late", "2 10 2 0 4"),
        ]:
            self.stats(WINDOW + f"lot b 1 {lot}\n", numbers)
        self.stats(WINDOW + "lot b 1 0 6 10 8 late\npriority late 1\n", "2 9 1 0 5")

    def test_neighbour_moves_in_and_back(self):
        script = "version 2\n" + WINDOW + "lot b 1 0 20 10 8 early\nlot b 1 0 6 10 8 early\n"
        self.stats(script, "2 9 1 0 5")
        self.stats(script + "undo\n", "2 10 2 0 5")
        self.stats(script + "undo\nredo\n", "2 9 1 0 5")
        self.assertEqual(last(script + "redo\n"), "# refused NoRedo")

    def test_depth_limit(self):
        script = "rules\n1: a -> a\nend\nlot p 1 0 0 1 1 a\n"
        self.stats(script, "1 257 0 1 257")
        self.assertEqual(last(script + "faults\n"), f"# fault p {'/0' * 256} a TooDeep")

    def test_faults_of_one_root(self):
        for rest, code in [
            (" : Scope.sy > 0 -> NIL", "Unmatched"),
            (" -> T(0, 1/0, 0) a", "ZeroDivide"),
            (" -> T(0, 999999999999999999 * 999999999999999999, 0) a", "Overflow"),
            (" -> S(1r, -1, 1r) a", "NegativeSize"),
            (' -> Repeat("X", 0.002) { a }', "TooManyChildren"),
            (' -> I("hip")', "FlatScope"),
        ]:
            self.assertEqual(last(f"rules\n1: a{rest}\nend\nlot p 1 0 0 10 8 a\nfaults\n"), f"# fault p / a {code}")

    def test_dump_and_bill(self):
        script = "version 2\n" + BOX
        dump = 'version 2\ncity\norder breadth\nPRIORITY 1:\n1: house -> S(1r, 6, 1r) I("cube")\nlot a 1 0 0 10 8 house\nend\n'
        self.assertEqual(output_of(6, script + "dump\n"), "# ok\n" * 3 + dump)
        self.assertEqual(output_of(6, dump + "print\n"), output_of(6, BOX + "print\n"))
        self.assertEqual(last(script + "lot a 1 0 0 12 9 house\nbill\n"), "# bill house 1 72.000000 648.000000 0")

    def test_asset(self):
        script = (
            "version 2\n"
            + BOX
            + "asset t\nv 0 0 0\nv 2 0 0\nv 0 4 0\nf 1/1/1 2/2/2 -1/3/3\nend\ndress house t\nmodel\n"
        )
        drawn = [
            "# cga_city obj",
            "o a",
            "g house",
            "v 0.000000 0.000000 0.000000",
            "v 10.000000 0.000000 0.000000",
            "v 0.000000 6.000000 0.000000",
            "f 1 2 3",
        ]
        self.assertEqual(output_of(6, script).split("\n")[-8:-1], drawn)
        self.assertEqual(last(script.replace("-1/3/3\nend\n", "4\nend\n").split("dress")[0]), "# refused BadFace at 4")


class Judge(unittest.TestCase):
    def setUp(self):
        folder = tempfile.TemporaryDirectory()
        self.addCleanup(folder.cleanup)
        self.folder = Path(folder.name)

    def judged(self, script, trace, *words):
        """The status, and what is written to both outputs, in this process."""
        for name, text in (("a script", script), ("its <trace>", trace)):
            (self.folder / name).write_bytes(text.encode("latin-1"))
        return called("judge", *words, self.folder / "a script", self.folder / "its <trace>")

    def test_accepted(self):
        self.assertEqual(self.judged(FOUR, TRACE)[0], 0)
        self.assertEqual(self.judged(FOUR, "# ok\n# ok\n" + TRACE)[0], 0)

    def test_rejected(self):
        *first, third, fourth = TRACE.split("\n")[:-1]
        for trace, at, why in [
            ([*first, fourth, third], 4, "p /0 waits, but isn't of least rank"),
            (["# trace 3", *first[1:], third], 1, "the run has 4 steps"),
            ([*first, third], 5, "the trace ends here"),
            ([*first, third, fourth, fourth], 6, "one too many"),
            ([*first, third.replace(" d ", " c "), fourth], 4, "the symbol of p /1/0 is d"),
            ([*first, third.replace("- -", "none -"), fourth], 4, "noparent is -: no rule of d asks for it"),
            ([*first, third.replace("- 0", "- 1"), fourth], 4, "the outcome is 0, the number of children, by rule 4"),
            ([*first, third + " ", fourth], 4, "the text of no step"),
            ([*first, third.replace("/1/0", "/7"), fourth], 4, "no shape stands at p /7"),
        ]:
            status, said, _ = self.judged(FOUR, "".join(line + "\n" for line in trace))
            self.assertEqual(status, 1)
            self.assertTrue(said.startswith(f"rejected at {at}, ") and why in said, said)

    def test_answers(self):
        script = "version 2\n" + WINDOW + "lot b 1 5 6 10 8 early\n"
        trace = output_of(6, script + "trace\n")
        status, said, _ = self.judged(script, trace.replace("part", "full"))
        self.assertEqual(status, 1)
        self.assertIn("noparent is part: the box of a /0/0/0 is X 4 to 6, Y 0 to 6, Z 8 to 8, and that of b /0,", said)

    def test_bad_input(self):
        for script, trace, why in [
            (FOUR, TRACE.replace("p", "\0", 1), "its <trace>:2: this isn't text"),
            (FOUR, TRACE[:-1], "its <trace>:5: the trace is open"),
            (FOUR, "# ok\n", "its <trace>:1: there is no line `# trace N`"),
            (FOUR + "rules\n# x\n", TRACE, "a script:12: the script is open"),
            (FOUR[10:], TRACE, "a script:1: this is of version 1"),
            ("\nversion 3\n", TRACE, "a script:2: this is another version"),
            ("", TRACE, "a script:1: the script is empty"),
            ("x\n\x01", TRACE, "a script:2: this isn't text"),
        ]:
            status, said, fault = self.judged(script, trace)
            self.assertEqual((status, said), (1, ""))
            self.assertIn(why, fault)
            self.assertEqual(fault.count("\n"), 1)

    def test_limit(self):
        cells = 'version 2\nrules\n1: a -> Repeat("X", 1) { b }\n2: b -> Repeat("Z", 1) { c }\n3: c -> NIL\nend\nlot p 1 0 0 600 300 a\n'
        with patch.object(judge, "Clock", lambda name, seconds: Clock(name, seconds / 10)):
            status, said, fault = self.judged(cells, TRACE, "--seconds", "1")
        self.assertEqual((status, said[:10], fault), (3, "not judged", ""))

    def test_words(self):
        for words in (["judge", "a"], ["judge", "--seconds", "0", "a", "b"], ["define", "--town", "x"]):
            status, _, fault = called(*words)
            self.assertEqual((status, "Traceback" in fault), (2, False))
        for words in (["judge", "/nowhere", "/nowhere"], ["define", "/"]):
            status, _, fault = called(*words)
            self.assertEqual((status, fault.count("\n")), (2, 1))


if __name__ == "__main__":
    unittest.main()
