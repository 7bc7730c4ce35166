"""The Python module: replies of each kind, refusals as exceptions, changes, and ends of the program; with the program too."""
import os
import re
import signal
import sys
import tempfile
import time
import unittest
from decimal import Decimal
from fractions import Fraction
from pathlib import Path
from unittest import mock

TESTS = Path(__file__).resolve().parent
TOP = TESTS.parent.parent
sys.path[:0] = [str(TESTS), str(TESTS.parent)]

import cga_city  # noqa: E402
from cga_city import City, Ended, Instance, NotBuilt, Refused  # noqa: E402
from cga_city_lib.causes import CAUSES  # noqa: E402
from cga_city_lib.ids import ids, key  # noqa: E402
from cga_city_lib.obj import Town  # noqa: E402
from cga_city_lib import program  # noqa: E402
from cga_city_lib.replies import replies  # noqa: E402

OBJ = "# cga_city obj\no a\ng wall\nv 0 0 0\nv 1 0 0\nv 0 1 0\nf 1 2 3"


class Told(unittest.TestCase):
    """A City whose program replies as a test says."""

    def city(self, told, **words):
        file = tempfile.NamedTemporaryFile("w", suffix=".told", delete=False, encoding="utf-8")
        self.addCleanup(os.unlink, file.name)
        with file:
            file.write(told)
        with mock.patch.dict(os.environ, {"TOLD": file.name}):
            city = City(str(TESTS / "told"), **words)
        self.addCleanup(city.close)
        return city


class Replies(Told):
    def test_each_report_is_a_value(self):
        city = self.city(
            f"""> stats
# stats lots 2 shapes 10 instances 4 faults 1 expanded 3
> bill
# bill 2
# bill house 2 144.000000 1296.000000 0
# bill roof 2 48.500000 432.000000 1
> faults
# faults 1
# fault a /0/1 door FlatScope
> trace
# trace 2
# step p / a - - 2
# step p /1 c none - Overflow
> print
{OBJ}
> print a
{OBJ}
> dump
version 2
city
order breadth
end
> grammar
rules
attr storey = 5/2
attr w = -3
PRIORITY 1:
1: a -> NIL
end
"""
        )
        self.assertEqual(city.stats(), (2, 10, 4, 1, 3))
        self.assertEqual(
            city.bill(), {"house": (2, Decimal(144), Decimal(1296), 0), "roof": (2, Decimal("48.5"), Decimal(432), 1)}
        )
        self.assertEqual(city.faults(), [("a", "/0/1", "door", "FlatScope")])
        self.assertEqual(city.trace(), [("p", "/", "a", "-", "-", "2"), ("p", "/1", "c", "none", "-", "Overflow")])
        self.assertEqual((city.obj(), city.obj("a")), (OBJ + "\n", OBJ + "\n"))
        self.assertEqual(city.dump(), "version 2\ncity\norder breadth\nend\n")
        self.assertEqual(city.attributes(), {"storey": Fraction(5, 2), "w": -3})

    def test_a_whole_script(self):
        """Comments have no reply, `version 2` and `quiet` are passed over, and blocks have one."""
        city = self.city("> rules\n# ok\n> lot a 1 0 0 1 1 wall\n# ok\n> print\n# cga_city obj\n")
        script = "# é\nversion 2\n\nquiet # x\nrules\n1: wall -> NIL\nend\nlot a 1 0 0 1 1 wall\nprint\n"
        self.assertEqual(city.do(script), [["# ok"], ["# ok"], ["# cga_city obj"]])

    def test_one_command_is_asked(self):
        city = self.city("> lot b\n# refused Unexpected at 6\n> unlot 0\n# refused Unexpected at 7\n")
        self.assertEqual(city.ask("lot b"), ["# refused Unexpected at 6"])
        self.assertEqual(city.ask("unlot 0"), ["# refused Unexpected at 7"])
        for text in ("", "# x", "stats\nstats"):
            with self.assertRaisesRegex(ValueError, "one command"):
                city.ask(text)
        with self.assertRaisesRegex(ValueError, "leave out `quiet`"):
            city.ask("quiet")


class Refusals(Told):
    def refusal(self, command, reply):
        with self.assertRaises(Refused) as caught:
            self.city(f"> {command.split(chr(10))[0]}\n{reply}\n").do(command)
        return caught.exception

    def test_each_cause_has_a_class(self):
        for name in CAUSES:
            kind = getattr(cga_city, name)
            self.assertTrue(issubclass(kind, Refused) and kind.__name__ == name)
        told = set(
            re.findall(r'b"([A-Z][A-Za-z]+)', (TOP / "crates/cga_script/src/refusals.rt").read_text(encoding="utf-8"))
        )
        self.assertEqual({name for name in told if not hasattr(cga_city, name)}, set())

    def test_a_line(self):
        fault = self.refusal("lot a 1 0 0 0 8 house", "# refused BadLot a")
        self.assertIsInstance(fault, cga_city.BadLot)
        self.assertEqual(
            (fault.name, fault.about, fault.place, fault.row, fault.line),
            ("BadLot", ("a",), None, None, "lot a 1 0 0 0 8 house"),
        )
        self.assertIn("BadLot a: the width and depth of lot `a`", str(fault))
        fault = self.refusal("lot a 1 {0}", "# refused BadByte at 9")
        self.assertEqual((type(fault), fault.place, fault.row), (cga_city.BadByte, 9, None))

    def test_a_block(self):
        rules = "rules\nattr h = 1\n1: a -> NIL\n2: b -> c\n2: b -> NIL\nend"
        for reply, about, place, row in (
            ("Unexpected at 3:6", (), 6, 3),
            ("LineTooLong at 2", (), None, 2),
            ("UnknownSymbol 2 c", ("2", "c"), None, 4),
            ("UnknownSymbol 1 b", ("1", "b"), None, 2),
            ("DoubleAttribute h", ("h",), None, 1),
            ("OverBudget", (), None, None),
        ):
            fault = self.refusal(rules, f"# refused {reply}")
            self.assertEqual((fault.name, fault.about, fault.place, fault.row), (reply.split()[0], about, place, row))
            self.assertEqual(fault.line, rules.split("\n")[row or 0])
        fault = self.refusal("asset t\nv 0 0\nend", "# refused BadVertex at 1")
        self.assertEqual((fault.place, fault.row, fault.line), (None, 1, "v 0 0"))

    def test_an_open_block_is_not_waited_for(self):
        city = self.city("> stats\n# stats lots 0\n")
        with self.assertRaises(cga_city.OpenBlock):
            city.do("stats\nrules\n1: a -> NIL\n")
        self.assertEqual(city.ask("stats"), ["# stats lots 0"])

    def test_what_stands_behind_a_refused_line_is_not_done(self):
        city = self.city("> unlot a\n# refused NoLot a\n> stats\n# stats lots 0\n")
        with self.assertRaises(cga_city.NoLot):
            city.do("unlot a\nlot x\n")
        self.assertEqual(city.ask("stats"), ["# stats lots 0"])

    def test_a_cause_that_is_new(self):
        self.assertEqual(type(self.refusal("stats", "# refused TooBlue a 3")), Refused)
        self.assertEqual(self.refusal("stats", "# refused WrongArity").about, ())


class Changing(Told):
    def test_changes_are_kept_until_they_are_asked(self):
        city = self.city(
            """> lot a 1 0 0 5/2 3 wall
# ok
# changed 0 1
+ a wall quad 0 0 -1/3 +X+Y+Z 5/2 3 0
> attr h = 3
# ok
# changed 1 2
- a wall quad 0 0 -1/3 +X+Y+Z 5/2 3 0
+ a wall quad 0 0 0 -Z+Y+X 3 3 0
+ a roof gable 0 3 0 +X+Y+Z 3 1 3
> stats
# stats lots 1
""",
            live=True,
        )
        city.do("lot a 1 0 0 5/2 3 wall")
        first = Instance(*"a wall quad 0 0 -1/3 +X+Y+Z 5/2 3 0".split())
        self.assertEqual(city.changes(), ([], [first]))
        self.assertEqual((first.corner, first.size), ((0, 0, Fraction(-1, 3)), (Fraction(5, 2), 3, 0)))
        self.assertEqual(city.do("attr h = 3\nstats"), [["# ok"], ["# stats lots 1"]])
        gone, come = city.changes()
        self.assertEqual((gone, [each.symbol for each in come]), ([first], ["wall", "roof"]))
        self.assertEqual(come[0].directions, ((0, 0, -1), (0, 1, 0), (1, 0, 0)))
        self.assertEqual(city.changes(), ([], []))

    def test_a_program_that_does_not_tell_them(self):
        with self.assertRaisesRegex(NotBuilt, "live=True"):
            self.city("").changes()


class Ends(Told):
    def test_a_program_that_dies(self):
        city = self.city("> stats\n!die 6\n")
        with self.assertRaisesRegex(Ended, "status 6"):
            city.stats()
        with self.assertRaisesRegex(Ended, "has ended"):
            city.stats()

    def test_a_program_that_dies_in_a_reply(self):
        for told in ("# bill 2\n# bill a 1 0 0 0\n!die 0", "!half", "# cga_city obj\no a\n!die 0"):
            with self.subTest(told), self.assertRaisesRegex(Ended, "status 0"):
                self.city(f"> bill\n{told}\n").bill()

    def test_a_program_that_is_killed(self):
        city = self.city("> stats\n# stats lots 0\n")
        os.kill(city._pipe._process.pid, signal.SIGKILL)
        with self.assertRaisesRegex(Ended, "status -9"):
            city.stats()

    def test_a_program_that_says_nothing(self):
        city, begun = self.city("> bill\n!wait\n"), time.monotonic()
        city._pipe.patience = 0.3  # less than this machine may take to begin a program
        with self.assertRaisesRegex(Ended, "nothing for 0.3 seconds"):
            city.bill()
        self.assertLess(time.monotonic() - begun, 50)  # it would end by itself after 60

    def test_a_program_that_does_not_read(self):
        """A text that no pipe holds is written all the same, and its reply waited for no longer than is said."""
        with tempfile.NamedTemporaryFile("w", suffix=".sh", delete=False) as program:
            self.addCleanup(os.unlink, program.name)
            program.write(
                "#!/bin/sh\nread line\necho '# ok'\nread line\necho '# refused Unexpected at 7'\nexec sleep 60\n"
            )
        os.chmod(program.name, 0o700)
        city = City(program.name)
        city._pipe.patience = 0.3
        with self.assertRaisesRegex(Ended, "nothing for"):
            city.do("rules\n" + "1: a -> NIL\n" * 100_000 + "end\n")

    def test_another_program(self):
        with self.assertRaisesRegex(Ended, "isn't one that replies to scripts"):
            City("cat")
        with self.assertRaises(FileNotFoundError):
            City("/nowhere/cga_city")

    def test_a_session_that_was_closed(self):
        with self.city("") as city:
            pass
        with self.assertRaisesRegex(Ended, "has ended"):
            city.do("stats")
        city.close()

    def test_where_nothing_is_built(self):
        """A program that is built is run, and one that can't be is told."""
        with tempfile.TemporaryDirectory() as top:
            launcher = Path(top) / "cga_city"
            launcher.write_text("#!/bin/sh\nexit 1\n")
            launcher.chmod(0o755)
            for live in (False, True):
                with mock.patch.object(program, "LAUNCHER", launcher), self.assertRaisesRegex(
                    NotBuilt, "can't be built"
                ):
                    City(live=live)


@unittest.skipUnless(program.is_here("cga_main"), "the module with the program waits for one: ./cga_city --build")
class Program(unittest.TestCase):
    def test_stored_scripts(self):
        """Each command of scripts of version 2 is replied to as is stored, in one session for each."""
        tried = 0
        for script in sorted([*TOP.glob("rows/*.cga"), *TOP.glob("examples/*.cga")]):
            text, stored = script.read_text(encoding="latin-1"), script.with_suffix(".out")
            if stored.exists() and text.startswith("version 2\n") and not script.with_suffix(".args").exists():
                wanted = list(replies(stored.read_text(encoding="latin-1").split("\n")[:-1]))
                with self.subTest(script.name):
                    tried += self.replies_as_stored(text.partition("\n")[2], wanted[1:])
        self.assertGreater(tried, 20)

    def replies_as_stored(self, text, wanted):
        """Whether it could be tried: not where a block is left open, or a line is none that a City asks."""
        try:
            found = cga_city.cut(text)
        except cga_city.OpenBlock:
            return False
        if any(map(cga_city.is_passed_over, found)):
            return False
        with City() as city:
            self.assertEqual([city.ask("\n".join(lines)) for lines in found], wanted)
        return True

    def test_ids_stay_over_edits(self):
        """A pitch moves roofs and takes no id; a lot that goes takes its own, and of its neighbours those that answered to it."""
        with City() as city:
            city.do((TOP / "examples/village.cga").read_text(encoding="utf-8"))
            found = []
            for edit in ("stats", "attr pitch = 1.2", "unlot n4"):
                city.do(edit)
                steps = [
                    (step.lot, key(step.path), step.symbol, int(step.result) if step.result.isdigit() else 0)
                    for step in city.trace()
                ]
                found.append(
                    {name for names in ids(Town(city.obj().split("\n")).lots, steps).values() for name in names}
                )
            self.assertEqual(found[0], found[1])
            self.assertTrue({name for name in found[1] if name.startswith(("road/", "s1/"))} < found[2])
            self.assertFalse({name for name in found[2] if name.startswith("n4/")})

    def test_an_edit(self):
        with City() as city:
            city.do((TOP / "examples/village.cga").read_text(encoding="utf-8"))
            before = city.stats()
            city.do("attr storey = 3")
            self.assertGreater(city.stats().expanded, 0)
            city.do("undo")
            self.assertEqual(city.stats()[:4], before[:4])
            with self.assertRaises(cga_city.NoAttribute):
                city.do("attr height = 3")
            self.assertEqual(city.attributes()["storey"], Fraction(27, 10))


if __name__ == "__main__":
    unittest.main()
