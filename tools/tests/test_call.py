"""How a tool ends: its status, and what it says on standard error."""
import io
import subprocess
import sys
import tempfile
import unittest
from decimal import Decimal
from pathlib import Path
from unittest.mock import patch

TESTS = Path(__file__).resolve().parent
TOOLS = TESTS.parent
sys.path[:0] = [str(TESTS), str(TOOLS)]

from drawn import Drawn  # noqa: E402

from cga_city_lib import progress  # noqa: E402
from cga_city_lib.call import Refused, Words, call, number_in  # noqa: E402
from cga_city_lib.drawn import Meshes  # noqa: E402
from cga_city_lib.measure import Measured  # noqa: E402
from cga_city_lib.obj import Town, read_town  # noqa: E402
from cga_city_lib.obj_instances import from_town  # noqa: E402
from cga_city_lib.render import render  # noqa: E402
from cga_city_lib.strangers_text import cell, told  # noqa: E402
from cga_city_lib.table_rows import rows_of  # noqa: E402

TEXT = "\nMakes a thing.\n\nusage: tools/make THING\n"


def words():
    known = Words()
    known.add_argument("thing")
    known.add_argument("--at")
    known.add_argument("--three", nargs=3, type=Decimal)
    known.add_argument("--many", type=number_in(1, 2000, int))
    return known


def ended(main, *given, **more):
    """The status, and what was written to both outputs."""
    out, said = io.TextIOWrapper(io.BytesIO(), encoding="ascii"), io.StringIO()
    with patch.object(sys, "argv", ["tools/make", *given]), patch.object(sys, "stdout", out), patch.object(
        sys, "stderr", said
    ):
        try:
            call(main, words(), TEXT, **more)
        except SystemExit as end:
            status = end.code
    return status, out.buffer.getvalue().decode("utf-8"), said.getvalue()


def raising(fault):
    def main(_):
        raise fault

    return main


class Call(unittest.TestCase):
    def test_it_is_done(self):
        for status in (0, 3):
            self.assertEqual(ended(lambda word: print(word.thing) or status, "\xe9"), (status, "\xe9\n", ""))

    def test_help(self):
        for given in (["--help"], ["x", "--what", "-h"]):
            self.assertEqual(ended(raising(Refused), *given), (0, "Makes a thing.\n\nusage: tools/make THING\n", ""))

    def test_wrong_words(self):
        for given, why in (
            ([], "THING is missing: tools/make THING"),
            (["x", "--what"], "`--what` is none of its words"),
            (["x", "--many", "3000"], "--many: `3000` isn't a whole number from 1 to 2,000"),
            (["x", "--man", "3"], "`--man` is none of its words (perhaps --many is meant)"),
            (["x", "--many", "1.5"], "`1.5` isn't a whole number"),
        ):
            status, out, said = ended(raising(Refused), *given, refused=7)
            self.assertEqual((status, out, said.count("\n")), (2, "", 1))
            self.assertTrue(
                said.startswith("make: ") and why in said and said.endswith("; tools/make --help tells the words\n"),
                said,
            )

    def test_what_cannot_be_taken(self):
        for fault, why in (
            (Refused("so not"), "so not"),
            (ValueError("nor so"), "nor so"),
            (OSError(28, "Full"), "output: Full"),
            (MemoryError(), "cut it into parts"),
            (RecursionError(), "cut it into parts"),
        ):
            for more, known in (({}, 1), ({"refused": 2}, 2)):
                status, out, said = ended(raising(fault), "x", **more)
                self.assertEqual((status, out, said.count("\n")), (known, "", 1))
                self.assertTrue(said.startswith("make: ") and said.endswith(f"{why}\n"), said)

    def test_a_file_that_cannot_be_read(self):
        """Each tool ends with status 2, whatever its status of other input that can't be taken."""
        for more in ({}, {"refused": 5}):
            fault = FileNotFoundError(2, "Not there", "x")
            self.assertEqual(
                ended(raising(fault), "x", **more),
                (2, "", "make: x: no such file is there: look at its name, and from which folder the call goes out\n"),
            )

    def test_it_is_interrupted(self):
        self.assertEqual(ended(raising(KeyboardInterrupt), "x"), (130, "", ""))

    def test_whoever_reads_has_heard_enough(self):
        with subprocess.Popen([TOOLS / "places", "--help"], stdout=subprocess.PIPE, stderr=subprocess.PIPE) as tool:
            tool.stdout.close()
            self.assertEqual((tool.stderr.read(), tool.wait()), (b"", 0))

    def test_numbers_below_0_are_no_options(self):
        for given, at, three in (
            (["--at", "-1,2"], "-1,2", None),
            (["--at", "-.5e3"], "-.5e3", None),
            (["--at", "-7"], "-7", None),
            (["--three", "-1", "-2.5", "-.5"], None, [Decimal("-1"), Decimal("-2.5"), Decimal("-0.5")]),
        ):
            found = []
            self.assertEqual(ended(found.append, "x", *given)[0], 0)
            self.assertEqual((found[0].at, found[0].three), (at, three))


class Strangers(unittest.TestCase):
    def test_what_is_not_printable_is_written_as_its_code(self):
        self.assertEqual(told("a\x1b\u202e\xe9"), "a<1B><U+202E>\xe9")
        self.assertEqual(told("x" * 61), "x" * 60 + "..")

    def test_a_formula_stays_text(self):
        self.assertEqual(
            [cell(text) for text in ("=1", "+1", "-1", "@a", "\ta", "a", "")],
            ["'=1", "'+1", "'-1", "'@a", "'\ta", "a", ""],
        )


class Terminal(io.StringIO):
    def isatty(self):
        return True


class Progress(unittest.TestCase):
    def told(self, stream, seconds):
        times = iter(seconds)
        with patch.object(sys, "stderr", stream), patch.object(progress.time, "monotonic", lambda: next(times)):
            self.assertEqual(list(progress.counted(iter("ab"), "lots", 1200)), ["a", "b"])
        return stream.getvalue()

    def test_a_terminal_is_told_after_two_seconds(self):
        self.assertEqual(self.told(Terminal(), (0, 1.9, 2.1)), "\r\033[Klots: 1 of 1,200\r\033[K")
        self.assertEqual(self.told(Terminal(), (0, 1.8, 1.9)), "")

    def told_by(self, work):
        """What a terminal is told while the clock goes on by three seconds at each look."""
        times, stream = iter(range(0, 9000, 3)), Terminal()
        with patch.object(sys, "stderr", stream), patch.object(progress.time, "monotonic", lambda: next(times)):
            work()
        return stream.getvalue()

    def test_tools_tell_how_far_they_are(self):
        town = Town(
            Drawn()
            .lot("a")
            .solid("x", "cube", (0, 0, 0), (1, 1, 1))
            .lot("b")
            .solid("x", "cube", (2, 0, 0), (1, 1, 1))
            .lines
        )
        self.assertEqual(
            self.told_by(lambda: rows_of(Measured(from_town(town).lots), "lot", {})),
            "\r\033[Klots: 0 of 2\r\033[Klots: 1 of 2\r\033[K",
        )
        self.assertIn("solids: 1 of 2", self.told_by(lambda: Meshes().lines(town)))
        picture = self.told_by(lambda: render(town, "bird", 4, 4))
        self.assertIn("faces: 23 of 24", picture)
        self.assertIn("rows: 3 of 4", picture)
        with tempfile.NamedTemporaryFile("w") as file:
            file.write("o a\ng x\n")
            file.flush()
            self.assertIn("lines read: 1", self.told_by(lambda: read_town(file.name)))

    def test_nothing_is_told_elsewhere(self):
        self.assertEqual(self.told(io.StringIO(), (0, 3, 6)), "")


if __name__ == "__main__":
    unittest.main()
