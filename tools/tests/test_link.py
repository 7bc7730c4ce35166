"""The add-on for Blender as far as it needs no Blender: what a save comes to, and what is drawn anew."""
import os
import sys
import tempfile
import types
import unittest
from collections import namedtuple
from fractions import Fraction
from pathlib import Path
from unittest import mock

TESTS = Path(__file__).resolve().parent
sys.path[:0] = [str(TESTS), str(TESTS.parent)]
package = types.ModuleType("cga_city_link")  # without its __init__, which needs Blender
package.__path__ = [str(TESTS.parent / "blender" / "cga_city_link")]
sys.modules.setdefault("cga_city_link", package)

import solid_table  # noqa: E402
from cga_city import Changes, Instance, cut  # noqa: E402
from cga_city_link.drawing import ByChanges, ByText  # noqa: E402
from cga_city_link.link import Link, edits_between, written  # noqa: E402

UPRIGHT = [(1, 0, 0), (0, 1, 0), (0, 0, 1)]
RULES = "rules\nattr h = 3\n1: a -> NIL\nend\n"


class Saves(unittest.TestCase):
    def edits(self, old, new):
        found = edits_between(cut(old), cut(new))
        return found if found is None else ["\n".join(lines) for lines in found]

    def test_what_a_save_comes_to(self):
        a, b = "lot a 1 0 0 1 1 a", "lot b 1 5 0 1 1 a"
        other = RULES.replace("3", "4").strip()
        for old, new, edits in (
            (RULES, RULES, []),
            (RULES + a, RULES + a + "\n" + b, [b]),
            (RULES + a, f"{other}\n{a}", [other]),
            (f"{RULES}{a}\n{b}", RULES + b, ["unlot a"]),
            (f"{RULES}{a}\nprint", f"{RULES}{a.replace('5', '6')}\n{b}\nprint", [b]),
            (RULES + a, RULES + a.replace(" 1 1 ", " 2 1 "), [a.replace(" 1 1 ", " 2 1 ")]),
            ("quiet\n" + RULES, RULES, []),
        ):
            with self.subTest((old, new)):
                self.assertEqual(self.edits(old, new), edits)

    def test_what_has_a_history_begins_anew(self):
        for old, new in (
            (RULES + "undo", RULES),
            (RULES, "attr h = 2"),
            (RULES + "put 1 2: b -> NIL", RULES + "drop 2"),
        ):
            self.assertIsNone(self.edits(old, new))

    def test_numbers_are_written_as_scripts_have_them(self):
        self.assertEqual(
            [written(value) for value in (3.0, 0.1 + 0.2, -2.5, 1e-9, Fraction(1, 3))], ["3", "0.3", "-2.5", "0", "1/3"]
        )


Told = namedtuple("Told", "come gone text")


class Fake:
    """A City that tells one town after the other."""

    def __init__(self, *towns):
        self.towns, self.drawn = list(towns), []

    def changes(self):
        before, self.drawn = self.drawn, self.towns.pop(0)
        told = [
            [
                Instance(lot, symbol, kind, *map(str, corner), "+X+Y+Z", *(str(Fraction(part)) for part in size))
                for lot, symbol, kind, corner, _, size in solids
            ]
            for solids in (before, self.drawn)
        ]
        return Changes(*told)

    def obj(self):
        return solid_table.text(self.towns.pop(0))


class Drawings(unittest.TestCase):
    def towns(self):
        first = [
            ("a", kind, kind, (number, 0, 2), UPRIGHT, size)
            for kind in solid_table.SOLIDS
            for number, size in enumerate(((4, 2.5, 8), (8, 2.5, 4), (4, 2.5, 4)))
        ]
        return first, first + [("b", "cube", "cube", (0, 0, 0), UPRIGHT, (1, 1, 1))], first[1:]

    def test_both_ways_draw_the_same(self):
        by_changes, by_text = ByChanges(), ByText()
        one, other = Fake(*self.towns()), Fake(*self.towns())
        for lots in (["a"], ["b"], ["a", "b"]):
            told, printed = by_changes.update(one), by_text.update(other)
            self.assertEqual(sorted(printed), lots)
            for lot in lots:
                self.assertEqual(
                    *(
                        sorted(
                            (symbol, [tuple(round(part, 5) for part in point) for point in points], faces)
                            for symbol, points, faces in drawn[lot]
                        )
                        for drawn in (told, printed)
                    )
                )
        self.assertEqual(told["b"], [])

    def test_another_program_tells_everything_anew(self):
        first, second, _ = self.towns()
        for drawing in (ByChanges(), ByText()):
            drawing.update(Fake(second))
            drawing.begin()
            self.assertEqual(drawing.update(Fake(first)).get("b"), [])


class Links(unittest.TestCase):
    def setUp(self):
        folder = tempfile.TemporaryDirectory()
        self.addCleanup(folder.cleanup)
        self.folder = Path(folder.name)

    def test_a_program_that_ends_is_said_and_begun_anew(self):
        (self.folder / "told").write_text(
            "> lot a 1 0 0 1 1 a\n!die 6\n> stats\n# stats lots 0 shapes 0 instances 0 faults 0 expanded 0\n"
            "> grammar\nrules\nend\n> print\n# cga_city obj\n",
            encoding="utf-8",
        )
        script = self.folder / "town.cga"
        script.write_text("lot a 1 0 0 1 1 a\n", encoding="utf-8")
        with mock.patch.dict(os.environ, {"TOLD": str(self.folder / "told")}):
            link = Link(str(script), str(TESTS / "told"))
            self.addCleanup(link.stop)
            self.assertIn("status 6", link.updates.get(timeout=60).said[0])
            script.write_text("stats\n", encoding="utf-8")
            update = link.updates.get(timeout=60)
        self.assertEqual((update.said, update.stats.lots), ([], 0))


if __name__ == "__main__":
    unittest.main()
