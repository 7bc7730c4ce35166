"""Towns at some values of an attribute, and files that are made again at each save."""
import csv
import sys
import tempfile
import time
import unittest
import xml.etree.ElementTree as tree
from fractions import Fraction
from pathlib import Path

TESTS = Path(__file__).resolve().parent
sys.path[:0] = [str(TESTS), str(TESTS.parent)]

from in_process import begun, called  # noqa: E402
from cga_city_lib.call import WrongWord  # noqa: E402
from cga_city_lib.outputs import output_of, settings_behind  # noqa: E402
from cga_city_lib.sweep import values_word  # noqa: E402

TELLER = TESTS / "live_stand_in"
SCRIPT = """rules
attr storey = 3
1: house -> S(1r, storey, 1r) I("cube")
end
lot a 1 0 0 12 9 house
lot b 1 20 0 4 5/2 house
"""


class Scripts(unittest.TestCase):
    def setUp(self):
        folder = tempfile.TemporaryDirectory()
        self.addCleanup(folder.cleanup)
        self.top = Path(folder.name)
        self.script = self.top / "town.cga"
        self.script.write_text(SCRIPT)


class Sweeps(Scripts):
    def sweep(self, *words, status=0):
        ended, out, self.said = called("sweep", "--program", TELLER, self.script, *words)
        self.assertEqual(ended, status, self.said)
        return list(csv.DictReader(out.split("\n")))

    def test_values(self):
        """Eight values from 2.6 to 4 are a fifth apart."""
        self.assertEqual(values_word("storey=2.6..4/8").values, [Fraction(13 + at, 5) for at in range(8)])
        self.assertEqual(values_word("a=3,-1,7/2"), ("a", [3, -1, Fraction(7, 2)]))
        self.assertEqual(values_word("a=-1/2..1/2/3").values, [Fraction(-1, 2), 0, Fraction(1, 2)])

    def test_rows_of_the_town(self):
        # cubes of 12 by 9 and of 4 by 2.5; their fronts are 12 and 4 wide
        rows = self.sweep("storey=2..3/3", "--floor", "house=1")
        self.assertEqual(
            [[row[name] for name in ("storey", "solids", "plan", "front", "volume", "top", "floors")] for row in rows],
            [
                ["2", "2", "118", "32", "236", "2", "236"],
                ["2.5", "2", "118", "40", "295", "2.5", "236"],
                ["3", "2", "118", "48", "354", "3", "354"],
            ],
        )
        self.assertEqual(self.script.read_text(), SCRIPT)

    def test_rows_by_lot_and_by_symbol(self):
        rows = self.sweep("storey=2,4", "--by", "lot")
        self.assertEqual(
            [(row["storey"], row["lot"], row["volume"]) for row in rows],
            [("2", "a", "216"), ("2", "b", "20"), ("4", "a", "432"), ("4", "b", "40")],
        )
        rows = self.sweep("storey=2", "--by", "symbol")
        self.assertEqual([(row["symbol"], row["box"]) for row in rows], [("house", "236")])

    def test_a_value_at_which_nothing_is_drawn(self):
        """A house without height has a row of zeros between the two others; by lot and by symbol it is told."""
        rows = self.sweep("storey=2,0,-1,4", "--floor", "house")
        self.assertEqual([row["storey"] for row in rows], ["2", "0", "-1", "4"])
        names = ("lots", "faults", "solids", "plan", "side", "front", "box", "volume", "top", "floors")
        for row in rows[1:3]:
            self.assertEqual([row[name] for name in names], ["2", "2"] + ["0"] * 8)
        for by in ("lot", "symbol"):
            rows = self.sweep("storey=2,0,4", "--by", by)
            self.assertEqual(list(dict.fromkeys(row["storey"] for row in rows)), ["2", "4"])
            self.assertIn(f"{self.script}: storey=0: nothing is drawn\n", self.said)

    def test_they_are_those_of_the_table(self):
        """A row is what tools/table says of the script with that value."""
        for value in ("2", "7/2"):
            (row, _) = self.sweep(f"storey={value}", "--by", "lot")
            _, out, _ = called("table", "--program", TELLER, self.script, "--set", f"storey={value}")
            known = next(csv.DictReader(out.split("\n")))
            self.assertEqual({name: row[name] for name in known}, known)

    def test_a_sheet(self):
        sheet = self.top / "sheet.svg"
        self.sweep("storey=2,4", "--sheet", sheet)
        texts = [text.text for text in tree.parse(sheet).iter("{http://www.w3.org/2000/svg}text")]
        self.assertEqual(texts[1:], ["storey = 2", "storey = 4"])

    def test_what_cannot_be_swept(self):
        for values, status, told in (
            ("storey", 2, "isn't NAME=LOW..HIGH/NUMBER or NAME=VALUE,VALUE"),
            ("storey=a..4/8", 2, "isn't NAME=LOW..HIGH/NUMBER"),
            ("storey=4..3/8", 2, "has to go upwards in 2 to 100 values"),
            ("storey=3..4/1", 2, "has to go upwards in 2 to 100 values"),
            ("floors=3", 1, "no attribute `floors` is there: the attributes are storey"),
        ):
            self.assertEqual(self.sweep(values, status=status), [])
            self.assertIn(told, self.said)
        self.assertEqual(self.sweep("storey=3", "--floor", "slab", status=1), [])
        self.assertIn("nothing is drawn by `slab`", self.said)
        self.assertEqual(self.sweep("storey=3", "--sheet", self.top / "x.png", status=2), [])
        self.script.write_text("o a\ng b\nv 0 0 0\n")
        self.assertEqual(self.sweep("storey=3", status=1), [])
        self.assertIn("give a script, and no OBJ text", self.said)


class Outputs(unittest.TestCase):
    def test_the_tool_goes_by_the_ending(self):
        for word, tool, more in (
            ("a/town.merged.obj", "merge", []),
            ("town.GLB", "glb", []),
            ("'my plan.svg' --plan 1.2", "plan", ["--plan", "1.2"]),
            ("town.png street", "picture", ["street"]),
            ("t.csv --by symbol", "table", ["--by", "symbol"]),
        ):
            output = output_of(word)
            self.assertEqual((output.tool.name, output.more), (tool, more))
        for word in ("town.obj", "town", "'x.svg"):
            with self.assertRaises(WrongWord):
                output_of(word)

    def test_settings_stand_behind_the_script(self):
        self.assertEqual(settings_behind(b"print", ["storey = 3"]), b"print\nattr storey = 3\n")
        self.assertIsNone(settings_behind(None, ["storey = 3"]))


class Saves(Scripts):
    def test_files_are_made_again_at_each_save(self):
        table, plan = self.top / "town.csv", self.top / "plan.svg"
        with open(self.top / "said", "w+") as said:
            process = begun("watch", "--program", TELLER, self.script, table, f"{plan} --title x", out=said, err=said)
            self.addCleanup(process.join)
            self.addCleanup(process.terminate)
            self.wait(lambda: "are made" in self.told())
            self.assertEqual(self.volume(table), "324")
            self.assertIn("<svg", plan.read_text())
            self.script.write_text(SCRIPT.replace("storey = 3", "storey = 4"))
            self.wait(lambda: self.told().count("are made") == 2)
            self.assertEqual(self.volume(table), "432")
            self.script.write_text(SCRIPT.replace("storey = 3", "storey = 4") + "# a note\n")
            self.wait(lambda: "nothing that is drawn changed" in self.told())
            self.script.write_text(SCRIPT + "lot c 1 0 0 0 9 house\n")
            self.wait(lambda: "BadLot" in self.told())
            self.assertEqual(self.volume(table), "432")

    def told(self):
        return (self.top / "said").read_text()

    def volume(self, table):
        with open(table, newline="") as file:
            return next(csv.DictReader(file))["volume"]

    def wait(self, is_so):
        until = time.monotonic() + 60
        while not is_so():
            self.assertLess(time.monotonic(), until, self.told())
            time.sleep(0.02)


if __name__ == "__main__":
    unittest.main()
