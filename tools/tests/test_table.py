"""Tables of towns: measures by hand, and sums beside stored and fresh bills."""
import csv
import subprocess
import tempfile
import unittest
from fractions import Fraction
from pathlib import Path
from unittest import mock

from drawn import Drawn
from in_process import TOP, called, proved_program
from cga_city_lib.obj import Town
from defined import defined_run


class Written(unittest.TestCase):
    def setUp(self):
        folder = tempfile.TemporaryDirectory()
        self.addCleanup(folder.cleanup)
        self.top = Path(folder.name)
        self.town = self.top / "town.obj"

    def write(self, drawn, *before):
        self.town.write_text("\n".join([*before, *drawn.lines, ""]))

    def rows(self, *words):
        status, out, said = called("table", self.town, *words)
        self.assertEqual(status, 0, said)
        self.said = said
        return list(csv.DictReader(out.split("\n")))

    def row(self, *words):
        (row,) = self.rows(*words)
        return row

    def refused(self, told, *words, refusal=1):
        status, out, said = called("table", self.town, *words)
        self.assertEqual((status, out), (refusal, ""), said)
        self.assertEqual(said.count("\n"), 1)
        self.assertIn(told, said)


class Tables(Written):
    def test_each_solid_in_a_scope_of_12_by_6_by_9(self):
        # plan, side, front and volume by hand
        for kind, known in (
            ("cube", ("108", "252", "72", "648")),
            ("shed", ("108", "126", "72", "324")),
            ("gable", ("108", "54", "72", "324")),
            ("hip", ("108", "0", "72", "216")),
            ("quad", ("0", "72", "72", "0")),
        ):
            with self.subTest(kind):
                self.write(Drawn().lot("a").solid("x", kind, (-3, 2, 5), (12, 6, 9)))
                row = self.row()
                self.assertEqual((row["plan"], row["side"], row["front"], row["volume"]), known)
                self.assertEqual((row["solids"], row["top"]), ("1", "8"))

    def test_rows_by_lot_by_symbol_and_by_both(self):
        self.write(
            Drawn()
            .lot("a")
            .solid("wall", "quad", (0, 0, 0), (4, 3, 0))
            .solid("roof", "shed", (0, 3, 0), (4, 1, 5))
            .lot("b")
            .solid("wall", "quad", (9, 0, 0), (2, 3, 0))
        )
        self.assertEqual(
            [(row["lot"], row["solids"], row["side"], row["top"]) for row in self.rows()],
            [("a", "2", str(12 + 4 + 5), "4"), ("b", "1", "6", "3")],
        )
        self.assertEqual(
            [(row["symbol"], row["front"], row["volume"]) for row in self.rows("--by", "symbol")],
            [("roof", "4", "10"), ("wall", "18", "0")],
        )
        self.assertEqual(
            [(row["lot"], row["symbol"], row["front"]) for row in self.rows("--by", "both")],
            [("a", "roof", "4"), ("a", "wall", "12"), ("b", "wall", "6")],
        )

    def test_sums_are_exact(self):
        # beside 10^14 the squares of ten thousandths are nothing to floats, which would come to 100000000000000
        drawn = Drawn().lot("a").solid("field", "cube", (0, 0, 0), (10**7, 1, 10**7))
        for number in range(10):
            drawn.solid("tile", "cube", (number, 0, -1), (Fraction(1, 1000), 1, Fraction(1, 1000)))
        self.write(drawn)
        self.assertEqual(
            (self.row("--decimals", "12")["plan"], self.row("--decimals", "0")["plan"]),
            ("100000000000000.00001", "100000000000000"),
        )

    def test_gross_floor_area(self):
        self.write(
            Drawn()
            .lot("a")
            .solid("slab", "cube", (0, 0, 0), (10, Fraction(1, 5), 8))
            .solid("slab", "cube", (0, 3, 0), (10, Fraction(1, 5), 8))
            .solid("mass", "cube", (20, 0, 0), (5, 10, 4))
        )
        self.assertEqual(self.row("--floor", "slab")["floors"], "160")
        self.assertEqual(self.row("--floor", "mass=3")["floors"], "60")
        self.assertEqual(self.row("--floor", "slab", "--floor", "mass=2.5")["floors"], "240")
        self.refused("nothing is drawn by `storey`", "--floor", "storey")

    def test_storeys_that_were_rounded_are_whole(self):
        self.write(Drawn().lot("a").solid("mass", "cube", (0, Fraction(1, 3), 0), (5, Fraction(28, 3), 4)))
        self.assertEqual(self.row("--floor", "mass=4.666667")["floors"], "40")

    def test_limits_and_areas(self):
        self.write(
            Drawn()
            .lot("a")
            .solid("mass", "cube", (0, 0, 0), (5, 10, 4))
            .lot("b")
            .solid("mass", "cube", (9, 0, 0), (5, 12, 4))
        )
        self.assertEqual(
            [(row["limit"], row["above"]) for row in self.rows("--limit", "10.5")], [("10.5", "0"), ("10.5", "1.5")]
        )
        parcels = self.top / "list.csv"
        parcels.write_text("lot,area,limit\na,40,9\nb,30,\n")
        self.assertEqual(
            [
                (row["limit"], row["above"], row["area"], row["ratio"])
                for row in self.rows("--parcels", parcels, "--floor", "mass=3", "--decimals", "3")
            ],
            [("9", "1", "40", "1.5"), ("", "", "30", "2.667")],
        )
        for text, told in (
            ("", "has no `lot`"),
            ("lot,area\na,x\n", "line 2: its `area`, x, isn't"),
            ('lot\n"a', "isn't a table"),
        ):
            parcels.write_text(text)
            self.refused(told, "--parcels", parcels)

    def test_names_are_only_data(self):
        self.write(
            Drawn()
            .lot('=HYPERLINK("x")')
            .solid("+1", "quad", (0, 0, 0), (1, 1, 0))
            .lot("a,b")
            .solid("c", "quad", (0, 0, 0), (1, 1, 0))
        )
        self.assertEqual(
            [(row["lot"], row["symbol"]) for row in self.rows("--by", "both")],
            [('\'=HYPERLINK("x")', "'+1"), ("a,b", "c")],
        )

    def test_a_mesh_has_no_front(self):
        self.town.write_text("o a\ng m\nv 0 0 0\nv 4 0 0\nv 0 0 3\nv 0 5 0\nf 1 2 3\nf 1 4 2\nf 1 3 4\nf 2 4 3\n")
        row = self.row()
        self.assertEqual((row["plan"], row["side"], row["volume"], row["front"]), ("6", "17.5", "10", "0"))
        self.assertIn("1 solids are meshes, whose front isn't known", self.said)

    def test_a_turned_town(self):
        # a cube of 10 by 3 by 8 that is turned by 3, 4, 5: its sides lie along (0.8, 0.6) and (-0.6, 0.8)
        text = Drawn().lot("a").solid("x", "cube", (0, 0, 0), (10, 3, 8)).lines
        turned = [
            line
            if line[0] != "v"
            else (lambda x, y, z: f"v {0.8 * x - 0.6 * z:.6f} {y} {0.6 * x + 0.8 * z:.6f}")(
                *map(float, line.split()[1:])
            )
            for line in text
        ]
        self.town.write_text("\n".join(turned))
        row = self.row("--decimals", "4")
        self.assertEqual((row["plan"], row["side"], row["front"], row["volume"]), ("80", "108", "30", "240"))

    def test_the_farthest_vertex_of_a_script_is_read(self):
        town = Town([f"v {2**62}.000000 0.000000 {-(2**62)}.000000"])
        self.assertEqual(town.points, [(2.0**62, 0.0, -(2.0**62))])

    def test_what_is_no_town(self):
        for text, told in (
            ("", "is empty"),
            ("<html>", "is HTML"),
            (
                "o a\ng b\nv 0 nan 0\nv 1 0 0\nv 0 1 0\nf 1 2 3\n",
                ":3: `v 0 nan 0`: a vertex has three numbers below 1,000,000,000,000; mend the line",
            ),
            ("o a\ng b\nv 0 1e300 0\nv 1 0 0\nv 0 1 0\nf 1 2 3\n", ":3: `v 0 1e300 0`"),
            ("o a\ng b\nv 0 0\nv 1 0 0\nv 0 1 0\nf 1 2 3\n", ":3: `v 0 0`: a vertex has"),
            ("o a\ng b\nv 0.1234567890123456789012 0 0\nv 1 0 0\nv 0 1 0\nf 1 2 3\n", "22 decimals"),
            (
                "o a\ng b\nv 0 0 0\nf 1 2 3\n",
                ":4: `f 1 2 3`: a face names vertex 2, and 1 stands before it; mend the line",
            ),
            ("o a\ng b\nv 0 0 0\nf 1 1 -2\n", "a face names vertex -2, and 1 stands"),
            ("o a\ng b\nv 0 0 0\nf 1 1 x\n", "`f 1 1 x`: a face has the numbers of three"),
            ("# bill 1\n# bill a x 1 1 0\no a\ng b\nv 0 0 0\nv 1 0 0\nv 0 1 0\nf 1 2 3\n", "isn't a line of a bill"),
        ):
            with self.subTest(told):
                self.town.write_text(text)
                self.refused(told)
        self.town.unlink()
        self.refused("no such file is there", refusal=2)

    def test_reported_columns(self):
        """In each lot three quads of 0.5 by 2, and a box of 1.5 by 1 by 1 whose sides are 5; reports of one name are added up."""
        self.town = self.top / "town.cga"
        self.town.write_text(
            "# report glass pane area\n# report glass box side * 0.6\n# report many pane solids * 1/3\n# report top pane area\n"
            "# report m2 pane areas\n# report none other area\n# report on the whole\nrules\n1: a -> S(1r, 2, 1r) b\n"
            '2: b -> Subdiv("X", 0.5, 0.5, 0.5, 1r) { pane | pane | pane | S(1r, 1, 1) box }\n'
            '3: pane -> I("quad")\n4: box -> I("cube")\nend\nlot l 1 0 0 3 1 a\nlot m 2 9 0 3 1 a\n'
        )
        for words, known in (
            ((), [("6", "1", "0"), ("6", "1", "0")]),
            (("--by", "symbol"), [("6", "0", "0"), ("6", "2", "0")]),
            (("--by", "both"), [("3", "0", "0"), ("3", "1", "0")] * 2),
        ):
            with self.subTest(words):
                with mock.patch("cga_city_lib.door.teller", lambda _: None), mock.patch(
                    "cga_city_lib.door.asked",
                    lambda script, _: Town(defined_run("", "\n".join([*script.lines, "print"]).encode())[1]),
                ):
                    rows = self.rows(*words)
                self.assertEqual([(row["glass"], row["many"], row["none"]) for row in rows], known)
        self.assertEqual([line.split(": ")[1].split(":")[-1] for line in self.said.splitlines()], ["4", "5", "6"])

    def test_words(self):
        self.write(Drawn().lot("a").solid("x", "cube", (0, 0, 0), (1, 1, 1)))
        for words, told in (
            (["--by", "street"], "--by takes lot, symbol or both, and not `street`"),
            (["--limit", "high"], "--limit"),
            (["--floor", "x=0"], "--floor"),
            (["--decimals", "13"], "from 0 to 12"),
        ):
            status, out, said = called("table", self.town, *words)
            self.assertEqual((status, out), (2, ""))
            self.assertIn(told, said)


class Bills(Written):
    """What `bill` says of a town, and what is added up of the same town as it is drawn."""

    def bill(self, name, number=0):
        """The lines of a bill that is stored for a script of rows/."""
        lines, found = (TOP / "rows" / f"{name}.out").read_text().split("\n"), []
        for at, line in enumerate(lines):
            if line.startswith("# bill ") and len(line.split()) == 3:
                found.append(lines[at : at + 1 + int(line.split()[2])])
        return found[number]

    def assert_agrees(self, drawn, bill, off=Fraction(0)):
        """By symbol the bill's own numbers; by lot and symbol sums that come to these, where each front is off by so much at most."""
        self.write(drawn, *bill)
        known = {line.split()[2]: line.split()[3:6] for line in bill[1:]}
        by_symbol = self.rows("--by", "symbol")
        self.assertEqual(self.said, "")
        self.assertEqual(
            {row["symbol"]: [Fraction(row[word]) for word in ("solids", "front", "box")] for row in by_symbol},
            {symbol: list(map(Fraction, numbers)) for symbol, numbers in known.items()},
        )
        sums = {}
        for row in self.rows("--by", "both"):
            number, front = sums.get(row["symbol"], (0, 0))
            sums[row["symbol"]] = number + int(row["solids"]), front + Fraction(row["front"])
        self.assertEqual(set(sums), set(known))
        for symbol, (number, front, _) in known.items():
            self.assertEqual(sums[symbol][0], int(number))
            self.assertLessEqual(abs(sums[symbol][1] - Fraction(front)), int(number) * off)

    def test_stored_bills(self):
        # rows/bills_of_thirds.cga: two lots, each of two cubes and a quad that are a third wide
        thirds = Drawn(places=9)
        for lot, z in (("x", 0), ("w", 5)):
            thirds.lot(lot)
            for number, (symbol, kind, height) in enumerate((("p", "cube", 2), ("p", "cube", 2), ("Q", "quad", 1))):
                thirds.solid(symbol, kind, (Fraction(number, 3), 0, z), (Fraction(1, 3), height, 1))
        self.assert_agrees(thirds, self.bill("bills_of_thirds"))
        # rows/bills_of_windows.cga: two windows of 2 by 6, half deep, on fronts at z = 8 and at z = 14
        self.assert_agrees(
            Drawn()
            .lot("a")
            .solid("window", "cube", (4, 0, 8), (2, 6, Fraction(1, 2)))
            .lot("b")
            .solid("window", "cube", (9, 0, 14), (2, 6, Fraction(1, 2))),
            self.bill("bills_of_windows"),
        )

    def test_an_example_with_its_bill(self):
        # examples/assets.cga draws its model before it asks for bills; the last one is of the same town
        self.town.write_text((TOP / "examples" / "assets.out").read_text())
        self.assertEqual(
            [(row["symbol"], row["solids"], row["front"], row["box"]) for row in self.rows("--by", "symbol")],
            [("house", "3", "150", "1332"), ("roof", "3", "50", "444"), ("window", "18", "30.24", "6.048")],
        )

    def test_a_bill_of_another_town_is_told_and_not_taken(self):
        bill = ["# bill 1", "# bill window 2 24.000000 6.000000 0"]
        for drawn, told in (
            (Drawn().lot("a").solid("window", "cube", (4, 0, 8), (2, 6, 1)), "it has 2 `window`, and 1 are drawn"),
            (
                Drawn()
                .lot("a")
                .solid("window", "cube", (4, 0, 8), (2, 6, 1))
                .solid("window", "cube", (4, 9, 8), (3, 6, 1)),
                "the front of `window` is 24 there, and 30 as drawn",
            ),
            (Drawn().lot("a").solid("door", "cube", (4, 0, 8), (2, 6, 1)), "it has 0 `door`, and 1 are drawn"),
        ):
            self.write(drawn, *bill)
            self.assertNotIn("box", self.rows("--by", "symbol")[0])
            self.assertIn(told, self.said)

    def test_fronts_that_printing_rounds_to_the_other_side(self):
        # a third times 3.0000015 is 1.0000005, which the bill rounds up; the width as it is printed, 0.333333333, gives less
        drawn = Drawn(places=9).lot("a").solid("pane", "quad", (0, 0, 0), (Fraction(1, 3), Fraction("3.0000015"), 0))
        bill = ["# bill 1", "# bill pane 1 1.000001 0.000000 0"]
        self.assert_agrees(drawn, bill, Fraction(1, 10**6))
        self.assertEqual(self.row("--by", "lot")["front"], "1")
        self.assertEqual(self.row("--by", "symbol")["front"], "1.000001")

    @unittest.skipUnless(proved_program(), "the proved program isn't there")
    def test_the_programs_own_bills(self):
        for name in ("shops", "village", "tower", "office"):
            with self.subTest(name):
                script = (TOP / "examples" / f"{name}.cga").read_text().replace("\nprint\n", "\nbill\nprint\n")
                run = subprocess.run(
                    [TOP / "cga_city", "--decimals", "9"],
                    input="version 2\n" + script,
                    capture_output=True,
                    text=True,
                    check=True,
                )
                bill = [line for line in run.stdout.split("\n") if line.startswith("# bill ")]
                drawn = Drawn()
                drawn.lines = run.stdout.split("\n")
                self.assertGreater(len(bill), 3)
                self.assert_agrees(drawn, bill, Fraction(1, 10**6))


class Variants(unittest.TestCase):
    def setUp(self):
        folder = tempfile.TemporaryDirectory()
        self.addCleanup(folder.cleanup)
        self.top = Path(folder.name)

    def town(self, name, *lots):
        """A file of cubes: for each lot its name and sizes."""
        drawn = Drawn()
        for at, (lot, size) in enumerate(lots):
            drawn.lot(lot).solid("slab", "cube", (100 * at, 0, 0), size)
        (self.top / name).write_text("\n".join([*drawn.lines, ""]))
        return self.top / name

    def rows(self, *words):
        status, out, said = called("table", *words)
        self.assertEqual((status, said), (0, ""))
        return [line.split(",") for line in out.splitlines()]

    def test_two_towns_side_by_side(self):
        old = self.town("a.obj", ("one", (10, 3, 8)), ("two", (5, 3, 4)), ("three", (1, 1, 1)))
        new = self.town("b.obj", ("one", (10, 3, 8)), ("two", (5, 6, 2)), ("four", (2, 2, 2)))
        head, *rows = self.rows(old, new, "--floor", "slab=3")
        self.assertEqual(head[:5], ["lot", "change", "solids A", "solids B", "solids B - A"])
        changes = {row[0]: row[1] for row in rows}
        self.assertEqual(changes, {"one": "same", "two": "changed", "three": "gone", "four": "new", "": "sum"})
        two = dict(zip(head, rows[1]))
        # a storey of 20, and two of 10
        self.assertEqual([two[f"{word} B - A"] for word in ("plan", "volume", "top", "floors")], ["-10", "0", "3", "0"])
        sums = dict(zip(head, rows[-1]))
        self.assertEqual([sums[f"top {end}"] for end in "AB"], ["3", "6"])
        self.assertEqual([sums[f"floors {end}"] for end in "AB"], ["100", "100"])

    def test_limits_by_zone(self):
        town = self.town("a.obj", ("one", (10, 3, 8)), ("two", (5, 6, 4)), ("three", (1, 9, 1)))
        parcels = self.top / "list.csv"
        parcels.write_text("lot,area,limit,zone\none,100,,W2\ntwo,50,4,W2\nthree,10,,W3\n")
        words = (town, "--parcels", parcels, "--floor", "slab=3", "--limit", "zone=W2:2.5", "--limit", "7")
        self.assertEqual(
            self.rows(*words, "--zone", "zone"),
            [
                ["zone", "lots", "area", "floors", "ratio", "top", "limit", "lots above", "most above"],
                ["W2", "2", "150", "120", "0.8", "6", "2.5 to 4", "2", "2"],
                ["W3", "1", "10", "3", "0.3", "9", "7", "1", "2"],
            ],
        )
        head, *rows = self.rows(*words)
        self.assertEqual([row[head.index("above")] for row in rows], ["0.5", "2", "2"])

    def test_what_does_not_go_together(self):
        town = self.town("a.obj", ("one", (10, 3, 8)))
        parcels = self.top / "list.csv"
        parcels.write_text("lot,area\none,100\n")
        for words, told in (
            ((town, "--zone", "zone"), "say --parcels LIST.csv"),
            ((town, "--zone", "zone", "--parcels", parcels), "no parcel has the column `zone`"),
            ((town, town, "--by", "symbol"), "two towns are told lot by lot"),
        ):
            status, out, said = called("table", *words)
            self.assertEqual((status, out), (1, ""))
            self.assertIn(told, said)
        for word in ("zone=W2", "x", "zone:3", "=W2:3"):
            self.assertEqual(called("table", town, "--limit", word)[0], 2)


if __name__ == "__main__":
    unittest.main()
