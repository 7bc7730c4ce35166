"""Regions of lots at several angles: jobs by angle and place, turned back where they are joined. Positions are by hand."""
import unittest

from in_process import called  # first, since it names where the others are
from defined import by_definition
from regions import RULES, STAND_IN, RegionTest, asking

from cga_city_lib.plan import read_plan
from tiles_reader import read_tileset


# at 90 degrees (x, z) of the frame is (-z, x) of the town; at 30 degrees (10, 0) is (10 cos 30, 10 sin 30)
LOTS = ["lot a 1 10 20 2 3 wall", "lot b 1 10 20 2 3 wall turned 90", "lot c 1 10 0 2 3 wall turned 30"]
CORNERS = {"a": ("10.000000", "20.000000"), "b": ("-20.000000", "10.000000"), "c": ("8.660254", "5.000000")}


def first_corners(lines):
    """The first corner of each lot's first solid."""
    found, lot = {}, ""
    for line in lines:
        words = line.split()
        if words[0] == "o":
            lot = words[1]
        elif words[0] == "v" and lot not in found:
            found[lot] = words[1], words[3]
    return found


class Angles(RegionTest):
    def checked(self, lines, *words):
        answer = self.cut(lines, 2, *words)
        self.assertEqual(answer[0], 0, answer)
        return self.rounds()[1]

    def town(self):
        answer = self.call("join", self.folder, "--workers", "1")
        self.assertEqual(answer[0], 0, answer)
        return self.joined()[0]

    def test_three_angles_are_turned_back(self):
        self.checked([*RULES, *LOTS])
        self.assertEqual(len(self.jobs()), 3, "a job for each angle")
        town = self.town()
        self.assertEqual(first_corners(town), CORNERS)
        self.assertEqual([line for line in town if line[:2] == "o "], ["o a", "o b", "o c"])
        self.assertNotIn("-0.000000", " ".join(town))
        # the cube of b is 1 by 1 by 1 from (10, 20) in its frame: corner 3, (11, 21), comes to (-21, 11)
        faces = [line.split()[1:] for line in town if line.startswith("f ")]
        self.assertEqual([int(number) for number in faces[6]], [12, 11, 15, 16], "the faces of b name its own corners")
        self.assertEqual([line for line in town if line.startswith("v ")][10], "v -21.000000 0.000000 11.000000")

    def test_decimals_are_those_of_the_jobs(self):
        self.cut([*RULES, *LOTS], 2, "--decimals", "2")
        self.run_jobs(STAND_IN, "--decimals", "2")
        self.assertEqual(first_corners(self.town())["c"], ("8.66", "5.00"))

    def test_an_edit_makes_the_job_of_its_lot_alone(self):
        self.checked([*RULES, *LOTS])
        said = self.cut([*RULES, *LOTS[:2], LOTS[2].replace(" 1 ", " 2 ", 1)])[1]
        self.assertIn("3 lots in 3 jobs at 3 angles, 1 to run; no rule asks", said)
        job = (self.folder / "jobs" / f"{self.todo()[0]}.cga").read_text()
        self.assertIn("\nlot c 2 10 0 2 3 wall\n", job, "in the frame of its angle")

    def test_a_cell_has_a_job_for_each_of_its_angles(self):
        """Forty lots along a line, ten thousand units apart in two places, of which each has both angles."""
        lots = [f"lot {'ab'[k // 20]}{k % 20} 1 {k // 20 * 9000 + 3 * k} 0 1 1 wall" for k in range(40)]
        lots = [lot + " turned 45" * (k % 2) for k, lot in enumerate(lots)]
        self.cut([*RULES, *lots], 20)
        plan = read_plan(self.folder)
        names = [{name[0] for name in plan.own(job)} for job in plan.jobs]
        self.assertEqual(sorted(map(sorted, names)), [["a"], ["a"], ["b"], ["b"]])
        self.assertEqual(sorted(job.angle for job in plan.jobs), [0, 0, 45, 45])

    def test_no_question_sees_over_angles_and_it_is_told(self):
        # the box of a is its ground, longer by its seed: 0 to 5 by 0 to 4; that of b comes to -4 to 0 by -2 to 3
        near = ["lot a 1 0 0 4 4 wall", "lot b 1 -2 0 4 4 wall turned 90", "lot c 1 60 0 4 4 wall turned 90"]
        status, said, told = self.checked(asking(*near))
        self.assertEqual(status, 0, told)
        self.assertIn("asked: 1, the first is", told)
        self.assertIn("`a` at 0 and `b` at 90 degrees, near 0.25,1.25", told)
        self.assertEqual(
            (self.folder / "town.unseen").read_text().split("\n")[:2], ["# unseen 1", "# unseen a 0 b 90 0.25 1.25"]
        )
        self.assertEqual(first_corners(self.town())["b"], ("0.000000", "-2.000000"), "it is drawn beside a")
        self.assertEqual(self.call("check", self.folder)[2], "", "it is told once")

    def test_where_no_rule_asks_nothing_is_told(self):
        self.assertEqual(self.checked([*RULES, "lot a 1 0 0 4 4 wall", "lot b 1 -2 0 4 4 wall turned 90"])[2], "")
        self.assertFalse((self.folder / "town.unseen").exists())

    def test_tiles_are_turned(self):
        self.checked([*RULES, *LOTS])
        self.assertEqual(self.call("tiles", self.folder, "--workers", "1")[0], 0)
        tiles = read_tileset(self.folder / "tiles" / "tileset.json")
        drawn = {
            tuple(round(n, 3) + 0.0 for n in point) for _, _, some in tiles for corners in some for point in corners
        }
        for x, z in CORNERS.values():
            self.assertIn((round(float(x), 3), -round(float(z), 3), 0.0), drawn)

    def test_lint_says_what_takes_such_a_lot(self):
        self.write([*RULES, *LOTS])
        with by_definition():
            status, said, _ = called("lint", self.script)
        self.assertEqual(
            (status, said.count("a lot is turned in a region alone: cut the script by tools/districts")), (1, 2)
        )

    def test_angles_that_are_none(self):
        for word in ("turned", "turned north", "turned -3", "turned 1e3", "turned 3 4"):
            answer = self.cut([*RULES, "lot a 1 10 20 2 3 wall " + word])
            self.assert_refused(
                answer, "a lot is written `lot NAME SEED X Z WIDTH DEPTH SYMBOL`, perhaps with `turned DEGREES` behind"
            )


if __name__ == "__main__":
    unittest.main()
