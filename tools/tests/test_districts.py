"""How scripts are cut into jobs by place, what is refused, and what an edit costs."""
import runpy
import sys
import threading
import unittest
from itertools import combinations
from unittest.mock import patch

from regions import RULES, STAND_IN, TOP, RegionTest, asking, chances, wait

from cga_city_lib import deal, districts
from cga_city_lib.apart import touch, touching
from cga_city_lib.files import alone

LOTS = [
    f"lot {name} {seed} {x} 0 4 4 wall"
    for x, (name, seed) in enumerate([("a", 1), ("flat", 2), ("c", 0), ("d", 3), ("flat2", 1), ("f", 2), ("g", 1)])
]
REGION = ["# a region", "", *RULES, "quiet", *LOTS, "print", "stats"]


def grid(number, *more):
    """Lots 10 apart in rows of 10."""
    return [*RULES, *(f"lot l{k} 1 {k % 10 * 10} {k // 10 * 10} 4 4 wall" for k in range(number)), *more]


class Cut(RegionTest):
    def scripts(self):
        return {path.name: path.read_text().split("\n") for path in self.jobs()}

    def test_what_is_joined_is_what_one_run_prints(self):
        for lots, number in ((1, 7), (3, 3), (4096, 1)):
            with self.subTest(lots):
                self.assertEqual(
                    self.cut(REGION, lots),
                    (0, f"{self.folder}: 7 lots in {number} jobs, {number} to run; no rule asks\n", ""),
                )
                self.assertEqual(
                    self.rounds(), (1, (0, f"{self.folder}: lots 7 shapes 17 instances 10 faults 2\n", ""))
                )
                self.assert_whole(REGION)

    def test_a_job_is_a_block_of_the_rules_as_the_program_says_them_and_of_its_lots(self):
        self.cut(REGION, 4096)
        self.assertEqual(
            list(self.scripts().values()),
            [
                [
                    "version 2",
                    "quiet",
                    "city",
                    "order breadth",
                    '1: wall -> I("cube")',
                    *LOTS,
                    "end",
                    "grammar",
                    "faults",
                    "print",
                    "stats",
                    "",
                ]
            ],
        )

    def test_lots_of_a_city_block_are_dealt_too(self):
        self.cut(
            [
                "version 2",
                "city",
                LOTS[0],
                RULES[2],
                "order depth",
                *LOTS[1:4],
                "end",
                "  lot  e 1 - 4 0.5 2 / 3 4 wall # e",
            ]
        )
        self.assertEqual(
            sorted(line for script in self.scripts().values() for line in script if line.startswith("lot")),
            sorted([*LOTS[:4], "lot e 1 -4 0.5 2/3 4 wall"]),
        )

    def test_scripts_that_are_not_cut(self):
        for lines, told in (
            (REGION[3:], ":1: a script that is cut has `version 2`"),
            ([], ":1: a script that is cut"),
            (RULES, "no lot is there"),
            ([*REGION, "attr h = 4"], ":18: `attr` stands behind a lot: put it before the first one"),
            ([*REGION, "rules", "end"], ":18: `rules` stands behind"),
            ([*REGION, "undo"], ":18: `undo` can't stand"),
            ([*REGION, "unlot a"], ":18: `unlot` can't stand in a script that is cut: leave the lot's own line out"),
            ([*REGION, "trace"], ":18: `trace` can't"),
            ([*REGION, "dress wall a"], ":18: `dress` stands behind a lot"),
            ([*REGION, LOTS[1]], ":18: the lot `flat` stands here twice"),
            ([*REGION, "lot"], ":18: a lot is written `lot NAME SEED"),
            ([*REGION, "lot x 1 0 0 1 wall"], ":18: a lot is written"),
            ([*REGION, "lot x 1 0 1/0 1 1 wall"], "divides by zero"),
            ([*RULES, "city", *LOTS[:1], *LOTS[:1], "end"], ":8: the lot `a` stands here twice"),
            ([*REGION, "nonsense"], ":18: tools/lint says"),
            ([*REGION, "#" + "x" * 5000], ":18: tools/lint says"),
            ([*REGION[:6], "drop 1", *LOTS], ":7: refused Unexpected at 1"),
            ([*RULES, "rules", *LOTS], ":6: no line `end` ends"),
            ([*REGION, "model a"], ":18: tools/lint says"),
        ):
            with self.subTest(told):
                self.assert_refused(self.cut(lines), told)

    def test_where_a_rule_asks_lots_that_touch_stand_in_one_job(self):
        near, far = [f"lot n{k} 0 {k * 4} 0 4 4 wall" for k in range(3)], [
            f"lot f{k} 0 {k * 40} 90 4 4 wall" for k in range(3)
        ]
        self.assertEqual(
            self.cut(asking(*near, *far), 1)[1],
            f"{self.folder}: 6 lots in 4 jobs, 4 to run; 4 districts, since a rule asks\n",
        )
        self.rounds()
        self.assert_whole(asking(*near, *far))
        self.assertIn("1 districts", self.cut(asking(*far), 1, "--reach", "18")[1])
        self.assertIn("3 districts", self.cut(asking(*far), 1, "--reach", "17.999")[1])

    def test_grounds_are_compared_exactly(self):
        """As floats 0.7 + 0.1 is below 0.8, and two numbers of 18 digits are one."""
        for lots, number in (
            (("0.7 0 0.1 1", "0.8 0 1 1"), 1),
            (("0 -5/3 1 4/3", "0 -1/3 1 1"), 1),
            (("99999999999999998 0 1 1", "100000000000000000 0 1 1"), 2),
            (("-7/3 0 1/3 1", "-1.99 0 1 1"), 2),
        ):
            lines = asking(*(f"lot l{at} 1 {ground} wall" for at, ground in enumerate(lots)))
            self.assertIn(f"{number} districts", self.cut(lines)[1], lots)

    def test_which_boxes_touch_is_what_each_two_tell(self):
        """Two of them lie across all strips."""
        for chance in chances(6, 6):
            axes, number = chance.choice([2, 3]), 150
            sizes = [chance.choice([0, 0, 1, 9, 30]) for _ in range(number - 2)] + [4000] * 2
            lows = [[chance.randint(-100, 100) for _ in range(axes)] for _ in range(number)]
            boxes = [
                tuple(end for at in corner for end in (at, at + size))
                for corner, size in zip(lows, chance.sample(sizes, number))
            ]
            pairs = sorted(tuple(sorted(pair)) for pair in touching(boxes))
            self.assertEqual(pairs, [(a, b) for a, b in combinations(range(number), 2) if touch(boxes[a], boxes[b])])

    def test_grounds_that_end_before_they_begin_are_left_to_the_program(self):
        lines = asking("lot a 1 0 0 4 -1 wall", "lot b 1 10 0 4 0 wall")
        self.assertEqual(
            self.cut(lines, 1)[1:], (f"{self.folder}: 2 lots in 2 jobs, 2 to run; 2 districts, since a rule asks\n", "")
        )

    def test_a_district_past_a_run_is_refused_by_name(self):
        row = [f"lot x{k} 0 {k * 4} 0 4 4 wall" for k in range(6)]
        with patch.object(deal, "MOST_LOTS", 5):
            self.assert_refused(
                self.cut(asking("lot far 1 90 9 1 1 wall", *row)),
                "the district of the lot `x0` has 6 lots that touch, and a run takes 5",
            )
            self.assert_refused(self.cut(asking(*row), 4, "--rings", "2"), "the job of the lot `x0` has")
            self.assertEqual(self.cut([*RULES, *row])[0], 0)

    def test_a_comment_that_names_it_asks_nothing(self):
        self.assertIn(
            "no rule asks",
            self.cut([*RULES[:3], '# 7: wall : Scope.occ("active") == "none" -> NIL', *RULES[3:], *LOTS])[1],
        )

    def test_a_lot_changed_taken_away_or_added_costs_the_jobs_of_its_place(self):
        lines = grid(100)
        self.cut(lines, 10)
        self.run_jobs()
        self.assertEqual(self.todo(), [])
        for edited in (
            [line.replace("lot l55 1", "lot l55 2") for line in lines],
            [line for line in lines if "lot l55 " not in line],
            [*lines[:9], "lot new 1 57 57 2 2 wall", *lines[9:]],
            [*lines, "lot far 1 -900 7000 2 2 wall"],
        ):
            self.cut(edited, 10)
            self.assertIn(len(self.todo()), (1, 2, 3, 4))
            self.run_jobs()
            self.cut(lines, 10)
            self.assertEqual(self.todo(), [], "an undo costs none")
        self.cut(["version 2", "# a comment", *lines[1:]], 10)
        self.assertEqual(self.todo(), [], "a comment costs none")

    def test_a_cut_of_the_same_writes_nothing(self):
        self.cut(REGION)
        before = {path: path.stat().st_mtime_ns for path in self.folder.rglob("*") if path.name != "lock"}
        self.cut(REGION)
        self.assertEqual(
            {path: path.stat().st_mtime_ns for path in self.folder.rglob("*") if path.name != "lock"}, before
        )

    def test_another_program_or_other_decimals_are_other_jobs(self):
        other = self.top / "other"
        other.write_text((TOP / "tools" / "tests" / "region_stand_in.py").read_text() + "# another\n")
        other.chmod(0o755)
        self.cut(REGION, 4096)
        self.run_jobs()
        for program, words in ((STAND_IN, ["--decimals", "2"]), (str(other), [])):
            self.cut(REGION, 4096, *words, program=program)
            self.assertEqual(len(self.todo()), 1)

    def test_decimals(self):
        self.cut(REGION, 3, "--decimals", "2")
        self.rounds(30, STAND_IN, "--decimals", "2")
        self.assert_whole(REGION, STAND_IN, "--decimals", "2")
        deaf = self.top / "deaf"
        deaf.write_text(f"#!/bin/sh\nexec {STAND_IN}\n")
        deaf.chmod(0o755)
        self.assert_refused(
            self.cut(REGION, 3, "--decimals", "2", program=deaf),
            f"{deaf} doesn't print with --decimals 2: name a program that does",
        )
        self.assertEqual(self.cut(REGION, 3, program=deaf)[0], 0)

    def test_decimals_where_a_rule_asks(self):
        lines = asking(*LOTS)
        self.write(lines)
        with patch.object(districts, "ready", lambda name: str(STAND_IN)):
            status, said, _ = self.call("cut", self.script, self.folder, "--lots", "3", "--decimals", "2")
        self.assertEqual((status, said.endswith("since a rule asks\n")), (0, True))
        self.rounds(30, STAND_IN, "--decimals", "2")
        self.assert_whole(lines, STAND_IN, "--decimals", "2")
        self.assertIn("--decimals 2", (self.folder / "job").read_text())

    def test_a_second_call_in_a_folder_waits_and_says_so(self):
        self.cut(REGION)
        with alone(self.folder):
            second = threading.Thread(target=lambda: self.answers.append(self.cut([*REGION, "lot z 1 0 0 1 1 wall"])))
            self.answers = []
            second.start()
            wait(lambda: "another call works in" in getattr(sys.stderr, "getvalue", str)())
            self.assertEqual(self.answers, [])
        second.join()
        self.assertIn("another call works in", self.answers[0][2])
        self.assertEqual(self.answers[0][0], 0)

    def test_programs(self):
        nowhere = self.top / "nowhere"
        for proved, asks, chosen in (
            ([], [], "cga_hulls"),
            (["cga_main"], [], "cga_main"),
            (["cga_main"], ["7"], "cga_hulls"),
            (["cga_main", "cga_hulls"], [], "cga_hulls"),
        ):
            with patch.object(districts, "is_proved", proved.__contains__), patch.object(
                districts, "ready", lambda name: name
            ):
                self.assertEqual(districts.chosen_program(None, asks), chosen, (proved, asks))
        self.assert_refused(self.call("cut", "x", "y"), "x: no such file is there", 2)
        self.folder = self.top / "fol\u03bb\u00e9 'der"
        self.assertEqual(self.cut(REGION)[0], 0, "paths are only data")
        self.assert_refused(self.cut(REGION, program=nowhere), "nowhere` isn't there: name a program", 2)
        self.assert_refused(self.cut(REGION, program=self.top), "is a folder: name a program", 2)
        self.assert_refused(self.cut(REGION, program="false"), "no answer: false ended with status 1")

    def test_wrong_words(self):
        for words in (
            [],
            ["cut", "x"],
            ["cut", "x", "y", "--lots", "0"],
            ["cut", "x", "y", "--lots", "4097"],
            ["join"],
            ["x", "y"],
            ["cut", "x", "y", "--reach", "1/0"],
            ["cut", "x", "y", "--reach", "-1"],
            ["cut", "x", "y", "--reach", "wide"],
            ["cut", "x", "y", "--decimals", "10"],
        ):
            status, said, told = self.call(*words)
            self.assertEqual((status, said), (2, ""), words)
            self.assertIn("--help tells the words", told)
        self.assertEqual(
            self.call("join", self.top)[2], f"districts: {self.top} is no region that was cut: there is no plan.json\n"
        )
        tool = runpy.run_path(str(TOP / "tools" / "districts"))
        self.assertIs(tool["main"], districts.main)


if __name__ == "__main__":
    unittest.main()
