"""Regions of random lots in jobs are what one run prints, with negative and fractional corners, whether rules ask or not."""
import os
import shutil
import subprocess
import unittest

from regions import RULES, RegionTest, asking, chances, random_lots, wait


class RandomRegions(RegionTest):
    def setUp(self):
        super().setUp()
        self.took = []  # rounds

    def test_where_no_rule_asks(self):
        for chance in chances(5, 1):
            lines = [*RULES, *random_lots(chance, chance.randint(1, 40), 60)]
            self.cut(lines, chance.randint(1, 9))
            self.assertEqual(self.rounds()[0], 1)
            self.assert_whole(lines)

    def test_where_a_rule_asks(self):
        for chance in chances(8, 2):
            lines = asking(*random_lots(chance, chance.randint(2, 40), chance.choice([8, 20, 60])))
            self.cut(lines, chance.randint(1, 9), "--reach", chance.choice(["0", "0.5", "1/3"]))
            self.took.append(self.rounds()[0])
            self.assert_whole(lines)
        self.assertGreater(sum(number > 1 for number in self.took), 2, "of some regions boxes touched")

    def test_with_rings(self):
        for chance in chances(7, 3):
            lines = asking(*random_lots(chance, chance.randint(2, 40), chance.choice([12, 20, 60])))
            self.cut(lines, chance.randint(3, 9), "--rings", str(chance.randint(1, 2)))
            self.took.append(self.rounds()[0])
            self.assert_whole(lines)
        self.assertGreater(sum(number > 1 for number in self.took), 2, "some lots saw something else")

    def edited(self, chance, lines):
        """The lines with a lot that changed, one that went and one that came."""
        first = next(at for at, line in enumerate(lines) if line.startswith("lot"))
        places = chance.sample(range(first, len(lines)), 2)
        word, name, seed, *rest = lines[places[0]].split()
        changed = {places[0]: [" ".join([word, name, str(int(seed) + 1), *rest])], places[1]: []}
        return [line for at, old in enumerate(lines) for line in changed.get(at, [old])] + [
            "lot new 2 -1/3 -0.5 2 2 wall"
        ]

    @unittest.skipUnless(shutil.which("make"), "make isn't there")
    def test_regions_that_are_cut_again_while_jobs_run(self):
        """What ends late has an old name, and an edit that is undone finds it. In one of the regions a rule asks."""
        for chance in list(chances(3, 4))[1:]:
            lines = (asking if chance.random() < 0.7 else lambda *lots: [*RULES, *lots])(*random_lots(chance, 12, 30))
            self.cut(lines, 6)
            held = self.held()
            late = subprocess.Popen(
                ["make", "-s", "-j", "2", "-C", self.folder],
                stdout=subprocess.DEVNULL,
                stderr=subprocess.DEVNULL,
                env={**os.environ, "REGION_HELD": str(held)},
            )
            wait(lambda: self.jobs("part"))
            for turn in (self.edited(chance, lines), lines, self.edited(chance, lines)):
                self.assertEqual(self.cut(turn, 6)[0], 0)
            held.unlink()
            late.wait()
            self.rounds()
            self.assert_whole(turn)
            self.cut(lines, 6)
            self.rounds()
            self.assert_whole(lines)


if __name__ == "__main__":
    unittest.main()
