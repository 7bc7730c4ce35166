"""Districts that are cut, derived by the definitions of the language: what each lot asks is asked by its rules. Rules and lots
stand in a block, which is derived once, and not at each lot."""
import unittest
from pathlib import Path

from regions import DEFINED, RegionTest

from cga_city_lib.plan import read_plan

EXAMPLES = Path(__file__).resolve().parent / "districts"


def rules_and_lots(name):
    lines = (EXAMPLES / name).read_text().split("\n")
    at = lines.index("end")
    return lines[lines.index("rules") + 1 : at], [line for line in lines[at:] if line.startswith(("lot ", "order "))]


def block(rules, lots):
    return ["version 2", "city", *rules, *lots, "end"]


def wall(side):
    """A square of shops that touch on all sides; each looks for its neighbours. Their windows are wide, so that they are few."""
    rules = [rule.replace('Repeat("X", 2)', 'Repeat("X", 8)') for rule in rules_and_lots("row_of_shops.cga")[0]]
    return block(rules, [f"lot w{k} {k} {k % side * 8} {k // side * 10} 8 10 shop" for k in range(side * side)])


class Defined(RegionTest):
    def jobs_of(self, lines, lots, *words):
        """The rounds that it took, and the numbers of own lots of the jobs in the end."""
        self.assertEqual(self.cut(lines, lots, *words, program=DEFINED)[0], 0)
        number, answer = self.rounds(30, DEFINED)
        self.assertEqual(answer[0], 0, answer)
        self.assert_whole(lines, DEFINED)
        return number, sorted(job.own for job in read_plan(self.folder).jobs)

    def test_a_wall_settles_at_once_with_two_rings(self):
        rounds, jobs = self.jobs_of(wall(5), 6, "--rings", "2")
        self.assertEqual(rounds, 1)
        self.assertGreater(len(jobs), 4)

    def test_with_one_ring_the_rings_grow(self):
        """The neighbours of a job have lost what they see on their other side, and that is seen."""
        rounds, jobs = self.jobs_of(wall(5), 6, "--rings", "1")
        self.assertGreater(rounds, 1)
        self.assertGreater(len(jobs), 4, "nothing is merged")

    def test_dominoes_do_not_settle_and_are_merged(self):
        """Whether a house draws depends on all before it, so no number of rings is enough."""
        rounds, jobs = self.jobs_of(block(*rules_and_lots("row_of_dominoes.cga")), 24, "--rings", "1")
        self.assertGreater(rounds, 3)
        self.assertGreater(max(jobs), 24, "jobs are put together")

    def test_a_ghost_far_away(self):
        rounds, jobs = self.jobs_of(block(*rules_and_lots("far_shape_of_a_ghost.cga")), 1)
        self.assertEqual((rounds, jobs), (2, [2]))
        self.folder = self.top / "rings"
        rounds, jobs = self.jobs_of(block(*rules_and_lots("far_shape_of_a_ghost.cga")), 1, "--rings", "1")
        self.assertEqual((rounds, jobs), (2, [1, 1]))


if __name__ == "__main__":
    unittest.main()
