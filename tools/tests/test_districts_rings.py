"""Districts that are cut: jobs derive their neighbours, too, and are the region where these come out as in their own jobs."""
import unittest

from regions import RegionTest, asking

from cga_city_lib.plan import read_plan

# a lot of the stand-in draws where no earlier one that draws meets it, so in a row each depends on the one before it
ROW = [f"lot l{k:02} 1 {k * 2} 0 2 4 wall" for k in range(20)]


class Rings(RegionTest):
    def rings(self):
        """The lots of each job, its own and its neighbours."""
        plan = read_plan(self.folder)
        lots = [(job.own, plan.lots_of(job)) for job in plan.jobs]
        return {" ".join(names[:own]): " ".join(names[own:]) for own, names in lots}

    def test_jobs_have_their_neighbours_behind_their_own_lots(self):
        self.cut(asking(*ROW[:8]), 2, "--rings", "1")
        self.assertEqual(self.rings(), {"l00 l01": "l02", "l02 l03": "l01 l04", "l04 l05": "l03 l06", "l06 l07": "l05"})
        self.cut(asking(*ROW[:8]), 2, "--rings", "3")
        self.assertEqual(self.rings()["l02 l03"], "l00 l01 l04 l05 l06")
        text = next(path.read_text() for path in self.jobs() if ROW[2] in path.read_text().split("\n")[6:7])
        self.assertEqual(
            text.split("\n")[6:8] + text.split("\n")[-6:-1], ROW[2:4] + ["grammar", "faults", "print", "trace", "stats"]
        )

    def test_rows_with_gaps_settle_at_once(self):
        """Three lots in a row see no more than each other."""
        lines = asking(*(f"lot l{k:02} 1 {k * 2 + k // 3 * 9} 0 2 4 wall" for k in range(18)))
        self.cut(lines, 2, "--rings", "2")
        self.assertGreater(len(self.todo()), 5)
        self.assertEqual(self.rounds()[0], 1)
        self.assert_whole(lines)

    def test_a_row_in_which_each_depends_on_the_one_before_is_put_together(self):
        """The first of the neighbours has lost what it depends on; as only every other lot draws, an odd ring is wrong."""
        lines = asking(*ROW)
        self.cut(lines, 4, "--rings", "1")
        self.run_jobs()
        status, _, told = self.call("check", self.folder)
        self.assertEqual(status, 3)
        self.assertRegex(
            told, r"^\d+ lots see what other jobs derive otherwise: \d+ jobs to run; run them, and check again\n$"
        )
        number, answer = self.rounds()
        self.assertEqual(answer, (0, f"{self.folder}: lots 20 shapes 30 instances 10 faults 0\n", ""))
        self.assertGreater(number, 1)
        self.assert_whole(lines)
        self.cut(lines, 4, "--rings", "1")
        self.assertEqual(self.todo(), [], "what was put together stays so")

    def test_a_lot_that_reaches_one_far_away_is_derived_with_it(self):
        lines = asking(
            "lot a 50 0 0 2 4 wall",
            *(f"lot b{k} 1 {k * 2 + 40} 0 2 4 wall" for k in range(6)),
            "lot c 1 500 0 2 4 wall",
        )
        self.cut(lines, 2, "--rings", "2")
        self.assertNotIn("a", [name for ring in self.rings().values() for name in ring.split()])
        self.assertGreater(self.rounds()[0], 1)
        self.assert_whole(lines)

    def test_counts_and_faults_are_those_of_the_own_lots(self):
        lines = asking(*(line.replace("lot l", "lot flat") for line in ROW))
        self.cut(lines, 3, "--rings", "2")
        self.assertEqual(self.rounds()[1][1], f"{self.folder}: lots 20 shapes 30 instances 10 faults 20\n")
        self.assert_whole(lines)

    def test_steps_that_are_not_whole(self):
        self.cut(asking(*ROW), 10, "--rings", "1")
        self.run_jobs()
        path = next(path for path in self.jobs("out") if "# step l09 " in path.read_text())
        path.write_text(
            "".join(line for line in path.read_text().splitlines(True) if not line.startswith("# step l09 "))
        )
        self.assert_refused(
            self.call("check", self.folder), f"{path} isn't what its job prints, since its steps aren't whole"
        )

    def test_bills_and_models_are_refused(self):
        for word in ("bill", "model"):
            self.assert_refused(self.cut(asking(*ROW, word), 4, "--rings", "1"), f"`{word}` can't be had with --rings")

    def test_where_no_rule_asks_there_are_no_rings(self):
        lines = [line for line in asking(*ROW) if "Scope.occ" not in line]
        self.cut(lines, 4, "--rings", "2")
        self.assertEqual(set(self.rings().values()), {""})


if __name__ == "__main__":
    unittest.main()
