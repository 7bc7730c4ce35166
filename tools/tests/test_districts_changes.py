"""A cut by what changed: it leaves what a cut from nothing leaves, byte for byte, and where it can't, the script is cut from nothing."""
import shutil
import unittest
from unittest.mock import patch

from regions import RULES, STAND_IN, RegionTest, asking, chances

from cga_city_lib import districts, kept_checks
from cga_city_lib.printed import Printed

COARSE = ["version 2", "rules", '1: wall -> I("quad")', "end"]
OTHER_RULES = [*RULES[:3], '2: roof -> I("gable")', *RULES[3:]]


OTHERS = "lock", "counts", "found.json", "checked.json"  # files that a cut doesn't write


class Script:
    """A region's lots, which random edits change."""

    def __init__(self, dice, number, most, angles=(0,)):
        self.dice, self.most, self.angles = dice, most, angles
        self.named = 0
        self.lots = [self.lot() for _ in range(number)]

    def lot(self, name=None):
        self.named += name is None
        dice, name = self.dice, name or f"{self.dice.choice(['l', 'flat'])}{self.named}"
        x, z = dice.randint(-self.most, self.most), dice.choice(
            [str(dice.randint(-self.most, self.most)), "7/3", "-0.5"]
        )
        angle = dice.choice(self.angles)
        sizes = dice.choice(["1 1", "2.5 1", "4 3", "1/3 2"])
        return f"lot {name} {dice.randint(0, 2)} {x} {z} {sizes} wall" + f" turned {angle}" * bool(angle)

    def edit(self):
        """Some lots come, go, move in the list, or change."""
        for _ in range(self.dice.choice([0, 1, 1, 2, 5])):
            at, kind = self.dice.randrange(len(self.lots)), self.dice.choice("come go list place seed comment".split())
            words = self.lots[at].split(" ")
            if kind == "come":
                self.lots.insert(at, self.lot())
            elif kind == "go" and len(self.lots) > 3:
                del self.lots[at]
            elif kind == "list":
                self.lots.insert(self.dice.randrange(len(self.lots)), self.lots.pop(at))
            elif words[0] != "lot":
                continue
            elif kind == "place":
                self.lots[at] = self.lot(words[1])
            elif kind == "seed":
                self.lots[at] = " ".join([*words[:2], str(int(words[2]) + 1), *words[3:]])
            else:
                self.lots.insert(at, self.dice.choice(["", "# a comment", "# lot b 1 0 0 1 1 wall"]))


class Changes(RegionTest):
    def setUp(self):
        super().setUp()
        self.fresh, self.whole_cuts, self.read = self.top / "fresh", 0, []
        patches = [
            patch.object(kept_checks, "YOUNG", -(10**18)),
            patch.object(Printed, "told", self.reading(Printed.told)),
        ]
        for patched in patches:
            patched.start()
            self.addCleanup(patched.stop)
        patched = patch.object(districts, "cut_whole", self.counting(districts.cut_whole))
        patched.start()
        self.addCleanup(patched.stop)

    def counting(self, cut_whole):
        def counted(*given):
            self.whole_cuts += 1
            return cut_whole(*given)

        return counted

    def reading(self, told):
        def read(printed):
            self.read.append(printed.job.name)
            return told(printed)

        return read

    def files(self, folder):
        """The bytes of what a cut writes, by name, and of the scripts of its jobs."""
        found = {
            path.name: path.read_bytes() for path in folder.iterdir() if path.is_file() and path.name not in OTHERS
        }
        names = found["plan.json"].decode()
        jobs = {path.name: path.read_bytes() for path in (folder / "jobs").glob("*.cga") if path.stem in names}
        return {**{name: data.replace(bytes(folder), b"") for name, data in found.items()}, **jobs}

    def cut_from_nothing(self, *words):
        shutil.rmtree(self.fresh, ignore_errors=True)
        self.fresh.mkdir()
        if (self.folder / "found.json").exists():
            shutil.copy(self.folder / "found.json", self.fresh)
        return self.call("cut", self.script, self.fresh, "--program", STAND_IN, *words)

    def check_edits(self, dice, script, head, number, *words):
        """After each edit both cuts say the same and leave the same; the former isn't from nothing."""
        self.write([*head, *script.lots, "print"])
        self.call("cut", self.script, self.folder, "--program", STAND_IN, *words)
        for _ in range(number):
            script.edit()
            self.write([*head, *script.lots, "print"])
            self.whole_cuts = 0
            told = self.call("cut", self.script, self.folder, "--program", STAND_IN, *words)
            self.is_found = (self.folder / "found.json").exists()
            self.assertTrue(self.whole_cuts == 0 or self.is_found, script.lots)
            fresh = self.cut_from_nothing(*words)
            said, others = told[1].split(": ", 1)[1].split(", "), fresh[1].split(": ", 1)[1].split(", ")
            self.assertEqual((said[0], said[2:]), (others[0], others[2:]))
            self.assertEqual(self.files(self.folder), self.files(self.fresh))
            if dice.random() < 0.4:
                self.check_rounds(script, *words)

    def check_rounds(self, script, *words):
        """Runs jobs and checks, by what changed and from nothing, which say the same and leave the same, until both pass."""
        status = 3
        while status == 3:
            self.run_jobs()
            for path in self.jobs("out"):
                shutil.copy2(path, self.fresh / "jobs")
            told, fresh = (self.call("check", folder) for folder in (self.folder, self.fresh))
            status = told[0]
            self.assertEqual(told[0], fresh[0], (told, fresh))
            found = [folder / name for name in ("found.json", "counts") for folder in (self.folder, self.fresh)]
            one, other, *counts = (path.read_bytes() if path.exists() else b"" for path in found)
            self.assertEqual((one, counts[0]), (other, counts[1]))
            self.assertEqual(self.files(self.folder), self.files(self.fresh))
        self.assertEqual(status, 0, told)

    def test_where_no_rule_asks(self):
        for dice in chances(5):
            script = Script(dice, dice.choice([5, 60, 120]), dice.choice([3, 30, 300]))
            self.check_edits(dice, script, RULES, 6, "--lots", str(dice.choice([1, 3, 20])))
            shutil.rmtree(self.folder)

    def test_where_a_rule_asks(self):
        for dice in chances(5, 1):
            script = Script(dice, dice.choice([5, 60, 100]), dice.choice([20, 60, 300]))
            reach = dice.choice(["0", "0", "1", "1/3"])
            self.check_edits(dice, script, asking(), 6, "--lots", str(dice.choice([1, 3, 20])), "--reach", reach)
            shutil.rmtree(self.folder)

    def test_with_rings(self):
        for dice in chances(5, 3):
            script = Script(dice, dice.choice([5, 40, 80]), dice.choice([6, 30, 60]))
            words = "--lots", str(dice.choice([2, 6, 20])), "--rings", str(dice.choice([1, 2]))
            self.check_edits(dice, script, asking(), 6, *words)
            shutil.rmtree(self.folder)

    def test_with_coarser_heads(self):
        (self.top / "coarse.cga").write_text("\n".join(COARSE) + "\n")
        for dice in chances(3, 4):
            script = Script(dice, dice.choice([20, 60]), dice.choice([10, 100, 300]))
            coarse = "--coarser", self.top / "coarse.cga", "2", "--coarser", self.top / "coarse.cga", "5"
            self.check_edits(dice, script, dice.choice([RULES, asking()]), 5, "--lots", "2", *coarse)
            shutil.rmtree(self.folder)

    def test_lots_at_some_angles(self):
        for dice in chances(3, 2):
            script = Script(dice, dice.choice([20, 60]), dice.choice([10, 100]), [0, 0, 30, 45])
            head = dice.choice([RULES, asking()])
            self.check_edits(dice, script, head, 6, "--lots", str(dice.choice([2, 10])))
            shutil.rmtree(self.folder)

    # ---- what isn't as it was

    def again(self, *words):
        self.whole_cuts = 0
        return self.call("cut", self.script, self.folder, "--lots", "2", "--program", STAND_IN, *words)

    def test_what_else_changes_is_cut_from_nothing(self):
        """Rules, attributes, the words, an order of lines that can't be told; and what was refused is refused."""
        lots = [f"lot l{at} 1 {9 * at} 0 1 1 wall" for at in range(9)]
        others = [
            ([*OTHER_RULES, *lots], []),
            ([*RULES, "attr w = 1", *lots], []),
            ([*RULES, " lot a 1 -9 0 1 1 wall", *lots], []),
            ([*RULES, *lots, "bill"], []),
            ([*RULES, *lots], ["--decimals", "3"]),
            ([*RULES, *lots], ["--reach", "2"]),
        ]
        for lines, words in others:
            shutil.rmtree(self.folder, ignore_errors=True)
            self.cut([*RULES, *lots])
            self.write(lines)
            self.assertEqual(self.again(*words)[0], 0)
            self.assertEqual(self.whole_cuts, 1, (lines, words))
            self.cut_from_nothing("--lots", "2", *words)
            self.assertEqual(self.files(self.folder), self.files(self.fresh))
        self.cut([*RULES, *lots])
        for line, told in (
            (lots[3], "stands here twice"),
            ("lot a 1 0 0 1 1", "a lot is written"),
            ("undo", "can't stand"),
        ):
            self.write([*RULES, *lots, line])
            self.assert_refused(self.again(), f"region.cga:{len(RULES) + 10}: ")
            self.assertIn(told, self.again()[2])

    def test_what_is_damaged_is_not_believed(self):
        """A digit of each file that a cut leaves, and of a job's script; each is made again."""
        lots = [f"lot l{at} 1 {9 * at} 0 1 1 wall" for at in range(40)]
        self.cut([*RULES, *lots])
        whole = self.files(self.folder)
        self.write([*RULES, *lots[1:]])
        for name in ["index.json", "plan.json", "plan.lots", "region.cga", self.jobs()[5].name]:
            path = self.folder / ("jobs" if name.endswith(".cga") and name != "region.cga" else ".") / name
            for at in {0, len(whole[name]) // 2, len(whole[name]) - 1}:
                data = bytearray(whole[name])
                data[at] ^= 1
                path.write_bytes(data)
                self.assertEqual(self.again()[0], 0)
                self.assertEqual(self.whole_cuts, 1, (name, at))
                self.cut_from_nothing("--lots", "2")
                self.assertEqual(self.files(self.folder), self.files(self.fresh))
                self.cut([*RULES, *lots])
                self.write([*RULES, *lots[1:]])
        self.again()
        self.assertEqual(self.whole_cuts, 0)

    def test_a_check_reads_what_changed_and_what_that_may_touch(self):
        lots = [f"lot l{at} 1 {20 * at} 0 1 1 wall" for at in range(40)]
        self.cut(asking(*lots))
        self.assertEqual(self.rounds()[1][0], 0)
        lots[7] = "lot l7 30 140 0 1 1 wall"  # it reaches the next one, of another job
        self.write(asking(*lots))
        self.again()
        self.run_jobs()
        self.read.clear()
        self.assertEqual(self.call("check", self.folder)[0], 3)
        self.assertIn(len(set(self.read)), (2, 3))
        self.assertEqual(self.rounds()[1][0], 0)
        self.assert_whole(asking(*lots))

    def test_an_output_that_changed_is_read_again_and_a_damaged_record_is_not_believed(self):
        lots = [f"lot l{at} 1 {20 * at} 0 1 1 wall" for at in range(9)]
        self.cut(asking(*lots))
        told = self.rounds()[1]
        path = self.folder / "checked.json"
        path.write_bytes(path.read_bytes().replace(b'"lots":2', b'"lots":3', 1))
        self.assertEqual(self.call("check", self.folder), told)
        output = self.jobs("out")[0]
        output.write_bytes(output.read_bytes().replace(b"# ok", b"# no", 1))
        self.assert_refused(self.call("check", self.folder), "isn't what its job prints")


if __name__ == "__main__":
    unittest.main()
