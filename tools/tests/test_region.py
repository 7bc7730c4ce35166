"""A region that is kept by several processes tells each edit as one process of the whole town does, also where processes are
killed. What parts agree on is compared as the definition says it."""
import os
import random
import signal
import tempfile
import unittest
from itertools import product
from pathlib import Path

from kept_regions import KINDS, TOP, Beside, Talk, compared, edits

from cga_city_lib.agreement import differing
from cga_city_lib.apart import touch
from cga_city_lib.kept_parts import Job, Parts
from cga_city_lib.program import is_here
from cga_city_lib.told_boxes import Told

ARE_HERE = is_here("cga_live") and is_here("cga_hulls")


def children(pid):
    return [int(child) for child in Path(f"/proc/{pid}/task/{pid}/children").read_text().split()]


def disagreeing(parts):
    """The pairs that don't agree, by the definition (AllAgree of cga_region) alone."""
    found = [part for job in parts.jobs for part in job.parts]
    for part, other in product(found, found):
        for x, y in product(part.own, other.own) if part is not other else ():
            boxes = [tell[y].box for tell in (part.told, other.told) if y in tell]
            is_derived = y in part.ring and part.told[y].digest == other.told[y].digest
            if not is_derived and any(touch(part.told[x].box, box) for box in boxes):
                yield x, y


class Agreement(unittest.TestCase):
    def told(self, dice):
        x, z, y = (dice.randrange(30) for _ in range(3))
        return Told(
            (x, x + dice.randrange(6), z, z + dice.randrange(6), y, y + dice.randrange(20)), dice.choice("ab"), 1, 0
        )

    def retell(self, parts, part, dice, some):
        """A run tells of a part, of some of its lots otherwise than before."""
        names = sorted(part.own | part.ring)
        kept = {name: part.told[name] for name in names if name in part.told and dice.random() > some}
        parts.tell(part, {name: kept.get(name) or self.told(dice) for name in names})

    def parts(self, dice):
        parts, names = Parts({}, 1, 0), [f"l{at}" for at in range(24)]
        for at in range(0, 24, 6):
            job, own = Job((at, 0, 4)), names[at : at + 6]
            parts.jobs.append(job)
            self.retell(parts, parts.add(job, own, set(dice.sample(names, 8)) - set(own)), dice, 1)
        return parts

    def changed(self, parts, dice):
        """Some parts are told of again, with other rings; a lot goes over to another part."""
        found = [part for job in parts.jobs for part in job.parts]
        one, other = dice.sample(found, 2)
        name = dice.choice(sorted(one.own))
        parts.set(one, one.job, one.own - {name}, one.ring)
        parts.set(other, other.job, other.own | {name}, other.ring - {name})
        third = dice.choice(found)
        parts.set(third, third.job, third.own, set(dice.sample(sorted(parts.home), 6)) - third.own)
        for part in (one, other, third):
            if part.own:
                self.retell(parts, part, dice, 0.3)

    def test_what_is_compared_behind_an_edit_is_all_that_may_differ(self):
        """Where all agreed before, the pairs that are found are those of the definition."""
        for seed in range(300):
            dice = random.Random(seed)
            parts = self.parts(dice)
            wrong = set(disagreeing(parts))
            self.assertEqual({(lot, other) for _, lot, other in differing(parts)}, wrong)
            parts.keep()
            parts.is_checked = True
            self.changed(parts, dice)
            found = {(lot, other) for _, lot, other in differing(parts)}
            now = set(disagreeing(parts))
            self.assertTrue(found <= now and now - wrong <= found, seed)

    def test_an_edit_that_is_taken_back_leaves_no_trace(self):
        dice = random.Random(5)
        for _ in range(50):
            parts = self.parts(dice)
            parts.keep()
            before = self.state(parts)
            self.changed(parts, dice)
            parts.take_back()
            self.assertEqual(self.state(parts), before)

    def state(self, parts):
        holders = {name: {id(part) for part in found} for name, found in parts.holders.items() if found}
        jobs = [
            sorted((id(part), *map(sorted, (part.own, part.ring, part.told))) for part in job.parts)
            for job in parts.jobs
        ]
        return jobs, {name: id(part) for name, part in parts.home.items()}, holders, dict(parts.boxes.boxes)


@unittest.skipUnless(ARE_HERE, "cga_live or cga_hulls isn't built")
class Kept(unittest.TestCase):
    def beside(self, name):
        top = tempfile.TemporaryDirectory()
        self.addCleanup(top.cleanup)
        beside = Beside(name, top.name)
        self.addCleanup(beside.close)
        return beside

    def test_random_edits_are_told_as_one_process_tells_them(self):
        for name in KINDS:
            compared(name, 60, 3)

    def test_processes_that_are_killed_in_the_midst_of_edits(self):
        """Each dies while an edit is worked, and none of them is lost."""
        beside, dice = self.beside("wall"), random.Random(4)
        for at, line in enumerate(edits(beside.kind, dice, 30)):
            if at % 3 == 0:
                os.kill(dice.choice(children(beside.kept.live.pid)), signal.SIGKILL)
            beside.ask(line)
        beside.ask("dump")

    def test_a_tool_that_is_killed_goes_on_with_what_it_accepted(self):
        beside, dice = self.beside("rows"), random.Random(6)
        for _ in range(3):
            for line in edits(beside.kind, dice, 12):
                beside.ask(line)
            beside.kept.live.kill()
            beside.kept.close()
            with (beside.folder / "edits").open("a") as file:
                file.write("lot s5 1 0 0 8 10 sh")  # as a write that was cut off
            beside.begin()
            for line in ("dump", "undo", "redo"):
                beside.ask(line)

    def test_a_rule_that_one_job_refuses_is_undone_in_all(self):
        beside = self.beside("rows")
        beside.ask("lot s100 1 8 150 8 10 tower")
        self.assertEqual(beside.ask("drop 8"), (["# refused NoSymbol tower"], {}))
        beside.ask("unlot s100")
        self.assertEqual(beside.ask("drop 8")[0], ["# ok"])
        beside.ask("undo")

    def test_of_lots_without_rules_the_first_is_told(self):
        """A lot that came last stands first in its job, or anywhere."""
        beside = self.beside("plain")
        for at, symbol in enumerate(("ghost", "tower", "home", "shop", "tower", "ghost")):
            beside.ask(f"lot s{at} 1 {beside.kind.ground(at)} {symbol}")
        for rules in ("shop", "ghost", "tower"):
            self.assertIn("NoSymbol", beside.ask(f"rules\n1: {rules} -> NIL\nend")[0][0])

    def test_edits_of_another_script_are_refused(self):
        beside = self.beside("plain")
        beside.ask("unlot s3")
        beside.kept.close()
        (beside.folder / "edits").write_text("# edits of nothing\nunlot s3\n")
        kept = Talk(TOP / "tools" / "region", beside.folder)
        self.assertEqual(kept.close(), 1)


if __name__ == "__main__":
    unittest.main()
