"""Jobs that derive lots round their own: the premises of the laws of cga_region, computed on small towns, and whether the
jobs are the town."""
import random
import sys
import unittest
from collections import Counter
from pathlib import Path

TESTS = Path(__file__).resolve().parent
sys.path[:0] = [str(TESTS.parent)]

from definition.apply import whole  # noqa: E402
from definition.jobs import Jobs  # noqa: E402
from definition.told import city_of  # noqa: E402

BUDGET = 10**6
# an arm of a home may reach past the next one, at any of two priorities
ARMS = """attr wide = {wide}
PRIORITY 1:
1: home -> S(1r, 2, 1r) probe T(0, 2, 0) S(1r, 2, 1r) above : 0.5 -> S(1r, 3, 1r) late : 0.5
PRIORITY 2:
2: probe : Scope.occ("noparent") == "none" -> I("cube") T(4, 0, 1) S(wide, 1, 2) arm
3: probe -> arm
4: above : Scope.occ("active") == "none" -> arm
5: above -> I("cube")
PRIORITY 3:
6: late -> probe
PRIORITY 4:
7: arm -> NIL
order {order}
"""


def sources_of(text):
    """Those of a block `city` with these lines."""
    return whole(None, city_of(text.split("\n")))


def ground(lot):
    return lot.x, lot.x + lot.width, lot.z, lot.z + lot.depth


def touch(one, other):
    (a, b, c, d), (e, f, g, h) = ground(one), ground(other)
    return a <= f and e <= b and c <= h and g <= d


def jobs_of(text, most, rings):
    """Lots in their order, so many a job, with those that are at most so many steps away."""
    sources = sources_of(text)
    near = {lot.name: {other.name for other in sources.lots if touch(lot, other)} for lot in sources.lots}
    names = list(near)

    def shares():
        for at in range(0, len(names), most):
            seen = set(names[at : at + most])
            for _ in range(rings):
                seen |= {other for name in seen for other in near[name]}
            own = names[at : at + most]
            yield tuple(own), tuple(name for name in names if name in seen and name not in own)

    return Jobs(sources, BUDGET, shares())


def answers(jobs):
    """Whether what they tell agrees, whether they are settled, whether they see alike, whether they are the town."""
    return (
        jobs.all_are(jobs.agree_on),
        jobs.all_are(jobs.is_settled),
        all(map(jobs.sees_alike, jobs.jobs)),
        jobs.are_the_town(),
    )


def stored(name, lots):
    """The rules of a stored script, and these lots."""
    rules = (TESTS / "districts" / name).read_text().partition("\nrules\n")[2].partition("\nend\n")[0]
    return "\n".join([rules, *lots])


def arms(r):
    lots, x = [], 0
    for number in range(r.randint(4, 7)):
        lots.append(f"lot r{number} {r.randint(1, 99)} {x} {r.choice([0, 0, 1])} {r.choice([4, 5, 6])} 4 home\n")
        x += r.choice([4, 5, 6, 8])
    return ARMS.format(wide=r.choice([1, 2, 3, 9]), order=r.choice(["breadth", "depth"])) + "".join(lots)


class DefinitionJobs(unittest.TestCase):
    def test_shops_that_ask_for_their_next_neighbours(self):
        row = stored("row_of_shops.cga", (f"lot s{at} {at} {8 * at} 0 8 10 shop" for at in range(6)))
        self.assertEqual(answers(jobs_of(row, 2, 2)), (True, True, True, True))
        self.assertEqual(answers(jobs_of(row, 2, 0)), (False, False, False, False), "each sees what wasn't derived")

    def test_a_seen_lot_may_be_unlike_where_nothing_of_it_is_seen(self):
        """With one ring the neighbours have lost their own neighbours, but not the sides that are seen."""
        row = stored("row_of_shops.cga", (f"lot s{at} {at} {8 * at} 0 8 10 shop" for at in range(6)))
        self.assertEqual(answers(jobs_of(row, 2, 1)), (False, False, True, True))

    def test_dominoes_do_not_agree_with_any_ring(self):
        row = stored("domino.cga", (f"lot d{at} 1 {10 * at} 0 10 8 home" for at in range(9)))
        for rings in range(4):
            self.assertEqual(answers(jobs_of(row, 3, rings)), (False, False, False, False))

    def test_jobs_that_agree_are_settled_then_see_alike_and_then_are_the_town(self):
        found = Counter()
        for number in range(40):
            r = random.Random(number)
            found[answers(jobs_of(arms(r), r.choice([1, 2, 3]), r.choice([0, 1, 1, 2])))] += 1
        for row in found:
            self.assertEqual(sorted(row), list(row), "each premise says the next")
        self.assertGreater(found[(True, True, True, True)], 9)
        self.assertGreater(found[(False, False, False, False)], 9)


if __name__ == "__main__":
    unittest.main()
