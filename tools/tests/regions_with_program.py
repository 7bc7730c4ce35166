#!/usr/bin/env python3
"""Regions by the programs themselves: what jobs print is joined to the bytes that one run prints.

usage: tools/tests/regions_with_program.py [--program PATH]      of cga_hulls; without it where rules ask only if it is built
"""
import random
import sys
from pathlib import Path

TESTS = Path(__file__).resolve().parent
TOP = TESTS.parent.parent
sys.path[:0] = [str(TESTS), str(TESTS.parent)]

from cga_city_lib.program import ready, take_program  # noqa: E402
from cga_city_lib.script import lines_of  # noqa: E402
from regions import RegionTest, value  # noqa: E402

BOXES = [
    "version 2",
    "rules",
    '1: box -> S(1r, rand(2, 9, 7), 1r) I("cube")',
    '2: pair -> Subdiv("X", 3, 1r) { box | box }',
    "end",
]
ASKING = sorted((TESTS / "districts").glob("*.cga"))
RANDOM = 30


def rules(path):
    lines = lines_of(path.read_bytes())
    return ["version 2", "rules", *lines[lines.index("rules") + 1 : lines.index("end")], "end"]


def houses():
    """The rules of an example in a block, and houses at random, one in the other, some too narrow for their doors."""
    dice, lines = random.Random(7), rules(TOP / "examples" / "gable_house.cga")
    grounds = [[dice.randint(*ends) for ends in ((-9, 40), (0, 40), (1, 14), (1, 12))] for _ in range(60)]
    lots = [f"lot h{seed} {seed} {' '.join(map(str, ground))} house" for seed, ground in enumerate(grounds)]
    return ["version 2", "city", "order depth", *lines[2:-1], *lots, "end"]


def boxes(number):
    return [
        *BOXES,
        *(f"lot b{k} {k} {k % 40 * 9} {k // 40 * 9} {2 + k % 6} 8 {('box', 'pair')[k % 2]}" for k in range(number)),
    ]


def shops(lots):
    return [*rules(TESTS / "districts" / "row_of_shops.cga"), *lots]


def streets():
    """Rows of shops wall to wall, each shop looking for its neighbours, with streets between the rows."""
    return shops(f"lot s{k} {k} {k % 4 * 8} {k // 4 * 25} 8 10 shop" for k in range(60))


def wall(side, along="8", deep="10"):
    """A square of shops that touch on all sides."""
    return shops(f"lot w{k} {k} {k % side * 8} {k // side * 10} {along} {deep} shop" for k in range(side * side))


def anywhere(seed):
    """Shops with corners anywhere; of some regions no rule asks."""
    chance = random.Random(seed)
    lines = shops(
        f"lot r{k} {k} {value(chance, 60)} {value(chance, 60)} 8 {chance.choice(['10', '7/3', '6.5'])} shop"
        for k in range(25)
    )
    return lines if seed % 3 else [line.replace(' : Scope.occ("noparent") == "none"', "") for line in lines]


class WithProgram(RegionTest):
    """The steps of the other tests, by a program that is called."""

    def region(self, program, lines, lots, *words, said=()):
        """What was said to the program is said to `cut`, too."""
        self.setUp()
        try:
            status, _, told = self.cut(lines, lots, *words, *said, program=program)
            self.assertEqual(status, 0, told)
            number, answer = self.rounds(30, program, *said)
            self.assertEqual(answer[0], 0, answer)
            self.assert_whole(lines, program, *said)
            return number
        finally:
            self.doCleanups()


def main(words):
    program, named = take_program(words)[0], "--program" in words
    hulls = program if named else ready(name="cga_hulls")
    test, number = WithProgram(), 0
    for lines, sizes in [(houses(), (60, 9)), (boxes(400), (100,))]:
        for lots in sizes:
            number += test.region(hulls, lines, lots)
    asking = [
        [line for line in lines_of(script.read_bytes()) if line not in ("print", "faults", "stats")]
        for script in ASKING
    ]
    for lines in [*asking, streets()]:
        for lots in (1, 7):
            test.region(hulls, lines, lots)
    test.region(hulls, streets(), 7, said=("--decimals", "3"))
    for seed in range(RANDOM):
        test.region(hulls, anywhere(seed), 7, *(["--rings", "1"] if seed % 4 == 1 else []))
    test.assertEqual(test.region(hulls, wall(30), 100, "--rings", "2"), 1, "a wall passes at once with two rings")
    test.assertGreater(test.region(hulls, wall(12), 36, "--rings", "1"), 1, "and not with one")
    dominoes = [
        line
        for line in lines_of((TESTS / "districts" / "row_of_dominoes.cga").read_bytes())
        if line not in ("print", "stats")
    ]
    for rings in ("1", "3", "9"):
        test.assertGreater(test.region(hulls, dominoes, 4, "--rings", rings), 2, "dominoes don't settle")
    print(
        f"regions are in jobs what they are in one run: {2 + len(asking) + 2 + RANDOM + 3} of them, {RANDOM} at random"
    )


if __name__ == "__main__":
    main(sys.argv[1:])
