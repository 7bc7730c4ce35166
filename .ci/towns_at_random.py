#!/usr/bin/env python3
"""Drives a program through random edits of towns of 250 to 4,000 lots. Three times in each script the town that is kept prints
what a fresh run prints that is given the dumped sources. The seeds are fixed. The last line is 'N passed, M failed'.
"""
import random
import sys
from pathlib import Path

sys.path.append(str(Path(__file__).resolve().parent.parent / "bench"))

from edits_at_random import MARK, MARKED, main, numbers, run  # noqa: E402
from works import lot, small_town, town  # noqa: E402

PARTS, EDITS = 3, 8  # so often a town is compared, and so many edits come before each time
RULES = [
    'put 2 8: window -> S(1r, 1r, 0.5) I("cube")',
    'put 2 8: window -> S(1r, 1r, 0.25) I("cube")',
    'put 2 9: wall -> I("cube")',
    'put 2 9: wall -> I("quad")',
]
REPORTS = "print\nfaults\nstats\n"


def drawn_edit(draw, lots, size):
    """An edit: mostly of a lot, else of what all lots share."""
    place, kind = draw.randrange(lots), draw.randrange(20)
    if kind < 12:
        return lot(place, draw.randrange(50), size).strip()
    if kind < 14:
        return f"unlot t{place}"
    if kind == 14:
        return f"attr bay = {draw.choice(('2', '2.5', '3'))}"
    if kind == 15:
        return f"attr storey = {draw.choice(('2', '3', '3.5'))}"
    if kind == 16:
        return f"priority {draw.choice(('wall', 'window', 'tile', 'roof'))} {draw.randrange(1, 6)}"
    if kind == 17:
        return draw.choice(RULES)
    if kind == 18:
        return f"order {draw.choice(('breadth', 'depth'))}"
    return draw.choice(("undo", "redo"))


def drawn_town(draw, seed):
    """The script of a town, how many lots it has, and how large they are: every third town has thousands of small lots."""
    if seed % 3 == 0:
        lots = draw.choice((1000, 2000, 3000, 4000))
        return small_town(lots), lots, 5
    lots = draw.randrange(250, 601)
    return town(lots), lots, 10


def faults(program, seed):
    draw = random.Random(seed)
    begun, lots, size = drawn_town(draw, seed)
    script = begun.replace("quiet\n", "")
    for _ in range(PARTS):
        edits = [drawn_edit(draw, lots, size) for _ in range(EDITS)]
        script += "\n".join([*edits, MARK, "dump", MARK, REPORTS + MARK, ""])
    parts = run(program, script).split(MARKED)
    for part, (dump, reports) in enumerate(zip(parts[1::3], parts[2::3]), 1):
        anew = run(program, dump + REPORTS).removeprefix("# ok\n" * 2)
        if numbers(reports) != numbers(anew):
            yield f"seed {seed}: {lots} lots, part {part}: a fresh run reports otherwise"


if __name__ == "__main__":
    main(__doc__, faults, 60)
