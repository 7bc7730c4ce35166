#!/usr/bin/env python3
"""Drives a program through random edits of a street. After each edit the program prints what a fresh run prints that is
given the dumped sources; a refused edit changes nothing, and undo and redo go over the dumps of before. The seeds are
fixed. The last line is 'N passed, M failed'.
"""
import argparse
import random
import re
import subprocess
import sys

from random_street import RULES, drawn_edit

MOST_KEPT = 16
EMPTY = "version 2\ncity\norder breadth\nend\n"
FIRST = "attr h = 1"  # which changes nothing


def run(program, script):
    return subprocess.run(
        program, input=script.encode(), stdout=subprocess.PIPE, check=True, timeout=120
    ).stdout.decode()


MARK = "print no_lot_of_that_name"
MARKED = "# refused NoLot no_lot_of_that_name\n"


def numbers(text):
    """What the line of `stats` says but for the last number."""
    return re.sub(r" expanded \d+\n", "\n", text)


def reports_of(program, script):
    """What is replied to each edit, then the dump, and the reports."""
    lines = [line for edit in script for line in (edit, MARK, "dump", MARK, "print\nfaults\nstats", MARK)]
    parts = run(program, "version 2\n" + RULES + "\n" + MARK + "\n" + "\n".join(lines) + "\n").split(MARKED)[1:]
    return list(zip(parts[0::3], parts[1::3], map(numbers, parts[2::3])))


class Sources:
    """The dump of the sources as they are to be, with those of before and after."""

    def __init__(self, dump):
        self.now, self.past, self.future = dump, [EMPTY], []

    def wanted(self, edit, reply, dump):
        """The dump that is wanted after an edit."""
        if edit in ("undo", "redo"):
            start, to = (self.past, self.future) if edit == "undo" else (self.future, self.past)
            if start:
                to.append(self.now)
                self.now = start.pop()
                return self.now if reply == "# ok\n" else "another reply"
        elif reply == "# ok\n":
            self.past = [*self.past, self.now][-MOST_KEPT:]
            self.now, self.future = dump, []
        return self.now


def faults(program, seed):
    draw = random.Random(seed)
    edits = [drawn_edit(draw) for _ in range(60)]
    found = reports_of(program, [FIRST, *edits])
    sources, before = Sources(found[0][1]), None
    for edit, (reply, dump, reports) in zip([FIRST, *edits], found):
        anew = numbers(run(program, dump + "print\nfaults\nstats\n").removeprefix("# ok\n" * 2))
        if reports != anew:
            yield f"seed {seed}: {edit}: a fresh run reports otherwise"
        if dump != sources.wanted(edit, reply, dump):
            yield f"seed {seed}: {edit}: other sources"
        if reply != "# ok\n" and before is not None and reports != before:
            yield f"seed {seed}: {edit}: refused, and the reports change"
        before = reports


def main(text, faults, scripts):
    """Tells the faults that random scripts show, and how many scripts show none."""
    parser = argparse.ArgumentParser(description=text, formatter_class=argparse.RawDescriptionHelpFormatter)
    parser.add_argument("program", nargs="+", help="the program, and words that it is given")
    parser.add_argument("--scripts", type=int, default=scripts, help=f"how many scripts ({scripts})")
    parser.add_argument("--first", type=int, default=1, help="the first seed (1)")
    words, failed = parser.parse_args(), 0
    for seed in range(words.first, words.first + words.scripts):
        told = list(faults(words.program, seed))
        for fault in told:
            print(fault)
        failed += bool(told)
    print(f"{words.scripts - failed} passed, {failed} failed")
    sys.exit(1 if failed else 0)


if __name__ == "__main__":
    main(__doc__, faults, 8)
