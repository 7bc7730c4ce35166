#!/usr/bin/env python3
"""Random scripts of edits for cga_live: after each line the town that is kept by what was told is the one that a fresh run
of the same sources tells from nothing, instance by instance; at the end a `print` draws it; and the replies alone are those
of cga_city.
"""
import argparse
import random
import subprocess
import sys

from live_town import Town, Wrong, drawn_of, printed
from random_street import RULES, drawn_edit

OTHERS = [  # lines that are no edit, or that are refused
    "drop 60",
    "nonsense",
    "stats",
    "bill",
    "faults",
    "",
    "# a comment",
    "quiet",
    "dress mid none",
    "trace",
    "judge\nx\nend",
    "version 2",
    "print a",
]
MARK, MARKED = "print no_such_lot", "# refused NoLot no_such_lot"


def drawn_line(draw):
    """One line or block: mostly an edit, else a line that changes nothing, or the rules again."""
    kind = draw.randrange(24)
    if kind < 2:
        return draw.choice(OTHERS)
    return RULES if kind == 2 else drawn_edit(draw)


def run(program, script):
    done = subprocess.run([program], input=script.encode(), stdout=subprocess.PIPE, check=True, timeout=300)
    return done.stdout.decode().splitlines()


class Sources:
    """What a fresh run is given: in version 2 the dump, in version 1 the rules and the accepted lots."""

    def __init__(self, second):
        self.asks, self.lots = ("dump" if second else "grammar"), {}

    def after(self, line, reply, told):
        """The fresh script after a line, by its reply and the dump or the rules that were told then."""
        if self.asks == "dump":
            return told
        words = line.split()
        if reply[:1] != ["# refused"] and words[:1] == ["lot"]:
            self.lots[words[1]] = line
        elif reply[:1] != ["# refused"] and words[:1] == ["unlot"]:
            self.lots.pop(words[1], None)
        return told + list(self.lots.values())


def parts(lines):
    """The lines in pieces that end before a mark."""
    piece = []
    for line in lines:
        if line == MARKED:
            yield piece
            piece = []
        else:
            piece.append(line)


def told_anew(program, fresh, known):
    """The instances that a fresh run tells of these sources, from nothing."""
    script = "\n".join(fresh) + "\n"
    if script not in known:
        town = Town()
        if any(line.startswith("# refused") for line in town.take(run(program, script))):
            raise Wrong("the sources are refused")
        known[script] = town.drawn
    return known[script]


def check(program, plain, seed, lines):
    """How many lines were checked, and how many instances went or came."""
    draw = random.Random(seed)
    second = draw.randrange(4) > 0
    first = draw.choice(("", "\n# a comment\n")) + "version 2" * second
    edits = [first, RULES] + [drawn_line(draw) for _ in range(lines)]
    sources, town, known = Sources(second), Town(), {}
    script = "".join(f"{line}\n{MARK}\n{sources.asks}\n{MARK}\n" for line in edits) + f"print\n{MARK}\n"
    told = parts(town.take(run(program, script)))
    for line in edits:
        before, kept = town.told, dict(town.drawn)
        reply, asked = next(told), next(told)
        refused = [words[:9] for words in reply[:1]] == ["# refused"]
        if refused and (town.told != before or dict(town.drawn) != kept):
            raise Wrong(f"{line!r} is refused, and tells")
        fresh = sources.after(line, ["# refused"] if refused else reply, asked)
        if town.drawn != told_anew(program, fresh, known):
            raise Wrong(f"after {line!r} a fresh run tells another town")
    if printed(next(told)) != drawn_of(town):
        raise Wrong("a print draws another town")
    if list(Town().take(run(program, script))) != run(plain, script):
        raise Wrong("the replies differ from those of cga_city")
    return len(edits), town.told


def main():
    parser = argparse.ArgumentParser(description=__doc__)
    parser.add_argument("program", help="cga_live")
    parser.add_argument("plain", help="cga_city, whose replies are to be the same")
    parser.add_argument("--scripts", type=int, default=30, help="how many scripts (30)")
    parser.add_argument("--lines", type=int, default=20, help="lines of each after the rules (20)")
    parser.add_argument("--first", type=int, default=1, help="the first seed (1)")
    words = parser.parse_args()
    failed = lines = told = 0
    for seed in range(words.first, words.first + words.scripts):
        if sys.stderr.isatty():
            print(f"\r{seed - words.first} of {words.scripts}", end="", file=sys.stderr, flush=True)
        try:
            count, moved = check(words.program, words.plain, seed, words.lines)
            lines, told = lines + count, told + moved
        except Wrong as fault:
            failed += 1
            print(f"seed {seed}: {fault}")
    print(f"{words.scripts - failed} passed, {failed} failed; {lines} lines, {told} instances went or came")
    return 1 if failed else 0


if __name__ == "__main__":
    sys.exit(main())
