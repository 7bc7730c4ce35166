#!/usr/bin/env python3
"""Random edits of a region that is kept, beside one cga_live of the whole town, edit by edit.

usage: tools/tests/kept_regions.py [--edits N] [--seed N] [KIND ..]      KIND is rows, wall, river or plain; all if none is said
"""
import argparse
import random
import subprocess
import sys
import tempfile
from collections import Counter
from pathlib import Path

TESTS = Path(__file__).resolve().parent
TOP = TESTS.parent.parent
sys.path[:0] = [str(TESTS), str(TESTS.parent)]

from cga_city_lib.program import ready  # noqa: E402

MARK = "print nobody_here"
END = "# refused NoLot nobody_here\n"
ASKS = ' : Scope.occ("noparent") == "none"'
HEAD = """\
version 2
rules
attr high = 4
PRIORITY 1:
1: shop -> S(1r, high, 1r) mass
2: mass -> Comp("sidefaces") { facade }
8: tower -> S(1r, 9, 1r) mass
9: ghost -> S(1r, 5, 1r) T(rand(0, 9, 3), 0, 0) far
10: far -> NIL
11: home -> S(1r, 2, 1r) probe
PRIORITY 2:
3: facade : Scope.occ("noparent") == "none" -> Repeat("X", 2) { window }
4: facade -> party
5: window -> S(1r, 1r, 0.1) I("cube")
6: party -> I("quad")
PRIORITY 3:
12: probe : Scope.occ("noparent") == "none" -> I("cube") T(7, 0, 2) S(6, 1, 2) arm
13: probe -> NIL
PRIORITY 4:
14: arm -> NIL
end
"""
SYMBOLS = ["shop"] * 6 + ["tower"] * 2 + ["ghost", "home", "home"]
RULES = [
    "attr high = 3",
    "attr high = 4",
    "attr high = 9/2",
    "put 2 6: party -> NIL",
    'put 2 6: party -> I("quad")',
    "priority mass 3",
    "priority mass 1",
    "order depth",
    "order breadth",
    "put 1 8: tower -> S(1r, 12, 1r) mass",
    "put 1 8: tower -> nothing",
    "drop 8",
    "attr low = 3",
    "rules\n1: shop -> NIL\nend",
    'put 2 3: facade -> Repeat("X", 2) { window }',
    f'put 2 3: facade{ASKS} -> Repeat("X", 2) {{ window }}',
]


class Talk:
    """A program that replies to lines and tells changes."""

    def __init__(self, *words, stderr=subprocess.DEVNULL):
        self.live = subprocess.Popen(
            list(map(str, words)), stdin=subprocess.PIPE, stdout=subprocess.PIPE, stderr=stderr, text=True
        )

    def ask(self, text):
        """The replies, and what changed: how often each instance came."""
        self.live.stdin.write(f"{text}\n{MARK}\n")
        self.live.stdin.flush()
        replies, changes = [], Counter()
        for line in iter(self.live.stdout.readline, ""):
            if line == END:
                return replies, {line: number for line, number in changes.items() if number}
            if line.startswith("# changed "):
                gone, come = map(int, line.split()[2:])
                for number, by in ((gone, -1), (come, 1)):
                    for _ in range(number):
                        changes[self.live.stdout.readline()[2:]] += by
            else:
                replies.append(line.rstrip("\n"))
        raise AssertionError(f"{text}: it ended with status {self.live.wait()}")

    def close(self):
        self.live.stdin.close()
        self.live.stdout.close()
        return self.live.wait()


class Kind:
    """A region: its lots by their columns, and how it is cut."""

    def __init__(self, columns, rows, words, place, asks=True):
        self.columns, self.rows, self.words, self.place, self.asks = columns, rows, words, place, asks

    def lots(self):
        for at in range(self.columns * self.rows):
            yield f"lot s{at} {at % 1000} {self.ground(at)} shop"

    def ground(self, at):
        return self.place(at % self.columns, at // self.columns)

    def script(self):
        head = HEAD if self.asks else HEAD.replace(ASKS, "")
        return head + "".join(f"{line}\n" for line in self.lots())


def in_rows(column, row):
    """Rows of four with streets between them."""
    return f"{column // 4 * 40 + column % 4 * 8} {row * 25} 8 10"


def in_wall(column, row):
    return f"{column * 8} {row * 10} 8 10"


def along_river(column, row):
    """Two banks of a winding river, with corners in thirds, most of them below 0."""
    bend = (column * column) % 23
    return f"{column * 25 - 500}/3 {3 * row * 17 + bend * 2 - 160}/3 8 {'29/3' if column % 3 else '10'}"


KINDS = {
    "rows": Kind(16, 7, ["--lots", "16"], in_rows),
    "wall": Kind(11, 9, ["--lots", "16", "--rings", "1"], in_wall),
    "river": Kind(32, 4, ["--lots", "16", "--rings", "1"], along_river),
    "plain": Kind(16, 7, ["--lots", "16"], in_rows, asks=False),
}


def edits(kind, dice, number):
    """Lines of edits: most of one lot, some of all, some refused, some back and forth."""
    names = [f"s{at}" for at in range(kind.columns * kind.rows)]
    for at in range(number):
        chance, name = dice.random(), dice.choice(names)
        column, row = dice.randrange(kind.columns), dice.randrange(kind.rows)
        here = kind.ground(int(name[1:]) if name[1:].isdigit() else 0)
        if chance < 0.4:
            yield f"lot {name} {dice.randrange(99)} {here} {dice.choice(SYMBOLS)}"
        elif chance < 0.55:
            yield f"lot {name} 3 {kind.place(column, row)} {dice.choice(SYMBOLS)}"
        elif chance < 0.63:
            yield f"unlot {name}"
        elif chance < 0.72:
            x, z, *sizes = here.split()
            yield f"lot {name} 5 {x} {z} {dice.choice(['7', '9', '17/2', '0'])} {sizes[1]} shop"
        elif chance < 0.84:
            yield dice.choice(["undo", "undo", "redo"])
        elif chance < 0.88:
            yield f"lot new{dice.randrange(20)} 7 {dice.randrange(-60, 400)} {dice.randrange(-60, 300)} 6 7 shop"
        else:
            yield dice.choice(RULES)


class Beside:
    """A kept region of one kind, and one cga_live of the whole town."""

    def __init__(self, name, top):
        self.kind, self.folder, script = KINDS[name], Path(top) / "region", Path(top) / "region.cga"
        script.write_text(self.kind.script())
        cut = [TOP / "tools" / "districts", "cut", script, self.folder, *self.kind.words]
        subprocess.run(cut, check=True, stdout=subprocess.DEVNULL, stderr=subprocess.DEVNULL)
        self.one = Talk(ready(name="cga_live"))
        lines = self.kind.script().split("\n")[2:-1]
        lines.remove("end")
        self.first = self.one.ask("\n".join(["version 2", "city", *lines, "end"]))[1]
        self.begin()

    def begin(self):
        """Another call of the tool."""
        self.kept = Talk(TOP / "tools" / "region", self.folder)
        self.drawn = self.kept.ask("")[1]

    def ask(self, line):
        """What both tell of a line. The first edit of the one process is the region itself, behind which nothing can be undone."""
        told, whole = self.kept.ask(line), self.one.ask(line)
        if told == (["# refused NoUndo"], {}):
            if set(whole[1].values()) - {-1} or self.one.ask("redo")[0] != ["# ok"]:
                raise AssertionError("an undo is refused, and the first edit isn't the last one")
            return told
        if told != whole:
            raise AssertionError(f"{line}: {told[0]}, {len(told[1])} changes, and not {whole[0]}, {len(whole[1])}")
        return told

    def close(self):
        self.kept.close()
        self.one.close()


def compared(name, number, seed, say=lambda *_: None):
    """The edits of one kind, each of which one cga_live and the kept region tell alike, and what both have in the end."""
    with tempfile.TemporaryDirectory() as top:
        beside = Beside(name, top)
        try:
            if beside.drawn != beside.first:
                raise AssertionError("they differ at the beginning")
            for at, line in enumerate(edits(beside.kind, random.Random(seed), number)):
                say(at, line, *beside.ask(line))
            for report in ("dump", "faults", "print", "grammar"):
                beside.ask(report)
        finally:
            beside.close()


def main():
    known = argparse.ArgumentParser(description=__doc__, formatter_class=argparse.RawDescriptionHelpFormatter)
    known.add_argument("--edits", type=int, default=60)
    known.add_argument("--seed", type=int, default=1)
    known.add_argument("kinds", nargs="*", choices=[[], *KINDS], metavar="KIND")
    words = known.parse_args()
    for name in words.kinds or KINDS:
        compared(name, words.edits, words.seed)
        print(f"{name}: {words.edits} edits told alike", flush=True)


if __name__ == "__main__":
    main()
