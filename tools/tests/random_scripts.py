"""Random scripts: edits and reports of both versions, many of them faulty, from pieces of real ones.

usage: tools/tests/random_scripts.py FOLDER NUMBER [SEED]     writes FOLDER/r000.cga and so on
"""
import random
import sys
from pathlib import Path

RULES = """1: lot -> S(1r, 3 * storey, 1r) mass T(0, 3 * storey, 0) S(1r, 2, 1r) roof
2: mass -> Comp("sidefaces") { facade } Comp("face", "top") { ledge }
3: roof -> I("hip") : 0.5 -> I("gable") : 0.5
4: facade -> Repeat("Y", storey) { level(Scope.sx) }
5: level(w) : w > 2 * bay -> Repeat("X", bay) { tile }
6: level(w) -> tile
7: tile : Scope.occ("noparent") == "none" -> Subdiv("X", 1r, 1, 1r) { wall | window | wall }
8: tile -> wall
9: wall -> I("quad")
10: window -> S(1r, 1r, rand(0, 0.5, 4)) I("cube")
11: ledge -> T(-0.2, -0.2, 0) S(Scope.sx + 0.4, Scope.sy + 0.4, 0.3) I("cube")
12: tower(n) : n > 0 -> wall [ T(0, 2, 0) S(1r, 1r, 1r) tower(n - 1) ]
13: tower(n) -> Subdiv("Z", 2, 1r, 2) { NIL | roof | NIL }""".split(
    "\n"
)
LINES = """put 1 20: shed -> I("shed")
put 2 9: wall -> S(1r, 1r, 0.1) I("cube")
put 1 7: tile -> Subdiv("X", 3, 1r, 3) { wall | window | wall }
put 1 1: house -> S('1, 6, '1) I("cube")
put 1 1: house -> S(1r, 6, 1r) floor
put 1 3: roof -> Ry(45) I("gable")
put 1 3: roof -> I("roof.obj")
put 1 21: a : Scope.sx > 1 && Scope.sz > 1 -> NIL
put 1 21: a -> A else -> B
put 1 22: grow -> grow grow
put 1 8: tile -> I("cube") S(1r, 0 - 1, 1r) wall
put 3 8: tile -> wall
put 1 10: window -> S(1r, 1r, 1/0) I("cube")
drop 8
drop 99
attr storey = 4
attr storey = 5/2
attr floors = 3
attr bay = 1.5/2
priority wall 3
priority nowhere 3
lot a 1 0 0 10 8 lot
lot b 2 10 0 7 10 lot
lot c 3 30 0 0 8 lot
lot d 4 40 0 6 6 nothing
lot e 5 50 0 1 1 lot
lot f 6 60.5 -1/3 3 12 lot
unlot a
unlot nobody
quiet
print
print a
print nobody
faults
grammar
stats
order depth
order breadth
undo
undo
redo
dump
model
bill
trace
dress wall box
undress wall
end
rules x
# a comment

	 # another
\xe9t\xe9
lot g 7 70 0 9 9 lot\r
print\r\r
version 2
""".split(
    "\n"
)[
    :-1
]
SOUP = [
    "(",
    ")",
    "[",
    "{",
    "|",
    "->",
    ":",
    "1r",
    "0.5",
    "wall",
    "Scope.sx",
    '"cube"',
    '"x',
    "floor",
    "#",
    ",",
    "~",
    ";",
    "999999",
]


def spoiled(line, chance):
    words = line.split(" ")
    at = chance.randrange(len(words))
    kind = chance.randrange(3)
    words[at : at + (kind != 0)] = [] if kind == 1 else [chance.choice(SOUP)]
    return " ".join(words)


def block(chance, word):
    rules = RULES if chance.random() < 0.8 else chance.sample(RULES, len(RULES) - 1)
    lines = ["attr storey = 3", "attr bay = 2.5", *rules]
    if word == "city":
        lines += [line for line in LINES if line.startswith(("lot ", "order "))][: chance.randrange(9)]
    if chance.random() < 0.3:
        at = chance.randrange(len(lines))
        lines[at] = spoiled(lines[at], chance)
    if word == "asset box":
        lines = ["v 0 0 0", "v 1 0 0", "v 0 1 0", "f 1 2 3"] + ["f 1 2 9"] * (chance.random() < 0.3)
    return [word, *lines] + ["end"] * (chance.random() < 0.93)


def script(seed):
    chance = random.Random(seed)
    is_second = chance.random() < 0.6
    lines = ["version 2"] * is_second + block(chance, "rules")
    for _ in range(chance.randrange(4, 22)):
        luck = chance.random()
        if luck < 0.08:
            lines += block(
                chance, chance.choice(["rules", "city", "asset box", "judge"] if is_second else ["rules", "city"])
            )
        else:
            line = chance.choice(LINES)
            lines.append(spoiled(line, chance) if luck < 0.2 else line)
    return "\n".join(lines).encode("latin-1") + b"\n" * (chance.random() < 0.9)


def main(words):
    if len(words) not in (2, 3) or not all(word.isdigit() for word in words[1:]):
        sys.stderr.write(__doc__)
        return 2
    folder, number, seed = Path(words[0]), int(words[1]), int((words + ["1"])[2])
    folder.mkdir(parents=True, exist_ok=True)
    for k in range(number):
        (folder / f"r{k:03}.cga").write_bytes(script(1000 * seed + k))
    return 0


if __name__ == "__main__":
    sys.exit(main(sys.argv[1:]))
