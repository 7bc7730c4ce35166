"""A street whose rules ask of each other's shapes, and random edits of it."""
import random

RULES = """rules
attr h = 1
attr w = 2
PRIORITY 1:
1: early -> S(1r, 6, 1r) mass
8: la -> [ S(1r, h, 1r) base ] T(0, 4, 0) S(1r, 1, 1r) top
9: lb -> T(0, 2, 0) S(1r, 1, 1r) mid
16: eyes -> [ S(1r, 4, 1r) eye ] T(0, 0, 2) S(1r, 5, 1r) mass
21: fence -> Repeat("X", 0.5) { post }
PRIORITY 2:
2: mass -> Comp("face", "front") { facade } Comp("sidefaces") { side }
10: base -> I("cube")
PRIORITY 3:
3: facade -> Subdiv("X", 1r, w, 1r) { NIL | window | NIL }
11: mid : Scope.occ("noparent") == "none" -> I("cube")
12: mid -> S(1r, 3, 1r) bulk
17: eye : Scope.occ("active") == "none" -> I("cube")
18: eye : Scope.occ("active") == "part" -> S(1r, 2, 1r) roof
19: eye -> NIL
25: side -> Repeat("X", 7/3) { pane }
26: pane : Scope.occ("noparent") == "none" -> I("quad")
27: pane -> NIL
PRIORITY 4:
4: window : Scope.occ("noparent") == "none" -> I("quad")
5: window : Scope.occ("noparent") == "full" -> NIL
6: window -> S(1r, 1r, 0.5) I("cube")
13: bulk -> I("shed")
22: post : Scope.occ("noparent") == "none" -> S(1r, h, 1r) rail
23: post -> S(1r, h * 2, 1r) rail
24: rail -> T(0, 0, w) S(1r, 1r, w) I("cube")
PRIORITY 5:
14: top : Scope.occ("noparent") == "none" -> I("cube")
15: top -> NIL
PRIORITY 6:
20: roof -> I("hip") : 0.5 -> I("gable") : 0.5
PRIORITY 9:
7: late -> S(1r, 6, 1r) mass
end"""
SYMBOLS = ["early", "late", "la", "lb", "eyes", "fence"]
PUTS = [
    'put 4 5: window : Scope.occ("noparent") == "full" -> S(1r, 1r, 2) I("cube")',
    'put 4 5: window : Scope.occ("noparent") == "full" -> NIL',
    'put 5 15: top -> S(1r, 2, 1r) I("cube")',
    'put 4 6: window -> S(1r, 1r, 0.5) I("cube")',
    "put 1 9: lb -> T(0, 2, 0) S(1r, h, 1r) mid",
    "put 1 9: lb -> T(0, 2, 0) S(1r, 1 / (h - 2), 1r) mid",
    "put 3 3: facade -> facade2",
    "drop 6",
]


def drawn_edit(draw: random.Random) -> str:
    """An edit: mostly of a lot, else of what all lots share."""
    lot, kind = draw.choice("abcde"), draw.randrange(20)
    if kind < 8:
        place = f"{draw.randrange(-2, 9)} {draw.randrange(-4, 9)}/{draw.choice((1, 2, 3))}"
        size = f"{draw.choice((10, 10, 14, 0))} {draw.choice((8, 10))}"
        return f"lot {lot} {draw.randrange(7)} {place} {size} {draw.choice(SYMBOLS)}"
    if kind < 10:
        return f"unlot {lot}"
    if kind < 12:
        return f"priority {draw.choice(('late', 'window', 'mid', 'top', 'eye', 'none'))} {draw.randrange(10)}"
    if kind < 14:
        return f"attr {draw.choice('hw')} = {draw.choice(('1', '5/2', '2', '12'))}"
    if kind < 16:
        return draw.choice(PUTS)
    if kind == 16:
        return f"order {draw.choice(('breadth', 'depth'))}"
    return draw.choice(("undo", "redo"))
