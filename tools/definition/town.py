"""The script of the town."""
HEAD = """quiet
rules
attr storey = 3
attr bay = 2.5
PRIORITY 1:
1: lot -> S(1r, 3 * storey, 1r) mass T(0, 3 * storey, 0) S(1r, 2, 1r) roof
2: mass -> Comp("sidefaces") { facade }
PRIORITY 2:
3: roof -> I("hip") : 0.5 -> I("gable") : 0.5
4: facade -> Repeat("Y", storey) { level }
5: level -> Repeat("X", bay) { tile }
6: tile : Scope.occ("noparent") == "none" -> Subdiv("X", 1r, 1, 1r) { wall | window | wall }
7: tile -> wall
8: window -> S(1r, 1r, 0.25) I("cube")
9: wall -> I("quad")
end
"""
TAIL = """stats
put 2 8: window -> S(1r, 1r, 0.5) I("cube")
stats
lot t0 7 0 0 12 9 lot
stats
faults
"""


def lot_line(k):
    return f"lot t{k} {1000 + k} {14 * (k % 20)} {12 * (k // 20)} {10 + k % 3} {8 + k % 2} lot\n"


def town_text(n):
    return HEAD + "".join(lot_line(k) for k in range(n)) + TAIL
