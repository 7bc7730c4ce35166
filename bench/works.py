"""The scripts that bench/speed.py times: for each kind of work what comes before it, and the lines that do it again and again."""
from collections import namedtuple

RULES = """attr storey = 3
attr bay = 2.5
PRIORITY 1:
1: lot -> S(1r, {floors} * storey, 1r) mass T(0, {floors} * storey, 0) S(1r, 2, 1r) roof
2: mass -> Comp("sidefaces") {{ facade }}
PRIORITY 2:
3: roof -> I("hip") : 0.5 -> I("gable") : 0.5
4: facade -> Repeat("Y", storey) {{ level }}
5: level -> Repeat("X", bay) {{ tile }}
6: tile : Scope.occ("noparent") == "none" -> Subdiv("X", 1r, 1, 1r) {{ wall | window | wall }}
7: tile -> wall
8: window -> S(1r, 1r, 0.25) I("cube")
9: wall -> I("quad")
"""
BOX = """asset box
v 0 0 0
v 1 0 0
v 1 1 0
v 0 1 0
v 0.5 0.5 1
f 1 2 5
f 2 3 5
f 3 4 5
f 4 1 5
f 4 3 2 1
end
dress window box
"""
TIMES = 100

# a line may be a long text, and one that comes from a program is a function of how it replies
Work = namedtuple("Work", "kind told before lines")
LINE, EDIT, REPORT = "line", "edit", "report"


def lot(place, change=0, size=10):
    """The line of a lot in rows of twenty, 14 apart, or another one in its place."""
    sizes = f"{size + (place + change) % 3} {size - 2 + (place + change) % 2}"
    return f"lot t{place} {1000 + place + 5000 * change} {14 * (place % 20)} {14 * (place // 20)} {sizes} lot\n"


def city(lines):
    return "version 2\nquiet\ncity\n" + lines + "end\n"


def town(lots):
    return city(RULES.format(floors=3) + "".join(map(lot, range(lots))))


def small_town(lots):
    """Houses of one floor, so that many are within the budget."""
    return city(RULES.format(floors=1) + "".join(lot(place, 0, 5) for place in range(lots)))


def edits(lots, size=10):
    return [lot(37 * number % lots, 1 + number, size) for number in range(TIMES)]


def by_turns(*lines):
    return list(lines) * 2


def many_rules(rules, shapes):
    """Shapes of one symbol, each of whose rules but the last is tried in vain."""
    tried = "".join(f'{number + 2}: leaf : Scope.sx == {number + 1000} -> I("quad")\n' for number in range(rules))
    return city(f'1: row -> Repeat("X", 1) {{ leaf }}\n{tried}{rules + 2}: leaf -> NIL\nlot a 1 0 0 {shapes} 10 row\n')


def idle_rules(lots, rules):
    """A town in whose grammar there are so many rules of symbols that no shape has."""
    idle = "".join(f"{10 + number}: idle{number} -> NIL\n" for number in range(rules))
    return city(RULES.format(floors=3) + idle + "".join(map(lot, range(lots))))


def large_grammar():
    """512 rules and 128 attributes. A lot has a shape for each rule, and one shape mentions the first attribute."""
    attributes = "".join(f"attr a{number} = 1\n" for number in range(128))
    row = "".join(f" s{number}" for number in range(2, 513))
    rules = "".join(f'{number}: s{number} -> S(1r, a{number % 127 + 1}, 1r) I("cube")\n' for number in range(3, 513))
    return city(f'{attributes}1: row ->{row}\n2: s2 -> S(1r, a0, 1r) I("cube")\n{rules}lot a 1 0 0 10 10 row\n')


def long_rules():
    """512 rules of four thousand bytes each, and sixteen edits, before each of which the sources are noted."""
    rules = "".join(f"{number}: s{number} -> {'T(1,0,0) ' * 450}\n" for number in range(1, 513))
    return city(f"attr h = 1\n{rules}lot a 1 0 0 10 10 s1\n") + "".join(f"attr h = {value}\n" for value in range(2, 18))


def ladder(levels):
    """On each level four thousand leaves, and the next one."""
    rules = '1: a : Scope.sz > 1 -> S(1r, h, Scope.sz - 1) Repeat("X", 1) { leaf } a\n2: a -> NIL\n3: leaf -> NIL\n'
    return city(f"attr h = 2\n{rules}lot l 1 0 0 4000 {levels + 1} a\n")


def wide(lots):
    """A lot is a row of four thousand leaves."""
    rules = '1: a -> Repeat("X", 1) { leaf }\n2: leaf -> S(1r, h, 1r) I("cube")\n'
    rows = "".join(f"lot l{number} 1 0 {20 * number} 4000 10 a\n" for number in range(lots))
    return city(f"attr h = 2\n{rules}{rows}")


def wide_asked(lots):
    """Lots side by side, each a row of four thousand leaves and one more child, which asks."""
    rules = """1: row -> Repeat("X", 1) { leaf } asker
2: leaf -> S(1r, h, 1r) I("cube")
3: asker : Scope.occ("noparent") == "none" -> I("cube")
4: asker -> NIL
"""
    rows = "".join(f"lot l{number} 1 0 {20 * number} 4000 10 row\n" for number in range(lots))
    return city(f"attr h = 2\n{rules}{rows}")


def doubled(order):
    """Shapes that double until the budget is spent."""
    rules = '1: a : Scope.sx > 0.005 -> Subdiv("X", 1r, 1r) { a | a }\n2: a -> NIL\n'
    return city(f"order {order}\n{rules}lot l 1 0 0 1024 10 a\n")


def chains():
    """Two chains of depth 256 that ask, one of which comes near the other."""
    rules = '1: c : Scope.occ("noparent") == "none" -> S(1r, 1, 1r) c\n2: c -> S(1r, 1, 1r) c\n'
    return city(f"{rules}lot a 1 0 0 10 10 c\nlot b 1 20 0 10 10 c\n") + "lot b 1 5 0 10 10 c\n"


def links(depth, priority):
    """Four lots over each other, each a chain of links with six shapes that ask, below a start symbol of this priority."""
    asks = "ask " * 6
    rules = f"""PRIORITY {priority}:
1: start -> S(1r, h, 1r) link
PRIORITY 1:
2: link : Scope.sx > 1 -> {asks}S(Scope.sx - 1, 1r, 1r) link
3: link -> NIL
PRIORITY 0:
4: ask : Scope.occ("active") == "none" -> I("cube")
5: ask -> NIL
"""
    lots = "".join(f"lot l{place} 1 {place} 0 {depth + 1} 10 start\n" for place in range(4))
    return city(f"attr h = 1\n{rules}{lots}")


def judged(lots):
    """A block that is to be judged: the trace of a town, as a program writes it."""

    def block(reply):
        replies = reply(town(lots) + "trace\n")
        return "judge\n" + replies[replies.index("# trace") :] + "end\n"

    return block


def names(lots):
    """More lots than a city takes, each of a name of its own."""
    return city("1: a -> NIL\n" + "".join(f"lot n{number} 1 0 0 1 1 a\n" for number in range(lots)))


def towns():
    for lots in (20, 100, 200, 1000):
        yield Work(LINE, f"{lots:,} lots from nothing", "", [town(lots)])
    yield Work(LINE, "4,000 small lots from nothing", "", [small_town(4000)])
    for lots in (20, 100, 200, 1000):
        yield Work(EDIT, f"one lot's edit, {lots:,} lots", town(lots), edits(lots))
    yield Work(EDIT, "one lot's edit, 4,000 small lots", small_town(4000), edits(4000, 5))
    yield Work(EDIT, "an edit that changes nothing, 4,000 small lots", small_town(4000), [lot(7, 0, 5)] * TIMES)
    yield Work(
        EDIT, "an attribute that all mention, 200 lots", town(200), by_turns("attr bay = 2\n", "attr bay = 2.5\n")
    )
    windows = [f'put 2 8: window -> S(1r, 1r, {depth}) I("cube")\n' for depth in ("0.5", "0.25")]
    yield Work(EDIT, "a rule of all windows, 200 lots", town(200), by_turns(*windows))
    yield Work(EDIT, "a priority of all walls, 200 lots", town(200), by_turns("priority wall 3\n", "priority wall 2\n"))


def grammars():
    for shapes in (200, 2000):
        yield Work(LINE, f"{shapes:,} shapes of a symbol with 500 rules", "", [many_rules(500, shapes)])
    yield Work(LINE, "100 lots from nothing, and 490 rules of other symbols", "", [idle_rules(100, 490)])
    yield Work(EDIT, "one lot's edit, 100 lots, and 490 rules of other symbols", idle_rules(100, 490), edits(100))
    values = [f"attr a0 = {value}\n" for value in (2, 1)] * 10
    yield Work(EDIT, "an attribute of one shape, 512 rules, 128 attributes", large_grammar(), values)
    yield Work(LINE, "16 former sources of 2 MB of rules", "", [long_rules()])
    yield Work(EDIT, "an attribute of a ladder of 24 levels, 4,000 leaves on each", ladder(24), ["attr h = 3\n"])
    yield Work(EDIT, "an attribute that shrinks 24 rows of 4,000 leaves", wide(24), ["attr h = 1\n"])
    yield Work(EDIT, "an attribute of 4 rows of 4,000 leaves and one child that asks", wide_asked(4), ["attr h = 3\n"])
    for order in ("breadth", "depth"):
        yield Work(LINE, f"doubled up to the budget, {order}", "", [doubled(order)])
    yield Work(LINE, "two chains of depth 256 that ask", "", [chains()])
    for priority in (0, 2):
        yield Work(LINE, f"four chains of 64 links, below a priority of {priority}", "", [links(64, priority)])
    yield Work(EDIT, "an attribute of these chains", links(64, 2), by_turns("attr h = 2\n", "attr h = 1\n"))


def texts():
    for lots in (20_000, 80_000):
        yield Work(LINE, f"a block of {lots:,} names", "", [names(lots)])
    for lots in (12, 50, 200):
        yield Work(LINE, f"a judged trace, {lots} lots", town(lots), [judged(lots)])
    yield Work(LINE, "stats, 100 lots", town(100), ["stats\n"] * TIMES)
    yield Work(REPORT, "print, 100 lots", town(100), ["print\n"] * 10)
    yield Work(REPORT, "the first print of 1,000 lots", town(1000), ["print\n"])
    yield Work(REPORT, "model with dressed windows, 100 lots", town(100) + BOX, ["model\n"] * 10)
    yield Work(REPORT, "trace, 100 lots", town(100), ["trace\n"] * 10)
    yield Work(LINE, "64 MiB of blank lines", "", ["\n" * 2**26])


def works():
    """Made one after the other, since some texts are large, the largest last."""
    for part in (towns, grammars, texts):
        yield from part()
