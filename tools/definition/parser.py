"""How a rule is read."""
from fractions import Fraction

from .comp import SIDES
from .frame import X, Y, Z
from .rule import (
    Absolute,
    Alternative,
    Ceil,
    Child,
    Comp,
    Compare,
    Cond,
    Conj,
    Expr,
    Factor,
    Floor,
    Grouped,
    Move,
    Named,
    Not,
    Number,
    Occ,
    Rand,
    Relative,
    Repeat,
    Resize,
    Rotate,
    Rule,
    Scoped,
    ScopeSize,
    Solid,
    Subdiv,
    Term,
    TestGroup,
)
from .form import Unexpected

MOST_PARAMS, LAST_ID, MOST_STEPS = 4, 999999, 1000000
AXIS_TEXTS = {"X": X, "Y": Y, "Z": Z}
SIZES = {"sx": X, "sy": Y, "sz": Z}
TURNS = {"Rx": X, "Ry": Y, "Rz": Z}


def rule(r):
    rule_id = r.whole(1, LAST_ID)
    r.sign(":")
    symbol = r.name()
    params = bracketed(r, lambda r: r.name()) if r.is_sign("(") else ()
    held = cond(r) if r.has_sign(":") else None
    alternatives = [alternative(r)]
    while r.is_sign("->"):
        alternatives.append(alternative(r))
    return Rule(rule_id, symbol, params, held, tuple(alternatives))


def bracketed(r, read):
    """Parameters or arguments in round brackets."""
    r.sign("(")
    members = r.listed(read, ",", MOST_PARAMS)
    r.sign(")")
    return members


def alternative(r):
    r.sign("->")
    items = body(r)
    return Alternative(items, r.number() if r.has_sign(":") else Fraction(1))


# ---- items


def body(r):
    """NIL, or one item or more."""
    if r.is_word("NIL"):
        r.word("NIL")
        return ()
    return items_of(r)


def begins_item(r):
    kind, said = r.next()
    return r.is_sign("[") or kind == "word" and (said in ITEMS or said not in RESERVED_IN_ITEMS)


def items_of(r):
    items = [item(r)]
    while begins_item(r):
        items.append(item(r))
    return tuple(items)


def item(r):
    if r.has_sign("["):
        items = items_of(r)
        r.sign("]")
        return Scoped(items)
    kind, said = r.next()
    if kind == "word" and said in ITEMS:
        r.word(said)
        return ITEMS[said](r, said)
    symbol = r.name()
    return Child(symbol, bracketed(r, expr) if r.is_sign("(") else ())


def in_round(r, read):
    r.sign("(")
    said = read(r)
    r.sign(")")
    return said


def in_curly(r, read):
    r.sign("{")
    said = read(r)
    r.sign("}")
    return said


def three(read):
    """Three members with commas between them."""

    def read_three(r):
        first = read(r)
        r.sign(",")
        second = read(r)
        r.sign(",")
        return first, second, read(r)

    return read_three


def move(r, _):
    return Move(in_round(r, three(expr)))


def resize(r, _):
    return Resize(in_round(r, three(size)))


def rotate(r, word):
    return Rotate(TURNS[word], in_round(r, turn))


def turn(r):
    if r.has_sign("-"):
        r.whole(90, 90)
        return 270
    return int(r.take(lambda said: said in (0, 90, 180, 270), "number"))


def solid(r, _):
    return Solid(in_round(r, lambda r: r.text("cube", "quad", "shed", "gable", "hip")))


def axis(r):
    return AXIS_TEXTS[r.text(*AXIS_TEXTS)]


def subdiv(r, _):
    r.sign("(")
    along = axis(r)
    r.sign(",")
    sizes = r.listed(size, ",")
    r.sign(")")
    return Subdiv(along, sizes, in_curly(r, lambda r: r.listed(body, "|")))


def repeat(r, _):
    r.sign("(")
    along = axis(r)
    r.sign(",")
    length = expr(r)
    r.sign(")")
    return Repeat(along, length, in_curly(r, body))


def comp(r, _):
    return Comp(in_round(r, selector), in_curly(r, body))


def selector(r):
    kind = r.text("faces", "sidefaces", "edges", "vertices", "face", "edge")
    if kind not in ("face", "edge"):
        return kind, None
    r.sign(",")
    return kind, r.text(*SIDES) if kind == "face" else r.whole(1, 12)


def size(r):
    if r.next()[0] == "relative":
        return Relative(r.take(lambda said: True, "relative"))
    return Absolute(expr(r))


ITEMS = {
    "T": move,
    "S": resize,
    "Rx": rotate,
    "Ry": rotate,
    "Rz": rotate,
    "I": solid,
    "Subdiv": subdiv,
    "Repeat": repeat,
    "Comp": comp,
}
RESERVED_IN_ITEMS = ("NIL", "Scope", "rand", "floor", "ceil", "and", "or", "not")


# ---- conditions


def cond(r):
    conjs = [conj(r)]
    while r.is_word("or"):
        r.word("or")
        conjs.append(conj(r))
    return Cond(tuple(conjs))


def conj(r):
    tests = [test(r)]
    while r.is_word("and"):
        r.word("and")
        tests.append(test(r))
    return Conj(tuple(tests))


def group(r):
    r.sign("[")
    inner = cond(r)
    r.sign("]")
    return inner


def test(r):
    if r.is_sign("["):
        return TestGroup(group(r))
    if r.is_word("not"):
        r.word("not")
        return Not(group(r))
    if r.is_word("Scope") and asks(r):
        return occ(r)
    left = expr(r)
    relation = r.sign("==", "!=", "<", "<=", ">", ">=")
    return Compare(left, relation, expr(r))


def asks(r):
    """Behind the word Scope and a point stands the word occ."""
    following = [(token.kind, token.said) for token in r.tokens[r.at + 1 : r.at + 3]]
    return following == [("sign", "."), ("word", "occ")]


def occ(r):
    r.word("Scope")
    r.sign(".")
    r.word("occ")
    target = in_round(r, lambda r: r.text("noparent", "active"))
    equal = r.sign("==", "!=") == "=="
    return Occ(target, equal, r.text("none", "part", "full"))


# ---- expressions


def expr(r):
    first, rest = term(r), []
    while r.is_sign("+", "-"):
        minus = r.sign("+", "-") == "-"
        rest.append((minus, term(r)))
    return Expr(first, tuple(rest))


def term(r):
    first, rest = factor(r), []
    while r.is_sign("*", "/"):
        divide = r.sign("*", "/") == "/"
        rest.append((divide, factor(r)))
    return Term(first, tuple(rest))


def factor(r):
    minus = r.has_sign("-")
    return Factor(minus, primary(r))


def primary(r):
    kind, said = r.next()
    if kind == "number":
        return Number(r.number())
    if r.is_sign("("):
        return Grouped(in_round(r, expr))
    if r.is_word("Scope"):
        r.word("Scope")
        r.sign(".")
        return ScopeSize(SIZES[r.word(*SIZES)])
    if r.is_word("floor", "ceil"):
        r.word(said)
        return (Floor if said == "floor" else Ceil)(in_round(r, expr))
    if r.is_word("rand"):
        return rand(r)
    return Named(r.name())


def rand(r):
    """Numbered by the place of the word, so that an outer one has the smaller number."""
    r.word("rand")
    r.rands += 1
    number = r.rands
    r.sign("(")
    low = expr(r)
    r.sign(",")
    high = expr(r)
    r.sign(",")
    steps = r.whole(1, MOST_STEPS)
    r.sign(")")
    return Rand(number, low, high, steps)


__all__ = ["rule", "Unexpected"]
