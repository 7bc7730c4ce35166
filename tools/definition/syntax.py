"""How rules and grammars are written: the tokens of a tree in order, and where no space stands between two of them."""
from .fault import Refused
from .fraction import exact_text_of, literal_text_of
from .lexer import LETTERS, MOST_LINE
from .rule import (
    Absolute,
    Ceil,
    Comp,
    Compare,
    Floor,
    Grouped,
    Move,
    Named,
    Not,
    Number,
    Occ,
    Rand,
    Repeat,
    Resize,
    Rotate,
    Scoped,
    ScopeSize,
    Solid,
    Subdiv,
)

# a minus that begins a factor, and the colon behind the id: between them and what comes next, or before, is no space
MINUS, LABEL = " -", " :"
AXIS_TEXTS = ('"X"', '"Y"', '"Z"')
TURN_WORDS = ("Rx", "Ry", "Rz")


# ---- spaces


def is_word(token):
    return token[0] in LETTERS


def closes_up(a, b):
    """No space stands between two neighbours."""
    return a in ("(", ".") or b in (")", ",", ".") or is_word(a) and b == "(" or a == MINUS or b == LABEL


def text_of(tokens):
    text = tokens[0]
    for before, token in zip(tokens, tokens[1:]):
        text += ("" if closes_up(before, token) else " ") + token.strip()
    return text


# ---- expressions


def separated(members, separator):
    """The tokens of members with a separator between two of them."""
    tokens = list(members[0])
    for member in members[1:]:
        tokens += [separator, *member]
    return tokens


def in_round(members):
    return ["(", *separated(members, ","), ")"]


def expr_tokens(expr):
    tokens = term_tokens(expr.first)
    for minus, term in expr.rest:
        tokens += ["-" if minus else "+", *term_tokens(term)]
    return tokens


def term_tokens(term):
    tokens = factor_tokens(term.first)
    for divide, factor in term.rest:
        tokens += ["/" if divide else "*", *factor_tokens(factor)]
    return tokens


def factor_tokens(factor):
    return ([MINUS] if factor.minus else []) + primary_tokens(factor.primary)


def primary_tokens(primary):
    if isinstance(primary, Number):
        return [literal_text_of(primary.value)]
    if isinstance(primary, Named):
        return [primary.name]
    if isinstance(primary, ScopeSize):
        return ["Scope", ".", ("sx", "sy", "sz")[primary.axis]]
    if isinstance(primary, Grouped):
        return in_round([expr_tokens(primary.expr)])
    if isinstance(primary, (Floor, Ceil)):
        return ["floor" if isinstance(primary, Floor) else "ceil", *in_round([expr_tokens(primary.expr)])]
    assert isinstance(primary, Rand)
    return ["rand", *in_round([expr_tokens(primary.low), expr_tokens(primary.high), [str(primary.steps)]])]


# ---- conditions


def cond_tokens(cond):
    return separated([separated([test_tokens(test) for test in conj.tests], "and") for conj in cond.conjs], "or")


def test_tokens(test):
    if isinstance(test, Occ):
        return ["Scope", ".", "occ", "(", f'"{test.target}"', ")", "==" if test.equal else "!=", f'"{test.state}"']
    if isinstance(test, Compare):
        return [*expr_tokens(test.left), test.relation, *expr_tokens(test.right)]
    return (["not"] if isinstance(test, Not) else []) + ["[", *cond_tokens(test.cond), "]"]


# ---- items


def size_tokens(size):
    return expr_tokens(size.value) if isinstance(size, Absolute) else [literal_text_of(size.factor) + "r"]


def body_tokens(items):
    return [token for item in items for token in item_tokens(item)] or ["NIL"]


def in_curly(bodies):
    return ["{", *separated([body_tokens(body) for body in bodies], "|"), "}"]


def item_tokens(item):
    if isinstance(item, Move):
        return ["T", *in_round([expr_tokens(value) for value in item.by])]
    if isinstance(item, Resize):
        return ["S", *in_round([size_tokens(size) for size in item.sizes])]
    if isinstance(item, Rotate):
        return [TURN_WORDS[item.axis], *in_round([[str(item.by)]])]
    if isinstance(item, Scoped):
        return ["[", *body_tokens(item.items), "]"]
    if isinstance(item, Solid):
        return ["I", *in_round([[f'"{item.primitive}"']])]
    if isinstance(item, (Subdiv, Repeat, Comp)):
        return parts_tokens(item)
    return [item.symbol, *(in_round([expr_tokens(arg) for arg in item.args]) if item.args else [])]


def parts_tokens(item):
    if isinstance(item, Subdiv):
        sizes = [size_tokens(size) for size in item.sizes]
        return ["Subdiv", *in_round([[AXIS_TEXTS[item.axis]], *sizes]), *in_curly(item.bodies)]
    if isinstance(item, Repeat):
        return ["Repeat", *in_round([[AXIS_TEXTS[item.axis]], expr_tokens(item.length)]), *in_curly([item.body])]
    kind, which = item.selector
    words = [[f'"{kind}"']] + ([] if which is None else [[str(which) if kind == "edge" else f'"{which}"']])
    return ["Comp", *in_round(words), *in_curly([item.body])]


# ---- rules


def alternative_tokens(alternative):
    """A probability of 1 is left out."""
    prob = [] if alternative.prob == 1 else [":", literal_text_of(alternative.prob)]
    return ["->", *body_tokens(alternative.items), *prob]


def rule_text(rule):
    tokens = [str(rule.id), LABEL, rule.symbol]
    if rule.params:
        tokens += in_round([[param] for param in rule.params])
    if rule.cond is not None:
        tokens += [":", *cond_tokens(rule.cond)]
    for alternative in rule.alternatives:
        tokens += alternative_tokens(alternative)
    return text_of(tokens)


def grammar_lines(grammar):
    """The attributes in order, then each priority that a rule has, rising, with its rules by rising id."""
    lines = [f"attr {attribute.name} = {exact_text_of(attribute.value)}" for attribute in grammar.attributes]
    for priority in sorted({entry.priority for entry in grammar.rules}):
        own = sorted((entry.rule for entry in grammar.rules if entry.priority == priority), key=lambda rule: rule.id)
        lines += [f"PRIORITY {priority}:"] + [rule_text(rule) for rule in own]
    return lines


def lined(lines):
    return "".join(line + "\n" for line in lines)


def grammar_text(grammar):
    return lined(["rules", *grammar_lines(grammar), "end"])


# ---- the dump


def lot_text(lot):
    values = [exact_text_of(value) for value in (lot.x, lot.z, lot.width, lot.depth)]
    return " ".join(["lot", lot.name, str(lot.seed), *values, lot.symbol])


def dump_of(sources):
    """Or LongDump with the least id of a rule whose text is too long for a line."""
    long_ids = [entry.rule.id for entry in sources.grammar.rules if len(rule_text(entry.rule)) > MOST_LINE]
    if long_ids:
        raise Refused("LongDump", min(long_ids))
    head = ["version 2", "city", f"order {sources.mode}"]
    return lined([*head, *grammar_lines(sources.grammar), *map(lot_text, sources.lots), "end"])
