"""The value of an expression, and whether a condition holds, or the first operation in reading order that is refused."""
from dataclasses import dataclass
from fractions import Fraction
from typing import Dict, Tuple

from .fraction import ceil_of, checked, floor_of, quotient_of
from .rule import Ceil, Compare, Floor, Grouped, Named, Not, Number, Occ, Rand, ScopeSize
from .word import shape_word_of


@dataclass(frozen=True)
class Known:
    """What an expression reads beside itself."""

    params: Tuple
    args: Tuple
    attributes: Dict
    size: Tuple
    seed: int


def number_of(known, name):
    """A parameter hides an attribute."""
    return known.args[known.params.index(name)] if name in known.params else known.attributes[name]


def expr_value(expr, known):
    value = term_value(expr.first, known)
    for minus, term in expr.rest:
        operand = term_value(term, known)
        value = checked(value - operand if minus else value + operand)
    return value


def term_value(term, known):
    value = factor_value(term.first, known)
    for divide, factor in term.rest:
        operand = factor_value(factor, known)
        value = quotient_of(value, operand) if divide else checked(value * operand)
    return value


def factor_value(factor, known):
    value = primary_value(factor.primary, known)
    return -value if factor.minus else value


def primary_value(primary, known):
    if isinstance(primary, Number):
        return primary.value
    if isinstance(primary, Named):
        return number_of(known, primary.name)
    if isinstance(primary, ScopeSize):
        return known.size[primary.axis]
    if isinstance(primary, Grouped):
        return expr_value(primary.expr, known)
    if isinstance(primary, Floor):
        return Fraction(floor_of(expr_value(primary.expr, known)))
    if isinstance(primary, Ceil):
        return Fraction(ceil_of(expr_value(primary.expr, known)))
    assert isinstance(primary, Rand)
    return random_value(primary, known)


def random_value(rand, known):
    """low + (high - low) * (step / steps): the difference first, then the quotient, the product and the sum."""
    low = expr_value(rand.low, known)
    high = expr_value(rand.high, known)
    span = checked(high - low)
    step = shape_word_of(known.seed, rand.number) * (rand.steps + 1) // 2**32
    share = checked(Fraction(step, rand.steps))
    return checked(low + checked(span * share))


RELATIONS = {
    "==": lambda x, y: x == y,
    "!=": lambda x, y: x != y,
    "<": lambda x, y: x < y,
    "<=": lambda x, y: x <= y,
    ">": lambda x, y: x > y,
    ">=": lambda x, y: x >= y,
}


def cond_holds(cond, known, answers):
    """`or` stops at the first that holds, and `and` at the first that doesn't."""
    return any(all(test_holds(test, known, answers) for test in conj.tests) for conj in cond.conjs)


def test_holds(test, known, answers):
    if isinstance(test, Occ):
        return (answers[test.target] == test.state) == test.equal
    if isinstance(test, Compare):
        left = expr_value(test.left, known)
        return RELATIONS[test.relation](left, expr_value(test.right, known))
    holds = cond_holds(test.cond, known, answers)
    return not holds if isinstance(test, Not) else holds
