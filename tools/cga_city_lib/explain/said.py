"""Values, tests, scopes and boxes as texts."""
from fractions import Fraction

from definition.fraction import exact_text_of
from definition.frame import BASE_FRAME, Box, Scope
from definition.rule import Ceil, Compare, Expr, Factor, Floor, Grouped, Named, Number, Occ, Rand, ScopeSize, Term

from ..numerals import plain
from decimal import Decimal

MOST_PLACES = 6


def number(value: Fraction) -> str:
    """A decimal of six places at most where that is exact, else a quotient."""
    scaled = value * 10**MOST_PLACES
    return plain(Decimal(int(scaled)).scaleb(-MOST_PLACES)) if scaled.denominator == 1 else exact_text_of(value)


def expr(value: Expr) -> str:
    return term(value.first) + "".join(f" {'-' if minus else '+'} {term(part)}" for minus, part in value.rest)


def term(value: Term) -> str:
    return factor(value.first) + "".join(f" {'/' if divide else '*'} {factor(part)}" for divide, part in value.rest)


def factor(value: Factor) -> str:
    return "-" * value.minus + primary(value.primary)


def primary(value: object) -> str:
    if isinstance(value, Number):
        return number(value.value)
    if isinstance(value, Named):
        return value.name
    if isinstance(value, ScopeSize):
        return f"Scope.s{'xyz'[value.axis]}"
    if isinstance(value, (Floor, Ceil)):
        return f"{type(value).__name__.lower()}({expr(value.expr)})"
    if isinstance(value, Rand):
        return f"rand({expr(value.low)}, {expr(value.high)}, {value.steps})"
    assert isinstance(value, Grouped)
    return f"({expr(value.expr)})"


def occ(test: Occ) -> str:
    return f'Scope.occ("{test.target}") {"==" if test.equal else "!="} "{test.state}"'


def compare(test: Compare) -> str:
    return f"{expr(test.left)} {test.relation} {expr(test.right)}"


def point(at: tuple) -> str:
    return f"({', '.join(map(number, at))})"


def scope(value: Scope) -> str:
    """Its size and place, and its axes where they aren't the world's."""
    text = f"{' x '.join(map(number, value.size))} at {point(value.at)}"
    return text if value.frame == BASE_FRAME else f"{text}, axes {' '.join(map(direction, value.frame))}"


def direction(one: tuple) -> str:
    axis, sign = one
    return ("" if sign == 1 else "-") + "XYZ"[axis]


def box(value: Box) -> str:
    return ", ".join(f"{axis} {number(low)} to {number(high)}" for axis, low, high in zip("XYZ", value.low, value.high))


def path(value: tuple) -> str:
    return "".join(f"/{index}" for index in value) or "/"
