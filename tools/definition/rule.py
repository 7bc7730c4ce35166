"""The trees of rules. Two are equal where they are of one form and have equal parts."""
from dataclasses import dataclass
from fractions import Fraction
from functools import cached_property
from typing import Optional, Tuple


# ---- expressions


@dataclass(frozen=True)
class Number:
    value: Fraction


@dataclass(frozen=True)
class Named:
    name: str


@dataclass(frozen=True)
class ScopeSize:
    axis: int


@dataclass(frozen=True)
class Grouped:
    """In round brackets."""

    expr: "Expr"


@dataclass(frozen=True)
class Floor:
    expr: "Expr"


@dataclass(frozen=True)
class Ceil:
    expr: "Expr"


@dataclass(frozen=True)
class Rand:
    """Its number in its rule, from 1, in reading order."""

    number: int
    low: "Expr"
    high: "Expr"
    steps: int


@dataclass(frozen=True)
class Factor:
    minus: bool
    primary: object


@dataclass(frozen=True)
class Term:
    """Further factors, each with whether it is divided by."""

    first: Factor
    rest: Tuple


@dataclass(frozen=True)
class Expr:
    """Further terms, each with whether it is taken away."""

    first: Term
    rest: Tuple


# ---- conditions


@dataclass(frozen=True)
class TestGroup:
    cond: "Cond"


@dataclass(frozen=True)
class Not:
    cond: "Cond"


@dataclass(frozen=True)
class Occ:
    target: str
    equal: bool
    state: str


@dataclass(frozen=True)
class Compare:
    left: Expr
    relation: str
    right: Expr


@dataclass(frozen=True)
class Conj:
    tests: Tuple


@dataclass(frozen=True)
class Cond:
    conjs: Tuple


# ---- items


@dataclass(frozen=True)
class Relative:
    factor: Fraction


@dataclass(frozen=True)
class Absolute:
    value: Expr


@dataclass(frozen=True)
class Move:
    by: Tuple


@dataclass(frozen=True)
class Resize:
    sizes: Tuple


@dataclass(frozen=True)
class Rotate:
    axis: int
    by: int


@dataclass(frozen=True)
class Scoped:
    items: Tuple


@dataclass(frozen=True)
class Solid:
    primitive: str


@dataclass(frozen=True)
class Subdiv:
    axis: int
    sizes: Tuple
    bodies: Tuple


@dataclass(frozen=True)
class Repeat:
    axis: int
    length: Expr
    body: Tuple


@dataclass(frozen=True)
class Comp:
    """A kind of components, and the side or the number of one."""

    selector: Tuple
    body: Tuple


@dataclass(frozen=True)
class Child:
    symbol: str
    args: Tuple


# ---- rules


@dataclass(frozen=True)
class Alternative:
    items: Tuple
    prob: Fraction


@dataclass(frozen=True)
class Rule:
    id: int
    symbol: str
    params: Tuple
    cond: Optional[Cond]
    alternatives: Tuple

    @cached_property
    def uses(self):
        return rule_uses(self)


@dataclass(frozen=True)
class Attribute:
    name: str
    value: Fraction


@dataclass(frozen=True)
class Entry:
    priority: int
    rule: Rule


@dataclass(frozen=True)
class Grammar:
    attributes: Tuple
    rules: Tuple


# ---- what a rule uses, in reading order: an Occ, a Subdiv, a Child or a Named, a whole before its parts


def expr_uses(expr):
    return [
        use
        for term in [expr.first] + [term for _, term in expr.rest]
        for factor in [term.first] + [factor for _, factor in term.rest]
        for use in primary_uses(factor.primary)
    ]


def primary_uses(primary):
    if isinstance(primary, Named):
        return [primary]
    if isinstance(primary, (Grouped, Floor, Ceil)):
        return expr_uses(primary.expr)
    if isinstance(primary, Rand):
        return expr_uses(primary.low) + expr_uses(primary.high)
    return []


def cond_uses(cond):
    return [use for conj in cond.conjs for test in conj.tests for use in test_uses(test)]


def test_uses(test):
    if isinstance(test, Occ):
        return [test]
    if isinstance(test, Compare):
        return expr_uses(test.left) + expr_uses(test.right)
    return cond_uses(test.cond)


def size_uses(sizes):
    return [use for size in sizes if isinstance(size, Absolute) for use in expr_uses(size.value)]


def body_uses(items):
    return [use for item in items for use in item_uses(item)]


def item_uses(item):
    if isinstance(item, Move):
        return [use for value in item.by for use in expr_uses(value)]
    if isinstance(item, Resize):
        return size_uses(item.sizes)
    if isinstance(item, Scoped):
        return body_uses(item.items)
    if isinstance(item, Subdiv):
        return [item] + size_uses(item.sizes) + [use for body in item.bodies for use in body_uses(body)]
    if isinstance(item, Repeat):
        return expr_uses(item.length) + body_uses(item.body)
    if isinstance(item, Comp):
        return body_uses(item.body)
    if isinstance(item, Child):
        return [item] + [use for arg in item.args for use in expr_uses(arg)]
    return []


def rule_uses(rule):
    uses = [] if rule.cond is None else cond_uses(rule.cond)
    return uses + [use for alternative in rule.alternatives for use in body_uses(alternative.items)]
