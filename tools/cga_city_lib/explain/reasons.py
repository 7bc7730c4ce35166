"""Why a rule was taken, and why each earlier one of its symbol wasn't."""
from typing import Iterator, List

from definition.fault import Fault
from definition.rule import Compare, Cond, Conj, Not, Occ, Rule
from definition.sources import Shape
from definition.values import Known, cond_holds, expr_value, test_holds

from . import said
from .town import Town
from .tree import Node, known_of


def why_not(town: Town, node: Node, rule: Rule) -> str:
    """The tests by which a condition didn't hold, with the values that they compared."""
    known = known_of(town, node.shape, rule)
    try:
        return "; ".join(reason for conj in rule.cond.conjs for reason in fails(conj, known, node.step.answers))
    except Fault as fault:
        return f"a value is refused: {fault.code}"


def fails(conj: Conj, known: Known, answers: dict) -> Iterator[str]:
    """The first test of a conjunction that didn't hold; none that stands behind it was tried."""
    for test in conj.tests:
        if not test_holds(test, known, answers):
            yield told(test, known, answers)
            return


def told(test: object, known: Known, answers: dict) -> str:
    """A test that didn't hold."""
    if isinstance(test, Occ):
        return f"{said.occ(test)} doesn't hold, the answer is {answers[test.target]}"
    if isinstance(test, Compare):
        left, right = (said.number(expr_value(side, known)) for side in (test.left, test.right))
        return f"{said.compare(test)} doesn't hold, of {left} and {right}"
    if isinstance(test, Not):
        return f"not [ .. ] doesn't hold, since {held(test.cond, known, answers)}"
    return "; ".join(reason for conj in test.cond.conjs for reason in fails(conj, known, answers))


def held(cond: Cond, known: Known, answers: dict) -> str:
    """The first conjunction of a condition that holds."""
    for conj in cond.conjs:
        if all(test_holds(test, known, answers) for test in conj.tests):
            return " and ".join(text(test, known, answers) for test in conj.tests) + " holds"
    assert not cond_holds(cond, known, answers)
    return "its condition holds"


def text(test: object, known: Known, answers: dict) -> str:
    if isinstance(test, Occ):
        return said.occ(test)
    return said.compare(test) if isinstance(test, Compare) else "[ .. ]"


def earlier(town: Town, node: Node) -> List[Rule]:
    """The rules that were tried before the one that was taken; all of them where none was."""
    rules = list(town.group(node.shape.symbol).rules)
    return rules[: rules.index(node.rule)] if node.rule else rules


def arguments(rule: Rule, shape: Shape) -> str:
    """The parameters of a rule with the shape's values."""
    return ", ".join(f"{name} = {said.number(value)}" for name, value in zip(rule.params, shape.args))
