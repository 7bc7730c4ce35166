"""The shapes of lots: each is expanded as the definition says, with the answers of the trace."""
from typing import Dict, Iterator, List, NamedTuple, Optional

from definition.expand import children_of, chosen, drawn_number, known_to
from definition.fault import Fault
from definition.rule import Rule
from definition.sources import Shape, root_of

from .town import Path, Step, Town

MILLIONTHS = 1000000


class Node(NamedTuple):
    """A shape; the solid that it is, if it is one; its step, the rule that it took, and how many children it has."""

    shape: Shape
    solid: Optional[str]
    step: Optional[Step]
    rule: Optional[Rule]
    children: int


class Trees:
    """The trees of lots, each worked when it is asked for."""

    def __init__(self, town: Town) -> None:
        self.town = town
        self.known: Dict[str, Dict[Path, Node]] = {}

    def of(self, lot: str) -> Dict[Path, Node]:
        """The shapes of a lot by their paths, a shape before its children, and children in their order."""
        if lot not in self.known:
            root = root_of(self.town.lot(lot))
            self.known[lot] = {node.shape.path: node for node in self.worked(root, None)}
        return self.known[lot]

    def worked(self, root: Shape, solid: Optional[str]) -> Iterator[Node]:
        ahead = [(root, solid)]
        while ahead:
            shape, solid = ahead.pop()
            step = self.town.steps.get((shape.lot, shape.path))
            if solid or step is None:
                yield Node(shape, solid, None, None, 0)
                continue
            children = self.children(shape, step)
            yield Node(shape, None, step, self.rule(shape, step), len(children))
            ahead += reversed(children)

    def children(self, shape: Shape, step: Step) -> List[tuple]:
        if not step.outcome.isdigit():
            return []
        return children_of(self.town.attributes, self.town.group(shape.symbol), shape, step.answers)

    def rule(self, shape: Shape, step: Step) -> Optional[Rule]:
        """The rule that the shape took, if one's condition held."""
        try:
            return chosen(self.town.attributes, shape, step.answers, self.town.group(shape.symbol).rules)
        except Fault:
            return None


def known_of(town: Town, shape: Shape, rule: Rule):
    """What the values of a rule's condition read."""
    return known_to(town.attributes, shape, rule)


def alternative_of(shape: Shape, rule: Rule) -> int:
    """The place of the alternative that a shape took, from 1."""
    number, before = drawn_number(shape), 0
    for at, alternative in enumerate(rule.alternatives, 1):
        before += alternative.prob * MILLIONTHS
        if number < before:
            return at
    raise AssertionError("the probabilities of a valid grammar add up to 1")
