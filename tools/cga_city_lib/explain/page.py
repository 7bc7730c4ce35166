"""The lines that are printed: the tree of a lot, or all about one shape."""
from typing import Iterator, List, Optional

from ..call import Refused
from ..causes import CODES, help_for
from . import said
from .answers import told
from .reasons import arguments, earlier, why_not
from .town import Path, Town
from .tree import Node, Trees, alternative_of

TARGETS = ("noparent", "active")


class Page:
    """The explanation of one town."""

    def __init__(self, town: Town) -> None:
        self.town, self.trees = town, Trees(town)

    # ---- a lot

    def tree(self, lot: str, depth: Optional[int]) -> Iterator[str]:
        """The lot, and a line for each of its shapes down to a depth."""
        nodes, ground = self.trees.of(lot), self.town.lot(lot)
        solids = sum(1 for node in nodes.values() if node.solid)
        size = f"{said.number(ground.width)} by {said.number(ground.depth)}"
        corner = said.point((ground.x, ground.z))
        yield f"{lot}: {size} at {corner}, seed {ground.seed}, {len(nodes)} shapes, {solids} of them solids"
        for path, node in nodes.items():
            if depth is None or len(path) <= depth:
                yield "  " * len(path) + self.line(node)

    def line(self, node: Node) -> str:
        """A shape in one line: where it is, its rule and why no earlier one, its answers and who gave them."""
        head = f"{said.path(node.shape.path)} {self.called(node)} {said.scope(node.shape.scope)}"
        if node.solid:
            return f"{head}, drawn"
        return "; ".join([f"{head}: {self.taken(node)}", *self.passed(node), *self.answered(node)])

    def called(self, node: Node) -> str:
        """The symbol with its arguments; of a solid what it is."""
        args = f"({', '.join(map(said.number, node.shape.args))})" if node.shape.args else ""
        return node.solid or node.shape.symbol + args

    def taken(self, node: Node) -> str:
        """The rule that was taken and its alternative, and the fault if it came to nothing."""
        which = self.which(node) if node.rule else "no rule"
        return which if node.step.outcome.isdigit() else f"{which}, came to nothing: {node.step.outcome}"

    def which(self, node: Node) -> str:
        many = len(node.rule.alternatives)
        behind = f", alternative {alternative_of(node.shape, node.rule)} of {many}" if many > 1 else ""
        return f"rule {node.rule.id}{behind}"

    def passed(self, node: Node) -> List[str]:
        return [f"not {rule.id}: {why_not(self.town, node, rule)}" for rule in earlier(self.town, node)]

    def answered(self, node: Node) -> List[str]:
        found = [(target, told(self.trees, node, target)) for target in TARGETS]
        return [f"{target} is {answer[0]}: {answer[1]}" for target, answer in found if answer]

    # ---- a shape

    def node(self, lot: str, path: Path) -> Node:
        nodes = self.trees.of(lot)
        if path not in nodes:
            above = next(path[:end] for end in range(len(path), -1, -1) if path[:end] in nodes)
            many = nodes[above].children
            raise Refused(
                f"no shape stands at {said.path(path)} in {lot}: {said.path(above)} has {many} child{'ren' * (many != 1)}"
            )
        return nodes[path]

    def shape(self, lot: str, path: Path) -> Iterator[str]:
        """All about one shape: its way, its scope, its rules as they were tried, what it made."""
        node = self.node(lot, path)
        yield f"{lot} {said.path(path)} {self.called(node)}"
        yield f"  scope: {said.scope(node.shape.scope)}"
        yield f"  box: {said.box(node.shape.scope.box)}"
        yield f"  way: {' > '.join(self.way(lot, path))}"
        if node.solid:
            yield f"  a solid, drawn by the rule of {said.path(path[:-1])}"
            return
        yield f"  step {node.step.number + 1} of {len(self.town.steps)}, seed {node.shape.seed}"
        yield from (f"  {line}" for line in self.answered(node))
        yield from self.tried(node)
        yield from self.made(lot, node)

    def way(self, lot: str, path: Path) -> Iterator[str]:
        """The shapes above, each with its rule, and the shape."""
        nodes = self.trees.of(lot)
        for end in range(len(path)):
            above = nodes[path[:end]]
            yield f"{self.called(above)} (rule {above.rule.id})"
        yield self.called(nodes[path])

    def tried(self, node: Node) -> Iterator[str]:
        """Each rule that was tried, and what came of it."""
        for rule in earlier(self.town, node):
            yield from self.rule(rule.id)
            yield f"    isn't taken: {why_not(self.town, node, rule)}"
        if node.rule:
            yield from self.rule(node.rule.id)
            args = arguments(node.rule, node.shape)
            yield f"    is taken, {args}".rstrip(", ") + self.which(node).partition(f"rule {node.rule.id}")[2]
        if not node.step.outcome.isdigit():
            code, rules = node.step.outcome, [self.town.rules[rule.id] for rule in self.group(node)]
            yield f"  it came to nothing: {code}, {CODES.get(code, code)}"
            yield f"  what helps: {help_for(code, [f'1: {text}' for text in rules])}"

    def group(self, node: Node):
        return self.town.group(node.shape.symbol).rules

    def rule(self, number: int) -> Iterator[str]:
        yield f"  rule {number}, {self.town.line_of(number)}: {self.town.rules[number]}"

    def made(self, lot: str, node: Node) -> Iterator[str]:
        if node.children:
            yield f"  {node.children} child{'ren' * (node.children > 1)}:"
        for index in range(node.children):
            child = self.trees.of(lot)[(*node.shape.path, index)]
            yield f"    {said.path(child.shape.path)} {self.called(child)} {said.scope(child.shape.scope)}"
