"""Which shapes decided the answer to a question: those that were there at that step, and met the box that asked."""
from typing import Iterator, List, Optional, Tuple

from definition.asked import on_path
from definition.frame import Box, holds, meets
from definition.sources import Lot

from . import said
from .tree import Node, Trees


def lots_by_distance(trees: Trees, node: Node) -> List[str]:
    """All lots, the nearest to a shape's box first, its own before all."""
    box = node.shape.scope.box
    own = node.shape.lot
    return sorted(trees.town.lots, key=lambda name: (name != own, distance(trees.town.lots[name], box)))


def distance(lot: Lot, box: Box) -> float:
    """How far a lot's ground is from a box, as seen from above."""
    gaps = [
        max(low - box.high[axis], box.low[axis] - (low + size), 0)
        for axis, low, size in ((0, lot.x, lot.width), (2, lot.z, lot.depth))
    ]
    return float(sum(gaps))


def was_there(trees: Trees, other: Node, moment: int, target: str) -> bool:
    """Whether a shape was made before a step, and where the question is `active`, still waited then."""
    shape = other.shape
    maker = trees.town.steps.get((shape.lot, shape.path[:-1])) if shape.path else None
    if shape.path and (maker is None or maker.number >= moment):
        return False
    return target == "noparent" or other.step is not None and other.step.number >= moment


def deciding(trees: Trees, node: Node, target: str) -> Iterator[Node]:
    """The shapes that met the box at its step; where the answer is `full`, those that hold it."""
    box, moment = node.shape.scope.box, node.step.number
    is_full = node.step.answers[target] == "full"
    for lot in lots_by_distance(trees, node):
        for other in trees.of(lot).values():
            own = other.shape.scope.box
            if meets(own, box) and (not is_full or holds(own, box)) and not on_path(other.shape, node.shape):
                if other is not node and was_there(trees, other, moment, target):
                    yield other


def told(trees: Trees, node: Node, target: str) -> Optional[Tuple[str, str]]:
    """The answer and who decided it, in words; nothing where the question wasn't asked."""
    answer = node.step.answers[target]
    if answer is None:
        return None
    if answer == "none":
        return answer, "no box meets it"
    other = next(deciding(trees, node, target), None)
    if other is None:
        return answer, "no shape was found that decides it"
    how = "meets and holds it" if answer == "full" else "meets it, and none that does holds it"
    where = f"{other.shape.lot} {said.path(other.shape.path)} {other.solid or other.shape.symbol}"
    return answer, f"{where}, {said.box(other.shape.scope.box)}, {how}"
