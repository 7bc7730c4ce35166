"""What a page is told of a lot where one of its solids is clicked on, by the library of `tools/explain`."""
import threading
from typing import Any, Dict, List, Optional, Tuple

from .call import Refused
from .explain import said
from .explain.page import Page
from .explain.town import Path, Town
from .explain.tree import Node

MOST = 3000  # lines of a tree
MOST_OFF = 0.01  # units by which a solid of a page may stand or be longer


def numbers_of(node: Node) -> List[float]:
    """The corner and the sizes of a solid's scope, as a page has them."""
    return [float(number) for number in (*node.shape.scope.at, *node.shape.scope.size)]


def off(node: Node, wanted: List[float]) -> float:
    return max(abs(a - b) for a, b in zip(numbers_of(node), wanted))


class LotTold:
    """Works lots of one script again; the town that was asked for last is kept."""

    def __init__(self, program: str) -> None:
        self.program, self.lock = program, threading.Lock()
        self.lines: Optional[List[str]] = None
        self.page: Optional[Page] = None

    def page_of(self, lines: List[str]) -> Page:
        if self.page is None or lines != self.lines:
            self.page, self.lines = Page(Town(self.program, lines)), lines
        return self.page

    def told(self, lines: List[str], lot: str, symbol: str, place: List[float]) -> Dict[str, Any]:
        """The shapes above the solid that stands there, all about the one that drew it, and the tree of the lot."""
        with self.lock:
            page = self.page_of(lines)
            path = self.path_of(page, lot, symbol, place)
            tree = [line for _, line in zip(range(MOST), page.tree(lot, None))]
            way = [self.step(page, page.node(lot, path[:end])) for end in range(len(path))]
            return {
                "lot": lot,
                "way": way,
                "shape": list(page.shape(lot, path[:-1])),
                "tree": tree,
                "path": said.path(path),
            }

    def path_of(self, page: Page, lot: str, symbol: str, place: List[float]) -> Path:
        """The path of the solid of that symbol that stands there."""
        solids = [node for node in page.trees.of(lot).values() if node.solid and node.shape.symbol == symbol]
        found = min(solids, key=lambda node: off(node, place), default=None)
        if found is None or off(found, place) > MOST_OFF:
            raise Refused(f"{lot}: the script as it is now draws no `{symbol}` there")
        return found.shape.path

    def step(self, page: Page, node: Node) -> Dict[str, Any]:
        """A shape above, the rule that it took, and the line of that rule."""
        places, number = page.town.places, node.rule.id if node.rule else 0
        return {
            "path": said.path(node.shape.path),
            "symbol": page.called(node),
            "size": said.scope(node.shape.scope).partition(" at ")[0],
            "rule": page.taken(node),
            "why": "; ".join(page.passed(node)),
            "line": places[number] + 1 if number in places else 0,
            "text": page.town.rules.get(number, ""),
        }


def place_of(words: str) -> Tuple[float, ...]:
    """Six numbers, or none where it isn't that."""
    try:
        numbers = tuple(map(float, words.split()))
    except ValueError:
        return ()
    return numbers if len(numbers) == 6 else ()
