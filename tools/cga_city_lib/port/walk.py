"""A successor, item by item: the items of a script that do what an operation or a part of CGA does."""
from typing import Dict, List, Optional, Tuple

from .context import Context
from .forms import ROOFS, State, drawn
from .lost import Lost
from .tree import Body, Item, Items, Symbol
from .values import Writer


class Walk:
    """The items of one sequence, with the state of the shape so far. `is_due` says that the shape is still to be drawn."""

    def __init__(self, context: Context, state: State, here: Dict[str, str]) -> None:
        self.context, self.state, self.here = context, state, here
        self.texts: List[str] = []
        self.moves: List[str] = []  # those that nothing follows yet
        self.reports: List[Tuple[str, str]] = []  # names and columns of what is drawn
        self.is_due = True

    @property
    def writer(self) -> Writer:
        return self.context.writer(self.here, self.state.form)

    def text(self) -> str:
        """The items, without moves that nothing follows; NIL where there are none."""
        if self.is_due:
            self.draw()
        return " ".join(self.texts) or "NIL"

    def move(self, *texts: str) -> None:
        """Moves, sizes and turns."""
        self.moves += texts

    def make(self, *texts: str) -> None:
        """What makes something of the shape, which is done by this unless it is drawn later."""
        for text in texts:
            if text not in ("", "NIL"):
                self.texts += [*self.moves, text]
                self.moves = []
        self.is_due = False

    def items(self, items: List[Item]) -> None:
        at = 0
        while at < len(items):
            at += self.one(items[at], items[at + 1 :])

    def one(self, item: Item, rest: List[Item]) -> int:
        """Does an item, and says how many items that were."""
        try:
            return self.context.port.handle(self, item, rest)
        except Lost as fault:
            self.context.port.remarks.lost(item.line, getattr(item, "written", "") or symbol_text(item), str(fault))
        return 1

    def nearly(self, item: Item, reason: str) -> None:
        self.context.port.remarks.nearly(item.line, getattr(item, "written", ""), reason)

    def draw(self) -> None:
        """Draws the shape, by a symbol of its own where its look is another than what the rule has drawn, or by its form."""
        symbol = self.drawing()
        self.make(drawn(self.state) if symbol == self.context.symbol else symbol)
        for name, column in self.reports:
            self.context.port.remarks.state(f"# report {name} {symbol} {column}")

    def drawing(self) -> str:
        """The symbol that draws the shape."""
        context, state = self.context, self.state
        if state.form in ROOFS or state.form == "mesh":
            return context.port.formed(context, state)
        if state.look != context.port.looks.setdefault(context.symbol, state.look):
            return context.port.leaf(context.symbol, state, context.symbol)
        return context.symbol

    def inner(self, body: Body, state: State, here: Optional[Dict[str, str]] = None) -> str:
        """The items of a body in another state, as one text."""
        return self.context.port.body_text(self.context, body, state, {**self.here, **(here or {})})


def symbol_text(item: Item) -> str:
    return item.name if isinstance(item, Symbol) else "[ .. ]"


def items_of(body: Body) -> List[Item]:
    return body.items if isinstance(body, Items) else []
