"""Which item of a successor is done by what."""
from typing import Callable, Dict, List, Optional

from .components import TAKEN, no_taken
from .splits import split
from .steps import STEPS, centred, no_step
from .tree import Bracket, Item, Nothing, Operation, Split, Symbol, Taken
from .walk import Walk

BORDERS = ("inside", "border")


def on_bracket(walk: Walk, item: Bracket) -> None:
    inner = Walk(walk.context, walk.state, walk.here)
    inner.items(item.items)
    text = inner.text()
    walk.make(text if text == "NIL" else f"[ {text} ]")


def on_symbol(walk: Walk, item: Symbol) -> None:
    walk.make(walk.context.port.child(walk, item))


def on_nothing(walk: Walk, item: Nothing) -> None:
    walk.is_due = False


def on_operation(walk: Walk, item: Operation) -> None:
    STEPS.get(item.name, no_step)(walk, item)


def on_split(walk: Walk, item: Split) -> None:
    walk.make(split(walk, item))


def on_taken(walk: Walk, item: Taken) -> None:
    TAKEN.get(item.name, no_taken)(walk, item)
    walk.is_due = False


HANDLERS: Dict[type, Callable] = {
    Bracket: on_bracket,
    Symbol: on_symbol,
    Nothing: on_nothing,
    Operation: on_operation,
    Split: on_split,
    Taken: on_taken,
}


def bordered(item: Item, rest: List[Item]) -> Optional[Taken]:
    """`offset(-d) comp(f) { inside : a | border : b }` as one operation."""
    follows = rest[0] if rest else None
    if not (isinstance(item, Operation) and item.name == "offset" and isinstance(follows, Taken)):
        return None
    if follows.name != "comp" or not any(selected.selector in BORDERS for selected in follows.selected):
        return None
    return Taken("offset", item.args, follows.selected, item.line, f"{item.written} {follows.written}")


def handle(walk: Walk, item: Item, rest: List[Item]) -> int:
    """Does an item, perhaps with the one behind it, and says how many items that were."""
    if centred(walk, item, rest):
        return 2
    both = bordered(item, rest)
    HANDLERS[Taken if both else type(item)](walk, both or item)
    return 2 if both else 1
