"""Reports of shapes that are drawn as they are: comments `# report NAME SYMBOL VALUE`, of which tools/table makes columns."""
import re
from fractions import Fraction
from typing import Optional, Tuple

from ..table_reports import TAKEN
from .forms import FLAT, State
from .lost import whole
from .tree import Binary, Items, Name, Operation, Value
from .values import number_text
from .walk import Walk

AREA, VOLUME = "geometry.area", "geometry.volume"
STILL = ("color", "texture", "set", "report", "print", "label")  # these leave a shape's size and form
Summed = Tuple[str, Fraction]


def report(walk: Walk, item: Operation) -> None:
    key = walk.context.port.known.settled(item.args[0]) if item.args else None
    is_named = isinstance(key, str) and key.strip() != "" and len(item.args) == 2
    summed = summed_as(walk, item.args[1]) if is_named and is_drawn_so(walk, item) else None
    if summed is None:
        walk.nearly(item, walk.context.port.column(item, walk.context))
    else:
        column, times = summed
        walk.reports.append((name_of(str(key)), column + f" * {number_text(times).text}" * (times != 1)))


def name_of(key: str) -> str:
    """The name as one word, which isn't that of another column."""
    name = re.sub(r"\s+", "_", whole(key.strip()))
    return f"report_{name}" if name in TAKEN else name


def is_drawn_so(walk: Walk, item: Operation) -> bool:
    """Whether the rule does nothing but draw one solid of the form and the size that the shape has at this item."""
    body = walk.context.port.rules[walk.context.rule].body
    if not isinstance(body, Items) or not all(isinstance(one, Operation) for one in body.items):
        return False
    at = next((at for at, one in enumerate(body.items) if one is item), None)
    return at is not None and all(getattr(one, "name", "") in STILL for one in body.items[at:])


def summed_as(walk: Walk, value: Value) -> Optional[Summed]:
    """The column of the solid that has the value, and how many times it is meant."""
    times = walk.context.port.known.settled(value)
    if isinstance(times, Fraction):
        return None if walk.state.form == "edge" else ("solids", times)
    if isinstance(value, Name):
        column = column_of(value.name, walk.state)
        return (column, Fraction(1)) if column else None
    if not isinstance(value, Binary) or value.sign != "*":
        return None
    for one, other in ((value.left, value.right), (value.right, value.left)):
        times = walk.context.port.known.settled(other)
        column = column_of(one.name, walk.state) if isinstance(one, Name) else None
        if column and isinstance(times, Fraction):
            return column, times
    return None


def column_of(name: str, state: State) -> Optional[str]:
    if name == AREA and state.form in (*FLAT, "ground"):
        return "area"
    return "volume" if name == VOLUME and state.form == "box" else None
