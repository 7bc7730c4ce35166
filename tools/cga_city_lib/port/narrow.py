"""What a rule makes of shapes that are too narrow for it: a rule before it with a condition. CityEngine cuts parts off, and
here a size without room takes the whole shape."""
from fractions import Fraction
from typing import List, Optional, Tuple

from .components import STRIPS, plain
from .sizes import Piece, fixed_sum, scope_size
from .splits import row_of, subdivided
from .steps import inset
from .tree import Binary, Item, Number, Operation, Split, Taken, Value
from .walk import Walk

MOVING = ("s", "t", "r", "extrude", "offset", "translate")
Guard = Tuple[str, str]  # a condition and a body


def guards(walk: Walk, items: List[Item]) -> List[Guard]:
    """The rules before a successor; none where its last item doesn't work on the rule's own scope."""
    if not items or any(isinstance(item, Operation) and item.name in MOVING for item in items[:-1]):
        return within(walk, items)
    last = items[-1]
    found = None
    if isinstance(last, Split):
        found = of_split(walk, items, last)
    elif isinstance(last, Taken) and last.name in ("setback", "offset") and last.args:
        found = of_border(walk, items, last)
    return [found] if found else within(walk, items)


def of_split(walk: Walk, items: List[Item], last: Split) -> Optional[Guard]:
    """A split whose fixed sizes have no room: the fixed parts alone."""
    pieces = row_of(last)[0]
    fixed = [piece for piece in pieces if piece.kind == "fixed"]
    whole = fixed_sum(pieces)
    if whole is None or len(fixed) == len(pieces):
        return None
    walk.items(items[:-1])
    if walk.moves:
        return None
    here = {"split.index": "0", "split.total": str(len(pieces))}
    bodies = [walk.inner(piece.body, walk.state, here) for piece in fixed]
    walk.make(squeezed(walk, last.axis, fixed, bodies, whole))
    size = walk.writer.number(scope_size(last.axis))
    return f"{size} <= {walk.writer.number(whole)}", walk.text()


def squeezed(walk: Walk, axis: str, fixed: List[Piece], bodies: List[str], whole: Value) -> str:
    """The fixed parts, each by its share of their sum."""
    if len(set(bodies)) == 1:
        return bodies[0]
    lengths = [Binary("/", Binary("*", piece.size, scope_size(axis)), whole) for piece in fixed[:-1]]
    return subdivided(axis, [*(walk.writer.number(length) for length in lengths), "1r"], bodies)


def of_border(walk: Walk, items: List[Item], last: Taken) -> Optional[Guard]:
    """A border that leaves nothing inside: the border alone."""
    sides = [(STRIPS.get(plain(one.selector)) or [], one.body) for one in last.selected]
    named = [side for own, _ in sides for side in own]
    border = next((body for own, body in sides if own), None)
    if not named or walk.state.form not in ("ground", "box"):
        return None
    walk.items(items[:-1])
    once, twice = inset(walk, last.args[0]) if last.name == "offset" else doubled(walk, last.args[0])
    tests = []
    for axis, pair in (("z", ("front", "back")), ("x", ("left", "right"))):
        many = sum(side in named for side in pair)
        tests += [f"Scope.s{axis} <= {twice if many == 2 else once}"] if many else []
    text = walk.inner(border, walk.state)
    walk.make(text)
    return " or ".join(tests), walk.text()


def doubled(walk: Walk, value: Value) -> Tuple[str, str]:
    """A depth, and twice of it."""
    return walk.writer.number(value), walk.writer.number(Binary("*", Number(Fraction(2)), value))


def within(walk: Walk, items: List[Item]) -> List[Guard]:
    """`offset(-d, inside)` of a shape that has no inside makes nothing."""
    first = items[0] if items else None
    is_plain = isinstance(first, Operation) and first.name == "offset" and len(first.args) > 0
    value = walk.context.port.known.settled(first.args[0], True) if is_plain else None
    if not isinstance(value, Fraction) or value >= 0:
        return []
    twice = inset(walk, first.args[0])[1]
    across = "z" if walk.state.form in ("ground", "box") else "y"
    return [(f"Scope.sx <= {twice} or Scope.s{across} <= {twice}", "NIL")]
