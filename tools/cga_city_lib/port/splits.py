"""Splits and repeats. What a size means there is told in `sizes`."""
import re
from fractions import Fraction
from typing import Dict, List, Tuple

from .context import MOST_PARAMETERS, Line
from .sizes import Piece, equal_length, is_less, pieces_of, scope_size, share_texts
from .traits import INDICES
from .tree import Binary, Number, Split, Value
from .walk import Walk


def split(walk: Walk, item: Split) -> str:
    """The text of a split."""
    pieces, is_changed = row_of(item)
    if is_changed:
        walk.nearly(item, "sizes with ~ beside a repeat are taken as they are, and the repeat takes up the rest")
    return laid(walk, item, pieces)


def row_of(item: Split) -> Tuple[List[Piece], bool]:
    """The parts of a split; beside a repeat shares become fixed sizes, and then it says so."""
    pieces = pieces_of(item.parts, item.axis)
    kinds = {piece.kind for piece in pieces}
    if not {"share", "repeat"} <= kinds:
        return pieces, False
    return [piece._replace(kind="fixed") if piece.kind == "share" else piece for piece in pieces], True


def laid(walk: Walk, item: Split, pieces: List[Piece]) -> str:
    """The parts of a split in a row."""
    bodies = [part_text(walk, item, pieces, at) for at in range(len(pieces))]
    if all(piece.kind == "fixed" for piece in pieces):
        pieces, bodies = filled(walk, item, pieces, bodies)
    if len(pieces) == 1 and pieces[0].kind != "fixed":
        return grouped(bodies[0])
    return subdivided(item.axis, share_texts(pieces, item.axis, walk.writer), bodies)


def grouped(text: str) -> str:
    """The items so that the scope is what it was behind them."""
    return text if re.fullmatch(r"\w+(\([^()]*\))?|(Repeat|Subdiv)\(.*\}", text) else f"[ {text} ]"


def subdivided(axis: str, sizes: List[str], bodies: List[str]) -> str:
    return f'Subdiv("{axis.upper()}", {", ".join(sizes)}) {{ {" | ".join(bodies)} }}'


def filled(walk: Walk, item: Split, pieces: List[Piece], bodies: List[str]) -> Tuple[List[Piece], List[str]]:
    """Fixed parts alone: shares of the scope that come to 1 take all of it; what others leave stays empty."""
    shares = [walk.context.port.known.settled(share_in(piece.size, item.axis)) for piece in pieces]
    if all(isinstance(share, Fraction) for share in shares) and sum(shares) >= 1:
        return [*pieces[:-1], pieces[-1]._replace(kind="share")], bodies
    return [*pieces, Piece("share", Number(Fraction(1)), None, [])], [*bodies, "NIL"]


def share_in(size: Value, axis: str) -> Value:
    """The share that a size is of the scope, if it is written as one."""
    if isinstance(size, Binary) and size.sign == "*" and size.right == scope_size(axis):
        return size.left
    return Number(Fraction(1)) if size == scope_size(axis) else size


def part_text(walk: Walk, item: Split, pieces: List[Piece], at: int) -> str:
    """The body of a part, which may know its number."""
    piece, before = pieces[at], sum(len(one.repeated) or 1 for one in pieces[:at])
    if piece.kind == "repeat":
        return repeated(walk, item, piece, before, is_alone=len(pieces) == 1)
    here = {"split.index": str(before), "split.total": str(len(pieces))}
    return walk.inner(piece.body, walk.state, here)


def is_counted(walk: Walk, piece: Piece) -> bool:
    """Whether a repeated part reads its number, or a shape below does."""
    traits = walk.context.port.traits
    found = traits.bodies_read([one.body for one in piece.repeated])
    return any(
        name in {read for read, _ in found.names} or any(name in traits.needs(child.name) for child in found.children)
        for name in INDICES
    )


def repeated(walk: Walk, item: Split, piece: Piece, before: int, is_alone: bool) -> str:
    """Parts that are repeated: as many as come nearest to their size, and one at least."""
    if all(one.kind == "fixed" for one in piece.repeated):
        walk.nearly(item, "repeated parts are made equal, so that the last one isn't cut off")
    if is_counted(walk, piece):
        return counted(walk, item, piece, before)
    pattern = pattern_text(walk, item, piece, {})
    if all(one.kind == "fixed" for one in piece.repeated):
        return repeat_text(item.axis, walk.writer.number(piece.size), pattern)
    text = repeat_text(item.axis, equal_length(piece.size, item.axis, walk.writer), pattern)
    narrow = is_less(item.axis, piece.size, walk.writer)
    if is_alone and walk.context.port.guards(walk, item, narrow, pattern):
        return text
    return walk.context.lifted("row" if item.axis != "y" else "rows", [(narrow, pattern), ("", text)])


def repeat_text(axis: str, length: str, pattern: str) -> str:
    return f'Repeat("{axis.upper()}", {length}) {{ {pattern} }}'


def pattern_text(walk: Walk, item: Split, piece: Piece, here: Dict[str, str], index: str = "") -> str:
    """The parts that are repeated, in one of the equal parts; `index` is the text of the first one's number."""
    bodies = []
    for at, one in enumerate(piece.repeated):
        numbered = {"split.index": f"{index} + {at}" if at else index} if index else {}
        bodies.append(walk.inner(one.body, walk.state, {**here, **numbered}))
    if len(bodies) == 1:
        return bodies[0]
    parts = piece.repeated
    if all(one.kind == "fixed" for one in parts):
        parts = [*parts[:-1], parts[-1]._replace(kind="share")]
    return subdivided(item.axis, share_texts(parts, item.axis, walk.writer), bodies)


def counted(walk: Walk, item: Split, piece: Piece, before: int) -> str:
    """The same, where a part knows its number: a symbol that cuts off one part and calls itself for the rest."""
    context, axis = walk.context, item.axis
    if len(context.parameters) + 2 > MOST_PARAMETERS:
        walk.nearly(item, "the parts have no numbers, since a symbol has four parameters at most")
        return repeat_text(axis, walk.writer.number(piece.size), pattern_text(walk, item, piece, {}, str(before)))
    symbol, size = context.further("parts"), walk.writer.number(scope_size(axis))
    at, length = (context.port.known.names.new(name) for name in ("at", "length"))
    parameters = [at, length, *context.parameters]
    pattern = pattern_text(walk, item, piece, {}, at)
    call = Line(symbol, [f"{at} + {len(piece.repeated)}", *parameters[1:]], "", []).head()
    more = subdivided(axis, [length, "1r"], [pattern, call])
    context.lines += [
        Line(symbol, parameters, f"{size} > {length}", [(more, None)]),
        Line(symbol, parameters, "", [(pattern, None)]),
    ]
    first = Line(symbol, [str(before), equal_length(piece.size, axis, walk.writer), *context.parameters], "", []).head()
    alone = Line(symbol, [str(before), size, *context.parameters], "", []).head()
    return context.lifted("count", [(is_less(axis, piece.size, walk.writer), alone), ("", first)])
