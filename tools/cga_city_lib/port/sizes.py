"""The sizes of a split: fixed ones, shares of what these leave, and parts that are repeated."""
from fractions import Fraction
from typing import List, NamedTuple, Optional

from .tree import Binary, Body, Call, Name, Number, Part, Unary, Value
from .values import PRODUCT, SUM, Writer

HALF = Number(Fraction(1, 2))


class Piece(NamedTuple):
    """A part of a split: `fixed`, `share` or `repeat`, its size, and its body or its parts."""

    kind: str
    size: Value
    body: Optional[Body]
    repeated: List["Piece"]


def scope_size(axis: str) -> Name:
    return Name(f"scope.s{axis}")


def share_of_scope(value: Value, axis: str) -> Value:
    """The length that `'value` is along an axis."""
    is_one = isinstance(value, Number) and value.value == 1
    return scope_size(axis) if is_one else Binary("*", value, scope_size(axis))


def length_of(size: Value, axis: str) -> Value:
    """A size without its `~`, as a length."""
    if isinstance(size, Unary) and size.sign == "~":
        return length_of(size.value, axis)
    if isinstance(size, Unary) and size.sign == "'":
        return share_of_scope(size.value, axis)
    return size


def added(values: List[Value]) -> Value:
    found = values[0]
    for value in values[1:]:
        found = Binary("+", found, value)
    return found


def piece_of(part: Part, axis: str) -> Piece:
    if part.size is None:
        inner = [piece_of(one, axis) for one in part.repeated]
        return Piece("repeat", added([one.size for one in inner]), None, inner)
    kind = "share" if isinstance(part.size, Unary) and part.size.sign == "~" else "fixed"
    return Piece(kind, length_of(part.size, axis), part.body, [])


def pieces_of(parts: List[Part], axis: str) -> List[Piece]:
    return [piece_of(part, axis) for part in parts]


def fixed_sum(pieces: List[Piece]) -> Optional[Value]:
    """What the fixed parts come to, if there are any."""
    fixed = [piece.size for piece in pieces if piece.kind == "fixed"]
    return added(fixed) if fixed else None


def share_texts(pieces: List[Piece], axis: str, writer: Writer) -> List[str]:
    """The size of each part in a Subdiv."""
    shares = [piece for piece in pieces if piece.kind == "share"]
    texts = [writer.number(piece.size) for piece in shares]
    if len(set(texts)) <= 1 or any(piece.kind == "repeat" for piece in pieces):
        factors = ["1r"] * len(texts)
    elif all(text.replace(".", "", 1).isdigit() for text in texts):
        factors = [f"{text}r" for text in texts]
    else:
        factors = computed(pieces, shares, axis, writer)
    left = iter(factors)
    return [
        next(left) if piece.kind == "share" else "1r" if piece.kind == "repeat" else writer.number(piece.size)
        for piece in pieces
    ]


def computed(pieces: List[Piece], shares: List[Piece], axis: str, writer: Writer) -> List[str]:
    """Shares that follow from attributes: lengths, of which the last takes what is left."""
    fixed, whole = fixed_sum(pieces), added([piece.size for piece in shares])
    rest: Value = scope_size(axis) if fixed is None else Binary("-", scope_size(axis), fixed)
    lengths = [Binary("/", Binary("*", piece.size, rest), whole) for piece in shares[:-1]]
    return [*(writer.number(length) for length in lengths), "1r"]


def equal_length(unit: Value, axis: str, writer: Writer) -> str:
    """The length of equal parts whose number is the nearest for parts of a unit."""
    size, one = writer.number(scope_size(axis)), writer.written(unit).at(PRODUCT + 1)
    return f"{size} / floor({size} / {one} + 0.5)"


def is_less(axis: str, unit: Value, writer: Writer) -> str:
    """The condition for shapes with room for less than half a unit, where the nearest number would be none."""
    half = writer.written(Binary("*", unit, HALF))
    return f"{writer.number(scope_size(axis))} < {half.at(SUM)}"


def reads(value: object, name: str) -> bool:
    """Whether a value names this."""
    if isinstance(value, Name):
        return value.name == name
    if isinstance(value, (Call, Unary, Binary)):
        return any(reads(part, name) for part in value)
    return isinstance(value, list) and any(reads(part, name) for part in value)
