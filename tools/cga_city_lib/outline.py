"""The lines of faces that are drawn: edges between faces of one symbol in one plane, and within them, aren't."""
from typing import Any, Dict, Iterator, List, NamedTuple, Sequence, Tuple

from .overlaps import Plane

Span = Tuple[float, float]
Vector = Tuple[float, float, float]
SHIFT = 0.00317  # so that lengths of round decimals don't lie where rounding goes either way
SLACK = 0.001  # shorter pieces of edges are no lines


class Rounded(Dict[float, float]):
    """What is within a hundredth counts as one: in a turned town corners of one wall aren't quite in one plane."""

    def __missing__(self, number: float) -> float:
        self[number] = found = round(number + SHIFT, 2)
        return found


class Edge(NamedTuple):
    """An edge of a face: its line, and where on that its ends lie, from the line's foot on."""

    face: int
    line: "Line"
    along: Vector
    foot: Vector
    start: float
    end: float


class Line:
    """The pieces of a line in a plane that faces of one symbol have on either side."""

    def __init__(self, plane: Plane) -> None:
        self.plane, self.sides = plane, ([], [])  # type: Plane, Tuple[List[Span], List[Span]]


def is_backward(way: Vector) -> bool:
    """Whether its first part that counts is below 0, so that the way back stands for both."""
    for part in way:
        if abs(part) >= 0.001 or round(part, 3):
            return part < 0
    return False


def ends_of(p: Vector, q: Vector) -> Tuple[Vector, Vector, float, float]:
    """The line through two points: its direction, its foot, and where on it the points lie."""
    (x, y, z), (u, v, w) = p, q
    a, b, c = u - x, v - y, w - z
    size = (a * a + b * b + c * c) ** 0.5
    a, b, c = a / size, b / size, c / size
    if is_backward((a, b, c)):
        a, b, c = -a, -b, -c
    start, end = x * a + y * b + z * c, u * a + v * b + w * c
    return (a, b, c), (x - start * a, y - start * b, z - start * c), start, end


def edges(faces: Sequence[Any]) -> List[Edge]:
    """The edges of all faces, whose lines have all pieces."""
    found: List[Edge] = []
    rounded = Rounded()
    at = rounded.__getitem__
    planes: Dict[Tuple[Any, ...], Plane] = {}
    lines: Dict[Tuple[Any, ...], Line] = {}
    for number, face in enumerate(faces):
        (a, b, c), (x, y, z) = face.normal, face.corners[0]
        sight = at(a), at(b), at(c), at(x * a + y * b + z * c)
        plane = planes.get((face.symbol, sight)) or planes.setdefault((face.symbol, sight), Plane(sight))
        plane.add(face.corners)
        for p, q in zip(face.corners, face.corners[1:] + face.corners[:1]):
            if abs(p[0] - q[0]) + abs(p[1] - q[1]) + abs(p[2] - q[2]) < 1e-6:
                continue
            along, foot, start, end = ends_of(p, q)
            key = plane, *map(at, along), *map(at, foot)
            line = lines.get(key) or lines.setdefault(key, Line(plane))
            line.sides[start > end].append((min(start, end), max(start, end)))
            found.append(Edge(number, line, along, foot, start, end))
    for plane in planes.values():
        plane.sort()
    for line in lines.values():
        for side in line.sides:
            side.sort()
    return found


def without(piece: Span, others: Sequence[Span]) -> Iterator[Span]:
    """The parts of a piece that no other covers; the others are in order."""
    low, high = piece
    for start, end in others:
        if end <= low + SLACK or start >= high - SLACK:
            continue
        if start > low + SLACK:
            yield low, start
        low = max(low, end)
        if low >= high - SLACK:
            return
    if high > low + SLACK:
        yield low, high


def outlines(faces: Sequence[Any]) -> List[List[Tuple[Span, Span]]]:
    """For each face the segments of its edges that are drawn."""
    drawn: List[List[Tuple[Span, Span]]] = [[] for _ in faces]
    for face, line, (a, b, c), (x, y, z), start, end in edges(faces):
        for low, high in without((min(start, end), max(start, end)), line.sides[start < end]):
            p, q = (x + low * a, y + low * b, z + low * c), (x + high * a, y + high * b, z + high * c)
            if not line.plane.covers(p, q):
                drawn[face].append((p[:2], q[:2]))
    return drawn
