"""Dimensions on a sheet: fronts of lots on the plan, buildings and the gaps between them on a section, and chosen lines."""
import math
from typing import Any, Dict, Iterator, List, NamedTuple, Sequence, Tuple

from .call import WrongValue
from .dimensions import STYLE, dimension, text_box
from .drawing import Box, Drawing, Point
from .drawing_words import line
from .frame import Frame
from .ground_file import Ground
from .labels import Labels

OFF, LEAST = 1.7, 7.0  # millimetres from a front to its dimension, and of the shortest one
LOW = 0.5  # metres: what is lower, such as a lawn, is no building
BELOW = 3.2  # millimetres from the ground to the chain below it
Pair = Tuple[Point, Point]
Span = Tuple[float, float]


class Chosen(NamedTuple):
    """A line whose length is told: in the plan, or in section A or B from its begin along the drawing, and high."""

    drawing: str
    pair: Pair


def chosen(word: str) -> Chosen:
    """`X,Z,X,Z` or `A:U,V,U,V`."""
    letter, colon, rest = word.rpartition(":")
    if colon and letter not in ("A", "B"):
        raise WrongValue(f"`{word}` names no section: A:U,V,U,V or B:U,V,U,V; of the plan X,Z,X,Z alone")
    return Chosen(f"section.{letter}" if letter else "plan", line(rest))


def outside(front: Sequence[Point], ring: Sequence[Point], by: float) -> Pair:
    """The front, moved so far away from the parcel."""
    (a, b), (c, d) = front
    size = math.dist(*front) or 1.0
    x, z = (b - d) / size, (c - a) / size
    middle = [sum(axis) / len(ring) for axis in zip(*ring)]
    if (a - middle[0]) * x + (b - middle[1]) * z < 0:
        x, z = -x, -z
    return (a + x * by, b + z * by), (c + x * by, d + z * by)


def of_plan(frame: Frame, ground: Ground, more: Sequence[Pair], labels: Labels) -> None:
    """The fronts of parcels, outside or inside, where they have room, and the chosen lines."""
    frame.layer("dimensions", STYLE)
    for pair in more:
        put(frame, pair, labels)
    for plot in ground.plots:
        if math.dist(*plot.front) * frame.mm >= LEAST:
            tried = [outside(plot.front, plot.ring, way * OFF / frame.mm) for way in (1, -1)]
            free = [pair for pair in tried if labels.free(text_box(frame, *pair, math.dist(*pair)))]
            for pair in free[:1]:
                put(frame, pair, labels)
    frame.add("</g>")


def put(frame: Frame, pair: Pair, labels: Labels) -> None:
    length = math.dist(*pair)
    dimension(frame, *pair, length)
    labels.taken.append(text_box(frame, *pair, length))


def buildings(drawing: Drawing) -> List[Span]:
    """From where to where along a section each building is cut."""
    found: List[Span] = []
    spans = (tuple(map(end, zip(*cut.points))) for cut in drawing.cuts for end in (min, max))
    for (low, top), (high, _) in sorted(zip(*[iter(spans)] * 2)):
        if top > -LOW:
            continue
        if found and low <= found[-1][1] + 0.01:
            found[-1] = found[-1][0], max(high, found[-1][1])
        else:
            found.append((low, high))
    return found


def chain(spans: Sequence[Span]) -> Iterator[Span]:
    """Each building, and each gap between two."""
    for k, (low, high) in enumerate(spans):
        if k:
            yield spans[k - 1][1], low
        yield low, high


def of_section(frame: Frame, drawing: Drawing, begin: float, more: Sequence[Pair]) -> None:
    frame.layer("dimensions", STYLE)
    down = BELOW / frame.mm
    for low, high in chain(buildings(drawing)):
        if (high - low) * frame.mm >= LEAST:
            dimension(frame, (low, down), (high, down), high - low)
    for (u, v), (w, t) in more:
        dimension(frame, (u + begin, -v), (w + begin, -t), math.hypot(w - u, t - v))
    frame.add("</g>")


def with_room(box: Box) -> Box:
    """The box of a section, with room below for its chain."""
    low_u, low_v, high_u, high_v = box
    return low_u, low_v, high_u, high_v + max(0.3 * (high_v - low_v), 0.05 * (high_u - low_u))


def by_drawing(words: Sequence[Chosen]) -> Dict[str, List[Pair]]:
    found: Dict[str, List[Any]] = {"plan": [], "section.A": [], "section.B": []}
    for word in words:
        found[word.drawing].append(word.pair)
    return found
