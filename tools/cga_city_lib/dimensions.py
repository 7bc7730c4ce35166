"""Dimensions and heights on a drawing: a line with its length, and marks of levels at the side."""
import math
from typing import Iterable, List, Optional, Sequence, Tuple

from .instances import Lots, Reals
from .labels import box_along
from .sheet import INK, Sheet, short

Point = Tuple[float, float]
TICK, SIZE = 1.1, 1.9  # millimetres
APART = 2.1  # between the texts of two heights
STYLE = f'stroke="{INK}" stroke-width=".13" fill="{INK}"'


def words(x: float, y: float, text: str, more: str = "") -> str:
    return f'<text x="{short(x)}" y="{short(y)}" font-size="{SIZE}" stroke="#fff" stroke-width=".4" paint-order="stroke" {more}>{text}</text>'


def laid(sheet: Sheet, p: Point, q: Point) -> Tuple[Point, Point, float, float]:
    """Both ends on the sheet, from left to right, and the way from one to the other."""
    (x, y), (u, v) = sorted((sheet.place(p), sheet.place(q)))
    size = math.hypot(u - x, v - y) or 1.0
    return (x, y), (u, v), (u - x) / size, (v - y) / size


def text_box(sheet: Sheet, p: Point, q: Point, length: float) -> Tuple[float, float, float, float]:
    """The box around the length that a dimension tells."""
    (x, y), (u, v), right, down = laid(sheet, p, q)
    up = 0.6 + SIZE / 2
    return box_along((x + u) / 2 + up * down, (y + v) / 2 - up * right, f"{length:.2f}", SIZE, (right, down))


def dimension(sheet: Sheet, p: Point, q: Point, length: float) -> None:
    """A line between two points with a stroke across at each end and its length beside its middle."""
    (x, y), (u, v), right, down = laid(sheet, p, q)
    sheet.add(f'<path d="M{short(x)},{short(y)} {short(u)},{short(v)}"/>')
    for a, b in ((x, y), (u, v)):
        s, t = TICK * (right - down) / 2, TICK * (right + down) / 2
        sheet.add(f'<path d="M{short(a - s)},{short(b - t)} {short(a + s)},{short(b + t)}" stroke-width=".25"/>')
    a, b = (x + u) / 2 + 0.6 * down, (y + v) / 2 - 0.6 * right
    turn = (
        f'transform="rotate({short(math.degrees(math.atan2(down, right)))} {short(a)} {short(b)})" text-anchor="middle"'
    )
    sheet.add(words(a, b, f"{length:.2f}", turn))


def dimensions(sheet: Sheet, pairs: Iterable[Tuple[Point, Point]]) -> None:
    pairs = list(pairs)
    if pairs:
        sheet.layer("dimensions", STYLE)
        for p, q in pairs:
            dimension(sheet, p, q, math.dist(p, q))
        sheet.add("</g>")


def levels_of(town: Lots, symbols: Sequence[str], chosen: Optional[Sequence[str]] = None) -> List[float]:
    """The heights of the undersides of what these symbols draw, and of the tops of lots, once each."""
    found, reals = set(), Reals()
    for lot, instances in town.items():
        if not instances or (chosen is not None and lot not in chosen):
            continue
        ends = [(symbol, reals[y], form.ends()) for symbol, form, (_, y, _) in instances]
        found |= {round(at + low[1], 2) for symbol, at, (low, _) in ends if symbol in symbols}
        found.add(round(max(at + high[1] for _, at, (_, high) in ends), 2))
    return sorted(found)


def heights(sheet: Sheet, levels: Sequence[float], left: float) -> None:
    """A mark for each level at a place along the drawing; those that have no room above the last one are left out."""
    sheet.layer("heights", STYLE)
    last = math.inf
    for level in sorted({0.0, *levels}):
        x, y = sheet.place((left, -level))
        if last - y < APART:
            continue
        last = y
        sheet.add(f'<path d="M{short(x)},{short(y)}h-6M{short(x - 4)},{short(y)}l-.8,-1.1h1.6z"/>')
        sign = "\u00b1" if level == 0 else "+" if level > 0 else "\u2212"
        sheet.add(words(x - 6.4, y + (0.65 if level else -0.7), f"{sign}{abs(level):.2f}", 'text-anchor="end"'))
    sheet.add("</g>")


def roomy(
    box: Tuple[float, float, float, float], levels: Sequence[float], part: float = 0.12
) -> Tuple[float, float, float, float]:
    """The box of a drawing, with room at the left for heights: that part of its width."""
    if not levels:
        return box
    room = max(6.0, part * (box[2] - box[0]))
    return box[0] - room, box[1], box[2], box[3]
