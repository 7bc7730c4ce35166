"""A town as it is drawn to scale: a plan, a section or an elevation, with what is seen and what is cut."""
import math
from typing import Any, Callable, Dict, List, NamedTuple, Optional, Sequence, Tuple

from .hidden import extent, ordered, visible
from .instances import Lots, box_of
from .outline import outlines
from .projection import SIDES, across, from_above
from .walls import project

FAR = 1e9
Point = Tuple[float, float]
Box = Tuple[float, float, float, float]
View = Callable[[Sequence[float]], Tuple[float, float, float]]


class Look(NamedTuple):
    """From where a town is looked at, how deep the plane lies that cuts it, and what the drawing is called."""

    view: View
    depth: float
    title: str

    def is_upright(self) -> bool:
        return self.view is not from_above


class Drawing(NamedTuple):
    look: Look
    faces: List[Any]
    cuts: List[Any]

    def is_empty(self) -> bool:
        return not self.faces and not self.cuts

    def box(self, more: Sequence[Sequence[Point]] = ()) -> Box:
        """What is drawn; to an upright drawing the ground belongs, to a plan what more is said."""
        upright = self.look.is_upright()
        rings = [cut.points for cut in self.cuts] + ([] if upright else list(more))
        boxes = ([extent(self.faces)] if self.faces else []) + [
            (*map(min, zip(*ring)), *map(max, zip(*ring))) for ring in rings
        ]
        low_u, low_v = (min(box[k] for box in boxes) for k in (0, 1))
        high_u, high_v = (max(box[k] for box in boxes) for k in (2, 3))
        return low_u, min(low_v, 0.0) if upright else low_v, high_u, max(high_v, 0.0) if upright else high_v

    def on(self, sheet: Any) -> None:
        """Draws it on a sheet."""
        if self.faces:
            drawn = ordered(visible(self.faces, sheet.cells()))
            sheet.faces(drawn, outlines(drawn))
        sheet.cuts(self.cuts)
        if self.look.is_upright():
            sheet.ground(0.0)


def section(a: Point, b: Point) -> Look:
    """Along the line from the first point to the second, of which the first is at the left."""
    size = math.dist(a, b)
    view = across(((b[0] - a[0]) / size, (b[1] - a[1]) / size))
    return Look(view, view((a[0], 0, a[1]))[2], f"Section from ({a[0]:g}, {a[1]:g}) to ({b[0]:g}, {b[1]:g})")


def elevation(side: str) -> Look:
    return Look(across(SIDES[side]), 2 * FAR, f"Elevation, {side}")


def plan(height: Optional[float]) -> Look:
    title = "Plan from above" if height is None else f"Plan at {height:g}"
    return Look(from_above, 2 * FAR if height is None else height, title)


def drawn(
    town: Lots, look: Look, lots: Optional[List[str]] = None, walls: Optional[Dict[str, float]] = None
) -> Drawing:
    """`walls` has a thickness for each symbol of walls."""
    return Drawing(look, *project(town, look.view, look.depth, lots, walls))


def boxes_of(town: Lots) -> Dict[str, Box]:
    """The box around each lot that draws something, as seen from above."""
    found = {}
    for lot, instances in town.items():
        if instances:
            low, high = box_of({lot: instances})
            found[lot] = (low[0], low[2], high[0], high[2])
    return found
