"""The drawings of a sheet: the plan over its ground, two sections, two elevations and a perspective."""
import base64
import math
from typing import Dict, List, NamedTuple, Optional, Sequence, Tuple

from . import sheet_dimensions
from .dimensions import heights, levels_of, roomy
from .drawing import Drawing, boxes_of, drawn, elevation, plan, section
from .flat import Box, cut_line
from .frame import Frame, Place
from .ground_file import Ground, Plot, Point
from .ground_sheet import below, borders, fronts, outer
from .labels import Labels, put_names
from .instances import Lots
from .obj import Town
from .perspective import picture
from .sheet import short
from .sheet_parts import text

ACROSS, ALONG, BEHIND = 55.0, 60.0, 45.0  # metres of a section to either side of its middle, and what is seen behind it
LONG = 0.07  # of an elevation's width, for its heights
DOTS = 8  # of a perspective for each millimetre
Line = Tuple[Point, Point]


class View(NamedTuple):
    name: str
    place: Place
    lines: List[str]
    scale: int


def unit(p: Point, q: Point) -> Point:
    size = math.dist(p, q) or 1.0
    return (q[0] - p[0]) / size, (q[1] - p[1]) / size


def around(middle: Point, way: Point, half: float, box: Box) -> Line:
    """A line through a point, as far as it lies within the plan."""
    x, z = way[0] * half, way[1] * half
    ends = [(middle[0] - x, middle[1] - z), (middle[0] + x, middle[1] + z)]
    ((a, b), *_, (c, d)) = (cut_line(ends, box) or [ends])[0]
    return (round(a, 2), round(b, 2)), (round(c, 2), round(d, 2))


def section_lines(plot: Plot, box: Box) -> Tuple[Line, Line]:
    """Through the middle of a lot: across its street, and along its front."""
    xs, zs = zip(*plot.ring)
    middle = (sum(xs) / len(xs), sum(zs) / len(zs))
    along = unit(*plot.front)
    if (along[0], -along[1]) < (0, 0):
        along = (-along[0], -along[1])
    return around(middle, (-along[1], along[0]), ACROSS, box), around(middle, along, ALONG, box)


def lots_near(town: Lots, line: Line) -> List[str]:
    """The lots that a section meets, and those that are seen behind it."""
    (x, z), way = line[0], unit(*line)
    size, found = math.dist(*line), []
    for lot, (low_x, low_z, high_x, high_z) in boxes_of(town).items():
        corners = [(u, v) for u in (low_x, high_x) for v in (low_z, high_z)]
        along = [(u - x) * way[0] + (v - z) * way[1] for u, v in corners]
        near = [(v - z) * way[0] - (u - x) * way[1] for u, v in corners]  # to the eye
        if max(along) > 0 and min(along) < size and min(near) < 0 < max(near) + BEHIND:
            found.append(lot)
    return found


def names_of(town: Lots, ground: Ground) -> List[Tuple[Point, str]]:
    return [(((a + c) / 2, (b + d) / 2), ground.name_of(lot)) for lot, (a, b, c, d) in boxes_of(town).items()]


def plan_view(
    town: Lots, ground: Ground, lines: Sequence[Line], place: Place, pairs: Sequence[Line]
) -> Tuple[View, Labels]:
    drawing = drawn(town, plan(None))
    frame = Frame(place, drawing.box([outer(ground)]), "Plan", "plan")
    taken = below(frame, ground)
    drawing.on(frame)
    borders(frame, ground)
    fronts(frame, ground)
    for line, name in zip(lines, "AB"):
        frame.mark(*line, names=(name, name))
    labels = Labels(frame, taken)
    sheet_dimensions.of_plan(frame, ground, pairs, labels)
    put_names(frame, names_of(town, ground), labels)
    frame.caption()
    scale_bar(frame)
    north(frame)
    return View("plan", place, frame.group(), frame.scale), labels


def scale_bar(frame: Frame) -> None:
    length = next(
        step * 10.0**power for power in range(7) for step in (1, 2, 5) if step * 10**power * frame.mm >= 25
    )
    wide, x, y = length * frame.mm, frame.width - length * frame.mm - 14, frame.height - 2.6
    for k in range(2):
        colour = ("#1a1a1a", "#fff")[k]
        place = f'x="{short(x + k * wide / 2)}" y="{short(y)}" width="{short(wide / 2)}" height="1.4"'
        frame.add(f'<rect {place} fill="{colour}" stroke="#1a1a1a" stroke-width=".15"/>')
    frame.add(text(x - 1, y + 1.4, "0", 2.2, True))
    frame.add(text(x + wide + 1, y + 1.4, f"{length:g} m", 2.2))


def north(frame: Frame) -> None:
    x, y = frame.width - 8, 12
    frame.add(
        f'<g id="north" transform="translate({short(x)} {short(y)})"><circle r="4" fill="none" stroke="#1a1a1a" stroke-width=".2"/>'
        '<path d="M0,-6 1.8,3.2 0,2 -1.8,3.2Z"/><text y="-6.6" font-size="3" text-anchor="middle">N</text></g>'
    )


class Style(NamedTuple):
    """How sections are drawn: the thickness of each symbol's walls, the symbols that have heights, and chosen lines."""

    walls: Dict[str, float]
    floors: Sequence[str]
    pairs: Dict[str, List[Line]]


def upright(frame: Frame, drawing: Drawing, levels: Sequence[float]) -> View:
    """The drawing with its heights and its caption."""
    drawing.on(frame)
    if levels:
        heights(frame, levels, drawing.box()[0] - 1)
    frame.caption()
    return View(frame.name, frame.frame, frame.group(), frame.scale)


def section_view(town: Lots, line: Line, letter: str, place: Place, style: Style) -> Optional[View]:
    lots = lots_near(town, line)
    drawing = drawn(town, section(*line), lots, style.walls)
    if drawing.is_empty():
        return None
    levels = levels_of(town, style.floors, lots)
    name, box = f"section.{letter}", sheet_dimensions.with_room(roomy(drawing.box(), levels))
    frame = Frame(place, box, f"Section {letter}\u2013{letter}", name)
    begin = drawing.look.view((line[0][0], 0, line[0][1]))[0]
    sheet_dimensions.of_section(frame, drawing, begin, style.pairs[name])
    return upright(frame, drawing, levels)


def elevation_view(town: Lots, side: str, told: str, place: Place) -> View:
    drawing, levels = drawn(town, elevation(side)), levels_of(town, [])
    box = roomy(drawing.box(), levels, LONG)
    return upright(Frame(place, box, f"Elevation from the {told}", f"elevation.{told}"), drawing, levels)


def perspective_view(town: Town, title: str, place: Place) -> View:
    x, y, width, height = place
    high = height - 4
    data, what = picture(town, title, round(width * DOTS), round(high * DOTS))
    code = base64.b64encode(data).decode()
    size = f'x="{short(x)}" y="{short(y)}" width="{short(width)}" height="{short(high)}" preserveAspectRatio="xMidYMid slice"'
    lines = [f'<image id="perspective" {size} xlink:href="data:image/png;base64,{code}"/>']
    return View("perspective", place, [*lines, text(x, y + height - 0.8, what, 3, False, ' font-weight="bold"')], 0)
