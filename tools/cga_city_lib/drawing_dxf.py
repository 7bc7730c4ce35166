"""A plan, a section or an elevation as DXF: what is seen and cut by symbol, and the ground, each on a layer of its own."""
import math
from typing import Iterable, List, Optional, Sequence, Tuple

from .drawing import Drawing
from .dxf import Dxf, layer_name
from .flat import Point, band, cut_line, cut_ring
from .ground_file import Ground
from .ground_solids import box_of
from .hidden import extent, ordered, visible
from .outline import outlines
from .seen_lines import seen_lines

MOST_CELLS, FINE = 3000, 40  # along the longer side, and for each unit
NAME = 1.2  # metres of a letter's height
TICK = 0.4


def town(into: Dxf, drawing: Drawing) -> None:
    """What is seen and what is cut."""
    if drawing.faces:
        low_u, low_v, high_u, high_v = extent(drawing.faces)
        cells = math.ceil(min(MOST_CELLS, FINE * max(high_u - low_u, high_v - low_v, 1)))
        drawn = ordered(visible(drawing.faces, cells))
        for symbol, (p, q) in seen_lines(drawn, outlines(drawn), cells):
            into.line(layer_name("SEEN", symbol or "none"), p, q)
    for cut in drawing.cuts:
        into.polyline(layer_name("CUT", cut.symbol or "none"), cut.points, cut.is_area)


def edges_of(quads: Sequence[Sequence[Point]]) -> List[List[Point]]:
    """Both edges of a band, each as one line."""
    if not quads:
        return []
    return [[quads[0][0], *(quad[1] for quad in quads)], [quads[0][3], *(quad[2] for quad in quads)]]


def ground_on(into: Dxf, ground: Ground) -> None:
    box = box_of(ground)
    for area in ground.areas:
        for ring in (cut_ring(line, box) for line in [area.ring, *area.holes]):
            if len(ring) > 2:
                into.polyline(layer_name(area.kind), ring, True)
    for way in ground.ways:
        for line in cut_line(way.line, box):
            for edge in edges_of(band(line, way.width)):
                into.polyline(layer_name(way.kind), edge, False)
            into.polyline(layer_name(way.kind, "AXIS"), line, False)
    for plot in ground.plots:
        for ring in [plot.ring, *plot.holes]:
            into.polyline("BORDERS", ring, True)
        into.polyline("FRONTS", plot.front, False)


def dimensions(into: Dxf, pairs: Iterable[Tuple[Point, Point]]) -> None:
    for p, q in pairs:
        into.line("DIMENSIONS", p, q)
        size = math.dist(p, q) or 1.0
        right, down = (q[0] - p[0]) / size * TICK, (q[1] - p[1]) / size * TICK
        for x, y in (p, q):
            into.line("DIMENSIONS", (x - right + down, y - down - right), (x + right - down, y + down + right))
        into.text("DIMENSIONS", ((p[0] + q[0]) / 2, (p[1] + q[1]) / 2), f"{size:.2f}", NAME / 2)


def heights(into: Dxf, levels: Sequence[float], left: float) -> None:
    for level in levels:
        into.line("HEIGHTS", (left - 3, -level), (left, -level))
        into.text("HEIGHTS", (left - 4.5, -level), f"{level:+.2f}", NAME / 2)


def dxf_of(
    drawing: Drawing,
    ground: Optional[Ground],
    names: Sequence[Tuple[Point, str]],
    pairs: Sequence[Tuple[Point, Point]],
    levels: Sequence[float],
) -> bytes:
    into = Dxf()
    town(into, drawing)
    if ground and not drawing.look.is_upright():
        ground_on(into, ground)
    if drawing.look.is_upright():
        low_u, _, high_u, _ = drawing.box()
        into.line("GROUND", (low_u - 2, 0.0), (high_u + 2, 0.0))
        heights(into, levels, low_u)
    for point, text in names:
        into.text("NAMES", point, text, NAME)
    dimensions(into, pairs)
    return into.document()
