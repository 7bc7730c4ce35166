"""The ground of a map on a drawing: areas and streets below the town, borders of parcels above it, names beside these."""
import math
from typing import Iterator, List, Sequence, Set, Tuple

from .colours import colour_of
from .flat import Box, Point, cut_line, cut_ring
from .ground_file import Ground, Way
from .ground_solids import box_of
from .labels import box_along
from .sheet import Sheet, clean, short

ORDER = ("wood", "park", "pavement", "water", "rail", "street")
PLOT = "#eceee2"
BORDER = 'fill="none" stroke="#333" stroke-width=".18" stroke-dasharray="3 .8 .4 .8"'
KERB = 0.3
HEIGHT = 2.2  # of a street's name, in millimetres

SHORTEST = 12.0  # of a line that has a name, in millimetres


def pale(kind: str) -> str:
    return "#{:02x}{:02x}{:02x}".format(*(part + (255 - part) * 11 // 20 for part in colour_of(kind)))


def path_of(sheet: Sheet, rings: Sequence[Sequence[Point]]) -> str:
    return "".join(sheet.path(ring, True) for ring in rings)


def areas(sheet: Sheet, ground: Ground, box: Box) -> None:
    for area in sorted(ground.areas, key=lambda area: ORDER.index(area.kind)):
        rings = [cut_ring(ring, box) for ring in [area.ring, *area.holes]]
        if len(rings[0]) > 2:
            path = path_of(sheet, [ring for ring in rings if len(ring) > 2])
            sheet.add(
                f'<path d="{path}" fill="{pale(area.kind)}" fill-rule="evenodd"><title>{clean(area.name)}</title></path>'
            )


def area_names(sheet: Sheet, ground: Ground) -> Iterator[Box]:
    """Each area's name in its middle; gives where it stands."""
    for area in ground.areas:
        ring = cut_ring(area.ring, sheet.box)
        xs, zs = zip(*ring) if len(ring) > 2 else ((), ())
        if area.name and xs and (max(xs) - min(xs)) * sheet.mm > 0.55 * HEIGHT * len(area.name):
            x, y = sheet.place(((min(xs) + max(xs)) / 2, (min(zs) + max(zs)) / 2))
            sheet.add(
                f'<text x="{short(x)}" y="{short(y)}" font-size="{HEIGHT}" font-style="italic" fill="#444" '
                f'text-anchor="middle">{clean(area.name)}</text>'
            )
            yield box_along(x, y - HEIGHT / 3, area.name, HEIGHT, (1.0, 0.0))


def band(sheet: Sheet, way: Way, lines: List[List[Point]], more: float, colour: str) -> None:
    for line in lines:
        wide = short((way.width + more) * sheet.mm)
        sheet.add(
            f'<path d="{sheet.path(line, False)}" fill="none" stroke="{colour}" stroke-width="{wide}" stroke-linejoin="round"/>'
        )


def ways(sheet: Sheet, ground: Ground, box: Box) -> None:
    some = [(way, cut_line(way.line, box)) for way in sorted(ground.ways, key=lambda way: ORDER.index(way.kind))]
    for way, lines in some:
        if way.kind == "street":
            band(sheet, way, lines, 2 * KERB, "#8a8a88")
    for way, lines in some:
        band(sheet, way, lines, 0.0, "#f4f3ef" if way.kind == "street" else pale(way.kind))


def way_names(sheet: Sheet, ground: Ground, box: Box) -> Iterator[Box]:
    """Each street's name along it, once; gives where it stands."""
    told: Set[str] = set()
    for way in ground.ways:
        lines = cut_line(way.line, box)
        if not way.name or way.name in told or not lines:
            continue
        line = max(lines, key=lambda one: length(sheet, one))
        if length(sheet, line) < max(SHORTEST, 0.55 * HEIGHT * len(way.name)):
            continue
        told.add(way.name)
        yield name_along(sheet, way, line)


def name_along(sheet: Sheet, way: Way, line: Sequence[Point]) -> Box:
    """Puts the name at the middle of a line, along its piece there."""
    p, q = middle_piece(sheet, line)
    (x, y), (u, v) = sorted((sheet.place(p), sheet.place(q)))
    size = min(HEIGHT, max(0.8, 0.6 * way.width * sheet.mm))
    where = (
        f"translate({short((x + u) / 2)} {short((y + v) / 2)}) rotate({short(math.degrees(math.atan2(v - y, u - x)))})"
    )
    sheet.add(
        f'<text transform="{where}" y="{short(size * 0.35)}" font-size="{short(size)}" fill="#444" text-anchor="middle">'
        f"{clean(way.name)}</text>"
    )
    far = math.hypot(u - x, v - y) or 1.0
    return box_along((x + u) / 2, (y + v) / 2, way.name, size, ((u - x) / far, (v - y) / far))


def middle_piece(sheet: Sheet, line: Sequence[Point]) -> Tuple[Point, Point]:
    half, at = length(sheet, line) / 2, 0.0
    for p, q in zip(line, line[1:]):
        at += length(sheet, (p, q))
        if at >= half:
            return p, q
    return line[-2], line[-1]


def length(sheet: Sheet, line: Sequence[Point]) -> float:
    return sheet.mm * sum(((a[0] - b[0]) ** 2 + (a[1] - b[1]) ** 2) ** 0.5 for a, b in zip(line, line[1:]))


def below(sheet: Sheet, ground: Ground) -> List[Box]:
    """Draws what lies under the town; gives where its names stand, on the sheet."""
    sheet.layer("ground")
    areas(sheet, ground, sheet.box)
    plots = "".join(path_of(sheet, [plot.ring, *plot.holes]) for plot in ground.plots)
    sheet.add(f'<path d="{plots}" fill="{PLOT}" fill-rule="evenodd"/>')
    ways(sheet, ground, sheet.box)
    taken = [*area_names(sheet, ground), *way_names(sheet, ground, sheet.box)]
    sheet.add("</g>")
    return taken


def borders(sheet: Sheet, ground: Ground) -> None:
    sheet.layer("borders", BORDER)
    for plot in ground.plots:
        rings = path_of(sheet, [plot.ring, *plot.holes])
        sheet.add(
            f'<path id="{sheet.name}border.{clean(plot.lot)}" d="{rings}"><title>{clean(plot.name or plot.lot)}</title></path>'
        )
    sheet.add("</g>")


def fronts(sheet: Sheet, ground: Ground) -> None:
    """The front line of each lot, which is the side of its rectangle that looks to the street."""
    sheet.layer("fronts", 'fill="none" stroke="#2456a6" stroke-width=".3"')
    for plot in ground.plots:
        sheet.add(f'<path id="{sheet.name}front.{clean(plot.lot)}" d="{sheet.path(plot.front, False)}"/>')
    sheet.add("</g>")


def outer(ground: Ground) -> List[Point]:
    """The corners of what is drawn around the parcels."""
    low_x, low_z, high_x, high_z = box_of(ground)
    return [(low_x, low_z), (high_x, high_z)]
