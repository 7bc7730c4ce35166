"""A picture of a town by the processor alone: parallel light from a sun with shadows, seen from afar."""
import math
from typing import Any, List, Mapping, Optional, Sequence, Tuple

from .colours import colour_of
from .eye import NOTHING, Eye, Point, dot, normal, unit
from .progress import counted

Colour = Sequence[int]
Look = Tuple[Colour, Point]  # the colour of a face, and its normal
VIEWS = {"bird": (0.55, 0.62, 1.0), "street": (0.5, 0.24, 1.0), "back": (-0.55, 0.62, -1.0), "top": (0.0, 1.0, 0.001)}
SUN = (-0.42, 0.80, 0.62)
SKY, GROUND = (196, 211, 228), (206, 206, 198)
FINE = 2  # rays for each pixel along each axis
SHADOWS = 1600  # cells along each side of what the sun sees
MOST_SLOPE = 40  # cells by which a face may go away from the sun from one cell to the next, before it counts as unlit


class Painter:
    """The colours of cells: of the nearest face in the sun or out of it, else of the ground."""

    def __init__(self, eye: Eye, town: Any, triangles: Sequence[Sequence[Point]], looks: Sequence[Look]):
        self.eye, self.floor = eye, town.box()[0][1]
        self.seen, self.near = eye.draw(triangles)
        sun = Eye(SUN, town.points, SHADOWS, SHADOWS, 0.98)
        self.shadow, self.to_sun = sun.draw(triangles)[1], eye.onto(sun)
        self.tones = [[tone(colour, up, is_lit) for is_lit in (False, True)] for colour, up in looks]
        self.biases = [bias(up) for _, up in looks]

    def ground(self, y: int) -> Tuple[float, List[bytes]]:
        """How near the ground is in a row of cells, and its colours out of the sun and in it."""
        near = (self.eye.scale * self.floor - (self.eye.top - y - 0.5) * self.eye.up[1]) / self.eye.near[1]
        far = 1 - y / self.eye.height
        lit = [a + (b - a) * far for a, b in zip(GROUND, SKY)]
        return near, [bytes(int(part * light) for part in lit) for light in (0.74, 1.0)]

    def row(self, y: int) -> bytes:
        width, shadow, tones = self.eye.width, self.shadow, self.tones
        ground, ground_tones = self.ground(y) if self.eye.near[1] > 0.01 else (0.0, [bytes(SKY)] * 2)
        (ux, uy, uz, u0), (vx, vy, vz, v0), (wx, wy, wz, w0) = self.to_sun
        u0, v0, w0 = (at + by * (y + 0.5) for at, by in ((u0, uy), (v0, vy), (w0, wy)))
        cells, place = [], y * width
        for number, z, x in zip(self.seen[place : place + width], self.near[place : place + width], range(width)):
            if number == NOTHING:
                z, pair, apart = ground, ground_tones, GROUND_BIAS
            else:
                pair, apart = tones[number], self.biases[number]
                if apart is None:
                    cells.append(pair[0])
                    continue
            u, v = int(u0 + ux * x + uz * z), int(v0 + vx * x + vz * z)
            is_inside = 0 <= u < SHADOWS and 0 <= v < SHADOWS
            cells.append(pair[not is_inside or shadow[v * SHADOWS + u] <= w0 + wx * x + wz * z + apart])
        return b"".join(cells)


def bias(up: Point) -> Optional[float]:
    """How much nearer to the sun than a face something has to be, in cells, to shade it: more where the face is steep to
    the sun, since it goes on inside of a cell. None where the sun doesn't reach the face."""
    to = dot(up, unit(SUN))
    slope = math.sqrt(max(0.0, 1 - to * to)) / to if to > 0 else MOST_SLOPE
    return None if slope >= MOST_SLOPE else 1.5 + 1.5 * slope


GROUND_BIAS = bias((0.0, 1.0, 0.0))


def tone(colour: Colour, up: Point, is_lit: bool) -> bytes:
    """A face's colour: by the sky's light from above, and by the sun's where it comes."""
    light = 0.60 + 0.08 * up[1] + (0.50 * max(0.0, dot(up, unit(SUN))) if is_lit else 0.0)
    return bytes(min(255, int(part * light)) for part in colour)


def triangles_of(
    town: Any, eye: Eye, colours: Mapping[str, Colour]
) -> Tuple[List[Tuple[Point, Point, Point]], List[Look]]:
    """The town's triangles, and the colour of each with the normal that the eye sees."""
    triangles, looks = [], []
    for solid in town.solids():
        colour = colours.get(solid.symbol) or colour_of(solid.symbol)
        for face in solid.faces:
            corners = [town.points[at] for at in face]
            up = normal(*corners[:3])
            if dot(up, eye.near) < 0:
                up = tuple(-part for part in up)
            looks += [(colour, up)] * (len(corners) - 2)
            triangles += [(corners[0], corners[i], corners[i + 1]) for i in range(1, len(corners) - 1)]
    return triangles, looks


def smaller(rows: Sequence[bytes]) -> bytes:
    """One row of pixels from FINE rows of cells."""
    parts = [[row[3 * at + c :: 3 * FINE] for row in rows for at in range(FINE)] for c in range(3)]
    pixels = bytearray(len(rows[0]) // FINE)
    for c in range(3):
        pixels[c::3] = bytes(sum(cells) // FINE**2 for cells in zip(*parts[c]))
    return bytes(pixels)


def render(
    town: Any, view: str = "bird", width: int = 1280, height: int = 800, colours: Mapping[str, Colour] = {}
) -> List[bytes]:
    """The picture's rows of red, green and blue bytes, from the top. Symbols with colours of their own are named."""
    eye = Eye(VIEWS[view], town.points, FINE * width, FINE * height, 0.90)
    painter = Painter(eye, town, *triangles_of(town, eye, colours))
    return [smaller([painter.row(y + k) for k in range(FINE)]) for y in counted(range(0, FINE * height, FINE), "rows")]
