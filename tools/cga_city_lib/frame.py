"""A drawing in a frame of a sheet, to a round scale of its own."""
import math
from typing import List, Tuple

from .drawing import Box, Point
from .sheet import CELLS, Sheet, clean, short

SCALES = (20, 50, 100, 200, 250, 500, 1000, 1250, 2000, 2500, 5000, 10000, 20000, 50000)
CAPTION = 5.0  # millimetres below a drawing
Place = Tuple[float, float, float, float]  # left, top, width and height in millimetres


class Frame(Sheet):
    """Lines of SVG in the frame's own millimetres, of which (0, 0) is the frame's upper left corner."""

    def __init__(self, place: Place, box: Box, title: str, name: str):
        self.frame, self.box, self.title, self.name = place, box, title, f"{name}."
        _, _, self.width, self.height = place
        self.scale = fitting(box, self.width, self.height - CAPTION)
        self.mm = 1000 / self.scale
        self.lines: List[str] = []
        self.left = (self.width - (box[2] - box[0]) * self.mm) / 2
        self.top = (self.height - CAPTION - (box[3] - box[1]) * self.mm) / 2

    def place(self, point: Point) -> Tuple[float, float]:
        return (point[0] - self.box[0]) * self.mm + self.left, (point[1] - self.box[1]) * self.mm + self.top

    def cells(self) -> int:
        size = max(self.box[2] - self.box[0], self.box[3] - self.box[1])
        return math.ceil(min(CELLS, 4 * self.mm * size)) + 1

    def caption(self) -> None:
        told = f"{self.title}, 1:{self.scale:,}"
        self.add(f'<text x="0" y="{short(self.height - 1)}" font-size="3" font-weight="bold">{clean(told)}</text>')

    def group(self) -> List[str]:
        """The lines as they stand on the sheet."""
        name = self.name[:-1]
        x, y, width, height = self.frame
        cut = f'<clipPath id="frame.{name}"><rect width="{short(width)}" height="{short(height)}"/></clipPath>'
        head = f'<g id="{name}" transform="translate({short(x)} {short(y)})" clip-path="url(#frame.{name})">'
        return [cut, head, *self.lines, "</g>"]


def fitting(box: Box, width: float, height: float) -> int:
    """The largest usual scale at which a drawing has room."""
    wide, high = (box[2] - box[0]) * 1000, (box[3] - box[1]) * 1000
    return next((scale for scale in SCALES if wide / scale <= width and high / scale <= height), SCALES[-1])
