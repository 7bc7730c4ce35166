"""Names on a drawing that don't lie over each other: each at its place, or beside it, or smaller, else a number."""
from typing import Iterator, List, Optional, Sequence, Tuple

from .sheet import Sheet, clean, short

Point = Tuple[float, float]
Box = Tuple[float, float, float, float]
SIZES = (2.5, 2.1, 1.7)
WIDE = 0.54  # of a letter, by its height
LAST = 1.8


def box_of(x: float, y: float, text: str, size: float) -> Box:
    half = WIDE * size * len(text) / 2
    return x - half, y - 0.8 * size, x + half, y + 0.3 * size


def box_along(x: float, y: float, text: str, size: float, way: Point) -> Box:
    """The box around a text whose middle is there, and which goes along a way of length 1."""
    half, high, (right, down) = WIDE * size * len(text) / 2, size / 2, (abs(way[0]), abs(way[1]))
    wide, tall = right * half + down * high, down * half + right * high
    return x - wide, y - tall, x + wide, y + tall


def overlap(one: Box, other: Box) -> bool:
    return one[0] < other[2] and other[0] < one[2] and one[1] < other[3] and other[1] < one[3]


def tries(x: float, y: float, text: str) -> Iterator[Tuple[float, float, float]]:
    """Where a name may stand and how large, the best first."""
    for size in SIZES:
        wide = WIDE * size * len(text) / 2
        for right, down in ((0, 0), (0, -1.2), (0, 1.2), (0, -2.4), (0, 2.4), (0.6, 0), (-0.6, 0)):
            yield x + right * wide, y + down * size, size


class Labels:
    """Names in the millimetres of a sheet; `taken` is where nothing may stand."""

    def __init__(self, sheet: Sheet, taken: Sequence[Box] = ()):
        self.sheet = sheet
        self.taken: List[Box] = list(taken)
        self.numbered: List[Tuple[int, str]] = []

    def free(self, box: Box) -> bool:
        return not any(overlap(box, other) for other in self.taken)

    def put(self, point: Point, text: str) -> None:
        x, y = self.sheet.place(point)
        for u, v, size in tries(x, y, text):
            box = box_of(u, v, text, size)
            if self.free(box):
                self.write(u, v, text, size, box)
                return
        self.number(x, y, text)

    def number(self, x: float, y: float, text: str) -> None:
        """A number in the name's place; the names follow in a list."""
        self.numbered.append((len(self.numbered) + 1, text))
        told = f"({len(self.numbered)})"
        self.write(x, y, told, LAST, box_of(x, y, told, LAST))

    def write(self, x: float, y: float, text: str, size: float, box: Box) -> None:
        self.taken.append(box)
        self.sheet.add(
            f'<text x="{short(x)}" y="{short(y)}" font-size="{size:g}" text-anchor="middle" stroke="#fff" stroke-width=".5" '
            f'paint-order="stroke">{clean(text)}</text>'
        )

    def list(self) -> str:
        """The names of the numbers, in one line."""
        return "; ".join(f"({number}) {text}" for number, text in self.numbered)


def put_names(sheet: Sheet, names: Sequence[Tuple[Point, str]], labels: Optional[Labels] = None) -> Labels:
    """Puts names on the sheet, those of the least text first, since they find a place more easily."""
    labels = labels or Labels(sheet)
    sheet.layer("names")
    for point, text in sorted(names, key=lambda name: (len(name[1]), name[0])):
        labels.put(point, text)
    sheet.add("</g>")
    return labels
