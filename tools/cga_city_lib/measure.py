"""What a solid measures, in whole steps of which so many make one unit of the town, so that sums are exact."""
import math
from fractions import Fraction
from typing import Dict, Iterable, List, NamedTuple, Optional, Sequence, Tuple

from .eye import cross, dot
from .forms import FACES_FROM_0, Faces, Form, Whole
from .instances import Lots

KINDS = {faces: kind for (kind, _), faces in FACES_FROM_0.items()}


class Measure(NamedTuple):
    """`plan` and `side` are twice an area, `volume` six times one; `front` and `box` are in millionths, and none where the solid
    is a mesh. `low` and `top` are told from the solid's first corner on."""

    plan: int
    side: int
    front: Optional[int]
    box: Optional[int]
    slack: int
    volume: int
    low: int
    top: int


def minus(p: Whole, q: Whole) -> Whole:
    return p[0] - q[0], p[1] - q[1], p[2] - q[2]


def length(a: Whole) -> int:
    """To the nearest whole number; exact along an axis."""
    return math.isqrt(4 * dot(a, a) + 1) + 1 >> 1


def doubled(corners: Sequence[Whole]) -> Whole:
    """The vector of twice the area of a face."""
    parts = [cross(minus(p, corners[0]), minus(q, corners[0])) for p, q in zip(corners[1:], corners[2:])]
    x, y, z = map(sum, zip(*parts)) if parts else (0, 0, 0)
    return x, y, z


def is_closed(faces: Faces) -> bool:
    """Whether each edge has one face on each side."""
    edges = [edge for face in faces for edge in zip(face, face[1:] + face[:1])]
    return len(set(edges)) == len(edges) and {(b, a) for a, b in edges} == set(edges)


def front_of(corners: Sequence[Whole], faces: Faces) -> Optional[Tuple[int, int]]:
    """The width and the height of the scope that a solid was drawn into, where it is one of the program's."""
    kind = KINDS.get(faces)
    if kind is None:
        return None
    right, other = minus(corners[1], corners[0]), minus(corners[3], corners[0])
    if kind == "quad":
        return length(right), length(other)
    up = cross(other, right)
    return length(right), abs(dot(minus(corners[4], corners[0]), up)) // (length(up) or 1)


def millionths(upper: int, lower: int) -> int:
    """A number that isn't below 0 in millionths, halves upwards."""
    return (2 * upper * 10**6 + lower) // (2 * lower)


class Measured:
    """A town whose solids are measured. Rounded coordinates may be off by a step, exact ones aren't."""

    def __init__(self, lots: Lots, is_exact: bool = False) -> None:
        self.lots, self.is_exact = lots, is_exact
        forms = {instance.form for instances in lots.values() for instance in instances}
        self.one = (
            math.lcm(*(form.one for form in forms)) if hasattr(math, "lcm") else least(form.one for form in forms)
        )
        self.heights: Dict[str, Fraction] = {}
        self.known: Dict[Form, Measure] = {}

    def height(self, text: str) -> Fraction:
        """A number of a corner."""
        if text not in self.heights:
            self.heights[text] = Fraction(text)
        return self.heights[text]

    def of(self, form: Form) -> Measure:
        if form not in self.known:
            self.known[form] = measure(form, self.one)
        return self.known[form]


def least(numbers: Iterable[int]) -> int:
    """The least number that all of these divide."""
    found = 1
    for number in numbers:
        found = found * number // math.gcd(found, number)
    return found


def measure(form: Form, one: int) -> Measure:
    fine = one // form.one
    corners: List[Whole] = [(x * fine, y * fine, z * fine) for x, y, z in form.corners]
    areas = [doubled([corners[at] for at in face]) for face in form.faces]
    closed = len(form.faces) > 3 and is_closed(form.faces)
    volume = sum(dot(corners[face[0]], area) for face, area in zip(form.faces, areas)) if closed else 0
    up = sum(area[1] for area in areas if area[1] > 0), sum(-area[1] for area in areas if area[1] < 0)
    side = sum(length((area[0], 0, area[2])) for area in areas if 1000 * abs(area[1]) <= abs(area[0]) + abs(area[2]))
    heights = [corner[1] for corner in corners]
    front, box, slack = scope_of(form, corners, one)
    return Measure(max(up), side, front, box, slack, abs(volume), min(heights), max(heights))


def scope_of(form: Form, corners: Sequence[Whole], one: int) -> Tuple[Optional[int], Optional[int], int]:
    """The front and the box of the scope in millionths, and how many steps the front is off for each step of a length."""
    if form.scope:
        w, h, d = form.scope.size
        return millionths(*parts(w * h)), millionths(*parts(w * h * d)), 0
    found = front_of(corners, form.faces)
    return (millionths(found[0] * found[1], one * one), None, sum(found)) if found else (None, None, 0)


def parts(number: Fraction) -> Tuple[int, int]:
    return number.numerator, number.denominator
