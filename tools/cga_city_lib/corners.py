"""The corners of faces as a primitive of a glTF file holds them: places, normals, u and v, and triangles of these."""
from array import array
from math import copysign
from operator import add, itemgetter
from typing import TYPE_CHECKING, Any, Dict, Hashable, List, Sequence, Tuple

from .eye import dot, normal
from .forms import Form
from .glb import INDICES, MOST_SHORT, VERTICES, short
from .uv import directions

if TYPE_CHECKING:
    from .glb import Glb

Point = Tuple[float, float, float]
Way = Tuple[Point, float, float]  # a direction, a form's own part along it, and the sign of that, which 0 has as well
FOURS = {"H": array("H"), "I": array("I")}  # as far as they were asked for
FEW = 5  # solids of a kin that are told one by one
KINS: Dict[Tuple[Any, ...], int] = {}


class Pattern:
    """What all solids of a form share: their corners face by face, with normals and triangles. `parts` are the coordinates by
    axis, from the first corner on, and `ways` directions of u or v with the form's own part along them: few of each, and
    `places` and `maps` pick from what they come to. Patterns of a `kin` differ in the numbers of parts and ways alone.
    """

    def __init__(self, faces: Sequence[Sequence[int]], points: Sequence[Point]) -> None:
        self.number = sum(map(len, faces))
        self.has_four = all(len(face) == 4 for face in faces)
        self.normals, self.triangles = array("f"), array("I")
        pairs: List[Way] = []
        known: Dict[Point, Point] = {}
        for face in faces:
            up = normal(*[points[at] for at in face[:3]])
            first = len(self.normals) // 3
            self.normals.extend(up * len(face))
            for k in range(first + 1, first + len(face) - 1):
                self.triangles.extend((first, k, k + 1))
            u, v = directions(up)
            pair = u, (-v[0], -v[1], -v[2])  # glTF counts v downwards
            for way, own in [(way, dot(points[at], way)) for at in face for way in pair]:
                pairs.append((known.setdefault(way, way), own, copysign(1, own)))
        flat = [(axis, points[at][axis]) for face in faces for at in face for axis in range(3)]
        parts = sorted(set(flat))
        self.parts = [[part for other, part in parts if other == axis] for axis in range(3)]
        self.ways = list(dict.fromkeys(pairs))
        picks = picked(parts, flat), picked(self.ways, pairs)
        self.places, self.maps = itemgetter(*picks[0]), itemgetter(*picks[1])
        ways = array("d", [part for way, _, _ in self.ways for part in way]).tobytes()  # 0 and -0 are two numbers there
        kin = (*picks, *map(len, self.parts), ways, self.normals.tobytes(), self.triangles.tobytes())
        self.kin = KINS.setdefault(kin, len(KINS))


def picked(few: Sequence[Hashable], many: Sequence[Hashable]) -> Tuple[int, ...]:
    """The places of many in a list of few, by what they are."""
    numbers = {what: number for number, what in enumerate(few)}
    return tuple([numbers[what] for what in many])


class Corners:
    """Corners that are told from a low corner on. Solids that follow on each other are told together. Triangles of faces with
    four corners are told at the end, where no other face is there."""

    def __init__(self, low: Point = (0.0, 0.0, 0.0)) -> None:
        self.places, self.normals, self.maps, self.triangles = array("f"), array("f"), array("f"), array("I")
        self.ends = (
            array("f"),
            array("f"),
            array("f"),
        )  # numbers along each axis, with the least and the greatest of solids
        self.number = self.fours = 0
        self.low, self.has_ends = low, True
        self.kin, self.patterns, self.corners = -1, [], []  # type: int, List[Pattern], List[Point]

    def add(self, pattern: Pattern, corner: Point = (0.0, 0.0, 0.0)) -> None:
        """A solid whose first corner stands there. Its texture lies by that."""
        if pattern.kin != self.kin:
            self.tell()
            self.kin = pattern.kin
        self.patterns.append(pattern)
        self.corners.append(corner)

    def tell(self) -> int:
        """Puts the last solids, which are of one kin, behind the others; how many corners there are then."""
        patterns, corners = self.patterns, self.corners
        if not patterns:
            return self.number
        self.patterns, self.corners, self.kin = [], [], -1
        if len(patterns) < FEW:
            for pattern, corner in zip(patterns, corners):
                self.tell_one(pattern, corner)
        else:
            self.tell_many(patterns, corners)
        self.normals.extend(patterns[0].normals * len(patterns))
        first, step, triangles = self.number, patterns[0].number, patterns[0].triangles
        self.number += step * len(patterns)
        if self.fours == first and patterns[0].has_four:
            self.fours = self.number
        else:
            self.tell_fours()
            self.triangles.extend([number + at for number in range(first, self.number, step) for at in triangles])
        return self.number

    def tell_one(self, pattern: Pattern, corner: Point) -> None:
        parts = [[at - low + part for part in parts] for at, low, parts in zip(corner, self.low, pattern.parts)]
        for ends, numbers in zip(self.ends, parts):
            ends.extend(numbers)
        self.places.extend(pattern.places(parts[0] + parts[1] + parts[2]))
        x, y, z = corner
        self.maps.extend(pattern.maps([x * a + y * b + z * c + own for (a, b, c), own, _ in pattern.ways]))

    def tell_many(self, patterns: Sequence[Pattern], corners: Sequence[Point]) -> None:
        """The same by columns, each of which has a number of each solid."""
        columns: List["array[float]"] = []
        for axis, (numbers, low, ends) in enumerate(zip(zip(*corners), self.low, self.ends)):
            starts = [number - low for number in numbers]
            for parts in zip(*[pattern.parts[axis] for pattern in patterns]):
                columns.append(array("f", list(map(add, starts, parts))))
                ends.extend((min(columns[-1]), max(columns[-1])))
        self.places.extend(woven(patterns[0].places(columns)))
        columns, known = [], {}
        for ways in zip(*[pattern.ways for pattern in patterns]):
            way, owns = ways[0][0], [own for _, own, _ in ways]
            if way not in known:
                a, b, c = way
                known[way] = [x * a + y * b + z * c for x, y, z in corners]
            columns.append(array("f", list(map(add, known[way], owns))))
        self.maps.extend(woven(patterns[0].maps(columns)))

    def take(self, other: "Corners") -> None:
        """Takes the corners of another one, which has told its triangles."""
        self.tell()
        self.tell_fours()
        self.has_ends = False
        for own, more in ((self.places, other.places), (self.normals, other.normals), (self.maps, other.maps)):
            own.extend(more)
        self.triangles.extend([self.number + at for at in other.triangles])
        self.number += other.number

    def tell_fours(self) -> None:
        if not self.triangles:
            self.triangles.extend(triangles_of_fours(self.fours, "I"))

    def indices(self) -> "array[Any]":
        if self.fours == self.number <= MOST_SHORT:
            return triangles_of_fours(self.fours, "H")
        self.tell_fours()
        return short(self.triangles, self.number)

    def bounds(self) -> Sequence["array[float]"]:
        """Numbers along each axis, with the least and the greatest in them."""
        if self.has_ends and self.ends[0]:
            return self.ends
        return [self.places[axis::3] for axis in range(3)]

    def primitive(self, glb: "Glb", material: int) -> Dict[str, object]:
        self.tell()
        return {
            "material": material,
            "indices": glb.accessor(self.indices(), "SCALAR", INDICES),
            "attributes": {
                "POSITION": glb.accessor(self.places, "VEC3", VERTICES, self.bounds()),
                "NORMAL": glb.accessor(self.normals, "VEC3", VERTICES),
                "TEXCOORD_0": glb.accessor(self.maps, "VEC2", VERTICES),
            },
        }


def woven(columns: Sequence["array[float]"]) -> "array[float]":
    """The first numbers of all columns, then the second ones, and so on."""
    found = array("f", bytes(4 * len(columns) * len(columns[0])))
    for at, column in enumerate(columns):
        found[at :: len(columns)] = column
    return found


def triangles_of_fours(number: int, kind: str) -> "array[Any]":
    """The triangles of faces that have four corners each, of so many corners."""
    known = FOURS[kind]
    while len(known) * 4 < number * 6:
        at = len(known) // 6 * 4
        known.extend((at, at + 1, at + 2, at, at + 2, at + 3))
    return known[: number // 4 * 6]


def pattern_of(form: Form, known: Dict[Form, Pattern]) -> Pattern:
    """The pattern of a form, which is made once."""
    found = known.get(form)
    if found is None:
        found = known[form] = Pattern(form.faces, form.points())
    return found
