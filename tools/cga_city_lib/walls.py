"""What is seen of a town and what is cut. Facades are sheets; where a thickness is given they are cut as walls.

A wall is a quad, or a cube in a facade's scope such as a window; both know which way is outwards. The other sides of a
building are seen from inside where it is cut open: they are one plain surface there, as an office's section has them.
"""
import math
from typing import Any, Dict, Iterator, List, Optional, Sequence, Tuple

from .forms import Form
from .instances import Lots, Reals
from .projection import HAIR, INSIDE, Cut, Face, behind, cuts_of, met, normal, seen

Corner = Tuple[float, float, float]


def outwards(faces: Sequence[Sequence[Corner]]) -> Corner:
    """Which way a wall looks: a quad's normal, and of a cube its third direction, which goes from its first corner to its fourth."""
    if len(faces) == 1:
        return normal(list(faces[0]))
    base = faces[-1]  # the corners 1, 2, 3, 4
    way = tuple(b - a for a, b in zip(base[0], base[3]))
    size = math.sqrt(sum(part * part for part in way)) or 1.0
    return tuple(part / size for part in way)  # type: ignore


def inner_face(faces: Sequence[Sequence[Corner]]) -> List[Corner]:
    """The face that lies in the facade's plane, to the room: of a cube the one between corners 1, 2, 6 and 5."""
    if len(faces) == 1:
        return list(faces[0])
    return list(faces[2]) if len(faces) == 6 else list(faces[0])


def seen_from_inside(faces: Sequence[Sequence[Corner]], depth: float) -> Iterator[Face]:
    """A wall that looks away from the eye, behind the plane."""
    kept = behind(inner_face(faces), depth)
    if len(kept) > 2:
        up = normal(kept)
        if abs(up[2]) > 1e-6:
            ring, sign = (kept, 1) if up[2] > 0 else (kept[::-1], -1)
            yield Face(ring, INSIDE, tuple(sign * part for part in up))


def cut_wall(faces: Sequence[Sequence[Corner]], symbol: str, depth: float, thickness: float) -> Iterator[Cut]:
    """Where the plane meets a wall that is a quad: a band of its thickness, inwards."""
    points = met(list(faces[0]), depth)
    across = outwards(faces)
    size = across[0] ** 2 + across[1] ** 2
    if not points or size < 1e-6:
        return
    u, v = (-part / size * thickness for part in across[:2])
    (a, b), (c, d) = points
    yield Cut([(a, b), (c, d), (c + u, d + v), (a + u, b + v)], symbol, True)


def looks_away(faces: Sequence[Sequence[Corner]]) -> bool:
    return outwards(faces)[2] < -1e-6


class InView:
    """A form in a view, from its first corner on: its faces, those of them that look to the eye, and how deep it reaches. The
    view is linear, so that a solid's corners are these, moved."""

    def __init__(self, form: Form, symbol: str, view: Any) -> None:
        points = [view(point) for point in form.points()]
        self.faces = [[points[at] for at in face] for face in form.faces]
        self.is_closed = len(self.faces) > 3
        self.seen = list(seen(self.faces, symbol, math.inf, self.is_closed))
        depths = [point[2] for point in points]
        self.low, self.high = min(depths), max(depths)

    def parts(self, symbol: str, at: Corner, depth: float) -> Tuple[List[Face], List[Cut]]:
        """What is seen and what is cut of a solid whose first corner stands there."""
        if self.high + at[2] <= depth:
            return [Face(moved(face.corners, at), symbol, face.normal) for face in self.seen], []
        if self.low + at[2] > depth:
            return [], []
        corners = self.corners(at)
        return list(seen(corners, symbol, depth, self.is_closed)), cuts_of(corners, symbol, depth)

    def corners(self, at: Corner) -> List[List[Corner]]:
        return [moved(face, at) for face in self.faces]


def moved(corners: Sequence[Corner], by: Corner) -> List[Corner]:
    u, v, d = by
    return [(a + u, b + v, c + d) for a, b, c in corners]


def project(
    lots: Lots, view: Any, depth: float, chosen: Optional[List[str]] = None, walls: Optional[Dict[str, float]] = None
) -> Tuple[List[Face], List[Cut]]:
    """The faces that are seen behind the plane, and what it cuts, of a town's instances. `walls` has a thickness for each
    symbol of walls."""
    faces: List[Face] = []
    cuts: List[Cut] = []
    reals, known = Reals(), {}  # type: Reals, Dict[Tuple[Form, str], InView]
    depth = depth + HAIR
    for lot, instances in lots.items():
        for symbol, form, (x, y, z) in instances if chosen is None or lot in chosen else ():
            own = known.get((form, symbol)) or known.setdefault((form, symbol), InView(form, symbol, view))
            at = view((reals[x], reals[y], reals[z]))
            if walls and symbol in walls and len(own.faces) in (1, 6):
                some, cut = of_wall(own.corners(at), symbol, depth, walls[symbol])
            else:
                some, cut = own.parts(symbol, at, depth)
            faces += some
            cuts += cut
    return faces, cuts


def of_wall(corners: Any, symbol: str, depth: float, thickness: float) -> Tuple[List[Face], List[Cut]]:
    """What is seen of a wall, and what is cut."""
    is_sheet = len(corners) == 1
    cut = list(cut_wall(corners, symbol, depth, thickness)) if is_sheet else cuts_of(corners, symbol, depth)
    if looks_away(corners):
        return list(seen_from_inside(corners, depth)), cut
    return list(seen(corners, symbol, depth, True)), cut
