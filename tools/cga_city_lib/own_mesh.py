"""A mesh of one's own: parts with a surface each, in a box of size 1, and where it comes in the scope of a solid.

It is fitted as `model` fits an asset: along each axis its least coordinate comes to the scope's beginning and its greatest to the
scope's end; where it is flat, it lies at the beginning.
"""
import hashlib
import json
from pathlib import Path
from typing import Any, Dict, List, NamedTuple, Optional, Sequence, Tuple

from .colours import MATERIALS, look_of
from .eye import unit

Point = Tuple[float, float, float]
Colour = Tuple[int, int, int]
GLASS = 0.99  # an opacity below which a surface is seen through
METAL = 0.5
FLAT = 1e-6  # of the longest span, below which corners have one coordinate, but for the rounding of a file's floats
DIGITS = 6  # of a corner in a box of size 1, for a page
OF_SYMBOL = -1  # a material of a page that says to take colour and material of the symbol


class Surface(NamedTuple):
    """How a part looks, in parts from 0 to 1 of light. If there is no colour, that of the name or of the symbol is taken.
    `told` is what a glTF file says, whose pictures are named by `pictures`."""

    name: str
    colour: Optional[Point] = None
    opacity: float = 1.0
    metallic: float = 0.0
    roughness: float = 0.9
    is_double: bool = True
    picture: Optional[Path] = None
    told: Optional[Dict[str, Any]] = None
    pictures: Any = None

    def shown(self) -> Optional[Colour]:
        """Red, green and blue from 0 to 255, or nothing where the symbol has the colour."""
        if self.colour is None:
            return look_of(self.name).colour if self.name else None
        red, green, blue = (round(255 * coded(part)) for part in self.colour)
        return red, green, blue

    def material(self) -> str:
        """The material of a page that is nearest."""
        if self.opacity < GLASS:
            return "glass"
        return "metal" if self.metallic > METAL else str(look_of(self.name).material)

    def tone(self) -> List[int]:
        """Red, green, blue and the number of the material, as a page takes them."""
        colour = self.shown()
        return [0, 0, 0, OF_SYMBOL] if colour is None else [*colour, MATERIALS.index(self.material())]


class Part(NamedTuple):
    """The faces of a surface. If there are normals or places in a texture, each corner has one; v of these counts down."""

    surface: Surface
    corners: List[Point]
    faces: List[Tuple[int, ...]]
    normals: List[Point]
    maps: List[Tuple[float, float]]


class OwnMesh:
    """Parts in a box of size 1. `is_flat` says of each axis whether all corners have one coordinate."""

    def __init__(self, parts: Sequence[Part], points: Sequence[Point]) -> None:
        axes = list(zip(*points))
        self.low, high = [min(axis) for axis in axes], [max(axis) for axis in axes]
        spans = [most - least for least, most in zip(self.low, high)]
        self.is_flat = [span <= FLAT * max(spans) for span in spans]
        self.span = [0.0 if is_flat else span for is_flat, span in zip(self.is_flat, spans)]
        self.parts = [self.fitted(part) for part in parts if part.faces]
        self._told: Optional[Tuple[str, Dict[str, Any]]] = None

    def fitted(self, part: Part) -> Part:
        (a, b, c), (u, v, w) = self.low, [1 / span if span else 0.0 for span in self.span]
        corners = [((x - a) * u, (y - b) * v, (z - c) * w) for x, y, z in part.corners]
        d, e, f = (span or 1.0 for span in self.span)
        normals = [unit((x * d, y * e, z * f)) for x, y, z in part.normals]
        return part._replace(corners=corners, normals=normals)

    def told(self) -> Tuple[str, Dict[str, Any]]:
        """A name by its corners, faces and tones, and these, as a page takes them: of all parts in one list."""
        if self._told is None:
            corners: List[List[float]] = []
            faces: List[List[int]] = []
            tones = [[len(part.corners), *part.surface.tone()] for part in self.parts]
            for part in self.parts:
                faces += [[len(corners) + at for at in face] for face in part.faces]
                corners += [[round(number, DIGITS) for number in corner] for corner in part.corners]
            told = {"corners": corners, "faces": faces, "tones": tones}
            digest = hashlib.sha1(json.dumps(told).encode()).hexdigest()
            self._told = f"own_{digest[:16]}", told
        return self._told

    def number_of_faces(self) -> int:
        return sum(len(part.faces) for part in self.parts)


def placed(part: Part, axes: Sequence[Sequence[float]], size: Sequence[float]) -> List[Point]:
    """The corners of a part in a scope with these axes and sizes, from the scope's corner on."""
    (a, b, c), (d, e, f), (g, h, i) = ([way * long for way in axis] for axis, long in zip(axes, size))
    return [(x * a + y * d + z * g, x * b + y * e + z * h, x * c + y * f + z * i) for x, y, z in part.corners]


def coded(part: float) -> float:
    """A part of light as a part of a colour, by sRGB's curve."""
    part = min(1.0, max(0.0, part))
    return 12.92 * part if part <= 0.0031308 else 1.055 * part ** (1 / 2.4) - 0.055
