"""A mesh of one's own in an OBJ file, with the surfaces of the MTL files that it names; and the asset of a script."""
import re
from pathlib import Path
from typing import Callable, Dict, Iterator, List, Optional, Sequence, Tuple

from .call import Refused
from .materials import linear
from .own_mesh import OwnMesh, Part, Point, Surface
from .strangers_text import told

Corner = Tuple[int, int, int]  # the numbers of a vertex, a place in a texture and a normal, from 0; -1 for none


class Group:
    """The faces of one surface; a corner is taken once."""

    def __init__(self) -> None:
        self.known: Dict[Corner, int] = {}
        self.faces: List[Tuple[int, ...]] = []

    def add(self, corners: Sequence[Corner]) -> None:
        self.faces.append(tuple(self.known.setdefault(corner, len(self.known)) for corner in corners))


class Reader:
    """What the lines of an OBJ text say; `where` names a line in a refusal."""

    def __init__(self, where: Callable[[int], str], folder: Optional[Path]) -> None:
        self.where, self.folder = where, folder
        self.points: List[Point] = []
        self.maps: List[Tuple[float, float]] = []
        self.normals: List[Point] = []
        self.groups: Dict[str, Group] = {}
        self.surfaces: Dict[str, Surface] = {}
        self.now = ""

    def take(self, number: int, line: str) -> None:
        word, *rest = line.split() or [""]
        try:
            if word == "v":
                self.points.append(three(rest))
            elif word == "vt":
                self.maps.append((real(rest[0]), 1 - real(rest[1]) if rest[1:] else 0.0))
            elif word == "vn":
                self.normals.append(three(rest))
            elif word == "f":
                self.groups.setdefault(self.now, Group()).add([self.corner(text) for text in rest])
            elif word == "usemtl" and self.folder is not None:
                self.now = line.split(None, 1)[1].strip() if rest else ""
            elif word == "mtllib" and rest and self.folder is not None:
                self.surfaces.update(surfaces_of(self.folder / line.split(None, 1)[1].strip()))
        except (ValueError, IndexError):
            raise Refused(f"{self.where(number)}: `{told(line.strip())}` is no line of an OBJ file") from None

    def corner(self, text: str) -> Corner:
        parts = (text.split("/") + ["", ""])[:3]
        vertex, place, normal = (
            numbered(part, len(known)) for part, known in zip(parts, (self.points, self.maps, self.normals))
        )
        if vertex < 0:
            raise ValueError
        return vertex, place, normal

    def mesh(self, name: str) -> OwnMesh:
        if not any(group.faces for group in self.groups.values()):
            raise Refused(f"{name}: the mesh has no face")
        most = max(corner[0] for group in self.groups.values() for corner in group.known)
        if most >= len(self.points):
            raise Refused(f"{name}: a face names vertex {most + 1:,}, and {len(self.points):,} are there")
        return OwnMesh([self.part(name, group) for name, group in self.groups.items()], self.points)

    def part(self, name: str, group: Group) -> Part:
        vertices, places, normals = zip(*group.known)
        return Part(
            self.surfaces.get(name) or Surface(name),
            [self.points[at] for at in vertices],
            group.faces,
            [self.normals[at] for at in normals] if within(normals, self.normals) else [],
            [self.maps[at] for at in places] if within(places, self.maps) else [],
        )


def within(numbers: Sequence[int], known: Sequence[object]) -> bool:
    return min(numbers) >= 0 and max(numbers) < len(known)


def numbered(text: str, count: int) -> int:
    """From 0: a number from 1, or backwards from -1; -1 where none is said."""
    if not text:
        return -1
    number = int(text)
    found = number - 1 if number > 0 else count + number
    if number == 0 or found < 0:
        raise ValueError
    return found


def three(words: Sequence[str]) -> Point:
    """Three numbers that a file may have, none of them without an end."""
    x, y, z = map(real, words[:3])
    return x, y, z


def real(text: str) -> float:
    number = float(text)
    if not abs(number) < 1e30:
        raise ValueError
    return number


def joined(lines: Sequence[str]) -> Iterator[Tuple[int, str]]:
    """The lines with their numbers, where one that ends with a backslash goes on in the next."""
    held = ""
    for number, line in enumerate(lines, 1):
        if line.endswith("\\"):
            held += line[:-1] + " "
            continue
        yield number, held + line
        held = ""


def read_obj(path: Path) -> OwnMesh:
    lines = path.read_text(encoding="utf-8", errors="replace").split("\n")
    reader = Reader(lambda number: f"{path}:{number}", path.parent)
    for number, line in joined([line.rstrip("\r") for line in lines]):
        reader.take(number, line)
    return reader.mesh(str(path))


def asset_mesh(name: str, lines: Sequence[str]) -> OwnMesh:
    """The mesh of an asset that the program took, in whose lines nothing is wrong; its surface is the symbol's."""
    reader = Reader(lambda number: f"asset {name}:{number}", None)
    for number, line in enumerate(lines, 1):
        reader.take(number, re.sub(r"/\S*", "", line.partition("#")[0]))
    return reader.mesh(f"asset {name}")


# ---- surfaces


def surfaces_of(path: Path) -> Dict[str, Surface]:
    """The surfaces in an MTL file, by their names."""
    found: Dict[str, Surface] = {}
    name = None
    for number, line in enumerate(path.read_text(encoding="utf-8", errors="replace").split("\n"), 1):
        word, *rest = line.split() or [""]
        try:
            if word == "newmtl":
                name = line.split(None, 1)[1].strip() if rest else ""
                found[name] = Surface(name)
            elif name is not None and rest:
                found[name] = with_word(found[name], word, rest, path.parent)
        except (ValueError, IndexError):
            raise Refused(f"{path}:{number}: `{told(line.strip())}` is no line of an MTL file") from None
    return found


def with_word(surface: Surface, word: str, rest: Sequence[str], folder: Path) -> Surface:
    """The surface with what a line of the file says of it. Kd is a colour as it is seen, Ns how sharp a gleam is."""
    if word == "Kd" and rest[0] not in ("spectral", "xyz"):
        red, green, blue = (linear(share(part)) for part in (rest * 3)[:3])
        return surface._replace(colour=(red, green, blue))
    if word in ("d", "Tr"):
        part = share(rest[-1])
        return surface._replace(opacity=part if word == "d" else 1 - part)
    if word == "Ns":
        return surface._replace(roughness=round((2 / (2 + max(0.0, float(rest[0])))) ** 0.25, 4))
    if word in ("Pr", "Pm"):
        return surface._replace(**{"roughness" if word == "Pr" else "metallic": share(rest[0])})
    if word == "map_Kd":
        return surface._replace(picture=folder / rest[-1], colour=surface.colour or (1.0, 1.0, 1.0))
    return surface


def share(text: str) -> float:
    part = float(text)
    if not 0 <= part <= 1:
        raise ValueError
    return part
