"""The OBJ files that rules insert, as assets of a script."""
from decimal import Decimal, InvalidOperation
from pathlib import Path
from typing import Dict, Iterator, List, NamedTuple, Tuple

from ..numerals import DIGITS, decimal
from .lost import Lost
from .names import Names

FOLDERS = (".", "assets", "..", "../assets")
MOST_VERTICES = 10000


class Mesh(NamedTuple):
    """The name of an asset, its lines `v` and `f`, and its depth by its width."""

    name: str
    lines: List[str]
    depth: str


class Meshes:
    """The meshes that rules name, by the files' names as they are written. Files are looked for beside the rules and in
    `assets`, as in a project of CityEngine."""

    def __init__(self, rules: Path) -> None:
        self.folder, self.names = rules.parent, Names()
        self.found: Dict[str, Mesh] = {}
        self.symbols: Dict[str, str] = {}  # the symbol that is dressed, by the asset

    def path_of(self, name: str) -> Path:
        for folder in FOLDERS:
            for wanted in (name, Path(name).name):
                path = self.folder / folder / wanted
                if path.is_file():
                    return path
        raise Lost(f"no file {name} is there, beside the rules or in assets")

    def named(self, name: str) -> Tuple[str, str]:
        """The asset of a file, and its depth by its width."""
        if name not in self.found:
            if not name.lower().endswith(".obj"):
                raise Lost(f"{name} is no OBJ file")
            path = self.path_of(name)
            lines = list(mesh_lines(path))
            self.found[name] = Mesh(self.names.of(path.stem), lines, depth_of(lines))
        mesh = self.found[name]
        return mesh.name, mesh.depth


def mesh_lines(path: Path) -> Iterator[str]:
    """The lines `v` and `f` of a file, as a script takes them."""
    vertices = 0
    for line in path.read_text(encoding="latin-1").split("\n"):
        words = line.split()
        if words[:1] == ["v"] and len(words) > 3:
            vertices += 1
            yield "v " + " ".join(coordinate(path, word) for word in words[1:4])
        elif words[:1] == ["f"]:
            yield "f " + " ".join(word.split("/")[0] for word in words[1:])
    if not 0 < vertices <= MOST_VERTICES:
        raise Lost(f"{path.name} has {vertices:,} vertices, and an asset 1 to 10,000")


def coordinate(path: Path, word: str) -> str:
    """A coordinate with six decimals at most, and without an exponent."""
    try:
        number = Decimal(word)
    except InvalidOperation:
        number = Decimal("nan")
    text = decimal(f"{number:.6f}") if number.is_finite() and number.adjusted() < DIGITS else None
    if text is None:
        raise Lost(f"{path.name}: {word} is no coordinate")
    return text


def depth_of(lines: List[str]) -> str:
    corners = [[Decimal(word) for word in line.split()[1:]] for line in lines if line.startswith("v ")]
    width, _, depth = (
        max(corner[axis] for corner in corners) - min(corner[axis] for corner in corners) for axis in range(3)
    )
    return decimal(f"{depth / width:.4f}") if width and depth else "0.05"
