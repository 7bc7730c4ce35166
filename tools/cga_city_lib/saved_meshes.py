"""The meshes of one's own of a script that is saved again and again: a file of a mesh that is saved counts as well."""
from pathlib import Path
from typing import Dict, List, Sequence, Tuple

from .about import colours
from .call import Refused
from .own_mesh import OwnMesh
from .own_meshes import Meshes, Said, dressed_by, read, read_said, said_in, stamp
from .script import Command

Pairs = Sequence[Tuple[str, str]]


class SavedMeshes:
    """`words` are symbols with files that a call names; `faults` says of the last save what couldn't be taken."""

    def __init__(self, script: str, words: Pairs = ()) -> None:
        self.script, self.words = script, words
        self.stamps: Dict[str, Tuple[int, int]] = {}
        self.faults: List[str] = []

    def of(self, lines: Sequence[str], found: Sequence[Command], answers: Sequence[List[str]]) -> Meshes:
        """The mesh of each symbol, by the lines that were accepted; one that can't be taken is left out."""
        said = said_in(lines, Path(self.script).parent)
        files = {**{symbol: one.path for symbol, one in said.items()}, **dict(self.words)}
        self.stamps = {path: stamp_of(path) for path in files.values()}
        self.faults = self.unknown(lines, found)
        meshes = dressed_by(lines, found, answers)
        for symbol in files:
            try:
                meshes[symbol] = self.mesh_of(symbol, said)
            except (OSError, Refused) as fault:
                self.faults.append(f"{fault.filename}: {fault.strerror}" if isinstance(fault, OSError) else str(fault))
        return meshes

    def mesh_of(self, symbol: str, said: Dict[str, Said]) -> OwnMesh:
        words = dict(self.words)
        return read(words[symbol]) if symbol in words else read_said(self.script, said[symbol])

    def unknown(self, lines: Sequence[str], found: Sequence[Command]) -> List[str]:
        known = colours(lines, found) if self.words else {}
        return [
            f"--mesh {symbol}={path}: no rule has that symbol" for symbol, path in self.words if symbol not in known
        ]

    def is_changed(self) -> bool:
        """Whether a file of a mesh isn't as it was at the last save."""
        return any(stamp_of(path) != was for path, was in self.stamps.items())


def stamp_of(path: str) -> Tuple[int, int]:
    """What tells that a file was saved again; zeros where it isn't there."""
    try:
        return stamp(path)
    except OSError:
        return 0, 0
