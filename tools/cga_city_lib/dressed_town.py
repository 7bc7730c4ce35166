"""The town of a tool that draws meshes of one's own: its solids, and the mesh of each symbol that has one."""
from pathlib import Path
from typing import Tuple

from .call import Namespace
from .door import Opened, opened_drawn
from .instances import symbols
from .own_meshes import Meshes, check_drawn, dressed_by, read, read_said, said_in
from .script import lines_of


def opened_dressed(path: str, words: Namespace, is_ordered: bool = True) -> Tuple[Opened, Meshes]:
    found = opened_drawn(path, words, is_ordered, is_bare=True)
    return found, meshes_of(found, words)


def meshes_of(found: Opened, words: Namespace) -> Meshes:
    """The meshes of symbols that draw something: a word counts before a comment, and a comment before an asset."""
    known, meshes = symbols(found.lots), {}  # type: list[str], Meshes
    check_drawn(words.mesh, known)
    if found.told:
        script, answers = found.told
        meshes.update(dressed_by(script.lines, script.found, answers))
    if found.given.is_script:
        said = said_in(lines_of(found.given.data), Path(found.given.path).parent)
        meshes.update({symbol: read_said(found.given.path, one) for symbol, one in said.items()})
    meshes.update({symbol: read(path) for symbol, path in words.mesh})
    return {symbol: mesh for symbol, mesh in meshes.items() if symbol in known}
