"""Which symbols a town draws by meshes of one's own, and where these come from: the words `--mesh SYMBOL=FILE` of a tool, comments
`# mesh SYMBOL FILE` of a script, and the assets in which a script dresses symbols. Of one symbol the first of these counts."""
import os
import re
from functools import lru_cache
from operator import itemgetter
from pathlib import Path
from typing import Dict, Iterable, Iterator, List, Mapping, NamedTuple, Sequence, Tuple

from .call import Namespace, Refused, Words, WrongValue
from .colours import colour_files
from .given_files import Target, reason_of
from .own_mesh import OwnMesh
from .own_mesh_glb import read_glb
from .own_mesh_obj import asset_mesh, read_obj
from .script import Command, lines_of
from .strangers_text import told

READERS = {".obj": read_obj, ".glb": read_glb}
NAME = r"[A-Za-z_]\w{0,31}"
MESH = re.compile(rf"# mesh ({NAME}) (\S.*?\.(?:obj|glb))\s*", re.ASCII | re.IGNORECASE)
BEGUN = re.compile(r"#\s*mesh\b.*\.(obj|glb)\b", re.ASCII | re.IGNORECASE)
HELP = "a mesh of one's own is said as `# mesh SYMBOL FILE`, with a file that ends in .obj or .glb"
OK = ["# ok"]
MOST = 1 << 22  # bytes of a script in which its comments are looked for

Meshes = Dict[str, OwnMesh]  # by symbol


def mesh_word(word: str) -> Tuple[str, str]:
    """SYMBOL=FILE as a symbol and a path."""
    symbol, _, path = word.partition("=")
    is_named = re.fullmatch(NAME, symbol, re.ASCII) and path
    if is_named and Path(path).suffix.lower() not in READERS:
        raise WrongValue(f"`{told(path)}` is no mesh: a mesh is a file that ends in .obj or .glb")
    if not is_named:
        raise WrongValue(f"`{told(word)}` isn't SYMBOL=FILE, such as window=window.glb or tree=tree.obj")
    return symbol, path


def add_words(known: Words) -> None:
    known.add_argument("--mesh", action="append", type=mesh_word, default=[], reads=itemgetter(1))


def files_of(word: Namespace) -> Tuple[List[str], List[Target]]:
    """The files that a tool reads beside those that its words name: of colours, and of meshes that the script's comments name."""
    found = colour_files(getattr(word, "colours", None))
    if not word.town.endswith(".obj") and os.path.isfile(word.town):
        with open(word.town, "rb") as file:
            lines = lines_of(file.read(MOST))
        for said in said_in(lines, Path(word.town).parent).values():
            if not os.path.isfile(said.path):
                read_said(word.town, said)
            found.append(said.path)
    return found, []


worn_mesh = lru_cache(maxsize=64)(asset_mesh)


@lru_cache(maxsize=64)
def read_at(path: str, moment: int, size: int) -> OwnMesh:
    return READERS[Path(path).suffix.lower()](Path(path))


def stamp(path: str) -> Tuple[int, int]:
    """What tells that a file was saved again."""
    seen = os.stat(path)
    return seen.st_mtime_ns, seen.st_size


def read(path: str) -> OwnMesh:
    """The mesh of a file, which is read again where it was saved again."""
    return read_at(path, *stamp(path))


class Said(NamedTuple):
    """A mesh that a comment names: the number of its line, and the path."""

    line: int
    path: str


def said_in(lines: Iterable[str], folder: Path) -> Dict[str, Said]:
    """The mesh of each symbol, as a script's comments say it; the last one of a symbol counts."""
    found = ((number, MESH.fullmatch(line)) for number, line in enumerate(lines, 1) if line.startswith("# mesh "))
    return {match.group(1): Said(number, str(folder / match.group(2))) for number, match in found if match}


def read_said(script: str, said: Said) -> OwnMesh:
    """The mesh of a comment; what is wrong is told with its line."""
    try:
        return read(said.path)
    except OSError as fault:
        raise Refused(f"{script}:{said.line}: {reason_of(said.path, fault)}") from None
    except Refused as fault:
        raise Refused(f"{script}:{said.line}: {fault}") from None


def unread(lines: Sequence[str]) -> Iterator[Tuple[int, str]]:
    """The number of each line that begins so and can't be read, and what it should be."""
    for number, line in enumerate(lines, 1):
        if line.startswith("#") and BEGUN.match(line) and not MESH.fullmatch(line):
            yield number, HELP


def dressed_by(lines: Sequence[str], found: Sequence[Command], answers: Sequence[List[str]]) -> Meshes:
    """The assets in which a script's lines dress symbols, by the lines that were accepted."""
    assets: Dict[str, List[str]] = {}
    worn: Dict[str, str] = {}
    for command, answer in zip(found, answers):
        head, *names = command.words or [""]
        if answer != OK:
            continue
        if head == "asset":
            assets[names[0]] = list(lines[command.first + 1 : command.last])
        elif head == "dress":
            worn[names[0]] = names[1]
        elif head == "undress":
            worn.pop(names[0], None)
    return {symbol: worn_mesh(name, tuple(assets[name])) for symbol, name in worn.items() if name in assets}


def check_drawn(pairs: Iterable[Tuple[str, str]], known: Sequence[str]) -> None:
    """Refuses a word whose symbol draws nothing."""
    unknown = sorted({symbol for symbol, _ in pairs} - set(known))
    if unknown:
        raise Refused(f"nothing is drawn by `{told(unknown[0])}`; symbols that draw are {', '.join(known)}")


def told_of(meshes: Mapping[str, OwnMesh]) -> Tuple[Dict[str, str], Dict[str, object]]:
    """What a page is told: the name of each symbol's mesh, and the meshes by their names."""
    found = {symbol: mesh.told() for symbol, mesh in meshes.items()}
    return {symbol: name for symbol, (name, _) in found.items()}, dict(found.values())
