"""A town of parcels as 3D Tiles that stand on the globe: tiles of near lots, and the ground as a tile of its own."""
import json
from pathlib import Path
from typing import Any, Dict, Iterator, List, Sequence, Tuple

from .call import Refused
from .cityjson import faces_of
from .drawing import boxes_of
from .files import write
from .globe import Matrix, globe_of, place_told, standing
from .ground_file import Ground
from .instances import Lots, Reals, box_of
from .leaf_tiles import ground_leaf, leaf, outer
from .lot_tile import Corner, Face, Table, lot_table, lot_tile
from .tileset import Tile

MOST_LOTS = 100  # of a tile
FINE = 1000  # boxes are rounded outwards to so many parts of a unit


def split(lots: Sequence[str], middles: Dict[str, Tuple[float, float]]) -> Iterator[Sequence[str]]:
    """The halves of some lots along the axis on which they reach further."""
    axis = max((0, 1), key=lambda k: max(middles[lot][k] for lot in lots) - min(middles[lot][k] for lot in lots))
    rising = sorted(lots, key=lambda lot: middles[lot][axis])
    yield rising[: len(rising) // 2]
    yield rising[len(rising) // 2 :]


class Tiles:
    """The tree of tiles over a town, and the bytes of each file."""

    def __init__(self, lots: Lots, ground: Ground):
        self.lots, self.ground, self.files = lots, ground, {}  # type: ignore[var-annotated]
        self.middles = {lot: ((a + c) / 2, (b + d) / 2) for lot, (a, b, c, d) in boxes_of(lots).items()}
        self.reals = Reals()

    def root(self) -> Tile:
        top = Tile((0, 0, 0), None)
        for tile in (self.kept(ground_leaf("ground.glb", self.ground)), self.tile(list(self.middles))):
            top.take(tile)
        top.error = max(top.error, top.diagonal())
        return top

    def tile(self, some: Sequence[str]) -> Tile:
        if len(some) > MOST_LOTS:
            found = Tile((0, 0, 0), None)
            for half in split(some, self.middles):
                found.take(self.tile(half))
            found.error = max(found.error, found.diagonal())
            return found
        low, high = box_of({lot: self.lots[lot] for lot in some})
        name = f"lots_{len(self.files)}.glb"
        return self.kept(leaf(name, outer(low, high), self.faces(some), self.table(some)))

    def table(self, some: Sequence[str]) -> Table:
        plots = [(lot, self.ground.by_lot.get(lot)) for lot in some]
        return lot_table([(lot, plot.name if plot else lot, plot.properties if plot else {}) for lot, plot in plots])

    def faces(self, some: Sequence[str]) -> List[Tuple[int, str, List[Corner]]]:
        return [(at, *face) for at, lot in enumerate(some) for face in faces_of(self.lots[lot], self.reals)]

    def kept(self, made: Tuple[Tile, bytes]) -> Tile:
        tile, data = made
        self.files[tile.uri] = data
        return tile


def times(one: Matrix, other: Matrix) -> Matrix:
    """The product of two matrices, both column by column."""
    return [sum(one[4 * k + row] * other[4 * column + k] for k in range(4)) for column in range(4) for row in range(4)]


def placed(root: Dict[str, Any], matrix: Matrix) -> Dict[str, Any]:
    """The root of a tileset, brought to where it stands."""
    old = root.get("transform")
    return {**root, "transform": times(matrix, old) if old else matrix}


def write_tileset(path: Path, lots: Lots, ground: Ground) -> None:
    """Writes the tiles beside the set, and the set when all are there."""
    tiles = Tiles(lots, ground)
    root, matrix = tiles.root(), standing(globe_of(ground.place))
    told = {
        "asset": {"version": "1.1", "generator": "tools/globe"},
        "geometricError": root.error,
        "root": placed(root.held(), matrix),
    }
    path.parent.mkdir(parents=True, exist_ok=True)
    for name, data in tiles.files.items():
        write(path.parent / name, data)
    write(path, json.dumps(told, separators=(",", ":")).encode())


def place_tileset(source: Path, path: Path, ground: Ground) -> None:
    """Writes a set of tools/districts as one that stands on the globe, beside it, since it names the same files."""
    try:
        told = json.loads(source.read_text(encoding="utf-8"))
        told["root"] = placed(told["root"], standing(globe_of(ground.place)))
    except (ValueError, KeyError, TypeError):
        raise Refused(f"{source} is no tileset.json: make it by `tools/districts tiles`") from None
    if source.resolve().parent != path.resolve().parent:
        raise Refused(f"{path}: a set names the files beside it: write it into {source.parent}")
    if path.exists() and path.samefile(source):
        raise Refused(f"{path} would be overwritten: write to another file")
    write(path, json.dumps(told, separators=(",", ":")).encode())


def town_glb(lots: Lots, ground: Ground) -> bytes:
    """The town as one file, with its place in `extras`."""
    tiles = Tiles(lots, ground)
    some = list(tiles.middles)
    faces = tiles.faces(some)
    symbols = {symbol: number for number, symbol in enumerate(dict.fromkeys(symbol for _, symbol, _ in faces))}
    told = [Face(lot, symbols[symbol], corners) for lot, symbol, corners in faces]
    tables = (tiles.table(some), Table("symbol", {"symbol": list(symbols)}))
    return lot_tile(told, tables, (0.0, 0.0, 0.0), {"place": place_told(ground.place)})
