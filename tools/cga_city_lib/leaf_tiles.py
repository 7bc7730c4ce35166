"""Tiles that hold faces of their own: some lots of a town, or the ground of a map."""
import math
from typing import List, Sequence, Tuple

from .ground_file import Ground
from .ground_solids import solids_of
from .lot_tile import Corner, Face, Table, lot_table, lot_tile
from .tileset import Frame, Tile

FINE = 1000  # boxes are rounded outwards to so many parts of a unit
Faces = Sequence[Tuple[int, str, List[Corner]]]  # the place of a lot, a symbol, the corners


def outer(low: Sequence[float], high: Sequence[float]) -> Tuple[Corner, Corner]:
    least = tuple(math.floor(part * FINE) / FINE for part in low)
    most = tuple(math.ceil(part * FINE) / FINE for part in high)
    return least, most  # type: ignore[return-value]


def leaf(name: str, box: Tuple[Corner, Corner], faces: Faces, table: Table) -> Tuple[Tile, bytes]:
    """A tile, and the bytes of its file."""
    x, z = math.floor(box[0][0]), math.floor(box[0][2])
    symbols = {symbol: number for number, symbol in enumerate(dict.fromkeys(symbol for _, symbol, _ in faces))}
    told = [Face(lot, symbols[symbol], corners) for lot, symbol, corners in faces]
    tables = (table, Table("symbol", {"symbol": list(symbols)}))
    data = lot_tile(told, tables, (float(x), 0.0, float(z)), {})
    return Tile((x, z, 0), box, 0.0, name, Frame((x, 0, z), 0)), data


def ground_leaf(name: str, ground: Ground) -> Tuple[Tile, bytes]:
    faces = [
        (0, symbol, [corners[at] for at in face]) for symbol, corners, places in solids_of(ground) for face in places
    ]
    ends = list(zip(*(corner for *_, corners in faces for corner in corners)))
    box = outer([min(part) for part in ends], [max(part) for part in ends])
    return leaf(name, box, faces, lot_table([("ground", "ground", {})]))
