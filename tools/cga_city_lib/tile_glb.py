"""A tile as glTF in one file: the solids that a job printed, each face with its lot and its symbol."""
import json
import struct
from typing import Any, Dict, Iterator, List, Optional, Sequence, Tuple

from .lot_tile import Corner, Face, Table, lot_table, lot_tile

Facts = Dict[str, Any]  # of each lot its name by the map, and the map's properties


def solids_of(lot: bytes) -> Iterator[Tuple[str, List[Corner], List[bytes]]]:
    """The symbol of each solid in the lines of a lot, its corners, and its faces as they name these."""
    for solid in lot.split(b"\ng ")[1:]:
        symbol, _, lines = solid.partition(b"\n")
        points, *faces = lines.split(b"\nf ")
        numbers = map(float, points.replace(b"v", b"").split())
        yield symbol.decode("latin-1"), list(zip(numbers, numbers, numbers)), faces


class Told:
    """The lots of an OBJ text without its first line: their names, the symbols, and the faces."""

    def __init__(self, town: bytes):
        lots = [lot.partition(b"\n") for lot in (b"\n" + town).split(b"\no ")[1:]]
        self.lots = [name.decode("latin-1") for name, *_ in lots]
        self.symbols: Dict[str, int] = {}
        self.faces = list(self.all([line_feed + lines for _, line_feed, lines in lots]))

    def all(self, lots: Sequence[bytes]) -> Iterator[Face]:
        number = 1
        for at, lines in enumerate(lots):
            for symbol, corners, faces in solids_of(lines):
                kind = self.symbols.setdefault(symbol, len(self.symbols))
                for face in faces:
                    yield Face(at, kind, [corners[int(word) - number] for word in face.split()])
                number += len(corners)


def glb(town: bytes, origin: Corner, facts: Facts) -> bytes:
    """The bytes of the file, whose places are told from the origin, so that floats of four bytes tell them well."""
    told = Told(town)
    names = [(lot, *facts.get(lot, (lot, {}))) for lot in told.lots]
    return lot_tile(told.faces, (lot_table(names), Table("symbol", {"symbol": list(told.symbols)})), origin, {})


def ends_of(data: bytes) -> Optional[Tuple[List[float], List[float]]]:
    """The box of what is drawn, from the corner that places are told from; None where nothing is."""
    (size,) = struct.unpack_from("<I", data, 12)
    scene = json.loads(data[20 : 20 + size])
    found = [accessor for accessor in scene.get("accessors", []) if "min" in accessor]
    if not found:
        return None
    return [min(axis) for axis in zip(*(one["min"] for one in found))], [
        max(axis) for axis in zip(*(one["max"] for one in found))
    ]
