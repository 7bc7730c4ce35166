"""Lines that tell instances as floats, many at once: a column of words becomes a column of numbers.

The floats of an instance are: place and symbol; sizes and axes; lot, the moment at which it came, which a page sets, and two
that are free.
"""
from array import array
from itertools import chain
from typing import Callable, Dict, Generic, Iterable, List, NamedTuple, Sequence, TypeVar

FLOATS = 12
SIZE = 4 * FLOATS  # bytes of an instance
SYMBOL, SIZES, LOT, MOMENT = 3, 4, 8, 9
EMPTY = array("f", [-9.0 if at == MOMENT else 0.0 for at in range(FLOATS)]).tobytes()  # its moment is over
WORDS = 10  # of a line
MOST_TEXTS = 200_000  # texts whose values are kept
RIDGED = (b"gable", b"hip")
SOLIDS = (b"cube", b"quad", b"shed", *RIDGED)

Value = TypeVar("Value")


class Kept(Dict[bytes, Value], Generic[Value]):
    """What a function makes of each text, kept for the next time."""

    def __init__(self, of: Callable[[bytes], Value]) -> None:
        super().__init__()
        self.of = of

    def __missing__(self, text: bytes) -> Value:
        if len(self) > MOST_TEXTS:
            self.clear()
        self[text] = value = self.of(text)
        return value


def number_of(text: bytes) -> float:
    """The value of a number as it is written: `n`, `n/d` or a decimal."""
    top, _, bottom = text.partition(b"/")
    return float(top) / float(bottom) if bottom else float(top)


def code_of(axes: bytes) -> float:
    """Axes as one number: for each of them where it points, from 0 to 5, and six times the next."""
    ways = [2 * b"XYZ".index(axes[at + 1]) + (axes[at] == ord("-")) for at in (0, 2, 4)]
    return float(ways[0] + 6 * ways[1] + 36 * ways[2])


class Columns(NamedTuple):
    """Some instances: lots and symbols by name, the mesh of each, places and forms as numbers."""

    lots: List[bytes]
    symbols: List[bytes]
    meshes: List[bytes]
    places: List[List[float]]
    forms: List[List[float]]

    def floats(self, offset: Iterable[float], lots: Dict[bytes, int], symbols: Dict[bytes, int]) -> bytes:
        """What a page takes, one instance after the other."""
        found = array("f", EMPTY * len(self.lots))
        for axis, (places, start) in enumerate(zip(self.places, offset)):
            found[axis::FLOATS] = array("f", [place - start for place in places])
        found[SYMBOL::FLOATS] = array("f", map(symbols.__getitem__, self.symbols))
        for part, numbers in enumerate(self.forms, SIZES):
            found[part::FLOATS] = array("f", numbers)
        found[LOT::FLOATS] = array("f", map(lots.__getitem__, self.lots))
        return found.tobytes()

    def by_mesh(self) -> Dict[bytes, List[int]]:
        """Which of the instances each mesh has."""
        found: Dict[bytes, List[int]] = {mesh: [] for mesh in dict.fromkeys(self.meshes)}
        for number, mesh in enumerate(self.meshes):
            found[mesh].append(number)
        return found

    def farthest(self, offset: Iterable[float]) -> float:
        """How far from the offset the farthest place is along an axis."""
        ends = ((min(places) - start, max(places) - start) for places, start in zip(self.places, offset))
        return max(map(abs, chain.from_iterable(ends)))


class Reader:
    """Reads lines; numbers that were met are kept. `own` has the mesh that stands for each solid of a symbol, if one does."""

    def __init__(self) -> None:
        self.values, self.codes = Kept(number_of), Kept(code_of)
        self.own: Dict[bytes, bytes] = {}

    def columns(self, lines: Sequence[bytes]) -> Columns:
        """The instances of lines, of which there is one at least."""
        words = b" ".join(lines).split(b" ")
        lots, symbols, solids, *texts = (words[at::WORDS] for at in range(WORDS))
        axes = texts.pop(3)
        numbers = [list(map(self.values.__getitem__, column)) for column in texts]
        forms = [*numbers[3:], list(map(self.codes.__getitem__, axes))]
        meshes = [
            solid + (b"_along" if wide >= deep else b"_across") if solid in RIDGED else solid
            for solid, wide, deep in zip(solids, forms[0], forms[2])
        ]
        if self.own:
            worn = zip(symbols, solids, meshes)
            meshes = [self.own.get(symbol, mesh) if solid in SOLIDS else mesh for symbol, solid, mesh in worn]
        return Columns(lots, symbols, meshes, numbers[:3], forms)


def pieces(floats: bytes, numbers: List[int]) -> bytes:
    """Some of the instances, side by side."""
    if SIZE * len(numbers) == len(floats):
        return floats
    return b"".join([floats[SIZE * at : SIZE * at + SIZE] for at in numbers])
