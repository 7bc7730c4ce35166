"""The instances of a town, lot by lot: where each stands, and its form. Here they come from the lines that a program tells of a
script, and go to the corners and faces that an OBJ text has."""
import math
from typing import Dict, List, NamedTuple, Tuple

from .exact import parted
from .forms import Form, form_of
from .numerals import fixed
from .obj import Solid, Town
from .told_town import Told

PLACES = 6  # decimals that `print` writes
Corner = Tuple[str, str, str]


class Instance(NamedTuple):
    """A solid; the corner has the texts of its numbers, as they were told."""

    symbol: str
    form: Form
    corner: Corner


Lots = Dict[str, List[Instance]]


def instance_of(line: str) -> Instance:
    """The instance that a line tells."""
    _, symbol, kind, x, y, z, axes, w, h, d = line.split(" ")
    return Instance(symbol, form_of(kind, axes, w, h, d), (x, y, z))


def from_told(told: Told) -> Lots:
    lots: Lots = {lot: [] for lot in told.lots}
    kept: Dict[str, str] = {}
    keep, new = kept.setdefault, tuple.__new__
    for line in told.drawn:
        lot, symbol, kind, x, y, z, axes, w, h, d = line.split(" ")
        form = form_of(kind, axes, w, h, d)
        instance = new(Instance, (keep(symbol, symbol), form, (keep(x, x), keep(y, y), keep(z, z))))
        if lot not in lots:
            lots[lot] = []
        lots[lot].append(instance)
    return lots


def symbols(lots: Lots) -> List[str]:
    """In the order in which they are drawn first."""
    return list(dict.fromkeys(instance.symbol for instances in lots.values() for instance in instances))


def number_of(lots: Lots) -> int:
    return sum(map(len, lots.values()))


class Reals(Dict[str, float]):
    """Numbers of corners, by their texts."""

    def __missing__(self, text: str) -> float:
        upper, lower = parted(text)
        self[text] = upper / lower
        return self[text]


def box_of(lots: Lots) -> Tuple[List[float], List[float]]:
    """The least and the greatest coordinate along each axis."""
    corners: Dict[Form, List[Corner]] = {}
    for instances in lots.values():
        for _, form, corner in instances:
            corners.setdefault(form, []).append(corner)
    reals, low, high = Reals(), [math.inf] * 3, [-math.inf] * 3
    for form, some in corners.items():
        for axis, (texts, least, most) in enumerate(zip(zip(*some), *form.ends())):
            numbers = [reals[text] for text in set(texts)]
            low[axis] = min(low[axis], min(numbers) + least)
            high[axis] = max(high[axis], max(numbers) + most)
    return low, high


class Printed:
    """Coordinates as `print` writes them: with so many decimals, halves away from zero."""

    def __init__(self, places: int = PLACES) -> None:
        self.places = places
        self.known: Dict[Tuple[str, int, int], str] = {}

    def text(self, corner: str, part: int, one: int) -> str:
        """Of a corner's number and a part of the form over one."""
        key = corner, part, one
        if key not in self.known:
            upper, lower = parted(corner)
            self.known[key] = fixed(upper * one + part * lower, lower * one, self.places)
        return self.known[key]

    def corners(self, instance: Instance) -> List[Tuple[str, ...]]:
        one, known = instance.form.one, self.known
        found = []
        for corner in instance.form.corners:
            try:
                found.append(tuple([known[text, part, one] for text, part in zip(instance.corner, corner)]))
            except KeyError:
                found.append(tuple([self.text(text, part, one) for text, part in zip(instance.corner, corner)]))
        return found


def printed(lots: Lots, places: int = PLACES) -> Town:
    """The town as the OBJ text of the same instances gives it."""
    town, coordinates = Town([]), Printed(places)
    for lot, instances in lots.items():
        solids = town.lots.setdefault(lot, [])
        for instance in instances:
            base = len(town.texts)
            town.texts += coordinates.corners(instance)
            solids.append(Solid(instance.symbol, [[base + at for at in face] for face in instance.form.faces]))
    numbers = {text: float(text) for text in set(coordinates.known.values())}
    town.points = [tuple([numbers[part] for part in text]) for text in town.texts]
    return town
