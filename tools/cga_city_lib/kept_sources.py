"""The sources of a region that is kept: the lines of the head, the lots, and what undo and redo lead to."""
from collections import deque
from typing import Deque, Dict, Iterable, List, NamedTuple, Optional, Tuple

from .grid import Box, number
from .lot_lines import unusual, usual
from .region import grounds_of

MOST_BACK = 16  # steps of undo, as of one run


class Lot(NamedTuple):
    """A lot's line, its place in the order of the lots, and its ground."""

    line: str
    place: int
    ground: Box


class Edit(NamedTuple):
    """What is to be there: some lots, or none of a name, and perhaps another head. `lines` lead to the head."""

    lots: Dict[str, Optional[Lot]]
    head: Optional[List[str]] = None
    lines: Tuple[str, ...] = ()


def lot_of(line: str, place: int) -> Optional[Tuple[str, Lot]]:
    """A lot with its name; None where the parts of the line can't be told."""
    found = usual(line) or unusual(line)
    if found is None:
        return None
    x, z, width, depth = map(number, found.group(3, 4, 5, 6))
    return found.group(1), Lot(found.string, place, (x, x + width, z, z + depth))


class Sources:
    def __init__(self, head: List[str]) -> None:
        self.head, self.lots, self.places = head, {}, 0  # type: List[str], Dict[str, Lot], int
        self.past: Deque[Edit] = deque(maxlen=MOST_BACK)
        self.future: List[Edit] = []

    def lot(self, line: str) -> Optional[Edit]:
        """The edit that sets a lot. One that is there keeps its place."""
        found = lot_of(line, self.places)
        if found is None:
            return None
        name, lot = found
        return Edit({name: lot._replace(place=self.lots[name].place) if name in self.lots else lot})

    def back(self, edit: Edit) -> Edit:
        """What leads back from an edit that isn't put yet."""
        head = None if edit.head is None else self.head
        return Edit({name: self.lots.get(name) for name in edit.lots}, head)

    def put(self, edit: Edit) -> None:
        for name, lot in edit.lots.items():
            if lot is None:
                self.lots.pop(name, None)
            else:
                self.lots[name] = lot
                self.places = max(self.places, lot.place + 1)
        self.head = self.head if edit.head is None else edit.head

    def did(self, back: Edit) -> None:
        """An edit was accepted, from which that leads back."""
        self.past.append(back)
        self.future.clear()

    def in_order(self) -> List[str]:
        """The names of the lots."""
        return sorted(self.lots, key=lambda name: self.lots[name].place)


class LotsNow:
    """The lots as they are dealt, each by its place in the order."""

    def __init__(self, path: str, sources: Sources) -> None:
        self.path, self.names = path, sources.in_order()
        self.lots = [sources.lots[name].line for name in self.names]
        self.columns, self.angles = columns_of(self.lots), [0.0] * len(self.lots)
        self.known: Dict[str, Tuple[int, List[Tuple[int, ...]]]] = {}  # grounds by the reach

    def grounds(self, reach: str = "0") -> Tuple[int, List[Tuple[int, ...]]]:
        if reach not in self.known:
            self.known[reach] = grounds_of(self.path, self.columns, reach)
        return self.known[reach]


def columns_of(lines: Iterable[str]) -> List[List[str]]:
    """The columns of the lots' grounds: X, Z, width and depth."""
    return [list(column) for column in zip(*(line.split(" ")[3:7] for line in lines))] or [[], [], [], []]
