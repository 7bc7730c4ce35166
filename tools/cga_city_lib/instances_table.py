"""The instances that are drawn, as floats that a page takes as they are: for each mesh a table with a slot for each instance.

An instance is told by its line, `LOT SYMBOL SOLID X Y Z AXES W H D`; equal instances have one slot.
"""
import math
from array import array
from typing import Dict, Iterable, Iterator, List, Mapping, Tuple

from .instance_floats import FLOATS, SIZE, SYMBOL, Reader, pieces

FREE = array(
    "f", [-1.0 if at == SYMBOL else 0.0 for at in range(FLOATS)]
).tobytes()  # a symbol below 0: nothing is there
MANY = 1000  # free slots that a table may have anyhow
TABLES = 20  # bits of a place that name the table
NUMBER = (1 << TABLES) - 1
NEAR = 1000.0
SOME = 4096  # lines that are taken at once


def runs(slots: Iterable[int]) -> Iterator[Tuple[int, int]]:
    """Slots in order as ranges of such that follow one another: the first, and the one behind the last."""
    first = behind = -1
    for slot in slots:
        if slot != behind:
            if behind > first:
                yield first, behind
            first = slot
        behind = slot + 1
    if behind > first:
        yield first, behind


class Table:
    """The instances of one mesh. A slot that is free draws nothing until another instance takes it."""

    def __init__(self, number: int, mesh: bytes) -> None:
        self.number, self.mesh, self.data, self.changed = number, mesh.decode("latin-1"), bytearray(), array("I")
        self.free: List[int] = []
        self.is_new = True  # a page has to get all of it

    def __len__(self) -> int:
        return len(self.data) // SIZE

    def put(self, floats: bytes) -> List[int]:
        """The places of the instances that come, in their order."""
        left, total, at = max(0, len(self.free) - len(floats) // SIZE), len(self), 0
        taken = sorted(self.free[left:])
        del self.free[left:]
        for first, behind in runs(taken):
            self.data[SIZE * first : SIZE * behind] = floats[at : at + SIZE * (behind - first)]
            at += SIZE * (behind - first)
        self.data += floats[at:]
        taken += range(total, len(self))
        self.changed.extend(taken)
        return [slot << TABLES | self.number for slot in taken]

    def drop(self, slots: List[int]) -> None:
        slots.sort()
        for first, behind in runs(slots):
            self.data[SIZE * first : SIZE * behind] = FREE * (behind - first)
        self.free += slots
        self.changed.extend(slots)

    def is_sparse(self) -> bool:
        return len(self.free) > MANY and 2 * len(self.free) > len(self)

    def clear(self) -> bytearray:
        """Takes all instances away; gives their floats."""
        was, self.data, self.free, self.changed, self.is_new = self.data, bytearray(), [], array("I"), True
        return was

    def along(self, axis: int) -> Iterator[float]:
        """The places of the instances along an axis."""
        floats = array("f", bytes(self.data))
        return (place for place, symbol in zip(floats[axis::FLOATS], floats[SYMBOL::FLOATS]) if symbol >= 0)


class Instances:
    """What is drawn. `held` has the place of each line: its slot and its table; `more` how often a line is drawn beside once."""

    def __init__(self) -> None:
        self.reader = Reader()
        self.lots: Dict[bytes, int] = {}  # the number of each lot and symbol, in their order
        self.symbols: Dict[bytes, int] = {}
        self.tables: Dict[bytes, Table] = {}
        self.numbered: List[Table] = []
        self.held: Dict[bytes, int] = {}
        self.more: Dict[bytes, int] = {}
        self.offset: Tuple[float, ...] = ()
        self.reach = NEAR  # how far from the offset what comes is looked at no closer

    def __bool__(self) -> bool:
        return bool(self.held)

    def counts(self) -> Dict[bytes, int]:
        """How often each line is drawn."""
        return {**dict.fromkeys(self.held, 1), **{line: more + 1 for line, more in self.more.items()}}

    def take(self, changes: Mapping[bytes, int]) -> None:
        """Takes how much more often each line is drawn than before."""
        self.remove({line: -by for line, by in changes.items() if by < 0})
        come = self.new({line: by for line, by in changes.items() if by > 0})
        if come and self.add(come):
            self.set_offset()
        for table in self.numbered:
            if table.is_sparse():
                self.pack(table)

    def new(self, come: Mapping[bytes, int]) -> List[bytes]:
        """The lines that weren't drawn yet; how much more often the others are drawn is noted."""
        if len(come) == sum(come.values()) and self.held.keys().isdisjoint(come):
            return list(come)
        for line, times in come.items():
            more = self.more.get(line, 0) + times - (line not in self.held)
            self.more.update({line: more} if more else {})
        return [line for line in come if line not in self.held]

    def add(self, lines: List[bytes]) -> bool:
        """Takes lines that are new; whether the offset is far from what is drawn then."""
        most = 0.0
        for at in range(0, len(lines), SOME):
            most = max(most, self.add_some(lines[at : at + SOME]))
        return most > self.reach and self.is_far()

    def add_some(self, lines: List[bytes]) -> float:
        """Takes as many lines as are best taken at once; how far they are from the offset."""
        columns = self.reader.columns(lines)
        if not self.offset:  # whole numbers, so that what is subtracted has no rounding
            self.offset = tuple(float(math.floor(min(axis))) for axis in columns.places)
        for known, told in ((self.lots, columns.lots), (self.symbols, columns.symbols)):
            for name in dict.fromkeys(told):
                known.setdefault(name, len(known))
        floats = columns.floats(self.offset, self.lots, self.symbols)
        for mesh, numbers in columns.by_mesh().items():
            table = self.tables[mesh] if mesh in self.tables else self.table(mesh)
            self.held.update(zip([lines[at] for at in numbers], table.put(pieces(floats, numbers))))
        return columns.farthest(self.offset)

    def dress(self, own: Mapping[bytes, bytes]) -> None:
        """Takes other meshes of one's own: the instances of each symbol whose mesh is another one go into its table."""
        was = self.reader.own
        changed = {symbol for symbol in {*own, *was} if own.get(symbol) != was.get(symbol)}
        moved = [line for line in self.held if line.split(b" ", 2)[1] in changed] if changed else []
        slots: Dict[int, List[int]] = {table.number: [] for table in self.numbered}
        for place in [self.held.pop(line) for line in moved]:
            slots[place & NUMBER].append(place >> TABLES)
        for table in self.numbered if changed else ():
            table.drop(slots[table.number])
            if table.free and len(table.free) == len(table):  # a page may not know its mesh any more
                table.clear()
                table.changed = array("I")
        self.reader.own = dict(own)
        self.add(moved)

    def remove(self, gone: Mapping[bytes, int]) -> None:
        places: Dict[int, List[int]] = {table.number: [] for table in self.numbered}
        for line, times in gone.items():
            left = self.more.pop(line, 0) - times if self.more else -times
            if left > 0:
                self.more[line] = left
            elif left < 0 and line in self.held:
                place = self.held.pop(line)
                places[place & NUMBER].append(place >> TABLES)
        for number, slots in places.items():
            self.numbered[number].drop(slots)

    def table(self, mesh: bytes) -> Table:
        self.tables[mesh] = table = Table(len(self.numbered), mesh)
        self.numbered.append(table)
        return table

    def is_far(self) -> bool:
        """A float of 32 bits holds seven digits, so what is drawn has to be near the offset."""
        axes = [[place for table in self.numbered for place in table.along(axis)] for axis in range(3)]
        low, high = [min(axis) for axis in axes], [max(axis) for axis in axes]
        span, most = max(b - a for a, b in zip(low, high)), max(map(abs, low + high))
        self.reach = max(NEAR, 2 * most)
        return most > 4 * span + NEAR

    def pack(self, table: Table) -> None:
        """Sets the instances of a table side by side again."""
        was, own = table.clear(), [pair for pair in self.held.items() if pair[1] & NUMBER == table.number]
        floats = b"".join([was[SIZE * at : SIZE * at + SIZE] for at in (place >> TABLES for _, place in own)])
        self.held.update(zip([line for line, _ in own], table.put(floats)))
        table.changed = array("I")

    def set_offset(self) -> None:
        """Takes another offset, that is near what is drawn."""
        lines, self.offset, self.held, self.reach = list(self.held), (), {}, NEAR
        for table in self.numbered:
            table.clear()
        self.add(lines)
        for table in self.numbered:
            table.changed = array("I")
