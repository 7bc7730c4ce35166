"""What a page shows: a head of some values, and the instances that are drawn. Whoever asks gets what has changed since.

An answer is binary: the length of its head, the head as JSON, and for each table of the head's `tables` the slots that
changed, as whole numbers of 32 bits, and the floats of these slots or of all.
"""
import json
import secrets
import struct
import threading
from array import array
from collections import Counter, deque, namedtuple
from itertools import chain
from typing import Any, Deque, Dict, Iterable, List, Mapping, Optional, Tuple

from .instance_floats import SIZE
from .instances_table import Instances, Table, runs

SPARE = 10_000  # slots that the log keeps beside as many as are drawn

# what a change was: its number, how many lots and symbols had names before it, and the slots that changed by table
Change = namedtuple("Change", "number lots symbols slots")


class Shown:
    """Each change has a number; a page says the stamp of the last one that it knows, or none."""

    def __init__(self, title: str) -> None:
        self.run, self.number, self.changed = secrets.token_hex(4), 0, threading.Condition()
        self.drawn, self.log, self.kept = Instances(), deque(), 0  # type: Instances, Deque[Change], int
        self.head: Dict[str, Tuple[int, Any]] = {}
        self.renewed: Dict[int, int] = {}  # the number of the change since which a table has to be told whole
        self.put(title=title, said="", is_busy=True, values={})

    def put(self, changes: Mapping[bytes, int] = {}, dress: Optional[Mapping[str, str]] = None, **head: Any) -> None:
        """Takes how much more often each line is drawn, the name of each symbol's own mesh, and values of the head."""
        was = self.drawn.reader.own
        own = was if dress is None else {symbol.encode(): mesh.encode() for symbol, mesh in dress.items()}
        with self.changed:
            told = {name: value for name, value in head.items() if name not in self.head or self.head[name][1] != value}
            if not told and not any(changes.values()) and own == was:
                return
            self.number += 1
            self.head.update({name: (self.number, value) for name, value in told.items()})
            names = len(self.drawn.lots), len(self.drawn.symbols)
            self.drawn.dress(own)
            self.drawn.take(changes)
            self.note(*names)
            self.changed.notify_all()

    def note(self, lots: int, symbols: int) -> None:
        """Keeps which slots changed, for the last change and for as many before it as are worth it."""
        slots = {}
        for table in self.drawn.numbered:
            if table.is_new:
                self.renewed[table.number], table.is_new = self.number, False
            elif table.changed:
                slots[table.number] = table.changed
            table.changed = array("I")
        self.log.append(Change(self.number, lots, symbols, slots))
        self.kept += sum(map(len, slots.values()))
        while self.kept > len(self.drawn.held) + SPARE and len(self.log) > 1:
            self.kept -= sum(map(len, self.log.popleft().slots.values()))

    def replace(self, lines: Iterable[bytes], **head: Any) -> None:
        """Puts a town in the place of what is drawn: only the difference is told."""
        changes = Counter(lines)
        changes.subtract(self.drawn.counts())
        self.put(changes, **head)

    def value(self, name: str, otherwise: Any) -> Any:
        return self.head[name][1] if name in self.head else otherwise

    def known(self, stamp: str) -> int:
        """The number that a stamp says, or 0 where all has to be told."""
        run, _, number = stamp.partition(".")
        if run != self.run or not number.isdigit():
            return 0
        first = self.log[0].number if self.log else self.number + 1
        return int(number) if first - 1 <= int(number) <= self.number else 0

    def after(self, stamp: str, seconds: float = 20) -> bytes:
        """The answer to a page that knows what a stamp says."""
        with self.changed:
            self.changed.wait_for(lambda: self.known(stamp) != self.number, seconds)
            known = self.known(stamp)
            head = {name: value for name, (number, value) in self.head.items() if number > known}
            log = [change for change in self.log if change.number > known]
            parts = list(filter(None, (self.part(table, known, log) for table in self.drawn.numbered)))
            lots, symbols = (log[0].lots, log[0].symbols) if known and log else (0, 0) if not known else (None, None)
            head.update(
                stamp=f"{self.run}.{self.number}",
                tables=[told for told, _ in parts],
                offset=self.drawn.offset,
                lots=names(self.drawn.lots, lots),
                symbols=names(self.drawn.symbols, symbols),
                **{"from": stamp if known else ""},
            )
            return message(head, [piece for _, pieces in parts for piece in pieces])

    def part(self, table: Table, known: int, log: List[Change]) -> Any:
        """What is told of a table, with its pieces, or nothing where nothing of it changed."""
        total = len(table)
        told = {"mesh": table.mesh, "total": total, "whole": True, "slots": 0}
        if not known or self.renewed.get(table.number, 0) > known:
            return told, [bytes(table.data)]
        slots = array("I", sorted({*chain.from_iterable(change.slots.get(table.number, ()) for change in log)}))
        if not slots:
            return None
        told.update(slots=len(slots), whole=2 * len(slots) > total)
        if told["whole"]:
            return told, [slots.tobytes(), bytes(table.data)]
        return told, [slots.tobytes(), *(table.data[SIZE * first : SIZE * behind] for first, behind in runs(slots))]


def names(numbers: Dict[bytes, Any], first: Any) -> List[str]:
    """The names from a number on."""
    return [] if first is None else [name.decode("latin-1") for name in list(numbers)[first:]]


def message(head: Dict[str, Any], pieces: List[bytes]) -> bytes:
    """A head and what follows it, at a place that four divides."""
    text = json.dumps(head).encode()
    text += b" " * (-len(text) % 4)
    return b"".join([struct.pack("<I", len(text)), text, *pieces])
