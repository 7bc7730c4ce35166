"""The instances of a town that changes, lot by lot: only lots that a change touches are read again."""
from collections import Counter
from typing import Dict, Iterable, List, Mapping

from .instances import Instance, Lots, instance_of


class KeptInstances:
    def __init__(self) -> None:
        self.lines: Dict[str, "Counter[bytes]"] = {}
        self.lots: Dict[str, List[Instance]] = {}

    def counts(self) -> Dict[bytes, int]:
        """How often each line is drawn."""
        return {line: number for lines in self.lines.values() for line, number in lines.items()}

    def take(self, changes: Mapping[bytes, int]) -> bool:
        """Takes how much more often each line is drawn; whether any is."""
        touched = set()
        for line, number in changes.items():
            if number:
                lot = line.partition(b" ")[0].decode("latin-1")
                touched.add(lot)
                self.lines.setdefault(lot, Counter())[line] += number
        for lot in touched:
            self.lines[lot] = +self.lines[lot]
            self.lots[lot] = [instance_of(line.decode("latin-1")) for line in self.lines[lot].elements()]
        return bool(touched)

    def in_order(self, names: Iterable[str]) -> Lots:
        """The lots that have these names, and behind them any others."""
        known = dict.fromkeys([*names, *self.lots])
        return {name: self.lots.get(name, []) for name in known}
