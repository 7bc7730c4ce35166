"""What checks of a region have found, which later cuts of it begin with. Nothing is promised by it: each cut is checked.

A lot is known by its name and its ground, so a finding rests while a lot stands elsewhere, and holds again once it is back.
"""
import json

from .call import Refused
from .files import can_write, write

FILE = "found.json"


class Findings:
    """Pairs of lots that stand in one job, pairs that see each other from afar, and how many rings a lot needs."""

    def __init__(self, folder):
        self.path = folder / FILE
        self.together, self.seen, self.rings = [], [], []
        if self.path.exists():
            try:
                self.together, self.seen, self.rings = json.loads(self.path.read_bytes())
            except (ValueError, TypeError):
                raise Refused(
                    f"{self.path} wasn't written by this tool: take it away; the next check finds it anew"
                ) from None

    def save(self):
        folder = self.path.parent
        if not can_write(folder):
            raise Refused(f"the jobs aren't yet the region, and {folder} can't be written: check it where it can be")
        write(self.path, json.dumps([self.together, self.seen, self.rings], separators=(",", ":")).encode())


def key_of(line, angle):
    """What a finding says of a lot: its name and its ground."""
    _, name, _, *ground = line.split(" ")[:7]
    return f"{name} {' '.join(ground)}{f' turned {angle:g}' if angle else ''}"


class Lots:
    """The lots of a script as findings name them."""

    def __init__(self, region):
        self.region = region
        self.places = {}

    def key(self, at):
        return key_of(self.region.lots[at], self.region.angles[at])

    def place(self, key):
        if not self.places:
            self.places = {self.key(at): at for at in range(len(self.region.lots))}
        return self.places.get(key)

    def pairs(self, found):
        """The pairs that are there, by place."""
        places = ((self.place(one), self.place(other)) for one, other in found)
        return [(one, other) for one, other in places if one is not None and other is not None]

    def numbers(self, found):
        """The number of each lot that is there and has one, by place."""
        places = {self.place(key): number for key, number in found}
        places.pop(None, None)
        return places

    def keys(self, names):
        """What findings say of some lots, by their names."""
        return {name: self.key(at) for at, name in enumerate(self.region.names) if name in names}

    def named(self, pairs):
        """Pairs of lots, given by their names."""
        keys = self.keys({name for pair in pairs for name in pair})
        return [[keys[one], keys[other]] for one, other in pairs]
