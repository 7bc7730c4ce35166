"""Reads the answers of a preview as its page does: the values of the head, and how each instance is drawn."""
import json
import struct
from collections import Counter

FLOATS = 12
WAYS = ["+X", "-X", "+Y", "-Y", "+Z", "-Z"]


class State:
    """The head, and the floats of each table by its mesh. A line has no names of solids but those of their meshes."""

    def __init__(self):
        self.head, self.tables, self.lots, self.symbols = {}, {}, [], []

    def take(self, data):
        (size,) = struct.unpack_from("<I", data)
        told, at = json.loads(data[4 : 4 + size]), 4 + size
        if not told["from"]:
            self.tables, self.lots, self.symbols = {}, [], []
        self.lots += told["lots"]
        self.symbols += told["symbols"]
        for table in told["tables"]:
            at = self.table(table, data, at)
        assert at == len(data)
        self.head = {**self.head, **told}

    def table(self, told, data, at):
        slots = struct.unpack_from(f"<{told['slots']}I", data, at)
        number = told["total"] if told["whole"] else told["slots"]
        at += 4 * len(slots)
        rows = [struct.unpack_from(f"<{FLOATS}f", data, at + 4 * FLOATS * row) for row in range(number)]
        known = self.tables.setdefault(told["mesh"], {})
        if told["whole"]:
            known.clear()
        known.update(zip(range(number) if told["whole"] else slots, rows))
        assert set(known) == set(range(told["total"]))
        return at + 4 * FLOATS * number

    def drawn(self):
        """The line of each instance, and how often it has a slot."""
        return Counter(
            self.line(mesh, floats) for mesh, rows in self.tables.items() for floats in rows.values() if floats[3] >= 0
        )

    def line(self, mesh, floats):
        x, y, z, symbol, w, h, d, code, lot = floats[:9]
        place = [a + b for a, b in zip((x, y, z), self.head["offset"])]
        code = int(code)
        axes = WAYS[code % 6] + WAYS[code // 6 % 6] + WAYS[code // 36]
        numbers = [f"{part:.6g}" for part in place] + [axes] + [f"{part:.6g}" for part in (w, h, d)]
        return " ".join([self.lots[int(lot)], self.symbols[int(symbol)], mesh, *numbers])
