"""Maps of parcels, and calls of tools/parcels with them, for tests."""
import json
import math
import tempfile
import unittest
from pathlib import Path

from in_process import TESTS, called

CUBES = str(TESTS / "cubes")
RULES = """version 2
rules
attr storey = 3
1: house(floors) -> S(1r, storey * floors, 1r) I("cube")
2: yard -> S(1r, 0.1, 1r) I("cube")
end
attr storey = 3.5
lot left_out 1 0 0 1 1 yard
print
"""
ASKING = RULES.replace("2: yard", '3: yard : Scope.occ("noparent") == "full" -> NIL\n2: yard')


def polygon(*ring, **properties):
    return {
        "type": "Feature",
        "properties": properties,
        "geometry": {"type": "Polygon", "coordinates": [[*ring, ring[0]]]},
    }


def box(x, y, width, depth, **properties):
    return polygon([x, y], [x + width, y], [x + width, y + depth], [x, y + depth], **properties)


def street(*points):
    return {"type": "Feature", "properties": {}, "geometry": {"type": "LineString", "coordinates": points}}


def turned_box(x, y, width, depth, degrees, **properties):
    """A box turned clockwise, as a map is drawn, about its first corner."""
    c, s = math.cos(math.radians(degrees)), math.sin(math.radians(degrees))
    return polygon(
        *[
            [round(x + a * c + b * s, 6), round(y - a * s + b * c, 6)]
            for a, b in ((0, 0), (width, 0), (width, depth), (0, depth))
        ],
        **properties,
    )


class Called(unittest.TestCase):
    def setUp(self):
        folder = tempfile.TemporaryDirectory()
        self.addCleanup(folder.cleanup)
        self.top = Path(folder.name)
        self.map, self.rules, self.town = self.top / "map.geojson", self.top / "rules.cga", self.top / "town.obj"
        self.rules.write_text(RULES)

    def write(self, *features, **more):
        self.map.write_text(json.dumps({"type": "FeatureCollection", "features": features, **more}), encoding="utf-8")

    def call(self, *words):
        return called("parcels", self.map, self.rules, *words)

    def lots(self, *words):
        status, out, said = self.call(*words)
        self.assertEqual(status, 0, said)
        return [line.split("  #")[0] for line in out.split("\n") if line.startswith("lot ")]

    def refused(self, *told, words=(), refusal=1):
        status, out, said = self.call(*words)
        self.assertEqual((status, out), (refusal, ""), said)
        self.assertEqual(said.count("\n"), 1)
        for text in told:
            self.assertIn(text, said)
