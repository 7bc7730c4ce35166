"""The tree of 3D Tiles 1.1 over the tiles of a region. There Z is up: what is (x, y, z) in the town is (x, -z, y)."""
import math
from collections import namedtuple

from .rectangle import turned

FINE = 10**6  # the box around a turned one is rounded outwards to so many parts of a unit

# where a tile's numbers are told from: a corner, in the frame that is turned by the angle
Frame = namedtuple("Frame", "origin angle")
TOWN = Frame((0, 0, 0), 0)


class Tile:
    """A tile with its box, least and greatest corner, in the frame that is turned by its angle; without content it only holds
    others, in the frame of the town. A tile with content holds tiles of its own angle."""

    def __init__(self, square, box, error=0.0, uri=None, frame=TOWN):
        self.square, self.box, self.error, self.uri, self.children = square, box, error, uri, []
        self.frame = frame

    def take(self, child):
        """Its box holds that of each child, and its error is no less."""
        self.children.append(child)
        self.error = max(self.error, child.error)
        box = child.box if child.frame.angle == self.frame.angle else around(child.box, child.frame.angle)
        self.box = union(self.box, box) if self.box else box

    def diagonal(self):
        return math.dist(*self.box)

    def held(self, above=TOWN):
        """The tile as the file has it, inside of one that has this frame."""
        frame = self.frame
        held = {
            "boundingVolume": {"box": volume(self.box, frame.origin)},
            "geometricError": self.error,
            "refine": "REPLACE",
        }
        if frame != above:
            held["transform"] = brought(frame, above)
        if self.uri:
            held["content"] = {"uri": self.uri}
        if self.children:
            held["children"] = [child.held(frame) for child in self.children]
        return held


def union(box, other):
    return tuple(map(min, box[0], other[0])), tuple(map(max, box[1], other[1]))


def volume(box, origin):
    """The middle of a box and its half axes, each from the origin."""
    low, high = box
    x, y, z = ((least + most) / 2 - corner for least, most, corner in zip(low, high, origin))
    wide, high, deep = ((most - least) / 2 for least, most in zip(low, high))
    return [x, -z, y, wide, 0, 0, 0, deep, 0, 0, 0, high]


def around(box, angle):
    """The box in the town around one that is turned."""
    (x, low, z), (far_x, high, far_z) = box
    ring = [turned(at, -angle) for at in ((x, z), (far_x, z), (far_x, far_z), (x, far_z))]
    (west, north), (east, south) = (tuple(map(end, zip(*ring))) for end in (min, max))
    return (
        (math.floor(west * FINE) / FINE, low, math.floor(north * FINE) / FINE),
        (math.ceil(east * FINE) / FINE, high, math.ceil(south * FINE) / FINE),
    )


def brought(frame, above):
    """The matrix, column by column, from a frame to one of the same angle, or to that of the town."""
    x, y, z = (one - other for one, other in zip(frame.origin, above.origin))
    if frame.angle == above.angle:
        return [1, 0, 0, 0, 0, 1, 0, 0, 0, 0, 1, 0, x, -z, y, 1]
    (c, s), (x, z) = turned((1, 0), -frame.angle), turned((x, z), -frame.angle)
    return [c, -s, 0, 0, s, c, 0, 0, 0, 0, 1, 0, x, -z, y, 1]


def tree(tiles, grouped):
    """One tile that holds all. `grouped` puts squares of tiles together, some in each."""
    while len(tiles) > 1:
        holders = []
        for square, members in grouped([tile.square for tile in tiles]):
            holder = Tile(square, None)
            for member in members:
                holder.take(tiles[member])
            holder.error = max(holder.error, holder.diagonal())
            holders.append(holder if len(members) > 1 else tiles[members[0]])
        tiles = holders
    return tiles[0]


def tileset(root, plan):
    """The set as the file has it; first stands the digest of the plan that it is of."""
    error = max(root.error, root.diagonal())
    asset = {"version": "1.1", "generator": "tools/districts", "extras": {"plan": plan}}
    return {"asset": asset, "geometricError": error, "root": root.held()}
