"""An OBJ text of turned lots, turned back into the town: its numbers have as many decimals as before."""
import math
from typing import Any, Dict, List, Tuple


def decimals(text: bytes) -> int:
    """How many decimals the coordinates of a text have."""
    begin = text.find(b"\nv ") + 3
    return len(text[begin : text.find(b" ", begin)].partition(b".")[2]) if begin > 2 else 0


class Places(Dict[Tuple[bytes, bytes], Tuple[bytes, bytes]]):
    """X and Z in the town, by those in the frame that is turned by an angle in degrees. Corners that stand above each other
    are turned once."""

    def __init__(self, angle: float, places: int):
        self.sine, self.cosine = math.sin(math.radians(angle)), math.cos(math.radians(angle))
        self.form, self.zero = b"%%.%df" % places, b"%.*f" % (places, 0)

    def spelt(self, number: float) -> bytes:
        text = self.form % number
        return self.zero if text == b"-" + self.zero else text

    def __missing__(self, place: Tuple[bytes, bytes]) -> Tuple[bytes, bytes]:
        x, z = map(float, place)
        found = self.spelt(x * self.cosine - z * self.sine), self.spelt(z * self.cosine + x * self.sine)
        self[place] = found
        return found


def solid(text: bytes, places: Places) -> bytes:
    """The lines of one solid, whose vertices stand before its faces."""
    head, *points = text.split(b"\nv ")
    if not points:
        return text
    points[-1], line_feed, rest = points[-1].partition(b"\n")
    words: List[Any] = b" ".join(points).split()
    words[::3], words[2::3] = zip(*[places[place] for place in zip(words[::3], words[2::3])])
    return head + b"\nv %b %b %b" * len(points) % tuple(words) + line_feed + rest


def turned_back(text: bytes, angle: float) -> bytes:
    """The text of some lots, turned back by the angle."""
    if not angle:
        return text
    places = Places(angle, decimals(text))
    return b"\ng ".join([solid(some, places) for some in text.split(b"\ng ")])
