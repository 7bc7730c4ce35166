"""The town that a reader of cga_live keeps: how often each instance is drawn, by the text of its line; and how it is drawn."""
from collections import Counter
from fractions import Fraction


class Wrong(Exception):
    """What is told can't be so."""


class Town:
    def __init__(self):
        self.drawn = Counter()
        self.told = 0  # instances that went or came

    def take(self, lines):
        """Applies what was changed, and hands on the other lines, which are the replies."""
        lines = iter(lines)
        for line in lines:
            if not line.startswith("# changed "):
                yield line
                continue
            gone, come = map(int, line.split()[2:])
            if gone + come == 0:
                raise Wrong("a change of nothing")
            self.told += gone + come
            for _ in range(gone):
                self.count(next(lines), "- ", -1)
            for _ in range(come):
                self.count(next(lines), "+ ", 1)

    def count(self, line, sign, by):
        if line[:2] != sign:
            raise Wrong(f"{line!r} where {sign!r} was told")
        instance = line[2:]
        self.drawn[instance] += by
        if self.drawn[instance] < 0:
            raise Wrong(f"{instance} went, and wasn't there")
        if self.drawn[instance] == 0:
            del self.drawn[instance]


BASE = [(0, 0, 0), (1, 0, 0), (1, 0, 1), (0, 0, 1)]
CUBE = [*BASE, (0, 1, 0), (1, 1, 0), (1, 1, 1), (0, 1, 1)]
UNIT = {"cube": CUBE, "quad": [(0, 0, 0), (1, 0, 0), (1, 1, 0), (0, 1, 0)], "shed": [*BASE, (1, 1, 1), (0, 1, 1)]}


def vertices(solid, width, height, depth):
    """A solid's vertices in its scope, from those of its mesh of size 1 where it has one."""
    if solid in UNIT:
        return [(x * width, y * height, z * depth) for x, y, z in UNIT[solid]]
    base = [(x * width, 0, z * depth) for x, _, z in BASE]
    along_x = width >= depth
    if solid == "hip" and width == depth:
        return [*base, (width / 2, height, depth / 2)]
    inset = min(width, depth) / 2 if solid == "hip" else 0
    if along_x:
        return [*base, (inset, height, depth / 2), (width - inset, height, depth / 2)]
    return [*base, (width / 2, height, inset), (width / 2, height, depth - inset)]


def in_world(instance):
    """The lot, the symbol and the vertices of an instance."""
    lot, symbol, solid, *numbers = instance.split(" ")
    axes = numbers.pop(3)
    numbers = [Fraction(number) for number in numbers]
    corner, sizes = numbers[:3], numbers[3:]
    found = []
    for local in vertices(solid, *sizes):
        point = list(corner)
        for along, sign, axis in zip(local, axes[::2], axes[1::2]):
            point["XYZ".index(axis)] += along if sign == "+" else -along
        found.append(tuple(point))
    return lot, symbol, tuple(found)


def decimal(number):
    """With six decimals, halves away from 0."""
    double = 2 * abs(number) * 10**6
    rounded = (double.numerator + double.denominator) // (2 * double.denominator)
    return ("-" if number < 0 and rounded else "") + f"{rounded // 10**6}.{rounded % 10**6:06}"


def drawn_of(town):
    """How often each lot and symbol draws which vertices, as a `print` writes them."""
    found = Counter()
    for instance, times in town.drawn.items():
        lot, symbol, points = in_world(instance)
        found[lot, symbol, tuple(" ".join(map(decimal, point)) for point in points)] += times
    return found


def printed(lines):
    """The same of the lines of a `print`."""
    found, lot, symbol, points = Counter(), None, None, []
    for line in [*lines, "g"]:
        if line[:1] in ("o", "g") and points:
            found[lot, symbol, tuple(points)] += 1
            points = []
        if line.startswith("o "):
            lot = line[2:]
        elif line.startswith("g "):
            symbol = line[2:]
        elif line.startswith("v "):
            points.append(line[2:])
    return found
