"""Which lines lie within a face: those of one symbol in one plane may lie over each other."""
from operator import itemgetter

MANY = 64  # cells of a face, from which on it is looked at for each line
SLACK = 0.001  # how far within a face the middle of a line has to be


def depth_in(ring, point):
    """How far within a convex ring a point lies; below 0 outside of it."""
    found, (x, y), (x0, y0) = float("inf"), point, ring[-1]
    for x1, y1 in ring:
        wide, high = x1 - x0, y1 - y0
        size = (wide * wide + high * high) ** 0.5
        if size > 1e-9:
            depth = (wide * (y - y0) - high * (x - x0)) / size
            if depth < found:
                found = depth
        x0, y0 = x1, y1
    return found


def area(ring):
    found, (x0, y0) = 0.0, ring[0]
    for x1, y1 in ring[1:] + ring[:1]:
        found += x0 * y1 - x1 * y0
        x0, y0 = x1, y1
    return found / 2


class Plane:
    """The faces of one symbol in one plane, seen along the axis that is nearest to its normal, by the cells of a grid."""

    def __init__(self, normal):
        steepest = max(range(3), key=lambda k: abs(normal[k]))
        self.flat = itemgetter(*[k for k in range(3) if k != steepest])
        self.rings, self.cell, self.cells, self.large = [], 1.0, {}, []

    def add(self, corners):
        ring = [self.flat(corner) for corner in corners]
        self.rings.append(ring if area(ring) >= 0 else ring[::-1])

    def sort(self):
        """To be called between the last face and the first line. A cell is as large as a face is in the middle."""
        boxes = [(*map(min, zip(*ring)), *map(max, zip(*ring))) for ring in self.rings]
        sizes = sorted(max(far_x - x, far_y - y) for x, y, far_x, far_y in boxes)
        self.cell = max(sizes[len(sizes) // 2], SLACK)
        for ring, (x, y, far_x, far_y) in zip(self.rings, boxes):
            columns = range(self.number(x), self.number(far_x) + 1)
            rows = range(self.number(y), self.number(far_y) + 1)
            if len(columns) * len(rows) > MANY:
                self.large.append(ring)
                continue
            for column in columns:
                for row in rows:
                    self.cells.setdefault((column, row), []).append(ring)

    def number(self, at):
        return int(at // self.cell)

    def covers(self, p, q):
        """Whether a face has this line within it, not along its own edge."""
        a, b = self.flat(p), self.flat(q)
        middle = (a[0] + b[0]) / 2, (a[1] + b[1]) / 2
        for rings in (self.cells.get((self.number(middle[0]), self.number(middle[1])), ()), self.large):
            for ring in rings:
                if depth_in(ring, middle) > SLACK and min(depth_in(ring, a), depth_in(ring, b)) > -SLACK:
                    return True
        return False
