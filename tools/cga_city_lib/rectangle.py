"""Rectangles in the plane, X to the right and Z down; an angle, in degrees, turns from X to Z, clockwise as it is drawn."""
import math


def turned(p, angle):
    """A point in the frame that is turned by the angle."""
    s, c = math.sin(math.radians(angle)), math.cos(math.radians(angle))
    return p[0] * c + p[1] * s, p[1] * c - p[0] * s


def turn(p, q, r):
    return (q[0] - p[0]) * (r[1] - p[1]) - (q[1] - p[1]) * (r[0] - p[0])


def half_hull(points):
    half = []
    for p in points:
        while len(half) > 1 and turn(half[-2], half[-1], p) <= 0:
            half.pop()
        half.append(p)
    return half[:-1]


def hull(points):
    points = sorted(set(points))
    return half_hull(points) + half_hull(points[::-1])


def area(ring):
    return abs(sum(a[0] * b[1] - b[0] * a[1] for a, b in zip(ring, ring[1:] + ring[:1]))) / 2


def sides(ring, angle):
    """The rectangle around the points in the frame that is turned by the angle: least X and Z, greatest X and Z."""
    some = [turned(p, angle) for p in ring]
    return (*map(min, zip(*some)), *map(max, zip(*some)))


def room(box):
    return (box[2] - box[0]) * (box[3] - box[1])


def least_angle(ring):
    """The angle, from 0 and below 90, of the rectangle of least area around the points: one of its sides is one of their hull."""
    ring = hull(ring)
    angles = {math.degrees(math.atan2(b[1] - a[1], b[0] - a[0])) % 90 % 90 for a, b in zip(ring, ring[1:] + ring[:1])}
    least = min(room(sides(ring, angle)) for angle in angles)
    return min(angle for angle in angles if room(sides(ring, angle)) <= least * (1 + 1e-9))


def crosses_itself(ring):
    """Whether two sides of a ring that don't follow each other cross."""
    edges = [*zip(ring, ring[1:] + ring[:1])]
    for k, (a, b) in enumerate(edges):
        for p, q in edges[k + 2 : len(edges) - (k == 0)]:
            if turn(a, b, p) * turn(a, b, q) < -1e-9 and turn(p, q, a) * turn(p, q, b) < -1e-9:
                return True
    return False


def skew(ring):
    """How many degrees a ring's corner that is the farthest from a right angle is off one; straight ones don't count."""
    found = [0.0]
    for p, q, r in zip(ring, ring[1:] + ring[:1], ring[2:] + ring[:2]):
        at = math.degrees(math.atan2(abs(turn(p, q, r)), (q[0] - p[0]) * (r[0] - q[0]) + (q[1] - p[1]) * (r[1] - q[1])))
        found += [abs(at - 90)] * (at > 30)
    return max(found)


def corners(box, angle):
    """The corners of a rectangle in the plane, in a ring."""
    x, z, far_x, far_z = box
    return [turned(p, -angle) for p in ((x, z), (far_x, z), (far_x, far_z), (x, far_z))]


def away(p, a, b):
    """How far a point is away from a segment."""
    wide, deep = b[0] - a[0], b[1] - a[1]
    part = ((p[0] - a[0]) * wide + (p[1] - a[1]) * deep) / ((wide * wide + deep * deep) or 1)
    part = max(0.0, min(1.0, part))
    return math.hypot(p[0] - a[0] - part * wide, p[1] - a[1] - part * deep)


def are_apart(ring, other):
    """Whether a side of the first ring parts two convex rings."""
    for a, b in zip(ring, ring[1:] + ring[:1]):
        if max(turn(a, b, p) for p in other) <= 1e-9:
            return True
    return False


def distance(ring, other):
    """How far two convex rings, each of which turns clockwise as drawn, are apart: 0 where they overlap or touch."""
    if not (are_apart(ring, other) or are_apart(other, ring)):
        return 0.0
    return min(
        away(p, a, b)
        for one, two in ((ring, other), (other, ring))
        for p in one
        for a, b in zip(two, two[1:] + two[:1])
    )
