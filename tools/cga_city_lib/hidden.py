"""Which faces are seen, and an order in which each is drawn before those that hide parts of it."""
import heapq
import math
from array import array
from collections import defaultdict
from operator import itemgetter

from .eye import NOTHING, fill
from .progress import counted
from .projection import Face

NEAR = 1e-6
DOWN = itemgetter(1)
MOST_SPLITS = 20  # of one face: more are of no use to the eye


def extent(faces):
    """The least and the greatest U and V."""
    us = [p[0] for face in faces for p in face.corners]
    vs = [p[1] for face in faces for p in face.corners]
    return min(us), min(vs), max(us), max(vs)


def visible(faces, cells):
    """The faces that are the nearest in some cell of a grid with so many cells along its longer side."""
    low_u, low_v, high_u, high_v = extent(faces)
    scale = cells / max(high_u - low_u, high_v - low_v, NEAR)
    width, height = (math.ceil(scale * size) + 1 for size in (high_u - low_u, high_v - low_v))
    seen, near = array("l", [NOTHING]) * (width * height), [-1e30] * (width * height)
    for number, face in enumerate(counted(faces, "faces")):
        corners = [((u - low_u) * scale, (v - low_v) * scale, d * scale) for u, v, d in face.corners]
        for k in range(1, len(corners) - 1):
            fill(number, sorted((corners[0], corners[k], corners[k + 1]), key=DOWN), seen, near, width, height)
    return [faces[number] for number in sorted(set(seen) - {NOTHING})]


def heights(corners, face):
    """How far corners lie in front of the plane of a face."""
    u, v, d = face.corners[0]
    a, b, c = face.normal
    return [(p[0] - u) * a + (p[1] - v) * b + (p[2] - d) * c for p in corners]


def side(corners, face):
    """-1 where corners lie behind a face's plane or on it, 1 where in front of it, 2 on both sides, 0 all on it."""
    found = heights(corners, face)
    low, high = min(found) < -NEAR, max(found) > NEAR
    return 2 if low and high else high - low


def part_them(one, other):
    """Whether a side of the first outline parts two faces on paper; outlines that touch are parted."""
    ring = [(p[0], p[1]) for p in one.corners]
    turns = sum(a[0] * b[1] - b[0] * a[1] for a, b in zip(ring, ring[1:] + ring[:1]))
    for a, b in zip(ring, ring[1:] + ring[:1]):
        wide, deep = b[0] - a[0], b[1] - a[1]
        size = math.hypot(wide, deep)
        if size < NEAR:
            continue
        inside = 1 if turns > 0 else -1
        if all(inside * (wide * (p[1] - a[1]) - deep * (p[0] - a[0])) <= 10 * NEAR * size for p in other.corners):
            return True
    return False


def boxes(faces):
    return [extent((face,)) for face in faces]


def overlapping(faces):
    """The pairs of faces that overlap on paper, by a sweep along U."""
    found = boxes(faces)
    open_ones = []
    for number in counted(sorted(range(len(faces)), key=lambda k: found[k][0]), "faces that overlap"):
        box = found[number]
        open_ones = [other for other in open_ones if found[other][2] > box[0] + NEAR]
        for other in open_ones:
            if (
                found[other][1] < box[3] - NEAR
                and box[1] < found[other][3] - NEAR
                and not (part_them(faces[other], faces[number]) or part_them(faces[number], faces[other]))
            ):
                yield min(other, number), max(other, number)
        open_ones.append(number)


def first_of(one, other):
    """-1 where the first face is drawn first, 1 where the other is, 2 where they cross; 0 where they lie in one plane."""
    depths, others = [p[2] for p in one.corners], [p[2] for p in other.corners]
    if max(depths) < min(others) - NEAR or max(others) < min(depths) - NEAR:
        return -1 if max(depths) < min(others) else 1
    found, back = side(one.corners, other), side(other.corners, one)
    if found == 0 or back == 0:
        return 0 if found == back == 0 else found if found in (-1, 1) else -back if back in (-1, 1) else 0
    return found if found != 2 else -back if back != 2 else 2


def split(face, by):
    """The two parts of a face on both sides of the plane of another."""
    for sign in (1, -1):
        marked = [(*p, sign * height) for p, height in zip(face.corners, heights(face.corners, by))]
        kept = []
        for p, q in zip(marked, marked[1:] + marked[:1]):
            if p[3] <= 0:
                kept.append(p[:3])
            if (p[3] < 0 < q[3]) or (q[3] < 0 < p[3]):
                part = p[3] / (p[3] - q[3])
                kept.append(tuple(a + (b - a) * part for a, b in zip(p[:3], q[:3])))
        if len(kept) > 2:
            yield Face(kept, face.symbol, face.normal)


def uncrossed(faces):
    """The faces; of two that cross each other the smaller one is in parts."""
    crossed, sizes = defaultdict(list), [(far_u - u) * (far_v - v) for u, v, far_u, far_v in boxes(faces)]
    for one, other in overlapping(faces):
        if first_of(faces[one], faces[other]) == 2:
            small, large = sorted((one, other), key=lambda number: sizes[number])
            crossed[small].append(large)
    return [
        part
        for number, face in enumerate(faces)
        for part in parts_of(face, [faces[other] for other in crossed.get(number, ())])
    ]


def parts_of(face, others):
    parts = [face]
    for other in others[:MOST_SPLITS]:
        parts = [part for one in parts for part in (split(one, other) if side(one.corners, other) == 2 else [one])]
    return parts


def ordered(faces):
    """The faces, each behind those that it hides a part of."""
    faces = uncrossed(faces)
    above, waits = defaultdict(list), [0] * len(faces)
    for one, other in overlapping(faces):
        first = first_of(faces[one], faces[other])
        if first in (-1, 0, 1):
            low, high = (other, one) if first == 1 else (one, other)
            above[low].append(high)
            waits[high] += 1
    return [faces[number] for number in taken(faces, above, waits)]


def taken(faces, above, waits):
    """Places in an order that keeps what lies above what; in a ring of faces the farthest goes first."""
    depths = [min(p[2] for p in face.corners) for face in faces]
    free = [(depths[k], k) for k in range(len(faces)) if waits[k] == 0]
    rest, done = sorted((depth, k) for k, depth in enumerate(depths)), set()
    heapq.heapify(free)
    at = 0
    while len(done) < len(faces):
        while not free:
            if rest[at][1] not in done:
                free.append(rest[at])
            at += 1
        number = heapq.heappop(free)[1]
        if number in done:
            continue
        done.add(number)
        yield number
        for other in above[number]:
            waits[other] -= 1
            if waits[other] == 0:
                heapq.heappush(free, (depths[other], other))
