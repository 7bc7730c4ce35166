"""The corners of a part of a mesh of one's own as a file holds them: with its normals where it has some, else flat face by face."""
from array import array
from typing import Sequence, Tuple

from .corners import Corners
from .eye import dot, unit
from .own_mesh import Part, Point
from .uv import directions


def normal_of(points: Sequence[Point]) -> Point:
    """The normal of a face by all its corners; (0, 0, 0) where it has no area."""
    x = y = z = 0.0
    for (a, b, c), (d, e, f) in zip(points, [*points[1:], points[0]]):
        x, y, z = x + (b - e) * (c + f), y + (c - f) * (a + d), z + (a - d) * (b + e)
    return unit((x, y, z))


def corners_of(part: Part, points: Sequence[Point]) -> Corners:
    """The part with its corners at these points; its own normals are those in the box of size 1."""
    return smooth(part) if part.normals and points is part.corners else flat(part, points)


def smooth(part: Part) -> Corners:
    found = Corners()
    for point, normal in zip(part.corners, part.normals):
        found.places.extend(point)
        found.normals.extend(normal)
    found.maps.extend(number for pair in part.maps or [(0.0, 0.0)] * len(part.corners) for number in pair)
    found.number = len(part.corners)
    for face in part.faces:
        fan(found.triangles, 0, face)
    return found


def flat(part: Part, points: Sequence[Point]) -> Corners:
    found = Corners()
    for face in part.faces:
        corners = [points[at] for at in face]
        up = normal_of(corners)
        if up == (0.0, 0.0, 0.0):
            continue
        u, v = directions(up)
        for at, point in zip(face, corners):
            found.places.extend(point)
            found.normals.extend(up)
            found.maps.extend(part.maps[at] if part.maps else (dot(point, u), -dot(point, v)))
        fan(found.triangles, found.number, range(len(face)))
        found.number += len(face)
    return found


def fan(triangles: "array[int]", first: int, face: Sequence[int]) -> None:
    for k in range(1, len(face) - 1):
        triangles.extend((first + face[0], first + face[k], first + face[k + 1]))


def moved(found: Corners, by: Tuple[float, float, float]) -> Corners:
    """The corners, moved."""
    for axis in range(3):
        found.places[axis::3] = array("f", [part + by[axis] for part in found.places[axis::3]])
    return found
