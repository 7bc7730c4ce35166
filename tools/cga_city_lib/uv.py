"""Where a texture lies on a face: u along the ground and v up the face, in the town's unit, from one point for all faces.

So 1 of u or v is one unit on every face, however steep, and a texture runs on over all faces that lie in one plane.
"""
from functools import lru_cache
from typing import Iterable, List, Tuple

from .eye import cross, unit

Vector = Tuple[float, float, float]
LEVEL = 0.9999  # a face whose normal is this near to upright has no direction along the ground of its own


@lru_cache(maxsize=4096)
def directions(normal: Vector) -> Tuple[Vector, Vector]:
    """The directions of u and v on a face: u to the right as seen from outside, v up, or on a level face to the north, -Z."""
    if abs(normal[1]) > LEVEL:
        return (1.0, 0.0, 0.0), (0.0, 0.0, -1.0 if normal[1] > 0 else 1.0)
    u = unit(cross((0.0, 1.0, 0.0), normal))
    return u, cross(normal, u)


def uvs(points: Iterable[Vector], normal: Vector) -> List[Tuple[float, float]]:
    """u and v of each corner of a face."""
    (ux, uy, uz), (vx, vy, vz) = directions(normal)
    return [(x * ux + y * uy + z * uz, x * vx + y * vy + z * vz) for x, y, z in points]
