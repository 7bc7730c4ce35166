"""A town of which some solids are instances, as each format for engines takes it: ids, corners from the offset on, and units."""
import math
from typing import Callable, Iterable, Mapping, Optional, Sequence

from .instances import Instance, Reals
from .own_mesh import OwnMesh
from .setting import Setting
from .units import Found, Point, Units


class Instanced:
    """`names` has the ids of the instances of each lot; `is_instance` and `meshes` say which solids are instances, as Units does."""

    def __init__(
        self,
        names: Mapping[str, Sequence[str]],
        setting: Setting,
        is_instance: Callable[[str], bool],
        meshes: Mapping[str, OwnMesh],
    ) -> None:
        self.names, self.meshes, self.metres = names, meshes, float(setting.metres)
        self.offset, self.reals = tuple(map(float, setting.offset)), Reals()
        self.units = Units(is_instance, meshes)

    def corner(self, texts: Sequence[str]) -> Point:
        """A corner without the offset."""
        (x, y, z), reals, (a, b, c) = texts, self.reals, self.offset
        return reals[x] - a, reals[y] - b, reals[z] - c

    def found(self, lot: str, number: int, solid: Instance) -> Optional[Found]:
        """A lot's solid of that number, where it is an instance."""
        unit = self.units.of(lot, number, solid)
        return Found(self.names[lot][number], unit, self.corner(solid.corner)) if unit else None


def whole_low(axes: Iterable[Iterable[float]]) -> Point:
    """The least number of each axis, in whole units."""
    x, y, z = (float(math.floor(min(numbers))) for numbers in axes)
    return x, y, z
