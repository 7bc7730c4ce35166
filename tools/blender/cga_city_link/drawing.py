"""What is drawn of each lot, kept by what each edit tells, or by the OBJ text where the program doesn't tell it."""
from collections import Counter
from functools import lru_cache

from cga_city_lib.obj import Town
from cga_city_lib.solids import FACES, corners, ridge_of


class ByChanges:
    """How often each instance of each lot is drawn, by the changes of cga_live."""

    def __init__(self):
        self.lots, self.stale = {}, []

    def begin(self):
        """Another program tells everything again; what stood before and isn't told again has gone."""
        self.lots, self.stale = {}, list(self.lots)

    def update(self, city):
        """The lots that are drawn otherwise than before, each as a list of solids: a symbol, corners and faces."""
        gone, come = city.changes()
        stale, self.stale = self.stale, []
        for each in come:
            self.lots.setdefault(each.lot, Counter())[each] += 1
        for each in gone:
            self.lots[each.lot][each] -= 1
        return {lot: self.solids(lot) for lot in dict.fromkeys([*stale, *(each.lot for each in [*gone, *come])])}

    def solids(self, lot):
        left = self.lots[lot] = +self.lots.get(lot, Counter())
        return [solid_of(each) for each in left]


@lru_cache(maxsize=None)
def shape_of(kind, w, h, d):
    """The faces, from 0, and the corners in a scope of this size, as floats."""
    ridge = ridge_of(kind, (w, h, d))
    return [[at - 1 for at in face] for face in FACES[kind, ridge]], [
        tuple(map(float, corner)) for corner in corners(kind, ridge, (w, h, d))
    ]


def solid_of(instance):
    faces, local = shape_of(instance.kind, *instance.size)
    at, axes = tuple(map(float, instance.corner)), instance.directions
    return (
        instance.symbol,
        [tuple(at[k] + sum(part * axis[k] for part, axis in zip(corner, axes)) for k in range(3)) for corner in local],
        faces,
    )


class ByText:
    """The texts of each lot's solids, as `print` writes them."""

    def __init__(self):
        self.lots = {}

    def begin(self):
        """Another program prints the whole town, which is compared with what was there."""

    def update(self, city):
        town = Town(city.obj().split("\n"))
        now = {lot: [(solid.symbol, *used_of(town, solid)) for solid in solids] for lot, solids in town.lots.items()}
        before, self.lots = self.lots, now
        return {lot: now.get(lot, []) for lot in dict.fromkeys([*before, *now]) if before.get(lot) != now.get(lot)}


def used_of(town, solid):
    """The corners of a solid, and its faces by their places among these."""
    used = sorted({at for face in solid.faces for at in face})
    places = {at: place for place, at in enumerate(used)}
    return [town.points[at] for at in used], [[places[at] for at in face] for face in solid.faces]
