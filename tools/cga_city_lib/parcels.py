"""Parcels of a map as lots: rectangles around them, in groups of one angle, with coordinates on a grid."""
import math
from collections import namedtuple

from .call import Refused
from .fitting import angle_for, box_for
from .lot_list import COMPASS, OUTWARDS, Lot, named_side, seed_of
from .lot_names import lot_names
from .numerals import on_grid
from .progress import counted
from .rectangle import area, away, corners, crosses_itself, room, turned
from .skipped import place_of
from .streets import Streets

# ring is the parcel's and holes those within, in the plane of the map; call is how its root is called
Parcel = namedtuple("Parcel", "number part name text seed ring holes call side properties")
Group = namedtuple("Group", "angle parcels boxes lots")  # boxes in the frame that is turned by the angle


def clusters(values, tolerance):
    """For each value the middle of those that it is taken together with: from a least one up to the tolerance above it."""
    found, open_ones = {}, []
    for value in [*sorted(values), float("inf")]:
        if open_ones and value - open_ones[0] > tolerance:
            found.update(dict.fromkeys(open_ones, (open_ones[0] + open_ones[-1]) / 2))
            open_ones = []
        open_ones.append(value)
    return found


def shared_angles(angles, tolerance):
    """For each parcel the angle that it is taken to have; 89.99 and 0 degrees are as near as 0 and 0.01."""
    rising = sorted(set(angles))
    gaps = [(b - a, b) for a, b in zip(rising, rising[1:] + [rising[0] + 90])]
    first = max(gaps)[1] % 90
    middles = clusters([(angle - first) % 90 for angle in angles], tolerance)
    return [round((middles[(angle - first) % 90] + first) % 90, 3) % 90 for angle in angles]


def text_of(feature):
    """The name by the map; a further part of a feature has its number behind it."""
    return f"{feature.text} ({feature.part})" if feature.text and feature.part > 1 else feature.text


def plain_name(feature):
    return f"parcel_{feature.number}" + f"_{feature.part}" * (feature.part > 1)


def parcel_of(feature, text, roots, side):
    """A parcel that has no name of a lot yet."""
    properties, (ring, *holes) = feature.properties, feature.lines
    call, seed = roots.call(properties), seed_of(properties, feature.number)
    if area(ring) < 1e-6:
        raise Refused("the polygon has no area: its corners lie on one line, or its sides cross")
    if crosses_itself(ring):
        raise Refused("the polygon's sides cross each other: mend it (in QGIS: Fix geometries)")
    where = named_side(properties, side)
    return Parcel(feature.number, feature.part, "", text, seed, ring, holes, call, where, properties)


def place_key(parcel):
    """What two parcels share if they are one polygon."""
    return frozenset((round(x, 3), round(z, 3)) for x, z in parcel.ring)


def parcels_of(features, roots, side, skips):
    found, known = [], {}
    for feature in features:
        text = text_of(feature)
        parcel = skips.tried(feature.number, text, lambda: parcel_of(feature, text, roots, side))
        if parcel is None:
            continue
        first = known.setdefault(place_key(parcel), parcel)
        if first is parcel:
            found.append((feature, parcel))
        else:
            place = place_of("feature", first.number, first.text)
            skips.leave(feature.number, text, f"is the same polygon as {place}, and lies over it")
    skips.check(found)
    names = lot_names([parcel.text or plain_name(feature) for feature, parcel in found])
    return [parcel._replace(name=name) for (_, parcel), name in zip(found, names)]


def front(parcel, box, angle, streets):
    """How many quarter turns bring the front to the side at high Z: the nearest to a street, or the one that looks where it is said."""
    if parcel.side is None and streets.segments:
        ring = corners(box, angle)
        far_sides = (ring[2], ring[3]), (ring[1], ring[2]), (ring[0], ring[1]), (ring[3], ring[0])
        middles = [((a[0] + b[0]) / 2, (a[1] + b[1]) / 2) for a, b in far_sides]
        middle = tuple((a + b) / 2 for a, b in zip(ring[0], ring[2]))
        near = streets.near(middle, math.dist(middle, ring[0]))
        return min(range(4), key=lambda k: round(min(away(middles[k], *segment) for segment in near), 6))
    where = turned(parcel.side or COMPASS["south"], angle)
    return max(range(4), key=lambda k: round(sum(a * b for a, b in zip(OUTWARDS[k], where)), 9))


def snapped(boxes, snap, places):
    """The boxes with their sides on the grid, as whole numbers of its steps; sides that are as near as `snap` come to one."""
    steps = []
    for axis in (0, 1):
        middles = clusters([box[k] for box in boxes for k in (axis, axis + 2)], snap)
        steps.append({value: round(middle * 10**places) for value, middle in middles.items()})
    return [tuple(steps[k % 2][box[k]] for k in range(4)) for box in boxes]


def lot_of(parcel, box, on_steps, angle, streets, places):
    x, z, far_x, far_z = on_steps
    if far_x <= x or far_z <= z:
        raise Refused(f"is too small for a grid of {on_grid(1, places)}: say more --decimals, or a smaller --snap")
    ground = tuple(on_grid(number, places) for number in (x, z, far_x - x, far_z - z))
    place, turns = f"feature {parcel.number}", front(parcel, box, angle, streets)
    return Lot(place, parcel.name, parcel.text, parcel.seed, ground, parcel.call, turns)


def group(angle, parcels, streets, word, skips):
    boxes, kept = [box_for(parcel.ring, angle, word.fit, word.decimals) for parcel in parcels], []
    for parcel, box, steps in counted([*zip(parcels, boxes, snapped(boxes, word.snap, word.decimals))], "parcels"):
        lot = skips.tried(parcel.number, parcel.text, lambda: lot_of(parcel, box, steps, angle, streets, word.decimals))
        if lot is not None:
            kept.append((parcel, box, lot))
    return Group(angle, *map(list, zip(*kept))) if kept else None


def groups(parcels, streets, word, skips):
    """The parcels by their angles, the group of most parcels first."""
    streets, found = Streets(streets), {}
    angles = [angle_for(parcel.ring, word.fit, streets) for parcel in parcels]
    for parcel, angle in zip(parcels, shared_angles(angles, word.tolerance)):
        found.setdefault(angle, []).append(parcel)
    made = (
        group(angle, some, streets, word, skips)
        for angle, some in sorted(found.items(), key=lambda item: (-len(item[1]), item[0]))
    )
    kept = [some for some in made if some]
    skips.check(kept)
    return kept


def larger(found):
    """How much larger than its parcel each rectangle is, with the parcel; below 0 where it is smaller."""
    return [
        (room(box) / area(parcel.ring) - 1, parcel) for some in found for parcel, box in zip(some.parcels, some.boxes)
    ]


def renamed(parcels):
    return [(parcel.text, parcel.name, parcel.number) for parcel in parcels if parcel.text not in ("", parcel.name)]
