"""Which groups of turned parcels come near to each other: they are worked apart, so that none sees another."""
from typing import Any, Iterator, List, Sequence, Tuple

from .rectangle import corners, distance

FEW = 3  # pairs that are told one by one


def spans(groups: Sequence[Any], reach: float) -> List[Tuple[Any, ...]]:
    """Each rectangle as a ring, with the place of its group, by where it begins along X."""
    found = []
    for number, group in enumerate(groups):
        for parcel, box in zip(group.parcels, group.boxes):
            ring = corners(box, group.angle)
            low, high = (tuple(f(some) for some in zip(*ring)) for f in (min, max))
            found.append((low[0] - reach, high[0] + reach, low[1] - reach, high[1] + reach, number, parcel, ring))
    return sorted(found, key=lambda span: span[0])


def near_pairs(groups: Sequence[Any], reach: float) -> List[Tuple[Any, Any, float, Any, Any]]:
    """For two groups the least distance that is below twice the reach, and the two parcels."""
    open_ones, nearest = [], {}
    for span in spans(groups, reach):
        open_ones = [other for other in open_ones if other[1] > span[0]]
        for other in open_ones:
            if other[4] == span[4] or other[2] >= span[3] or span[2] >= other[3]:
                continue
            first, second = sorted((other, span), key=lambda one: one[4])
            far = distance(first[6], second[6])
            if far < nearest.get((first[4], second[4]), (2 * reach,))[0]:
                nearest[first[4], second[4]] = far, first[5], second[5]
        open_ones.append(span)
    return [(groups[one], groups[two], *found) for (one, two), found in sorted(nearest.items())]


def sentences(groups: Sequence[Any], reach: float) -> Iterator[str]:
    pairs = near_pairs(groups, reach)
    if len(pairs) > FEW:
        one, two, _, parcel, other = min(pairs, key=lambda pair: pair[2])
        yield (
            f"parcels of {len(pairs):,} pairs of angles come nearer than {2 * reach:g}, and don't see each other by Scope.occ; the "
            f"nearest are `{parcel.name}` at {one.angle:g} and `{other.name}` at {two.angle:g} degrees; --reach says another distance"
        )
        return
    for one, two, far, parcel, other in pairs:
        how = f"come as near as {far:.2f}" if far >= 0.005 else "touch or overlap"
        yield (
            f"parcels at {one.angle:g} and at {two.angle:g} degrees {how} (`{parcel.name}`, `{other.name}`), and don't see each other "
            "by Scope.occ"
        )
