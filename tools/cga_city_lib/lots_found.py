"""The lots of a map or of a table, with what had to be changed for it, in sentences."""
from collections import namedtuple

from .call import Refused
from .geojson import read_map
from .map_plane import Plane
from .lots_csv import lots_of
from .numerals import on_grid
from .parcel_overlaps import by_lot, overlaps, sentence
from .parcels import Group, groups, larger, parcels_of, renamed
from .program import MOST_LOTS
from .skipped import Skips
from .strangers_text import told

FEW_NAMES = 5  # so many are told one by one

# comment tells what the coordinates are; plane is the map's, town what is in it, and both are nothing of a table; overlaps has
# for a lot the area of its rectangle that others lie over
Found = namedtuple("Found", "groups comment sentences skips plane town overlaps")


def lots_found(word, roots):
    return (of_table if word.map.lower().endswith((".csv", ".tsv")) else of_map)(word, roots)


def of_table(word, roots):
    skips = Skips("line", word.strict)
    lots, rows = lots_of(word.map, roots, word.front, skips)
    changed = [(lot.place, lot.text, lot.name) for lot in lots if lot.text not in ("", lot.name)]
    group = Group(0, rows, [], lots)
    sentences = [*of_defaults(roots), *of_names(changed)]
    return Found([group], "coordinates are those of the table", sentences, skips, None, None, {})


def of_map(word, roots):
    skips = Skips("feature", word.strict)
    town = read_map(word.map, word.name, skips)
    plane = Plane(town, word.units, word.origin, word.swap, skips)
    parcels = parcels_of([plane.placed(feature) for feature in town.parcels], roots, word.front, skips)
    found = groups(parcels, [plane.placed(feature) for feature in town.streets], word, skips)
    comment = f"(0, 0) is {plane.told()}; coordinates are exact multiples of {on_grid(1, word.decimals)}"
    changed = [(f"feature {number}", text, name) for text, name, number in renamed(parcels)]
    sentences = [
        *plane.sentences,
        *of_others(town),
        *of_ground(town),
        *of_parts(parcels),
        *of_holes(parcels),
        *of_defaults(roots),
    ]
    pairs = list(overlaps(found))
    sentences += [*of_rectangles(found, word.fit), *sentence(pairs, word.fit), *of_names(changed)]
    return Found(found, comment, sentences, skips, plane, town, by_lot(pairs))


def of_others(town):
    if town.others:
        yield f"features that are neither polygons nor lines are passed over: {len(town.others)}, the first is feature {town.others[0]}"


def of_ground(town):
    some = town.areas + town.ways
    if some:
        number = min(feature.number for feature in some)
        yield f"features that are ground, such as water or a park, and no parcels: {len(some)}, the first is feature {number}"


def of_parts(parcels):
    parts = [parcel for parcel in parcels if parcel.part == 2]
    if parts:
        yield f"features of several polygons have a lot for each: {len(parts)}, the first is feature {parts[0].number}"


def of_holes(parcels):
    some = [parcel for parcel in parcels if parcel.holes]
    if some:
        yield (
            f"parcels with holes are taken by their outer ring: {len(some)}, the first is feature {some[0].number}; "
            "--list has their areas without the holes"
        )


def of_defaults(roots):
    if roots.replaced:
        yield f"values that aren't numbers, for which --default stands in: {roots.replaced}"


def of_names(changed):
    """Names that a script doesn't take: a few one by one, else how many."""
    if len(changed) > FEW_NAMES:
        place, text, name = changed[0]
        first = f"{place}, {told(text)}: lot `{name}`"
        yield f"names that a script doesn't take are changed: {len(changed):,}, the first is {first}; --list LIST.csv has all"
        return
    for place, text, name in changed:
        yield f"{place}, {told(text)}: lot `{name}`"


def of_rectangles(found, fit):
    how = "smaller" if fit == "inside" else "larger"
    much = sorted((part for part in larger(found) if abs(part[0]) > 0.1), key=lambda part: abs(part[0]), reverse=True)
    if much:
        part, parcel = much[0]
        yield (
            f"rectangles that are more than a tenth {how} than their parcels: {len(much)} of {sum(len(group.lots) for group in found)}; "
            f"that of feature {parcel.number} (`{parcel.name}`) is the most, by {abs(part):.0%}"
        )


def check_lots(found, is_region):
    for group in found:
        if len(group.lots) > MOST_LOTS and not is_region:
            raise Refused(
                f"{group.lots[MOST_LOTS].place}: is lot {MOST_LOTS + 1:,} at {group.angle:g} degrees, and a run takes {MOST_LOTS:,}: "
                "cut the map into parts, or say --region and cut the script by tools/districts"
            )


def chosen(found, angle, is_region):
    """The groups that a script is for: one, or all of a region."""
    if angle is not None:
        near = min(found, key=lambda group: min(abs(group.angle - angle), 90 - abs(group.angle - angle)))
        if abs(near.angle - angle) > 0.01:
            raise Refused(f"no parcel lies at {angle:g} degrees; the nearest are {len(near.lots)} at {near.angle:g}")
        return [near]
    if len(found) > 1 and not is_region:
        angles = ", ".join(f"{group.angle:g} ({len(group.lots)})" for group in found[:6])
        raise Refused(
            f"the parcels lie at {len(found)} angles, and a script has one: write the town by --town TOWN.obj, the script of one "
            f"by --angle, or one for tools/districts by --region. They are {angles}{', ..' * (len(found) > 6)} degrees; --tolerance takes near ones as one"
        )
    return found
