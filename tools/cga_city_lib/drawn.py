"""What is drawn of a town as lines, each of which tells an instance: `LOT SYMBOL SOLID X Y Z AXES SX SY SZ`.

A solid of an OBJ text is told by its mesh in a box of size 1, and where that box stands; equal meshes have one name.
Names are written as in an address, so that a line always has ten words.
"""
from functools import lru_cache
from itertools import chain
from urllib.parse import quote

from .instances import Reals
from .own_drawn import own_form
from .places import stand_of
from .progress import counted

AXES = "+X+Y+Z"
FEW = 12  # corners up to which meshes that differ by a rounding of the sixth decimal are one


@lru_cache(maxsize=None)
def name_of(text):
    return quote(text, safe="") or "%00"


def number_of(value):
    """The shortest decimal that is read as the same number."""
    text = repr(value)
    return text[:-2] if text.endswith(".0") else text


def parts_of(axis, low, high):
    """Places along an axis as parts of the way from the least to the greatest; finer where a mesh has many corners."""
    if low == high:
        return [0] * len(axis)
    digits, span = 5 if len(axis) <= FEW else 9, high - low
    return [round((value - low) / span, digits) for value in axis]


class Meshes:
    """The meshes that were met so far, by their corners in a box of size 1 and their faces."""

    def __init__(self):
        self.names, self.told = {}, {}

    def name(self, corners, faces, tones=()):
        key = (corners, faces, tones)
        if key not in self.names:
            self.names[key] = f"mesh{len(self.names)}"
            more = {"tones": tones} if tones else {}
            self.told[self.names[key]] = {"corners": corners, "faces": faces, **more}
        return self.names[key]

    def line(self, lot, solid, points):
        """The line of a solid of a lot, whose faces name places in the points."""
        used = sorted(set(chain.from_iterable(solid.faces)))
        axes = list(zip(*[points[at] for at in used]))
        low, high = list(map(min, axes)), list(map(max, axes))
        corners = tuple(zip(*map(parts_of, axes, low, high)))
        places = {at: place for place, at in enumerate(used)}
        name = self.name(corners, tuple([tuple([places[at] for at in face]) for face in solid.faces]))
        size = [round(most - least, 9) for least, most in zip(low, high)]
        return " ".join([lot, name_of(solid.symbol), name, *map(number_of, low), AXES, *map(number_of, size)])

    def lines(self, town):
        drawn = [(lot, solid) for lot, solids in town.lots.items() for solid in solids]
        return [self.line(name_of(lot), solid, town.points) for lot, solid in counted(drawn, "solids")]

    def lines_of(self, lots, own={}):
        """The same of instances; those of a script are told as they came, and so are those of a symbol that has a mesh of one's
        own, if they are along the world's axes."""
        reals, known, lines = Reals(), {}, []
        for lot, instances in counted(lots.items(), "lots"):
            head = name_of(lot)
            for number, (symbol, form, corner) in enumerate(instances):
                if not form.scope and symbol in own:
                    told = known.get((form, symbol)) or known.setdefault(
                        (form, symbol), own_form(stand_of(lot, number, form), own[symbol])
                    )
                    lines.append(self.own_line(head, symbol, told, [reals[text] for text in corner]))
                elif form.scope:
                    x, y, z = corner
                    lines.append(f"{head} {name_of(symbol)} {form.scope.kind} {x} {y} {z} {form.scope.told}")
                else:
                    told = known.get(form) or known.setdefault(form, self.of_form(form))
                    name, low, size = told
                    place = [number_of(reals[text] + least) for text, least in zip(corner, low)]
                    lines.append(" ".join([head, name_of(symbol), name, *place, AXES, *size]))
        return lines

    def own_line(self, head, symbol, told, corner):
        """The line of a solid that a mesh of one's own stands for."""
        if told.words:
            return " ".join([head, name_of(symbol), told.kind, *map(number_of, corner), told.words])
        place = [number_of(at + least) for at, least in zip(corner, told.low)]
        name = self.name(told.corners, told.faces, told.tones)
        return " ".join([head, name_of(symbol), name, *place, AXES, *map(number_of, told.size)])

    def of_form(self, form):
        """The name of a form's mesh, its low corner from its first one on, and its size."""
        low, high = form.ends()
        corners = tuple(zip(*(parts_of(axis, a, b) for axis, a, b in zip(zip(*form.points()), low, high))))
        size = [number_of(round(most - least, 9)) for least, most in zip(low, high)]
        return self.name(corners, form.faces), low, size
