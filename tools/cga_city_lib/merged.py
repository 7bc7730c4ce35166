"""A town as the lines of an OBJ text with one mesh for each symbol of each lot, and a place in a texture for each corner."""
from fractions import Fraction
from operator import itemgetter
from typing import Callable, Dict, Iterable, Iterator, List, NamedTuple, Optional, Sequence, Tuple

from .exact import parted
from .eye import dot, normal
from .forms import Form
from .instances import Instance, Lots
from .numerals import fixed, rounded
from .progress import counted
from .setting import Setting
from .uv import directions

DECIMALS = 12  # of a coordinate that was moved; of an OBJ text none is rounded
Direction = Tuple[float, float, float]
Way = Tuple[Direction, float]  # a direction of u or v, and a form's own part along it


class Axis(Dict[Tuple[str, int, int], str]):
    """The texts of coordinates along an axis: of a corner's text and a part of a form over one. `places` is the number of
    decimals where nothing is moved."""

    def __init__(self, offset: Fraction, metres: Fraction, places: Optional[int]) -> None:
        super().__init__()
        self.offset, self.metres, self.places = offset, metres, places

    def __missing__(self, key: Tuple[str, int, int]) -> str:
        text, part, one = key
        upper, lower = parted(text)
        if self.places is not None:
            self[key] = fixed(upper * one + part * lower, lower * one, self.places)
        else:
            value = Fraction(upper, lower) + Fraction(part, one) - self.offset
            self[key] = rounded(value * self.metres, DECIMALS)
        return self[key]


class Texts(Dict[float, str]):
    """u or v as it is written."""

    def __missing__(self, number: float) -> str:
        text = f"{number:.4f}"
        self[number] = "0.0000" if text == "-0.0000" else text
        return self[number]


class Reals(Dict[str, float]):
    """Numbers of corners along an axis without the offset, by their texts."""

    def __init__(self, offset: Fraction) -> None:
        super().__init__()
        self.offset = offset

    def __missing__(self, text: str) -> float:
        upper, lower = parted(text)
        self[text] = float(Fraction(upper, lower) - self.offset)
        return self[text]


class Row(Dict[str, Tuple[str, ...]]):
    """What is written of corners whose coordinate along an axis has a text: one word for each of some parts."""

    def __init__(self, words: Callable[[str], Iterable[str]]) -> None:
        super().__init__()
        self.words = words

    def __missing__(self, text: str) -> Tuple[str, ...]:
        self[text] = tuple(self.words(text))
        return self[text]


class Maps(Dict[Tuple[str, str], str]):
    """The numbers of lines `vt`; `lines` has those that weren't written yet."""

    def __init__(self) -> None:
        super().__init__()
        self.lines: List[str] = []

    def __missing__(self, pair: Tuple[str, str]) -> str:
        self.lines.append("vt %s %s\n" % pair)
        self[pair] = number = str(len(self) + 1)
        return number


def axis_of(way: Direction) -> int:
    """The axis that a direction goes along; 3 where it goes along none."""
    used = [axis for axis in range(3) if way[axis]]
    return used[0] if len(used) == 1 and abs(way[used[0]]) == 1 else 3


class Shape:
    """What all solids of a form share: lines of vertices and faces to be filled in, and what fills them. `parts` are coordinates
    from the first corner on, each with its axis, and `ways` are directions of u or v with the form's own part along them.
    """

    def __init__(self, form: Form) -> None:
        self.one, self.number = form.one, len(form.corners)
        flat = [(axis, corner[axis]) for corner in form.corners for axis in range(3)]
        self.parts = sorted(set(flat))
        self.coordinates = itemgetter(*map(self.parts.index, flat))
        self.vertices = "v %s %s %s\n" * self.number
        self.corners = itemgetter(*[at for face in form.faces for at in face])
        self.faces = "".join("f" + " %s/%s" * len(face) + "\n" for face in form.faces)
        self.words = [""] * self.faces.count("%s")
        points, pairs = form.points(), ([], [])  # type: List[Direction], Tuple[List[Way], List[Way]]
        for face in form.faces:
            both = directions(normal(*[points[at] for at in face[:3]]))
            for at in face:
                for pair, way in zip(pairs, both):
                    pair.append((way, dot(way, points[at])))
        self.ways = sorted(dict.fromkeys(pairs[0] + pairs[1]), key=lambda way: axis_of(way[0]))
        self.us, self.vs = (itemgetter(*map(self.ways.index, pair)) for pair in pairs)

    def parts_of(self, axis: int) -> Tuple[int, ...]:
        return tuple(part for other, part in self.parts if other == axis)

    def ways_of(self, axis: int) -> Tuple[Way, ...]:
        return tuple(way for way in self.ways if axis_of(way[0]) == axis)


class Merged:
    """`meshes` counts those that were told."""

    def __init__(self, lots: Lots, places: int, setting: Setting) -> None:
        self.lots, self.meshes, self.setting = lots, 0, setting
        is_moved, metres = setting.metres != 1 or any(setting.offset), Fraction(setting.metres)
        self.axes = [Axis(Fraction(offset), metres, None if is_moved else places) for offset in setting.offset]
        self.reals = [Reals(Fraction(offset)) for offset in setting.offset]
        self.rows: Dict[Tuple[object, ...], Row] = {}
        self.known: Dict[Form, Known] = {}
        self.maps = Maps()
        self.texts = Texts()

    def row(self, key: Tuple[object, ...], words: Callable[[str], Iterable[str]]) -> Row:
        """The row of this key, which forms with the same parts share."""
        return self.rows.setdefault(key, Row(words))

    def coordinates(self, axis: int, parts: Tuple[int, ...], one: int) -> Row:
        texts = self.axes[axis]
        return self.row((axis, parts, one), lambda text: [texts[text, part, one] for part in parts])

    def places(self, axis: int, ways: Tuple[Way, ...]) -> Row:
        """u or v along an axis."""
        reals, texts, each = self.reals[axis], self.texts, [(way[axis], own) for way, own in ways]
        return self.row((axis, ways), lambda text: [texts[sign * reals[text] + own] for sign, own in each])

    def of(self, form: Form) -> "Known":
        found = self.known.get(form)
        if found is None:
            shape = Shape(form)
            coordinates = [self.coordinates(axis, shape.parts_of(axis), shape.one) for axis in range(3)]
            places = [self.places(axis, shape.ways_of(axis)) for axis in range(3)]
            found = self.known[form] = Known(shape, coordinates, places, shape.ways_of(3))
        return found

    def lines(self) -> Iterator[str]:
        """The vertices, then the faces by lot and symbol."""
        for instances in self.lots.values():
            yield "".join(map(self.vertices, instances))
        number = 1
        for lot, instances in counted(self.lots.items(), "lots"):
            yield f"o {lot or 'town'}\n"
            groups: Dict[str, List[Tuple[int, Instance]]] = {}
            for instance in instances:
                groups.setdefault(instance[0], []).append((number, instance))
                number += len(instance[1].corners)
            for symbol, some in groups.items():
                self.meshes += 1
                yield f"g {lot}.{symbol}\nusemtl {symbol or 'none'}\n"
                yield "".join([self.faces(first, instance) for first, instance in some])

    def vertices(self, instance: Instance) -> str:
        _, form, (x, y, z) = instance
        shape, (xs, ys, zs), _, _ = self.known.get(form) or self.of(form)
        return shape.vertices % shape.coordinates(xs[x] + ys[y] + zs[z])

    def faces(self, first: int, instance: Instance) -> str:
        """The lines `vt` that weren't written yet, and the lines of the faces."""
        _, form, (x, y, z) = instance
        shape, _, (xs, ys, zs), leaning = self.known[form]
        texts = xs[x] + ys[y] + zs[z]
        if leaning:
            texts += self.along(leaning, (x, y, z))
        words: List[str] = shape.words[:]
        words[1::2] = map(self.maps.__getitem__, zip(shape.us(texts), shape.vs(texts)))
        words[::2] = shape.corners(list(map(str, range(first, first + shape.number))))
        lines, self.maps.lines = self.maps.lines, []
        return "".join(lines) + shape.faces % tuple(words)

    def along(self, ways: Sequence[Way], corner: Sequence[str]) -> Tuple[str, ...]:
        """u or v of a corner for each of the ways that go along no axis."""
        x, y, z = (reals[text] for reals, text in zip(self.reals, corner))
        return tuple([self.texts[a * x + b * y + c * z + own] for (a, b, c), own in ways])


class Known(NamedTuple):
    """The shape of a form, the rows of its coordinates and of u and v by axis, and the ways of u and v along no axis."""

    shape: Shape
    coordinates: List[Row]
    places: List[Row]
    leaning: Tuple[Way, ...]
