"""The instances in an OBJ text. What a run printed is read solid by solid, and any other text line by line."""
from decimal import Decimal
from typing import Dict, List, NamedTuple, Optional, Tuple

from .call import Refused
from .forms import Faces, Form
from .instances import Corner, Instance, Lots
from .obj import MOST_PLACES, Solid, Town
from .progress import counted

RUN = "# cga_city obj\n"
FARTHEST = 10**12
Key = Tuple[object, ...]


class Irregular(ValueError):
    """The text isn't as a run prints it."""


class Read(NamedTuple):
    """What was read: the instances, the decimals of their coordinates, and the town where it was read line by line."""

    lots: Lots
    places: int
    town: Optional[Town] = None


def from_obj(text: str, path: str = "") -> Read:
    begin = text.rfind(RUN)
    if begin >= 0 and (begin == 0 or text[begin - 1] == "\n"):
        end = text.find("\n# ", begin + len(RUN) - 1)
        try:
            return Printout(text[begin + len(RUN) : end if end >= 0 else len(text)]).read()
        except (Irregular, ValueError, IndexError):
            pass  # it is read line by line, which tells what is wrong
    return from_town(Town(counted(text.split("\n"), "lines read", 0), path, FARTHEST))


class Forms:
    """The forms that were met, by their corners and faces; corners are whole steps of so many decimals."""

    def __init__(self, places: int) -> None:
        self.one, self.known = 10**places, {}

    def of(self, key: Key, faces: Faces, corners: Tuple[Tuple[int, int, int], ...]) -> Form:
        form = self.known.get(key)
        if form is None:
            form = self.known[key] = Form(faces, corners, self.one)
        return form


class Steps(Dict[str, int]):
    """Coordinates as whole steps of so many decimals, each text with as many at most."""

    def __init__(self, places: int) -> None:
        super().__init__()
        self.places = places

    def __missing__(self, text: str) -> int:
        head, _, tail = text.partition(".")
        if len(tail) > self.places or not (head + tail).lstrip("-").isdecimal():
            raise Irregular(text)
        number = int(head + tail.ljust(self.places, "0"))
        if abs(number) >= FARTHEST * 10**self.places:
            raise Irregular(text)
        self[text] = number
        return number


class Printout:
    """An OBJ text as a run prints it: each solid has its own vertices, in order."""

    def __init__(self, text: str) -> None:
        self.text, self.before = text, 0
        first = text.partition("\nv ")[2].partition("\n")[0].split(" ")[0]
        self.places = len(first.partition(".")[2])
        self.steps, self.forms = Steps(self.places), Forms(self.places)
        self.patterns: Dict[Tuple[int, ...], Faces] = {}
        self.kept: Dict[str, str] = {}

    def read(self) -> Read:
        if self.places > MOST_PLACES or not self.text.startswith(("o ", "")) or "\n\n" in self.text:
            raise Irregular
        lots: Lots = {}
        for lot in counted(("\n" + self.text.rstrip("\n")).split("\no ")[1:], "lots read", 0):
            name, *solids = lot.split("\ng ")
            lots.setdefault(name, []).extend([self.solid(solid) for solid in solids])
        return Read(lots, self.places)

    def solid(self, text: str) -> Instance:
        head, _, tail = text.partition("\nf ")
        symbol, *vertices = head.split("\nv ")
        words = " ".join(vertices).split(" ")
        if len(words) != 3 * len(vertices) or not tail:
            raise Irregular(text)
        steps, before = self.steps, self.before
        numbers = [steps[word] for word in words]
        x, y, z = numbers[:3]
        corners = tuple(
            zip([a - x for a in numbers[::3]], [a - y for a in numbers[1::3]], [a - z for a in numbers[2::3]])
        )
        pattern = tuple([at and at - before for at in map(int, tail.replace("\nf ", " 0 ").split(" "))])
        faces = self.patterns.get(pattern) or self.faces(pattern, len(vertices))
        self.before += len(vertices)
        keep = self.kept.setdefault
        corner: Corner = keep(words[0], words[0]), keep(words[1], words[1]), keep(words[2], words[2])
        return Instance(keep(symbol, symbol), self.forms.of((corners, faces), faces, corners), corner)

    def faces(self, pattern: Tuple[int, ...], number: int) -> Faces:
        """The faces in numbers from 1 with a 0 between two of them, which have to be those of the solid's own vertices."""
        found: List[List[int]] = [[]]
        for at in pattern:
            if at == 0:
                found.append([])
            else:
                found[-1].append(at - 1)
        if sorted({at for face in found for at in face}) != list(range(number)) or min(map(len, found)) < 3:
            raise Irregular
        self.patterns[pattern] = tuple(map(tuple, found))
        return self.patterns[pattern]


def from_town(town: Town) -> Read:
    """Of a text that was read line by line; a solid's own corners are those that its faces name."""
    places = max((decimals(part) for text in town.texts for part in text), default=0)
    if places > MOST_PLACES:
        raise Refused(f"{town.path}: a coordinate has {places} decimals, and at most {MOST_PLACES} are taken")
    steps = [whole(text, places) for text in town.texts]
    forms = Forms(places)
    lots = {lot: [instance(solid, town, steps, forms) for solid in solids] for lot, solids in town.lots.items()}
    return Read(lots, places, town)


def decimals(text: str) -> int:
    return len(text) - text.find(".") - 1 if "." in text else 0


def whole(text: Tuple[str, ...], places: int) -> Tuple[int, int, int]:
    """The coordinates of a vertex as whole steps."""
    x, y, z = map(Decimal, text)
    return steps_of(x, places), steps_of(y, places), steps_of(z, places)


def steps_of(number: Decimal, places: int) -> int:
    return int(number.scaleb(places).to_integral_value())


def instance(solid: Solid, town: Town, steps: List[Tuple[int, int, int]], forms: Forms) -> Instance:
    used = sorted({at for face in solid.faces for at in face})
    (x, y, z), place = steps[used[0]], {at: number for number, at in enumerate(used)}
    corners = tuple((steps[at][0] - x, steps[at][1] - y, steps[at][2] - z) for at in used)
    faces = tuple(tuple(place[at] for at in face) for face in solid.faces)
    a, b, c = town.texts[used[0]]
    return Instance(solid.symbol, forms.of((corners, faces), faces, corners), (a, b, c))
