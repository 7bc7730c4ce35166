"""The town in what a run printed: its lots, their solids, and the symbols that drew these."""
from decimal import Decimal, InvalidOperation
from typing import Dict, Iterable, List, NamedTuple, NoReturn, Optional, Tuple

from .call import Refused
from .numerals import plain
from .progress import counted
from .strangers_text import told

PRINTED = 10**19  # each coordinate of the program is nearer to 0
MOST_PLACES = 20  # decimals of a coordinate; of one with an exponent the others are rounded
Texts = Tuple[str, ...]
Point = Tuple[float, ...]


class Solid(NamedTuple):
    symbol: str
    faces: List[List[int]]  # each face is a list of places in the town's vertices


class Town:
    """The last OBJ text of a run; a file that isn't one of a run is taken whole. A line that is wrong, or that has a vertex
    as far away as that, is refused with its place in the file of that name."""

    def __init__(self, lines: Iterable[str], path: str = "", farthest: int = PRINTED) -> None:
        self.path = path or "the OBJ text"
        self.texts: List[Texts] = []
        self.points: List[Point] = []
        self.lots: Dict[str, List[Solid]] = {}
        solids: Optional[List[Solid]] = None
        for number, line in enumerate(lines, 1):
            words = line.split()
            if line.startswith("# cga_city obj"):
                self.texts, self.points, self.lots, solids = [], [], {}, None
            elif not words or words[0] not in ("o", "g", "usemtl", "v", "f"):
                continue
            elif words[0] == "o":
                solids = self.lots.setdefault(" ".join(words[1:]), [])
            elif words[0] == "v":
                text = tuple(words[1:4])
                if "e" in line or "E" in line:
                    text = tuple(map(spelt, text))
                self.points.append(point_of(text, farthest) or wrong(self.path, number, line, no_vertex(farthest)))
                self.texts.append(text)
            else:
                if solids is None:
                    solids = self.lots.setdefault("", [])
                if words[0] == "f":
                    if not solids:
                        solids.append(Solid("", []))
                    solids[-1].faces.append(
                        self.face(words[1:]) or wrong(self.path, number, line, self.no_face(words[1:]))
                    )
                else:
                    solids.append(Solid(" ".join(words[1:]), []))
        self.lots = {lot: [solid for solid in solids if solid.faces] for lot, solids in self.lots.items()}

    def face(self, words: List[str]) -> List[int]:
        """Its vertices, from 0; nothing where it is none. A word has the number of one from 1, or backwards from -1, in front
        of a slash."""
        many = len(self.texts)
        try:
            numbers = [int(word.split("/")[0]) for word in words]
        except ValueError:
            return []
        if len(numbers) < 3 or not all(0 < number <= many or -many <= number < 0 for number in numbers):
            return []
        return [number - 1 if number > 0 else many + number for number in numbers]

    def no_face(self, words: List[str]) -> str:
        """Why it is none."""
        many, beyond = len(self.texts), [word for word in words if not self.face([word] * 3)]
        if len(words) < 3 or not all(word.split("/")[0].lstrip("-").isdecimal() for word in beyond):
            return "a face has the numbers of three vertices or more"
        return f"a face names vertex {beyond[0]}, and {many} {'stands' if many == 1 else 'stand'} before it"

    def solids(self) -> List[Solid]:
        return [solid for solids in self.lots.values() for solid in solids]

    def symbols(self) -> List[str]:
        """In the order in which they are drawn first."""
        return list(dict.fromkeys(solid.symbol for solid in self.solids()))

    def box(self) -> Tuple[Point, ...]:
        """The least and the greatest coordinate along each axis."""
        used = {at for solid in self.solids() for face in solid.faces for at in face}
        axes = list(zip(*[self.points[at] for at in used]))
        return tuple(map(min, axes)), tuple(map(max, axes))


def no_vertex(farthest: int) -> str:
    return f"a vertex has three numbers below {farthest:,}"


def spelt(word: str) -> str:
    """A coordinate without an exponent; as it is where it is none, or lies farther out than all that are taken."""
    try:
        number = Decimal(word)
    except InvalidOperation:
        return word
    return plain(Decimal(f"{number:.{MOST_PLACES}f}")) if number.is_finite() and number.adjusted() < 40 else word


def point_of(text: Texts, farthest: int) -> Point:
    """The numbers of a vertex; nothing where it is none."""
    try:
        point = tuple([float(word) for word in text])
    except ValueError:
        return ()
    return point if len(point) == 3 and all(-farthest < number < farthest for number in point) else ()


def wrong(path: str, number: int, line: str, why: str) -> NoReturn:
    raise Refused(f"{path}:{number}: `{told(line.strip())}`: {why}; mend the line, or print the town again")


def read_town(path: str) -> Town:
    with open(path, encoding="utf-8", errors="replace") as file:
        return Town(counted(file, "lines read", 0), path)
