"""A drawing as DXF of release 12, which every program for drawings reads: lines and texts on layers, in units of the town."""
import re
from typing import Dict, Iterable, List, Sequence, Tuple

Point = Tuple[float, float]
COLOURS = {
    "CUT": 7,
    "SEEN": 8,
    "BORDERS": 1,
    "FRONTS": 5,
    "WATER": 4,
    "PARK": 3,
    "WOOD": 3,
    "NAMES": 7,
    "DIMENSIONS": 6,
    "HEIGHTS": 6,
}
GREY = 9
LONGEST = 31


def layer_name(*words: str) -> str:
    """A name as release 12 takes it."""
    return re.sub(r"[^A-Z0-9_$-]", "_", "_".join(words).upper())[:LONGEST] or "0"


def plain(text: str) -> str:
    """Text in ASCII: other letters by their code, as the format says."""
    return "".join(
        letter if " " <= letter <= "~" else f"\\U+{ord(letter):04X}" for letter in text if letter.isprintable()
    )


def number(value: float) -> str:
    return f"{value + 0.0:.6f}".rstrip("0").rstrip(".") if round(value, 6) else "0"


class Dxf:
    """Lines with Y upwards, where a drawing has V downwards."""

    def __init__(self) -> None:
        self.entities: List[str] = []
        self.layers: Dict[str, int] = {}
        self.ends: List[Point] = []

    def layer(self, name: str) -> str:
        self.layers.setdefault(name, COLOURS.get(name.split("_")[0], GREY))
        return name

    def add(self, kind: str, layer: str, *codes: Tuple[int, str]) -> None:
        self.entities += [
            part for code, value in ((0, kind), (8, self.layer(layer)), *codes) for part in (str(code), value)
        ]

    def at(self, point: Point, first: int = 10) -> List[Tuple[int, str]]:
        self.ends.append((point[0], -point[1]))
        return [(first, number(point[0])), (first + 10, number(-point[1])), (first + 20, "0")]

    def line(self, layer: str, p: Point, q: Point) -> None:
        self.add("LINE", layer, *self.at(p), *self.at(q, 11))

    def polyline(self, layer: str, points: Sequence[Point], is_closed: bool) -> None:
        self.add("POLYLINE", layer, (66, "1"), (10, "0"), (20, "0"), (30, "0"), (70, str(int(is_closed))))
        for point in points:
            self.add("VERTEX", layer, *self.at(point))
        self.add("SEQEND", layer)

    def text(self, layer: str, point: Point, text: str, height: float) -> None:
        middle = [(72, "1"), *self.at(point, 11), (73, "2")]
        self.add("TEXT", layer, *self.at(point), (40, number(height)), (1, plain(text)), *middle)

    def document(self) -> bytes:
        lines = [*self.header(), *self.tables(), *section("ENTITIES", self.entities), "0", "EOF", ""]
        return "\r\n".join(lines).encode("ascii", "replace")

    def header(self) -> List[str]:
        low, high = (tuple(map(pick, zip(*self.ends))) if self.ends else (0.0, 0.0) for pick in (min, max))
        ends = [("$EXTMIN", low), ("$EXTMAX", high)]
        told = [part for name, (x, y) in ends for part in ("9", name, "10", number(x), "20", number(y), "30", "0")]
        return section("HEADER", ["9", "$ACADVER", "1", "AC1009", *told])

    def tables(self) -> List[str]:
        types = [
            "0",
            "TABLE",
            "2",
            "LTYPE",
            "70",
            "1",
            "0",
            "LTYPE",
            "2",
            "CONTINUOUS",
            "70",
            "0",
            "3",
            "",
            "72",
            "65",
            "73",
            "0",
            "40",
            "0",
        ]
        layers = ["0", "TABLE", "2", "LAYER", "70", str(len(self.layers))]
        for name, colour in self.layers.items():
            layers += ["0", "LAYER", "2", name, "70", "0", "62", str(colour), "6", "CONTINUOUS"]
        return section("TABLES", [*types, "0", "ENDTAB", *layers, "0", "ENDTAB"])


def section(name: str, lines: Iterable[str]) -> List[str]:
    return ["0", "SECTION", "2", name, *lines, "0", "ENDSEC"]
