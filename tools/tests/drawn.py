"""OBJ texts as the program prints them, of solids in scopes that aren't turned, by docs/LANGUAGE.md, "Solids"."""
from decimal import Decimal
from fractions import Fraction
from functools import lru_cache

# the corners of solids in a scope of size (1, 1, 1), and their faces
BASE = [(0, 0, 0), (1, 0, 0), (1, 0, 1), (0, 0, 1)]
SOLIDS = {
    "cube": (BASE + [(0, 1, 0), (1, 1, 0), (1, 1, 1), (0, 1, 1)], "4 3 7 8;3 2 6 7;2 1 5 6;1 4 8 5;8 7 6 5;1 2 3 4"),
    "shed": (BASE + [(1, 1, 1), (0, 1, 1)], "4 3 5 6;3 2 5;2 1 6 5;1 4 6;1 2 3 4"),
    "gable": (BASE + [(0, 1, 0.5), (1, 1, 0.5)], "4 3 6 5;3 2 6;2 1 5 6;1 4 5;1 2 3 4"),
    "hip": (BASE + [(0.5, 1, 0.5)], "4 3 5;3 2 5;2 1 5;1 4 5;1 2 3 4"),
    "quad": ([(0, 0, 0), (1, 0, 0), (1, 1, 0), (0, 1, 0)], "1 2 3 4"),
}


@lru_cache(maxsize=None)
def decimal(number, places):
    """A fraction as the program prints it: halves away from zero."""
    steps = int(abs(number) * 10**places + Fraction(1, 2))
    return f"{Decimal(-steps if number < 0 else steps).scaleb(-places):f}"


class Drawn:
    def __init__(self, places=6):
        self.lines, self.vertices, self.places = ["# cga_city obj"], 0, places

    def lot(self, name):
        self.lines.append(f"o {name}")
        return self

    def solid(self, symbol, kind, at, size):
        corners, faces = SOLIDS[kind]
        self.lines.append(f"g {symbol}")
        self.lines += [
            "v "
            + " ".join(
                decimal(Fraction(p) + Fraction(c) * Fraction(s), self.places) for p, c, s in zip(at, corner, size)
            )
            for corner in corners
        ]
        self.lines += [
            "f " + " ".join(str(self.vertices + int(word)) for word in face.split()) for face in faces.split(";")
        ]
        self.vertices += len(corners)
        return self
