"""The table "Solids" of docs/LANGUAGE.md, said again for the tests, and towns made of it."""
from itertools import permutations, product

BASE = [(0, 0, 0), (1, 0, 0), (1, 0, 1), (0, 0, 1)]  # in shares of width, height and depth
SOLIDS = {
    "cube": lambda w, h, d: (BASE + [(0, 1, 0), (1, 1, 0), (1, 1, 1), (0, 1, 1)], "4378 3267 2156 1485 8765 1234"),
    "shed": lambda w, h, d: (BASE + [(1, 1, 1), (0, 1, 1)], "4356 325 2165 146 1234"),
    "gable": lambda w, h, d: (BASE + [(0, 1, 0.5), (1, 1, 0.5)], "4365 326 2156 145 1234")
    if w >= d
    else (BASE + [(0.5, 1, 0), (0.5, 1, 1)], "436 3256 215 1465 1234"),
    "hip": lambda w, h, d: (BASE + [(d / w / 2, 1, 0.5), (1 - d / w / 2, 1, 0.5)], "4365 326 2156 145 1234")
    if w > d
    else (BASE + [(0.5, 1, w / d / 2), (0.5, 1, 1 - w / d / 2)], "436 3256 215 1465 1234")
    if w < d
    else (BASE + [(0.5, 1, 0.5)], "435 325 215 145 1234"),
    "quad": lambda w, h, d: ([(0, 0, 0), (1, 0, 0), (1, 1, 0), (0, 1, 0)], "1234"),
}


def local(kind, size):
    """The corners in a scope of this size, and the faces, from 0; the ridge goes by the sizes before they were printed."""
    shares, faces = SOLIDS[kind](*(round(part, 5) for part in size))
    return [tuple(a * b for a, b in zip(share, size)) for share in shares], [
        [int(at) - 1 for at in face] for face in faces.split()
    ]


def ridge(kind, size):
    w, _, d = size
    return {"gable": "x" if w >= d else "z", "hip": "x" if w > d else "z" if w < d else ""}.get(kind, "")


def turned(point, axes):
    return tuple(sum(part * axis[k] for part, axis in zip(point, axes)) for k in range(3))


def text(solids, decimals=6):
    """An OBJ text of solids, each as (lot, symbol, kind, corner, axes, size)."""
    lines, number, last = ["# cga_city obj"], 0, None
    for lot, symbol, kind, corner, axes, size in solids:
        lines += [f"o {lot}"] * (lot != last) + [f"g {symbol}"]
        last = lot
        points, faces = local(kind, size)
        for point in points:
            lines.append("v " + " ".join(f"{a + b:.{decimals}f}" for a, b in zip(turned(point, axes), corner)))
        lines += ["f " + " ".join(str(number + at + 1) for at in face) for face in faces]
        number += len(points)
    return "\n".join(lines) + "\n"


def frames():
    """The 24 frames: right-handed axes along the world's."""
    for order in permutations(range(3)):
        for signs in product((1, -1), repeat=3):
            axes = [tuple(signs[k] if at == order[k] else 0 for at in range(3)) for k in range(3)]
            (a, b, c), (d, e, f), (g, h, i) = axes
            if a * (e * i - f * h) - b * (d * i - f * g) + c * (d * h - e * g) > 0:
                yield axes
