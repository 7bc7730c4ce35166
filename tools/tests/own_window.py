"""A window of one's own in a place of a known town, with where its corners come, worked out by hand.

The place is a cube of size (10, 6, 8) at (2, 1, 3), turned by Ry(90): its X, Y and Z point along -Z, Y and X of the world. The
mesh is 2 wide, 4 high and 1 deep, so in the box of size 1 its corners are those below, and (x, y, z) of that box stands at
(2 + 8 z, 1 + 6 y, 3 - 10 x).
"""
import solid_table

UPRIGHT = [(1, 0, 0), (0, 1, 0), (0, 0, 1)]


def town(corner):
    """The place with its first corner there, and a wall beside it."""
    return solid_table.text(
        [
            ("a", "window", "cube", corner, [(0, 0, -1), (0, 1, 0), (1, 0, 0)], (10, 6, 8)),
            ("a", "wall", "quad", (0, 0, 0), UPRIGHT, (1, 1, 0)),
        ]
    )


TOWN = town((2, 1, 3))
OBJ = """mtllib window.mtl
o window
v 0 0 0
v 2 0 0
v 0 4 0
v 0 0 1
v 2 0 1
v 0 4 1
usemtl pane
f 1 2 3
usemtl frame
f 4 5 -1
"""
MTL = "newmtl pane\nKd 0.5 0.5 0.5\nd 0.25\nnewmtl frame\nKd 1 0 0\n"
STANDS = {
    "pane": [(2, 1, 3), (2, 1, -7), (2, 7, 3)],
    "frame": [(10, 1, 3), (10, 1, -7), (10, 7, 3)],
}
HALF = ((0.5 + 0.055) / 1.055) ** 2.4  # of light, by sRGB's curve


def put(folder):
    """Writes the town and the mesh into a folder."""
    for name, text in (("town.obj", TOWN), ("window.obj", OBJ), ("window.mtl", MTL)):
        (folder / name).write_text(text, encoding="utf-8")
