"""Pictures by the processor, pixel by pixel."""
import math
import sys
import tempfile
import unittest
import zlib
from pathlib import Path
from unittest.mock import patch

sys.path[:0] = [str(Path(__file__).resolve().parent.parent), str(Path(__file__).resolve().parent)]

from browser import CHROMIUM  # noqa: E402
from test_page import cubes  # noqa: E402
from cga_city_lib import by_browser  # noqa: E402
from cga_city_lib.colours import colour_of  # noqa: E402
from cga_city_lib.obj import Town  # noqa: E402
from cga_city_lib.page import data_of  # noqa: E402
from cga_city_lib.png import chunk  # noqa: E402
from cga_city_lib.png_palette import Picture, chunks, opened, reduced  # noqa: E402
from cga_city_lib.render import render, tone  # noqa: E402


def wall(turn, size=20):
    """A town of one upright wall that looks that many degrees from X towards Z, and its normal."""
    x, z = math.cos(math.radians(turn)), math.sin(math.radians(turn))
    corners = [(0, 0, 0), (-z * size, 0, x * size), (-z * size, size, x * size), (0, size, 0)]
    lines = ["o a", "g wall", *(f"v {' '.join(map(str, corner))}" for corner in corners), "f 1 2 3 4"]
    return Town(lines), (x, 0.0, z)


def pixels(rows):
    return {bytes(row[at : at + 3]) for row in rows for at in range(0, len(row), 3)}


def filtered(kind, row, above, step):
    """A row's bytes by a filter, as the PNG specification says it."""

    def guess(at):
        left, up, corner = (row[at - step] if at >= step else 0), above[at], above[at - step] if at >= step else 0
        paeth = min((left, up, corner), key=lambda one: abs(left + up - corner - one))
        return (0, left, up, (left + up) // 2, paeth)[kind]

    return bytes([kind, *((byte - guess(at)) % 256 for at, byte in enumerate(row))])


class Palette(unittest.TestCase):
    def test_each_filter_is_read(self):
        rows = [bytes((37 * at * at + 91 * row) % 256 for at in range(4 * 6)) for row in range(6)]
        data = b"".join(
            filtered(kind % 5, row, above, 4) for kind, (row, above) in enumerate(zip(rows, [bytes(24), *rows]))
        )
        head = (6).to_bytes(4, "big") * 2 + bytes([8, 6, 0, 0, 0])
        file = b"\x89PNG\r\n\x1a\n" + chunk(b"IHDR", head) + chunk(b"IDAT", zlib.compress(data)) + chunk(b"IEND", b"")
        wanted = b"".join(row[at : at + 3] for row in rows for at in range(0, 24, 4))
        self.assertEqual(opened(file), Picture(6, 6, wanted))

    def test_two_pictures_have_one_palette_and_a_frame_each(self):
        red, blue = Picture(2, 1, bytes([255, 0, 0, 0, 255, 0])), Picture(2, 1, bytes([0, 0, 255, 0, 255, 0]))
        found = list(chunks(reduced([red, blue], 1.5)))
        self.assertEqual([name for name, _ in found], b"IHDR acTL PLTE fcTL IDAT fcTL fdAT IEND".split())
        parts = [part for _, part in found]
        self.assertEqual([int.from_bytes(parts[at][:4], "big") for at in (3, 5, 6)], [0, 1, 2])
        self.assertEqual(parts[3][20:24], b"\x05\xdc\x03\xe8")
        colours = [parts[2][at : at + 3] for at in range(0, len(parts[2]), 3)]
        seen = [[colours[number] for number in zlib.decompress(packed)[1:]] for packed in (parts[4], parts[6][4:])]
        self.assertEqual(seen, [[b"\xff\0\0", b"\0\xff\0"], [b"\0\0\xff", b"\0\xff\0"]])


class Shadows(unittest.TestCase):
    def test_a_wall_that_the_sun_grazes_has_no_dots(self):
        # the sun comes from 124 degrees, so a wall at 37 looks away from it by 87, and one at 44 by 80
        for turn in (37, 44, 60):
            with self.subTest(turn):
                town, normal = wall(turn)
                with patch("cga_city_lib.render.SHADOWS", 200):
                    seen = pixels(render(town, "street", 60, 40))
                lit, unlit = (tone(colour_of("wall"), normal, is_lit) for is_lit in (True, False))
                self.assertIn(lit, seen)
                self.assertNotIn(unlit, seen)


class Drawers(unittest.TestCase):
    """Chromium and Python put things in the same places."""

    def places(self, rows, width):
        """Where the middle of the red, of the green and of the blue pixels is, as parts of the picture."""
        found = {}
        for y, row in enumerate(rows):
            for x in range(width):
                red, green, blue = row[3 * x : 3 * x + 3]
                for name, is_it in (
                    ("red", red > 1.5 * max(green, blue)),
                    ("green", green > 1.12 * max(red, blue)),
                    ("blue", blue > 1.25 * max(red, green)),
                ):
                    if is_it:
                        found.setdefault(name, []).append((x / width, y / len(rows)))
        return {name: [sum(axis) / len(axis) for axis in zip(*places)] for name, places in found.items()}

    @unittest.skipUnless(CHROMIUM, "Chromium isn't there")
    def test_both_draw_things_in_the_same_places(self):
        # the grey one is there since a page looks at the middle of the box of all, and Python at that of the points
        lots = (("r", 0, 0), ("g", 30, 0), ("b", 30, 30), ("grey", 0, 30))
        lines = [line for name, x, z in lots for line in cubes((x, 0, z, 12, 12, 12), symbol=name, lot=name)]
        at, numbered = 0, []
        for line in lines:
            at += 8 * (line[0] == "o") if numbered else 0
            numbered.append(
                "f " + " ".join(str(int(word) + at) for word in line.split()[1:]) if line[0] == "f" else line
            )
        with tempfile.TemporaryDirectory() as folder:
            own = Path(folder) / "own.json"
            own.write_text('{"r": "c02018", "g": "20a020", "b": "1030e0", "grey": "909090"}', encoding="utf-8")
            with patch.dict("os.environ", {"CGA_COLOURS": str(own)}):
                town = Town(numbered)
                for view, most in (("bird", 0.15), ("top", 0.02)):  # a page's bird sees in perspective
                    plain = self.places(render(town, view, 120, 90), 120)
                    data = by_browser.picture(data_of(town, "t"), view, (120, 90))
                    fine = self.places(unpacked(data, 120, 90), 120)
                    self.assertEqual(set(plain), {"red", "green", "blue"})
                    for name, place in plain.items():
                        self.assertLess(max(abs(a - b) for a, b in zip(place, fine[name])), most, (view, name))


def unpacked(data, width, height):
    """The rows of a PNG file of eight bits a part."""
    at, packed, kind = 8, b"", data[25]
    while at < len(data):
        size = int.from_bytes(data[at : at + 4], "big")
        packed += data[at + 8 : at + 8 + size] if data[at + 4 : at + 8] == b"IDAT" else b""
        at += size + 12
    step, flat, rows = {2: 3, 6: 4}[kind], zlib.decompress(packed), []
    above = bytearray(step * width)
    for y in range(height):
        begin = y * (step * width + 1)
        row = bytearray(flat[begin + 1 : begin + 1 + step * width])
        for k in range(len(row)):
            left, up = row[k - step] if k >= step else 0, above[k]
            corner = above[k - step] if k >= step else 0
            row[k] = row[k] + added(flat[begin], left, up, corner) & 255
        rows.append(b"".join(bytes(row[k : k + 3]) for k in range(0, len(row), step)))
        above = row
    return rows


def added(form, left, up, corner):
    """What a filter of PNG takes away from a byte."""
    if form == 4:
        guess = left + up - corner
        return min((left, up, corner), key=lambda one: abs(guess - one))
    return (0, left, up, (left + up) // 2)[form]


class Counted(list):
    asked = 0

    def __getitem__(self, at):
        self.asked += 1
        return super().__getitem__(at)


class Boxes(unittest.TestCase):
    def test_each_corner_is_looked_at_once(self):
        town = Town(["g a", "v 0 0 0", "v 1 0 0", "v 1 0 1", "v 0 2 1", *["f 1 2 3", "f 1 3 4", "f 1 2 4", "f 2 3 4"]])
        town.points = Counted(town.points)
        self.assertEqual(town.box(), ((0, 0, 0), (1, 2, 1)))
        self.assertEqual(town.points.asked, 4)

    def test_a_vertex_that_no_face_has_is_outside(self):
        town = Town(["g a", "v 9 9 9", "v 0 0 0", "v 1 0 0", "v 1 2 0", "f 2 3 4"])
        self.assertEqual(town.box(), ((0, 0, 0), (1, 2, 0)))


if __name__ == "__main__":
    unittest.main()
