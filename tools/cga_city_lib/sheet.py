"""A drawing to scale as SVG, in millimetres of paper: a title, a bar for the scale, and an arrow to the north."""
import math
from xml.sax.saxutils import escape

from .call import Refused
from .colours import colour_of
from .projection import INSIDE

SCALES = (20, 50, 100, 200, 500, 1000, 2000, 5000, 10000, 20000, 50000)
PAPER = (390.0, 250.0)  # the room for a drawing on A3
MARGIN, FOOT = 10.0, 24.0
LARGEST = 5000.0
CELLS = 2000
THIN, SEAM, THICK = 0.08, 0.2, 0.35  # the seam closes what lies between two fills that touch
INK = "#1a1a1a"
INSIDES = (236, 233, 226)
INKSCAPE = 'xmlns:inkscape="http://www.inkscape.org/namespaces/inkscape"'
LAYER = 'inkscape:groupmode="layer"'


def clean(text):
    """Text as XML takes it."""
    return escape("".join(letter for letter in text if letter.isprintable()), {'"': "&quot;"})


def scale_for(width, height, said):
    """The scale, and an end where the paper would be a wall."""
    scale = said or next(
        (some for some in SCALES if width * 1000 / some <= PAPER[0] and height * 1000 / some <= PAPER[1]), SCALES[-1]
    )
    if max(width, height) * 1000 / scale > LARGEST:
        raise Refused(
            f"1:{scale:g} makes a drawing of {max(width, height) / scale:.1f} metres of paper: say another --scale, as {SCALES[-1]}"
        )
    return scale


def short(number):
    text = f"{number:.2f}".rstrip("0").rstrip(".")
    return "0" if text == "-0" else text


class Texts(dict):
    """Numbers as they are written."""

    def __missing__(self, number):
        self[number] = text = short(number)
        return text


TEXTS = Texts()


class Sheet:
    """Lines of SVG; `place` says where a point of the town comes on paper. `name` stands in front of all ids."""

    name = ""

    def __init__(self, box, scale, title):
        self.box, self.mm, self.lines = box, 1000 / scale, []
        self.scale, self.title = scale, title
        self.width = max((box[2] - box[0]) * self.mm, 95.0, 2.6 * min(len(title), 100)) + 2 * MARGIN
        self.height = (box[3] - box[1]) * self.mm + 2 * MARGIN + FOOT
        self.left = (self.width - (box[2] - box[0]) * self.mm) / 2

    def place(self, point):
        return (point[0] - self.box[0]) * self.mm + self.left, (point[1] - self.box[1]) * self.mm + MARGIN

    def cells(self):
        """How many cells are looked at along the longer side, four for each millimetre."""
        return math.ceil(min(CELLS, 4 * self.mm * max(self.box[2] - self.box[0], self.box[3] - self.box[1]))) + 1

    def text(self, point):
        x, y = self.place(point)
        return f"{TEXTS[x]},{TEXTS[y]}"

    def path(self, points, is_closed):
        return "M" + " ".join(map(self.text, points)) + "Z" * is_closed

    def add(self, line):
        self.lines.append(line)

    def faces(self, faces, outlines):
        """What is behind the plane: a fill of each face, and its thin lines; faces of one look that follow each other are one path."""
        self.layer("seen", f'stroke-width="{THIN}" stroke-linejoin="round" stroke-linecap="round"')
        look, fills, lines = None, [], []
        for face, outline in zip(faces, outlines):
            if (tint(face), face.symbol) != look:
                self.flush(look, fills, lines)
                look, fills, lines = (tint(face), face.symbol), [], []
            fills.append(self.path(face.corners, True))
            lines += [self.path(segment, False) for segment in outline]
        self.flush(look, fills, lines)
        self.add("</g>")

    def layer(self, name, more=""):
        """Begins a layer, which programs for SVG list by its name."""
        self.add(f'<g id="{self.name}{clean(name)}" {LAYER} inkscape:label="{clean(name)}" {more}>')

    def flush(self, look, fills, lines):
        kind = f' class="{clean(look[1].strip())}"' if look and look[1].strip() else ""
        if fills:
            self.add(f'<path{kind} d="{"".join(fills)}" fill="{look[0]}" stroke="{look[0]}" stroke-width="{SEAM}"/>')
        if lines:
            self.add(f'<path{kind} d="{"".join(lines)}" fill="none" stroke="#555"/>')

    def cuts(self, cuts):
        """What the plane cuts: areas filled, and all of it with thick lines; a group for each symbol."""
        by_symbol = {}
        for cut in cuts:
            by_symbol.setdefault(cut.symbol, []).append(cut)
        self.layer("cut", f'stroke="{INK}" stroke-width="{THICK}" stroke-linejoin="round" stroke-linecap="round"')
        for symbol, some in by_symbol.items():
            fill = "#{:02x}{:02x}{:02x}".format(*(part * 3 // 4 for part in colour_of(symbol)))
            self.add(f'<g id="{self.name}cut.{clean(symbol)}" class="{clean(symbol)}">')
            for cut in some:
                self.add(f'<path d="{self.path(cut.points, cut.is_area)}" fill="{fill if cut.is_area else "none"}"/>')
            self.add("</g>")
        self.add("</g>")

    def ground(self, height):
        """A line along the ground, from side to side."""
        y = short(self.place((0, height))[1])
        left, right = short(MARGIN / 2), short(self.width - MARGIN / 2)
        self.add(f'<path d="M{left},{y} {right},{y}" stroke="{INK}" stroke-width="{1.4 * THICK:g}"/>')

    def label(self, point, text, size=2.5):
        x, y = map(short, self.place(point))
        self.add(
            f'<text x="{x}" y="{y}" font-size="{size}" text-anchor="middle" stroke="#fff" stroke-width=".5" paint-order="stroke">'
            f"{clean(text)}</text>"
        )

    def mark(self, a, b, names="AB"):
        """Where a section goes: a line of dashes with its ends, and to which side it looks."""
        (x, y), (u, v) = self.place(a), self.place(b)
        size = math.hypot(u - x, v - y) or 1
        right, down = (u - x) / size, (v - y) / size
        look = down, -right
        self.add(
            f'<path d="M{short(x)},{short(y)} {short(u)},{short(v)}" stroke="#b00" stroke-width=".35" stroke-dasharray="6 1.5 1 1.5"/>'
        )
        for at, name in ((x, y), names[0]), ((u, v), names[1]):
            tip = at[0] + 5 * look[0], at[1] + 5 * look[1]
            wings = [(at[0] + sign * 1.6 * right, at[1] + sign * 1.6 * down) for sign in (-1, 1)]
            self.add(f'<path d="M{" ".join(",".join(map(short, p)) for p in (tip, *wings))}Z" fill="#b00"/>')
            x, y = short(at[0] - 4 * look[0]), short(at[1] - 4 * look[1] + 1.2)
            self.add(f'<text x="{x}" y="{y}" font-size="4" text-anchor="middle" fill="#b00">{name}</text>')

    def north(self, degrees):
        """An arrow to the north, which is so many degrees clockwise from up."""
        x, y = self.width - MARGIN - 6, self.height - FOOT + 9
        self.add(
            f'<g transform="translate({short(x)} {short(y)}) rotate({short(degrees)})"><circle r="5" fill="none" stroke="{INK}" stroke-width=".2"/>'
            f'<path d="M0,-7 2.2,4 0,2.6 -2.2,4Z" fill="{INK}"/><text y="-8" font-size="3.5" text-anchor="middle">N</text></g>'
        )

    def foot(self, told):
        y = self.height - FOOT + 6
        self.add(
            f'<text x="{MARGIN}" y="{short(y)}" font-size="4.5" font-weight="bold">{clean(self.title[:100])}</text>'
        )
        self.add(f'<text x="{MARGIN}" y="{short(y + 5)}" font-size="3.2">{clean(told)}, 1:{self.scale:g}</text>')
        self.bar(y + 9)

    def bar(self, y):
        """A bar of five equal parts, of a round length that takes 25 to 62 millimetres."""
        lengths = (step * 10.0**power for power in range(-3, 7) for step in (1, 2, 5))
        part = next(length for length in lengths if 25 <= 5 * length * self.mm)
        wide = part * self.mm
        for k in range(5):
            place = f'x="{short(MARGIN + k * wide)}" y="{short(y)}" width="{short(wide)}" height="1.6"'
            self.add(f'<rect {place} fill="{(INK, "#fff")[k % 2]}" stroke="{INK}" stroke-width=".15"/>')
        for k in (0, 1, 5):
            unit = " m" if k == 5 else ""
            self.add(
                f'<text x="{short(MARGIN + k * wide)}" y="{short(y + 5)}" font-size="2.8" text-anchor="middle">{k * part:g}{unit}</text>'
            )

    def svg(self):
        size = f'width="{short(self.width)}mm" height="{short(self.height)}mm" viewBox="0 0 {short(self.width)} {short(self.height)}"'
        return "\n".join(
            [
                f'<svg xmlns="http://www.w3.org/2000/svg" {INKSCAPE} {size} font-family="Helvetica, Arial, sans-serif" fill="{INK}">',
                f"<title>{clean(self.title)}</title>",
                '<rect width="100%" height="100%" fill="#fff"/>',
                *self.lines,
                "</svg>",
                "",
            ]
        )


def tint(face):
    """The colour of a face behind the plane: paler than its symbol's, and by how it looks to a light from the upper left."""
    if face.symbol == INSIDE:
        return "#{:02x}{:02x}{:02x}".format(*INSIDES)
    light = 0.80 + 0.20 * max(0.0, (-0.45 * face.normal[0] - 0.45 * face.normal[1] + 0.77 * face.normal[2]))
    return "#{:02x}{:02x}{:02x}".format(
        *(min(255, int((0.55 * part + 0.45 * 255) * light)) for part in colour_of(face.symbol))
    )
