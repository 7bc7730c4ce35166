"""Assets: how their lines are read, how they are fitted into scopes, and which symbols they dress."""
from dataclasses import dataclass, field
from typing import Dict

from .fault import Fault, Refused
from .fraction import ZERO, checked, decimal_of
from .frame import AXES, checked_point, world_point
from .lexer import is_long
from .reports import mesh_drawn, text_by
from .solid import SolidMesh

MOST_VERTICES, MOST_FACES, MOST_ASSETS, MOST_DRESSES = 10000, 10000, 64, 512
MOST_DRAWN_VERTICES, MOST_DRAWN_ENTRIES = 4000000, 16000000
PASSED_WORDS = ("o", "g", "s", "l", "vn", "vt", "vp", "usemtl", "mtllib")


# ---- words and lines


def words_of(line):
    return [word for word in line.replace("\t", " ").split(" ") if word]


def coordinate_of(word):
    """An optional minus, and a decimal; None for any other word."""
    value = decimal_of(word[1:] if word.startswith("-") else word)
    return None if value is None else -value if word.startswith("-") else value


def whole_of(digits):
    """What digits alone say; None for any other text, and for 0."""
    return int(digits) or None if digits and all(digit in "0123456789" for digit in digits) else None


def corner_of(before, word):
    """The number of a vertex, by the part before the first stroke; with a minus it is counted backwards over the vertices
    before the line."""
    text = word.split("/")[0]
    if not text.startswith("-"):
        return whole_of(text)
    back = whole_of(text[1:])
    return None if back is None or back > before else before + 1 - back


def vertex_of(words):
    """The first three words; further ones are passed over."""
    point = tuple(coordinate_of(word) for word in words[:3])
    return None if len(point) < 3 or None in point else point


def face_of(before, total, words):
    """3 to 64 corners, none past the number of the lines that begin with v."""
    corners = tuple(corner_of(before, word) for word in words)
    is_bad = not 3 <= len(corners) <= 64 or None in corners or any(corner > total for corner in corners)
    return None if is_bad else corners


def vertex_lines(lines):
    """How many lines begin with v, faulty ones and those past the limit among them."""
    return sum(not is_long(line) and words_of(line)[:1] == ["v"] for line in lines)


def with_line(total, line, vertices, faces):
    """Adds what a line says, or answers the code of its fault."""
    if is_long(line):
        return "LineTooLong"
    first, *words = words_of(line) or ["#"]
    if first.startswith("#") or first in PASSED_WORDS:
        return None
    if first == "v":
        return added(vertices, vertex_of(words), "BadVertex", MOST_VERTICES, "TooManyVertices")
    if first == "f":
        return added(faces, face_of(len(vertices), total, words), "BadFace", MOST_FACES, "TooManyFaces")
    return "UnknownLine"


def added(members, member, bad, most, too_many):
    if member is None:
        return bad
    if len(members) >= most:
        return too_many
    members.append(member)
    return None


def asset_of(lines):
    """The asset that lines state, or the first fault."""
    vertices, faces, total = [], [], vertex_lines(lines)
    for number, line in enumerate(lines, 1):
        code = with_line(total, line, vertices, faces)
        if code is not None:
            raise Refused(code, "at", number)
    if not faces:
        raise Refused("NoFace")
    return SolidMesh(tuple(vertices), tuple(faces))


# ---- fitting


def span_of(points, axis):
    """The least coordinate, and the difference between the greatest and it."""
    coordinates = [point[axis] for point in points]
    if not coordinates:
        return ZERO, ZERO
    return min(coordinates), checked(max(coordinates) - min(coordinates))


def local_of(span, size, at):
    """0 along a flat axis, and otherwise the share of the extent times the size."""
    low, extent = span
    return ZERO if extent == 0 else checked(checked(checked(at - low) / extent) * size)


def fit_of(asset, scope):
    spans = [span_of(asset.vertices, axis) for axis in AXES]
    vertices = []
    for point in asset.vertices:
        local = [local_of(spans[axis], scope.size[axis], point[axis]) for axis in AXES]
        vertices.append(checked_point(world_point(scope.at, scope.frame, local)))
    return SolidMesh(tuple(vertices), asset.faces)


# ---- what is dressed


@dataclass(frozen=True)
class Wardrobe:
    """Assets by name, and the names of the assets that symbols are drawn as."""

    assets: Dict = field(default_factory=dict)
    dresses: Dict = field(default_factory=dict)


def with_asset(wardrobe, name, asset):
    if name not in wardrobe.assets and len(wardrobe.assets) >= MOST_ASSETS:
        raise Refused("TooManyAssets")
    return Wardrobe({**wardrobe.assets, name: asset}, wardrobe.dresses)


def dressed(wardrobe, symbol, name):
    if name not in wardrobe.assets:
        raise Refused("NoAsset", name)
    if symbol not in wardrobe.dresses and len(wardrobe.dresses) >= MOST_DRESSES:
        raise Refused("TooManyDresses")
    return Wardrobe(wardrobe.assets, {**wardrobe.dresses, symbol: name})


def undressed(wardrobe, symbol):
    if symbol not in wardrobe.dresses:
        raise Refused("NoDress", symbol)
    return Wardrobe(wardrobe.assets, {other: name for other, name in wardrobe.dresses.items() if other != symbol})


def dressed_mesh(wardrobe, drawn):
    """The fitted asset, or the solid where its symbol isn't dressed or the fit is refused."""
    if drawn.symbol not in wardrobe.dresses:
        return mesh_drawn(drawn)
    try:
        return fit_of(wardrobe.assets[wardrobe.dresses[drawn.symbol]], drawn.scope)
    except Fault:
        return mesh_drawn(drawn)


def model_text_of(wardrobe, lots, drawn, decimals):
    vertices = entries = 0
    meshes = {}
    for each in drawn:
        mesh = meshes[each] = dressed_mesh(wardrobe, each)
        vertices += len(mesh.vertices)
        entries += sum(len(face) for face in mesh.faces)
    if vertices > MOST_DRAWN_VERTICES or entries > MOST_DRAWN_ENTRIES:
        raise Refused("ModelTooLarge")
    return text_by(lambda each: meshes[each], lots, drawn, decimals)
