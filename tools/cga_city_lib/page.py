"""The page that shows a town and can be turned: as one file, or one that asks a preview for what to show."""
import base64
import json
import zlib
from pathlib import Path
from urllib.parse import unquote

from .colours import shade_of
from .drawn import Meshes
from .own_meshes import told_of
from .shown import Shown

VIEWER = Path(__file__).parent / "viewer"
SCRIPTS = [
    "gl",
    "camera",
    "meshes",
    "own_meshes",
    "town",
    "buffers",
    "light",
    "materials",
    "shaders",
    "picking",
    "glb_file",
    "tileset",
    "tiles",
    "tile_parts",
    "draw",
    "refine",
    "views",
    "panel",
    "variants",
    "lot",
    "scenes",
    "hands",
    "follow",
]


def colours_of(lines):
    """The colour and the material of each symbol in lines that tell instances, by the symbol as it stands there."""
    return {symbol: shade_of(unquote(symbol)) for symbol in {line.split(" ", 2)[1] for line in lines}}


def data_of(town, title, **head):
    """What the page is given of a town that doesn't change, and of what a script's comments keep for it."""
    meshes = Meshes()
    lines = meshes.lines(town)
    return packed(title, lines, meshes.told, **head)


def data_of_lots(lots, title, own, beside, **head):
    """The same of instances, with the meshes of one's own by symbol, and of a town that stands beside."""
    meshes = Meshes()
    lines = [*meshes.lines(beside), *meshes.lines_of(lots, own)]
    dress, told = told_of(own)
    return packed(title, lines, {**meshes.told, **told}, dress=dress, **head)


def packed(title, lines, meshes, **head):
    """What a page is told of lines that tell instances, as a preview tells it, packed and in letters."""
    shown = Shown(title)
    shown.replace((line.encode() for line in lines), meshes=meshes, colours=colours_of(lines), **head)
    return {"packed": base64.b64encode(zlib.compress(shown.after(""))).decode("ascii")}


def quoted(data):
    """Data as it may stand in a page, whatever names it has."""
    return json.dumps(data).replace("<", "\\u003c")


def page(data=None):
    """The page of a town's data, or with none the one that follows a preview."""
    script = "\n".join((VIEWER / f"{name}.js").read_text(encoding="utf-8") for name in SCRIPTS)
    text = (VIEWER / "page.html").read_text(encoding="utf-8").replace("/*SCRIPT*/", script)
    return text if data is None else text.replace("/*TOWN*/null", quoted(data))
