"""A colour and perhaps a texture for each symbol, the same in each tool: from colours.json, and from a file of one's own.

A file of one's own is a JSON object that CGA_COLOURS names. A key is a symbol or a word in one, and its value a colour, as
"d6c4a4", or an object: {"colour": "b0695a", "material": "brick", "texture": "brick.jpg", "size": [2.4, 1.2]}. The texture lies
beside the file, and its size is the width and height in the town's unit that it covers; 1 by 1 if none is said. The material
is how the page draws the surface.
"""
import colorsys
import json
import os
import re
import zlib
from collections import namedtuple
from functools import lru_cache
from pathlib import Path

from .call import Refused, WrongFile
from .strangers_text import shown

VARIABLE = "CGA_COLOURS"
KNOWN = Path(__file__).parent / "colours.json"
SHORTEST_PART = 4  # so that a ship has no hip

MATERIALS = "plain plaster brick glass tile metal wood stone lawn water window".split()  # as the page numbers them

# red, green and blue, 0 to 255; a path or none; width and height; the name of a material
Look = namedtuple("Look", "colour texture size material")


def look_of(symbol):
    """How a symbol looks: by its whole name, else by its last word that is known, else by its bytes alone."""
    return looks_of(os.environ.get(VARIABLE) or None).of(symbol)


def colour_of(symbol):
    """Red, green and blue, 0 to 255."""
    return look_of(symbol).colour


def shade_of(symbol):
    """Red, green and blue, and the number of the material."""
    look = look_of(symbol)
    return [*look.colour, MATERIALS.index(look.material)]


def colour_files(own=None):
    """The file of colours of one's own, where there is one, and the textures that it names and that are there."""
    path = own or os.environ.get(VARIABLE)
    if not path:
        return []
    if not own and not os.path.isfile(path):
        raise WrongFile(
            f"{VARIABLE} names {shown(path)}, and no such file is there: name one that is, or take {VARIABLE} away"
        )
    textures = [str(look.texture) for look in looks_of(path).own.values() if look.texture]
    return [path, *filter(os.path.isfile, textures)]


class Looks:
    def __init__(self, own):
        self.own = {} if own is None else read(Path(own))
        self.words = {**read(KNOWN), **{name.lower(): look for name, look in self.own.items()}}

    def of(self, symbol):
        if symbol in self.own:
            return self.own[symbol]
        for word in reversed(re.findall("[a-z]+", symbol.lower())):
            known = self.word(word)
            if known:
                return self.words[known]
        return Look(colour_by_bytes(symbol), None, (1.0, 1.0), "plain")

    def word(self, word):
        """The known word that this one is or is the plural of, else one that it ends with, else the longest that is in it."""
        for whole in (word, word[:-1] if word.endswith("s") else word):
            if whole in self.words:
                return whole
        parts = [known for known in self.words if len(known) >= SHORTEST_PART and known in word]
        return max(parts, key=lambda known: (word.endswith(known), len(known), word.rindex(known)), default=None)


looks_of = lru_cache(maxsize=None)(Looks)


def read(path):
    """The looks that a file of colours tells."""
    try:
        told = json.loads(path.read_text(encoding="utf-8"))
    except UnicodeDecodeError:
        raise Refused(f'{path} isn\'t text in UTF-8: colours are a JSON file, such as {{"roof": "aa523c"}}') from None
    except ValueError as fault:
        raise Refused(f"{path} is no JSON: {fault}") from None
    if not isinstance(told, dict):
        raise Refused(f'{path} has to be an object of colours by words: {{"roof": "aa523c"}}')
    return {name: look(path, name, entry) for name, entry in told.items()}


def look(path, name, entry):
    entry = {"colour": entry} if isinstance(entry, str) else entry
    if not isinstance(entry, dict) or set(entry) - {"colour", "material", "texture", "size"}:
        raise Refused(f'{path}: "{name}" has a colour, or an object with colour, texture and size, and a material')
    colour, texture, size = entry.get("colour", "ffffff"), entry.get("texture"), entry.get("size", [1, 1])
    if not (isinstance(colour, str) and re.fullmatch("#?[0-9a-fA-F]{6}", colour)):
        raise Refused(f'{path}: the colour of "{name}" has to be six hexadecimal digits, as "aa523c"')
    if not (texture is None or isinstance(texture, str) and texture):
        raise Refused(f'{path}: the texture of "{name}" has to be the name of a picture beside the file')
    if not (isinstance(size, list) and len(size) == 2 and all(is_length(part) for part in size)):
        raise Refused(f'{path}: the size of "{name}" has to be a width and a height above 0, as [2.4, 1.2]')
    material = entry.get("material", "plain")
    if material not in MATERIALS:
        raise Refused(f'{path}: the material of "{name}" has to be one of {", ".join(MATERIALS)}')
    place = None if texture is None else path.parent / texture
    return Look(tuple(bytes.fromhex(colour.lstrip("#"))), place, tuple(map(float, size)), material)


def is_length(part):
    return isinstance(part, (int, float)) and not isinstance(part, bool) and 0 < part < 1e30


def colour_by_bytes(symbol):
    """A colour that only tells the symbol apart."""
    kind = zlib.crc32(symbol.encode("utf-8", "surrogateescape"))
    hue, light = kind % 360 / 360, 0.62 + kind // 360 % 4 * 0.06
    return tuple(round(255 * part) for part in colorsys.hls_to_rgb(hue, light, 0.28))
