"""The colours and textures that shapes have where the rules of a file set them."""
import re
from typing import List, NamedTuple, Optional

from .lost import Lost
from .tree import Value
from .values import Known


class Look(NamedTuple):
    """Six hexadecimal digits, and the name of a picture; nothing where it isn't set."""

    colour: str = ""
    texture: str = ""


PLAIN = Look()


def colour_of(known: Known, args: List[Value]) -> str:
    """The colour that `color` is given: a text, or red, green and blue from 0 to 1."""
    found = [known.settled(arg, True) for arg in args]
    if found and isinstance(found[0], str) and re.fullmatch("#?[0-9a-fA-F]{6}([0-9a-fA-F]{2})?", found[0]):
        return found[0].lstrip("#").lower()[:6]
    if len(found) >= 3 and all(part is not None and not isinstance(part, str) and 0 <= part <= 1 for part in found[:3]):
        return "".join(f"{round(255 * part):02x}" for part in found[:3])
    raise Lost("a symbol has one colour, and this one isn't known before a run")


def picture_of(known: Known, value: Value) -> str:
    found = known.settled(value, True)
    if isinstance(found, str) and found:
        return found
    raise Lost("a symbol has one texture, and this one isn't known before a run")


def entry(look: Look) -> Optional[object]:
    """What the file of colours says of a symbol; nothing where nothing was set."""
    if look.texture:
        return {"colour": look.colour or "ffffff", "texture": look.texture}
    return look.colour or None
