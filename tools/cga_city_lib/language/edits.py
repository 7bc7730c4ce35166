"""Changes of a script: another name, another layout, other numbers of rules."""
from typing import Dict, List

from ..call import Refused
from ..layout import layout, numbered
from ..script import NAME, RESERVED
from .names import Found, at_place, names_of
from .text import Document

LONGEST = 32


def places(document: Document, at: int, byte: int) -> List[Found]:
    """All places of the name at a byte of a line."""
    wanted = at_place(document, at, byte)
    return [found for found in names_of(document) if wanted and found.is_same(wanted[0])]


def location(document: Document, found: Found) -> Dict:
    return {"uri": document.uri, "range": document.range(found.line, found.column, found.column + len(found.name))}


def renamed(document: Document, at: int, byte: int, name: str) -> Dict:
    """The edit by which a name becomes another one, everywhere; refused where it can't be one or is taken."""
    own = places(document, at, byte)
    if not own:
        raise Refused("no name stands here: symbols, attributes, parameters, lots and assets have other names")
    if not NAME.fullmatch(name) or len(name) > LONGEST:
        raise Refused(f"`{name}` is no name: a name has 1 to 32 letters, digits and `_`, and no digit first")
    if name in RESERVED:
        raise Refused(f"`{name}` is reserved")
    if any(clashes(found, own[0], name) for found in names_of(document)):
        raise Refused(f"`{name}` stands there already")
    edits = [{"range": location(document, found)["range"], "newText": name} for found in own]
    return {"changes": {document.uri: edits}}


def clashes(found: Found, own: Found, name: str) -> bool:
    """Whether the new name is that of another one that it can't be told from."""
    values = ("attribute", "parameter")
    is_alike = found.kind == own.kind or found.kind in values and own.kind in values
    is_elsewhere = "parameter" == found.kind == own.kind and found.line != own.line
    return found.name == name and is_alike and not is_elsewhere


def replaced(document: Document, lines: List[str]) -> List[Dict]:
    """The edit by which a script gets these lines; none where it has them."""
    text = "".join(f"{line}\n" for line in lines).encode("latin-1").decode("utf-8", "replace")
    return [] if text == document.text else [{"range": document.whole(), "newText": text}]


def formatted(document: Document) -> List[Dict]:
    return replaced(document, layout(document.lines))


def renumbered(document: Document) -> List[Dict]:
    return replaced(document, layout(numbered(document.lines)))
