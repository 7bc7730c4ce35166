"""The files that a file imports: their rules and attributes, under the name of the import."""
import dataclasses
from pathlib import Path
from typing import Callable, List, Set, Tuple

from ..call import Refused
from ..given import is_binary, what_else
from .lost import FILE
from .tokens import Comment, Token, tokens_of
from .tree import Attribute, Declaration, Function, Name, Rule, Selected, Text, Unread

Read = Callable[[List[Token]], List[Declaration]]
MOST_FILES = 40
CALL = "give a file of CityEngine's rules, such as `Lot --> extrude(9) Mass`"
Part = object


def text_of(path: Path) -> str:
    try:
        return path.read_bytes().decode("utf-8-sig")
    except UnicodeDecodeError:
        raise Refused(f"{path} {not_text(path.read_bytes())}") from None


def not_text(data: bytes) -> str:
    """A predicate that says what a file is whose bytes are no text."""
    is_utf_16 = data[:2] in (b"\xff\xfe", b"\xfe\xff")
    return what_else(data, CALL) if is_binary(data) and not is_utf_16 else "isn't text in UTF-8: save it so"


def prefixed(part: Part, own: Set[str], prefix: str) -> Part:
    """A part of a tree, with the prefix before each name of the imported file's own."""
    if isinstance(part, Text):
        return part
    if isinstance(part, Selected):
        return part._replace(body=prefixed(part.body, own, prefix))
    if isinstance(part, Name):
        return Name(prefix + part.name) if part.name in own else part
    if isinstance(part, list):
        return [prefixed(one, own, prefix) for one in part]
    if isinstance(part, tuple):
        parts = [one if isinstance(one, str) else prefixed(one, own, prefix) for one in part]
        found = type(part)(*parts) if hasattr(part, "_fields") else tuple(parts)
        is_own = getattr(found, "name", None) in own
        return found._replace(name=prefix + found.name) if is_own else found
    if dataclasses.is_dataclass(part):
        return renamed(part, own, prefix)
    return part


def renamed(part: Part, own: Set[str], prefix: str) -> Part:
    """An item or a declaration with its parts renamed; a parameter isn't the file's own."""
    own = own - set(getattr(part, "parameters", []))
    values = {
        field.name: prefixed(value, own, prefix)
        for field in dataclasses.fields(part)
        for value in [getattr(part, field.name)]
        if not isinstance(value, (str, int)) and field.name not in ("parameters", "annotations")
    }
    name = getattr(part, "name", None)
    return dataclasses.replace(part, **values, **({"name": prefix + name} if name in own else {}))


class Files:
    """A file with all that it imports."""

    def __init__(self, read: Read) -> None:
        self.read, self.many = read, 0
        self.paths: List[Path] = []  # of those that were read

    def declared(self, path: Path, text: str) -> Tuple[List[Declaration], List[Comment]]:
        """What a file declares and what its imports do, with the comments of the file itself."""
        number = self.many
        self.many += 1
        self.paths.append(path)
        tokens, comments = tokens_of(str(path), text)
        tokens = [token._replace(line=token.line + number * FILE) for token in tokens]
        found: List[Declaration] = []
        for one in self.read(tokens):
            found += self.imported(path, one) if isinstance(one, Unread) and one.imports else [one]
        return found, comments

    def imported(self, path: Path, said: Unread) -> List[Declaration]:
        """The declarations of an imported file; the import itself where the file isn't there."""
        name, file = said.imports
        target = path.parent / file
        target = target if target.is_file() else path.parent / Path(file).name
        if not target.is_file() or self.many >= MOST_FILES:
            return [said]
        found, _ = self.declared(target, text_of(target))
        own = {one.name for one in found if isinstance(one, (Attribute, Function, Rule))}
        prefix = f"{name}." if name else ""
        said.reason = "the values in brackets aren't taken over" if "(" in said.written else ""
        return [said] + [one if isinstance(one, Unread) else prefixed(one, own, prefix) for one in found]
